"""Writes the seed inputs of the fuzz harness.

    python3 fuzz/seeds.py DIRECTORY

The stored cases of crates/replay (tools/cases.py says how they are laid out) are
cut apart; of the cases with the same kind, number and first two places the
smallest is kept, if it is small.  Each becomes two inputs: its bytes as they
are, and the same bytes to be repaired; both end with choices of images and lists
for the examiner.  Beside them stand strings of choices for the generator.
fuzz/cut.c reads the form.
"""

import os
import random
import sys

ROOT = os.path.join(os.path.dirname(os.path.abspath(__file__)), "..")
RAW, REPAIRED, GENERATED = 0, 1, 2
LINK, MAP_STEP = 1, 2
MOST_BYTES = 4_096
CHOICES, SEED = 96, 20_261_115


def u32(value):
    return value.to_bytes(4, "little")


def cases():
    """(header words, body, answer line) of each stored case"""
    with open(os.path.join(ROOT, "crates/replay/stdin"), "rb") as f:
        stream = f.read()
    with open(os.path.join(ROOT, "crates/replay/stdout"), encoding="ascii") as f:
        lines = f.read().splitlines()
    at = 0
    for line in lines:
        if " | " not in line:
            continue
        words = [int.from_bytes(stream[at + 4 * i:at + 4 * i + 4], "little") for i in range(24)]
        assert words[0] == 0x4B524142, at
        length = sum(words[2:10]) + words[13]
        yield words, stream[at + 96:at + 96 + length], line
        at += 96 + length
    assert at == len(stream), (at, len(stream))


def raw(way, words, body):
    """cut_raw of fuzz/cut.c"""
    step = words[1] in (LINK, MAP_STEP)
    root, k = (words[10], 0) if step else (0, words[10])
    outs = words[14:17] if step else [0, 0, 0]
    rows = 0 if step else words[14]
    numbers = words[2:10] + [root, words[11], words[12], k, words[13]] + outs + [rows]
    return bytes([way, 0]) + b"".join(u32(n) for n in numbers) + bytes([words[17]]) + body


def smallest():
    found = {}
    for words, body, line in cases():
        number = line.split()[2]
        places = line.split(" | ")[1][:16]
        key = (words[1], number, places if number != "0" else len(body) // 64)
        if len(body) <= MOST_BYTES and (key not in found or len(body) < len(found[key][1])):
            found[key] = (words, body)
    return found.values()


def main():
    directory = sys.argv[1]
    os.makedirs(directory, exist_ok=True)
    rng = random.Random(SEED)
    seeds = [raw(way, words, body) + rng.randbytes(8) for words, body in smallest() for way in (RAW, REPAIRED)]
    seeds += [bytes([GENERATED]) + rng.randbytes(rng.randint(20, 600)) for _ in range(CHOICES)]
    for i, seed in enumerate(seeds):
        with open(os.path.join(directory, f"{i:04}"), "wb") as f:
            f.write(seed)
    print(f"{len(seeds)} seeds, {sum(len(s) for s in seeds)} bytes")


main()
