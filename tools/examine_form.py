"""The form of the examiner's cases, which tests/examine.c describes: bytes as text and back, changes of parts, and `replay`, which
reads a file of cases for tools/mutants.py.
"""

import os

TABLES = (1, 2, 3, 4, 6, 7, 8)
# The image, its function records, its line records, and the list.
SHOWN = ("i", "f", "l", "p")
HOME = os.path.join(os.path.dirname(os.path.abspath(__file__)), "..")
STORED = os.path.join(HOME, "tests", "examine.cases")


def u32(value):
    return (value % 2**32).to_bytes(4, "little")


def encoded(data):
    """Groups with a comma between them: HEX; HEX*N, N times; HEX^N:M, N rows of 8 bytes, the second number M more each time."""
    if len(data) > 64 and not any(data):
        return f"00*{len(data)}"
    groups, at, begun = [], 0, 0
    while at < len(data):
        times, unit, step = longest_run(data, at)
        if times * unit > 64:
            groups += [data[begun:at].hex()] if at > begun else []
            groups.append(f"{data[at:at + unit].hex()}" + (f"^{times}:{step}" if step else f"*{times}"))
            at += times * unit
            begun = at
        else:
            at += 8
    return ",".join(groups + ([data[begun:].hex()] if begun < len(data) or not groups else []))


def longest_run(data, at):
    """(times, bytes of the unit, step of the second number) of the longest run that starts here."""
    best = (1, 8, 0)
    for unit in (4, 8, 16, 24, 32):
        end = at + unit
        while data[end:end + unit] == data[at:at + unit] and len(data) >= end + unit:
            end += unit
        best = max(best, ((end - at) // unit, unit, 0), key=lambda run: run[0] * run[1])
    first, second = (int.from_bytes(data[at + i:at + i + 4], "little") for i in (4, 12))
    if second > first:
        times = 1
        while data[at + 8 * times:at + 8 * times + 8] == data[at:at + 4] + u32(first + times * (second - first)):
            times += 1
        best = max(best, (times, 8, second - first), key=lambda run: run[0] * run[1])
    return best


def decoded(text):
    out = b""
    for group in text.split(","):
        if "*" in group:
            unit, times = group.split("*")
            out += bytes.fromhex(unit) * int(times)
        elif "^" in group:
            unit, rest = group.split("^")
            unit, (times, step) = bytes.fromhex(unit), map(int, rest.split(":"))
            out += b"".join(unit[:4] + u32(int.from_bytes(unit[4:8], "little") + k * step) for k in range(times))
        else:
            out += bytes.fromhex(group)
    return out


def edits(old, new, keys):
    """PART@AT-CUT+HEX for each part that has changed."""
    out = []
    for key in keys:
        a, b = old[key], new[key]
        if a == b:
            continue
        front = len(os.path.commonprefix([a, b]))
        back = 0
        while back < min(len(a), len(b)) - front and a[-1 - back] == b[-1 - back]:
            back += 1
        out.append(f"{key}@{front}-{len(a) - front - back}+{encoded(b[front:len(b) - back])}")
    return out


def edited(parts, words):
    parts = dict(parts)
    for word in words:
        part, rest = word.split("@")
        at, rest = rest.split("-", 1)
        cut, text = rest.split("+", 1)
        key = int(part) if part.isdigit() else part
        at, cut = int(at), int(cut)
        parts[key] = parts[key][:at] + decoded(text) + parts[key][at + cut:]
    return parts


def replay(path):
    """(word, parts, numbers) of each case: numbers are root, number, places, and of a link the rooms; `parts` of a link are
    its tables."""
    parts = {}
    with open(path) as file:
        for line in file:
            word, _, numbers, words = line.rstrip("\n").split("|")
            numbers, words = tuple(map(int, numbers.split())), words.split()
            if word in ("object", "shown"):
                for item in words:
                    key, text = item.split("=")
                    parts[int(key) if key.isdigit() else key] = decoded(text)
            if word == "shown":
                yield word, dict(parts), numbers
            elif word in ("fault", "link"):
                yield word, edited(parts, [item for item in words if "@" in item]), numbers
