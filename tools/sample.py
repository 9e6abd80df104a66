"""The sample objects that bark is shown on: a logger for the key device, and the same logger forged.

python3 tools/sample.py   writes examples/logger.tables and examples/forged.tables; by the independent model (tools/bark_model.py)
                          tests/logger.image and logger.pieces; by another linker (tools/elsewhere.py) an image of the logger
                          with its list, and the same image forged: examples/elsewhere.* and diverted.image; for the gate's
                          run crates/bark/data and stdout; and tests/bark, files that bark must turn down and an image
                          breadth-first, which tests/bark.sh runs

A tables file has eight u32 lengths, then the tables 1 to 8. The logger, as its source would read:

    section 2, .text                                    section 3, fentry/key_open
      row 0  check_caller   who opens the key             row 4  log_key_open   the root: runs at each opening
      row 1  append_entry   an entry into the ring
      row 2  seal_entry     the entry's seal
      row 3  on_entry       called back for each entry

log_key_open calls check_caller (a Section symbol), names on_entry as its callback (a function reference) and calls
append_entry (a Text symbol), which puts the ring's map (fd 7) into a register and calls seal_entry (no relocation).
"""
import os
import sys

sys.path.insert(0, os.path.dirname(os.path.abspath(__file__)))
import elsewhere  # noqa: E402
from bark_model import expected, image_file, mapped, tables_file  # noqa: E402
from objects import (OTHER, SECTION, TEXT, EXIT, Tables, call, code, func_record, function, insn,  # noqa: E402
                     line_record, map_row, relocation, symbol, u32, wide)

TEXT_SECTION, KEY_SECTION, MAPS_SECTION = 2, 3, 4
TEXT_SYMBOL, APPEND_SYMBOL, RING_SYMBOL = 1, 5, 6
RING_FD = 7
SOURCE = 1  # the file's number in the line records
ROOT = 4  # log_key_open


def move(to, value):
    return insn(0xB7, to, 0, value)


def copy(to, source):
    return insn(0xBF, 16 * source + to)


def helper(number):
    """A call of the kernel, which no link touches."""
    return insn(0x85, 0, 0, number)


def skip_if_zero(register, slots):
    return insn(0x15, register, slots, 0)


# Each function: its name, its slots, its function record's type, and its lines as (slot, line, column).
CHECK = ("check_caller", [helper(14), insn(0x77, 0, 0, 32), EXIT], 11, [(0, 12, 17), (1, 12, 5), (2, 13, 5)])
APPEND = ("append_entry",
          [copy(6, 1)] + wide(0x01, 0)
          + [move(2, 24), move(3, 0), helper(131), skip_if_zero(0, 3), copy(1, 0), call(2), helper(132), EXIT],
          12, [(0, 20, 1), (1, 21, 9), (6, 22, 9), (7, 24, 5), (9, 25, 5), (10, 26, 1)])
SEAL = ("seal_entry", [move(2, 1), insn(0x7B, 16 * 2 + 1, 16), EXIT], 13, [(0, 31, 5), (2, 32, 1)])
ON_ENTRY = ("on_entry", [move(0, 0), EXIT], 14, [(0, 36, 5)])
LOG = ("log_key_open",
       [copy(6, 1), call(-1), skip_if_zero(0, 4)]
       + wide(0x02, 0)
       + [copy(1, 6), call(-1), move(0, 0), EXIT],
       15, [(0, 40, 1), (1, 41, 9), (2, 42, 9), (3, 44, 5), (6, 45, 5), (7, 46, 5)])

IN_TEXT = [CHECK, APPEND, SEAL, ON_ENTRY]


def start_of(name):
    """A function's byte offset in .text."""
    at = 0
    for own, slots, _, _ in IN_TEXT:
        if own == name:
            return at
        at += 8 * len(slots)
    raise KeyError(name)


def logger():
    rows, slots, records, lines = [], [], [], []
    for name, body, kind, source in IN_TEXT + [LOG]:
        home = KEY_SECTION if name == "log_key_open" else TEXT_SECTION
        at = 0 if name == "log_key_open" else start_of(name)
        rows.append(function(home, len(body), at, at, 1, len(source)))
        slots += body
        records.append(func_record(0, kind))
        lines += [line_record(slot, SOURCE, line, column) for slot, line, column in source]
    o = Tables(
        codes=[code(TEXT_SECTION), code(KEY_SECTION)],
        symbols=[
            symbol(TEXT_SYMBOL, TEXT_SECTION, 0, SECTION),
            symbol(APPEND_SYMBOL, TEXT_SECTION, start_of("append_entry"), TEXT),
            symbol(RING_SYMBOL, MAPS_SECTION, 0, OTHER),
        ],
        functions=rows,
        relocations=[
            relocation(TEXT_SECTION, RING_SYMBOL, start_of("append_entry") + 8, 64),
            relocation(KEY_SECTION, TEXT_SYMBOL, 8, 32),
            relocation(KEY_SECTION, TEXT_SYMBOL, 24, 64),
            relocation(KEY_SECTION, APPEND_SYMBOL, 48, 32),
        ],
        maps=[map_row(MAPS_SECTION, RING_SYMBOL, RING_FD, 0)],
        instructions=slots,
        funcs=records,
        lines=lines,
    )
    first = len(CHECK[1]) + len(APPEND[1]) + len(SEAL[1]) + len(ON_ENTRY[1])
    o.rows[6][first + 3] = insn(0x18, 0x02, 0, start_of("on_entry"))
    return o


def forged():
    """append_entry's call of seal_entry goes one slot further: into the middle of it, where no function starts."""
    o = logger()
    o.rows[6][len(CHECK[1]) + 8] = call(3)
    return o


def calls_first():
    """log_key_open calls append_entry first, and check_caller last: depth-first and breadth-first then differ."""
    o = logger()
    o.put(4, 1, 4, u32(APPEND_SYMBOL))
    o.put(4, 3, 4, u32(TEXT_SYMBOL))
    return o


def shown(o, others, choose):
    """What another linker makes of an object, in this order: the runs, and the list."""
    image = elsewhere.Source(mapped(o)[2]).image(ROOT, others, choose)
    parts = image.parts()
    return [parts["i"], parts["f"], parts["l"]], parts["p"]


# append_entry, seal_entry, check_caller, on_entry, check_caller again: the call goes to the second
ORDER = [1, 2, 0, 3, 0]


def diverted(runs, pieces):
    """append_entry calls on_entry where it should call seal_entry: a function's start, but not of the right one."""
    start = {int.from_bytes(pieces[at:at + 4], "little"): int.from_bytes(pieces[at + 4:at + 8], "little")
             for at in range(0, len(pieces), 8)}
    here = start[1] + 8
    image = runs[0][:8 * here + 4] + u32(start[3] - here - 1) + runs[0][8 * here + 8:]
    return [image] + runs[1:]


def put(path, data):
    with open(path, "wb") as f:
        f.write(data)


def cases(folder):
    """Files that are no tables files, or that bark does not hold."""
    good = tables_file(logger())
    put(os.path.join(folder, "empty"), b"")
    put(os.path.join(folder, "short-lengths"), good[:20])
    put(os.path.join(folder, "short"), good[:-1])
    put(os.path.join(folder, "long"), good + b"\0")
    # the lengths do not add up to the file: table 6 is said to be 8 bytes longer than it is
    put(os.path.join(folder, "lengths"), good[:20] + u32(int.from_bytes(good[20:24], "little") + 8) + good[24:])
    large = logger()
    large.rows[6] += [EXIT] * 2000
    put(os.path.join(folder, "large"), tables_file(large))
    # what the library refuses, one file for a number
    broken = logger()
    broken.rows[2].reverse()
    put(os.path.join(folder, "refused-2"), tables_file(broken))
    unknown = logger()
    unknown.put(4, 0, 4, u32(9))
    put(os.path.join(folder, "refused-3"), tables_file(unknown))
    # a root of 800 slots that calls itself: its copy makes 1,600, and bark's image has room for 1,536
    twice = Tables(codes=[code(3)], functions=[function(3, 800, 0, 0)], instructions=[call(-1)] + [EXIT] * 799)
    put(os.path.join(folder, "refused-11"), tables_file(twice))
    stray = logger()
    stray.put(8, 4, 0, u32(11))
    put(os.path.join(folder, "refused-12"), tables_file(stray))
    # table 8 is a record shorter than table 3 says: the map step does not look at it
    fewer = logger()
    fewer.rows[8].pop()
    put(os.path.join(folder, "refused-2-lines"), tables_file(fewer))
    put(os.path.join(folder, "deep"), tables_file(calls_first()))
    near = elsewhere.Source(mapped(calls_first())[2]).breadth_first(ROOT)
    runs, pieces = shown(calls_first(), near, elsewhere.first_piece)
    put(os.path.join(folder, "breadth.image"), image_file(runs))
    put(os.path.join(folder, "breadth.pieces"), pieces)


def main():
    here = os.path.dirname(os.path.dirname(os.path.abspath(__file__)))
    put(os.path.join(here, "examples", "logger.tables"), tables_file(logger()))
    put(os.path.join(here, "examples", "forged.tables"), tables_file(forged()))
    put(os.path.join(here, "crates", "bark", "data", "logger.tables"), tables_file(logger()))
    _, said, image, pieces = expected(logger(), ROOT)
    put(os.path.join(here, "tests", "logger.image"), image)
    put(os.path.join(here, "tests", "logger.pieces"), pieces)
    runs, pieces = shown(logger(), ORDER, elsewhere.last_piece)
    put(os.path.join(here, "examples", "elsewhere.image"), image_file(runs))
    put(os.path.join(here, "examples", "elsewhere.pieces"), pieces)
    put(os.path.join(here, "examples", "diverted.image"), image_file(diverted(runs, pieces)))
    put(os.path.join(here, "crates", "bark", "stdout"), said.encode())
    cases(os.path.join(here, "tests", "bark"))


main()
