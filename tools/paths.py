"""Makes the objects that the program crates/paths walks, and the paths.

    python3 tools/paths.py

writes crates/paths/stdin, the objects, and crates/paths/stdout, for each object
both paths as tools/model.py (the independent model of document 01's two steps)
and the two walks below have them.

The stream is little-endian.  An object starts with 4 u32: the length of its name,
the number of its answers, the root, and how many lines at most.  Then come the
name, the answers, 1 for yes, and a tables file as the tool bark reads one: eight
u32 lengths and the tables 1 to 8.  Each walk is lent four frames.

A line has the steps made; row, slot, depth and bytes of the source walk; slot,
depth and bytes of the image walk.  Where a walk does not stand it says why, and
the lines end.
"""

import os

import model
from objects import (EXIT, MOVE, OTHER, SECTION, TEXT, Tables, call, code, function, insn, map_row,
                     relocation, symbol, wide)


# ---------------------------------------------------------------- the walk of demand 3

def kind(opcode):
    """18 hex wide load; 05 jump by offset; 06 jump by immediate; 85 call byte; 95 exit;
    low three bits 5 or 6 with high four bits 1 to 7 or 10 to 13, conditional (44);
    other bytes of those two classes, unknown (16); the rest plain (191)."""
    named = {0x18: "wide", 0x05: "by offset", 0x06: "by immediate", 0x85: "call", 0x95: "exit"}
    if opcode in named:
        return named[opcode]
    if opcode & 7 in (5, 6):
        return "conditional" if opcode >> 4 in (1, 2, 3, 4, 5, 6, 7, 10, 11, 12, 13) else "unknown"
    return "plain"


def walk(slots_of, callee, first, answers, room):
    """The states, as (how, place, depth).  A place is (function, slot)."""
    place, stack, answers = first, [], list(answers)

    def inside(at):
        return 0 <= at[1] < len(slots_of(at[0]))

    if not inside(place):
        yield "left", None, 0
        return
    while True:
        yield "stands", place, len(stack)
        row, at = place
        slot = slots_of(row)[at]
        what = kind(slot[0])
        offset, imm = model.signed(slot, 2, 2), model.immediate(slot)
        if what == "call" and model.is_call(slot):
            # "A call pushes slot + 1 and enters the callee's first slot"
            to = callee(place)
            if to is None:
                yield "stopped", place, len(stack)
                return
            stack.append((row, at + 1))
            place = to
        elif what == "exit":
            # "Exit pops, or ends on an empty stack."
            if not stack:
                yield "ended", place, 0
                return
            place = stack.pop()
        elif what == "unknown" or (what == "conditional" and not answers):
            # "Unknown, or no answer left, stops."
            yield "stopped", place, len(stack)
            return
        else:
            jump = {"plain": 1, "call": 1, "wide": 2, "by offset": 1 + offset, "by immediate": 1 + imm}
            if what == "conditional":
                jump[what] = 1 + offset if answers.pop(0) else 1
            place = (row, at + jump[what])
        if not inside(place):
            yield "left", None, 0
            return
        if len(stack) > room:
            yield "no frame", None, 0
            return


# ---------------------------------------------------------------- the two grounds

def source_callee(linker, place):
    """finding each callee by section and address"""
    try:
        target = linker.target_of(*place)
    except model.Refused:
        return None
    for row, f in enumerate(linker.functions):
        if target is not None and (f.section, f.address) == tuple(target[:2]):
            return row, 0
    return None


def shown(how, place, depth, slot_at, numbers):
    if place is None:
        return "  " + how
    text = "".join("%5d" % n for n in numbers(place) + [depth]) + "  " + bytes(slot_at(place)).hex()
    return text if how == "stands" else text + "  " + how


def paths(tables, root, answers, limit):
    data = {k: tables.data(k) for k in range(1, 9)}
    number, _, mapped = model.map_step(*(data[k] for k in range(1, 7)))
    if number != 0:
        return ["the map step refuses"]
    given = [data[1], data[2], data[3], data[4], mapped, b"", b""]
    number, _, image, _, _ = model.link(*given, root, 1024, 8, 8)
    if number != 0:
        return ["the link refuses"]
    linker = model.Linker(*given, 1024, 8, 8)
    linker.start_with_root(root)
    slots = [image[8 * k:8 * k + 8] for k in range(len(linker.image))]
    source = model.Linker(*given, 1024, 8, 8)
    here = walk(lambda row: source.slots[row], lambda at: source_callee(source, at), (root, 0), answers, FRAMES)
    # "the image by displacement alone": "in the image slot + 1 + immediate"
    there = walk(lambda row: slots, lambda at: (0, at[1] + 1 + model.immediate(slots[at[1]])), (0, 0), answers, FRAMES)
    lines = [" step |  row slot depth bytes | slot depth bytes"]
    for k, (a, b) in enumerate(zip(here, there)):
        if k == limit:
            break
        left = shown(*a, lambda p: source.slots[p[0]][p[1]], lambda p: list(p))
        lines.append("%5d |" % k + left + " |" + shown(*b, lambda p: slots[p[1]], lambda p: [p[1]]))
    return lines


# ---------------------------------------------------------------- the objects

FRAMES = 4
YES, NO = 1, 0
IF_EQUAL = 0x15
CALLX = 0x8D


def when(offset):
    return insn(IF_EQUAL, 1, offset, 0)


def helper(k):
    """A call of a kernel function: a call byte with register byte 0."""
    return insn(0x85, 0, 0, k)


def logger():
    """Each opening of the key device: the root loads its map, asks, and calls the entry's writer, which is passed a reference."""
    root = wide(1, 0) + [helper(1), when(3), call(-1)] + wide(2, 0) + [EXIT]
    write = [MOVE, when(1), call(1), EXIT]
    flush = [MOVE, EXIT]
    return Tables(
        codes=[code(1), code(2)],
        symbols=[symbol(1, 2, 0, SECTION), symbol(2, 2, 32, TEXT), symbol(3, 9, 0, OTHER)],
        functions=[function(1, len(root), 0, 0), function(2, len(write), 0, 0), function(2, len(flush), 32, 32)],
        relocations=[relocation(1, 3, 0, 64), relocation(1, 1, 32, 32), relocation(1, 2, 40, 64)],
        maps=[map_row(9, 3, 5, 0)],
        instructions=root + write + flush)


def alone(slots, address=0):
    return Tables(codes=[code(1)], functions=[function(1, len(slots), address, address)], instructions=slots)


def mutual():
    """Each of two functions calls the other, until an answer says no."""
    first = [when(1), EXIT, call(2), MOVE, EXIT]
    second = [MOVE, call(-7), EXIT]
    return Tables(codes=[code(1)], functions=[function(1, 5, 0, 0), function(1, 3, 40, 40)], instructions=first + second)


def leaving():
    """A jump past the end of the root, where the image has the callee."""
    root = [call(2), insn(0x05, 0, 1, 0), EXIT]
    return Tables(codes=[code(1)], functions=[function(1, 3, 0, 0), function(1, 2, 24, 24)],
                  instructions=root + [MOVE, EXIT])


OBJECTS = [
    ("a logger: key opened, entry written and flushed", logger(), [NO, NO], 40),
    ("the same: no key, no entry", logger(), [YES], 40),
    ("the same, and no answer for the writer", logger(), [NO], 40),
    ("a root that calls itself", alone([call(-1), EXIT]), [], 40),
    ("two functions that call each other", mutual(), [YES, YES, NO], 40),
    ("the same, once too often", mutual(), [YES, YES, YES], 40),
    ("an opcode that is unknown", alone([MOVE, insn(CALLX, 1, 0, 0), EXIT]), [], 40),
    ("a root that leaves its function", leaving(), [], 40),
    ("a loop, cut short", alone([MOVE, insn(0x05, 0, -2, 0), EXIT]), [], 6),
]


def u32s(words):
    return b"".join(w.to_bytes(4, "little") for w in words)


def main():
    stream, lines = bytearray(), []
    for name, tables, answers, limit in OBJECTS:
        data = [tables.data(k) for k in range(1, 9)]
        words = [len(name), len(answers), 0, limit]
        stream += u32s(words) + name.encode() + bytes(answers) + u32s(map(len, data)) + b"".join(data)
        lines += [name] + paths(tables, 0, answers, limit) + [""]
    where = os.path.join(os.path.dirname(os.path.dirname(os.path.abspath(__file__))), "crates", "paths")
    with open(os.path.join(where, "stdin"), "wb") as out:
        out.write(stream)
    with open(os.path.join(where, "stdout"), "w") as out:
        out.write("\n".join(lines) + "\n")


if __name__ == "__main__":
    main()
