"""Cases of the map step.  See tools/cases.py."""

from objects import (EXIT, MOVE, NONE, OTHER, SECTION, TEXT, Tables, call, code, function, insn, map_row,
                     relocation, symbol, wide)

DATA = 20       # a section that is not code
LOW, HIGH = -2**31, 2**31 - 1


def load(immediate=4, address=16, maps=None, slots=None, kind=OTHER, symbol_section=DATA, codes=(1,), offset=0,
         size=64, symbols=None, next_immediate=0):
    """One function of section 1 at offset 0, one relocation, one symbol of index 5."""
    slots = wide(1, immediate, next_immediate) + [EXIT] if slots is None else slots
    symbols = [symbol(5, symbol_section, address, kind)] if symbols is None else symbols
    maps = [map_row(DATA, 5, 7, 1)] if maps is None else maps
    return Tables([code(c) for c in codes], symbols, [function(1, len(slots), 0, 0)],
                  [relocation(1, 5, offset, size)], maps, slots)


def worked(cases):
    """The map cases of document 01, with the bytes that it gives."""
    number, places, after = cases.map_step(load(), expect=(0, 1))
    assert after[:8] == bytes.fromhex("1821000007000000") and after[12:16] == bytes([20, 0, 0, 0])
    number, places, after = cases.map_step(load(maps=[map_row(DATA, 5, 7, 0)], next_immediate=99), expect=(0, 1))
    assert after[:8] == bytes.fromhex("1811000007000000") and after[8:16] == insn(0, 0, 0, 99)
    cases.map_step(load(2_147_483_640, 7), expect=(0, 1))
    cases.map_step(load(2_147_483_640, 8), expect=(7, 0, 0))


def sums(cases):
    """Immediates, addresses and file descriptors at their ends."""
    for immediate in (LOW, LOW + 1, -2, -1, 0, 1, 2, HIGH - 1, HIGH):
        for address in (0, 1, 2, HIGH - 1, HIGH, HIGH + 1, 2**32 - 1, 2**32, 2**32 + 1, 2**47, 2**48 - 1):
            cases.map_step(load(immediate, address))
    for address in (2**32 - 2, 2**32 - 1, 2**32):
        cases.map_step(load(LOW, address))
    for fd in (LOW, -1, 0, 1, 255, 256, HIGH):
        for has_data in (0, 1):
            cases.map_step(load(-8, 16, [map_row(DATA, 5, fd, has_data)], next_immediate=-1))
    # Without data a sum is not formed.
    cases.map_step(load(HIGH, 2**48 - 1, [map_row(DATA, 5, 7, 0)]), expect=(0, 1))
    # Each register byte keeps its low four bits.
    for register in (0x00, 0x0F, 0x10, 0x2A, 0xF0, 0xFF):
        for has_data in (0, 1):
            cases.map_step(load(slots=wide(register, 4), maps=[map_row(DATA, 5, 7, has_data)]))
    # The offset of a wide load is of no account, and stays.
    cases.map_step(load(slots=[insn(0x18, 1, -3, 4), insn(0, 0, 0, 9), EXIT]), expect=(0, 1))
    for size in (0, 32, 64, 255):
        cases.map_step(load(size=size), expect=(0, 1))


def refusals(cases):
    """3 to 7 and what is skipped, for a slot in the first function."""
    cases.map_step(load(symbols=[symbol(4, DATA, 0, OTHER), symbol(6, DATA, 0, OTHER)]), expect=(3, 0, 0))
    cases.map_step(load(symbols=[]), expect=(3, 0, 0))
    for offset in range(0, 33):
        # 3 slots: 24 bytes.
        cases.map_step(load(offset=offset))
        cases.map_step(load(offset=offset, symbols=[]))
    cases.map_step(load(symbol_section=NONE), expect=(0, 0))
    cases.map_step(load(symbol_section=NONE, kind=TEXT), expect=(0, 0))
    cases.map_step(load(symbol_section=1), expect=(0, 0))
    cases.map_step(load(symbol_section=1, kind=TEXT), expect=(0, 0))
    cases.map_step(load(codes=(1, DATA), kind=TEXT), expect=(0, 0))
    cases.map_step(load(codes=()), expect=(0, 1))
    cases.map_step(load(kind=TEXT), expect=(5, 0, 0))
    cases.map_step(load(kind=SECTION), expect=(0, 1))
    for maps in ([], [map_row(DATA, 4, 7, 1)], [map_row(21, NONE, 7, 1)], [map_row(DATA, 4, 7, 1), map_row(21, NONE, 8, 0)]):
        cases.map_step(load(maps=maps), expect=(5, 0, 0))
    # 4 before 3, 3 before 5, 5 before 6, 6 before 7.
    cases.map_step(load(offset=4, symbols=[]), expect=(4, 0, 0))
    cases.map_step(load(offset=15, symbol_section=NONE), expect=(4, 0, 1))
    cases.map_step(load(slots=[MOVE, EXIT], maps=[]), expect=(5, 0, 0))
    cases.map_step(load(slots=[MOVE, EXIT], kind=TEXT), expect=(5, 0, 0))
    cases.map_step(load(slots=[insn(0x18, 1, 0, HIGH), EXIT], address=99), expect=(6, 0, 0))


def shapes(cases):
    """Calls, wide loads, and slots that only look like them."""
    calls = [call(0), call(-1), insn(0x85, 0x10, 1, 0), insn(0x85, 0x10, 256, 0), insn(0x85, 0, 0, 0), insn(0x85, 0x11, 0, 0),
             insn(0x85, 0x20, 0, 0), insn(0x8D, 0x10, 0, 0), insn(0x84, 0x10, 0, 0), insn(5, 0x10, 0, 0)]
    for slot in calls:
        cases.map_step(load(slots=[slot, insn(0), EXIT]))
    for at in range(4):
        # The next slot is nothing but an immediate.
        cases.map_step(load(slots=[insn(0x18, 1, 0, 4), bytes(at) + b"\1" + bytes(7 - at), EXIT]), expect=(6, 0, 0))
    for at in range(4, 8):
        cases.map_step(load(slots=[insn(0x18, 1, 0, 4), bytes(at) + b"\xff" + bytes(7 - at), EXIT]), expect=(0, 1))
    for opcode in (0, 0x10, 0x19, 0x98, 0x85):
        cases.map_step(load(slots=[insn(opcode, 1, 0, 4), insn(0), EXIT]), expect=(6, 0, 0))
    # The last slot of a function has no next slot in it.
    cases.map_step(load(slots=[insn(0x18, 1, 0, 4)]), expect=(6, 0, 0))
    tables = load(slots=[insn(0x18, 1, 0, 4)])
    tables.rows[3] += [function(1, 2, 8, 8)]
    tables.rows[6] += [insn(0), EXIT]
    cases.map_step(tables, expect=(6, 0, 0))
    # The second slot of a wide load is no wide load.
    cases.map_step(load(offset=8), expect=(6, 0, 1))
    # A chain of openings: only a next slot of zeros makes a wide load.
    cases.map_step(load(slots=[insn(0x18, 1, 0, 4), insn(0x18, 1, 0, 4), insn(0)], offset=0), expect=(6, 0, 0))
    cases.map_step(load(slots=[insn(0x18, 1, 0, 4), insn(0x18, 1, 0, 4), insn(0)], offset=8), expect=(0, 1))


def finding(cases):
    """The map by its symbol, in any section, and else by section without a symbol."""
    by_symbol, by_section = map_row(33, 5, 100, 1), map_row(DATA, NONE, 200, 0)
    others = [map_row(DATA, 6, 300, 0), map_row(33, NONE, 400, 0), map_row(DATA, 0, 500, 1)]
    for maps in ([by_symbol], [by_section], [by_symbol, by_section], [by_section, by_symbol], others + [by_symbol],
                 others + [by_section], [by_section] + others, others + [by_section, by_symbol], others):
        cases.map_step(load(maps=maps))
        cases.map_step(load(maps=maps, kind=SECTION))
    # A map that names another symbol of the section is not the section's.
    cases.map_step(load(maps=[map_row(DATA, 6, 1, 0)]), expect=(5, 0, 0))
    # Symbol 0 and the largest.
    for index in (0, NONE - 1):
        tables = load(symbols=[symbol(index, DATA, 1, OTHER)], maps=[map_row(DATA, index, 9, 0)])
        tables.rows[4] = [relocation(1, index, 0, 64)]
        cases.map_step(tables, expect=(0, 1))


def several():
    """Four functions in three sections, with a map reference in each."""
    tables = Tables(
        [code(1), code(2), code(4)],
        [symbol(1, DATA, 100, OTHER), symbol(2, DATA + 1, 0, SECTION), symbol(3, 2, 0, TEXT), symbol(8, NONE, 0, OTHER)],
        [function(1, 4, 0, 0), function(1, 3, 32, 32), function(2, 3, 0, 64), function(4, 5, 8, 2**40)],
        [relocation(1, 1, 8, 64), relocation(1, 3, 24, 32), relocation(1, 2, 32, 64), relocation(2, 1, 72, 64),
         relocation(4, 8, 2**40, 64), relocation(4, 2, 2**40 + 8, 64), relocation(4, 1, 2**40 + 24, 64)],
        [map_row(DATA, 1, 31, 1), map_row(DATA + 1, NONE, 32, 0)],
        [MOVE] + wide(3, -50) + [call(9)] + wide(4, 7, 8) + [EXIT] + [MOVE] + wide(5, 6)
        + [MOVE] + wide(6, 1, 1) + wide(7, 2, 2))
    return tables


def later(cases):
    """Refusals in each function after references that could be applied."""
    cases.map_step(several(), expect=(0, 5))
    where = [(0, 0, 1, 8), (2, 1, 1, 32), (3, 2, 2, 72), (5, 3, 4, 2**40 + 8), (6, 3, 4, 2**40 + 24)]
    for row, at, section, offset in where:
        slot = offset - {0: 0, 1: 32, 2: 64, 3: 2**40}[at]
        tables = several()
        tables.rows[4][row] = relocation(section, 77, offset, 64)
        cases.map_step(tables, expect=(3, at, slot // 8))
        tables = several()
        tables.rows[4][row] = relocation(section, 1, offset + 3, 64)
        cases.map_step(tables, expect=(4, at, slot // 8))
        tables = several()
        tables.rows[4][row] = relocation(section, 1, offset + 8, 64)
        cases.map_step(tables)
        tables = several()
        tables.put(2, 2, 4, (50).to_bytes(4, "little"))
        tables.rows[4][row] = relocation(section, 3, offset, 64)
        cases.map_step(tables)
        tables = several()
        tables.rows[2].insert(3, symbol(4, DATA, 2**31 + 60, OTHER))
        tables.rows[5].append(map_row(3, 4, 5, 1))
        tables.rows[4][row] = relocation(section, 4, offset, 64)
        cases.map_step(tables)
        tables = several()
        tables.rows[5] = tables.rows[5][:1] if row % 2 else tables.rows[5][1:]
        cases.map_step(tables)


def overlapping(cases):
    """Functions whose bytes overlap share a relocation, and each applies it."""
    shared = Tables([code(1)], [symbol(5, DATA, 16, OTHER)], [function(1, 3, 0, 0), function(1, 3, 8, 0), function(1, 2, 16, 8)],
                    [relocation(1, 5, 8, 64)], [map_row(DATA, 5, 7, 1)],
                    [MOVE] + wide(1, 4) + [EXIT] + wide(2, 5) + wide(3, 6))
    cases.map_step(shared, expect=(0, 3))
    cases.map_step(shared.copy().put(6, 6, 0, b"\x19"), expect=(6, 2, 0))
    cases.map_step(shared.copy().put(6, 4, 0, b"\x19"), expect=(6, 1, 1))
    # The same bytes of another section are not touched.
    cases.map_step(shared.copy().put(3, 2, 0, b"\2"), expect=(0, 2))
    # An address that is not the section offset: offsets count.
    moved = load()
    moved.rows[3] = [function(1, 3, 0, 800)]
    for offset in (0, 792, 799, 800, 801, 808, 823, 824, 825):
        moved.rows[4] = [relocation(1, 5, offset, 64)]
        cases.map_step(moved)
    # At the end of what offsets allow.
    end = load()
    end.rows[3] = [function(1, 3, 0, 2**48 - 8)]
    for offset in (2**48 - 9, 2**48 - 8, 2**48 - 7, 2**48 - 1):
        end.rows[4] = [relocation(1, 5, offset, 64)]
        cases.map_step(end)


def limits(cases):
    """The most of everything: 64 functions, 1,024 symbols, relocations and 64 maps."""
    tables = Tables(
        [code(1_000 + i) for i in range(64)],
        [symbol(3 * i, 2_000 + i % 64, i, OTHER) for i in range(1_024)],
        [function(1_000 + i, 32, 0, 0) for i in range(64)],
        [relocation(1_000 + i // 16, 3 * (1_023 - i), 16 * (i % 16), 64) for i in range(1_024)],
        [map_row(2_000 + i, NONE if i % 2 else 3 * i, i - 5, i % 3 == 0) for i in range(64)],
        wide(1, -7) * (64 * 16))
    cases.map_step(tables)
    tables.rows[5] = [map_row(2_000 + i, NONE, i - 5, i % 3 == 0) for i in range(64)]
    cases.map_step(tables, expect=(0, 1_024))
    # The last relocation of all refused, and table 6 as it was.
    cases.map_step(tables.copy().put(6, 64 * 32 - 1, 0, b"\1"), expect=(6, 63, 30))


def make(cases):
    worked(cases)
    sums(cases)
    refusals(cases)
    shapes(cases)
    finding(cases)
    later(cases)
    overlapping(cases)
    limits(cases)
