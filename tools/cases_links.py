"""Cases of the link.  See tools/cases.py."""

from objects import (EXIT, MOVE, NONE, OTHER, SECTION, TEXT, Tables, call, code, func_record, function, insn,
                     line_record, relocation, symbol, u32, wide)

LOW, HIGH = -2**31, 2**31 - 1


class Build:
    """Functions one after another in table 3, with their slots and records."""

    def __init__(self, codes=(1,), symbols=(), relocations=()):
        self.tables = Tables([code(c) for c in codes], symbols, [], relocations)

    def add(self, section, address, slots, funcs=(), lines=(), offset=None):
        offset = address - address % 8 if offset is None else offset
        self.tables.rows[3].append(function(section, len(slots), address, offset, len(funcs), len(lines)))
        self.tables.rows[6] += slots
        self.tables.rows[7] += [func_record(*record) for record in funcs]
        self.tables.rows[8] += [line_record(*record) for record in lines]
        return self


def slot(image, k):
    return image[8 * k:8 * k + 8]


def immediate(image, k):
    return int.from_bytes(image[8 * k + 4:8 * k + 8], "little", signed=True)


def worked_calls(cases):
    """The link cases of document 01, with the values that it gives."""
    one = Build((1, 2), [symbol(5, 1, 0, SECTION)], [relocation(2, 5, 0, 32)])
    one.add(1, 0, [EXIT]).add(2, 0, [call(-1), MOVE, EXIT])
    number, places, out = cases.link(one.tables, 1, expect=(0, 4, 0, 0))
    assert immediate(out[0], 0) == 2
    number, places, out = cases.link(Build().add(1, 0, [call(-1), EXIT]).tables, 0, (32, 0, 0), expect=(0, 4, 0, 0))
    assert out[0].hex() == "8510000001000000" "9500000000000000" "85100000ffffffff" "9500000000000000"
    deep = Build().add(1, 0, [call(2), call(4), EXIT]).add(1, 24, [call(1), EXIT]).add(1, 40, [EXIT]).add(1, 48, [EXIT])
    number, places, out = cases.link(deep.tables, 0, expect=(0, 7, 0, 0))
    assert [immediate(out[0], k) for k in (0, 1, 3)] == [2, 4, 1]
    same = Build((1, 2, 3), [symbol(5, 1, 0, TEXT), symbol(6, 2, 0, TEXT)], [relocation(3, 5, 0, 32), relocation(3, 6, 8, 32)])
    same.add(1, 0, [MOVE, EXIT]).add(2, 0, [EXIT]).add(3, 0, [call(0), call(0), EXIT])
    number, places, out = cases.link(same.tables, 2, expect=(0, 6, 0, 0))
    assert [immediate(out[0], k) for k in (0, 1)] == [2, 3]


def worked_rest(cases):
    wide_load = Build((1, 2), [symbol(5, 2, 0, SECTION)], [relocation(1, 5, 0, 64)])
    wide_load.add(1, 0, wide(1, 16) + [EXIT]).add(2, 16, [EXIT])
    number, places, out = cases.link(wide_load.tables, 0, expect=(0, 4, 0, 0))
    assert slot(out[0], 0).hex() == "1841000002000000"
    for slots, expect in (((10, 10, 11), (0, 5, 0, 3)), ((10, 12), (12, 1, 1)), ((10, 9), (12, 1, 1)),
                          ((10, 11, 9), (12, 1, 2)), ((10, 11, 12), (12, 1, 2)), ((0, NONE), (12, 1, 1)), ((NONE, 0), (12, 1, 1)),
                          ((NONE, NONE), (0, 5, 0, 2)), ((10,), (0, 5, 0, 1)), ((10, 12, 9), (12, 1, 1))):
        lines = Build().add(1, 0, [call(2), MOVE, EXIT])
        lines.add(1, 24, [MOVE, EXIT], [], [(s, 7, 8, 9) for s in slots])
        number, places, out = cases.link(lines.tables, 0, expect=expect)
        if slots == (10, 10, 11):
            assert [int.from_bytes(out[2][i:i + 4], "little") for i in (0, 16, 32)] == [3, 3, 4]
    for slots in (4_095, 4_096, 4_097):
        root = Build().add(1, 0, [call(slots - 2)] + [EXIT] * (slots - 2)).add(1, 8 * (slots - 1), [EXIT])
        cases.link(root.tables, 0, expect=(0, slots, 0, 0) if slots <= 4_096 else (11, 1, 0))


def shapes(cases):
    """Chains, recursion, and the order in which functions are appended."""
    chain = Build()
    for i in range(64):
        chain.add(1, 16 * i, [call(1) if i < 63 else MOVE, EXIT], [(3, i)], [(5, i, i, i), (6, i, i, i)])
    cases.link(chain.tables, 0, expect=(0, 128, 64, 128))
    cases.link(chain.tables, 63, expect=(0, 2, 1, 2))
    back = chain.tables.copy()
    back.rows[6][126] = call(-127)
    cases.link(back, 0, (2_200, 600, 2_200), expect=(0, 130, 65, 130))
    cases.link(back, 40, (2_200, 600, 2_200), expect=(0, 130, 65, 130))
    mutual = Build().add(1, 0, [call(1), EXIT]).add(1, 16, [call(1), EXIT]).add(1, 32, [call(-3), EXIT])
    for root in range(3):
        cases.link(mutual.tables, root)
    itself = Build().add(1, 0, [MOVE, call(-2), call(-3), EXIT], [(0, 1)], [(4, 1, 2, 3)])
    cases.link(itself.tables, 0, expect=(0, 8, 2, 2))
    fan = Build().add(1, 0, [call(7), call(4), call(3), call(2), call(5), EXIT]).add(1, 48, [call(1), EXIT]).add(1, 64, [EXIT])
    fan.add(1, 72, [call(-2), call(-3), EXIT])
    for root in range(4):
        cases.link(fan.tables, root)
    # Each calls the next two: the first call goes to its depth before the second.
    twos = Build()
    for i in range(10):
        twos.add(1, 24 * i, [call(2), call(4), EXIT] if i < 8 else [MOVE, MOVE, EXIT], [(9, i)], [(i, i, i, i)])
    for root in range(10):
        cases.link(twos.tables, root)


def one_reference(slots, kind, address, size, symbol_section=2, callee=(2, 64), codes=(1, 2), offset=0):
    """A root with one relocation, and one callee."""
    built = Build(codes, [symbol(5, symbol_section, address, kind)], [relocation(1, 5, offset, size)])
    return built.add(1, 0, slots).add(*callee, [MOVE, EXIT]).tables


def references(cases):
    """Every kind of symbol, size and instruction."""
    instructions = ([call(0)], [call(7)], [call(64)], wide(1, 0), wide(1, 7), wide(1, 64), wide(0xF2, 64), [MOVE, MOVE], [EXIT],
                    [insn(0x18, 1, 0, 64), insn(1)], [insn(0x85, 0, 0, 7)], [insn(0x85, 0x10, 2, 7)])
    for slots in instructions:
        for kind in (OTHER, TEXT, SECTION):
            for size in (0, 32, 64, 255):
                for address in (0, 64):
                    cases.link(one_reference(slots + [EXIT], kind, address, size))
    for slots in ([call(7)], wide(1, 64), [MOVE]):
        for kind in (OTHER, TEXT, SECTION):
            for section in (NONE, 3, 2):
                for codes in ((1, 2), (1,), (), (3,)):
                    cases.link(one_reference(slots, kind, 0 if section == 2 else 64, 32, section, codes=codes))
    # A wide load in a function's last slot, with a fitting slot after it in the next function.
    last = Build((1, 2), [symbol(5, 2, 0, TEXT)], [relocation(1, 5, 8, 64)]).add(1, 0, [MOVE, insn(0x18, 1)]).add(1, 16, [insn(0), EXIT])
    cases.link(last.add(2, 0, [EXIT]).tables, 0, expect=(6, 0, 1))
    # The second slot of a wide load is visited too.
    second = one_reference(wide(1, 0) + [EXIT], TEXT, 64, 64, offset=8)
    cases.link(second, expect=(6, 0, 1))


def first_matching(cases):
    """Which relocation is a slot's."""
    for offset in range(0, 25):
        cases.link(one_reference([call(7), call(7), EXIT], TEXT, 64, 32, offset=offset, callee=(1, 72), symbol_section=1))
    # The section offset counts, not the address; a call without a relocation goes by it too.
    for own in (0, 8, 800, 2**48 - 16):
        moved = Build((1, 2), [symbol(5, 2, 64, TEXT)], [relocation(1, 5, own, 32)])
        moved.add(1, 0, [call(3), call(0), EXIT], offset=own).add(1, own + 16, [EXIT], offset=8)
        cases.link(moved.add(2, 64, [EXIT]).tables)
    # A relocation of another section is not the slot's.
    other = one_reference([call(0), EXIT], TEXT, 64, 32, callee=(1, 16))
    for section in (0, 1, 2):
        other.rows[4] = [relocation(section, 5, 0, 32)]
        cases.link(other)
    # Overlapping functions share one.
    shared = Build((1,), [symbol(5, 1, 64, TEXT)], [relocation(1, 5, 8, 32)])
    shared.add(1, 0, [call(2), call(0), EXIT]).add(1, 24, [call(9), EXIT], offset=8).add(1, 64, [EXIT])
    cases.link(shared.tables)
    # Many rows: the right one among them, by section and offset.
    many = Build((1, 2, 3), [symbol(i, i % 4, 8 * (i // 4), TEXT) for i in range(40)],
                 [relocation(s, (7 * s + 3 * k) % 40, 8 * k, 32) for s in (1, 2, 3) for k in range(10)])
    for section in (1, 2, 3):
        for k in range(10):
            many.add(section, 8 * k, [call(-1)])
    for root in range(30):
        cases.link(many.tables, root)


def targets(cases):
    """Targets at the ends of i32 and past both ends of addresses."""
    for value in (LOW, LOW + 1, -2, -1, 0, 1, HIGH - 1, HIGH):
        for own in (0, 2**34, 2**48 - 16):
            built = Build().add(1, 0, [call(value), EXIT], offset=own)
            target = own + 8 * (value + 1)
            if 0 < target < 2**48:
                built.add(1, target, [EXIT], offset=0)
            cases.link(built.tables)
        for address in (0, 8, 2**34, 2**48 - 1):
            for size in (32, 64):
                target = address + (8 * (value + 1) if size == 32 else value)
                inside = 0 <= target < 2**48
                for slots in ([call(value)], wide(1, value)):
                    cases.link(one_reference(slots, SECTION, address, size, callee=(2, target if inside else 0)))
    # A target one byte off, in the right section or in the wrong one.
    for address in (63, 64, 65, 56, 72):
        for section in (1, 2, 3):
            cases.link(one_reference([call(0)], TEXT, address, 32, section, codes=(1, 2, 3)))
    # Low bits alone of a target past the ends do not match.
    for address in (2**48 - 1, 2**47):
        cases.link(one_reference([call(0)], SECTION, address, 64, callee=(2, address - 1)), expect=(10, 0, 0))
    cases.link(one_reference([call(1)], SECTION, 2**48 - 1, 64, callee=(2, 0)), expect=(10, 0, 0))
    cases.link(one_reference([call(-1)], SECTION, 0, 64, callee=(2, 2**48 - 1)), expect=(10, 0, 0))


def refusals(cases):
    """Each refusal in the root, in a callee, and in a callee's callee, after good calls."""
    symbols = [symbol(1, 1, 0, TEXT), symbol(2, NONE, 0, TEXT), symbol(3, 9, 0, OTHER), symbol(4, 1, 0, SECTION), symbol(5, 1, 0, OTHER),
               symbol(6, NONE, 0, SECTION), symbol(7, 1, 4, TEXT)]
    faults = [(99, 32, 3), (2, 32, 8), (3, 32, 9), (4, 16, 8), (5, 32, 8), (6, 32, 9), (7, 32, 10)]
    for index, size, number in faults:
        for at, offset in ((0, 8), (1, 32), (2, 56)):
            built = Build((1,), symbols, [relocation(1, index, offset, size)])
            built.add(1, 0, [call(2), call(0), EXIT]).add(1, 24, [call(2), call(0), EXIT]).add(1, 48, [MOVE, call(0), EXIT])
            built.tables.rows[6][1 + 3 * at] = call(0)
            for other in range(3):
                if other != at:
                    built.tables.rows[6][1 + 3 * other] = MOVE
            cases.link(built.tables, 0, expect=(number, at, 1))
            built.tables.rows[6][1 + 3 * at] = MOVE
            cases.link(built.tables, 0)
    # The order at one slot: 8 before 6, 6 before 10; a slot before a slot.
    cases.link(one_reference([MOVE], OTHER, 0, 32), expect=(8, 0, 0))
    cases.link(one_reference([MOVE], TEXT, 1, 32), expect=(6, 0, 0))
    cases.link(one_reference([call(0), call(-99)], TEXT, 1, 32), expect=(10, 0, 0))
    cases.link(one_reference([MOVE, call(-99)], TEXT, 1, 32, 3), expect=(6, 0, 0))
    # A callee's refusal comes before the caller's next slot, and names the callee.
    deep = Build().add(1, 0, [call(1), call(-99)]).add(1, 16, [MOVE, call(500)])
    cases.link(deep.tables, 0, expect=(10, 1, 1))
    cases.link(deep.tables, 1, expect=(10, 1, 1))


def three():
    """A root and two callees, with records in each."""
    built = Build().add(1, 0, [call(2), call(3), EXIT], [(0, 1), (9, 2)], [(100, 1, 1, 1), (7, 2, 2, 2), (NONE, 3, 3, 3)])
    built.add(1, 24, [MOVE, EXIT], [(77, 3)], [(50, 4, 4, 4), (51, 5, 5, 5)])
    return built.add(1, 40, [EXIT], [(5, 4), (6, 5)], [(0, 6, 6, 6)]).tables


def rooms(cases):
    """11, in each of the three outputs, for the root, the first and the second callee."""
    need = (48, 40, 96)
    cases.link(three(), 0, need, expect=(0, 6, 5, 6))
    for which in range(3):
        for length in list(range(0, need[which] + 18)):
            outputs = [need[i] + 8 for i in range(3)]
            outputs[which] = length
            cases.link(three(), 0, tuple(outputs))
    for outputs in ((0, 0, 0), (48, 0, 0), (0, 40, 0), (0, 0, 96), (47, 39, 95), (1, 1, 1), (24, 16, 48), (40, 24, 80)):
        cases.link(three(), 0, outputs)
    bare = Build().add(1, 0, [EXIT]).tables
    for outputs in ((0, 0, 0), (7, 0, 0), (8, 0, 0), (9, 1, 1), (15, 15, 15)):
        cases.link(bare, 0, outputs)
    # 11 before 12, and 12 only of an appended function.
    bad = three().put(8, 4, 0, u32(49))
    for outputs in ((48, 40, 96), (40, 40, 96), (24, 40, 96), (48, 16, 96), (48, 40, 79), (48, 40, 80), (48, 40, 47)):
        cases.link(bad, 0, outputs)
    cases.link(bad, 1, need, expect=(0, 2, 1, 2))
    again = three()
    again.rows[6][0] = call(-1)
    cases.link(again, 0, (96, 96, 192), expect=(12, 0, 1))
    for slots in ((5, 5), (5, 6), (5, 7), (5, 8), (5, 4), (0, 2), (0, 3)):
        lines = Build().add(1, 0, [call(-1), MOVE, EXIT], [], [(s, 1, 1, 1) for s in slots]).tables
        cases.link(lines, 0)


def limits(cases):
    """The limits of an image, with buffers that have room for more."""
    big = (33_000, 2_100, 66_000)
    for funcs in (255, 256):
        built = Build().add(1, 0, [call(0), EXIT], [(0, i) for i in range(funcs - 1)]).add(1, 8, [EXIT], [(0, 7)]).tables
        cases.link(built, 0, big, expect=(0, 3, funcs, 0))
        built.rows[6][1] = call(-2)
        cases.link(built, 0, big, expect=(11, 0, 0))
    built = Build().add(1, 0, [call(0), EXIT], [], [(0, 0, i, 0) for i in range(4_095)]).add(1, 8, [EXIT], [], [(9, 8, 7, 6)]).tables
    cases.link(built, 0, big, expect=(0, 3, 0, 4_096))
    built.rows[6][1] = call(-2)
    cases.link(built, 0, big, expect=(11, 0, 0))
    # One record past the limit, with room in the buffer: by the root's copy, which has one.
    for funcs, lines, last in ((254, 0, 0), (255, 0, 11), (0, 4_094, 0), (0, 4_095, 11)):
        own = ([(0, 1)], []) if funcs else ([], [(0, 1, 1, 1)])
        built = Build().add(1, 0, [call(1), call(-2)], *own)
        built.add(1, 16, [EXIT], [(0, i) for i in range(funcs)], [(3, 0, i, 0) for i in range(lines)])
        total = (256, 0) if funcs else (0, 4_096)
        cases.link(built.tables, 0, big, expect=(0, 5) + total if last == 0 else (11, 0, 0))
    # A root of 4,096 slots is an image; a copy of it does not fit.
    root = Build().add(1, 0, [EXIT] * 4_095 + [MOVE]).tables
    cases.link(root, 0, big, expect=(0, 4_096, 0, 0))
    cases.link(root, 0, (32_767, 0, 0), expect=(11, 0, 0))
    root.rows[6][4_095] = call(-4_096)
    cases.link(root, 0, big, expect=(11, 0, 0))
    # 64 functions that fill the image, in a chain and as a fan.
    full = Build()
    for i in range(64):
        full.add(1, 512 * i, [call(63)] + [EXIT] * 63 if i < 63 else [EXIT] * 64, [(0, i)] * 4, [(i, 0, i, 0)])
    cases.link(full.tables, 0, big, expect=(0, 4_096, 256, 64))
    full.tables.rows[6][64 * 63] = call(-64 * 64 + 63)
    cases.link(full.tables, 0, big, expect=(11, 0, 0))
    cases.link(full.tables, 5, big, expect=(11, 5, 0))


def make(cases):
    worked_calls(cases)
    worked_rest(cases)
    shapes(cases)
    references(cases)
    first_matching(cases)
    targets(cases)
    refusals(cases)
    rooms(cases)
    limits(cases)
    for length in range(17):
        cases.link(three(), 0, (48, 40, 96), places=length)
        cases.link(three(), 0, (48, 40, 95), places=length)
