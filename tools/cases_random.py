"""Random small objects, and damaged copies of them, through both steps.  See tools/cases.py."""

import random

import model
from objects import (EXIT, MOVE, NONE, OTHER, SECTION, TEXT, Tables, call, code, func_record, function, insn,
                     line_record, map_row, relocation, symbol, wide)

SEED = 20_261_115
OBJECTS = 820
DATA_SECTIONS = (20, 21)


class Maker:
    """One object: functions first, then symbols, slots with their relocations, and records."""

    def __init__(self, rng):
        self.rng = rng
        self.codes = sorted(rng.sample((1, 2, 3, 4), rng.randint(1, 3)))
        self.functions = []     # [section, slots, address, offset]
        self.symbols = []       # [index, section, address, kind]
        self.relocations = {}   # (section, offset): (symbol index, size)
        self.slots = []
        self.lay_out()
        self.name()
        for f in self.functions:
            self.fill(f)

    def chance(self, percent):
        return self.rng.randrange(100) < percent

    def lay_out(self):
        at = {}
        for _ in range(self.rng.randint(1, 6)):
            section = self.rng.choice(self.codes + ([9] if self.chance(5) else []))
            slots = self.rng.randint(1, 6)
            offset = at.get(section, 0)
            address = offset + (8_000 if self.chance(5) else 0)
            if self.chance(3):
                address += self.rng.randrange(1, 8)
            if not any(f[0] == section and f[2] == address for f in self.functions):
                self.functions.append([section, slots, address, offset])
            # The next one stands after this one, or now and then across it.
            at[section] = offset + 8 * (slots if not self.chance(6) else self.rng.randint(1, slots))
        self.functions.sort(key=lambda f: (f[0], f[2]))

    def name(self):
        """Symbols for the functions, their sections, data, and a few odd ones."""
        rows = [(f[0], f[2], TEXT) for f in self.functions if self.chance(70)]
        rows += [(s, 0 if self.chance(90) else 8, SECTION) for s in self.codes]
        rows += [(self.rng.choice(DATA_SECTIONS), self.rng.randrange(64), self.rng.choice((OTHER, SECTION))) for _ in range(2)]
        if self.chance(15):
            rows.append((NONE, self.rng.randrange(64), self.rng.choice((OTHER, TEXT, SECTION))))
        if self.chance(8):
            rows.append((self.rng.choice(self.codes + [20]), self.rng.randrange(64), self.rng.choice((OTHER, TEXT))))
        if self.chance(5):
            rows.append((20, 2**31 - self.rng.randrange(8), OTHER))
        self.rng.shuffle(rows)
        index = self.rng.randrange(3)
        for section, address, kind in rows:
            self.symbols.append([index, section, address, kind])
            index += self.rng.randint(1, 4)

    def relocate(self, f, k, index, size):
        offset = f[3] + 8 * k
        if self.chance(1):
            offset += self.rng.randrange(1, 8)
        if self.chance(1):
            index += 1
        self.relocations[f[0], offset] = (index, size)

    def pick(self, test):
        found = [s for s in self.symbols if test(s)]
        return self.rng.choice(found) if found else None

    def reference(self, f, k, is_wide):
        """A call or a wide load of a function, through a relocation.  Its immediate."""
        callee = self.rng.choice(self.functions)
        text = self.pick(lambda s: s[3] == TEXT and s[1] == callee[0] and s[2] == callee[2])
        section = self.pick(lambda s: s[3] == SECTION and s[1] == callee[0])
        if text and (section is None or self.chance(50)):
            self.relocate(f, k, text[0], self.rng.choice((32, 64)))
            return self.rng.choice((-1, 0, 5))
        if section is None:
            return -1
        size = 64 if is_wide != self.chance(5) else 32
        if self.chance(1):
            size = self.rng.choice((0, 16, 65))
        self.relocate(f, k, section[0], size)
        difference = callee[2] - section[2]
        value = difference // 8 - 1 if size == 32 else difference
        return value + (1 if self.chance(1) else 0)

    def local_call(self, f, k):
        near = [g for g in self.functions if g[0] == f[0]]
        target = self.rng.choice(near)[2]
        return call((target - f[3] - 8 * k) // 8 - 1 + (1 if self.chance(1) else 0))

    def wide_load(self, f, k):
        register, odd = self.rng.randrange(10), self.chance(2)
        way = self.rng.randrange(10)
        value = self.rng.choice((0, 4, -4, 2**31 - 5))
        if way < 4:
            value = self.reference(f, k, True)
        elif way < 9:
            data = self.pick(lambda s: s[1] in DATA_SECTIONS or (s[1] == NONE and self.chance(50)))
            if data:
                self.relocate(f, k, data[0], 64)
        pair = wide(register, value, self.rng.choice((0, 0, 3, -3)))
        return [pair[0], insn(1)] if odd else pair

    def plain(self, f, k):
        if self.chance(2):
            self.relocate(f, k, self.rng.choice(self.symbols)[0], self.rng.choice((32, 64)))
        return self.rng.choice((MOVE, EXIT, insn(0x85, 0, 0, 1), insn(0x85, 0x10, 1, 1), insn(0x05, 0, -2, 0), insn(0x18, 3)))

    def fill(self, f):
        k = 0
        while k < f[1]:
            way = self.rng.randrange(100)
            if way < 22:
                slots = [self.local_call(f, k)]
            elif way < 40:
                slots = [call(self.reference(f, k, False))]
            elif way < 60 and k + 1 < f[1]:
                slots = self.wide_load(f, k)
            else:
                slots = [self.plain(f, k)]
            self.slots += slots
            k += len(slots)

    def maps(self):
        rows = []
        for s in self.symbols:
            if s[1] in DATA_SECTIONS and self.chance(40):
                section = s[1] if self.chance(80) else 33
                rows.append(map_row(section, s[0], self.rng.choice((-1, 3, 70_000)), self.rng.randrange(2)))
        for section in DATA_SECTIONS:
            if self.chance(90):
                rows.append(map_row(section, NONE, self.rng.randrange(-5, 50), self.rng.randrange(2)))
        self.rng.shuffle(rows)
        return rows

    def tables(self):
        functions, funcs, lines = [], [], []
        for section, slots, address, offset in self.functions:
            own_funcs = [func_record(self.rng.randrange(9), self.rng.randrange(99)) for _ in range(self.rng.choice((0, 1, 1, 2)))]
            first, own_lines = self.rng.randrange(40), []
            for i in range(self.rng.randrange(4)):
                step = self.rng.randrange(slots) if i else 0
                step = self.rng.choice((slots, -1)) if i and self.chance(2) else step
                own_lines.append(line_record(first + step, 1, self.rng.randrange(500), self.rng.randrange(80)))
            functions.append(function(section, slots, address, offset, len(own_funcs), len(own_lines)))
            funcs += own_funcs
            lines += own_lines
        relocations = [relocation(s, i, o, size) for (s, o), (i, size) in sorted(self.relocations.items())]
        return Tables([code(c) for c in self.codes], [symbol(*s) for s in self.symbols], functions, relocations,
                      self.maps(), self.slots, funcs, lines)


def damaged(rng, tables):
    """A copy with a byte changed, two rows swapped, or a table's length changed."""
    tables = tables.copy()
    table = rng.choice((1, 2, 2, 3, 3, 4, 4, 5, 6, 6, 6, 7, 8, 8))
    rows = tables.rows[table]
    if not rows:
        return tables
    way, row = rng.randrange(10), rng.randrange(len(rows))
    if way < 7:
        at = rng.randrange(len(rows[row]))
        change = rng.choice((1, 2, 4, 8, 16, 64, 128, 255))
        tables.put(table, row, at, bytes([rows[row][at] ^ change]))
    elif way == 7 and len(rows) > 1:
        other = rng.randrange(len(rows))
        rows[row], rows[other] = rows[other], rows[row]
    elif way == 8:
        del rows[row]
    else:
        rows[-1] = rows[-1][:rng.randrange(len(rows[-1]))]
    return tables


def outputs(rng, tables, root):
    """Lengths of the outputs: mostly with room, now and then exact or short."""
    data = {t: tables.data(t) for t in range(1, 9)}
    number, places, *_ = model.link(data[1], data[2], data[3], data[4], data[6], data[7], data[8], root, 33_000, 2_100, 66_000)
    if number != 0:
        return tuple(rng.randrange(200, 600) for _ in range(3))
    need = [8 * places[0], 8 * places[1], 16 * places[2]]
    way = rng.randrange(10)
    if way < 6:
        return tuple(n + rng.randrange(100) for n in need)
    if way < 8:
        return tuple(need)
    need[rng.randrange(3)] -= rng.choice((1, 8, 16, 40))
    return tuple(max(0, n) for n in need)


def make(cases):
    rng = random.Random(SEED)
    for _ in range(OBJECTS):
        tables = Maker(rng).tables()
        for t in (tables, damaged(rng, tables)):
            places = 12 if rng.randrange(10) < 6 else rng.randrange(17)
            count = len(t.rows[3])
            root = rng.randrange(count) if count and rng.randrange(40) else count
            cases.map_step(t, places)
            cases.link(t, root, outputs(rng, t, root), places)
