"""Random objects for the examiner's cases: valid tables, functions that can be linked, and now and then one that
nobody names and that the link would refuse.  tools/examine_cases.py uses this file.
"""

from objects import EXIT, NONE, OTHER, SECTION, TEXT, Tables, code, func_record, function, insn, line_record, relocation, symbol

DATA_SECTION = 20
# No symbol has this index.
NO_SYMBOL = 5_000
# What the link refuses in a function.
REFUSALS = (3, 6, 8, 9, 10, 12)

PLAIN = (EXIT, insn(0xB7, 1, 0, 5), insn(0x0F, 0x21), insn(0x07, 3, 0, -8), insn(0x85, 0, 0, 14), insn(0x85, 0x20, 0, 7),
         insn(0x85, 0x10, 1, 2), insn(0x85, 0x11, 0, 2), insn(0x15, 2, 3, 9), insn(0x05, 0, -2, 0), insn(0x7B, 0x1A, -8, 0))


class Row:
    """A function: its row of table 3, and its slots and records as they are made."""

    def __init__(self, section, slots, address, offset):
        self.section, self.count, self.address, self.offset = section, slots, address, offset
        self.refusal = None     # the number that the link would refuse it with
        self.twin = None        # the function that has the same bytes
        self.slots, self.funcs, self.lines = [], [], []


class Maker:
    def __init__(self, rng, refusal):
        """`refusal` is the number that the link refuses one of the functions with, or None."""
        self.rng = rng
        self.codes = sorted(rng.sample((1, 2, 3, 4), rng.randint(1, 2)))
        self.rows, self.symbols, self.relocations, self.bases = [], [], {}, {}
        self.lay_out(refusal)
        self.name()
        for row in self.rows:
            self.fill(row)
            self.add_records(row)
        # Relocations of no slot: beyond every function, and off the grid.
        if self.chance(25):
            self.relocations[self.codes[0], 100_000] = (NO_SYMBOL, 32)
        if self.chance(25):
            self.relocations[self.rows[0].section, self.rows[0].offset + 3] = (NO_SYMBOL, 32)

    def chance(self, percent):
        return self.rng.randrange(100) < percent

    # ---- functions and symbols

    def lay_out(self, refusal):
        # Now and then a section stands high.
        ends = {section: self.base(section) for section in self.codes}
        for _ in range(self.rng.choice((1, 2, 3, 4, 4, 5, 5, 6, 7))):
            # A section that is not in table 1 holds functions too: Text symbols name them.
            section = 9 if self.chance(6) else self.rng.choice(self.codes)
            slots = self.rng.choice((1, 2, 3, 3, 4, 5))
            offset = ends.get(section, 0)
            ends[section] = offset + 8 * slots
            self.rows.append(Row(section, slots, offset + (4_004 if self.chance(8) else 0), offset))
        if self.chance(15):
            self.add_twin(self.rng.choice(self.rows))
        lone = [row for row in self.rows if not row.twin and not any(other.twin is row for other in self.rows)]
        if refusal and len(lone) > 1:
            self.rng.choice(lone).refusal = refusal
        self.rows.sort(key=lambda row: (row.section, row.address))

    def base(self, section):
        self.bases[section] = 2**47 + 2**33 if self.chance(12) else 0
        return self.bases[section]

    def add_twin(self, row):
        """The same bytes of the section at another address: relocations of one are relocations of the other."""
        if row.address == row.offset:
            other = Row(row.section, row.count, row.offset + 90_000, row.offset)
            other.twin = row
            self.rows.append(other)

    def name(self):
        rows = [(row.section, row.address, TEXT) for row in self.rows if row.section == 9 or self.chance(60)]
        rows += [(section, self.bases[section] + self.rng.choice((0, 0, 8, 24)), SECTION) for section in self.codes]
        rows += [(DATA_SECTION, self.rng.randrange(64), self.rng.choice((OTHER, SECTION))) for _ in range(2)]
        if self.chance(30):
            rows.append((NONE, 0, self.rng.choice((OTHER, SECTION))))
        # These two stand for a form that the link refuses.
        rows.append((NONE, 8, TEXT) if self.chance(50) else (self.codes[0], 0, OTHER))
        self.rng.shuffle(rows)
        index = self.rng.randrange(3)
        for row in rows:
            self.symbols.append((index,) + row)
            index += self.rng.randint(1, 4)

    def pick(self, test):
        found = [s for s in self.symbols if test(s)]
        return self.rng.choice(found) if found else None

    def is_code(self, s):
        return s[3] == TEXT or s[1] in self.codes

    def data_symbol(self):
        return self.pick(lambda s: not self.is_code(s))

    # ---- slots

    def relocate(self, row, k, index, size):
        self.relocations[row.section, row.offset + 8 * k] = (index, size)

    def fill(self, row):
        if row.twin:
            row.slots = None    # its twin's, once they are there
            return
        while len(row.slots) < row.count:
            k, way = len(row.slots), self.rng.randrange(100)
            if way < 45:
                row.slots.append(self.call(row, k) or self.plain(row, k))
            elif way < 75 and k + 1 < row.count:
                row.slots += self.wide(row, k)
            else:
                row.slots.append(self.plain(row, k))
        if row.refusal and row.refusal != 12:
            self.refuse(row)

    def callee(self):
        return self.rng.choice([row for row in self.rows if row.refusal is None])

    def reference(self, row, k, callee, sizes):
        """A relocation that names the callee, and the immediate that goes with it.  None if there is none."""
        text = self.pick(lambda s: s[3] == TEXT and s[1:3] == (callee.section, callee.address))
        section = self.pick(lambda s: s[3] == SECTION and s[1] == callee.section)
        if text and (section is None or self.chance(50)):
            self.relocate(row, k, text[0], self.rng.choice((32, 64, 7)))
            return self.rng.choice((-1, 0, 5))
        size = self.rng.choice(sizes)
        if section is None or (size == 32 and (callee.address - section[2]) % 8 != 0):
            return None
        self.relocate(row, k, section[0], size)
        return (callee.address - section[2]) // 8 - 1 if size == 32 else callee.address - section[2]

    def call(self, row, k):
        callee = self.callee()
        distance = callee.address - row.offset - 8 * k
        if callee.section == row.section and distance % 8 == 0 and self.chance(50):
            return insn(0x85, 0x10, 0, distance // 8 - 1)
        value = self.reference(row, k, callee, (32, 32, 64))
        return None if value is None else insn(0x85, 0x10, 0, value)

    def wide(self, row, k):
        value = self.reference(row, k, self.callee(), (64, 64, 32)) if self.chance(65) else None
        if value is None:
            value = self.rng.choice((0, 4, -4, 2**31 - 5))
            if self.chance(60):
                self.relocate(row, k, self.data_symbol()[0], 64)
        registers = self.rng.choice((0, 0, 0x10, 0x20, 0x40, 0xF0)) | self.rng.randrange(10)
        return [insn(0x18, registers, self.rng.choice((0, 0, 0, 3)), value), insn(0, 0, 0, self.rng.choice((0, 0, 3, -3)))]

    def plain(self, row, k):
        if self.chance(12):
            self.relocate(row, k, self.data_symbol()[0], self.rng.choice((32, 64)))
        if k + 1 == row.count and self.chance(10):
            return insn(0x18, 3, 0, 2)  # on the last slot it is no wide load
        return self.rng.choice(PLAIN)

    def refuse(self, row):
        """One slot that the link refuses: the last, so that all before it are right."""
        k = row.count - 1
        if k > 0 and row.slots[k][0:4] == bytes(4):
            row.slots[k - 1] = EXIT     # the second half of a wide load is no place for a call
            self.relocations.pop((row.section, row.offset + 8 * (k - 1)), None)
        self.relocations.pop((row.section, row.offset + 8 * k), None)
        odd = self.pick(lambda s: (s[1] == NONE and s[3] == TEXT) or (s[1] in self.codes and s[3] == OTHER))
        section = self.pick(lambda s: s[3] == SECTION and s[1] in self.codes)
        if row.refusal == 10:
            row.slots[k] = insn(0x85, 0x10, 0, 700)
        else:
            index = {3: NO_SYMBOL, 6: section[0], 8: odd[0], 9: self.data_symbol()[0]}[row.refusal]
            row.slots[k] = EXIT if row.refusal == 6 else insn(0x85, 0x10, 0, 700)
            self.relocate(row, k, index, 32)

    # ---- records

    def add_records(self, row):
        for _ in range(self.rng.choice((0, 1, 1, 2))):
            row.funcs.append(func_record(self.rng.choice((0, 3, row.offset // 8 % 2**32, 2**32 - 1)), self.rng.randrange(1, 99)))
        first = self.rng.choice((0, row.offset // 8 % 2**32, self.rng.randrange(40), 2**32 - 9))
        steps = [0] + [self.rng.randrange(row.count) for _ in range(self.rng.randrange(4))] if self.chance(75) else []
        if row.refusal == 12:
            steps = steps[:2] or [0]
            steps.append(row.count if first == 0 or self.chance(60) else -1)
        for step in steps:
            row.lines.append(line_record(first + step, self.rng.randrange(1, 9), self.rng.randrange(500), self.rng.randrange(80)))

    # ---- the object

    def tables(self):
        for row in self.rows:
            if row.twin:
                row.slots = row.twin.slots
        relocations = [relocation(s, index, offset, size) for (s, offset), (index, size) in sorted(self.relocations.items())]
        return Tables([code(c) for c in self.codes], [symbol(*s) for s in self.symbols],
                      [function(row.section, row.count, row.address, row.offset, len(row.funcs), len(row.lines)) for row in self.rows],
                      relocations, [], [slot for row in self.rows for slot in row.slots],
                      [r for row in self.rows for r in row.funcs], [r for row in self.rows for r in row.lines])
