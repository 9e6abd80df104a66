"""Single faults: from an image that is right, every way to make one thing of it wrong, with what an examiner has to
say of it.  tools/examine_cases.py uses this file.

What is expected is worked out here from how the fault was made and from what the linker of tools/elsewhere.py knows of its
image; tools/model.py is asked as well, and the two have to agree.  Where the kind of fault does not settle the answer, the
expectation is None or the number alone.
"""

import struct

from elsewhere import CALLS, COPIED, NOWHERE, OTHER, REFERS, SECTION, TEXT
from examine_form import u32
from examine_objects import NO_SYMBOL

ROW_SIZE = {1: 4, 2: 24, 3: 32, 4: 24, 6: 8, 7: 8, 8: 16, "i": 8, "f": 8, "l": 16, "p": 8}
MOST_ROWS = {1: 64, 2: 1_024, 3: 64, 4: 1_024, 6: 8_192, 7: 256, 8: 4_096, "i": 4_096, "f": 256, "l": 4_096, "p": 4_096}
# How answers number what is shown.
SHOWN = {"i": 6, "f": 7, "l": 8, "p": 9}
NAMES = {"i": "the image", "f": "function records", "l": "line records", "p": "the list"}


class Case:
    """The tables, a root, and what is shown."""

    def __init__(self, parts, root):
        self.parts, self.root = dict(parts), root

    def edit(self, part, at, cut, put):
        other = Case(self.parts, self.root)
        old = self.parts[part]
        other.parts[part] = old[:at] + put + old[at + cut:]
        return other

    def over(self, part, at, put):
        """Bytes written over those that are there."""
        return self.edit(part, at, len(put), put)

    def number(self, part, at, size=4):
        return int.from_bytes(self.parts[part][at:at + size], "little")

    def row(self, part, k):
        return self.parts[part][k * ROW_SIZE[part]:(k + 1) * ROW_SIZE[part]]

    def rows(self, part):
        return len(self.parts[part]) // ROW_SIZE[part]

    def with_root(self, root):
        return Case(self.parts, root)


def both(base, one, two):
    """The two changes together; None if they touch the same bytes, or the same part and one of them moves what is after it."""
    case = Case(one.parts, one.root if one.root != base.root else two.root)
    for part, old in base.parts.items():
        a, b = one.parts[part], two.parts[part]
        if a == old:
            case.parts[part] = b
        elif b != old:
            if len(a) != len(old) or len(b) != len(old) or any(x != z != y for x, y, z in zip(a, b, old)):
                return None
            case.parts[part] = bytes(y if y != z else x for x, y, z in zip(a, b, old))
    return None if base.root not in (one.root, two.root) else case


class Faults:
    """All faults of one image.  Each is (kind, case, expectation)."""

    def __init__(self, rng, case, source, image, refused):
        self.rng, self.case, self.source, self.image = rng, case, source, image
        self.refused = refused      # rows that the link refuses: their numbers
        self.end = len(image.slots)

    def all(self):
        for group in (self.slots, self.targets, self.two_fields, self.starts, self.list_rows, self.two_rows, self.list_order,
                      self.list_size, self.sizes, self.records, self.record_order, self.record_count, self.record_rule, self.roots,
                      self.many_rows, self.broken_rows, self.partial_rows, self.totals, self.source_relocations,
                      self.source_slots, self.source_records, self.addresses, self.refused_pieces):
            yield from group()

    # ---- which comes first

    def piece_of(self, expect):
        """The piece that an answer is about: where the link refuses, the first that it refuses, which may be one more."""
        number, place = expect[:2]
        if number >= 39:
            return place
        refused = [k for k, (row, _) in enumerate(self.image.pieces) if row == place and (k or number != 12)]
        return refused[0] if refused else len(self.image.pieces)

    def rank(self, expect):
        """Answers by the order in which they are told: the tables by 1, 2 and 13; what is shown by its number, 33 or 34; 35;
        36 and 37 by piece; 38; then by piece its slots, its function records, 12, its line records; 44."""
        number, a, b, _ = expect
        if number in (1, 2, 13):
            return (0, number, a, b)
        if number in (33, 34):
            return (1, a)
        if number == 35:
            return (2,)
        if number in (36, 37):
            return (3, a, number)
        if number == 38:
            return (4,)
        if number == 44:
            return (6, a)
        part = {42: 1, 12: 2, 43: 3}.get(number, 0)
        return (5, self.piece_of(expect), part, b, number)

    def pairs(self, faults, tries):
        """Two faults at once: (name of the pair, case, the answers of each, the one that is told first at the front)."""
        whole = [fault for fault in faults if fault[2] and len(fault[2]) == 4]
        for _ in range(tries):
            two = sorted(self.rng.sample(whole, 2), key=lambda fault: self.rank(fault[2]))
            first, second = two[0][2], two[1][2]
            # not in the same slot or record: there one may undo the other
            if self.rank(first)[:4] == self.rank(second)[:4]:
                continue
            case = both(self.case, two[0][1], two[1][1])
            if case:
                same = self.rank(first)[:2] == self.rank(second)[:2]
                names = tuple((e[0], e[1] if e[0] in (33, 34, 44) else 0) for e in (first, second))
                yield names + (same,), case, (first, second)

    # ---- slots

    def slots(self):
        """Each field of each slot."""
        for here, mark in enumerate(self.image.marks):
            opcode, registers, offset, immediate = self.image.slots[here]
            expect = (39, mark.piece, mark.slot, here)
            fields = {"opcode": (0, bytes([opcode ^ self.rng.choice((1, 4, 8, 0x10, 0x80))])),
                      "destination": (1, bytes([registers ^ self.rng.choice((1, 2, 4, 8))])),
                      "source": (1, bytes([registers ^ self.rng.choice((0x10, 0x20, 0x40, 0x80))])),
                      "offset": (2, ((offset ^ self.rng.choice((1, 0x80, 0x100, -0x8000))) % 2**16).to_bytes(2, "little")),
                      "immediate": (4, u32(immediate ^ self.rng.choice((1, 0x100, 0x10000, -2**31))))}
            if mark.kind != COPIED:
                del fields["immediate"]
            elif opcode == 0x18 and registers >> 4 != 4:
                yield ("copied wide load: source register 4", self.case.over("i", 8 * here + 1, bytes([4 << 4 | registers & 15])),
                       expect)
            if mark.kind == REFERS:
                del fields["source"]
                for register in (3, 5, self.rng.choice((0, 1, 2, 6, 12))):
                    name = f"source register {register}" if register in (3, 5) else "another source register"
                    yield (f"reference: {name}", self.case.over("i", 8 * here + 1, bytes([register << 4 | registers & 15])),
                           (40, mark.piece, mark.slot, mark.callee))
            for name, (at, put) in fields.items():
                yield f"{mark.kind} slot: {name}", self.case.over("i", 8 * here + at, put), expect

    def targets(self):
        """Calls and references that point elsewhere."""
        starts = {start for _, start in self.image.pieces}
        inside = [at for at in range(self.end) if at not in starts]
        for here, mark in enumerate(self.image.marks):
            if mark.kind == COPIED:
                continue
            expect = (41, mark.piece, mark.slot, mark.callee)
            others = [start for row, start in self.image.pieces if row != mark.callee]
            for name, places in (("inside a piece", inside), ("another function's start", others),
                                 ("past the image", [self.end, self.end + 1, here + 2**31]), ("before the image", [-1, here + 1 - 2**31])):
                if places:
                    yield (f"{mark.kind}: to {name}",
                           self.case.over("i", 8 * here + 4, u32(self.rng.choice(places) - here - 1)), expect)
            source = self.source.slots[self.image.pieces[mark.piece][0]][mark.slot]
            slot = struct.pack("<BBhi", *source)
            if mark.kind == REFERS and source.registers >> 4 != 4:
                yield "reference: left as in the source", self.case.over("i", 8 * here, slot), (40,) + expect[1:]
            if mark.kind == CALLS and (mark.callee, here + 1 + source.immediate) not in self.image.pieces:
                yield "call: left as in the source", self.case.over("i", 8 * here, slot), expect

    def two_fields(self):
        """Two things wrong in one slot: which is told first."""
        for here, mark in enumerate(self.image.marks):
            if mark.kind == COPIED:
                continue
            opcode, registers, offset, _ = self.image.slots[here]
            nowhere = self.end - here - 1
            slot = struct.pack("<BBhi", opcode, registers, offset ^ 2, nowhere)
            yield "a field and the target", self.case.over("i", 8 * here, slot), (39, mark.piece, mark.slot, here)
            if mark.kind == REFERS:
                slot = struct.pack("<BBhi", opcode, registers & 15, offset, nowhere)
                yield "register and target", self.case.over("i", 8 * here, slot), (40, mark.piece, mark.slot, mark.callee)
                slot = struct.pack("<BBhi", opcode, registers & 15 ^ 1, offset, nowhere)
                yield "a field and the register", self.case.over("i", 8 * here, slot), (39, mark.piece, mark.slot, here)

    # ---- the list

    def starts(self):
        for k, (_, start) in enumerate(self.image.pieces):
            for wrong in (start + 1, start - 1, self.rng.choice((start ^ 0x100, start ^ 2**31, start + self.end))):
                expect = (37, k, start, 0) if k else (35, 0, 0, 0)
                yield ("a start" if k else "the first start"), self.case.over("p", 8 * k + 4, u32(wrong)), expect

    def list_rows(self):
        """Each row of the list names another function."""
        functions = self.source.functions
        for k, (row, _) in enumerate(self.image.pieces):
            for none in (len(functions), self.rng.choice((len(functions) + 1, 2**31, NOWHERE))):
                yield ("a piece of no function" if k else "the first piece of no function",
                       self.case.over("p", 8 * k, u32(none)), (36, k, none, 0) if k else (35, 0, 0, 0))
            for other, f in enumerate(functions):
                if other == row:
                    continue
                case = self.case.over("p", 8 * k, u32(other))
                if k == 0:
                    yield "the root not first", case, (35, 0, 0, 0)
                elif f.slots == functions[row].slots:
                    yield "a piece of another function as long", case, None
                elif k + 1 < len(self.image.pieces):
                    yield "a piece of another function, longer or shorter", case, (37, k + 1, self.image.pieces[k][1] + f.slots, 0)
                else:
                    yield "the last piece of another function", case, (38, k + 1, self.image.pieces[k][1] + f.slots, 0)

    def list_order(self):
        pieces = self.image.pieces
        for k in range(len(pieces)):
            rows = self.case.row("p", k)
            for other in range(k + 1, len(pieces)):
                case = self.case.over("p", 8 * k, self.case.row("p", other)).over("p", 8 * other, rows)
                yield ("two pieces of the list swapped" if k else "the first piece swapped", case,
                       (37, k, pieces[k][1], 0) if k else (35, 0, 0, 0))
            if k + 1 < len(pieces):
                end = pieces[k + 1][1]
                yield "a piece of the list doubled", self.case.edit("p", 8 * k, 0, rows), (37, k + 1, end, 0)
                yield ("a piece of the list left out" if k else "the first piece left out", self.case.edit("p", 8 * k, 8, b""),
                       (37, k, pieces[k][1], 0) if k else (35, 0, 0, 0))

    def list_size(self):
        pieces, functions = self.image.pieces, self.source.functions
        if len(pieces) > 1:
            yield ("the last piece left out", self.case.edit("p", 8 * len(pieces) - 8, 8, b""),
                   (38, len(pieces) - 1, pieces[-1][1], 0))
        row = self.rng.randrange(len(functions))
        at = len(self.case.parts["p"])
        yield ("a piece over", self.case.edit("p", at, 0, u32(row) + u32(self.end)),
               (38, len(pieces) + 1, self.end + functions[row].slots, 0))
        yield "a piece over, elsewhere", self.case.edit("p", at, 0, u32(row) + u32(self.end + 1)), (37, len(pieces), self.end, 0)
        yield "an empty list", self.case.edit("p", 0, at, b""), (35, 0, 0, 0)

    def two_rows(self):
        """Two things wrong in the list: which is told first."""
        pieces, none = self.image.pieces, len(self.source.functions)
        for k in range(1, len(pieces)):
            start = pieces[k][1]
            yield "a piece of no function, elsewhere", self.case.over("p", 8 * k, u32(none) + u32(start + 1)), (36, k, none, 0)
            if k + 1 < len(pieces):
                case = self.case.over("p", 8 * k + 4, u32(start + 1)).over("p", 8 * k + 8, u32(none))
                yield "a start, and a later piece of no function", case, (37, k, start, 0)

    # ---- sizes

    def sizes(self):
        for part, number in SHOWN.items():
            length, size = len(self.case.parts[part]), ROW_SIZE[part]
            more = self.rng.randrange(1, size)
            yield f"{NAMES[part]}: a partial row", self.case.edit(part, length, 0, bytes(more)), (34, number, length // size, 0)
            if length:
                yield (f"{NAMES[part]}: a partial row", self.case.edit(part, length - more, more, b""),
                       (34, number, length // size - 1, 0))
            for longest in (size * MOST_ROWS[part] + 1, size * MOST_ROWS[part] + size):
                yield (f"{NAMES[part]}: too long", self.case.edit(part, length, 0, bytes(longest - length)), (33, number, 0, 0))
        pieces = len(self.image.pieces)
        yield "a slot over", self.case.edit("i", 8 * self.end, 0, struct.pack("<BBhi", 0x95, 0, 0, 0)), (38, pieces, self.end, 0)
        yield "a slot short", self.case.edit("i", 8 * self.end - 8, 8, b""), (38, pieces, self.end, 0)
        yield "an empty image", self.case.edit("i", 0, 8 * self.end, b""), (38, pieces, self.end, 0)

    # ---- records

    def owners(self, part):
        """For each record of the image its piece and its number there."""
        counts = [f.funcs if part == "f" else f.lines for f in self.source.functions]
        return [(k, j) for k, (row, _) in enumerate(self.image.pieces) for j in range(counts[row])]

    def records(self):
        for part, number, fields in (("f", 42, ("slot", "type")), ("l", 43, ("slot", "file", "line", "column"))):
            for at, (k, j) in enumerate(self.owners(part)):
                for i, name in enumerate(fields):
                    place = ROW_SIZE[part] * at + 4 * i
                    value = self.case.number(part, place) ^ self.rng.choice((1, 2, 0x100, 2**31))
                    yield f"{NAMES[part]}: {name}", self.case.over(part, place, u32(value)), (number, k, j, at)

    def record_order(self):
        for part, number in (("f", 42), ("l", 43)):
            owners, size = self.owners(part), ROW_SIZE[part]
            for at in range(len(owners)):
                for other in range(at + 1, len(owners)):
                    a, b = self.case.row(part, at), self.case.row(part, other)
                    if a != b:
                        case = self.case.over(part, size * at, b).over(part, size * other, a)
                        yield f"{NAMES[part]}: two swapped", case, (number,) + owners[at] + (at,)

    def record_count(self):
        for part, number in (("f", 42), ("l", 43)):
            owners, size = self.owners(part), ROW_SIZE[part]
            end = size * len(owners)
            last = self.case.row(part, len(owners) - 1) if owners else bytes(size)
            for put in (last, bytes(size)):
                yield f"{NAMES[part]}: one over", self.case.edit(part, end, 0, put), (44, SHOWN[part], len(owners), 0)
            if owners:
                at = len(owners) - 1
                yield f"{NAMES[part]}: one short", self.case.edit(part, end - size, size, b""), (number,) + owners[at] + (at,)
                yield f"{NAMES[part]}: none", self.case.edit(part, 0, end, b""), (number,) + owners[0] + (0,)
                both = self.case.edit("f", len(self.case.parts["f"]), 0, bytes(8)).edit("l", len(self.case.parts["l"]), 0, bytes(16))
                yield "records of both: one over", both, (44, 7, len(self.owners("f")), 0)
            for at in range(len(owners) - 1):
                yield f"{NAMES[part]}: one left out", self.case.edit(part, size * at, size, b""), (number,)
                yield f"{NAMES[part]}: one doubled", self.case.edit(part, size * at, 0, self.case.row(part, at)), None

    def record_rule(self):
        """Records by the other rule: a later piece's unchanged, the first piece's moved."""
        for part, number, tables in (("f", 42, self.source.funcs), ("l", 43, self.source.lines)):
            for at, (k, j) in enumerate(self.owners(part)):
                row, start = self.image.pieces[k]
                records = tables[row]
                first = records[0][0]
                if k:
                    kind, slot = "kept as in the source", records[j][0]
                    if row == self.image.pieces[0][0]:
                        kind = "of the root's copy kept as in the source"
                else:
                    kind, slot = "of the first piece moved", (0 if part == "f" else records[j][0] - first)
                if u32(slot) != self.case.row(part, at)[:4]:
                    yield f"{NAMES[part]}: {kind}", self.case.over(part, ROW_SIZE[part] * at, u32(slot)), (number, k, j, at)

    # ---- the tables and the root

    def roots(self):
        count = len(self.source.functions)
        for root in range(count):
            if root != self.case.root:
                yield "another root", self.case.with_root(root), (35, 0, 0, 0)
        for root in (count, self.rng.choice((count + 1, 2**31, NOWHERE))):
            yield "no such root", self.case.with_root(root), (13, 0, 0, 0)

    def many_rows(self):
        for table in (1, 2, 3, 4, 6, 7, 8):
            length, size = len(self.case.parts[table]), ROW_SIZE[table]
            for longest in (size * MOST_ROWS[table] + 1, size * MOST_ROWS[table] + size):
                yield f"table {table}: too many rows", self.case.edit(table, length, 0, bytes(longest - length)), (1, table, 0, 0)

    def broken_rows(self):
        """Each field of a row of tables 1 to 4 that can be broken, in one row each."""
        padding = self.rng.randrange(17, 24)
        for table, fields in ((1, [(0, 4, 65_536)]),
                              (2, [(0, 4, NOWHERE), (4, 4, 65_536), (8, 8, 2**48), (16, 1, 3), (padding, 1, 1)]),
                              (3, [(0, 4, 65_536), (4, 4, 0), (4, 4, 4_097), (8, 8, 2**48), (16, 8, 2**48), (16, 8, 4)]),
                              (4, [(0, 4, 65_536), (4, 4, NOWHERE), (8, 8, 2**48), (padding, 1, 0x80)])):
            count, size = self.case.rows(table), ROW_SIZE[table]
            for at, width, value in fields if count else []:
                k = self.rng.randrange(count)
                yield (f"table {table}: a broken row", self.case.over(table, size * k + at, value.to_bytes(width, "little")),
                       (2, table, k, 0))
            if count > 1:
                k = self.rng.randrange(1, count)
                before, row = self.case.row(table, k - 1), self.case.row(table, k)
                swapped = self.case.over(table, size * k, before).over(table, size * k - size, row)
                yield f"table {table}: rows out of order", swapped, (2, table, k, 0)
                # the pair, or the number, that has to rise: the same again
                key = {1: (0, 4), 2: (0, 4), 3: (8, 8), 4: (8, 8)}[table]
                if table < 3 or before[:4] == row[:4]:
                    doubled = self.case.over(table, size * k + key[0], before[key[0]:sum(key)])
                    yield f"table {table}: a row doubled", doubled, (2, table, k, 0)

    def partial_rows(self):
        for table in (1, 2, 3, 4):
            length, size = len(self.case.parts[table]), ROW_SIZE[table]
            more = self.rng.randrange(1, size)
            yield f"table {table}: a partial row", self.case.edit(table, length, 0, bytes(more)), (2, table, length // size, 0)
            if length:
                yield (f"table {table}: a partial row", self.case.edit(table, length - more, more, b""),
                       (2, table, length // size - 1, 0))

    def totals(self):
        for table, at in ((6, 4), (7, 24), (8, 28)):
            length, size, kind = len(self.case.parts[table]), ROW_SIZE[table], f"table {table}: a wrong total"
            yield kind, self.case.edit(table, length, 0, bytes(size)), (2, table, 0, 0)
            yield kind, self.case.edit(table, length, 0, bytes(self.rng.randrange(1, size))), (2, table, 0, 0)
            if length:
                yield kind, self.case.edit(table, length - size, size, b""), (2, table, 0, 0)
            row = self.rng.randrange(self.case.rows(3))
            count = self.case.number(3, 32 * row + at) + 1
            yield kind, self.case.over(3, 32 * row + at, u32(count)), (2, table, 0, 0)

    # ---- the source, where the link would refuse it or make something else of it

    def first_with(self, section, offset):
        """The first piece with a slot there, by list order: (row, slot, mark)."""
        for here, mark in enumerate(self.image.marks):
            row = self.image.pieces[mark.piece][0]
            f = self.source.functions[row]
            if (f.section, f.offset + 8 * mark.slot) == (section, offset):
                return row, mark, here
        return None

    def source_relocations(self):
        """Each relocation of a slot in a piece: another symbol or size."""
        data = [i for i, s in self.source.symbols.items() if not self.source.is_code(s)]
        for k in range(self.case.rows(4)):
            section, offset = self.case.number(4, 24 * k), self.case.number(4, 24 * k + 8, 8)
            found = self.first_with(section, offset)
            if found is None:
                continue
            row, mark, here = found
            symbol = self.source.symbols[self.case.number(4, 24 * k + 4)]
            yield "source: a symbol that is not there", self.case.over(4, 24 * k + 4, u32(NO_SYMBOL)), (3, row, mark.slot, 0)
            if mark.kind != COPIED and symbol.kind == SECTION:
                size = self.rng.choice((0, 16, 33, 255))
                yield "source: a size of no form", self.case.over(4, 24 * k + 16, bytes([size])), (8, row, mark.slot, 0)
            if mark.kind == CALLS:
                yield "source: a call of no code", self.case.over(4, 24 * k + 4, u32(self.rng.choice(data))), (9, row, mark.slot, 0)
            if mark.kind == REFERS and self.source.slots[row][mark.slot] != self.image.slots[here]:
                yield ("source: a reference to data", self.case.over(4, 24 * k + 4, u32(self.rng.choice(data))),
                       (39, mark.piece, mark.slot, here))
        yield from self.added_relocations()

    def added_relocations(self):
        """A relocation of code on a slot that has none and is neither call nor wide load: 6, or 8 if its form is unknown."""
        code = [i for i, s in self.source.symbols.items() if s.section != NOWHERE and s.kind != OTHER and self.source.is_code(s)]
        odd = [i for i, s in self.source.symbols.items()
               if (s.kind == TEXT and s.section == NOWHERE) or (s.kind == OTHER and self.source.is_code(s))]
        for here, mark in enumerate(self.image.marks):
            row = self.image.pieces[mark.piece][0]
            f = self.source.functions[row]
            place = (f.section, f.offset + 8 * mark.slot)
            if mark.kind != COPIED or self.source.relocation(row, mark.slot) or self.first_with(*place)[2] != here \
                    or self.source.is_wide(row, mark.slot):
                continue
            for kind, indexes, number in (("neither call nor wide load", code, 6), ("a form that nobody knows", odd, 8)):
                row_bytes = u32(f.section) + u32(self.rng.choice(indexes)) + place[1].to_bytes(8, "little") + bytes([64]) + bytes(7)
                at = sum(key < place for key in self.source.relocations)
                yield f"source: {kind}", self.case.edit(4, 24 * at, 0, row_bytes), (number, row, mark.slot, 0)

    def table_slot(self, row, slot):
        return 8 * (sum(f.slots for f in self.source.functions[:row]) + slot)

    def source_slots(self):
        """Each slot of table 6 that stands in a piece: a copied one changed, a resolved one that names something else."""
        seen = set()
        for here, mark in enumerate(self.image.marks):
            row = self.image.pieces[mark.piece][0]
            if (row, mark.slot) in seen:
                continue
            seen.add((row, mark.slot))
            at, f = self.table_slot(row, mark.slot), self.source.functions[row]
            if mark.kind == COPIED:
                value = self.source.slots[row][mark.slot].immediate ^ 4
                yield "source: a copied slot changed", self.case.over(6, at + 4, u32(value)), (39, mark.piece, mark.slot, here)
                continue
            relocation = self.source.relocation(row, mark.slot)
            if relocation and self.source.symbols[relocation[0]].kind == TEXT:
                continue
            yield ("source: no function there", self.case.over(6, at + 4, u32(self.source.slots[row][mark.slot].immediate + 30_001)),
                   (10, row, mark.slot, 0))
            if relocation is None:
                for callee, g in enumerate(self.source.functions):
                    distance = g.address - f.offset - 8 * mark.slot
                    if callee != mark.callee and g.section == f.section and distance % 8 == 0:
                        yield ("source: names another function", self.case.over(6, at + 4, u32(distance // 8 - 1)),
                               (41, mark.piece, mark.slot, callee))

    def source_records(self):
        """Records of tables 7 and 8: changed, and a line record that 12 refuses."""
        for row, f in enumerate(self.source.functions):
            pieces = [k for k, piece in enumerate(self.image.pieces) if piece[0] == row]
            if not pieces:
                continue
            at = sum(g.funcs for g in self.source.functions[:row])
            for j in range(f.funcs):
                changed = self.case.over(7, 8 * (at + j) + 4, u32(self.case.number(7, 8 * (at + j) + 4) ^ 1))
                yield "source: a record's type changed", changed, (42,)
            at = sum(g.lines for g in self.source.functions[:row])
            for j in range(f.lines):
                changed = self.case.over(8, 16 * (at + j) + 8, u32(self.case.number(8, 16 * (at + j) + 8) ^ 1))
                yield "source: a record's line changed", changed, (43,)
            later = [k for k in pieces if k]
            for j in range(1, f.lines if later else 0):
                yield from self.line_outside(row, f, at, j, later)

    def line_outside(self, row, f, at, j, later):
        """Record j of the row past its function or before its first record.  Once the image is left as it is; once its
        records go along, so that nothing but 12 is wrong with them."""
        first = self.source.lines[row][0][0]
        # The root's records come first in the image, and stand there as in the source.
        along = self.image.pieces[0][0] != row
        for slot in (first + f.slots, first - 1):
            if not 0 <= slot < 2**32:
                continue
            case = self.case.over(8, 16 * (at + j), u32(slot))
            if along:
                yield "source: a line outside", case, (12, row, j, 0)
            owners = self.owners("l")
            for k in (later if along else [0] + later):
                moved = slot if k == 0 else self.image.pieces[k][1] + slot - first
                case = case.over("l", 16 * owners.index((k, j)), u32(moved))
            yield "source: a line outside, the image going along", case, (12, row, j, 0)

    def addresses(self):
        """A function of table 3 at another address: what names it names nothing."""
        functions = self.source.functions
        for row, f in enumerate(functions):
            named = [(mark, here) for here, mark in enumerate(self.image.marks) if mark.callee == row]
            if not named or (f.section, f.address + 1) in self.source.rows:
                continue
            mark = named[0][0]
            yield ("source: a function at another address", self.case.over(3, 32 * row + 8, (f.address + 1).to_bytes(8, "little")),
                   (10, self.image.pieces[mark.piece][0], mark.slot, 0))

    def refused_pieces(self):
        """One more piece, of a function that the link refuses: all else of it right, and its records by the rule."""
        for row, number in self.refused.items():
            f, lines = self.source.functions[row], self.source.lines[row]
            image = [self.resolved(row, k, self.end + k) for k in range(f.slots - (number != 12))]
            if None in image:
                continue
            if number != 12:
                image.append(struct.pack("<BBhi", *self.source.slots[row][-1]))
            funcs = b"".join(u32(self.end) + u32(of_type) for _, of_type in self.source.funcs[row])
            moved = b"".join(u32(self.end + r[0] - lines[0][0]) + b"".join(map(u32, r[1:])) for r in lines)
            case = self.case
            for part, more in (("i", b"".join(image)), ("f", funcs), ("l", moved), ("p", u32(row) + u32(self.end))):
                case = case.edit(part, len(case.parts[part]), 0, more)
            place = f.slots - 1
            if number == 12:
                place = next(j for j, r in enumerate(lines) if not 0 <= r[0] - lines[0][0] < f.slots)
            yield f"a piece that the link refuses: {number}", case, (number, row, place, 0)

    def resolved(self, row, k, here):
        """The slot as it stands in a piece; None if what it names is in no piece."""
        slot, (kind, callee) = self.source.slots[row][k], self.source.meaning(row, k)
        if kind != COPIED:
            starts = [start for other, start in self.image.pieces if other == callee]
            if not starts:
                return None
            slot = slot._replace(immediate=starts[0] - here - 1)
        if kind == REFERS:
            slot = slot._replace(registers=4 << 4 | slot.registers & 15)
        return struct.pack("<BBhi", *slot)
