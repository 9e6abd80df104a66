"""A linker from elsewhere: it makes images that are right by document 02 (W1)
and that our own link would never make.

It is written from documents 01 and 02 alone and imports nothing of the project:
it reads the tables, decides what each slot names and merges the records by
itself.  Unlike our link it is told in which order, and how often, functions
stand after the root, and which piece a call goes to where several would do.
"""

import struct
from collections import deque, namedtuple

NOWHERE = 0xFFFFFFFF
OTHER, TEXT, SECTION = 0, 1, 2
CALL, WIDE = 0x85, 0x18

Function = namedtuple("Function", "section slots address offset funcs lines")
Symbol = namedtuple("Symbol", "section address kind")
Slot = namedtuple("Slot", "opcode registers offset immediate")

# What a slot is in the image.
COPIED, CALLS, REFERS = "copied", "call", "reference"
# Where an image slot comes from: the piece, the slot in it, what it is, and the row that it names.
Mark = namedtuple("Mark", "piece slot kind callee")


class Unlinkable(Exception):
    """A function that no image can hold."""


class Source:
    """An object: the bytes of its tables by number, read."""

    def __init__(self, tables):
        self.code = {number for number, in struct.iter_unpack("<I", tables[1])}
        self.symbols = {index: Symbol(*rest) for index, *rest in struct.iter_unpack("<IIQB7x", tables[2])}
        self.functions = [Function(*row) for row in struct.iter_unpack("<IIQQII", tables[3])]
        self.rows = {(f.section, f.address): row for row, f in enumerate(self.functions)}
        self.relocations = {(section, offset): (symbol, size)
                            for section, symbol, offset, size in struct.iter_unpack("<IIQB7x", tables[4])}
        slots = [Slot(*row) for row in struct.iter_unpack("<BBhi", tables[6])]
        funcs = list(struct.iter_unpack("<II", tables[7]))
        lines = list(struct.iter_unpack("<IIII", tables[8]))
        self.slots, self.funcs, self.lines = [], [], []
        for f in self.functions:
            for count, rows, each in ((f.slots, slots, self.slots), (f.funcs, funcs, self.funcs), (f.lines, lines, self.lines)):
                each.append(rows[:count])
                del rows[:count]

    # ---- what a slot names

    def is_call(self, row, k):
        return self.slots[row][k][:3] == (CALL, 0x10, 0)

    def is_wide(self, row, k):
        slots = self.slots[row]
        return slots[k].opcode == WIDE and k + 1 < len(slots) and slots[k + 1][:3] == (0, 0, 0)

    def relocation(self, row, k):
        f = self.functions[row]
        return self.relocations.get((f.section, f.offset + 8 * k))

    def is_code(self, symbol):
        return symbol.kind == TEXT or (symbol.section != NOWHERE and symbol.section in self.code)

    def place(self, row, k):
        """The section and address that a slot names; None if it is copied."""
        f, value = self.functions[row], self.slots[row][k].immediate
        if self.relocation(row, k) is None:
            return (f.section, f.offset + 8 * (k + 1 + value)) if self.is_call(row, k) else None
        index, size = self.relocation(row, k)
        if index not in self.symbols:
            raise Unlinkable("a symbol that is not there")
        symbol = self.symbols[index]
        if not self.is_code(symbol):
            if self.is_call(row, k):
                raise Unlinkable("a call of no code")
            return None
        if symbol.section == NOWHERE or symbol.kind == OTHER or (symbol.kind == SECTION and size not in (32, 64)):
            raise Unlinkable("a form that nobody knows")
        if symbol.kind == TEXT:
            return symbol.section, symbol.address
        return symbol.section, symbol.address + (8 * (value + 1) if size == 32 else value)

    def meaning(self, row, k):
        """(COPIED, None), or CALLS or REFERS with the row."""
        place = self.place(row, k)
        if place is None:
            return COPIED, None
        if not self.is_call(row, k) and not self.is_wide(row, k):
            raise Unlinkable("neither call nor wide load")
        if place not in self.rows:
            raise Unlinkable("no function there")
        return (CALLS if self.is_call(row, k) else REFERS), self.rows[place]

    def callees(self, row):
        """The rows that a function names, in the order of its slots, each once."""
        named = [self.meaning(row, k)[1] for k in range(self.functions[row].slots)]
        return list(dict.fromkeys(callee for callee in named if callee is not None))

    def lines_inside(self, row):
        records = self.lines[row]
        return all(0 <= r[0] - records[0][0] < self.functions[row].slots for r in records)

    def linkable(self):
        """The rows that can stand after the root, if what they name can."""
        able = set()
        for row in range(len(self.functions)):
            try:
                self.callees(row)
            except Unlinkable:
                continue
            if self.lines_inside(row):
                able.add(row)
        return able

    # ---- orders

    def closure(self, rows, able, root):
        """Those rows and all that they reach; None if one of them cannot stand in an image.  The root's records
        are not asked about, since it stands first."""
        reached, queue = set(), deque(rows)
        while queue:
            row = queue.popleft()
            if row in reached:
                continue
            if row not in able and row != root:
                return None
            reached.add(row)
            queue.extend(self.callees(row))
        return reached

    def breadth_first(self, root):
        """The rows that the root reaches, nearest first, without the root itself."""
        order, queue = [], deque([root])
        while queue:
            for callee in self.callees(queue.popleft()):
                if callee != root and callee not in order:
                    order.append(callee)
                    queue.append(callee)
        return order

    def depth_first(self, root):
        """The order of the link itself: each callee with all that it reaches before the next, the root's
        copy among them."""
        order = []

        def visit(row):
            for callee in self.callees(row):
                if callee not in order:
                    order.append(callee)
                    visit(callee)
        visit(root)
        return order

    # ---- an image

    def image(self, root, others, choose):
        """The root, then the pieces of these rows.  `choose` picks one of the starts of a function's pieces."""
        pieces, end = [], 0
        for row in [root] + others:
            pieces.append((row, end))
            end += self.functions[row].slots
        starts = {}
        for row, start in pieces:
            starts.setdefault(row, []).append(start)
        image, funcs, lines, marks = [], [], [], []
        for number, (row, start) in enumerate(pieces):
            for k in range(self.functions[row].slots):
                kind, callee = self.meaning(row, k)
                image.append(self.resolved(row, k, kind, len(image), callee, starts, choose))
                marks.append(Mark(number, k, kind, callee))
            funcs += self.funcs[row] if number == 0 else [(start, of_type) for _, of_type in self.funcs[row]]
            lines += self.lines[row] if number == 0 else self.moved_lines(row, start)
        return Image(image, funcs, lines, pieces, marks)

    def resolved(self, row, k, kind, here, callee, starts, choose):
        slot = self.slots[row][k]
        if kind == COPIED:
            return slot
        slot = slot._replace(immediate=choose(callee, starts[callee]) - here - 1)
        if kind == REFERS:
            slot = slot._replace(registers=4 << 4 | slot.registers & 15)
        return slot

    def moved_lines(self, row, start):
        if not self.lines_inside(row):
            raise Unlinkable("a line outside its function")
        return [(start + r[0] - self.lines[row][0][0],) + r[1:] for r in self.lines[row]]


class Image:
    """An image with its records and its list, as lists of rows."""

    def __init__(self, slots, funcs, lines, pieces, marks):
        self.slots, self.funcs, self.lines, self.pieces, self.marks = slots, funcs, lines, pieces, marks

    def target(self, here):
        return here + 1 + self.slots[here].immediate

    def called(self):
        """The starts that some slot points to."""
        return {self.target(here) for here, mark in enumerate(self.marks) if mark.kind != COPIED}

    def parts(self):
        """The bytes of image, function records, line records and list."""
        return {"i": b"".join(struct.pack("<BBhi", *slot) for slot in self.slots),
                "f": b"".join(struct.pack("<II", *record) for record in self.funcs),
                "l": b"".join(struct.pack("<IIII", *record) for record in self.lines),
                "p": b"".join(struct.pack("<II", *piece) for piece in self.pieces)}


# ---- the ways to lay out

def any_piece(rng):
    return lambda row, starts: rng.choice(starts)


def first_piece(row, starts):
    return starts[0]


def last_piece(row, starts):
    return starts[-1]


def repeated(rng, rows):
    """Each once, twice or three times, in any order; one at least twice."""
    rows = list(rows)
    more = rows + [row for row in rows for _ in range(rng.choice((0, 1, 1, 2)))] + [rng.choice(rows)]
    rng.shuffle(more)
    return more


def ways(rng, source, root):
    """(kind, image) of each way that this object and root allow.  A kind says what holds of the image."""
    able = source.linkable()
    try:
        reached = source.closure([root], able, root)
    except Unlinkable:
        reached = None
    if reached is None:
        return
    near, own = source.breadth_first(root), source.depth_first(root)
    own_once = [row for row in own if row != root]
    back, copyable = root in own, root in able
    uncalled = [row for row in able if row not in reached and source.closure([row], able, root) is not None]
    if not own:
        yield "the root alone", source.image(root, [], first_piece)
    elif not back or copyable:
        yield "the link's own order", source.image(root, own, last_piece)
    if near != own_once:
        yield "breadth-first", source.image(root, near, first_piece)
    shuffled = rng.sample(near, len(near))
    if shuffled not in (near, own_once):
        yield "shuffled", source.image(root, shuffled, first_piece)
    if near:
        image = source.image(root, repeated(rng, near), any_piece(rng))
        called = [row for row, start in image.pieces[1:] if start in image.called()]
        if len(called) > len(set(called)):
            yield "a function twice, both called", image
    if uncalled:
        picked = rng.sample(uncalled, rng.randint(1, len(uncalled)))
        others = sorted((reached | source.closure(picked, able, root)) - {root})
        yield "a function that nobody calls", source.image(root, rng.sample(others, len(others)), any_piece(rng))
    if copyable:
        others = rng.sample(near + [root], len(near) + 1)
        if back:
            yield "the root's copy called", source.image(root, others, last_piece)
        yield "the root's copy, not called", source.image(root, others, first_piece)
    if back:
        yield "the first piece called", source.image(root, near, first_piece)
    rows = sorted((reached | source.closure(uncalled, able, root)) - {root}) + [root] * copyable
    if rows:
        yield "all together", source.image(root, repeated(rng, rows), any_piece(rng))
