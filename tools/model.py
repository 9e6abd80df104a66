"""An independent model of document 01, the requirements (docs/01-scope.md), and
of what document 02 (docs/02-change-requests.md) adds to it.

It is written from the words of those documents alone, and not from the project's
definitions or code.  Each rule stands under the sentence that it says.  It is
slow and literal on purpose: it searches every table from its start each time.

`python3 tools/cases.py` runs the cases through this model and writes
crates/replay/stdin and crates/replay/stdout; `python3 tools/examine_cases.py`
writes tests/examine.cases.  There is nothing to install.

Every entry answers a number and three places, as document 01 counts them.
"""

NONE = 0xFFFFFFFF

# "Section numbers are at most 65,535; addresses and offsets at most 2^48 - 1."
MOST_SECTION = 65_535
MOST_ADDRESS = 2**48 - 1

# The table of the eight tables: bytes of a row, and most rows.
ROW_SIZE = {1: 4, 2: 24, 3: 32, 4: 24, 5: 16, 6: 8, 7: 8, 8: 16}
MOST_ROWS = {1: 64, 2: 1_024, 3: 64, 4: 1_024, 5: 64, 6: 8_192, 7: 256, 8: 4_096}

# "The map step takes 1 to 6, the link 1 to 4 and 6 to 8, with a root row."
MAP_STEP_TABLES = (1, 2, 3, 4, 5, 6)
LINK_TABLES = (1, 2, 3, 4, 6, 7, 8)

# "Images hold at most 4,096 slots, 256 function and 4,096 line records."
MOST_IMAGE_SLOTS = 4_096
MOST_IMAGE_FUNCS = 256
MOST_IMAGE_LINES = 4_096

OTHER, TEXT, SECTION = 0, 1, 2


class Refused(Exception):
    """The first refusal: its number and its place numbers."""

    def __init__(self, number, a=0, b=0, c=0):
        super().__init__(number, a, b, c)
        self.number = number
        # "Place numbers not named are 0."
        self.places = (a, b, c)


# ---------------------------------------------------------------- bytes

def unsigned(data, at, size):
    """Little-endian."""
    return int.from_bytes(data[at:at + size], "little")


def signed(data, at, size):
    return int.from_bytes(data[at:at + size], "little", signed=True)


def whole_rows(table, data):
    """The rows of a table, a partial one left out."""
    size = ROW_SIZE[table]
    return [data[i * size:(i + 1) * size] for i in range(len(data) // size)]


# ---------------------------------------------------------------- rows

class Symbol:
    """index u32, section u32 or none, address u64, kind u8, 7 padding"""

    def __init__(self, row):
        self.index = unsigned(row, 0, 4)
        self.section = unsigned(row, 4, 4)
        self.address = unsigned(row, 8, 8)
        self.kind = row[16]
        self.padding = row[17:24]


class Function:
    """section u32, slots u32, address u64, section offset u64,
    function records u32, line records u32"""

    def __init__(self, row):
        self.section = unsigned(row, 0, 4)
        self.slots = unsigned(row, 4, 4)
        self.address = unsigned(row, 8, 8)
        self.section_offset = unsigned(row, 16, 8)
        self.func_records = unsigned(row, 24, 4)
        self.line_records = unsigned(row, 28, 4)


class Relocation:
    """section u32, symbol u32, offset u64, size u8, 7 padding"""

    def __init__(self, row):
        self.section = unsigned(row, 0, 4)
        self.symbol = unsigned(row, 4, 4)
        self.offset = unsigned(row, 8, 8)
        self.size = row[16]
        self.padding = row[17:24]


class Map:
    """section u32, symbol u32 or none, fd i32, has data u8, 3 padding"""

    def __init__(self, row):
        self.section = unsigned(row, 0, 4)
        self.symbol = unsigned(row, 4, 4)
        self.fd = signed(row, 8, 4)
        self.has_data = row[12]
        self.padding = row[13:16]


def code_rows(data):
    return [unsigned(row, 0, 4) for row in whole_rows(1, data)]


def symbol_rows(data):
    return [Symbol(row) for row in whole_rows(2, data)]


def function_rows(data):
    return [Function(row) for row in whole_rows(3, data)]


def relocation_rows(data):
    return [Relocation(row) for row in whole_rows(4, data)]


def map_rows(data):
    return [Map(row) for row in whole_rows(5, data)]


# ---------------------------------------------------------------- broken rows

def code_broken(rows, k):
    """number u32; strictly rising"""
    if rows[k] > MOST_SECTION:
        return True
    # "Of rows out of order or doubled, the later is broken."
    return k > 0 and not rows[k - 1] < rows[k]


def symbol_broken(rows, k):
    row = rows[k]
    # "FFFFFFFF hex means none; as a symbol index in table 2 or 4 it breaks the row."
    if row.index == NONE:
        return True
    # "section u32 or none"
    if row.section != NONE and row.section > MOST_SECTION:
        return True
    if row.address > MOST_ADDRESS:
        return True
    # "kind u8 (0 other, 1 Text, 2 Section)"
    if row.kind > 2:
        return True
    # "Padding is zero."
    if any(row.padding):
        return True
    # "index strictly rising"
    return k > 0 and not rows[k - 1].index < row.index


def function_broken(rows, k):
    row = rows[k]
    if row.section > MOST_SECTION:
        return True
    # "slots 1 to 4,096"
    if not 1 <= row.slots <= 4_096:
        return True
    if row.address > MOST_ADDRESS or row.section_offset > MOST_ADDRESS:
        return True
    # "section offset a multiple of 8"
    if row.section_offset % 8 != 0:
        return True
    # "(section, address) strictly rising"
    if k == 0:
        return False
    before = rows[k - 1]
    return not (before.section, before.address) < (row.section, row.address)


def relocation_broken(rows, k):
    row = rows[k]
    if row.section > MOST_SECTION:
        return True
    if row.symbol == NONE:
        return True
    if row.offset > MOST_ADDRESS:
        return True
    if any(row.padding):
        return True
    # "(section, offset) strictly rising"
    if k == 0:
        return False
    before = rows[k - 1]
    return not (before.section, before.offset) < (row.section, row.offset)


def map_broken(rows, k):
    row = rows[k]
    if row.section > MOST_SECTION:
        return True
    # "has data u8 (0 or 1), 3 padding"
    if row.has_data > 1:
        return True
    if any(row.padding):
        return True
    # "no symbol twice, at most one map without a symbol per section"
    for before in rows[:k]:
        if row.symbol != NONE and before.symbol == row.symbol:
            return True
        if row.symbol == NONE and before.symbol == NONE and before.section == row.section:
            return True
    return False


ROWS_OF = {1: code_rows, 2: symbol_rows, 3: function_rows, 4: relocation_rows, 5: map_rows}
BROKEN = {1: code_broken, 2: symbol_broken, 3: function_broken, 4: relocation_broken, 5: map_broken}


# ---------------------------------------------------------------- the checks

def check_rows(table, data):
    """2: "first broken or partial row": table, row"""
    rows = ROWS_OF[table](data)
    for k in range(len(rows)):
        if BROKEN[table](rows, k):
            raise Refused(2, table, k)
    if len(data) % ROW_SIZE[table] != 0:
        raise Refused(2, table, len(rows))


def check_total(table, data, functions):
    """2: "6 to 8: wrong total": table, 0"""
    # "Tables 6, 7, 8 hold exactly the rows that table 3 adds up to."
    if table == 6:
        total = sum(f.slots for f in functions)
    elif table == 7:
        total = sum(f.func_records for f in functions)
    else:
        total = sum(f.line_records for f in functions)
    if len(data) != total * ROW_SIZE[table]:
        raise Refused(2, table, 0)


def check(tables, given):
    """`tables` has the bytes of each table by its number."""
    # "Order: 1 over all tables given, then 2, both by table number"
    for table in given:
        # "too many rows; a partial row counts as one"
        size = ROW_SIZE[table]
        rows = len(tables[table]) // size + (1 if len(tables[table]) % size else 0)
        if rows > MOST_ROWS[table]:
            raise Refused(1, table, 0)
    for table in given:
        if table <= 5:
            check_rows(table, tables[table])
        else:
            check_total(table, tables[table], function_rows(tables[3]))


def check_map_step(tables):
    """(number, places): 0, 1 or 2, before the steps."""
    try:
        check(tables, MAP_STEP_TABLES)
    except Refused as refusal:
        return refusal.number, refusal.places
    return 0, (0, 0, 0)


def check_link(tables, root):
    """(number, places): 0, 1, 2 or 13, before the steps."""
    try:
        check(tables, LINK_TABLES)
        # "then 13": "root is no row of table 3"
        if root >= len(function_rows(tables[3])):
            raise Refused(13)
    except Refused as refusal:
        return refusal.number, refusal.places
    return 0, (0, 0, 0)


# ---------------------------------------------------------------- instructions

def is_call(slot):
    """A call is opcode 85 hex, register byte 10 hex, offset 0, any immediate."""
    return slot[0] == 0x85 and slot[1] == 0x10 and signed(slot, 2, 2) == 0


def is_wide_load(slots, k):
    """A wide load is opcode 18 hex with a next slot in the same function whose
    first four bytes are 0."""
    if slots[k][0] != 0x18:
        return False
    if k + 1 >= len(slots):
        return False
    return bytes(slots[k + 1][0:4]) == bytes(4)


def immediate(slot):
    """immediate i32"""
    return signed(slot, 4, 4)


def set_immediate(slot, value):
    slot[4:8] = value.to_bytes(4, "little", signed=True)


def set_source(slot, register):
    """register byte with source in the high four bits, destination in the low"""
    slot[1] = (register << 4) | (slot[1] & 0x0F)


def slots_of_functions(functions, instructions):
    """8 bytes, functions one after another: the slots of each function."""
    each, at = [], 0
    for f in functions:
        each.append([bytearray(instructions[(at + i) * 8:(at + i + 1) * 8]) for i in range(f.slots)])
        at += f.slots
    return each


def find_symbol(symbols, index):
    for symbol in symbols:
        if symbol.index == index:
            return symbol
    return None


def in_code(code, section):
    return section != NONE and section in code


# ---------------------------------------------------------------- map step

def find_map(maps, symbol):
    """the map with that symbol, else the map of that section without a symbol"""
    for m in maps:
        if m.symbol != NONE and m.symbol == symbol.index:
            return m
    for m in maps:
        if m.symbol == NONE and m.section == symbol.section:
            return m
    return None


def apply_relocation(code, symbols, maps, function, relocation, row, slots):
    """One relocation of one function.  True if it was applied, False if skipped."""
    # "Skip an offset outside the function's bytes from its section offset."
    at = relocation.offset - function.section_offset
    if at < 0 or at >= 8 * function.slots:
        return False
    # "4": "relocation off the 8-byte grid": function, slot rounded down
    k = at // 8
    if at % 8 != 0:
        raise Refused(4, row, k)
    # "3": "relocation's symbol not in table 2": function, slot
    symbol = find_symbol(symbols, relocation.symbol)
    if symbol is None:
        raise Refused(3, row, k)
    # "skip if the symbol has no section"
    if symbol.section == NONE:
        return False
    # "skip if the slot is a call or the section is in table 1"
    if is_call(slots[k]) or in_code(code, symbol.section):
        return False
    # "5 if the kind is Text"
    if symbol.kind == TEXT:
        raise Refused(5, row, k)
    # "the map with that symbol, else the map of that section without a symbol, else 5"
    found = find_map(maps, symbol)
    if found is None:
        raise Refused(5, row, k)
    # "6": "not a wide load"
    if not is_wide_load(slots, k):
        raise Refused(6, row, k)
    # "with data, 7": "value offset outside i32"
    value = immediate(slots[k]) + symbol.address
    if found.has_data == 1 and not -2**31 <= value <= 2**31 - 1:
        raise Refused(7, row, k)
    # "Then: no data, source register 1. With data, source register 2 and the next
    # slot's immediate becomes old immediate plus symbol address. Last, immediate = fd."
    if found.has_data == 0:
        set_source(slots[k], 1)
    else:
        set_source(slots[k], 2)
        set_immediate(slots[k + 1], value)
    set_immediate(slots[k], found.fd)
    return True


def map_step(code, symbols, functions, relocations, maps, instructions):
    """(number, places, table 6 after)"""
    tables = {1: code, 2: symbols, 3: functions, 4: relocations, 5: maps, 6: instructions}
    number, places = check_map_step(tables)
    if number != 0:
        return number, places, bytes(instructions)
    code, symbols, maps = code_rows(code), symbol_rows(symbols), map_rows(maps)
    functions, relocations = function_rows(functions), relocation_rows(relocations)
    each = slots_of_functions(functions, instructions)
    applied = 0
    try:
        # "Functions by row, then relocations of that section by row."
        for row, function in enumerate(functions):
            for relocation in relocations:
                if relocation.section != function.section:
                    continue
                if apply_relocation(code, symbols, maps, function, relocation, row, each[row]):
                    applied += 1
    except Refused as refusal:
        # "no refusal touches it"
        return refusal.number, refusal.places, bytes(instructions)
    # "map step: relocations applied"
    return 0, (applied, 0, 0), b"".join(bytes(slot) for slots in each for slot in slots)


# ---------------------------------------------------------------- link step

class Linker:
    def __init__(self, code, symbols, functions, relocations, instructions, func_info, line_info,
                 image_len, func_len, line_len):
        self.code = code_rows(code)
        self.symbols = symbol_rows(symbols)
        self.functions = function_rows(functions)
        self.relocations = relocation_rows(relocations)
        self.slots = slots_of_functions(self.functions, instructions)
        self.func_records, self.line_records = self.records(func_info, line_info)
        self.room = (image_len, func_len, line_len)
        self.image = []     # each a bytearray of 8
        self.funcs = []     # each [slot, type]
        self.lines = []     # each [slot, file, line, column]
        self.placed = {}    # (section, address) to start
        self.pieces = []    # (row, start), in the order of placing

    def records(self, func_info, line_info):
        funcs, lines, f_at, l_at = [], [], 0, 0
        for f in self.functions:
            funcs.append([[unsigned(func_info, (f_at + i) * 8 + 4 * j, 4) for j in range(2)]
                          for i in range(f.func_records)])
            lines.append([[unsigned(line_info, (l_at + i) * 16 + 4 * j, 4) for j in range(4)]
                          for i in range(f.line_records)])
            f_at += f.func_records
            l_at += f.line_records
        return funcs, lines

    def need_room(self, row):
        """room for instructions, function records, line records (11 each, in the
        buffer and under the limit)"""
        function = self.functions[row]
        slots = len(self.image) + function.slots
        if 8 * slots > self.room[0] or slots > MOST_IMAGE_SLOTS:
            raise Refused(11, row, 0)
        funcs = len(self.funcs) + function.func_records
        if 8 * funcs > self.room[1] or funcs > MOST_IMAGE_FUNCS:
            raise Refused(11, row, 0)
        lines = len(self.lines) + function.line_records
        if 16 * lines > self.room[2] or lines > MOST_IMAGE_LINES:
            raise Refused(11, row, 0)

    def start_with_root(self, root):
        # "The root needs room too, but its records meet no 12."
        self.need_room(root)
        # "The image starts as the root with its records unchanged."
        self.image.extend(bytearray(slot) for slot in self.slots[root])
        self.funcs.extend(list(record) for record in self.func_records[root])
        self.lines.extend(list(record) for record in self.line_records[root])
        self.pieces.append((root, 0))
        # "The root is not placed at the start: a call back to it appends one copy."
        self.visit(root, 0)

    def append(self, row):
        function = self.functions[row]
        # "Appending needs room for ..., then 12."
        self.need_room(row)
        start = len(self.image)
        # "Appended line records become start + (slot - slot of that function's first line
        # record); 12 if that difference is negative or not below the function's slots."
        lines = self.line_records[row]
        for k, record in enumerate(lines):
            difference = record[0] - lines[0][0]
            if difference < 0 or not difference < function.slots:
                raise Refused(12, row, k)
        for record in lines:
            self.lines.append([start + (record[0] - lines[0][0])] + record[1:])
        # "Appended function records all get the start as slot."
        for record in self.func_records[row]:
            self.funcs.append([start, record[1]])
        self.image.extend(bytearray(slot) for slot in self.slots[row])
        self.pieces.append((row, start))
        # "append the function, place it, and visit all its slots before going on"
        self.placed[(function.section, function.address)] = start
        self.visit(row, start)

    def visit(self, row, start):
        # "Each function's slots are visited in rising order."
        for k in range(self.functions[row].slots):
            self.visit_slot(row, start, k)

    def relocation_of(self, row, k):
        """A slot's relocation is the row with the function's section and offset
        section offset + 8 x slot; the search stops at the first matching row."""
        function = self.functions[row]
        for relocation in self.relocations:
            if (relocation.section == function.section
                    and relocation.offset == function.section_offset + 8 * k):
                return relocation
        return None

    def target_of(self, row, k):
        """The section and address that a slot names, or None for a copied slot."""
        function, slot = self.functions[row], self.slots[row][k]
        relocation = self.relocation_of(row, k)
        # "No relocation: a call's target is the function's own section, at section
        # offset + 8 x slot + 8 x (immediate + 1). Other slots are copied."
        if relocation is None:
            if not is_call(slot):
                return None
            return function.section, function.section_offset + 8 * k + 8 * (immediate(slot) + 1)
        # "Otherwise 3."
        symbol = find_symbol(self.symbols, relocation.symbol)
        if symbol is None:
            raise Refused(3, row, k)
        # "It refers to code if the kind is Text or its section is in table 1. If not: 9
        # on a call, else copied."
        if not (symbol.kind == TEXT or in_code(self.code, symbol.section)):
            if is_call(slot):
                raise Refused(9, row, k)
            return None
        target = self.code_target(row, k, symbol, relocation)
        # "Then 6 if neither call nor wide load."
        if not is_call(slot) and not is_wide_load(self.slots[row], k):
            raise Refused(6, row, k)
        return target

    def code_target(self, row, k, symbol, relocation):
        value = immediate(self.slots[row][k])
        # "Code: Text without section gives 8; Text targets the address; Section with size
        # 32 targets address + 8 x (immediate + 1), with size 64 address + immediate;
        # anything else 8."
        if symbol.kind == TEXT:
            if symbol.section == NONE:
                raise Refused(8, row, k)
            return symbol.section, symbol.address
        if symbol.kind == SECTION and relocation.size == 32:
            return symbol.section, symbol.address + 8 * (value + 1)
        if symbol.kind == SECTION and relocation.size == 64:
            return symbol.section, symbol.address + value
        raise Refused(8, row, k)

    def function_at(self, row, k, target):
        """10 if no row has that section and exactly that address; no other cause."""
        for i, function in enumerate(self.functions):
            if (function.section, function.address) == target:
                return i
        raise Refused(10, row, k)

    def visit_slot(self, row, start, k):
        target = self.target_of(row, k)
        if target is None:
            return
        callee = self.function_at(row, k, target)
        # "If that pair is not yet placed, append the function, ..."
        if target not in self.placed:
            self.append(callee)
        # "Immediate = callee start - slot in image - 1. A wide load also gets source
        # register 4."
        at = start + k
        set_immediate(self.image[at], self.placed[target] - at - 1)
        if is_wide_load(self.slots[row], k):
            set_source(self.image[at], 4)


def words(records):
    return b"".join(word.to_bytes(4, "little") for record in records for word in record)


def zero_after(data, length):
    """zero after the used bytes"""
    return data + bytes(length - len(data))


def link_with(code, symbols, functions, relocations, instructions, func_info, line_info, root,
              image_len, func_len, line_len):
    """What the link answers, and its pieces: none where it is refused."""
    tables = {1: code, 2: symbols, 3: functions, 4: relocations, 6: instructions,
              7: func_info, 8: line_info}
    # "A refused link has written zero everywhere in its outputs."
    wiped = (bytes(image_len), bytes(func_len), bytes(line_len))
    number, places = check_link(tables, root)
    if number != 0:
        return (number, places) + wiped, []
    linker = Linker(code, symbols, functions, relocations, instructions, func_info, line_info,
                    image_len, func_len, line_len)
    try:
        linker.start_with_root(root)
    except Refused as refusal:
        return (refusal.number, refusal.places) + wiped, []
    # "link: slots, function records, line records"
    places = (len(linker.image), len(linker.funcs), len(linker.lines))
    return (0, places, zero_after(b"".join(bytes(s) for s in linker.image), image_len),
            zero_after(words(linker.funcs), func_len),
            zero_after(words(linker.lines), line_len)), linker.pieces


def link(code, symbols, functions, relocations, instructions, func_info, line_info, root,
         image_len, func_len, line_len):
    """(number, places, image, function records, line records)"""
    return link_with(code, symbols, functions, relocations, instructions, func_info, line_info,
                     root, image_len, func_len, line_len)[0]


# ---------------------------------------------------------------- W1 of document 02

# A list of pieces is rows of two little-endian u32, function row and start.
PIECE_SIZE = 8
# The number of the list where an answer names what is wrong; 6, 7 and 8 are the image and its records.
LIST = 9


def link_pieces(code, symbols, functions, relocations, instructions, func_info, line_info, root,
                image_len, func_len, line_len, pieces_len):
    """(number, places, image, function records, line records, pieces): the link with its list, "its
    true list", in the order of placing."""
    # 32, before every other: the list has no room for each function once and the root's copy.
    if pieces_len < PIECE_SIZE * (len(functions) // ROW_SIZE[3] + 1):
        return 32, (0, 0, 0), bytes(image_len), bytes(func_len), bytes(line_len), bytes(pieces_len)
    answer, pieces = link_with(code, symbols, functions, relocations, instructions, func_info,
                               line_info, root, image_len, func_len, line_len)
    return answer + (zero_after(words(pieces), pieces_len),)


class Examiner:
    """"takes the tables, a root row, an image with its records and a claimed list of pieces".
    What is wrong first is raised, in this order: sizes; the list; piece by piece its slots and its
    records; records that are over."""

    def __init__(self, source, image, func_info, line_info, pieces):
        self.source = source
        self.shown = (image, func_info, line_info, pieces)

    def examine(self, root):
        self.check_sizes()
        self.check_list(root)
        self.check_tiles()
        funcs = lines = 0
        for k, (row, start) in enumerate(self.pieces):
            for slot in range(self.source.functions[row].slots):
                self.check_slot(k, row, slot, start + slot)
            self.check_func_records(k, row, start, funcs)
            self.check_line_records(k, row, start, lines)
            funcs += self.source.functions[row].func_records
            lines += self.source.functions[row].line_records
        self.check_over(funcs, lines)
        return len(self.pieces)

    def check_sizes(self):
        """"so do ... an image over 01's limits".  Each function has a slot, so no image has more
        pieces than slots."""
        for table, size, most, data in zip((6, 7, 8, LIST), (8, 8, 16, PIECE_SIZE),
                                           (MOST_IMAGE_SLOTS, MOST_IMAGE_FUNCS, MOST_IMAGE_LINES, MOST_IMAGE_SLOTS),
                                           self.shown):
            # 33: more than an image can hold, a partial row counted as one
            if len(data) > size * most:
                raise Refused(33, table)
            # 34: a partial row, after so many whole ones
            if len(data) % size != 0:
                raise Refused(34, table, len(data) // size)
        image, func_info, line_info, pieces = self.shown
        self.image = [image[at:at + 8] for at in range(0, len(image), 8)]
        self.funcs = [[unsigned(func_info, at + 4 * j, 4) for j in range(2)] for at in range(0, len(func_info), 8)]
        self.lines = [[unsigned(line_info, at + 4 * j, 4) for j in range(4)] for at in range(0, len(line_info), 16)]
        self.pieces = [(unsigned(pieces, at, 4), unsigned(pieces, at + 4, 4)) for at in range(0, len(pieces), 8)]
        self.claimed = set(self.pieces)

    def check_list(self, root):
        # "the first piece is the root at 0": 35
        if self.pieces[:1] != [(root, 0)]:
            raise Refused(35)

    def check_tiles(self):
        """"the pieces tile the image in list order" """
        at = 0
        for k, (row, start) in enumerate(self.pieces):
            # 36: its row is no row of table 3
            if row >= len(self.source.functions):
                raise Refused(36, k, row)
            # 37: it starts elsewhere than where the one before it ends
            if start != at:
                raise Refused(37, k, at)
            at += self.source.functions[row].slots
        # 38: they end elsewhere than the image
        if at != len(self.image):
            raise Refused(38, len(self.pieces), at)

    def check_slot(self, k, row, slot, here):
        """"every slot is its source slot with only the permitted fields rewritten" """
        source, shown = bytearray(self.source.slots[row][slot]), self.image[here]
        # "A source slot ... that the link step would refuse makes it no": the link's own refusal
        target = self.source.target_of(row, slot)
        if target is None:
            if bytes(source) != shown:
                raise Refused(39, k, slot, here)
            return
        callee = self.source.function_at(row, slot, target)
        is_reference = is_wide_load(self.source.slots[row], slot)
        # Permitted: the immediate, and the source register of a reference.
        source[4:8] = shown[4:8]
        if is_reference:
            set_source(source, shown[1] >> 4)
        if bytes(source) != shown:
            raise Refused(39, k, slot, here)
        # "a reference with source register 4"
        if is_reference and shown[1] >> 4 != 4:
            raise Refused(40, k, slot, callee)
        # "every resolved slot points to the start of a piece of the right function"
        if (callee, here + 1 + immediate(shown)) not in self.claimed:
            raise Refused(41, k, slot, callee)

    def check_func_records(self, k, row, start, at):
        """"the pieces' records follow the merge rule in list order" """
        for j, record in enumerate(self.source.func_records[row]):
            # The first piece's are unchanged, those of later ones get the start as slot.
            right = record if k == 0 else [start, record[1]]
            if self.funcs[at + j:at + j + 1] != [right]:
                raise Refused(42, k, j, at + j)

    def check_line_records(self, k, row, start, at):
        records = self.source.line_records[row]
        # "A ... line record that the link step would refuse makes it no"; the first piece meets no 12
        for j, record in enumerate(records):
            if k > 0 and not 0 <= record[0] - records[0][0] < self.source.functions[row].slots:
                raise Refused(12, row, j)
        for j, record in enumerate(records):
            right = record if k == 0 else [start + (record[0] - records[0][0])] + record[1:]
            if self.lines[at + j:at + j + 1] != [right]:
                raise Refused(43, k, j, at + j)

    def check_over(self, funcs, lines):
        """"none over": 44"""
        if len(self.funcs) > funcs:
            raise Refused(44, 7, funcs)
        if len(self.lines) > lines:
            raise Refused(44, 8, lines)


def examine(code, symbols, functions, relocations, instructions, func_info, line_info, root,
            image, image_func_info, image_line_info, pieces):
    """(number, places): 0 is yes, and the first place then counts the pieces"""
    tables = {1: code, 2: symbols, 3: functions, 4: relocations, 6: instructions,
              7: func_info, 8: line_info}
    # "so do broken tables": 1, 2 and 13, as the link says them
    number, places = check_link(tables, root)
    if number != 0:
        return number, places
    source = Linker(code, symbols, functions, relocations, instructions, func_info, line_info, 0, 0, 0)
    try:
        return 0, (Examiner(source, image, image_func_info, image_line_info, pieces).examine(root), 0, 0)
    except Refused as refusal:
        return refusal.number, refusal.places


# ---------------------------------------------------------------- record readers

# "14 if the size is below 8 (function) or 16 (line)"
LEAST = {"func": 8, "line": 16}


def info_broken(kind, size, count, data):
    """14 if the size is below 8 (function) or 16 (line), count x size differs from the
    data length, or a byte offset is not a multiple of 8."""
    if size < LEAST[kind]:
        return True
    if count * size != len(data):
        return True
    return any(unsigned(data, i * size, 4) % 8 != 0 for i in range(count))


def read_records(kind, size, count, data, out_len):
    """(number, places, output)"""
    if info_broken(kind, size, count, data):
        return 14, (0, 0, 0), bytes(out_len)
    # "11 if it is too short, after 14": "readers 0, 0"
    if count * LEAST[kind] > out_len:
        return 11, (0, 0, 0), bytes(out_len)
    out = b""
    for i in range(count):
        record = data[i * size:i * size + LEAST[kind]]
        # "Slot = byte offset / 8. A longer record's tail is ignored."
        out += (unsigned(record, 0, 4) // 8).to_bytes(4, "little") + record[4:]
    return 0, (count, 0, 0), zero_after(out, out_len)


def record_part(kind, size, count, data, k):
    """(number, places, the part): "record k, tail included" """
    # "after the same 14 checks, k too large is 14; every refusal gives an empty part, and
    # a companion entry returns its number"
    if info_broken(kind, size, count, data) or k >= count:
        return 14, (0, 0, 0), b""
    return 0, (count, 0, 0), data[k * size:(k + 1) * size]


# ---------------------------------------------------------------- places

def place_buffer(places, length):
    """write the place numbers, u32 each, to a lent buffer: those that fit whole, zero after"""
    out = b""
    for place in places:
        if len(out) + 4 <= length:
            out += place.to_bytes(4, "little")
    return zero_after(out, length)
