"""Rows and tables in the layout of document 01, as the cases are made of them.

tools/cases.py uses this file.  `python3 tools/cases.py` makes the stored files
crates/replay/stdin and crates/replay/stdout.
"""

NONE = 0xFFFFFFFF
OTHER, TEXT, SECTION = 0, 1, 2


def u32(value):
    return (value & 0xFFFFFFFF).to_bytes(4, "little")


def u64(value):
    return value.to_bytes(8, "little")


# ---------------------------------------------------------------- rows

def code(number):
    return u32(number)


def symbol(index, section, address, kind):
    return u32(index) + u32(section) + u64(address) + bytes([kind]) + bytes(7)


def function(section, slots, address, offset, funcs=0, lines=0):
    return u32(section) + u32(slots) + u64(address) + u64(offset) + u32(funcs) + u32(lines)


def relocation(section, symbol_index, offset, size):
    return u32(section) + u32(symbol_index) + u64(offset) + bytes([size]) + bytes(7)


def map_row(section, symbol_index, fd, has_data):
    return u32(section) + u32(symbol_index) + u32(fd) + bytes([has_data]) + bytes(3)


def func_record(slot, type_number):
    return u32(slot) + u32(type_number)


def line_record(slot, file=0, line=0, column=0):
    return u32(slot) + u32(file) + u32(line) + u32(column)


# ---------------------------------------------------------------- instructions

def insn(opcode, register=0, offset=0, immediate=0):
    return bytes([opcode, register]) + (offset & 0xFFFF).to_bytes(2, "little") + u32(immediate)


def call(immediate):
    return insn(0x85, 0x10, 0, immediate)


def wide(register, immediate, next_immediate=0):
    """The two slots of a wide load."""
    return [insn(0x18, register, 0, immediate), insn(0, 0, 0, next_immediate)]


EXIT = insn(0x95)
MOVE = insn(0xB7, 1, 0, 5)


# ---------------------------------------------------------------- tables

class Tables:
    """The rows of the eight tables, as lists of bytes."""

    def __init__(self, codes=(), symbols=(), functions=(), relocations=(), maps=(),
                 instructions=(), funcs=(), lines=()):
        self.rows = {1: list(codes), 2: list(symbols), 3: list(functions), 4: list(relocations),
                     5: list(maps), 6: list(instructions), 7: list(funcs), 8: list(lines)}

    def copy(self):
        other = Tables()
        other.rows = {table: list(rows) for table, rows in self.rows.items()}
        return other

    def data(self, table):
        return b"".join(self.rows[table])

    def put(self, table, row, at, data):
        """Writes bytes into one row."""
        old = self.rows[table][row]
        self.rows[table][row] = old[:at] + data + old[at + len(data):]
        assert len(self.rows[table][row]) == len(old)
        return self
