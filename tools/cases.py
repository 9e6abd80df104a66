"""Makes the case list that the program crates/replay runs.

    python3 tools/cases.py

writes crates/replay/stdin, the cases, and crates/replay/stdout, a line for each
case with the answer of tools/model.py, the independent model of document 01.
The list is the same each time: nothing but a fixed seed is random.

The cases stand in the files tools/cases_*.py, one file for each group:
tables, maps, links, readers, and random objects.  After them come the vectors
in compare/vectors: cases of the same form whose lines hold the answers of the
Rust crate (compare/README.md); the model is held to those as well.

The stream is little-endian.  A case starts with 24 u32: [0] 0x4B524142; [1] the
kind, 1 link, 2 map step, 3 function records, 4 line records, 5 a function
record, 6 a line record; [2..9] byte lengths of tables 1 to 8; [10] root, or k;
[11] record size; [12] record count; [13] length of the reader's data; [14..16]
lengths of the outputs (link: image, function records, line records; readers:
[14]); [17] length of the place buffer; the rest 0.  Then come the tables' bytes
in order and the reader's data.

A line is INDEX KIND NUMBER | place buffer in hex | a checksum of each output:
link three, map step table 6 after it, readers the output, a record part the
part and its length.  A checksum is s = s * 31 + byte, modulo 2^32, from 1.
"""

import os
import sys

import model
from objects import Tables

MAGIC = 0x4B524142
LINK, MAP_STEP, FUNC_INFO, LINE_INFO, FUNC_RECORD, LINE_RECORD = 1, 2, 3, 4, 5, 6
NAMES = {1: "link", 2: "map step", 3: "func_info", 4: "line_info", 5: "func record", 6: "line record"}
READ = {FUNC_INFO: "func", LINE_INFO: "line", FUNC_RECORD: "func", LINE_RECORD: "line"}

# What the program has room for: tables 1 to 8, data, and the three outputs.
ROOM = {1: 272, 2: 24_600, 3: 2_100, 4: 24_600, 5: 1_050, 6: 65_600, 7: 2_100, 8: 65_600}
ROOM_DATA, ROOM_OUT, ROOM_PLACES = 66_000, (33_000, 2_100, 66_000), 16


def checksum(data):
    s = 1
    for byte in data:
        s = (s * 31 + byte) % 2**32
    return s


class Cases:
    def __init__(self):
        self.stream = bytearray()
        self.lines = []
        self.tally = {}

    def add(self, kind, header, body, answer, outputs, places):
        """One case: its bytes, and the line that the program has to print."""
        number, numbers = answer
        words = [MAGIC, kind] + header + [places]
        words += [0] * (24 - len(words))
        self.stream += b"".join(word.to_bytes(4, "little") for word in words) + body
        buffer = model.place_buffer(numbers, places).hex()
        sums = " ".join(str(value) for value in outputs)
        self.lines.append(f"{len(self.lines)} {kind} {number} | {buffer} | {sums}")
        self.tally[kind, number] = self.tally.get((kind, number), 0) + 1
        return number, numbers

    def link(self, tables, root=0, outputs=None, places=12, expect=None):
        """`expect` is an answer that document 01 gives itself."""
        data = {table: tables.data(table) for table in range(1, 9)}
        if outputs is None:
            outputs = (min(ROOM_OUT[0], 16 * len(tables.rows[6]) + 3),
                       min(ROOM_OUT[1], 16 * len(tables.rows[7]) + 5),
                       min(ROOM_OUT[2], 32 * len(tables.rows[8]) + 7))
        assert all(a <= b for a, b in zip(outputs, ROOM_OUT)), outputs
        assert all(len(data[t]) <= ROOM[t] for t in ROOM), [len(data[t]) for t in ROOM]
        number, numbers, *out = model.link(data[1], data[2], data[3], data[4], data[6], data[7],
                                           data[8], root, *outputs)
        self.meet(expect, (number, numbers))
        header = [len(data[t]) for t in range(1, 9)] + [root, 0, 0, 0] + list(outputs)
        self.add(LINK, header, b"".join(data.values()), (number, numbers),
                 [checksum(o) for o in out], places)
        return number, numbers, out

    def map_step(self, tables, places=12, expect=None):
        data = {table: tables.data(table) for table in range(1, 9)}
        assert all(len(data[t]) <= ROOM[t] for t in ROOM), [len(data[t]) for t in ROOM]
        number, numbers, after = model.map_step(*(data[t] for t in range(1, 7)))
        self.meet(expect, (number, numbers))
        header = [len(data[t]) for t in range(1, 9)] + [0] * 7
        self.add(MAP_STEP, header, b"".join(data.values()), (number, numbers),
                 [checksum(after)], places)
        return number, numbers, after

    def read(self, kind, size, count, data, out_len, places=12, expect=None):
        assert len(data) <= ROOM_DATA and out_len <= ROOM_OUT[2]
        number, numbers, out = model.read_records(READ[kind], size, count, data, out_len)
        self.meet(expect, (number, numbers))
        header = [0] * 9 + [size, count, len(data), out_len, 0, 0]
        return self.add(kind, header, data, (number, numbers), [checksum(out)], places)

    def part(self, kind, size, count, data, k, places=12, expect=None):
        assert len(data) <= ROOM_DATA
        number, numbers, part = model.record_part(READ[kind], size, count, data, k)
        self.meet(expect, (number, numbers))
        header = [0] * 8 + [k, size, count, len(data), 0, 0, 0]
        return self.add(kind, header, data, (number, numbers), [checksum(part), len(part)], places)

    def both(self, tables, root=0, places=12):
        """The same tables through both steps."""
        self.map_step(tables, places)
        self.link(tables, root, places=places)

    def join(self, stream, lines):
        """Cases made elsewhere, with their lines.  The model has to give the same lines."""
        again = Cases()
        at = 0
        while at < len(stream):
            words = [int.from_bytes(stream[at + 4 * i:at + 4 * i + 4], "little") for i in range(24)]
            at += 96
            parts = []
            for length in words[2:10] + [words[13]]:
                parts.append(stream[at:at + length])
                at += length
            again.repeat(words, parts)
        assert bytes(again.stream) == stream and again.lines == lines, "the model gives other lines"
        self.stream += stream
        for line in lines:
            self.lines.append(f"{len(self.lines)} {line.split(' ', 1)[1]}")
        for key, count in again.tally.items():
            self.tally[key] = self.tally.get(key, 0) + count

    def repeat(self, words, parts):
        """A case from its header and its parts, answered by the model."""
        kind, root, size, count, outputs, places = words[1], words[10], words[11], words[12], words[14:17], words[17]
        tables = Tables()
        for table in range(1, 9):
            tables.rows[table] = [parts[table - 1]]
        if kind == LINK:
            self.link(tables, root, tuple(outputs), places)
        elif kind == MAP_STEP:
            self.map_step(tables, places)
        else:
            self.read(kind, size, count, parts[8], outputs[0], places)

    @staticmethod
    def meet(expect, answer):
        if expect is not None:
            number, *numbers = expect
            assert answer == (number, tuple(numbers + [0] * (3 - len(numbers)))), (expect, answer)

    def report(self):
        for (kind, number), count in sorted(self.tally.items()):
            print(f"{NAMES[kind]:12} {number:3} {count:6}")
        print(f"{len(self.lines)} cases, {len(self.stream)} bytes")


def make():
    import cases_links
    import cases_maps
    import cases_random
    import cases_readers
    import cases_tables
    cases = Cases()
    for group in (cases_tables, cases_maps, cases_links, cases_readers, cases_random):
        before = len(cases.lines)
        group.make(cases)
        print(f"{group.__name__}: cases {before} to {len(cases.lines) - 1}")
    return cases


def vectors(cases, folder):
    """The Rust crate's answers, as `compare --vectors` left them."""
    before = len(cases.lines)
    with open(os.path.join(folder, "stdin"), "rb") as file:
        stream = file.read()
    with open(os.path.join(folder, "stdout")) as file:
        lines = file.read().splitlines()
    cases.join(stream, lines)
    print(f"compare/vectors: cases {before} to {len(cases.lines) - 1}")


def main():
    home = os.path.join(os.path.dirname(os.path.abspath(sys.argv[0])), "..")
    cases = make()
    vectors(cases, os.path.join(home, "compare", "vectors"))
    cases.report()
    folder = os.path.join(home, "crates", "replay")
    with open(os.path.join(folder, "stdin"), "wb") as file:
        file.write(cases.stream)
    with open(os.path.join(folder, "stdout"), "w") as file:
        file.write("".join(line + "\n" for line in cases.lines))


if __name__ == "__main__":
    main()
