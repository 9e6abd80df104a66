"""What the tool bark must say and write of an object, by the independent model (tools/model.py).

python3 tools/bark_model.py BARK COUNT   runs BARK on COUNT random objects and damaged copies of them (tools/cases_random.py)
                                         and holds its words, its exit status and its two files to the model's; then shows it
                                         each image again, images of another linker (tools/elsewhere.py), and both with one
                                         byte changed, and holds its yes or no to the model's
"""
import os
import random
import subprocess
import sys
import tempfile

sys.path.insert(0, os.path.dirname(os.path.abspath(__file__)))
import cases_random  # noqa: E402
import elsewhere  # noqa: E402
import model  # noqa: E402
from objects import u32  # noqa: E402

# The bytes that bark holds: tables 1 to 8, then the image's three runs.
ROOM = {1: 256, 2: 6144, 3: 2048, 4: 6144, 5: 1024, 6: 12288, 7: 2048, 8: 8192}
IMAGE_ROOM = (12288, 2048, 8192)
# And what is shown to be examined: the three runs and the list.
SHOWN_ROOM = (12288, 2056, 8192, 4000)

NAMES = {1: "code sections", 2: "symbols", 3: "functions", 4: "relocations", 5: "maps", 6: "instructions",
         7: "function records", 8: "line records", 9: "pieces"}
REASONS = {
    1: "a table has more rows than its limit; table {table}",
    2: "a row breaks its table's rule, or tables 6 to 8 are not as long as table 3 says; table {table}, row {b}",
    3: "a relocation's symbol is not in table 2; function {a}, slot {b}",
    4: "a relocation stands off the 8-byte grid; function {a}, slot {b}",
    5: "a relocation finds no map; function {a}, slot {b}",
    6: "the instruction under a relocation is not a wide load; function {a}, slot {b}",
    7: "a value offset does not fit its instruction; function {a}, slot {b}",
    8: "a reference to code has an unknown form; function {a}, slot {b}",
    9: "a call names no code; function {a}, slot {b}",
    10: "there is no function at the target; caller: function {a}, slot {b}",
    11: "there is no room for a function in the image that bark holds; function {a}",
    12: "a line record stands outside its function; function {a}, line record {b}",
    13: "the root is no row of table 3",
    14: "the info data is broken",
    33: "there is more than an image may have ({name})",
    34: "a row is not whole ({name}), after {b} whole rows",
    35: "the first piece is not the root at slot 0",
    36: "a piece is of no row of table 3; piece {a}, function {b}",
    37: "a piece does not start where it should; piece {a}, which should start at slot {b} of the image",
    38: "the pieces do not end where the image ends; {a} pieces, which end at slot {b} of the image",
    39: "a slot is changed where it may not be; piece {a}, slot {b}; slot {c} of the image",
    40: "a reference is without source register 4; piece {a}, slot {b}; its source names function {c}",
    41: "a slot points to no start of a piece of the function that it names; piece {a}, slot {b}; its source names function {c}",
    42: "a function record is missing, or not the piece's; piece {a}, record {b}; record {c} of the image",
    43: "a line record is missing, or not the piece's; piece {a}, record {b}; record {c} of the image",
    44: "a record is over ({name}), record {b}",
}


def refused(number, places):
    a, b, c = (tuple(places) + (0, 0, 0))[:3]
    name = NAMES.get(a, "")
    said = REASONS[number].format(a=a, b=b, c=c, name=name, table=f"{a} ({name})")
    return f"{'found' if number > 32 else 'refused'} ({number}): {said}\n"


class Traced(model.Linker):
    """The model's linker, which also notes each copy: its start, its row, and its own line records."""

    def start_with_root(self, root):
        self.copies = [(0, root, [list(r) for r in self.line_records[root]])]
        super().start_with_root(root)

    def append(self, row):
        start, before = len(self.image), len(self.lines)
        self.copies.append((start, row, None))
        place = len(self.copies) - 1
        super().append(row)
        self.copies[place] = (start, row, self.lines[before:before + len(self.line_records[row])])


def line_beside(slot, lines):
    found = [r for r in lines if r[0] <= slot]
    return "file {1}, line {2}, column {3}".format(*found[-1]) if found else "no line record"


def listing(linker):
    for slot, data in enumerate(linker.image):
        start, row, lines = [c for c in linker.copies if c[0] <= slot][-1]
        shown = " ".join(f"{b:02x}" for b in data)
        yield f"{slot:4}  {shown}  function {row}, slot {slot - start}, {line_beside(slot, lines)}\n"


def mapped(tables):
    """The map step's number and places, and the tables with what it left"""
    t = {k: tables.data(k) for k in range(1, 9)}
    number, places, t[6] = model.map_step(t[1], t[2], t[3], t[4], t[5], t[6])
    return number, places, t


def given(t):
    return t[1], t[2], t[3], t[4], t[6], t[7], t[8]


def expected(tables, root):
    """(exit status, standard output, the image file or None, the pieces file or None)"""
    number, places, t = mapped(tables)
    if number != 0:
        return 1, f"map step: {refused(number, places)}", None, None
    said = f"map step: done (0): relocations applied: {places[0]}\n"
    number, places, *runs = model.link(*given(t), root, *IMAGE_ROOM)
    said += f"link of function {root}: "
    if number != 0:
        return 1, said + refused(number, places), None, None
    slots, funcs, lines = places
    said += f"done (0): slots: {slots}, function records: {funcs}, line records: {lines}\n"
    linker = Traced(*given(t), *IMAGE_ROOM)
    linker.start_with_root(root)
    runs = [run[:size * n] for run, size, n in zip(runs, (8, 8, 16), places)]
    pieces = b"".join(u32(row) + u32(start) for start, row, _ in linker.copies)
    return 0, said + "".join(listing(linker)), image_file(runs), pieces


def examined(tables, root, runs, pieces):
    """(exit status, standard output) of an examination"""
    number, places, t = mapped(tables)
    head = f"examination of function {root}: "
    if number != 0:
        return 1, f"{head}no: map step: {refused(number, places)}"
    said = f"map step: done (0): relocations applied: {places[0]}\n{head}"
    number, places = model.examine(*given(t), root, *runs, pieces)
    if number == 0:
        return 0, f"{said}yes (0): pieces: {places[0]}\n"
    return 1, f"{said}no: {refused(number, places)}"


def image_file(runs):
    return b"".join(u32(len(run)) for run in runs) + b"".join(runs)


def tables_file(tables):
    runs = [tables.data(table) for table in range(1, 9)]
    return b"".join(u32(len(run)) for run in runs) + b"".join(runs)


class Runs:
    """bark, run in a folder on files of its own."""

    def __init__(self, bark, folder):
        self.bark, self.folder = bark, folder
        self.done = self.refusals = self.yes = self.no = 0

    def file(self, name):
        return os.path.join(self.folder, name)

    def put(self, name, data):
        with open(self.file(name), "wb") as f:
            f.write(data)

    def taken(self, name):
        """A file that bark wrote, if it did; it is gone then."""
        if not os.path.exists(self.file(name)):
            return None
        with open(self.file(name), "rb") as f:
            data = f.read()
        os.unlink(self.file(name))
        return data

    def run(self, word, root):
        ran = subprocess.run([self.bark, word, self.file("tables"), str(root), self.file("image"), self.file("pieces")],
                             capture_output=True)
        return ran.returncode, ran.stdout.decode(), ran.stderr

    def same(self, found, wanted, *inputs):
        if found == wanted:
            return
        print("bark and the model differ on", *inputs)
        print(found, wanted, sep="\n")
        sys.exit(1)

    def link(self, tables, root):
        self.put("tables", tables_file(tables))
        status, said, wrong = self.run("link", root)
        wanted = expected(tables, root)
        found = status, said, self.taken("image"), self.taken("pieces")
        self.same((found, wrong), (wanted, b""), tables_file(tables).hex(), "root", root)
        self.done, self.refusals = self.done + (status == 0), self.refusals + (status != 0)
        return wanted[2], wanted[3]

    def examine(self, tables, root, runs, pieces):
        self.put("tables", tables_file(tables))
        self.put("image", image_file(runs))
        self.put("pieces", pieces)
        status, said, wrong = self.run("examine", root)
        self.same((status, said, wrong), examined(tables, root, runs, pieces) + (b"",),
                  tables_file(tables).hex(), "root", root, image_file(runs).hex(), pieces.hex())
        self.yes, self.no = self.yes + (status == 0), self.no + (status == 1)
        self.taken("image"), self.taken("pieces")


def runs_in(image):
    lengths = [int.from_bytes(image[at:at + 4], "little") for at in (0, 4, 8)]
    runs, at = [], 12
    for length in lengths:
        runs.append(image[at:at + length])
        at += length
    return runs


def changed(rng, shown):
    """One byte of what is shown, changed, or one taken away."""
    shown = list(shown)
    k = rng.choice([k for k, run in enumerate(shown) if run])
    at = rng.randrange(len(shown[k]))
    other = bytes([shown[k][at] ^ 1 << rng.randrange(8)]) if rng.randrange(8) else b""
    shown[k] = shown[k][:at] + other + shown[k][at + 1:]
    return shown


def others(rng, tables, root):
    """What another linker makes of an object, if it can."""
    number, _, t = mapped(tables)
    if number == 0 and model.check_link({k: t[k] for k in (1, 2, 3, 4, 6, 7, 8)}, root)[0] == 0:
        for _, image in elsewhere.ways(rng, elsewhere.Source(t), root):
            shown = [image.parts()[part] for part in "iflp"]
            if all(len(run) <= room for run, room in zip(shown, SHOWN_ROOM)):
                yield shown


def main():
    bark, count = os.path.realpath(sys.argv[1]), int(sys.argv[2])
    rng = random.Random(cases_random.SEED)
    with tempfile.TemporaryDirectory() as folder:
        runs = Runs(bark, folder)
        shown = [b""] * 4
        for _ in range(count):
            tables = cases_random.Maker(rng).tables()
            for t in (tables, cases_random.damaged(rng, tables)):
                rows = len(t.rows[3])
                root = rng.randrange(rows) if rows and rng.randrange(40) else rows
                image, pieces = runs.link(t, root)
                shown = shown if image is None else runs_in(image) + [pieces]
                for one in [shown, *others(rng, t, root)]:
                    runs.examine(t, root, one[:3], one[3])
                    if any(one):
                        one = changed(rng, one)
                        runs.examine(t, root, one[:3], one[3])
    print(f"bark and the model agree: {runs.done} images listed, {runs.refusals} objects refused; "
          f"of images examined {runs.yes} yes, {runs.no} no")


if __name__ == "__main__":
    main()
