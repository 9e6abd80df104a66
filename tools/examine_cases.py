"""Makes cases for tests/examine.c: images of the linker in tools/elsewhere.py, single faults of them, and links with their lists.

    python3 tools/examine_cases.py                      writes tests/examine.cases, a selection
    python3 tools/examine_cases.py --stream SEED COUNT WHOLE
                                                        writes cases of COUNT random objects to standard output, with every fault
                                                        of the first WHOLE of them and one of each kind of the others

`make elsewhere` pipes the second into the program.  Each answer is that of tools/model.py.  Where a fault is made so that its
answer is known, or an image is made to be right, the model is held to that too: this file fails where they differ.
"""

import argparse
import os
import random
import re
import sys

import elsewhere
import model
import paths
from examine_faults import ROW_SIZE, Case, Faults
from examine_form import HOME, SHOWN, STORED, TABLES, edits, encoded, u32
from examine_objects import REFUSALS, Maker
from objects import EXIT, Tables, call, func_record, function, line_record

SEED = 20_261_116
# The stored selection: objects, images of each root, faults of each image, pairs of faults to look at; and of every kind at least so
# many.
OBJECTS, IMAGES, FAULTS, PAIRS, LEAST = 28, 2, 12, 240, 4


class Writer:
    """The lines, and counts of what is in them."""

    def __init__(self, out):
        self.out, self.cases, self.kinds, self.numbers, self.links, self.pairs = out, 0, {}, {}, {}, {}
        self.images, self.steps = 0, 0      # that both walks made together on the images

    def line(self, word, kind, numbers, words):
        self.out.write("|".join((word, kind, " ".join(map(str, numbers)), " ".join(words))) + "\n")
        self.cases += word != "object"

    def object(self, parts):
        self.line("object", "", (), [f"{t}={encoded(parts[t])}" for t in TABLES])

    def shown(self, kind, case):
        answer = asked(case)
        assert answer == (0, (len(case.parts["p"]) // 8, 0, 0)), (kind, answer)
        self.count(kind, 0)
        self.line("shown", kind, (case.root, 0) + answer[1], [f"{p}={encoded(case.parts[p])}" for p in SHOWN])

    def judged_fault(self, base, fault):
        """A fault with the model's answer, if it is one."""
        kind, case, expect = fault
        answer = judged(kind, case, expect)
        if answer:
            self.fault(kind, base, case, answer)

    def judged_pair(self, base, name, case, answers):
        answer = judged_pair(case, answers)
        if answer:
            self.pairs[name] = self.pairs.get(name, 0) + 1
            self.fault("two faults", base, case, answer)

    def fault(self, kind, base, case, answer):
        self.count(kind, answer[0])
        self.line("fault", kind, (case.root, answer[0]) + answer[1], edits(base.parts, case.parts, TABLES + SHOWN))

    def link(self, kind, base, case, rooms):
        number, places, *outputs = model.link_pieces(*(case.parts[t] for t in TABLES), case.root, *rooms)
        self.links[number] = self.links.get(number, 0) + 1
        self.kinds[kind] = self.kinds.get(kind, 0) + 1
        used = [size * n for size, n in zip((8, 8, 16), places)] if number == 0 else [0, 0, 0]
        used.append(list_length(outputs[3]) if number == 0 else 0)
        assert not any(any(o[n:]) for o, n in zip(outputs, used))
        self.line("link", kind, (case.root, number) + places + rooms,
                  edits(base.parts, case.parts, TABLES) + [f"{p}={encoded(o[:n])}" for p, o, n in zip(SHOWN, outputs, used)])

    def count(self, kind, number):
        self.kinds[kind] = self.kinds.get(kind, 0) + 1
        self.numbers[number] = self.numbers.get(number, 0) + 1

    def end(self):
        self.out.write(f"end||{self.cases}|\n")


def list_length(data):
    """The bytes of a list, zero after them: no piece but the first starts at 0."""
    n = 8
    while any(data[n + 4:n + 8]):
        n += 8
    return n


def asked(case):
    return model.examine(*(case.parts[t] for t in TABLES), case.root, *(case.parts[p] for p in SHOWN))


# ---------------------------------------------------------------- cases of an object

def judged(kind, case, expect):
    """The model's answer.  None where the change was none: a kind that settles nothing may be right after all."""
    number, places = asked(case)
    if expect is None:
        return None if number == 0 else (number, places)
    assert number == expect[0] and (len(expect) == 1 or places == expect[1:]), (kind, expect, number, places)
    return number, places


def judged_pair(case, answers):
    """The model's answer, if it is that of one of the faults: then of the one that is told first."""
    number, places = asked(case)
    if (number,) + places not in answers:
        return None     # the two meddle with each other
    assert (number,) + places == answers[0], (answers, number, places)
    return number, places


def faults_of(rng, base, thing, image):
    """What makes the faults, and all of them, not judged yet."""
    faults = Faults(rng, base, thing.source, image, thing.refused)
    return faults, list(faults.all())


def by_kind(rng, made):
    """The faults of each kind, kinds and faults in any order."""
    groups = {}
    for fault in rng.sample(made, len(made)):
        groups.setdefault(fault[0], []).append(fault)
    return groups


def links_of(rng, writer, base, roots, faults):
    """Links with their lists: room for all, just enough, too little; broken tables; what the link refuses."""
    rows = len(base.parts[3]) // 32
    roomy = (rng.randrange(400, 900), rng.randrange(200, 400), rng.randrange(900, 1500), 8 * (rows + 1) + rng.randrange(40))
    for root in roots:
        case = base.with_root(root)
        number, places, *_ = model.link_pieces(*(case.parts[t] for t in TABLES), root, *roomy)
        writer.link("with room", base, case, roomy)
        writer.link("too little room for the list", base, case, roomy[:3] + (rng.choice((0, 8 * rows, 8 * rows + 7)),))
        if number == 0:
            exact = (8 * places[0], 8 * places[1], 16 * places[2], 8 * (rows + 1))
            writer.link("just enough room", base, case, exact)
            short = list(exact)
            i = rng.choice([i for i in range(3) if exact[i]])
            short[i] -= rng.choice((1, 8, exact[i]))
            writer.link("too little room", base, case, tuple(max(0, n) for n in short))
    for _, case, _ in faults:
        rooms = roomy[:3] + (8 if rng.randrange(5) == 0 else 8 * (65 + 1),)
        writer.link("faults of the tables", base, case, rooms)


def keeps_path(rng, thing, root, image):
    """Demand 3 on an image from elsewhere: both walks of tools/paths.py go together for as long as the source walk stands.  How many
    steps that is."""
    tables, steps = model.Linker(*(thing.parts[t] for t in TABLES), 0, 0, 0), 0
    slots = [image.parts()["i"][8 * k:8 * k + 8] for k in range(len(image.slots))]
    for _ in range(3):
        answers = [rng.randrange(2) for _ in range(40)]
        source = paths.walk(lambda row: tables.slots[row], lambda at: paths.source_callee(tables, at), (root, 0), answers, 60)
        other = paths.walk(lambda _: slots, lambda at: (0, image.target(at[1])), (0, 0), answers, 60)
        for (how, place, depth), (how_image, here, depth_image), _ in zip(source, other, range(400)):
            if place is None:
                break
            assert here is not None, place
            mark = image.marks[here[1]]
            assert (how, depth, place) == (how_image, depth_image, (image.pieces[mark.piece][0], mark.slot)), (place, here)
            steps += 1
    return steps


class Object:
    def __init__(self, rng, n):
        """Three of four have a function that the link refuses, with each number in turn."""
        maker = Maker(rng, REFUSALS[n % len(REFUSALS)] if n % 4 else None)
        tables = maker.tables()
        self.parts = {t: tables.data(t) for t in TABLES}
        self.parts.update({p: b"" for p in SHOWN})
        self.source = elsewhere.Source(self.parts)
        self.refused = {row: r.refusal for row, r in enumerate(maker.rows) if r.refusal}
        self.rows = len(maker.rows)

    def images(self, rng, writer, root):
        for kind, image in elsewhere.ways(rng, self.source, root):
            case = Case(self.parts, root)
            case.parts.update(image.parts())
            if kind == "the link's own order":
                number, places, *outputs = model.link_pieces(*(case.parts[t] for t in TABLES), root,
                                                            *(len(case.parts[p]) for p in SHOWN[:3]), 8 * (self.rows + 1))
                assert number == 0 and [case.parts[p] for p in SHOWN] == outputs[:3] + [outputs[3][:list_length(outputs[3])]]
            writer.images += 1
            writer.steps += keeps_path(rng, self, root, image)
            yield kind, image, case


# A function's slots, function records and line records, how many pieces it has, and how far on each of them calls, or None: images at
# a limit of document 01, which are 4,096 slots, 256 function records, 4,096 line records, and so 4,096 pieces.
LIMITS = ((4_096, 1, 1, 1, None), (1, 256, 1, 1, None), (2, 1, 4_096, 1, None), (1, 0, 0, 4_096, None), (1, 1, 0, 256, 1),
          (1, 0, 0, 4_096, 1), (1, 0, 0, 4_096, 2_048), (2, 0, 0, 2_048, 2_047), (4, 0, 0, 1_024, 3))
# Those that are long as text are not stored.
LONG_LIMITS = ((2, 0, 2, 2_048, 5), (16, 1, 16, 256, 100), (1, 0, 1, 4_096, 4_095))


def limits(writer, wanted):
    for slots, funcs, lines, pieces, far in wanted:
        # The first slot calls the function itself; which piece of it that is, the image says.
        first = EXIT if far is None else call(-1)
        tables = Tables(functions=[function(1, slots, 0, 0, funcs, lines)], instructions=[first] + [EXIT] * (slots - 1),
                        funcs=[func_record(0, 5)] * funcs, lines=[line_record(0, 1, 7, 3)] * lines)
        parts = {t: tables.data(t) for t in TABLES}
        turn = iter(range(far or 0, pieces + (far or 0)))
        image = elsewhere.Source(parts).image(0, [0] * (pieces - 1), lambda row, starts: starts[next(turn) % pieces])
        parts.update(image.parts())
        case, end = Case(parts, 0), slots * pieces
        writer.object(parts)
        writer.shown("at a limit", case)
        short = case.edit("i", 8 * end - 8, 8, b"")
        writer.fault("a slot short", case, short, judged("a slot short", short, (38, pieces, end, 0)))
        # one past the limit
        for kind, part, most, number in (("the image", "i", 4_096, 6), ("function records", "f", 256, 7),
                                         ("line records", "l", 4_096, 8), ("the list", "p", 4_096, 9)):
            if len(parts[part]) == ROW_SIZE[part] * most:
                long = case.edit(part, len(parts[part]), 0, bytes(1))
                writer.fault(f"{kind}: too long", case, long, judged(kind, long, (33, number, 0, 0)))
        if far is not None:
            limit_targets(writer, case, slots, pieces)
        else:
            writer.link("at a limit", case, case, (8 * slots, 8 * funcs, 16 * lines, 16))


def limit_targets(writer, case, slots, pieces):
    """Calls to beside the starts, in images of very many pieces: by the first piece, the last and one in the middle."""
    end, starts = slots * pieces, [slots * k for k in (0, pieces // 2, pieces - 1)]
    wrong = [(end, "past the image"), (2 * end, "past the image"), (-1, "before the image"), (-end, "before the image")]
    if slots > 1:
        wrong += [(start + more, "inside a piece") for start in starts for more in (1, slots - 1)]
    for here in starts:
        for target, where in wrong:
            other = case.over("i", 8 * here + 4, u32(target - here - 1))
            writer.fault(f"call: to {where}", case, other, judged(where, other, (41, here // slots, 0, 0)))


def chain(writer):
    """64 functions, each of which calls the next, the last the root: the longest list that a link gives, and others' orders of it."""
    rng, count = random.Random(SEED), 64
    tables = Tables(functions=[function(1, 2, 16 * k, 16 * k, 1, 1) for k in range(count)],
                    instructions=[slot for k in range(count) for slot in (call(1 if k + 1 < count else 1 - 2 * count), EXIT)],
                    funcs=[func_record(2 * k, k + 1) for k in range(count)], lines=[line_record(2 * k, 1, k, 0) for k in range(count)])
    parts = {t: tables.data(t) for t in TABLES}
    parts.update({p: b"" for p in SHOWN})
    case, source = Case(parts, 5), elsewhere.Source(parts)
    writer.object(parts)
    writer.link("at a limit", case, case, (8 * 130, 8 * 65, 16 * 65, 8 * 65))
    writer.link("too little room for the list", case, case, (8 * 130, 8 * 65, 16 * 65, 8 * 65 - 1))
    for kind, image in elsewhere.ways(rng, source, 5):
        if kind in ("shuffled", "the root's copy called"):
            case.parts.update(image.parts())
            writer.shown(kind, case)


def kinds():
    """The kinds that tests/examine.c has to meet."""
    with open(os.path.join(HOME, "tests", "examine.c")) as file:
        return re.findall(r'\{"(.*?)", \w+, 0\}', file.read())


def of_tables(fault):
    return fault[0].startswith(("table", "source", "no such root")) and fault[2] and fault[2][0] < 32


def stored(out):
    """A selection: what is rare first."""
    rng, writer, wanted = random.Random(SEED), Writer(out), kinds()
    limits(writer, LIMITS)
    chain(writer)
    for n in range(OBJECTS):
        some_of_object(rng, writer, Object(rng, n), IMAGES, FAULTS)
    # then only what is not there yet
    for n in range(2_000):
        if all(writer.kinds.get(kind, 0) >= LEAST for kind in wanted):
            break
        some_of_object(rng, writer, Object(rng, n), 0, 0)
    writer.end()
    return writer


def some_of_object(rng, writer, thing, most_images, most_faults):
    """Of each of two roots the images of the rarest kinds, and of each image the faults of the rarest."""
    roots = rng.sample(range(thing.rows), min(2, thing.rows))
    begun, made = False, []
    for root in roots:
        images = sorted(thing.images(rng, writer, root), key=lambda i: writer.kinds.get(i[0], 0))
        for n, (kind, image, case) in enumerate(images):
            faults, made = faults_of(rng, case, thing, image)
            groups = by_kind(rng, made)
            order = sorted(groups, key=lambda name: writer.kinds.get(name, 0))
            order = [name for i, name in enumerate(order)
                     if (n < most_images and i < most_faults) or writer.kinds.get(name, 0) < LEAST]
            if n >= most_images and not order and writer.kinds.get(kind, 0) >= LEAST:
                continue
            if not begun:
                writer.object(thing.parts)
                begun = True
            writer.shown(kind, case)
            for name in order:
                writer.judged_fault(case, groups[name][0])
            for name, other, answers in faults.pairs(made, PAIRS if n < most_images else 0):
                if writer.pairs.get(name, 0) < (4 if name[2] else 1):
                    writer.judged_pair(case, name, other, answers)
    if begun and most_images:
        some = sorted(filter(of_tables, made), key=lambda fault: writer.links.get(fault[2][0], 0))
        links_of(rng, writer, Case(thing.parts, roots[0]), roots, some[:3])


def stream(out, seed, count, whole):
    """All faults of the images of the first `whole` objects, and of the other images one of each kind."""
    rng, writer = random.Random(seed), Writer(out)
    limits(writer, LIMITS + LONG_LIMITS)
    chain(writer)
    for n in range(count):
        thing = Object(rng, n)
        writer.object(thing.parts)
        made = []
        for root in range(thing.rows):
            for kind, image, case in thing.images(rng, writer, root):
                writer.shown(kind, case)
                faults, made = faults_of(rng, case, thing, image)
                for name, other, answers in faults.pairs(made, 30):
                    writer.judged_pair(case, name, other, answers)
                for group in by_kind(rng, made).values():
                    for fault in group if n < whole else group[:1]:
                        writer.judged_fault(case, fault)
        links_of(rng, writer, Case(thing.parts, 0), range(thing.rows), [f for f in made if of_tables(f) and rng.randrange(4) == 0])
    writer.end()
    return writer


def tell_walks(writer, out):
    print(f"Demand 3, walked: {writer.steps} steps of both walks together on {writer.images} images of another linker", file=out)


def main():
    parser = argparse.ArgumentParser(description="cases for tests/examine.c")
    parser.add_argument("--stream", nargs=3, type=int, metavar=("SEED", "COUNT", "WHOLE"))
    chosen = parser.parse_args()
    if chosen.stream:
        tell_walks(stream(sys.stdout, *chosen.stream), sys.stderr)
        return
    with open(STORED, "w") as file:
        writer = stored(file)
    tell_walks(writer, sys.stdout)
    for title, counts in (("examine", writer.numbers), ("link", writer.links), ("kinds", writer.kinds)):
        print(title, sorted(counts.items()))
    print(writer.cases, "cases,", os.path.getsize(STORED), "bytes")


if __name__ == "__main__":
    main()
