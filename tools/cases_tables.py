"""Cases of refusals 1, 2 and 13, through both steps.  See tools/cases.py."""

from objects import (EXIT, NONE, OTHER, SECTION, TEXT, Tables, call, code, func_record, function,
                     line_record, map_row, relocation, symbol, u32, u64, wide)

SIZES = {1: 4, 2: 24, 3: 32, 4: 24, 5: 16, 6: 8, 7: 8, 8: 16}
MOST = {1: 64, 2: 1_024, 3: 64, 4: 1_024, 5: 64, 6: 8_192, 7: 256, 8: 4_096}
MAP_STEP_TABLES, LINK_TABLES = (1, 2, 3, 4, 5, 6), (1, 2, 3, 4, 6, 7, 8)


def base():
    """Tables that both steps accept, with three or four rows each."""
    return Tables(
        [code(3), code(5), code(7)],
        [symbol(1, 3, 0, SECTION), symbol(4, 20, 8, OTHER), symbol(9, NONE, 16, OTHER),
         symbol(12, 5, 0, TEXT)],
        [function(3, 2, 0, 0, 1, 1), function(3, 2, 16, 16, 1, 2), function(5, 3, 0, 0, 1, 1)],
        [relocation(3, 4, 0, 64), relocation(5, 12, 0, 32), relocation(5, 4, 8, 64)],
        [map_row(20, 4, 7, 1), map_row(20, NONE, 8, 0), map_row(21, NONE, 9, 0)],
        wide(1, 4) + [call(-3), EXIT] + [call(-1)] + wide(2, 6),
        [func_record(0, 11), func_record(0, 12), func_record(0, 13)],
        [line_record(0, 1, 2, 3), line_record(5, 4, 5, 6), line_record(6, 7, 8, 9),
         line_record(0, 1, 1, 1)])


# Bytes put into a row that break it wherever it stands: table, place in the row, bytes.
BREAKING = (
    [(1, 0, u32(v)) for v in (65_536, 0x80000000, NONE)]
    + [(2, 0, u32(NONE))]
    + [(2, 4, u32(v)) for v in (65_536, 0x80000000, NONE - 1)]
    + [(2, 8, u64(v)) for v in (2**48, 2**63, 2**64 - 1)]
    + [(2, 16, bytes([v])) for v in (3, 255)]
    + [(2, at, bytes([v])) for at in range(17, 24) for v in (1, 128)]
    + [(3, 0, u32(v)) for v in (65_536, NONE)]
    + [(3, 4, u32(v)) for v in (0, 4_097, NONE)]
    + [(3, 8, u64(v)) for v in (2**48, 2**63, 2**64 - 1)]
    + [(3, 16, u64(v)) for v in (2**48, 2**48 - 1, 2**64 - 8)]
    + [(3, 16, u64(v)) for v in (1, 2, 4, 7, 12, 2**48 - 7)]
    + [(4, 0, u32(v)) for v in (65_536, NONE)]
    + [(4, 4, u32(NONE))]
    + [(4, 8, u64(v)) for v in (2**48, 2**64 - 1)]
    + [(4, at, bytes([v])) for at in range(17, 24) for v in (1, 128)]
    + [(5, 0, u32(v)) for v in (65_536, NONE)]
    + [(5, 12, bytes([v])) for v in (2, 255)]
    + [(5, at, bytes([v])) for at in range(13, 16) for v in (1, 128)])

# Bytes put into the last row that leave it whole: the ends of what is allowed.
WHOLE = [
    (1, 0, u32(65_535)), (2, 0, u32(NONE - 1)), (2, 4, u32(65_535)), (2, 4, u32(NONE)),
    (2, 4, u32(0)), (2, 8, u64(2**48 - 1)), (2, 16, bytes([0])), (2, 16, bytes([2])),
    (3, 0, u32(65_535)), (3, 8, u64(2**48 - 1)), (3, 16, u64(2**48 - 8)), (3, 4, u32(4_096)),
    (3, 4, u32(1)), (4, 0, u32(65_535)), (4, 4, u32(NONE - 1)), (4, 8, u64(2**48 - 1)),
    (4, 16, bytes([0])), (4, 16, bytes([255])), (5, 0, u32(65_535)), (5, 4, u32(0)),
    (5, 8, u32(NONE)), (5, 8, u32(0x80000000)), (5, 12, bytes([1]))]


def run(cases, table, tables):
    """Through each step that is given the table."""
    if table in MAP_STEP_TABLES:
        cases.map_step(tables)
    if table in LINK_TABLES:
        cases.link(tables, 2)


def broken_rows(cases):
    for table, at, data in BREAKING:
        last = len(base().rows[table]) - 1
        for row in (0, 1, last):
            run(cases, table, base().put(table, row, at, data))
    for table, at, data in WHOLE:
        run(cases, table, base().put(table, len(base().rows[table]) - 1, at, data))


# Rows in place of row k that break the order: table, k, row.
ORDER = [
    (1, 1, code(3)), (1, 1, code(2)), (1, 2, code(5)), (1, 2, code(4)), (1, 2, code(3)), (1, 0, code(6)),
    (2, 1, symbol(1, 20, 8, OTHER)), (2, 1, symbol(0, 20, 8, OTHER)), (2, 2, symbol(4, NONE, 16, OTHER)),
    (2, 3, symbol(9, 5, 0, TEXT)), (2, 3, symbol(8, 5, 0, TEXT)), (2, 0, symbol(0x80000000, 3, 0, SECTION)),
    (3, 1, function(3, 2, 0, 16, 1, 2)), (3, 1, function(2, 2, 16, 16, 1, 2)),
    (3, 2, function(3, 3, 16, 0, 1, 1)), (3, 2, function(3, 3, 15, 0, 1, 1)),
    (3, 2, function(2, 3, 99, 0, 1, 1)), (3, 0, function(4, 2, 0, 0, 1, 1)),
    (3, 0, function(3, 2, 2**40, 0, 1, 1)),
    (4, 1, relocation(3, 12, 0, 32)), (4, 1, relocation(2, 12, 99, 32)), (4, 2, relocation(5, 4, 0, 64)),
    (4, 2, relocation(3, 4, 2**47, 64)), (4, 1, relocation(5, 12, 2**47, 64)), (4, 2, relocation(4, 4, 8, 64)),
    (5, 1, map_row(20, 4, 8, 0)), (5, 2, map_row(30, 4, 8, 0)), (5, 2, map_row(20, NONE, 8, 0)),
    (5, 1, map_row(21, NONE, 8, 0))]

# Rows in place of row k that are no fault.
IN_ORDER = [
    (3, 1, function(3, 2, 1, 16, 1, 2)), (3, 2, function(4, 3, 0, 0, 1, 1)), (3, 1, function(4, 2, 0, 16, 1, 2)),
    (4, 1, relocation(3, 12, 1, 32)), (4, 1, relocation(4, 12, 0, 32)), (4, 2, relocation(6, 4, 0, 64)),
    (5, 1, map_row(20, 5, 7, 0)), (5, 2, map_row(20, 5, 7, 0)), (5, 2, map_row(20, 0xFFFFFFFE, 7, 0)),
    (5, 0, map_row(22, NONE, 7, 0)), (2, 1, symbol(2, 20, 8, OTHER)), (1, 1, code(4))]


def orders(cases):
    for table, k, row in ORDER + IN_ORDER:
        tables = base()
        tables.rows[table][k] = row
        run(cases, table, tables)
    for table in range(1, 6):
        tables = base()
        tables.rows[table].reverse()
        run(cases, table, tables)
    # Two broken rows: the first counts.
    for table, at, data in ((1, 0, u32(65_536)), (2, 16, b"\3"), (3, 4, u32(0)), (4, 17, b"\1"), (5, 12, b"\2")):
        for first, second in ((0, 1), (1, 2), (0, 2)):
            run(cases, table, base().put(table, second, at, data).put(table, first, at, data))


def partial_rows(cases):
    for table in range(1, 9):
        for length in range(1, SIZES[table]):
            tables = base()
            tables.rows[table].append(tables.rows[table][-1][:length])
            run(cases, table, tables)
        for length in (1, SIZES[table] - 1):
            tables = base()
            tables.rows[table] = [bytes(length)]
            run(cases, table, tables)
        tables = base()
        tables.rows[table][-1] = tables.rows[table][-1][:-1]
        run(cases, table, tables)
        # A broken row before the partial one, and one broken only by where it stands.
        tables = base()
        tables.rows[table][0] = b"\xff" * SIZES[table]
        tables.rows[table].append(b"\0")
        run(cases, table, tables)


def many_rows(table, count):
    """That many rows, each whole and in order."""
    row = {1: lambda i: code(i), 2: lambda i: symbol(i, 20, 0, OTHER), 3: lambda i: function(3, 1, 8 * i, 8 * i),
           4: lambda i: relocation(3, 4, 8 * i, 64), 5: lambda i: map_row(20, i, i, 0), 6: lambda i: EXIT,
           7: lambda i: func_record(0, i), 8: lambda i: line_record(0, i, i, i)}[table]
    return [row(i) for i in range(count)]


def too_many(cases):
    for table in range(1, 9):
        for extra in (0, 1, 2):
            # The most rows; one more; a byte more.
            tables = base()
            tables.rows[table] = many_rows(table, MOST[table] + (extra == 1))
            if extra == 2:
                tables.rows[table].append(b"\0")
            if table in (6, 8):
                # The long tables once: through the link.
                cases.link(tables, 2)
            elif table in (2, 4):
                (cases.map_step if extra == 1 else cases.link)(tables)
            else:
                run(cases, table, tables)
    for table in (1, 3, 5, 7):
        # Too many by a part of a row, of every other length; and all of the rows broken.
        for length in range(2, min(SIZES[table], ROOM_PAST[table] + 1)):
            tables = base()
            tables.rows[table] = many_rows(table, MOST[table]) + [bytes(length)]
            run(cases, table, tables)
        tables = base()
        tables.rows[table] = [b"\xff" * SIZES[table]] * (MOST[table] + 1)
        run(cases, table, tables)


# Bytes past the most rows for which the program has room.
ROOM_PAST = {1: 16, 3: 52, 5: 26, 7: 52}


def totals(cases):
    for table in (6, 7, 8):
        whole = base().rows[table]
        for rows in (whole[:-1], whole + whole[-1:], whole[:1], [], whole * 2):
            tables = base()
            tables.rows[table] = rows
            run(cases, table, tables)
    # One function counts for the others.
    for row, at in ((0, 24), (2, 24), (0, 28), (2, 28), (0, 4), (1, 4)):
        for value in (0, 1, 2, 3):
            cases.both(base().put(3, row, at, u32(value)), 2)
    # Sums near 2^32 and above, and counts whose bytes wrap at 2^32 or 2^64.
    for at in (24, 28):
        for first, second in ((2**31, 2**31), (2**32 - 1, 1), (2**32 - 1, 2), (2**32 - 1, 2**32 - 1),
                              (2**32 - 2, 1), (2**29, 0), (2**28, 0), (2**29, 1), (2**28, 3), (2**31, 0)):
            tables = base().put(3, 0, at, u32(first)).put(3, 1, at, u32(second))
            cases.both(tables, 2)
            for rows in (0, 1):
                empty = tables.copy()
                empty.rows[7 if at == 24 else 8] = empty.rows[7 if at == 24 else 8][:rows]
                cases.link(empty, 2)
    tables = Tables(functions=[function(1, 4_096, 8 * i, 8 * i) for i in range(64)])
    cases.both(tables)


def fault(tables, number, table):
    """Makes one fault: refusal 1 or 2 of one table, or 13."""
    if number == 1:
        tables.rows[table] = many_rows(table, MOST[table] + 1)
    elif number == 2 and table <= 5:
        tables.rows[table][1] = b"\xff" * SIZES[table]
    elif number == 2:
        tables.rows[table].append(bytes(SIZES[table]))


def two_faults(cases):
    """Only the first is returned: 1 before 2, by table number, 13 last."""
    cheap = [(1, 1), (1, 3), (1, 5), (1, 7)] + [(2, t) for t in range(1, 9)] + [(13, 0)]
    for i, one in enumerate(cheap):
        for other in cheap[i + 1:]:
            tables = base()
            fault(tables, *other)
            fault(tables, *one)
            root = 3 if 13 in (one[0], other[0]) else 2
            cases.map_step(tables)
            cases.link(tables, root)
    for one, other in (((1, 2), (2, 1)), ((1, 4), (1, 2)), ((1, 8), (2, 3)), ((1, 6), (1, 1))):
        tables = base()
        fault(tables, *other)
        fault(tables, *one)
        cases.link(tables, 2)


def roots(cases):
    for root in (0, 1, 2, 3, 4, 2**16 + 1, 2**31, 2**32 - 1):
        cases.link(base(), root)
    none = Tables()
    cases.map_step(none)
    for root in (0, 1, 2**32 - 1):
        cases.link(none, root)
        cases.link(none, root, (0, 0, 0))
    # Nothing but functions.
    alone = Tables(functions=[function(0, 1, 0, 0)], instructions=[EXIT])
    cases.both(alone)
    cases.link(alone, 1)
    full = Tables(functions=many_rows(3, 64), instructions=[EXIT] * 64)
    for root in (0, 63, 64):
        cases.link(full, root)


def places(cases):
    """Every length of the place buffer."""
    for length in range(17):
        cases.both(base(), 2, places=length)
        cases.map_step(base().put(5, 1, 12, b"\2"), places=length)
        cases.link(base().put(2, 2, 16, b"\3"), 2, places=length)
        cases.link(base(), 3, places=length)


def make(cases):
    cases.map_step(base(), expect=(0, 2))
    cases.link(base(), 2, expect=(0, 6, 2, 2))
    broken_rows(cases)
    orders(cases)
    partial_rows(cases)
    too_many(cases)
    totals(cases)
    two_faults(cases)
    roots(cases)
    places(cases)
