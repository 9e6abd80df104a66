"""Cases of the record readers.  See tools/cases.py."""

import random

from cases import FUNC_INFO, FUNC_RECORD, LINE_INFO, LINE_RECORD
from objects import u32

LEAST = {FUNC_INFO: 8, LINE_INFO: 16, FUNC_RECORD: 8, LINE_RECORD: 16}
RECORD = {FUNC_INFO: FUNC_RECORD, LINE_INFO: LINE_RECORD}


def records(size, count, seed=1):
    """That many records, each with a byte offset on the grid and any other bytes."""
    rng = random.Random(seed)
    out = b""
    for i in range(count):
        rest = bytes(rng.randrange(256) for _ in range(max(0, size - 4)))
        out += (u32(8 * rng.randrange(2**29)) + rest)[:size]
    return out


def worked(cases):
    """Size 7: 14; count 0, no data: done."""
    for kind in (FUNC_INFO, LINE_INFO):
        cases.read(kind, 7, 0, b"", 0, expect=(14,))
        cases.read(kind, 7, 2, records(7, 2), 64, expect=(14,))
        cases.read(kind, LEAST[kind], 0, b"", 0, expect=(0, 0))
        cases.read(kind, LEAST[kind], 0, b"", 9, expect=(0, 0))


def sizes(cases):
    for kind in (FUNC_INFO, LINE_INFO):
        for size in range(0, 25):
            for count in (0, 1, 3):
                data = records(size, count)
                cases.read(kind, size, count, data, 16 * count + 3)
                cases.read(kind, size, count, data + b"\0", 64)
                cases.part(RECORD[kind], size, count, data, 0)
                if data:
                    cases.read(kind, size, count, data[:-1], 64)
        for size in (32, 40, 255, 256, 1_000):
            cases.read(kind, size, 5, records(size, 5), 100)


def counts(cases):
    """Products that differ from the data length, and that equal it modulo 2^32."""
    pairs = [(8, 2**29), (16, 2**28), (2**31, 2), (2**16, 2**16), (2**32 - 1, 2**32 - 1), (2**31, 2**31), (2**32 - 8, 1),
             (24, 2**29), (16, 2**28 + 1), (8, 2**29 + 1), (2**16, 2**16 + 1), (1, 64), (64, 1), (0, 0), (0, 5), (16, 0),
             (2**32 - 1, 0), (8, 2**32 - 1), (16, 2**32 - 1), (2**31 + 8, 2), (2**31 + 16, 2)]
    for kind in (FUNC_INFO, LINE_INFO):
        for size, count in pairs:
            for data in (b"", records(8, 1), records(16, 1), records(16, 2), records(16, 4)):
                cases.read(kind, size, count, data, 64)
                cases.part(RECORD[kind], size, count, data, 0)
        for count in range(0, 6):
            cases.read(kind, 16, count, records(16, 3), 80)


def grid(cases):
    """A byte offset off the grid, in the first, a middle and the last record."""
    for kind in (FUNC_INFO, LINE_INFO):
        for size in (LEAST[kind], 20):
            for row in (0, 2, 4):
                for value in (1, 2, 4, 7, 9, 2**32 - 1, 2**32 - 7, 2**31 + 4):
                    data = bytearray(records(size, 5))
                    data[row * size:row * size + 4] = u32(value)
                    cases.read(kind, size, 5, bytes(data), 100)
                    cases.part(RECORD[kind], size, 5, bytes(data), 1)
                for value in (0, 8, 2**31, 2**32 - 8):
                    data = bytearray(records(size, 5))
                    data[row * size:row * size + 4] = u32(value)
                    cases.read(kind, size, 5, bytes(data), 100)
        # Off the grid, and an output that is too short: 14 first.
        data = bytearray(records(16, 5))
        data[64] = 1
        cases.read(kind, 16, 5, bytes(data), 0, expect=(14,))
        # The tail is no offset.
        data = records(LEAST[kind], 1) + b"\1\1\1\1" + records(LEAST[kind], 1) + b"\7\7\7\7"
        cases.read(kind, LEAST[kind] + 4, 2, data, 40, expect=(0, 2))


def outputs(cases):
    for kind in (FUNC_INFO, LINE_INFO):
        for size in (LEAST[kind], 12, 16, 20):
            for count in (0, 1, 4):
                need = LEAST[kind] * count
                for length in sorted({0, 1, need - 1, need, need + 1, need + 7, need + 16, need // 2} - {-1}):
                    cases.read(kind, size, count, records(size, count), length)
        for length in range(17):
            cases.read(kind, 16, 3, records(16, 3), 48, places=length)
            cases.read(kind, 16, 3, records(16, 3), 23, places=length)
            cases.part(RECORD[kind], 16, 3, records(16, 3), length % 5, places=length)
        # Readers have no limit of rows.
        count = 4_100 if kind == LINE_INFO else 8_200
        data = records(LEAST[kind], count)
        cases.read(kind, LEAST[kind], count, data, LEAST[kind] * count, expect=(0, count))
        cases.read(kind, LEAST[kind], count, data, LEAST[kind] * count - 1, expect=(11,))


def parts(cases):
    for kind in (FUNC_RECORD, LINE_RECORD):
        for size in (7, 8, 12, 15, 16, 20, 33):
            for count in (0, 1, 5):
                data = records(size, count, 3)
                for k in sorted({0, 1, count - 1, count, count + 1, 2**31, 2**32 - 1} - {-1}):
                    cases.part(kind, size, count, data, k)
                cases.part(kind, size, count, data + b"\0", 0)
                cases.part(kind, size, count + 1, data, 0)


def make(cases):
    worked(cases)
    sizes(cases)
    counts(cases)
    grid(cases)
    outputs(cases)
    parts(cases)
