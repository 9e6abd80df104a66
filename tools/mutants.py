"""Shows what the stored cases can tell apart.

    python3 tools/mutants.py

reads crates/replay/stdin, which `python3 tools/cases.py` makes, and runs it
through tools/model.py, and then through copies of the model with one edit each:
the errors that document 01 names, and others that a reader of it could make.
Then the same with tests/examine.cases, which `python3 tools/examine_cases.py`
makes, and wrong readings of W1 of document 02.
It prints how many answers each edit changes, up to ten.  None may be 0.
"""

import os
import random
import resource
import struct
import sys
import types

import examine_form

# The count of changed answers stops here.
ENOUGH = 10

HERE = os.path.dirname(os.path.abspath(__file__))
REPLAY = os.path.join(HERE, "..", "crates", "replay")

# What is read wrongly, and pairs: words of the model, and what stands for them.
EDITS = [
    ("placing by address alone", "self.placed = {} ", "self.placed = ByAddress() "),
    ("appending breadth-first", "] = start\n        self.visit(row, start)\n", "] = start\n        self.queue.append((row, start))\n",
     "        self.visit(root, 0)\n", "        self.queue = [(root, 0)]\n        for row, start in self.queue:\n            self.visit(row, start)\n"),
    ("fd before the next immediate", "    value = immediate(slots[k]) + symbol.address\n", "    value = found.fd + symbol.address\n"),
    ("the root placed at the start", "        self.visit(root, 0)\n",
     "        self.placed[(self.functions[root].section, self.functions[root].address)] = 0\n        self.visit(root, 0)\n"),
    ("the grown length as a function's length", "        for k in range(self.functions[row].slots):\n",
     "        k = -1\n        while k + 1 < len(self.image) - start:\n            k += 1\n"),
    ("next slot of another function", "    if k + 1 >= len(slots):\n        return False\n", "    if k + 1 >= len(slots):\n        return True\n"),
    ("map of the section with a symbol", "if m.symbol == NONE and m.section == symbol.section", "if m.section == symbol.section"),
    ("map by section first", "    for m in maps:\n        if m.symbol != NONE and m.symbol == symbol.index:\n            return m\n", ""),
    ("map by symbol only in the section", "m.symbol == symbol.index:", "m.symbol == symbol.index and m.section == symbol.section:"),
    ("4 after 3", "    if at % 8 != 0:\n        raise Refused(4, row, k)\n", "    if at % 8 != 0 and find_symbol(symbols, relocation.symbol) is not None:\n        raise Refused(4, row, k)\n"),
    ("no 4", "    if at % 8 != 0:\n        raise Refused(4, row, k)\n", ""),
    ("Text is no 5", "    if symbol.kind == TEXT:\n        raise Refused(5, row, k)\n", ""),
    ("calls not skipped", "if is_call(slots[k]) or in_code", "if in_code"),
    ("code not skipped", "if is_call(slots[k]) or in_code(code, symbol.section):", "if is_call(slots[k]):"),
    ("7 without data", "if found.has_data == 1 and not", "if not"),
    ("7 one too late", "<= value <= 2**31 - 1:", "<= value <= 2**31:"),
    ("source register over the destination", "(register << 4) | (slot[1] & 0x0F)", "(register << 4) | (slot[1] & 0xFF)"),
    ("a call with any offset", "slot[1] == 0x10 and signed(slot, 2, 2) == 0", "slot[1] == 0x10"),
    ("a call with any destination", "slot[1] == 0x10 and", "slot[1] >> 4 == 1 and"),
    ("last byte of a function's range", "if at < 0 or at >= 8 * function.slots:", "if at < 0 or at > 8 * function.slots:"),
    ("address for section offset in the link", "relocation.offset == function.section_offset + 8 * k", "relocation.offset == function.address + 8 * k"),
    ("local call by address", "return function.section, function.section_offset + 8 * k", "return function.section, function.address + 8 * k"),
    ("size by instruction", "symbol.kind == SECTION and relocation.size == 32:", "symbol.kind == SECTION and is_call(self.slots[row][k]):"),
    ("other is a section", "        if symbol.kind == SECTION and relocation.size == 32:", "        if relocation.size == 32:"),
    ("Text adds the immediate", "return symbol.section, symbol.address\n", "return symbol.section, symbol.address + 8 * (value + 1)\n"),
    ("targets modulo 2^48", "        if target is None:\n            return\n", "        if target is None:\n            return\n        target = (target[0], target[1] % 2**48)\n"),
    ("6 before 8", "        target = self.code_target(row, k, symbol, relocation)\n", "        if not is_call(slot) and not is_wide_load(self.slots[row], k):\n            raise Refused(6, row, k)\n        target = self.code_target(row, k, symbol, relocation)\n"),
    ("6 after 10", "        if not is_call(slot) and not is_wide_load(self.slots[row], k):\n            raise Refused(6, row, k)\n        return target", "        return target"),
    ("9 copied", "            if is_call(slot):\n                raise Refused(9, row, k)\n", ""),
    ("12 before 11", "        self.need_room(row)\n        start = len(self.image)\n", "        start = len(self.image)\n"),
    ("12 of the first record only below", "if difference < 0 or not difference < function.slots:", "if difference < 0:"),
    ("12 at the length", "not difference < function.slots", "not difference <= function.slots"),
    ("function records keep their slot", "self.funcs.append([start, record[1]])", "self.funcs.append(list(record))"),
    ("line records move by the start", "[start + (record[0] - lines[0][0])]", "[(start + record[0]) % 2**32]"),
    ("no limit of slots", "or slots > MOST_IMAGE_SLOTS", ""),
    ("no limit of function records", "or funcs > MOST_IMAGE_FUNCS", ""),
    ("no limit of line records", "or lines > MOST_IMAGE_LINES", ""),
    ("11 names the caller", "raise Refused(11, row, 0)", "raise Refused(11, 0, 0)"),
    ("wide load keeps its source", "            set_source(self.image[at], 4)", "            pass"),
    ("13 before 2", "    number, places = check_link(tables, root)\n", "    number, places = check_link(tables, root)\n    if number == 2 and root >= len(function_rows(functions)):\n        number, places = 13, (0, 0, 0)\n"),
    ("2 of one table before 1 of the next", "    for table in given:\n        if table <= 5:", "        if table <= 5:\n            check_rows(table, tables[table])\n    for table in given:\n        if table <= 5:"),
    ("partial rows not counted", " + (1 if len(tables[table]) % size else 0)", ""),
    # An edit that would accept counts of 2^28 and more stops there: no list is made of them.
    ("sums modulo 2^32", "    if len(data) != total * ROW_SIZE[table]:",
     "    if total >= 2**32 and len(data) == total % 2**32 * ROW_SIZE[table]:\n        raise LookupError\n    if len(data) != total * ROW_SIZE[table]:"),
    ("bytes modulo 2^32", "    if len(data) != total * ROW_SIZE[table]:",
     "    if total >= 2**28 and len(data) == total * ROW_SIZE[table] % 2**32:\n        raise LookupError\n    if len(data) != total * ROW_SIZE[table]:"),
    ("count times size modulo 2^32", "    if count * size != len(data):",
     "    if count * size >= 2**32 and count * size % 2**32 == len(data):\n        raise LookupError\n    if count * size != len(data):"),
    ("11 before 14", "    if info_broken(kind, size, count, data):\n        return 14, (0, 0, 0), bytes(out_len)\n", "    if count * LEAST[kind] > out_len and size >= LEAST[kind]:\n        return 11, (0, 0, 0), bytes(out_len)\n    if info_broken(kind, size, count, data):\n        return 14, (0, 0, 0), bytes(out_len)\n"),
    ("k one too large", "or k >= count:", "or k > count:"),
    ("part without its tail", "data[k * size:(k + 1) * size]", "data[k * size:k * size + LEAST[kind]]"),
    ("places cut in the middle", "        if len(out) + 4 <= length:\n            out += place.to_bytes(4, \"little\")\n    return zero_after(out, length)", "        out += place.to_bytes(4, \"little\")\n    return zero_after(out[:length], length)"),
]


# Words of the examiner that several edits have.
TARGET = "        if (callee, here + 1 + immediate(shown)) not in self.claimed:\n"
COPIED = "            if bytes(source) != shown:\n                raise Refused(39, k, slot, here)\n            return\n"
RESOLVED = "            set_source(source, shown[1] >> 4)\n        if bytes(source) != shown:\n"
NAMED = "        target = self.source.target_of(row, slot)\n        if target is None:\n"
STRAY = "            if k > 0 and not 0 <= record[0] - records[0][0] < self.source.functions[row].slots:\n                raise Refused(12, row, j)\n"
ROW, START = "            if row >= len(self.source.functions):\n                raise Refused(36, k, row)\n", "            if start != at:\n                raise Refused(37, k, at)\n"
OVER_FUNCS, OVER_LINES = "        if len(self.funcs) > funcs:\n            raise Refused(44, 7, funcs)\n", "        if len(self.lines) > lines:\n            raise Refused(44, 8, lines)\n"
FUNC, LINE = "self.funcs[at + j:at + j + 1] != [right]", "self.lines[at + j:at + j + 1] != [right]"
LONG, PARTIAL = "            if len(data) > size * most:\n", "            if len(data) % size != 0:\n"
RECORDS = "            self.check_func_records(k, row, start, funcs)\n            self.check_line_records(k, row, start, lines)\n"
PIECE = "        for k, (row, start) in enumerate(self.pieces):\n            for slot in range(self.source.functions[row].slots):\n"
LIST = "self.check_sizes()\n        self.check_list(root)\n"

EXAMINE_EDITS = [
    ("target's row not compared", TARGET, "        if here + 1 + immediate(shown) not in [start for _, start in self.pieces]:\n"),
    ("target's start not compared", TARGET, "        if callee not in [row for row, _ in self.pieces]:\n"),
    ("target inside the right piece", TARGET, "        if not any(row == callee and start <= here + 1 + immediate(shown) < start + self.source.functions[row].slots for row, start in self.pieces):\n"),
    ("target without its 1", TARGET, "        if (callee, here + immediate(shown)) not in self.claimed:\n"),
    ("target modulo the image", TARGET, "        if (callee, (here + 1 + immediate(shown)) % len(self.image)) not in self.claimed:\n"),
    ("only a function's first piece is right", TARGET, "        if [p for p in self.pieces if p[0] == callee][:1] != [(callee, here + 1 + immediate(shown))]:\n"),
    ("the first piece is never right", TARGET, "        if (callee, here + 1 + immediate(shown)) not in self.pieces[1:]:\n"),
    ("only later pieces are right", TARGET, "        if (callee, here + 1 + immediate(shown)) not in self.claimed or immediate(shown) < -1:\n"),
    ("register not compared", "if is_reference and shown[1] >> 4 != 4:", "if False:"),
    ("register of the source kept", "if is_reference and shown[1] >> 4 != 4:", "if is_reference and shown[1] != self.source.slots[row][slot][1]:"),
    ("calls with register 4 too", "        if is_reference:\n            set_source", "        if True:\n            set_source"),
    ("40 after 41", "        if is_reference and shown[1] >> 4 != 4:", "        if is_reference and shown[1] >> 4 != 4 and (callee, here + 1 + immediate(shown)) in self.claimed:"),
    ("39 after 41", RESOLVED, "            set_source(source, shown[1] >> 4)\n        if bytes(source) != shown and (callee, here + 1 + immediate(shown)) in self.claimed:\n"),
    ("39 after 40", RESOLVED, "            set_source(source, shown[1] >> 4)\n        if bytes(source) != shown and not (is_reference and shown[1] >> 4 != 4):\n"),
    ("opcodes of resolved slots not compared", RESOLVED, "            set_source(source, shown[1] >> 4)\n        if bytes(source[1:]) != shown[1:]:\n"),
    ("destinations of resolved slots not compared", RESOLVED, "            set_source(source, shown[1] >> 4)\n        source[1] = source[1] & 0xF0 | shown[1] & 15\n        if bytes(source) != shown:\n"),
    ("offsets of resolved slots not compared", RESOLVED, "            set_source(source, shown[1] >> 4)\n        source[2:4] = shown[2:4]\n        if bytes(source) != shown:\n"),
    ("opcodes of copied slots not compared", COPIED, COPIED.replace("bytes(source) != shown", "bytes(source[1:]) != shown[1:]")),
    ("registers of copied slots not compared", COPIED, COPIED.replace("bytes(source) != shown", "source[0] != shown[0] or bytes(source[2:]) != shown[2:]")),
    ("offsets of copied slots not compared", COPIED, COPIED.replace("bytes(source) != shown", "bytes(source[:2] + source[4:]) != shown[:2] + shown[4:]")),
    ("immediates of copied slots not compared", COPIED, COPIED.replace("bytes(source) != shown", "bytes(source[:4]) != shown[:4]")),
    ("wide loads of data may have register 4", COPIED, COPIED.replace("bytes(source) != shown", "bytes(source[:1] + source[2:]) != shown[:1] + shown[2:] or (source[1] != shown[1] and (source[0] != 0x18 or shown[1] >> 4 != 4))")),
    ("a refused slot taken for copied", NAMED, "        try:\n            target = self.source.target_of(row, slot)\n        except Refused:\n            target = None\n        if target is None:\n"),
    ("a slot without its function taken for copied", "        callee = self.source.function_at(row, slot, target)\n        is_reference", "        if target not in [(f.section, f.address) for f in self.source.functions]:\n            return\n        callee = self.source.function_at(row, slot, target)\n        is_reference"),
    ("a refusal placed by the piece", NAMED, "        try:\n            target = self.source.target_of(row, slot)\n        except Refused as refusal:\n            raise Refused(refusal.number, k, slot)\n        if target is None:\n"),
    ("refusals of the first piece only", NAMED, "        try:\n            target = self.source.target_of(row, slot)\n        except Refused:\n            if k == 0:\n                raise\n            target = None\n        if target is None:\n"),
    ("39 placed by the slot of the function", "Refused(39, k, slot, here)", "Refused(39, k, slot, slot)"),
    ("41 placed by the piece's own function", "Refused(41, k, slot, callee)", "Refused(41, k, slot, row)"),
    ("40 placed by the piece's own function", "Refused(40, k, slot, callee)", "Refused(40, k, slot, row)"),
    ("the root not first", "        if self.pieces[:1] != [(root, 0)]:\n", "        if not self.pieces or self.pieces[0][1] != 0:\n"),
    ("the first start not compared", "        if self.pieces[:1] != [(root, 0)]:\n", "        if not self.pieces or self.pieces[0][0] != root:\n"),
    ("an empty list is no 35", "        if self.pieces[:1] != [(root, 0)]:\n", "        if self.pieces[:1] not in ([], [(root, 0)]):\n"),
    ("rows of the list not tested", ROW, ""),
    ("a row one too large", "if row >= len(self.source.functions):", "if row > len(self.source.functions):"),
    ("starts not compared", START, ""),
    ("starts in any order", "        at = 0\n        for k, (row, start)", "        at = 0\n        self.pieces.sort(key=lambda piece: piece[1])\n        for k, (row, start)"),
    ("gaps between pieces", "            if start != at:\n", "            at = max(at, start)\n            if start != at:\n"),
    ("pieces across each other", "            if start != at:\n", "            at = min(at, start)\n            if start != at:\n"),
    ("37 says where the piece starts", "raise Refused(37, k, at)", "raise Refused(37, k, start)"),
    ("37 before 36", ROW + "            # 37: it starts elsewhere than where the one before it ends\n" + START, START + ROW),
    ("36 of all before 37", "        at = 0\n        for k, (row, start)", "        at = 0\n        for k, (row, start) in enumerate(self.pieces):\n            if row >= len(self.source.functions):\n                raise Refused(36, k, row)\n        for k, (row, start)"),
    ("tiling not to the end", "        if at != len(self.image):\n", "        if at > len(self.image):\n"),
    ("an image may end early", "        if at != len(self.image):\n", "        if at < len(self.image):\n"),
    ("38 says where the image ends", "raise Refused(38, len(self.pieces), at)", "raise Refused(38, len(self.pieces), len(self.image))"),
    ("a function only once", "        self.check_tiles()\n", "        self.check_tiles()\n        if len({row for row, _ in self.pieces}) < len(self.pieces):\n            raise Refused(37)\n"),
    ("a function twice, but for the root", "        self.check_tiles()\n", "        self.check_tiles()\n        if len({row for row, _ in self.pieces[1:]}) < len(self.pieces) - 1:\n            raise Refused(37)\n"),
    ("every piece called", "        self.check_over(funcs, lines)\n", "        self.check_over(funcs, lines)\n        if {start for _, start in self.pieces[1:]} - {here + 1 + immediate(slot) for here, slot in enumerate(self.image)}:\n            raise Refused(44)\n"),
    ("records over allowed", OVER_FUNCS + OVER_LINES, "        return\n"),
    ("function records over allowed", OVER_FUNCS, ""),
    ("line records over allowed", OVER_LINES, ""),
    ("lines over before function records over", OVER_FUNCS + OVER_LINES, OVER_LINES + OVER_FUNCS),
    ("the root's copy: function records by the root's rule", "right = record if k == 0 else [start, record[1]]", "right = record if row == self.pieces[0][0] else [start, record[1]]"),
    ("the root's copy: line records by the root's rule", "right = record if k == 0 else [start + (", "right = record if row == self.pieces[0][0] else [start + ("),
    ("the first piece's function records as appended", "right = record if k == 0 else [start, record[1]]", "right = [start, record[1]]"),
    ("the first piece's line records as appended", "right = record if k == 0 else [start + (record[0]", "right = [start + (record[0]"),
    ("line records by their slot in the section", "[start + (record[0] - records[0][0])] + record[1:]\n            if", "[start + (record[0] - self.source.functions[row].section_offset // 8)] + record[1:]\n            if"),
    ("function records' slots not compared", FUNC, "[r[1:] for r in self.funcs[at + j:at + j + 1]] != [right[1:]]"),
    ("function records' types not compared", FUNC, "[r[:1] for r in self.funcs[at + j:at + j + 1]] != [right[:1]]"),
    ("missing function records allowed", FUNC, "self.funcs[at + j:at + j + 1] not in ([], [right])"),
    ("function records in any order", FUNC, "right not in self.funcs"),
    ("line records' slots not compared", LINE, "[r[1:] for r in self.lines[at + j:at + j + 1]] != [right[1:]]"),
    ("line records' files not compared", LINE, "[r[:1] + r[2:] for r in self.lines[at + j:at + j + 1]] != [right[:1] + right[2:]]"),
    ("line records' lines not compared", LINE, "[r[:2] + r[3:] for r in self.lines[at + j:at + j + 1]] != [right[:2] + right[3:]]"),
    ("line records' columns not compared", LINE, "[r[:3] for r in self.lines[at + j:at + j + 1]] != [right[:3]]"),
    ("missing line records allowed", LINE, "self.lines[at + j:at + j + 1] not in ([], [right])"),
    ("line records in any order", LINE, "right not in self.lines"),
    ("12 not tested", STRAY, "            pass\n"),
    ("12 of the first piece", "if k > 0 and not 0 <= record[0]", "if not 0 <= record[0]"),
    ("no 12 of the root's copy", "if k > 0 and not 0 <= record[0]", "if row != self.pieces[0][0] and not 0 <= record[0]"),
    ("12 only past the function", "if k > 0 and not 0 <= record[0] - records[0][0] < self", "if k > 0 and not record[0] - records[0][0] < self"),
    ("12 one too late", "record[0] - records[0][0] < self.source", "record[0] - records[0][0] <= self.source"),
    ("12 placed by the piece", "                raise Refused(12, row, j)\n        for j, record in enumerate(records):\n            right", "                raise Refused(12, k, j)\n        for j, record in enumerate(records):\n            right"),
    ("12 and 43 record by record", "                raise Refused(12, row, j)\n        for j, record in enumerate(records):\n            right", "                raise Refused(12, row, j)\n            right"),
    ("12 before 42", RECORDS, "            for j, record in enumerate(self.source.line_records[row]):\n                if k > 0 and not 0 <= record[0] - self.source.line_records[row][0][0] < self.source.functions[row].slots:\n                    raise Refused(12, row, j)\n" + RECORDS),
    ("line records before function records", RECORDS, "            self.check_line_records(k, row, start, lines)\n            self.check_func_records(k, row, start, funcs)\n"),
    ("records before slots", PIECE, "        for k, (row, start) in enumerate(self.pieces):\n            self.check_func_records(k, row, start, funcs)\n            for slot in range(self.source.functions[row].slots):\n"),
    ("all slots before all records", PIECE, "        for k, (row, start) in enumerate(self.pieces):\n            for slot in range(self.source.functions[row].slots):\n                self.check_slot(k, row, slot, start + slot)\n" + PIECE),
    ("no limits", LONG, "            if False:\n"),
    ("no limit of the image", LONG, "            if len(data) > size * most and table != 6:\n"),
    ("no limit of function records", LONG, "            if len(data) > size * most and table != 7:\n"),
    ("no limit of line records", LONG, "            if len(data) > size * most and table != 8:\n"),
    ("no limit of the list", LONG, "            if len(data) > size * most and table != 9:\n"),
    ("limits one too low", LONG, "            if len(data) >= size * most:\n"),
    ("a partial row not counted", LONG, "            if len(data) // size > most:\n"),
    ("a list no longer than table 3 and one", LONG, "            if len(data) > size * most or (table == 9 and len(data) > 8 * len(self.source.functions) + 8):\n"),
    ("partial rows not told", PARTIAL, "            if False:\n"),
    ("33 of all before 34", "        for table, size, most, data in zip((6, 7, 8, LIST)", "        for table, most, data in zip((6, 7, 8, 9), (32_768, 2_048, 65_536, 32_768), self.shown):\n            if len(data) > most:\n                raise Refused(33, table)\n        for table, size, most, data in zip((6, 7, 8, LIST)"),
    ("34 before 33", LONG, "            if len(data) > size * most and len(data) % size == 0:\n"),
    ("the list's size before the others", "zip((6, 7, 8, LIST), (8, 8, 16, PIECE_SIZE),", "zip((LIST, 6, 7, 8), (8, 8, 8, 16),", "(MOST_IMAGE_SLOTS, MOST_IMAGE_FUNCS, MOST_IMAGE_LINES, MOST_IMAGE_SLOTS),\n                                           self.shown):", "(4_096, 4_096, 256, 4_096), self.shown[3:] + self.shown[:3]):"),
    ("the list before the other sizes", LIST, "if int.from_bytes(self.shown[3][:8], 'little') != root or len(self.shown[3]) < 8:\n            raise Refused(35)\n        " + LIST),
    ("13 not tested", "        if root >= len(function_rows(tables[3])):\n            raise Refused(13)\n", ""),
    ("tables not checked", "    # \"so do broken tables\": 1, 2 and 13, as the link says them\n    number, places = check_link(tables, root)\n", "    number, places = 0, (0, 0, 0)\n"),
    ("tables checked last", "    if number != 0:\n        return number, places\n    source", "    if number != 0 and len(image) % 8 == 0 and pieces:\n        return number, places\n    source"),
    ("yes counts slots", "        return len(self.pieces)\n", "        return len(self.image)\n"),
    ("the list without the root", "words(pieces)", "words(pieces[1:])"),
    ("the list by rows", "words(pieces)", "words(sorted(pieces))"),
    ("the list has starts first", "words(pieces)", "words([piece[::-1] for piece in pieces])"),
    ("32 after the link's own", "    if pieces_len < PIECE_SIZE * (len(functions) // ROW_SIZE[3] + 1):\n", "    if pieces_len < PIECE_SIZE * (len(functions) // ROW_SIZE[3] + 1) and check_link({1: code, 2: symbols, 3: functions, 4: relocations, 6: instructions, 7: func_info, 8: line_info}, root)[0] == 0:\n"),
    ("32 without the root's copy", "(len(functions) // ROW_SIZE[3] + 1):", "len(functions) // ROW_SIZE[3]:"),
    ("32 by the pieces that there are", "    if pieces_len < PIECE_SIZE * (len(functions) // ROW_SIZE[3] + 1):\n", "    if pieces_len < PIECE_SIZE * max(1, len(link_with(code, symbols, functions, relocations, instructions, func_info, line_info, root, image_len, func_len, line_len)[1])):\n"),
]


class ByAddress(dict):
    """Places functions by their address, and forgets the section."""

    def __setitem__(self, pair, start):
        dict.__setitem__(self, pair[1], start)

    def __getitem__(self, pair):
        return dict.__getitem__(self, pair[1])

    def __contains__(self, pair):
        return dict.__contains__(self, pair[1])


def load(text):
    module = types.ModuleType("edited")
    module.ByAddress = ByAddress
    exec(compile(text, "model", "exec"), module.__dict__)
    return module


def cases(stream):
    """The header and the tables and data of each case."""
    at = 0
    while at < len(stream):
        header = struct.unpack_from("<24I", stream, at)
        at += 96
        parts = []
        for length in header[2:10] + header[13:14]:
            parts.append(stream[at:at + length])
            at += length
        yield header, parts


def answer(model, case):
    header, parts = case
    kind, read = header[1], {3: "func", 4: "line", 5: "func", 6: "line"}
    code, symbols, functions, relocations, maps, instructions, funcs, lines, data = parts
    try:
        if kind == 1:
            out = model.link(code, symbols, functions, relocations, instructions, funcs, lines, header[10], *header[14:17])
        elif kind == 2:
            out = model.map_step(code, symbols, functions, relocations, maps, instructions)
        elif kind <= 4:
            out = model.read_records(read[kind], header[11], header[12], data, header[14])
        else:
            out = model.record_part(read[kind], header[11], header[12], data, header[10])
        return (out[0], model.place_buffer(out[1], header[17])) + tuple(out[2:])
    except (ArithmeticError, LookupError, MemoryError, RecursionError, ValueError) as error:
        return repr(error)


def examine_answer(model, case):
    word, parts, (root, _, _, _, _, *rooms) = case
    tables = [parts[t] for t in examine_form.TABLES]
    try:
        if word == "link":
            return model.link_pieces(*tables, root, *rooms)
        return model.examine(*tables, root, *(parts[p] for p in examine_form.SHOWN))
    except (ArithmeticError, LookupError, MemoryError, RecursionError, ValueError) as error:
        return repr(error)


def edited(text, pairs):
    for old, new in zip(pairs[::2], pairs[1::2]):
        assert old in text, old
        text = text.replace(old, new)
    return load(text)


def run(text, edits, all_cases, answer_of):
    """How many edits change no answer."""
    true_model, right, unseen = load(text), {}, 0
    for name, *pairs in edits:
        model, changed = edited(text, pairs), 0
        for i, case in enumerate(all_cases):
            if i not in right:
                right[i] = answer_of(true_model, case)
            changed += answer_of(model, case) != right[i]
            if changed == ENOUGH:
                break
        unseen += changed == 0
        print(f"{changed:4}  {name}", flush=True)
    print(f"{len(edits)} edits, {unseen} unseen")
    return unseen


def main():
    # An edited model may run away: it gets a gigabyte and no more.
    resource.setrlimit(resource.RLIMIT_AS, (2**30, 2**30))
    with open(os.path.join(HERE, "model.py")) as file:
        text = file.read()
    with open(os.path.join(REPLAY, "stdin"), "rb") as file:
        all_cases = list(cases(file.read()))
    random.Random(1).shuffle(all_cases)
    unseen = run(text, EDITS, all_cases, answer)
    all_cases = list(examine_form.replay(examine_form.STORED))
    random.Random(1).shuffle(all_cases)
    # the large ones last: often they are not needed
    all_cases.sort(key=lambda case: len(case[1]["i"]) > 4_096)
    unseen += run(text, EXAMINE_EDITS, all_cases, examine_answer)
    sys.exit(unseen != 0)


if __name__ == "__main__":
    main()
