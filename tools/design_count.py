"""Counts the places that docs/DESIGN-PASS.md speaks of, in crates/*/src.

python3 tools/design_count.py POINT            a line for each place, `crate file:line kind: text`; then the table
python3 tools/design_count.py POINT --table    the table alone: crates in build order, kinds of place, and the total
python3 tools/design_count.py facts            the facts of point 5, one by one, with the functions in whose contracts they stand

POINT is 1 to 8; `uses` counts where the types of point 1 are used, and `casts` the casts beside point 4. Run it at the top of the repository.

Points 3, 5, `uses`, `casts` and 8 follow from the text. The others rest on reading: the lists below name what was read, by crate and name, and
the script finds where each stands now. A struct that no list knows is printed as `unread`, so that none is passed over. A place whose name
stayed when it took another form is in TODAY with what its new text has, and is counted only where it hasn't that.
"""
import glob
import os
import re
import sys

# Point 1. Structs of two parts of which one is a flag, an answer or a count that says what the other means.
FLAGGED = {'linker': 'Step Linked Listed', 'clerk': 'Taken Held Made', 'tell': 'Told', 'paths': 'Names Header Words Place',
           'replay': 'Header', 'barkruffle': 'Part'}
# Structs that are none: several values that stand for themselves. (tell Words and Sentence: point 6.)
PLAIN = {'rules': 'Slot ByteOffset Places Refusal Names Program Image Place', 'info': 'Records', 'judge': 'Site Change', 'resolve': 'Pointer',
         'walk': 'Here ImageGround TooLong', 'source': 'SourceGround', 'merge': 'Used', 'symbols': 'Symbol', 'linker': 'State Linked Listed',
         'examine': 'Cursor Piece FuncRecord LineRecord Compared', 'tell': 'Words Sentence Source Line Listing Wording',
         'clerk': 'Name Reason Unnumbered Held Made', 'tool': 'Missing', 'paths': 'Object InSource InImage Bytes Line Where Header Place',
         'replay': 'UnknownKind Case Hex Answer Header'}
# Numbers that stand for kinds, for refusals or for nothing: a group is a place.
NUMBERS = [
    ('kinds of a symbol', 'rules', 'limits.rt', r'const (OTHER|TEXT|SECTION)\b'),
    ('a map with data', 'rules', 'limits.rt', r'const HAS_DATA\b'),
    ('no section, no symbol', 'rules', 'limits.rt', r'const NONE\b'),
    ('numbers of refusals', 'answers', 'lib.rt', r'Cause::\w+ => \d+'),
    ('kinds of an opcode', 'insn', 'kinds.rt', r'const [A-Z_]+: u8'),
    ('numbers of tables', 'tables', 'limits.rt', r'Table::\w+ => \d+'),
    ('sizes of a relocation', 'resolve', 'lib.rt', r'size == \d+|match size\b'),
    ('0 for a function not placed', 'linker', 'lib.rt', r'starts\[callee\] == 0'),
    ('the number of the list', 'examine', 'sizes.rt', r'const LIST_NUMBER\b'),
    ('no row', 'barkruffle', 'lib.rt', r'const NO_ROW\b'),
    ('lines of the text', 'tell', 'text.rt', r'const [A-Z_]+: usize'),
    ('numbers of refusals asked for', 'tell', 'words.rt', r'number (==|<) \d+|n > 31|n - 17'),
    ('10 for no digit', 'tell', 'words.rt', r'return 10|d == 10'),
    ('1 or 0 for yes or no', 'tell', 'lines.rt', r'^fn (takes|ends)\b'),
    ('numbers of tables', 'tell', 'files.rt', r'const (?!TABLES)[A-Z_]+: usize'),
    ('numbers of statuses', 'clerk', 'status.rt', r'const [A-Z_]+: u32'),
    ('the system\'s numbers of errors', 'clerk', 'files.rt', r'const E[A-Z]+: i32'),
    ('lines of the text', 'paths', 'show.rt', r'^pub const [A-Z_]+: usize'),
    ('no slot', 'paths', 'show.rt', r'const NO_SLOT\b'),
    ('kinds of a case', 'replay', '', r'kind == \d|index, [12], number'),
]
# Flags given to a function that chooses by them.
FLAGS = [('resolve', 'decide'), ('linker', 'point'), ('tell', 'put_place'), ('tell', 'put_bytes'), ('tell', 'push_place'),
         ('tell', 'push_bytes'), ('clerk', 'most_of'), ('clerk', 'read_after'), ('clerk', 'read_tables'), ('tool', 'write_list'),
         ('tool', 'write'), ('tool', 'link_root'), ('replay', 'read_records'), ('replay', 'record_number'), ('replay', 'record_bytes')]

# Point 2: groups of functions or types that differ in a type, a size or a constant. (crate, file, names); file '' is any.
TWINS = [
    ('numbers read', [('wire', '', 'u16_at u32_at u64_at i16_at i32_at')]),
    ('numbers stored', [('wire', '', 'put_u32 put_i32'), ('symbols', '', 'put_u64')]),
    ('a pair stored', [('merge', '', 'put_pair'), ('pieces', '', 'put_piece')]),
    ('a value widened', [('wire', '', 'wide32 wide64'), ('tables', '', 'wide'), ('paths', '', 'wide'), ('replay', '', 'wide')]),
    ('a refusal with its places', [('answers', '', 'refusal finding')]),
    ('fields of a slot', [('insn', '', 'opcode destination source offset immediate')]),
    ('a slot\'s first word', [('insn', '', 'insn_is_call is_blank')]),
    ('sums of an address', [('insn', '', 'call_target byte_target value')]),
    ('a newtype made', [('insn', '', 'slot_at offset_at')]),
    ('fields of a row', [('rows', 'fields.rt', '*'), ('pieces', 'fields.rt', '*')]),
    ('the first row that', [('rows', 'find.rt', 'is_code find_symbol find_function find_relocation find_map_symbol find_map_section'),
                            ('tables', '', 'first_broken is_doubled'), ('symbols', '', 'find_rows'), ('merge', '', 'stray_line'),
                            ('pieces', '', 'find_start')]),
    ('rows before a place, by halving', [('rows', '', 'relocations_before'), ('pieces', '', 'starts_before')]),
    ('the cursor moved on', [('examine', '', 'move_cursor'), ('linker', '', 'relocate')]),
    ('a sum over the rows before', [('tables', '', 'total'), ('source', '', 'first_slot'), ('merge', '', 'part_of'),
                                    ('tell', '', 'start_of'), ('paths', '', 'first_of')]),
    ('slots of a row', [('tables', '', 'slots_of'), ('source', '', 'slots_of')]),
    ('a number of a table', [('tables', 'limits.rt', 'row_size most_rows table_number'), ('info', '', 'row_size')]),
    ('own refusal, else the later ones', [('tables', '', 'or_too_many or_broken or_wrong_total'), ('examine', '', 'or_size')]),
    ('the checks before a step', [('tables', '', 'check_map_step check_link')]),
    ('readers by table', [('info', '', 'func_info line_info func_info_record line_info_record func_info_record_number '
                           'line_info_record_number record record_number')]),
    ('a pass over the relocations', [('maps', '', 'judge_function rewrite_function judge_all rewrite_all')]),
    ('a rewritten load', [('maps', '', 'apply_plain apply_valued')]),
    ('the two walks', [('walk', '', 'Move Stand ImageRun arrive frameless leads_at image_move image_step image_run walk_image'),
                       ('source', '', 'SourceMove SourceStand SourceRun arrive frameless move_at source_move go_on source_step source_run '
                        'walk_source')]),
    ('records of a part copied', [('merge', '', 'link_func_info link_line_info')]),
    ('a part added', [('merge', '', 'extend begin'), ('linker', '', 'link_function link_checked')]),
    ('a link with more kept', [('linker', '', 'link_starts link link_pieces')]),
    ('records of a piece', [('examine', '', 'func_slot line_slot same_func same_line check_funcs check_lines')]),
    ('bytes of two slots compared', [('examine', '', 'same_form same_head same_slot')]),
    ('a piece\'s call or reference', [('examine', '', 'check_call check_reference')]),
    ('entries by table', [('barkruffle', '', 'barkruffle_func_info barkruffle_line_info barkruffle_func_info_record '
                           'barkruffle_line_info_record barkruffle_func_info_record_number barkruffle_line_info_record_number')]),
    ('entries of a link', [('barkruffle', '', 'barkruffle_link barkruffle_link_pieces barkruffle_link_rows link_laid')]),
    ('names that C calls', [('barkruffle_c', '', '*')]),
    ('bytes a subcommand holds', [('tell', '', 'link_bytes examine_bytes')]),
    ('a sentence of a file', [('tell', '', 'of_file of_part')]),
    ('the mark of a number or an end', [('tell', '', 'takes ends')]),
    ('digits', [('tell', '', 'put_number put_bytes')]),
    ('what may be unknown', [('tell', 'listing.rt', 'Source Line source_of line_in')]),
    ('a file written', [('clerk', '', 'write_image write_pieces')]),
    ('a sentence written out', [('clerk', '', 'say warn')]),
    ('a table or a run read', [('clerk', '', 'read_table read_run')]),
    ('steps over a held file', [('clerk', 'steps.rt', '*'), ('replay', 'run.rt', 'link map_step')]),
    ('an argument read', [('tool', '', 'word root')]),
    ('the two walks shown', [('paths', '', 'source_at image_at in_source in_image source_place image_place')]),
    ('a header by value', [('paths', 'main.rt', 'Header read_header word'), ('replay', '', 'Header read_header word')]),
    ('readers by kind', [('replay', 'run.rt', 'read_records record_number record_bytes records record'),
                         ('replay', 'main.rt', 'records record')]),
    ('a line of output', [('replay', 'show.rt', 'link bytes record')]),
]

# Point 4, by what is written by hand.
BY_HAND = [
    ('equality', [('rows', 'order.rt', 'same_place'), ('pieces', '', 'is_piece'), ('tell', 'commands.rt', 'same'),
                  ('examine', '', 'same_form same_head same_slot same_func same_line')]),
    ('order', [('rows', 'order.rt', 'is_before'), ('pieces', 'tiles.rt', 'is_before'), ('rows', 'find.rt', 'is_relocation_before'),
               ('maps', '', 'is_within')]),
    ('copying', [('wire', '', 'copy wipe wipe_after'), ('merge', '', 'copy_rows'), ('symbols', '', 'put_row')]),
    ('conversion', [('wire', '', 'wide32 wide64 signed32 bits32 low'), ('answers', '', 'number_of number places'),
                    ('insn', '', 'slot_at offset_at to_offset to_slot decode'), ('info', '', 'offset_in'),
                    ('tables', '', 'table_number wide'), ('judge', '', 'find_map fits'), ('maps', '', 'refusal_of'),
                    ('resolve', '', 'by_address'), ('walk', '', 'slot_in'), ('source', '', 'entered move_at'),
                    ('symbols', '', 'rows_needed'), ('barkruffle', '', 'row_number part_of'),
                    ('tell', '', 'told_of parse digit hex'), ('clerk', '', 'read_of unread_of status_of'), ('tool', '', 'no_maps'),
                    ('paths', '', 'small wide bytes_of'), ('replay', '', 'part wide')]),
    ('printing', [('tell', 'lines.rt', 'put put_place put_number put_byte put_bytes put_piece put_line '
                   'push push_place push_number push_byte push_bytes push_marked push_line'), ('paths', 'show.rt', 'write'),
                  ('replay', 'show.rt', 'hex field')]),
]

# Point 5: parameters that travel together: (kind, names, how many of them at least).
TOGETHER = [
    ('tables', 'code symbols functions relocations maps instructions func_info line_info', 3),
    ('outputs', 'image image_func_info image_line_info func_info line_info funcs lines pieces', 3),
    ('place', 'section at home offset address target end', 2),
    ('slot', 'row first slot start k rel', 3),
    ('kinds', 'kinds', 1),
    ('walk', 'frames frame_rows frame_slots answers at depth taken', 3),
    ('records', 'size count bytes k', 3),
    ('target', 'kind home address size imm symbol site', 3),
    ('compared', 'at here pieces k slot callee', 5),
    ('recorded', 'first count shown at k start origin', 4),
    ('out, at', 'out at', 2),
    ('words', 'words', 1),
    ('told', 'told accepts refuses done', 4),
    ('part', 'used row part more', 2),
    ('files', 'reader lengths file instructions input', 3),
    ('failed', 'path file what why', 3),
    ('case', 'rt index header kind', 3),
    ('object', 'rt task file instructions root image answers limit', 4),
]

# Point 6: (kind, crate, file, pattern).
BUFFERS = [
    ('length beside', 'tell', 'lines.rt', r'pub struct Words\b'),
    ('length beside', 'clerk', 'reading.rt', r'pub struct (Taken|Held)\b'),
    ('length beside', 'clerk', 'steps.rt', r'pub struct Made\b'),
    ('length beside', 'linker', 'lib.rt', r'pub struct Listed\b'),
    ('length beside', 'paths', 'main.rt', r'^struct (Header|Names)\b'),
    ('length beside', 'replay', 'input.rt', r'pub struct Header\b'),
    ('length beside', 'symbols', 'lib.rt', r'^pub fn lay_rows\b'),
    ('length beside', 'barkruffle', 'lib.rt', r'^fn link_laid\b'),
    ('length beside', 'pieces', 'order.rt', r'^(pub )?fn (find_start|put_list)\b'),
    ('length beside', 'walk', 'lib.rt', r'^pub fn (image_move|image_step|image_run)\b'),
    ('length beside', 'tool', '', r'= \(?(eights\(|\(u32_at\(lengths|\(length_of)'),
    ('length beside', 'paths', 'main.rt', r'let (m|k|n|used|both) = .*(min|names)|WORDS\.min\('),
    ('length beside', 'replay', 'main.rt', r'let [nabcpm] = part\(|header\.part\('),
    ('parallel', 'source', 'lib.rt', r'^\s+frame_rows: &mut'),
    ('parallel', 'tell', 'words.rt', r'pub struct Sentence\b'),
    ('parallel', 'paths', 'show.rt', r'^fn write\b'),
    ('parallel', 'paths', 'main.rt', r'let mut frame_rows'),
    ('parallel', 'tell', 'lines.rt', r'^pub fn spoken_line\b'),
    ('searched', 'rows', 'find.rt', r'^pub fn (is_code|find_symbol|find_function|find_relocation|relocations_before)\b'),
    ('searched', 'pieces', 'tiles.rt', r'^fn starts_before\b'),
    ('searched', 'examine', 'cursor.rt', r'^pub fn (move_cursor|relocation_at)\b'),
    ('searched', 'linker', 'lib.rt', r'let rel = loop'),
    ('searched', 'tell', 'listing.rt', r'^pub fn last_at\b'),
    ('searched', 'maps', 'lib.rt', r'^fn first_of\b'),
    ('indices', 'linker', 'lib.rt', r'pub starts: \[u16'),
    ('indices', 'pieces', 'order.rt', r'starts: &\[u16'),
    ('indices', 'tell', 'files.rt', r'^pub fn (start_of|table)\b'),
]

# Point 7: functions that choose by a value which of several steps to run, and tables by number.
SWITCHES = [
    ('switch', [('tables', '', 'is_good count_of'), ('walk', '', 'leads_at image_step'), ('source', '', 'go_on'),
                ('maps', '', 'rewrite_one'), ('examine', '', 'check_slot'), ('tool', '', 'with_maps bark_run write_list'),
                ('clerk', '', 'read_table nameless pick read'), ('tell', 'commands.rt', 'asked'), ('tell', 'lines.rt', 'put_piece'),
                ('replay', '', 'reader run_case read_records record_number record_bytes')]),
    ('table', [('insn', 'kinds.rt', 'KINDS'), ('tell', 'words.rt', 'PLACE_LINES'), ('tell', 'room.rt', 'ROOM')]),
]

# (points, crate, names, pattern): places of the lists above that are in today's form where the text of their file has the pattern.
TODAY = [
    # values and errors by Option and Result
    ('1', 'linker', 'Linked Listed', r'Result<(Linked|Listed), Refusal>'),
    ('1', 'clerk', 'Held Made', r'Result<Made, Refusal>|Held<'),
    ('1', 'paths', 'Header Place', r'Result<Header, Stop>|struct Place<P>'),
    ('1', 'replay', 'Header', r'Result<Header, Stop>'),
    ('6', 'paths', 'Header', r'Result<Header, Stop>'),
    ('6', 'replay', 'Header', r'Result<Header, Stop>'),
    ('2', 'tell', 'Source Line', r'Option<(Source|Line)>'),
    ('4', 'resolve', 'by_address', r'Result<Option<usize>, Unnamed>'),
    ('7', 'maps', 'rewrite_one', r'let Ok\(Some\(change\)\)'),
    ('7', 'clerk', 'read', r'Result<\(\), Unread>'),
    ('7', 'tool', 'bark_run', r'status\(answered\(rt\)\)'),
    ('7', 'tell', 'asked', r'Option<Command>'),
    # enums with derives
    ('7', 'walk', 'leads_at', r'match kind\('),
    ('7', 'insn', 'KINDS', r'\[Kind; 256\]'),
    ('2', 'info', 'row_size record record_number', r'enum RecordKind'),
    ('2', 'replay', 'records', r'kind: RecordKind'),
    # one function over a size, a type or a test
    ('2', 'wire', 'u16_at u32_at u64_at i16_at i32_at put_u32 put_i32', r'const N: usize'),
    ('2', 'answers', 'refusal finding', r'finding\(cause, first, second, 0\)'),
    ('2', 'tables', 'check_map_step check_link', r'few\(Table'),
    ('2', 'walk', 'Move Stand arrive frameless leads_at walk_image', r'trait Ground'),
    ('2', 'source', 'move_at walk_source slots_of', r'impl Ground for'),
    ('2', 'pieces', 'put_piece', r'put_numbers\('),
    ('2', 'examine', 'check_funcs check_lines', r'check_run\('),
    ('2', 'clerk', 'write_image write_pieces', r'fn write<'),
    ('2', 'paths', 'Header read_header source_at image_at', r'impl Object'),
    ('2', 'replay', 'Header read_header word', r'impl Header'),
    ('2', 'replay', 'link record', r'answer: Answer'),
    # the library's methods
    ('26', 'rows', 'is_code find_symbol find_function find_relocation find_map_symbol find_map_section relocations_before', r'\.find\('),
    ('2', 'tables', 'first_broken is_doubled', r'\.(find|any)\('),
    ('2', 'symbols', 'find_rows', r'\.position\('),
    ('2', 'merge', 'stray_line', r'\.find\('),
    ('26', 'pieces', 'starts_before', r'\.partition_point\('),
    ('26', 'pieces', 'find_start', r'\.position\('),
    ('4', 'wire', 'signed32', r'cast_signed'),
    ('4', 'wire', 'bits32', r'cast_unsigned'),
    ('4', 'wire', 'copy', r'\.copy_from_slice\(&src'),
    ('4', 'wire', 'wipe wipe_after', r'\.fill\(0\)'),
    ('4', 'answers', 'number_of', r'cause as u32'),
    ('4', 'info', 'offset_in', r'offset_at\(u64::from'),
    ('4', 'judge', 'find_map', r'\.or_else\('),
    ('4', 'walk', 'slot_in', r'usize::try_from\(at\)'),
    ('6', 'tell', 'last_at', r'\.rev\(\)\s*\.r?find\('),
    # methods of a type, with its invariant
    ('4', 'source', 'move_at', r'fn move_at\(&self'),
    ('4', 'tool', 'no_maps', r'fn no_maps\(self\)'),
    ('4', 'replay', 'part', r'fn part\(&self'),
    ('6', 'tell', 'Words', r'impl Model for Words'),
    ('6', 'tell', 'table', r'table: Table\)'),
]

VALUES = 'Refusal', 'io::Error'


def crates():
    """The crates in build order."""
    with open('crates.txt') as f:
        return [re.match(r'\w+', line).group() for line in f if line.strip()]


def bare(text):
    """The text with comments, and what stands in quotes, as blanks; lines and columns stay."""
    def blank(m):
        return re.sub(r'[^\n]', ' ', m.group())
    return re.sub(r'//[^\n]*|"(?:\\.|[^"\\])*"', blank, text)


class File:
    def __init__(self, crate, path):
        self.crate, self.name = crate, os.path.basename(path)
        with open(path, encoding='utf-8') as f:
            self.text = f.read()
        self.bare = re.sub(r'(?m)^ghost use .*$', lambda m: ' ' * len(m.group()), bare(self.text))
        self.lines = self.text.split('\n')

    def line(self, at):
        return self.bare.count('\n', 0, at) + 1

    def found(self, pattern):
        for m in re.finditer(pattern, self.bare, re.M):
            yield self.line(m.start() + len(m.group()) - len(m.group().lstrip())), m


def sources():
    return [File(c, p) for c in crates() for p in sorted(glob.glob(f'crates/{c}/src/**/*.rt', recursive=True))]


def block(text, at, pair='{}'):
    """From the bracket at `at` to the one that closes it."""
    depth = 0
    for i in range(at, len(text)):
        if pair == '<>' and text[i] == '>' and text[i - 1] in '-=':
            continue
        depth += (text[i] == pair[0]) - (text[i] == pair[1])
        if depth == 0:
            return i + 1
    return len(text)


def split(text, mark):
    """Parts between the marks that stand in no bracket."""
    parts, depth, last = [], 0, 0
    for i, c in enumerate(text):
        depth += (c in '([{<' and text[i - 1:i + 1] != ' <' or c == '[') - (c in ')]}' or c == '>' and text[i - 1] not in '-= ')
        if c == mark and depth <= 0:
            parts.append(text[last:i])
            last = i + 1
    return [p.strip() for p in parts + [text[last:]] if p.strip()]


class Function:
    def __init__(self, f, m):
        b = f.bare
        self.file, self.at, self.name, self.row = f, m.start(), m.group('name'), f.line(m.start('fn'))
        i = m.end()
        if b[i] == '<':
            i = block(b, i, '<>')
        end = block(b, i, '()')
        self.params = []
        for p in split(b[i + 1:end - 1], ','):
            if ':' in p:
                self.params.append(re.sub(r'^mut ', '', p.split(':')[0].strip()))
        self.clauses = {'requires': '', 'ensures': ''}
        while True:
            k = re.compile(r'[^{;]*?(?:(requires|ensures)(?:\s+\w+)?)?\s*\{').match(b, end)
            if not k:
                self.body = (end, end)
                return
            stop = block(b, k.end() - 1)
            if not k.group(1):
                self.body = (k.end() - 1, stop)
                return
            self.clauses[k.group(1)] += b[k.end():stop - 1]
            end = stop


def functions(f):
    head = r'^[ \t]*(?:pub(?:\(crate\))? )?(?:extern +)?(?P<fn>fn) (?P<name>\w+)'
    return [Function(f, m) for m in re.finditer(head, f.bare, re.M)]


def today(f, point, name):
    return any(point in points and f.crate == crate and name in words.split() and re.search(pattern, f.bare) for points, crate, words, pattern in TODAY)


def enums(f):
    for line, m in f.found(r'^[ \t]*(?:pub )?enum (\w+)[^{]*\{'):
        body = f.bare[m.end():block(f.bare, m.end() - 1) - 1]
        yield line, m.group(1), split(body, ',')


def shaped(all_files):
    """The enums of the shape of Option or Result: two variants of which one carries a value at least; or one variant alone carries a
    value; or one carries a refusal, an error or an enum of this shape. An error of a Result is none."""
    errors_of = {m for f in all_files for m in re.findall(r'Result<.*, (?:\w+::)?(\w+)>', f.bare)}
    known, names = [(f, line, name, variants) for f in all_files for line, name, variants in enums(f) if name not in errors_of], set()
    for _ in range(3):
        for f, line, name, variants in known:
            carrying = [v for v in variants if re.search(r'[({]', v)]
            errors = [v for v in carrying if re.search('|'.join([re.escape(x) for x in VALUES] + [rf'\({n}\)' for n in names]), v)]
            if carrying and (len(variants) == 2 or len(carrying) == 1 or errors):
                names.add(name)
    return [(f, line, name, name in names) for f, line, name, variants in known]


def named(files, lists, point):
    """(kind, [(crate, file, names)]) as places of a point."""
    for kind, wanted in lists:
        for crate, name, words in wanted:
            for f in files:
                if f.crate != crate or name not in ('', f.name):
                    continue
                for line, m in f.found(r'^[ \t]*(?:#\[[^\]]*\]\s*)*(?:pub(?:\(crate\))? )?(?:extern +)?(?:fn|enum|struct|const|static) (\w+)'):
                    if (m.group(1) in words.split() or words == '*' and ' fn ' in ' ' + m.group()) and not today(f, point, m.group(1)):
                        at = f.line(m.start(1))
                        yield f, at, kind, f.lines[at - 1]


def point1(files):
    for f, line, name, is_shape in shaped(files):
        if is_shape:
            yield f, line, 'enum', f.lines[line - 1]
    for f in files:
        for line, m in f.found(r'^[ \t]*(?:pub )?struct (\w+)'):
            if m.group(1) in FLAGGED.get(f.crate, '').split() and not today(f, '1', m.group(1)):
                yield f, line, 'struct', f.lines[line - 1]
            elif m.group(1) not in PLAIN.get(f.crate, '').split():
                yield f, line, 'unread', f.lines[line - 1]
    for label, crate, name, pattern in NUMBERS:
        hits = [(f, line) for f in files if f.crate == crate and name in ('', f.name) for line, _ in f.found(pattern)]
        if hits:
            f, line = hits[0]
            yield f, line, 'number', f'{label} ({len(hits)}): {f.lines[line - 1].strip()}'
    for f in files:
        for g in functions(f):
            if (f.crate, g.name) in FLAGS and re.search(r': bool\b', f.bare[g.at:g.body[0]].split('->')[0]):
                yield f, g.row, 'flag', f.lines[g.row - 1]


def uses(files):
    names = [name for _, _, name, is_shape in shaped(files) if is_shape]
    flagged = {(f.crate, name) for f, _, kind, text in point1(files) if kind == 'struct' for name in re.findall(r'struct (\w+)', text)}
    structs = sorted({name for _, name in flagged})
    if not names:
        names = [r'\b\B']  # none
    for f in files:
        rows = f.bare.split('\n')
        for i, row in enumerate(rows):
            for m in re.finditer(r'(?<![\w:])(' + '|'.join(names) + r')::\w+', row):
                before, after = row[:m.start()], row[m.end():]
                arm = '=>' in after or re.search(r'\blet [^=]*$', before) or re.match(r'\s*\{\s*$', after) and '=>' in ' '.join(rows[i:i + 5]) \
                    and not re.search(r'return|=>|=', before)
                yield f, i + 1, 'pattern' if arm else 'made', f.lines[i]
            if re.search(r'->\s*(?:\w+::)?(' + '|'.join(names) + r')\b', row):
                yield f, i + 1, 'result', f.lines[i]
            for m in re.finditer(r'(?<![\w:])(' + '|'.join(structs) + r') \{', row):
                if (f.crate, m.group(1)) in flagged and not re.search(r'struct |-> |\bimpl\b', row):
                    yield f, i + 1, 'struct made', f.lines[i]


def point2(files):
    yield from named(files, TWINS, '2')


def point3(files):
    """A loop counts by hand where a name that its condition (of `loop`: its body) has goes up or down by one in its body."""
    for f in files:
        for g in functions(f):
            for m in re.finditer(r'\b(while|loop)\b([^{]*)\{', f.bare[g.body[0]:g.body[1]]):
                start = g.body[0] + m.start()
                at = g.body[0] + m.end()
                body = f.bare[at:block(f.bare, at - 1)]
                stepped = re.findall(r'\b(\w+) [+-]= 1;|(\w+) [+-]= 1,?$', body, re.M)
                kind = 'index' if any((a or b) in m.group(2) or m.group(1) == 'loop' for a, b in stepped) else 'other'
                line = f.line(start)
                yield f, line, kind, f'{g.name}: {f.lines[line - 1].strip()}'


def point4(files):
    yield from named(files, BY_HAND, '4')
    for f in files:
        for line, _ in f.found(r'if let \w+::\w+ = \w+ \{ true \} else \{ false \}'):
            yield f, line, 'equality', f.lines[line - 1]
        for g in functions(f):
            for m in re.finditer(r'[\w)]\.0( as \w+)?\)? ([=!]=|[<>]=?) |([=!]=|[<>]=?) \w+\.0\b', f.bare[g.body[0]:g.body[1]]):
                line = f.line(g.body[0] + m.start())
                yield f, line, 'newtype', f.lines[line - 1]


def casts(files):
    for f in files:
        for line, _ in f.found(r' as (u8|u16|u32|u64|usize|i16|i32|i64)\b'):
            yield f, line, 'cast', f.lines[line - 1]


def facts(files):
    """fact, with every parameter as a dot: the functions in whose contracts it stands."""
    stands = {}

    def conjuncts(text):
        text = re.sub(r'\s+', ' ', text).strip()
        while text.startswith('(') and block(text, 0, '()') == len(text):
            text = text[1:-1].strip()
        parts, depth, last = [], 0, 0
        for i, c in enumerate(text):
            depth += (c == '(') - (c == ')')
            if c == '×' and depth == 0:
                parts.append(text[last:i])
                last = i + 1
        if not parts:
            return [text] if text else []
        return [c for p in parts + [text[last:]] for c in conjuncts(p)]

    for f in files:
        for g in functions(f):
            own = set()
            for which in 'requires', 'ensures':
                for fact in conjuncts(g.clauses[which]):
                    names = '|'.join(map(re.escape, g.params)) or '$^'
                    shape = re.sub(rf"(?<![\w.])({names})(\.(now|old|new|entry|0))*(?![\w])", '·', fact)
                    if which == 'requires' or re.match(r'length · ≡ length ·$|result(\.\w+)? [≤<]|either ', shape):
                        own.add(shape)
            for shape in own:
                stands.setdefault(shape, []).append(g)
    return {k: v for k, v in stands.items() if len(v) >= 3}


def point5(files):
    for f in files:
        for g in functions(f):
            for kind, names, least in TOGETHER:
                have = [p for p in g.params if p in names.split()]
                if kind == 'tables' and 'image' in g.params and 'image_func_info' not in g.params or kind == 'outputs' and 'image_func_info' in have:
                    have = [p for p in have if p not in ('func_info', 'line_info')]
                needs = {'outputs': 'image', 'records': 'size', 'object': 'file', 'place': 'home'}.get(kind)
                if needs and needs not in have or kind == 'slot' and {'count', 'out'} & set(g.params):
                    continue
                if len(have) >= least:
                    yield f, g.row, kind, f'{g.name}: {", ".join(have)}'
    for fact, where in facts(files).items():
        for g in where:
            yield g.file, g.row, 'fact', f'{g.name}: {fact}'


def point6(files):
    for kind, crate, name, pattern in BUFFERS:
        for f in files:
            if f.crate == crate and name in ('', f.name):
                for line, m in f.found(pattern):
                    head = re.search(r'(?:fn|struct) (\w+)', m.group())
                    if not (head and today(f, '6', head.group(1))):
                        yield f, line, kind, f.lines[line - 1]


def point7(files):
    yield from named(files, SWITCHES, '7')


def print_facts(files):
    for fact, where in sorted(facts(files).items(), key=lambda x: -len(x[1])):
        print(f'{len(where):4}  {fact}')
        print('      ' + ', '.join(sorted({f'{g.file.crate} {g.name}' for g in where})))


def table(rows, kinds, total=True):
    by = {}
    for crate, kind, n in rows:
        by.setdefault(crate, {})
        by[crate][kind] = by[crate].get(kind, 0) + n
    total = total and len(kinds) > 1
    print('| crate | ' + ' | '.join(kinds) + (' | all |' if total else ' |'))
    print('| --- |' + ' ---: |' * (len(kinds) + total))
    for name in [c for c in crates() if c in by] + ['all']:
        n = [by[name].get(k, 0) if name != 'all' else sum(b.get(k, 0) for b in by.values()) for k in kinds]
        print(f'| {name} | ' + ' | '.join(map(str, n)) + (f' | {sum(n)} |' if total else ' |'))


def groups(title, rows):
    """rows: (group, crate)."""
    found = {}
    for group, crate in rows:
        found.setdefault(group, []).append(crate)
    print(f'\n| {title} | places | crates |\n| --- | ---: | --- |')
    for group, where in found.items():
        print(f'| {group} | {len(where)} | {", ".join(dict.fromkeys(where))} |')


def proofs(short):
    """Point 8: files and lines of proofs/. An answer is a declaration under the name of a goal, a lemma any other."""
    rows = []
    for crate in crates():
        for path in sorted(glob.glob(f'crates/{crate}/proofs/**/*.antt', recursive=True)):
            with open(path, encoding='utf-8') as f:
                text = f.read()
            declared = re.findall(r'(?m)^(?:abbrev )?(?:pub )?(?!use |--)\S+ :(.*)', text)
            answers = sum(d.startswith(' goal.') for d in declared)
            lines = text.count('\n')
            rows += [(crate, 'files', 1), (crate, 'lines', lines), (crate, 'answers', answers), (crate, 'lemmas', len(declared) - answers)]
            if not short:
                print(f'{crate} {path}: {lines} lines, {answers} answers, {len(declared) - answers} lemmas')
    return rows


POINTS = {'1': point1, 'uses': uses, '2': point2, '3': point3, '4': point4, 'casts': casts, '5': point5, '6': point6, '7': point7}


def main(argv):
    short = '--table' in argv
    words = [a for a in argv if a != '--table']
    if words == ['facts']:
        print_facts(sources())
    elif words == ['8']:
        table(proofs(short), ['files', 'lines', 'answers', 'lemmas'], total=False)
    elif len(words) == 1 and words[0] in POINTS:
        point, order = words[0], crates()
        places = sorted({(order.index(f.crate), f.crate, f.name, line, kind, text.strip()) for f, line, kind, text in POINTS[point](sources())})
        if not short:
            for _, crate, name, line, kind, text in places:
                print(f'{crate} {name}:{line} {kind}: {text}')
            print()
        if point == '2':
            table([(p[1], 'functions and types', 1) for p in places], ['functions and types'])
            groups('group', [(p[4], p[1]) for p in places])
        elif point == '5':
            table([(p[1], 'fact' if p[4] == 'fact' else 'parameters', 1) for p in places], ['fact', 'parameters'])
            groups('parameters', [(p[4], p[1]) for p in places if p[4] != 'fact'])
        else:
            table([(p[1], p[4], 1) for p in places], sorted({p[4] for p in places}))
    else:
        sys.exit(__doc__)


if __name__ == '__main__':
    main(sys.argv[1:])
