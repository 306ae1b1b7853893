"""Code texts for the mutation run: reads one, or says which line is refused and how, and writes
one.

It follows docs/MACHINE.md and shares nothing with the assembler. An instruction is a tuple of its
name and its parts. A part has a sort, which the changes of tests/mutate.py go by, and labels are
names:

    move R V   calc R R OP V   ifjump R L   load R R N   store R N V   salloc S   sfree S
    prmpush R N S L   prmpop R N   prmdrop   prmempty R   prmsplit R R   jralloc R L   fork R L
    fetch R T R R   put T R R R   rows R T   cols R T   make T R R P P   tick   trap K P P
    print R   emit T
    jump V   halt   join R   leave R R

R is a register, V a value: ('r', n), ('n', n), ('@', name) or ('nil',). N is an offset, S a size, T
a table, L a label, P a line or column.
"""
import re

# The version of the text that is written. In version 2 a text begins with a line of its own, each
# header tells the block's number, and a block may end with `leave`.
VERSION = 1
FIRST_LINE = {1: '', 2: 'tpal 2\n'}

OPS = 'add sub mul div rem eq ne lt le min max affine'.split()
TRAPS = 'Divide Index Deep Size Wide'.split()
LEAST, GREATEST = -2 ** 63, 2 ** 63 - 1
MOST_BLOCKS, MOST_TABLES = 65_536, 16
NAME, REGISTER, COUNT = r'([A-Za-z_][A-Za-z_0-9]*)', r'r([0-9]|[12][0-9]|3[01])', r'(0|[1-9][0-9]*)'
VALUE = r'(r(?:[0-9]|[12][0-9]|3[01])|0|-?[1-9][0-9]*|@[A-Za-z_][A-Za-z_0-9]*|nil)'
PARTS = {'R': REGISTER, 'V': VALUE, 'N': COUNT, 'S': COUNT, 'P': COUNT, 'T': 't' + COUNT,
         'L': '@' + NAME,
         'O': f'({"|".join(OPS)})', 'K': f'({"|".join(TRAPS)})'}
RANGES = {'N': (0, 511), 'S': (0, 512), 'P': (1, 4_294_967_295), 'T': (0, 15)}

# Each form, with a letter in the place of each part.
FORMS = {
    'move': '<R> := <V>', 'calc': '<R> := <R> <O> <V>', 'ifjump': 'if-jump <R>, <L>',
    'load': '<R> := mem[<R>+<N>]', 'store': 'mem[<R>+<N>] := <V>', 'salloc': 'salloc <S>',
         'sfree': 'sfree <S>',
    'prmpush': 'prmpush mem[<R>+<N>], <S>, <L>', 'prmpop': 'prmpop mem[<R>+<N>]',
         'prmdrop': 'prmdrop',
    'prmempty': 'prmempty <R>', 'prmsplit': 'prmsplit <R>, <R>', 'jralloc': '<R> := jralloc <L>',
    'fork': 'fork <R>, <L>', 'fetch': '<R> := fetch <T>, <R>, <R>', 'put': 'put <T>, <R>, <R>, <R>',
    'rows': '<R> := rows <T>', 'cols': '<R> := cols <T>', 'make': 'make <T>, <R>, <R>, <P>, <P>',
         'tick': 'tick',
    'trap': 'trap <K>, <P>, <P>', 'print': 'print <R>', 'emit': 'emit <T>',
    'jump': 'jump <V>', 'halt': 'halt', 'join': 'join <R>', 'leave': 'leave <R>, <R>',
}
SORTS = {name: re.findall('<(.)>', form) for name, form in FORMS.items()}
ENDS = ('jump', 'halt', 'join', 'leave')


def pattern_of(form):
    form = re.sub(r'([][+.{}])', r'\\\1', form)
    return re.compile(re.sub('<(.)>', lambda part: PARTS[part[1]], form), re.ASCII)


PATTERNS = {name: pattern_of(form) for name, form in FORMS.items()}
RENAMED = f'{REGISTER} -> {REGISTER}'
CUT = f't{COUNT} (?:rows {REGISTER}|cells {REGISTER} {REGISTER})'
TARGET = re.compile(r'jtppt (assoc|assoc-comm); \{(.*)\}; @' + NAME +
                    r'; (loop|call); carry (.*)', re.ASCII)
READY = re.compile(f'prppt @{NAME}', re.ASCII)
INPUT = re.compile(f'table t{COUNT} input {NAME}', re.ASCII)
MADE = re.compile(f'table t{COUNT} made', re.ASCII)
HEADS = {1: re.compile(f'{NAME}(): (.*)', re.ASCII),
         2: re.compile(f'{NAME} #{COUNT}: (.*)', re.ASCII)}


class Refused(Exception):
    """A text that is none of a code: the line and the number of the code, 9, 10 or 11."""

    def __init__(self, line, code):
        super().__init__(f'refused E{code} at line {line}')


class Block:
    """A block: its name, its note and its instructions, the last of which ends it. A note is
    ('plain',), ('prppt', label) or ('jtppt', policy, [(left, right)], label, kind, [cut]), a cut
    (table, row) or (table, row, column) with registers."""

    def __init__(self, name, note, items):
        self.name, self.note, self.items = name, note, items


class Code:
    """The tables, each the name of an input or None where it is made, and the blocks."""

    def __init__(self, tables, blocks):
        self.tables, self.blocks = tables, blocks

    def copy(self):
        return Code(list(self.tables), [Block(block.name, block.note, list(block.items))
                                        for block in self.blocks])


def value_of(text):
    if text == 'nil':
        return ('nil',)
    if text[0] in 'r@':
        return ('r', int(text[1:])) if text[0] == 'r' else ('@', text[1:])
    return ('n', int(text)) if LEAST <= int(text) <= GREATEST else None


def part_of(sort, text):
    """A part, or None where its number is out of its range."""
    if sort == 'V':
        return value_of(text)
    if sort in 'LOK':
        return text
    least, most = RANGES.get(sort, (0, 31))
    return int(text) if least <= int(text) <= most else None


def item_of(text, version):
    """An instruction or the end of a block, or None."""
    for name, pattern in PATTERNS.items():
        found = pattern.fullmatch(text)
        if found and (name != 'leave' or version == 2):
            parts = [part_of(sort, part) for sort, part in zip(SORTS[name], found.groups())]
            return None if None in parts else (name, *parts)
    return None


def cut_of(text):
    found = re.fullmatch(CUT, text, re.ASCII)
    if not found or int(found[1]) > 15:
        return None
    return tuple(int(part) for part in found.groups() if part)


def note_of(text):
    """A note, or None."""
    ready, target = READY.fullmatch(text), TARGET.fullmatch(text)
    if text == 'plain' or ready:
        return ('prppt', ready[1]) if ready else ('plain',)
    if not target:
        return None
    pairs = target[2].split(', ') if target[2] else []
    pairs = [re.fullmatch(RENAMED, pair, re.ASCII) for pair in pairs]
    cuts = [] if target[5] == 'none' else [cut_of(cut) for cut in target[5].split(', ')]
    if None in pairs or None in cuts:
        return None
    pairs = [(int(pair[1]), int(pair[2])) for pair in pairs]
    return ('jtppt', target[1], pairs, target[3], target[4], cuts)


def is_note_good(note, notes):
    """Whether a note meets its conditions, by the notes of the blocks."""
    if note[0] == 'prppt':
        return notes.get(note[1], ('plain',))[0] != 'prppt'
    if note[0] == 'plain':
        return True
    names = [left for left, _ in note[2]] + [right for _, right in note[2]]
    tables = [cut[0] for cut in note[5]]
    return (len(set(names)) == len(names) and not {30, 31} & set(names)
            and len(set(tables)) == len(tables) and len(tables) <= 4)


def labels_in(note_or_item):
    """The labels of a note or an instruction."""
    if note_or_item[0] in ('plain', 'prppt'):
        return list(note_or_item[1:])
    if note_or_item[0] == 'jtppt':
        return [note_or_item[3]]
    parts = zip(SORTS[note_or_item[0]], note_or_item[1:])
    return [part if sort == 'L' else part[1] for sort, part in parts
            if sort == 'L' or sort == 'V' and part[0] == '@']


def tables_in(note_or_item):
    if note_or_item[0] == 'jtppt':
        return [cut[0] for cut in note_or_item[5]]
    return [part for sort, part in zip(SORTS.get(note_or_item[0], ''), note_or_item[1:])
            if sort == 'T']


class Reader:
    """Reads the lines of a text, and keeps the first fault."""

    def __init__(self, text):
        self.version = 2 if text.startswith(FIRST_LINE[2]) else 1
        self.head = HEADS[self.version]
        self.lines = text.split('\n')
        self.full = len(self.lines) - 1
        if self.lines[-1] == '':
            self.lines.pop()
        self.tables, self.blocks, self.begins, self.places, self.faults = [], [], [], [], []

    def table(self, at, line):
        """Whether a line is that of the next table."""
        found = INPUT.fullmatch(line) or MADE.fullmatch(line)
        if not found or int(found[1]) != len(self.tables) or self.blocks:
            return False
        name = found[2] if found.re is INPUT else None
        if len(self.tables) == MOST_TABLES:
            self.faults.append((at, 11))
        if name in self.tables and name is not None:
            self.faults.append((at, 9))
        self.tables.append(name)
        return True

    def header(self, at, line):
        """Whether a line is the head of the next block."""
        found = self.head.fullmatch(line)
        note = found and note_of(found[3])
        if not note or self.version == 2 and int(found[2]) != len(self.blocks):
            return False
        self.begins.append(at)
        self.blocks.append(Block(found[1], note, []))
        return True

    def scan(self):
        """Reads up to the first line that isn't of the grammar."""
        inside = False
        for at, line in enumerate(self.lines, 1):
            if at == 1 and self.version == 2:
                continue
            item = item_of(line[2:], self.version) if inside and line.startswith('  ') else None
            is_table = not inside and self.table(at, line)
            good = item is not None if inside else is_table or self.header(at, line)
            if at > self.full or not good:
                self.faults.append((at, 9))
                return
            if inside:
                self.blocks[-1].items.append(item)
                self.places.append((at, item))
                inside = item[0] not in ENDS
            else:
                inside = not is_table
        if inside or not self.blocks:
            self.faults.append((len(self.lines) + 1, 9))

    def known(self):
        """The notes of all names that a header of the text gives, also behind a fault."""
        notes = {}
        for line in self.lines:
            found = self.head.fullmatch(line)
            note = found and note_of(found[3])
            if note:
                notes.setdefault(found[1], note)
        return notes

    def look(self):
        """The faults of lines that are of the grammar."""
        notes, seen = self.known(), set()
        for at, block in zip(self.begins, self.blocks):
            if block.name in seen:
                self.faults.append((at, 10))
            if len(seen) == MOST_BLOCKS:
                self.faults.append((at, 11))
            if not is_note_good(block.note, notes):
                self.faults.append((at, 9))
            seen.add(block.name)
        lines = self.places + [(at, block.note) for at, block in zip(self.begins, self.blocks)]
        for at, part in lines:
            if any(label not in notes for label in labels_in(part)):
                self.faults.append((at, 10))
            if any(table >= len(self.tables) for table in tables_in(part)):
                self.faults.append((at, 9))


def read(text):
    """The code of a text, or Refused."""
    reader = Reader(text)
    reader.scan()
    reader.look()
    if reader.faults:
        raise Refused(*min(reader.faults))
    return Code(reader.tables, reader.blocks)


def value_text(value):
    return {'nil': 'nil', 'n': str(value[-1])}.get(value[0], f'{value[0]}{value[-1]}')


def part_text(sort, part):
    front = {'R': 'r', 'T': 't', 'L': '@'}.get(sort, '')
    return value_text(part) if sort == 'V' else f'{front}{part}'


def item_text(item):
    parts = iter(zip(SORTS[item[0]], item[1:]))
    return re.sub('<.>', lambda _: part_text(*next(parts)), FORMS[item[0]])


def cut_text(cut):
    kind = 'rows' if len(cut) == 2 else 'cells'
    return f't{cut[0]} {kind}' + ''.join(f' r{register}' for register in cut[1:])


def note_text(note):
    if note[0] != 'jtppt':
        return ' @'.join(note)
    pairs = ', '.join(f'r{left} -> r{right}' for left, right in note[2])
    cuts = ', '.join(cut_text(cut) for cut in note[5]) or 'none'
    return f'jtppt {note[1]}; {{{pairs}}}; @{note[3]}; {note[4]}; carry {cuts}'


def write(code, version=None):
    """The text of a code."""
    version = version or VERSION
    lines = [f'table t{number} ' + (f'input {name}' if name else 'made')
             for number, name in enumerate(code.tables)]
    for number, block in enumerate(code.blocks):
        behind = f' #{number}' if version == 2 else ''
        lines.append(f'{block.name}{behind}: {note_text(block.note)}')
        lines += ['  ' + item_text(item) for item in block.items]
    return FIRST_LINE[version] + ''.join(line + '\n' for line in lines)
