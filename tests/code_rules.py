"""The rules of hand-written code for the mutation run: which rule a code breaks first, and where.

It follows docs/WRITING-TPAL.md and the text of the rules, and shares nothing with the verifier. A
kind is 'Int', 'Nil', 'Own', 'Up', 'Pend', 'Met', 'Any' or ('Back', handler), handlers by their
names.
"""
from code_text import SORTS, labels_in

CALCULATE_ANY = ('eq', 'ne')
LINES = {'move', 'calc', 'load', 'store'}
WRITES = {'move': 1, 'calc': 1, 'load': 1, 'prmempty': 1, 'prmsplit': 2, 'jralloc': 1, 'fetch': 1,
          'rows': 1,
          'cols': 1}
BASES = {'load': (2, 3), 'store': (1, 2), 'prmpush': (1, 2), 'prmpop': (1, 2)}


class Shape:
    """What is known where a block is entered: the kinds of r0 to r30 and of the cells, and four
    facts."""
    __slots__ = ('registers', 'cells', 'end', 'mark', 'grant', 'met')

    def __init__(self, registers, cells, end='Root', mark='No', grant=False, met=None):
        self.registers, self.cells = registers, cells
        self.end, self.mark, self.grant, self.met = end, mark, grant, met

    def but(self, **facts):
        """A copy with other facts."""
        copy = Shape(list(self.registers), list(self.cells), self.end, self.mark, self.grant,
                     self.met)
        for name, fact in facts.items():
            setattr(copy, name, fact)
        return copy

    def each(self, change):
        """A copy with each kind changed."""
        return self.but(registers=[change(kind) for kind in self.registers],
                        cells=[change(kind) for kind in self.cells])

    def is_same(self, other):
        return all(getattr(self, name) == getattr(other, name) for name in self.__slots__)


def joined_kind(one, its_end, other, other_end):
    if one == other:
        return one
    pairs = ((one, its_end), (other, other_end))
    if all(kind in ('Own', 'Up') or kind == 'Nil' and end == 'Root' for kind, end in pairs):
        return 'Up'
    return 'Any'


def joined(one, other):
    """What is known by both of two shapes."""
    kinds = [x if x == y else [joined_kind(a, one.end, b, other.end) for a, b in zip(x, y)]
             for x, y in ((one.registers, other.registers), (one.cells, other.cells))]
    return Shape(*kinds, end=one.end if one.end == other.end else 'Either',
                 mark=one.mark if one.mark == other.mark else 'Either',
                 grant=one.grant and other.grant, met=one.met if one.met == other.met else None)


class Rules:
    """A code with what its rules go by, and the places that break one."""

    def __init__(self, code):
        self.blocks = code.blocks
        self.first = code.blocks[0].name
        self.notes = {block.name: block.note for block in code.blocks}
        head = code.blocks[0].items[0]
        self.cells = head[1] if head[0] == 'salloc' else 0
        marks = [item for block in code.blocks for item in block.items
                 if item[0] in ('prmpush', 'prmpop')]
        self.mark_cell = marks[0][2] if marks else None
        self.listed = {left for block in code.blocks if block.note[0] == 'jtppt' for left,
                       _ in block.note[2]}
        self.ready = {}
        for block in code.blocks:
            if block.note[0] == 'prppt':
                self.ready.setdefault(block.note[1], []).append(block.name)

    # ---- V1, and V4, which go by the text alone

    def is_flat_note(self, note):
        return self.first not in labels_in(note) and not (note[0] == 'jtppt' and note[4] == 'call')

    def is_flat(self, block, at):
        item = self.blocks[block].items[at]
        name = item[0]
        if name in ('sfree', 'leave') or name == 'salloc' and (block, at) != (0, 0):
            return False
        if self.first in labels_in(item):
            return False
        if 31 in item[1:1 + WRITES.get(name, 0)]:
            return False
        if name in BASES:
            base, offset = (item[part] for part in BASES[name])
            if base != 31 or offset >= self.cells:
                return False
        if name == 'prmpush' and item[3] != self.cells:
            return False
        if name in ('prmpush', 'prmpop') and item[2] != self.mark_cell:
            return False
        return name != 'jump' or item[1] == ('r', 30) or item[1][0] == '@'

    def is_test(self, items, at, record):
        """The register of a test of a record against nil, with its jump behind it, or None."""
        if at + 1 < len(items):
            test, jump = items[at], items[at + 1]
            if test[:1] + test[2:] == ('calc', record, 'eq', ('nil',)) and test[1] != record \
                    and jump[:2] == ('ifjump', test[1]):
                return test[1]
        return None

    def asks_rightly(self, items, at):
        record = items[at][1]
        if self.notes[items[at][2]][0] != 'jtppt' or self.is_test(items, at + 1, record) is None:
            return False
        for item in items[at + 3:]:
            if item[0] == 'fork':
                return item[1] == record
            if item[0] not in LINES or item[0] != 'store' and item[1] == record:
                return False
        return False

    # ---- what an instruction does to a shape

    def kind_of(self, shape, value):
        if value[0] == 'r':
            return 'Int' if value[1] == 31 else shape.registers[value[1]]
        if value[0] == '@':
            note = self.notes[value[1]]
            return ('Back', note[1]) if note[0] == 'prppt' else 'Any'
        return 'Int' if value[0] == 'n' else 'Nil'

    def wanted(self, item, target):
        """The values that have to be numbers."""
        name, values = item[0], []
        if name == 'calc' and item[3] not in CALCULATE_ANY:
            values = [('r', item[2]), item[4]]
        elif name == 'fetch':
            values = [('r', item[3]), ('r', item[4])]
        elif name in ('put', 'make'):
            values = [('r', part) for sort, part in zip(SORTS[name], item[1:]) if sort == 'R']
        elif name in ('ifjump', 'print'):
            values = [('r', item[1])]
        elif name == 'fork' and target:
            values = [('r', register) for cut in self.notes[target][5] for register in cut[1:]]
        return values

    def broken(self, walk, block, at, item):
        """The least rule that an instruction breaks, or None."""
        shape, name = walk.shape, item[0]
        kind = self.kind_of(shape, ('r', item[1])) if name in ('fork', 'join') else None
        target = walk.asked[1] if name == 'fork' and kind == 'Pend' else None
        if not self.is_flat(block, at):
            return 1
        if any(self.kind_of(shape, value) != 'Int' for value in self.wanted(item, target)):
            return 2
        if name == 'prmpush' and shape.mark != 'No' or \
                name in ('prmdrop', 'prmsplit', 'fork') and shape.mark != 'Yes':
            return 3
        if name == 'jralloc' and not self.asks_rightly(self.blocks[block].items, at):
            return 4
        if name == 'fork' and not (kind == 'Pend' and shape.grant):
            return 5
        if name == 'halt' and shape.end != 'Root':
            return 6
        if name == 'join' and not (kind == 'Own' and shape.end == 'Side') and \
                not (kind == 'Met' and shape.met):
            return 6
        if item == ('jump', ('r', 30)) and self.kind_of(shape, ('r', 30))[0] != 'Back':
            return 7
        return None


class Walk:
    """One walk over a block from its shape on: what flows where, what is broken, the joins of Own
    and the forks that are reached."""

    def __init__(self, rules, number, shape):
        self.rules, self.shape, self.asked = rules, shape, None
        self.flows, self.broken, self.owns, self.forks = [], [], [], []
        block = rules.blocks[number]
        if block.note[0] == 'prppt':
            handler = shape.but(mark='Yes', grant=True)
            handler.registers[30] = ('Back', block.note[1])
            self.flows.append((block.note[1], handler))
        self.shape = shape.but()
        for at, item in enumerate(block.items):
            if item[0] == 'join' and rules.is_flat(number, at) and \
                    rules.kind_of(self.shape, ('r', item[1])) == 'Own':
                self.owns.append((number, at,
                                  {name: self.shape.registers[name] for name in rules.listed}))
            rule = rules.broken(self, number, at, item)
            if rule:
                self.broken.append((number, at, rule))
                return
            if not self.go(block.items, at, item):
                return

    def go(self, items, at, item):
        """What one instruction does; whether anything flows behind it."""
        shape, name = self.shape, item[0]
        if name in ('move', 'store'):
            kind = self.rules.kind_of(shape, item[-1])
            if name == 'move':
                shape.registers[item[1]] = kind
            else:
                shape.cells[item[2]] = kind
        elif name == 'load':
            shape.registers[item[1]] = shape.cells[item[3]]
        elif name in ('calc', 'rows', 'cols', 'fetch', 'prmempty'):
            shape.registers[item[1]] = 'Int'
        elif name == 'prmsplit':
            shape.registers[item[1]] = 'Int'
            shape.registers[item[2]] = 'Any'
        elif name in ('prmpush', 'prmpop', 'prmdrop'):
            shape.mark = 'Yes' if name == 'prmpush' else 'No'
        elif name == 'jralloc':
            shape.registers[item[1]], self.asked = 'Any', (item[1], item[2])
        elif name == 'ifjump':
            return self.choose(items, at, item[2])
        elif name == 'fork':
            self.fork(item)
        else:
            return self.end(item)
        return True

    def choose(self, items, at, label):
        """A test, which tells something where it is of a word against nil."""
        shape, record = self.shape, items[at - 1][2] if at and items[at - 1][0] == 'calc' else 31
        if record == 31 or self.rules.is_test(items, at - 1, record) is None:
            self.flows.append((label, shape.but()))
            return True
        there, kind = shape.but(), shape.registers[record]
        if at >= 2 and items[at - 2][0] == 'jralloc' and items[at - 2][1] == record:
            there.registers[record], shape.registers[record] = 'Nil', 'Pend'
        elif kind == 'Up':
            root = shape.end == 'Root'
            if shape.end != 'Side':
                there.registers[record], there.end = 'Nil', 'Root'
                self.flows.append((label, there))
            shape.registers[record], shape.end = 'Own', 'Side'
            return not root
        if kind != 'Own':
            self.flows.append((label, there))
        return kind != 'Nil'

    def fork(self, item):
        before, record = self.shape, item[1]
        self.forks.append((self.asked[1], before))
        left = before.each(lambda kind: 'Any' if kind in ('Own', 'Up', 'Pend', 'Met') else kind)
        left = left.but(end='Side', grant=False, met=None)
        left.registers[record] = 'Own'
        self.flows.append((item[2], left.but(mark='No')))
        self.shape = left

    def end(self, item):
        """An instruction that changes no kind, or the end of the block."""
        shape, name = self.shape, item[0]
        if name == 'jump':
            back = item[1][0] == 'r'
            labels = self.rules.ready.get(shape.registers[30][1], []) if back else [item[1][1]]
            self.flows += [(label, shape.but()) for label in labels]
        elif name == 'join' and self.rules.kind_of(shape, ('r', item[1])) == 'Met':
            behind = shape.each(lambda kind: 'Any' if kind == 'Met' else kind)
            self.flows.append((shape.met, behind.but(met=None)))
        return name not in ('jump', 'halt', 'join', 'trap')


def found_by(rules, owns):
    """Of each listed register what it is at every end of a piece: Int, Own, or neither."""
    found = {}
    for name in rules.listed:
        kinds = {kinds[name] for _, _, kinds in owns}
        found[name] = kinds.pop() if kinds in ({'Int'}, {'Own'}) else None
    return found


def combined(rules, target, before, found):
    """What flows into a combining block from a fork."""
    note = rules.notes[target]
    registers = ['Nil'] * 31
    for names in zip(*note[2]):
        for name, (left, _) in zip(names, note[2]):
            registers[name] = {'Int': 'Int', 'Own': 'Met', None: 'Any'}[found[left]]
    cells = [kind if kind in ('Int', 'Nil', 'Own', 'Up') else 'Any' for kind in before.cells]
    return note[3], Shape(registers, cells, end=before.end, met=target)


def first_break(code):
    """The first rule that a code breaks, as (name of the block, position, rule), or None. The
    shapes are found in rounds, in each of which all that flows by the shapes before is joined in at
    once."""
    rules = Rules(code)
    number = {block.name: at for at, block in enumerate(code.blocks)}
    shapes = {0: Shape(['Nil'] * 31, ['Nil'] * rules.cells)}
    walks, due = {}, {0}
    while due:
        for at in due:
            walks[at] = Walk(rules, at, shapes[at])
        owns = [own for walk in walks.values() for own in walk.owns]
        found = found_by(rules, owns)
        flows = [flow for walk in walks.values() for flow in walk.flows]
        if owns:
            flows += [combined(rules, *fork, found) for walk in walks.values()
                      for fork in walk.forks]
        after = {}
        for label, shape in flows:
            at = number[label]
            old = after.get(at) or shapes.get(at)
            after[at] = joined(old, shape) if old else shape
        due = {at for at, shape in after.items() if at not in shapes
               or not shape.is_same(shapes[at])}
        shapes |= after
    breaks = [broken for walk in walks.values() for broken in walk.broken]
    if None in found.values():
        breaks += [(block, at, 6) for block, at, _ in owns]
    breaks += [(block, at, 1) for block in range(len(code.blocks))
               for at in range(len(code.blocks[block].items))
               if not rules.is_flat(block, at)]
    breaks += [(at, 0, 1) for at, block in enumerate(code.blocks)
               if not rules.is_flat_note(block.note)]
    if not breaks:
        return None
    block, at, rule = min(breaks)
    return code.blocks[block].name, at, rule
