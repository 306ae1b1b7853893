#!/usr/bin/env python3
"""Throws changed codes at `tpal exec` and compares each answer with that of a model.

    tests/mutate.py [--program TPAL] [--events EVENTS] [--count N] [--seed N] [--first N]
                    [--runs N] [--version N] [--seconds N]

A code is a change of one under examples/, docs/WRITING-TPAL.md, the conformance suite or
tests/codes, or of what `tpal compile` writes of an example or of a small program. The codes follow
from the seed alone. The model has the text of a code (code_text.py), the rules (code_rules.py) and
the machine (code_machine.py), written anew in Python: it says whether a code is refused, by which
rule and where, and what a run writes. A code that is accepted runs several times, with heartbeats,
fuel, diversions and instructions drawn at random, and once more with the same words. No run may be
stuck but by DivZero, NotHeld or Made. With `--events` it also runs by random events of several
workers, by the program that crates/tests_events is built as. One process runs at a time. The
numbers are printed at the end; the status is 1 where a call differs, and each such text is kept in
a folder that is named, with its words. `--first N --count 1` tries the text N again.
"""
import argparse
import collections
import os
import random
import re
import shutil
import subprocess
import sys
import tempfile

sys.dont_write_bytecode = True
import code_machine
import code_rules
import code_text
import fuzz

TOP = fuzz.TOP
NUMBERS = [0, 1, 2, 3, 4, 5, 7, 10, 64, -1, -2, 4_294_967_296, code_text.LEAST, code_text.GREATEST]
ANSWERS = {0: r'(-?[0-9]+( -?[0-9]+)*)?',
           1: r'stuck (DivZero|NotHeld|Made) at [A-Za-z_0-9]+:[0-9]+|'
           r'trap (Divide|Index|Deep|Size|Wide) at [0-9]+:[0-9]+', 2: 'out of steps|out of fuel',
           3: r'refused (E(9|10|11) at line [0-9]+|E16 V[1-7] at [A-Za-z_0-9]+:[0-9]+|'
           r'E13 input [A-Za-z_0-9]+)'}
BY_EVENTS = r'(outcome|runs on|stuck (DivZero|NotHeld|Made))\n'


# ---- codes to begin with

def fenced(text):
    """The texts between fences of a page."""
    return re.findall(r'^```\n(.*?)^```$', text, re.M | re.S)


def cases(text):
    """The texts of a file of cases."""
    return ['\n'.join(line[2:] for line in block.splitlines()) + '\n'
            for block in re.findall(r'(?:^\| .*\n)+', text, re.M)]


def compiled(program, source):
    with tempfile.NamedTemporaryFile(suffix='.tpal') as file:
        file.write(source)
        file.flush()
        words = [program, 'compile', file.name]
        return subprocess.run(words, capture_output=True, timeout=60).stdout.decode()


def codes_in(texts):
    codes = []
    for text in texts:
        try:
            codes.append(code_text.read(text))
        except code_text.Refused:
            pass
    return codes


class Bases:
    """The codes to begin with: those that were written by hand, and those that were compiled."""

    def __init__(self, program, seed):
        def read(*path):
            with open(os.path.join(TOP, *path), encoding='utf-8') as file:
                return file.read()
        def below(*path):
            return [read(*path, name) for name in sorted(os.listdir(os.path.join(TOP, *path)))
                    if name.endswith('.tasm')]
        texts = below('examples') + below('tests', 'codes')
        texts += fenced(read('docs', 'WRITING-TPAL.md'))
        texts += cases(read('crates', 'tests_conformance', 'data', 'exec.cases'))
        self.written = codes_in(dict.fromkeys(texts))
        rng = random.Random(seed)
        sources = [source for source, _ in fuzz.Examples().pairs] + \
            [fuzz.Grammar(rng).program() for _ in range(60)]
        self.compiled = codes_in(compiled(program, source) for source in sources)
        self.compiled = [code for code in self.compiled if len(code.blocks) <= 40]


# ---- changes

class Changer:
    """Changes of a code, each drawn at random."""

    def __init__(self, rng, code, others, version):
        self.rng, self.code, self.others, self.version = rng, code, others, version
        parts = [(sort, part) for block in code.blocks for item in block.items
                 for sort, part in zip(code_text.SORTS[item[0]], item[1:])]
        self.registers = sorted({part for sort, part in parts if sort == 'R'} | {30, 31})

    def register(self):
        known = self.rng.random() < 0.9
        return self.rng.choice(self.registers) if known else self.rng.randrange(32)

    def label(self):
        return self.rng.choice(self.code.blocks).name

    def value(self):
        kind = self.rng.randrange(6)
        if kind < 3:
            return ('r', self.register())
        return (('n', self.rng.choice(NUMBERS)), ('nil',), ('@', self.label()))[kind - 3]

    def part(self, sort, part):
        rng = self.rng
        if sort == 'N':
            return rng.choice([0, 1, 2, part + 1])
        if sort == 'S':
            return rng.choice([0, 1, 2, 3, min(512, part + 1)])
        if sort == 'T':
            return rng.randrange(max(1, len(self.code.tables)))
        return {'R': self.register, 'V': self.value, 'L': self.label,
                'O': lambda: rng.choice(code_text.OPS),
                'K': lambda: rng.choice(code_text.TRAPS), 'P': lambda: rng.randint(1, 9)}[sort]()

    def place(self):
        """A block and a position in its body, or none where no block has a body."""
        block = self.rng.choice([block for block in self.code.blocks if len(block.items) > 1]
                                or [None])
        return (block, self.rng.randrange(len(block.items) - 1)) if block else (None, 0)

    def fresh(self):
        """An instruction drawn at random."""
        rng = self.rng
        name = rng.choice([name for name in code_text.FORMS if name not in code_text.ENDS
                           and (self.code.tables or 'T' not in code_text.SORTS[name])])
        return (name, *(self.part(sort, 0) for sort in code_text.SORTS[name]))

    def ending(self):
        kind = self.rng.randrange(6 + (self.version == 2))
        if kind > 5:
            return ('leave', self.register(), self.register())
        if kind > 3:
            return ('jump', ('@', self.label()))
        return [('halt',), ('join', self.register()), ('jump', ('r', 30)),
                ('jump', self.value())][kind]

    # each of these changes the code in place

    def one_part(self):
        block = self.rng.choice(self.code.blocks)
        at = self.rng.randrange(len(block.items))
        item = block.items[at]
        if len(item) > 1:
            which = self.rng.randrange(1, len(item))
            new = self.part(code_text.SORTS[item[0]][which - 1], item[which])
            block.items[at] = (*item[:which], new, *item[which + 1:])

    def remove(self):
        block, at = self.place()
        if block:
            del block.items[at]

    def repeat(self):
        block, at = self.place()
        if block:
            block.items.insert(at, block.items[at])

    def swap(self):
        block, at = self.place()
        if block and at + 2 < len(block.items):
            block.items[at:at + 2] = block.items[at:at + 2][::-1]

    def insert(self):
        block = self.rng.choice(self.code.blocks)
        at = self.rng.randrange(len(block.items))
        if self.rng.random() < 0.2:
            test, record = self.register(), self.register()
            block.items[at:at] = [('calc', test, record, 'eq', ('nil',)),
                                  ('ifjump', test, self.label())]
        else:
            block.items.insert(at, self.fresh())

    def copy(self):
        block, at = self.place()
        if block:
            to = self.rng.choice(self.code.blocks)
            end = at + self.rng.choice([1, 1, 2, 3])
            begin = self.rng.randrange(len(to.items))
            to.items[begin:begin] = [item for item in block.items[at:end]
                                     if item[0] not in code_text.ENDS]

    def end(self):
        self.rng.choice(self.code.blocks).items[-1] = self.ending()

    def split(self):
        """A part of a block becomes a block, which changes nothing of what the code does."""
        block = self.rng.choice(self.code.blocks)
        at = self.rng.randrange(len(block.items))
        name = self.name()
        rest = code_text.Block(name, ('plain',), block.items[at:])
        block.items[at:] = [('jump', ('@', name))]
        self.code.blocks.insert(self.rng.randrange(1, len(self.code.blocks) + 1), rest)

    def name(self):
        return f'x{self.rng.randrange(10 ** 6)}'

    def bodies(self):
        one, two = self.rng.choice(self.code.blocks), self.rng.choice(self.code.blocks)
        one.items, two.items = two.items, one.items

    def order(self):
        at, to = (self.rng.randrange(len(self.code.blocks)) for _ in range(2))
        self.code.blocks.insert(to, self.code.blocks.pop(at))

    def twice(self):
        block = self.rng.choice(self.code.blocks)
        self.code.blocks.append(code_text.Block(self.name(), block.note, list(block.items)))

    def drop(self):
        """A block goes that no label names."""
        named = {label for block in self.code.blocks for part in [block.note] + block.items
                 for label in code_text.labels_in(part)}
        loose = [block for block in self.code.blocks[1:] if block.name not in named]
        if loose:
            self.code.blocks.remove(self.rng.choice(loose))

    def note(self):
        rng, block = self.rng, self.rng.choice(self.code.blocks)
        if block.note[0] != 'jtppt' or rng.random() < 0.2:
            block.note = rng.choice([('plain',), ('prppt', self.label()), ('prppt', self.label()),
                                     ('jtppt', 'assoc', [], self.label(), 'loop', [])])
            return
        name, policy, pairs, label, kind, cuts = block.note
        pairs, cuts, which = list(pairs), list(cuts), rng.randrange(8)
        if which == 0 and pairs:
            del pairs[rng.randrange(len(pairs))]
        elif which in (1, 2):
            pairs.append((self.register(), rng.randrange(30)))
        elif which == 3 and pairs:
            pairs[rng.randrange(len(pairs))] = (self.register(), rng.randrange(30))
        elif which == 4:
            label = self.label()
        elif which == 5:
            kind = rng.choice(['loop', 'loop', 'call'])
        elif which == 6 and self.code.tables:
            cut = rng.choice([1, 1, 2])
            cuts.append((self.part('T', 0), *(self.register() for _ in range(cut))))
        elif cuts:
            del cuts[rng.randrange(len(cuts))]
        block.note = (name, policy, pairs, label, kind, cuts)

    def table(self):
        """A table more, at the end of those that there are."""
        if len(self.code.tables) < 4:
            self.code.tables.append(self.rng.choice([None, f'in{len(self.code.tables)}']))

    def another(self):
        """An instruction of another code."""
        other = self.rng.choice(self.others)
        items = [item for block in other.blocks for item in block.items[:-1]
                 if not code_text.labels_in(item) and all(table < len(self.code.tables)
                                                          for table in code_text.tables_in(item))]
        if items:
            block = self.rng.choice(self.code.blocks)
            block.items.insert(self.rng.randrange(len(block.items)), self.rng.choice(items))

    def change(self):
        kinds = [self.one_part] * 8 + [self.remove] * 4 + [self.insert] * 3
        kinds += [self.split] * 2 + [self.note] * 3
        kinds += [self.repeat, self.swap, self.swap, self.copy, self.end, self.bodies, self.order,
                  self.twice,
                  self.drop, self.table, self.another]
        self.rng.choice(kinds)()


def spoiled(rng, text):
    """A text with a change of its lines or bytes, so that most are none of a code."""
    lines = text.split('\n')
    at = rng.randrange(len(lines))
    kind = rng.randrange(7)
    if kind == 6:
        lines[0:0] = [f'table t{number} made' for number in range(17)]
    elif kind == 0:
        del lines[at]
    elif kind == 1:
        lines.insert(at, lines[rng.randrange(len(lines))])
    elif kind == 2:
        lines[at] += rng.choice([' ', 'x', ':', '0', '\r', '# a'])
    elif kind == 3 and lines[at]:
        begin = rng.randrange(len(lines[at]))
        lines[at] = lines[at][:begin] + lines[at][begin + 1:]
    elif kind == 4:
        lines[at] = re.sub('[0-9]+', rng.choice(['32', '00', '512', '513', '9223372036854775808',
                                                 '-0', '']),
                           lines[at], count=1)
    else:
        lines[at] = re.sub('@[a-z_0-9]+', '@' + rng.choice(['nowhere', '9', '']), lines[at],
                           count=1)
    return '\n'.join(lines)


class Sample:
    """A changed code: its kind, its text, the model's code or its refusal, and the rule that it
    breaks."""

    def __init__(self, seed, index, bases, version):
        rng = self.rng = random.Random(seed * 1_000_003 + index)
        self.kind = 'compiled' if bases.compiled and rng.random() < 0.15 else 'written'
        codes = bases.compiled if self.kind == 'compiled' else bases.written
        code = rng.choice(codes)
        for _ in range(rng.choice([1, 1, 2, 3, 5, 8])):
            changed = code.copy()
            for _ in range(rng.choice([1, 1, 1, 2, 3])):
                Changer(rng, changed, bases.written, version).change()
            last = self.judge(code_text.write(changed, version))
            if not isinstance(last, str):
                code = changed
        self.text = code_text.write(changed, version)
        if rng.random() < 0.06:
            self.text = spoiled(rng, self.text)
        self.answer = self.judge(self.text)

    def judge(self, text):
        """The line of the refusal of a text, or its code where it is accepted."""
        try:
            code = code_text.read(text)
        except code_text.Refused as refused:
            return str(refused)
        broken = code_rules.first_break(code)
        return f'refused E16 V{broken[2]} at {broken[0]}:{broken[1]}' if broken else code


# ---- calls

def tables_of(rng, code):
    """Tables for the inputs of a code, and their text. Now and then one is missing."""
    tables, text = {}, ''
    for name in [name for name in code.tables if name] + ['other']:
        rows, cols = rng.choice([0, 1, 2, 5, 9]), rng.choice([0, 1, 1, 1, 2, 3])
        numbers = [rng.randint(-9, 99) for _ in range(rows * cols)]
        if rng.random() < 0.98:
            tables[name] = rows, cols, numbers
            text += ' '.join(map(str, ['table', name, rows, cols, *numbers])) + '\n'
    return tables, text


class Words:
    """The words of a run, drawn at random."""

    def __init__(self, rng):
        self.beat = rng.choice([1, 1, 1, 2, 3, 4, 5, 7, 10, 20, rng.randint(1, 50)])
        self.forks = rng.choice([0, 1, 2, 3, 10, 1000, 1000, 1000])
        self.fuel = rng.choice([0, 1, 2, 5, rng.randint(0, 40), 1000, 1000, 1000])
        self.steps = rng.choice([rng.randint(0, 20), rng.randint(0, 200), 300, 400, 600])

    def words(self):
        return ['--beat', str(self.beat), '--forks', str(self.forks), '--fuel', str(self.fuel),
                '--steps', str(self.steps)]


class Trial:
    """The calls of one code, and what is wrong with them."""

    def __init__(self, program, events, folder, index, seconds, sample):
        self.program, self.events, self.seconds, self.sample = program, events, seconds, sample
        self.paths = [os.path.join(folder, f'{index}.tasm'),
                      os.path.join(folder, f'{index}.tables')]
        self.calls, self.faults, self.ends = 0, [], []
        self.forked = 0

    def write(self, tables):
        for path, text in zip(self.paths, (self.sample.text, tables)):
            with open(path, 'w', encoding='utf-8', newline='') as file:
                file.write(text)

    def call(self, words):
        self.calls += 1
        try:
            done = subprocess.run([self.program, 'exec'] + self.paths + words,
                                  stdin=subprocess.DEVNULL,
                                  capture_output=True, timeout=self.seconds)
            return done.returncode, done.stdout.decode('latin-1'), done.stderr
        except subprocess.TimeoutExpired:
            return 'hang', '', b''

    def compare(self, words, status, text):
        """One call, which owes this status and text."""
        got = self.call(words)
        if got != (status, text, b''):
            answer, owed = got[1][-200:], text[-200:]
            self.faults.append(f'{" ".join(words)}: status {got[0]} and {answer!r} for {status} '
                               f'and {owed!r}')
        form = ANSWERS.get(got[0], '')
        lines = got[1].split('\n')
        if lines.pop() or not all(re.fullmatch(ANSWERS[0], line) for line in lines[:-1]) or \
                lines and not re.fullmatch(form, lines[-1]) or got[0] != 0 and not lines:
            self.faults.append(f'{" ".join(words)}: status {got[0]} and an answer of no form')

    def run_code(self, rng, code, runs):
        tables, text = tables_of(rng, code)
        self.write(text)
        missing = [name for name in code.tables if name and name not in tables]
        for _ in range(runs):
            words = Words(rng)
            if missing:
                self.compare(words.words(), 3, f'refused E13 input {missing[0]}\n')
                self.ends.append('E13')
                continue
            machine = code_machine.Machine(code, tables, words.beat, words.forks, words.fuel)
            try:
                end, status, text = machine.run(words.steps)
            except code_machine.GivenUp:
                self.ends.append('given up')
                continue
            self.ends.append(end)
            self.forked += machine.tasks > 0
            if end.startswith('stuck') and end[6:] not in code_machine.ALLOWED:
                self.faults.append(f'{" ".join(words.words())}: the model is {end}')
            if machine.tasks * words.beat > machine.steps:
                self.faults.append(f'{" ".join(words.words())}: more tasks than are paid for')
            self.compare(words.words(), status, text)
        if runs and not missing and self.ends[-1] != 'given up':
            whole = end == 'out of steps' or rng.random() < 0.5
            self.compare(words.words() if whole else words.words()[:-2], status, text)

    def run_events(self, rng):
        """A run by random events of several workers: it has an outcome, runs on, or is stuck by one
        of three."""
        words = [str(rng.choice(choices)) for choices in (
            [1, 2, 2, 3, 4, 7, 16], [1, 1, 1, 2, 3, 5, 10, 50], [0, 1, 3, 1000, 1000, 1000],
            [0, 3, 20, 1000, 1000], range(2 ** 32), [50, 500, 3000])]
        self.calls += 1
        try:
            done = subprocess.run([self.events] + words, input=self.sample.text.encode(),
                                  capture_output=True, timeout=self.seconds)
            line, status = done.stdout.decode('latin-1'), done.returncode
        except subprocess.TimeoutExpired:
            line, status = '', 'hang'
        self.ends.append('by events ' + line.strip())
        if status != 0 or not re.fullmatch(BY_EVENTS, line):
            self.faults.append(f'by events {" ".join(words)}: status {status} and {line!r}')

    def run(self, runs):
        sample = self.sample
        if isinstance(sample.answer, str):
            self.write('')
            self.ends.append(sample.answer.split(' at ')[0][8:])
            self.compare([], 3, sample.answer + '\n')
        else:
            self.run_code(sample.rng, sample.answer, runs)
            if self.events:
                self.run_events(sample.rng)
        if not self.faults:
            for path in self.paths:
                os.unlink(path)


def main():
    words = argparse.ArgumentParser(description=__doc__.split('\n')[0])
    words.add_argument('--program', default=os.path.join(TOP, 'crates/tpal/out/tpal'))
    words.add_argument('--events')
    words.add_argument('--count', type=int, default=20_000)
    words.add_argument('--seed', type=int, default=1)
    words.add_argument('--first', type=int, default=0)
    words.add_argument('--runs', type=int, default=2)
    words.add_argument('--version', type=int, default=code_text.VERSION)
    words.add_argument('--seconds', type=float, default=60)
    asked = words.parse_args()
    program = os.path.abspath(asked.program)
    events = asked.events and os.path.abspath(asked.events)
    bases = Bases(program, asked.seed)
    print(f'{len(bases.written)} codes by hand, {len(bases.compiled)} compiled', flush=True)
    memory = '/dev/shm' if os.path.isdir('/dev/shm') else None
    folder = tempfile.mkdtemp(prefix='tpal-mutate-', dir=memory)
    ends, kinds, calls, bad, forked = collections.Counter(), collections.Counter(), 0, 0, 0
    for index in range(asked.first, asked.first + asked.count):
        sample = Sample(asked.seed, index, bases, asked.version)
        trial = Trial(program, events, folder, index, asked.seconds, sample)
        trial.run(asked.runs)
        kinds[sample.kind, 'refused' if isinstance(sample.answer, str) else 'accepted'] += 1
        ends.update(trial.ends)
        calls, bad, forked = calls + trial.calls, bad + bool(trial.faults), forked + trial.forked
        for fault in trial.faults:
            print(f'text {index} ({sample.kind}): {fault}', flush=True)
        if (index + 1) % 1_000 == 0:
            print(f'{index + 1} codes, {calls} calls, {bad} that differ', flush=True)
    for (kind, what), count in sorted(kinds.items()):
        print(f'{kind}: {count} {what}')
    print('ends: ' + ', '.join(f'{count} {end}' for end, count in sorted(ends.items())))
    print(f'{forked} runs in which a task was cut in two')
    print(f'seed {asked.seed}: {asked.count} codes, {calls} calls, {bad} that differ')
    if bad:
        print(f'the texts are in {folder}')
    else:
        shutil.rmtree(folder)
    return 1 if bad else 0


if __name__ == '__main__':
    sys.exit(main())
