#!/usr/bin/env python3
"""Throws texts at `tpal run` and `tpal compile` and judges each answer by what the program may answer at all.

    tests/fuzz.py [--program TPAL] [--count N] [--seed N] [--jobs N] [--seconds N]

A text is a change of an example, a program put together from the grammar, a row of tokens, or bytes. The texts
follow from the seed alone. A call has 10 seconds unless told otherwise, a fuel of 20,000, and at most 10
diversions a worker, since the fuel doesn't bound what tasks do whose outcome is dropped. A program that is accepted
runs again with another heartbeat and other workers, and must do the same. The numbers are printed at
the end; the status is 1 where a call differs, and each such text is kept in a folder that is named.
"""
import argparse
import collections
import concurrent.futures
import os
import random
import re
import shutil
import subprocess
import sys
import tempfile

TOP = os.path.dirname(os.path.dirname(os.path.abspath(__file__)))
FUEL = 20_000
NUMBERS = re.compile(rb'(-?[0-9]+( -?[0-9]+)*)?')
STOPS = {1: re.compile(rb'trap (Divide|Index|Deep|Size|Wide) at ([0-9]+):([0-9]+)'), 2: re.compile(rb'out of fuel')}
AT_PLACE = re.compile(rb'refused (?:E1|E2|E3|E14|E7 C(?:1|7|9|10|11)|E8 C(?:2|3|4|5|6|8|12)) at ([0-9]+):([0-9]+)')
AT_BYTE = re.compile(rb'refused E[456] at byte ([0-9]+)')
OTHER_REFUSALS = re.compile(rb'refused E12 blocks ([0-9]+)|refused E13 input [A-Za-z_][A-Za-z_0-9]*|'
                            rb'refused E0 not built')
COUNTS = re.compile(rb'tasks ([0-9]+) beats ([0-9]+) skipped ([0-9]+) instructions ([0-9]+) ticks ([0-9]+)')

WORDS = ('input table fn return main let if else while loop par in carry reduce by fold with call both print emit '
         'rows cols add mul min max affine leave a b c f g h i j k n s t x y rowfn fill').split()
SIGNS = '( ) { } [ ] , ; = + - * / % == != < <= > >= ..'.split()
LITERALS = ['0', '1', '2', '3', '7', '00', '10000', '4294967296', '9223372036854775807', '9223372036854775808']
SPECIAL_BYTES = [b'\0', b'\xff', b'\xc3\xa9', b'#', b'.', b'!', b'@', b'\r', b'\n', b'\t', b'"', b"'", b'\\', b'$']
TABLE_TOKENS = ['table', 'a', 'b', 'n', '0', '1', '2', '3', '-1', '-', '4000000', '4000001', '-9223372036854775808',
                '9223372036854775807', '9223372036854775808', '01', 'x', '2001', '2000']


class Examples:
    """The programs under examples/, with their tables texts, as bytes and as tokens."""

    def __init__(self):
        folder = os.path.join(TOP, 'examples')
        self.pairs = []
        for name in sorted(os.listdir(folder)):
            if name.endswith('.tpal'):
                tables = os.path.join(folder, name[:-5] + '.tables')
                source = open(os.path.join(folder, name), 'rb').read()
                self.pairs.append((source, open(tables, 'rb').read() if os.path.exists(tables) else b''))
        self.tokens = [token for source, _ in self.pairs
                       for token in re.findall(rb'\w+|[=!<>]=|\.\.|[^\w\s]', source)]


def changed(rng, text, examples):
    """A text with one to six changes of bytes, tokens or lines."""
    text = bytearray(text)
    for _ in range(rng.randint(1, 6)):
        at = rng.randrange(len(text) + 1)
        end = min(len(text), at + rng.choice([1, 1, 1, 2, 5, 20, 100]))
        kind = rng.randrange(8)
        if kind == 0:
            del text[at:end]
        elif kind == 1:
            text[at:at] = rng.choice(SPECIAL_BYTES)
        elif kind == 2 and at < len(text):
            text[at] = rng.randrange(256)
        elif kind == 3:
            text[at:at] = b' ' + rng.choice(examples.tokens) + b' '
        elif kind == 4:
            other = rng.choice(examples.pairs)[0]
            begin = rng.randrange(len(other))
            text[at:end] = other[begin:begin + rng.choice([5, 20, 60])]
        elif kind == 5:
            text[at:at] = text[at:end] * rng.choice([1, 1, 2, 30])
        elif kind == 6:
            numbers = list(re.finditer(rb'[0-9]+', text))
            if numbers:
                number = rng.choice(numbers)
                text[number.start():number.end()] = rng.choice(LITERALS).encode()
        else:
            words = list(re.finditer(rb'[a-z_]+', text))
            if words:
                word = rng.choice(words)
                text[word.start():word.end()] = rng.choice(WORDS).encode()
    return bytes(text)


class Place:
    """Where a statement stands: the variables that may be read and those that may be set, the reductions of the
    nearest `par`, whether there is one, which cells of `t` may be touched: all, none, or those of a shape, and
    by which variable the nearest `par` is left, if by any."""

    def __init__(self, readable=(), settable=(), reduces=None, in_par=False, cells='all', target=None):
        self.readable, self.settable = list(readable), list(settable)
        self.reduces, self.in_par, self.cells, self.target = reduces or {}, in_par, cells, target

    def inner(self):
        return Place(self.readable, self.settable, self.reduces, self.in_par, self.cells, self.target)


class Grammar:
    """Programs of the grammar, which break a rule now and then."""

    def __init__(self, rng):
        self.rng = rng
        self.fresh = 0

    def breaks(self):
        return self.rng.random() < 0.004

    def name(self, known):
        return self.rng.choice(known) if known and not self.breaks() else self.rng.choice('abcfgxy')

    def new(self):
        self.fresh += 1
        return f'v{self.fresh}'

    def cell(self, place):
        """A cell of `t` that has the shape of the nearest `par` that carries it."""
        if place.cells == 'all' or self.breaks():
            return f't[{self.expr(place, 1)}][{self.expr(place, 0)}]'
        row, col = place.cells
        return f't[{row}][{col or self.expr(place, 0)}]'

    def expr(self, place, height):
        rng = self.rng
        kind = rng.randrange(10) if height else rng.randrange(4)
        if kind < 2 or (kind < 4 and not place.readable):
            return rng.choice(['0', '1', '2', '3', '5', '9', rng.choice(LITERALS[:9])])
        if kind < 4:
            return self.name(place.readable)
        if kind == 4:
            return '-' + self.expr(place, height - 1)
        if kind == 5 and place.cells != 'none':
            return self.cell(place)
        if kind in (5, 6):
            return rng.choice(['rows(t)', 'cols(t)', 'rows(a)', 'cols(a)', 'a[0][0]', 'a[1][2]'])
        sign = rng.choice(['+', '-', '*', '/', '%', '==', '!=', '<', '<=', '>', '>='])
        return f'({self.expr(place, height - 1)} {sign} {self.expr(place, height - 1)})'

    def carry(self, place, variable):
        """A carry clause of a loop, and the cells that its body may touch."""
        if self.rng.random() < 0.5 or place.cells == 'none' or (place.in_par and place.cells == 'all'):
            return '', place.cells if place.cells == 'all' else 'none'
        if place.in_par:
            row, col = place.cells
            return ('', 'none') if col else (f' carry t[{row}][{variable}]', (row, variable))
        row = self.rng.choice([None, None, '0', '1'])
        return (f' carry t[{row}][{variable}]', (row, variable)) if row else (f' carry t[{variable}]', (variable, None))

    def par(self, place, depth):
        rng = self.rng
        variable = self.new()
        clauses, cells = self.carry(place, variable)
        may_reduce = sorted(place.reduces) if place.in_par else place.settable
        reduces = {}
        for target in rng.sample(may_reduce, min(len(may_reduce), rng.choice([0, 1, 1, 2]))):
            reduces[target] = place.reduces.get(target) or rng.choice(['add', 'mul', 'min', 'max', 'affine'])
        if reduces:
            clauses += ' reduce ' + ', '.join(f'{target} by {word}' for target, word in reduces.items())
        readable = [known for known in place.readable if known not in reduces] + [variable]
        may_leave = place.settable if not clauses and rng.random() < 0.1 else []
        target = rng.choice(may_leave) if may_leave else None
        body = self.block(Place(readable, [], reduces, True, cells, target), depth - 1)
        high = rng.choice(['2', '3', '5', '9', '40', self.expr(place, 1)])
        return f'par {variable} in {rng.choice(["0", "0", "1", self.expr(place, 1)])}..{high}{clauses} {body}'

    def stmt(self, place, depth):
        rng = self.rng
        kind = rng.randrange(14) if depth else rng.randrange(8)
        value = self.expr(place, 2)
        if kind == 2 and (not place.in_par or self.breaks()):
            return f'{"print" if rng.random() < 0.7 else "emit t; print"} {value};'
        if kind in (3, 4) and (place.reduces or self.breaks()):
            return f'fold {self.name(sorted(place.reduces))} with {value};'
        if kind == 5 and place.cells != 'none' and (not place.in_par or place.cells != 'all' or self.breaks()):
            return f'{self.cell(place)} = {value};'
        if kind == 6 and (place.target or self.breaks()):
            return f'leave {self.name([place.target] if place.target else place.settable)} = {value};'
        if kind == 8:
            other = f' else {self.block(place.inner(), depth - 1)}' if rng.random() < 0.4 else ''
            return f'if {value} {self.block(place.inner(), depth - 1)}{other}'
        if kind == 9:
            variable, body = self.new(), place.inner()
            body.readable.append(variable)
            return f'loop {variable} in 0..{self.expr(place, 1)} {self.block(body, depth - 1)}'
        if kind == 10:
            return f'while {value} {self.block(place.inner(), depth - 1)}'
        if kind > 10:
            return self.par(place, depth)
        if kind in (0, 2, 3, 5) or not place.settable:
            variable = self.new()
            place.readable.append(variable)
            place.settable.append(variable)
            return f'let {variable} = {value};'
        first, second = self.name(place.settable), self.name(place.settable)
        if kind == 1:
            return f'{first} = {value};'
        if kind == 7 and first != second:
            return f'both {first} = f({value}), {second} = f({self.expr(place, 1)});'
        return f'call {first} = f({value});'

    def block(self, place, depth):
        statements = [self.stmt(place, depth) for _ in range(self.rng.randint(0, 5))]
        return '{ ' + ' '.join(statements) + ' }'

    def program(self):
        rng = self.rng
        size = rng.choice(['3', '4', '9', 'rows(a)'])
        body = rng.choice(['', 'if 0 < n { call r = f(n - 1); }',
                           'if 0 < n { let p = 0; let q = 0; both p = f(n - 1), q = f(n - 2); r = p + q; }',
                           'par i in 0..n reduce r by add { fold r with i; }'])
        return (f'input a; table t[{size}][{rng.choice(["3", "2", "5"])}];\n'
                f'fn f(n) {{ let r = n; {body} return r; }}\nmain {self.block(Place(), 3)}\n').encode()


def text_of(seed, index, examples):
    """The kind of a text, the text, and a tables text."""
    rng = random.Random(seed * 1_000_003 + index)
    kind = rng.choice(['changed', 'changed', 'grammar', 'grammar', 'tokens', 'bytes'])
    source, tables = rng.choice(examples.pairs)
    if kind == 'changed':
        if rng.random() < 0.9:
            source = changed(rng, source, examples)
    elif kind == 'grammar':
        source = Grammar(rng).program()
        tables = b'table a 2 3 1 -2 3 4 5 6'
        if rng.random() < 0.1:
            source = changed(rng, source, examples)
    elif kind == 'tokens':
        tokens = rng.choices(WORDS + SIGNS * 2 + LITERALS, k=rng.randint(0, 60))
        source = ('main { ' * (rng.random() < 0.7) + ' '.join(tokens) + ' }').encode()
    else:
        source = bytes(rng.randrange(256) for _ in range(rng.randint(0, 300)))
    if rng.random() < 0.2:
        tables = changed(rng, tables, examples) if rng.random() < 0.5 else \
            ' '.join(rng.choices(TABLE_TOKENS, k=rng.randint(0, 14))).encode()
    return kind, source, tables


def stands_in(text, line, col):
    """Whether a place is that of a byte of a text, or the one behind its last."""
    lines = text.split(b'\n')
    return 1 <= line <= len(lines) and 1 <= col <= len(lines[line - 1]) + 1


def refusal_fault(out, source, tables, compiles):
    if out.count(b'\n') != 1 or not out.endswith(b'\n'):
        return 'not one line'
    place = AT_PLACE.fullmatch(out[:-1])
    if place:
        return None if stands_in(source, int(place[1]), int(place[2])) else 'a place outside the text'
    byte = AT_BYTE.fullmatch(out[:-1])
    if byte and not compiles:
        return None if int(byte[1]) <= len(tables) else 'a byte outside the text'
    other = OTHER_REFUSALS.fullmatch(out[:-1])
    if other and out.startswith(b'refused E0'):
        return None if b'leave' in source else 'a program without leave that is not built'
    if other and not (compiles and out.startswith(b'refused E13')):
        return 'too few blocks' if other[1] and int(other[1]) <= 65_536 else None
    return 'no line of a refusal'


def output_fault(status, out, source):
    """What is wrong with the output of a run that ended with this status."""
    lines = out.split(b'\n')
    if lines.pop() != b'':
        return 'a line without its end'
    if status in STOPS:
        stop = STOPS[status].fullmatch(lines.pop() if lines else b'')
        if not stop:
            return 'no line of the stop'
        if status == 1 and not stands_in(source, int(stop[2]), int(stop[3])):
            return 'a trap outside the text'
    if not all(NUMBERS.fullmatch(line) for line in lines):
        return 'an output that is no number'
    return None


class Call:
    """One call of the program, with its time limit."""

    def __init__(self, program, words, seconds):
        self.words = words
        try:
            done = subprocess.run([program] + words, stdin=subprocess.DEVNULL, capture_output=True, timeout=seconds)
            self.status, self.out, self.errors = done.returncode, done.stdout, done.stderr
        except subprocess.TimeoutExpired:
            self.status, self.out, self.errors = 'hang', b'', b''

    def fault(self, source, tables, compiles):
        if self.status in ('hang', 4, 5, 6, 7) or self.status not in range(8):
            return f'status {self.status}'
        if self.errors:
            return 'something on the standard error'
        if self.status == 3:
            return refusal_fault(self.out, source, tables, compiles)
        if compiles:
            shape = re.match(rb'tpal 2\n(table t0 |b0 #0: plain\n)', self.out) and self.out.endswith(b'\n')
            return None if self.status == 0 and shape else 'no code'
        return output_fault(self.status, self.out, source)


def counts_fault(shown, code, output, heartbeat, most_beats):
    """What is wrong with a shown run, whose code and output are known."""
    if not shown.startswith(code + output):
        return 'other code or output where shown'
    counts = COUNTS.fullmatch(shown[len(code + output):-1])
    if not counts:
        return 'no counts'
    tasks, beats, skipped, instructions, ticks = (int(count) for count in counts.groups())
    good = (tasks + skipped == beats <= most_beats and tasks * heartbeat <= instructions
            and ticks <= FUEL + 1)
    return None if good else 'counts that do not fit'


def try_text(job):
    """One text: how each call ended, and what is wrong."""
    program, seed, index, seconds, folder, examples = job
    kind, source, tables = text_of(seed, index, examples)
    rng = random.Random(seed * 1_000_003 + index + 7_777_777)
    base = os.path.join(folder, str(index))
    paths = [base + '.tpal', base + '.tables']
    for path, text in zip(paths, (source, tables)):
        with open(path, 'wb') as file:
            file.write(text)
    fuel = ['--fuel', str(FUEL)]
    run = Call(program, ['run'] + paths + fuel + ['--forks', '10'], seconds)
    compiled = Call(program, ['compile', paths[0]], seconds)
    faults = [fault for fault in (run.fault(source, tables, False), compiled.fault(source, tables, True)) if fault]
    calls = 2
    if not faults and run.status != 3:
        beat, workers = rng.choice([1, 2, 7, 50, 300]), rng.choice([1, 1, 2, 4])
        forks = rng.choice([10, 10, 0, 3])
        words = ['run'] + paths + fuel + ['--beat', str(beat), '--workers', str(workers), '--forks', str(forks)]
        again = Call(program, words, seconds)
        shown = Call(program, words + ['--show'], seconds)
        calls += 2
        if (again.status, again.out) != (run.status, run.out):
            faults.append(f'another answer with {" ".join(words[3:])}: {again.status} for {run.status}')
        if shown.status != run.status:
            faults.append(f'status {shown.status} for {run.status} where shown')
        else:
            wrong = counts_fault(shown.out, compiled.out, run.out, beat, forks * workers)
            faults += [wrong] if wrong else []
    if not faults:
        for path in paths:
            os.unlink(path)
    code = run.out.split(b' at ')[0].split(b' input')[0].split(b' blocks')[0].decode() if run.status == 3 else ''
    return index, kind, run.status, code, calls, faults


def main():
    words = argparse.ArgumentParser(description=__doc__.split('\n')[0])
    words.add_argument('--program', default=os.path.join(TOP, 'crates/tpal/out/tpal'))
    words.add_argument('--count', type=int, default=100_000)
    words.add_argument('--seed', type=int, default=1)
    words.add_argument('--jobs', type=int, default=os.cpu_count())
    words.add_argument('--seconds', type=float, default=10)
    asked = words.parse_args()
    program, examples = os.path.abspath(asked.program), Examples()
    folder = tempfile.mkdtemp(prefix='tpal-fuzz-', dir='/dev/shm' if os.path.isdir('/dev/shm') else None)
    jobs = ((program, asked.seed, index, asked.seconds, folder, examples) for index in range(asked.count))
    ends, codes, calls, bad = collections.Counter(), collections.Counter(), 0, 0
    with concurrent.futures.ThreadPoolExecutor(asked.jobs) as pool:
        window = collections.deque()
        done = 0

        def take():
            nonlocal calls, bad, done
            index, kind, status, code, made, faults = window.popleft().result()
            ends[kind, status] += 1
            codes[code] += bool(code)
            calls, bad, done = calls + made, bad + bool(faults), done + 1
            for fault in faults:
                print(f'text {index} ({kind}): {fault}', flush=True)
            if done % 10_000 == 0:
                print(f'{done} texts, {calls} calls, {bad} that differ', flush=True)

        for job in jobs:
            window.append(pool.submit(try_text, job))
            if len(window) > 4 * asked.jobs:
                take()
        while window:
            take()
    for kind in sorted({kind for kind, _ in ends}):
        print(f'{kind}: ' + ', '.join(f'{ends[kind, status]} with status {status}'
                                      for status in sorted({s for k, s in ends if k == kind}, key=str)))
    print('refused: ' + ', '.join(f'{count} {code[8:]}' for code, count in sorted(codes.items()) if count))
    print(f'seed {asked.seed}: {asked.count} texts, {calls} calls, {bad} that differ')
    if bad:
        print(f'the texts are in {folder}')
    else:
        shutil.rmtree(folder)
    return 1 if bad else 0


if __name__ == '__main__':
    sys.exit(main())
