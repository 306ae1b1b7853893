#!/usr/bin/env python3
"""Measures the most memory that `tpal` takes at its largest inputs and outputs, and prints a table of it.

    tests/memory.py [PROGRAM] [SECONDS]

PROGRAM is crates/tpal/out/tpal where none is given, and each call has SECONDS seconds, 300 where none are given.
GNU time is needed. The largest resident set and the time of each call are those that the system tells of the process.
The status is 1 where a call ends with another status than it owes.
"""
import os
import subprocess
import sys
import tempfile

TOP = os.path.dirname(os.path.dirname(os.path.abspath(__file__)))
PROGRAM = os.path.abspath(sys.argv[1] if len(sys.argv) > 1 else os.path.join(TOP, 'crates/tpal/out/tpal'))
SECONDS = float(sys.argv[2]) if len(sys.argv) > 2 else 300

SUM = b'input a; main { let s = 0; par i in 0..rows(a) reduce s by add { fold s with a[i][0]; } print s; }'
NEVER = ['--beat', '1000000000']
OFTEN = ['--beat', '1000']


def filled(text, size):
    return text + b' ' * (size - len(text))


def largest_tables():
    """4,000,000 numbers of one column, of 15 and 16 digits, in 67,108,864 bytes."""
    head = b'table a 4000000 1\n'
    long = 67_108_864 - len(head) - 16 * 4_000_000
    return head + b'1111111111111111 ' * long + b'111111111111111\n' * (4_000_000 - long)


def bracketed(count):
    """A program of expressions that each have the most tokens."""
    return b'main {' + (b'print' + b'(' * 127 + b'1' + b')' * 127 + b';') * count + b'}'


def commands():
    """What each call is of, its words, its texts by name, and its status."""
    most = 1_048_576
    lines = b'main { loop i in 0..5000000 { print 1000000000000000000; } }'
    table = b'table t[4000000][1]; main { loop i in 0..4000000 { t[i][0] = 1000000000000000000; } emit t; }'
    carried = (b'table t[4000000][1]; main { par i in 0..rows(t) carry t[i] { t[i][0] = i; } '
               b'let s = 0; par i in 0..rows(t) reduce s by add { fold s with t[i][0]; } print s; }')
    deep = (b'fn f(n) { let r = n; if 0 < n { let a = 0; let b = 0; both a = f(n - 1), b = f(0); r = a + b; } '
            b'return r; } main { let x = 0; call x = f(9999); print x; }')
    widest = (b'fn f(n) { ' + b''.join(b'let x%d = n; ' % k for k in range(197)) +
              b'let r = 0; if 0 < n { call r = f(n - 1); } return r; } main { let x = 0; call x = f(9999); print x; }')
    prints = b'main {' + b' print 1;' * 2730 + b' }'
    yield 'nothing: `main { }`', ['run', 'p'], {'p': b'main { }'}, 0
    yield 'a program of 1,048,576 bytes, most of them blanks', ['run', 'p'], {'p': filled(b'main { }', most)}, 0
    yield 'a program of 700,000 tokens', ['run', 'p'], {'p': filled(bracketed(2730), most)}, 0
    yield 'the same to compile', ['compile', 'p'], {'p': filled(bracketed(2730), most)}, 0
    yield '1,048,576 tokens, refused at the first', ['run', 'p'], {'p': b';' * most}, 3
    yield 'the most blocks, to compile', ['compile', 'p'], {'p': prints}, 0
    yield 'the most blocks, shown', ['run', '--show', 'p'], {'p': prints}, 0
    tables = {'p': SUM, 't': largest_tables()}
    yield 'tables of 67,108,864 bytes and 4,000,000 cells', ['run', 'p', 't', *NEVER], tables, 0
    yield 'the same, with a heartbeat of 1,000', ['run', 'p', 't', *OFTEN], tables, 0
    yield 'the same by 4 workers', ['run', 'p', 't', *OFTEN, '--workers', '4'], tables, 0
    yield 'the same by 16 workers', ['run', 'p', 't', *OFTEN, '--workers', '16'], tables, 0
    yield 'tables of 67,108,864 bytes, most of them blanks', ['run', 'p', 't', *NEVER], {
        'p': SUM, 't': filled(b'table a 1 1 7', 67_108_864)}, 0
    yield 'an output of 100,000,000 bytes', ['run', 'p'], {'p': lines}, 0
    yield 'a table of 4,000,000 cells emitted, 80,000,000 bytes', ['run', 'p'], {'p': table}, 0
    yield 'a made table of 4,000,000 cells, carried', ['run', 'p', *NEVER], {'p': carried}, 0
    yield 'the same, with a heartbeat of 1,000', ['run', 'p', *OFTEN], {'p': carried}, 0
    yield 'the same by 16 workers', ['run', 'p', *OFTEN, '--workers', '16'], {'p': carried}, 0
    yield 'pairs of calls 10,000 deep, with a heartbeat of 1', ['run', 'p', '--beat', '1'], {'p': deep}, 0
    yield 'the same by 16 workers', ['run', 'p', '--beat', '1', '--workers', '16'], {'p': deep}, 0
    yield '`sample 1`', ['sample', '1'], {}, 0
    yield 'the same by 16 workers', ['sample', '1', '--workers', '16'], {}, 0
    yield 'calls 10,000 deep with 200 variables each', ['run', 'p'], {'p': widest}, 0


def measure(words):
    """The status, the largest resident set in MB and the processor time in seconds of a call.

    GNU time starts the program: a process begins with the resident set of the one that starts it.
    """
    told = ['time', '--quiet', '--format', '%M %U %S', '--output', 'told']
    process = subprocess.run([*told, 'timeout', '--foreground', str(SECONDS), PROGRAM, *words],
                             stdin=subprocess.DEVNULL, stdout=subprocess.DEVNULL)
    with open('told', encoding='ascii') as file:
        memory, user, system = file.read().split()
    return process.returncode, float(memory) * 1024 / 1e6, float(user) + float(system)


def main():
    bad = 0
    print('| Call | Memory, MB | Processor, s |\n|---|---|---|')
    with tempfile.TemporaryDirectory() as folder:
        os.chdir(folder)
        for what, words, texts, owed in commands():
            for name, text in texts.items():
                with open(name, 'wb') as file:
                    file.write(text)
            status, memory, seconds = measure(words)
            bad += status != owed
            wrong = '' if status == owed else f' (status {status} for {owed})'
            print(f'| {what}{wrong} | {memory:.0f} | {seconds:.1f} |', flush=True)
    return 1 if bad else 0


if __name__ == '__main__':
    sys.exit(main())
