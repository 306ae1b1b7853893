#!/usr/bin/env python3
"""Refuses each request for memory of a run in turn, and judges the answer: the run's own, or status 4.

    tests/failing_allocations.py [--program TPAL] [--times N] [--jobs N]

A library that is loaded before the C library counts the requests of the process and refuses the Nth alone, or the
Nth and all behind it; `cc` builds it. The runs are a sum over a table, calls in pairs, and a table of products, at
the heartbeat 1 with one worker and with four, plain and shown, and each program's code. By several workers the
requests differ from run to run, so each number is tried --times times, 3 unless told otherwise. With status 4
nothing may stand on the output, or a front of the owed text. The status is 1 where an answer differs.
"""
import argparse
import collections
import concurrent.futures
import os
import subprocess
import sys
import tempfile

TOP = os.path.dirname(os.path.dirname(os.path.abspath(__file__)))

LIBRARY = r'''
#include <errno.h>
#include <fcntl.h>
#include <stdatomic.h>
#include <stdlib.h>
#include <sys/mman.h>
extern void *__libc_malloc(size_t), *__libc_calloc(size_t, size_t), *__libc_realloc(void *, size_t);
extern void *__libc_memalign(size_t, size_t);
static atomic_long own, *made = &own;
static long refused, also_later;
// The count stands in a file, since the process may end without a word to its libraries.
__attribute__((constructor)) static void begin(void) {
  const char *number = getenv("REFUSED"), *later = getenv("ALSO_LATER"), *counter = getenv("COUNTER");
  int file = counter ? open(counter, O_RDWR) : -1;
  void *shared = file < 0 ? MAP_FAILED : mmap(0, 8, PROT_READ | PROT_WRITE, MAP_SHARED, file, 0);
  if (shared != MAP_FAILED) made = shared;
  refused = number ? atol(number) : 0;
  also_later = later && *later == '1';
  atomic_store(made, 0);
}
static int fails(void) {
  long number = atomic_fetch_add(made, 1) + 1;
  int is = refused && (also_later ? number >= refused : number == refused);
  if (is) errno = ENOMEM;
  return is;
}
void *malloc(size_t n) { return fails() ? 0 : __libc_malloc(n); }
void *calloc(size_t n, size_t m) { return fails() ? 0 : __libc_calloc(n, m); }
void *realloc(void *p, size_t n) { return fails() ? 0 : __libc_realloc(p, n); }
void *memalign(size_t a, size_t n) { return fails() ? 0 : __libc_memalign(a, n); }
void *aligned_alloc(size_t a, size_t n) { return fails() ? 0 : __libc_memalign(a, n); }
int posix_memalign(void **p, size_t a, size_t n) {
  void *found = fails() ? 0 : __libc_memalign(a, n);
  if (!found) return ENOMEM;
  *p = found;
  return 0;
}
'''

PROGRAMS = {
    'sum': (b'input a; main { let s = 0; par i in 0..rows(a) reduce s by add { fold s with a[i][0]; } print s; }',
            b'table a 4 1 1 2 3 4', b'10\n'),
    'pairs': (b'fn fib(n) { let r = n; if 1 < n { let a = 0; let b = 0; both a = fib(n - 1), b = fib(n - 2); '
              b'r = a + b; } return r; } main { let x = 0; call x = fib(10); print x; }', b'', b'55\n'),
    'products': (b'table t[3][3]; main { par i in 0..3 carry t[i] { par j in 0..3 carry t[i][j] '
                 b'{ t[i][j] = (i + 1) * (j + 1); } } emit t; }', b'', b'1 2 3\n2 4 6\n3 6 9\n'),
}


class Case:
    """A call, run with a request refused or with none."""

    def __init__(self, program, library, words):
        self.program, self.library, self.words = program, library, words

    def run(self, refused, also_later, counter=None):
        loader = {'LD_PRELOAD': self.library, 'REFUSED': str(refused), 'ALSO_LATER': str(int(also_later))}
        if counter:
            loader['COUNTER'] = counter
        try:
            done = subprocess.run([self.program, *self.words], env=loader, stdin=subprocess.DEVNULL,
                                  capture_output=True, timeout=60)
        except subprocess.TimeoutExpired:
            return 'hang', b''
        return done.returncode, done.stdout

    def requests(self):
        """How many requests a run makes."""
        counter = self.library + '.count'
        with open(counter, 'wb') as file:
            file.write(bytes(8))
        self.run(0, False, counter)
        with open(counter, 'rb') as file:
            return int.from_bytes(file.read(), 'little')


def without_counts(text, shown):
    """A shown run's text without its last line, whose counts differ with several workers."""
    return text[:text[:-1].rfind(b'\n') + 1] if shown else text


def try_case(pool, case, times, shown, several):
    """How often each status came, and each answer that differs."""
    owed_status, owed = case.run(0, False)
    most = max(case.requests() for _ in range(5)) + (20 if several else 0)
    whole = without_counts(owed, shown and several)
    ends, bad = collections.Counter(), []

    def once(job):
        refused, also_later = job
        return job, case.run(refused, also_later)

    jobs = [(refused, later) for refused in range(1, most + 1) for later in (False, True)
            for _ in range(times if several else 1)]
    for (refused, later), (status, text) in pool.map(once, jobs):
        ends[status] += 1
        is_own = status == owed_status and without_counts(text, shown and several) == whole
        if not is_own and not (status == 4 and owed.startswith(text)):
            bad.append(f'request {refused}{" and later" if later else ""}: status {status}, {text[:60]!r}')
    return owed_status, most, ends, bad


def main():
    words = argparse.ArgumentParser(description=__doc__.split('\n')[0])
    words.add_argument('--program', default=os.path.join(TOP, 'crates/tpal/out/tpal'))
    words.add_argument('--times', type=int, default=3)
    words.add_argument('--jobs', type=int, default=os.cpu_count())
    asked = words.parse_args()
    program, failed, total = os.path.abspath(asked.program), False, 0
    with tempfile.TemporaryDirectory() as folder, concurrent.futures.ThreadPoolExecutor(asked.jobs) as pool:
        library = os.path.join(folder, 'failing.so')
        build = ['cc', '-shared', '-fPIC', '-O2', '-o', library, '-x', 'c', '-']
        subprocess.run(build, input=LIBRARY.encode(), check=True)
        for name, (source, tables, text) in PROGRAMS.items():
            paths = [os.path.join(folder, name + end) for end in ('.tpal', '.tables')]
            for path, content in zip(paths, (source, tables)):
                with open(path, 'wb') as file:
                    file.write(content)
            for options in (['run', *paths, '--beat', '1'], ['run', *paths, '--beat', '1', '--workers', '4'],
                            ['run', *paths, '--beat', '1', '--show'],
                            ['run', *paths, '--beat', '1', '--show', '--workers', '4'], ['compile', paths[0]]):
                shown, several = '--show' in options, '--workers' in options
                case = Case(program, library, options)
                status, most, ends, bad = try_case(pool, case, asked.times, shown, several)
                if status != 0 or (options[0] == 'run' and not shown and case.run(0, False)[1] != text):
                    bad.append('another answer where nothing is refused')
                called = f'{name}: {options[0]} {" ".join(word for word in options[1:] if word not in paths)}'.rstrip()
                counts = ', '.join(f'{count} with status {end}' for end, count in sorted(ends.items(), key=str))
                runs = sum(ends.values())
                print(f'{called}: {most} requests, {runs} runs, {counts}, {len(bad)} that differ', flush=True)
                for line in bad[:10]:
                    print(f'  {line}')
                failed, total = failed or bool(bad), total + runs
    print(f'{total} runs')
    return 1 if failed else 0


if __name__ == '__main__':
    sys.exit(main())
