#!/usr/bin/env python3
"""faults.py PROGRAM: runs small pipelines, as bundles and over files, with PROGRAM as humpipe, while one call after
the other fails.

By faults.c, which the C compiler builds, each request for memory, each read, each write and each opening of a file
fails in turn, and each read or each write moves one byte. By strace each system call on what a pipeline reads and
writes fails in turn, and each by which the C library asks for memory, with all after it.

A run must end as it does when nothing fails, or tell the failure by its own line, and what was written is a prefix of
the right text. In the runs of settled.py it must be all that was settled, too. So run the tests of the libraries in
crates/hum_tests/src/memory.rt, which `rt ci` leaves in that crate's out/. What needs a program that isn't there is left
out, and told. The last line is `N passed, M failed`, runs each."""
import errno
import itertools
import os
import re
import shutil
import signal
import subprocess
import sys
import tempfile
from concurrent.futures import ThreadPoolExecutor

import settled
import small
from check import HERE, SECONDS, shown, write

ERRORS = ('EIO', 'ENOSPC', 'EINTR', 'ENOMEM', 'EAGAIN')
# what is told of a call that fails
MEMORY = 'out of memory'
LINES = {
    'memory': MEMORY,
    'read': r'cannot read plan|stage \d \(read\): read failed',
    'write': 'write failed',
    'open': r'cannot read plan|stage \d \(read\): cannot open',
}


class Case:
    """A small pipeline in a folder of its own."""

    def __init__(self, program, folder, one, words):
        self.program, self.folder, self.text, self.words = program, folder, one.text, words
        for name, data in {'bundle': one.bundle(), 'plan': one.plan, **one.scores}.items():
            write(f'{folder}/{name}', data)

    def run(self, before=(), **environment):
        """The status of a run, what it writes and what it tells; and what a program before it has put into `said`."""
        with tempfile.TemporaryDirectory(dir=self.folder) as room, \
                open(f'{self.folder}/bundle', 'rb') as bundle, open(f'{room}/text', 'w+b') as text:
            words = [word.replace('ROOM', room) for word in [*before, self.program, *self.words]]
            given = {**os.environ, **{name: value.replace('ROOM', room) for name, value in environment.items()}}
            ended = subprocess.run(words, cwd=self.folder, env=given, timeout=SECONDS,
                                   stdin=bundle, stdout=text, stderr=subprocess.PIPE)
            text.seek(0)
            said = open(f'{room}/said').read() if os.path.exists(f'{room}/said') else ''
            return (ended.returncode, text.read(), ended.stderr), said

    def judge(self, fault, line, found):
        """What is wrong with a run, if anything, and whether the failure is told."""
        status, text, told = found
        is_line = re.fullmatch(f'humpipe: ({line})\n', told.decode('utf-8', 'replace'))
        is_told = status == 3 and self.text.startswith(text) and bool(is_line)
        is_right = is_told or found == (0, self.text, b'')
        return '' if is_right else f'{self.folder}: {" ".join(self.words)}, {fault}: {shown(found)}', is_told


TESTS = f'{HERE}/../crates/hum_tests/out/hum_tests_tests'


# what a test of memory.rt tells where what it needs couldn't be made
UNMADE = 'memory: ', 'a record: Memory', 'no rule is broken: Memory', 'a plan: Memory'


def memory_faults(folder, library):
    """What comes of each test of memory.rt while one request for memory after the other fails: it passes, or says that what it needs couldn't be made."""
    environment = {**os.environ, 'LD_PRELOAD': library, 'COUNTS': f'{folder}/said'}

    def ran(test, number):
        fault = f'memory {errno.ENOMEM} {number}'
        return subprocess.run([TESTS, test], cwd=folder, env={**environment, 'FAULT': fault}, timeout=SECONDS, capture_output=True, text=True)

    listed = subprocess.run([TESTS, '--list'], capture_output=True, text=True, timeout=SECONDS).stdout.splitlines()
    for test in (line.partition(': ')[0] for line in listed if line.startswith('memory::')):
        yield '' if ran(test, 0).returncode == 0 else f'{test} fails where memory lasts', False
        for number in range(1, int(open(f'{folder}/said').read().split()[0]) + 1):
            ended = ran(test, number)
            is_unmade = ended.returncode == -signal.SIGABRT and ended.stderr.startswith(UNMADE)
            yield '' if ended.returncode == 0 or is_unmade else f'{test}, request {number}: {ended.stderr[:200]}', True


def line_of(call, error):
    """What may be told of a call that fails by this error."""
    return LINES[call] + ('|' + MEMORY if error == 'ENOMEM' else '')


def library_faults(case, library):
    """What comes of runs in which a call of the C library fails, or moves one byte."""
    load = {'LD_PRELOAD': library, 'COUNTS': 'ROOM/said'}
    found, said = case.run(**load)
    yield case.judge('nothing', '', found) if said else ('no call of the program is seen by faults.c', False)
    for call, count in zip(LINES, map(int, said.split())):
        for error in ERRORS if call != 'memory' else ['ENOMEM']:
            for number in range(1, count + 1):
                fault = f'{call} {getattr(errno, error)} {number}'
                yield case.judge(fault, line_of(call, error), case.run(FAULT=fault, **load)[0])
    for call in 'read', 'write':
        yield case.judge(f'{call} of one byte', '', case.run(FAULT=f'{call} 0 0', **load)[0])


STRACE = ['strace', '-e', 'quiet=all', '-o', 'ROOM/said']


def injected(case, calls, fault, first=1, more=()):
    """What comes of runs in which one of some system calls fails, then the next one, until none does."""
    for number in itertools.count(first):
        inject = f'inject={calls}:{fault.format(number)}'
        found, said = case.run([*STRACE, '-e', f'trace={calls}', '-e', inject, *more])
        if 'INJECTED' not in said:
            return
        yield inject, found


def system_faults(case):
    """What comes of runs in which a system call fails."""
    paths = [word for path in ('bundle', 'plan', 'a', 'b', 'ROOM/text') for word in ('-P', path)]
    for call, system_call in ('read', 'read'), ('write', 'write'), ('open', 'openat'):
        for error in ERRORS:
            for fault, found in injected(case, system_call, f'error={error}:when={{}}', more=paths):
                yield case.judge(fault, line_of(call, error), found)
    # what the loader asks for before the program begins comes before the first `munmap`
    loaded = case.run([*STRACE, '-e', 'trace=brk,mmap,munmap'])[1].partition('munmap')[0].count('\n')
    for fault, found in injected(case, 'brk,mmap', 'error=ENOMEM:when={}+', first=loaded + 1):
        yield case.judge(fault, MEMORY, found)


def faults_of(case, library, has_strace):
    """What comes of all runs of a pipeline."""
    return [*(library_faults(case, library) if library else ()), *(system_faults(case) if has_strace else ())]


def built(folder):
    """The library that fails, or none where there is no C compiler."""
    library = f'{folder}/faults.so'
    if not shutil.which('cc'):
        return None
    subprocess.run(['cc', '-shared', '-fPIC', '-O1', '-o', library, f'{HERE}/faults.c'], check=True)
    return library


def main():
    program = os.path.abspath(sys.argv[1]) if len(sys.argv) == 2 else sys.exit('usage: faults.py PROGRAM')
    with tempfile.TemporaryDirectory(prefix='humpipe-faults-') as folder, ThreadPoolExecutor(os.cpu_count()) as pool:
        library, has_strace = built(folder), shutil.which('strace') is not None
        cases = []
        for number, one in enumerate(small.FAILED):
            os.mkdir(f'{folder}/{number}')
            cases += [Case(program, f'{folder}/{number}', one, words) for words in ([], ['plan'])]
        told = pool.map(lambda case: faults_of(case, library, has_strace), cases)
        results = [result for results in told for result in results]
        if library:
            told = pool.map(settled.settled_faults, settled.cases(program, f'{folder}/settled', library))
            results += [result for results in told for result in results]
        if library and os.path.exists(TESTS):
            os.mkdir(f'{folder}/memory')
            results += memory_faults(f'{folder}/memory', library)
    for needed, is_there in ('C compiler', library), ('strace', has_strace), ('hum_tests_tests', os.path.exists(TESTS)):
        print('' if is_there else f'left out: what needs {needed}, which is not here\n', end='')
    if not library and not has_strace:
        print('no failure could be made\n0 passed, 1 failed')
        sys.exit(1)
    wrong = [line for line, _ in results if line]
    print(*wrong[:20], sep='\n', end='\n' if wrong else '')
    print(f'{len(results)} runs, in {sum(is_told for _, is_told in results)} of which a failure is told')
    print(f'{len(results) - len(wrong)} passed, {len(wrong)} failed')
    sys.exit(1 if wrong else 0)


if __name__ == '__main__':
    main()
