#!/usr/bin/env python3
"""growth.py PROGRAM [--whole] [WORD ..]: how the instructions and the peak memory of PROGRAM, as humpipe, grow with its scores.

Each case is a plan and a score of four sizes, each twice the one before it. Its law is that instructions grow as the size does:
from the last doubling to the one before it by an exponent of at most 1.15; and that the peak memory is within a bound, the same
for all sizes, or one for each record that must wait. A record that waits takes at most 512 bytes and twice its text, and four
times 288 bytes and twice the number of its tokens.

Instructions are counted by valgrind, over few records, and memory is measured over more, by faults.c, which the C compiler builds;
what needs a program that isn't there is left out, and told. `--whole` tries more kinds of scores. With words, only the
cases that have one of them in their names. One line for each case; the last line is `N passed, M failed`."""
import math
import os
import random
import re
import shutil
import subprocess
import sys
import tempfile
from concurrent.futures import ThreadPoolExecutor

from check import shown, write
from faults import built

EXPONENT = 1.15
# in MiB: the program and what its links hold of short records; and the most where long ones are in them
SMALL, LARGE = 4, 64
SECONDS = 600


class Case:
    """A plan, or one that is made of a size, over a score `a` that `made` makes of a size, by four sizes for instructions and four for memory, or for
    one of them; the bound of its memory in MiB by the size; and whether each read moves one byte."""

    def __init__(self, name, plan, made, counted=None, held=None, bound=lambda size: SMALL, of_bytes=False):
        self.name, self.plan, self.made, self.bound, self.of_bytes = name, plan, made, bound, of_bytes
        self.counted, self.held = [[first << k for k in range(4)] if first else [] for first in (counted, held)]


def waiting(records, text, tokens=1):
    """The MiB of so many records that wait, of a text and of tokens, and of the program."""
    return SMALL + records * (512 + 2 * text + 4 * (288 + 2 * tokens)) / 1024 ** 2


def record(token, width=1):
    return '\t'.join([token] * width) + '\n'


def notes(records, width=4, steady=False):
    """Bars of eight records of notes, forty different ones by turns."""
    chance = random.Random(1)
    tokens = ['4c', '4r'] if steady else ['4c', '8dd#', '.', '2r', '16ee-', '4.g', '8b', '4AA 4c', '2d', '[4f#', '4f#_']
    row = lambda: '\t'.join(chance.choice(tokens) for _ in range(width)) + '\n'
    bars = [record(f'={number}', width) + ''.join(row() for _ in range(8)) for number in range(1, 41)]
    turns, rest = divmod(records // 8, len(bars))
    return record('**kern', width) + ''.join(bars * turns + bars[:rest]) + record('*-', width)


def split_notes(times):
    """Notes in spines that split and join."""
    return '**kern\t**kern\n' + '4c\t4d\n*^\t*\n8c\t8e\t8f\n*v\t*v\t*\n' * times + '*-\t*-\n'


def wide_notes(width):
    return record('**kern', width) + record('4c', width) * 16 + record('*-', width)


def long_notes(size):
    """Chords of so many bytes."""
    return '**kern\n' + ('4c ' * (size // 3) + '4c\n') * 4 + '*-\n'


def beside(width, commands=''):
    """A plan that puts a column of each of so many branches side by side, behind these commands."""
    names = [f'b{k}' for k in range(width)]
    return '\n'.join([f'{name}: read a{commands} | extract -f {k % 4 + 1}' for k, name in enumerate(names)] + ['out: assemble ' + ' '.join(names)])


COMMANDS = ['rid -G', 'extract -f 1,3', "cleave -i '**kern' -o '**chord'", "yank -n '^=' -r 2-$", 'ditto', 'trans -d 1 -c 2', 'semits -x', 'recip',
            'mint', "context -n 3 -o '^='"]


def of_commands():
    """The twelve commands, and trees, over more and more records."""
    for command in COMMANDS:
        yield Case(command, f'out: read a | {command}', notes, 320, 4000)
    yield Case('timebase', 'out: read a | timebase -t 16', lambda size: notes(size, 4, True), 320, 4000)
    yield Case('five in a row', 'out: read a | rid -G | extract -f 1,3 | ditto | semits -x | rid -L', notes, 320, 4000)
    for width in (2, 15):
        yield Case(f'a tree of {width}', beside(width), notes, 160, 4000, lambda size: 2 * SMALL)
    yield Case('the branches of a tree', lambda size: beside(size, ' | rid -L' * 3), lambda size: notes(400), 1)
    # (each bar and record of the four columns waits for the end)
    yield Case('yank from the end', "out: read a | yank -l -r '$-60000-$'", notes, 320, 4000, lambda size: waiting(size * 9 / 8, 20, 4))


def of_kinds():
    """The commands over more and more splits, columns, and bytes of a token."""
    for command in [*COMMANDS, 'timebase -t 16']:
        plan = f'out: read a | {command}'.replace('1,3', '1')
        yield Case(f'{command}: splits', plan, split_notes, 250, 4000)
        yield Case(f'{command}: columns', plan, wide_notes, 256, 512, lambda size: 2 * SMALL)
        yield Case(f'{command}: bytes', plan, long_notes, 4096, 32768, lambda size: LARGE)


def splits_of_token(width):
    """A token of 1 MB whose spine is split into so many."""
    return '**x\n' + 'a' * 1_000_000 + '\n' + ''.join(record('*^', 2 ** k) for k in range(int(math.log2(width)))) + record('*-', width)


def of_memory():
    """Scores whose short records took the room of long ones, or each of many columns that of one token."""
    lines = lambda size: '**x\n' + ('a' * (size - 1) + '\n') * 2200 + '*-\n'
    nulls = lambda size: '**x\t**y\n' + 'a' * 1_000_000 + '\tb\n' + '.\tc\n' * size + '*-\t*-\n'
    many = lambda size: LARGE
    yield Case('context -n 1024 of longer and longer lines', 'out: read a | context -n 1024', lines, None, 64, many)
    yield Case('nulls below a long token wait', "out: read a | ditto | extract -f 2 | yank -l -r '$-60000-$'", nulls,
               None, 125, many)
    for stages in (1, 15, 60):
        yield Case(f'nulls below a long token, and rid -l {stages} times', 'out: read a | ditto | extract -f 2' + ' | rid -l' * stages, nulls,
                   None, 125, many)
    yield Case('a long token in many spines', 'out: read a | ditto', splits_of_token, None, 256, many)
    short = lambda size: '**x\n' + 'a\n' * size + '*-\n'
    yield Case('context -n 1000', 'out: read a | context -n 1000', short, None, 2000, lambda size: SMALL + waiting(1000, 1))
    yield Case('context -n 100', 'out: read a | context -n 100', short, 400, 2000)


def of_time():
    """Scores that took a time of the square of their size."""
    splits = lambda size: '**x\n' + 'a\n*^\na\tb\n*v\t*v\n' * size + '*-\n'
    nulls = lambda size: '**x\n' + 'a\n*^\n.\tb\n*v\t*v\n' * size + '*-\n'
    rights = lambda size: '**x\na\n' + '*^\n.\tb\n*v\t*v\n' * size + '*-\n'
    waits = lambda size: waiting(4 * size, 3, 2)
    yield Case('context waits over splits', "out: read a | context -b . -e '^zz'", splits, 250, 1000, waits)
    yield Case('context gathers over splits and nulls', "out: read a | context -b . -e '^zz'", nulls, 250, 1000, waits)
    yield Case('context -n 2 of right children alone', 'out: read a | context -n 2', rights, 250, 1000, waits)
    yield Case('a line that comes byte by byte', 'out: read a', lambda size: '**x\n' + 'a' * size + '\n*-\n', 8192, None, of_bytes=True)


def run(case, size, room, program, library, before=()):
    """Runs a case over a score of a size, behind the words of a program before it: what is told on standard error."""
    plan = case.plan(size) if callable(case.plan) else case.plan
    write(f'{room}/plan', plan.encode() + b'\n')
    write(f'{room}/a', case.made(size).encode())
    loaded = {'LD_PRELOAD': library, 'COUNTS': f'{room}/said'} if library and (case.of_bytes or not before) else {}
    fault = {'FAULT': 'read 0 0'} if case.of_bytes else {}
    ended = subprocess.run([*before, program, 'plan'], cwd=room, env={**os.environ, **loaded, **fault}, timeout=SECONDS, stdin=subprocess.DEVNULL,
                           stdout=subprocess.DEVNULL, stderr=subprocess.PIPE)
    if ended.returncode:
        raise RuntimeError(shown((ended.returncode, b'', ended.stderr[-200:])))
    return ended.stderr.decode()


def exponent(case, room, program, library):
    """The exponent by which instructions grow. Three differences of four sizes are free of what each run takes."""
    before = ['valgrind', '--tool=callgrind', '--callgrind-out-file=/dev/null']
    counts = [int(re.search(r'Collected : (\d+)', run(case, size, room, program, library, before))[1]) for size in case.counted]
    steps = [after - count for count, after in zip(counts, counts[1:])]
    return max(math.log2(after / step) for step, after in zip(steps[1:], steps[2:]))


def peaks(case, room, program, library):
    """The peak memory over each size in MiB."""
    for size in case.held:
        run(case, size, room, program, library)
        with open(f'{room}/said') as said:
            yield int(said.read().split()[4]) / 1024


def judge(case, program, library, has_valgrind):
    """A line on a case, and whether it keeps its law; nothing where nothing could be measured."""
    told, is_right = [], True
    with tempfile.TemporaryDirectory(prefix='humpipe-growth-') as room:
        try:
            if case.counted and has_valgrind and (library or not case.of_bytes):
                found = exponent(case, room, program, library)
                told.append(f'instructions by {found:.2f}')
                is_right = found <= EXPONENT
            if case.held and library:
                found, bounds = list(peaks(case, room, program, library)), [case.bound(size) for size in case.held]
                told.append('MiB ' + ' '.join(f'{peak:.1f}' for peak in found) + f' of {bounds[-1]:.0f}')
                is_right = is_right and all(peak <= bound for peak, bound in zip(found, bounds))
        except (RuntimeError, subprocess.TimeoutExpired) as error:
            told.append(str(error))
            is_right = False
    return (f'{"ok   " if is_right else "WRONG"} {case.name}: {", ".join(told)}', is_right) if told else None


def main():
    words = [word for word in sys.argv[2:] if word != '--whole']
    if len(sys.argv) < 2:
        sys.exit('usage: growth.py PROGRAM [--whole] [WORD ..]')
    program = os.path.abspath(sys.argv[1])
    kinds = [of_commands, of_memory, of_time] + [of_kinds] * ('--whole' in sys.argv)
    cases = [case for kind in kinds for case in kind() if not words or any(word in case.name for word in words)]
    with tempfile.TemporaryDirectory(prefix='humpipe-growth-') as folder, ThreadPoolExecutor(os.cpu_count()) as pool:
        library, has_valgrind = built(folder), shutil.which('valgrind') is not None
        for needed, is_there in ('C compiler', library), ('valgrind', has_valgrind):
            print('' if is_there else f'left out: what needs {needed}, which is not here\n', end='')
        results = list(pool.map(lambda case: judge(case, program, library, has_valgrind), cases))
    results = [result for result in results if result]
    for line, is_right in results:
        print(line)
    failed = sum(not is_right for _, is_right in results)
    print(f'{len(results) - failed} passed, {failed} failed')
    sys.exit(1 if failed or not results else 0)


if __name__ == '__main__':
    main()
