"""Runs that fail in the middle of their scores, and what they must have written by then.

From the right, over links of one record, a source reads only when all that was given before is written. So where a read fails,
the text is that of the whole lines which the reads before it gave, broken off behind them. Where memory runs out, it is at the
least that of the lines, or of the blocks, before the last one that was read, and at the most that of all. Other orders and links
write a part of what was settled, and in trees a branch may wait for others.

Scores of several blocks are read as they are, small ones byte by byte. A library that loses what is written once a call has failed
must be seen."""
import errno
import os
import re
import subprocess

from check import SECONDS, shown, write

# what the first read asks for, and each behind it
FIRST, BLOCK = 8_192, 65_536
# so many bytes of a branch may wait for those of others
AHEAD = 100
RIGHT = ['--link', '1', '--order', 'right']
WAYS = [['--link', link, '--order', order] for link, order in (('1', 'left'), ('16', 'left'), ('4096', 'left'), ('4096', 'right'))]
READ, MEMORY, WRITE = r'stage \d+ \(read\): read failed', 'out of memory', 'write failed'

COMMANDS = ['rid -G', 'extract -f 1', "cleave -i '**kern' -o '**chord'", "yank -n '^=' -r 1-$", "yank -l -r '$-5'", "yank -o '^4' -e 'd' -r 1-$", 'ditto -p',
            "ditto -s '^8'", 'timebase -t 16', 'trans -d 1 -c 2', 'semits -x', 'recip', 'mint', "mint -b '^='", 'context -n 3',
            "context -b '^4' -e 'd' -o '^='", ' | '.join(['rid -l'] * 63)]


def token(number):
    return f'4{"cdefgab"[number % 7] * (1 + number // 7 % 3)}{"#" * (number // 21 % 2)}'


def score(size):
    """A score of about so many bytes, with splits, comments and barlines. Few of its records are alike."""
    lines, number, long = ['!!!COM: x', '**kern\t**kern'], 0, 0
    while long < size:
        number += 1
        rows = [f'{token(number)}\t{token(number * 5)}' if number % 3 else f'{token(number)}\t.']
        if number % 5 == 2:
            rows = ['*^\t*', f'{token(number)}\t{token(number + 9)}\t{token(number * 2)}', '*v\t*v\t*']
        elif number % 7 == 3:
            rows += [f'!!{number}', f'={number}\t={number}']
        lines += rows
        long += sum(len(row) + 1 for row in rows)
    return '\n'.join([*lines, '*-\t*-', '']).encode()


def beside(width):
    names = [f'b{k}' for k in range(width)]
    return ''.join(f'{name}: read a{" | ditto" * (k % 2)}\n' for k, name in enumerate(names)) + f'out: assemble {" ".join(names)}\n'


class Settled:
    """A plan over a score `a`, in a folder of its own: what is written where the score breaks off, and where a call fails."""

    def __init__(self, program, folder, library, plan, branches, whole, short=None):
        self.program, self.folder, self.library, self.branches, self.whole = program, folder, library, branches, whole
        self.name, self.limit = f'{plan.decode()[-60:].strip()!r} over {len(whole)} bytes', short
        self.short = {'SHORT': str(short)} if short else {}
        os.makedirs(f'{folder}/cut')
        for place in (folder, f'{folder}/cut'):
            write(f'{place}/plan', plan)
        write(f'{folder}/a', whole)
        self.texts = {0: b''}
        (self.status, self.text, self.told), (self.memory, reads, self.writes) = self.run()
        self.blocks = next(reads for reads in range(len(whole) + 1) if self.size_of(reads) >= len(whole))
        # those of the plan; each branch reads its blocks, and finds the end
        self.before = reads - branches * (self.blocks + 1)

    def run(self, way=RIGHT, folder=None, **fault):
        """The status of a run, what it writes and what it tells; and how many calls for memory, reads and writes it made."""
        folder = folder or self.folder
        environment = {**os.environ, 'LD_PRELOAD': self.library, 'COUNTS': f'{folder}/said', **self.short, **fault}
        ended = subprocess.run([self.program, *way, 'plan'], cwd=folder, env=environment, timeout=SECONDS, stdin=subprocess.DEVNULL, capture_output=True)
        with open(f'{folder}/said') as said:
            return (ended.returncode, ended.stdout, ended.stderr), [int(count) for count in said.read().split()[:3]]

    def size_of(self, reads):
        """How many bytes so many reads of the score give, where there are as many."""
        return reads * self.limit if self.limit else reads and FIRST + (reads - 1) * BLOCK

    def settled(self, size):
        """What is written for the whole lines of so many bytes of the score."""
        cut = self.whole[:max(size, 0)]
        cut = cut[:cut.rfind(b'\n') + 1]
        if len(cut) not in self.texts:
            write(f'{self.folder}/cut/a', cut)
            self.texts[len(cut)] = self.run(folder=f'{self.folder}/cut', SHORT=str(BLOCK))[0][1]
        return self.texts[len(cut)]

    def judge(self, fault, line, found, least, most):
        """What is wrong with a run, if anything, and that the failure is told."""
        status, text, told = found
        is_told = status == 3 and re.fullmatch(f'humpipe: ({line})\n', told.decode('utf-8', 'replace'))
        # (some memory isn't needed)
        is_right = is_told and text.startswith(least) and most.startswith(text) or line == MEMORY and found == (0, self.text, b'')
        return '' if is_right else f'{self.name}, {fault}: {len(least)} to {len(most)} bytes: {shown(found)[-200:]}', bool(is_told)

    def bounds(self, reads):
        """The least and the most that is written once so many reads of the score were made, each of them by all branches or by some."""
        size = self.size_of(reads // self.branches)
        if self.branches == 1:
            return (self.settled(size),) * 2
        return self.settled(min(size, len(self.whole)) - AHEAD), self.settled(self.size_of(reads // self.branches + 1))

    def failed_read(self, number, way=RIGHT, **more):
        fault = f'read {errno.EIO} {self.before + number + 1}'
        least, most = self.bounds(number) if way == RIGHT else (b'', self.text)
        return self.judge(f'{fault} {" ".join(way)}', READ, self.run(way, FAULT=fault, **more)[0], least, most)

    def failed_memory(self, number, **more):
        fault = f'memory {errno.ENOMEM} {number}'
        found, (_, reads, _) = self.run(FAULT=fault, **more)
        least = self.settled(self.size_of(max(0, (reads - self.before) // self.branches - 1)))
        return self.judge(fault, MEMORY, found, least, self.text), least

    def faults(self):
        """What comes of its runs."""
        yield '' if (self.status, self.told) == (0, b'') else f'{self.name}: {shown((self.status, self.text, self.told))[-200:]}', False
        reads = self.branches * (self.blocks + 1)
        for number in range(reads):
            yield self.failed_read(number)
        for way in WAYS:
            for number in range(0, reads, max(1, reads // 6)):
                yield self.failed_read(number, way)
        for number in range(1, self.memory + 1, 1 if self.short else max(1, self.memory // 12)):
            yield self.failed_memory(number)[0]
        for number in range(1, self.writes + 1):
            fault = f'write {errno.ENOSPC} {number}'
            least = self.text[:(number - 1) * self.limit if self.limit else 0]
            yield self.judge(fault, WRITE, self.run(FAULT=fault)[0], least, self.text)
        yield from self.swallowed(reads)

    def swallowed(self, reads):
        """Whether it is seen that what was settled is lost."""
        seen, _ = self.failed_read(reads - 1, SWALLOW='1')
        yield '' if seen else f'{self.name}: what is lost after a failed read is not seen', False
        (seen, _), least = self.failed_memory(self.memory, SWALLOW='1')
        yield '' if seen or not least else f'{self.name}: what is lost where memory runs out is not seen', False


def cases(program, folder, library):
    """The plans, each over a score of several blocks, and most over a small one that comes byte by byte or seven at once."""
    small, large = score(90), score(150_000)
    plans = [(beside(15), 15), (beside(2), 2)] + [(f'out: read a | {command}\n', 1) for command in COMMANDS]
    for number, (plan, branches) in enumerate(plans):
        made = [(large, None)] + [(small, 1), (small, 7)] * (branches == 1)
        for which, (whole, short) in enumerate(made):
            yield program, f'{folder}/{number}-{which}', library, plan.encode(), branches, whole, short


def settled_faults(case):
    return list(Settled(*case).faults())
