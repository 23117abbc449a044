#!/usr/bin/env python3
"""check.py PROGRAM [NAME..]: runs the rows of this folder, or those of the files NAME, with PROGRAM as humpipe.

A file `NAME.rows` holds bundles, each with the text that is written and the line that is told:

    >>> what is seen here
    out: read a | rid -G
    --- a
    !!x
    **kern
    *-
    >>> writes
    **kern
    *-
    >>> tells stage 1 (read), line 4: P8

Where nothing is written, or the run ends well, that part is left out. An empty line stands in front of each `>>>` that begins a
row. `\\r`, `\\xHH` and `\\\\` are bytes that a text doesn't show, and a line that ends with `\\` has no line feed.

A file `NAME.plans` has a plan in each line, behind the rule that it breaks, and the line and the word where it does, or behind
`ok` and a dash. In it `\\n` and `\\t` are bytes too. What begins with `#` is a comment.

`made.py` makes rows of the same kinds that are too long to be written out, and of the rows such as break off; it tries what a plan
doesn't say: command lines, files that can't be read, scores that come through pipes, and outputs that take no more.

Each bundle is run with links of 1, 2, 16 and 4,096 records and both orders of turns, and once more as files. The status of each run
must be the one that the line told goes with. One line for each row that fails; the last line is `N passed, M failed`."""
import glob
import os
import re
import subprocess
import sys
import tempfile
from concurrent.futures import ThreadPoolExecutor

HERE = os.path.dirname(os.path.abspath(__file__))
SECONDS = 60
WAYS = [['--link', link, '--order', order] for link in ('1', '2', '16', '4096') for order in ('left', 'right')] + [[]]


class Row:
    """A bundle, the text that is written, and the line that is told, without the program's name."""

    def __init__(self, place, bundle, text=b'', told=''):
        self.place, self.bundle, self.text, self.told = place, bundle, text, told

    def scores(self):
        """The plan and the scores by their names, or none where names stand twice or are no plain file names."""
        plan, *parts = re.split(rb'^--- ', self.bundle, flags=re.M)
        named = [part.partition(b'\n')[::2] for part in parts]
        names = [name for name, _ in named]
        is_plain = all(re.fullmatch(rb'[A-Za-z0-9]+', name) for name in names) and len(set(names)) == len(names)
        return (plan, dict(named)) if is_plain else (plan, None)

    def check(self, program):
        """Tells what is wrong, in a list."""
        wrong = []
        for way in WAYS:
            wrong += self.differs(' '.join(way), run([program, *way], self.bundle))
        plan, scores = self.scores()
        if scores is not None:
            with tempfile.TemporaryDirectory(prefix='humpipe-row-') as folder:
                for name, score in [(b'plan.hpl', plan), *scores.items()]:
                    write(os.path.join(folder, name.decode()), score)
                wrong += self.differs('as files', run([program, 'plan.hpl'], b'', cwd=folder))
        return wrong

    def differs(self, way, found):
        want = status_of(self.told), self.text, f'humpipe: {self.told}\n'.encode() if self.told else b''
        return [f'{self.place}: {way}: {shown(found)} and not {shown(want)}'] if found != want else []


class Plan:
    """A plan, and the line that is told of it; none where it is accepted."""

    def __init__(self, place, plan, told=''):
        self.place, self.plan, self.told = place, plan, told

    def check(self, program):
        # no score stands behind it, so an accepted one can't open what it reads
        status, text, told = run([program], self.plan)
        found = told.decode('utf-8', 'backslashreplace').removeprefix('humpipe: ').rstrip('\n')
        if self.told:
            is_right = (status, text, found) == (2, b'', self.told)
        else:
            is_right = (status, text) == (3, b'') and re.fullmatch(r'stage \d+ \(read\): cannot open', found)
        return [] if is_right else [f'{self.place}: {found or "nothing"} and not {self.told or "accepted"}']


def status_of(told):
    """The status that goes with a line that is told."""
    if not told:
        return 0
    if told.startswith('plan line') or told == 'bundle too large':
        return 2
    return 1 if re.fullmatch(r'stage \d+ \([a-z]+\), line \d+: [A-Z]+\d+', told) else 3


def run(words, given, **more):
    """The status of a run, what it writes, and what it tells."""
    more.setdefault('stdout', subprocess.PIPE)
    try:
        ended = subprocess.run(words, input=given, stderr=subprocess.PIPE, timeout=SECONDS, **more)
    except subprocess.TimeoutExpired:
        return 'no end', b'', b''
    return ended.returncode, ended.stdout, ended.stderr


def shown(found):
    status, text, told = found
    return f'status {status}, {text[:300]!r}, {told[:100]!r}'


def write(path, data):
    with open(path, 'wb') as file:
        file.write(data)


ESCAPES = {'\\n': b'\n', '\\t': b'\t', '\\r': b'\r', '\\\\': b'\\'}


def raw(text):
    """The bytes of a text with escapes."""
    parts = re.split(r'(\\x[0-9a-f]{2}|\\.)', text)
    return b''.join(bytes([int(part[2:], 16)]) if part.startswith('\\x') else ESCAPES.get(part) or part.encode() for part in parts)


def raw_lines(lines):
    """The bytes of lines: each ends with a line feed unless a backslash of its own stands there."""
    is_open = lambda line: (len(line) - len(line.rstrip('\\'))) % 2 == 1
    return b''.join(raw(line[:-1]) if is_open(line) else raw(line) + b'\n' for line in lines)


def rows_of(path):
    """The rows of a file of bundles."""
    name = os.path.basename(path)
    with open(path, encoding='utf-8', newline='\n') as file:
        lines = file.read().split('\n')[:-1]
    begins = [k for k, line in enumerate(lines) if line.startswith('>>>') and not re.match(r'>>> (writes$|tells )', line)]
    for k, end in zip(begins, [*[k - 1 for k in begins[1:]], len(lines)]):
        marks = [m for m in range(k, end) if lines[m].startswith('>>>')] + [end]
        parts = {lines[m].split(' ')[1] if m > k else 'row': lines[m + 1:n] for m, n in zip(marks, marks[1:])}
        told = next((lines[m].removeprefix('>>> tells ') for m in marks[1:-1] if lines[m].startswith('>>> tells ')), '')
        yield Row(f'{name}:{k + 1}', raw_lines(parts['row']), raw_lines(parts.get('writes', [])), told)


def plans_of(path):
    """The plans of a file of plans."""
    name = os.path.basename(path)
    with open(path, encoding='utf-8', newline='\n') as file:
        for number, line in enumerate(file.read().split('\n')[:-1], 1):
            if line and not line.startswith('#'):
                rule, place, plan = re.fullmatch(r'(\S+) +(\S+) *(.*)', line).groups()
                at, _, word = place.partition(':')
                yield Plan(f'{name}:{number}', raw(plan), '' if rule == 'ok' else f'plan line {at}, word {word}: {rule}')


def main():
    program, *names = sys.argv[1:] or sys.exit('usage: check.py PROGRAM [NAME..]')
    program = os.path.abspath(program)
    if not os.access(program, os.X_OK):
        print(f'check.py: no program at {program}')
        print('0 passed, 1 failed')
        sys.exit(1)
    is_asked = lambda path: not names or os.path.basename(path) in names
    rows = [row for path in sorted(glob.glob(f'{HERE}/*.rows')) for row in rows_of(path) if is_asked(path) or is_asked('made.py')]
    plans = [plan for path in sorted(glob.glob(f'{HERE}/*.plans')) if is_asked(path) for plan in plans_of(path)]
    cases = [row for row in rows if is_asked(row.place.partition(':')[0])] + plans
    if is_asked('made.py'):
        import made
        cases += made.cases(rows)
    # (what changes the limits of a process before it begins does so beside no other thread)
    told = [case.check(program) for case in cases if hasattr(case, 'LIMITED')]
    with ThreadPoolExecutor(os.cpu_count()) as pool:
        told += pool.map(lambda case: case.check(program), [case for case in cases if not hasattr(case, 'LIMITED')])
    for wrong in told:
        print(*wrong[:3], sep='\n', end='\n' if wrong else '')
    failed = sum(1 for wrong in told if wrong)
    print(f'{len(cases) - failed} passed, {failed} failed')
    sys.exit(1 if failed else 0)


if __name__ == '__main__':
    main()
