#!/usr/bin/env python3
"""check.py [--slow] PROGRAM: runs what README.md and the other pages print, with PROGRAM as humpipe.

Each page gets a folder of its own with PROGRAM as `humpipe` and the folder `examples` of the repository. Checked are

- transcripts: code blocks that begin with `$ `. `$ cat FILE` shows a file. If the repository has it, it must have the text that
  is printed; else it is written with this text. Any other `$ LINE` is run by bash; a line that ends with a backslash goes on in
  the next one, and one that ends with <<'EOF' through the line EOF. Under it stand standard output, then standard error, then `[status N]` if the status isn't 0. A line `..`
  stands for any lines. The commands in SKIPPED aren't run, nor transcripts with a program or a Python module of MAY_LACK that isn't on the
  machine.
- tables with a column `Told as`: the plan in front of it must be refused with the row's code, line and word. In the column
  `Instead`, what begins as a plan must be one.
- pages whose headings begin with a code: the code must be the last word of the last output under it, and every code that the
  program can tell must have its heading. Those under SLOW take long, and run with --slow alone.
- a plan or a call of the program that stands in a code block outside a transcript is a failure.
- links inside the repository: the file, and the heading behind `#`.

One line for each page, after what failed there; the last line is `N passed, M failed`. Status 1 if something failed."""
import functools
import glob
import os
import re
import shutil
import subprocess
import sys
import tempfile

from transcripts import blocks, is_shown, is_transcript, steps

TOP = os.path.dirname(os.path.dirname(os.path.abspath(__file__)))
SKIPPED = re.compile(r'cd humpipe\S*|make|sha256sum -c SHA256SUMS|tar -xzf humpipe-\S+|sudo .*|man humpipe')
MAY_LACK = ['parallel', 'gnuplot', 'pandas']
SLOW = ['S3', 'S7', 'L2']
CODE = re.compile(r'[A-Z]{1,2}[0-9]{1,2}')
PLAN = re.compile(r'(?!humpipe: )([a-z][A-Za-z0-9_]*:|\./humpipe|humpipe) ')
SECONDS = 120

# the plans of the table of codes that are told in words
MADE = {
    'a text in Latin-1 with an `é` in line 3': b'# a\n# b\n# caf\xe9\nout: read a\n',
    'a 17th line': b''.join(b'b%d: read a\n' % k for k in range(1, 18)),
    '63 commands after `out: read a \\| rid -G`': b'out: read a | rid -G' + b' | rid -G' * 63,
}
# where they are refused, as far as the table says it in words
MADE_AT = {'its line and command': 'line 1, word 130'}


@functools.lru_cache(maxsize=None)
def is_there(name):
    """Whether the machine has a program, or its Python a module."""
    return bool(shutil.which(name)) or subprocess.run(['python3', '-c', f'import {name}'], stderr=subprocess.DEVNULL).returncode == 0


def folder_with(program):
    folder = tempfile.mkdtemp(prefix='humpipe-docs-')
    shutil.copytree(os.path.join(TOP, 'examples'), os.path.join(folder, 'examples'))
    os.symlink(os.path.abspath(program), os.path.join(folder, 'humpipe'))
    return folder


def run(command, folder):
    """What a command line writes, as lines, with its status as the last if it isn't 0."""
    surroundings = dict(os.environ, PATH=folder + os.pathsep + os.environ['PATH'], LC_ALL='C.UTF-8', HOME=folder,
                        PYTHONPATH=os.path.join(TOP, 'python'), PYTHONDONTWRITEBYTECODE='1')
    for name in ('MAKEFLAGS', 'MFLAGS', 'MAKELEVEL', 'HUMPIPE'):
        surroundings.pop(name, None)
    try:
        ended = subprocess.run(['bash', '-c', command], cwd=folder, env=surroundings, stdin=subprocess.DEVNULL,
                               capture_output=True, timeout=None if '--slow' in sys.argv else SECONDS)
    except subprocess.TimeoutExpired:
        return [f'[not done after {SECONDS} seconds]']
    text = (ended.stdout + ended.stderr).decode('utf-8', 'backslashreplace')
    lines = text.split('\n')[:-1] if text.endswith('\n') else text.split('\n') if text else []
    return lines + ([f'[status {ended.returncode}]'] if ended.returncode else [])


class Page:
    """What is found on a page."""

    def __init__(self, path, program):
        self.path = path
        with open(os.path.join(TOP, path), encoding='utf-8') as page:
            self.lines = page.read().split('\n')
        self.folder = folder_with(program)
        self.passed = self.failed = self.left_out = 0

    def tell(self, number, is_right, *told):
        if is_right:
            self.passed += 1
            return
        self.failed += 1
        print(f'{self.path}:{number}: ' + '\n    '.join(told))

    def cat(self, number, name, shown):
        """A file that is shown: the repository's own, or one to write."""
        own = os.path.join(TOP, name)
        if os.path.exists(own):
            with open(own, encoding='utf-8') as file:
                lines = file.read().split('\n')[:-1]
            self.tell(number, is_shown(shown, lines), f'{name} has another text:', *lines)
        else:
            place = os.path.join(self.folder, name)
            os.makedirs(os.path.dirname(place), exist_ok=True)
            with open(place, 'w', encoding='utf-8') as file:
                file.write(''.join(line + '\n' for line in shown))

    def transcript(self, first, block):
        """Runs a transcript; gives the last output."""
        lines = []
        for number, command, shown in steps(first, block):
            words = command.split()
            if SKIPPED.fullmatch(command):
                self.left_out += 1
            elif words[0] == 'cat' and len(words) == 2:
                self.cat(number, words[1], shown)
            else:
                lines = run(command, self.folder)
                self.tell(number, is_shown(shown, lines), f'$ {command}', *lines[:60])
        return lines

    def code_at(self, number):
        """The code of the heading above this line, if it has one."""
        for line in reversed(self.lines[:number]):
            if line.startswith('#'):
                found = re.match(r'#+ ([A-Z]{1,2}[0-9]{1,2})\b', line)
                return found and found[1]
        return None

    def codes(self):
        """Every code that can be told has its heading, if the page has headings of codes."""
        found = [m[1] for m in (re.match(r'#+ ([A-Z]{1,2}[0-9]{1,2})\b', line) for line in self.lines) if m]
        if found:
            missing = [code for code in codes_told() if code not in found]
            self.tell(1, not missing, 'no heading for ' + ', '.join(missing))
            twice = sorted(code for code in set(found) if found.count(code) > 1)
            self.tell(1, not twice, 'two headings for ' + ', '.join(twice))
            self.unseen = set(found) - set(SLOW)

    def check_blocks(self):
        self.unseen = set()
        self.codes()
        for first, block in blocks(self.lines):
            code = self.code_at(first)
            if is_transcript(block):
                lacking = [word for word in MAY_LACK if word in ' '.join(block).split() and not is_there(word)]
                if lacking or code in SLOW and '--slow' not in sys.argv:
                    self.left_out += 1
                    continue
                lines = self.transcript(first, block)
                told = [line for line in lines if line.startswith('humpipe: ')]
                if code and told and CODE.findall(told[-1])[-1:] == [code]:
                    self.unseen.discard(code)
            elif any(PLAN.match(line) for line in block) and not any('[PIPELINE]' in line for line in block):
                self.tell(first + 1, False, 'a plan or a call outside a transcript')
        for code in sorted(self.unseen):
            self.tell(1, False, f'no example under {code} is refused by it')

    def check_tables(self):
        head = None
        for number, line in enumerate(self.lines, 1):
            if not line.startswith('|'):
                head = None
                continue
            cells = [cell.strip() for cell in re.split(r'(?<!\\)\|', line)[1:-1]]
            if head is None:
                head = cells
            elif 'Told as' in head and not cells[0].startswith('---'):
                self.row(number, dict(zip(head, cells)), cells[head.index('Told as') - 1])

    def check_links(self):
        for number, line in enumerate(self.lines, 1):
            for target in re.findall(r'\]\(([^)]*)\)', line if not line.startswith('    ') else ''):
                if '://' in target:
                    continue
                path, _, anchor = target.partition('#')
                place = os.path.normpath(os.path.join(TOP, os.path.dirname(self.path), path)) if path else os.path.join(TOP, self.path)
                self.tell(number, os.path.exists(place) and (not anchor or anchor in anchors(place)), f'no such place: {target}')

    def row(self, number, cells, plan):
        """A row of the table of a plan's mistakes."""
        if plan in MADE:
            text = MADE[plan]
        else:
            parts = [part.replace('\\|', '|') for part in re.findall(r'`([^`]*)`', plan)]
            text = ''.join(part + '\n' for part in parts).encode()
        at = MADE_AT.get(cells['Told as'], cells['Told as'])
        self.tell(number, self.answer(text) == [f'humpipe: plan {at}: {cells["Code"]}', '[status 2]'], plan, *self.answer(text))
        for instead in re.findall(r'`([a-z][a-z0-9_]*: [^`]*)`', cells.get('Instead', '')):
            lines = self.answer(instead.replace('\\|', '|').encode() + b'\n')
            self.tell(number, lines == ['humpipe: stage 1 (read): cannot open', '[status 3]'], instead, *lines)

    def answer(self, plan):
        """What the program says to this plan, whose scores aren't there."""
        with open(os.path.join(self.folder, 'row.hpl'), 'wb') as file:
            file.write(plan)
        return run('humpipe row.hpl', self.folder)

    def check(self):
        self.check_blocks()
        self.check_tables()
        self.check_links()
        shutil.rmtree(self.folder)
        left_out = f', {self.left_out} not run' if self.left_out else ''
        print(f'{self.path}: {self.passed} passed, {self.failed} failed{left_out}')


def anchors(path):
    """What a link into this page may have behind `#`."""
    with open(path, encoding='utf-8') as page:
        heads = [line.lstrip('#').strip().lower() for line in page if line.startswith('#')]
    return {re.sub(r'[^\w -]', '', head).replace(' ', '-') for head in heads}


def codes_told():
    """The codes that the program can tell, by its sources."""
    found = set()
    for crate in 'hum_stage', 'hum_plan':
        with open(os.path.join(TOP, 'crates', crate, 'src', 'faults.rt'), encoding='utf-8') as source:
            found |= set(re.findall(r'Rule::\w+ => "([A-Z]{1,2}[0-9]{1,2})"', source.read()))
    assert found, 'no codes in the sources'
    return sorted(found)


def main():
    words = [word for word in sys.argv[1:] if word != '--slow']
    if len(words) != 1:
        sys.exit('usage: check.py [--slow] PROGRAM')
    if not os.access(words[0], os.X_OK):
        print(f'check.py: no program at {words[0]}')
        print('0 passed, 1 failed')
        sys.exit(1)
    paths = ['README.md', 'CHANGELOG.md', 'CONTRIBUTING.md', 'bench/README.md'] + sorted(os.path.relpath(p, TOP) for p in glob.glob(os.path.join(TOP, 'docs', '**', '*.md'), recursive=True))
    pages = [Page(path, words[0]) for path in paths if os.path.exists(os.path.join(TOP, path))]
    for page in pages:
        page.check()
    failed = sum(page.failed for page in pages)
    print(f'{sum(page.passed for page in pages)} passed, {failed} failed')
    sys.exit(1 if failed else 0)


if __name__ == '__main__':
    main()
