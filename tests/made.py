"""Rows that are made: long plans and scores, each front of a score, and what comes of a run from outside its plan."""
import os
import resource
import select
import signal
import subprocess
import tempfile
import time

import small
from check import SECONDS, Plan, Row, run, shown, status_of, write


def long_scores():
    """Lines and tokens as long as they may be and a byte longer, and as many records as may wait and one more."""
    yank, context = b"out: read a | yank -o '^a' -r $\n--- a\n**x\na\n", b'out: read a | context -n 2\n--- a\n**x\na\n'
    yield 'records wait', yank + b'b\n' * 65_535 + b'*-\n', b'**x\na\n' + b'b\n' * 65_535 + b'*-\n', ''
    yield 'one more waits', yank + b'b\n' * 65_536 + b'*-\n', b'**x\n', 'stage 2 (yank), line 2: H1'
    yield 'tokens wait', context + b'.\n' * 65_535 + b'b\n*-\n', b'**x\na b\n' + b'.\n' * 65_536 + b'*-\n', ''
    yield 'one more token waits', context + b'.\n' * 65_536 + b'*-\n', b'**x\n', 'stage 2 (context), line 2: H1'
    many = b'out: read a | context -n 4096\n--- a\n**x\n' + b'a\n' * 4096 + b'*-\n'
    yield 'a context of 4,096 tokens', many, b'**x\na' + b' a' * 4095 + b'\n' + b'.\n' * 4095 + b'*-\n', ''

    comment = b'out: read a | rid -l\n--- a\n!!'
    yield 'a line of 1,048,576 bytes', comment + b'a' * 1_048_574 + b'\n', b'!!' + b'a' * 1_048_574 + b'\n', ''
    yield 'a byte more', comment + b'a' * 1_048_575 + b'\n', b'', 'stage 1 (read), line 1: S2'
    long, front = b'a' * 600_000, b'out: read a | ditto\n--- a\n**x\t**y\n'
    yield ('a record that ditto makes too long', front + long + b'\t.\n.\t' + long + b'\n*-\t*-\n',
           b'**x\t**y\n' + long + b'\t.\n', 'stage 2 (ditto), line 3: L1')
    front = b'out: read a | context -n 2\n--- a\n**x\t**y\nb\tc\n'
    yield ('a record that context makes too long', front + long + b'\t.\n' + long + b'\td\n*-\t*-\n',
           b'**x\t**y\nb ' + long + b'\tc d\n', 'stage 2 (context), line 3: L1')
    # a sharp more in two tokens of 524,287 bytes would be too much, unless the second is refused
    front, sharp = b'out: read a | trans -d 0 -c 1\n--- a\n**kern\t**kern\nc', b'X' * 524_286
    text = b'**kern\t**kern\n*Trd0c1\t*Trd0c1\n'
    yield 'a record that trans makes too long', front + sharp + b'\tc' + sharp + b'\n*-\t*-\n', text, 'stage 2 (trans), line 2: L1'
    yield 'a token that is refused first', front + sharp + b'\tcd\n*-\t*-\n', text, 'stage 2 (trans), line 2: K1'

    scores = b'p: read a\nq: read a\nout: assemble p q\n--- a\n**x\n'
    notes = b'**kern\n4cd\n' + b'4c\n' * 897
    yield ('the last of 900 lines is empty, and an earlier stage refuses', b'out: read a | rid -l | mint\n--- a\n' + notes + b'\n',
           b'**mint\n', 'stage 1 (read), line 900: S1')
    yield ('100,000 data records side by side', scores + b'4c\n' * 100_000 + b'*-\n',
           b'**x\t**x\n' + b'4c\t4c\n' * 100_000 + b'*-\t*-\n', '')


def wide_scores():
    """4,096 spines, and more."""
    record = lambda token, width: b'\t'.join([token] * width) + b'\n'
    splits = b''.join(record(b'*^', 2 ** k) for k in range(12))
    yield ('4,096 spines are split', b'out: read a\n--- a\n**x\n' + splits + record(b'*^', 4096), b'**x\n' + splits,
           'stage 1 (read), line 14: P9')
    spines = lambda k, name=b'**x': name + b'\n' + b''.join(record(b'*^', 2 ** n) for n in range(k)) + record(b'*v', 2 ** k) + b'*-\n'
    yield '4,096 spines are split and joined', b'out: read a | rid -l\n--- a\n' + spines(12), spines(12), ''
    beside = lambda k: b'p: read a\nq: read b\nout: assemble p q\n--- a\n' + spines(k) + b'--- b\n' + spines(k, b'**y')
    text = b'**x\t**y\n'
    for k in range(11):
        text += record(b'*^', 2 ** k)[:-1] + b'\t' + record(b'*', 2 ** k)
        text += record(b'*', 2 ** (k + 1))[:-1] + b'\t' + record(b'*^', 2 ** k)
    joins = record(b'*v', 2048)[:-1] + b'\t' + record(b'*', 2048) + b'*\t' + record(b'*v', 2048)
    yield '4,096 spines side by side', beside(11), text + joins + b'*-\t*-\n', ''
    yield 'more than 4,096 side by side', beside(12), text, 'stage 3 (assemble), line 24: A1'


# subtokens that are no note: two runs of letters or different signs come before what is too long
NO_NOTES = {
    'K1': ['cd', 'c4c', 'cC', 'ccdcc', 'c#c', '4gg#-', '4c-n', 'an#', 'c##-#', 'ee-4q_e', 'ccccccccc4d', 'ccccccccc#-', 'c########-',
           'c4ccccccccc'],
    'K2': ['ccccccccc', '4AAAAAAAAA', 'c########', 'c--------', 'cnnnnnnnn', 'bbbbbbbbb#########_'],
}


def no_notes():
    """Notes that are refused."""
    for rule, notes in NO_NOTES.items():
        for note in notes:
            bundle = f'out: read a | semits -x\n--- a\n**kern\n4c\n{note}\n*-\n'
            yield note, bundle.encode(), b'**semits\n0\n', f'stage 2 (semits), line 3: {rule}'


def long_plans():
    """As many stages, branches, sources, values and bytes as a plan may have, and one more."""
    yield 'p: read a' + ' | recip' * 62 + '\nout: assemble p', ''
    yield 'p: read a' + ' | recip' * 63 + '\nout: assemble p', 'plan line 2, word 2: N11'
    yield 'out: read a' + ' | recip' * 63 + ' | foo', 'plan line 1, word 67: N11'
    branches = lambda count: ''.join(f'b{k}: read x\n' for k in range(count))
    joined = 'out: assemble ' + ' '.join(f'b{k}' for k in range(15))
    yield branches(15) + joined, ''
    yield branches(15) + joined + ' b0', 'plan line 16, word 18: N8'
    yield branches(16) + joined, 'plan line 17, word 1: N11'
    for words, value, place in ('extract -f', '7', 6), ('yank -l -r', '7', 7), ('extract -i', '**a', 6):
        yield f'out: read a | {words} ' + ','.join([value] * 64), ''
        yield f'out: read a | {words} ' + ','.join([value] * 65), f'plan line 1, word {place}: N10'
    yield 'out: read a\n' + '#' * 65_524, ''
    yield '\n\n' + '#' * 65_535, 'plan line 1, word 0: N1'


class Front:
    """A score that breaks off: the run ends well, or by a fault, and then behind a whole line a prefix of this text is
    written; also where it ends well, if asked for."""

    def __init__(self, bundle, text, is_prefix_at_all=False):
        self.bundle, self.text, self.is_prefix_at_all = bundle, text, is_prefix_at_all

    def check(self, program):
        found = status, text, told = run([program], self.bundle)
        is_prefix = not self.bundle.endswith(b'\n') or self.text.startswith(text)
        if status == 0:
            is_right = told == b'' and (is_prefix or not self.is_prefix_at_all)
        else:
            line = told.decode().removeprefix('humpipe: ').removesuffix('\n')
            is_right = status == status_of(line) == 1 and is_prefix
        return [] if is_right else [f'{self.bundle!r}: {shown(found)}']


def fronts(rows):
    """The last score of each bundle that ends well, cut behind each of its lines; that of the first in each file, cut anywhere."""
    cut = set()
    for row in rows:
        head, mark, last = row.bundle.rpartition(b'\n--- ')
        first = len(head + mark) + last.find(b'\n') + 1
        if mark and not row.told:
            file = row.place.partition(':')[0]
            yield from (Front(row.bundle[:end], row.text) for end in range(first, len(row.bundle))
                        if file not in cut or row.bundle[end - 1:end] == b'\n')
            cut.add(file)


def small_fronts():
    """The first score of some small bundles, cut anywhere, beside the others as they are."""
    for one in small.CUT:
        for size in range(len(one.scores['a'])):
            yield Front(one.bundle('a', size), one.text, size > 0)


class Line:
    """A command line over a folder with the plan of one file in it, and whether it is accepted. The words alone run a bundle."""

    def __init__(self, line, file=None, is_refused=False):
        self.line, self.file, self.is_refused = line, file, is_refused

    def check(self, program):
        with tempfile.TemporaryDirectory(prefix='humpipe-line-') as folder:
            write(f'{folder}/a', b'**x\n*-\n')
            if self.file:
                write(f'{folder}/{self.file}', b'out: read a')
            found = run([program, *self.line.split()], b'' if self.file else b'out: read a\n--- a\n**x\n*-\n', cwd=folder)
        want = (2, b'', USAGE) if self.is_refused else (0, b'**x\n*-\n', b'')
        return [] if found == want else [f'humpipe {self.line}: {shown(found)}']


USAGE = b'humpipe: usage: humpipe [--link N] [--order left|right] [PIPELINE]\n'

LINES = [
    *[Line(line) for line in ('', '--link 1', '--order left', '--link=7', '--link 4096 --order right')],
    *[Line(line, file) for line, file in [
        ('tune.hpl', 'tune.hpl'), ('--link 4096 tune.hpl', 'tune.hpl'), ('tune.hpl --order right --link 7', 'tune.hpl'),
        ('-', '-'), ('./-x', '-x'), ('-- --link', '--link')]],
    *[Line(line, is_refused=True) for line in (
        '--link 0', '--link 4097', '--link -1', '--link x', '--link', '--link 1 --link 2', '--order up', '--order',
        '--order left --order left', '--help', '-h', 'help x', '--version', 'a b', '-x')],
]


class Failing:
    """A plan of two scores, of which some can't be read since they are folders, by an order: the text and the line told."""

    def __init__(self, scores, order, text, told):
        self.scores, self.order, self.text, self.told = scores, order, text, told

    def check(self, program):
        with tempfile.TemporaryDirectory(prefix='humpipe-fails-') as folder:
            write(f'{folder}/plan', b'p: read a\nq: read b\nout: assemble p q')
            for name, score in self.scores.items():
                os.mkdir(f'{folder}/{name}') if score is None else write(f'{folder}/{name}', score)
            found = run([program, '--order', self.order, 'plan'], b'', cwd=folder)
        want = 1 if 'line' in self.told else 3, self.text, f'humpipe: {self.told}\n'.encode()
        return [] if found == want else [f'{self.scores} from the {self.order}: {shown(found)}']


CLOSED, BROKEN = b'**x\n*^\n1\t2\n*v\t*v\n*-\n', b'**x\n1\n'
FAILING = [
    Failing({'a': None, 'b': None}, 'left', b'', 'stage 1 (read): read failed'),
    Failing({'a': None, 'b': None}, 'right', b'', 'stage 2 (read): read failed'),
    *[Failing({'a': CLOSED, 'b': None}, order, b'', 'stage 2 (read): read failed') for order in ('left', 'right')],
    # a fault is told once the other score has ended, and not where that can't be read
    *[Failing({'a': BROKEN, 'b': b'**y\n7\n8\n*-\n'}, order, b'**x\t**y\n1\t7\n', 'stage 1 (read), line 3: P8') for order in ('left', 'right')],
    *[Failing({'a': BROKEN, 'b': None}, order, b'', 'stage 2 (read): read failed') for order in ('left', 'right')],
]


class Full:
    """An output that takes so many bytes: they are a front of the text, and it is told if they aren't all."""

    LIMITED = True
    BUNDLE, TEXT = b'out: read a | rid -G\n--- a\n!!x\n**kern\n4c\n*-\n', b'**kern\n4c\n*-\n'

    def __init__(self, room):
        self.room = room

    def check(self, program):
        def narrow():
            signal.signal(signal.SIGXFSZ, signal.SIG_IGN)
            resource.setrlimit(resource.RLIMIT_FSIZE, (self.room, self.room))

        with tempfile.TemporaryFile() as output:
            status, _, told = run([program], self.BUNDLE, stdout=output, preexec_fn=narrow)
            output.seek(0)
            found = status, output.read(), told
        want = (0, self.TEXT, b'') if self.room >= len(self.TEXT) else (3, self.TEXT[:self.room], b'humpipe: write failed\n')
        return [] if found == want else [f'an output of {self.room} bytes: {shown(found)}']


class OutOfReach:
    """An output that nobody reads, plans that can't be opened or read, and an input that can't be read."""

    # (a program that begins in another thread would hold the end of the pipe for a moment)
    LIMITED = True

    def check(self, program):
        end, output = os.pipe()
        os.close(end)
        found = [run([program], Full.BUNDLE, stdout=output)[::2]]
        os.close(output)
        with tempfile.TemporaryDirectory(prefix='humpipe-fails-') as folder:
            found += [run([program, place], b'', cwd=folder)[::2] for place in ('.', 'nowhere')]
            here = os.open(folder, os.O_RDONLY)
            ended = subprocess.run([program], stdin=here, capture_output=True)
            os.close(here)
        found += [(ended.returncode, ended.stderr)]
        want = [(3, b'humpipe: write failed\n'), *[(3, b'humpipe: cannot read plan\n')] * 3]
        return [] if found == want else [f'what nobody reads or can read: {found}']


def give(pipe, data):
    """Whether a pipe has taken these bytes before the time is up."""
    end = time.monotonic() + SECONDS / 4
    while data and time.monotonic() < end:
        if select.select([], [pipe], [], 0.1)[1]:
            data = data[os.write(pipe, data):]
    return not data


class Piped:
    """Two scores side by side that come through pipes. With long links the one that the order has first is taken to its
    end while the other gives nothing. With short ones the other is taken while the first is open, of which all but the
    end has come."""

    LINES = 4_000

    def __init__(self, link, order, is_long):
        self.link, self.order, self.is_long = link, order, is_long
        first, other = ('a', 'b') if order == 'left' else ('b', 'a')
        self.taken, self.waiting = (first, other) if is_long else (other, first)

    def check(self, program):
        with tempfile.TemporaryDirectory(prefix='humpipe-pipes-') as folder:
            write(f'{folder}/plan', b'p: read a\nq: read b\nout: assemble p q\n')
            pipes = {}
            for name in 'ab':
                os.mkfifo(f'{folder}/{name}')
                pipes[name] = os.open(f'{folder}/{name}', os.O_RDWR | os.O_NONBLOCK)
            with open(f'{folder}/text', 'w+b') as text:
                words = [program, '--link', self.link, '--order', self.order, 'plan']
                none = subprocess.DEVNULL
                running = subprocess.Popen(words, cwd=folder, stdin=none, stdout=text, stderr=none)
                wrong = self.feed(pipes)
                if wrong:
                    running.kill()
                status = running.wait()
                text.seek(0)
                if not wrong and (status, text.read()) != (0, self.text()):
                    wrong = f'status {status} and another text'
        return [f'pipes, --link {self.link} --order {self.order}: {wrong}'] if wrong else []

    def feed(self, pipes):
        """Gives both scores, one as far as it goes before the other; what is wrong, or nothing."""
        head, body = b'**x\n', {self.taken: b'2' * 99 + b'\n', self.waiting: b'1\n'}
        early = b'' if self.is_long else head + body[self.waiting] * self.LINES
        late = head + body[self.waiting] * self.LINES + b'*-\n'
        try:
            if not give(pipes[self.waiting], early):
                return f'{self.waiting} is not begun'
            tail = b'*-\n' if self.is_long else b''
            if not give(pipes[self.taken], head + body[self.taken] * self.LINES + tail):
                return f'{self.taken} is not read while {self.waiting} waits'
            if self.is_long:
                os.close(pipes.pop(self.taken))
            else:
                give(pipes[self.taken], b'*-\n')
            return '' if give(pipes[self.waiting], late[len(early):]) else f'{self.waiting} is not read'
        finally:
            for pipe in pipes.values():
                os.close(pipe)

    def text(self):
        tokens = {self.taken: b'2' * 99, self.waiting: b'1'}
        record = tokens['a'] + b'\t' + tokens['b'] + b'\n'
        return b'**x\t**x\n' + record * self.LINES + b'*-\t*-\n'


class Room:
    """A bundle takes more memory where its source fills a long link: with a short one, or the other order, it needs
    less by some megabytes."""

    LIMITED = True
    RECORDS, MORE = b'1' * 8_000 + b'\n', 16 << 20
    BUNDLE = b'out: read a | rid -l\n--- a\n**x\n' + RECORDS * 4_000 + b'*-\n'

    def check(self, program):
        with tempfile.TemporaryFile() as bundle:
            bundle.write(self.BUNDLE)
            least = {way: self.least(program, bundle, way.split()) for way in
                     ('--link 4096 --order left', '--link 4096 --order right', '--link 1 --order left', '--order left')}
        most = least.pop('--link 4096 --order left')
        return [f'room, {way}: {size} bytes are needed, and {most} with long links'
                for way, size in least.items() if size + self.MORE > most]

    def least(self, program, bundle, way):
        """How many bytes of memory a run needs, nearly."""
        low, high = 0, 1 << 30
        while high - low > 1 << 20:
            room = (low + high) // 2
            bundle.seek(0)
            narrow = lambda: resource.setrlimit(resource.RLIMIT_AS, (room, room))
            none = subprocess.DEVNULL
            ended = subprocess.run([program, *way], stdin=bundle, stdout=none, stderr=none, preexec_fn=narrow)
            low, high = (low, room) if ended.returncode == 0 else (room, high)
        return high


PIPED = [Piped(link, order, link == '4096') for order in ('left', 'right') for link in ('4096', '1', '16')]


class Large:
    """A bundle of so many bytes, of which 67,108,864 may be."""

    def __init__(self, size):
        self.size = size

    def check(self, program):
        text = b'!!' + b'x' * 1_048_573 + b'\n'
        bundle = (b'out: read a | rid -G\n--- a\n' + text * 64)[:self.size - 1] + b'\n'
        found = run([program], bundle)
        want = (0, b'', b'') if self.size <= 67_108_864 else (2, b'', b'humpipe: bundle too large\n')
        return [] if found == want else [f'a bundle of {self.size} bytes: {shown(found)}']


class PlanFile:
    """A plan's file of so many bytes, of which 65,536 may be: its line stands at the end."""

    LINE, SCORE = b'out: read a | rid -G\n', b'**kern\n4c\n*-\n'

    def __init__(self, size):
        self.size = size

    def check(self, program):
        with tempfile.TemporaryDirectory(prefix='humpipe-plan-') as folder:
            write(f'{folder}/a', self.SCORE)
            write(f'{folder}/plan', b'#' * (self.size - len(self.LINE) - 1) + b'\n' + self.LINE)
            found = run([program, 'plan'], b'', cwd=folder)
        want = (0, self.SCORE, b'') if self.size <= 65_536 else (2, b'', b'humpipe: plan line 1, word 0: N1\n')
        return [] if found == want else [f"a plan's file of {self.size} bytes: {shown(found)}"]


class Missing:
    """Two scores, of which some aren't there: the first of these is told, by the number of its stage."""

    PLAN = b'p: read a | rid -G\nq: read b\nout: assemble p q\n'

    def __init__(self, there):
        self.there = there

    def check(self, program):
        score, wrong = b'**x\n1\n*-\n', []
        number = next((k for name, k in (('a', 1), ('b', 3)) if name not in self.there), None)
        want = (3, b'', f'humpipe: stage {number} (read): cannot open\n'.encode())
        bundle = self.PLAN + b''.join(b'--- %s\n%s' % (name.encode(), score) for name in self.there)
        with tempfile.TemporaryDirectory(prefix='humpipe-missing-') as folder:
            write(f'{folder}/plan', self.PLAN)
            for name in self.there:
                write(f'{folder}/{name}', score)
            for way, words, given in ('as a bundle', [program], bundle), ('as files', [program, 'plan'], b''):
                found = run(words, given, cwd=folder)
                wrong += [] if found == want else [f'scores {self.there or "none"}, {way}: {shown(found)}']
        return wrong


def largest_runs():
    """As many stages and branches as a plan may have, and a pattern of 1,024 bytes, run to their ends."""
    score = b'**kern\n4c\n4d\n*-\n'
    stages = b'out: read a' + b' | rid -G' * 63
    yield '64 stages', stages + b'\n--- a\n!!x\n' + score, score, ''
    branches = b''.join(b'b%d: read a\n' % k for k in range(15))
    plan = branches + b'out: assemble ' + b' '.join(b'b%d' % k for k in range(15)) + b'\n--- a\n'
    wide = b''.join(b'\t'.join([line] * 15) + b'\n' for line in score.split(b'\n')[:-1])
    yield '16 branches', plan + score, wide, ''
    pattern = b'^(?:' + b'x' * 1_015 + b'|4)d$'
    yield 'a pattern of 1,024 bytes', b"out: read a | context -n 2 -o '" + pattern + b"'\n--- a\n" + score, b'**kern\n.\n4d\n*-\n', ''


def cases(rows):
    """All that is made, of these rows too."""
    return [
        *[Row(f'made.py: {name}', *row) for name, *row in [*long_scores(), *wide_scores(), *no_notes(), *largest_runs()]],
        *[Plan(f'made.py: {plan[:40]!r}', plan.encode(), told) for plan, told in long_plans()],
        *fronts(rows), *small_fronts(), *LINES, *FAILING, *[Full(room) for room in (0, 1, 7, 12, 13)], OutOfReach(), *PIPED, Room(),
        *[Large(67_108_864 + k) for k in (-1, 0, 1)], *[PlanFile(65_536 + k) for k in (-1, 0, 1)], *[Missing(there) for there in ('', 'a', 'b')],
    ]
