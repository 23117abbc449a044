#!/usr/bin/env python3
"""many.py PROGRAM: the rows of this folder with PROGRAM as humpipe-many, and broken streams.

The bundle of each row is asked as a case, three times in one process, with a case between them that is refused and one without scores:
it must be answered each time as the row says. Each plan of the files NAME.plans must be refused or accepted as they say. A stream of
four lists is cut at each of its bytes, and at each place where a packet may begin stands what is none; it is sent byte by byte, and to
an output that takes nothing; and each call for memory, read and write fails in turn. What 20,000 cases take of memory must be what 1,000 do. One line for each
that fails; the last line is `N passed, M failed`."""
import glob
import os
import re
import shutil
import subprocess
import sys
import tempfile

import check
import made
from faults import built
from packets import answer, answers, case, packets

PLAN = packets(b'out: read a | extract -f 1\n')
GOOD = case([(b'a', b'**x\t**y\n1\t2\n*-\t*-\n')])
BAD = case([(b'a', b'**x\t**y\n1\t2\n3\n*-\t*-\n')])
STREAM = [PLAN, GOOD, BAD, GOOD]
FINE = (0, b'**x\n1\n*-\n', b'')
WRONG = (1, b'**x\n1\n', b'humpipe: stage 1 (read), line 3: P2')
ANSWERS = [(0, b'', b''), FINE, WRONG, FINE]
MISSING = (3, b'', b'humpipe: stage 1 (read): cannot open')
# plans with patterns, and how many kB more they may hold of many cases
PATTERNS = [b'ditto -s ab+', b'ditto -s ^=', b'context -b a -e b+ -o c', b'yank -n a -r 1-2', b'yank -o a -e b+ -r 1', b'mint -b a+']
MORE_KB = 1024
# what is no size
JUNK = [b'000g', b'0001', b'0002', b'0003', b'fff1', b'ffff', b'-001', b' 005', b'0x05', b'+00c', b'\0\0\0\0']


def run(program, given):
    """The status of a run, its answers, and what it tells."""
    ended = subprocess.run([program], input=given, capture_output=True, timeout=check.SECONDS)
    return ended.returncode, answers(ended.stdout), ended.stderr.decode()


def broken(place):
    return f'humpipe-many: no packet that may stand at byte {place}\n'


class Judge:
    """Counts what is as it should be."""

    def __init__(self):
        self.passed = self.failed = 0

    def want(self, name, found, wanted):
        if found == wanted:
            self.passed += 1
        else:
            self.failed += 1
            print(f'{name}: {str(found)[:300]} and not {str(wanted)[:300]}')


def split(bundle):
    """The plan and the scores of a bundle."""
    plan, *parts = re.split(rb'(?m)^--- ', bundle)
    named = [part.partition(b'\n')[::2] for part in parts]
    return plan, [(name.removesuffix(b'\r'), text) for name, text in named]


def try_row(judge, program, row):
    plan, scores = split(row.bundle)
    torn = case([(name, b'**kern\n4c\n4d\t4e\n') for name, _ in scores] or [(b'a', b'')])
    once = case(scores)
    status, found, told = run(program, packets(plan) + once + torn + once + case([]) + once)
    wanted = check.status_of(row.told), row.text, f'humpipe: {row.told}'.encode() if row.told else b''
    if row.told.startswith('plan line'):
        judge.want(row.place, (status, found, told), (2, [wanted], ''))
    else:
        judge.want(row.place, (status, found[:1], found[1::2], told), (0, [(0, b'', b'')], [wanted] * 3, ''))


def try_plan(judge, program, plan):
    found = run(program, packets(plan.plan) + case([]))
    if plan.told:
        judge.want(plan.place, found, (2, [(2, b'', f'humpipe: {plan.told}'.encode())], ''))
    else:
        status, said, told = found
        judge.want(plan.place, (status, said[0], said[1][0], told), (0, (0, b'', b''), 3, ''))


def try_cuts(judge, program):
    stream = b''.join(STREAM)
    ends = [len(b''.join(STREAM[: n + 1])) for n in range(len(STREAM))]
    for cut in range(len(stream) + 1):
        status, found, told = run(program, stream[:cut])
        done = [said for said, end in zip(ANSWERS, ends) if end <= cut]
        if cut in ends:
            judge.want(f'cut at {cut}', (status, found, told), (0, done, ''))
        else:
            at = int(re.search(r'(\d+)\n$', told)[1])
            judge.want(f'cut at {cut}', (status, found, told, at <= cut), (2, done, broken(at), True))
    for n, place in enumerate(ends):
        for junk in JUNK:
            found = run(program, stream[:place] + junk + stream[place:] + b'x' * 70000)
            judge.want(f'{junk} at {place}', found, (2, ANSWERS[: n + 1], broken(place)))


def try_forms(judge, program):
    read = packets(b'out: read a\n')
    judge.want('a size in capitals', run(program, read + b'0005a000B!!1234\n00000000')[1:], ([(0, b'', b''), (0, b'!!1234\n', b'')], ''))
    judge.want('empty packets', run(program, b'0004' + read + b'0005a' + b'0004' * 5 + b'00000000')[1:], ([(0, b'', b''), (0, b'', b'')], ''))
    judge.want('no plan', run(program, b'0000' + GOOD), (2, [(2, b'', b'humpipe: plan line 1, word 0: N4')], ''))
    judge.want('a plan that is too long', run(program, packets(b'#' * 65537) + GOOD), (2, [(2, b'', b'humpipe: plan line 1, word 0: N1')], ''))
    judge.want('a name of no byte', run(program, PLAN + b'00040005x00000000' + GOOD)[1], [(0, b'', b''), MISSING, FINE])
    judge.want('no scores', run(program, PLAN + b'0000' * 3 + GOOD)[1], [(0, b'', b'')] + [MISSING] * 3 + [FINE])
    others = case([(b'b', b'z'), (b'a', b'**x\t**y\n1\t2\n*-\t*-\n'), (b'a', b'never'), (b'/x\0\n', bytes(range(256)))])
    judge.want('the first of a name', run(program, PLAN + others)[1], [(0, b'', b''), FINE])
    large = case([(b'a', b'x' * 67_108_864)])
    judge.want('a case that is too large', run(program, PLAN + large + GOOD)[1], [(0, b'', b''), (2, b'', b'humpipe: bundle too large'), FINE])
    line = b'!!' + b'x' * 60 + b'\n'
    most = line * (67_108_863 // len(line))
    judge.want('a case as large as can be', run(program, read + case([(b'a', most)]))[1], [(0, b'', b''), (0, most, b'')])


def try_ends(judge, program):
    asked = subprocess.Popen([program], stdin=subprocess.PIPE, stdout=subprocess.PIPE, bufsize=0)
    with os.fdopen(os.dup(asked.stdout.fileno()), 'rb') as out:
        for part, wanted in zip(STREAM, ANSWERS):
            for byte in part:
                asked.stdin.write(bytes([byte]))
            judge.want('byte by byte', answer(out), wanted)
    asked.stdin.close()
    judge.want('byte by byte, at the end', asked.wait(), 0)
    if os.path.exists('/dev/full'):
        with open('/dev/full', 'wb') as full:
            ended = subprocess.run([program], input=b''.join(STREAM), stdout=full, stderr=subprocess.PIPE)
        judge.want('a full output', (ended.returncode, ended.stderr), (3, b'humpipe-many: write failed\n'))
    folder = os.open('/', os.O_RDONLY)
    ended = subprocess.run([program], stdin=folder, capture_output=True)
    os.close(folder)
    judge.want('a folder as input', (ended.returncode, ended.stdout, ended.stderr), (3, b'', b'humpipe-many: read failed\n'))


def most_held(program, plan, count):
    """The most kB that a process has held when it has answered so many cases of a small score, and whether it said of each the same."""
    block = case([(b'a', b'**kern\t**x\n4c\ta\n.\tabb\n4d\t.\n*-\t*-\n')]) * 100
    said = set()
    with subprocess.Popen([program], stdin=subprocess.PIPE, stdout=subprocess.PIPE) as asked:
        asked.stdin.write(packets(plan))
        asked.stdin.flush()
        answer(asked.stdout)
        for _ in range(count // 100):
            asked.stdin.write(block)
            asked.stdin.flush()
            said |= {answer(asked.stdout) for _ in range(100)}
        with open(f'/proc/{asked.pid}/status') as status:
            return int(re.search(r'VmHWM:\s+(\d+)', status.read())[1]), len(said) == 1


def try_memory(judge, program):
    for command in PATTERNS:
        plan = b'out: read a | ' + command + b'\n'
        (few, same), (many, same_too) = (most_held(program, plan, count) for count in (1_000, 20_000))
        judge.want(f'{command.decode()}: {few} and {many} kB', (same, same_too, many <= few + MORE_KB), (True, True, True))


LACKS = (3, b'humpipe: out of memory')


def is_lacking(found):
    """Whether of some answers each is right, or tells that memory ran out behind a front of its text."""
    fits = [said == wanted or said[::2] == LACKS and wanted[1].startswith(said[1]) for said, wanted in zip(found, ANSWERS)]
    return all(fits) and sum(said[::2] == LACKS for said in found) <= 1


def try_faults(judge, program, folder):
    """One call for memory, read or write after the other fails, and no other: what comes behind is as ever."""
    library, stream = built(folder), b''.join(STREAM)
    whole = subprocess.run([program], input=stream, capture_output=True).stdout

    def failing(call, error, number):
        load = {**os.environ, 'LD_PRELOAD': library, 'FAULT': f'{call} {error} {number}', 'COUNTS': f'{folder}/counts'}
        ended = subprocess.run([program], input=stream, capture_output=True, env=load, timeout=check.SECONDS)
        counts = open(f'{folder}/counts').read().split()
        return ended, int(counts[['memory', 'read', 'write'].index(call)])

    for call, error in ('memory', 12), ('read', 5), ('write', 28):
        for number in range(1, failing(call, error, 10**9)[1] + 1):
            ended, _ = failing(call, error, number)
            line = {'memory': b'out of memory', 'read': b'read failed', 'write': b'write failed'}[call]
            told = ended.stderr == b'humpipe-many: ' + line + b'\n' and ended.returncode == 3
            if call == 'write':
                fine = told and whole.startswith(ended.stdout)
            else:
                found = answers(ended.stdout)
                fine = is_lacking(found) and (told or ended.stderr == b'' and (len(found) == len(ANSWERS) or found == [(3, b'', LACKS[1])]))
            judge.want(f'{call} fails at call {number}', (fine, ended.returncode if not fine else 0), (True, 0))


def main():
    program = os.path.abspath(sys.argv[1])
    judge = Judge()
    rows = [row for path in sorted(glob.glob(f'{check.HERE}/*.rows')) for row in check.rows_of(path)]
    for row in rows + [it for it in made.cases(rows) if isinstance(it, check.Row)]:
        if len(row.bundle) < 67_000_000:
            try_row(judge, program, row)
    for path in sorted(glob.glob(f'{check.HERE}/*.plans')):
        for plan in check.plans_of(path):
            try_plan(judge, program, plan)
    try_cuts(judge, program)
    try_forms(judge, program)
    try_ends(judge, program)
    if os.path.exists('/proc/self/status'):
        try_memory(judge, program)
    else:
        print('left out: what is told of memory, which needs Linux')
    with tempfile.TemporaryDirectory(prefix='humpipe-many-') as folder:
        if shutil.which('cc'):
            try_faults(judge, program, folder)
        else:
            print('left out: what needs a C compiler, which is not here')
    print(f'{judge.passed} passed, {judge.failed} failed')
    sys.exit(judge.failed > 0)


if __name__ == '__main__':
    main()
