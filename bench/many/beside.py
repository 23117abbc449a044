#!/usr/bin/env python3
"""beside.py FOLDER [SCORES..]: the same question to many scores, in several ways: what docs/MANY.md tells.

FOLDER has humpipe and humpipe-many beside each other. The question is `semits -x`, to 10,000 scores of some 60 lines and 1,000 of some 10 kB that make_corpus.py
makes, or to the scores named. Each way runs by one process at a time, but for `humpipe.map`, which is asked with one worker and with one a processor, and GNU
parallel, where there is one. For each way it prints the seconds of all processors, user's and system's together, by the clock in brackets, and how many
times less the first takes than a process for each."""
import glob
import os
import resource
import shutil
import subprocess
import sys
import tempfile
import time

HERE = os.path.dirname(os.path.abspath(__file__))
TOP = os.path.dirname(os.path.dirname(HERE))
sys.path.insert(0, os.path.join(TOP, 'tests'))
from packets import case, packets  # noqa: E402

PLAN = 'out: read /dev/stdin | semits -x\n'
MAP = """import sys
import humpipe
for score in humpipe.map(sys.argv[1], sys.stdin.read().split(), jobs=int(sys.argv[2]), progress=False):
    sys.stdout.write(score.text)
"""


def spent(command, given, **rest):
    """What a command writes, and the seconds of its processors and of the clock."""
    before, began = resource.getrusage(resource.RUSAGE_CHILDREN), time.perf_counter()
    with tempfile.TemporaryFile() as source:
        source.write(given)
        source.seek(0)
        ended = subprocess.run(command, stdin=source, stdout=subprocess.PIPE, stderr=subprocess.DEVNULL, **rest)
    after = resource.getrusage(resource.RUSAGE_CHILDREN)
    return ended.stdout, after.ru_utime + after.ru_stime - before.ru_utime - before.ru_stime, time.perf_counter() - began


def ways(folder, plan, paths):
    """The ways to ask: what each is called, its command and what it is given."""
    listed = ''.join(path + '\n' for path in paths).encode()
    one, many = os.path.join(folder, 'humpipe'), os.path.join(folder, 'humpipe-many')
    shell = f'"{one}" "{plan}" <{{}}'
    yield 'a process for each, by a loop of sh', ['sh', '-c', f'while read -r score; do "{one}" "{plan}" <"$score"; done'], listed
    if shutil.which('parallel'):
        yield 'a process for each, by GNU parallel', ['parallel', '-k', shell], listed
    yield '`humpipe.map`, one worker', [sys.executable, '-c', MAP, PLAN, '1'], listed
    yield '`humpipe.map`, a worker a processor', [sys.executable, '-c', MAP, PLAN, str(os.cpu_count())], listed
    asked = packets(PLAN.encode()) + b''.join(case([(b'/dev/stdin', open(path, 'rb').read())]) for path in paths)
    yield '`humpipe-many` alone, all cases at once', [many], asked
    yield 'a plain reader in Python, which follows no spine and refuses nothing', ['xargs', sys.executable, os.path.join(HERE, 'semits.py')], listed


def measure(folder, paths):
    size = sum(map(os.path.getsize, paths))
    print(f'{len(paths):,} scores of {size / len(paths):,.0f} bytes on average')
    env = dict(os.environ, HUMPIPE=os.path.join(folder, 'humpipe'), PYTHONPATH=os.path.join(TOP, 'python'))
    with tempfile.TemporaryDirectory() as room:
        plan = os.path.join(room, 'plan.hpl')
        with open(plan, 'w') as out:
            out.write(PLAN)
        first, texts = None, {}
        for name, command, given in ways(os.path.abspath(folder), plan, paths):
            text, seconds, clock = spent(command, given, env=env)
            first = first or seconds
            texts[name] = text
            print(f'{name}: {seconds:.2f} s ({clock:.2f}), {seconds / first:.3f}', flush=True)
    whole = [text for name, text in texts.items() if name.startswith(('a process', '`humpipe.map`'))]
    if any(text != whole[0] for text in whole):
        sys.exit('they differ')


def main():
    folder, paths = sys.argv[1], sys.argv[2:]
    if paths:
        measure(folder, paths)
        return
    with tempfile.TemporaryDirectory() as room:
        for count, bars in ((10_000, 8), (1_000, 130)):
            corpus = os.path.join(room, str(bars))
            subprocess.run([sys.executable, os.path.join(TOP, 'bench', 'make_corpus.py'), str(count), corpus, str(bars)], check=True)
            measure(folder, sorted(glob.glob(os.path.join(corpus, '*', '*.krn'))))


main()
