#!/usr/bin/env python3
"""stress.py PROGRAM [SCORES]: a corpus of 10,000 scores, of which 200 are refused, whose run is killed at five moments, by kill -9 of the run, of workers and
of programs, and goes on each time. In the end each score must be in the table once, and each result what a run of its own gives. Not part of the tests:
it takes some minutes."""
import os
import random
import signal
import subprocess
import sys
import tempfile
import time
from concurrent.futures import ProcessPoolExecutor
from pathlib import Path

TOP = Path(__file__).resolve().parents[2]
sys.path.insert(0, str(TOP / 'python'))
PLAN = 'out: read /dev/stdin | semits -x\n'


def children(pid):
    """The processes that a process has started."""
    try:
        return [int(word) for task in os.listdir(f'/proc/{pid}/task') for word in Path(f'/proc/{pid}/task/{task}/children').read_text().split()]
    except OSError:
        return []


def killed(words, moment, what):
    """Runs the command, and kills after some seconds the run itself or a program of it."""
    with subprocess.Popen(words, stdout=subprocess.PIPE, stderr=subprocess.PIPE, text=True) as run:
        time.sleep(moment)
        if what == 'run':
            run.kill()
        else:
            end = time.monotonic() + 5
            programs = []
            while not programs and time.monotonic() < end:
                programs = children(run.pid)
            for pid in programs[:1]:
                os.kill(pid, signal.SIGKILL)
        written, told = run.communicate()
        print(f'kill -9 of the {what} after {moment:.1f} s: status {run.returncode} {written.strip()} {told.strip()[:100]}', flush=True)


def worker_killed(plan, scores, results, moment):
    """Runs the corpus on two worker processes, of which one is killed."""
    import humpipe
    with ProcessPoolExecutor(2) as executor:
        pid = executor.submit(os.getpid).result()
        subprocess.Popen(['sh', '-c', f'sleep {moment}; kill -9 {pid}'])
        summary = humpipe.corpus(plan, [scores], results, executor=executor)
    print(f'kill -9 of a worker after {moment:.1f} s: status {summary.status}, {len(summary.failed)} could not be run, {summary.kept} as before', flush=True)


def main():
    os.environ['HUMPIPE'] = program = os.path.abspath(sys.argv[1])
    os.environ['PYTHONPATH'] = str(TOP / 'python')
    count = sys.argv[2] if len(sys.argv) > 2 else '10000'
    chance = random.Random()
    with tempfile.TemporaryDirectory(prefix='humpipe-stress-') as room:
        scores, results, plan = Path(room, 'scores'), Path(room, 'results'), Path(room, 'plan.hpl')
        subprocess.run([sys.executable, str(TOP / 'bench/make_corpus.py'), count, str(scores)], check=True)
        plan.write_text(PLAN)
        words = [sys.executable, '-m', 'humpipe', 'corpus', str(plan), str(scores), '--into', str(results)]
        killed(words, chance.uniform(0.5, 4), 'run')
        killed(words, chance.uniform(0.5, 4), 'run')
        worker_killed(plan, scores, results, chance.uniform(1, 4))
        killed(words, chance.uniform(0.5, 2), 'run')
        subprocess.run(['rm', '-r', str(results / '000'), str(results / '001')], check=True)
        killed(words, 0, 'program')
        last = subprocess.run(words, stdout=subprocess.PIPE, text=True)
        print(f'last: status {last.returncode} {last.stdout.strip()}')
        sys.exit(not agrees(program, plan, scores, results, int(count)))


def agrees(program, plan, scores, results, count):
    rows = [line.split('\t') for line in (results / 'faults.tsv').read_text().split('\n')[1:-1]]
    names = sorted(str(path.relative_to(scores)) for path in scores.rglob('*.krn'))
    wrong = 0 if sorted(row[0] for row in rows) == names and len(names) == count else 1
    refused = 0
    for row in rows:
        with open(scores / row[0], 'rb') as score:
            ended = subprocess.run([program, str(plan)], stdin=score, stdout=subprocess.PIPE, stderr=subprocess.PIPE)
        place = results / row[0]
        if ended.returncode == 0:
            wrong += row[1] != '0' or place.read_bytes() != ended.stdout
        else:
            refused += 1
            told = f'humpipe: stage {row[2]}, line {row[3]}: {row[4]}'
            wrong += row[1] != '1' or place.exists() or ended.stderr.decode().strip() != told
    there = sum(1 for path in results.rglob('*.krn'))
    wrong += there != count - refused
    print(f'{len(rows)} scores in the table, {refused} refused, {there} results, {wrong} wrong')
    return wrong == 0


main()
