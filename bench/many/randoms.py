#!/usr/bin/env python3
"""randoms.py PROGRAM HUMPIPE PLANS CASES: so many plans of the rows over scores of other rows, so many cases of each.

PROGRAM, as humpipe-many, gets all cases of a plan in one process, and HUMPIPE each as a bundle in a process of its own: both must say
the same. Scores are also cut, spliced and doubled."""
import collections
import glob
import os
import random
import re
import subprocess
import sys
from concurrent.futures import ThreadPoolExecutor

TESTS = os.path.join(os.path.dirname(os.path.abspath(__file__)), '..', '..', 'tests')
sys.path.insert(0, TESTS)
import check  # noqa: E402
from many import split  # noqa: E402
from packets import answers, case, packets  # noqa: E402


def drawn(chance):
    """The plans by the names that they read, and scores."""
    plans, scores = {}, set()
    for path in sorted(glob.glob(f'{TESTS}/*.rows')):
        for row in check.rows_of(path):
            plan, named = split(row.bundle)
            scores |= {text for _, text in named if len(text) < 4000 and text.endswith(b'\n')}
            if named and b'\r' not in plan and not row.told.startswith('plan') and all(re.fullmatch(rb'\w+', name) for name, _ in named):
                plans[plan] = sorted({name for name, _ in named})
    scores = sorted(text for text in scores if not re.search(rb'(?m)^--- ', text))
    for text in list(scores):
        lines = text.splitlines(True)
        if len(lines) > 3:
            at = chance.randrange(1, len(lines))
            scores += [b''.join(lines[:at]), b''.join(lines[:at] + lines[at - 1 :])]
    return plans, scores


def main():
    program, humpipe = sys.argv[1:3]
    chance = random.Random(5)
    plans, scores = drawn(chance)
    kinds, wrong = collections.Counter(), 0

    def alone(plan, named):
        ended = subprocess.run([humpipe], input=plan + b''.join(b'--- %s\n%s' % it for it in named), capture_output=True)
        return ended.returncode, ended.stdout, ended.stderr.rstrip(b'\n')

    with ThreadPoolExecutor(2) as pool:
        for plan in chance.sample(sorted(plans), min(int(sys.argv[3]), len(plans))):
            cases = [[(name, chance.choice(scores)) for name in plans[plan] if chance.random() > 0.01] for _ in range(int(sys.argv[4]))]
            ended = subprocess.run([program], input=packets(plan) + b''.join(map(case, cases)), capture_output=True)
            wanted = list(pool.map(lambda named: alone(plan, named), cases))
            kinds.update(status for status, _, _ in wanted)
            if answers(ended.stdout)[1:] != wanted or ended.returncode:
                wrong += 1
                print(f'{plan} differs')
    print(f'{sum(kinds.values())} cases, by status {dict(kinds)}; plans with a difference: {wrong}')
    sys.exit(wrong > 0)


main()
