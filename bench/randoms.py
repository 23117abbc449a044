#!/usr/bin/env python3
"""randoms.py BEFORE AFTER [COUNT] [SEED]: whether two programs do the same with random bundles of short and long lines.

Each bundle is a chain of commands or a tree over scores whose spines split, join, change places, come and end; one token in some
hundred is long, up to 20,000 bytes, and one score in ten breaks a rule. Text, status and line of both must be the same, and the peak
memory of AFTER within what its records say: a record takes at most 512 bytes and twice its text, and four times 288 bytes and twice
the number of its tokens. The C compiler builds what measures it (tests/faults.c). One line for each that differs; the last line is
`N passed, M failed`."""
import os
import random
import subprocess
import sys
import tempfile
from concurrent.futures import ThreadPoolExecutor

sys.path.insert(0, os.path.join(os.path.dirname(os.path.abspath(__file__)), '..', 'tests'))
from faults import built  # noqa: E402

NOTES = ['4c', '8dd#', '.', '.', '2r', '16ee-', '4.g', '4AA 4c', '[4f', '=2', 'x']
COMMANDS = ['rid -G', 'rid -l', 'rid -d', 'extract -f 1', 'extract -f 2,1', "extract -i '**kern'", 'ditto', "ditto -s '^='", 'context -n 2',
            "context -n 3 -o '^='", 'context -n 40', "yank -o '^=' -r 1", "yank -n '^=' -r 2-", 'timebase -t 16', 'semits -x', 'semits', 'mint', 'recip',
            'trans -d 1 -c 2', "cleave -i '**kern' -o '**x'"]
MIB = 1024 ** 2


def token(chance, is_long):
    return 'a' * chance.choice([80, 600, 5_000, 20_000]) if is_long else chance.choice(NOTES)


def steps(chance, width):
    """A record that leads spines on, and how many there are then."""
    kind, at = chance.randrange(5), chance.randrange(width)
    signs = ['*'] * width
    if kind == 0 and width < 12:
        signs[at] = '*^'
        return signs, width + 1
    if kind == 1 and width > 1:
        at = min(at, width - 2)
        signs[at:at + 2] = ['*v', '*v']
        return signs, width - 1
    if kind == 2 and width > 1:
        at = min(at, width - 2)
        signs[at:at + 2] = ['*x', '*x']
    elif kind == 3 and width > 1:
        signs[at] = '*-'
        return signs, width - 1
    return signs, width


def score(chance):
    """A score, and how many records, bytes of a line and tokens it has at most."""
    width = chance.randint(1, 5)
    rows, widest = [[chance.choice(['**kern', '**kern', '**text', '**x']) for _ in range(width)]], width
    for _ in range(chance.choice([3, 10, 40, 120])):
        if chance.random() < .15:
            row, width = steps(chance, width)
        elif chance.random() < .05:
            row = ['!!' + token(chance, chance.random() < .2)]
        else:
            row = [token(chance, chance.random() < .01) for _ in range(width)]
        rows.append(row)
        widest = max(widest, width)
    rows.append(['*-'] * width)
    if chance.random() < .1:
        rows[chance.randrange(len(rows))].append('')
    lines = ['\t'.join(row) for row in rows]
    return lines, max(map(len, lines)), widest


def case(seed):
    """A bundle, the words of the command line, and the most memory in MiB."""
    chance = random.Random(seed)
    sources = chance.choice([1, 1, 1, 2, 3])
    scores = [score(chance) for _ in range(sources)]
    chain = [chance.choice(COMMANDS) for _ in range(chance.randint(0, 4))]
    if sources == 1:
        plan = [' | '.join(['out: read s0'] + chain)]
    else:
        names = [f'p{k}' for k in range(sources)]
        plan = [f'{name}: read s{k}' for k, name in enumerate(names)] + [' | '.join([f'out: assemble {" ".join(names)}'] + chain)]
    parts = plan + [line for k, (lines, _, _) in enumerate(scores) for line in [f'--- s{k}'] + lines]
    bundle = ('\n'.join(parts) + '\n').encode()
    link = chance.choice([1, 2, 16, 100, 4096])
    words = ['--link', str(link), '--order', chance.choice(['left', 'right'])]
    records = sum(len(lines) for lines, _, _ in scores) * (17 if any(it.startswith('timebase') for it in chain) else 1)
    longest = sum(it for _, it, _ in scores) * max([int(it.split()[2]) for it in chain if it.startswith('context')] + [1])
    rooms = records * (512 + 4 * 288 + 8 * sum(it for _, _, it in scores)) + 2 * min(records * longest, 4 * len(bundle) * 40)
    return bundle, words, 5 + (3 * len(bundle) + (sources + len(chain) + 1) * rooms + 33 * 8192 + 4 * longest) / MIB


def judge(seed, before, after, library, room):
    bundle, words, most = case(seed)
    counts = f'{room}/{seed}'
    found = [subprocess.run([program] + words, input=bundle, capture_output=True, env=env, timeout=120)
             for program, env in [(before, None), (after, {**os.environ, 'LD_PRELOAD': library, 'COUNTS': counts} if library else None)]]
    told = [(it.returncode, it.stdout, it.stderr) for it in found]
    if told[0] != told[1]:
        return f'seed {seed}: {told[0][0], told[0][2]} before, {told[1][0], told[1][2]} after'
    if library:
        peak = int(open(counts).read().split()[4]) / 1024
        os.remove(counts)
        if peak > most:
            return f'seed {seed}: {peak:.1f} MiB of {most:.1f}'
    return ''


def main():
    before, after = sys.argv[1:3]
    count, first = (int(word) for word in (sys.argv[3:] + ['1000', '1'][len(sys.argv) - 3:]))
    with tempfile.TemporaryDirectory() as room, ThreadPoolExecutor(os.cpu_count()) as pool:
        library = built(room)
        wrong = [it for it in pool.map(lambda seed: judge(seed, before, after, library, room), range(first, first + count)) if it]
    print(*wrong[:20], sep='\n', end='\n' if wrong else '')
    print(f'{count - len(wrong)} passed, {len(wrong)} failed')
    sys.exit(1 if wrong else 0)


if __name__ == '__main__':
    main()
