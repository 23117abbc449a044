#!/usr/bin/env python3
"""instructions.py [WORD ..]: instructions a record of the score that ./humpipe takes for pipelines on several kinds of scores, counted by
valgrind on 2 MB. With words, only what has one of them in its title. PROGRAM names another program.

Counted instructions don't hang on what else the machine does, and are the same in each run."""
import os
import re
import subprocess
import sys
import tempfile

HERE = os.path.dirname(os.path.abspath(__file__))
MEGABYTES = '2'

COMMANDS = ['rid -G', 'extract -f 1,3', "yank -n '^=' -r 100-$", 'ditto', 'semits -x', 'recip', 'trans -d 1 -c 2', 'mint',
            "cleave -i '**kern' -o '**chord'", "context -n 3 -o '^='"]
CHAIN = 'rid -G | extract -f 1,3 | ditto | semits -x | rid -L'

# for each kind of score the commands that run over it
RUNS = {
    'varied': COMMANDS + ['rid -G | rid -G', CHAIN],
    'plain': COMMANDS + ['rid -G | rid -G', CHAIN],
    'steady': ['timebase -t 16'],
    'twelve': ['rid -G', 'ditto', 'semits -x', 'mint'],
    'wide': ['rid -G', 'ditto', 'semits -x'],
    'long': ['rid -G', 'ditto'],
    'splits': ['rid -G', 'extract -f 1,3', 'ditto', 'semits -x'],
    'crlf': ['rid -G'],
}


def tree(score, branches):
    """A column of each of so many scores, side by side."""
    names = [f'b{k}' for k in range(branches)]
    return '\n'.join([f'{name}: read {score} | extract -f {k % 4 + 1}' for k, name in enumerate(names)] + ['out: assemble ' + ' '.join(names)])


def counted(program, plan, *options):
    """The instructions of one run of a plan."""
    with tempfile.NamedTemporaryFile('w', suffix='.hpl') as file:
        file.write(plan + '\n')
        file.flush()
        run = subprocess.run(['valgrind', '--tool=callgrind', '--callgrind-out-file=/dev/null', program, *options, file.name],
                             stdout=subprocess.DEVNULL, stderr=subprocess.PIPE, text=True)
    found = re.search(r'Collected : (\d+)', run.stderr)
    if run.returncode != 0 or not found:
        sys.exit(f'{plan}: {run.stderr[-300:]}')
    return int(found.group(1))


def show(title, records, *words):
    if not sys.argv[1:] or any(word in title for word in sys.argv[1:]):
        print(f'{counted(*words) / records:8.0f}  {title}', flush=True)


def main():
    program = os.environ.get('PROGRAM', os.path.join(HERE, '..', 'humpipe'))
    with tempfile.TemporaryDirectory() as folder:
        for kind, commands in RUNS.items():
            score = os.path.join(folder, kind)
            subprocess.run([sys.executable, os.path.join(HERE, 'make_score.py'), MEGABYTES, score, kind], check=True)
            with open(score) as lines:
                records = sum(1 for _ in lines)
            for command in commands:
                show(f'{kind}: {command}', records, program, f'out: read {score} | {command}')
            if kind == 'varied':
                show(f'{kind}: rid -G, --order right', records, program, f'out: read {score} | rid -G', '--order', 'right')
                for branches in (4, 15):
                    show(f'{kind}: a tree of {branches}', records, program, tree(score, branches))


main()
