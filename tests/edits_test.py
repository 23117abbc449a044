#!/usr/bin/env python3
"""Tests edits.py on a small crate: an edit that is refused, and edits that must be told: one that changes nothing, one whose old text stands
nowhere, one that means the same, one that doesn't compile, and one that breaks another function than its own; and, by a check that is made up, edits that
hide each other, and the names that a check gives functions. The last line is `edits_test: N passed, M failed`."""
import os
import subprocess
import sys
import tempfile
import types

import edits as script

HERE = os.path.dirname(os.path.abspath(__file__))
CODE = '''//! Numbers.
#![tactic(auto)]

ghost use Rattle.std.specs.Prelude.{◌≡◌, ◌<◌, ◌+◌};

/// The next number.
pub fn next(n: u8) -> u8
    requires { n < 255 }
    ensures { result ≡ n + 1 }
{
    n + 1
}

/// The number behind that.
pub fn second(n: u8) -> u8
    requires { n < 254 }
    ensures { result ≡ n + 2 }
{
    let first = next(n);
    next(first)
}
'''
EDITS = {
    'wrong_body': ('    n + 1', '    n', None),
    'wrong_caller': ('    next(first)', '    first', None),
    'wrong_start': ('    let first = next(n);', '    let first = n;', None),
    'changes_nothing': ('    n + 1', '    n + 1', 'changes nothing'),
    'stands_nowhere': ('    n + 2', '    n', '0 times'),
    'means_the_same': ('    n + 1', '    1 + n', 'still proved'),
    'does_not_compile': ('    n + 1', '    n +', 'does not compile'),
    'breaks_another': ('    ensures { result ≡ n + 1 }', '    ensures { n < result }', 'but in half::second'),
}
# What a check calls the functions of such a block.
NAMES = {
    'impl Frac {': 'Frac',
    'impl<T: Write + Drop> Sink for Marked<T> {': 'MarkedSink',
    "impl<'a, F: Folder> Scores for FolderScores<'a, F> {": 'FolderScoresScores',
    'impl DueRecords for VecDeque<Record> {': 'VecDequeRecordDueRecords',
    'impl From<PathFault> for Refusal {': 'RefusalFromPathFault',
    'impl fmt::Display for Told {': 'ToldDisplay',
    'impl<T> Drop for Vec<T> {': 'Vec',
    'pub trait Stage: Sized {': 'Stage',
}


class Hiding:
    """A room whose checks are made up: while `next` isn't proved, they say nothing of `second` but that it calls it."""

    def __init__(self):
        self.begun = []

    def check(self, _, folder, kept, only):
        with open(f'{folder}/src/lib.rt', encoding='utf-8') as it:
            text = it.read()
        self.begun.append((os.path.isdir(kept), *only))
        os.makedirs(kept, exist_ok=True)
        wrong = ('    n + 1\n' not in text, '    next(first)\n' not in text or '    let first = next(n);\n' not in text)
        log = 'src/lib.rt:11:5: error: it is not proved\nfn half::next: not proved\n' * wrong[0]
        log += 'fn half::second: no proof: it calls `half::next`, which is not proved\n' * (wrong[0] and wrong[1])
        log += 'src/lib.rt:20:5: error: it is not proved\nfn half::second: not proved\n' * (not wrong[0] and wrong[1])
        return int(any(wrong)), log, (1, 1)


def hidden():
    """What is wrong in a trial of three edits: two of one function, and one of a function that it calls, by which the first of the two is hidden."""
    with tempfile.TemporaryDirectory(prefix='humpipe-edits-test-') as root:
        lay_out(root, ['wrong_body', 'wrong_caller', 'wrong_start'])
        crate = script.crates_of(root)['half']
        room = Hiding()
        trial = script.Trial(crate, crate.edits(), room, types.SimpleNamespace(keep_logs=None))
        names = lambda copies: [[it.name for it in copy] for copy in copies]
        copies = trial.first()
        seen = [names(copies), names([it for copy in copies for it in trial.later(copy)]), room.begun]
        trial.clear()
    wanted = [[['wrong_caller'], ['wrong_start']], [], [(False, 'next', 'second'), (True, 'second'), (True, 'second')]]
    return [] if seen == wanted and not any(it.why for it in trial.edits) else [f'edits that hide each other: {seen}']


def write(path, text):
    os.makedirs(os.path.dirname(path), exist_ok=True)
    with open(path, 'w', encoding='utf-8') as it:
        it.write(text)


def lay_out(root, names):
    """A repository of one crate with these edits."""
    os.mkdir(f'{root}/.git')
    write(f'{root}/crates.txt', 'half:\n')
    write(f'{root}/HANDLES', 'Handles allowed: none.\n')
    write(f'{root}/crates/half/src/lib.rt', CODE)
    for name in names:
        old, new, _ = EDITS[name]
        write(f'{root}/crates/half/edits/{name}.edit', f'file: src/lib.rt\nold: {old}\nnew: {new}\n')


def tried(names):
    """What edits.py says of these edits, in copies side by side, and its status."""
    with tempfile.TemporaryDirectory(prefix='humpipe-edits-test-') as root:
        lay_out(root, names)
        words = [sys.executable, f'{HERE}/edits.py', '--root', root, '--anew', '--lanes', '2']
        ran = subprocess.run(words, stdout=subprocess.PIPE, stderr=subprocess.STDOUT, text=True, check=False)
        return ran.stdout, ran.returncode


def main():
    said, status = tried(EDITS)
    wrong = []
    for name, (_, _, told) in EDITS.items():
        lines = [it for it in said.split('\n') if it.startswith(f'half/{name}: ')]
        if told is None and lines or told is not None and not (lines and told in lines[0]):
            wrong.append(f'{name}: {lines[0] if lines else "not told"}')
    if status != 1 or not said.rstrip().endswith('edits: 3 refused, 5 not'):
        wrong.append(f'status {status}: {said.rstrip()[-200:]}')
    said, status = tried([name for name, (_, _, told) in EDITS.items() if told is None])
    if status or 'in 2 checks' not in said or not said.rstrip().endswith('edits: 3 refused, 0 not'):
        wrong.append(f'refused ones alone: status {status}: {said.rstrip()[-200:]}')
    wrong += hidden()
    wrong += [f'{it}: {script.type_told(it)}' for it, name in NAMES.items() if script.type_told(it) != name]
    print(*wrong, sep='\n', end='\n' if wrong else '')
    print(f'edits_test: {len(EDITS) + len(NAMES) + 3 - len(wrong)} passed, {len(wrong)} failed')
    sys.exit(1 if wrong else 0)


if __name__ == '__main__':
    main()
