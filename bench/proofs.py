"""What a crate's proof spends its time on: `python3 bench/proofs.py CRATE..`, behind a check of the crate from nothing with one job.

    rm -rf crates/hum_path/out/incremental; (cd crates/hum_path && rt check --jobs 1); python3 bench/proofs.py hum_path

`rt check` begins with what a check of the same text in another checkout on the machine has kept, so a check is from nothing only where there is none.

A folder stands for a crate too: while the gate tries a crate's edits, `/tmp/rt-edits-*/seed` is what such a check has left.

A check writes each module of its proof once it is checked, so the time between two files is what the later one took. Tells the
seconds in all, those of each kind of module, and the functions (or files of lemmas) that took longest, each with its kinds. `Lts`
follows a function's body with all of its exits, `Proof` and `Answers` are its goals, `Tie`, `Layout`, `Named` and `Kinds` the types
that it moves and drops.
"""

import collections
import glob
import os
import sys

LONGEST = 20
# the kinds of modules that a function has
KINDS = set('Lts Proof Answers Invariants Goals Given View Tie Layout Named Kinds Reads Mir Code Met Statement Key Symbol TheLink'.split())


def modules(crate):
    """The modules of the crate's proof, and the seconds that each took."""
    folder = crate if os.path.isdir(crate) else f'crates/{crate}/out/incremental'
    files = sorted((os.stat(it).st_mtime, it) for it in glob.glob(f'{folder}/*/*.oantt'))
    for (before, _), (after, file) in zip(files, files[1:]):
        name = os.path.basename(file).removesuffix('.oantt').removesuffix('.decls').removeprefix('Rattle-')
        yield name.split('.'), after - before


def told(kinds, most):
    return ', '.join(f'{kind} {seconds:.1f}' for kind, seconds in kinds.most_common(most) if seconds >= 0.1)


def main():
    for crate in sys.argv[1:]:
        kinds, functions = collections.Counter(), collections.defaultdict(collections.Counter)
        for path, seconds in modules(crate):
            kind = path[-1] if path[-1] in KINDS else 'definitions and lemmas'
            while len(path) > 1 and path[-1] in KINDS:
                path = path[:-1]
            kinds[kind] += seconds
            functions['.'.join(path)][kind] += seconds
        print(f'{crate}: {sum(kinds.values()):.0f} s, {len(functions)} functions and files')
        print(f'    {told(kinds, 10)}')
        longest = sorted(functions.items(), key=lambda it: -sum(it[1].values()))[:LONGEST]
        for name, its in longest:
            print(f'    {sum(its.values()):5.1f} {name}: {told(its, 5)}')


main()
