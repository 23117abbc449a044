#!/usr/bin/env python3
"""proved.py: looks up that each contract and each edit that docs/dev/PROVED.md names is there.

A contract is named as `crate`: `function`, .. (`clause`, ..): a function, type or module of the crate's src/, and clauses or fields that its src/ or specs/
name. An edit is named as `crate/name`, and behind one by its name alone. The last line is `N passed, M failed`."""
import glob
import os
import re
import sys

TOP = os.path.dirname(os.path.dirname(os.path.abspath(__file__)))
NAMED = re.compile(r'`(hum_\w+|humpipe)`: ((?:`[^`]+`(?!:)(?:, | and | \((?:[^()]|\([^()]*\))*\),? ?)?)+)')
WORDS = re.compile(r'`([A-Za-z_]\w*(?:::\w+)*)`')


def texts(crate, *parts):
    files = [it for part in parts for it in glob.glob(f'{TOP}/crates/{crate}/{part}/**/*', recursive=True) if it.endswith(('.rt', '.antt'))]
    return '\n'.join(open(it, encoding='utf-8').read() for it in files)


def contracts(page):
    """Each contract that is named: its crate, a function's or a type's name, and whether it is a clause."""
    for crate, list_of in NAMED.findall(page):
        for outside in re.sub(r'\([^()]*\)', '', list_of).split(','):
            yield from ((crate, name, False) for name in WORDS.findall(outside))
        for inside in re.findall(r'\(([^()]*)\)', list_of):
            yield from ((crate, name, True) for name in WORDS.findall(inside))


def edits(page):
    for row in re.findall(r'^\|.*\|$', page, re.M):
        # (in the table of laws the crate is said above)
        cell, crate = row.split('|')[-2], 'hum_laws'
        for name in [] if 'hum_tests' in cell else re.findall(r'`([a-z_]+(?:/\w+)?)`', cell):
            crate, name = name.split('/') if '/' in name else (crate, name)
            yield crate, name


def is_there(crate, name, is_clause, cache={}):
    if crate not in cache:
        cache[crate] = texts(crate, 'src'), texts(crate, 'src', 'specs')
    last = name.split('::')[-1]
    if is_clause:
        return bool(re.search(rf'\b{last}\b', cache[crate][1]))
    # (a command's stage is another name of a stage of hum_stage or hum_cells, whose functions are its own)
    named = [last, *([] if '::' not in name else [name.split('::')[0]])]
    is_alias = len(named) > 1 and re.search(rf'\btype {named[1]}\b', cache[crate][0])
    return bool(is_alias or re.search(rf'\b(?:fn|struct|enum|trait|type|mod|for|impl fmt::) *{last}\b|pub use [\w:{{, ]*\b{last}\b', cache[crate][0]))


def main():
    page = open(f'{TOP}/docs/dev/PROVED.md', encoding='utf-8').read()
    named = [(f'`{crate}`: `{name}`', is_there(crate, name, is_clause)) for crate, name, is_clause in contracts(page)]
    named += [(f'the edit {crate}/{name}', bool(glob.glob(f'{TOP}/crates/{crate}/*/{name}.edit'))) for crate, name in edits(page)]
    lost = [what for what, there in named if not there]
    print(*(f'PROVED.md names {it}, which is not there' for it in lost), sep='\n', end='\n' if lost else '')
    print(f'{len(named) - len(lost)} passed, {len(lost)} failed')
    sys.exit(1 if lost or not named else 0)


if __name__ == '__main__':
    main()
