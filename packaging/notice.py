#!/usr/bin/env python3
"""notice.py [--check]: writes NOTICE: the crates of the Rattle kit that are linked into the program, and their licences. With --check it changes
nothing; status 1 if NOTICE has another text.

Which crates: those that crates.txt names for the program, and those that their sources name. The licences are the files beside each crate in
the kit; of MIT and Apache, MIT is taken."""
import os
import re
import subprocess

from made import write_or_check

TOP = os.path.dirname(os.path.dirname(os.path.abspath(__file__)))
NOTICE = os.path.join(TOP, 'NOTICE')
HEAD = '''humpipe
Copyright (c) 2026 the humpipe authors, under the MIT licence (LICENSE).

The program is linked from the crates of the Rattle kit below. Most are ports of Rust crates of the same name, and stand under the licence
beside them in the kit, whose text follows. Where the kit offers the MIT and the Apache licence, humpipe takes the MIT licence.

The kit's own library ({library}) is linked in as well.
It has no licence file of its own in the kit.
'''


def kit():
    """The folder of the kit's crates, which is that of the guides that `rt doc` names."""
    page = subprocess.run(['rt', 'doc'], capture_output=True, text=True, check=True).stdout.split()
    tops = {os.path.join(os.path.dirname(word), 'rattle') for word in page if os.path.isabs(word)}
    return next(top for top in sorted(tops) if os.path.isdir(top))


def named_in(folder, names):
    """Those of these crates that the sources of a crate name, its tests left out."""
    found = set()
    for place, folders, files in os.walk(os.path.join(folder, 'src')):
        folders[:] = [name for name in folders if name != 'tests']
        for name in files:
            if name.endswith('.rt'):
                with open(os.path.join(place, name), encoding='utf-8') as source:
                    text = re.sub(r'//.*', '', source.read())
                found |= set(re.findall(r'(?<![\w:.])(\w+)::', text)) & names
    return found


def named_by_program():
    """The crates that crates.txt names for the program, and those that these name."""
    with open(os.path.join(TOP, 'crates.txt'), encoding='utf-8') as file:
        lines = dict(line.rstrip('\n').partition(':')[::2] for line in file if ':' in line)
    reached, more = set(), ['humpipe']
    while more:
        crate = more.pop()
        if crate not in reached:
            reached.add(crate)
            more += lines.get(crate, '').split()
    return reached - set(lines)


def linked(top):
    """The kit's crates in the program."""
    names = {name for name in os.listdir(top) if os.path.isdir(os.path.join(top, name, 'src'))}
    reached, more = set(), list(named_by_program())
    while more:
        crate = more.pop()
        if crate not in reached:
            reached.add(crate)
            more += named_in(os.path.join(top, crate), names)
    return sorted(reached)


def licences(folder):
    """The texts of a crate's licences. Of MIT and Apache it is MIT."""
    names = sorted(name for name in os.listdir(folder) if name.startswith('LICENSE'))
    if 'LICENSE-MIT' in names:
        names = [name for name in names if name != 'LICENSE-APACHE']
    texts = []
    for name in names:
        with open(os.path.join(folder, name), encoding='utf-8') as file:
            texts.append('\n'.join(line.rstrip() for line in file.read().strip().split('\n')))
    return texts


def notice(top):
    users, library = {}, []
    for crate in linked(top):
        texts = licences(os.path.join(top, crate))
        for text in texts:
            users.setdefault(text, []).append(crate)
        if not texts:
            library.append(crate)
    parts = [HEAD.format(library=', '.join(library))]
    for text, crates in sorted(users.items(), key=lambda user: user[1]):
        parts.append('-' * 78 + '\n' + wrapped(crates) + '\n\n' + text + '\n')
    return '\n'.join(parts)


def wrapped(crates):
    lines = ['']
    for word in [crate + ',' for crate in crates[:-1]] + [crates[-1] + ':']:
        if len(lines[-1]) + len(word) > 76:
            lines.append('')
        lines[-1] += (' ' if lines[-1] else '') + word
    return '\n'.join(lines)


if __name__ == '__main__':
    write_or_check(NOTICE, notice(kit()), 'NOTICE has another text: run packaging/notice.py')
