#!/usr/bin/env python3
"""copyright.py TREE: writes Debian's copyright file, in the machine-readable format, from LICENSE and NOTICE of TREE."""
import os
import re
import sys

HEAD = '''Format: https://www.debian.org/doc/packaging-manuals/copyright-format/1.0/
Upstream-Name: humpipe
Upstream-Contact: The humpipe authors <maintainers@users.noreply.podtomato.example>

Files: *
Copyright: 2026 The humpipe authors
License: Expat

Files: humpipe
Copyright:
{holders}
License: {names}
Comment:
{comment}

License: Expat
{licence}
'''


def indented(text):
    """The lines of a text as a field has them: indented, and a dot in an empty one."""
    return '\n'.join(f' {line}' if line.strip() else ' .' for line in text.strip('\n').split('\n'))


def name_of(crates, text):
    kind = 'BSD-3-clause' if 'Neither the name' in text else 'Unicode' if 'Unicode, Inc.' in text else 'Expat'
    return f'{kind}-{crates.split(",")[0].strip()}-and-others' if ',' in crates else f'{kind}-{crates.strip()}'


def main():
    tree = sys.argv[1]
    with open(os.path.join(tree, 'LICENSE'), encoding='utf-8') as file:
        licence = file.read().split('\n\n', 2)[2]
    with open(os.path.join(tree, 'NOTICE'), encoding='utf-8') as file:
        comment, *parts = re.split(r'^-{70,}\n', file.read(), flags=re.M)
    sections = [(name_of(*part.split(':\n\n', 1)), *part.split(':\n\n', 1)) for part in parts]
    holders = ['2026 The humpipe authors']
    for _, _, text in sections:
        holders += [re.sub(r'^Copyright (\([cC]\)|©) ', '', line) for line in text.split('\n') if re.match(r'Copyright (\([cC]\)|©) ', line)]
    told = comment.split('\n\n', 1)[1].replace('\n', ' ').strip()
    print(HEAD.format(holders=indented('\n'.join(dict.fromkeys(holders))), names=' and '.join(['Expat'] + [name for name, _, _ in sections]),
                      comment=indented(told), licence=indented(licence)), end='')
    for name, crates, text in sections:
        print(f'\nLicense: {name}\n{indented(text)}\nComment: {" ".join(crates.split())}')


main()
