#!/usr/bin/env python3
"""version.py [--check]: writes the version of the file VERSION wherever a format asks for it. With --check it changes nothing, and
tells where another version stands; status 1 if one does.

A new version: change VERSION, give it a heading in CHANGELOG.md, and run this. CITATION.cff and the man pages take that heading's date."""
import os
import re
import sys

TOP = os.path.dirname(os.path.dirname(os.path.abspath(__file__)))

# where the version stands: a file, and what it is between
PLACES = [
    ('man/humpipe.1', r'(^\.TH HUMPIPE 1 \S+ "humpipe )([^"]*)(")'),
    ('man/humpipe-many.1', r'(^\.TH HUMPIPE-MANY 1 \S+ "humpipe )([^"]*)(")'),
    ('CITATION.cff', r'(^version: )(\S+)($)'),
    ('python/humpipe/__init__.py', r"(^__version__ = ')([^']*)(')"),
    ('editors/vscode/package.json', r'(^  "version": ")([^"]*)(")'),
    ('docs/PYTHON.md', r'(humpipe-)([0-9][0-9.]*[0-9])(-py3)'),
    ('README.md', r'(humpipe-)([0-9][0-9.]*[0-9])(-linux)'),
    ('README.md', r'(humpipe_)([0-9][0-9.]*[0-9])(_amd64)'),
]
# where the date of the release stands
DATES = [
    ('CITATION.cff', r'(^date-released: )(\S+)($)'),
    ('man/humpipe.1', r'(^\.TH HUMPIPE 1 )(\S+)( )'),
    ('man/humpipe-many.1', r'(^\.TH HUMPIPE-MANY 1 )(\S+)( )'),
]


def read(name):
    with open(os.path.join(TOP, name), encoding='utf-8') as file:
        return file.read()


def write(name, text):
    with open(os.path.join(TOP, name), 'w', encoding='utf-8') as file:
        file.write(text)


def version():
    return read('VERSION').strip()


def date():
    """The date of the version, by its heading in the change log."""
    found = re.search(rf'^## \[{re.escape(version())}\] - (\d{{4}}-\d\d-\d\d)$', read('CHANGELOG.md'), re.M)
    return found[1] if found else sys.exit(f'CHANGELOG.md has no heading for {version()}')


def stale():
    """The places that have something else, with what should stand there."""
    places = [(name, place, version()) for name, place in PLACES] + [(name, place, date()) for name, place in DATES]
    for name, place, right in places:
        found = [match[2] for match in re.finditer(place, read(name), re.M)]
        if not found or set(found) != {right}:
            yield name, place, right, found


def main():
    wrong = list(stale())
    for name, place, right, found in wrong:
        if '--check' in sys.argv or not found:
            print(f'{name}: {", ".join(found) or "nothing"} and not {right}')
        else:
            write(name, re.sub(place, rf'\g<1>{right}\g<3>', read(name), flags=re.M))
    sys.exit(1 if '--check' in sys.argv and wrong else 0)


if __name__ == '__main__':
    main()
