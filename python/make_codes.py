#!/usr/bin/env python3
"""make_codes.py [--check]: writes humpipe/codes.py, what each code means by docs/CODES.md: the heading and the first sentence under it. With
--check it changes nothing; status 1 if the file has another text."""
import os
import re
import sys

HERE = os.path.dirname(os.path.abspath(__file__))
sys.path.append(os.path.join(HERE, '..', 'packaging'))

from made import write_or_check

PAGE = os.path.join(HERE, '..', 'docs', 'CODES.md')
MADE = os.path.join(HERE, 'humpipe', 'codes.py')
HEADING = re.compile(r'^### ([A-Z]+\d+): (.*)$')


def sentences(page):
    """Each code with its sentences."""
    lines = page.split('\n')
    for number, line in enumerate(lines):
        found = HEADING.match(line)
        if found:
            paragraph = ' '.join(lines[number + 2:lines.index('', number + 2)])
            first = re.match(r'.*?\.(?= |$)', paragraph)[0]
            yield found[1], f'{found[2][0].upper()}{found[2][1:]}. {first}'


def made():
    with open(PAGE, encoding='utf-8') as page:
        lines = [f'    {code!r}: {text!r},\n' for code, text in sentences(page.read())]
    return '"""What each code means. Made by make_codes.py from docs/CODES.md."""\n\nCODES = {\n' + ''.join(lines) + '}\n'


if __name__ == '__main__':
    write_or_check(MADE, made(), 'humpipe/codes.py has another text: run make_codes.py')
