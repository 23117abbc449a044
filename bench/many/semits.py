#!/usr/bin/env python3
"""semits.py SCORE..: semits as a plain reader in Python: the columns as they stand, all of them under **kern; no spine is followed and nothing is refused."""
import re
import sys

PITCH = re.compile(r'(([a-gA-G])\2*)(#*)(-*)')
NATURAL = {'c': 0, 'd': 2, 'e': 4, 'f': 5, 'g': 7, 'a': 9, 'b': 11}


def number(note):
    """The semitones of a note from middle c; `r` of a rest, and none of what is neither."""
    if 'r' in note:
        return 'r'
    found = PITCH.search(note)
    if not found:
        return None
    letters, letter = found[1], found[2]
    octave = len(letters) - 1 if letter.islower() else -len(letters)
    return str(NATURAL[letter.lower()] + 12 * octave + len(found[3]) - len(found[4]))


def token(text):
    if text == '.' or text.startswith('='):
        return text
    return ' '.join(filter(None, map(number, text.split(' ')))) or '.'


def line(text):
    if text.startswith('!'):
        return text
    if text.startswith('*'):
        return text.replace('**kern', '**semits')
    return '\t'.join(map(token, text.split('\t')))


def main():
    for path in sys.argv[1:]:
        with open(path, encoding='utf-8') as score:
            sys.stdout.write(''.join(line(text) + '\n' for text in score.read().splitlines()))


if __name__ == '__main__':
    main()
