#!/usr/bin/env python3
"""make_score.py MEGABYTES FILE [KIND]: writes a deterministic **kern score, with comments and barlines.

  varied  four columns that say many different tokens: pitches from C to e', accidentals, beams, slurs, ties, chords and rests.
          This is what is made where no KIND is named
  plain   four columns that say a dozen different tokens
  steady  four columns, in which each note begins where the one before it in its column ends, as timebase wants it
  twelve  varied, in 12 columns
  wide    varied, in 40 columns
  long    one column of lyrics, of 400 bytes a token
  splits  varied; every tenth record splits a spine, and the one behind it joins what was split
  crlf    varied, with CR LF at the end of each line"""
import itertools
import random
import sys

PLAIN = ['4c', '8dd#', '.', '2r', '16ee-', '4.g', '8b', '4AA', '.', '8cc', '2d', '4f#']

STEADY = [('4c', 4), ('8dd#', 2), ('2r', 8), ('16ee-', 1), ('4.g', 6), ('8b', 2), ('4AA', 4), ('8cc', 2), ('16d', 1)]

# what a token of the varied scores is put together from, what is common more often
DURATIONS = ['2', '4', '8', '16', '4.']
PITCHES = ['C', 'D', 'E', 'F', 'G', 'A', 'B', 'c', 'd', 'e', 'f', 'g', 'a', 'b', 'cc', 'dd', 'ee']
SIGNS = ['', '', '', '#', '-', 'n']
BEFORE = [''] * 11 + ['[']
BEHIND = ['', '', '', 'L', 'J', '(', ')', '_', ']']


def next_state(state):
    return (state * 1103515245 + 12345) % 2147483648


def plain_rows():
    """The tokens of the data records, for ever."""
    state = 12345
    while True:
        tokens = []
        for _ in range(4):
            state = next_state(state)
            tokens.append(PLAIN[(state >> 16) % len(PLAIN)])
        yield tokens


def steady_rows():
    """The same, where each record begins those notes whose columns are done, counted in sixteenths."""
    state = 12345
    ends = [0] * 4
    while True:
        time = min(ends)
        tokens = []
        for column in range(4):
            if ends[column] > time:
                tokens.append('.')
                continue
            state = next_state(state)
            note, lasting = STEADY[(state >> 16) % len(STEADY)]
            tokens.append(note)
            ends[column] = time + lasting
        yield tokens


def varied_token(chance):
    """A token: of a hundred 25 are null, 7 rests, and 4 chords of two notes. Of 800,000 some 6,000 are different, and the 512
    commonest are 58 of a hundred."""
    which = chance.random()
    if which < 0.25:
        return '.'
    duration = chance.choice(DURATIONS)
    if which < 0.32:
        return duration + 'r'
    if which < 0.36:
        return f'{duration}{chance.choice(PITCHES)} {duration}{chance.choice(PITCHES)}'
    return chance.choice(BEFORE) + duration + chance.choice(PITCHES) + chance.choice(SIGNS) + chance.choice(BEHIND)


def varied_rows(width):
    chance = random.Random(42)
    while True:
        yield [varied_token(chance) for _ in range(width)]


def long_rows():
    chance = random.Random(42)
    while True:
        yield [''.join(chance.choice('abcdefghij klmnop') for _ in range(398)).strip() + 'x']


def split_rows():
    """Varied rows; every tenth splits its first spine, and the one behind it joins the two."""
    for number, tokens in enumerate(varied_rows(4), 1):
        if number % 10:
            yield tokens
        else:
            yield ['*^', '*', '*', '*']
            yield [tokens[0], *tokens]
            yield ['*v', '*v', '*', '*', '*']


KINDS = {
    'varied': (4, lambda: varied_rows(4)),
    'plain': (4, plain_rows),
    'steady': (4, steady_rows),
    'twelve': (12, lambda: varied_rows(12)),
    'wide': (40, lambda: varied_rows(40)),
    'long': (1, long_rows),
    'splits': (4, split_rows),
    'crlf': (4, lambda: varied_rows(4)),
}


def lines(width, data):
    """The lines of a score up to the one that ends it, for ever. A measure is eight rows that no split is in."""
    exclusive, clef = ('**text', '*') if width == 1 else ('**kern', '*clefG2')
    yield '!!!COM: made for measuring'
    yield '\t'.join([exclusive] * width)
    yield '\t'.join([clef] * width)
    for measure in itertools.count(1):
        yield '\t'.join([f'={measure}'] * width)
        if measure % 8 == 0:
            yield f'!! measure {measure}'
        if measure % 16 == 0:
            yield '\t'.join((['!', '!up'] + ['!'] * width)[:width])
        rows = 0
        while rows < 8:
            tokens = next(data)
            yield '\t'.join(tokens)
            rows += 1
            while tokens[0] == '*^' or len(tokens) > width:
                tokens = next(data)
                yield '\t'.join(tokens)


def main():
    size, path = int(float(sys.argv[1]) * 1000000), sys.argv[2]
    kind = sys.argv[3] if sys.argv[3:] else 'varied'
    width, rows = KINDS[kind]
    ended = '\r\n' if kind == 'crlf' else '\n'
    written, is_open = 0, False
    with open(path, 'w', newline='') as out:
        for line in lines(width, rows()):
            # never within a split, so that the score can be closed
            if written >= size and not is_open:
                break
            out.write(line + ended)
            written += len(line) + len(ended)
            is_open = line.startswith('*^') or (is_open and '*v' not in line)
        out.write('\t'.join(['*-'] * width) + ended)


main()
