#!/usr/bin/env python3
"""make_corpus.py COUNT FOLDER [BARS]: writes so many scores of BARS bars, 8 if nothing is said, 100 in a folder, always the same. In each hundred two
are broken: one lacks a token, in one a chord has no blank between its notes."""
import os
import random
import sys

NOTES = ['4c', '8dd#', '2r', '16ee-', '4.g', '8b', '4AA', '8cc', '2d', '4f#']


def score(number, bars, chance):
    yield f'!!!OTL: number {number}'
    yield '**kern\t**kern'
    yield '*clefF4\t*clefG2'
    for bar in range(1, bars + 1):
        yield f'={bar}\t={bar}'
        for _ in range(6):
            left, right = chance.choice(NOTES), chance.choice(NOTES)
            if number % 100 == 17 and bar == 5:
                right = '4cc4ee'
            yield left if number % 100 == 42 and bar == 7 else f'{left}\t{right}'
    yield '==\t=='
    yield '*-\t*-'


def main():
    chance = random.Random(1)
    bars = int(sys.argv[3]) if len(sys.argv) > 3 else 8
    for number in range(int(sys.argv[1])):
        folder = os.path.join(sys.argv[2], f'{number // 100:03}')
        os.makedirs(folder, exist_ok=True)
        with open(os.path.join(folder, f'{number:05}.krn'), 'w', newline='\n') as out:
            out.write(''.join(line + '\n' for line in score(number, bars, chance)))


main()
