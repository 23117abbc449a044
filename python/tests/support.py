"""What several tests use: a folder of their own, and scores made by chance."""
import os
import random
import shutil
import tempfile
import unittest
from pathlib import Path

PROGRAM = os.environ.get('HUMPIPE', 'humpipe')
PACKAGE = os.path.dirname(os.path.dirname(os.path.abspath(__file__)))
SCORE = '**kern\n4g\n8a\n8b\n*-\n'
MINT = '**mint\n[g]\n+M2\n+M2\n*-\n'
FROM_STDIN = 'out: read /dev/stdin | mint'


@unittest.skipUnless(shutil.which(PROGRAM), f'no program {PROGRAM}')
class Runs(unittest.TestCase):
    """Tests that run the program, each in a fresh folder with one score."""

    def setUp(self):
        room = tempfile.TemporaryDirectory()
        self.addCleanup(room.cleanup)
        self.folder = Path(room.name)
        self.score = self.write('tune.krn', SCORE)

    def write(self, name, text):
        path = self.folder / name
        path.parent.mkdir(parents=True, exist_ok=True)
        path.write_bytes(text if isinstance(text, bytes) else text.encode())
        return path


def surroundings(**more):
    """The environment of a Python that has this package."""
    return {**os.environ, 'PYTHONPATH': PACKAGE, 'PYTHONDONTWRITEBYTECODE': '1', 'HUMPIPE': str(shutil.which(PROGRAM)), **more}


def made_score(chance: random.Random, records: int = 60) -> str:
    """A lawful score whose spines split, join, change places, are added and end, by chance. Each data token is another."""
    names = [f'**{chance.choice("abc")}' for _ in range(chance.randint(1, 4))]
    columns = [(field, name) for field, name in enumerate(names, 1)]
    lines = ['\t'.join(names)]
    for number in range(records):
        step = chance.choice(['*^', '*v', '*x', '*+', '*-', 'data', 'data', 'data', 'comment', '*'])
        tokens, after = ['*'] * len(columns), list(columns)
        place = chance.randrange(len(columns))
        if step == '*^' and len(columns) < 12:
            tokens[place] = '*^'
            after.insert(place, columns[place])
        elif step == '*v' and place + 1 < len(columns) and columns[place] == columns[place + 1]:
            tokens[place] = tokens[place + 1] = '*v'
            del after[place]
        elif step == '*x' and len(columns) > 1:
            other = chance.choice([k for k in range(len(columns)) if k != place])
            tokens[place] = tokens[other] = '*x'
            after[place], after[other] = after[other], after[place]
        elif step == '*+' and len(columns) < 12:
            tokens[place] = '*+'
            after.insert(place + 1, (columns[place][0], '**new'))
            lines += ['\t'.join(tokens), '\t'.join('**new' if k == place + 1 else '*' for k in range(len(after)))]
            columns = after
            continue
        elif step == '*-' and len(columns) > 1:
            tokens[place] = '*-'
            del after[place]
        elif step == 'comment':
            lines.append(chance.choice(['!! a comment', '\t'.join(['!x'] * len(columns))]))
            continue
        elif step == 'data':
            tokens = [f'{number}.{k}' if chance.random() < 0.8 else '.' for k in range(len(columns))]
        lines.append('\t'.join(tokens))
        columns = after
    lines.append('\t'.join(['*-'] * len(columns)))
    return ''.join(line + '\n' for line in lines)
