"""Frames and tables."""
import contextlib
import random
import sys
import unittest
import unittest.mock
import warnings

import humpipe
from humpipe import frame, tables

from .support import SCORE, Runs, made_score

try:
    import pandas
except ImportError:
    pandas = None


@contextlib.contextmanager
def without_pandas():
    kept = {name: sys.modules.pop(name) for name in list(sys.modules) if name.split('.')[0] == 'pandas'}
    sys.modules['pandas'] = None
    tables._frame_class.cache_clear()
    try:
        yield
    finally:
        del sys.modules['pandas']
        sys.modules.update(kept)
        tables._frame_class.cache_clear()


class Grids(unittest.TestCase):
    """What frames are made of, without pandas."""

    def test_an_added_spine_stands_under_its_own_name(self):
        text = '**a\t**b\n1\t2\n*+\t*\n*\t**c\t*\n3\t4\t5\n*-\t*\t*\n6\t7\n*-\t*-\n'
        self.assertEqual(tables.grid(text).columns, {'**a': ['1', '3', None], '**c': [None, '4', '6'], '**b': ['2', '5', '7']})

    def test_an_added_spine_of_the_same_kind_is_numbered_behind(self):
        text = '**a\t**a\n*+\t*\n*\t**a\t*\n1\t2\t3\n*-\t*-\t*-\n'
        self.assertEqual(tables.grid(text).columns, {'**a 1': ['1'], '**a 3': ['2'], '**a 2': ['3']})

    def test_a_note_beside_a_barline_is_no_barline(self):
        text = '**kern\t**kern\n4c\t=2\n=3\t.\n4d\t4e\n=\t=4\n4f\t4g\n*-\t*-\n'
        found = tables.grid(text)
        self.assertEqual((found.lines, found.bars), ([2, 4, 6], [0, 3, 4]))
        self.assertEqual(found.columns['**kern 2'], ['=2', '4e', '4g'])
        self.assertEqual([record.is_barline for record in humpipe.records(text)][1:3], [False, True])

    def test_a_number_inside_a_token_is_no_bar(self):
        self.assertEqual(tables.grid('**a\n=x=4\n1\n=7a\n2\n*-\n').bars, [0, 7])

    def test_widths_are_checked(self):
        for text in ('**a\t**b\n1\t2\t3\n*-\t*-\n', '**a\t**b\n1\n2\t3\t4\n*-\t*-\n', '**a\t**b\n*\n'):
            with self.assertRaisesRegex(ValueError, 'line 2 has'):
                tables.grid(text)

    def test_line_ends(self):
        self.assertEqual(tables.grid('**a\r\n1\r\n*-').columns, {'**a': ['1']})
        self.assertEqual(tables.grid('4c\t4e\n4d\n').columns, {'1': ['4c', '4d'], '2': ['4e', None]})

    def test_an_exchange(self):
        self.assertEqual(tables.grid('**a\t**b\n1\t2\n*x\t*x\n3\t4\n*-\t*-\n').columns, {'**a': ['1', '4'], '**b': ['2', '3']})


class Tables(Runs):
    def setUp(self):
        super().setUp()
        self.paths = [self.write('a.krn', '!!!COM: Clara\n**kern\n=1\n4c\n=2\n4d\n*-\n!!!OTL@@DE: Lied\n'),
                      self.write('b.krn', '**kern\t**kern\n=5\t=5\n4c\t4e\n*-\t*-\n!!!COM: A\n!!!COM: B\n'), self.write('c.krn', '**kern\n4c4e\n*-\n')]
        self.rows = [{'file': str(self.paths[0]), 'COM': 'Clara', 'OTL': 'Lied', 'bar': 1, 'line': 3, '**semits': '0', '**semits 1': None, '**semits 2': None},
                     {'file': str(self.paths[0]), 'COM': 'Clara', 'OTL': 'Lied', 'bar': 2, 'line': 5, '**semits': '2', '**semits 1': None, '**semits 2': None},
                     {'file': str(self.paths[1]), 'COM': 'A; B', 'OTL': None, 'bar': 5, 'line': 3, '**semits': None, '**semits 1': '0', '**semits 2': '4'}]

    def table(self):
        with warnings.catch_warnings(record=True) as told:
            warnings.simplefilter('always')
            found = humpipe.table('out: read /dev/stdin | semits -x | rid -G', self.paths, reference=['COM', 'OTL'])
        self.assertEqual([str(warning.message) for warning in told], ['1 of 3 scores were refused and have no rows: they are in faults'])
        self.assertEqual([(outcome.path, outcome.fault.rule) for outcome in found.faults], [(str(self.paths[2]), 'K1')])
        return found

    def test_without_pandas(self):
        with without_pandas():
            found = self.table()
        self.assertIsInstance(found, humpipe.Table)
        self.assertEqual(found.to_dicts(), self.rows)
        self.assertEqual((len(found), found.columns), (3, list(self.rows[0])))

    @unittest.skipUnless(pandas, 'no pandas')
    def test_with_pandas(self):
        found = self.table()
        self.assertIsInstance(found, pandas.DataFrame)
        self.assertEqual(list(found.columns), list(self.rows[0]))
        self.assertEqual(found.to_dicts(), self.rows)
        self.assertEqual(found[found.bar == 5].file.tolist(), [str(self.paths[1])])

    def test_no_scores(self):
        with without_pandas():
            self.assertEqual(humpipe.table('out: read /dev/stdin', []).to_dicts(), [])


@unittest.skipUnless(pandas, 'no pandas')
class Frames(Runs):
    def test_files_and_bytes(self):
        for source in (SCORE, SCORE.encode(), self.score):
            self.assertEqual(frame(source)['**kern'].tolist(), ['4g', '8a', '8b'])

    def test_it_is_written_in_latin_1(self):
        path = self.write('latin.krn', '**text\ncafé\n*-\n'.encode('latin-1'))
        frame(path, encoding='latin-1').to_csv(self.folder / 'out.csv')
        self.assertIn('café', (self.folder / 'out.csv').read_text(encoding='utf-8'))


TOKENS = ['.', '4c', '8dd#', '1', '1.0', '-0', '1e5', 'NA', 'nan', 'null', 'None', '', ' ', '"', '"4c', "'", 'a"b"', '4c 4e', '#', '\\', '..', 'é', '=', '=3',
          '*', '!', 'true', '\udce9', 'a\rb', ',', 'x' * 300]
BARS = ['=1', '=2', '=2', '==', '=', '=10-', '==11', '=12a', '=:|!', '=x=4', '=007', '=99999999999999999']


def plain_frame(text):
    """The frame as lists of tokens give it."""
    from humpipe import frames

    with unittest.mock.patch.object(frames, '_read', side_effect=ValueError):
        return frame(text)


def varied(chance, text):
    """A score with other tokens, with barlines, and now and then with another odd thing."""
    lines = []
    for line in text.splitlines():
        width = line.count('\t') + 1
        if line[0] in '!*':
            lines.append(line)
            continue
        lines.append('\t'.join('.' if chance.random() < 0.2 else chance.choice(TOKENS) for _ in range(width)))
        if chance.random() < 0.3:
            bar = chance.choice(BARS)
            lines.append('\t'.join(chance.choice([bar, bar, bar, '.', '=']) for _ in range(width)))
        if chance.random() < 0.1:
            lines.append('\t'.join(['*k[]'] * width))
    return ''.join(line + chance.choice(['\n'] * 9 + ['\r\n']) for line in lines)


def broken(chance, text):
    """A text in which something isn't as it should be."""
    lines = text.split('\n')
    place = chance.randrange(len(lines))
    return chance.choice([
        lambda: '\n'.join(lines[:place] + [chance.choice(['', '\t', '4c', '4c\t4d\t4e', '=1\t=1', '*', '**x\t**y', '*-', '\r', '\ufeff4c'])] + lines[place:]),
        lambda: '\n'.join(lines[:place] + lines[place + 1:]),
        lambda: '\n'.join(line for line in lines if line[:1] != '*'),
        lambda: text[:chance.randrange(len(text) + 1)],
        lambda: text + text,
        lambda: '\ufeff' + text,
        lambda: '4c\t4d\n' * place + '\n',
        lambda: '\ufeff4c\t\ufeff\n' + '4d\t4c\n' * place,
        lambda: text.replace('=1', '=123456789012345678'),
        lambda: text.replace('=10', '=' + '9' * 30)])()


@unittest.skipUnless(pandas, 'no pandas')
class FrameByTheReader(unittest.TestCase):
    """pandas' reader of tables gives the frames that lists of tokens give."""

    def outcome(self, make, text):
        try:
            found = make(text)
        except (ValueError, OverflowError) as error:
            return type(error), str(error)
        index = found.index
        return (found.columns.tolist(), found.to_numpy().tolist(), [level.tolist() for level in index.levels], [list(codes) for codes in index.codes],
                index.names, [str(dtype) for dtype in [*found.dtypes, *index.dtypes]])

    def check(self, text):
        self.assertEqual(self.outcome(frame, text), self.outcome(plain_frame, text), text)

    def test_texts_made_by_chance(self):
        from humpipe import frames

        for seed in range(120):
            chance = random.Random(seed)
            text = varied(chance, made_score(chance, chance.randrange(1, 60)))
            # by the reader however few and long they are, as well
            few, long = chance.choice([(0, 1000), (frames.FEW, frames.LONG)])
            with self.subTest(seed=seed), unittest.mock.patch.multiple(frames, FEW=few, LONG=long):
                self.check(text)
                frames._read(text)
                for _ in range(3):
                    self.check(broken(chance, text))

    def test_long_texts(self):
        for seed in range(3):
            chance = random.Random(seed)
            text = varied(chance, made_score(chance, 60)) * 20
            self.check(text)
            self.check(text[:-1])

    def test_many_records(self):
        record = '4c\t"\tNA\t.\n'
        for count in (62, 63, 64, 65, 5000):
            self.check('**a\t**a\t**b\t**c\n' + record * count + '*^\t*\t*\t*\n' + ('1\t' + record) * count + '*-\t*-\t*-\t*-\t*-\n')
            self.check(record * count + '4c\t4d\n' * count)
        for token in [*TOKENS, '\0', '4\0c', '\ufeff', '\ufeff4c']:
            self.check('**a\t**b\n' + f'{token}\t4c\n4d\t{token}\n' * 100 + '*-\t*-\n')
            self.check('**a\n' + f'{token}\n' * 200 + '*-\n')

    def test_small_texts(self):
        for text in ('', '\n', '\r', '\r\n', '**a', '**a\n*-\n', '**a\n.\n*-\n', '=1\n', '!!x\n', '**a\n\n\n*-\n', '**a\n\n\n4c\n*-', '4c\t4e\n4d\n', '4c\n\r',
                     '*\t*\n1\t2\n', '**a\n*-\n**b\t**c\n1\t2\n*-\t*-\n', '**a\n*-\n4c\t4d\n'):
            self.check(text)
