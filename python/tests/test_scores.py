"""Records, spines and frames."""
import unittest

from humpipe import frame, records


def spines(text):
    return [record.spines for record in records(text)]


class Records(unittest.TestCase):
    def test_kinds_tokens_lines_and_names(self):
        found = list(records('!!x\n**kern\t**text\n*\t*\n!\t!a\n=1\t=1\n4c\t.\n*-\t*-\n'))
        self.assertEqual([record.kind for record in found], ['global comment', 'interpretation', 'interpretation', 'local comment',
                                                            'data', 'data', 'interpretation'])
        self.assertEqual([record.is_barline for record in found], [False] * 4 + [True, False, False])
        self.assertEqual(found[0].tokens, ('!!x',))
        self.assertEqual(found[5], (6, 'data', ('4c', '.'), (1, 2), ('**kern', '**text')))

    def test_a_split_and_a_join(self):
        text = '**a\t**b\n*^\t*\n1\t2\t3\n*v\t*v\t*\n1\t2\n*-\t*-\n'
        self.assertEqual(spines(text), [(1, 2), (1, 2), (1, 1, 2), (1, 1, 2), (1, 2), (1, 2)])

    def test_a_join_of_two_spines_is_the_leftmost(self):
        text = '**a\t**a\t**a\n*v\t*v\t*v\n1\n*-\n'
        self.assertEqual(spines(text), [(1, 2, 3), (1, 2, 3), (1,), (1,)])

    def test_two_joins_with_a_column_between(self):
        text = '**a\t**b\t**c\n*^\t*\t*^\n*v\t*v\t*\t*v\t*v\n1\t2\t3\n*-\t*-\t*-\n'
        self.assertEqual(spines(text)[3], (1, 2, 3))

    def test_an_exchange(self):
        text = '**a\t**b\t**c\n*x\t*\t*x\n1\t2\t3\n*-\t*-\t*-\n'
        self.assertEqual(spines(text)[2], (3, 2, 1))
        self.assertEqual(list(records(text))[2].names, ('**c', '**b', '**a'))

    def test_an_added_spine_and_one_that_ends(self):
        text = '**a\t**b\n*+\t*\n*\t**c\t*\n1\t2\t3\n*-\t*\t*\n2\t3\n*-\t*-\n'
        self.assertEqual(spines(text)[3], (1, 1, 2))
        self.assertEqual(list(records(text))[3].names, ('**a', '**c', '**b'))
        self.assertEqual(list(records(text))[5].spines, (1, 2))

    def test_a_new_exclusive_interpretation(self):
        self.assertEqual([record.names for record in records('**a\n1\n**b\n2\n*-\n')], [('**a',), ('**a',), ('**b',), ('**b',), ('**b',)])

    def test_what_is_no_score(self):
        self.assertEqual(spines('4c\t4e\n4d\n'), [(1, 2), (1,)])
        self.assertEqual(list(records('')), [])

    def test_line_ends(self):
        self.assertEqual([record.tokens for record in records('**a\r\nx\x0by\u2028z\r\n*-')], [('**a',), ('x\x0by\u2028z',), ('*-',)])

    def test_two_scores_in_one_text(self):
        self.assertEqual(spines('**a\t**b\n*-\t*-\n**c\n1\n*-\n')[2:], [(1,), (1,), (1,)])

    def test_a_score_that_breaks_a_rule(self):
        with self.assertRaisesRegex(ValueError, 'line 2 has 1 tokens, and there are 2 spines'):
            list(records('**a\t**b\n1\n'))


class Frames(unittest.TestCase):
    def setUp(self):
        try:
            import pandas  # noqa: F401
        except ImportError:
            self.skipTest('no pandas')

    def test_columns_rows_and_null_tokens(self):
        found = frame('**kern\t**text\t**kern\n8g\t.\t.\n=1\t=1\t=1\n4c\tla\t.\n=\t=\t=\n=2a\t=2a\t=2a\n.\t.\t4e\n*-\t*-\t*-\n')
        self.assertEqual(list(found.columns), ['**kern 1', '**text', '**kern 2'])
        self.assertEqual(list(found.index), [(0, 2), (1, 4), (2, 7)])
        self.assertEqual(found.index.names, ['bar', 'line'])
        self.assertEqual(found['**kern 1'].tolist(), ['8g', '4c', None])
        self.assertEqual(found['**kern 2'].dropna().tolist(), ['4e'])

    def test_a_split_spine_has_a_second_column(self):
        found = frame('**kern\t**kern\n4c\t4d\n*\t*^\n4e\t4f\t4g\n*\t*v\t*v\n*-\t*-\n')
        self.assertEqual(list(found.columns), ['**kern 1', '**kern 2', '**kern 2/2'])
        self.assertEqual(found['**kern 2/2'].tolist(), [None, '4g'])

    def test_no_data(self):
        self.assertEqual(frame('**a\n*-\n').shape, (0, 1))
        self.assertEqual(frame('').shape, (0, 0))

    def test_what_is_no_score(self):
        self.assertEqual(list(frame('4c\t4e\n4d\n').columns), ['1', '2'])
