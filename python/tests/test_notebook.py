"""Pictures and notebooks, where matplotlib, IPython and nbclient are installed."""
import os
import unittest
from fractions import Fraction
from pathlib import Path

import humpipe
from humpipe import plot
from humpipe.notebook import magic

from .support import MINT, PACKAGE, SCORE, Runs

EXAMPLES = Path(PACKAGE).parent / 'examples'


def has(name):
    try:
        __import__(name)
        return True
    except ImportError:
        return False


class Magic(Runs):
    PLAN = 'out: read /dev/stdin | mint\n'

    def test_what_goes_where(self):
        names = {'text': SCORE, 'path': str(self.score), 'file': self.score, 'some': {'/dev/stdin': SCORE}}
        for score in ('text', 'path', 'file', 'some', f"'{self.score}'"):
            self.assertEqual(magic(f'--score {score}', self.PLAN, names), MINT)
        self.assertIsNone(magic('found --score text', self.PLAN, names))
        self.assertEqual(names['found'], MINT)
        self.assertEqual(magic('', f"out: read '{self.score}' | mint", names), MINT)

    def test_words_that_make_no_sense(self):
        for line in ('a b', '--score', '3a', '--tabel'):
            with self.assertRaisesRegex(ValueError, '%%humpipe'):
                magic(line, self.PLAN, {})

    @unittest.skipUnless(has('pandas'), 'no pandas')
    def test_a_table(self):
        self.assertEqual(magic('--table --score text', self.PLAN, {'text': SCORE})['**mint'].tolist(), ['[g]', '+M2', '+M2'])

    @unittest.skipUnless(has('IPython'), 'no IPython')
    def test_in_ipython(self):
        from IPython.core.interactiveshell import InteractiveShell
        shell = InteractiveShell()
        shell.run_line_magic('load_ext', 'humpipe')
        shell.push({'text': SCORE})
        self.assertEqual(shell.run_cell_magic('humpipe', '--score text', self.PLAN), MINT)
        shell.run_cell_magic('humpipe', 'found --score text', self.PLAN)
        self.assertEqual(shell.user_ns['found'], MINT)
        InteractiveShell.clear_instance()

    def test_a_fault_in_one_line(self):
        with self.assertRaises(humpipe.PlanFault) as raised:
            magic('', 'out: read a | semits', {})
        self.assertEqual(len(raised.exception._render_traceback_()), 1)


class Measures(Runs):
    """What the pictures count, without matplotlib."""

    def test_durations(self):
        for recip, whole in ('4', '1/4'), ('4.', '3/8'), ('8..', '7/32'), ('0', '2'), ('00', '4'), ('3%2', '2/3'), ('2.r', '3/4'):
            self.assertEqual(plot._duration(recip), Fraction(whole))

    def test_the_step_of_a_grid(self):
        for notes, step in (['4c', '8c'], '8'), (['4.c', '8c'], '8'), (['12c', '8c'], '24'), (['3%2c', '2c'], '6'), (['2.c'], '4%3'), (['c'], '4'):
            score = '**kern\n' + ''.join(note + '\n' for note in notes) + '*-\n'
            self.assertEqual(plot._grid_step(score), step, notes)

    def test_intervals_in_order(self):
        tokens = ['+M2', 'P1', '-P8', '+m2', '-m2', '+A4', '-M2']
        self.assertEqual(sorted(tokens, key=plot._size), ['-P8', '-M2', '-m2', 'P1', '+m2', '+M2', '+A4'])


@unittest.skipUnless(has('matplotlib'), 'no matplotlib')
class Pictures(Runs):
    SCORE = '**kern\t**kern\n=1\t=1\n4C\t8c\n.\t8e\n*\t*^\n2D\t4f\t4a\n.\t4r\t4g\n*\t*v\t*v\n=2\t=2\n1E\t1cc 1ee\n*-\t*-\n'

    def setUp(self):
        super().setUp()
        import matplotlib
        matplotlib.use('Agg')

    def test_intervals(self):
        axes = plot.intervals(self.SCORE, 2)
        self.assertEqual([bar.get_height() for bar in axes.patches], [1, 1, 1, 1, 1])
        self.assertEqual([label.get_text() for label in axes.get_xticklabels()], ['-M2', '+m2', '+M3', '+P4', '+P5'])

    def test_rhythms(self):
        axes = plot.rhythms(self.write('a.krn', self.SCORE), 1)
        self.assertEqual([label.get_text() for label in axes.get_xticklabels()], ['1', '2', '4'])

    def test_contour(self):
        axes = plot.contour(self.SCORE)
        low, high = (line.get_ydata().tolist() for line in axes.lines)
        self.assertEqual(low[:6], [-12, -12, -10, -10, -10, -10])
        self.assertEqual(high[:6], [0, 4, 9, 9, 7, 7])
        self.assertEqual(high[-1], 16)
        self.assertEqual([label.get_text() for label in axes.get_xticklabels()], ['1', '2'])

    def test_a_column_that_ends_sounds_no_more(self):
        axes = plot.contour('**kern\n*^\n4c\t2cc\n4d\t.\n*v\t*v\n2e\n4r\n4c\n*-\n')
        notes = axes.lines[0].get_ydata().tolist()
        self.assertEqual(notes[:4] + notes[5:], [12, 12, 4, 4, 0, 0])
        self.assertNotEqual(notes[4], notes[4])

    def test_reach(self):
        axes = plot.reach(self.SCORE)
        self.assertEqual([(round(bar.get_y() + 0.3), round(bar.get_height() - 0.6)) for bar in axes.patches], [(-12, 2), (-8, 0), (0, 9), (12, 4)])

    def test_any_score_of_the_examples(self):
        if not EXAMPLES.is_dir():
            self.skipTest('no examples')
        from matplotlib import pyplot
        for score in sorted(EXAMPLES.glob('*.krn')):
            for draw in (plot.intervals, plot.rhythms, plot.contour, plot.reach):
                draw(score).figure.savefig(self.folder / 'out.svg')
                pyplot.close('all')


@unittest.skipUnless(has('nbclient') and has('ipykernel') and has('pandas') and has('matplotlib'), 'no nbclient, ipykernel, pandas and matplotlib')
class Notebook(Runs):
    def test_the_example_runs(self):
        import nbformat
        from nbclient import NotebookClient
        if not EXAMPLES.is_dir():
            self.skipTest('no examples')
        book = nbformat.read(EXAMPLES / 'analysis.ipynb', 4)
        os.environ['PYTHONPATH'] = PACKAGE
        self.addCleanup(os.environ.pop, 'PYTHONPATH')
        NotebookClient(book, timeout=120, kernel_name='python3', resources={'metadata': {'path': str(EXAMPLES)}}).execute()
        kinds = [kind for cell in book.cells if cell.cell_type == 'code' for output in cell.outputs if 'data' in output for kind in output.data]
        self.assertIn('image/png', kinds)
        self.assertIn('text/html', kinds)
