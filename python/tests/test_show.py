"""The page on which one sees the columns: what its elements say, beside what the program gives."""
import json
import pickle
import random
import re
import shutil
import subprocess
import sys
import unittest
from html.parser import HTMLParser

import humpipe
from humpipe.following import Story
from humpipe.scores import PATHS
from humpipe.show import page

from . import SEEN
from .support import Runs, made_score, surroundings

CHROMIUM = next((found for found in map(shutil.which, ('chromium', 'chromium-browser', 'google-chrome')) if found), None)
FAULTY = '**kern\t**text\n4c\tla\n4c4e\tla\n*-\t*-\n'


class Elements(HTMLParser):
    """The panels of a page: for each its rows, each with its id, its classes, where it links to, and its cells (attributes and text)."""

    def __init__(self, text):
        super().__init__()
        self.panels, self.tags, self.links, self.callouts = {}, [], [], []
        self.row = self.cell = self.callout = None
        self.feed(text)
        self.close()

    def handle_starttag(self, tag, found):
        attributes = dict(found)
        self.tags.append((tag, attributes))
        classes = (attributes.get('class') or '').split()
        if tag == 'section' and 'panel' in classes:
            self.panel = self.panels.setdefault(int(attributes['id'][1:]), [])
        elif tag == 'tr' and 'row' in classes:
            self.row = {'id': attributes.get('id'), 'classes': classes, 'to': None, 'cells': []}
            self.panel.append(self.row)
        elif tag == 'tr':
            self.row = None
            if 'callout' in classes:
                self.callouts.append('')
                self.callout = True
        elif tag == 'a' and self.row and not self.row['cells']:
            self.row['to'] = attributes['href'][1:]
        elif tag == 'td' and self.row is not None:
            self.cell = [attributes, '']
            self.row['cells'].append(self.cell)

    def handle_endtag(self, tag):
        if tag == 'td':
            self.cell = None
        elif tag == 'tr':
            self.callout = None

    def handle_data(self, data):
        if self.cell:
            self.cell[1] += data
        if self.callout:
            self.callouts[-1] += data

    def cells(self, number):
        """The cells of each record of a panel: (spine, thread, token) in order."""
        return {row['id']: [(int(cell['data-spine']), cell['data-thread'], text) for cell, text in row['cells'] if 'data-spine' in cell]
                for row in self.panels[number] if row['id']}


class Pages(Runs):
    def test_each_cell_is_on_the_spine_that_extract_keeps(self):
        chance = random.Random(2)
        compared = 0
        for _ in range(28):
            score = made_score(chance, 40)
            plan = "out: read /dev/stdin | rid -G | ditto -s x"
            found = Elements(page(plan, self.write('a.krn', score)))
            for number, panel in enumerate(Story(plan, self.folder / 'a.krn').panels, 1):
                rows = found.cells(number)
                for field in range(1, score.split('\n')[0].count('\t') + 2):
                    try:
                        kept = humpipe.run(f'out: read a | extract -f {field}', {'a': panel.text})
                    except humpipe.Fault:
                        continue
                    wanted = [line.split('\t') for line in kept.split('\n')[:-1] if line[0] not in '!*']
                    shown = [[text for spine, _, text in cells if spine == field] for cells in rows.values()
                             if cells and cells[0][2][:1] not in '!*' and any(spine == field for spine, _, _ in cells)]
                    self.assertEqual(shown, wanted, score)
                    compared += 1
        self.assertGreater(compared, 50)

    def test_a_thread_goes_from_panel_to_panel_and_so_does_a_record(self):
        chance = random.Random(3)
        followed = 0
        for _ in range(15):
            score = made_score(chance, 40)
            width = score.split('\n')[0].count('\t') + 1
            fields = sorted(chance.sample(range(1, width + 1), chance.randint(1, width)))
            plan = (f'p: read /dev/stdin | extract -f {",".join(map(str, fields))} | yank -l -r 1-{chance.randint(5, 90)}\n'
                    f'q: read /dev/stdin | rid -GLd | yank -o "\\.[0-4]" -r 2-$-1\nout: assemble p q | rid -G')
            found = Elements(page(plan.replace('"', "'"), self.write('a.krn', score)))
            first = {text: thread for cells in found.cells(1).values() for _, thread, text in cells if text[:1].isdigit()}
            tokens = {row: {text for _, _, text in cells if text[:1].isdigit()} for number in found.panels for row, cells in found.cells(number).items()}
            for number in found.panels:
                for cells in found.cells(number).values():
                    for _, thread, text in cells:
                        if text in first:
                            self.assertEqual(thread, first[text], score)
                            followed += 1
                for row in found.panels[number]:
                    if row['to'] and tokens[row['id']]:
                        there = tokens[row['to']]
                        self.assertTrue(there <= tokens[row['id']] or number in (3, 6), (row, there))
                        self.assertTrue(there & tokens[row['id']] or not there)
        self.assertGreater(followed, 1000)

    def test_the_last_panel_is_what_the_program_writes(self):
        for name in ('chords', 'leaps', 'editions', 'notes_only', 'quarters'):
            plan = humpipe.running.Plan and self.example(name)
            with self.subTest(name):
                story = Story(plan, None)
                self.assertEqual(story.panels[-1].text, story.text)
                self.assertEqual([len(panel.rows) for panel in story.panels], [panel.text.count('\n') for panel in story.panels])

    def example(self, name):
        with open(self.examples / f'{name}.hpl', encoding='utf-8') as file:
            return file.read().replace('examples/', f'{self.examples}/')

    def setUp(self):
        super().setUp()
        from pathlib import Path
        places = [Path(__file__).resolve().parents[2] / 'examples', Path('/usr/share/doc/humpipe/examples')]
        self.examples = next((place for place in places if place.is_dir()), None)
        if self.examples is None:
            self.skipTest('no examples')

    def test_one_record_for_one(self):
        score = self.write('a.krn', '**kern\t**text\n!! x\n4c\tla\n.\t.\n8d\tlo\n*-\t*-\n')
        found = Elements(page('out: read /dev/stdin | trans -d 1 -c 2 | timebase -t 8 | extract -f 1 | mint | rid -T', score))
        self.assertEqual([row['to'] for row in found.panels[1]], [f'r2-{line}' for line in (1, 3, 4, 5, 6, 7)])
        self.assertEqual([row['to'] for row in found.panels[2]], ['r3-1', 'r3-3', 'r3-4', 'r3-5', None, 'r3-7', 'r3-8'])
        self.assertEqual([row['to'] for row in found.panels[5]], ['r6-1', None, None, 'r6-2', 'r6-3', 'r6-4', 'r6-5', 'r6-6'])

    def test_latin_1(self):
        score = self.write('a.krn', '**text\ncafé\nthé\n*-\n'.encode('latin-1'))
        text = page("out: read /dev/stdin | yank -o 't' -r 1", score, encoding='latin-1')
        self.assertIn('>café<', text)
        self.assertEqual([row['to'] for row in Elements(text).panels[1]], ['r2-1', None, 'r2-2', 'r2-3'])

    def test_colours_of_a_cleaved_spine(self):
        score = self.write('a.krn', '**kern\t**text\t**kern\n4c\tla\t4e\n*-\t*-\t*-\n')
        found = Elements(page("out: read /dev/stdin | cleave -i '**kern' -o '**chord' -d ''", score))
        self.assertEqual(found.cells(2)['r2-2'], [(1, '1+3', '4c4e'), (2, '2', 'la')])

    def test_after_rid_I_the_columns_keep_their_threads(self):
        score = self.write('a.krn', '**a\t**b\n*^\t*\n1\t2\t3\n*v\t*v\t*\n*x\t*x\n4\t5\n*-\t*-\n')
        found = Elements(page('out: read /dev/stdin | rid -I', score))
        self.assertEqual([[thread for _, thread, _ in cells] for cells in found.cells(2).values()], [['1', '1', '2'], ['2', '1']])

    def test_a_page_needs_nothing_else(self):
        text = page('out: read a', {'a': '**text\n<b>&"\x1b\n*-\n'})
        self.assertNotRegex(text, r'https?://|<link|<img|@import|url\(')
        self.assertFalse([tag for tag, found in Elements(text).tags if 'src' in found or (tag == 'a' and not found['href'].startswith('#'))])
        self.assertIn('&lt;b&gt;&amp;&quot;\u241b', text)

    def test_words_for_those_who_hear_the_page(self):
        text = page('out: read a', {'a': '**x\t**y\n*^\t*\n1\t2\t3\n*-\t*-\t*-\n'})
        self.assertIn('After this record: column 1 is spine 1, from column 1; column 2 is spine 1, from column 1; column 3 is spine 2, from column 2.', text)
        self.assertIn('aria-label="*^ splits in two"', text)

    def test_in_a_notebook(self):
        text = humpipe.run('out: read a | mint', {'a': '**kern\n4c\n*-\n'})
        self.assertTrue(text._repr_html_().startswith('<iframe '))
        self.assertIn('&lt;!DOCTYPE html&gt;', text._repr_html_())
        again = pickle.loads(pickle.dumps(text))
        self.assertEqual((type(again), again), (str, text))

    def test_a_long_answer_in_a_notebook(self):
        shown = humpipe.run('out: read a', {'a': '**kern\t**kern\n' + '4c\t<4d\n' * 5000 + '*-\t*-\n'})._repr_html_()
        self.assertIn('4c        &lt;4d', shown)
        self.assertIn('5002 lines', shown)
        self.assertLess(len(shown), 10_000)

    def test_a_score_that_is_written_to_the_command(self):
        plan = self.write('p.hpl', 'out: read /dev/stdin | mint')
        words = [sys.executable, '-m', 'humpipe', 'show', str(plan)]
        shown = subprocess.run(words, input=FAULTY.encode(), env=surroundings(), stdout=subprocess.PIPE, check=True)
        self.assertIn('stage 2 (mint), line 3: K1', shown.stdout.decode())


class Faults(Runs):
    def refused(self, plan, score):
        found = Elements(page(plan, {'a': score}))
        rows = [(number, row) for number, some in found.panels.items() for row in some if 'refused' in row['classes']]
        self.assertEqual(len(rows), 1)
        number, row = rows[0]
        bad = [text for cell, text in row['cells'] if 'bad' in (cell.get('class') or '').split()]
        return number, row['id'], bad, found.callouts

    def test_a_note(self):
        number, row, bad, told = self.refused('out: read a | rid -L | mint', FAULTY)
        self.assertEqual((number, row, bad), (2, 'r2-3', ['4c4e']))
        self.assertEqual(told, ['✕K1 stage 3 (mint) refuses this line: Two pitches in one note, or different signs.'])

    def test_a_rule_that_the_options_decide(self):
        number, row, bad, _ = self.refused('out: read a | trans -d 49 -c 84', '**kern\t**kern\n4c\tccccccc\n*-\t*-\n')
        self.assertEqual((number, row, bad), (1, 'r1-2', ['ccccccc']))

    def test_columns(self):
        self.assertEqual(self.refused('out: read a | extract -f 1', '**a\t**a\n*v\t*v\n1\n*-\n')[:3], (1, 'r1-2', ['*v', '*v']))

    def test_what_read_refuses_is_no_record(self):
        for score, bad in (('**a\n*^\n1\n*-\n', []), ('**a\t**b\n1\n*-\t*-\n', []), ('**a\t**b\n1\t\n*-\t*-\n', []), ('**a\n1\n', [])):
            number, row, _, told = self.refused('out: read a | mint', score)
            self.assertEqual((number, row), (1, None))
            self.assertEqual(len(told), 1)

    def test_a_plan(self):
        text = page('p: read a\nout: read b | semits', {'a': FAULTY})
        self.assertIn('<li class="at"><code>out: read b | <mark>semits</mark></code></li>', text)
        self.assertIn('plan line 2, word 4: N9.', text)

    def test_a_score_that_isn_t_there(self):
        self.assertIn('stage 1 (read): cannot open', page('out: read b | mint', {'a': FAULTY}))

    def test_the_command(self):
        plan = self.write('p.hpl', 'out: read /dev/stdin | mint')
        words = [sys.executable, '-m', 'humpipe', 'show', str(plan), str(self.score)]
        shown = subprocess.run(words, env=surroundings(), stdout=subprocess.PIPE, check=True).stdout.decode()
        self.assertEqual(shown, page(plan, self.score))


@unittest.skipUnless(CHROMIUM and not SEEN, 'run above' if SEEN else 'no chromium')
class Browser(Runs):
    """What a browser makes of it."""

    PROBE = '''<script>addEventListener('load', () => {
      const box = one => { const { left, right, top, bottom } = one.getBoundingClientRect(); return [left, right, top, bottom].map(Math.round); };
      const panels = [...document.querySelectorAll('.panel')].map(panel => [...panel.querySelectorAll('tr.row[id]')].map(row => ({
        id: row.id, to: row.querySelector('th a') ? row.querySelector('th a').getAttribute('href').slice(1) : null, box: box(row),
        cells: [...row.querySelectorAll('td.t')].map(cell => ({
          thread: cell.dataset.thread, colour: getComputedStyle(cell).getPropertyValue('--c'), text: cell.textContent, box: box(cell) })) })));
      const row = document.querySelector('tr.row.barline[id]');
      if (row) row.click();
      const press = key => document.activeElement.dispatchEvent(new KeyboardEvent('keydown', { key, bubbles: true }));
      const moves = [document.activeElement.id];
      for (const key of ['ArrowDown', 'ArrowRight', 'ArrowRight', 'ArrowUp', 'ArrowLeft']) { press(key); moves.push(document.activeElement.id); }
      const held = [...document.querySelectorAll('.held')].map(one => one.id);
      document.querySelector('.rail button').click();
      const folded = document.querySelectorAll('tbody.folded').length;
      const out = document.createElement('pre');
      out.id = 'probe';
      out.textContent = JSON.stringify({ panels, held, moves, folded, status: document.getElementById('status').textContent });
      document.body.append(out);
    })</script>'''

    def probe(self, plan, score):
        text = page(plan, self.write('a.krn', score)) + self.PROBE
        path = self.write('page.html', text)
        words = [CHROMIUM, '--headless', '--no-sandbox', '--disable-gpu', f'--user-data-dir={self.folder}/profile', '--window-size=1600,1200',
                 '--dump-dom', f'file://{path}']
        shown = subprocess.run(words, stdout=subprocess.PIPE, stderr=subprocess.DEVNULL, timeout=120).stdout.decode()
        found = re.search(r'<pre id="probe">(.*?)</pre>', shown, re.S)
        self.assertTrue(found, shown[-2000:])
        return json.loads(found[1].replace('&amp;', '&').replace('&lt;', '<').replace('&gt;', '>'))

    def test_rows_stand_beside_each_other_and_columns_do_not_overlap(self):
        score = '**kern\t**text\n=1\t=1\n4c\tla\n*^\t*\n4d\t4f\tlo\n*v\t*v\t*\n=2\t=2\n*x\t*x\nli\t4e\n*-\t*\n4d\n*-\n'
        plan = "p: read /dev/stdin | extract -i '**kern' | ditto\nq: read /dev/stdin | rid -T\nout: assemble p q"
        found = self.probe(plan, score)
        rows = {row['id']: row for panel in found['panels'] for row in panel}
        linked = [(row, rows[row['to']]) for row in rows.values() if row['to']]
        self.assertGreater(len(linked), 20)
        apart = {(row['id'], other['id']) for row, other in linked if row['box'][2] != other['box'][2] and row['box'][3] and other['box'][3]}
        # two records that change spines go on one after the other, so that the second one's row is another
        self.assertEqual({one for one in apart if not any(cell['text'] in PATHS for cell in rows[one[0]]['cells'])}, set())
        self.assertEqual({row for row, _ in apart if row[:2] in ('r1', 'r2', 'r3')}, set())
        colours = {}
        for row in rows.values():
            for cell, other in zip(row['cells'], row['cells'][1:]):
                self.assertLessEqual(cell['box'][1], other['box'][0] + 1)
            for cell in row['cells']:
                colours.setdefault(cell['thread'], set()).add(cell['colour'])
        self.assertEqual([len(some) for some in colours.values()], [1] * len(colours))
        self.assertEqual(len(set.union(*colours.values())), len(colours))
        self.assertGreater(len(found['held']), 3)
        self.assertEqual(found['folded'], len(found['panels']) + 1)
        self.assertEqual(found['moves'], ['r1-2', 'r1-3', 'r2-3', 'r3-3', 'r3-2', 'r2-2'])
        self.assertIn('stage 2, line 2', found['status'])
