"""Folders of scores: each once in the table, whole results, and a run that goes on."""
import json
import os
import random
import shutil
import signal
import subprocess
import sys
import time
import unittest
from collections import Counter
from concurrent.futures import ProcessPoolExecutor
from pathlib import Path

import humpipe
from humpipe.folders import shown

from . import SEEN
from .support import FROM_STDIN, MINT, SCORE, Runs, surroundings

BROKEN = '**kern\n4c4e\n*-\n'


def rows(results):
    """The table: for each name the other cells."""
    lines = (Path(results) / 'faults.tsv').read_text().split('\n')
    assert lines[0] == 'score\tstatus\tstage\tline\trule\tmeaning' and lines[-1] == ''
    names = [line.split('\t')[0] for line in lines[1:-1]]
    assert names == sorted(set(names)) or len(names) == len(set(names)), names
    return {line.split('\t')[0]: line.split('\t')[1:] for line in lines[1:-1]}


def results_below(folder):
    return sorted(str(path.relative_to(folder)) for path in Path(folder).rglob('*') if path.is_file() and '.humpipe' not in path.parts
                  and path.name != 'faults.tsv')


class Corpora(Runs):
    def setUp(self):
        super().setUp()
        self.plan = self.write('mint.hpl', FROM_STDIN)
        self.scores = self.folder / 'scores'
        self.into = self.folder / 'results'
        for name, text in ('1/a.krn', SCORE), ('1/b.krn', BROKEN), ('2/c.KRN', SCORE), ('2/d.krn', '**kern\n4c\n'):
            self.write(f'scores/{name}', text)

    def command(self, *words, **more):
        return [sys.executable, '-m', 'humpipe', 'corpus', *map(str, words)]

    def ends(self, *words, env=None):
        """The status of the command, and what it writes and tells."""
        ended = subprocess.run(self.command(*words), env=env or surroundings(), stdout=subprocess.PIPE, stderr=subprocess.PIPE, text=True, timeout=120)
        return ended.returncode, ended.stdout, ended.stderr


class Table(Corpora):
    def test_each_score_once_and_whole_results(self):
        self.assertEqual(self.ends(self.plan, self.scores, '--into', self.into), (1, '4 scores, 2 refused\n', ''))
        self.assertEqual(rows(self.into), {
            '1/a.krn': ['0', '-', '-', '-', '-'], '1/b.krn': ['1', '2 (mint)', '2', 'K1', 'Two pitches in one note, or different signs'],
            '2/c.KRN': ['0', '-', '-', '-', '-'], '2/d.krn': ['1', '1 (read)', '3', 'P8', 'The end of the input while a spine is open']})
        self.assertEqual(results_below(self.into), ['1/a.krn', '2/c.KRN'])
        self.assertEqual((self.into / '1/a.krn').read_text(), MINT)

    def test_what_isn_t_wanted_is_not_run(self):
        for words, told in (
                ((self.plan, self.scores, '--into', self.scores), 'lie in each other'),
                ((self.plan, self.scores, '--into', self.scores / 'new'), 'lie in each other'),
                ((self.plan, self.scores / '1', '--into', self.folder), 'lie in each other'),
                ((self.plan, self.scores, '--into', self.folder), 'lie in each other'),
                ((self.plan, self.folder / 'gone', '--into', self.into), 'No such file'),
                ((self.folder / 'gone', self.scores, '--into', self.into), 'No such file'),
                ((self.plan, self.scores / '1', self.scores, '--into', self.into, '--name', 'nothing'), 'no scores'),
                ((self.plan, self.scores / '1/a.krn', self.scores / '1', '--into', self.into), 'one result')):
            status, written, error = self.ends(*words)
            self.assertEqual((status, written), (2, ''), words)
            self.assertIn(told, error)
        self.assertFalse(self.into.exists())
        self.assertEqual((self.scores / '1/a.krn').read_text(), SCORE)
        self.assertEqual(len(results_below(self.scores)), 4)

    def test_a_plan_s_mistake(self):
        self.plan.write_text('out: read /dev/stdin | semits')
        status, _, error = self.ends(self.plan, self.scores, '--into', self.into)
        self.assertEqual((status, error.startswith('humpipe: plan line 1, word 4: N9')), (2, True), error)
        self.plan.write_text(f"out: read '{self.score}'")
        self.assertEqual(self.ends(self.plan, self.scores, '--into', self.into)[0], 2)
        self.assertFalse(self.into.exists())

    def test_a_folder_with_files_of_its_own(self):
        self.write('results/1/a.krn', 'mine')
        self.assertEqual(self.ends(self.plan, self.scores, '--into', self.into)[0], 2)
        self.assertEqual((self.into / '1/a.krn').read_text(), 'mine')

    def test_links_are_followed_and_none_leads_over_a_score(self):
        os.symlink(self.scores, self.folder / 'link')
        os.symlink('../2', self.scores / '1' / 'more')
        os.symlink('..', self.scores / '1' / 'up')
        self.assertEqual(self.ends(self.plan, self.folder / 'link', '--into', self.into)[:2], (1, '6 scores, 3 refused\n'))
        self.assertIn('1/more/c.KRN', rows(self.into))
        status, _, error = self.ends(self.plan, self.scores, '--into', self.folder / 'link' / 'new')
        self.assertEqual((status, 'lie in each other' in error), (2, True))
        os.symlink(self.into, self.scores / 'results')
        self.assertIn('lie in each other', self.ends(self.plan, self.scores, '--into', self.into)[2])

    def test_a_link_among_the_results_leads_over_no_score(self):
        self.into.mkdir()
        (self.into / '.humpipe').mkdir()
        os.symlink(self.scores / '1', self.into / '1')
        os.symlink(self.scores / '2/c.KRN', self.write('results/2/x', '').parent / 'c.KRN')
        status, _, error = self.ends(self.plan, self.scores, '--into', self.into)
        self.assertEqual(status, 2)
        self.assertIn('1/a.krn', error)
        self.assertEqual([(self.scores / name).read_text() for name in ('1/a.krn', '2/c.KRN')], [SCORE, SCORE])

    def test_any_name(self):
        for name in ('new\nline.krn', 'tab\t.krn', '\x1b[31m.krn', 'caf\udce9.krn', "qu'ote \" $x.krn", '-a.krn', 'back\\slash.krn', ' .krn'):
            (self.scores / name).write_bytes(SCORE.encode())
        self.assertEqual(self.ends(self.plan, self.scores, '--into', self.into)[:2], (1, '12 scores, 2 refused\n'))
        table = rows(self.into)
        for name in ('new\\nline.krn', 'tab\\t.krn', '\\x1b[31m.krn', 'caf\\xe9.krn', "qu'ote \" $x.krn", '-a.krn', 'back\\\\slash.krn', ' .krn'):
            self.assertEqual(table[name][0], '0', name)
        self.assertEqual(len(results_below(self.into)), 10)
        self.assertEqual(shown('a\u2028b\u202e'), 'a\\u2028b\\u202e')

    def test_a_result_that_can_t_be_made(self):
        words = self.plan, self.scores, '--into', self.into
        self.ends(*words)
        shutil.rmtree(self.into / '1')
        (self.into / '1').write_text('no folder')
        status, written, error = self.ends(*words)
        self.assertEqual((status, written), (2, '4 scores, 2 refused, 3 as before, 1 could not be run\n'))
        self.assertRegex(error, r'^humpipe: 1/a.krn: its result: .*\n$')
        self.assertEqual(rows(self.into)['1/a.krn'][:4], ['2', '-', '-', '-'])

    def test_what_can_t_be_run_is_told(self):
        os.symlink('nowhere', self.scores / 'dangling.krn')
        os.mkfifo(self.scores / 'pipe.krn')
        status, written, error = self.ends(self.plan, self.scores, '--into', self.into)
        self.assertEqual((status, written), (2, '6 scores, 2 refused, 2 could not be run\n'))
        self.assertEqual(error, 'humpipe: dangling.krn: No such file or directory\nhumpipe: pipe.krn: is no file\n')
        self.assertEqual(rows(self.into)['pipe.krn'], ['2', '-', '-', '-', 'is no file'])

    @unittest.skipUnless(shutil.which('bash'), 'no bash')
    def test_a_plan_of_the_shell(self):
        words = ['bash', '-c', '"$0" -m humpipe corpus <(echo "$1") "$2" --into "$3"', sys.executable, FROM_STDIN, str(self.scores), str(self.into)]
        ended = subprocess.run(words, env=surroundings(), stdout=subprocess.PIPE, text=True)
        self.assertEqual((ended.returncode, ended.stdout), (1, '4 scores, 2 refused\n'))

    def test_a_program_with_a_blank_in_its_path(self):
        os.symlink(surroundings()['HUMPIPE'], self.write('a b/x', '').parent / 'hum pipe')
        self.assertEqual(self.ends(self.plan, self.scores, '--into', self.into, env=surroundings(HUMPIPE=str(self.folder / 'a b' / 'hum pipe')))[0], 1)


class GoesOn(Corpora):
    def test_only_what_changed_is_run(self):
        words = self.plan, self.scores, '--into', self.into
        self.ends(*words)
        self.assertEqual(self.ends(*words)[:2], (1, '4 scores, 2 refused, 4 as before\n'))
        (self.scores / '1/b.krn').write_text(SCORE)
        self.assertEqual(self.ends(*words)[:2], (1, '4 scores, 1 refused, 3 as before\n'))
        self.assertEqual((self.into / '1/b.krn').read_text(), MINT)
        (self.scores / '1/b.krn').write_text(BROKEN)
        self.assertEqual(self.ends(*words)[:2], (1, '4 scores, 2 refused, 3 as before\n'))
        self.assertEqual(results_below(self.into), ['1/a.krn', '2/c.KRN'])
        self.assertEqual(self.ends(*words, '--again')[:2], (1, '4 scores, 2 refused\n'))
        (self.into / '1/a.krn').unlink()
        self.assertEqual(self.ends(*words)[:2], (1, '4 scores, 2 refused, 3 as before\n'))
        self.plan.write_text('out: read /dev/stdin | recip')
        self.assertEqual(self.ends(*words)[:2], (1, '4 scores, 1 refused\n'))
        self.assertEqual((self.into / '1/a.krn').read_text(), '**recip\n4\n8\n8\n*-\n')

    def test_the_table_has_the_score_as_it_is(self):
        words = self.plan, self.scores, '--into', self.into
        for text in BROKEN, SCORE, BROKEN, SCORE:
            (self.scores / '1/b.krn').write_text(text)
            self.ends(*words)
            self.assertEqual(rows(self.into)['1/b.krn'][0], '1' if text == BROKEN else '0')

    def test_a_file_that_the_plan_reads_too(self):
        self.plan.write_text(f"p: read /dev/stdin\nq: read '{self.score}'\nout: assemble p q | rid -I")
        words = self.plan, self.scores / '1/a.krn', '--into', self.into
        self.ends(*words)
        self.score.write_text(SCORE.replace('8b', '8dd'))
        self.assertEqual(self.ends(*words)[:2], (0, '1 score, 0 refused\n'))
        self.assertIn('8dd', (self.into / 'a.krn').read_text())

    def test_a_result_that_was_changed_is_left_alone(self):
        words = self.plan, self.scores, '--into', self.into
        self.ends(*words)
        (self.into / '1/a.krn').write_text('mended by hand')
        status, _, error = self.ends(*words)
        self.assertEqual((status, (self.into / '1/a.krn').read_text()), (2, 'mended by hand'))
        self.assertIn('1/a.krn: its result was changed', error)

    def test_results_of_scores_that_are_gone_are_told(self):
        words = self.plan, self.scores, '--into', self.into
        self.ends(*words)
        (self.scores / '1/a.krn').unlink()
        status, written, error = self.ends(*words)
        self.assertEqual((status, written), (1, '3 scores, 2 refused, 3 as before\n'))
        self.assertIn('1 results are of scores that are not there any more: 1/a.krn', error)
        self.assertNotIn('1/a.krn', rows(self.into))

    def test_parts(self):
        for number in (2, 3, 1):
            self.assertEqual(self.ends(self.plan, self.scores, '--into', self.into, '--part', f'{number}/3')[0], 1 if number != 3 else 0)
            table = rows(self.into)
            self.assertEqual(len(table), 4)
        self.assertEqual([table[name][0] for name in sorted(table)], ['0', '1', '0', '1'])
        self.assertEqual(self.ends(self.plan, self.scores, '--into', self.into, '--part', '9/9')[:2], (0, '0 scores, 0 refused\n'))
        self.assertEqual(self.ends(self.plan, self.scores, '--into', self.into)[:2], (1, '4 scores, 2 refused, 4 as before\n'))
        for part in '0/3', '4/3', '1', 'a/b', '1/0':
            self.assertEqual(self.ends(self.plan, self.scores, '--into', self.into, '--part', part)[0], 2)

    def test_two_runs_at_once(self):
        slow = self.write('slow', f'#!/bin/sh\nsleep 0.05\nexec "{surroundings()["HUMPIPE"]}" "$@"\n')
        slow.chmod(0o755)
        for k in range(100):
            self.write(f'scores/3/{k}.krn', SCORE)
        env = surroundings(HUMPIPE=str(slow))
        with subprocess.Popen(self.command(self.plan, self.scores, '--into', self.into, '--jobs', '2'), env=env, stdout=subprocess.PIPE, text=True) as first:
            while not results_below(self.into):
                time.sleep(0.01)
            status, _, error = self.ends(self.plan, self.scores, '--into', self.into)
            self.assertIsNone(first.poll())
            self.assertEqual((status, 'another run is at work' in error), (2, True), error)
            self.assertEqual(first.communicate()[0], '104 scores, 2 refused\n')


@unittest.skipIf(SEEN, 'run above')
class Killed(Corpora):
    """Runs that something ends, on a few hundred scores; `stress.py` does the same on many."""

    def setUp(self):
        super().setUp()
        self.chance = random.Random(5)
        for k in range(200):
            self.write(f'scores/3/{k:03}.krn', SCORE.replace('8a', self.chance.choice(['8a', '8f', '4c4e'])))
        self.words = self.plan, self.scores, '--into', self.into, '--jobs', '2'

    def check_all(self):
        status, _, error = self.ends(*self.words)
        self.assertEqual((status, error), (1, ''))
        table = rows(self.into)
        scores = {str(path.relative_to(self.scores)): path for path in self.scores.rglob('*.[kK][rR][nN]')}
        self.assertEqual(sorted(table), sorted(scores))
        for name, path in scores.items():
            try:
                text = humpipe.run(self.plan, path)
                self.assertEqual((table[name][0], (self.into / name).read_text()), ('0', text))
            except humpipe.Fault as fault:
                self.assertEqual(table[name][:4], ['1', f'{fault.stage} ({fault.command})', str(fault.line), fault.rule])
                self.assertFalse((self.into / name).exists())
        self.assertEqual(sorted(name for name in table if table[name][0] == '0'), results_below(self.into))

    def begun(self):
        return subprocess.Popen(self.command(*self.words), env=surroundings(), stdout=subprocess.PIPE, stderr=subprocess.PIPE, text=True)

    def some_results(self, count):
        while len(results_below(self.into)) < count:
            time.sleep(0.005)

    def test_the_run_by_kill_9(self):
        for moment in (1, 60, 120):
            with self.begun() as run:
                self.some_results(moment)
                run.kill()
        with open(self.into / '.humpipe' / '1-of-1.jsonl', 'a', encoding='utf-8') as file:
            file.write('["3/00')
        self.check_all()

    def test_signals_leave_whole_results_and_a_table(self):
        for number in signal.SIGTERM, signal.SIGINT:
            with self.begun() as run:
                self.some_results(1 if number == signal.SIGTERM else 60)
                run.send_signal(number)
                _, told = run.communicate(timeout=30)
            self.assertEqual((run.returncode, told), (128 + number, 'humpipe: stopped; the same command goes on from here\n'))
            table = rows(self.into)
            self.assertEqual(len(table), 204)
            self.assertEqual(sorted(name for name in table if table[name][0] == '0'), results_below(self.into))
            self.assertIn(['-', '-', '-', '-', 'not run yet'], table.values())
        self.check_all()

    def test_a_program(self):
        marker = self.folder / 'once'
        program = self.write('program', f'#!/bin/sh\nif mkdir {marker} 2>/dev/null; then kill -9 $$; fi\nexec "{surroundings()["HUMPIPE"]}" "$@"\n')
        program.chmod(0o755)
        self.plan.write_text(FROM_STDIN)
        os.mkdir(marker)
        env = surroundings(HUMPIPE=str(program))
        with subprocess.Popen(self.command(*self.words), env=env, stdout=subprocess.PIPE, stderr=subprocess.PIPE, text=True) as run:
            self.some_results(20)
            os.rmdir(marker)
            written, told = run.communicate(timeout=60)
        self.assertEqual((run.returncode, 'could not be run' in written), (2, True), written)
        self.assertRegex(told, r'^humpipe: .*\.krn: ended by signal 9\n$')
        self.assertEqual(sum(row[0] == '2' for row in rows(self.into).values()), 1)
        self.check_all()

    def test_a_worker_of_an_executor(self):
        with ProcessPoolExecutor(2) as executor:
            os.kill(executor.submit(os.getpid).result(), signal.SIGKILL)
            summary = humpipe.corpus(self.plan, [self.scores], self.into, executor=executor)
        self.assertEqual((summary.status, summary.scores), (2, 204))
        self.assertTrue(summary.failed)
        self.assertEqual(len(rows(self.into)), 204)
        with ProcessPoolExecutor(2) as executor:
            summary = humpipe.corpus(self.plan, [self.scores], self.into, executor=executor)
        self.assertEqual((summary.status, summary.failed), (1, []))
        self.check_all()

    def test_the_lines_say_by_what_each_was_made(self):
        self.ends(*self.words)
        lines = [json.loads(line) for line in (self.into / '.humpipe/1-of-1.jsonl').read_text().split('\n') if line]
        self.assertEqual(sorted(lines[0]), ['plan', 'program'])
        self.assertEqual(max(Counter(line[0] for line in lines[1:]).values()), 1)


class Executors(Corpora):
    def test_map_by_processes(self):
        with ProcessPoolExecutor(2) as executor:
            found = list(humpipe.map(FROM_STDIN, [self.scores / '1/a.krn', self.scores / '1/b.krn'] * 20, executor=executor))
        self.assertEqual([(outcome.text, outcome.fault and outcome.fault.rule) for outcome in found], [(MINT, None), ('**mint\n', 'K1')] * 20)
