"""Runs of the program: the `humpipe` on the path, or the one that HUMPIPE names."""
import os
import threading
import time
import unittest

import humpipe
from humpipe import running
from humpipe.many import each

from .support import FROM_STDIN, MINT, SCORE, Runs


class One(Runs):
    def test_texts_by_name(self):
        self.assertEqual(humpipe.run('out: read tune | mint', {'tune': SCORE}), MINT)
        self.assertEqual(humpipe.run('out: read tune | mint', {'tune': SCORE.encode()}), MINT)

    def test_two_texts_one_without_a_last_line_end(self):
        plan = 'p: read a\nq: read b\nout: assemble p q'
        self.assertEqual(humpipe.run(plan, {'a': '**x\n1\n*-', 'b': '**y\n2\n*-'}), '**x\t**y\n1\t2\n*-\t*-\n')

    def test_paths_by_name(self):
        self.assertEqual(humpipe.run('out: read tune | mint', {'tune': self.score}), MINT)
        plan = 'p: read a/b\nq: read c\nout: assemble p q | rid -I'
        self.assertEqual(humpipe.run(plan, {'a/b': self.score, 'c': SCORE}), '4g\t4g\n8a\t8a\n8b\t8b\n')

    def test_a_path_is_standard_input(self):
        self.assertEqual(humpipe.run(FROM_STDIN, self.score), MINT)
        self.assertEqual(humpipe.run(FROM_STDIN, str(self.score)), MINT)

    def test_files_that_the_plan_names(self):
        self.assertEqual(humpipe.run(f"out: read '{self.score}' | mint"), MINT)

    def test_a_plan_s_file(self):
        plan = self.write('mint.hpl', FROM_STDIN)
        self.assertEqual(humpipe.run(plan, self.score), MINT)
        named = self.write('named.hpl', 'out: read tune | mint\n')
        self.assertEqual(humpipe.run(named, {'tune': SCORE}), MINT)

    def test_a_text_that_looks_like_the_head_of_a_score(self):
        score = '**text\n--- a word\n*-\n'
        self.assertIsNone(running._bundle('out: read a', {'a': score}))
        self.assertEqual(humpipe.run('out: read a', {'a': score}), score)

    def test_a_plan_that_looks_like_a_bundle(self):
        with self.assertRaises(humpipe.PlanFault) as raised:
            humpipe.run('--- a\nout: read a', {'a': SCORE})
        self.assertEqual((raised.exception.line, raised.exception.word, raised.exception.rule), (1, 1, 'N3'))

    def test_more_than_a_bundle_may_have(self):
        line = '!!' + 'x' * 1_000_000 + '\n'
        score = line * 68 + SCORE
        self.assertIsNone(running._bundle('out: read a | rid -G', {'a': score}))
        self.assertEqual(humpipe.run('out: read a | rid -G', {'a': score}), SCORE)

    def test_bytes_that_are_no_utf_8_come_through(self):
        score = b'**text\ncaf\xe9\n*-\n'
        text = humpipe.run('out: read a', {'a': score})
        self.assertEqual(text.encode('utf-8', 'surrogateescape'), score)
        self.assertEqual(humpipe.run('out: read a', {'a': text}), text)

    def test_names_that_no_score_can_have(self):
        for name in ('a\nb', 'a\r'):
            with self.assertRaises(ValueError):
                humpipe.run('out: read a', {name: SCORE})
        for name in ('/etc/a', '../a', '.'):
            with self.assertRaises(ValueError):
                humpipe.run('out: read a', {name: self.score})

    def test_a_stage_refuses(self):
        with self.assertRaises(humpipe.Fault) as raised:
            humpipe.run('out: read a | semits -x', {'a': '**kern\n4c\n4c4e\n*-\n'})
        fault = raised.exception
        self.assertEqual((fault.stage, fault.command, fault.line, fault.rule), (2, 'semits', 3, 'K1'))
        self.assertEqual(fault.text, '**semits\n0\n')

    def test_the_plan_is_refused(self):
        with self.assertRaises(humpipe.PlanFault) as raised:
            humpipe.run('out: read a | semits', {'a': SCORE})
        self.assertEqual((raised.exception.line, raised.exception.word, raised.exception.rule), (1, 4, 'N9'))

    def test_a_score_that_isn_t_there(self):
        with self.assertRaises(humpipe.RunError) as raised:
            humpipe.run('out: read b', {'a': SCORE})
        self.assertEqual(str(raised.exception), 'stage 1 (read): cannot open')
        with self.assertRaises(FileNotFoundError):
            humpipe.run(FROM_STDIN, self.folder / 'nowhere.krn')


class Many(Runs):
    def setUp(self):
        super().setUp()
        scores = [SCORE, '**kern\n4c4e\n*-\n', '**kern\n4c\n', '**kern\n4d\n4e\n*-\n']
        self.paths = [self.write(f'{k}.krn', score) for k, score in enumerate(scores * 10)]

    def test_outcomes_in_order_and_none_stops_it(self):
        outcomes = list(humpipe.map(FROM_STDIN, self.paths, jobs=3))
        self.assertEqual([outcome.path for outcome in outcomes], [str(path) for path in self.paths])
        self.assertEqual([outcome.fault and outcome.fault.rule for outcome in outcomes], [None, 'K1', 'P8', None] * 10)
        self.assertEqual(outcomes[0].text, MINT)
        self.assertEqual([outcomes[1].text, outcomes[2].text], ['**mint\n', '**mint\n[c]\n'])

    def test_a_path_that_isn_t_there_is_an_outcome(self):
        gone = self.folder / 'gone.krn'
        first, second = humpipe.map(FROM_STDIN, [gone, self.score])
        self.assertIsInstance(first.fault, humpipe.RunError)
        self.assertEqual((first.path, second.text), (str(gone), MINT))

    def test_the_plan_s_mistake_is_raised_at_once(self):
        with self.assertRaises(humpipe.PlanFault):
            humpipe.map('out: read /dev/stdin | semits', self.paths)
        with self.assertRaises(humpipe.RunError):
            humpipe.map('out: read nowhere.krn', self.paths)

    def test_no_paths(self):
        self.assertEqual(list(humpipe.map(FROM_STDIN, [])), [])

    def test_paths_are_asked_for_as_they_are_needed(self):
        asked = []
        outcomes = humpipe.map(FROM_STDIN, (asked.append(path) or path for path in self.paths), jobs=1)
        next(outcomes)
        self.assertLess(len(asked), 10)
        outcomes.close()
        self.assertFalse([thread for thread in threading.enumerate() if 'ThreadPool' in thread.name])

    def test_few_are_ahead(self):
        asked, most = [], 0
        for taken, _ in enumerate(humpipe.map(FROM_STDIN, (asked.append(path) or path for path in self.paths * 10), jobs=1)):
            most = max(most, len(asked) - taken)
        self.assertEqual((len(asked), taken), (400, 399))
        self.assertLessEqual(most, 48)

    def test_with_a_bar(self):
        try:
            import tqdm  # noqa: F401
        except ImportError:
            self.skipTest('no tqdm')
        self.assertEqual(len(list(humpipe.map(FROM_STDIN, self.paths, progress=False))), 40)
        self.assertEqual(len(list(humpipe.map(FROM_STDIN, self.paths, progress=None))), 40)


class Together(unittest.TestCase):
    """Jobs that are taken together."""

    def each(self, work, jobs, in_order=True, most=8):
        seen = []

        def noted(some):
            seen.append(len(some))
            return work(some)

        return list(each(noted, jobs, lambda job, error: f'{job} lost', 2, in_order=in_order, most=most)), seen

    def test_more_and_more_and_all_in_order(self):
        found, seen = self.each(lambda some: [-job for job in some], range(500))
        self.assertEqual(found, [-job for job in range(500)])
        self.assertEqual((seen[0], max(seen)), (1, 8))

    def test_some_of_them_alone(self):
        found, seen = self.each(lambda some: some[:1 if some[0] % 50 > 40 else 3], range(500))
        self.assertEqual(found, list(range(500)))
        self.assertLess(max(seen), 7)

    def test_long_jobs_are_taken_alone(self):
        found, seen = self.each(lambda some: time.sleep(0.025 * len(some)) or some, range(20))
        self.assertEqual((found, max(seen)), (list(range(20)), 1))

    def test_one_that_fails_is_lost_alone(self):
        found, seen = self.each(lambda some: [100 // (job % 100) for job in some], range(1, 500))
        self.assertEqual(found, [100 // (job % 100) if job % 100 else f'{job} lost' for job in range(1, 500)])
        self.assertEqual(max(seen), 8)

    def test_as_they_are_done(self):
        found, _ = self.each(lambda some: some, range(100), False, 1)
        self.assertEqual(sorted(found), list(range(100)))


class NoProgram(unittest.TestCase):
    def test_it_is_told(self):
        before = os.environ.get('HUMPIPE')
        os.environ['HUMPIPE'] = '/nowhere/humpipe'
        try:
            with self.assertRaisesRegex(FileNotFoundError, 'no program /nowhere/humpipe'):
                humpipe.run('out: read a', {'a': SCORE})
        finally:
            if before is None:
                del os.environ['HUMPIPE']
            else:
                os.environ['HUMPIPE'] = before
