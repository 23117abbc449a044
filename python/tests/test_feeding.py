"""One program that is kept for many scores: the same answers as a process a score gives."""
import os
import random
import shutil
import threading
import unittest
from concurrent.futures import ProcessPoolExecutor, ThreadPoolExecutor
from pathlib import Path
from unittest import mock

import humpipe
from humpipe import feeding

from .support import FROM_STDIN, MINT, PROGRAM, Runs, made_score

FEEDS = os.environ.get('HUMPIPE_MANY') or os.path.join(os.path.dirname(os.path.abspath(shutil.which(PROGRAM) or '.')), 'humpipe-many')

# a program that passes on what it is asked to the one that is kept, and does something else at a case
ODD = '''#!/usr/bin/env python3
import os, subprocess, sys, time
inner = subprocess.Popen([{feeds!r}], stdin=subprocess.PIPE, stdout=subprocess.PIPE)
def part(source):
    size = source.read(4)
    return size + source.read(max(int(size or b'0', 16) - 4, 0))
def listed(source):
    found = b''
    while True:
        found += (one := part(source))
        if one in (b'0000', b''):
            return found
def answered(ask):
    inner.stdin.write(ask); inner.stdin.flush()
    sys.stdout.buffer.write(listed(inner.stdout) + listed(inner.stdout)); sys.stdout.buffer.flush()
answered(listed(sys.stdin.buffer))
while True:
    case = b''
    while (name := part(sys.stdin.buffer)) not in (b'0000', b''):
        case += name + listed(sys.stdin.buffer)
    if name == b'':
        break
    if b'{odd}' in case:
        {act}
    answered(case + name)
'''


@unittest.skipUnless(os.access(FEEDS, os.X_OK), 'no humpipe-many beside the program')
class Feeding(Runs):
    def setUp(self):
        super().setUp()
        chance = random.Random(4)
        self.scores = [self.write(f's{k}.krn', made_score(chance)) for k in range(12)] + [
            self.write('refused.krn', '**kern\n4c\n5\n*-\n'), self.write('cut.krn', '**kern\n4c\n'), self.write('empty.krn', ''), self.score,
            self.write('long.krn', '**text\n' + 'la\n' * 70_000 + '*-\n'), self.write('latin.krn', b'**text\nf\xfcr\n*-\n'), self.folder / 'missing.krn', self.folder]

    def answers(self, plan, **more):
        return [(one.path, one.text, type(one.fault), str(one.fault)) for one in humpipe.map(plan, self.scores, 3, **more)]

    def alone(self, plan, **more):
        with mock.patch.dict(os.environ, HUMPIPE_MANY=''):
            return self.answers(plan, **more)

    def odd(self, act, odd='ODD'):
        place = self.write('odd', ODD.format(feeds=FEEDS, act=act, odd=odd))
        place.chmod(0o755)
        return mock.patch.dict(os.environ, HUMPIPE_MANY=str(place))

    def test_answers_are_those_of_a_process_each(self):
        for plan in FROM_STDIN, 'out: read /dev/stdin | ditto', "p: read /dev/stdin\nq: read /dev/fd/0 | rid -l\nout: assemble p q", 'out: read /dev/stdin | rid -G':
            self.assertEqual(self.answers(plan), self.alone(plan))
        self.assertEqual(self.answers(FROM_STDIN, encoding='latin-1'), self.alone(FROM_STDIN, encoding='latin-1'))

    def test_one_program_answers_what_a_thread_asks(self):
        with mock.patch.object(feeding, 'Feed', wraps=feeding.Feed) as made, mock.patch.object(feeding, 'run_score', wraps=feeding.run_score) as alone:
            list(humpipe.map(FROM_STDIN, self.scores[:14] * 4, 2))
        self.assertLessEqual(made.call_count, 2)
        self.assertEqual(alone.call_count, 0)

    def test_a_plan_that_reads_a_file_too_has_a_process_each(self):
        self.write('beside.krn', '**text\nla\n*-\n')
        plan = f'p: read /dev/stdin\nq: read {self.folder}/beside.krn\nout: assemble p q'
        with mock.patch.object(feeding, 'Feed') as made:
            found = self.answers(plan)
        self.assertEqual(made.call_count, 0)
        self.assertEqual(found, self.alone(plan))

    def test_a_program_that_dies_is_started_again(self):
        self.scores[5:5] = [self.write('odd.krn', '**kern\n!! ODD\n4c\n*-\n')]
        for act in 'os.abort()', 'sys.exit(0)', "sys.stdout.write('00')", "sys.stdout.write('no packet'); sys.stdout.flush(); time.sleep(9)":
            with self.odd(act):
                self.assertEqual(self.answers(FROM_STDIN), self.alone(FROM_STDIN))

    def test_a_score_that_takes_too_long_is_told(self):
        self.scores[5:5] = [self.write('odd.krn', '**kern\n!! ODD\n4c\n*-\n')]
        with self.odd('time.sleep(60)'):
            found = list(humpipe.map(FROM_STDIN, self.scores, 2, timeout=2))
        self.assertIsInstance(found[5].fault, humpipe.OutOfTime)
        self.assertEqual([type(one.fault) for one in found[6:8]], [type(None)] * 2)

    def test_a_program_that_begins_none_leaves_it_to_a_process(self):
        place = self.write('none', '#!/bin/sh\nexit 1\n')
        place.chmod(0o755)
        with mock.patch.dict(os.environ, HUMPIPE_MANY=str(place)):
            self.assertEqual(self.answers(FROM_STDIN), self.alone(FROM_STDIN))

    def test_several_at_once(self):
        large = [self.write(f'large{k}.krn', '**text\n' + f'{k} and so on\n' * 700 + '*-\n') for k in range(14)]
        for scores in self.scores[:16], large, large[:3] + self.scores[12:16] * 3:
            for plan in FROM_STDIN, 'out: read /dev/stdin', 'p: read /dev/stdin\nq: read /dev/fd/0 | rid -l\nout: assemble p q':
                with mock.patch.object(feeding.Feed, 'ask', autospec=True, side_effect=feeding.Feed.ask) as asked:
                    found = self.at_once(plan, scores)
                self.assertEqual(asked.call_count, 1)
                self.assertIn(len(found), (len(scores), 12))
                self.assertEqual([(one.written, str(one.error)) for one in found], self.each_alone(plan, scores[:len(found)]))

    def at_once(self, plan, scores, timeout=None):
        with ThreadPoolExecutor(1) as threads:
            return threads.submit(feeding.answers, plan.encode(), scores, timeout).result()

    def each_alone(self, plan, scores):
        found = [feeding.run_score(feeding.kept_file(plan.encode()), score) for score in scores]
        return [(one.written, str(one.error)) for one in found]

    def test_what_is_too_much_at_once_is_left_for_later(self):
        for scores, count in ((self.scores, 16), (self.scores[16:], 1), (self.scores[17:], 1), (self.scores[18:], 1), (self.scores[19:], 1)):
            found = self.at_once(FROM_STDIN, scores)
            self.assertEqual(len(found), count)
            self.assertEqual([(one.written, str(one.error)) for one in found], self.each_alone(FROM_STDIN, scores[:count]))

    def test_one_of_several_that_dies_or_takes_too_long(self):
        dies = self.write('dies.krn', '**kern\n!! ODD, DIES\n4c\n*-\n')
        slow = self.write('slow.krn', '**kern\n!! ODD\n4d\n*-\n')
        middle = self.write('middle.krn', '**text\n' + 'so\n' * 20_000 + '*-\n')
        scores = [*self.scores[:3], dies, *self.scores[12:15], slow, middle, self.score, dies, self.score]
        wanted = self.each_alone(FROM_STDIN, scores)
        wanted[7] = (b'', 'not done after 1 s')
        with self.odd("os.abort() if b'DIES' in case else time.sleep(60)"):
            found = self.at_once(FROM_STDIN, scores, 1)
            self.assertEqual([(one.written, str(one.error)) for one in found], wanted)
            outcomes = list(humpipe.map(FROM_STDIN, [self.score] * 40 + scores + [self.score] * 9, 1, timeout=1))
        self.assertEqual([(one.text.encode(), str(one.fault)) for one in outcomes[40:52]], wanted)
        self.assertEqual({one.text for one in outcomes[:40] + outcomes[52:]}, {MINT})

    def test_each_has_the_time_of_its_own(self):
        slow = [self.write(f'slow{k}.krn', f'**kern\n!! ODD {k}\n4d\n*-\n') for k in range(5)]
        with self.odd('time.sleep(0.4)'):
            found = self.at_once(FROM_STDIN, slow, 1.5)
        self.assertEqual([one.error for one in found], [None] * 5)

    def test_executors(self):
        with ThreadPoolExecutor(2) as threads:
            self.assertEqual(self.answers(FROM_STDIN, executor=threads), self.alone(FROM_STDIN))
        with ProcessPoolExecutor(2) as processes:
            self.assertEqual(self.answers(FROM_STDIN, executor=processes), self.alone(FROM_STDIN))

    def test_no_program_is_left(self):
        list(humpipe.map(FROM_STDIN, self.scores, 2))
        stopped = humpipe.map(FROM_STDIN, self.scores * 9, 2)
        next(stopped)
        stopped.close()
        children = Path(f'/proc/self/task/{threading.get_native_id()}/children').read_text().split()
        names = [Path(f'/proc/{child}/comm').read_text() for child in children if Path(f'/proc/{child}').exists()]
        self.assertNotIn('humpipe-many\n', names)

    def test_a_corpus(self):
        scores = self.folder / 'scores'
        for path in self.scores[:16]:
            self.write(f'scores/{path.name}', path.read_bytes())
        for words, into in (os.environ.get('HUMPIPE_MANY', FEEDS), 'fed'), ('', 'alone'):
            with mock.patch.dict(os.environ, HUMPIPE_MANY=words):
                humpipe.corpus(FROM_STDIN, [scores], self.folder / into)
        made = [{path.name: path.read_bytes() for path in sorted((self.folder / into).rglob('*.krn'))} for into in ('fed', 'alone')]
        self.assertEqual(made[0], made[1])
