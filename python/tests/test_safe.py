"""What may never happen: a file that is overwritten, a score that is missing, an answer of another file."""
import os
import shutil
import signal
import subprocess
import sys
import textwrap
import time

import humpipe
from humpipe import running

from .support import FROM_STDIN, MINT, SCORE, Runs, surroundings

OTHER = '**kern\n4c\n*-\n'


class Names(Runs):
    def test_a_text_never_goes_where_a_path_leads(self):
        mine = self.folder / 'mine'
        mine.mkdir()
        (mine / 'b.krn').write_text(OTHER)
        for scores in ({'scores': mine, 'scores/b.krn': SCORE}, {'a': self.score, './a': OTHER}, {'a/b': self.score, 'a//b': OTHER},
                       {'a/b.krn': OTHER, 'a': self.score}):
            with self.assertRaises(ValueError):
                humpipe.run('out: read a', scores)
        self.assertEqual((mine / 'b.krn').read_text(), OTHER)
        self.assertEqual(self.score.read_text(), SCORE)

    def test_names_are_refused_whatever_they_name(self):
        for score in (SCORE, SCORE.encode(), self.score):
            for name in ('../a', 'a/../../b', '/etc/a', '.', '', 'a\nb', 'a\r', 'a/..'):
                with self.assertRaises(ValueError, msg=name):
                    humpipe.run('out: read a', {name: score})

    def test_a_score_never_decides_which_files_are_read(self):
        private = self.write('private.krn', OTHER)
        head = '**text\n--- a word\n*-\n'
        large = '!!' + 'x' * 1_000_000 + '\n'
        for scores in ({'a': SCORE}, {'a': self.score}, {'a': head}, {'a': large * 68 + SCORE}):
            for name in (str(private), '/dev/stdin', './a', 'b'):
                with self.assertRaises(humpipe.RunError) as raised:
                    humpipe.run(f"p: read a\nq: read '{name}' | rid -G\nout: assemble p q", scores)
                self.assertEqual(str(raised.exception), 'stage 2 (read): cannot open')

    def test_a_name_with_blanks_bars_and_quotes_round_it(self):
        plan = "p: read 'a b|c'\nq:  read   second  | rid -G\n# a comment: read x\nout: assemble p q | rid -I"
        self.assertEqual(humpipe.run(plan, {'a b|c': self.score, 'second': OTHER.replace('4c', '4c\n4d\n4e')}), '4g\t4c\n8a\t4d\n8b\t4e\n')

    def test_standard_input_as_a_name(self):
        self.assertEqual(humpipe.run(FROM_STDIN, {'/dev/stdin': SCORE}), MINT)
        self.assertEqual(humpipe.run(FROM_STDIN, {'/dev/stdin': self.score}), MINT)

    def test_what_is_wrong_with_a_plan_comes_first(self):
        for scores in ({'a': self.score}, {'a': SCORE}):
            for plan in ('--- a\nout: read a', 'out: read a | semits', 'x', "out: read 'a"):
                with self.assertRaises(humpipe.PlanFault):
                    humpipe.run(plan, scores)
        self.assertIsNone(running._bundle('--- a\n', {}))


class Exceptions(Runs):
    def test_what_isn_t_there_is_one_error_however_it_is_named(self):
        gone = self.folder / 'gone'
        calls = [lambda: humpipe.run(gone), lambda: humpipe.run(gone, {'a': SCORE}), lambda: humpipe.run(gone, self.score), lambda: humpipe.map(gone, []),
                 lambda: humpipe.run(FROM_STDIN, gone), lambda: humpipe.run('out: read a', {'a': gone}), lambda: list(humpipe.records(gone)),
                 lambda: list(humpipe.records(plan=FROM_STDIN, scores=gone)), lambda: humpipe.corpus(FROM_STDIN, [gone], self.folder / 'out')]
        for call in calls:
            with self.assertRaises(humpipe.RunError) as raised:
                call()
            self.assertIsInstance(raised.exception, FileNotFoundError)
            self.assertIn('No such file', str(raised.exception))

    def test_a_folder_is_no_score(self):
        with self.assertRaisesRegex(humpipe.RunError, 'is a folder|Is a directory'):
            humpipe.run(FROM_STDIN, self.folder)

    def test_repr_is_short(self):
        with self.assertRaises(humpipe.Fault) as raised:
            humpipe.run('out: read a | semits -x', {'a': '**kern\n' + '4c\n' * 1000 + '4c4e\n*-\n'})
        self.assertEqual(repr(raised.exception), "Fault('stage 2 (semits), line 1002: K1')")
        self.assertEqual(raised.exception.text.count('\n'), 1001)

    def test_a_star_takes_no_name_of_python(self):
        names = {}
        exec('from humpipe import *', names)
        self.assertNotIn('map', names)
        self.assertIn('run', names)


class Texts(Runs):
    def test_all_that_is_bytes(self):
        for score in (bytearray(SCORE.encode()), memoryview(SCORE.encode())):
            self.assertEqual(humpipe.run('out: read a | mint', {'a': score}), MINT)
            self.assertEqual(len(list(humpipe.records(score))), 5)

    def test_latin_1(self):
        score = '**text\ncafé\n*-\n'.encode('latin-1')
        path = self.write('latin.krn', score)
        for given in ({'a': score}, {'a': path}, {'a': score.decode('latin-1')}):
            text = humpipe.run('out: read a', given, encoding='latin-1')
            self.assertEqual(text, '**text\ncafé\n*-\n')
            text.encode()
        self.assertEqual([outcome.text for outcome in humpipe.map('out: read /dev/stdin | rid -I', [path], encoding='latin-1')], ['café\n'])
        for source in (path, score):
            self.assertEqual([record.tokens[0] for record in humpipe.records(source, encoding='latin-1')], ['**text', 'café', '*-'])
        self.assertEqual([record.tokens for record in humpipe.records(path)][1], ('caf\udce9',))

    def test_a_text_that_takes_too_long(self):
        pipe = str(self.folder / 'pipe')
        os.mkfifo(pipe)
        begin = time.monotonic()
        with self.assertRaises(humpipe.OutOfTime) as raised:
            humpipe.run(FROM_STDIN, pipe, timeout=0.2)
        self.assertIsInstance(raised.exception, (humpipe.RunError, TimeoutError))
        with self.assertRaises(humpipe.OutOfTime):
            list(humpipe.records(plan=FROM_STDIN, scores=pipe, timeout=0.2))
        first, second = humpipe.map(FROM_STDIN, [pipe, self.score], timeout=0.2)
        self.assertEqual((str(first.fault), second.text), ('not done after 0.2 s', MINT))
        self.assertLess(time.monotonic() - begin, 5)


class Many(Runs):
    def test_paths_that_raise_lose_no_outcome(self):
        def paths():
            for _ in range(7):
                yield self.score
            raise OSError('no more')

        outcomes = []
        with self.assertRaisesRegex(OSError, 'no more'):
            for outcome in humpipe.map(FROM_STDIN, paths(), jobs=2):
                outcomes.append(outcome.text)
        self.assertEqual(outcomes, [MINT] * 7)

    def test_a_plan_that_reads_no_standard_input(self):
        with self.assertRaisesRegex(ValueError, 'reads no /dev/stdin'):
            humpipe.map(f"out: read '{self.score}'", [self.score])
        self.assertEqual(len(list(humpipe.map("# read x\n\nout: read '/dev/stdin'|mint", [self.score]))), 1)

    def test_a_plan_that_can_be_read_once(self):
        pipe = self.folder / 'plan'
        os.mkfifo(pipe)
        writer = subprocess.Popen(['sh', '-c', 'echo "$1" >"$0"', pipe, FROM_STDIN])
        self.assertEqual([outcome.text for outcome in humpipe.map(pipe, [self.score] * 3)], [MINT] * 3)
        writer.wait()

    def test_no_file_is_left(self):
        code = textwrap.dedent('''
            import sys, humpipe
            from concurrent.futures import ProcessPoolExecutor
            plan = 'out: read /dev/stdin | mint'
            with ProcessPoolExecutor(2) as executor:
                list(humpipe.map(plan, [sys.argv[1]] * 20, executor=executor))
            list(humpipe.map(plan, [sys.argv[1]] * 20))
            humpipe.run(plan, sys.argv[1])
            list(humpipe.records(plan=plan, scores={'/dev/stdin': open(sys.argv[1]).read()}))
        ''')
        room = self.folder / 'room'
        room.mkdir()
        subprocess.run([sys.executable, '-c', code, self.score], env=surroundings(TMPDIR=str(room)), check=True)
        self.assertEqual(os.listdir(room), [])

    def test_a_pipe_can_be_given_up(self):
        pipe = str(self.folder / 'pipe')
        os.mkfifo(pipe)
        code = textwrap.dedent('''
            import sys, humpipe
            print('begins', flush=True)
            try:
                list(humpipe.map('out: read /dev/stdin | mint', [sys.argv[1]] * 3))
            except KeyboardInterrupt:
                print('given up', flush=True)
        ''')
        with subprocess.Popen([sys.executable, '-c', code, pipe], env=surroundings(), stdout=subprocess.PIPE) as process:
            self.assertEqual(process.stdout.readline(), b'begins\n')
            time.sleep(0.5)
            process.send_signal(signal.SIGINT)
            try:
                self.assertEqual(process.communicate(timeout=20)[0], b'given up\n')
            finally:
                process.kill()
        self.assertEqual(process.returncode, 0)


class Streams(Runs):
    def test_records_of_a_plan(self):
        found = list(humpipe.records(plan='out: read a | mint', scores={'a': SCORE}))
        self.assertEqual(found, list(humpipe.records(MINT)))
        with self.assertRaises(humpipe.Fault):
            list(humpipe.records(plan='out: read a | semits -x', scores={'a': '**kern\n4c4e\n*-\n'}))
        with self.assertRaises(TypeError):
            humpipe.records()

    def test_a_long_score_takes_no_more_memory_than_a_short_one(self):
        line = '!!' + 'x' * 1000 + '\n'
        code = 'import sys, resource, humpipe; sum(1 for _ in humpipe.records(plan="out: read /dev/stdin", scores=sys.argv[1])); ' \
               'print(resource.getrusage(resource.RUSAGE_SELF).ru_maxrss)'
        peaks = []
        for count in (1_000, 60_000):
            path = self.write(f'{count}.krn', line * count + SCORE)
            peaks.append(int(subprocess.check_output([sys.executable, '-c', code, path], env=surroundings())))
        self.assertLess(peaks[1] - peaks[0], 8_000)

    def test_one_who_leaves_early_ends_the_program(self):
        pipe = str(self.folder / 'pipe')
        os.mkfifo(pipe)
        with subprocess.Popen(['sh', '-c', '{ echo "**kern"; exec yes 4c; } >"$0"', pipe]) as writer:
            found = humpipe.records(plan='out: read /dev/stdin', scores=pipe)
            self.assertEqual(next(found).tokens, ('**kern',))
            found.close()
            try:
                self.assertNotEqual(writer.wait(timeout=20), 0)
            finally:
                writer.kill()


class Version(Runs):
    def test_the_program_s_is_said(self):
        for place in ('bin/humpipe', 'tarball/humpipe'):
            shutil.copy(surroundings()['HUMPIPE'], self.write(place, ''))
        (self.folder / 'bin/humpipe').chmod(0o755)
        self.write('share/doc/humpipe/VERSION', '9.8.7\n')
        self.write('tarball/VERSION', '9.8.6\n')
        for place, version in (('bin/humpipe', '9.8.7'), ('tarball/humpipe', '9.8.6')):
            program = str(self.folder / place)
            told = subprocess.check_output([sys.executable, '-m', 'humpipe', '--version'], env=surroundings(HUMPIPE=program), text=True)
            self.assertEqual(told, f'humpipe for Python {humpipe.__version__}; {program} {version}\n')
