"""python3 -m tests: runs the tests twice, and ends with a line `N passed, M failed`.

First with the Python that has the most of the packages that some tests need (the one that runs this, or /usr/bin/python3), by pytest where that has it.
Then, if it has some, by this Python's unittest without any of them. What is left out is told."""
import os
import re
import subprocess
import sys
import unittest

from . import BARE, PACKAGES

FOLDER = os.path.dirname(os.path.abspath(__file__))
COUNT = re.compile(r'^(\d+) passed, (\d+) failed$')


def has(python):
    """How many of the packages a Python has."""
    code = f'import importlib.util as u; print(sum(u.find_spec(name) is not None for name in {PACKAGES!r}))'
    try:
        return int(subprocess.run([python, '-c', code], stdout=subprocess.PIPE, stderr=subprocess.DEVNULL, check=True).stdout)
    except (OSError, ValueError, subprocess.CalledProcessError):
        return -1


class Counter:
    """Counts for pytest."""

    def __init__(self):
        self.passed = self.failed = 0

    def pytest_runtest_logreport(self, report):
        if report.skipped and report.when != 'teardown':
            print(f'\nleft out: {report.nodeid} ({report.longrepr[2].replace("Skipped: ", "")})', flush=True)
        elif report.failed:
            self.failed += 1
        elif report.when == 'call':
            self.passed += 1


def by_pytest():
    import pytest

    counter = Counter()
    status = pytest.main(['-q', '--no-header', '-W', 'ignore::DeprecationWarning', '-p', 'no:cacheprovider', '--no-summary', FOLDER], [counter])
    return counter.passed, counter.failed + (status not in (0, 1))


def by_unittest():
    result = unittest.TextTestRunner(verbosity=0).run(unittest.defaultTestLoader.discover(FOLDER, top_level_dir='.'))
    for test, why in result.skipped:
        print(f'left out: {test.id()} ({why})', flush=True)
    failed = len(result.failures) + len(result.errors)
    return result.testsRun - failed - len(result.skipped), failed


def run_here():
    """The tests with this Python."""
    try:
        import pytest  # noqa: F401
    except ImportError:
        return by_unittest()
    return by_pytest()


def run_by(python, **more):
    """The tests in a process of their own: how many passed and failed."""
    with subprocess.Popen([python, '-m', 'tests', '--here'], stdout=subprocess.PIPE, text=True, env={**os.environ, **more}) as process:
        last = ''
        for line in process.stdout:
            if not COUNT.match(line):
                print(line, end='', flush=True)
            last = line
    found = COUNT.match(last)
    return (int(found[1]), int(found[2])) if found else (0, 1)


def main():
    if '--here' in sys.argv:
        passed, failed = run_here()
    else:
        python = max([sys.executable, '/usr/bin/python3'], key=has)
        print(f'with {python}:', flush=True)
        passed, failed = run_by(python)
        if has(python) > 0:
            print(f'with {sys.executable}, without {", ".join(PACKAGES)}:', flush=True)
            more = run_by(sys.executable, **{BARE: '1'})
            passed, failed = passed + more[0], failed + more[1]
    print(f'{passed} passed, {failed} failed')
    sys.exit(1 if failed else 0)


main()
