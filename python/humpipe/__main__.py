"""python3 -m humpipe: runs a plan over folders of scores, or shows the columns of its stages."""
import argparse
import os
import shutil
import signal
import sys
import tempfile
from pathlib import Path
from typing import List, NoReturn, Optional, Tuple

from . import __version__
from .corpora import Summary, corpus
from .faults import Error
from .folders import shown
from .program import program, program_version


SIGNALS = (signal.SIGINT, signal.SIGTERM)


def _part(text: str) -> Tuple[int, int]:
    number, _, parts = text.partition('/')
    if not (number.isdecimal() and parts.isdecimal() and 1 <= int(number) <= int(parts)):
        raise argparse.ArgumentTypeError(f'{text} is no part such as 3/10')
    return int(number), int(parts)


def _positive(text: str) -> int:
    if not text.isdecimal() or int(text) < 1:
        raise argparse.ArgumentTypeError(f'{text} is no number above 0')
    return int(text)


def _seconds(text: str) -> float:
    try:
        seconds = float(text)
    except ValueError:
        seconds = 0
    if not 0 < seconds < float('inf'):
        raise argparse.ArgumentTypeError(f'{text} is no time above 0')
    return seconds


def _version() -> str:
    try:
        return f'humpipe for Python {__version__}; {program()} {program_version() or "of no version that is known"}'
    except Error as error:
        return f'humpipe for Python {__version__}; {error}'


def _arguments() -> argparse.ArgumentParser:
    parser = argparse.ArgumentParser(prog='python3 -m humpipe', description='Runs plans of humpipe over scores.', allow_abbrev=False)
    parser.add_argument('--version', action='store_true', help='says the versions of this package and of the program')
    commands = parser.add_subparsers(dest='what', metavar='COMMAND')
    many = commands.add_parser('corpus', allow_abbrev=False, help='runs a plan over folders of scores',
                               description='Runs a plan that reads /dev/stdin over scores. RESULTS/faults.tsv has each score once. Status 0: all '
                                           'answered; 1: some were refused by a rule; 2: some could not be run, or nothing was.')
    many.add_argument('plan', metavar='PLAN', type=Path, help="the plan's file")
    many.add_argument('scores', metavar='SCORES', nargs='+', help='folders of scores, and scores')
    many.add_argument('--into', metavar='RESULTS', required=True, help='the folder of results: a new one, or that of an earlier run')
    many.add_argument('--jobs', metavar='N', type=_positive, help='how many scores are run at once (as many as there are processors)')
    many.add_argument('--again', action='store_true', help='runs all anew, and not only what has changed or was not done')
    many.add_argument('--part', metavar='K/N', type=_part, default=(1, 1), help='runs the K-th of N parts of the scores')
    many.add_argument('--name', metavar='PATTERN', default='*.krn', help='which files of a folder are scores (*.krn, in small or capital letters)')
    many.add_argument('--timeout', metavar='SECONDS', type=_seconds, help='how long one score may take')
    one = commands.add_parser('show', allow_abbrev=False, help='writes a page on which one sees the columns of each stage',
                              description='Writes a page of HTML that needs nothing else: each stage of the plan with its columns.')
    one.add_argument('plan', metavar='PLAN', type=Path, help="the plan's file")
    one.add_argument('score', metavar='SCORE', nargs='?', type=Path, help='what the plan reads as /dev/stdin (else what is written to this command)')
    one.add_argument('--encoding', default='utf-8', help='the encoding of the scores (utf-8)')
    return parser


class _Ended(BaseException):
    """SIGTERM or SIGINT came."""


def _end(number: int, _: object) -> NoReturn:
    """Stops the run, which then needs a moment in which no other signal counts."""
    for each in SIGNALS:
        signal.signal(each, signal.SIG_IGN)
    raise _Ended(number)


def _corpus(given: argparse.Namespace) -> int:
    for each in SIGNALS:
        signal.signal(each, _end)
    try:
        summary = corpus(given.plan, given.scores, given.into, jobs=given.jobs, again=given.again, part=given.part, pattern=given.name,
                         timeout=given.timeout)
    except _Ended as ended:
        print('humpipe: stopped; the same command goes on from here', file=sys.stderr)
        return 128 + int(ended.args[0])
    print(_told(summary))
    if summary.gone:
        names = ', '.join(shown(name) for name in summary.gone[:3]) + (' ..' if len(summary.gone) > 3 else '')
        print(f'humpipe: {len(summary.gone)} results are of scores that are not there any more: {names}', file=sys.stderr)
    for name, why in summary.failed:
        print(f'humpipe: {shown(name)}: {why}', file=sys.stderr)
    return summary.status


def _told(summary: Summary) -> str:
    parts = [f'{summary.scores} score{"s" * (summary.scores != 1)}', f'{summary.refused} refused']
    if summary.kept:
        parts.append(f'{summary.kept} as before')
    if summary.failed:
        parts.append(f'{len(summary.failed)} could not be run')
    return ', '.join(parts)


def _show(given: argparse.Namespace) -> int:
    from .show import page
    with tempfile.TemporaryDirectory(prefix='humpipe-') as folder:
        score = given.score
        if score is None and not sys.stdin.isatty():
            # the score is what is written to this program
            score = os.path.join(folder, 'standard input')
            with open(score, 'xb') as file:
                shutil.copyfileobj(sys.stdin.buffer, file)
            score = score if os.path.getsize(score) else None
        text = page(given.plan, score, encoding=given.encoding)
    sys.stdout.buffer.write(text.encode('utf-8', 'replace'))
    return 0


def main(words: Optional[List[str]] = None) -> int:
    parser = _arguments()
    given = parser.parse_args(words)
    if given.version:
        print(_version())
        return 0
    if given.what is None:
        parser.error('no COMMAND: corpus or show')
    try:
        return {'corpus': _corpus, 'show': _show}[given.what](given)
    except (Error, ValueError, OSError) as error:
        print(f'humpipe: {error}', file=sys.stderr)
        return 2


if __name__ == '__main__':
    sys.exit(main())
