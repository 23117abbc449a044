"""Runs a plan over folders of scores, so that a run that was stopped goes on where it was."""
import hashlib
import os
import stat
import uuid
from concurrent.futures import Executor
from contextlib import closing
from functools import partial
from typing import Iterable, List, NamedTuple, Optional, Sequence, Set, Tuple

from .codes import CODES
from .faults import Fault, RunError, unread
from .feeding import answer
from .folders import KEPT, TABLE, Score, found, shown
from .journal import Entry, Journal, Known, Made, alone, hash_of, known
from .many import checked, each, lost, with_bar
from .plans import STANDARD_INPUT, reads
from .program import Path, program
from .running import Plan

NOT_RUN = ('-', '-', '-', '-', 'not run yet')
HEAD = ('score', 'status', 'stage', 'line', 'rule', 'meaning')


class Summary(NamedTuple):
    """How a run over a corpus ended: how many scores there were, how many of them a rule refused, and of how many the result was there from before;
    of each that couldn't be run its name and why; and which results are there of scores that aren't any more."""

    scores: int
    refused: int
    kept: int
    failed: List[Tuple[str, str]]
    gone: List[str]

    @property
    def status(self) -> int:
        """0 if all answered, 1 if some were refused by a rule, 2 if some couldn't be run."""
        return 2 if self.failed else 1 if self.refused else 0


class Job(NamedTuple):
    """A score, and what is known of it: entries that may hold still, the hashes of results that it had, and the place of its result."""

    score: Score
    entries: List[Entry]
    results: List[str]
    place: str


class Settled(NamedTuple):
    """What became of a job: the entry, and a file with the result, or none where the result is there from before."""

    entry: Entry
    file: Optional[str] = None
    is_kept: bool = False


def corpus(plan: Plan, scores: Iterable[Path], into: Path, *, jobs: Optional[int] = None, executor: Optional[Executor] = None, again: bool = False,
           part: Tuple[int, int] = (1, 1), pattern: str = '*.krn', timeout: Optional[float] = None, progress: Optional[bool] = None) -> Summary:
    """Runs a plan that reads `/dev/stdin` over `scores`, files and folders, and puts the result of each below the folder `into`.

    A result appears whole or not at all; a score that is refused has none. `into/faults.tsv` has each score once, refused or not. A result that is
    there from an earlier run is kept, if plan, program and score are the same, unless `again` says otherwise. `part` is `(K, N)` for the K-th of N parts
    of the work, which may run side by side, on machines that share the folders. `jobs`, `executor`, `timeout` and `progress` are as for `map`.

    Raises a `ValueError` where nothing can be run as it was asked: results and scores that lie in each other, or a folder with files of its own."""
    text = checked(plan)
    results = os.path.abspath(into)
    all_scores = found(scores, results, pattern)
    if not all_scores:
        raise ValueError(f'no scores: nothing fits {pattern}')
    number, parts = part
    if not 1 <= number <= parts:
        raise ValueError(f'no part {number}/{parts}')
    _take_folder(results)
    made = _made(text)
    journal = Journal(results, part, made)
    own = all_scores[number - 1::parts]
    try:
        run = _Run(results, journal, known(results, made))
        work = partial(_settle_all, text, timeout, again, journal.scratch)
        with closing(each(work, run.jobs(own), run.lost, jobs, executor, in_order=False)) as settled:
            for one in with_bar(settled, own, progress):
                run.take(one)
    finally:
        _write_table(results, all_scores, made)
        journal.close()
    return run.summary(len(own), {score.name for score in all_scores})


def _take_folder(results: str) -> None:
    """Makes the folder of results, or goes on with one that was made so. One with other files is left alone."""
    os.makedirs(results, exist_ok=True)
    there = os.listdir(results)
    if there and KEPT not in there:
        raise ValueError(f'{shown(results)} has files that are no results: name a new folder')
    os.makedirs(os.path.join(results, KEPT), exist_ok=True)


def _made(plan: bytes) -> Made:
    """The hashes of a plan, with the files that it reads beside the score, and of the program."""
    found = hashlib.sha256(plan)
    for word in reads(plan.decode()):
        if word.text not in STANDARD_INPUT:
            try:
                found.update(hash_of(word.text).encode())
            except OSError as error:
                raise unread(word.text, error) from error
    return Made(found.hexdigest(), hash_of(program()))


def _settle_all(plan: bytes, timeout: Optional[float], again: bool, scratch: str, jobs: Sequence[Job]) -> List[Settled]:
    """What becomes of these scores, in a thread or a process."""
    return [_settle(plan, timeout, again, scratch, job) for job in jobs]


def _settle(plan: bytes, timeout: Optional[float], again: bool, scratch: str, job: Job) -> Settled:
    """What becomes of one score. The result goes into a fresh file."""
    name = job.score.name
    try:
        score, there = _hashes(job)
    except RunError as error:
        return Settled(_failed(name, error))
    for entry in job.entries:
        if not again and entry.status < 2 and (entry.score, entry.result) == (score, there):
            return Settled(entry, None, True)
    file = os.path.join(scratch, uuid.uuid4().hex)
    with open(file, 'xb') as out:
        fault = answer(plan, job.score.path, stdout=out, timeout=timeout).error
    if fault is None:
        return Settled(Entry(name, 0, score, hash_of(file)), file)
    os.unlink(file)
    return Settled(_refused(name, score, fault) if isinstance(fault, Fault) else _failed(name, fault))


def _hashes(job: Job) -> Tuple[str, Optional[str]]:
    """The hash of a score, and of the result that is there. One that was never made here is left alone."""
    try:
        if stat.S_ISREG(os.stat(job.score.path).st_mode):
            score = hash_of(job.score.path)
        else:
            raise RunError('is no file')
    except OSError as error:
        raise RunError(error.strerror or str(error)) from error
    try:
        there = hash_of(job.place) if os.path.lexists(job.place) else None
    except OSError as error:
        raise RunError(f'its result: {error.strerror or error}') from error
    if there is not None and there not in job.results:
        raise RunError('its result was changed since it was made: move it away')
    return score, there


def _refused(name: str, score: str, fault: Fault) -> Entry:
    meaning = CODES.get(fault.rule, '').partition('. ')[0] or '-'
    return Entry(name, 1, score, None, f'{fault.stage} ({fault.command})', str(fault.line), fault.rule, meaning)


def _failed(name: str, error: Exception) -> Entry:
    return Entry(name, 2, meaning=shown(str(error)))


class _Run:
    """Puts results at their places, and counts."""

    def __init__(self, results: str, journal: Journal, before: Known) -> None:
        self.results, self.journal, self.before = results, journal, before
        self.folders: Set[str] = set()
        self.refused = self.kept = 0
        self.failed: List[Tuple[str, str]] = []

    def jobs(self, scores: Iterable[Score]) -> List[Job]:
        return [Job(score, self.before.entries.get(score.name, []), self.before.results.get(score.name, []), os.path.join(self.results, score.name))
                for score in scores]

    def lost(self, job: Job, error: Exception) -> Settled:
        return Settled(_failed(job.score.name, lost(error)))

    def take(self, settled: Settled) -> None:
        entry = settled.entry
        if not settled.is_kept:
            try:
                entry = self.put(settled)
            except OSError as error:
                entry = self.journal.add(_failed(entry.name, RunError(f'its result: {error.strerror or error}')))
        elif entry != _latest(self.before.entries[entry.name]):
            entry = self.journal.add(entry)
        self.kept += settled.is_kept
        self.refused += entry.status == 1
        if entry.status == 2:
            self.failed.append((entry.name, entry.meaning))

    def put(self, settled: Settled) -> Entry:
        """Writes the entry, and then puts the result where it belongs: so each result that is there has its entry."""
        place = os.path.join(self.results, settled.entry.name)
        if settled.file:
            self.make_folder(os.path.dirname(place))
        entry = self.journal.add(settled.entry)
        if settled.file:
            os.replace(settled.file, place)
        elif entry.status == 1 and os.path.lexists(place):
            os.unlink(place)
        return entry

    def make_folder(self, folder: str) -> None:
        """Makes a folder below that of the results; a link that leads out of it is no such folder."""
        if folder in self.folders:
            return
        os.makedirs(folder, exist_ok=True)
        top = os.path.realpath(self.results)
        if os.path.relpath(folder, self.results) != os.path.relpath(os.path.realpath(folder), top):
            raise NotADirectoryError(0, 'a link stands where its folder should be', folder)
        self.folders.add(folder)

    def summary(self, count: int, names: Set[str]) -> Summary:
        gone = [name for name in sorted(self.before.results) if name not in names and os.path.lexists(os.path.join(self.results, name))]
        return Summary(count, self.refused, self.kept, sorted(self.failed), gone)


def _latest(entries: List[Entry]) -> Optional[Entry]:
    return max(entries, key=lambda entry: entry.at) if entries else None


def _write_table(results: str, scores: Iterable[Score], made: Made) -> None:
    """Makes the table of all scores from what is known of them, whole or not at all."""
    with alone(results):
        entries = known(results, made).entries
        rows = ['\t'.join(HEAD)]
        for score in scores:
            entry = _latest(entries.get(score.name, []))
            if entry and entry.status == 0 and not os.path.lexists(os.path.join(results, score.name)):
                # ended between its entry and its result
                entry = None
            cells = (str(entry.status), entry.stage, entry.line, entry.rule, entry.meaning) if entry else NOT_RUN
            rows.append('\t'.join((shown(score.name), *cells)))
        file = os.path.join(results, KEPT, uuid.uuid4().hex)
        with open(file, 'x', encoding='utf-8') as out:
            out.write('\n'.join(rows) + '\n')
        os.replace(file, os.path.join(results, TABLE))
