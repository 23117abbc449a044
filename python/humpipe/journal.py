"""What a folder of results knows of each: by which plan and program it was made, and of which score, by hash.

It stands in RESULTS/.humpipe, in one file for each part of the work, `1-of-1.jsonl` where there is one. Each run begins with a line on the plan and the
program; each score adds a line before its result is put at its place, so that no result is there of which no line tells."""
import fcntl
import hashlib
import json
import os
import shutil
import time
from contextlib import contextmanager
from typing import IO, Dict, Iterable, Iterator, List, NamedTuple, Optional, Tuple

from .folders import KEPT


class Made(NamedTuple):
    """The hashes of the plan, with the files that it reads beside the score, and of the program."""

    plan: str
    program: str


class Entry(NamedTuple):
    """What became of a score: status 0 for an answer, 1 for a refusal, 2 where it couldn't be run. `score` and `result` are hashes, the latter of what
    was answered."""

    name: str
    status: int
    score: str = ''
    result: Optional[str] = None
    stage: str = '-'
    line: str = '-'
    rule: str = '-'
    meaning: str = '-'
    at: float = 0.0


class Known(NamedTuple):
    """What the lines tell: the entries of each name that were made as now, and the hashes of all results that it ever had."""

    entries: Dict[str, List[Entry]]
    results: Dict[str, List[str]]


class Busy(ValueError):
    """Another run is at work on the same part."""


class Journal:
    """The lines of one part, which one run at a time adds to."""

    def __init__(self, results: str, part: Tuple[int, int], made: Made) -> None:
        self.folder = os.path.join(results, KEPT)
        self.made = made
        stem = os.path.join(self.folder, f'{part[0]}-of-{part[1]}')
        # a lock of its own, since closing any file that has one gives it up
        self._lock: IO[str] = open(f'{stem}.lock', 'a', encoding='utf-8')
        try:
            fcntl.lockf(self._lock, fcntl.LOCK_EX | fcntl.LOCK_NB)
        except OSError as error:
            self._lock.close()
            raise Busy(f'another run is at work in {results}') from error
        self._file: IO[str] = open(f'{stem}.jsonl', 'a', encoding='utf-8')
        self.scratch = f'{stem}.tmp'
        shutil.rmtree(self.scratch, ignore_errors=True)
        os.mkdir(self.scratch)
        # a line that a killed run began is ended, and counts for nothing
        self._write('\n' + json.dumps(made._asdict()))

    def add(self, entry: Entry) -> Entry:
        dated = entry._replace(at=time.time())
        self._write(json.dumps(dated))
        return dated

    def _write(self, line: str) -> None:
        self._file.write(line + '\n')
        self._file.flush()

    def close(self) -> None:
        shutil.rmtree(self.scratch, ignore_errors=True)
        self._file.close()
        self._lock.close()


def known(results: str, made: Made) -> Known:
    """What the lines of all parts tell. A line that isn't whole tells nothing."""
    seen = Known({}, {})
    folder = os.path.join(results, KEPT)
    for name in sorted(os.listdir(folder)):
        if name.endswith('.jsonl'):
            with open(os.path.join(folder, name), encoding='utf-8', errors='replace') as lines:
                _take(lines, made, seen)
    return seen


def _take(lines: Iterable[str], made: Made, seen: Known) -> None:
    is_same = False
    for line in lines:
        try:
            told = json.loads(line)
            if isinstance(told, dict):
                is_same = Made(**told) == made
                continue
            entry = Entry(*told)
        except (ValueError, TypeError):
            continue
        if entry.result:
            seen.results.setdefault(entry.name, []).append(entry.result)
        if is_same:
            seen.entries.setdefault(entry.name, []).append(entry)


@contextmanager
def alone(results: str) -> Iterator[None]:
    """Waits until no other run makes the table."""
    with open(os.path.join(results, KEPT, 'table.lock'), 'a', encoding='utf-8') as file:
        fcntl.lockf(file, fcntl.LOCK_EX)
        yield


def hash_of(path: str) -> str:
    """The SHA-256 of a file."""
    found = hashlib.sha256()
    with open(path, 'rb') as file:
        for block in iter(lambda: file.read(1 << 20), b''):
            found.update(block)
    return found.hexdigest()
