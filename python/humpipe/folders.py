"""Finds the scores of folders, and says where their results go."""
import fnmatch
import os
import unicodedata
from typing import Dict, Iterable, Iterator, List, NamedTuple, Tuple

from .faults import unread
from .program import Path

# what stands among the results: the table, and what is known of each
TABLE = 'faults.tsv'
KEPT = '.humpipe'
OWN = (TABLE, KEPT)
SHORT = {'\\': '\\\\', '\n': '\\n', '\r': '\\r', '\t': '\\t'}


class Score(NamedTuple):
    """A score: its path, and its name, which is the path of its result below the folder of results."""

    path: str
    name: str


def found(scores: Iterable[Path], into: Path, pattern: str = '*.krn') -> List[Score]:
    """The scores, in the order of their names: files, and what is below folders and fits the pattern, in small or capital letters. Links are followed.

    Raises a `ValueError` where results and scores would lie in each other, or two scores would have one result."""
    results = os.path.realpath(into)
    names: Dict[str, str] = {}
    for given in scores:
        path = os.fspath(given)
        try:
            os.lstat(path)
            _apart(path, results)
            for score in _below(path, pattern, results) if os.path.isdir(path) else [Score(path, os.path.basename(path))]:
                if score.name in names:
                    raise ValueError(f'{shown(names[score.name])} and {shown(score.path)} would have one result, {shown(score.name)}')
                if score.name.split('/')[0] in OWN:
                    raise ValueError(f'{shown(score.path)} would have a result where the table stands, or what is kept beside it')
                names[score.name] = score.path
        except OSError as error:
            raise unread(shown(os.fspath(error.filename or path)), error) from error
    return [Score(path, name) for name, path in sorted(names.items())]


def _below(top: str, pattern: str, results: str) -> Iterator[Score]:
    """The scores below a folder. A link to a folder that it lies in isn't followed."""
    folders: List[Tuple[str, str, Tuple[Tuple[int, int], ...]]] = [(top, '', (_identity(top),))]
    while folders:
        folder, name, above = folders.pop()
        with os.scandir(folder) as entries:
            for entry in entries:
                if entry.is_symlink():
                    _apart(entry.path, results)
                if entry.is_dir():
                    identity = _identity(entry.path)
                    if identity not in above:
                        folders.append((entry.path, f'{name}{entry.name}/', (*above, identity)))
                elif fnmatch.fnmatchcase(entry.name.lower(), pattern.lower()):
                    yield Score(entry.path, name + entry.name)


def _identity(path: str) -> Tuple[int, int]:
    status = os.stat(path)
    return status.st_dev, status.st_ino


def _apart(path: str, results: str) -> None:
    """Raises a ValueError if scores and results would lie in each other."""
    real = os.path.realpath(path)
    if os.path.commonpath([real, results]) in (real, results):
        raise ValueError(f'the results {shown(results)} and the scores {shown(path)} lie in each other: name another folder for the results')


def shown(name: str) -> str:
    """A name in one line: what would end the line or a field, steer a terminal, or isn't UTF-8 is written as an escape of C and Python, and a backslash
    as two."""
    return name if name.isascii() and name.isprintable() and '\\' not in name else ''.join(_shown(char) for char in name)


def _shown(char: str) -> str:
    if char in SHORT:
        return SHORT[char]
    if '\udc80' <= char <= '\udcff':
        return f'\\x{ord(char) - 0xdc00:02x}'
    if unicodedata.category(char) in ('Cc', 'Cf', 'Cs', 'Zl', 'Zp'):
        return f'\\x{ord(char):02x}' if ord(char) < 0x80 else f'\\u{ord(char):04x}' if ord(char) < 0x10000 else f'\\U{ord(char):08x}'
    return char
