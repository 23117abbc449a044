"""Cuts a score into records and tokens, and follows its spines."""
import os
from itertools import count
from typing import Dict, Iterable, Iterator, List, NamedTuple, Optional, Sequence, Tuple, Union

from .faults import unread
from .running import ERRORS, Bytes, Plan, Scores, lines

Source = Union[str, Bytes, 'os.PathLike[str]']

# the tokens that change spines, and what a line may end with
PATHS = frozenset(['*^', '*v', '*x', '*+', '*-'])
ENDS = ('\n', '\r')
KINDS = {'!': 'local comment', '*': 'interpretation'}


class Record(NamedTuple):
    """A line of a score.

    `kind` is `'global comment'`, `'local comment'`, `'interpretation'` or `'data'`. `spines` has for each token the field, counted from 1 at the
    opening record, of the spine that it comes from, as for `extract -f`; `names` has the exclusive interpretation of its column. A global comment
    is one token without a spine."""

    line: int
    kind: str
    tokens: Tuple[str, ...]
    spines: Tuple[int, ...]
    names: Tuple[str, ...]

    @property
    def is_barline(self) -> bool:
        """Whether it is a data record of barlines, with nothing but null tokens beside them."""
        return self.kind == 'data' and is_barline(self.tokens)


class Column(NamedTuple):
    """A column: the field of the opening record that it comes from, the number of its thread, and its exclusive interpretation.

    The threads are the spines of the opening record, numbered from 1, and after them each added spine. A split goes on in the thread of its
    spine, a join in the leftmost."""

    spine: int
    thread: int
    name: str


class Columns:
    """The columns of a score, which its interpretations change."""

    def __init__(self) -> None:
        self.now: List[Column] = []
        self._threads = count(1)

    def open(self, width: int) -> None:
        """Begins a score: so many columns without a name."""
        self._threads = count(width + 1)
        self.now = [Column(field, field, '') for field in range(1, width + 1)]

    def name(self, tokens: Sequence[str]) -> None:
        """Takes over the exclusive interpretations of a record."""
        self.now = [column._replace(name=token) if token.startswith('**') else column for token, column in zip(tokens, self.now)]

    def step(self, tokens: Sequence[str]) -> List[Tuple[int, ...]]:
        """Follows the path indicators of an interpretation. Gives for each column after it the places before it that it comes from."""
        order = list(range(len(tokens)))
        places = [place for place, token in enumerate(tokens) if token == '*x']
        if len(places) == 2:
            left, right = places
            order[left], order[right] = right, left
        after: List[Column] = []
        sources: List[Tuple[int, ...]] = []
        before = ''
        for token, place in zip(tokens, order):
            column = self.now[place]
            if token == '*v' and before == '*v':
                sources[-1] += (place,)
            elif token != '*-':
                after.append(column)
                sources.append((place,))
            if token == '*^':
                after.append(column)
                sources.append((place,))
            elif token == '*+':
                after.append(Column(column.spine, next(self._threads), ''))
                sources.append(())
            before = token
        self.now = after
        return sources


def is_barline(tokens: Sequence[str]) -> bool:
    """Whether these data tokens are barlines, with nothing but null tokens beside them."""
    return any(token[:1] == '=' for token in tokens) and all(token[:1] == '=' or token == '.' for token in tokens)


def records(text: Optional[Source] = None, *, plan: Optional[Plan] = None, scores: Scores = None, encoding: str = 'utf-8',
            timeout: Optional[float] = None) -> Iterator[Record]:
    """The records of a score, in order: of a text, of a file as a `pathlib.Path`, or of what a `plan` over `scores` gives (as for `run`), as the
    program writes it, so that a long score takes no more memory than a short one.

    What is no score any more, as after `rid -I`, has the fields of each line as its spines, and no names. A score that breaks a rule of spines
    raises a `ValueError`; what humpipe writes never does."""
    if (text is None) == (plan is None):
        raise TypeError('records takes a text, or a plan')
    if plan is not None:
        return _records(lines(plan, scores, encoding=encoding, timeout=timeout))
    assert text is not None
    return _records(lines_in(text, encoding))


def _records(whole_lines: Iterable[str]) -> Iterator[Record]:
    columns = Columns()
    spines: Tuple[int, ...] = ()
    names: Tuple[str, ...] = ()
    new = tuple.__new__
    for line, whole in enumerate(whole_lines, 1):
        if whole[-1:] in ENDS:
            whole = without_end(whole)
        if whole[:2] == '!!':
            yield new(Record, (line, 'global comment', (whole,), (), ()))
            continue
        tokens = tuple(whole.split('\t'))
        kind = KINDS.get(whole[:1], 'data')
        if not spines:
            columns.open(len(tokens))
            spines, names = _of(columns.now)
        if len(tokens) != len(spines):
            raise ValueError(f'line {line} has {len(tokens)} tokens, and there are {len(spines)} spines')
        if kind == 'interpretation':
            columns.name(tokens)
            spines, names = _of(columns.now)
            yield new(Record, (line, kind, tokens, spines, names))
            columns.step(tokens)
            spines, names = _of(columns.now)
        else:
            yield new(Record, (line, kind, tokens, spines, names))
            if not any(names):
                spines = ()


def _of(columns: List[Column]) -> Tuple[Tuple[int, ...], Tuple[str, ...]]:
    return tuple(column.spine for column in columns), tuple(column.name for column in columns)


def lines_in(text: Source, encoding: str = 'utf-8') -> Iterator[str]:
    """The lines of a text or of a file."""
    if isinstance(text, os.PathLike):
        try:
            with open(text, encoding=encoding, errors=ERRORS, newline='\n') as file:
                yield from file
        except OSError as error:
            raise unread(os.fspath(text), error) from error
    else:
        yield from whole_lines(text, encoding)


def whole_text(text: Source, encoding: str = 'utf-8') -> str:
    """A text, or that of a file."""
    if isinstance(text, os.PathLike):
        return ''.join(lines_in(text, encoding))
    return text if isinstance(text, str) else bytes(text).decode(encoding, ERRORS)


def whole_lines(text: Source, encoding: str = 'utf-8') -> List[str]:
    """The lines of a text or of a file, all at once and without their ends."""
    whole = whole_text(text, encoding)
    parts = whole.split('\n')
    if not parts[-1]:
        parts.pop()
    return [without_end(line) for line in parts] if '\r' in whole else parts


def without_end(line: str) -> str:
    line = line[:-1] if line.endswith('\n') else line
    return line[:-1] if line.endswith('\r') else line


def labels(columns: Iterable[Column]) -> Dict[int, str]:
    """What the column of each thread is called in a table: as its first exclusive interpretation, numbered where several have the same; the threads of
    the opening record come first."""
    names: Dict[int, str] = {}
    for column in columns:
        names.setdefault(column.thread, column.name)
    of_name: Dict[str, List[int]] = {}
    for thread in sorted(names):
        of_name.setdefault(names[thread], []).append(thread)
    return {thread: str(thread) if not name else name if len(of_name[name]) == 1 else f'{name} {of_name[name].index(thread) + 1}'
            for thread, name in names.items()}
