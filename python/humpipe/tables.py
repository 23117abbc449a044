"""The data of scores as tables: a row for each data record, a column for each spine."""
import re
import warnings
from functools import lru_cache
from itertools import groupby
from typing import TYPE_CHECKING, Any, Dict, Iterable, Iterator, List, NamedTuple, Optional, Sequence, Tuple

from . import many
from .program import Path
from .running import ERRORS, Plan
from .scores import Column, Columns, Source, is_barline, labels, whole_lines

if TYPE_CHECKING:
    import pandas

BAR = re.compile(r'(?:^|\t)=+([0-9]+)')
REFERENCE = re.compile(r'^!!!([^:\n]*):[ \t]*(.*?)[ \t]*\r?$', re.M)
Cells = List[Optional[str]]
# the field of the opening record, the thread, and the number among the columns of the thread
Place = Tuple[int, int, int]

# what a line that isn't plain data begins with
OTHERS = frozenset('!*=')


class Grid(NamedTuple):
    """The data records of a score: the line and the bar of each, and for each column its label and its tokens, with None where it isn't there."""

    lines: List[int]
    bars: List[int]
    columns: Dict[str, Cells]


class Spines:
    """The columns of a score, and where their tokens go: under the thread of their column, and the number of that column among those of its thread."""

    def __init__(self) -> None:
        self.columns = Columns()
        self.named: List[Column] = []

    def interpret(self, line: int, tokens: Sequence[str]) -> None:
        columns = self.columns
        if not columns.now:
            columns.open(len(tokens))
        if len(tokens) != len(columns.now):
            raise ValueError(f'line {line} has {len(tokens)} tokens, and there are {len(columns.now)} spines')
        if any(token.startswith('**') for token in tokens):
            columns.name(tokens)
            self.named += columns.now
        columns.step(tokens)

    def places(self) -> List[Place]:
        """The places of the columns that have data now."""
        self.named += [column for column in self.columns.now if not column.name]
        parts: Dict[int, int] = {}
        places = []
        for spine, thread, _ in self.columns.now:
            part = parts[thread] = parts.get(thread, 0) + 1
            places.append((spine, thread, part))
        return places

    def labelled(self, places: Iterable[Place]) -> Dict[str, Place]:
        """The labels of these places, and of the first of each column that was named, in their order."""
        names = labels(self.named)
        first = [(spine, thread, 1) for spine, thread, _ in self.named]
        return {names[thread] + (f'/{part}' if part > 1 else ''): (spine, thread, part) for spine, thread, part in sorted({*places, *first})}


class _Gatherer:
    """Gathers the data records between two interpretations, and puts their tokens into their places."""

    def __init__(self) -> None:
        self.spines = Spines()
        self.cells: Dict[Place, Cells] = {}
        self.rows: List[str] = []
        self.lines: List[int] = []
        self.bars: List[int] = []

    def take(self, whole_lines: List[str]) -> None:
        """Takes the lines of a score. Most are plain data: those between two others are taken at once."""
        rows, lines, bars, bar = self.rows, self.lines, self.bars, 0
        begin = 0
        others = [place for place, line in enumerate(whole_lines) if line[:1] in OTHERS or '\t=' in line]
        for place in [*others, len(whole_lines)]:
            if begin < place:
                rows += whole_lines[begin:place]
                lines += range(begin + 1, place + 1)
                bars += [bar] * (place - begin)
            begin = place + 1
            line = whole_lines[place] if place < len(whole_lines) else '!'
            if line[0] == '*':
                self.flush()
                self.spines.interpret(place + 1, line.split('\t'))
            elif line[0] != '!':
                if line[0] == '=' and line.count('\t=') == line.count('\t') or is_barline(line.split('\t')):
                    found = BAR.search(line)
                    bar = int(found[1]) if found else bar
                else:
                    begin = place

    def flush(self) -> None:
        """Puts the records since the last interpretation into their columns. Where there are no names any more, as after `rid -I`, each stretch of
        records of one width is for itself."""
        rows = self.rows[:]
        self.rows.clear()
        begin = len(self.lines) - len(rows)
        if not rows or self.put(rows, begin):
            return
        for width, stretch in groupby(rows, lambda row: row.count('\t') + 1):
            some = list(stretch)
            columns = self.spines.columns
            if width != len(columns.now):
                if any(column.name for column in columns.now):
                    raise ValueError(f'line {self.lines[begin]} has {width} tokens, and there are {len(columns.now)} spines')
                columns.open(width)
            self.put(some, begin)
            begin += len(some)

    def put(self, rows: List[str], begin: int) -> bool:
        """Puts records into their columns, if each has as many tokens as there are columns."""
        width = len(self.spines.columns.now)
        # a line end, which is in no token, behind each record says whether all are of this width
        tokens = '\t\n\t'.join(rows).split('\t')
        if len(tokens) != len(rows) * (width + 1) - 1 or tokens[width::width + 1].count('\n') != len(rows) - 1:
            return False
        for number, place in enumerate(self.spines.places()):
            cells = self.cells.setdefault(place, [])
            cells += [None] * (begin - len(cells))
            cells += tokens[number::width + 1]
        return True

    def grid(self) -> Grid:
        self.flush()
        count = len(self.lines)
        columns = {label: self.cells.get(place, []) for label, place in self.spines.labelled(self.cells).items()}
        return Grid(self.lines, self.bars, {label: cells + [None] * (count - len(cells)) for label, cells in columns.items()})


def grid(text: Source, encoding: str = 'utf-8') -> Grid:
    """The data of a score."""
    gatherer = _Gatherer()
    gatherer.take(whole_lines(text, encoding))
    return gatherer.grid()


def frame(text: Source, *, encoding: str = 'utf-8') -> 'pandas.DataFrame':
    """The data of a score as a DataFrame, a row for each data record and a column for each spine.

    A row is named by `bar`, the number of the last barline that has one (0 before), and `line`, both of the text that is given: of what a plan gave,
    and not of the score that it read. Barlines themselves are left out, and null tokens are `None`. A column is called as its exclusive
    interpretation, with a number behind it where several spines have the same: `**kern 1`, `**kern 2`. An added spine is called by its own, and
    numbered behind those of the opening record. Where a spine is split, its second column is `**kern 2/2`."""
    from . import frames
    return frames.frame(text, encoding)


class Table:
    """The rows of a table, where there is no pandas: `to_dicts()` gives them, and `faults` the outcomes of the scores that have none."""

    def __init__(self, columns: Dict[str, List[Any]], faults: List[many.Outcome]) -> None:
        self.columns = list(columns)
        self.faults = faults
        self._columns = columns

    def __len__(self) -> int:
        return len(next(iter(self._columns.values()), []))

    def to_dicts(self) -> List[Dict[str, Any]]:
        """A dictionary for each row."""
        return [dict(zip(self.columns, row)) for row in zip(*self._columns.values())]


@lru_cache(maxsize=None)
def _frame_class() -> Any:
    """The DataFrame that `table` gives."""
    import pandas

    class Frame(pandas.DataFrame):  # type: ignore[misc]
        """The rows of a table: a DataFrame whose `faults` are the outcomes of the scores that have none."""

        _metadata = ['faults']

        @property
        def _constructor(self) -> Any:
            return Frame

        def to_dicts(self) -> List[Dict[str, Any]]:
            """A dictionary for each row."""
            return list(self.to_dict('records'))

    return Frame


def table(plan: Plan, paths: Iterable[Path], *, reference: Sequence[str] = (), jobs: Optional[int] = None, executor: Any = None,
          progress: Optional[bool] = None, encoding: str = 'utf-8', timeout: Optional[float] = None) -> Any:
    """One table of what a plan that reads `/dev/stdin` gives for many scores: a row for each data record.

    Its columns are `file`, the `reference` records of the score that are asked for (`['COM', 'OTL']`), `bar` and `line` of the record in what the
    plan gave, and one for each spine, called as for `frame`. It is a pandas DataFrame, and a `Table` where pandas isn't there; both have
    `to_dicts()`, which polars and others take, and `faults`: the outcomes of the scores that were refused. These have no rows, and a warning says how
    many they are. `jobs`, `executor`, `progress`, `encoding` and `timeout` are as for `map`."""
    keys = [reference] if isinstance(reference, str) else list(reference)
    columns: Dict[str, List[Any]] = {name: [] for name in ['file', *keys, 'bar', 'line']}
    spines: Dict[str, List[Any]] = {}
    faults: List[many.Outcome] = []
    total = count = 0
    for outcome in many.map(plan, paths, jobs, progress, executor=executor, encoding=encoding, timeout=timeout):
        total += 1
        if outcome.fault:
            faults.append(outcome)
            continue
        found = grid(outcome.text)
        columns['file'] += [outcome.path] * len(found.lines)
        for key, value in zip(keys, _references(outcome.path, keys, encoding)):
            columns[key] += [value] * len(found.lines)
        columns['bar'] += found.bars
        columns['line'] += found.lines
        for label, cells in found.columns.items():
            column = spines.setdefault(label, [])
            column += [None] * (count - len(column))
            column += [None if token == '.' else token for token in cells]
        count += len(found.lines)
    for column in spines.values():
        column += [None] * (count - len(column))
    if faults:
        warnings.warn(f'{len(faults)} of {total} scores were refused and have no rows: they are in faults', stacklevel=2)
    return _table({**columns, **spines}, faults)


def _table(columns: Dict[str, List[Any]], faults: List[many.Outcome]) -> Any:
    try:
        frame_class = _frame_class()
    except ImportError:
        return Table(columns, faults)
    whole = frame_class(columns).astype({name: object for name in columns if name not in ('bar', 'line')})
    whole.faults = faults
    return whole


def _references(path: str, keys: Sequence[str], encoding: str) -> Iterator[Optional[str]]:
    """The values of these reference records of a score, several of one key joined by `; `. A key that isn't there alone may be there with a language:
    `OTL@@DE`."""
    if not keys:
        return
    with open(path, encoding=encoding, errors=ERRORS) as file:
        found = REFERENCE.findall(file.read())
    for key in keys:
        values = [value for name, value in found if name == key] or [value for name, value in found if name.partition('@')[0] == key]
        yield '; '.join(values) if values else None
