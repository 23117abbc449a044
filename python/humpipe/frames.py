"""A score as a DataFrame. pandas' own reader of tables cuts the data records, all of one width at once."""
import io
from typing import Any, Dict, List, Tuple

import numpy
import pandas

from .scores import Column, Source, is_barline, whole_text
from .tables import BAR, Grid, Place, Spines, grid

TAB, NEWLINE, COMMENT, STAR, EQUALS, ZERO = b'\t\n!*=0'
# the second byte of an exclusive interpretation or of a path indicator
PATHS = numpy.isin(numpy.arange(256), list(b'^vx+-'))
# more digits than these don't fit into a number of 64 bits
DIGITS = 18
# so few records, or so many bytes a token, are cut faster by Python
FEW, LONG = 64, 40
READER: Dict[str, Any] = {'sep': '\t', 'header': None, 'dtype': object, 'na_filter': False, 'quoting': 3, 'skip_blank_lines': False, 'lineterminator': '\n',
                          'index_col': False, 'engine': 'c', 'low_memory': False, 'encoding_errors': 'surrogatepass'}


class _Lines:
    """The lines of a score: where each begins and ends in its bytes, how many tokens it has, and which are of what kind."""

    def __init__(self, text: str) -> None:
        self.bytes = _unended(text)
        self.codes = codes = numpy.frombuffer(self.bytes, numpy.uint8)
        # (a tab and a line feed are 9 and 10)
        ends = numpy.flatnonzero(codes - numpy.uint8(TAB) < 2)
        begins = numpy.append(0, ends[:-1] + 1)
        last = numpy.flatnonzero(codes[ends] == NEWLINE)
        first = numpy.append(0, last[:-1] + 1)
        self.begins, self.ends, self.widths = begins[first], ends[last], last - first + 1
        heads = codes[begins]
        kinds = heads[first]
        self.is_interpretation = kinds == STAR
        self.changes = self._changes(heads, begins, ends, last)
        self.barlines = self._barlines(numpy.add.reduceat(heads == EQUALS, first, dtype=numpy.int32), kinds)
        self.is_data = ~self.is_interpretation & (kinds != COMMENT)
        self.is_data[self.barlines] = False

    def _changes(self, heads: Any, begins: Any, ends: Any, last: Any) -> Any:
        """The interpretations that change columns: those with an exclusive one or a path indicator."""
        stars = numpy.flatnonzero(heads == STAR)
        begin, end = begins[stars], ends[stars]
        second = self.codes[begin + 1]
        lines = numpy.unique(numpy.searchsorted(last, stars[(second == STAR) | PATHS[second] & (end - begin == 2)]))
        return lines[self.is_interpretation[lines]]

    def _barlines(self, equals: Any, kinds: Any) -> Any:
        """The data records of barlines, by the number of tokens in each line that begin as one."""
        lines = numpy.flatnonzero((equals > 0) & (kinds != STAR) & (kinds != COMMENT))
        is_whole = equals[lines] == self.widths[lines]
        for place in numpy.flatnonzero(~is_whole):
            is_whole[place] = is_barline(self.text(lines[place]).split('\t'))
        return lines[is_whole]

    def text(self, line: int) -> str:
        return self.bytes[self.begins[line]:self.ends[line]].decode('utf-8', 'surrogatepass')

    def of(self, lines: Any) -> bytes:
        """These lines with their ends, in order, without what is between them."""
        after = numpy.flatnonzero(numpy.diff(lines) != 1) + 1
        begins = self.begins[lines[numpy.append(0, after)]].tolist()
        ends = self.ends[lines[numpy.append(after, len(lines)) - 1]].tolist()
        whole = self.bytes
        return b''.join([whole[begin:end + 1] for begin, end in zip(begins, ends)])

    def bars(self) -> Tuple[Any, Any]:
        """The barlines that have a number, and their numbers. Most have it behind their first byte."""
        begins = self.begins[self.barlines] + 1
        at, numbers = begins.copy(), numpy.zeros(len(begins), int)
        for _ in range(DIGITS):
            digits = self.codes[at] - numpy.uint8(ZERO)
            is_digit = digits < 10
            if not is_digit.any():
                break
            numbers[is_digit] = numbers[is_digit] * 10 + digits[is_digit]
            at += is_digit
        is_there = at > begins
        for place in numpy.flatnonzero(~is_there | (at - begins == DIGITS)):
            found = BAR.search(self.text(self.barlines[place]))
            if found and len(found[1]) >= DIGITS:
                raise ValueError('a bar of a number with too many digits')
            is_there[place], numbers[place] = (True, int(found[1])) if found else (False, 0)
        return self.barlines[is_there], numbers[is_there]


def _unended(text: str) -> bytes:
    """The bytes of a text whose lines end in line feeds alone."""
    if not text or '\0' in text or '\ufeff' in text:
        raise ValueError('what the reader of tables would take for something else')
    whole = text.encode('utf-8', 'surrogatepass')
    whole = whole if whole.endswith(b'\n') else whole + b'\n'
    return whole.replace(b'\r\n', b'\n') if '\r' in text else whole


class _States:
    """The columns of a score from one of the interpretations that change them to the next, by the number of the state that they are in."""

    def __init__(self, lines: _Lines) -> None:
        self.lines = lines
        self.spines = Spines()
        self.numbers: Dict[Tuple[Column, ...], int] = {}
        self.columns: List[List[Column]] = []
        self.places: Dict[int, List[Place]] = {}
        self.after: Dict[Tuple[int, bytes], int] = {}
        is_change = numpy.zeros(len(lines.widths), int)
        is_change[lines.changes] = 1
        stretches = numpy.cumsum(is_change)
        self.counted = numpy.flatnonzero((lines.is_data | lines.is_interpretation) & (is_change == 0))
        self.stretches = stretches[self.counted]
        self.of_lines = numpy.array(self._follow(stretches))[stretches]
        widths = numpy.array([len(columns) for columns in self.columns])
        if (widths[self.of_lines[self.counted]] != lines.widths[self.counted]).any():
            raise ValueError('a record with more or fewer tokens than there are columns')

    def _number(self) -> int:
        now = self.spines.columns.now
        number = self.numbers.setdefault(tuple(now), len(self.columns))
        if number == len(self.columns):
            self.columns.append(now)
        return number

    def _follow(self, stretches: Any) -> List[int]:
        """The state of each stretch of lines."""
        changes, whole = self.lines.changes, self.lines.bytes
        has_data = (numpy.bincount(stretches[self.lines.is_data], minlength=len(changes) + 1) > 0).tolist()
        begins, ends = self.lines.begins[changes].tolist(), self.lines.ends[changes].tolist()
        states = []
        state = self._number()
        for stretch, is_told in enumerate(has_data):
            state = state or self._opened(stretch)
            states.append(state)
            if is_told and state not in self.places:
                self.spines.columns.now = self.columns[state]
                self.places[state] = self.spines.places()
            if stretch < len(begins):
                line = whole[begins[stretch]:ends[stretch]]
                state = self.after.get((state, line)) or self._changed(state, line)
        return states

    def _opened(self, stretch: int) -> int:
        """The state of a stretch before which there are no columns: its first record says how many there are."""
        place = numpy.searchsorted(self.stretches, stretch)
        if place < len(self.stretches) and self.stretches[place] == stretch:
            self.spines.columns.open(int(self.lines.widths[self.counted[place]]))
            return self._number()
        return 0

    def _changed(self, state: int, line: bytes) -> int:
        """The state behind an interpretation. It is remembered, but where a spine is added, which is another one each time."""
        self.spines.columns.now = self.columns[state]
        self.spines.interpret(0, line.decode('utf-8', 'surrogatepass').split('\t'))
        after = self._number()
        if state and b'*+' not in line:
            self.after[state, line] = after
        return after


def _tokens(records: bytes, count: int, width: int) -> Any:
    """The tokens of so many records, a row for each column."""
    if count < FEW or len(records) > LONG * count * width:
        tokens = records[:-1].decode('utf-8', 'surrogatepass').replace('\n', '\t').split('\t')
        return numpy.fromiter(tokens, object, count * width).reshape(count, width).T
    return pandas.read_csv(io.BytesIO(records), names=range(width), **READER).to_numpy().T


def _block(lines: _Lines, states: _States, rows: Any, index: Dict[Place, int]) -> Any:
    """The tokens of these data records, a row for each place."""
    block = numpy.full((len(index), len(rows)), None, object)
    widths, states_of = lines.widths[rows], states.of_lines[rows]
    for width in sorted({len(places) for places in states.places.values()}):
        some = numpy.flatnonzero(widths == width)
        tokens = _tokens(lines.of(rows[some]), len(some), width)
        known = [state for state, places in states.places.items() if len(places) == width]
        at = numpy.array([[index[place] for place in states.places[state]] for state in known])
        if len(some) == len(rows) and len(known) == 1:
            block[at[0]] = tokens
        else:
            number = numpy.zeros(len(states.columns), int)
            number[known] = numpy.arange(len(known))
            block[at[number[states_of[some]]].T, some] = tokens
    return block


def _index(lines: Any, bars: Any) -> pandas.MultiIndex:
    """The index of records of these lines in these bars."""
    count = len(lines)
    first = numpy.flatnonzero(numpy.append(True, numpy.diff(bars) != 0)[:count])
    levels, codes = numpy.unique(bars[first], return_inverse=True)
    codes = numpy.repeat(codes, numpy.diff(numpy.append(first, count)))
    return pandas.MultiIndex([levels, lines], [codes, numpy.arange(count)], names=['bar', 'line'], verify_integrity=False)


def _read(text: str) -> Tuple[Any, pandas.MultiIndex, List[str]]:
    """The tokens of a score, a row for each column, their index, and the labels of the columns."""
    lines = _Lines(text)
    states = _States(lines)
    rows = numpy.flatnonzero(lines.is_data)
    labelled = states.spines.labelled(place for places in states.places.values() for place in places)
    block = _block(lines, states, rows, {place: number for number, place in enumerate(labelled.values())})
    barlines, numbers = lines.bars()
    bars = numpy.append(0, numbers)[numpy.searchsorted(barlines, rows)]
    return block, _index(rows + 1, bars), list(labelled)


def _of_grid(found: Grid) -> Tuple[Any, pandas.MultiIndex, List[str]]:
    """The same of a grid."""
    count = len(found.lines)
    block = numpy.empty((len(found.columns), count), object)
    for place, cells in enumerate(found.columns.values()):
        block[place] = numpy.fromiter(cells, object, count)
    return block, _index(numpy.fromiter(found.lines, int, count), numpy.fromiter(found.bars, int, count)), list(found.columns)


def frame(text: Source, encoding: str) -> pandas.DataFrame:
    """The data of a score as a DataFrame. Where a rule of spines is broken, or the reader would take something else than tokens, or is too old, a grid
    has the answer."""
    whole = whole_text(text, encoding)
    try:
        block, index, labels = _read(whole)
    except (TypeError, ValueError):
        block, index, labels = _of_grid(grid(whole))
    block[block == '.'] = None
    return pandas.DataFrame(block.T, index, labels)
