"""Where the records of each panel stand on the page: records that come of each other in one row, as far as their order allows."""
from itertools import count
from typing import Dict, Iterator, List, NamedTuple, Optional, Tuple

from .following import Panel, Refused, Row
from .scores import is_barline
from .tables import BAR

LARGEST_GROUP = 40


class Line(NamedTuple):
    """A row of the page: for each panel that has a record there its index; whether spines change there, and whether a fault is told under it."""

    rows: Dict[int, int]
    has_step: bool
    has_fault: bool


class Group(NamedTuple):
    """Rows of the page from one barline to the next: the label of the bar, and the rows."""

    label: str
    lines: List[Line]


def groups(panels: List[Panel], refused: Optional[Refused]) -> List[Group]:
    """The rows of the page, by the bars of the first panel."""
    order, rows_at = _placed(panels)
    has_bars = _has_bars(panels[0])
    found: List[Group] = [Group('start', [])]
    for key in order:
        rows = rows_at[key]
        label = _bar(panels[0].rows[rows[0]]) if 0 in rows else None
        if label is not None:
            found.append(Group(label, []))
        elif len(found[-1].lines) >= LARGEST_GROUP and not has_bars:
            found.append(Group(f'from line {panels[0].rows[rows[0]].line}' if 0 in rows else 'more', []))
        has_step = any(panels[place].rows[index].after is not None for place, index in rows.items())
        has_fault = refused is not None and any(panels[place] is refused.panel and panels[place].rows[index].line == refused.line
                                                for place, index in rows.items())
        found[-1].lines.append(Line(rows, has_step, has_fault))
    return [group for group in found if group.lines]


def _has_bars(panel: Panel) -> bool:
    return any(_bar(row) is not None for row in panel.rows)


def _bar(row: Row) -> Optional[str]:
    """The bar that begins at a record."""
    if row.kind != 'data' or not is_barline(row.tokens):
        return None
    found = BAR.search('\t'.join(row.tokens))
    return f'bar {int(found[1])}' if found else None


def _placed(panels: List[Panel]) -> Tuple[List[int], Dict[int, Dict[int, int]]]:
    """The rows of the page in order, and for each which record of each panel stands there."""
    numbers = count()
    order: List[int] = []
    rows_at: Dict[int, Dict[int, int]] = {}
    keys: List[List[int]] = []
    for place, panel in enumerate(panels):
        wanted = list(_wanted(place, panels, keys))
        where = {key: index for index, key in enumerate(order)}
        merged: List[int] = []
        own: List[int] = []
        begin = 0
        for key in wanted:
            if key is not None and where[key] >= begin:
                merged += order[begin:where[key] + 1]
                begin = where[key] + 1
            else:
                key = next(numbers)
                rows_at[key] = {}
                merged.append(key)
            own.append(key)
        order = merged + order[begin:]
        for index, key in enumerate(own):
            rows_at[key][place] = index
        keys.append(own)
    return order, rows_at


def _wanted(place: int, panels: List[Panel], keys: List[List[int]]) -> Iterator[Optional[int]]:
    """For each record of a panel the row of the page where it should stand: that of the record that it comes of, of the same line of a source that is
    read again, or of the record of the first panel that has its number among those of its kind in its bar."""
    panel = panels[place]
    back: Dict[int, int] = {}
    for one, links in reversed(list(zip(panel.inputs, panel.links))):
        own = keys[panels.index(one)]
        back.update({line: own[before - 1] for before, lines in reversed(list(links.items())) for line in lines[:1] if 0 < before <= len(own)})
    if not panel.inputs and place:
        same = next((index for index in range(place) if not panels[index].inputs and panels[index].stage.options == panel.stage.options), None)
        if same is not None:
            back = {line: key for line, key in enumerate(keys[same], 1)}
        else:
            first = dict(zip(_positions(panels[0]), keys[0]))
            back = {line: first[position] for line, position in enumerate(_positions(panel), 1) if position in first}
    for row in panel.rows:
        yield back.get(row.line)


def _positions(panel: Panel) -> Iterator[Tuple[str, str, int]]:
    """For each record the bar, its kind, and its number among those of this kind in this bar."""
    bar = ''
    counts: Dict[str, int] = {}
    for row in panel.rows:
        label = _bar(row)
        if label is not None or row.cells and not bar:
            bar, counts = label or 'opening', {}
        counts[row.kind] = counts.get(row.kind, 0) + 1
        yield bar, row.kind, counts[row.kind]
