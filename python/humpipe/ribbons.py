"""How threads look: their colours and labels, and the ribbons where spines split, join, change places, are added and end."""
from typing import Dict, List, Sequence, Tuple

from .following import Cell, Root, Row, Story, Thread

# told apart by those who don't tell red and green apart, and in print; for a light and for a dark page
LIGHT = ['#0072b2', '#c8500a', '#008060', '#a0378c', '#8a6d00', '#3f6fd8', '#7a4a28', '#5b6478', '#b3123f', '#4e7a10']
DARK = ['#5ab4f0', '#ff9a5c', '#3fd6a8', '#ee9ad8', '#eccb4d', '#9db8ff', '#d3a27a', '#b3bdd2', '#ff86a5', '#b6d957']
Widths = List[int]


class Style:
    """The colours and labels of all threads of a page."""

    def __init__(self, story: Story) -> None:
        self._sources = len(story.sources)
        self._numbers: Dict[Thread, int] = {}
        self._layouts: Dict[str, str] = {}
        for panel in story.panels:
            for roots in panel.roots:
                self.number(Thread(roots, 0))

    def number(self, thread: Thread) -> int:
        return self._numbers.setdefault(thread, len(self._numbers))

    def name(self, thread: Thread) -> str:
        """The class of a thread's cells."""
        return f't{self.number(thread)}'

    def label(self, thread: Thread) -> str:
        """What a thread is called: its field where it was read, with a letter for the source if there are several."""
        names = [self._root(root) for root in thread.roots]
        added = '' if not thread.added else '+' if thread.added == 1 else f'+{thread.added}'
        return ('+'.join(names) if len(names) < 4 else f'{names[0]}..{names[-1]}') + added

    def _root(self, root: Root) -> str:
        letter = chr(ord('a') + root.source % 26) if self._sources > 1 else ''
        return f'{letter}{root.field}'

    def chip(self, thread: Thread) -> str:
        return f'<span class="chip {self.name(thread)}">{self.label(thread)}</span>'

    def layout(self, widths: Widths, cells: Sequence[Cell]) -> str:
        """The class of what lies across columns of these threads."""
        layers, left = [], 0
        for width, cell in zip(widths, cells):
            number = self.number(cell.thread)
            layers += [f'var(--r{number}) {left}ch 0/3px 100% no-repeat',
                       f'linear-gradient(var(--b{number}) 0 0) {left}ch 0/calc({width}ch - 2px) 100% no-repeat']
            left += width
        return self._layouts.setdefault(f'background:{",".join(layers)}' if layers else '', f'l{len(self._layouts)}')

    def css(self) -> str:
        """The colours as variables, and the classes."""
        light = ''.join(self._variables(thread, LIGHT) for thread in self._numbers)
        dark = ''.join(self._variables(thread, DARK) for thread in self._numbers)
        classes = ''.join(f'.t{n}{{--c:var(--c{n});--b:var(--b{n});--r:var(--r{n})}}\n' for n in self._numbers.values())
        layouts = ''.join(f'.{name}{{{rule}}}\n' for rule, name in self._layouts.items())
        return f':root{{{light}}}\n@media (prefers-color-scheme:dark){{:root{{{dark}}}}}\n{classes}{layouts}'

    def _variables(self, thread: Thread, palette: List[str]) -> str:
        """The colour of a thread, its tint, and its bar: a spine of many has the bars of all."""
        number = self.number(thread)
        colours = [palette[self.number(Thread((root,), 0)) % len(palette)] for root in thread.roots]
        if thread.added:
            colours = [palette[number % len(palette)]]
        colour = _mixed(colours)
        bands = ','.join(f'{one} {4 * place}px {4 * place + 4}px' for place, one in enumerate(colours))
        if len(colours) == 1 and number >= len(palette):
            # the second of this colour has a broken bar
            bands = f'{colour} 0 7px,transparent 7px 11px'
        bar = f'repeating-linear-gradient({bands})'
        return f'--c{number}:{colour};--b{number}:{colour}2b;--r{number}:{bar};'


def _mixed(colours: List[str]) -> str:
    parts = [[int(colour[at:at + 2], 16) for at in (1, 3, 5)] for colour in colours]
    return '#' + ''.join(f'{sum(part) // len(part):02x}' for part in zip(*parts))


def strip(style: Style, widths: Widths, row: Row, stage: int) -> str:
    """The ribbons from the columns of a record to those after it, and what becomes of each in words."""
    assert row.after is not None
    ribbons = ''.join(_ribbon(*one) for one in _ribbons(style, widths, row))
    labels = ''.join(f'<i class="{style.name(cell.thread)}" style="left:calc({100 * sum(widths[:place]) / sum(widths):.3f}% + 7px)">'
                     f'{style.label(cell.thread)}{f"/{cell.part}" if cell.part > 1 else ""}</i>' for place, (cell, _) in enumerate(row.after))
    words = '; '.join(_words(row, place, cell, sources) for place, (cell, sources) in enumerate(row.after)) or 'no spine goes on'
    return (f'<tr class="strip"><th></th><td colspan="{len(widths)}">'
            f'<svg viewBox="0 0 {sum(widths)} 10" preserveAspectRatio="none" aria-hidden="true">{ribbons}</svg>'
            f'{labels}<span class="vh">After this record: {words}.</span></td></tr>')


def _words(row: Row, place: int, cell: Cell, sources: Tuple[int, ...]) -> str:
    old = ' and '.join(str(source + 1) for source in sources)
    return f'column {place + 1} is spine {cell.field}, ' + (f'from column {old}' if old else 'new')


Edges = Tuple[float, float]


def _ribbons(style: Style, widths: Widths, row: Row) -> List[Tuple[str, Edges, Edges]]:
    """Each ribbon: the class of its thread, and where it begins and ends."""
    assert row.after is not None
    lefts: List[float] = [sum(widths[:place]) for place in range(len(widths) + 1)]
    uses: Dict[int, int] = {}
    for _, sources in row.after:
        for source in sources:
            uses[source] = uses.get(source, 0) + 1
    used: Dict[int, int] = {}
    found: List[Tuple[str, Edges, Edges]] = []
    for place, (cell, sources) in enumerate(row.after):
        below = (lefts[place], lefts[place + 1] - 0.2)
        name = style.name(cell.thread)
        if not sources:
            # a new spine grows out of the right edge of the one beside it
            edge = lefts[row.after[place - 1][1][0] + 1] - 0.2
            found.append((name, (edge, edge), below))
        for number, source in enumerate(sources):
            above = _share((lefts[source], lefts[source + 1] - 0.2), used.get(source, 0), uses[source])
            used[source] = used.get(source, 0) + 1
            found.append((style.name(row.cells[source].thread), above, _share(below, number, len(sources))))
    for place, cell in enumerate(row.cells):
        if place not in uses:
            middle = (lefts[place] + lefts[place + 1]) / 2
            found.append((style.name(cell.thread), (lefts[place], lefts[place + 1] - 0.2), (middle, middle)))
    return found


def _share(edges: Edges, number: int, count: int) -> Edges:
    width = (edges[1] - edges[0]) / count
    return edges[0] + number * width, edges[0] + (number + 1) * width


def _ribbon(name: str, above: Edges, below: Edges) -> str:
    (a, b), (c, d) = above, below
    end = 7 if c == d else 10
    half = end / 2
    return (f'<g class="{name}"><path class="band" d="M{a:g} 0C{a:g} {half:g} {c:g} {half:g} {c:g} {end}L{d:g} {end}C{d:g} {half:g} {b:g} {half:g} {b:g} 0Z"/>'
            f'<path class="edge" d="M{a:g} 0C{a:g} {half:g} {c:g} {half:g} {c:g} {end}"/></g>')
