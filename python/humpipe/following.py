"""What each stage of a plan gives, and how its columns and records go on in the next: the facts of the page that `show` makes."""
import os
from typing import Callable, Dict, Iterator, List, Mapping, NamedTuple, Optional, Sequence, Tuple

from .faults import Error, Fault, Missing, PlanFault, RunError
from .links import links_of
from .plans import STANDARD_INPUT, Stage, branches, quoted
from .running import ERRORS, Plan, Scores, plan_bytes, run
from .scores import KINDS, PATHS, Column, Columns, whole_lines



class Root(NamedTuple):
    """A spine where it is read: the number of its source, and its field there."""

    source: int
    field: int


class Thread(NamedTuple):
    """What a column comes from: spines that were read, mostly one, and the number of an added spine in them, or 0."""

    roots: Tuple[Root, ...]
    added: int


class Cell(NamedTuple):
    """A column of a record: its field, as for `extract -f` on the panel's text, its thread, and its number among the columns of this thread."""

    field: int
    thread: Thread
    part: int


class Row(NamedTuple):
    """A record: its line, its kind, its tokens, what column each is in, and after an interpretation with path indicators the columns that follow,
    each with the places that it comes from."""

    line: int
    kind: str
    tokens: Tuple[str, ...]
    cells: Tuple[Cell, ...]
    after: Optional[Tuple[Tuple[Cell, Tuple[int, ...]], ...]] = None


class Panel:
    """A stage: what it gives, and from which panels."""

    def __init__(self, stage: Stage, text: str, inputs: 'List[Panel]') -> None:
        self.stage = stage
        self.text = text
        self.inputs = inputs
        # for each of its spines the places (input, field) that it takes
        self.takes: List[List[Tuple[int, int]]] = []
        self.roots: List[Tuple[Root, ...]] = []
        self.rows: List[Row] = []
        # for each input and each of its lines the lines here that come of it
        self.links: List[Dict[int, List[int]]] = []


class Refused(NamedTuple):
    """Where a fault is shown: the panel and its line, or the line of a source that was refused, the places of the tokens, and the fault."""

    panel: Panel
    line: int
    places: Tuple[int, ...]
    raw: Optional[str]
    fault: Fault


class Story:
    """All panels of a plan, in the order of its stages, with the names of the sources, and what was told at the end."""

    def __init__(self, plan: Plan, scores: Scores = None, encoding: str = 'utf-8') -> None:
        self.plan = plan_bytes(plan).decode('utf-8', ERRORS)
        self.scores = scores
        self.encoding = encoding
        self.sources: List[str] = []
        self.panels: List[Panel] = []
        self.error: Optional[Error] = None
        self.text = ''
        self.branches: List[Tuple[str, List[Stage]]] = []
        try:
            self.text = run(plan, scores, encoding=encoding)
        except Missing:
            raise
        except Error as error:
            self.error = error
            self.text = error.text
        if isinstance(self.error, PlanFault):
            return
        self.branches = branches(self.plan)
        last: Dict[str, Panel] = {}
        for name, stages in self.branches:
            before: List[Panel] = []
            for stage in stages:
                if stage.command == 'assemble':
                    before = [last[branch] for branch in stage.options]
                panel = self.panel(stage, before)
                self.panels.append(panel)
                before = [panel]
            last[name] = before[0]

    def panel(self, stage: Stage, inputs: List[Panel]) -> Panel:
        panel = Panel(stage, self.text_of(stage, inputs), inputs)
        if stage.command == 'read':
            source = self.source(stage.options[0])
            width = next((line.count('\t') + 1 for line in whole_lines(panel.text) if not line.startswith('!!')), 0)
            panel.roots = [(Root(source, field),) for field in range(1, width + 1)]
        else:
            panel.takes = takes(stage, [first_names(one.text) for one in inputs])
            panel.roots = [tuple(root for place, field in fields for root in inputs[place].roots[field - 1]) for fields in panel.takes]
            panel.links = links_of(stage, [one.text for one in inputs], panel.text, self.encoding)
        panel.rows = list(rows(panel))
        return panel

    def source(self, name: str) -> int:
        if name not in self.sources:
            self.sources.append(name)
        return self.sources.index(name)

    def text_of(self, stage: Stage, inputs: List[Panel]) -> str:
        """What a stage gives of its inputs. Where these break off, it is what was settled before."""
        try:
            if stage.command == 'read':
                name = stage.options[0]
                plan = f'out: read {quoted(name)}'
                if isinstance(self.scores, Mapping):
                    return run(plan, {name: self.scores[name]} if name in self.scores else {}, encoding=self.encoding)
                return run(plan, self.scores if name in STANDARD_INPUT else None, encoding=self.encoding)
            texts = {f'in{place}': panel.text for place, panel in enumerate(inputs)}
            return run(plan_of(stage, len(inputs)), texts, encoding=self.encoding)
        except Error as error:
            return error.text

    def refused(self) -> Optional[Refused]:
        """Where the fault stands, if a stage refused."""
        fault = self.error
        if not isinstance(fault, Fault):
            return None
        panel = self.panels[fault.stage - 1]
        if panel.stage.command == 'read':
            lines = whole_lines(self.raw(panel.stage.options[0]))
            raw = lines[fault.line - 1] if fault.line <= len(lines) else ''
            return Refused(panel, fault.line, places_of(fault, raw.split('\t'), panel), raw, fault)
        if panel.stage.command == 'assemble':
            return Refused(panel, fault.line, (), '', fault)
        before = panel.inputs[0]
        row = next((row for row in before.rows if row.line == fault.line), None)
        places = places_of(fault, row.tokens, before, panel.stage, row) if row else ()
        return Refused(before, fault.line, places, None if row else '', fault)

    def raw(self, name: str) -> str:
        """A source as it is."""
        score = self.scores[name] if isinstance(self.scores, Mapping) else self.scores if name in STANDARD_INPUT else name
        if isinstance(score, (bytes, bytearray, memoryview)):
            return bytes(score).decode(self.encoding, ERRORS)
        if isinstance(self.scores, Mapping) and isinstance(score, str):
            return score
        assert isinstance(score, (str, os.PathLike))
        with open(score, encoding=self.encoding, errors=ERRORS, newline='\n') as file:
            return file.read()


def plan_of(stage: Stage, inputs: int) -> str:
    """A plan with this stage alone, over the scores in0, in1 ..."""
    if stage.command == 'assemble':
        names = [f'p{place}' for place in range(inputs)]
        return ''.join(f'{name}: read in{place}\n' for place, name in enumerate(names)) + f'out: assemble {" ".join(names)}\n'
    return f'out: read in0 | {stage.text}\n'


def first_names(text: str) -> List[str]:
    """The exclusive interpretations of the opening record."""
    return next((line.split('\t') for line in whole_lines(text) if not line.startswith('!!')), [])


def takes(stage: Stage, names: List[List[str]]) -> List[List[Tuple[int, int]]]:
    """For each spine that a stage gives, the inputs and their fields that it takes."""
    if stage.command == 'assemble':
        return [[(place, field)] for place, some in enumerate(names) for field in range(1, len(some) + 1)]
    fields = range(1, len(names[0]) + 1)
    options = stage.options
    if stage.command == 'extract':
        value = options[1]
        chosen = set(value.split(',')) if options[0] == '-i' else _listed(value, len(names[0]))
        return [[(0, field)] for field in fields if (names[0][field - 1] in chosen if options[0] == '-i' else str(field) in chosen)]
    if stage.command == 'cleave':
        cleaved = [(0, field) for field in fields if names[0][field - 1] == options[options.index('-i') + 1]]
        return [cleaved if (0, field) in cleaved else [(0, field)] for field in fields if (0, field) not in cleaved[1:]]
    return [[(0, field)] for field in fields]


def _listed(value: str, width: int) -> 'set[str]':
    """The fields of `extract -f`."""
    chosen = set()
    for item in value.replace('$', str(width)).split(','):
        first, _, last = item.partition('-')
        chosen |= {str(field) for field in range(int(first), int(last or first) + 1)}
    return chosen


def rows(panel: Panel) -> Iterator[Row]:
    """The records of a panel with their columns."""
    columns = Columns()
    added: Dict[int, Tuple[int, Thread]] = {}
    has_names = not (panel.stage.command == 'rid' and any('I' in word for word in panel.stage.options))
    back = {} if has_names else {line: before for before, lines in panel.links[0].items() for line in lines}
    for line, whole in enumerate(whole_lines(panel.text), 1):
        tokens = tuple(whole.split('\t'))
        if whole.startswith('!!'):
            yield Row(line, 'global comment', (whole,), ())
        elif not has_names:
            yield Row(line, KINDS.get(whole[:1], 'data'), tokens, panel.inputs[0].rows[back[line] - 1].cells)
        else:
            if not columns.now:
                columns.open(len(tokens))
            kind = KINDS.get(whole[:1], 'data')
            cells = _cells(columns.now, panel, added)
            if kind != 'interpretation':
                yield Row(line, kind, tokens, cells)
                continue
            columns.name(tokens)
            sources = columns.step(tokens)
            after = tuple(zip(_cells(columns.now, panel, added), sources)) if PATHS.intersection(tokens) else None
            yield Row(line, kind, tokens, cells, after)


def _cells(columns: Sequence[Column], panel: Panel, added: Dict[int, Tuple[int, Thread]]) -> Tuple[Cell, ...]:
    found = []
    parts: Dict[int, int] = {}
    for column in columns:
        roots = panel.roots[column.spine - 1]
        if column.thread > len(panel.roots) and column.thread not in added:
            added[column.thread] = column.spine, Thread(roots, 1 + sum(spine == column.spine for spine, _ in added.values()))
        parts[column.thread] = parts.get(column.thread, 0) + 1
        thread = added[column.thread][1] if column.thread in added else Thread(roots, 0)
        found.append(Cell(column.spine, thread, parts[column.thread]))
    return tuple(found)


# for rules on lines and spines, what the tokens are that break them; where none is named it is the whole record
BREAKS: Dict[str, Callable[[str], bool]] = {
    'S4': lambda token: token == '', 'S6': lambda token: token.startswith('!!'), 'P1': lambda token: not token.startswith('**'),
    'P10': lambda token: token == '**', 'P4': lambda token: token == '*x', 'P5': lambda token: token == '*v', 'X1': lambda token: token == '*v',
    'X3': lambda token: token == '*x', 'C1': lambda token: token in PATHS, 'C2': lambda token: token.startswith('**'),
    'P11': lambda token: token in PATHS or token.startswith('**'), 'S8': lambda token: '\r' in token,
}


def places_of(fault: Fault, tokens: Sequence[str], panel: Panel, stage: Optional[Stage] = None, row: Optional[Row] = None) -> Tuple[int, ...]:
    """The places of the tokens that break a rule. On notes the program is asked, token by token."""
    if fault.rule in BREAKS:
        found = [place for place, token in enumerate(tokens) if BREAKS[fault.rule](token)]
    elif fault.rule == 'P3':
        found = [place for place, token in enumerate(tokens) if token == '*v' and '*v' not in (*tokens[max(place - 1, 0):place], *tokens[place + 1:place + 2])]
    elif fault.rule == 'S5':
        found = [place for place, token in enumerate(tokens) if KINDS.get(token[:1]) != KINDS.get(tokens[0][:1])]
    elif stage and row and row.kind == 'data':
        names = names_at(panel.text, fault.line)
        found = [place for place, (name, token) in enumerate(zip(names, tokens)) if name and _is_refused(fault, stage, name, token)]
    else:
        found = []
    return tuple(found)


def names_at(text: str, line: int) -> List[str]:
    """The exclusive interpretation of each column of a line."""
    columns = Columns()
    for whole in whole_lines(text)[:line]:
        tokens = whole.split('\t')
        if whole.startswith('!!'):
            continue
        if not columns.now:
            columns.open(len(tokens))
        if whole.startswith('*'):
            columns.name(tokens)
            columns.step(tokens)
    return [column.name for column in columns.now]


def _is_refused(fault: Fault, stage: Stage, name: str, token: str) -> bool:
    """Whether the stage refuses a score of this token alone by the same rule."""
    try:
        run(plan_of(stage, 1), {'in0': f'{name}\n{token}\n*-\n'})
    except Fault as other:
        return other.rule == fault.rule
    except RunError:
        pass
    return False
