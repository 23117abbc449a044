"""A page on which one sees the columns of each stage of a plan."""
import html
import os
import re
from typing import Dict, List, Optional, Sequence, Tuple

from .codes import CODES
from .faults import Explained, PlanFault
from .following import Cell, Panel, Refused, Row, Story, Thread
from .layout import Group, groups
from .plans import WORD
from .ribbons import Style, strip
from .running import Plan, Scores, Text

HERE = os.path.dirname(os.path.abspath(__file__))
MOST_OPEN = 250
MOST_IN_FRAME = 2_000
WORDS = {'*^': 'splits in two', '*v': 'joins its neighbour', '*x': 'changes places', '*+': 'gets a new spine beside it', '*-': 'ends'}
KINDS = {'global comment': 'global', 'local comment': 'local', 'interpretation': 'interpretation', 'data': 'data'}


def page(plan: Plan, scores: Scores = None, *, encoding: str = 'utf-8') -> str:
    """A page of HTML that needs nothing else: each stage of the plan as a panel, its records as a table, and each spine a coloured thread through
    splits, joins, exchanges, added and ended spines, the same from panel to panel. Records that come of each other stand side by side. A fault is marked
    at its stage, line and token. `plan` and `scores` are as for `run`."""
    story = Story(plan, scores, encoding)
    refused = story.refused()
    style = Style(story)
    all_groups = groups(story.panels, refused) if story.panels else []
    panels = [_Panel(story, index, style, refused).html(all_groups) for index in range(len(story.panels))]
    title = f'{_plan_name(plan)}{_score_name(scores)}'
    body = [_head(title, story, refused, all_groups), '<main>', _rail(all_groups), *_by_branch(story, panels), '</main>', _foot()]
    css, script = _read('page.css'), _read('page.js')
    return (f'<!DOCTYPE html>\n<html lang="en">\n<meta charset="utf-8">\n<meta name="viewport" content="width=device-width, initial-scale=1">\n'
            f'<title>{_text(title)}</title>\n<style>\n{css}{style.css()}</style>\n' + '\n'.join(body) + f'\n<script>\n{script}</script>\n</html>\n')


def shown(text: Text) -> str:
    """What a notebook shows of an answer: the page in a frame, or of a long one its first lines."""
    lines = text.count('\n')
    if lines > MOST_IN_FRAME:
        return f'<pre>{_text_lines(text, 200)}</pre><p>{lines} lines. humpipe.page(plan, scores) makes a page of all.</p>'
    whole = page(text.plan, text.scores, encoding=text.encoding)
    return f'<iframe title="humpipe" style="width:100%;height:36em;border:1px solid #8886" srcdoc="{html.escape(whole)}"></iframe>'


def _text_lines(text: str, count: int) -> str:
    return '\n'.join(_text(line.replace('\t', '        ')) for line in text.split('\n', count)[:count])


def _read(name: str) -> str:
    with open(os.path.join(HERE, name), encoding='utf-8') as file:
        return file.read()


def _text(text: str) -> str:
    """A text in HTML, where what a page can't hold is a sign for it."""
    return html.escape(''.join('\ufffd' if '\ud800' <= char <= '\udfff' else chr(0x2400 + ord(char)) if char < ' ' else char for char in text))


def _with_code(text: str) -> str:
    """A sentence of CODES, in which grave accents stand round code."""
    return re.sub('`([^`]+)`', r'<code>\1</code>', _text(text))


def _plan_name(plan: Plan) -> str:
    return os.path.basename(plan) if isinstance(plan, os.PathLike) else 'a plan'


def _score_name(scores: Scores) -> str:
    return f' · {os.path.basename(scores)}' if isinstance(scores, (str, os.PathLike)) else ''


def _head(title: str, story: Story, refused: Optional[Refused], all_groups: List[Group]) -> str:
    parts = [f'<header><h1>{_text(title)}</h1>', _plan(story), _told(story, refused)]
    if all_groups:
        bars = ''.join(f'<option value="{index}">{_text(group.label)}</option>' for index, group in enumerate(all_groups))
        parts.append(f'<form id="tools" role="search"><label>Go to <select id="bar">{bars}</select></label> '
                     '<label>Find <input id="find" type="search" autocomplete="off" spellcheck="false"></label> '
                     '<output id="found"></output> <button type="button" id="fold">Fold all</button> '
                     '<button type="button" id="unfold">Unfold all</button></form>'
                     '<p class="help">Each colour is one spine, and its number the field where it was read: 2/2 is the second column of spine 2, 2+ a spine '
                     'that was added to it. What stands in one row is one record, as it goes through the stages. '
                     '<span class="keys">Arrow keys move, a click or Enter holds a record.</span></p>')
    return ''.join(parts) + '</header>'


def _plan(story: Story) -> str:
    """The plan, each stage a link to its panel."""
    fault = story.error
    if isinstance(fault, PlanFault):
        lines = story.plan.rstrip('\n').split('\n')
        return f'<ol class="plan numbered">{"".join(_plan_line(line, number, fault) for number, line in enumerate(lines, 1))}</ol>'
    branches = []
    for name, stages in story.branches:
        links = ' <b>|</b> '.join(f'<a href="#s{stage.number}"{" class=bad" if _stage(fault) == stage.number else ""}><sup>{stage.number}</sup>'
                                  f'{_text(stage.text)}</a>' for stage in stages)
        branches.append(f'<li><code><i>{_text(name)}:</i> {links}</code></li>')
    return f'<ol class="plan">{"".join(branches)}</ol>'


def _plan_line(line: str, number: int, fault: PlanFault) -> str:
    """A line of a plan that is refused, with a mark at the word if it is the one."""
    if number != fault.line:
        return f'<li><code>{_text(line)}</code></li>'
    words = [found for found in WORD.finditer(line) if not found[3]]
    if not 1 <= fault.word <= len(words):
        return f'<li class="bad"><code>{_text(line)}</code></li>'
    begin, end = words[fault.word - 1].span()
    return f'<li class="at"><code>{_text(line[:begin])}<mark>{_text(line[begin:end])}</mark>{_text(line[end:])}</code></li>'


def _stage(fault: Optional[Exception]) -> int:
    return getattr(fault, 'stage', 0)


def _told(story: Story, refused: Optional[Refused]) -> str:
    """What went wrong, with the sentence of its code."""
    if story.error is None:
        return ''
    words = _text(story.error.message)
    meaning = _with_code(CODES.get(story.error.rule, '')) if isinstance(story.error, Explained) else ''
    where = f' <a href="#{_fault_id(refused)}">Show it</a>' if refused else ''
    return f'<p class="told" role="alert"><strong>{words}.</strong> {meaning}{where}</p>'


def _fault_id(refused: Refused) -> str:
    return f'fault-{refused.panel.stage.number}'


def _opened(all_groups: List[Group]) -> List[bool]:
    """Which bars are open at first: as many as make some hundred rows, and the one with the fault."""
    found, count = [], 0
    for group in all_groups:
        count += len(group.lines)
        found.append(count <= MOST_OPEN or any(line.has_fault for line in group.lines))
    return found


def _rail(all_groups: List[Group]) -> str:
    """The bars beside the panels, each a button that folds it."""
    bodies = []
    for index, (group, is_open) in enumerate(zip(all_groups, _opened(all_groups))):
        bodies.append(f'<tbody data-group="{index}"{"" if is_open else " class=folded"}><tr><th scope="row"><button type="button" '
                      f'aria-expanded="{"true" if is_open else "false"}" title="fold or unfold">{_text(group.label)}</button></th></tr>'
                      f'{_blank(_height(group) - 1)}</tbody>')
    return f'<nav class="rail" aria-label="Bars"><h2>Bars</h2><table>{"".join(bodies)}</table></nav>' if all_groups else ''


def _height(group: Group) -> int:
    return sum(1 + line.has_step + 3 * line.has_fault for line in group.lines)


def _blank(units: int, inside: str = '') -> str:
    return f'<tr class="blank" style="height:calc({units}*var(--h))">{inside or "<td></td>"}</tr>' if units else ''


def _by_branch(story: Story, panels: List[str]) -> List[str]:
    """The panels, those of a branch together."""
    found = []
    for name, stages in story.branches:
        inner = ''.join(panels[stage.number - 1] for stage in stages)
        found.append(f'<section class="branch" aria-label="branch {_text(name)}"><div class="branch-name">{_text(name)}:</div>'
                     f'<div class="panels">{inner}</div></section>')
    return found


def _foot() -> str:
    return '<footer><output id="status" aria-live="polite"></output></footer>'


class _Panel:
    """A stage as a table."""

    def __init__(self, story: Story, index: int, style: Style, refused: Optional[Refused]) -> None:
        self.story, self.index, self.style = story, index, style
        self.panel = story.panels[index]
        self.number = self.panel.stage.number
        self.refused = refused if refused and refused.panel is self.panel else None
        self.widths = _widths(self.panel)
        self.layout: Tuple[Cell, ...] = ()
        self.forward = self._forward()

    def _forward(self) -> Dict[int, str]:
        """For each line the id of the record that comes of it in a later panel."""
        found: Dict[int, str] = {}
        for later in self.story.panels:
            for one, links in zip(later.inputs, later.links):
                if one is self.panel:
                    found.update({line: f'r{later.stage.number}-{after[0]}' for line, after in links.items() if after})
        return found

    def html(self, all_groups: List[Group]) -> str:
        columns = ''.join(f'<col style="width:{width}ch">' for width in self.widths)
        count = len(self.panel.rows)
        bodies = ''.join(self.group(index, group) for index, group in enumerate(all_groups))
        same = self.same()
        button = f'<button type="button" class="same" aria-expanded="false">as {same}</button>' if same else ''
        return (f'<section class="panel{" closed" if same else ""}" id="s{self.number}" aria-labelledby="h{self.number}">{button}'
                f'<h2 id="h{self.number}"><span class="number">{self.number}</span> <code>{_text(self.panel.stage.text)}</code></h2>'
                f'<p class="takes">{self.takes()}</p>'
                f'<table style="width:calc({sum(self.widths)}ch + 5ch)"><caption>Stage {self.number}, {_text(self.panel.stage.command)}: '
                f'{count} record{"s" * (count != 1)}</caption><colgroup><col style="width:5ch">{columns}</colgroup>'
                f'{self.labels()}{bodies}{self.end()}</table></section>')

    def same(self) -> int:
        """The number of an earlier stage that reads the same score, or 0."""
        own = self.panel.stage
        return next((panel.stage.number for panel in self.story.panels[:self.index]
                     if own.command == 'read' and panel.stage.command == 'read' and panel.stage.options == own.options), 0)

    def takes(self) -> str:
        """Which threads the stage takes, where it is not all of one panel as they are."""
        panel, chip = self.panel, self.style.chip
        if panel.stage.command == 'read':
            return f'{len(panel.roots)} spine{"s" * (len(panel.roots) != 1)}'
        if panel.stage.command == 'assemble':
            return ', then '.join(f'{" ".join(chip(Thread(roots, 0)) for roots in one.roots)} of {_text(one.stage.branch)}' for one in panel.inputs)
        before = [Thread(roots, 0) for roots in panel.inputs[0].roots]
        taken = {panel.inputs[0].roots[field - 1] for fields in panel.takes for _, field in fields}
        merged = [fields for fields in panel.takes if len(fields) > 1]
        if merged:
            old = ' '.join(chip(Thread(panel.inputs[0].roots[field - 1], 0)) for _, field in merged[0])
            return f'{old} become one: {chip(Thread(panel.roots[panel.takes.index(merged[0])], 0))}'
        left = [thread for thread in before if thread.roots not in taken]
        if left:
            return f'keeps {" ".join(chip(thread) for thread in before if thread.roots in taken)}, drops {" ".join(chip(thread) for thread in left)}'
        return 'all spines'

    def labels(self) -> str:
        cells = ''.join(f'<th scope="col">{self.style.chip(Thread(roots, 0))}</th>' for roots in self.panel.roots)
        rest = len(self.widths) - len(self.panel.roots)
        return f'<thead><tr><th scope="col"><span class="vh">line</span></th>{cells}{f"<td colspan={rest}></td>" if rest > 0 else ""}</tr></thead>'

    def group(self, index: int, group: Group) -> str:
        parts: List[str] = []
        blank = 0
        before = first = self.layout
        for line in group.lines:
            place = line.rows.get(self.index)
            units = line.has_step + 3 * line.has_fault
            if place is None:
                blank += 1 + units
                continue
            row = self.panel.rows[place]
            parts += [self.gap(blank, before), self.row(row)]
            blank = units
            if row.after is not None:
                parts.append(strip(self.style, self.widths, row, self.number))
                blank -= 1
                self.layout = tuple(cell for cell, _ in row.after)
            elif row.cells:
                self.layout = row.cells
            before = self.layout
            if line.has_fault and self.refused and self.refused.line == row.line:
                parts += [self.gap(blank - 3, before), self.callout(self.refused)]
                blank = 0
        parts.append(self.gap(blank, before))
        count = sum(self.index in line.rows for line in group.lines)
        short = (f'<tr class="short"><th></th><td colspan="{len(self.widths)}" class="{self.style.layout(self.widths, first)}">'
                 f'<span class="over">{count or "no"} record{"s" * (count != 1)}</span></td></tr>')
        return f'<tbody data-group="{index}">{"".join(parts)}{short}</tbody>'

    def gap(self, units: int, layout: Sequence[Cell]) -> str:
        """Rows where this panel has no record: its threads go on."""
        return _blank(units, f'<th></th><td colspan="{len(self.widths)}" class="{self.style.layout(self.widths, layout)} faint"></td>') if units > 0 else ''

    def row(self, row: Row) -> str:
        kind = KINDS[row.kind]
        if row.kind == 'data' and row.tokens and all(token[:1] == '=' or token == '.' for token in row.tokens) and row.tokens[0][:1] == '=':
            kind = 'barline'
        bad = self.refused.places if self.refused and self.refused.line == row.line else ()
        marked = ' refused' if self.refused and self.refused.line == row.line else ''
        to = self.forward.get(row.line)
        number = f'<a href="#{to}" tabindex="-1">{row.line}</a>' if to else str(row.line)
        if row.kind == 'global comment':
            across = f'colspan="{len(self.widths)}" class="{self.style.layout(self.widths, self.layout)}"'
            cells = f'<td {across}><span class="over">{_text(row.tokens[0])}</span></td>'
        else:
            cells = ''.join(self.cell(cell, token, place, place in bad) for place, (cell, token) in enumerate(zip(row.cells, row.tokens)))
            rest = len(self.widths) - len(row.cells)
            cells += f'<td colspan="{rest}"></td>' if rest else ''
        return f'<tr id="r{self.number}-{row.line}" class="row {kind}{marked}" tabindex="-1"><th scope="row">{number}</th>{cells}</tr>'

    def cell(self, cell: Cell, token: str, place: int, is_bad: bool) -> str:
        null = ' null' if token in ('.', '*', '!') else ''
        what = f' aria-label="{token} {WORDS[token]}"' if token in WORDS else ''
        bad = ' bad' if is_bad else ''
        return (f'<td class="t {self.style.name(cell.thread)}{null}{bad}" data-column="{place + 1}" data-spine="{cell.field}" data-part="{cell.part}" '
                f'data-thread="{self.style.label(cell.thread)}"{what}>{_text(token)}</td>')

    def callout(self, refused: Refused) -> str:
        fault = refused.fault
        meaning = CODES.get(fault.rule, '').partition('. ')[0]
        if fault.rule == 'P2' and refused.raw:
            meaning += f': {refused.raw.count(chr(9)) + 1} and {len(self.layout)}'
        return (f'<tr class="callout" id="{_fault_id(refused)}" style="height:calc(3*var(--h))"><th>✕</th>'
                f'<td colspan="{len(self.widths)}"><div><b>{fault.rule}</b> '
                f'stage {fault.stage} ({fault.command}) refuses this line: {_with_code(meaning)}.</div></td></tr>')

    def end(self) -> str:
        """The line that was refused, where it is no record of the panel."""
        refused = self.refused
        if refused is None or refused.raw is None:
            return ''
        raw = '<span class="tab">⇥</span>'.join(f'<code{" class=bad" if place in refused.places else ""}>{_text(token)}</code>'
                                                for place, token in enumerate(refused.raw.split('\t'))) if refused.raw else 'the end'
        return (f'<tbody><tr class="row refused" tabindex="-1"><th scope="row">{refused.line}</th>'
                f'<td colspan="{len(self.widths) or 1}" class="raw">{raw}</td></tr>'
                f'{self.callout(refused)}</tbody>')


def _widths(panel: Panel) -> List[int]:
    """The widths of the columns of a panel, in letters."""
    widths: List[int] = []
    for row in panel.rows:
        for place, token in enumerate(row.tokens if row.cells else ()):
            if place == len(widths):
                widths.append(5)
            widths[place] = max(widths[place], min(len(token) + 2, 24))
    # a text that breaks off may end before the columns that its last record opens
    most = max((len(row.after or ()) for row in panel.rows), default=0)
    return widths + [5] * (most - len(widths)) or [12]
