"""Pictures of a score, by matplotlib: `intervals`, `rhythms`, `contour` and `reach`.

A score is a text or a `pathlib.Path`. Each function draws on the axes that it is given, or on new ones, and answers them."""
import os
from collections import Counter
from fractions import Fraction
from functools import reduce
from math import gcd
from typing import Any, Dict, List, Tuple, Union

from .running import Scores, run
from .scores import records
from .tables import BAR, Grid, grid

Score = Union[str, 'os.PathLike[str]']
SILENT = float('nan')
QUALITIES = 'dmPMA'
NAMES = ['c', 'c#', 'd', 'e-', 'e', 'f', 'f#', 'g', 'a-', 'a', 'b-', 'b']
# lines that are told apart without colours too
LINES = ['-', '--', '-.', ':']


def intervals(score: Score, field: int = 1, ax: Any = None) -> Any:
    """How often each melodic interval comes in a spine, from the largest down to the largest up."""
    tokens = _tokens(score, f'extract -f {field} | mint', '**mint')
    counts = Counter(token for token in tokens if token[-1:].isdigit() and token[0] in '+-P')
    return _bars(ax, sorted(counts.items(), key=lambda one: _size(one[0])), 'melodic interval', f'Melodic intervals of spine {field}')


def rhythms(score: Score, field: int = 1, ax: Any = None) -> Any:
    """How often each duration comes in a spine, from the longest to the shortest, rests too."""
    counts = Counter(note for token in _tokens(score, f'extract -f {field} | recip', '**recip') for note in token.split(' ') if note[:1].isdigit())
    return _bars(ax, sorted(counts.items(), key=lambda one: (-_duration(one[0]), one[0])), 'duration', f'Durations of spine {field}')


def contour(score: Score, ax: Any = None) -> Any:
    """The highest note of each `**kern` spine at each moment."""
    step = _grid_step(score)
    bars, voices = _sounding(_answer(score, f"extract -i '**kern' | timebase -t {step} | semits -x"))
    axes = ax or _axes()
    times = [float(place * _duration(step)) for place in range(len(bars) + 1)]
    for place, (spine, notes) in enumerate(voices.items()):
        axes.step(times, notes + notes[-1:], where='post', label=f'spine {spine}', linestyle=LINES[place % len(LINES)])
    firsts = [place for place, bar in enumerate(bars) if place == 0 or bar != bars[place - 1]]
    axes.set_xticks([times[place] for place in firsts], [str(bars[place] or '') for place in firsts])
    axes.set_xlabel('bar')
    _pitches(axes)
    axes.set_title('Contour of each voice')
    axes.legend(loc='upper center', bbox_to_anchor=(0.5, -0.15), ncol=4)
    return axes


def reach(score: Score, ax: Any = None) -> Any:
    """The lowest and the highest note of each `**kern` spine in each bar."""
    found = grid(_answer(score, "extract -i '**kern' | semits -x"))
    axes = ax or _axes()
    spines = _by_spine(found)
    for place, (label, notes) in enumerate(spines.items()):
        left = [bar + 0.8 * (place + 0.5) / len(spines) - 0.4 for bar in notes]
        lows = [min(some) - 0.3 for some in notes.values()]
        heights = [max(some) - min(some) + 0.6 for some in notes.values()]
        axes.bar(left, heights, 0.7 / len(spines), lows, label=label.replace('**semits', 'spine'), edgecolor='black', hatch=['', '//', '..', 'xx'][place % 4])
    axes.set_xlabel('bar')
    axes.margins(y=0.05)
    axes.use_sticky_edges = False
    axes.autoscale_view()
    _pitches(axes)
    axes.set_title('Reach of each spine, bar by bar')
    axes.legend(loc='upper center', bbox_to_anchor=(0.5, -0.15), ncol=4)
    return axes


def _answer(score: Score, stages: str) -> str:
    scores: Scores = {'/dev/stdin': score} if isinstance(score, str) else score
    return run(f'out: read /dev/stdin | {stages}', scores)


def _tokens(score: Score, stages: str, name: str) -> List[str]:
    """The tokens of the columns of one name, in order."""
    found = grid(_answer(score, stages))
    return [token for label, cells in found.columns.items() if label.startswith(name) for token in cells if token]


def _axes() -> Any:
    from matplotlib import pyplot
    return pyplot.subplots(layout='constrained')[1]


def _bars(ax: Any, counts: List[Tuple[str, int]], label: str, title: str) -> Any:
    axes = ax or _axes()
    bars = axes.bar([name for name, _ in counts], [count for _, count in counts], color='0.6', edgecolor='black')
    axes.bar_label(bars)
    axes.set_xlabel(label)
    axes.set_ylabel('how often')
    axes.set_title(title)
    return axes


def _size(interval: str) -> Tuple[int, int]:
    """The place of an interval between the largest down and the largest up."""
    direction = -1 if interval[0] == '-' else 1 if interval[0] == '+' else 0
    rest = interval.lstrip('+-')
    return direction * int(rest.lstrip(QUALITIES)), direction * QUALITIES.index(rest[0])


def _duration(recip: str) -> Fraction:
    """A duration in whole notes."""
    digits = recip.rstrip('.r')
    under, _, over = digits.partition('%')
    whole = Fraction(2 ** len(under)) if not under.strip('0') else Fraction(int(over or 1), int(under))
    dots = recip.count('.')
    return whole * (2 - Fraction(1, 2 ** dots))


def _grid_step(score: Score) -> str:
    """The longest step that meets each note, as `timebase -t` takes it: the greatest common divisor of all durations."""
    found = grid(_answer(score, "extract -i '**kern' | recip"))
    durations = {_duration(note) for cells in found.columns.values() for token in cells if token for note in token.split(' ') if note[:1].isdigit()}
    if not durations:
        return '4'
    under = reduce(lambda one, other: one * other // gcd(one, other), (duration.denominator for duration in durations))
    over = reduce(gcd, (int(duration * under) for duration in durations))
    step = Fraction(over, under)
    return f'{step.denominator}%{step.numerator}' if step.numerator > 1 else str(step.denominator)


def _notes(token: str) -> List[int]:
    return [int(note) for note in token.split(' ') if note.lstrip('-').isdigit()]


def _sounding(text: str) -> Tuple[List[int], Dict[int, List[float]]]:
    """The bar of each moment, and the highest note of each spine there: what isn't struck anew goes on as long as its column, and a rest is a gap."""
    bars: List[int] = []
    voices: Dict[int, List[float]] = {}
    now: Dict[Tuple[int, int], float] = {}
    bar = 0
    for record in records(text):
        if record.is_barline:
            found = BAR.search('\t'.join(record.tokens))
            bar = int(found[1]) if found else bar
        elif record.kind == 'data':
            keys = [(spine, record.spines[:place].count(spine)) for place, spine in enumerate(record.spines)]
            now = {key: now.get(key, SILENT) for key in keys}
            now.update({key: max(_notes(token), default=SILENT) for key, token in zip(keys, record.tokens) if token != '.'})
            for spine in set(record.spines):
                notes = voices.setdefault(spine, [])
                notes += [SILENT] * (len(bars) - len(notes))
                notes.append(max((now[key] for key in keys if key[0] == spine and now[key] == now[key]), default=SILENT))
            bars.append(bar)
    return bars, {spine: notes + [SILENT] * (len(bars) - len(notes)) for spine, notes in sorted(voices.items())}


def _by_spine(found: Grid) -> Dict[str, Dict[int, List[int]]]:
    """The notes of each spine in each bar; the columns of a split are one."""
    spines: Dict[str, Dict[int, List[int]]] = {}
    for label, cells in found.columns.items():
        bars = spines.setdefault(label.partition('/')[0], {})
        for bar, token in zip(found.bars, cells):
            if token and _notes(token):
                bars.setdefault(bar, []).extend(_notes(token))
    return spines


def _pitches(axes: Any) -> None:
    """Names the notes of an axis of semitones above middle c, which is c4."""
    low, high = axes.get_ylim()
    step = 12 if high - low > 30 else 6 if high - low > 14 else 2
    places = range(int(low) // step * step, int(high) + 1, step)
    axes.set_yticks(list(places), [f'{NAMES[place % 12]}{place // 12 + 4}' for place in places])
    axes.set_ylim(low, high)
    axes.set_ylabel('pitch (c4 is middle c)')
