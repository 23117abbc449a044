"""Which record of a stage's output comes of which record that it read.

Of most commands that is plain. For those that drop or add records the program is asked: the stage runs on a score that has an interpretation with its
number before each record, which no command but rid and assemble does anything to, or, for `yank -l`, numbers for its tokens."""
import re
from typing import Dict, Iterator, List, Tuple

from .faults import Error
from .plans import Stage
from .running import run
from .scores import KINDS, PATHS, Columns, whole_lines

LABEL = re.compile(r'@(\d+):(\d+)(?=\t|$)')
MARK = re.compile(r'\*@(\d+)(?:\t|$)')
ONE_FOR_ONE = ('context', 'ditto', 'mint', 'recip', 'semits')
Links = Dict[int, List[int]]


def links_of(stage: Stage, texts: List[str], given: str, encoding: str = 'utf-8') -> List[Links]:
    """For each text that a stage read, the lines of what it gave that come of each line."""
    lines, made = [whole_lines(text) for text in texts], whole_lines(given)
    if stage.command == 'assemble':
        return _assembled(lines, made, encoding)
    if stage.command in ONE_FOR_ONE:
        return [{line: [line] for line in range(1, len(made) + 1)}]
    if stage.command == 'rid':
        return [_kept(list(enumerate(lines[0], 1)), list(enumerate(made, 1)))]
    if stage.command == 'trans':
        return [_with_one_more(lines[0], made)]
    of = _numbered if '-l' in stage.options else _marked
    return [of(stage, lines[0], made, encoding)]


def _assembled(texts: List[List[str]], made: List[str], encoding: str) -> List[Links]:
    """What assemble puts where doesn't depend on tokens, so their score and line stand in their place; what changes spines stands as it is."""
    plan = ''.join(f'p{place}: read in{place}\n' for place in range(len(texts))) + 'out: assemble ' + ' '.join(f'p{place}' for place in range(len(texts)))
    scores = {f'in{place}': ''.join(_labelled(place, line, whole) + '\n' for line, whole in enumerate(lines, 1)) for place, lines in enumerate(texts)}
    told = _told(plan, scores, encoding)
    if len(told) != len(made):
        return [{} for _ in texts]
    found: List[Links] = [{} for _ in texts]
    steps = [iter([line for line, whole in enumerate(lines, 1) if _changes(whole)]) for lines in texts]
    owners = [place for place, lines in enumerate(texts) for _ in _opening(lines)]
    columns = Columns()
    for after, whole in enumerate(told, 1):
        for place, line in {(int(place), int(line)) for place, line in LABEL.findall(whole)}:
            found[place][line] = [after]
        if _changes(whole):
            tokens = whole.split('\t')
            if not columns.now:
                columns.open(len(tokens))
            for place in sorted({owners[column.spine - 1] for token, column in zip(tokens, columns.now) if token != '*'}):
                found[place][next(steps[place], 0)] = [after]
            columns.step(tokens)
    return found


def _opening(lines: List[str]) -> List[str]:
    return next((whole.split('\t') for whole in lines if not whole.startswith('!!')), [])


def _changes(whole: str) -> bool:
    """Whether it is an interpretation that names or changes spines."""
    return whole.startswith('*') and any(token in PATHS or token.startswith('**') for token in whole.split('\t'))


def _labelled(place: int, line: int, whole: str) -> str:
    if _changes(whole):
        return whole
    label = f'@{place}:{line}'
    if whole.startswith('!!'):
        return '!!' + label
    sign = whole[:1] if whole[:1] in KINDS else ''
    return '\t'.join([sign + label] * (whole.count('\t') + 1))


def _kept(lines: List[Tuple[int, str]], made: List[Tuple[int, str]]) -> Links:
    """Of records that are kept or dropped as they are, each goes to the next that is the same."""
    found: Links = {}
    rest = iter(lines)
    for after, whole in made:
        before = next((line for line, text in rest if text == whole), None)
        if before is not None:
            found[before] = [after]
    return found


def _with_one_more(lines: List[str], made: List[str]) -> Links:
    """A record more comes after each one with `**kern`, as `trans` writes it."""
    found: Links = {}
    after = 1
    for before, whole in enumerate(lines, 1):
        if after <= len(made):
            found[before] = [after]
        after += 2 if '**kern' in whole.split('\t') else 1
    return found


def _numbered(stage: Stage, lines: List[str], made: List[str], encoding: str) -> Links:
    """For `yank -l`, which doesn't look at tokens: their line stands in their place."""
    def numbered(line: int, whole: str) -> str:
        if whole.startswith('!!'):
            return f'!!{line}'
        return whole if whole.startswith('*') else '\t'.join(('!' if token.startswith('!') else '') + str(line) for token in whole.split('\t'))

    told = _answer(stage, [numbered(line, whole) for line, whole in enumerate(lines, 1)], encoding)
    if len(told) != len(made):
        return {}
    steps = iter(line for line, whole in enumerate(lines, 1) if whole.startswith('*'))
    found: Links = {}
    for after, whole in enumerate(told, 1):
        number = next(steps, 0) if whole.startswith('*') else int(whole.split('\t')[0].lstrip('!'))
        found[number] = [after]
    return found


def _marked(stage: Stage, lines: List[str], made: List[str], encoding: str) -> Links:
    """What stands after each mark comes of the records that stood after it."""
    told = _answer(stage, list(_with_marks(lines)), encoding)
    groups: Dict[int, List[Tuple[int, str]]] = {0: []}
    number = after = 0
    for whole in told:
        mark = MARK.match(whole)
        if mark:
            number = int(mark[1])
            groups[number] = []
        else:
            after += 1
            groups[number].append((after, whole))
    if [whole for group in groups.values() for _, whole in group] != made:
        return {}
    befores: Dict[int, List[Tuple[int, str]]] = {0: []}
    number = 0
    for line, whole in enumerate(lines, 1):
        if line in groups:
            number = line
            befores[number] = []
        befores[number].append((line, whole))
    found: Links = {}
    for number, group in groups.items():
        found.update(_in_group(stage, befores[number], group))
    return found


def _in_group(stage: Stage, before: List[Tuple[int, str]], after: List[Tuple[int, str]]) -> Links:
    if stage.command in ('timebase', 'yank'):
        return _kept(before, after)
    if len(before) == 1:
        return {before[0][0]: [line for line, _ in after]}
    return {line: [other] for (line, _), (other, _) in zip(before, after)} if len(before) == len(after) else _kept(before, after)


def _with_marks(lines: List[str]) -> Iterator[str]:
    """The lines with a mark before each that may have one: not the opening record, and none before it, after the last spine, or between `*+` and the
    name of the new spine."""
    width, waits = 0, False
    for line, whole in enumerate(lines, 1):
        if width and not waits:
            yield '\t'.join([f'*@{line}'] * width)
        yield whole
        if whole.startswith('!!'):
            continue
        tokens = whole.split('\t')
        waits = '*+' in tokens
        width = len(tokens)
        if whole.startswith('*'):
            joins = sum(one == other == '*v' for one, other in zip(tokens, tokens[1:]))
            width += tokens.count('*^') + tokens.count('*+') - tokens.count('*-') - joins


def _answer(stage: Stage, lines: List[str], encoding: str) -> List[str]:
    return _told(f'out: read in0 | {stage.text}\n', {'in0': ''.join(line + '\n' for line in lines)}, encoding)


def _told(plan: str, scores: Dict[str, str], encoding: str) -> List[str]:
    """The lines of a plan's output, as far as it goes."""
    try:
        return whole_lines(run(plan, scores, encoding=encoding))
    except Error as error:
        return whole_lines(error.text)
