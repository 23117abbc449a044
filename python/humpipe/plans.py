"""Cuts a plan into its branches and stages, by the rules of docs/PIPELINES.md. Only a plan that the program takes is cut right."""
import re
from typing import Callable, Iterator, List, NamedTuple, Tuple

WORD = re.compile(r"'([^']*)'|([^ \t|']+)|(\|)")
STANDARD_INPUT = ('/dev/stdin', '/dev/fd/0', '/proc/self/fd/0')


class Word(NamedTuple):
    """A word without its quotes, and where it stands in the plan, quotes and all."""

    text: str
    begin: int
    end: int


class Stage(NamedTuple):
    """A stage: its number through the plan, the branch that it stands in, its words, and its text as it is written."""

    number: int
    branch: str
    words: Tuple[Word, ...]
    text: str

    @property
    def command(self) -> str:
        return self.words[0].text

    @property
    def options(self) -> List[str]:
        """The words behind the command."""
        return [word.text for word in self.words[1:]]


def branches(plan: str) -> List[Tuple[str, List[Stage]]]:
    """The branches of a plan, each with its name and its stages."""
    found: List[Tuple[str, List[Stage]]] = []
    number = 0
    for begin, line in _lines(plan):
        if not line.strip(' \t') or line.lstrip(' \t').startswith('#'):
            continue
        stages = []
        name, _, _ = line.strip(' \t').partition(':')
        for words in _stages(line, begin + line.index(':') + 1, begin):
            number += 1
            stages.append(Stage(number, name, tuple(words), plan[words[0].begin:words[-1].end]))
        found.append((name, stages))
    return found


def _lines(plan: str) -> Iterator[Tuple[int, str]]:
    """Each line without its end, and where it begins."""
    begin = 0
    for whole in plan.split('\n'):
        yield begin, whole[:-1] if whole.endswith('\r') else whole
        begin += len(whole) + 1


def _stages(line: str, first: int, begin: int) -> Iterator[List[Word]]:
    """The words of each stage of a line that begins at a place of the plan, from another place on."""
    words: List[Word] = []
    for found in WORD.finditer(line, first - begin):
        if found[3]:
            yield words
            words = []
        else:
            words.append(Word(found[1] if found[2] is None else found[2], begin + found.start(), begin + found.end()))
    yield words


def reads(plan: str) -> List[Word]:
    """The word of each `read` that names a file or a score."""
    return [stages[0].words[1] for _, stages in branches(plan) if stages[0].command == 'read']


def renamed(plan: str, name: Callable[[str], str]) -> str:
    """The plan with another name for each file that it reads. No name may have a quote, a blank or a bar."""
    parts, place = [], 0
    for word in reads(plan):
        parts += [plan[place:word.begin], name(word.text)]
        place = word.end
    return ''.join(parts) + plan[place:]


def quoted(word: str) -> str:
    """The word as a plan has it, which is in quotes where it has to be."""
    return word if word and not re.search(r"[ \t|']", word) and not word.startswith('#') else f"'{word}'"
