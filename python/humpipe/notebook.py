"""The magic `%%humpipe` of IPython and Jupyter."""
import shlex
from pathlib import Path
from typing import Any, Dict, List, Optional, Tuple

from .running import Scores, run
from .tables import frame

USAGE = '%%humpipe [NAME] [--score SCORE] [--table], and the plan in the lines below'


def magic(line: str, cell: str, names: Dict[str, Any]) -> Any:
    """Runs the plan of a cell. The answer goes to the variable NAME, or is shown: a page with the columns of each stage, or with `--table` a DataFrame.
    SCORE is what the plan reads as `/dev/stdin`, a path or a variable; a variable with a mapping has the scores by their names."""
    name, score, is_table = _parsed(line)
    text = run(cell, _scores(score, names))
    answer = frame(text) if is_table else text
    if name is None:
        return answer
    names[name] = answer
    return None


def _parsed(line: str) -> Tuple[Optional[str], Optional[str], bool]:
    words: List[str] = shlex.split(line)
    score = None
    if '--score' in words:
        place = words.index('--score')
        if place + 1 == len(words):
            raise ValueError(USAGE)
        score = words.pop(place + 1)
        del words[place]
    is_table = '--table' in words
    rest = [word for word in words if word != '--table']
    if len(rest) > 1 or not all(word.isidentifier() for word in rest):
        raise ValueError(USAGE)
    return (rest[0] if rest else None), score, is_table


def _scores(score: Optional[str], names: Dict[str, Any]) -> Scores:
    if score is None:
        return None
    found: Any = names.get(score, Path(score))
    if isinstance(found, str):
        # a variable with a text, or with a path
        return {'/dev/stdin': found} if '\n' in found else Path(found)
    return found  # type: ignore[no-any-return]


def load(ipython: Any) -> None:
    """Adds the magic to a shell."""
    ipython.register_magic_function(lambda line, cell: magic(line, cell, ipython.user_ns), 'cell', 'humpipe')
