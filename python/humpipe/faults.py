"""What humpipe tells when something went wrong, as exceptions."""
import errno
import os
import re
from typing import List, Pattern, Sequence

from .codes import CODES

STAGE = re.compile(r'stage (\d+) \((\w+)\), line (\d+): ([A-Z]+\d+)')
PLAN = re.compile(r'plan line (\d+), word (\d+): ([A-Z]+\d+)')


class Error(Exception):
    """A run that didn't end well.

    `text` is what was settled before, and `message` the line that was told, without the program's name."""

    def __init__(self, message: str, text: str = '') -> None:
        super().__init__(message, text)
        self.message = message
        self.text = text

    def __str__(self) -> str:
        return self.message

    def _render_traceback_(self) -> List[str]:
        """What a notebook shows: the message alone."""
        return [f'{type(self).__name__}: {self}']

    def __repr__(self) -> str:
        return f'{type(self).__name__}({self.message!r})'


class Explained(Error):
    """An error that names a rule."""

    rule: str

    @property
    def explanation(self) -> str:
        """What the rule is, and what usually breaks it, as the page CODES.md has it."""
        return CODES.get(self.rule, 'A rule that this version of the package does not know.')

    def __str__(self) -> str:
        return f'{self.message}. {self.explanation}'


class Fault(Explained):
    """A stage refuses: the number of the `stage`, its `command`, the `line` that it read, and the `rule`."""

    def __init__(self, message: str, text: str = '') -> None:
        super().__init__(message, text)
        stage, command, line, rule = _parts(STAGE, message)
        self.stage = int(stage)
        self.command = command
        self.line = int(line)
        self.rule = rule


class PlanFault(Explained):
    """The plan breaks a rule: its `line`, the `word` in that line, and the `rule`."""

    def __init__(self, message: str, text: str = '') -> None:
        super().__init__(message, text)
        line, word, rule = _parts(PLAN, message)
        self.line = int(line)
        self.word = int(word)
        self.rule = rule


class RunError(Error):
    """All else: the plan, a score or the program isn't there or can't be read, memory or time ran out, something ended the program."""


class Missing(RunError, FileNotFoundError):
    """A plan, a score or the program that isn't there."""

    def __init__(self, message: str, text: str = '') -> None:
        super().__init__(message, text)
        self.errno, self.strerror = errno.ENOENT, os.strerror(errno.ENOENT)


class OutOfTime(RunError, TimeoutError):
    """A run that wasn't done in the time that it was given."""

    def __init__(self, message: str, text: str = '') -> None:
        super().__init__(message, text)
        self.errno, self.strerror = errno.ETIMEDOUT, os.strerror(errno.ETIMEDOUT)


def _parts(pattern: Pattern[str], message: str) -> Sequence[str]:
    found = pattern.fullmatch(message)
    if not found:
        raise ValueError(f'not a message of this kind: {message}')
    return found.groups()


def unread(what: str, error: OSError) -> RunError:
    """The exception for a file that can't be read."""
    message = f'{what}: {error.strerror or error}'
    return Missing(message) if isinstance(error, FileNotFoundError) else RunError(message)


def error_of(told: str, text: str = '') -> Error:
    """The exception for a line of standard error."""
    message = told[len('humpipe: '):] if told.startswith('humpipe: ') else told
    if STAGE.fullmatch(message):
        return Fault(message, text)
    if PLAN.fullmatch(message):
        return PlanFault(message, text)
    return RunError(message, text)
