"""Runs a plan on one score, or on scores by their names."""
import io
import os
import posixpath
import re
import subprocess
import tempfile
import threading
from contextlib import contextmanager
from typing import Dict, Iterator, Mapping, Optional, Tuple, Type, Union

from .faults import Fault, unread
from .plans import STANDARD_INPUT, reads, renamed
from .program import Call, Path, call_on, ended, error_at_end, file_of, out_of_time, program, started

Bytes = Union[bytes, bytearray, memoryview]
Plan = Union[str, 'os.PathLike[str]']
Named = Mapping[str, Union[str, Bytes, 'os.PathLike[str]']]
Scores = Union[None, Path, Named]

LARGEST_BUNDLE = 67_108_864
ERRORS = 'surrogateescape'


class Text(str):
    """The text that a plan means: a `str` that a notebook shows as a page on which one sees its columns."""

    plan: Plan
    scores: Scores
    encoding: str

    def _repr_html_(self) -> str:
        from .show import shown
        return shown(self)

    def __reduce__(self) -> Tuple[Type[str], Tuple[str]]:
        # goes to other processes as a text alone
        return str, (str(self),)


def run(plan: Plan, scores: Scores = None, *, encoding: str = 'utf-8', timeout: Optional[float] = None) -> Text:
    """The text that a plan means.

    `plan` is the plan's text, or the path of its file as a `pathlib.Path`. `scores` is

    - nothing: the plan reads files, named from the working folder;
    - a path: what the plan reads as `/dev/stdin`;
    - a mapping: what the plan reads by each name, a text (`str` or bytes) or a `pathlib.Path`, and nothing else.

    Texts are of the `encoding`, mostly UTF-8 or Latin-1. Bytes that aren't come as lone surrogates (`surrogateescape`), and go the same way.

    Raises `Fault` where a stage refuses, `PlanFault` where the plan breaks a rule, `OutOfTime` where it isn't done in `timeout` seconds, and
    `RunError` for all else, which is a `FileNotFoundError` too where the plan, a score or the program isn't there."""
    with call_of(plan, scores, encoding) as call:
        answer = ended(call, timeout=timeout)
    text = Text(answer.written.decode(encoding, ERRORS))
    if answer.error:
        answer.error.text = text
        raise answer.error
    text.plan, text.scores, text.encoding = plan, scores, encoding
    return text


def lines(plan: Plan, scores: Scores = None, *, encoding: str = 'utf-8', timeout: Optional[float] = None) -> Iterator[str]:
    """The lines of the text that a plan means, as they are written. What `run` would raise is raised after the last."""
    with call_of(plan, scores, encoding) as call, tempfile.TemporaryFile() as told, started(call, subprocess.PIPE, told) as process:
        late = threading.Event()

        def end_it() -> None:
            late.set()
            process.kill()

        clock = threading.Timer(timeout or 0, end_it)
        if timeout is not None:
            clock.start()
        try:
            assert process.stdout
            yield from io.TextIOWrapper(process.stdout, encoding, ERRORS, newline='\n')
            status = process.wait()
        finally:
            clock.cancel()
        told.seek(0)
        error = out_of_time(timeout) if late.is_set() else error_at_end(status, told.read())
        if error:
            raise error


@contextmanager
def call_of(plan: Plan, scores: Scores, encoding: str = 'utf-8') -> Iterator[Call]:
    """How the program is called for a plan and its scores."""
    text = plan_bytes(plan)
    if isinstance(scores, Mapping):
        _check_names(scores)
        bundle = _bundle(text, scores, encoding)
        if bundle is None:
            with _files(text, scores, encoding) as call:
                yield call
        else:
            with _bundled(bundle) as call:
                yield call
        return
    with file_of(text) as file:
        if scores is None:
            yield Call([program(), file])
        else:
            with call_on(file, scores) as call:
                yield call


def plan_bytes(plan: Plan) -> bytes:
    """A plan's text."""
    if not isinstance(plan, os.PathLike):
        return as_bytes(plan)
    try:
        with open(plan, 'rb') as file:
            return file.read()
    except OSError as error:
        raise unread(f'plan {os.fspath(plan)}', error) from error


def as_bytes(text: Union[str, Bytes], encoding: str = 'utf-8') -> bytes:
    return text.encode(encoding, ERRORS) if isinstance(text, str) else bytes(text)


def _check_names(scores: Named) -> None:
    """Names are relative paths below one folder, and none is another one's or its folder's; or what stands for standard input."""
    places: Dict[str, str] = {}
    for name in scores:
        place = posixpath.normpath(name)
        if name in STANDARD_INPUT:
            continue
        if not name or '\n' in name or name.endswith('\r') or '..' in name.split('/') or place == '.' or place.startswith('/'):
            raise ValueError(f'no name for a score: {name!r}')
        if place in places:
            raise ValueError(f'two names for one score: {places[place]!r} and {name!r}')
        places[place] = name
    for place, name in places.items():
        folder = posixpath.dirname(place)
        while folder:
            if folder in places:
                raise ValueError(f'the name of a score and of a folder: {places[folder]!r}, and {name!r} in it')
            folder = posixpath.dirname(folder)


def _bundle(plan: Union[str, Bytes], scores: Named, encoding: str = 'utf-8') -> Optional[bytes]:
    """The bundle of a plan and texts, or none where one is a path, looks like the head of a score, or all is too large."""
    parts = [_ended(as_bytes(plan))]
    for name, score in scores.items():
        if isinstance(score, os.PathLike):
            return None
        parts += [b'--- ' + as_bytes(name) + b'\n', _ended(as_bytes(score, encoding))]
    is_cut = any(_has_head(part) for part in parts[::2]) or sum(len(part) for part in parts) > LARGEST_BUNDLE
    return None if is_cut else b''.join(parts)


def _has_head(text: bytes) -> bool:
    """Whether a line looks like the head of a score."""
    return re.search(rb'^--- ', text, re.M) is not None


def _ended(text: bytes) -> bytes:
    """A text whose last line has its end."""
    return text if not text or text.endswith(b'\n') else text + b'\n'


@contextmanager
def _bundled(bundle: bytes) -> Iterator[Call]:
    with tempfile.TemporaryFile() as file:
        file.write(bundle)
        file.seek(0)
        yield Call([program()], file)


@contextmanager
def _files(plan: bytes, scores: Named, encoding: str) -> Iterator[Call]:
    """The call over scores as files of a fresh folder, where the plan has a number for each name, so that it can read no other file."""
    if _has_head(plan):
        # no plan has such a line: it is refused before a file is opened
        with file_of(plan) as file:
            yield Call([program(), file])
        return
    _check_plan(plan, scores)
    text = plan.decode()
    numbers = {name: f'{number:x}' for number, name in enumerate(sorted({word.text for word in reads(text)}))}
    with file_of(as_bytes(renamed(text, numbers.__getitem__))) as file:
        folder = os.path.join(os.path.dirname(file), 'scores')
        os.mkdir(folder)
        for name, number in numbers.items():
            _put(scores[name], os.path.join(folder, number), encoding)
        yield Call([program(), file], cwd=folder)


def _check_plan(plan: bytes, scores: Named) -> None:
    """Raises what the program says of the plan, and of the names that it reads, over empty scores."""
    with _bundled(_ended(plan) + b''.join(b'--- ' + as_bytes(name) + b'\n' for name in scores)) as call:
        error = ended(call).error
    if error and not isinstance(error, Fault):
        raise error


def _put(score: Union[str, Bytes, 'os.PathLike[str]'], place: str, encoding: str) -> None:
    """Puts a score at a place where nothing is."""
    if isinstance(score, os.PathLike):
        try:
            os.stat(score)
        except OSError as error:
            raise unread(os.fspath(score), error) from error
        os.symlink(os.path.abspath(score), place)
    else:
        with open(place, 'xb') as file:
            file.write(as_bytes(score, encoding))
