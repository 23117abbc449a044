"""Finds the program and runs it: all that is run goes through `started`."""
import errno
import importlib.metadata
import os
import shutil
import stat
import subprocess
import tempfile
import threading
from concurrent.futures import ThreadPoolExecutor
from contextlib import contextmanager
from functools import lru_cache, partial
from typing import IO, Any, Callable, Dict, Iterator, List, NamedTuple, Optional, Set, Tuple, Union

from .faults import Error, Missing, OutOfTime, RunError, error_of, unread

Path = Union[str, 'os.PathLike[str]']


def program() -> str:
    """The path of the program: the one that the variable HUMPIPE names, the one that was installed with this package, or `humpipe` on the path."""
    named = os.environ.get('HUMPIPE')
    found = shutil.which(named) if named else _own_program() or shutil.which('humpipe')
    if found is None:
        raise Missing(f'no program {named or "humpipe"}: install humpipe, or name it in the variable HUMPIPE')
    return os.path.abspath(found)


@lru_cache(maxsize=None)
def _own_program() -> Optional[str]:
    """The program of the wheel that this package came in."""
    try:
        files = importlib.metadata.files('humpipe') or []
    except importlib.metadata.PackageNotFoundError:
        return None
    places = [os.path.abspath(str(file.locate())) for file in files if file.name == 'humpipe' and file.parent.name == 'bin']
    modules = [str(file.locate()) for file in files if str(file) == 'humpipe/program.py']
    is_ours = any(os.path.exists(module) and os.path.samefile(module, __file__) for module in modules)
    return next((place for place in places if is_ours and os.access(place, os.X_OK)), None)


def program_version() -> Optional[str]:
    """The version of the program, as the file VERSION says that is beside it or installed with it; nothing where there is none."""
    place = program()
    if place == _own_program():
        return importlib.metadata.version('humpipe')
    folder = os.path.dirname(os.path.realpath(place))
    for name in 'VERSION', '../share/doc/humpipe/VERSION', '../../../VERSION':
        try:
            with open(os.path.join(folder, name), encoding='utf-8') as file:
                return file.read().strip()
        except OSError:
            continue
    return None


class Answer(NamedTuple):
    """What a run of the program wrote, and the error if it didn't end well."""

    written: bytes
    error: Optional[Error] = None


class Stopped(Exception):
    """A run that can't begin, since all are stopped."""


_pool = threading.local()


class Threads(ThreadPoolExecutor):
    """Threads that run programs, all of which can be stopped at once."""

    def __init__(self, jobs: int) -> None:
        self._lock = threading.Lock()
        self._running: Set['subprocess.Popen[bytes]'] = set()
        self._is_stopped = False
        super().__init__(jobs, initializer=lambda: setattr(_pool, 'threads', self))

    def begin(self, words: List[str], more: Dict[str, Any]) -> 'subprocess.Popen[bytes]':
        with self._lock:
            if self._is_stopped:
                raise Stopped
            process = subprocess.Popen(words, **more)
            self._running.add(process)
        return process

    def end(self, process: 'subprocess.Popen[bytes]') -> None:
        with self._lock:
            self._running.discard(process)

    def stop(self) -> None:
        """Ends the programs that run, and lets none begin."""
        with self._lock:
            self._is_stopped = True
            for process in self._running:
                process.kill()

    def close(self) -> None:
        """Ends the programs and the threads, those too that were kept for more scores."""
        self.stop()
        self.shutdown()
        for process in self._running:
            with process:
                pass


class Call(NamedTuple):
    """How the program is called: the words, what is its standard input, and the folder that it runs in."""

    words: List[str]
    stdin: Union[None, int, IO[bytes]] = subprocess.DEVNULL
    cwd: Optional[str] = None


@contextmanager
def started(call: Call, stdout: Union[int, IO[bytes]], stderr: Union[int, IO[bytes]]) -> Iterator['subprocess.Popen[bytes]']:
    """A program that runs, and is ended at the end."""
    process, forget = begun(call.words, stdin=call.stdin, stdout=stdout, stderr=stderr, cwd=call.cwd)
    try:
        with process:
            try:
                yield process
            except BaseException:
                process.kill()
                raise
    finally:
        forget()


def begun(words: List[str], **more: Any) -> Tuple['subprocess.Popen[bytes]', Callable[[], None]]:
    """A program that runs, and what to call once it has ended. In a thread of `Threads` it ends with them."""
    threads: Optional[Threads] = getattr(_pool, 'threads', None)
    if threads is None:
        return subprocess.Popen(words, **more), lambda: None
    process = threads.begin(words, more)
    return process, partial(threads.end, process)


def ended(call: Call, *, stdout: Union[int, IO[bytes]] = subprocess.PIPE, timeout: Optional[float] = None) -> Answer:
    """A run to its end. What goes into a file of its own isn't in the answer."""
    with started(call, stdout, subprocess.PIPE) as process:
        try:
            written, told = process.communicate(timeout=timeout)
        except subprocess.TimeoutExpired:
            process.kill()
            written, _ = process.communicate()
            return Answer(written or b'', out_of_time(timeout))
    return Answer(written or b'', error_at_end(process.returncode, told))


def out_of_time(timeout: Optional[float]) -> OutOfTime:
    return OutOfTime(f'not done after {timeout:g} s')


def error_at_end(status: int, told: bytes) -> Optional[Error]:
    """What the status and standard error of a run say."""
    line = told.decode('utf-8', 'replace').rstrip('\n')
    if status < 0:
        return RunError(f'ended by signal {-status}')
    return error_of(line or f'ended with status {status}') if status else None


@contextmanager
def call_on(plan: str, score: Path) -> Iterator[Call]:
    """The call of a plan's file on a score, which it reads as `/dev/stdin`."""
    path = os.path.abspath(score)
    try:
        mode = os.stat(path).st_mode
        if stat.S_ISDIR(mode):
            raise IsADirectoryError(errno.EISDIR, 'is a folder')
        file = open(path, 'rb') if stat.S_ISREG(mode) else None
    except OSError as error:
        raise unread(os.fspath(score), error) from error
    if file is None:
        # what has to be waited for, such as a pipe with a name, is opened by a process that can be ended
        yield Call(['sh', '-c', 'exec "$0" "$1" <"$2"', program(), plan, path], None)
    else:
        with file:
            yield Call([program(), plan], file)


def run_score(plan: str, score: Path, *, stdout: Union[int, IO[bytes]] = subprocess.PIPE, timeout: Optional[float] = None) -> Answer:
    """Runs a plan's file on one score by a process of its own."""
    try:
        with call_on(plan, score) as call:
            return ended(call, stdout=stdout, timeout=timeout)
    except Error as error:
        return Answer(b'', error)


@contextmanager
def file_of(text: bytes) -> Iterator[str]:
    """The path of a file with this text, in a fresh folder."""
    with tempfile.TemporaryDirectory(prefix='humpipe-') as folder:
        path = os.path.join(folder, 'plan.hpl')
        with open(path, 'xb') as file:
            file.write(text)
        yield path


def processors() -> int:
    """How many processors this process may use."""
    return len(os.sched_getaffinity(0)) if hasattr(os, 'sched_getaffinity') else os.cpu_count() or 1
