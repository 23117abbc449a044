"""Runs a plan on one score after the other: by one program that is kept for them, `humpipe-many`, or else by a process each."""
import os
import select
import stat
import subprocess
import threading
import time
from contextlib import suppress
from functools import lru_cache
from multiprocessing.util import Finalize
from tempfile import TemporaryDirectory
from typing import IO, Iterable, List, Optional, Sequence, Union

from .plans import STANDARD_INPUT, reads
from .program import Answer, Path, begun, error_at_end, out_of_time, program, run_score
from .running import LARGEST_BUNDLE

# the data of a packet at most
MOST = 65_516
END = b'0000'
# what is asked at once has so many bytes at most, but where it is one score
AT_ONCE = 200_000
# what a pipe holds
BLOCK = 65_536


class Gone(Exception):
    """The program ended before it had answered."""


class Late(Gone):
    """The program was ended, since it had not answered in time."""


def answer(plan: bytes, score: Path, *, stdout: Union[int, IO[bytes]] = subprocess.PIPE, timeout: Optional[float] = None) -> Answer:
    """The answer of a plan on one score, which it reads as standard input. What goes into a file of its own isn't in the answer."""
    case = _case(plan, score) if feeds() else None
    if case is not None:
        found: List[Answer] = []
        try:
            _kept(plan).ask([case], timeout, found)
            return _written(found[0], stdout)
        except Gone:
            # asked once more by itself: so the score that ends the program is the one that is told
            pass
    return run_score(kept_file(plan), score, stdout=stdout, timeout=timeout)


def answers(plan: bytes, scores: Sequence[Path], timeout: Optional[float] = None) -> List[Answer]:
    """The answers of a plan on the first of these scores, as `answer` gives them: on as many as are asked at once, or on one."""
    cases = _cases(plan, scores) if feeds() else []
    found: List[Answer] = []
    try:
        if cases:
            _kept(plan).ask(cases, timeout, found)
    except Gone:
        # which of them ended it isn't known: each that has no answer is asked by itself
        pass
    for score in scores[len(found):max(len(cases), 1)]:
        found.append(answer(plan, score, timeout=timeout) if len(cases) > 1 else run_score(kept_file(plan), score, timeout=timeout))
    return found


def feeds() -> Optional[str]:
    """The program that is kept: `humpipe-many` beside the program, or what the variable HUMPIPE_MANY names; none where that is empty."""
    return _found(*(os.environ.get(name) for name in ('HUMPIPE_MANY', 'HUMPIPE', 'PATH')))


@lru_cache(maxsize=64)
def _found(many: Optional[str], *_: Optional[str]) -> Optional[str]:
    """That program, looked for once while the variables that name it stay the same."""
    found = os.path.join(os.path.dirname(program()), 'humpipe-many') if many is None else many
    return found if found and os.access(found, os.X_OK) else None


@lru_cache(maxsize=64)
def _names(plan: bytes) -> List[bytes]:
    """The names by which a plan reads standard input, or none where it reads a file too."""
    names = {word.text for word in reads(plan.decode())}
    return [] if names - set(STANDARD_INPUT) else [name.encode() for name in sorted(names)]


def _cases(plan: bytes, scores: Sequence[Path]) -> List[bytes]:
    """The cases of the first of these scores, up to one that has none, or with which it would be too much to ask at once."""
    cases: List[bytes] = []
    left = AT_ONCE
    for score in scores:
        case = _case(plan, score, left if cases else LARGEST_BUNDLE)
        if case is None:
            break
        left -= len(case)
        cases.append(case)
    return cases


def _case(plan: bytes, score: Path, most: int = LARGEST_BUNDLE) -> Optional[bytes]:
    """A case of a score, by the names that the plan reads; none where the score is no file, can't be read, or has more bytes than that."""
    names = _names(plan)
    try:
        found = os.stat(score)
        if not names or not stat.S_ISREG(found.st_mode) or found.st_size > most:
            return None
        text = _text(score, found.st_size)
    except OSError:
        return None
    if len(text) > most or sum(len(name) + len(text) for name in names) > LARGEST_BUNDLE:
        return None
    if len(text) <= MOST and len(names) == 1:
        return b'%04x%b%04x%b00000000' % (len(names[0]) + 4, names[0], len(text) + 4, text)
    return b''.join(_listed([name] + [text[at:at + MOST] for at in range(0, len(text), MOST)]) for name in names) + END


def _text(score: Path, size: int) -> bytes:
    """The bytes of a file that has so many, or had."""
    file = os.open(score, os.O_RDONLY)
    try:
        text = os.read(file, size + 1)
        if len(text) == size:
            return text
        parts = [text]
        while parts[-1]:
            parts.append(os.read(file, BLOCK))
        return b''.join(parts)
    finally:
        os.close(file)


def _listed(parts: Iterable[bytes]) -> bytes:
    """A list of packets, in the form of Git's pkt-lines."""
    return b''.join(b'%04x' % (len(part) + 4) + part for part in parts) + END


class Feed:
    """A program that has read a plan, and is asked for one score after the other, or for several at once."""

    def __init__(self, plan: bytes) -> None:
        self.plan, self.program, self.owner = plan, feeds() or 'humpipe-many', os.getpid()
        self.process, self._forget = begun([self.program], bufsize=0, stdin=subprocess.PIPE, stdout=subprocess.PIPE, stderr=subprocess.DEVNULL)
        assert self.process.stdin and self.process.stdout
        self._stdin, self._stdout = self.process.stdin.fileno(), self.process.stdout.fileno()
        # what is sent waits for no answer to be read
        os.set_blocking(self._stdin, False)
        self._sending = memoryview(_listed(plan[at:at + MOST] for at in range(0, len(plan), MOST)))
        # what the program wrote, and from where on it wasn't taken yet
        self._written, self._at = b'', 0
        self._end: Optional[float] = None
        try:
            if self._rest() or self._ending() != b'0':
                # what is wrong with the plan is told by a process that reads its file
                raise Gone
        except BaseException:
            self.close()
            raise

    def ask(self, cases: Sequence[bytes], timeout: Optional[float], found: List[Answer]) -> None:
        """Adds the answers to cases to those found. The program is ended where one takes too long, which is told where it is the only one."""
        self._sending = memoryview(b''.join(cases))
        try:
            for _ in cases:
                self._end = None if timeout is None else time.monotonic() + timeout
                parts: List[bytes] = []
                try:
                    while part := self._packet():
                        parts.append(part)
                    status, _, told = self._ending().partition(b' ')
                except Late:
                    if len(cases) > 1:
                        raise
                    self.close()
                    found.append(Answer(b''.join(parts), out_of_time(timeout)))
                else:
                    found.append(Answer(b''.join(parts), error_at_end(int(status), told)))
        except BaseException:
            self.close()
            raise

    def close(self) -> None:
        self.process.kill()
        with suppress(OSError), self.process:
            # what it hasn't taken is lost with it
            pass
        self._forget()

    def __del__(self) -> None:
        process = getattr(self, 'process', None)
        if process and self.owner == os.getpid() and process.returncode is None:
            self.close()

    def _packet(self) -> bytes:
        """The data of the next packet; none at the end of a list."""
        try:
            size = int(self._take(4), 16)
        except ValueError as error:
            raise Gone from error
        if 0 < size < 4:
            raise Gone
        return self._take(size - 4) if size else b''

    def _rest(self) -> bytes:
        return b''.join(iter(self._packet, b''))

    def _ending(self) -> bytes:
        """The status of a case and, where it isn't 0, the line that is told."""
        ending = self._packet()
        self._rest()
        return ending

    def _take(self, size: int) -> bytes:
        """So many bytes of what the program writes."""
        begin, end = self._at, self._at + size
        while len(self._written) < end:
            self._written = self._written[begin:] + self._more()
            begin, end = 0, size
        self._at = end
        return self._written[begin:end]

    def _more(self) -> bytes:
        """What the program writes next, while what is to be sent goes to it."""
        while True:
            if self._sending:
                self._send()
            if not self._sending and self._end is None or self._waits():
                found = os.read(self._stdout, BLOCK)
                if not found:
                    raise Gone
                return found

    def _send(self) -> None:
        try:
            self._sending = self._sending[os.write(self._stdin, self._sending):]
        except BlockingIOError:
            pass
        except OSError as error:
            raise Gone from error

    def _waits(self) -> bool:
        """Whether there is something to read, once there is or something can be sent."""
        wait = select.poll()
        wait.register(self._stdout, select.POLLIN)
        if self._sending:
            wait.register(self._stdin, select.POLLOUT)
        left = None if self._end is None else max(self._end - time.monotonic(), 0) * 1000
        ready = wait.poll(left)
        if not ready:
            raise Late
        return any(file == self._stdout for file, _ in ready)


def _written(answer: Answer, stdout: Union[int, IO[bytes]]) -> Answer:
    if isinstance(stdout, int):
        return answer
    stdout.write(answer.written)
    return Answer(b'', answer.error)


_own = threading.local()


def _kept(plan: bytes) -> Feed:
    """The program that this worker keeps for a plan: a thread's own, made in this process."""
    feed: Optional[Feed] = getattr(_own, 'feed', None)
    if feed and feed.owner == os.getpid() and feed.process.poll() is None:
        if feed.plan == plan and feed.program == feeds():
            return feed
        feed.close()
    _own.feed = None
    feed = _own.feed = Feed(plan)
    return feed


_lock = threading.Lock()


def kept_file(text: bytes) -> str:
    """The path of a file with this text, which is there until the process ends."""
    with _lock:
        return os.path.join(_kept_folder(text).name, 'plan.hpl')


@lru_cache(maxsize=None)
def _kept_folder(text: bytes) -> 'TemporaryDirectory[str]':
    folder = TemporaryDirectory(prefix='humpipe-')
    # at the end of this process, be it one of a pool or not
    Finalize(None, folder.cleanup, exitpriority=0)
    with open(os.path.join(folder.name, 'plan.hpl'), 'xb') as file:
        file.write(text)
    return folder
