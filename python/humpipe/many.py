"""Runs a plan over many scores."""
import os
import time
from collections import deque
from concurrent.futures import Executor, Future
from functools import partial
from itertools import islice
from queue import SimpleQueue
from typing import Any, Callable, Deque, Dict, Generator, Iterable, Iterator, List, NamedTuple, Optional, Sequence, Sized, Tuple, TypeVar

from .faults import Error, Fault, RunError
from .feeding import answers
from .plans import STANDARD_INPUT, reads
from .program import Answer, Call, Path, Threads, ended, file_of, processors, program
from .running import ERRORS, Plan, plan_bytes

# how many scores a worker is asked for together, and how many seconds they may take
TOGETHER = 16
SHORT = 0.02

Job = TypeVar('Job')
Result = TypeVar('Result')
Timed = Tuple[Sequence[Result], float]


class Outcome(NamedTuple):
    """What became of one score: its path, the text that was written, and the error if the run didn't end well."""

    path: str
    text: str
    fault: Optional[Error] = None


def map(plan: Plan, paths: Iterable[Path], jobs: Optional[int] = None, progress: Optional[bool] = None, *, executor: Optional[Executor] = None,
        encoding: str = 'utf-8', timeout: Optional[float] = None) -> Iterator[Outcome]:
    """Runs a plan that reads `/dev/stdin` over many scores, `jobs` at once (as many as there are processors, if nothing is said).

    Gives an `Outcome` for each path, in their order. A score that is refused doesn't stop it, nor one that isn't done in `timeout` seconds: its outcome
    has the fault. What the plan itself breaks is raised at once. Where tqdm is installed a bar shows the progress on a terminal; `progress` says
    whether it does elsewhere. The runs go to an `executor` of `concurrent.futures` if there is one, such as one of Dask, whose workers see the
    scores under the same paths."""
    work = partial(_outcomes, checked(plan), encoding, timeout)
    return with_bar(each(work, paths, _lost, jobs, executor, most=1 if executor else TOGETHER), paths, progress)


def checked(plan: Plan) -> bytes:
    """The text of a plan that reads `/dev/stdin`. Raises what the program says of it, without a score."""
    text = plan_bytes(plan)
    with file_of(text) as file:
        error = ended(Call([program(), file])).error
    if error and not isinstance(error, Fault):
        raise error
    if not any(word.text in STANDARD_INPUT for word in reads(text.decode())):
        raise ValueError('the plan reads no /dev/stdin, so it would give the same for each score')
    return text


def _outcomes(plan: bytes, encoding: str, timeout: Optional[float], paths: Sequence[Path]) -> List[Outcome]:
    """The outcomes of the first of these scores, in a thread or a process."""
    return [_outcome(path, found, encoding) for path, found in zip(paths, answers(plan, paths, timeout))]


def _outcome(path: Path, found: Answer, encoding: str) -> Outcome:
    text = found.written.decode(encoding, ERRORS)
    if found.error:
        found.error.text = text
    return Outcome(os.fspath(path), text, found.error)


def _lost(path: Path, error: Exception) -> Outcome:
    return Outcome(os.fspath(path), '', lost(error))


def lost(error: Exception) -> RunError:
    """The error of a score whose worker is gone."""
    return RunError(f'lost with its worker: {type(error).__name__} {error}'.rstrip())


def each(work: Callable[[Sequence[Job]], Sequence[Result]], jobs: Iterable[Job], lost: Callable[[Job, Exception], Result], at_once: Optional[int] = None,
         executor: Optional[Executor] = None, in_order: bool = True, most: int = 1) -> Generator[Result, None, None]:
    """The result of the work on each job, in their order or as they are done, and `lost` of a job that an executor lost. The work takes up to `most` jobs,
    as long as they are short, and may answer the first of them alone. A few are ahead of what is waited for, however many there are. If the jobs raise an
    error, it is raised after the results of those before it."""
    threads = None if executor else Threads(at_once or processors())
    width = at_once or processors() * (4 if executor else 1)
    done: 'SimpleQueue[Future[Timed[Result]]]' = SimpleQueue()
    order: 'Deque[Future[Timed[Result]]]' = deque()
    waiting: 'Dict[Future[Timed[Result]], List[Job]]' = {}
    rest, failure, together = iter(jobs), None, 1

    def submit(some: List[Job]) -> 'Future[Timed[Result]]':
        future = _submitted(executor or threads, _timed, work, some)
        waiting[future] = some
        if not in_order:
            future.add_done_callback(done.put)
        return future

    def submit_again(some: List[Job]) -> None:
        parts = [submit(some[at:at + together]) for at in range(0, len(some), together)]
        if in_order:
            order.extendleft(reversed(parts))

    def settled() -> Sequence[Result]:
        nonlocal together
        future = order.popleft() if in_order else done.get()
        some = waiting.pop(future)
        try:
            results, seconds = future.result()
        except Exception as error:
            if len(some) == 1:
                return [lost(some[0], error)]
            # which of them it was isn't known
            results, together = [], 1
        else:
            together = max(1, min(most, 2 * len(results), int(len(results) * SHORT / max(seconds, 1e-6))))
        submit_again(some[len(results):])
        return results

    try:
        while True:
            some = []
            try:
                for job in islice(rest, together):
                    some.append(job)
            except Exception as error:
                failure = error
            if some:
                future = submit(some)
                if in_order:
                    order.append(future)
            if len(some) < together:
                break
            while sum(len(some) for some in waiting.values()) > width * max(4, 2 * together):
                yield from settled()
        while waiting:
            yield from settled()
        if failure:
            raise failure
    finally:
        for future in waiting:
            future.cancel()
        if threads:
            threads.close()


def _timed(work: Callable[[Sequence[Job]], Sequence[Result]], jobs: Sequence[Job]) -> Timed[Result]:
    begin = time.perf_counter()
    return work(jobs), time.perf_counter() - begin


def _submitted(executor: Any, *call: Any) -> 'Future[Any]':
    """The future of a call; of one that isn't taken any more, the error."""
    try:
        submitted: 'Future[Any]' = executor.submit(*call)
    except Exception as error:
        submitted = Future()
        submitted.set_exception(error)
    return submitted


def with_bar(results: Iterator[Result], jobs: Iterable[Any], progress: Optional[bool]) -> Iterator[Result]:
    """The results with a bar, where tqdm is."""
    if progress is False:
        return results
    try:
        from tqdm import tqdm
    except ImportError:
        return results
    total = len(jobs) if isinstance(jobs, Sized) else None
    # (on a terminal alone, where nothing is said)
    disable: Any = None if progress is None else False
    return iter(tqdm(results, total=total, unit='score', disable=disable))
