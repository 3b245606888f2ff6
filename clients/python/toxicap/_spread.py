"""Seeds that are tried range by range, by an executor or in this process."""
import collections
import concurrent.futures
import logging
import time
from typing import Callable, Deque, NamedTuple, Optional, Tuple

AHEAD = 16  # how many ranges are under way, unless an executor says how many workers it has
FIRST, MOST = 4, 4096  # how many seeds a range has
SECONDS = 0.25  # how long a range takes, about


class Found(NamedTuple):
    """What became of a range of seeds: the first that fails and the error of the predicate, as a line; or what ends the search."""

    seed: Optional[int]
    error: str
    fault: Optional[Exception]
    seconds: float


Try = Callable[[range], Found]


def spread(seeds: range, attempt: Try, executor: Optional[concurrent.futures.Executor], show: Callable[[str], None]) -> Found:
    """The first range in which a seed fails, or the last one. They go out in order, and are looked at in order, so the seed is the least one. What a
    worker does not do, because it was lost, is done in this process."""
    ahead: int = 1 if executor is None else 2 * getattr(executor, "_max_workers", AHEAD // 2)
    waiting: Deque[Tuple[range, Optional["concurrent.futures.Future[Found]"]]] = collections.deque()
    found, size, below = Found(None, "", None, 0), FIRST if executor else 1, seeds.stop
    while (waiting or seeds) and found.seed is None and not found.fault:
        while seeds and len(waiting) < ahead:
            waiting.append((seeds[:size], submitted(executor, attempt, seeds[:size])))
            seeds = seeds[size:]
        part, future = waiting.popleft()
        show(f"seed {part.start} below {below}")
        found = result(part, future, attempt)
        size = max(1, min(MOST, 2 * size, round(SECONDS * len(part) / max(found.seconds, 1e-6)))) if executor else 1
    for _, future in waiting:
        if future:
            future.cancel()
    return found


def submitted(executor: Optional[concurrent.futures.Executor], attempt: Try, part: range) -> Optional["concurrent.futures.Future[Found]"]:
    """What an executor will tell of a range; None if it takes none any more, as after the loss of a process."""
    try:
        return executor.submit(attempt, part) if executor else None
    except RuntimeError:
        return None


def result(part: range, future: Optional["concurrent.futures.Future[Found]"], attempt: Try) -> Found:
    try:
        return future.result() if future else attempt(part)
    except Exception as error:
        if "pickle" in str(error):
            raise TypeError(f"a worker can't have the predicate: write it at the top of a module, not as a lambda ({error})") from None
        logging.getLogger("toxicap").warning("a worker failed, so the seeds from %d to %d are tried here: %r", part[0], part[-1], error)
        return attempt(part)


def timed(attempt: Callable[[], Tuple[Optional[int], str]]) -> Found:
    """What became of an attempt, with what ended it and how long it took."""
    begun = time.monotonic()
    try:
        seed, error = attempt()
    except Exception as fault:
        return Found(None, "", fault, time.monotonic() - begun)
    return Found(seed, error, None, time.monotonic() - begun)
