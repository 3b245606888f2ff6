"""Searches over rehearsals in this process: the least seed, the smallest scenario and the first prefix for which a test fails.

If standard error is a terminal, a search that takes longer than a second writes there how far it is."""
import contextlib
import copy
import functools
import hashlib
import json
import logging
import sys
import time
import traceback
import uuid
from concurrent.futures import Executor
from typing import Any, Callable, Dict, Iterable, Iterator, List, Optional, Sequence, Tuple, Type, TypeVar, Union

from ._in_process import rehearse
from ._inputs import Capture, Hosts, Scenario, Scenarios, capture_bytes, host_lines, scenario_text, scenario_texts
from ._library import Refusal
from ._outputs import Output
from ._spread import Found, spread, timed
from ._strict import check

SEEDS = 32  # how many seeds shrink tries by itself
REMEMBERED = 100000  # for how many outputs a search knows whether they fail
PROGRAMMING = NameError, AttributeError, TypeError, ImportError  # errors of a predicate that end a search
Predicate = Callable[[List[Output]], object]  # of the outputs of rehearse; they fail if it is true or raises an exception
Show = Callable[[str], None]
Message = TypeVar("Message")
Parser = Callable[[], Callable[[bytes], List[Message]]]  # makes a new parser: it takes bytes, and gives the messages that are whole with them


def least_seed(
    capture: Capture, scenarios: Scenarios, hosts: Hosts, predicate: Predicate, below: int, *, start: int = 0, executor: Optional[Executor] = None,
    show: Optional[Show] = None, any_error: bool = False, strict: bool = True
) -> Optional[int]:
    """The least seed from `start` to below a number, at most 2^64, under which predicate(outputs) is true or raises an exception, or None; the outputs are
    those of rehearse: of each scenario the capture and the report. It is called once for equal outputs, in each process. What it raised for this seed is
    logged (logging, "toxicap"), which standard error shows. A refusal is raised with its line.

    executor   what tries ranges of seeds, such as a concurrent.futures.ProcessPoolExecutor, or `get_executor()` of a Dask client; then it has to take the
               predicate, which for processes stands at the top of a module. The seed is the same
    show       a function that is told how far the search is, as text
    any_error  whether NameError, AttributeError, TypeError and ImportError count as any exception; else they are faults of the predicate, and end the
               search
    strict     whether ValueError is raised if the scenarios can do nothing (what `explain` finds)"""
    with progress(show) as shown:
        trials, texts = Trials(capture, hosts, predicate, any_error, shown, executor), scenario_texts(scenarios)
        if strict:
            check(trials.capture, texts, trials.hosts, 0)
        seed = trials.least(texts, below, start)
        trials.log(seed)
        return seed


def shrink(
    capture: Capture, scenario: Scenario, fails: Predicate, hosts: Hosts = b"", below: int = SEEDS, *, executor: Optional[Executor] = None,
    show: Optional[Show] = None, any_error: bool = False, strict: bool = True
) -> Tuple[bytes, int]:
    """A scenario that fails with fewer toxics and smaller numbers, as text, and its seed. A scenario fails if fails(outputs) is true or raises an
    exception under a seed below a number, the least of which is its seed; the outputs are those of rehearse, and it is called once for equal ones.
    Toxics and proxies without effect are left out first. Then no proxy and no toxic can be left out, no attribute be one less and no toxicity be 1
    so that it fails still. ValueError is raised if the scenario does not fail, or if `[]` fails too; a refusal is raised with its line. All else is as
    for least_seed."""
    with progress(show) as shown:
        trials, text = Trials(capture, hosts, fails, any_error, shown, executor), scenario_text("scenario", scenario)
        if strict:
            check(trials.capture, [text], trials.hosts, 0)
        seed = trials.least([text], below)
        if seed is None:
            raise ValueError(f"the scenario does not fail under the seeds below {below}: there is nothing to shrink; a larger `below` tries more")
        if trials.fail(rehearse(trials.capture, [b"[]"], trials.hosts, seed)):
            why = f" ({trials.last})" if trials.last else ""
            raise ValueError(f"the scenario `[]`, without toxics, fails too{why}: there is nothing to shrink; make `fails` false for what was recorded")
        proxies: Any = json.loads(text)
        leave_out_idle(trials, proxies, seed)
        seed = shrunk(proxies, lambda: trials.least([json.dumps(proxies).encode()], below))
        trials.log(trials.least([json.dumps(proxies).encode()], below))
        return json.dumps(proxies).encode(), seed


@contextlib.contextmanager
def progress(show: Optional[Show] = None) -> Iterator[Show]:
    """A function that shows how far a search is: its text, once a second, if standard error is a terminal. The line is removed at the end. It is another
    one if that is given."""
    due, is_shown = time.monotonic() + 1, False

    def show_line(text: str) -> None:
        nonlocal due, is_shown
        if time.monotonic() < due or sys.stderr is None or not sys.stderr.isatty():
            return
        print(f"\r{text}\x1b[K", end="", file=sys.stderr, flush=True)
        due, is_shown = time.monotonic() + 1, True

    try:
        yield show or show_line
    finally:
        if is_shown:
            print("\r\x1b[K", end="", file=sys.stderr, flush=True)


def failures() -> Tuple[Type[BaseException], ...]:
    """What counts as a failure if it is raised: exceptions, and what pytest's `fail` raises, also for a pytest.raises that nothing met."""
    pytest = sys.modules.get("pytest")
    return (Exception, pytest.fail.Exception) if pytest else (Exception,)


class Trials:
    """Rehearsals of a capture, of which a predicate says whether they fail. It is asked once for equal outputs, of the last ones."""

    def __init__(
        self, capture: Capture, hosts: Hosts, predicate: Predicate, any_error: bool, show: Optional[Show] = None, executor: Optional[Executor] = None
    ) -> None:
        self.capture, self.hosts, self.predicate, self.any_error = capture_bytes(capture), host_lines(hosts), predicate, any_error
        self.show, self.executor, self.token = show, executor, uuid.uuid4().hex
        self.ends: Tuple[Type[BaseException], ...] = () if any_error else PROGRAMMING
        self.known: Dict[bytes, Tuple[bool, str]] = {}  # of outputs: whether they fail, and by which error
        self.last = ""  # the error of the last outputs
        self.count = 0

    def least(self, scenarios: Sequence[bytes], below: int, start: int = 0) -> Optional[int]:
        """The least seed from `start` to below a number under which scenarios fail, or None."""
        if not 1 <= below <= 2**64:
            raise ValueError(f"below {below} is not from 1 to 2^64")
        if not 0 <= start <= below:
            raise ValueError(f"start {start} is not from 0 to below, {below}")
        attempt = functools.partial(tried, (self.token, self.capture, self.hosts, self.predicate, self.any_error), list(scenarios))
        if self.executor is None:
            attempt = functools.partial(self.attempt, scenarios)

        def show(text: str) -> None:
            self.count += 1
            if self.show:
                self.show(f"rehearsal {self.count}: {text}" if self.executor is None else text)

        found = spread(range(start, below), attempt, self.executor, show)
        if found.fault:
            raise found.fault
        self.last = found.error
        return found.seed

    def attempt(self, scenarios: Sequence[bytes], seeds: range) -> Found:
        """Tries some seeds."""
        return timed(lambda: next(((seed, self.last) for seed in seeds if self.fail(rehearse(self.capture, scenarios, self.hosts, seed))), (None, "")))

    def fail(self, outputs: List[Output]) -> bool:
        mark = b"".join(hashlib.blake2b(file, digest_size=16).digest() for output in outputs for file in output)
        if mark not in self.known:
            if len(self.known) == REMEMBERED:
                self.known.clear()
            self.known[mark] = self.asked(outputs)
        fails, self.last = self.known[mark]
        return fails

    def asked(self, outputs: List[Output]) -> Tuple[bool, str]:
        """What the predicate says of outputs, and the error that it raises, as a line."""
        try:
            return bool(self.predicate(outputs)), ""
        except self.ends:
            raise
        except failures() as error:
            return True, traceback.format_exception_only(type(error), error)[-1].strip()

    def log(self, seed: Optional[int]) -> None:
        """Logs the error of the seed that was found."""
        if seed is not None and self.last:
            logging.getLogger("toxicap").warning("seed %d: the predicate raised %s", seed, self.last)


of_worker: Dict[str, Trials] = {}  # those of the search that this process works for, by its token


def tried(search: Tuple[str, bytes, bytes, Predicate, bool], scenarios: List[bytes], seeds: range) -> Found:
    """Tries some seeds in a worker."""
    token, capture, hosts, predicate, any_error = search
    if token not in of_worker:
        of_worker.clear()
        of_worker[token] = Trials(capture, hosts, predicate, any_error)
    return of_worker[token].attempt(scenarios, seeds)


def leave_out_idle(trials: Trials, proxies: List[Any], seed: int) -> None:
    """Takes out each toxic, and then each proxy, without which the outputs under a seed are the same."""

    def outputs() -> List[Output]:
        return rehearse(trials.capture, [json.dumps(proxies).encode()], trials.hosts, seed)

    expected = outputs()
    for items in [*(proxy.get("toxics") or [] for proxy in proxies), proxies]:
        leave_out(items, lambda: outputs() == expected)


def shrunk(proxies: List[Any], least: Callable[[], Optional[int]]) -> int:
    """Makes failing proxies smaller while there is a least seed under which they fail. The last one."""
    before: Any = None
    seed = 0

    def still_fails() -> bool:
        nonlocal seed
        try:
            found = least()
        except Refusal as refusal:
            if refusal.number != 19:  # an attribute is too small, such as a rate of 0
                raise
            return False
        seed = seed if found is None else found
        return found is not None

    still_fails()
    while proxies != before:
        before = copy.deepcopy(proxies)
        leave_out(proxies, still_fails)
        for proxy in proxies:
            leave_out(proxy.get("toxics") or [], still_fails)
        toxics = [toxic for proxy in proxies for toxic in proxy.get("toxics") or []]
        for toxic in toxics:
            make_smaller(toxic.get("attributes") or {}, still_fails)
        for toxic in toxics:
            apply_always(toxic, still_fails)
    return seed


def leave_out(items: List[Any], still_fails: Callable[[], bool]) -> None:
    """Takes out each item without which it fails still, the last one first: so the toxics before it keep their numbers, and what they draw."""
    for place in reversed(range(len(items))):
        item = items.pop(place)
        if not still_fails():
            items.insert(place, item)


def make_smaller(attributes: Dict[str, Any], still_fails: Callable[[], bool]) -> None:
    """Makes each attribute smaller while it fails still: tries 0, 1, 3, 7 and on, and then halves what is left."""
    for name in sorted(name for name, number in attributes.items() if type(number) is int):
        passes, failing = -1, attributes[name]
        while failing - passes > 1:
            attributes[name] = min((passes + failing) // 2, max(0, 2 * passes + 1))
            if still_fails():
                failing = attributes[name]
            else:
                passes = attributes[name]
        attributes[name] = failing


def apply_always(toxic: Dict[str, Any], still_fails: Callable[[], bool]) -> None:
    """Takes out a toxicity where it fails still, so that the toxic applies to all connections."""
    for name in "toxicity_ppm", "toxicity":
        if name in toxic:
            toxicity = toxic.pop(name)
            if not still_fails():
                toxic[name] = toxicity


def feed(parser: "Parser[Message]", payloads: Iterable[bytes]) -> List[Message]:
    """The messages that a new parser gives, fed these payloads one after another: parser() makes a function that takes bytes, and gives the list of
    the messages that are whole with them."""
    take = parser()
    return [message for payload in payloads for message in take(payload)]


def feed_prefixes(
    parser: "Parser[Message]", stream: bytes, key: Callable[[List[Message]], object] = list
) -> Optional[Tuple[int, Union[List[Message], Exception]]]:
    """Feeds new parsers (as of feed) each prefix of a stream, from its first byte on, and then the rest. The first prefix after which one raises an
    error, or gives other messages than for the stream at once: its length in bytes, and that error or those messages. None if there is none.
    key(messages) is compared in place of the messages: it can join pieces of a body, or leave out what depends on chunks. What a parser raises for
    the stream at once is raised. It takes the time to parse the stream once for each of its bytes."""
    whole = key(feed(parser, [stream]))
    with progress() as show:
        for size in range(1, len(stream)):
            show(f"prefix {size} of {len(stream)}")
            try:
                messages = feed(parser, [stream[:size], stream[size:]])
            except Exception as error:
                return size, error
            if key(messages) != whole:
                return size, messages
    return None
