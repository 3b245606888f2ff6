"""The library libtoxicap: its calls and types as toxicap.h has them, and what it refuses.

It is the one that TOXICAP_LIBRARY names by its path, else the one beside this file, else the one in the folder lib of the release which this file lies
in, else that of release/library in the clone which it lies in, else the system's."""
import ctypes
import functools
import os
import pathlib
import threading
import time
from typing import Any, List

from ._room import Room

ANSWERED, REFUSED, NO_ROOM, NO_MEMORY = range(4)


class Refusal(ValueError):
    """What toxicap refuses. Its text is the program's line, and after a colon what helps. The numbers in it count from 0."""

    line: str
    """The program's line, such as `refused 15 UnknownHost scenario 0 proxy 1`."""
    hint: str
    """What helps, such as `scenario 0, proxy 1 "db": its "upstream" is missing, and a text is expected`. It is empty if nothing is
    known."""
    number: int
    """What it is, as 15: the guide has a table of all numbers."""
    name: str
    """The same as a word, as `UnknownHost`."""
    place: str
    """Where it stands, as `scenario 0 proxy 1` or `at 0`; empty where there is no place."""

    def __init__(self, line: str, hint: str = "") -> None:
        super().__init__(line, hint)
        self.line, self.hint = line, hint
        _, number, self.name, *place = line.split(" ", 3)
        self.number, self.place = int(number), "".join(place)

    def __str__(self) -> str:
        return f"{self.line}: {self.hint}" if self.hint else self.line


class OutOfMemory(Refusal, MemoryError):
    """`refused 40 Memory`, which is a MemoryError too."""


def raise_refusal(status: int, text: Room, size: int) -> None:
    """Raises the refusal of a call, if it was refused; its text has `size` bytes."""
    if status == ANSWERED:
        return
    line, _, hint = ("refused 40 Memory" if status == NO_MEMORY else text.take(size).decode()).partition("\n")
    raise (OutOfMemory if line == "refused 40 Memory" else Refusal)(line, hint)


class Inputs(ctypes.Structure):
    """What a rehearsal is made of: ToxicapInputs, and the same as bytes."""

    _fields_ = [
        ("capture_start", ctypes.c_char_p),
        ("capture_len", ctypes.c_size_t),
        ("scenarios_start", ctypes.c_char_p),
        ("scenarios_len", ctypes.c_size_t),
        ("scenario_lens", ctypes.POINTER(ctypes.c_size_t)),
        ("scenario_count", ctypes.c_size_t),
        ("hosts_start", ctypes.c_char_p),
        ("hosts_len", ctypes.c_size_t),
        ("seed", ctypes.c_uint64),
    ]

    def __init__(self, capture: bytes, scenarios: List[bytes], hosts: bytes, seed: int) -> None:
        text, lens = b"".join(scenarios), (ctypes.c_size_t * len(scenarios))(*map(len, scenarios))
        super().__init__(capture, len(capture), text, len(text), lens, len(lens), hosts, len(hosts), seed)
        self.capture, self.scenarios, self.hosts = capture, scenarios, hosts

    def under(self, scenarios: List[bytes]) -> "Inputs":
        """The same with other scenarios."""
        return Inputs(self.capture, scenarios, self.hosts, self.seed)

    def drop_capture(self) -> None:
        """Gives up the bytes of the capture."""
        self.capture = self.capture_start = b""


class Sizes(ctypes.Structure):
    _fields_ = [("captures", ctypes.c_size_t), ("reports", ctypes.c_size_t), ("lens", ctypes.c_size_t)]


class LinesSizes(ctypes.Structure):
    _fields_ = [("bytes", ctypes.c_size_t), ("chunks", ctypes.c_size_t), ("connections", ctypes.c_size_t)]


class EffectSizes(ctypes.Structure):
    _fields_ = [("counts", ctypes.c_size_t), ("text", ctypes.c_size_t)]


@functools.lru_cache(maxsize=None)
def library() -> ctypes.CDLL:
    """The library, with the types of its calls. It is loaded by the first call."""
    name, here = "libtoxicap.so.1", pathlib.Path(__file__).resolve().parent
    top = (here / "../../..").resolve()
    if top.parts[-2:] == ("share", "toxicap"):
        top = top.parents[1]
    found = next(filter(pathlib.Path.exists, (here / name, top / "lib" / name, top / "release/out/lib" / name)), name)
    calls = ctypes.CDLL(os.environ.get("TOXICAP_LIBRARY") or str(found))
    room: List[Any] = [ctypes.c_char_p, ctypes.c_size_t]
    lens: List[Any] = [ctypes.POINTER(ctypes.c_size_t), ctypes.c_size_t]
    calls.toxicap_rehearse.argtypes = [ctypes.POINTER(Inputs), *room, *room, *lens, ctypes.POINTER(Sizes)]
    calls.toxicap_reports.argtypes = [ctypes.POINTER(Inputs), *room, ctypes.POINTER(Sizes)]
    calls.toxicap_lines.argtypes = [ctypes.POINTER(Inputs), *room, *room, *room, ctypes.POINTER(LinesSizes)]
    counts: List[Any] = [ctypes.POINTER(ctypes.c_uint64), ctypes.c_size_t]
    calls.toxicap_effects.argtypes = [ctypes.POINTER(Inputs), *counts, *room, ctypes.POINTER(EffectSizes)]
    for call in calls.toxicap_rehearse, calls.toxicap_reports, calls.toxicap_lines, calls.toxicap_effects:
        call.restype = ctypes.c_uint8
    return calls


caller = os.getpid()  # the process that may call
is_alone = False  # whether it had one thread when it forked last


def check_process() -> None:
    """Raises RuntimeError where no call may be made."""
    if os.getpid() != caller:
        raise RuntimeError("toxicap: this process was forked from one with threads: start it by spawn or forkserver, or fork before there are threads")


def thread_count() -> int:
    """How many threads this process has, those of C code too."""
    try:
        return len(os.listdir("/proc/self/task"))
    except OSError:
        return threading.active_count()


def before_fork() -> None:
    global is_alone
    for _ in range(10):  # a thread that was joined takes a moment to end
        if thread_count() == 1 or threading.active_count() > 1:
            break
        time.sleep(0.001)
    is_alone = thread_count() == 1 and caller == os.getpid()


def after_fork() -> None:
    global caller
    if is_alone:
        caller = os.getpid()


os.register_at_fork(before=before_fork, after_in_child=after_fork)
