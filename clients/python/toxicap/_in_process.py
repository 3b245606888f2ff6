"""Rehearses captures under scenarios in this process, by the library libtoxicap: bytes in, bytes out, those that the program `toxicap` gives.

Beside this file is perhaps toxicap-static, the program of the same release."""
import contextlib
import ctypes
import json
import os
import pathlib
import re
import signal
from typing import Any, List

from ._inputs import Capture, Hosts, Scenarios, capture_bytes, host_lines, kept, scenario_texts, seed_number
from ._library import NO_ROOM, Inputs, Refusal, Sizes, check_process, library, raise_refusal
from ._outputs import Output
from ._room import Room, guessed_room

PROGRAM = pathlib.Path(__file__).resolve().with_name("toxicap-static")
LARGE = 2**20  # bytes of all outputs that are had by one call
SEGMENT = 70  # bytes that a segment takes beside its payload
PARTS = 8  # calls that have more, at most
FEW = 8192  # bytes of a capture for each connection, at least, where these are few


def inputs_of(capture: Capture, scenarios: Scenarios, hosts: Hosts, seed: int) -> Inputs:
    check_process()
    return Inputs(capture_bytes(capture), scenario_texts(scenarios), host_lines(hosts), seed_number(seed))


def report_room(inputs: Inputs) -> Room:
    """A first guess: a connection takes some 120 bytes of a report, and mostly 1,000 or more of the capture; 256 KiB at most."""
    return guessed_room(len(inputs.scenarios) * (1024 + min(len(inputs.capture) // 8, 262144)))


def rehearse(capture: Capture, scenarios: Scenarios, hosts: Hosts = b"", seed: int = 0) -> List[Output]:
    """The capture and the report of each scenario, in their order: the bytes that `toxicap --out` stores.

    capture    a classic pcap of Ethernet frames, in microseconds or nanoseconds, or a dump of one in hexadecimal; at most 2^30 bytes. It is given as
               bytes, as the path of a file (a str or a Path), or as an Output, whose capture it is
    scenarios  a list of scenarios, at most 256: JSON in Toxiproxy's populate form, with the field `toxics`. Each is given as bytes, as the path of a
               file, or as a list of proxies, which are dicts. A single one may stand for the list; a list of dicts is one scenario. `[]` is no
               scenario, and `[[]]` or `b"[]"` one that leaves all as recorded
    hosts      the addresses of the names that scenarios use: a dict, or lines NAME=ADDR as bytes, each ended by a line feed, which the last one may
               do without
    seed       a number from 0 to 2^64 - 1, which all drawing depends on

    Equal arguments give equal bytes. Any thread may call, and other threads run meanwhile; a thread wants 256 KB of stack. A refusal is raised as
    Refusal, lack of memory as OutOfMemory or MemoryError, another seed as ValueError, an argument of another type as TypeError. In a process that
    was forked from one with threads no call is made, and RuntimeError is raised.

    The library holds outputs a second time. Those of more than 1 MB are stored by the program toxicap-static beside this module, which the wheel has,
    in the folder for temporary files, and read one after another. So a call takes at most 4 MB more than 1.2 times the bytes of its outputs. Without
    that program, or where there is no room for them, it takes up to 2.1 times their bytes."""
    inputs, source = inputs_of(capture, scenarios, hosts, seed), kept(capture)
    if len(inputs.capture) * len(inputs.scenarios) <= LARGE and sliced_size(inputs) <= 4 * LARGE:
        outputs = outputs_of(inputs, len(inputs.scenarios))
    else:
        outputs = by_program(inputs) or in_parts(inputs)
    return [output._of(source) for output in outputs]


def sliced_size(inputs: Inputs) -> float:
    """About how many bytes the outputs have at most: each slicer cuts once more after its size."""
    sizes = [[int(size) for size in re.findall(rb'"average_size"\s*:\s*([0-9]{1,10})', text)] for text in inputs.scenarios]
    return sum(len(inputs.capture) * (1 + sum(SEGMENT / max(1, size) for size in found)) for found in sizes)


def outputs_of(inputs: Inputs, large: int) -> List[Output]:
    """The outputs by one call, of which as many may be as large as the capture."""
    captures, reports = guessed_room(len(inputs.capture) // 2 * 3 * large + 4096), report_room(inputs)
    status, sizes, lens = NO_ROOM, Sizes(), (ctypes.c_size_t * (2 * len(inputs.scenarios)))()
    while status == NO_ROOM:
        found = by_program(inputs) if sizes.captures > LARGE else []
        if found:
            return found
        captures, reports = captures.at_least(sizes.captures), reports.at_least(sizes.reports)
        status = library().toxicap_rehearse(inputs, captures.buffer, captures.size, reports.buffer, reports.size, lens, len(lens), sizes)
    raise_refusal(status, reports, sizes.reports)
    return [Output(captures.take(capture_len), reports.take(report_len)) for capture_len, report_len in zip(lens[::2], lens[1::2])]


def by_program(inputs: Inputs) -> List[Output]:
    """The outputs as the program stores them, one file after another. None if there is no program or it fails, of which the library tells then."""
    folder = new_folder() if PROGRAM.exists() else ""
    if not folder:
        return []
    try:
        if not are_stored(inputs, folder):
            return []
        inputs.drop_capture()  # if it was a path's, nobody else holds its bytes
        return [Output(*(taken_out(f"{folder}/{at:04}.{ending}") for ending in ("pcap", "txt"))) for at in range(len(inputs.scenarios))]
    finally:
        for name in os.listdir(folder):
            os.unlink(f"{folder}/{name}")
        os.rmdir(folder)


def new_folder() -> str:
    """A folder for temporary files, which nobody else can read; "" if there is no place for one. It is made without tempfile, and a program run without
    subprocess: those take more memory than many outputs."""
    for place in filter(None, [*map(os.environ.get, ("TMPDIR", "TEMP", "TMP")), "/tmp", "/var/tmp"]):
        folder = f"{place}/toxicap-{os.urandom(8).hex()}"
        with contextlib.suppress(OSError):
            os.mkdir(folder, 0o700)
            return folder
    return ""


def are_stored(inputs: Inputs, folder: str) -> bool:
    """Has the program store the outputs in a folder; whether it did."""
    hosts = inputs.hosts.split(b"\n")
    words: List[Any] = [f"--out={folder}", f"--seed={inputs.seed}", *(b"--host=" + host for host in (hosts if hosts[-1] else hosts[:-1]))]
    try:
        for at, text in enumerate([inputs.capture, *inputs.scenarios]):
            pathlib.Path(folder, str(at)).write_bytes(text)
            words.append(f"--scenario={folder}/{at}" if at else f"--capture={folder}/0")
        run_program(words)
        os.unlink(f"{folder}/0")
    except TimeoutError:  # raised by the caller's handler of a signal
        raise
    except (OSError, ValueError):  # a zero byte in a host is a ValueError
        return False
    return pathlib.Path(folder, f"{len(inputs.scenarios) - 1:04}.txt").exists()  # the last file that it stores


def run_program(words: List[Any]) -> None:
    """Runs the program to its end. Of its status nothing is asked: who ignores SIGCHLD is told of none."""
    silent = [(os.POSIX_SPAWN_OPEN, number, os.devnull, os.O_RDWR, 0) for number in range(3)]
    child = os.posix_spawn(PROGRAM, [PROGRAM, *words], os.environ, file_actions=silent)
    try:
        with contextlib.suppress(ChildProcessError):
            os.waitpid(child, 0)
    except BaseException:  # as by Ctrl-C: nothing may be written into a folder that is gone
        with contextlib.suppress(OSError):  # it has ended, and was waited for
            os.kill(child, signal.SIGKILL)
            os.waitpid(child, 0)
        raise


def taken_out(name: str) -> bytes:
    """The bytes of a file, which is removed."""
    path = pathlib.Path(name)
    content = path.read_bytes()
    path.unlink()
    return content


def in_parts(inputs: Inputs) -> List[Output]:
    """The outputs by several calls one after another, since the library holds those of a call a second time while it answers. A scenario draws by its
    number, which it keeps: before those of a call stand others, which refuse all connections. They cost little where connections are few."""
    count, outputs = len(inputs.scenarios), []
    try:
        [report] = reports_of(inputs.under([b"[]"])) if 1 < count <= 256 else [b""]
    except Refusal:
        return outputs_of(inputs, count)
    servers = sorted({server.decode() for server in re.findall(rb"^\d+ \S+ > (\S+)", report, flags=re.MULTILINE)})
    if not report or len(servers) > 64 or report.count(b"\n") * FEW > len(inputs.capture):
        return outputs_of(inputs, count)
    refuses_all = json.dumps([{"name": server, "upstream": server, "enabled": False} for server in servers]).encode()
    step = -(-count // PARTS)
    for at in range(0, count, step):
        outputs += outputs_of(inputs.under([refuses_all] * at + inputs.scenarios[at : at + step]), step + 2)[at:]
    return outputs


def reports(capture: Capture, scenarios: Scenarios, hosts: Hosts = b"", seed: int = 0) -> List[bytes]:
    """The reports alone, the same bytes as of `rehearse`, in less time and memory. Arguments and errors are those of `rehearse`."""
    return reports_of(inputs_of(capture, scenarios, hosts, seed))


def reports_of(inputs: Inputs) -> List[bytes]:
    texts, status, sizes = report_room(inputs), NO_ROOM, Sizes()
    while status == NO_ROOM:
        texts = texts.at_least(sizes.reports)
        status = library().toxicap_reports(inputs, texts.buffer, texts.size, sizes)
    raise_refusal(status, texts, sizes.reports)
    return re.split(rb"^(?=scenario )", texts.take(sizes.reports), flags=re.MULTILINE)[1:]
