"""Records the TCP connections of a test, and says what a recording has and whether it is whole."""
import contextlib
import os
import pathlib
import socket
import struct
import subprocess
import sys
import threading
from typing import FrozenSet, Iterator, List, Optional, Sequence, Tuple

from . import _network
from ._explain import counted, without_connection
from ._in_process import reports
from ._inputs import Path, from_base
from ._known import PASSED_OVER
from ._library import library
from ._outputs import Connection, parse_report


def judged(capture: bytes, dropped: int, probes: bool) -> Tuple[bytes, str, List[str]]:
    """A recording of which the kernel dropped `dropped` packets, without the connections that carry no byte unless `probes` is true; what it has, as
    toxicap reads it; and why it is not whole, or of no use."""
    found, left_out = parse_report(reports(capture, b"[]")[0]), ""
    if not probes:
        capture, before = without_probes(capture, found.connections), found.counts.connections
        found = parse_report(reports(capture, b"[]")[0])
        left_out = f" ({before - found.counts.connections} without data left out)"
    counts, lost = found.counts, sum(line.lost for each in found.connections for line in (each.up, each.down))
    faults = [f"{count} {what}" for count, what in (
        (dropped, "packets were dropped by the kernel: record again, with less beside it that takes the processors"),
        (counts.cut, f"frames are cut: leave the MTU of lo at {_network.MTU}"),
        (lost, "bytes are lost: they stand after a gap, or after a FIN; record again"),
        (counts.badipv4, f"frames are badipv4: {PASSED_OVER['badipv4']}"),
        (counts.unopened, f"segments are unopened: {PASSED_OVER['unopened']}"),
    ) if count]
    if counts.records:
        faults += [finding.text for finding in without_connection(counts)]
    else:
        faults.append("it has no connection: client and server have to be started while it records, and to use 127.0.0.1")
    said = f"{counted(counts.connections)}{left_out}, {counts.cut} frames cut, {lost} bytes lost, {dropped} packets dropped by the kernel"
    return capture, said, faults


def without_probes(capture: bytes, connections: Sequence[Connection]) -> bytes:
    """A capture without the packets between two ends whose connections carry no byte."""
    carrying = [sum(line.recorded + line.lost for line in (each.up, each.down)) for each in connections]
    ends = [frozenset((each.client, each.server)) for each in connections]
    probes = {pair for pair, count in zip(ends, carrying) if not count} - {pair for pair, count in zip(ends, carrying) if count}
    kept, at = bytearray(capture[:24]), 24
    while at < len(capture):
        after = at + 16 + int.from_bytes(capture[at + 8 : at + 12], "little")
        if ends_of(capture[at + 16 : after]) not in probes:
            kept += capture[at:after]
        at = after
    return bytes(kept)


def ends_of(frame: bytes) -> FrozenSet[str]:
    """The two ends of a frame with TCP over IPv4, as a report has them; none of another frame."""
    if frame[12:14] != b"\x08\x00" or frame[23] != socket.IPPROTO_TCP:
        return frozenset()
    ports = struct.unpack_from(">HH", frame, 14 + 4 * (frame[14] & 15))
    return frozenset(f"{socket.inet_ntoa(frame[at : at + 4])}:{port}" for at, port in zip((26, 30), ports))


@contextlib.contextmanager
def record(path: Path, probes: bool = True) -> Iterator[None]:
    """Records the TCP connections that this process makes in the body, both ends, as a capture at `path`:

        if not path.exists():
            with toxicap.record(path):
                exchange()

    IPv4 sockets that Python makes meanwhile, in any thread, are of a network of their own, so the server has to be started in the body. Sockets from
    before, and those of other processes and of C code, are not: for these is the command toxicap-record. `probes=False` leaves out connections that
    carry no byte. The capture is stored whole when the last packets have come, and not if the body raises. ValueError is raised, and nothing stored,
    if the recording is not whole or has no connection; PermissionError at once where no such network is allowed, and OSError without the library."""
    library()
    stored = pathlib.Path(os.path.abspath(from_base(path)))
    ours, theirs = socket.socketpair()
    with theirs:
        network = subprocess.Popen([sys.executable, "-I", "-S", "-B", _network.__file__], stdin=theirs.fileno(), stdout=subprocess.PIPE)
    with network, ours:
        told = ours.recv(_network.PAGE).decode()
        if told != "ready":
            raise PermissionError(told or "the network of a recording has ended")
        try:
            with sockets_from(ours):
                yield
        finally:
            ours.shutdown(socket.SHUT_WR)
        dropped, _, capture = network.communicate()[0].partition(b"\n")
    capture, _, faults = judged(capture, int(dropped), probes)
    if faults:
        raise ValueError(f"{stored} is not stored: {'; '.join(faults)}")
    stored.parent.mkdir(parents=True, exist_ok=True)
    draft = stored.with_name(f"{stored.name}.{os.getpid()}")
    draft.write_bytes(capture)
    draft.replace(stored)


@contextlib.contextmanager
def sockets_from(control: socket.socket) -> Iterator[None]:
    """Has the TCP sockets over IPv4 that this process makes come from the other end of a socket."""
    initial, lock = socket.socket.__init__, threading.Lock()

    def make(self: socket.socket, family: int = -1, type: int = -1, proto: int = -1, fileno: Optional[int] = None) -> None:
        is_tcp = (type == -1 or type & 15 == socket.SOCK_STREAM) and proto in (-1, 0, socket.IPPROTO_TCP)
        if fileno is None and is_tcp and family in (-1, socket.AF_INET):
            family, type, proto = socket.AF_INET, socket.SOCK_STREAM if type == -1 else type, max(proto, 0)
            with lock:
                control.send(b"%d" % type)
                _, [(_, _, number)], *_ = control.recvmsg(1, socket.CMSG_SPACE(4), socket.MSG_CMSG_CLOEXEC)
            fileno = struct.unpack("i", number)[0]
        initial(self, family, type, proto, fileno)

    setattr(socket.socket, "__init__", make)
    try:
        yield
    finally:
        setattr(socket.socket, "__init__", initial)
