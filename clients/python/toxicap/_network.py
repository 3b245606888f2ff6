"""A network of this process's own, with nothing but the loopback device, and a recorder of its packets. No tool is needed for them.

As a program it is the other end of `toxicap.record`: through the socket that is its standard input it says `ready`, or why there is no network, and hands
out a socket of the network for each type that it is sent. At the end of its input it writes how many packets are missing, a line feed, and the capture."""
import concurrent.futures
import contextlib
import ctypes
import errno
import mmap
import os
import pathlib
import select
import signal
import socket
import struct
import sys
import time
from typing import Optional, Tuple

MTU = 1500
SLOT, SLOTS = 2048, 32768  # bytes for a packet in the ring that the kernel fills, of which it takes up to 66; how many packets it holds
PAGE = 4096
QUIET, PATIENCE = 200, 2.0  # milliseconds without a packet that end a recording, and seconds that it goes on at most, after the command
MOST = 2**30  # bytes of a capture that toxicap takes

NEW_USER, NEW_NETWORK = 0x10000000, 0x40000000  # of unshare
PACKETS, RX_RING, STATISTICS, VERSION, IGNORE_OUTGOING = 263, 5, 6, 10, 23  # of packet sockets
OUTGOING, TAKEN = 4, 1  # a packet's type, and a slot's status, when the kernel has filled it
HEAD = struct.Struct("=IIIHHII18xB")  # a slot's status, length of the packet, length that is kept, place of it, .., seconds, nanoseconds, .., type
RECORD = struct.Struct("<IIII")
HEADER = struct.pack("<IHHiIII", 0xA1B23C4D, 2, 4, 0, 0, 262144, 1)
FORBIDDEN = """no network of its own can be had ({}): run it as root, or allow user namespaces (as root: sysctl user.max_user_namespaces=9999; \
Debian 10: kernel.unprivileged_userns_clone=1; Ubuntu 24.04: kernel.apparmor_restrict_unprivileged_userns=0; Docker: --privileged), \
or record by tcpdump"""


def enter() -> None:
    """Moves this process, which has one thread, into a network of its own, whose packets are as small as on a wire. As root it only leaves its network,
    else it enters a user namespace too, where it has the user's own number. PermissionError says what to do where this is not allowed."""
    user, group = os.geteuid(), os.getegid()
    try:
        try:
            unshare(NEW_NETWORK)
        except PermissionError:
            unshare(NEW_USER | NEW_NETWORK)
            for name, line in ("setgroups", "deny"), ("uid_map", f"{user} {user} 1"), ("gid_map", f"{group} {group} 1"):
                pathlib.Path("/proc/self", name).write_text(line)
        open_loopback()
    except OSError as error:
        is_full = error.errno == errno.ENOSPC
        raise PermissionError(FORBIDDEN.format("user namespaces are off or used up" if is_full else error.strerror)) from None
    with contextlib.suppress(OSError):  # where `localhost` is ::1 too, a client then takes 127.0.0.1
        pathlib.Path("/proc/sys/net/ipv6/conf/all/disable_ipv6").write_text("1")


def unshare(what: int) -> None:
    check(ctypes.CDLL(None, use_errno=True).unshare(what) and ctypes.get_errno())


def check(number: int) -> None:
    if number:
        raise OSError(number, os.strerror(number))


def open_loopback() -> None:
    """Has the loopback device up, with this MTU (attribute 4) and one segment a packet (attribute 40), by one request to the kernel."""
    body = struct.pack("=BxHiII", 0, 0, 1, 1, 1) + struct.pack("=HHIHHI", 8, 4, MTU, 8, 40, 1)
    with socket.socket(socket.AF_NETLINK, socket.SOCK_RAW, 0) as kernel:
        kernel.send(struct.pack("=IHHII", 16 + len(body), 16, 5, 1, 0) + body)
        check(-struct.unpack_from("=i", kernel.recv(PAGE), 16)[0])


class Recorder:
    """Records the packets of the loopback device, in nanoseconds, until `stop`."""

    def __init__(self) -> None:
        """PermissionError says what to do where packet sockets are not allowed."""
        try:
            self.packets = socket.socket(socket.AF_PACKET, socket.SOCK_RAW, 0)
            self.packets.setsockopt(PACKETS, VERSION, 1)
            with contextlib.suppress(OSError):  # before Linux 4.20 they are told from others by their type alone
                self.packets.setsockopt(PACKETS, IGNORE_OUTGOING, 1)
            self.packets.setsockopt(PACKETS, RX_RING, struct.pack("IIII", PAGE, SLOT * SLOTS // PAGE, SLOT, SLOTS))
            self.ring = mmap.mmap(self.packets.fileno(), SLOT * SLOTS)
            self.packets.bind(("lo", 3))
        except OSError as error:
            raise PermissionError(FORBIDDEN.format(f"packet sockets: {error.strerror}")) from None
        self.capture = bytearray(HEADER)
        self.until: Optional[float] = None
        self.recorded = concurrent.futures.ThreadPoolExecutor(1).submit(self._record)

    def stop(self) -> Tuple[bytes, int]:
        """The capture, when the last packets have come, and how many packets the kernel dropped."""
        self.until = time.monotonic() + PATIENCE
        self.recorded.result()
        return bytes(self.capture), struct.unpack("II", self.packets.getsockopt(PACKETS, STATISTICS, 8))[1]

    def _record(self) -> None:
        ready, at = select.poll(), 0
        ready.register(self.packets, select.POLLIN)
        while self.until is None or time.monotonic() < self.until:
            is_last = self.until is not None
            status, length, kept, place, _, seconds, nanoseconds, kind = HEAD.unpack_from(self.ring, at)
            if not status & TAKEN:
                if not ready.poll(QUIET) and is_last:
                    return
                continue
            if kind != OUTGOING and len(self.capture) <= MOST:  # on this device each packet goes out and comes in
                self.capture += RECORD.pack(seconds, nanoseconds, kept, length) + self.ring[at + place : at + place + kept]
            struct.pack_into("=I", self.ring, at, 0)
            at = (at + SLOT) % (SLOT * SLOTS)


def serve(control: socket.socket) -> None:
    """Hands out sockets of a network of its own, and writes what was recorded there."""
    try:
        enter()
        recorder = Recorder()
    except OSError as error:
        control.send(str(error).encode())
        return
    control.send(b"ready")
    try:
        for kind in iter(lambda: control.recv(16), b""):
            with socket.socket(socket.AF_INET, int(kind)) as made:
                control.sendmsg([b"."], [(socket.SOL_SOCKET, socket.SCM_RIGHTS, struct.pack("i", made.fileno()))])
    finally:  # also where the other end is gone, for a thread would keep this process
        capture, dropped = recorder.stop()
    sys.stdout.buffer.write(b"%d\n%s" % (dropped, capture))


if __name__ == "__main__":
    signal.signal(signal.SIGINT, signal.SIG_IGN)  # Ctrl-C is for the test
    signal.signal(signal.SIGPIPE, signal.SIG_DFL)  # as when nobody wants the recording any more
    serve(socket.socket(fileno=0))
