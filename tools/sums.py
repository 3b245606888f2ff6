"""Finds segments of a recording whose TCP checksums are wrong. toxicap does not look at checksums, and writes right ones."""
import struct
from typing import Iterator, List, NamedTuple, Optional, Tuple

TCP = 6


class Sums(NamedTuple):
    """What a recording has of them."""

    wrong: List[int]
    """The records, from 1 on, with segments whose sums are wrong."""
    unfilled: int
    """How many other segments a network card was to fill the sum of: it is that of the pseudo-header, or 0."""


def sums_of(capture: bytes) -> Sums:
    """The checksums of a classic pcap that toxicap takes."""
    wrong, unfilled = [], 0
    for number, frame in enumerate(frames(capture), 1):
        segment = segment_in(frame)
        if segment is None or is_right(*segment):
            continue
        if is_unfilled(*segment):
            unfilled += 1
        else:
            wrong.append(number)
    return Sums(wrong, unfilled)


def frames(capture: bytes) -> Iterator[bytes]:
    """The whole records of a capture."""
    length = struct.Struct(">8xI4x" if capture[0] == 0xA1 else "<8xI4x")
    at = 24
    while at + length.size <= len(capture):
        start = at + length.size
        at = start + length.unpack_from(capture, at)[0]
        if at <= len(capture):
            yield capture[start:at]


def segment_in(frame: bytes) -> Optional[Tuple[bytes, bytes]]:
    """The pseudo-header and the TCP segment of a frame, by docs/use/rules.md; None if it has none."""
    start = 18 if frame[12:14] == b"\x81\x00" else 14
    packet = frame[start:]
    if frame[start - 2 : start] != b"\x08\x00" or len(packet) < 20 or packet[0] >> 4 != 4:
        return None
    head, (length, fragment) = 4 * (packet[0] & 15), struct.unpack_from(">2xH2xH", packet)
    segment = packet[head:length]
    if head < 20 or length > len(packet) or fragment & 0x3FFF or packet[9] != TCP or len(segment) < 20:
        return None
    if not 20 <= 4 * (segment[12] >> 4) <= len(segment) or packet[12:16] + segment[:2] == packet[16:20] + segment[2:4]:
        return None
    return packet[12:20] + struct.pack(">HH", TCP, len(segment)), segment


def words(text: bytes) -> int:
    """The ones' complement sum of 16-bit words (RFC 1071), modulo 2^16 - 1."""
    return int.from_bytes(text + b"\0" * (len(text) % 2), "big") % 0xFFFF


def is_right(pseudo: bytes, segment: bytes) -> bool:
    return (words(pseudo) + words(segment)) % 0xFFFF == 0


def is_unfilled(pseudo: bytes, segment: bytes) -> bool:
    """Whether a checksum is 0 or the sum of the pseudo-header, in which the length is 0 if the card was to cut the segment."""
    found = int.from_bytes(segment[16:18], "big")
    return found == 0 or (words(pseudo) - found) % 0xFFFF in (0, len(segment) % 0xFFFF)
