"""What each side of each connection receives in each scenario, by one call: no capture is made or read."""
import struct
from typing import List, Tuple

from ._events import Line
from ._in_process import inputs_of
from ._inputs import Capture, Hosts, Scenarios
from ._library import NO_ROOM, Inputs, LinesSizes, library, raise_refusal
from ._room import guessed_room

CHUNK = struct.Struct("=2Q")  # ToxicapChunk
CONNECTION = struct.Struct("=9Q2I2HI")  # ToxicapConnection: its opening; of up, then of down, bytes, chunks, end's time and end; peers and VLAN
ENDS = "", "fin", "fin", "reset", "refused"

Laid = Tuple[bytes, List[Tuple[int, ...]], List[Tuple[int, ...]]]


def laid_lines(inputs: Inputs) -> Laid:
    """The bytes, chunks and connections of all scenarios, as toxicap.h says."""
    size, count = len(inputs.capture), len(inputs.scenarios)
    # a first guess: a record takes 70 bytes of the capture, and a connection mostly four records
    status, sizes = NO_ROOM, LinesSizes(count * size + 1024, count * size // 70, count * size // 280)
    while status == NO_ROOM:
        rooms = bytes_room, chunks, connections = (
            guessed_room(sizes.bytes),
            guessed_room(sizes.chunks * CHUNK.size),
            guessed_room(sizes.connections * CONNECTION.size),
        )
        sent = [word for room, each in zip(rooms, (1, CHUNK.size, CONNECTION.size)) for word in (room.buffer, room.size // each)]
        status = library().toxicap_lines(inputs, *sent, sizes)
    raise_refusal(status, bytes_room, sizes.bytes)
    return (
        bytes_room.take(sizes.bytes),
        list(CHUNK.iter_unpack(chunks.take(sizes.chunks * CHUNK.size))),
        list(CONNECTION.iter_unpack(connections.take(sizes.connections * CONNECTION.size))),
    )


def lines(capture: Capture, scenarios: Scenarios, hosts: Hosts = b"", seed: int = 0) -> List[List[Tuple[Line, Line]]]:
    """Of each scenario two lines for each connection, (up, down): what `delivered` reads of the capture of `rehearse`, in less time and memory.
    Arguments and errors are those of `rehearse`."""
    inputs = inputs_of(capture, scenarios, hosts, seed)
    data, chunks, connections = laid_lines(inputs)
    at, number = 0, 0

    def line(size: int, count: int, time: int, end: int) -> Line:
        nonlocal at, number
        found, start = [], 0
        for stop, came in chunks[number : number + count]:
            found.append((came, data[at + start : at + stop]))
            start = stop
        at, number = at + size, number + count
        return Line(found, (time, ENDS[end]) if end else None)

    pairs = [(line(*of[1:5]), line(*of[5:9])) for of in connections]
    count = len(inputs.scenarios)
    each = len(pairs) // count if count else 0
    return [pairs[place * each : (place + 1) * each] for place in range(count)]
