"""What a strict observer sees in a capture of the tool: it takes a segment only where TCP allows it, and every fault is a ValueError."""
import struct

FIN, SYN, RST, PSH, ACK = 1, 2, 4, 8, 16
SPACE = 1 << 32


class Segment:
    """A segment of a frame of TCP over IPv4, its sums looked at."""

    def __init__(self, frame):
        link = 18 if frame[12:14] == b"\x81\0" else 14
        self.tag, ip, tcp = frame[12:link - 2], frame[link:link + 20], frame[link + 20:]
        head, self.service, total, self.name, part, self.hops, kind = struct.unpack(">2B3H2B", ip[:10])
        self.sender, self.receiver = ip[12:16] + tcp[:2], ip[16:] + tcp[2:4]
        self.seq, self.ack, words, self.flags, self.window = struct.unpack(">2I2BH", tcp[4:16])
        self.options, self.payload = tcp[20:words >> 2], tcp[words >> 2:]
        told = ip + ip[12:20] + struct.pack(">2H", 6, len(tcp)) + tcp
        want((head, part, kind, total) == (0x45, 0x4000, 6, len(frame) - link), "its headers")
        want(int.from_bytes(ip, "big") % 0xFFFF == 0 and int.from_bytes(told[20:] + bytes(len(told) % 2), "big") % 0xFFFF == 0, "its sums")


def want(holds, what):
    """Raises ValueError where it does not hold."""
    if not holds: raise ValueError(what)


def tcp_options(options):
    """The options of a segment: of each kind its value."""
    found, at = {}, 0
    while at < len(options) and options[at]:
        size = 1 if options[at] == 1 else options[at + 1]
        if size > 1: found[options[at]] = options[at + 2:at + size]
        at += size
    return found


class Connection:
    """A connection as it is seen. Lists of two have the client's before the server's."""

    def __init__(self, time, syn):
        self.opened, self.peers, self.syns = time, (syn.sender, syn.receiver), [syn, None]
        self.next, self.acked, self.windows = [(syn.seq + 1) % SPACE, None], [syn.seq, None], [syn.window, None]
        self.due, self.chunks, self.ends, self.begun = [0, 0], [[], []], [None, None], [b"", b""]
        self.handshake, self.refused, self.segments = [time], False, [[syn], []]

    def scale(self, side):
        """By which power of two a side's windows count."""
        scales = [tcp_options(syn.options).get(3) for syn in self.syns if syn]
        return scales[side][0] if len(scales) == 2 and None not in scales else 0

    def take(self, time, side, segment):
        """Takes a segment of a side."""
        peer, time = 1 - side, time - self.opened
        self.segments[side].append(segment)
        want(self.ends[side] is None or self.ends[side][1] == "fin" or not segment.payload, "bytes after an end")
        if self.next[1] is None and side == 1:
            return self.answer(time + self.opened, segment)
        if segment.flags & RST:
            want(segment.seq == self.next[side], "the number of a reset")
            self.ends[side] = time, "reset"
            return None
        want(None not in self.next and segment.seq == self.next[side], "a gap, or bytes that were sent before")
        want(segment.flags & ACK and (self.next[peer] - segment.ack) % SPACE <= (self.next[peer] - self.acked[peer]) % SPACE, "what it acknowledges")
        if len(self.handshake) == 2 and side == 0: self.handshake.append(time + self.opened)
        elif not segment.payload and not segment.flags & FIN: want(segment.ack != self.acked[peer], "an acknowledgment of nothing")
        self.acked[peer], self.windows[side] = segment.ack, segment.window << self.scale(side)
        if segment.ack == self.next[peer]: self.due[peer] = 0
        length = len(segment.payload) + (segment.flags & FIN > 0)
        self.next[side] = (segment.seq + length) % SPACE
        want((self.next[side] - self.acked[side]) % SPACE <= self.windows[peer], "more than the window")
        self.due[side] += length > 0
        want(self.due[side] <= 2, "two segments that were not acknowledged")
        self.begun[side] += segment.payload
        if segment.flags & PSH:
            self.chunks[side].append((time, self.begun[side]))
            self.begun[side] = b""
        if segment.flags & FIN: self.ends[side] = time, "fin"
        return None

    def answer(self, time, segment):
        """Takes the server's first segment."""
        want(segment.ack == self.next[0] and segment.flags in (SYN | ACK, RST | ACK) and not segment.payload, "the answer to a SYN")
        if segment.flags & RST:
            self.refused, self.ends = True, [(time - self.opened, "refused")] * 2
            return
        self.syns[1], self.next[1], self.acked = segment, (segment.seq + 1) % SPACE, [self.next[0], segment.seq]
        self.windows[1], self.windows[0] = segment.window, self.syns[0].window
        self.handshake.append(time)

    def close(self):
        """Looks at what is left: whatever was sent was acknowledged."""
        if self.refused or None in self.next or any(end and end[1] == "reset" for end in self.ends): return
        want(self.next == self.acked or len(self.handshake) == 2, "bytes, or a FIN, that nobody acknowledged")
        want(self.begun == [b"", b""], "a chunk without an end")


def seen(capture):
    """The connections of a capture in order, and its other frames with their times. Times are in nanoseconds."""
    unit = {0xA1B2C3D4: 1000, 0xA1B23C4D: 1}[struct.unpack_from("<I", capture)[0]]
    at, latest, number, found, live, others = 24, 0, 0, [], {}, []
    while at < len(capture):
        seconds, ticks, held, _ = struct.unpack_from("<4I", capture, at)
        time, frame = seconds * 10**9 + ticks * unit, capture[at + 16:at + 16 + held]
        at += 16 + held
        link = 18 if frame[12:14] == b"\x81\0" else 14
        try:
            want(time >= latest, "its time")
            latest = time
            if frame[link - 2:link] != b"\x08\0" or frame[link + 9] != 6: others.append((time, frame))
            else: take(found, live, time, Segment(frame))
        except ValueError as fault: raise ValueError(f"record {number}: {fault}") from None
        number += 1
    for connection in found: connection.close()
    return found, others


def take(found, live, time, segment):
    """Takes a segment of any connection."""
    pair = segment.tag[2:] and segment.tag[2] & 15, segment.tag[3:], *sorted((segment.sender, segment.receiver))
    connection = live.get(pair)
    if segment.flags == SYN:
        want({2, 3} <= set(tcp_options(segment.options)), "the options of a SYN")
        if connection and connection.next == [(segment.seq + 1) % SPACE, None]:
            connection.segments[0].append(segment)
            return
        live[pair] = Connection(time, segment)
        found.append(live[pair])
        return
    want(connection is not None, "a segment of no connection")
    connection.take(time, connection.peers.index(segment.sender), segment)
    if segment.flags == SYN | ACK: want({2, 3} <= set(tcp_options(segment.options)), "the options of a SYN ACK")
