"""What holds of the closed loop: rows worked out by hand, and laws over the samples, recorded captures and captures by chance.

    laws.py FOLDER

Each law's case is kept in a folder of its own: what came in and what came out, for the function in Go. Prints each fault, and at last how many rows
and cases there were. The program is the one that TOXICAP names."""
import functools
import itertools
import pathlib
import random
import runpy
import struct
import sys

TOP = pathlib.Path(__file__).resolve().parents[3]
TOOL = runpy.run_path(str(TOP / "tools/closed_loop"))
from captures import Talk, chance_capture, chance_toxics, pcap, scenario
from toxicap import delivered
from toxicap.closed_loop import Unsettled, closed_loop

rehearse = functools.partial(TOOL["rehearse"], ("the capture", "the scenario"))
HOSTS = b"redis=10.77.0.3"
DELAYS, CLOSES = ["latency", "bandwidth", "slicer", "slow_close"], ["limit_data", "timeout", "reset_peer"]
FLAGS = {"S": 2, "SA": 18, "A": 16, "P": 24, "F": 17, "R": 4}
SLOW = "latency", "downstream", {"latency": 100}

# A row: what it shows; the recorded packets, each milliseconds, side (c, s; C, S on other ports) and what is sent (P with a number of bytes; `again`
# repeats the side's last packet); toxics; and the milliseconds at which each comes, - where it does not.
ROWS = [
    ("each side waits for the bytes and the FIN of the other",
     "0 c S, 0 s SA, 0 c A, 10 c P10, 15 s P100, 16 c A, 20 c P10, 25 s P50, 26 s F, 30 c F, 30 s A", [SLOW],
     "0 0 0 10 15 116 120 125 126 229 229"),
    ("what waits for bytes that never come is never sent",
     "0 c S, 0 s SA, 10 c P10, 20 s P50, 30 c P10, 40 s P50, 50 c P10, 60 s P50",
     [("latency", "upstream", {"latency": 50}), ("limit_data", "downstream", {"bytes": 60})], "0 0 10 70 80 140 - -"),
    ("nothing is sent after a reset that a toxic makes", "0 c S, 1 s SA, 10 c P10, 20 s P10, 60 c P10, 70 s P10",
     [("reset_peer", "downstream", {"timeout": 50})], "0 1 10 20 - -"),
    ("a timeout cuts what is sent after it", "0 c S, 1 s SA, 10 c P10, 11 s P1, 30 c P10, 60 c P10", [("timeout", "downstream", {"timeout": 50})],
     "0 1 10 11 - -"),
    ("what was recorded after a reset comes after it", "0 c S, 0 s SA, 10 c P10, 15 s P100, 20 c R, 22 s P10", [SLOW], "0 0 10 15 120 122"),
    ("a repeated packet keeps its distance", "0 c S, 0 s SA, 5 c P10, 6 s P10, 10 c P10, 210 c again, 211 s P1", [SLOW], "0 0 5 6 110 310 311"),
    ("packets of one time stay together, others stay apart",
     "0 c S, 0 s SA, 10 s P100, 30 c A, 31 s P1, 31 c P10, 31 s P1, 31 c P10", [("bandwidth", "downstream", {"rate": 1})],
     "0 0 10 130 31 130.001 31 130.001"),
    ("ports that are used again, and connections in their order",
     "0 c S, 0 s SA, 10 c P10, 20 s P10, 30 c R, 40 c S, 41 s SA, 45 C S, 46 S SA, 50 c P1", [SLOW], "0 0 10 20 130 140 141 140 141 150"),
    ("a side that does not wait", "0 c S, 0 s SA, 10 c P10, 11 c P10, 15 s P10, 16 s P10", [SLOW], "0 0 10 11 15 16"),
]  # fmt: skip


def row_capture(packets):
    """The capture of a row: a packet's number is its identification."""
    talks, records = {}, []
    for number, packet in enumerate(packets.split(", ")):
        at, who, what = packet.split()
        side, ports = "cs".index(who.lower()), who.isupper()
        if what == "S":
            talks[ports] = Talk(40000 + ports, (1000 * number, 9000))
        size = int(what[1:]) if what[0] == "P" else 0
        if what == "again":
            frame = talks[ports].last[side]
            frame = frame[:18] + struct.pack(">H", number) + frame[20:]
        else:
            frame = talks[ports].send(side, FLAGS[what if size == 0 else "P"], b"x" * size, number)
        records.append((int(at) * 1000, frame))
    return pcap(records)


def row_times(capture, count):
    """When each packet of a row comes."""
    times, place = ["-"] * count, 24
    while place < len(capture):
        seconds, ticks, length = struct.unpack_from("<3I", capture, place)
        times[struct.unpack_from(">H", capture, place + 34)[0]] = f"{(seconds * 10**6 + ticks) / 1000:g}"
        place += 16 + length
    return " ".join(times)


def cases():
    """Each case of the laws: a capture, a scenario, a seed, and whether it may close a connection."""
    samples = [path.read_bytes() for folder in ("samples", "tests/recorded") for path in sorted((TOP / folder).glob("*.pcap"))]
    for capture in samples:
        yield capture, b"[]", 0, False
    yield samples[0][:24], b"[]", 0, False
    for name in "slow-database", "mobile-line", "reset_peer", "cut-after-1kb", "redis-down":
        yield samples[1], (TOP / f"examples/{name}.json").read_bytes(), 4, name not in ("slow-database", "mobile-line")
    yield samples[1].hex().encode(), (TOP / "examples/mobile-line.json").read_bytes(), 4, False
    for seed in range(24):
        chance = random.Random(seed)
        kinds = DELAYS + CLOSES * (seed % 2)
        toxics = [] if seed % 6 == 0 else chance_toxics(chance, kinds)
        text = scenario(toxics, chance.choice([500000, 1000000]), enabled=seed != 17)
        yield chance_capture(chance), text if toxics else b"[]", seed, seed % 2 == 1


def joined(line):
    return b"".join(data for _, data in line.chunks)


def faults(capture, text, seed, closes, loop):
    """What does not hold of a closed loop."""
    if text == b"[]" and (loop.recording != capture or loop.rounds != 1):
        yield "under [] it is another recording"
    opened, recorded = rehearse(capture, [text, b"[]"], HOSTS, seed)
    if [line.split()[:4] for line in opened.report.splitlines()[1:]] != [line.split()[:4] for line in loop.output.report.splitlines()[1:]]:
        yield "the connections have other numbers"
    lines = map(delivered, (opened.capture, recorded.capture, loop.output.capture, loop.untouched.capture))
    for number, each in enumerate(zip(*lines)):
        for side, (was, came, now, sent) in enumerate(zip(*each)):
            sizes = [[len(data) for _, data in line.chunks] for line in (came, sent)]
            if sizes[1] != sizes[0][: len(sizes[1])] or not joined(came).startswith(joined(sent)):
                yield f"connection {number} {side}: chunks are not the recorded ones"
            if not joined(sent).startswith(joined(now)):
                yield f"connection {number} {side}: bytes that were not sent"
            reset = any(line.end and line.end[1] != "fin" for line in each[1])
            if not closes and not reset and (joined(now), now.end and now.end[1]) != (joined(was), was.end and was.end[1]):
                yield f"connection {number} {side}: other bytes than in the open loop"


def main(folder):
    for what, packets, toxics, expected in ROWS:
        found = row_times(closed_loop(row_capture(packets), scenario(toxics), rehearse=rehearse).recording, len(expected.split()))
        if found != expected:
            print(f"  {what}: {found}, expected {expected}")
    count = 0
    for count, (capture, text, seed, closes) in enumerate(cases(), 1):
        loop = closed_loop(capture, text, HOSTS, seed, rehearse=rehearse)
        for fault in faults(capture, text, seed, closes, loop):
            print(f"  case {count}: {fault}")
        case = folder / str(count)
        case.mkdir()
        inputs = {"capture": capture, "scenario": text, "hosts": HOSTS, "seed": str(seed).encode()}
        outputs = {"recording": loop.recording, "rounds": str(loop.rounds).encode()}
        for name, output in ("output", loop.output), ("untouched", loop.untouched):
            outputs.update({f"{name}.pcap": output.capture, f"{name}.txt": output.report})
        for name, content in {**inputs, **outputs}.items():
            (case / name).write_bytes(content)
    try:
        closed_loop(row_capture(ROWS[0][1]), scenario([SLOW]), turns=1, rehearse=rehearse)
        print("  a bound of turns does not hold")
    except Unsettled:
        pass
    print(len(ROWS), "rows,", count, "cases")


if __name__ == "__main__":
    main(pathlib.Path(sys.argv[1]))
