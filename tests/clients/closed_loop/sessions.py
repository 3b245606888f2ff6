"""The closed loop against sessions of three protocols, which are recorded, and run again through a proxy.

    sessions.py TOOL FOLDER

TOOL (tools/closed_loop) stores a closed loop in the folder. In simulated time each of its chunks must come through the proxy within a microsecond
of its time. With IDLE=1 sessions run in real time, for an idle machine. Then the bound is 10 ms, or a twentieth of the chunk's time if longer, in one of
five tries. Prints what misses, with IDLE=1 a table, and at last how many sessions are right."""
import itertools
import os
import pathlib
import subprocess
import sys

from captures import ACK, FIN, PSH, SYN, Talk, pcap, scenario
from clocks import RealTime, SimulatedTime
from protocols import PROTOCOLS
from proxy import Proxy
from toxicap import delivered

IDLE = os.environ.get("IDLE") == "1"
# a chunk may miss its time by LEAST seconds, or by this PART of its time if longer
CLOCK, LEAST, PART, TRIES = (RealTime, 0.010, 0.05, 5) if IDLE else (SimulatedTime, 0.000001, 0, 1)
WEATHER = [
    [("latency", "downstream", {"latency": 30})],
    [("latency", "downstream", {"latency": 20}), ("latency", "upstream", {"latency": 25})],
    [("bandwidth", "downstream", {"rate": 20})],
    [("slicer", "downstream", {"average_size": 200, "size_variation": 0, "delay": 3000})],
    [("limit_data", "downstream", {"bytes": 2000})],
    [("latency", "upstream", {"latency": 15}), ("bandwidth", "downstream", {"rate": 40})],
    [("latency", "downstream", {"latency": 10}), ("slicer", "downstream", {"average_size": 500, "size_variation": 0, "delay": 8000})],
]


def recorded(came):
    """A capture of what a session sent, in microseconds."""
    talk = Talk()
    records = [(10**6, talk.send(side, flags)) for side, flags in ((0, SYN), (1, SYN | ACK), (0, ACK))]
    for seconds, side, data in sorted(came, key=lambda each: each[0]):
        records.append((10**6 + round(seconds * 10**6), talk.send(side, ACK | (PSH if data else FIN), data)))
    return pcap(records)


def reached(line):
    """The seconds of each chunk of a line with the number of bytes up to its end."""
    return list(zip((at for at, _ in line), itertools.accumulate(len(data) for _, data in line)))


def differences(loop, went):
    """Of each chunk of the closed loop its time, and how much later it came through the proxy; None where bytes are missing or too many."""
    found = []
    for side, line in enumerate(loop):
        expected = reached([(at / 1e9, data) for at, data in line.chunks])
        came = reached([(at, data) for at, of, data in went if of == side and data])
        if [count for _, count in expected[-1:]] != [count for _, count in came[-1:]]:
            return None
        for at, count in expected:
            found.append((at, next(when for when, upto in came if upto >= count) - at))
    return found


def tried(tool, folder, protocol, toxics):
    """A session, recorded and run again: its open loop, its closed loop, and what went through the proxy."""
    server, client = PROTOCOLS[protocol]
    capture, text, outputs = folder / "capture", folder / "scenario", []
    capture.write_bytes(recorded(Proxy(CLOCK(), server, client, []).came))
    text.write_bytes(scenario(toxics))
    for command in [os.environ["TOXICAP"]], [sys.executable, "-B", tool]:
        subprocess.run([*command, "--capture", capture, "--scenario", text, "--out", folder], check=True, stdin=subprocess.DEVNULL)
        outputs += delivered((folder / "0000.pcap").read_bytes())
    return (*outputs, Proxy(CLOCK(), server, client, toxics).went)


def missed(found):
    """Those differences that are too large."""
    return [(at, late) for at, late in found if abs(late) > max(LEAST, PART * at)]


def main(tool, folder):
    count = 0
    if IDLE:
        print("| protocol | toxics | open loop | closed loop | proxy | greatest difference |\n|---|---|---|---|---|---|")
    for protocol, toxics in itertools.product(PROTOCOLS, WEATHER):
        for _ in range(TRIES):
            opened, loop, went = tried(tool, folder, protocol, toxics)
            found = differences(loop, went)
            if found and not missed(found):
                break
        name = ", ".join(f"{kind} {stream}" for kind, stream, _ in toxics)
        if found and not missed(found):
            count += 1
        else:
            print(f"  {protocol}, {name}: {f'late: {missed(found)}' if found else 'other bytes'}")
        if IDLE and found:
            last = [line[1].chunks[-1][0] / 1e9 for line in (opened, loop)] + [max(at for at, side, data in went if side == 1 and data)]
            print(f"| {protocol} | {name} |", *(f"{each * 1000:.1f} |" for each in (*last, max((late for _, late in found), key=abs))))
    print(count, "sessions")


if __name__ == "__main__":
    main(sys.argv[1], pathlib.Path(sys.argv[2]))
