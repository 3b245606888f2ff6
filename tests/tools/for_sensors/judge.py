#!/usr/bin/env python3
"""Judges what tools/for_sensors makes of outputs:

    judge.py PROGRAM FOLDER [JUDGE].. [NIDS]

PROGRAM makes the outputs: of the samples under the examples, and of 20 captures (made.py) under chains of toxics. The tool makes of each one four
captures: without the recording, with it, and as the client and as the server see it. They are stored in the folder. Always judged is what a strict
observer sees (seen.py); it has to be what the output delivers. JUDGE is dpkt, tcpflow or tshark, NIDS the path of what nids.c is compiled to. A line
tells what each judge has seen, and a line begins with `fault ` for each that is at fault."""
import collections
import hashlib
import json
import pathlib
import random
import re
import subprocess
import sys

TOP = pathlib.Path(__file__).resolve().parents[3]
sys.dont_write_bytecode = True
sys.path.insert(0, str(TOP / "clients/python"))
from toxicap import events
from made import generated
from seen import seen

TOOL = TOP / "tools/for_sensors"
EXAMPLES = {"http-get": ("latency", "slow_close", "timeout", "limit_data"),
            "shop": ("bandwidth", "reset_peer", "slicer", "slow-database", "cut-after-1kb", "flapping-drops", "redis-down", "mobile-line")}
MODES = {"plain": (), "recorded": ("--other-frames",), "client": ("--vantage", "client"), "server": ("--vantage", "server")}
SIZES = [5_000_000, 1_000_000] + [30_000] * 6 + [100_000] * 6 + [200_000] * 6
faults = 0


def fault(judge, path, what):
    """Tells a fault."""
    global faults
    faults += 1
    print(f"fault {judge}: {path.parent.name} {path.stem}: {what}")


def run(*words, **options):
    """What a command prints; one that fails is a fault of the run."""
    return subprocess.run(words, check=True, stdout=subprocess.PIPE, **options).stdout


def chain(draw):
    """A random chain of toxics for both directions of each server of made.py."""
    def toxic(kind, stream, **attributes):
        return {"type": kind, "stream": stream, "name": f"{kind}{draw.random()}", "toxicity_ppm": 700_000, "attributes": attributes}

    def one(stream):
        return draw.choice([
            lambda: toxic("latency", stream, latency=draw.randrange(200), jitter=draw.randrange(100)),
            lambda: toxic("bandwidth", stream, rate=draw.randrange(50, 5000)),
            lambda: toxic("slicer", stream, average_size=draw.randrange(200, 3000), size_variation=100, delay=draw.randrange(2000)),
            lambda: toxic("slow_close", stream, delay=draw.randrange(500)),
            lambda: toxic("limit_data", stream, bytes=draw.randrange(1, 200_000)),
            lambda: toxic("reset_peer", stream, timeout=draw.randrange(1, 1000)),
            lambda: toxic("timeout", stream, timeout=draw.choice((0, 300)))])()

    return [{"name": f"p{number}", "upstream": f"10.9.0.{number + 1}:80", "enabled": draw.random() < 0.9,
             "toxics": [one(draw.choice(("upstream", "downstream"))) for _ in range(draw.randrange(1, 5))]} for number in range(3)]


def cases(program, folder):
    """Makes the cases, each a folder with recording.pcap, output.pcap, its output under [], untouched.pcap, and what the tool makes."""
    def case(name, recording, scenario, ends=()):
        here = folder / name
        (here / "out").mkdir(parents=True)
        (here / "recording.pcap").write_bytes(recording)
        (here / "0.json").write_text(scenario)
        (here / "1.json").write_text("[]")
        words = [word for number in (0, 1) for word in ("--scenario", here / f"{number}.json")]
        run(program, "--capture", here / "recording.pcap", *words, "--host", "redis=10.77.0.3", "--seed", "7", "--out", here / "out")
        for number, what in enumerate(("output", "untouched")): (here / "out" / f"{number:04}.pcap").rename(here / f"{what}.pcap")
        for mode, words in MODES.items():
            words = words if mode == "plain" else ("--recording", here / "recording.pcap", *words)
            with open(here / f"{mode}.pcap", "wb") as file: subprocess.run([TOOL, *words, here / "output.pcap"], check=True, stdout=file)
        return here, ends

    for sample, scenarios in EXAMPLES.items():
        for scenario in scenarios:
            yield case(scenario, (TOP / f"samples/{sample}.pcap").read_bytes(), (TOP / f"examples/{scenario}.json").read_text())
    for seed, size in enumerate(SIZES):
        recording, ends = generated(seed, size)
        scenario = [] if seed == 0 else chain(random.Random(seed))
        yield case(f"generated-{seed}", recording, json.dumps(scenario), ends)


def joined(chunks):
    """Chunks (time, bytes) with those of one time together."""
    found = {}
    for time, data in chunks: found[time] = found.get(time, b"") + data
    return found


def is_alone(expected, end):
    """Whether a connection is a SYN that nobody answers, or that is refused, with the recording: the output has no more of it."""
    return end in ("silent", "refused") and not any(isinstance(what, bytes) or what in ("fin", "refused") for _, _, what in expected)


def expected_side(mode, side, expected, untouched):
    """What a side of a connection is to have sent, as (chunks, end) by the output's events, or by those under []."""
    chunks, ends = ([(time, what) for time, way, what in found if way == ("up", "down")[side] and isinstance(what, bytes) is is_bytes]
                    for found, is_bytes in ((expected, True), (expected, False)))
    if mode != ("client", "server")[side] or ends and ends[0][1] == "refused": return chunks, ends[0] if ends else None
    mine = [(time, what) for time, way, what in untouched if way == ("up", "down")[side]]
    fin = [(time, what) for time, what in mine if what == "fin" and not (ends and time > ends[0][0])]
    last = ends[0][0] if ends else None
    chunks = [(time, what) for time, what in mine if isinstance(what, bytes) and (last is None or time <= last)]
    return chunks, fin[0] if fin else ends[0] if ends else None


def observe(folder, ends, tally):
    """The strict observer, of all captures of a case. Gives of each one what libnids and tcpflow are to see: a connection's peers, how it ends, and
    its bytes in both directions."""
    output, untouched = (events((folder / f"{what}.pcap").read_bytes()) for what in ("output", "untouched"))
    for mode in MODES:
        path, expected = folder / f"{mode}.pcap", []
        try: found, others = seen(path.read_bytes())
        except ValueError as why:
            fault("observer", path, why)
            continue
        if len(found) != len(output): fault("observer", path, f"{len(found)} connections")
        if ends and bool(others) != (mode == "recorded"): fault("observer", path, "other frames")
        for number, connection in enumerate(found):
            alone = mode != "plain" and bool(ends) and is_alone(output[number], ends[number])
            data = []
            for side in (0, 1):
                chunks, end = expected_side(mode, side, output[number], untouched[number])
                data.append(b"".join(what for _, what in chunks))
                own = mode == ("client", "server")[side]
                if (joined(chunks), chunks)[not own] != (joined(connection.chunks[side]), connection.chunks[side])[not own]:
                    fault("observer", path, f"connection {number}: what side {side} sent")
                told = connection.ends[side]
                if not alone and told != end and not (end and end[1] == "reset" and end in connection.ends):
                    fault("observer", path, f"connection {number}: side {side} ends {told}, expected {end}")
                tally["directions"] += 1
                tally["bytes"] += len(data[-1])
            how = {what for _, what in filter(None, connection.ends)}
            is_closed = all(connection.ends)
            if not connection.refused and len(connection.handshake) == 3:
                expected.append((connection.peers, "reset" if "reset" in how else "close" if is_closed else "open", data))
            elif not alone and not connection.refused: fault("observer", path, f"connection {number}: no handshake")
        tally["captures"] += 1
        yield path, expected


def name(end):
    """An address and a port as libnids names them."""
    return f"{'.'.join(map(str, end[:4]))}:{int.from_bytes(end[4:], 'big')}"


def by_nids(nids, path, expected, tally):
    """libnids delivers each byte of both directions, and sees each end."""
    found = collections.Counter(run(nids, path, text=True).splitlines())
    rows = collections.Counter(" ".join([*map(name, peers), how, *(f"{len(each)} {hashlib.sha256(each).hexdigest()}" for each in data)])
                               for peers, how, data in expected)
    for row in found - rows: fault("libnids", path, f"found: {row}")
    for row in rows - found: fault("libnids", path, f"expected: {row}")
    tally["connections"] += len(expected)
    tally["closes and resets"] += sum(how != "open" for _, how, _ in expected)
    tally["bytes"] += sum(len(each) for _, _, data in expected for each in data)


def by_tcpflow(path, expected, tally):
    """tcpflow finds each direction's bytes."""
    flows = path.with_suffix(".flows")
    run("tcpflow", "-r", path, "-o", flows, stderr=subprocess.DEVNULL)
    found = collections.Counter(each.read_bytes() for each in flows.iterdir() if re.match(r"[0-9.]+-[0-9.]+", each.name) and each.stat().st_size)
    rows = collections.Counter(each for _, _, data in expected for each in data if each)
    if found != rows: fault("tcpflow", path, f"{len(found - rows)} directions too many, {len(rows - found)} too few")
    tally["directions"] += len(rows)
    tally["bytes"] += sum(map(len, found))


def by_dpkt(path, tally):
    """dpkt reads each frame, and makes the same one of it, with sums of its own."""
    import dpkt
    with open(path, "rb") as file:
        for number, (_, frame) in enumerate(dpkt.pcap.Reader(file)):
            ethernet = dpkt.ethernet.Ethernet(frame)
            if not isinstance(ethernet.data, dpkt.ip.IP) or not isinstance(ethernet.data.data, dpkt.tcp.TCP): continue
            ethernet.data.sum = ethernet.data.data.sum = 0
            if bytes(ethernet.data) != frame[-len(bytes(ethernet.data)):]: fault("dpkt", path, f"frame {number}")
            tally["segments"] += 1


def complaints(path):
    """What tshark warns of in IPv4 and TCP: of each kind how often."""
    sums = ["-o", "ip.check_checksum:TRUE", "-o", "tcp.check_checksum:TRUE"]
    told = run("tshark", "-n", "-r", path, *sums, "-q", "-z", "expert,warn", stderr=subprocess.DEVNULL, text=True)
    rows = re.findall(r"^ *([0-9]+) +[A-Za-z ]+? +(?:TCP|IPv4) +(.+)", told, re.MULTILINE)
    return collections.Counter({kind: int(count) for count, kind in rows})


def by_tshark(path, tally):
    """tshark warns of nothing that it does not warn of in the output, or under [] in what comes at its recorded times."""
    inputs = [complaints(path.with_name(f"{what}.pcap")) for what in ("output", "untouched")[:1 + (path.stem in ("client", "server"))]]
    before, after = inputs[0] | inputs[-1], complaints(path)
    for kind, count in (after - before).items(): fault("tshark", path, f"{count} times more: {kind}")
    tally["warnings of outputs"] += sum(inputs[0].values())
    tally["warnings"] += sum(after.values())


def main(program, folder, *judges):
    """Makes the cases and has each judged. libnids takes all captures; the others, which are slow, take one of each case, the next case's of another
    kind."""
    tallies = collections.defaultdict(collections.Counter)
    for number, (here, ends) in enumerate(cases(program, pathlib.Path(folder))):
        for place, (path, expected) in enumerate(observe(here, ends, tallies["observer"])):
            for judge in judges:
                tally = tallies[pathlib.Path(judge).name]
                if "/" in judge: by_nids(judge, path, expected, tally)
                elif place != (number + 1) % len(MODES): continue
                elif judge == "tcpflow": by_tcpflow(path, expected, tally)
                elif judge == "dpkt": by_dpkt(path, tally)
                elif judge == "tshark": by_tshark(path, tally)
                tally["captures"] += 1
    for judge, tally in tallies.items(): print(f"{judge}: {', '.join(f'{count} {what}' for what, count in tally.items())}")
    return faults > 0


if __name__ == "__main__":
    sys.exit(main(*sys.argv[1:]))
