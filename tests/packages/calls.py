"""What the installed package gives, against what the program stored: calls.py FOLDER, which has the samples, the scenarios of the examples, and for
each pair of them a folder SAMPLE-SCENARIO with 0000.pcap and 0000.txt. Prints each fault, and at last how many outputs were compared."""
import mmap
import os
import pathlib
import pickle
import socket
import struct
import sys
import tempfile
import threading

import toxicap

HOSTS = b"redis=10.77.0.3\n"
FOLDER = pathlib.Path(sys.argv[1])


def told(what, found, expected):
    if found != expected:
        print(f"  {what}: {found!r}, expected {expected!r}")


def raised(call, *words):
    """The error that a call raises."""
    try:
        call(*words)
    except Exception as error:
        return error
    return None


def outputs():
    """Each stored output by calls of every kind; how many there are."""
    count, capture = 0, {path.name: path.read_bytes() for path in FOLDER.glob("*.pcap")}
    for folder in sorted(FOLDER.glob("*.pcap-*")):
        sample, scenario = folder.name.split(".pcap-")
        texts = [(FOLDER / scenario).read_bytes(), b"[]"]
        stored = tuple((folder / name).read_bytes() for name in ("0000.pcap", "0000.txt"))
        both = toxicap.rehearse(capture[sample + ".pcap"], texts, HOSTS, 7)
        told(f"rehearse, {folder.name}", tuple(both[0]) == stored, True)
        told(f"the second of two, {folder.name}", both[1].capture == toxicap.rehearse(capture[sample + ".pcap"], [b"[]"])[0].capture, True)
        told(f"reports, {folder.name}", toxicap.reports(capture[sample + ".pcap"], texts, HOSTS, 7), [output.report for output in both])
        lines = len(both[0].report.splitlines()) - 2
        told(f"events, {folder.name}", [len(toxicap.events(both[0].capture)), len(toxicap.delivered(both[0].capture))], [lines, lines])
        count += 1
    return count


def refusals(capture):
    """What is raised, and what it tells."""
    cases = [
        (b"x", [], b"", 1, "ShortHeader", ""),
        (capture, [b"[]", b"{"], b"", 10, "NotJson", "scenario 1"),
        (capture, [b'[{"name":"a","upstream":"redis:80"}]'], b"", 15, "UnknownHost", "scenario 0 proxy 0"),
        (capture, [], b"a=10.0.0.1\nb", 23, "BadHost", "host 1"),
        (capture, [b"[]"] * 257, b"", 22, "TooManyScenarios", ""),
    ]
    for capture, scenarios, hosts, *expected in cases:
        for call in toxicap.rehearse, toxicap.reports:
            refusal = raised(call, capture, scenarios, hosts)
            told(expected, isinstance(refusal, toxicap.Refusal) and [refusal.number, refusal.name, refusal.place], expected)
            again = pickle.loads(pickle.dumps(refusal))
            told(expected, [type(again), again.line], [toxicap.Refusal, " ".join(["refused", *map(str, filter(None, expected))])])
            told(expected, [again.hint != "", str(again)], [True, f"{again.line}: {again.hint}"])
    want = toxicap.OutOfMemory("refused 40 Memory")
    told("out of memory", [isinstance(want, kind) for kind in (MemoryError, toxicap.Refusal)], [True, True])
    for words in (None, [b"[]"]), (capture, ["[]"]), (5, [b"[]"]), (capture, [5]), (capture, [b"[]"], "a=10.0.0.1"):
        told(f"a wrong type, {words[1:]}", type(raised(toxicap.rehearse, *words)), TypeError)
    for seed in -1, 2**64:
        told(f"seed {seed}", str(raised(toxicap.rehearse, capture, [], b"", seed)), f"the seed {seed} is not from 0 to 2^64 - 1")


def many_connections(capture):
    """A hundred openings that nobody answers: reports and captures want more room than is guessed at first."""
    end = 40 + struct.unpack_from("<I", capture, 32)[0]
    openings = b"".join(capture[24:74] + struct.pack(">H", port) + capture[76:end] for port in range(1, 101))
    found = toxicap.reports(capture[:24] + openings, [b"[]", b"[]"])
    told("reports of many connections", [len(report.splitlines()) for report in found], [102, 102])
    told("outputs of many connections", [output.report for output in toxicap.rehearse(capture[:24] + openings, [b"[]", b"[]"])], found)


def kinds_of_bytes(capture, scenario):
    """Bytes of each kind, also where another thread changes them or gives them up during the call."""
    [expected] = toxicap.rehearse(capture, [scenario])
    with tempfile.TemporaryFile() as file:
        file.write(capture)
        file.flush()
        with mmap.mmap(file.fileno(), 0) as mapped:
            told("mmap", toxicap.rehearse(mapped, [scenario]), [expected])
    told("a view backwards", toxicap.rehearse(memoryview(capture[::-1])[::-1], [memoryview(scenario)]), [expected])
    faults = []

    def calls(worker):
        """Calls with bytes that only the call holds."""
        for _ in range(50):
            changed = bytearray(capture)
            found = toxicap.rehearse(changed, [bytearray(scenario)])
            changed.clear()
            if found != [expected]:
                faults.append(worker)

    threads = [threading.Thread(target=calls, args=(worker,)) for worker in range(8)]
    for thread in threads:
        thread.start()
    for thread in threads:
        thread.join()
    told("eight threads", faults, [])


def of_child(call):
    """The status of a forked process that makes a call: 0, or 3 where it is refused."""
    child = os.fork()
    if child == 0:
        error = raised(call)
        os._exit(0 if error is None else 3 if isinstance(error, RuntimeError) else 1)
    return os.WEXITSTATUS(os.waitpid(child, 0)[1])


def forks(capture):
    """A process that was forked may call, but not where the one before had threads, nor may what is forked from that one."""

    def call():
        return toxicap.reports(capture, [b"[]"])

    def call_of_child():
        if of_child(call) != 3:
            raise ValueError("the child of a child calls")
        call()

    told("forked from one thread", of_child(call), 0)
    go_on = threading.Event()
    thread = threading.Thread(target=go_on.wait)
    thread.start()
    told("forked from two threads", of_child(call), 3)
    told("forked twice", of_child(call_of_child), 3)
    go_on.set()
    thread.join()
    found = []
    for _ in range(30):
        thread = threading.Thread(target=bool)
        thread.start()
        thread.join()
        found.append(of_child(call))
    told("forked after a thread's end", set(found), {0})


def modules():
    """The modules that are not taken by the package itself."""
    import toxicap.player
    import toxicap.search

    capture = (FOLDER / "http-get.pcap").read_bytes()
    [output] = toxicap.rehearse(capture, [b"[]"])
    told("the least seed", toxicap.search.least_seed(capture, [b"[]"], b"", lambda outputs: outputs == [output], 2), 0)
    if pathlib.Path(sys.prefix, "share/toxicap").exists():  # pip put it there
        told("a sample", toxicap.sample("http-get.pcap"), capture)
    slow = toxicap.proxy("10.77.0.2:80", toxicap.toxic("latency", latency=100))
    told("a report as data", toxicap.rehearse(capture, [slow])[0].parsed.connections[0].down.max, 100000)
    told("what explain finds", [finding.place for finding in toxicap.explain(capture, [{**slow, "upstream": "10.77.0.2:8080"}])],
         ['scenario 0 proxy 0 "10.77.0.2:80" (10.77.0.2:8080)'])
    with toxicap.player.Player(output.capture, output.capture) as player:
        socket.create_connection(("127.0.0.1", player.port)).close()
    told("clients of a player", player.received, [b""])
    told("the closed loop under []", toxicap.closed_loop(capture, b"[]").recording == capture, True)
    connection = toxicap.delivered(output)[0]

    async def read():
        reader, writer = toxicap.streams(connection, waits=False)
        return await reader.read(9)

    with toxicap.Dialer(output, whole=False, waits=False):
        received = [socket.create_connection(("any.example", 80)).recv(9), toxicap.run(read())]
    told("what a socket and a stream receive", received, [connection[1].chunks[0][1][:9]] * 2)
    told("names of the package without a docstring", [name for name in toxicap.__all__ if name != "Event" and not getattr(toxicap, name).__doc__], [])


forks((FOLDER / "http-get.pcap").read_bytes())
refusals((FOLDER / "http-get.pcap").read_bytes())
many_connections((FOLDER / "http-get.pcap").read_bytes())
kinds_of_bytes((FOLDER / "shop.pcap").read_bytes(), (FOLDER / "bandwidth.json").read_bytes())
modules()
print(outputs(), "outputs")
