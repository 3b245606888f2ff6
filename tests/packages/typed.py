"""What a type checker knows of the package, beside the examples of its page: mypy --strict has no fault with this file, in which it ignores only what is
at fault."""
import pathlib
from typing import List, Optional, Tuple

import toxicap
from toxicap import proxy, toxic
from toxicap.closed_loop import Loop
from toxicap.search import feed_prefixes, least_seed, shrink
from toxicap.strategies import scenarios

toxic("latencyy", latency=1)  # type: ignore[call-overload]
toxic("latency", latencyy=1)  # type: ignore[call-overload]
toxic("timeout", stream="up")  # type: ignore[call-overload]


def ends(output: toxicap.Output) -> Optional[Tuple[int, str]]:
    """How the server's side of the first connection ends."""
    up, down = lines = toxicap.delivered(output, output.untouched)[0]
    toxicap.Socket(lines, side="sever")  # type: ignore[arg-type]
    time, way, what = toxicap.events(output.capture)[lines.number][0]
    return down.end if isinstance(what, bytes) and up.data == what and time == 0 and way == "up" else lines.recorded()[1].end


def place(capture: bytes, scenario: bytes) -> Tuple[int, str, str]:
    try:
        report: bytes = toxicap.reports(capture, [scenario])[0]
        return len(report), report.decode(), toxicap.rehearse(capture, [scenario], seed=7)[0].capture.hex()
    except toxicap.OutOfMemory:
        return 0, "", ""
    except toxicap.Refusal as refusal:
        return refusal.number, refusal.name, refusal.place + refusal.hint


def delays() -> List[int]:
    """The longest delays of a slow line."""
    line = [proxy("redis:6379", toxic("slicer", average_size=100, toxicity=0.5, stream="upstream"), enabled=True)]
    outputs = toxicap.rehearse(toxicap.sample("shop.pcap"), [line, pathlib.Path("slow.json"), "[]"], {"redis": "10.77.0.3"})
    again: List[toxicap.Output] = toxicap.rehearse(outputs[0], line)
    parsed: toxicap.Report = toxicap.parse_report(again[0].report)
    return [connection.down.max for connection in [*parsed.connections, *outputs[0].parsed.connections] if connection.proxy is None]


def dialled(output: bytes, untouched: bytes) -> Tuple[List[bytes], float]:
    with toxicap.Player(output, untouched, "with data", factor=0.5) as player:
        with toxicap.Dialer(output, untouched, [player.port], hosts={"redis": "10.77.0.3"}, same_requests=True) as dialer:
            return [each.sent for each in dialer.opened], dialer.clock.now


async def read(output: toxicap.Output) -> bytes:
    reader, writer = toxicap.streams(toxicap.delivered(output)[0], joins=True)
    return await reader.read() + writer.sent + toxicap.Socket(toxicap.delivered(output)[0], clock=toxicap.Clock(), waits=False).recv(9)


def searched(capture: bytes, scenario: bytes) -> Tuple[Optional[int], bytes, int]:
    smallest, seed = shrink(capture, scenario, lambda outputs: outputs[0].report.endswith(b"0"), any_error=True)
    found = feed_prefixes(lambda: bytes.splitlines, capture, key=b"".join)
    return least_seed(capture, [scenario], b"", lambda outputs: len(outputs) == 1, 2), smallest, seed if found is None else found[0]


def found(capture: bytes) -> List[str]:
    loop: Loop = toxicap.closed_loop(capture, [{"name": "web"}], seed=7, turns=100)
    findings: List[toxicap.Finding] = toxicap.explain(loop.recording, [{"name": "web"}], {"redis": "10.77.0.3"})
    told = [finding.place + finding.text for finding in findings] + [str(scenarios(["redis:6379"], types=["timeout"], toxics=1))]
    return told + [toxicap.run(read(loop.output)).decode()]
