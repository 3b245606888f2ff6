"""Finds why a rehearsal did nothing: fields that toxicap does not know, proxies that no connection meets, captures without a connection, and toxics
without effect."""
import collections
import json
from typing import Any, Dict, Iterator, List, NamedTuple, Optional, Sequence, Tuple

from ._effects import ProxyEffects, ToxicEffect, numbers_of, scenario_effects, stream_of, toxics_of
from ._in_process import inputs_of, reports_of
from ._inputs import Capture, Hosts, Scenarios
from ._known import PASSED_OVER, field_hint, printable, unknown_fields
from ._library import Inputs
from ._outputs import Connection, Counts, parse_report

MILLION = 1000000
DELAYS = {"latency": ["latency", "jitter"], "slow_close": ["delay"]}


class Finding(NamedTuple):
    """What makes a rehearsal do nothing."""

    place: str
    """Where it stands, such as `scenario 0 proxy 1 "web" (10.77.0.2:8080)`, or `capture`; numbers count from 0."""
    text: str
    """What is wrong, and what is allowed or what to do."""
    is_warning: bool = False
    """Whether it may be meant so: a toxic without effect on this capture, under this seed and beside the other toxics."""

    def __str__(self) -> str:
        return f"{self.place}: {self.text}"


def explain(capture: Capture, scenarios: Scenarios, hosts: Hosts = b"", seed: int = 0) -> List[Finding]:
    """What makes scenarios do nothing on a capture, or on any: none for those that can work. Arguments and errors are those of `rehearse`."""
    inputs = inputs_of(capture, scenarios, hosts, seed)
    places = [f"scenario {number}" for number in range(len(inputs.scenarios))]
    return [finding for finding, is_idle in findings(inputs, places) if is_idle]


def findings(inputs: Inputs, places: Sequence[str]) -> Iterator[Tuple[Finding, bool]]:
    """What is to be said of the scenarios at these places, each with whether something does nothing."""
    numbers, names = numbers_of(inputs), dict(line.split("=", 1) for line in inputs.hosts.decode().split("\n") if line)
    for place, text, report in zip(places, inputs.scenarios, map(parse_report, reports_of(inputs))):
        if report.scenario == 0:
            yield from ((finding, True) for finding in without_connection(report.counts))
        proxies = json.loads(text)
        for where, name, known in unknown_fields(proxies):
            yield Finding(f"{place} {where}", f"unknown field {printable(name)} ({field_hint(name, known)})"), True
        earlier: Dict[Tuple[str, int], int] = {}
        for number, (proxy, effects) in enumerate(zip(proxies, scenario_effects(proxies, numbers))):
            host, port = proxy["upstream"].rsplit(":", 1)
            first = earlier.setdefault((names.get(host, host), int(port)), number)
            title = Finding(f'{place} proxy {number} {json.dumps(proxy["name"])} ({proxy["upstream"]})', "")
            why = f"proxy {first} stands before the same server, and is met first" if first < number else servers_of(report.connections)
            if effects.met:
                refused = ", each refused: it is disabled" if proxy.get("enabled") is False else ""
                yield title._replace(text=f"met by {counted(effects.met)}{refused}"), False
            elif why:
                yield title._replace(text=f"no connection meets it; {why}"), True
            if effects.met or not report.connections:
                met = [connection for connection in report.connections if connection.proxy == number]
                yield from toxic_findings(f"{place} proxy {number}", proxy, effects, met)


def without_connection(counts: Counts) -> Iterator[Finding]:
    """Why a capture has no connection, most frequent first; nothing if it has one."""
    if counts.connections:
        return
    if not counts.records:
        yield Finding("capture", "it has no connection and no record: the filter of the recording matched nothing, or it was stopped too early")
    passed_over: Dict[str, int] = {name: getattr(counts, name) for name in PASSED_OVER if getattr(counts, name)}
    for name, count in sorted(passed_over.items(), key=lambda pair: -pair[1]):
        whole = f"{counts.segment} segments" if name == "unopened" else f"{counts.records} records"
        yield Finding("capture", f"it has no connection; {count} of {whole} are {name}: {PASSED_OVER[name]}")


# ---- proxies and toxics


def servers_of(connections: Sequence[Connection]) -> str:
    """The servers of a capture, most frequent first; nothing without a connection."""
    servers = [server for server, _ in collections.Counter(connection.server for connection in connections).most_common()]
    return f"servers of the capture: {', '.join(servers[:5])}{', ..' if len(servers) > 5 else ''}" if servers else ""


def toxic_findings(place: str, proxy: Any, effects: ProxyEffects, met: Sequence[Connection]) -> Iterator[Tuple[Finding, bool]]:
    """On how many of the connections that meet its proxy each toxic has an effect, and why it has none on the others. If there is no connection, which
    have none on any."""
    for number, (toxic, effect) in enumerate(zip(toxics_of(proxy), effects.toxics)):
        always = idle_by_itself(proxy, toxic)
        if met or always:
            name = toxic.get("name") or f"{toxic['type']}_{stream_of(toxic)}"
            text = effect_text(toxic, effect, always, met) if met else f"no effect: {always}"
            yield Finding(f"{place} toxic {number} {json.dumps(name)}", text, is_warning=True), not effect.changed


def effect_text(toxic: Any, effect: ToxicEffect, always: Optional[str], met: Sequence[Connection]) -> str:
    undrawn = f"it is not drawn (toxicity_ppm {ppm_of(toxic)})"
    reasons = [(len(met) - effect.drawn, undrawn), (effect.drawn - effect.changed, idle_reason(toxic, met))]
    if always:
        reasons = [(len(met), always)]
    return "; ".join([f"effect on {effect.changed} of {counted(len(met))}", *(f"on {count}: {why}" for count, why in reasons if count)])


def idle_by_itself(proxy: Any, toxic: Any) -> Optional[str]:
    """Why a toxic has no effect on any capture, or None."""
    delays = DELAYS.get(toxic["type"])
    if proxy.get("enabled") is False:
        return "its proxy is disabled, and refuses each connection"
    if ppm_of(toxic) == 0:
        return "its toxicity is 0"
    if delays and not any(attribute(toxic, name) for name in delays):
        return f"its {' and '.join(delays)} {'is' if len(delays) == 1 else 'are'} 0"
    return None


def idle_reason(toxic: Any, met: Sequence[Connection]) -> str:
    """Why it has no effect on connections that draw it, as far as the lines tell that were recorded of all that meet its proxy."""
    up, down = (max(line.recorded for line in lines) for lines in zip(*((one.up, one.down) for one in met)))
    kind, limit = toxic["type"], attribute(toxic, "bytes")
    most, other, way = (up, down, "downstream") if stream_of(toxic) == "upstream" else (down, up, "upstream")
    if kind in ("latency", "bandwidth", "slicer", "limit_data") and not most:
        return f"no bytes flow {stream_of(toxic)} ({way} up to {other} bytes)"
    if kind == "limit_data" and most <= limit:
        return f"its limit of {limit} bytes is not passed (at most {most} came, {way} up to {other})"
    return "all is the same without it, on this capture and beside the other toxics"


def attribute(toxic: Any, name: str) -> int:
    return int((toxic.get("attributes") or {}).get(name) or 0)


def ppm_of(toxic: Any) -> int:
    """To how many of a million connections a toxic applies."""
    if toxic.get("toxicity_ppm") is not None:
        return int(toxic["toxicity_ppm"])
    return MILLION if toxic.get("toxicity") is None else int(toxic["toxicity"] * MILLION)


def counted(count: int) -> str:
    return f"{count} connection{'' if count == 1 else 's'}"
