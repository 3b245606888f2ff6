"""On how many connections each toxic has an effect, by one call of the library."""
import ctypes
import json
from typing import Any, Iterator, List, NamedTuple, Sequence

from ._in_process import inputs_of
from ._inputs import Capture, Hosts, Scenarios
from ._known import items
from ._library import NO_ROOM, EffectSizes, Inputs, library, raise_refusal
from ._room import Room


class ToxicEffect(NamedTuple):
    """What a toxic does to the connections that meet its proxy."""

    drawn: int
    """How many draw it, by its toxicity."""
    changed: int
    """How many have another line of the report, or other records, than if it were switched off."""


class ProxyEffects(NamedTuple):
    """What a proxy does."""

    met: int
    """How many connections meet it."""
    toxics: List[ToxicEffect]
    """What its toxics do, in their order."""


def effects(capture: Capture, scenarios: Scenarios, hosts: Hosts = b"", seed: int = 0) -> List[List[ProxyEffects]]:
    """For each scenario what its proxies do. Arguments and errors are those of `rehearse`."""
    inputs = inputs_of(capture, scenarios, hosts, seed)
    numbers = numbers_of(inputs)
    return [scenario_effects(json.loads(text), numbers) for text in inputs.scenarios]


def stream_of(toxic: Any) -> str:
    return toxic.get("stream") or "downstream"


def toxics_of(proxy: Any) -> List[Any]:
    return items(proxy.get("toxics"))


def numbers_of(inputs: Inputs) -> Iterator[int]:
    """The numbers as the library puts them. Each proxy has one, and each toxic two; each begins with a brace."""
    text, sizes, status = Room(4096), EffectSizes(counts=2 * sum(text.count(b"{") for text in inputs.scenarios)), NO_ROOM
    while status == NO_ROOM:
        text, counts = text.at_least(sizes.text), (ctypes.c_uint64 * sizes.counts)()
        status = library().toxicap_effects(inputs, counts, len(counts), text.buffer, text.size, sizes)
    raise_refusal(status, text, sizes.text)
    return iter(counts[: sizes.counts])


def scenario_effects(proxies: Sequence[Any], numbers: Iterator[int]) -> List[ProxyEffects]:
    """The next numbers as those of a scenario: the toxics of what the client sends come before the others of their proxy."""
    found = []
    for proxy in proxies:
        met, streams = next(numbers), [stream_of(toxic) for toxic in toxics_of(proxy)]
        order = sorted(range(len(streams)), key=lambda place: streams[place] != "upstream")
        told = {place: ToxicEffect(next(numbers), next(numbers)) for place in order}
        found.append(ProxyEffects(met, [told[place] for place in range(len(streams))]))
    return found
