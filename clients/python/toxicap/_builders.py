"""Scenarios as Python makes them: proxies and toxics as dicts, as JSON has them.

    proxy("redis:6379", toxic("latency", latency=100), toxic("bandwidth", stream="upstream", rate=20, toxicity=0.5))"""
from typing import Any, Dict, List, Literal, Mapping, Optional, Set, overload

from ._known import KNOWN, REQUIRED

MILLION = 1000000
Made = Dict[str, Any]
Stream = Optional[Literal["upstream", "downstream"]]
Name = Optional[str]


@overload
def toxic(kind: Literal["latency"], *, stream: Stream = ..., toxicity: float = ..., name: Name = ..., latency: int = ..., jitter: int = ...) -> Made: ...
@overload
def toxic(kind: Literal["bandwidth"], *, stream: Stream = ..., toxicity: float = ..., name: Name = ..., rate: int) -> Made: ...
@overload
def toxic(kind: Literal["slow_close"], *, stream: Stream = ..., toxicity: float = ..., name: Name = ..., delay: int = ...) -> Made: ...
@overload
def toxic(
    kind: Literal["timeout", "reset_peer"], *, stream: Stream = ..., toxicity: float = ..., name: Name = ..., timeout: int = ...
) -> Made: ...
@overload
def toxic(
    kind: Literal["slicer"], *, stream: Stream = ..., toxicity: float = ..., name: Name = ..., average_size: int, size_variation: int = ...,
    delay: int = ...
) -> Made: ...
@overload
def toxic(kind: Literal["limit_data"], *, stream: Stream = ..., toxicity: float = ..., name: Name = ..., bytes: int = ...) -> Made: ...
def toxic(kind: str, *, stream: Stream = None, toxicity: float = 1, name: Name = None, **attributes: Any) -> Made:
    """A toxic of a type, such as toxic("latency", latency=100, jitter=20), with the attributes that Toxiproxy gives it, and in the same units.

    stream    "upstream" is what the client sends; "downstream" is what the server sends, and stands where nothing is said
    toxicity  the fraction of the connections that it applies to, from 0 to 1, such as 0.5; it is rounded to a millionth
    name      without one it gets a name from its type and its stream

    An unknown type is a ValueError, and so is another toxicity; an attribute that the type does not have, or has to have, is a TypeError."""
    if kind not in KNOWN:
        raise ValueError(f"there is no toxic {kind!r}: there are {', '.join(KNOWN)}")
    known = KNOWN[kind]
    for attribute in attributes:
        if attribute not in known:
            raise TypeError(f"a toxic {kind} has no {attribute}: it has {', '.join(known)}, and stream, toxicity and name")
    missing = [attribute for attribute in known if attribute in REQUIRED and attribute not in attributes]
    if missing:
        raise TypeError(f"a toxic {kind} wants {' and '.join(missing)}")
    if not isinstance(toxicity, (int, float)) or not 0 <= toxicity <= 1:
        raise ValueError(f"the toxicity {toxicity!r} is not from 0 to 1")
    made: Made = {"type": kind}
    if name is not None:
        made["name"] = name
    if stream is not None:
        made["stream"] = stream
    if toxicity == 0:
        made["toxicity"] = 0
    elif toxicity != 1:
        made["toxicity_ppm"] = round(toxicity * MILLION)
    return {**made, "attributes": attributes}


def proxy(upstream: str, *toxics: Mapping[str, Any], name: Optional[str] = None, enabled: bool = True) -> Made:
    """A proxy for the connections to an upstream HOST:PORT, with its toxics. Without a name it has that of its upstream. Where two toxics without a
    name would have the same one, the second is named too, such as latency_downstream_2. One that is not enabled refuses its connections."""
    made: Made = {"name": upstream if name is None else name, "upstream": upstream}
    if not enabled:
        made["enabled"] = False
    return {**made, "toxics": with_names(toxics)}


def with_names(toxics: Any) -> List[Dict[str, Any]]:
    """The toxics, of which those that would have the name of another one have a name of their own."""
    for each in toxics:
        if not isinstance(each, Mapping):
            raise TypeError(f"a toxic is a dict, as toxic() makes it, and this is {each!r:.60}")
    taken: Set[str] = {each["name"] for each in toxics if each.get("name")}
    named = []
    for each in map(dict, toxics):
        if not each.get("name"):
            first = name = f"{each.get('type')}_{each.get('stream') or 'downstream'}"
            count = 1
            while name in taken:
                count += 1
                name = f"{first}_{count}"
            taken.add(name)
            if name != first:
                each["name"] = name
        named.append(each)
    return named
