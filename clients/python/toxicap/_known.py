"""What toxicap knows in scenario files, with hints for what it does not know; and why it passes over frames of a capture."""
import difflib
import json
import re
from typing import Any, Iterator, List, Tuple

PROXY = ["name", "upstream", "enabled", "toxics", "listen"]
TOXIC = ["type", "name", "stream", "attributes", "toxicity", "toxicity_ppm"]
KNOWN = {  # of each type of a toxic
    "latency": ["latency", "jitter"],
    "bandwidth": ["rate"],
    "slow_close": ["delay"],
    "timeout": ["timeout"],
    "reset_peer": ["timeout"],
    "slicer": ["average_size", "size_variation", "delay"],
    "limit_data": ["bytes"],
}
REQUIRED = "rate", "average_size"  # of these attributes
PASSED_OVER = {  # of a report's count: why these are not rehearsed, and what to do
    "notipv4": "IPv6 (localhost may be ::1), ARP, or two VLAN tags; only IPv4 is rehearsed: connect to an IPv4 address, such as 127.0.0.1",
    "nottcp": "UDP, ICMP or another protocol; only TCP is rehearsed: record TCP sessions",
    "cut": "recorded without their ends, their bytes are missing; record whole packets (tcpdump -s 0)",
    "short": "they have no whole Ethernet header; record whole packets (tcpdump -s 0)",
    "fragment": "parts of larger packets, which are not put together; record at the client or at the server",
    "badipv4": "their IPv4 header is broken; record again",
    "badtcp": "their TCP header is broken; record again",
    "sameends": "source and destination are one; record a client and a server with ports of their own",
    "unopened": "the opening of their sessions is not in the capture; start recording before the client connects",
}


def items(value: Any) -> List[Any]:
    """A list as it is, and anything else as none."""
    return value if isinstance(value, list) else []


def printable(name: str) -> str:
    """A name as it is, or in quotes, as JSON has it, if it has blanks or what is not printable."""
    return name if re.fullmatch("[!-~]+", name) else json.dumps(name)


def unknown_fields(file: Any) -> Iterator[Tuple[str, str, List[str]]]:
    """The fields of a file (what its JSON holds) that toxicap does not know: of each its place, its name, and the fields that are known there."""

    def unknown(place: str, value: Any, known: List[str]) -> Iterator[Tuple[str, str, List[str]]]:
        return ((place, name, known) for name in (value if isinstance(value, dict) else []) if name not in known)

    for p, proxy in enumerate(items(file)):
        yield from unknown(f"proxy {p}", proxy, PROXY)
        for t, toxic in enumerate(items(proxy.get("toxics")) if isinstance(proxy, dict) else []):
            yield from unknown(f"proxy {p} toxic {t}", toxic, TOXIC)
            kind = toxic.get("type") if isinstance(toxic, dict) else None
            if isinstance(kind, str) and kind in KNOWN:
                yield from unknown(f"proxy {p} toxic {t} attributes", toxic.get("attributes"), KNOWN[kind])


def field_hint(name: str, known: List[str]) -> str:
    """Where an unknown field may belong, or what it may be called."""
    if name == "enabled":
        return 'only a proxy can be disabled; for a toxic write "toxicity": 0'
    near = difflib.get_close_matches(name.lower(), known, 1)
    if near:
        return f"is it {near[0]}?"
    if known == TOXIC and any(name in names for names in KNOWN.values()):
        return 'it belongs in "attributes"'
    if known != TOXIC and name in TOXIC:
        return "it belongs in the toxic"
    if known != PROXY and name in PROXY:
        return "it belongs in the proxy"
    return f'known are {", ".join(known)}'
