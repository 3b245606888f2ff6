"""Network faults rehearsed on recorded TCP sessions, by calls that open no socket: equal arguments give equal bytes.

    rehearse(capture, scenarios)  of each scenario the output capture and the report; `parsed` is the report as data
    reports(capture, scenarios)   the reports alone; parse_report makes data of one
    Dialer(output)                in its `with` a client that connects gets the output's connections, by a clock: nothing waits
    Player(output)                serves the output's connections to real clients at a port, in real time
    closed_loop(capture, ..)      has client and server wait for one another under a scenario
    events(output)                what each connection of an output received, and when
    delivered(output)             the same as two lines for each connection
    lines(capture, scenarios)     these lines for each scenario, by one call that makes no capture
    Socket(connection)            a socket that receives what was delivered, with a Clock of its own
    streams(connection)           the same for asyncio, in a test that run(main()) starts (or a Loop)
    effects(capture, scenarios)   how many connections meet each proxy and draw each toxic, and on how many it has an effect
    explain(capture, scenarios)   why a rehearsal does nothing: unknown fields, proxies that are not met, toxics without effect, captures without a
                                  connection
    record(path)                  records what both ends of connections do in its `with`, where a network of its own is allowed
    proxy(upstream, toxic(..))    a scenario as Python makes it, which is a list of these
    sample(name)                  a capture that comes with toxicap

A refusal is raised as Refusal, and says what helps. toxicap.search looks for what makes a test fail, toxicap.strategies has random scenarios for
hypothesis, and toxicap.pytest_plugin has the fixture `rehearse`. `python -m toxicap` is the program."""
import importlib
from typing import TYPE_CHECKING, Any, List

from ._builders import proxy, toxic
from ._dialer import Dialer
from ._effects import ProxyEffects, ToxicEffect, effects
from ._events import Event, Line, Lines, delivered, events
from ._exchange import Clock, StillOpen, Unasked
from ._explain import Finding, explain
from ._in_process import rehearse, reports
from ._inputs import sample
from ._library import OutOfMemory, Refusal
from ._lines import lines
from ._outputs import Output, Report, parse_report
from ._sockets import Socket
from .closed_loop import closed_loop

if TYPE_CHECKING:
    from ._streams import Loop, run, streams
    from ._record import record
    from .player import Player
else:
    # what takes longer to load than all the rest, and is loaded when it is asked for
    LATER = {"Loop": "_streams", "run": "_streams", "streams": "_streams", "Player": "player", "record": "_record"}

    def __getattr__(name: str) -> Any:
        if name not in LATER:
            raise AttributeError(f"module {__name__!r} has no attribute {name!r}")
        return getattr(importlib.import_module(f".{LATER[name]}", __name__), name)


def __dir__() -> List[str]:
    return sorted({*globals(), *__all__})


__version__ = "1.0.0"
__all__ = [
    "Clock",
    "Dialer",
    "Event",
    "Finding",
    "Line",
    "Lines",
    "Loop",
    "OutOfMemory",
    "Output",
    "Player",
    "ProxyEffects",
    "Refusal",
    "Report",
    "Socket",
    "StillOpen",
    "Unasked",
    "ToxicEffect",
    "__version__",
    "closed_loop",
    "delivered",
    "effects",
    "events",
    "explain",
    "lines",
    "parse_report",
    "proxy",
    "record",
    "rehearse",
    "reports",
    "run",
    "sample",
    "streams",
    "toxic",
]
