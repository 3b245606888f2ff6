"""The arguments of a call: what may be given for each, and its bytes."""
import collections.abc
import json
import operator
import os
import pathlib
import sys
from typing import Any, Iterable, List, Mapping, Optional, Sequence, Union

from ._outputs import Output

Path = Union[str, "os.PathLike[str]"]
Text = Union[bytes, bytearray, memoryview]
Proxy = Mapping[str, Any]
Capture = Union[Text, Path, Output]
Scenario = Union[Text, Path, Sequence[Proxy]]
Scenarios = Union[Text, Path, Iterable[Union[Text, Path, Sequence[Proxy], Proxy]]]
Hosts = Union[Text, Mapping[str, Any]]


def capture_bytes(capture: Capture) -> bytes:
    """The bytes of a capture. It is given as bytes, as the path of a file, or as an Output, whose capture it is."""
    return capture.capture if isinstance(capture, Output) else bytes_of("capture", capture, "a path, bytes or an Output")


def kept(capture: Capture) -> Any:
    """What an output keeps of its capture: no bytes that the caller does not hold."""
    if isinstance(capture, (str, os.PathLike)):
        return pathlib.Path(os.path.abspath(from_base(capture)))
    return capture.capture if isinstance(capture, Output) else capture


def scenario_texts(scenarios: Scenarios) -> List[bytes]:
    """The texts of scenarios. Each is given as bytes of JSON, as the path of a file, or as a list of proxies, which are dicts. A single one need not
    stand in a list: bytes, a path, and a list of dicts are one scenario. The empty list is no scenario."""
    if type(scenarios) is list and all(type(scenario) is bytes for scenario in scenarios):
        return scenarios
    if isinstance(scenarios, (bytes, bytearray, memoryview, str, os.PathLike)) or (scenarios and are_proxies(scenarios)):
        return [scenario_text("scenarios", scenarios)]
    if isinstance(scenarios, collections.abc.Mapping) or not isinstance(scenarios, collections.abc.Iterable):
        raise wrong_type("scenarios", "a list of scenarios, or one as a path, bytes or a list of dicts,", scenarios)
    return [scenario_text(f"scenarios[{at}]", scenario) for at, scenario in enumerate(scenarios)]


def are_proxies(scenario: object) -> bool:
    return isinstance(scenario, (list, tuple)) and all(isinstance(proxy, collections.abc.Mapping) for proxy in scenario)


def scenario_text(argument: str, scenario: Any) -> bytes:
    if are_proxies(scenario):
        try:
            return json.dumps(scenario).encode()
        except (TypeError, ValueError, RecursionError) as error:
            raise TypeError(f"{argument}: {error}") from None
    return bytes_of(argument, scenario, "a path, bytes or a list of dicts")


def host_lines(hosts: Hosts) -> bytes:
    """The lines of hosts, which are given as those bytes or as a dict: an address by each name."""
    if type(hosts) is not bytes and isinstance(hosts, collections.abc.Mapping):
        return "".join(f"{name}={address}\n" for name, address in hosts.items()).encode()
    return bytes_of("hosts", hosts, "a dict or bytes", has_paths=False)


def seed_number(seed: int) -> int:
    try:
        seed = operator.index(seed)
    except TypeError:
        raise wrong_type("seed", "a whole number", seed) from None
    if not 0 <= seed < 2**64:
        raise ValueError(f"the seed {seed} is not from 0 to 2^64 - 1")
    return seed


def bytes_of(argument: str, source: Any, expected: str, has_paths: bool = True) -> bytes:
    """Bytes as they are, a copy of anything else that has bytes, so that nobody changes or releases them during a call, or those of a file."""
    if type(source) is bytes:
        return source
    if has_paths and isinstance(source, (str, os.PathLike)):
        return file_bytes(argument, source)
    try:
        return bytes(memoryview(source))
    except TypeError:
        raise wrong_type(argument, expected, source) from None


base: Optional[pathlib.Path] = None  # the folder that relative paths count from: that of a test under pytest; None for the process's


def from_base(path: Path) -> pathlib.Path:
    return pathlib.Path(base or "", path)


def file_bytes(argument: str, path: Path) -> bytes:
    try:
        return from_base(path).read_bytes()
    except OSError:
        if isinstance(path, str) and path.lstrip()[:1] in ("[", "{"):
            raise TypeError(f"{argument}: a str is the path of a file; give JSON as bytes or as a list of dicts") from None
        raise


def wrong_type(argument: str, expected: str, found: object) -> TypeError:
    return TypeError(f"{argument}: {expected} is expected, and this is {found!r:.60}, of type {type(found).__name__}")


def sample(name: str) -> bytes:
    """The bytes of a sample that comes with toxicap, such as `http-get.pcap`. For another name ValueError tells those that are there."""
    above = list(pathlib.Path(__file__).resolve().parents)
    folders = [folder / "share/toxicap/samples" for folder in (pathlib.Path(sys.prefix), *above)]
    folders += [folder / "samples" for folder in above[3:4]]
    found = {path.name: path for folder in reversed(folders) for path in folder.glob("*.pcap")}
    if name not in found:
        raise ValueError(f"there is no sample {name!r}: there {'is' if len(found) == 1 else 'are'} {', '.join(sorted(found)) or 'none'}")
    return found[name].read_bytes()
