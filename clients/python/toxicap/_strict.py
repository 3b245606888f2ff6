"""Whether a rehearsal can do something, before a test is glad of what it did not do."""
import warnings
from typing import List, Sequence

from ._explain import explain


def faults_of(capture: bytes, scenarios: Sequence[bytes], hosts: bytes, seed: int, warns: int = 0) -> List[str]:
    """What makes scenarios do nothing, a line each: unknown fields, proxies that no connection meets, a capture without connections. Of toxics without
    effect it warns, at the line of the caller `warns` calls above; if that is 0, it does not warn."""
    found = explain(capture, scenarios, hosts, seed)
    for finding in found:
        if finding.is_warning and warns:
            warnings.warn(f"toxicap: {finding}", stacklevel=warns + 1)
    faults = [str(finding) for finding in found if not finding.is_warning]
    return faults and [*faults, "strict=False takes a rehearsal that does nothing"]


def check(capture: bytes, scenarios: Sequence[bytes], hosts: bytes, seed: int, warns: int = 0) -> None:
    """Raises ValueError if scenarios can do nothing."""
    faults = faults_of(capture, scenarios, hosts, seed, warns and warns + 1)
    if faults:
        raise ValueError("\n".join(faults))
