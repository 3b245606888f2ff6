"""Random scenarios for tests with hypothesis, which is imported by the first call:

    @given(scenarios(["10.77.0.2:80"]), integers(0, 9))
    def test_client(scenario, seed):
        [output] = rehearse(capture, [scenario], seed=seed)"""
import importlib
from typing import Any, Dict, List, Sequence

MOST = {  # of each type the largest numbers that are drawn, in the units of scenarios; they are enough for recordings of a few seconds
    "latency": {"latency": 1000, "jitter": 1000},
    "bandwidth": {"rate": 1000},
    "slow_close": {"delay": 1000},
    "timeout": {"timeout": 1000},
    "reset_peer": {"timeout": 1000},
    "slicer": {"average_size": 1000, "size_variation": 999, "delay": 10000},
    "limit_data": {"bytes": 10000},
}
LEAST = {"rate": 1, "average_size": 1}  # of attributes that can't be 0


def scenarios(upstreams: Sequence[str], types: Sequence[str] = tuple(MOST), toxics: int = 3) -> Any:
    """A strategy of hypothesis: scenarios as lists of dicts, with a proxy before each upstream (HOST:PORT), of which few are disabled, and up to a
    number of toxics for each, of these types. What fails becomes smaller: fewer toxics, smaller numbers, toxics on all connections."""
    if toxics > 8 or not set(types) <= set(MOST):
        raise ValueError(f"toxics={toxics}, types={types}: at most 8 toxics are allowed for a proxy, of types {', '.join(MOST)}")
    draw: Any = importlib.import_module("hypothesis.strategies")

    def toxic(kind: str) -> Any:
        numbers = {name: draw.integers(LEAST.get(name, 0), most) for name, most in MOST[kind].items()}
        optional = {"stream": draw.just("upstream"), "toxicity_ppm": draw.integers(0, 999999)}
        return draw.fixed_dictionaries({"type": draw.just(kind), "attributes": draw.fixed_dictionaries(numbers)}, optional=optional)

    def proxy(upstream: str) -> Any:
        made = draw.lists(draw.one_of(list(map(toxic, types))), max_size=toxics).map(allowed)
        is_enabled = draw.sampled_from([True] * 7 + [False])
        return draw.fixed_dictionaries({"name": draw.just(upstream), "upstream": draw.just(upstream), "enabled": is_enabled, "toxics": made})

    return draw.tuples(*map(proxy, upstreams)).map(list)


def allowed(toxics: List[Dict[str, Any]]) -> List[Dict[str, Any]]:
    """Toxics with names of their own, if there are more than one, and variations below the sizes that they vary."""
    for number, toxic in enumerate(toxics):
        if number:
            toxic["name"] = f"{toxic['type']}_{number}"
        numbers = toxic["attributes"]
        if "size_variation" in numbers:
            numbers["size_variation"] = min(numbers["size_variation"], numbers["average_size"] - 1)
    return toxics
