"""The fixture `rehearse` of pytest, and its golden files:

    def test_client(rehearse):
        output = rehearse("shop.pcap", "slow.json", hosts=b"redis=10.77.0.3", golden="slow")

rehearses a capture under a scenario and compares what comes with slow.pcap and slow.txt. `pytest --toxicap-update` writes them, and
`pytest --toxicap-stale` finds those that no test compared with. The fixture `record` records a capture in a first run."""
from __future__ import annotations

import contextlib
import os
import pathlib
from typing import Any, Callable, Dict, Iterator, List, Optional, Union

import pytest

from . import Output, _inputs, closed_loop, rehearse as rehearse_all
from ._golden import differences
from ._inputs import Capture, Hosts, Scenario, capture_bytes, host_lines, scenario_text
from ._strict import faults_of

Around = Callable[..., Iterator[None]]
around: Callable[[Around], Around] = pytest.hookimpl(hookwrapper=True)

ENDINGS = ".txt", ".pcap"


def pytest_addoption(parser: pytest.Parser) -> None:
    group = parser.getgroup("toxicap")
    group.addoption("--toxicap-update", action="store_true", help="write golden files of the fixture `rehearse` that are missing or differ")
    group.addoption("--toxicap-stale", action="store_true", help="fail if a folder of golden files has some that no test compared with")


def pytest_configure(config: pytest.Config) -> None:
    config.pluginmanager.register(Comparisons(config), "toxicap_comparisons")


class Comparisons:
    """The golden files of a run: what was written, and what no test compared with. With pytest-xdist it is told what the workers' tests did."""

    def __init__(self, config: pytest.Config) -> None:
        self.config, self.left_out = config, 0
        self.compared: Dict[str, List[str]] = {}
        self.of_test: Dict[str, List[str]] = {}  # each golden path that the test which runs compared with, and the files that it wrote for it
        self.stale: List[str] = []

    @around
    def pytest_make_collect_report(self, collector: pytest.Collector) -> Iterator[None]:
        with paths_from(collector.path.parent if isinstance(collector, pytest.Module) else None):
            yield

    @around
    def pytest_runtest_protocol(self, item: pytest.Item) -> Iterator[None]:
        self.of_test = {}
        with paths_from(item.path.parent):
            yield

    @around
    def pytest_runtest_makereport(self, item: pytest.Item, call: pytest.CallInfo[None]) -> Iterator[None]:
        outcome: Any = yield
        outcome.get_result().toxicap_compared = self.of_test

    def pytest_runtest_logreport(self, report: pytest.TestReport) -> None:
        self.left_out += not report.passed
        for path, written in getattr(report, "toxicap_compared", {}).items() if report.when == "teardown" else ():
            self.compared.setdefault(path, []).extend(written)

    def pytest_collectreport(self, report: pytest.CollectReport) -> None:
        self.left_out += not report.passed

    def pytest_deselected(self, items: List[pytest.Item]) -> None:
        self.left_out += len(items)

    def why_unknown(self) -> Optional[str]:
        """Why a golden file without a test can't be told from one whose test was left out."""
        folder = self.config.invocation_params.dir
        if self.left_out:
            return "a test failed, or was skipped or deselected"
        if not all((folder / name).is_dir() for name in self.config.args):
            return "some modules of a folder were named; name folders"
        return "tests ran in workers; run without -n" if self.config.getoption("dist", "no") != "no" else None

    def pytest_sessionfinish(self, session: pytest.Session, exitstatus: int) -> None:
        if not self.config.getoption("toxicap_stale") or exitstatus != pytest.ExitCode.OK or self.why_unknown():
            return
        for folder in sorted({pathlib.Path(path).parent for path in self.compared}):
            for report in sorted(folder.glob("*.txt")):
                files = [report.with_suffix(ending) for ending in ENDINGS]
                if str(report.with_suffix("")) not in self.compared and files[1].exists() and report.read_bytes().startswith(b"scenario "):
                    self.stale += map(str, files)
        if self.stale:
            session.exitstatus = pytest.ExitCode.TESTS_FAILED

    def pytest_terminal_summary(self, terminalreporter: Any) -> None:
        written, why = [file for files in self.compared.values() for file in files], self.why_unknown()
        for title, files in ("golden files written", written), ("stale golden files, which no test compared with", self.stale):
            if files:
                terminalreporter.section(f"toxicap: {title}", "-")
            for file in sorted(files):
                terminalreporter.write_line(os.path.relpath(file, self.config.invocation_params.dir))
        if self.config.getoption("toxicap_stale") and why:
            terminalreporter.write_line(f"toxicap: stale golden files were not looked for: {why}")


@contextlib.contextmanager
def paths_from(folder: Optional[pathlib.Path]) -> Iterator[None]:
    """Has relative paths of all calls count from a folder: that of the test's file."""
    before, _inputs.base = _inputs.base, folder
    try:
        yield
    finally:
        _inputs.base = before


class Rehearsals:
    """What the fixture gives: a function. Relative paths count from the folder of the test's file."""

    def __init__(self, folder: pathlib.Path, comparisons: Comparisons, updates: bool) -> None:
        self.folder, self.comparisons, self.updates = folder, comparisons, updates

    def __call__(
        self, capture: Capture, scenario: Scenario, hosts: Hosts = b"", seed: int = 0, golden: Union[None, str, os.PathLike[str]] = None,
        strict: bool = True, closed: bool = False
    ) -> Output:
        """The output of a capture under one scenario. Arguments and errors are those of toxicap.rehearse. The test fails if the rehearsal can do
        nothing: a field is unknown, a proxy meets no connection, or the capture has none; a toxic without effect is warned of (toxicap.explain).
        strict=False takes all of it. With `golden`, a path without ending, the test fails if the capture is not the file of that name with `.pcap`,
        or the report the one with `.txt`; with the option --toxicap-update they are written. With `closed` client and server wait for one another
        (toxicap.closed_loop)."""
        content, text = capture_bytes(capture), scenario_text("scenario", scenario)
        faults = faults_of(content, [text], host_lines(hosts), seed, warns=2) if strict else []
        if faults:
            pytest.fail("\n".join(faults), pytrace=False)
        output = closed_loop(content, text, hosts, seed, strict=False).output if closed else rehearse_all(content, text, hosts, seed)[0]
        if golden is not None:
            path = pathlib.Path(os.path.normpath(self.folder / golden))
            written = self.comparisons.of_test.setdefault(str(path), [])
            files = [path.with_name(path.name + ending) for ending in ENDINGS]
            faults = [fault for file, came in zip(files, (output.report, output.capture)) for fault in self._fault(file, came, written)]
            if faults:
                pytest.fail("\n".join([*faults, "`pytest --toxicap-update` writes golden files"]), pytrace=False)
        return output

    def _fault(self, path: pathlib.Path, found: bytes, written: List[str]) -> Iterator[str]:
        """What is wrong with a golden file, if anything; with --toxicap-update it is made right."""
        expected: Optional[bytes] = path.read_bytes() if path.exists() else None
        if expected == found:
            return
        if self.updates:
            path.parent.mkdir(parents=True, exist_ok=True)
            draft = path.with_name(f"{path.name}.{os.getpid()}")
            draft.write_bytes(found)
            draft.replace(path)
            written.append(str(path))
        elif expected is None:
            yield f"there is no golden file {path}"
        else:
            yield "\n".join([f"the golden file {path} differs:", *differences(path.suffix, expected, found)])


@pytest.fixture(scope="module")
def rehearse(request: pytest.FixtureRequest) -> Rehearsals:
    """Rehearses a capture under a scenario, and compares what comes with golden files: see toxicap.pytest_plugin.Rehearsals."""
    comparisons: Any = request.config.pluginmanager.get_plugin("toxicap_comparisons")
    return Rehearsals(request.path.parent, comparisons, request.config.getoption("toxicap_update"))


@pytest.fixture(scope="module")
def record(request: pytest.FixtureRequest) -> Callable[..., pathlib.Path]:
    """Gives record(path, live, probes=True): the path of a capture. If it is not there, it is what toxicap.record records while live() runs. A relative
    path counts from the folder of the test's file."""

    def recorded(path: Union[str, os.PathLike[str]], live: Callable[[], object], probes: bool = True) -> pathlib.Path:
        capture = pathlib.Path(os.path.normpath(request.path.parent / path))
        if not capture.exists():
            from . import record as recording

            with recording(capture, probes):
                live()
        return capture

    return recorded


@pytest.fixture(scope="module", params=[False, True], ids=["chunks", "joined"])
def joins(request: pytest.FixtureRequest) -> bool:
    """Has a test run twice, for `joins` of a Dialer: once its reads give bytes of one chunk, and once of all that have come."""
    return bool(request.param)
