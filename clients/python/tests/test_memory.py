"""What a call takes: memory for outputs against their bytes, by the program beside the module, and without it by several calls of the library; the same
bytes and refusals in each way. CAPTURE of the environment is a large capture of one connection to 10.77.0.2:80, whose client sends all; TOXICAP is the
program."""
import hashlib
import itertools
import json
import os
import pathlib
import shutil
import signal
import struct
import subprocess
import sys
import tempfile
import unittest
from unittest import mock

from toxicap import Refusal, _in_process, proxy, rehearse, toxic

TOP = pathlib.Path(__file__).resolve().parents[3]

GROWTH = """
import hashlib, json, re, sys
from toxicap import rehearse
path, scenarios, is_path = sys.argv[1], json.loads(sys.argv[2]), sys.argv[3] == "path"
capture = path if is_path else open(path, "rb").read()
rehearse(open(path, "rb").read(65536), [[]])
def peak(): return int(re.search("VmHWM:(.*)kB", open("/proc/self/status").read())[1]) * 1024
open("/proc/self/clear_refs", "w").write("5")  # the peak is what is held now: that of the parent would stay
before = peak()
outputs = rehearse(capture, scenarios)
grown, files = peak() - before, [file for output in outputs for file in output]
print(grown, sum(map(len, files)), *(hashlib.blake2b(file).hexdigest() for file in files))
"""
SHOP = (TOP / "samples/shop.pcap").read_bytes()
DRAWN = toxic("slicer", average_size=40, size_variation=30, delay=2000, toxicity=0.5), toxic("latency", latency=80, jitter=70)


def record(number, sender, receiver, flags, sequence, acknowledged, payload=b""):
    """A record of a segment between peers (address, port), in a microsecond of its own."""
    ports = struct.pack(">HH", sender[1], receiver[1])
    tcp = ports + struct.pack(">IIBBHI", sequence, acknowledged, 0x50, flags, 65535, 0) + payload
    ip = struct.pack(">BBH", 0x45, 0, 20 + len(tcp)) + bytes.fromhex("0000400040060000") + sender[0] + receiver[0]
    frame = bytes(12) + b"\x08\x00" + ip + tcp
    return struct.pack("<4I", number // 10**6, number % 10**6, len(frame), len(frame)) + frame


def sessions(count, servers, segments):
    """A capture of connections in turn to some servers; each server sends segments of 1,448 bytes, and ends."""
    parts = [SHOP[:24]]
    for at in range(count):
        client, server = (bytes([10, 1, at >> 8 & 255, at & 255]), 1024 + at % 60000), (bytes([10, 2, 0, at % servers]), 80)
        parts += [record(len(parts), client, server, 2, 0, 0), record(len(parts) + 1, server, client, 18, 0, 1)]
        parts += [record(len(parts) + each, server, client, 24, 1 + 1448 * each, 1, struct.pack(">I", at) * 362) for each in range(segments)]
        parts.append(record(len(parts), server, client, 17, 1 + 1448 * segments, 1))
    return b"".join(parts)


def growth(folder, capture, scenarios, kind="bytes"):
    """By how many bytes a process grows for the outputs of a capture, how many they have, and the sum of each file."""
    words = [sys.executable, "-B", "-c", GROWTH, str(capture), json.dumps(scenarios), kind]
    told = subprocess.run(words, env={**os.environ, "PYTHONPATH": str(folder)}, stdout=subprocess.PIPE, check=True).stdout.split()
    return int(told[0]), int(told[1]), [digest.decode() for digest in told[2:]]


class Folder(unittest.TestCase):
    """Has a folder of its own, with the package and the program in it."""

    def setUp(self):
        temporary = tempfile.TemporaryDirectory()
        self.addCleanup(temporary.cleanup)
        self.folder = pathlib.Path(temporary.name)
        self.program = shutil.copytree(TOP / "clients/python/toxicap", self.folder / "toxicap") / "toxicap-static"
        self.program.symlink_to(os.environ["TOXICAP"])

    def patch(self, **values):
        for name, value in values.items():
            patched = mock.patch.object(_in_process, name, value)
            patched.start()
            self.addCleanup(patched.stop)


class Memory(Folder):
    def takes_little(self, capture, scenarios, kind="bytes"):
        """A call takes 1.2 times the bytes of its outputs at most. Their sums."""
        grown, size, sums = growth(self.folder, capture, scenarios, kind)
        self.assertGreater(size, 0.9 * len(scenarios) * os.path.getsize(capture))
        self.assertLess(grown, 1.2 * size, f"{len(scenarios)} scenarios, {kind}")
        return sums

    def test_large_outputs(self):
        for count in 1, 2, 4, 5, 20:
            self.takes_little(os.environ["CAPTURE"], [[]] * count)
        self.takes_little(os.environ["CAPTURE"], [[]], "path")

    def test_medium_outputs(self):
        """Of one, two and eight MB."""
        capture = self.folder / "capture"
        for segments in 800, 1400, 5600:
            capture.write_bytes(sessions(1, 1, segments))
            self.takes_little(capture, [[]])

    def test_without_a_program(self):
        self.program.unlink()
        self.takes_little(os.environ["CAPTURE"], [[]] * 20)

    def test_many_connections(self):
        """A hundred servers, and many short connections; the bytes are those of the program."""
        for name, words in ("servers", (100, 100, 140)), ("short", (50000, 3, 0)):
            capture = self.folder / name
            capture.write_bytes(sessions(*words))
            scenarios = [[proxy("10.2.0.1:80", *DRAWN)], [proxy("10.2.0.2:80", toxic("bandwidth", rate=100))]]
            sums = self.takes_little(capture, scenarios)
            out, options = self.folder / "out", []
            out.mkdir(exist_ok=True)
            for at, scenario in enumerate(scenarios):
                (self.folder / f"{at}.json").write_text(json.dumps(scenario))
                options += ["--scenario", self.folder / f"{at}.json"]
            subprocess.run([self.program, "--capture", capture, "--out", out, *options], check=True, stdin=subprocess.DEVNULL)
            stored = [out / f"{at:04}.{ending}" for at in (0, 1) for ending in ("pcap", "txt")]
            self.assertEqual(sums, [hashlib.blake2b(path.read_bytes()).hexdigest() for path in stored])

    def test_small_slices(self):
        """Outputs that turn out to be large."""
        capture = self.folder / "capture"
        capture.write_bytes(sessions(10, 1, 40))
        self.takes_little(capture, [[proxy("10.2.0.0:80", toxic("slicer", average_size=2))]])
        self.takes_little(capture, [[proxy("10.2.0.0:80", *(toxic("slicer", average_size=50 - size, name=str(size)) for size in range(8)))]])

    def test_small_outputs(self):
        """Room that stays empty takes no memory."""
        for _ in range(2):
            grown, size, _ = growth(self.folder, os.environ["CAPTURE"], [[proxy("10.77.0.2:80", toxic("timeout", stream="upstream"))]] * 20)
            self.assertLess(size, 10000)
            self.assertLess(grown, os.path.getsize(os.environ["CAPTURE"]))
            self.program.unlink(missing_ok=True)


class Ways(Folder):
    """What large outputs come to, where none is too small for that: by the program, and without it by several calls."""

    def setUp(self):
        super().setUp()
        self.patch(LARGE=0, FEW=1)

    def ways(self):
        """The way of small outputs, and each other one."""
        for name, value in ("LARGE", 2**62), ("PROGRAM", self.program), ("FEW", 1):
            with mock.patch.object(_in_process, name, value):
                yield

    def test_the_same_bytes(self):
        """Also where toxics draw, which they do by the scenario's number."""
        scenarios = [[proxy("redis:6379", *DRAWN), proxy("10.77.0.2:80", *DRAWN[: number % 2])] for number in range(21)]
        for count in 1, 2, 8, 9, 21:
            expected, *others = [rehearse(SHOP, scenarios[:count], {"redis": "10.77.0.3"}, 5) for _ in self.ways()]
            self.assertEqual(len({capture for capture, _ in expected}), count)
            self.assertEqual(others, [expected] * 2)

    def test_the_same_refusals(self):
        for words in (
            (b"x", [[]] * 9),
            (SHOP, [[]] * 7 + [b"{", b"x"]),
            (SHOP, [[], [proxy("redis:80")]]),
            (SHOP, [[]] * 257),
            (b"x", [b"{"] * 9),
            (SHOP, [b"{"] * 9, b"a"),
            (SHOP, [[]], b"a\0=10.0.0.1\n"),
            (SHOP, [[]], b"a=10.0.0.1\n\n"),
            (SHOP, [[]], b"a=10.0.0.1\nb=10.0.0.1\na=10.0.0.1"),
        ):
            told = []
            for _ in self.ways():
                with self.assertRaises(Refusal) as raised:
                    rehearse(*words)
                told.append(str(raised.exception))
            self.assertEqual(told[1:], told[:1] * 2)

    def test_programs_that_fail(self):
        """The library answers if the program can't be started, fails or stores nothing, or if there is no folder for it."""
        [expected] = rehearse(SHOP, [[]])
        self.patch(PROGRAM=self.folder / "program")
        for text, mode in ("#!/bin/sh\nexit 1\n", 0o755), ("#!/bin/sh\n", 0o755), ("#!/bin/sh\n", 0o644), ("no program", 0o755):
            _in_process.PROGRAM.write_text(text)
            _in_process.PROGRAM.chmod(mode)
            self.assertEqual(rehearse(SHOP, [[]]), [expected])
        self.patch(PROGRAM=self.program)
        self.patch(new_folder=lambda: "")
        self.assertEqual(rehearse(SHOP, [[]]), [expected])

    def test_files(self):
        """No file is left, also after a refusal; in the meantime nobody else can read the folder."""
        files = self.folder / "files"
        files.mkdir()
        self.program.unlink()
        self.program.write_text(f'#!/bin/sh\nstat -c %a "${{1#--out=}}" >> {self.folder}/modes\nexec {os.environ["TOXICAP"]} "$@"\n')
        self.program.chmod(0o755)
        self.patch(PROGRAM=self.program)
        with mock.patch.dict(os.environ, TMPDIR=str(files)):
            rehearse(SHOP, [[]] * 3)
            with self.assertRaises(Refusal):
                rehearse(SHOP, [b"{"])
        self.assertEqual([list(files.iterdir()), (self.folder / "modes").read_text()], [[], "700\n700\n"])

    def test_interrupted(self):
        """The program ends with the call, no file is left, and what the handler of a signal raises comes out."""
        files = self.folder / "files"
        files.mkdir()
        self.program.unlink()
        self.program.write_text(f"#!/bin/sh\necho $$ > {self.folder}/child\nexec sleep 60\n")
        self.program.chmod(0o755)
        self.patch(PROGRAM=self.program)
        for raised, children in itertools.product((KeyboardInterrupt, TimeoutError), (signal.SIG_DFL, signal.SIG_IGN)):
            for number, handler in (signal.SIGALRM, mock.Mock(side_effect=raised)), (signal.SIGCHLD, children):
                self.addCleanup(signal.signal, number, signal.signal(number, handler))
            signal.setitimer(signal.ITIMER_REAL, 0.5)
            with self.subTest(raised, children=children), mock.patch.dict(os.environ, TMPDIR=str(files)), self.assertRaises(raised):
                rehearse(SHOP, [[]])
            self.assertEqual(list(files.iterdir()), [])
            with self.assertRaises(ProcessLookupError):
                os.kill(int((self.folder / "child").read_text()), 0)



if __name__ == "__main__":
    unittest.main()
