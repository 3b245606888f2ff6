"""What helps after each refusal, against tests/clients/hints/rows: in calls of the library, and as the program says it on a terminal."""
import os
import pathlib
import pickle
import pty
import re
import subprocess
import tempfile
import unittest

from toxicap import Refusal, rehearse, reports

TOP = pathlib.Path(__file__).resolve().parents[3]


def cell_bytes(cell):
    """The bytes of a cell of hosts or scenarios."""
    escapes = {b"n": b"\n", b"t": b"\t", b"\\": b"\\"}
    return re.sub(rb"\\(n|t|\\|x..)", lambda found: escapes.get(found[1]) or bytes.fromhex(found[1][1:].decode()), cell.encode())


def rows():
    """Of each row the line, the hint, what the program says, and the inputs: capture, scenarios and hosts."""
    lines = [line for line in (TOP / "tests/clients/hints/rows").read_text(encoding="utf-8").split("\n")[:-1] if not line.startswith("#")]
    for row in lines[1:]:
        line, hint, said, capture, hosts, *scenarios = row.split("\t")
        source = (TOP / "samples" / capture).read_bytes() if capture.endswith(".pcap") else bytes.fromhex(capture)
        yield line, hint, said or hint, (source, [cell_bytes(text) for text in scenarios], cell_bytes(hosts))


def said_on_a_terminal(capture, scenarios, hosts):
    """What the program says where standard error is a terminal. Its files are `the capture`, `scenario 0` and so on."""
    with tempfile.TemporaryDirectory() as folder:
        words = ["--capture", "the capture"]
        pathlib.Path(folder, "the capture").write_bytes(capture)
        for number, text in enumerate(scenarios):
            pathlib.Path(folder, f"scenario {number}").write_bytes(text)
            words += ["--scenario", f"scenario {number}"]
        for host in hosts.decode().split("\n") if hosts else []:
            words += ["--host", host]
        terminal, ends = pty.openpty()
        program = subprocess.Popen([os.environ["TOXICAP"], *words], cwd=folder, stdin=subprocess.DEVNULL, stdout=subprocess.DEVNULL, stderr=ends)
        program.wait()
        os.write(ends, b"\0")  # the program's lines are before it
        said = bytearray()
        while not said.endswith(b"\0"):
            said += os.read(terminal, 65536)
        os.close(ends)
        os.close(terminal)
        return said[:-1].decode().replace("\r\n", "\n")


class Hints(unittest.TestCase):
    def test_calls(self):
        numbers = set()
        for line, hint, _, (capture, scenarios, hosts) in rows():
            for call in rehearse, reports:
                with self.subTest(hint, call=call.__name__), self.assertRaises(Refusal) as raised:
                    call(capture, scenarios or [b"[]"], hosts)
                refusal = pickle.loads(pickle.dumps(raised.exception))
                self.assertEqual([refusal.line, refusal.hint, str(refusal)], [line, hint, f"{line}: {hint}"])
            numbers.add(int(line.split()[1]))
        known = [int(row.split("\t")[0]) for row in (TOP / "docs/refusals.tsv").read_text(encoding="utf-8").splitlines()[1:]]
        self.assertEqual(numbers | {6, 40}, {number for number in known if number < 60})

    def test_program(self):
        for line, _, said, inputs in rows():
            with self.subTest(said):
                self.assertEqual(said_on_a_terminal(*inputs), f"{line}\ntoxicap: {said}\n")


if __name__ == "__main__":
    unittest.main()
