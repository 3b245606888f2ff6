"""Rehearses a capture under scenarios in this process, and stores what `toxicap --out .` does: rehearse.py CAPTURE SCENARIO..
HOSTS of the environment has lines NAME=ADDR."""
import argparse
import os
import pathlib

from toxicap import Refusal, rehearse

parser = argparse.ArgumentParser()
parser.add_argument("capture", type=pathlib.Path)
parser.add_argument("scenarios", type=pathlib.Path, nargs="+")
files = parser.parse_args()
try:
    answers = rehearse(files.capture, files.scenarios, os.environ.get("HOSTS", "").encode())
except Refusal as refusal:
    parser.exit(1, f"{refusal.line}\n")
except MemoryError:
    parser.exit(1, "refused 40 Memory\n")
except OSError as error:
    parser.exit(2, f"{error.filename}: {error.strerror}\n")
for number, output in enumerate(answers):
    pathlib.Path(f"{number:04}.pcap").write_bytes(output.capture)
    pathlib.Path(f"{number:04}.txt").write_bytes(output.report)
