#!/usr/bin/env python3
"""Outside the proof. Measures how many reports viewers read while one thread makes calls, one for each line of a busy cluster: reads and calls a second with
1, 8 and 64 viewers, each on its own thread. It builds a program without proofs (bench/tools/unproved.py), in some minutes.

    bench/timings/readers.py PROGRAM            PROGRAM answers event lines, from which the lines are generated
    bench/timings/readers.py PROGRAM READERS    READERS is what bench/tools/unproved.py built from bench/timings/readers before"""
import os
import subprocess
import sys
import tempfile

sys.path.append(f"{os.path.dirname(os.path.realpath(__file__))}/../tools")
from common import ROOT
from churn import Talk, churn
from unproved import build

VIEWERS = (1, 8, 64)
AGENTS, FRAMEWORKS, CALLS = 50, 20, 300


def main(program, readers=None):
    lines = "".join(f"{line}\n" for line in churn(Talk([program, "run"]), AGENTS, FRAMEWORKS)[:CALLS])
    with tempfile.TemporaryDirectory() as room:
        if not readers:
            readers = f"{room}/readers"
            build(f"{ROOT}/bench/timings/readers", readers)
        print(f"{'viewers':>8}{'calls':>8}{'calls/s':>10}{'reads/s':>10}{'reads/s of one':>16}")
        for viewers in VIEWERS:
            told = subprocess.run([readers, str(viewers)], input=lines, capture_output=True, text=True, check=True, timeout=600).stdout
            reads, calls, milliseconds = map(int, told.split())
            seconds = max(milliseconds, 1) / 1000
            print(f"{viewers:8}{calls:8}{calls / seconds:10.0f}{reads / seconds:10.0f}{reads / seconds / viewers:16.0f}", flush=True)
    print(f"cores: {os.cpu_count()}")


if __name__ == "__main__":
    if len(sys.argv) not in (2, 3) or sys.argv[1].startswith("-"):
        sys.exit(__doc__)
    main(*sys.argv[1:])
