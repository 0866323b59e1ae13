#!/usr/bin/env python3
"""Outside the proof. Keeps a cluster busy for up to a million events, and prints how much memory the program uses meanwhile. After the first tenth of the
events, the memory must not grow by more than a tenth. Then the same lines are run with --echo, and `drf check` must accept the journal.

    bench/sweeps/long_life.py                 tests the released program with 100,000 events
    bench/sweeps/long_life.py PROGRAM         tests another one
    bench/sweeps/long_life.py PROGRAM whole   1,000,000 events, in some minutes"""
import os
import re
import subprocess
import sys
import tempfile
import time

sys.path.append(f"{os.path.dirname(os.path.realpath(__file__))}/../tools")
from common import released_program
from churn import Talk, churn

PARTS = 10


class Lines:
    """Lines in a file, of which the last is at hand."""

    def __init__(self, path):
        self.file, self.count, self.last = open(path, "w"), 0, ""

    def append(self, line):
        self.file.write(line + "\n")
        self.count, self.last = self.count + 1, line

    def __getitem__(self, place):
        return self.last


class Watched(Talk):
    """A talk of so many lines at least, with the kilobytes that the program has at the end of each part."""

    def __init__(self, words, path, count):
        super().__init__(words)
        self.lines, self.part, self.kilobytes = Lines(path), count // PARTS, []

    def ask(self, event, **keys):
        reply = super().ask(event, **keys)
        if self.lines.count % self.part == 0:
            status = open(f"/proc/{self.program.pid}/status").read()
            self.kilobytes.append(int(re.search(r"VmRSS:\s+(\d+)", status)[1]))
        return reply

    def is_over(self):
        return self.lines.count >= PARTS * self.part


def main(program=None, extent=""):
    program = program or released_program()
    count = 1_000_000 if extent == "whole" else 100_000
    with tempfile.TemporaryDirectory() as room:
        began = time.monotonic()
        talk = Watched([program, "run"], f"{room}/lines", count)
        churn(talk, cycles=count)
        talk.lines.file.close()
        first, most = talk.kilobytes[0], max(talk.kilobytes)
        print(f"{talk.lines.count} events in {time.monotonic() - began:.0f} s: {first} KB after a tenth, {most} KB at most later; {talk.kilobytes}", flush=True)
        with open(f"{room}/lines") as lines, open(f"{room}/journal", "w") as journal:
            subprocess.run([program, "run", "--echo"], stdin=lines, stdout=journal, check=True)
        with open(f"{room}/journal") as journal:
            told = subprocess.run([program, "check"], stdin=journal, capture_output=True, text=True).stdout
        print(told, end="")
        if told != f"good {talk.lines.count}\n" or most * 10 > first * 11:
            raise SystemExit("not as it must be")


if __name__ == "__main__":
    main(*sys.argv[1:3])
