#!/usr/bin/env python3
"""Outside the proof. Gives the program one line at a time, and the next line only after the whole output for it has arrived: no reply, answer or error may
wait for more input. The contracts promise this only for lines that ended 65,536 bytes before.

    bench/sweeps/prompt_answers.py           tests the released program
    bench/sweeps/prompt_answers.py PROGRAM   tests another one"""
import os
import select
import subprocess
import sys

sys.path.append(f"{os.path.dirname(os.path.realpath(__file__))}/../tools")
from common import released_program

EVENT, FAULT = '{"event":"add_agent","agent":"n1","total":"cpus:1"}', '{"event":"add_agent"}'
QUESTIONS = ["?report", "?explain", "?offers", "?tasks", "?state", "?tables", "?", "?tasks f1"]
OUT, ERR = "stdout", "stderr"
# Arguments, and lines with the streams on which each has output.
CASES = [
    (["run"], [(EVENT, OUT), (FAULT, OUT)]),
    (["run", "--echo"], [(EVENT, OUT), (FAULT, OUT)]),
    (["run", "--ask"], [(line, OUT) for line in [EVENT, *QUESTIONS, FAULT, *QUESTIONS]]),
    (["run", "--ask", "--echo"], [(line, OUT) for line in [EVENT, *QUESTIONS, FAULT, *QUESTIONS]]),
    (["lint"], [(FAULT, OUT), ("{", OUT)]),
    (["lint", "--write"], [(EVENT, OUT), (FAULT, ERR), (EVENT, OUT)]),
]
SECONDS = 20


def count_of(words, line):
    """How many lines come of a line: with `--echo` an event's own before its reply."""
    return 2 if "--echo" in words and not line.startswith("?") else 1


def has_come(stream, count):
    """Whether just so many lines come in time."""
    text = b""
    while text.count(b"\n") < count:
        more = stream.read(65_536) if select.select([stream], [], [], SECONDS)[0] else b""
        if not more:
            return False
        text += more
    return text.count(b"\n") == count and text.endswith(b"\n")


def late_lines(program, words, lines):
    """The lines of which not just all came before the next one was given."""
    how = {name: subprocess.PIPE for name in ("stdin", OUT, ERR)}
    ran, late = subprocess.Popen([program, *words], bufsize=0, **how), []
    for line, stream in lines:
        try:
            ran.stdin.write(line.encode() + b"\n")
        except BrokenPipeError:
            return [*late, line]
        if not has_come(getattr(ran, stream), count_of(words, line)):
            late.append(line)
    ran.communicate()
    return late


def main(program=None):
    program, wrong = program or released_program(), 0
    for words, lines in CASES:
        late = late_lines(program, words, lines)
        print(f"{' '.join(words):18}{len(lines):3} lines, {len(late)} late", *late, sep="\n  " if late else "", flush=True)
        wrong += len(late)
    sys.exit(1 if wrong else 0)


if __name__ == "__main__":
    main(*sys.argv[1:2])
