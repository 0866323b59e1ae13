#!/usr/bin/env python3
"""Outside the proof. Measures how long an event takes in larger clusters. In a cluster of each size, all rows are replaced, so that the events find that many
rows. It prints the processor time of an event in microseconds, and the exponent with which it grows, which is 0 if it stays the same.

    bench/timings/growth.py                       measures the released program
    bench/timings/growth.py COMMAND..             measures another command that answers event lines
    bench/timings/growth.py --instructions [..]   counts instructions with Debian's valgrind, on which other work has no influence"""
import math
import os
import re
import subprocess
import sys
import tempfile

sys.path.append(f"{os.path.dirname(os.path.realpath(__file__))}/../tools")
from common import released_program
from churn import PERIOD, line

SIZES = [250, 1000, 4000]
EVENTS = 40_000


def agents(count):
    return [line("add_agent", agent=f"n{i}", total=f"cpus:{i % 16 + 1};mem:4096") for i in range(count)]


def frameworks(count):
    return [line("add_framework", framework=f"f{i}", roles=[f"r{i % 10}"]) for i in range(count)]


def removed(event, key, letter, count):
    return [line(event, **{key: f"{letter}{i}"}) for i in range(count)]


def rounds(count, teams, answers):
    """Cycles that each offer all of so many agents, and what is answered to the offers of each, by their numbers."""
    lines = frameworks(teams) + agents(count)
    for turn in range(EVENTS // count):
        lines.append(line("cycle", at=turn * PERIOD))
        lines += answers(range(turn * count + 1, (turn + 1) * count + 1), turn * PERIOD)
    return lines


def rescinded(offers, at):
    return [line("rescind", offer=number) for number in offers]


def declined(offers, at):
    return [line("decline", framework="f0", offer=number, at=at, refuse_ms=PERIOD // 2) for number in offers]


def used(offers, at):
    accepts = [line("accept", framework="f0", offer=number, task=f"t{number}", use="cpus:1;mem:64", at=at, refuse_ms=0) for number in offers]
    return accepts + [line("finish", framework="f0", task=f"t{number}") for number in offers]


INPUTS = {
    "agents, each removed": lambda n: (agents(n) + removed("remove_agent", "agent", "n", n)) * (EVENTS // n // 2),
    "frameworks (a quarter), each removed": lambda n: (frameworks(n // 4) + removed("remove_framework", "framework", "f", n // 4)) * (EVENTS // n * 2),
    "offers to 16 frameworks, each rescinded": lambda n: rounds(n, 16, rescinded),
    "offers to a quarter as many frameworks": lambda n: rounds(n, n // 4, rescinded),
    "offers and filters, each declined": lambda n: rounds(n, 1, declined),
    "tasks, each finished": lambda n: rounds(n, 1, used),
}


def answer(command, lines):
    """Lets the command answer the lines, and gives what it says on standard error."""
    with tempfile.TemporaryFile("w+") as given:
        given.writelines(f"{it}\n" for it in lines)
        given.flush()
        given.seek(0)
        return subprocess.run(command, stdin=given, stdout=subprocess.DEVNULL, stderr=subprocess.PIPE, text=True, check=True).stderr


def microseconds(command, lines):
    """The processor microseconds of an event, once the lines have been answered."""
    before = os.times()
    answer(command, lines)
    after = os.times()
    spent = after.children_user + after.children_system - before.children_user - before.children_system
    return max(spent, 0.01) * 1_000_000 / len(lines)


def instructions(command, lines):
    """The instructions of an event, those of the start among them."""
    told = answer(["valgrind", "--tool=callgrind", "--callgrind-out-file=/dev/null", *command], lines)
    return int(re.search(r"Collected : (\d+)", told)[1]) / len(lines)


def main(command):
    cost_of = microseconds
    if command[:1] == ["--instructions"]:
        cost_of, command = instructions, command[1:]
    command = command or [released_program(), "run"]
    print(f"{'what stands':42}" + "".join(f"{n:>9}" for n in SIZES) + f"{'power':>8}")
    for name, lines_of in INPUTS.items():
        costs = [cost_of(command, lines_of(n)) for n in SIZES]
        power = math.log(costs[-1] / costs[0]) / math.log(SIZES[-1] / SIZES[0])
        print(f"{name:42}" + "".join(f"{it:9.2f}" for it in costs) + f"{power:8.2f}", flush=True)


if __name__ == "__main__":
    main(sys.argv[1:])
