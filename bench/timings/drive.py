#!/usr/bin/env python3
"""Outside the proof. Measures `drive` with 1, 2, 8 and 64 files that have 20,000 events together: processor time and elapsed time, medians of five runs. Then
64 files of 10,000 events each. `drf check` must accept each journal, with all events.

    bench/timings/drive.py                 measures the released program
    bench/timings/drive.py PROGRAM         measures another one
    bench/timings/drive.py PROGRAM PEER    compares with one that takes the same arguments; the runs alternate"""
import os
import random
import resource
import statistics
import subprocess
import sys
import tempfile
import time

sys.path.append(f"{os.path.dirname(os.path.realpath(__file__))}/../tools")
from common import released_program
from churn import line

FILES = (1, 2, 8, 64)
EVENTS, LONG = 20_000, 10_000
RUNS = 5
AGENTS, FRAMEWORKS = 64, 64


def roles_of(own):
    return [f"{own}/q{i}" for i in range(3)]


def begin(own, agents, frameworks):
    """The events that make a script's own agents and frameworks."""
    made = [line("add_agent", agent=f"{own}n{i}", total=f"cpus:{4 << i % 4};mem:{8192 << i % 4};disk:512") for i in range(agents)]
    return made + [line("add_framework", framework=f"{own}f{i}", roles=roles_of(own)) for i in range(frameworks)]


def turn(own, chance, number, agents, frameworks):
    """A few events, whose answers hang little on those of other scripts; `number` makes each cycle later than the last."""
    agent, framework, role = f"{own}n{chance.randrange(agents)}", f"{own}f{chance.randrange(frameworks)}", f"{own}/q{chance.randrange(3)}"
    match chance.randrange(7):
        case 0:
            return [line("deactivate_agent", agent=agent), line("activate_agent", agent=agent)]
        case 1:
            return [line("suppress", framework=framework, role=role), line("revive", framework=framework, role=role)]
        case 2:
            return [line("set_weight", role=role, weight=f"{chance.randint(1, 9)}.5")]
        case 3:
            moved = [line(event, agent=agent, role=role, resources="cpus:1;mem:64") for event in ("reserve", "unreserve")]
            return [line("deactivate_agent", agent=agent), *moved, line("activate_agent", agent=agent)]
        case 4:
            return [line("remove_agent", agent=agent), line("add_agent", agent=agent, total="cpus:8;mem:4096;ports:[31000-32000]")]
        case 5:
            return [line("remove_framework", framework=framework), line("add_framework", framework=framework, roles=roles_of(own))]
        case _:
            return [line("cycle", at=number)]


def script(number, count, agents, frameworks):
    chance, own = random.Random(number), f"s{number}"
    lines = begin(own, agents, frameworks)
    while len(lines) < count:
        lines += turn(own, chance, len(lines), agents, frameworks)
    return lines[:count]


def write_scripts(room, files, each):
    names = []
    for number in range(files):
        names.append(f"{room}/{files}-{number}.jsonl")
        with open(names[-1], "w") as it:
            it.writelines(f"{one}\n" for one in script(number, each, max(AGENTS // files, 1), max(FRAMEWORKS // files, 1)))
    return names


def run(program, names, journal):
    """The processor seconds of one run and its seconds by the clock."""
    before, began = resource.getrusage(resource.RUSAGE_CHILDREN), time.monotonic()
    with open(journal, "w") as written:
        subprocess.run([program, "drive", *names], stdout=written, check=True)
    taken, after = time.monotonic() - began, resource.getrusage(resource.RUSAGE_CHILDREN)
    return after.ru_utime + after.ru_stime - before.ru_utime - before.ru_stime, taken


def must_be_good(program, journal, count):
    with open(journal) as given:
        told = subprocess.run([program, "check"], stdin=given, capture_output=True, text=True).stdout
    if told != f"good {count}\n":
        raise SystemExit(f"not as it must be: {told}")


def measure(program, programs, names, journal, count):
    rounds = []
    for _ in range(RUNS):
        rounds.append([run(it, names, journal) for it in programs])
        must_be_good(program, journal, count)
    return [[statistics.median(figures) for figures in zip(*runs)] for runs in zip(*rounds)]


def show(files, count, figures):
    told = "".join(f"{processor:12.3f}{clock:12.3f}" for processor, clock in figures)
    ratios = "".join(f"{ours / max(other, 0.001):12.2f}" for ours, other in zip(figures[0], figures[-1])) if len(figures) > 1 else ""
    print(f"{files:6}{count:9}{told}{ratios}", flush=True)


def main(program=None, peer=None):
    program = program or released_program()
    programs = [program] + [peer] * (peer is not None)
    print(f"{'files':>6}{'events':>9}" + f"{'processor':>12}{'clock':>12}" * len(programs) + f"{'ratio':>12}{'ratio':>12}" * (len(programs) - 1))
    with tempfile.TemporaryDirectory() as room:
        for files in FILES:
            names, count = write_scripts(room, files, EVENTS // files), EVENTS // files * files
            show(files, count, measure(program, programs, names, f"{room}/journal", count))
        names, count = write_scripts(room, FILES[-1], LONG), FILES[-1] * LONG
        processor, clock = run(programs[0], names, f"{room}/journal")
        must_be_good(program, f"{room}/journal", count)
        print(f"{FILES[-1]} files of {LONG} events: {processor:.1f} s of the processor, {clock:.1f} s by the clock, the journal good", flush=True)
    print(f"cores: {os.cpu_count()}")


if __name__ == "__main__":
    if len(sys.argv) > 3 or sys.argv[1:2] == ["--help"]:
        sys.exit(__doc__)
    main(*sys.argv[1:])
