#!/usr/bin/env python3
"""Outside the proof. Measures the program on inputs of several kinds: processor time (medians of three runs), lines a second and the greatest memory use of
each; then one more report of two large clusters.

    bench/timings/speed.py                        measures the released program
    bench/timings/speed.py PROGRAM                measures another one; `-` is the released one
    bench/timings/speed.py PROGRAM 100            a hundredth of each input, to try the script
    bench/timings/speed.py PROGRAM SHORTER PLAIN  compares with a program that only reads each line as JSON with the same library: what rt or
                                                  bench/tools/unproved.py built from bench/timings/plain; `-` builds it with the latter"""
import itertools
import os
import resource
import statistics
import subprocess
import sys
import tempfile

sys.path.append(f"{os.path.dirname(os.path.realpath(__file__))}/../tools")
from common import ROOT, released_program
from churn import Talk, churn, line

RUNS = 3
# Frameworks, and clients of each, for the largest possible report.
NAMED, CLIENTS = 512, 8


def agents(count):
    totals = (f"cpus:{i % 16 + 1};mem:{(i % 64 + 1) * 512}" for i in itertools.count())
    return [line("add_agent", agent=f"n{i}", total=total) for i, total in zip(range(count), totals)]


def frameworks(count, roles=10):
    return [line("add_framework", framework=f"f{i}", roles=[f"r{i % roles}"]) for i in range(count)]


def cycles(count):
    return [line("cycle", at=i) for i in range(count)]


def wide(count):
    """The total of an agent with so many resources of all kinds, some of them reserved."""
    kinds = ("r{0}:{0}.5", "r{0}(eng):{0}", "p{0}:[{0}-99,200-299]", "d{0}(eng/web):{{a{0},b}}")
    return ";".join(["cpus:4"] + [kinds[i % 4].format(i) for i in range(1, count)])


def wide_agents(count):
    return [line("add_agent", agent=f"w{i}", total=wide(4 + i % 37)) for i in range(count)]


def intervals(count):
    return "cpus:1;ports:[" + ",".join(f"{3 * i}-{3 * i + 1}" for i in range(count)) + "]"


def each_followed(lines, by):
    return list(itertools.chain.from_iterable(zip(lines, by)))


def inputs(shorter):
    """Lines by what they are."""
    some, few = 4096 // shorter, 1024 // shorter
    one_framework = [line("add_framework", framework="f0", roles=["eng/web"])]
    return {
        "agents": agents(some),
        "frameworks": frameworks(few),
        "refused agents": agents(1) * (400_000 // shorter),
        "refused agents of 4 to 40 resources": wide_agents(37) * (100_000 // 37 // shorter),
        "refused agents of 4 KB, 235 resources": agents(1) + [line("add_agent", agent="n0", total=wide(235))] * (20_000 // shorter),
        "refused agents of 4,000 intervals": [line("add_agent", agent="n0", total=intervals(4000))] * (400 // shorter),
        "removals of an agent that is not there": agents(1) + [line("remove_agent", agent="n1")] * (400_000 // shorter),
        "one cycle, 32 offers of 4 to 40 resources": one_framework + wide_agents(32) + cycles(1),
        "one cycle, 4,096 offers, 16 frameworks": frameworks(16) + agents(some) + cycles(1),
        "one cycle, 256 offers, 1,024 frameworks": frameworks(few) + agents(some // 16) + cycles(1),
        "a cycle for each agent, 16 frameworks": frameworks(16) + each_followed(agents(some), cycles(some)),
        "a cycle for each agent, 1 framework": frameworks(1) + each_followed(agents(some), cycles(some)),
        "a report, 1,024 frameworks in 10 roles": frameworks(few) + agents(some // 16) + [line("report")],
        "empty cycles, 1 agent": frameworks(1) + agents(1) + cycles(400_000 // shorter),
        "empty cycles, 4,096 agents": frameworks(16) + agents(some) + cycles(40_000 // shorter),
        "lines of 1 KB": [it.ljust(1023) for it in cycles(100_000 // shorter)],
        "lines that are no JSON": ["{" * 20] * (400_000 // shorter),
    }


def shared(framework, client):
    """One of eight roles that all frameworks are in."""
    return f"r{client}"


def own(framework, client):
    """A role of eight parts that no other framework is in."""
    return f"r{client}/f{framework}/c/d/e/f/g/h"


def held(role, shorter):
    """Frameworks in roles, the first of which holds all agents: half of them in offers, half of them in tasks."""
    count = NAMED // shorter or 1
    named = [line("add_framework", framework=f"f{i}", roles=[role(i, k) for k in range(CLIENTS)]) for i in range(count)]
    weights = [line("set_weight", role=f"r{k}", weight=str(k + 1)) for k in range(CLIENTS)]
    total = "cpus:4;disk:100000;gpus:1;mem:8192"
    with_agents = [line("add_agent", agent=f"n{i}", total=total) for i in range(count)]
    tasks = [line("accept", framework="f0", offer=i, task=f"t{i}", use="cpus:3;mem:4096", at=0, refuse_ms=0) for i in range(1, count // 2 + 1)]
    # the cycle comes while there is only one framework, because it is slow with many
    return weights + named[:1] + with_agents + [line("cycle", at=0)] + tasks + named[1:]


def run(words, path):
    """The processor seconds of one run over a file, and its megabytes at most."""
    before = resource.getrusage(resource.RUSAGE_CHILDREN)
    with open(path) as given, tempfile.NamedTemporaryFile("r") as peak:
        subprocess.run(["/usr/bin/time", "-f", "%M", "-o", peak.name, *words], stdin=given, stdout=subprocess.DEVNULL, check=True)
        megabytes = int(peak.read()) / 1024
    after = resource.getrusage(resource.RUSAGE_CHILDREN)
    return after.ru_utime + after.ru_stime - before.ru_utime - before.ru_stime, megabytes


def measure(programs, lines):
    """The median seconds of each program over the lines, one's run after the other's, and its megabytes at most."""
    with tempfile.NamedTemporaryFile("w") as given:
        given.writelines(f"{it}\n" for it in lines)
        given.flush()
        rounds = [[run(words, given.name) for words in programs] for _ in range(RUNS)]
    return [(statistics.median(it[0] for it in runs), max(it[1] for it in runs)) for runs in zip(*rounds)]


def show(name, lines, programs):
    figures, megabytes = measure(programs, lines), sum(len(it) + 1 for it in lines) / 1_000_000
    columns = "".join(f"{seconds:9.3f}{len(lines) / seconds:10.0f}{megabytes / seconds:8.1f}{peak:9.1f}" for seconds, peak in figures)
    times = f"{figures[0][0] / figures[1][0]:8.2f}" if len(figures) > 1 else ""
    print(f"{name:45}{len(lines):9}{columns}{times}", flush=True)


def plain_reader(plain, room):
    if plain == "-":
        from unproved import build

        build(f"{ROOT}/bench/timings/plain", f"{room}/plain")
    return f"{room}/plain" if plain == "-" else plain


def main(program="-", shorter="1", plain=None):
    program, shorter = released_program() if program == "-" else program, int(shorter)
    with tempfile.TemporaryDirectory() as room:
        programs = [[program, "run"]] + [[plain_reader(plain, room)]] * (plain is not None)
        print(f"{'input':45}{'lines':>9}" + f"{'seconds':>9}{'lines/s':>10}{'MB/s':>8}{'peak MB':>9}" * len(programs) + f"{'times':>8}" * (len(programs) - 1))
        for name, lines in inputs(shorter).items():
            show(name, lines, programs)
        show("a cluster in use, 500 agents, 100 frameworks", churn(Talk(programs[0]), 500 // shorter or 1, 100 // shorter or 1), programs)
        for name, role in {"shared roles": shared, "own roles, of 8 parts": own}.items():
            lines = held(role, shorter)
            one_more, whole = (measure(programs[:1], lines + [line("report")] * more)[0][0] for more in (2, 1))
            print(f"one report more, 512 frameworks of 8 clients in {name}: {one_more - whole:.3f} s", flush=True)
    print(f"cores: {os.cpu_count()}")


if __name__ == "__main__":
    if len(sys.argv) > 4 or sys.argv[1:2] == ["--help"]:
        sys.exit(__doc__)
    main(*sys.argv[1:])
