#!/usr/bin/env python3
"""Outside the proof. Tests the program at its capacities: as many agents, frameworks, clients, weights, limits, names, filters and tasks as are allowed and
one more, the greatest amounts, shares that differ in the last digit, and the latest timestamps. Each reply is compared with what the rules say,
`drf check` must accept the journal, and another program, if one is given, must write the same bytes.

    bench/sweeps/limits.py                  tests the released program, without the filters
    bench/sweeps/limits.py PROGRAM          tests another one
    bench/sweeps/limits.py PROGRAM whole    also fills the table of filters
    bench/sweeps/limits.py PROGRAM whole OTHER"""
import json
import os
import random
import subprocess
import sys
from fractions import Fraction

sys.path.append(f"{os.path.dirname(os.path.realpath(__file__))}/../tools")
from common import released_program
from churn import line

AGENTS, FRAMEWORKS, ROLES, CLIENTS, FILTERS, ROWS, NAMES, TASKS = 4096, 1024, 8, 4096, 65_536, 4096, 32, 16
# thousandths that an agent may have of a scalar
MOST = (1 << 40) - 1
LATEST = 1 << 62
LONGEST = 31_536_000_000


def amount(thousandths):
    whole, part = divmod(thousandths, 1000)
    return f"{whole}.{part:03}".rstrip("0").rstrip(".")


class Asked:
    """A program that answers lines, each reply compared with what it must be: True, the name of a refusal or fault, a number of
    offers, all of a reply, or None where it is the other program's alone to tell."""

    def __init__(self, program):
        self.program = subprocess.Popen([program, "run"], stdin=subprocess.PIPE, stdout=subprocess.PIPE, text=True)
        self.lines, self.wrong = [], []

    def ask(self, wanted, event, **keys):
        self.lines.append(line(event, **keys))
        self.program.stdin.write(self.lines[-1] + "\n")
        self.program.stdin.flush()
        reply = json.loads(self.program.stdout.readline())
        if not is_as_wanted(reply, wanted):
            self.wrong.append(f"{self.lines[-1][:200]}\n  {json.dumps(reply)[:200]}\n  and not {str(wanted)[:200]}")
        return reply

    def offers(self, wanted, at):
        return self.ask(wanted, "cycle", at=at)["offers"]

    def agents(self, count, total="cpus:1"):
        for number in range(count):
            self.ask(True, "add_agent", agent=f"n{number}", total=total)

    def close(self):
        self.program.stdin.close()
        self.program.wait()


def is_as_wanted(reply, wanted):
    if wanted is True:
        return reply == {"ok": True}
    if isinstance(wanted, str):
        return reply.get("name") == wanted
    if isinstance(wanted, int):
        return "offers" in reply and len(reply["offers"]) == wanted
    return wanted is None or reply == wanted


def most_agents(it):
    it.agents(AGENTS)
    it.ask("TooMany", "add_agent", agent="one", total="")
    it.ask("KnownAgent", "add_agent", agent="n7", total="")
    it.ask(True, "set_agent", agent="n7", total="cpus:2;mem:64")
    it.ask(True, "add_framework", framework="f", roles=["a"])
    it.ask(AGENTS, "cycle", at=0)
    it.ask(0, "cycle", at=0)
    it.ask(True, "remove_agent", agent="n4095")
    it.ask(True, "add_agent", agent="one", total="cpus:1")
    it.ask("TooMany", "add_agent", agent="n4095", total="cpus:1")
    it.ask(1, "cycle", at=0)
    whole = {"count": 4097, "held": "cpus:4097;mem:64", "share": "1/1", "weighted": "1/1"}
    it.ask({"nodes": [{"path": path, **whole} for path in ("a", "a/.", "a/./f")], "total": "cpus:4097;mem:64"}, "report")


def most_frameworks(it):
    for number in range(FRAMEWORKS):
        it.ask(True, "add_framework", framework=f"f{number}", roles=[f"r{number % 7}"])
    it.ask("TooMany", "add_framework", framework="one", roles=["a"])
    it.ask("KnownFramework", "add_framework", framework="f3", roles=["a"])
    it.ask(True, "remove_framework", framework="f3")
    it.ask(True, "add_framework", framework="one", roles=["a", "a"])
    it.ask("TooMany", "add_framework", framework="f3", roles=["a"])
    it.agents(AGENTS)
    # then each framework has four agents
    it.ask(AGENTS, "cycle", at=0)
    for number in (0, 2, 1023):
        it.ask(True, "remove_framework", framework=f"f{number}")
    it.ask(12, "cycle", at=0)


def most_clients(it):
    roles = [f"{top}/{middle}/{last}" for top in "abcdefgh" for middle in "abcdefgh" for last in "abcdefgh"]
    for number in range(CLIENTS // ROLES):
        it.ask(True, "add_framework", framework=f"f{number}", roles=[roles[(number * 5 + step * 37) % len(roles)] for step in range(ROLES)])
    it.ask("TooMany", "add_framework", framework="one", roles=["a"])
    it.ask(True, "remove_framework", framework="f9")
    it.ask("TooMany", "add_framework", framework="one", roles=list("abcdefghi"))
    it.ask(True, "add_framework", framework="one", roles=[*"abcdefgh", "a"])
    it.ask("TooMany", "add_framework", framework="two", roles=["*"])
    it.agents(AGENTS)
    it.ask(AGENTS, "cycle", at=0)
    it.ask(True, "suppress", framework="one", role="h")
    for number in range(0, AGENTS, 5):
        it.ask(True, "rescind", offer=number + 1)
    it.ask(820, "cycle", at=0)
    # compared only with another program, and by a check of its journal
    it.ask(None, "report")


def most_rows(it):
    for number in range(ROWS):
        it.ask(True, "set_weight", role=f"r{number}", weight="1")
        it.ask(True, "set_limit", role=f"r{number}", limit="cpus:0" if number else "cpus:18446744073709551.615")
    it.ask("TooMany", "set_weight", role="one", weight="1")
    it.ask("BadWeight", "set_weight", role="one", weight="0")
    it.ask(True, "set_weight", role="r7", weight="1000")
    it.ask("TooMany", "set_limit", role="one", limit="cpus:1")
    it.ask(True, "set_limit", role="one", limit="")
    it.ask(True, "set_limit", role="r7", limit="cpus:0;mem:9")
    it.ask(True, "set_limit", role="r9", limit="")
    it.ask(True, "set_limit", role="one", limit="cpus:1")
    it.ask("TooMany", "set_limit", role="r9", limit="cpus:1")
    it.ask(True, "add_agent", agent="n", total="cpus:5;mem:40")
    for role in ("r1", "r7", "r9", "one", "r0"):
        it.ask(True, "add_framework", framework=f"f{role}", roles=[role])
    # one takes a cpu; r7 may have 9 mem, which is too little; r0 has no less than all
    it.ask({"offers": [offer(1, "n", "fone", "one", "cpus:1;mem:40"), offer(2, "n", "fr0", "r0", "cpus:4")]}, "cycle", at=0)


def offer(number, agent, framework, role, resources):
    return {"agent": agent, "framework": framework, "offer": number, "resources": resources, "role": role}


def most_names(it):
    names = [f"s{number:02}" for number in range(NAMES)]
    all_names = ";".join(f"{name}:1" for name in names)
    it.ask(True, "add_agent", agent="a", total=";".join(f"{name}:1" for name in names[:20]))
    it.ask(True, "add_agent", agent="b", total=";".join(f"{name}(eng):1" for name in names[10:]) + ";ports:[1-9];disk:{x}")
    it.ask("TooMany", "add_agent", agent="c", total="t:1")
    it.ask(True, "add_agent", agent="c", total=f"{all_names};ports:{{z}};t:[1-2]")
    it.ask("TooMany", "set_agent", agent="c", total=f"{all_names};t:1")
    it.ask("TooMany", "set_agent", agent="a", total="t:1")
    it.ask(True, "remove_agent", agent="c")
    it.ask(True, "set_agent", agent="a", total=";".join(f"{name}:1" for name in names[1:20]) + ";t:1")
    it.ask("TooMany", "set_agent", agent="b", total="u:1;" + ";".join(f"{name}(eng):1" for name in names[10:]))
    it.ask("TooMany", "set_limit", role="eng", limit=f"{all_names};t:0")
    it.ask(True, "set_limit", role="eng", limit=f"{all_names};s00:2")
    it.ask("TooMany", "set_limit", role="eng", limit=";".join(f"{name}:0" for name in names) + ";t:0")


def most_tasks(it):
    it.ask(True, "add_framework", framework="f", roles=["a"])
    it.agents(AGENTS // 8, "cpus:16;mem:1024")
    it.ask(AGENTS // 8, "cycle", at=0)
    for number in range(AGENTS // 8):
        tasks = [{"task": f"t{number}.{part}", "use": "cpus:1;mem:64"} for part in range(TASKS)]
        it.ask("BadShape", "accept", framework="f", offer=number + 1, tasks=[*tasks, {"task": "more", "use": "cpus:1"}], at=0)
        it.ask(True, "accept", framework="f", offer=number + 1, tasks=tasks, at=0)
    it.ask(0, "cycle", at=0)
    it.ask(True, "remove_agent", agent="n3")
    it.ask("UnknownTask", "finish", framework="f", task="t3.4")
    for number in range(0, AGENTS // 8, 2):
        for part in range(TASKS):
            it.ask(True, "finish", framework="f", task=f"t{number}.{part}")
    it.ask(AGENTS // 16, "cycle", at=0)


def greatest_amounts(it):
    """All that there may be of a scalar, in one role, with limits a thousandth too small and just enough."""
    all_cpus = AGENTS * MOST
    it.ask("TooLarge", "add_agent", agent="one", total=f"cpus:{amount(MOST + 1)}")
    it.ask("TooLarge", "add_agent", agent="one", total=f"cpus:{amount(MOST)};cpus(a):0.001")
    it.ask(True, "set_limit", role="a", limit=f"cpus:{amount(all_cpus - 1)}")
    it.agents(AGENTS, f"cpus:{amount(MOST)};mem:{amount(MOST)}")
    for number in range(AGENTS - 1):
        it.ask(True, "reserve", agent=f"n{number}", role="a/b", resources=f"cpus:{amount(MOST)}")
    it.ask("OverLimit", "reserve", agent="n4095", role="a/b", resources=f"cpus:{amount(MOST)}")
    it.ask(True, "reserve", agent="n4095", role="a/b", resources=f"cpus:{amount(MOST - 1)}")
    it.ask("OverLimit", "reserve", agent="n4095", role="a", resources="cpus:0.001")
    it.ask("NotCovered", "reserve", agent="n4095", role="a", resources="cpus:0.002")
    it.ask(True, "set_limit", role="a", limit=f"cpus:{amount(all_cpus)}")
    it.ask(True, "reserve", agent="n4095", role="a", resources="cpus:0.001")
    it.ask(True, "add_framework", framework="f", roles=["a/b"])
    it.ask(True, "set_weight", role="a/b", weight="1000")
    it.ask(True, "set_weight", role="a", weight="0.001")
    it.ask(AGENTS, "cycle", at=0)
    held = f"cpus:{amount(all_cpus)};mem:{amount(all_cpus)}"
    shares = (("a", "1000/1"), ("a/b", "1/1000"), ("a/b/.", "1/1"), ("a/b/./f", "1/1"))
    nodes = [{"count": AGENTS, "held": held, "path": path, "share": "1/1", "weighted": weighted} for path, weighted in shares]
    it.ask({"nodes": nodes, "total": held}, "report")


def written(least):
    return f"{least.numerator}/{least.denominator}"


def two_roles(it, chance):
    """Two roles that hold cpus on half of the agents and mem on the others, of greatest totals; one agent takes part further on."""
    it.agents(AGENTS, f"cpus:{amount(MOST)};mem:{amount(MOST)}")
    it.ask(True, "set_agent", agent="n0", total="cpus:5;mem:40")
    held = {}
    for role, framework, name, half in (("a", "f", "cpus", range(1, AGENTS // 2)), ("b", "g", "mem", range(AGENTS // 2, AGENTS))):
        it.ask(True, "add_framework", framework=framework, roles=[role])
        offers = it.offers(AGENTS, 0)
        held[role] = 0
        for place in half:
            used = MOST - chance.randrange(1000)
            held[role] += used
            number = offers[place]["offer"]
            it.ask(True, "accept", framework=framework, offer=number, task=f"t{number}", use=f"{name}:{amount(used)}", at=0, refuse_ms=0)
        for place in set(range(AGENTS)) - set(half):
            it.ask(True, "rescind", offer=offers[place]["offer"])
        it.ask(True, "suppress", framework=framework, role=role)
    for number in range(1, AGENTS):
        it.ask(True, "deactivate_agent", agent=f"n{number}")
    return held


def closest_shares(it):
    """Of two roles with greatest amounts and weights, whose products differ in their last places, the one that has less is served."""
    chance = random.Random(7)
    held, count = two_roles(it, chance), {"a": AGENTS, "b": AGENTS}
    totals = {"a": (AGENTS - 1) * MOST + 5000, "b": (AGENTS - 1) * MOST + 40_000}
    for framework, role in (("f", "a"), ("g", "b")):
        it.ask(True, "revive", framework=framework, role=role)
    for turn in range(600):
        weights = {role: chance.choice((1, 999_983, 1_000_000, chance.randrange(1, 1_000_001))) for role in "ab"}
        if turn % 3:
            near = weights["a"] * held["b"] * totals["a"] / (held["a"] * totals["b"])
            weights["b"] = min(1_000_000, max(1, round(near) + chance.randrange(-1, 2)))
        for role, weight in weights.items():
            it.ask(True, "set_weight", role=role, weight=amount(weight))
        share = {role: Fraction(held[role], totals[role]) for role in "ab"}
        weighted = {role: share[role] * 1000 / weights[role] for role in "ab"}
        nodes = []
        for role, framework, name in (("a", "f", "cpus"), ("b", "g", "mem")):
            row = {"count": count[role], "held": f"{name}:{amount(held[role])}", "share": written(share[role])}
            nodes.append({**row, "path": role, "weighted": written(weighted[role])})
            nodes += [{**row, "path": path, "weighted": row["share"]} for path in (f"{role}/.", f"{role}/./{framework}")]
        it.ask({"nodes": nodes, "total": f"cpus:{amount(totals['a'])};mem:{amount(totals['b'])}"}, "report")
        first = min("ab", key=lambda role: (weighted[role], count[role], role))
        number = 2 * AGENTS + turn + 1
        it.ask({"offers": [offer(number, "n0", "fg"["ab".index(first)], first, "cpus:5;mem:40")]}, "cycle", at=0)
        count[first] += 1
        it.ask(True, "rescind", offer=number)


def latest_moments(it):
    it.ask(True, "add_agent", agent="n", total="cpus:1")
    it.ask(True, "add_framework", framework="f", roles=["a"])
    it.ask("BadMoment", "cycle", at=LATEST + 1)
    it.ask("BadMoment", "cycle", at=(1 << 64) - 1)
    it.ask("BadShape", "cycle", at=1 << 64)
    it.ask(1, "cycle", at=LATEST - LONGEST - 1)
    it.ask(True, "decline", framework="f", offer=1, at=0, refuse_ms=(1 << 64) - 1)
    it.ask(0, "cycle", at=LATEST - 2)
    it.ask(1, "cycle", at=LATEST - 1)
    it.ask("BadMoment", "decline", framework="f", offer=2, at=LATEST + 1)
    it.ask(True, "decline", framework="f", offer=2, at=LATEST, refuse_ms=LONGEST)
    it.ask(0, "cycle", at=LATEST)
    it.ask(0, "cycle", at=0)
    it.ask(True, "revive", framework="f", role="a")
    it.ask(1, "cycle", at=0)
    it.ask("UnknownOffer", "rescind", offer=(1 << 64) - 1)
    it.ask("BadShape", "rescind", offer=1 << 64)


def most_filters(it):
    """As many filters as may be in force, of which a part ends early: those may still stand, and count no longer."""
    rounds = FILTERS // AGENTS
    it.agents(AGENTS)
    for number in range(rounds + 1):
        it.ask(True, "add_framework", framework=f"f{number:02}", roles=[f"r{number:02}"])
    for turn in range(rounds):
        for given in it.offers(AGENTS, 0):
            it.ask(True, "decline", framework=given["framework"], offer=given["offer"], at=0, refuse_ms=LONGEST if turn else 1000)
    left = it.offers(AGENTS, 0)

    def decline(wanted, **keys):
        given = left[-1]
        if it.ask(wanted, "decline", framework=given["framework"], offer=given["offer"], **keys) == {"ok": True}:
            left.pop()

    decline("TooMany", at=0)
    decline("TooMany", at=999)
    decline(True, at=0, refuse_ms=0)
    accept = {"framework": left[-1]["framework"], "offer": left[-1]["offer"], "at": 999}
    it.ask("TooMany", "accept", **accept, task="t", use="cpus:0.5")
    it.ask(True, "accept", **accept, task="t", use="cpus:1")
    left.pop()
    # a refused event has not moved the clock, so the first filters expire only now
    decline("TooMany", at=999, refuse_ms=1)
    for _ in range(AGENTS - 3):
        decline(True, at=1000, refuse_ms=LONGEST)
    it.ask(True, "remove_agent", agent="n7")
    for given in it.offers(None, 1000)[:AGENTS // 2]:
        it.ask(None, "decline", framework=given["framework"], offer=given["offer"], at=1000, refuse_ms=LONGEST)
    for given in it.offers(None, 1000)[:AGENTS]:
        it.ask(None, "decline", framework=given["framework"], offer=given["offer"], at=1000, refuse_ms=LONGEST)
    it.ask(True, "revive", framework="f00", role="r00")
    it.ask(True, "remove_framework", framework="f01")
    for given in it.offers(None, 1000)[:AGENTS]:
        it.ask(True, "decline", framework=given["framework"], offer=given["offer"], at=1000, refuse_ms=LONGEST)


CASES = [most_agents, most_frameworks, most_clients, most_rows, most_names, most_tasks, greatest_amounts, closest_shares, latest_moments]


def ran(program, words, given):
    return subprocess.run([program, *words], input=given, capture_output=True).stdout


def try_case(case, program, other):
    """How many lines were asked, and how many replies or outputs were not as they must be."""
    it = Asked(program)
    case(it)
    it.close()
    given = "".join(asked + "\n" for asked in it.lines).encode()
    journal = ran(program, ["run", "--echo"], given)
    if ran(program, ["check"], journal) != b"good %d\n" % len(it.lines):
        it.wrong.append("its journal is not good")
    for words, input in (["run"], given), (["audit"], given), (["check"], journal):
        if other and ran(program, words, input) != ran(other, words, input):
            it.wrong.append(f"the other program's {words[0]} writes other bytes")
    print(f"{case.__name__:18}{len(it.lines):7} lines, {len(it.wrong)} differences", *it.wrong[:5], sep="\n  " if it.wrong else "", flush=True)
    return len(it.wrong)


def main(program=None, extent="", other=None):
    program = program or released_program()
    wrong = sum([try_case(case, program, other) for case in CASES + [most_filters] * (extent == "whole")])
    return 1 if wrong else 0


if __name__ == "__main__":
    sys.exit(main(*sys.argv[1:4]))
