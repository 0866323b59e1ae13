#!/usr/bin/env python3
"""Outside the proof. Runs random events, some of which are refused, on `drf run` and on a slow allocator that follows docs/REFERENCE.md and docs/CONCEPTS.md
literally: lists of rows, sums over all of them, and exact fractions. Each reply must be the same, byte for byte, and so must the state that `drf save`
writes at the end.

    bench/sweeps/random_events.py [PROGRAM [LISTS [SEED]]]      200 lists of 150 events by default

All resources are scalars. It prints `ok`, or the first list with a difference, as event lines that can be run again."""
import json
import os
import random
import subprocess
import sys
from fractions import Fraction

LISTS, EVENTS = 200, 150
AGENTS, FRAMEWORKS = ["n1", "n2", "n3"], ["f1", "f2", "f3"]
ROLES = ["a", "b", "a/x", "a/y", "c", "*"]
MORE_ROLES = ROLES + ["d", "e", "f", "g"]
SCALARS = ["cpus", "mem"]
LONGEST = 365 * 24 * 3600 * 1000


class Refused(Exception):
    pass


def refuse(cases):
    """The first case that holds, of (condition, number, name) in order of numbers."""
    for holds, number, name in cases:
        if holds:
            raise Refused(number, name)


def within(role, other):
    """Whether a role is the other or below it."""
    return role == other or role.startswith(other + "/")


def text_of(amounts):
    """The normal form of (name, reservation) -> thousandths; the unreserved resource of a name comes first."""
    def number(n):
        whole, part = divmod(n, 1000)
        return str(whole) + ("." + f"{part:03}".rstrip("0") if part else "")
    return ";".join(f"{name}{f'({role})' if role else ''}:{number(n)}" for (name, role), n in sorted(amounts.items()))


def plus(left, right):
    return {key: left.get(key, 0) + right.get(key, 0) for key in {**left, **right}}


def minus(left, right):
    rest = {key: n - right.get(key, 0) for key, n in left.items()}
    return {key: n for key, n in rest.items() if n}


def covers(left, right):
    return all(left.get(key, 0) >= n for key, n in right.items())


def by_name(amounts):
    sums = {}
    for (name, _), n in amounts.items():
        sums[name] = sums.get(name, 0) + n
    return sums


class Slow:
    """The allocator as its definition reads."""

    def __init__(self):
        self.agents, self.frameworks, self.offers, self.tasks, self.filters = [], [], [], [], []
        self.weights, self.limits = [], []
        self.clock, self.next = 0, 1

    # ---- sums over rows

    def holdings(self):
        return self.offers + self.tasks

    def agent(self, name):
        return next((a for a in self.agents if a["name"] == name), None)

    def framework(self, name):
        return next((f for f in self.frameworks if f["name"] == name), None)

    def free(self, agent):
        rest = agent["total"]
        for held in self.holdings():
            if held["agent"] == agent["name"]:
                rest = minus(rest, held["bundle"])
        return rest

    def clients(self):
        return [(f, c) for f in self.frameworks for c in f["clients"]]

    @staticmethod
    def nodes(role, framework):
        """The nodes above a client, from the top, and the client itself: `a/x` and f give a, a/x, a/x/., a/x/./f."""
        parts = role.split("/") + [".", framework]
        return ["/".join(parts[: i + 1]) for i in range(len(parts))]

    def total(self):
        total = {}
        for agent in self.agents:
            total = plus(total, by_name(agent["total"]))
        return total

    def held(self, node):
        held = {}
        for it in self.holdings():
            if node in self.nodes(it["role"], it["framework"]):
                held = plus(held, by_name(it["bundle"]))
        return held

    def count(self, node):
        return sum(c["count"] for f, c in self.clients() if node in self.nodes(c["role"], f["name"]))

    def share(self, node):
        total, held = self.total(), self.held(node)
        return max([Fraction(held.get(name, 0), n) for name, n in total.items() if n], default=Fraction(0))

    def weighted(self, node):
        weight = next((w for role, w in self.weights if role == node), 1000)
        return self.share(node) * 1000 / weight

    def consumption(self, role, name):
        used = sum(it["bundle"].get((name, ""), 0) for it in self.holdings() if within(it["role"], role))
        return used + sum(n for a in self.agents for (other, owner), n in a["total"].items() if other == name and owner and within(owner, role))

    def headroom(self, role, name):
        rooms = [max(0, limit[name] - self.consumption(owner, name)) for owner, limit in self.limits if name in limit and within(role, owner)]
        return min(rooms, default=None)

    # ---- a cycle

    def in_force(self, clock):
        return [f for f in self.filters if clock < f["until"]]

    def grant(self, agent, framework, role):
        part = {}
        for (name, owner), n in self.free(agent).items():
            if owner == "":
                room = self.headroom(role, name)
                n = n if room is None else min(n, room)
            elif not within(role, owner):
                continue
            if n:
                part[name, owner] = n
        sums = by_name(part)
        if sums.get("cpus", 0) < 10 and sums.get("mem", 0) < 32000:
            return None
        for it in self.in_force(self.clock):
            if (it["agent"], it["framework"], it["role"]) == (agent["name"], framework, role) and covers(it["bundle"], part):
                return None
        return part

    def key(self, f, c):
        """Nodes from the top: the weighted share, the count and the last part of each."""
        return [(self.weighted(node), self.count(node), node.rsplit("/", 1)[-1].encode()) for node in self.nodes(c["role"], f["name"])]

    def cycle(self, e):
        refuse([(e["at"] > 2**62, 2, "BadMoment")])
        self.clock = max(self.clock, e["at"])
        made = []
        for agent in [a for a in self.agents if a["active"]]:
            order = sorted([(self.key(f, c), f, c) for f, c in self.clients() if not c["suppressed"]], key=lambda it: it[0])
            for _, f, c in order:
                part = self.grant(agent, f["name"], c["role"])
                if part is None:
                    continue
                offer = {"number": self.next, "agent": agent["name"], "framework": f["name"], "role": c["role"], "bundle": part}
                self.offers.append(offer)
                self.next += 1
                c["count"] += 1
                made.append({"agent": agent["name"], "framework": f["name"], "offer": offer["number"], "resources": text_of(part), "role": c["role"]})
        return {"offers": made}

    # ---- other events

    def drop(self, test):
        self.offers = [o for o in self.offers if not test(o)]

    def drop_all(self, test):
        self.drop(test)
        self.tasks = [t for t in self.tasks if not test(t)]

    def add_agent(self, e):
        refuse([(self.agent(e["agent"]), 4, "KnownAgent")])
        self.agents.append({"name": e["agent"], "total": e["total"], "active": True})

    def remove_agent(self, e):
        refuse([(not self.agent(e["agent"]), 3, "UnknownAgent")])
        self.agents = [a for a in self.agents if a["name"] != e["agent"]]
        self.drop_all(lambda it: it["agent"] == e["agent"])
        self.filters = [f for f in self.filters if f["agent"] != e["agent"]]

    def activate_agent(self, e):
        refuse([(not self.agent(e["agent"]), 3, "UnknownAgent")])
        self.agent(e["agent"])["active"] = True

    def deactivate_agent(self, e):
        refuse([(not self.agent(e["agent"]), 3, "UnknownAgent")])
        self.agent(e["agent"])["active"] = False
        self.drop(lambda o: o["agent"] == e["agent"])

    def set_agent(self, e):
        agent = self.agent(e["agent"])
        refuse([(not agent, 3, "UnknownAgent")])
        held = minus(agent["total"], self.free(agent))
        refuse([(not covers(e["total"], held), 15, "NotCovered")])
        agent["total"] = e["total"]

    def add_framework(self, e):
        refuse([(self.framework(e["framework"]), 6, "KnownFramework"), (not e["roles"], 13, "Empty"), (len(set(e["roles"])) > 8, 19, "TooMany")])
        self.frameworks.append({"name": e["framework"], "clients": [{"role": r, "count": 0, "suppressed": False} for r in dict.fromkeys(e["roles"])]})

    def set_framework(self, e):
        framework, roles = self.framework(e["framework"]), list(dict.fromkeys(e["roles"]))
        refuse([(not framework, 5, "UnknownFramework"), (not roles, 13, "Empty"), (len(roles) > 8, 19, "TooMany")])
        left = [c["role"] for c in framework["clients"] if c["role"] not in roles]
        refuse([(any(it["framework"] == e["framework"] and it["role"] in left for it in self.holdings()), 20, "RoleInUse")])
        had = [c["role"] for c in framework["clients"]]
        framework["clients"] = [c for c in framework["clients"] if c["role"] in roles]
        framework["clients"] += [{"role": r, "count": 0, "suppressed": False} for r in roles if r not in had]
        self.filters = [f for f in self.filters if not (f["framework"] == e["framework"] and f["role"] in left)]

    def remove_framework(self, e):
        refuse([(not self.framework(e["framework"]), 5, "UnknownFramework")])
        self.frameworks = [f for f in self.frameworks if f["name"] != e["framework"]]
        self.drop_all(lambda it: it["framework"] == e["framework"])
        self.filters = [f for f in self.filters if f["framework"] != e["framework"]]

    def found(self, e):
        """The offer of an accept or a decline, or the refusals 2 to 8."""
        offer = next((o for o in self.offers if o["number"] == e["offer"]), None)
        refuse([(e["at"] > 2**62, 2, "BadMoment"), (not self.framework(e["framework"]), 5, "UnknownFramework"), (not offer, 7, "UnknownOffer")])
        refuse([(offer["framework"] != e["framework"], 8, "NotYours")])
        return offer

    def give_back(self, offer, rest, e):
        self.clock = max(self.clock, e["at"])
        self.offers.remove(offer)
        if e["refuse_ms"] and rest:
            until = self.clock + min(e["refuse_ms"], LONGEST)
            self.filters.append({"agent": offer["agent"], "framework": offer["framework"], "role": offer["role"], "bundle": rest, "until": until})

    def accept(self, e):
        offer = self.found(e)
        refuse([
            (any((t["framework"], t["name"]) == (e["framework"], e["task"]) for t in self.tasks), 10, "KnownTask"),
            (not e["use"], 13, "Empty"),
            (not covers(offer["bundle"], e["use"]), 15, "NotCovered"),
        ])
        self.give_back(offer, minus(offer["bundle"], e["use"]), e)
        self.tasks.append({"name": e["task"], "agent": offer["agent"], "framework": offer["framework"], "role": offer["role"], "bundle": e["use"]})

    def decline(self, e):
        offer = self.found(e)
        self.give_back(offer, offer["bundle"], e)

    def rescind(self, e):
        refuse([(all(o["number"] != e["offer"] for o in self.offers), 7, "UnknownOffer")])
        self.drop(lambda o: o["number"] == e["offer"])

    def finish(self, e):
        task = next((t for t in self.tasks if (t["framework"], t["name"]) == (e["framework"], e["task"])), None)
        refuse([(not self.framework(e["framework"]), 5, "UnknownFramework"), (not task, 9, "UnknownTask")])
        self.tasks.remove(task)

    def client(self, e):
        refuse([(not self.framework(e["framework"]), 5, "UnknownFramework")])
        client = next((c for c in self.framework(e["framework"])["clients"] if c["role"] == e["role"]), None)
        refuse([(not client, 11, "NotInRole")])
        return client

    def suppress(self, e):
        self.client(e)["suppressed"] = True

    def revive(self, e):
        self.client(e)["suppressed"] = False
        self.filters = [f for f in self.filters if (f["framework"], f["role"]) != (e["framework"], e["role"])]

    def move(self, e, old, new, admitted):
        agent = self.agent(e["agent"])
        reserved = any(owner for _, owner in e["resources"])
        refuse([(not agent, 3, "UnknownAgent"), (e["role"] == "*", 12, "DefaultRole"), (not e["resources"], 13, "Empty"), (reserved, 14, "NotUnreserved")])
        part = {(name, old): n for (name, _), n in e["resources"].items()}
        refuse([(not covers(self.free(agent), part), 15, "NotCovered"), (not admitted(), 16, "OverLimit")])
        agent["total"] = plus(minus(agent["total"], part), {(name, new): n for (name, _), n in e["resources"].items()})

    def reserve(self, e):
        def admitted():
            rooms = [(self.headroom(e["role"], name), n) for (name, _), n in e["resources"].items()]
            return all(room is None or n <= room for room, n in rooms)
        self.move(e, "", e["role"], admitted)

    def unreserve(self, e):
        self.move(e, e["role"], "", lambda: True)

    def set_weight(self, e):
        refuse([(not 1 <= e["weight"] <= 1000000, 17, "BadWeight")])
        self.weights = [(role, w) for role, w in self.weights if role != e["role"]] + [(e["role"], e["weight"])]

    def set_limit(self, e):
        refuse([(e["role"] == "*", 12, "DefaultRole")])
        self.limits = [(role, limit) for role, limit in self.limits if role != e["role"]] + ([(e["role"], e["limit"])] if e["limit"] else [])

    def report(self, e):
        def fraction(share):
            return f"{share.numerator}/{share.denominator}"
        names = {node for f, c in self.clients() for node in self.nodes(c["role"], f["name"])}
        nodes = [{
            "count": self.count(node),
            "held": text_of({(name, ""): n for name, n in self.held(node).items() if n}),
            "path": node,
            "share": fraction(self.share(node)),
            "weighted": fraction(self.weighted(node)),
        } for node in sorted(names, key=lambda node: [part.encode() for part in node.split("/")])]
        return {"nodes": nodes, "total": text_of({(name, ""): n for name, n in self.total().items() if n})}

    def rows(self):
        """The frameworks and the filters in force, as lines of a saved state without their last keys."""
        clients = [[{"count": c["count"], "role": c["role"], "suppressed": c["suppressed"]} for c in f["clients"]] for f in self.frameworks]
        made = [{"clients": its, "framework": f["name"], "row": "framework"} for f, its in zip(self.frameworks, clients)]
        for f in self.in_force(self.clock):
            text = text_of(f["bundle"])
            made.append({"agent": f["agent"], "framework": f["framework"], "resources": text, "role": f["role"], "row": "filter", "until": f["until"]})
        return [json.dumps(row, separators=(",", ":")) for row in made]

    def step(self, event):
        try:
            return getattr(self, event["event"])(event) or {"ok": True}
        except Refused as refused:
            return {"name": refused.args[1], "refused": refused.args[0]}


def amounts(chance, reserved):
    """Scalars in thousandths; some are reserved."""
    made = {}
    for name in SCALARS:
        if chance.random() < 0.8:
            made[name, ""] = chance.choice([1, 10, 500, 1000, 2000]) * (1 if name == "cpus" else 32)
        if reserved and chance.random() < 0.3:
            made[name, chance.choice(ROLES[:-1])] = chance.choice([10, 1000]) * (1 if name == "cpus" else 32)
    return made


def roles_of(chance):
    """A list of roles, in which one may stand more than once. A few lists have more different roles than a framework may have."""
    if chance.random() < 0.05:
        return [chance.choice(MORE_ROLES) for _ in range(16)]
    return [chance.choice(ROLES) for _ in range(chance.choice([0, 1, 1, 2, 2, 3]))]


def event_of(chance, slow):
    """A random event, which mostly names what there is. Agents and frameworks come first."""
    early = len(slow.agents) < 2 or len(slow.frameworks) < 2
    kind = chance.choice(["add_agent", "add_framework"] if early and chance.random() < 0.5 else ["cycle"] * 5 + ["accept"] * 4 + ["decline"] * 3 + ["set_framework"] * 4 + [
        "add_agent", "remove_agent", "activate_agent", "deactivate_agent", "set_agent", "add_framework", "add_framework", "remove_framework", "rescind", "finish",
        "suppress", "revive", "reserve", "reserve", "unreserve", "unreserve", "set_weight", "set_limit", "report"])
    offer = chance.choice(slow.offers) if slow.offers and chance.random() < 0.9 else {"number": chance.randrange(9), "framework": "f1", "bundle": {("cpus", ""): 1}}
    task = chance.choice(slow.tasks) if slow.tasks and chance.random() < 0.9 else {"name": "t", "framework": "f1"}
    framework = chance.choice(FRAMEWORKS)
    owner = offer["framework"] if chance.random() < 0.9 else framework
    at = slow.clock + chance.choice([0, 0, 1, 1000]) if chance.random() < 0.97 else 2**62 + 1
    refuse_ms = chance.choice([0, 500, 1500, 5000])
    everything = {
        "agent": chance.choice(AGENTS), "role": chance.choice(ROLES), "framework": framework, "roles": roles_of(chance),
        "offer": offer["number"], "at": at, "refuse_ms": refuse_ms, "task": chance.choice(["t", "u", "v"]), "total": amounts(chance, True),
        "resources": amounts(chance, chance.random() < 0.1), "weight": chance.choice([0, 1, 500, 1000, 3000, 1000000]), "limit": by_name(amounts(chance, False)),
        "use": {key: n for key, n in offer["bundle"].items() if chance.random() < 0.7} if chance.random() < 0.9 else amounts(chance, True),
    }
    keys = {
        "add_agent": "agent total", "remove_agent": "agent", "activate_agent": "agent", "deactivate_agent": "agent", "set_agent": "agent total",
        "add_framework": "framework roles", "set_framework": "framework roles", "remove_framework": "framework", "accept": "framework offer task use at refuse_ms",
        "decline": "framework offer at refuse_ms", "rescind": "offer", "finish": "framework task", "suppress": "framework role", "revive": "framework role",
        "reserve": "agent role resources", "unreserve": "agent role resources", "set_weight": "role weight", "set_limit": "role limit", "cycle": "at", "report": "",
    }[kind].split()
    event = {"event": kind, **{key: everything[key] for key in keys}}
    if kind in ("accept", "decline"):
        event["framework"] = owner
    if kind == "finish":
        event.update(framework=task["framework"], task=task["name"])
    return event


def line_of(event):
    """The event as a line of the input."""
    texts = dict(event)
    for key in ("total", "resources", "use"):
        if key in event:
            texts[key] = text_of(event[key])
    if "limit" in event:
        texts["limit"] = text_of({(name, ""): n for name, n in event["limit"].items()})
    if "weight" in event:
        texts["weight"] = f"{event['weight'] // 1000}.{event['weight'] % 1000:03}"
    return json.dumps(texts, separators=(",", ":"))


def play(program, seed):
    """One list of events. Returns its lines up to the first reply that differs, with that reply and the one that was expected, or None."""
    chance, slow = random.Random(seed), Slow()
    lines, expected = [], []
    for _ in range(EVENTS):
        event = event_of(chance, slow)
        lines.append(line_of(event))
        expected.append(json.dumps(slow.step(event), separators=(",", ":")))
    text = "\n".join(lines) + "\n"
    told = subprocess.run([program, "run"], input=text, capture_output=True, text=True, check=True).stdout.splitlines()
    for place, reply in enumerate(expected):
        if place >= len(told) or told[place] != reply:
            return lines[: place + 1], told[place : place + 1], reply
    saved = subprocess.run([program, "save"], input=text, capture_output=True, text=True, check=True).stdout.splitlines()
    rows = [row for row in saved if '"row":"framework"' in row or '"row":"filter"' in row]
    return None if rows == slow.rows() else (lines, rows, slow.rows())


def main(words):
    root = os.path.dirname(os.path.dirname(os.path.dirname(os.path.realpath(__file__))))
    program = words[0] if words else f"{root}/drf"
    lists = int(words[1]) if len(words) > 1 else LISTS
    seed = int(words[2]) if len(words) > 2 else 1
    for number in range(lists):
        found = play(program, seed + number)
        if found:
            print("\n".join(found[0]))
            sys.exit(f"random_events.py: seed {seed + number}: after the last line drf has {found[1]}, but the definition has {found[2]}")
    print(f"ok {lists} random lists of {EVENTS} events")


if __name__ == "__main__":
    main(sys.argv[1:])
