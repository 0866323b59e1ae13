# One real gateway for tests of the programs around it, and a cluster to fill it with. Outside the proof.
import json
import os
import random
import sys

from fleet import SERVE, Fleet

sys.path.insert(0, os.path.join(SERVE, "client"))
from durzhanok import Durzhanok


class Service:
    """A gateway with embedded etcd; cycles come when a test sends them."""

    def __init__(self, programs, *words):
        self.fleet = Fleet("alone", programs.gateway, programs.drf, "-cycle", "0", *words).start()
        self.gateway, = self.fleet.gateways
        self.url, self.tokens, self.folder = self.gateway.url, self.fleet.tokens, self.fleet.folder

    def start(self):
        self.gateway.start()
        self.gateway.until_ready()

    def end(self):
        self.fleet.__exit__(None, None, None)

    def client(self, name="admin", **words):
        return Durzhanok([self.url], self.tokens[name], **words)

    def get(self, path):
        status, text, _ = self.gateway.ask(path)
        assert status == 200, f"{path}: {status} {text}"
        return json.loads(text)

TEAMS = {"web": ["site", "shop", "edge"], "web/search": ["search"], "data/etl": ["loads", "sums"], "data/adhoc": ["query", "notebooks"],
         "ml/train": ["models"], "ci": ["tests", "builds"], "ops": ["backup"], "ops/later": ["waits"]}


def event(kind, **fields):
    return {"event": kind, **fields}


def machine(k):
    """The k-th agent's name, and what it has."""
    gpus = ";gpus:4" if k % 8 == 0 else ""
    return f"rack{k // 10 + 1}-{k % 10}", f"cpus:{(8, 16, 32)[k % 3]};mem:{(16384, 65536)[k % 2]};ports:[31000-31099]{gpus}"


def fill(service, agents=40, rounds=8):
    """Some teams that use most of a cluster; of what they are offered last some stands. One agent takes no part, one framework may have nothing."""
    chance, admin = random.Random(5), service.client()
    admin.send(*[event("add_agent", agent=name, total=total) for name, total in map(machine, range(agents))],
               *[event("add_framework", framework=name, roles=[role]) for role, names in TEAMS.items() for name in names],
               event("set_weight", role="web", weight="2"), event("set_limit", role="data", limit="cpus:160;mem:400000"),
               event("set_limit", role="ci", limit="cpus:40"), event("set_limit", role="ops/later", limit="cpus:0;mem:0"),
               event("reserve", agent="rack1-1", role="ops", resources="cpus:4"), event("deactivate_agent", agent=machine(agents - 1)[0]))
    for turn in range(rounds):
        offers = admin.send(event("cycle"))[0]["offers"]
        answers = [answer_to(offer, chance, turn) for offer in offers if turn < rounds - 1 or chance.random() < 0.6]
        if answers:
            admin.send(*answers)


def answer_to(offer, chance, turn):
    """An accept for a part of an offer, or a decline."""
    pieces = (piece.split(":", 1) for piece in offer["resources"].split(";"))
    has = {name: float(value) for name, value in pieces if value[0] not in "[{" and "(" not in name}
    fields = {"framework": offer["framework"], "offer": offer["offer"], "refuse_ms": chance.choice([0, 600000, 3600000])}
    cpus, mem = min(has.get("cpus", 0), chance.choice([2, 4, 8])), min(has.get("mem", 0), chance.choice([4096, 8192, 16384]))
    if cpus < 1 or chance.random() < 0.2:
        return event("decline", **fields)
    use = f"cpus:{cpus:g}" + (f";mem:{mem:g}" if mem else "")
    return event("accept", **fields, task=f"{offer['framework']}-{turn}-{offer['offer']}", use=use)
