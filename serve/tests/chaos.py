#!/usr/bin/env python3
# Kills gateways, allocators and etcd members at random times under load, and then compares the acknowledged events with the state. Outside the proof.
"""    chaos.py KIND SECONDS [SEED]        KIND is alone, three or outer; GATEWAY and DRF name the programs
"""
import collections
import json
import os
import random
import signal
import subprocess
import sys
import threading
import time

from fleet import Fleet, wait

Acknowledged = collections.namedtuple("Acknowledged", "lines message replies")


class Callers:
    """Threads that send batches, each under one key until it is acknowledged, to one gateway after another."""

    def __init__(self, fleet, count, seed):
        self.fleet, self.stop, self.lock = fleet, threading.Event(), threading.Lock()
        self.acknowledged, self.forgotten, self.refused, self.longest, self.tries = {}, [], [], 0.0, 0
        self.claims = {}  # of each batch's first line: what the answers to it said of it
        self.threads = [threading.Thread(target=self.run, args=(number, random.Random(seed * 1000 + number)), daemon=True) for number in range(count)]
        for thread in self.threads:
            thread.start()

    def run(self, number, chance):
        offers, count = [], 0
        while not self.stop.is_set():
            count += 1
            key = f"c{number}-{count}"
            lines = [json.dumps({"event": "rescind", "offer": 10**12 + number * 10**8 + count})] + [self.event(chance, offers) for _ in range(chance.randrange(4))]
            replies = self.send(key, lines, chance)
            for reply in replies or []:
                offers = (json.loads(reply).get("offers") or offers)[-20:]

    def event(self, chance, offers):
        name = f"n{chance.randrange(12)}"
        kind = chance.randrange(9)
        if offers and kind < 3:
            offer = offers.pop(chance.randrange(len(offers)))
            event = {"event": "accept" if kind else "decline", "framework": offer["framework"], "offer": offer["offer"], "refuse_ms": 50}
            return json.dumps({**event, "task": f"t{offer['offer']}", "use": "cpus:0.5"} if kind else event)
        if kind < 5:
            return json.dumps({"event": "cycle"})
        if kind == 5:
            return json.dumps({"event": "remove_agent", "agent": name})
        if kind == 6:
            return json.dumps({"event": "add_framework", "framework": f"f{chance.randrange(4)}", "roles": [chance.choice(["eng", "eng/web", "ops"])]})
        if kind == 7 and chance.random() < 0.2:
            return json.dumps({"event": "remove_framework", "framework": f"f{chance.randrange(4)}"})
        return json.dumps({"event": "add_agent", "agent": name, "total": f"cpus:{chance.randrange(1, 9)};mem:4096"})

    def send(self, key, lines, chance):
        begun, text = time.time(), "\n".join(lines) + "\n"
        while True:
            gateway = chance.choice(self.fleet.gateways)
            status, answer, headers = gateway.ask("/drf/v1/events", text, timeout=10, Idempotency_Key=key)
            with self.lock:
                self.tries += 1
                self.claims.setdefault(lines[0], set()).add(headers.get("Drf-Applied", "unknown" if status == 0 else "missing"))
                if status == 200:
                    self.acknowledged[key] = Acknowledged(lines, int(headers["Drf-Message"]), answer.splitlines())
                    self.longest = max(self.longest, time.time() - begun)
                    return answer.splitlines()
                if status == 410 and "no longer kept" in answer:  # it was taken; the states of a test are soon behind one another
                    self.forgotten.append(lines[0])
                    return None
                if status not in (0, 503, 504):
                    self.refused.append((key, status, answer))
                    return None
            if self.stop.is_set() and time.time() - begun > 60:
                return None
            time.sleep(0.02)

    def end(self):
        self.stop.set()
        for thread in self.threads:
            thread.join(90)


class Archive:
    """Keeps the journal as it grows, as gateways forget what is before their states, and compares what each of them tells."""

    def __init__(self, fleet):
        self.stop, self.lock, self.whole, self.faults, self.at = threading.Event(), threading.Lock(), bytearray(), [], {}
        self.threads = [threading.Thread(target=self.run, args=(gateway,), daemon=True) for gateway in fleet.gateways]
        for thread in self.threads:
            thread.start()

    def take(self, gateway):
        at = self.at.get(gateway.name, 0)
        status, text, _ = gateway.ask(f"/drf/v1/journal?from={at}", timeout=5)
        with self.lock:
            if status == 410:
                self.at[gateway.name] = len(self.whole)
            if status != 200:
                return
            text = text[:text.rfind("\n") + 1].encode()
            known = self.whole[at:at + len(text)]
            if not text.startswith(known):
                self.faults.append(f"{gateway.name} tells another journal from byte {at} on")
            self.whole += text[len(known):]
            self.at[gateway.name] = at + len(text)

    def run(self, gateway):
        while not self.stop.is_set():
            self.take(gateway)
            time.sleep(0.1)

    def end(self, size):
        """Waits until all gateways have told all."""
        assert wait(lambda: len(self.whole) >= size and all(at >= size for at in self.at.values()), 15), f"the archive fell behind: {len(self.whole)} of {size}"
        self.stop.set()
        assert not self.faults, self.faults


def harm(fleet, chance, counts):
    """Kills something, or holds it still, and starts it again after a while."""
    gateway = chance.choice(fleet.gateways)
    kinds = {"drf": 3, "gateway": 4, "hung": 2, "several": 2 if len(fleet.gateways) > 1 else 0, "etcd": 5 if fleet.servers else 0}
    what = chance.choices(list(kinds), list(kinds.values()))[0]
    counts[what] += 1
    if what == "drf":
        gateway.kill_drf()
    elif what == "hung":
        process = chance.choice([gateway.process] + [server[2] for server in fleet.servers])
        process.send_signal(signal.SIGSTOP)
        time.sleep(chance.uniform(0.5, 4))
        process.send_signal(signal.SIGCONT)
    elif what == "etcd":
        leader = fleet.leader()
        n = leader if leader is not None and chance.random() < 0.7 else chance.randrange(3)
        fleet.kill_server(n)
        time.sleep(chance.uniform(0.2, 3))
        fleet.start_server(n)
    else:  # of three members two are no majority, and nothing may be acknowledged without one
        ended = chance.sample(fleet.gateways, 2) if what == "several" else [gateway]
        for one in ended:
            one.kill(chance.choice([signal.SIGKILL, signal.SIGKILL, signal.SIGTERM]))
        time.sleep(chance.uniform(0, 2))
        for one in ended:
            one.start()


def chaos(kind, seconds, seed, gateway, drf, save_every=None, callers=8):
    chance, counts = random.Random(seed), collections.Counter()
    with Fleet(kind, gateway, drf, "-cycle", "300ms", save_every=save_every) as fleet:
        archive = Archive(fleet)
        load = Callers(fleet, callers, seed)
        until = time.time() + seconds
        while time.time() < until:
            time.sleep(chance.uniform(0.3, 3))
            for one in fleet.gateways:
                assert one.process.poll() is None, f"{one.name} ended by itself: {one.log()[-800:]}"
            harm(fleet, chance, counts)
        load.end()
        for one in fleet.gateways:
            one.until_ready()
        statuses = fleet.agreed()
        archive.end(statuses[0]["journal"]["end"])
        judge(fleet, archive, load)
        states = compare_states(fleet)
        return f"{len(load.acknowledged)} batches in {load.tries} tries, killed {dict(counts)}, longest {load.longest:.1f} s, {states} states"


def judge(fleet, archive, load):
    longest = bytes(archive.whole)
    verdict = subprocess.run([fleet.drf, "check"], input=longest, capture_output=True, check=False).stdout.decode()
    assert verdict == f"good {longest.count(10) // 2}\n", verdict
    assert not load.refused, load.refused[:3]
    lines = longest.decode().splitlines()
    at, twice = {}, 0
    for k in range(0, len(lines), 2):
        if '"offer": 1000' in lines[k] and lines[k].startswith('{"event": "rescind"'):
            twice += lines[k] in at
            at[lines[k]] = k
    assert not any("missing" in said for said in load.claims.values()), "an answer does not say whether it applied the batch"
    untrue = [(line, said) for line, said in load.claims.items() if ("yes" in said and line not in at) or (said == {"no"} and line in at)]
    assert not untrue, f"{len(untrue)} answers were not true: {untrue[:3]}"
    lost = [line for line in [batch.lines[0] for batch in load.acknowledged.values()] + load.forgotten if line not in at]
    assert not lost and not twice, f"{len(lost)} lost, {twice} twice"
    for batch in load.acknowledged.values():
        k = at[batch.lines[0]]
        assert lines[k + 1:k + 2 * len(batch.lines):2] == batch.replies, f"other replies than the journal's: {batch}"
    assert len(load.acknowledged) > 50, f"only {len(load.acknowledged)} were acknowledged"


def compare_states(fleet):
    """The states that gateways keep under one number are the same."""
    found = collections.defaultdict(set)
    for gateway in fleet.gateways:
        for name in os.listdir(gateway.folder):
            if name.startswith("state.") and not name.endswith(".part"):
                found[name].add(open(os.path.join(gateway.folder, name), "rb").read())
    assert all(len(texts) == 1 for texts in found.values()), "two states differ"
    return max([int(name[6:]) for name in found], default=0)


if __name__ == "__main__":
    from programs import find_programs
    programs = find_programs()
    every = int(os.environ.get("SAVE_EVERY", 0)) or None
    print(chaos(sys.argv[1], float(sys.argv[2]), int(sys.argv[3]) if len(sys.argv) > 3 else 1, programs.gateway, programs.drf, every))
