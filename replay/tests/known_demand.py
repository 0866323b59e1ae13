"""Outside the proof. Makes journals of a demand that is known: frameworks whose tasks have given arrivals, sizes and durations.

The same demand run under two policies tells what a replay of the first should predict for the second."""
import json
import random
import subprocess
from collections import deque

PERIOD = 1000


class Work:
    """A task of a known demand."""

    __slots__ = ("arrival", "cpus", "lasts", "start")

    def __init__(self, arrival, cpus, lasts):
        self.arrival, self.cpus, self.lasts, self.start = arrival, cpus, lasts, None

    def use(self):
        return f"cpus:{self.cpus};mem:{self.cpus * 2048}"


def demand(seed, minutes, teams):
    """Returns a demand by role: tasks come at random times around a rate that rises and falls, `load` is in cpus."""
    chance, works = random.Random(seed), {}
    for role, (load, sizes, seconds, burst) in teams.items():
        at, works[role] = 0.0, []
        mean = sum(sizes) / len(sizes) * sum(seconds) / 2
        while at < minutes * 60_000:
            part = at / (minutes * 60_000)
            rate = load / mean / 1000 * (burst if 0.3 < part < 0.5 else 1.0)
            at += chance.expovariate(rate)
            works[role].append(Work(int(at), chance.choice(sizes), chance.randint(*seconds) * 1000))
    return works


def run(program, works, agents, weights, minutes, refuse=5000, answer=137, out_of_order=False):
    """Runs a demand, and returns the lines of the journal. Sets the start of each task.

    Each framework accepts what fits its oldest waiting task, or with `out_of_order` any of its waiting tasks; it answers after `answer`
    milliseconds, and revives when a task arrives while nothing waits."""
    child = subprocess.Popen([program, "run"], stdin=subprocess.PIPE, stdout=subprocess.PIPE, text=True)
    lines, unread = [], []

    def ask(event, **keys):
        """Sends an event; only a cycle waits for the replies."""
        unread.append(json.dumps({"event": event, **keys}, separators=(",", ":")) + "\n")
        if event != "cycle":
            return None
        child.stdin.write("".join(unread))
        child.stdin.flush()
        for line in unread:
            reply = child.stdout.readline()
            assert "refused" not in reply, (line, reply)
            lines.extend((line, reply))
        unread.clear()
        return json.loads(reply)

    for role, weight in weights.items():
        ask("set_weight", role=role, weight=weight)
    for number in range(agents):
        ask("add_agent", agent=f"n{number}", total="cpus:16;mem:32768")
    for role in works:
        ask("add_framework", framework=f"f-{role}", roles=[role])
    coming = {role: deque(sorted(it, key=lambda work: work.arrival)) for role, it in works.items()}
    waiting, ends, count = {role: deque() for role in works}, [], 0

    def arrive(role, at):
        there = len(waiting[role])
        while coming[role] and coming[role][0].arrival <= at:
            waiting[role].append(coming[role].popleft())
        return not there and bool(waiting[role])

    for at in range(0, minutes * 60_000, PERIOD):
        for role in works:
            if arrive(role, at):
                ask("revive", framework=f"f-{role}", role=role)
        for it in [it for it in ends if it[0] <= at]:
            ask("finish", framework=it[1], task=it[2])
        ends = [it for it in ends if it[0] > at]
        offers = ask("cycle", at=at)["offers"]
        for role in works:
            arrive(role, at + answer)
        for offer in offers:
            role = offer["role"]
            left = {name: int(amount) for name, amount in (it.split(":") for it in offer["resources"].split(";"))}
            chosen = []
            for work in list(waiting[role]):
                if len(chosen) == 16:
                    break
                if left.get("cpus", 0) >= work.cpus and left.get("mem", 0) >= work.cpus * 2048:
                    left["cpus"] -= work.cpus
                    left["mem"] -= work.cpus * 2048
                    chosen.append(work)
                    waiting[role].remove(work)
                elif not out_of_order:
                    break
            given = {"framework": offer["framework"], "offer": offer["offer"], "at": at + answer, "refuse_ms": refuse}
            if not chosen:
                ask("decline", **given)
                continue
            tasks = []
            for work in chosen:
                count += 1
                work.start = at + answer
                tasks.append({"task": f"t{count}", "use": work.use()})
                ends.append((work.start + work.lasts, offer["framework"], f"t{count}"))
            ask("accept", **given, tasks=tasks)
    ask("cycle", at=minutes * 60_000)
    child.stdin.close()
    child.wait()
    child.stdout.close()
    return lines
