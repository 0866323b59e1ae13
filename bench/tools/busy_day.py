#!/usr/bin/env python3
"""Outside the proof. Writes examples/busy_day.jsonl, the event lines of a day of three teams on thirty machines: a site that grows with its visitors, builds,
and batch jobs. Their replies depend on the offers, so the script runs the program while it generates the lines.

    bench/tools/busy_day.py PROGRAM ARGUMENT..    the command to run, such as `./drf run`"""
import math
import random
import sys

from common import ROOT
from churn import Talk

MINUTE = 60_000
# The time from one cycle to the next.
PERIOD = 15 * MINUTE
DAY = 24 * 60 * MINUTE
RACKS, IN_RACK = "abcde", 6
LOST_RACK = "d"
MACHINE = "cpus:16;mem:98304"
# One accept starts at most this many tasks.
MOST_TASKS = 16


def hour(at):
    return at / (60 * MINUTE)


def bump(at, middle, width):
    """Up to 1 in the middle, and near 0 when it is twice the width away."""
    return math.exp(-(((hour(at) - middle) / width) ** 2))


class Team:
    """A framework of one role, whose tasks have so many cpus and mem and which answers so many minutes after a cycle; and the tasks that
    it runs, each with its agent and its end."""

    def __init__(self, name, role, cpus, mem, answers_after):
        self.name, self.role, self.cpus, self.mem, self.answers_after = name, role, cpus, mem, answers_after * MINUTE
        self.running, self.started, self.is_quiet = {}, 0, False

    def arrive(self, at):
        """What is asked of it from then on, where it keeps count of that."""

    def fit(self, resources):
        amounts = {name: float(amount) for name, amount in (it.split(":") for it in resources.split(";"))}
        return int(min(amounts.get("cpus", 0) // self.cpus, amounts.get("mem", 0) // self.mem, MOST_TASKS))

    def start(self, agent, at, count):
        """So many new tasks on an agent, as an accept names them."""
        tasks = []
        for _ in range(count):
            self.started += 1
            tasks.append(f"{self.name[0]}{self.started}")
            self.running[tasks[-1]] = agent, at + self.lasts()
        return [{"task": task, "use": f"cpus:{self.cpus};mem:{self.mem}"} for task in tasks]

    def ended(self, at):
        return [task for task, (_, end) in self.running.items() if end <= at]

    def lose(self, agents):
        """Its tasks there end; how many they were."""
        lost = [task for task, (agent, _) in self.running.items() if agent in agents]
        for task in lost:
            del self.running[task]
        return len(lost)


class Site(Team):
    """Its tasks follow the visitors: many at noon, most in the evening."""

    def wants(self, at):
        return round(8 + 22 * bump(at, 12.5, 3.4) + 38 * bump(at, 19.8, 2.2)) - len(self.running)

    def lasts(self):
        return 2 * DAY

    def ended(self, at):
        # one more than it needs may stay
        return list(self.running)[: max(0, -self.wants(at) - 1)]


class Queue(Team):
    """Tasks that wait until there is room for them."""

    def __init__(self, *words, minutes, arrivals, chance):
        super().__init__(*words)
        self.minutes, self.arrivals, self.chance, self.waiting = minutes, arrivals, chance, 0

    def wants(self, at):
        return self.waiting

    def lasts(self):
        return self.chance.randint(*self.minutes) * MINUTE

    def arrive(self, at):
        self.waiting += self.arrivals(at, self.chance)

    def start(self, agent, at, count):
        self.waiting -= count
        return super().start(agent, at, count)

    def lose(self, agents):
        self.waiting += super().lose(agents)


def builds_at(at, chance):
    if at == 10 * 60 * MINUTE:
        return 110
    return chance.randint(2, 5) if 8 <= hour(at) < 18.5 else 0


def batches_at(at, chance):
    if at in (0, 22 * 60 * MINUTE):
        return 160
    return chance.randint(7, 12) if 6.5 <= hour(at) < 17 else 0


def machines(rack):
    return [f"{rack}{number}" for number in range(1, IN_RACK + 1)]


def add_machines(talk, rack):
    for agent in machines(rack):
        talk.ask("add_agent", agent=agent, total=MACHINE)


def operate(talk, teams, at):
    """What the operators do: a limit in the burst of builds, and a rack that goes and comes back."""
    if hour(at) == 12:
        talk.ask("set_limit", role="ci", limit="cpus:48")
    if hour(at) == 14.5:
        for agent in machines(LOST_RACK):
            talk.ask("remove_agent", agent=agent)
        for team in teams:
            team.lose(machines(LOST_RACK))
    if hour(at) == 16.5:
        add_machines(talk, LOST_RACK)


def ask_or_be_quiet(talk, team, at):
    is_quiet = team.wants(at) <= 0
    if is_quiet != team.is_quiet:
        talk.ask("suppress" if is_quiet else "revive", framework=team.name, role=team.role)
        team.is_quiet = is_quiet


def answer(talk, team, offer, at):
    count = min(team.wants(at), team.fit(offer["resources"]))
    given = {"framework": team.name, "offer": offer["offer"], "at": at}
    if count > 0:
        talk.ask("accept", **given, tasks=team.start(offer["agent"], at, count), refuse_ms=0)
    else:
        talk.ask("decline", **given, refuse_ms=4 * PERIOD)


def day(talk, teams):
    talk.ask("set_weight", role="web", weight="2")
    for rack in RACKS:
        add_machines(talk, rack)
    for team in teams:
        talk.ask("add_framework", framework=team.name, roles=[team.role])
    for at in range(0, DAY, PERIOD):
        for team in teams:
            for task in team.ended(at):
                del team.running[task]
                talk.ask("finish", framework=team.name, task=task)
        operate(talk, teams, at)
        for team in teams:
            team.arrive(at)
            ask_or_be_quiet(talk, team, at)
        offers = talk.ask("cycle", at=at)["offers"]
        # the framework that answers sooner comes first
        for team in teams:
            for offer in offers:
                if offer["framework"] == team.name:
                    answer(talk, team, offer, at + team.answers_after)
    talk.ask("cycle", at=DAY)
    talk.close()
    return talk.lines


def main(words):
    chance = random.Random(4)
    teams = [
        Site("site", "web", 4, 8192, 1),
        Queue("builds", "ci", 4, 8192, 4, minutes=(20, 50), arrivals=builds_at, chance=chance),
        Queue("nightly", "data", 4, 24576, 8, minutes=(50, 110), arrivals=batches_at, chance=chance),
    ]
    lines = day(Talk(words), teams)
    with open(f"{ROOT}/examples/busy_day.jsonl", "w") as written:
        written.writelines(f"{it}\n" for it in lines)
    print(f"{len(lines)} lines, {sum(len(it) + 1 for it in lines)} bytes")


if __name__ == "__main__":
    main(sys.argv[1:] or sys.exit(__doc__))
