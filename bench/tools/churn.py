#!/usr/bin/env python3
"""Outside the proof. Writes the event lines of a busy cluster: cycles, offers that are accepted in part or declined, tasks that end. The lines depend on the
offers, so the script runs the program, and waits for its reply to each cycle. It ends if a reply is not as expected.

    bench/tools/churn.py PROGRAM ARGUMENT.. > FILE     the command to run, such as `./drf run`; 500 agents, 100 frameworks and 40 cycles"""
import json
import random
import subprocess
import sys

# milliseconds from one cycle to the next
PERIOD = 1000
# This many short replies fit into a pipe.
UNREAD = 256


def line(event, **keys):
    return json.dumps({"event": event, **keys}, separators=(",", ":"))


class Talk:
    """A program that answers lines, and the lines that it was asked."""

    def __init__(self, words):
        self.program = subprocess.Popen(words, stdin=subprocess.PIPE, stdout=subprocess.PIPE, text=True)
        self.lines, self.unread = [], 0

    def is_over(self):
        """Whether no further cycle is to come."""
        return False

    def read_replies(self):
        """The last of the replies that were not read yet."""
        self.program.stdin.flush()
        for _ in range(self.unread):
            reply = json.loads(self.program.stdout.readline())
            if reply != {"ok": True} and "offers" not in reply:
                raise SystemExit(f"{self.lines[-1]}\nor a line of the {self.unread} up to it was answered by {reply}")
        self.unread = 0
        return reply

    def ask(self, event, **keys):
        self.lines.append(line(event, **keys))
        self.program.stdin.write(self.lines[-1] + "\n")
        self.unread += 1
        if event == "cycle" or self.unread == UNREAD:
            return self.read_replies()

    def close(self):
        if self.unread:
            self.read_replies()
        self.program.stdin.close()
        self.program.wait()


def part_of(chance, offer):
    """What a task takes of an offer: some cpus and some mem, or nothing where one of them is missing."""
    amounts = dict(it.split(":") for it in offer["resources"].split(";"))
    if {"cpus", "mem"} - {*amounts}:
        return None
    cpus, mem = (int(amounts[it]) for it in ("cpus", "mem"))
    return f"cpus:{min(cpus, chance.randint(1, 4))};mem:{min(mem, chance.choice((512, 1024, 4096)))}"


def churn(talk, agents=500, frameworks=100, cycles=40):
    """Asks the lines, as the answers have it, and gives them back."""
    chance, ends = random.Random(1), {}
    for i in range(agents):
        talk.ask("add_agent", agent=f"n{i}", total=f"cpus:{4 << i % 4};mem:{8192 << i % 4}")
    for i in range(frameworks):
        talk.ask("add_framework", framework=f"f{i}", roles=[f"r{i % 10}/q{i % 3}"])
    for turn in range(cycles):
        at = turn * PERIOD
        if talk.is_over():
            break
        for framework, task in ends.pop(turn, []):
            talk.ask("finish", framework=framework, task=task)
        for offer in talk.ask("cycle", at=at)["offers"]:
            framework, number, used = offer["framework"], offer["offer"], part_of(chance, offer)
            if used is None or chance.random() < 0.1:
                talk.ask("decline", framework=framework, offer=number, at=at)
                continue
            talk.ask("accept", framework=framework, offer=number, task=f"t{number}", use=used, at=at, refuse_ms=chance.choice((0, 3 * PERIOD)))
            ends.setdefault(turn + chance.randint(1, 12), []).append((framework, f"t{number}"))
    talk.close()
    return talk.lines


if __name__ == "__main__":
    sys.stdout.writelines(f"{it}\n" for it in churn(Talk(sys.argv[1:])))
