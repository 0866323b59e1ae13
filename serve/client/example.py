#!/usr/bin/env python3
# An example framework: it accepts offers for small tasks, lets each run for a while, and finishes it. Outside the proof.
"""Runs some tasks on a cluster and leaves. The token needs the rights framework:NAME and role:ROLE.

    example.py --token-file admin.token --framework site --role web --tasks 20"""
import argparse
import queue
import threading
import time

from durzhanok import Durzhanok


def amounts(text):
    """The scalars of a resource text that are for everyone, as {"cpus": 4.0, "mem": 1024.0}."""
    pieces = (piece.split(":", 1) for piece in text.split(";") if piece)
    return {name: float(value) for name, value in pieces if value[0] not in "[{" and "(" not in name}


class Example:
    def __init__(self, cluster, words):
        self.cluster, self.words = cluster, words
        self.name, self.use = words.framework, f"cpus:{words.cpus:g};mem:{words.mem:g}"
        self.begun = self.ended = 0
        self.running = {}  # task: when it ends
        self.news = queue.Queue()

    def send(self, event, **fields):
        reply, = self.cluster.send({"event": event, "framework": self.name, **fields})
        return reply

    def take(self, offer):
        """Starts as many tasks as fit into an offer and are still to be run, up to 16; without one the offer is declined."""
        has = amounts(offer["resources"])
        fit = min(has.get("cpus", 0) // self.words.cpus, has.get("mem", 0) // self.words.mem, self.words.tasks - self.begun, 16)
        names = [f"{self.name}-{self.begun + k + 1}" for k in range(int(fit))]
        if not names:
            self.send("decline", offer=offer["offer"], refuse_ms=60000 if self.begun == self.words.tasks else 5000)
            return
        reply = self.send("accept", offer=offer["offer"], tasks=[{"task": name, "use": self.use} for name in names], refuse_ms=1000)
        if "refused" in reply:  # the offer ended before this came
            print(f"offer {offer['offer']}: {reply['name']}", flush=True)
            return
        self.begun += len(names)
        self.running.update({name: time.monotonic() + self.words.seconds for name in names})
        print(f"offer {offer['offer']}: {len(names)} tasks on {offer['agent']}", flush=True)

    def finish_due(self):
        for name in [name for name, end in self.running.items() if end <= time.monotonic()]:
            reply = self.send("finish", task=name)  # UnknownTask where its agent left
            del self.running[name]
            self.ended += 1
            print(f"{name} ended" + (f": {reply['name']}" if "refused" in reply else ""), flush=True)

    def listen(self):
        for told in self.cluster.offers(self.name):
            self.news.put(told)

    def run(self):
        reply = self.send("add_framework", roles=[self.words.role])
        if reply.get("name") not in (None, "KnownFramework"):
            raise SystemExit(f"{self.name} is refused: {reply['name']}")
        alive = self.cluster.keep_alive(f"/frameworks/{self.name}") if self.words.alive else None
        threading.Thread(target=self.listen, daemon=True).start()
        while self.ended < self.words.tasks:
            try:
                kind, offer = self.news.get(timeout=0.1)
                if kind == "offer":
                    self.take(offer)
            except queue.Empty:
                pass
            self.finish_due()
        if alive:
            alive.set()
        self.send("remove_framework")
        print(f"{self.ended} tasks ended", flush=True)


def main():
    parser = argparse.ArgumentParser(description=__doc__.split("\n")[0])
    parser.add_argument("--url", action="append", help="a gateway; may be given again for others (http://127.0.0.1:8450)")
    parser.add_argument("--token-file", required=True)
    parser.add_argument("--authority", help="a file with certificates to trust")
    parser.add_argument("--framework", default="example")
    parser.add_argument("--role", default="example")
    parser.add_argument("--cpus", type=float, default=1)
    parser.add_argument("--mem", type=float, default=64)
    parser.add_argument("--tasks", type=int, default=10)
    parser.add_argument("--seconds", type=float, default=2, help="how long a task runs")
    parser.add_argument("--alive", action="store_true", help="send heartbeats")
    words = parser.parse_args()
    with open(words.token_file, encoding="utf-8") as file:
        token = file.read().strip()
    Example(Durzhanok(words.url or ["http://127.0.0.1:8450"], token, words.authority), words).run()


if __name__ == "__main__":
    main()
