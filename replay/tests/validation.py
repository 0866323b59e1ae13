#!/usr/bin/env python3
"""Outside the proof. Prints how replays compare with the truth, for demands that are known (the figures in README.md): what the waits under
another policy really were, and what the replay of the journal says with the latest and with the earliest arrivals. It takes minutes."""
import json
import os
import subprocess
import sys
import tempfile

import known_demand

HERE = os.path.dirname(os.path.realpath(__file__))
DRF, REPLAY = f"{HERE}/../../drf", f"{HERE}/../drf-replay"
MINUTES, AGENTS = 40, 10
TEAMS = {"web": (36, (1, 2, 4), (20, 120), 2.0), "ci": (28, (2, 4), (60, 300), 3.0), "data": (50, (4, 8), (120, 600), 1.0)}
POLICIES = {"web has weight 4": (AGENTS, {"web": "4"}, ["--set-weight", "web=4"]), "two machines less": (AGENTS - 2, {}, ["--without-agents", "2"])}


def waits_of(works):
    """Returns the sorted waits in seconds of what arrived; what did not start has waited until the end."""
    end = MINUTES * 60_000
    return sorted(((end if it.start is None else it.start) - it.arrival) / 1000 for it in works if it.arrival < end)


def rank(waits, percent):
    return waits[-(-len(waits) * percent // 100) - 1]


def main():
    inside = {}
    for seed in (1, 2, 3):
        for out_of_order in (False, True):
            kind = "any task that fits" if out_of_order else "oldest task first"
            before = known_demand.demand(seed, MINUTES, TEAMS)
            with tempfile.NamedTemporaryFile("w", suffix=".journal") as journal:
                journal.writelines(known_demand.run(DRF, before, AGENTS, {}, MINUTES, out_of_order=out_of_order))
                journal.flush()
                for name, (agents, weights, words) in POLICIES.items():
                    after = known_demand.demand(seed, MINUTES, TEAMS)
                    known_demand.run(DRF, after, agents, weights, MINUTES, out_of_order=out_of_order)
                    reports = []
                    for arrivals in ("latest", "earliest"):
                        done = subprocess.run([REPLAY, journal.name, "--json", "--quiet", "--arrivals", arrivals, *words], capture_output=True, check=True)
                        reports.append({it["role"]: it["after"]["waiting_ms"] for it in json.loads(done.stdout)["roles"]})
                    for role in TEAMS:
                        for which, percent in (("median", 50), ("p95", 95)):
                            truth = rank(waits_of(after[role]), percent)
                            low, high = (it[role][which] / 1000 for it in reports)
                            inside.setdefault(kind, []).append(low <= truth <= high)
                            print(f"{seed}  {kind:18}  {name:17}  {role:4}  {which:6}  before {rank(waits_of(before[role]), percent):6.1f}  "
                                  f"after {truth:6.1f}  replayed {low:6.1f} to {high:6.1f}{'' if inside[kind][-1] else '  outside'}", flush=True)
    for kind, results in inside.items():
        print(f"{kind}: {sum(results)} of {len(results)} true waits are within the replayed range")


if __name__ == "__main__":
    sys.exit(main())
