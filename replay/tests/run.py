"""Outside the proof. Runs the tests of drf-replay. Expected values are worked out by hand, or come from a simulation that knows the demand."""
import gzip
import hashlib
import json
import os
import re
import resource
import shutil
import subprocess
import sys
import tempfile
import time
import traceback
import xml.etree.ElementTree

HERE = os.path.dirname(os.path.realpath(__file__))
FOLDER = os.path.dirname(HERE)
REPOSITORY = os.path.dirname(FOLDER)
sys.path[:0] = [FOLDER, f"{REPOSITORY}/bench/tools", HERE]

import known_demand
from apart import Apart
from errors import Failed
from figures import waiting
from journal import find_arrivals
from resources import read, take, text_of

DRF = f"{REPOSITORY}/drf"
# With --long, the test of the speed takes 600,000 events, and some minutes.
IS_LONG = "--long" in sys.argv
REPLAY = f"{FOLDER}/drf-replay"


def echo(lines):
    """Returns the journal of event lines."""
    done = subprocess.run([DRF, "run", "--echo"], input=lines, capture_output=True, check=True)
    return done.stdout


def events(*events):
    return "".join(json.dumps(it, separators=(",", ":")) + "\n" for it in events).encode()


class Room:
    """A folder for one test."""

    def __init__(self, path):
        self.path = path

    def write(self, name, content):
        with open(f"{self.path}/{name}", "wb") as file:
            file.write(content)
        return f"{self.path}/{name}"

    def replay(self, *words, stdin=b"", status=0):
        """Runs drf-replay in the folder. Checks its status, and that it says nothing where it succeeds and one line where it does not."""
        done = subprocess.run([REPLAY, "--quiet", *words], input=stdin, capture_output=True, cwd=self.path)
        said = done.stderr.decode()
        assert done.returncode == status, f"status {done.returncode} in place of {status}: {said}"
        assert said.count("\n") == (status != 0), f"on standard error: {said!r}"
        if status:
            assert done.stdout == b"", "output in spite of an error"
            return said.strip()
        return done.stdout.decode()

    def report(self, *words, **given):
        return json.loads(self.replay("--json", *words, **given))


def role_in(report, name):
    return next(it for it in report["roles"] if it["role"] == name)


def is_near(value, expected):
    return abs(value - expected) < 1e-9


# A journal whose expected replay was computed by hand

# Two machines of cpus:2, one framework, three tasks of cpus:2. f answers after 100 ms and starts at most one task with an accept.
#
# In the journal:
#   0       the cycle offers n1 and n2; at 100 f starts t1 on n1 and t2 on n2
#   10000   t1 ends (it ran 9900); the cycle offers n1; at 10100 f starts t3 there
#   20000   t2 ends (it ran 19900) and t3 ends (it ran 9900); the cycle offers both, f declines both at 20100, for 5000 ms
#   30000   the cycle offers both, f declines both at 30100
#   40000   the cycle offers both
# f never declines or leaves over cpus:2 before the start of t3, so all three may wait since f registered, at 0. They wait 100, 100 and
# 10100 ms: the median is 100, and the 95th percentile is that of rank ceil(0.95 * 3) = 3: 10100.
# Share: 4/4 from 0 to 20100 and from 30000 to 30100, else 0: 20200 / 40000 = 0.505.
# Use: 2/4 for 9900 + 19900 + 9900 ms: 0.5 * 39700 / 40000 = 0.49625; that is 1.985 cpus.
#
# Without n2:
#   0       the cycle offers n1; at 100 f starts t1
#   10000   t1 ends; the cycle offers n1; at 10100 f starts t2, which ends at 30000
#   20000   nothing is free
#   30000   t2 ends; the cycle offers n1; at 30100 f starts t3, which ends at 40000
#   40000   t3 ends; the cycle offers n1
# The tasks wait 100, 10100 and 30100 ms. All three end within the 40 s: 270 an hour. The share is 2/2 all the time. The use is 2/2 for
# 39700 of 40000 ms: 0.9925.
# If the journal ends at 30000, t3 never starts, and has waited for 30000 ms then: the 95th percentile is at least 30000, and the median
# is 10100 whatever becomes of t3. In the journal t1, t2 and t3 have finished by then, in the replay t1 and t2.


def hand(until=40_000):
    def f(event, **keys):
        return {"event": event, "framework": "f", **keys}

    lines = [
        {"event": "add_agent", "agent": "n1", "total": "cpus:2"}, {"event": "add_agent", "agent": "n2", "total": "cpus:2"},
        {"event": "add_framework", "framework": "f", "roles": ["a"]},
        {"event": "cycle", "at": 0},
        f("accept", offer=1, task="t1", use="cpus:2", at=100), f("accept", offer=2, task="t2", use="cpus:2", at=100),
        f("finish", task="t1"), {"event": "cycle", "at": 10_000},
        f("accept", offer=3, task="t3", use="cpus:2", at=10_100),
        f("finish", task="t2"), f("finish", task="t3"), {"event": "cycle", "at": 20_000},
        f("decline", offer=4, at=20_100), f("decline", offer=5, at=20_100),
        {"event": "cycle", "at": 30_000},
        f("decline", offer=6, at=30_100), f("decline", offer=7, at=30_100),
        {"event": "cycle", "at": 40_000},
    ]
    return echo(events(*(it for it in lines if it.get("at", 0) <= until)))


def test_hand_unchanged(room):
    report = room.report(room.write("hand.journal", hand()))
    role = role_in(report, "a")
    for case in ("journal", "before"):
        it = role[case]
        assert (it["tasks"], it["started"], it["finished"], it["lost"]) == (3, 3, 3, 0), it
        assert it["waiting_ms"] == {"median": 100, "median_is_lower_bound": False, "p95": 10_100, "p95_is_lower_bound": False}, it
        assert is_near(it["share"], 0.505) and is_near(it["use"]["share"], 0.49625), it
        assert is_near(it["use"]["resources"]["cpus"]["mean"], 1.985), it
    assert report["agreement"]["within"] == 3 and report["agreement"]["difference_ms"]["greatest"] == 0


def test_hand_without_an_agent(room):
    journal = room.write("hand.journal", hand())
    for words in (["--without-agents", "1"], ["--without-agent", "n2"],
                  ["--policy", room.write("policy.jsonl", events({"event": "remove_agent", "agent": "n2"}))]):
        it = role_in(room.report(journal, *words), "a")["after"]
        assert (it["tasks"], it["started"], it["finished"], it["lost"]) == (3, 3, 3, 0), it
        assert it["waiting_ms"] == {"median": 10_100, "median_is_lower_bound": False, "p95": 30_100, "p95_is_lower_bound": False}, it
        assert is_near(it["finished_per_hour"], 270) and is_near(it["share"], 1) and is_near(it["use"]["share"], 0.9925), it


def test_hand_not_started(room):
    it = role_in(room.report(room.write("hand.journal", hand(until=30_000)), "--without-agents", "1"), "a")
    assert (it["after"]["tasks"], it["after"]["started"], it["after"]["finished"]) == (3, 2, 2), it
    assert it["after"]["waiting_ms"] == {"median": 10_100, "median_is_lower_bound": False, "p95": 30_000, "p95_is_lower_bound": True}, it
    assert it["before"]["finished"] == 3, it


def test_hand_latest(room):
    # Each task arrives when it starts in the journal: t1 and t2 at 100, t3 at 10100. Without n2, they start at 100, 10100 and 30100.
    it = role_in(room.report(room.write("hand.journal", hand()), "--arrivals", "latest", "--without-agents", "1"), "a")
    assert it["before"]["waiting_ms"]["p95"] == 0, it
    assert (it["after"]["waiting_ms"]["median"], it["after"]["waiting_ms"]["p95"]) == (10_000, 20_000), it


# A framework that leaves the role a for d, beside one in c, and one machine for one task at a time. What has no time of its own happens at the next time of the
# journal: f1 is in d from 3000 on. The cycle at 3000 offers n1 to c, whose name comes first, so that f1's task in d waits from 3000 to 5000. f2's waited from 0.
def test_roles_that_change(room):
    lines = [
        {"event": "add_agent", "agent": "n1", "total": "cpus:1"},
        {"event": "add_framework", "framework": "f1", "roles": ["a"]},
        {"event": "add_framework", "framework": "f2", "roles": ["c"]},
        {"event": "cycle", "at": 0},
        {"event": "accept", "framework": "f1", "offer": 1, "task": "t1", "use": "cpus:1", "at": 0, "refuse_ms": 0},
        {"event": "cycle", "at": 2000},
        {"event": "finish", "framework": "f1", "task": "t1"},
        {"event": "set_framework", "framework": "f1", "roles": ["d"]},
        {"event": "cycle", "at": 3000},
        {"event": "accept", "framework": "f2", "offer": 2, "task": "u1", "use": "cpus:1", "at": 3000, "refuse_ms": 0},
        {"event": "cycle", "at": 4000},
        {"event": "finish", "framework": "f2", "task": "u1"},
        {"event": "cycle", "at": 5000},
        {"event": "accept", "framework": "f1", "offer": 3, "task": "t2", "use": "cpus:1", "at": 5000, "refuse_ms": 0},
        {"event": "cycle", "at": 6000},
        {"event": "finish", "framework": "f1", "task": "t2"},
        {"event": "cycle", "at": 7000},
    ]
    report = room.report(room.write("roles.journal", echo(events(*lines))))
    for name, waited in (("a", 0), ("c", 3000), ("d", 2000)):
        for case in ("journal", "before"):
            it = role_in(report, name)[case]
            assert (it["tasks"], it["started"], it["finished"], it["lost"]) == (1, 1, 1, 0), (name, case, it)
            assert it["waiting_ms"]["median"] == waited, (name, case, it)


# Two teams with a task each, and one machine for one task at a time. a and b have arrived at 0. With equal weights the name decides: a starts
# at 0, b at 1000 when a's task ends. With a limit of cpus:0 for a, b is offered n1 at 0 and starts at 0; a never starts, and has waited
# for 2000 ms at the end.
def test_two_teams_and_a_limit(room):
    journal = room.write("two.journal", echo(events(
        {"event": "add_agent", "agent": "n1", "total": "cpus:2"},
        {"event": "add_framework", "framework": "fa", "roles": ["a"]}, {"event": "add_framework", "framework": "fb", "roles": ["b"]},
        {"event": "cycle", "at": 0}, {"event": "accept", "framework": "fa", "offer": 1, "task": "t", "use": "cpus:2", "at": 0},
        {"event": "finish", "framework": "fa", "task": "t"}, {"event": "suppress", "framework": "fa", "role": "a"},
        {"event": "cycle", "at": 1000}, {"event": "accept", "framework": "fb", "offer": 2, "task": "t", "use": "cpus:2", "at": 1000},
        {"event": "finish", "framework": "fb", "task": "t"}, {"event": "suppress", "framework": "fb", "role": "b"},
        {"event": "cycle", "at": 2000})))
    report = room.report(journal, "--set-limit", "a=cpus:0")
    a, b = role_in(report, "a"), role_in(report, "b")
    assert (a["before"]["waiting_ms"]["median"], b["before"]["waiting_ms"]["median"]) == (0, 1000), report
    assert b["after"]["waiting_ms"]["median"] == 0 and b["after"]["finished"] == 1, b
    assert a["after"]["started"] == 0 and a["after"]["waiting_ms"]["median"] == 2000 and a["after"]["waiting_ms"]["median_is_lower_bound"], a
    # A role of another name: fb in `0` comes before `a`, so fb starts at 0 and fa at 1000.
    report = room.report(journal, "--set-roles", "fb=0")
    assert role_in(report, "0")["after"]["waiting_ms"]["median"] == 0, report
    assert role_in(report, "a")["after"]["waiting_ms"]["median"] == 1000, report
    assert role_in(report, "0")["before"] is None, report


def test_reserved_resources(room):
    # The journal's task uses cpus(a):2 of n1. Without n1 it can only use the unreserved cpus:2 of n2, which it is offered at 0.
    journal = room.write("reserved.journal", echo(events(
        {"event": "add_agent", "agent": "n2", "total": "cpus:2"}, {"event": "add_agent", "agent": "n1", "total": "cpus(a):2;ports:[1-5]"},
        {"event": "add_framework", "framework": "f", "roles": ["a"]}, {"event": "cycle", "at": 0},
        {"event": "decline", "framework": "f", "offer": 1, "at": 10},
        {"event": "accept", "framework": "f", "offer": 2, "task": "t", "use": "cpus(a):2", "at": 10},
        {"event": "finish", "framework": "f", "task": "t"}, {"event": "cycle", "at": 1000})))
    it = role_in(room.report(journal, "--without-agent", "n1"), "a")
    for case in ("before", "after"):
        assert (it[case]["started"], it[case]["finished"], it[case]["waiting_ms"]["median"]) == (1, 1, 10), it


def test_percentiles(room):
    # Of 1..20: the two in the middle are 10 and 11; rank ceil(0.95 * 20) = 19.
    found = waiting(list(range(20, 0, -1)), [])
    assert (found["median"], found["p95"]) == (10.5, 19), found
    # Of 1..21: rank 11; rank ceil(19.95) = 20.
    found = waiting(list(range(1, 22)), [])
    assert (found["median"], found["p95"]) == (11, 20), found
    # A wait that is not over lasts longer than it is given, so everything from it on is a lower bound.
    found = waiting([1, 3], [2])
    assert (found["median"], found["p95"]) == (2, 3) and found["median_is_lower_bound"] and found["p95_is_lower_bound"], found
    found = waiting([1, 2], [3])
    assert (found["median"], found["p95"]) == (2, 3) and not found["median_is_lower_bound"] and found["p95_is_lower_bound"], found
    # Of two equal ones the wait that is over is the shorter one. The median of 1, 2, 2, 9 is that of the two waits of 2.
    assert not waiting([1, 2, 2], [9])["median_is_lower_bound"] and waiting([1, 2, 9], [2])["median_is_lower_bound"]
    assert waiting([], []) is None


def test_resource_texts(room):
    bundle = read(" cpus : 1.5 ;cpus(*):0.5;mem(eng):2;ports:[4-5, 1-3];disk:{b,a};x:0.0004;y:0.0005")
    assert bundle.amounts == {"cpus": 2000, "mem": 2000, "[ports": 5, "{disk": 2, "y": 1}, bundle.amounts
    assert text_of(bundle.pieces) == "cpus:2;disk:{a,b};mem(eng):2;ports:[1-5];y:0.001"
    # Exactly the wanted pieces if all of them are there; otherwise reserved ones first, and the first members.
    left = dict(read("cpus:2;cpus(eng):1;ports:[5-9]").pieces)
    assert text_of(take(left, read("cpus:1;ports:[7-7]"))) == "cpus:1;ports:[7-7]"
    assert text_of(take(left, read("cpus:2;ports:[7-8]"))) == "cpus:1;cpus(eng):1;ports:[5-6]"
    assert text_of(left) == "ports:[8-9]", text_of(left)


def test_arrivals(room):
    # f declines cpus:4 at 100, starts a task of cpus:1 at 5000 and leaves cpus:3, and starts one of cpus:4 and one of cpus:1 at 9000.
    # The first was not waiting at 100. The second does not fit into what was left at 5000, so it may wait since 100 too. The third
    # comes after the second, so it says nothing that cpus:1 would have fitted at 5000.
    from journal import Client, Task, after_all
    client = Client("f", "a")
    tasks = [Task(number, client, use, at, 0, "n") for number, (use, at) in enumerate((("cpus:1", 5000), ("cpus:4", 9000), ("cpus:1", 9000)))]
    client.most_tasks = 2
    client.log = [("begin", (0, 0, 1, 0)), ("left", 100, {"cpus": 4000}, 0), ("start", tasks[:1]), ("left", 5000, {"cpus": 3000}, 1),
                  ("start", tasks[1:]), ("left", 9000, {}, 2)]
    find_arrivals(client, False)
    assert [it.place for it in tasks] == [after_all(100)] * 3, [it.place for it in tasks]
    # A revive at 6000 without a suppress counts only where revives are trusted.
    client.log.insert(4, ("revive", (6000, 0, 1, 0.5)))
    for is_trusted, expected in ((False, after_all(100)), (True, (6000, 0, 1, 0.5))):
        find_arrivals(client, is_trusted)
        assert [it.place for it in tasks] == [after_all(100), expected, expected], [it.place for it in tasks]


# The busy day, and a demand that is known


def busy_day():
    with open(f"{REPOSITORY}/examples/busy_day.jsonl", "rb") as lines:
        return echo(lines.read())


def test_busy_day_agrees(room):
    # The tolerance is 1000 ms. The number of tasks is that of the names in the file.
    journal = busy_day()
    tasks = journal.count(b'"task":"') - journal.count(b'"event":"finish"')
    for how in ("earliest", "revive", "latest"):
        agreed = room.report("-", "--arrivals", how, stdin=journal)["agreement"]
        assert agreed["tasks"] == tasks and agreed["within"] >= 0.99 * tasks, agreed
    return f'{agreed["within"]} of {tasks} tasks within {agreed["tolerance_ms"]} ms'


def test_busy_day_from_a_state(room):
    lines = busy_day().split(b"\n")
    half = len(lines) // 4 * 2
    first, rest = b"\n".join(lines[:half]) + b"\n", b"\n".join(lines[half:])
    state = subprocess.run([DRF, "save"], input=first, capture_output=True, check=True).stdout
    report = room.report("--from", room.write("noon.state", state), room.write("rest.journal", rest))
    agreed = report["agreement"]
    assert agreed["tasks"] and agreed["within"] >= 0.99 * agreed["tasks"], agreed
    for role in report["roles"]:
        assert is_near(role["journal"]["use"]["share"], role["before"]["use"]["share"]), role
    # Fewer machines, some of which run tasks in the state: fewer tasks can start.
    fewer = room.report("--from", room.write("noon.state", state), room.write("rest.journal", rest), "--without-agents", "20")
    assert role_in(fewer, "(all)")["after"]["started"] < role_in(fewer, "(all)")["before"]["started"]


TEAMS = {"web": (24, (1, 2), (20, 60), 2.0), "ci": (12, (2, 4), (40, 90), 2.0), "data": (28, (4, 8), (60, 240), 1.0)}
MINUTES = 12


def known(weights, agents, out_of_order=False):
    works = known_demand.demand(5, MINUTES, TEAMS)
    lines = known_demand.run(DRF, works, agents, weights, MINUTES, out_of_order=out_of_order)
    waits = {}
    for role, them in works.items():
        there = [it for it in them if it.arrival < MINUTES * 60_000]
        waits[role] = sorted((MINUTES * 60_000 if it.start is None else it.start) - it.arrival for it in there)
    return "".join(lines).encode(), waits


def test_known_demand_of_the_model(room):
    # Frameworks that follow the model: each start agrees, and no estimated arrival is later than the true one. So no estimated wait, in
    # order, is shorter than the true one of the tasks that started.
    journal, _ = known({}, 4)
    agreed = room.report("-", stdin=journal)["agreement"]
    assert agreed["fraction"] == 1 and agreed["difference_ms"]["greatest"] == 0, agreed
    return f'{agreed["tasks"]} tasks'


def test_known_demand_of_another_policy(room):
    # The true demand, run with weight 8 for web, shows what the replay of the journal with equal weights should report: web waits less,
    # and the median wait of data is longer.
    journal, before = known({}, 4)
    _, after = known({"web": "8"}, 4)
    report = room.report("-", "--set-weight", "web=8", stdin=journal)
    middle = {role: (before[role][len(before[role]) // 2], after[role][len(after[role]) // 2]) for role in before}
    for role in ("web", "data"):
        it = role_in(report, role)
        found = it["before"]["waiting_ms"]["median"], it["after"]["waiting_ms"]["median"]
        is_less = middle[role][1] < middle[role][0]
        assert (found[1] < found[0]) == is_less, f"{role}: true medians {middle[role]}, replayed {found}"
    return f"true medians {middle}"


def test_known_demand_out_of_order(room):
    # Frameworks that start any task that fits: the replay still agrees for most, and it says for how many.
    agreed = room.report("-", stdin=known({}, 4, out_of_order=True)[0])["agreement"]
    assert agreed["fraction"] >= 0.9, agreed
    return f'{100 * agreed["fraction"]:.1f}% agree'


# Bad input


def test_cut_journals(room):
    journal = hand()
    lines = journal.split(b"\n")
    picture = room.write("old.svg", b"old")
    # In a reply, within an event line, and after an event line: the reply that is missing is in the line after.
    cuts = {b"\n".join(lines[:9]) + b"\n" + lines[9][:5]: 10, b"\n".join(lines[:8]) + b"\n" + lines[8][:7]: 10, b"\n".join(lines[:9]) + b"\n": 10}
    for journal, number in cuts.items():
        said = room.replay(room.write("cut.journal", journal), "--svg", picture, status=3)
        assert re.fullmatch(f"drf-replay: .*cut.journal line {number}: the reply is missing, cut or wrong; lines 1 to 8 .*", said), said
    assert sorted(os.listdir(room.path)) == ["cut.journal", "old.svg"], os.listdir(room.path)
    assert open(picture, "rb").read() == b"old"


def test_damaged_journals(room):
    lines = hand().split(b"\n")
    lines[7] = lines[7].replace(b"n1", b"n2", 1)
    said = room.replay(room.write("damaged.journal", b"\n".join(lines)), status=3)
    assert "damaged.journal line 8: " in said, said
    said = room.replay("-", stdin=b"\n".join(lines), status=3)
    assert said.startswith("drf-replay: standard input line 8: "), said
    said = room.replay(room.write("lines.jsonl", events({"event": "cycle", "at": 0}, {"event": "cycle", "at": 1})), status=3)
    assert "line 2: " in said and "drf run --echo" in said, said
    said = room.replay(room.write("bytes", bytes(range(256))), status=3)
    assert "bytes line 2: " in said, said


def test_pieces(room):
    # The pieces begin anywhere, also within a line.
    journal = busy_day()
    whole = room.report(room.write("day.journal", journal), "--set-weight", "web=4")
    folder = f"{room.path}/pieces"
    os.mkdir(folder)
    cuts = [0, 100, 70_001, 70_002, 200_000, len(journal)]
    for number, (begin, end) in enumerate(zip(cuts, cuts[1:]), 8):
        piece = journal[begin:end]
        if number % 2:
            room.write(f"pieces/journal-2026-{number}.gz", gzip.compress(piece))
        else:
            room.write(f"pieces/journal-2026-{number}", piece)
    room.write("pieces/.hidden", b"x")
    for path in (folder, room.write("day.journal.gz", gzip.compress(journal))):
        again = room.report(path, "--set-weight", "web=4")
        again["journal"]["name"] = whole["journal"]["name"]
        assert again == whole


def test_bad_pieces(room):
    journal = hand()
    lines = journal.splitlines(keepends=True)
    folder = f"{room.path}/pieces"
    os.mkdir(folder)
    assert room.replay("pieces", status=3) == "drf-replay: pieces: no pieces of a journal"
    room.write("pieces/j.1", b"".join(lines[:6]))
    room.write("pieces/j.3", b"".join(lines[16:]))
    assert room.replay("pieces", status=3) == "drf-replay: pieces/j.3: piece 2 is missing; the one before is pieces/j.1"
    packed = gzip.compress(b"".join(lines[6:16]))
    room.write("pieces/j.2.gz", packed)
    assert role_in(room.report("pieces"), "a")["before"]["tasks"] == 3
    for end in range(0, len(packed) - 1, 17):
        room.write("pieces/j.2.gz", packed[:end])
        said = room.replay("pieces", status=3)
        # An empty file is an empty piece: then the replies do not belong to the events before them.
        assert said.startswith("drf-replay: pieces/j.2.gz: damaged: " if end else "drf-replay: pieces/j.3 line 2: the reply is missing, cut or wrong; the lines before"), said
    room.write("pieces/j.2.gz", packed[:20] + bytes([packed[20] ^ 255]) + packed[21:])
    assert room.replay("pieces", status=3).startswith("drf-replay: pieces/j.2.gz: damaged: ")
    room.write("pieces/j.2.gz", packed)
    room.write("pieces/j.02", b"")
    assert room.replay("pieces", status=3) == "drf-replay: pieces/j.2.gz: has the same number as pieces/j.02"
    os.remove(f"{folder}/j.02")
    room.write("pieces/notes", b"")
    assert room.replay("pieces", status=3).startswith("drf-replay: pieces/notes: not a piece of a journal; expected files with a number")
    os.remove(f"{folder}/notes")
    room.write("pieces/j.2.gz", gzip.compress(b"".join(lines[6:15]) + b'{"ok":false}\n'))
    said = room.replay("pieces", status=3)
    assert said == "drf-replay: pieces/j.2.gz line 10: the reply is missing, cut or wrong; the lines before its event are a good journal, replay those", said


# An archive, as the service writes it (serve/README.md): for each segment a header, the state, the audit and the journal, and a digest.


def written_segment(number, previous, begin, journal, state=b"", kept=1, ends=False, chunk=64 << 10):
    """Returns the file of a segment whose journal begins after (messages, lines, bytes), and where the next one begins."""
    count = journal.count(b"\n") // 2
    end = begin[0] + 1, begin[1] + count, begin[2] + len(journal)
    audit = b'{"message":%d}\n' % end[0]
    body = state + audit + journal
    names = "messages", "lines", "bytes"
    header = {"archive": 1, "segment": number, "previous": previous, "kept": kept, "from": dict(zip(names, begin)), "to": dict(zip(names, end)), "first_at": 0, "last_at": 0,
              "epoch": 0, "ends_epoch": ends, "state_bytes": len(state), "audit_bytes": len(audit), "journal_bytes": len(journal),
              "chunks": [hashlib.sha256(body[place:place + chunk]).hexdigest()[:8] for place in range(0, len(body), chunk)]}
    text = json.dumps(header, separators=(",", ":")).encode() + b"\n" + body
    return text + b'{"sha256":"' + hashlib.sha256(text).hexdigest().encode() + b'"}\n', end


def archive(room, journal, events, has_states=True, gap_before=None, epoch_after=None):
    """Writes an archive of a journal in segments of so many events, each with the state before it, and returns its folder."""
    os.makedirs(f"{room.path}/archive")
    lines, previous, end = journal.splitlines(keepends=True), "", (0, 0, 0)
    for number, place in enumerate(range(0, len(lines), 2 * events), 1):
        part, state = b"".join(lines[place:place + 2 * events]), b""
        if has_states and place:
            state = subprocess.run([DRF, "save"], input=b"".join(lines[:place]), capture_output=True, check=True).stdout
        if number == gap_before:
            end = end[0] + 5, *end[1:]
        text, end = written_segment(number, previous, end, part, state, ends=number == epoch_after)
        previous = hashlib.sha256(text).hexdigest()
        room.write(f"archive/{number:08d}.segment", text)
    room.write("archive/lock", b"")
    return f"{room.path}/archive"


def test_archives(room):
    journal = busy_day()
    whole = room.report(room.write("day.journal", journal), "--set-weight", "web=4")
    folder = archive(room, journal, 500)
    assert len(os.listdir(folder)) == 7  # 2542 events in segments of 500, and the lock
    again = room.report(folder, "--set-weight", "web=4")
    again["journal"]["name"] = whole["journal"]["name"]
    assert again == whole
    # From a segment on, it is the rest of the journal with the state before it.
    lines = journal.splitlines(keepends=True)
    state = subprocess.run([DRF, "save"], input=b"".join(lines[:2000]), capture_output=True, check=True).stdout
    for words, rest in {"3-": lines[2000:], "3-4": lines[2000:4000]}.items():
        want = room.report(room.write("rest.journal", b"".join(rest)), "--from", room.write("day.state", state))
        found = room.report(folder, "--segments", words)
        found["journal"]["name"] = want["journal"]["name"]
        assert found == want, words
    assert room.report("archive", "--segments", "-2")["journal"]["events"] == 1000
    for words in (["--segments", "0-2"], ["--segments", "4-3"], ["--segments", "2-9"]):
        assert room.replay("archive", *words, status=3).startswith("drf-replay: archive: has the segments 1 to 6, not "), words
    assert room.replay("archive", "--segments", "x", status=2) == "drf-replay: --segments x: expected FIRST-LAST, FIRST- or -LAST"
    assert room.replay("archive", "--from", "day.state", status=2) == "drf-replay: --from: an archive has its own states"
    assert room.replay("day.journal", "--segments", "1-2", status=2) == "drf-replay: --segments 1-2: day.journal is no archive"


def test_damaged_archives(room):
    folder = archive(room, hand(), 4)  # 18 events in 5 segments
    whole = {name: open(f"{folder}/{name}", "rb").read() for name in os.listdir(folder)}
    third = whole["00000003.segment"]

    def said(name, text):
        """What is said when one of the segments has another text, or is missing."""
        if text is None:
            os.remove(f"{folder}/{name}")
        else:
            room.write(f"archive/{name}", text)
        message = room.replay("archive", status=3)
        room.write(f"archive/{name}", whole[name])
        return message.removeprefix("drf-replay: archive/")

    for place in range(0, len(third), 13):
        message = said("00000003.segment", third[:place] + bytes([third[place] ^ 8]) + third[place + 1:])
        assert message.startswith("00000003.segment"), (place, message)
    for place in range(0, len(third), 97):
        assert said("00000003.segment", third[:place]).startswith("00000003.segment"), place
    start = third.index(b"\n") + 1
    assert said("00000003.segment", third[:start + 30] + b"x" + third[start + 31:]) == f"00000003.segment: damaged or cut at byte {start}, or up to 65536 bytes after it"
    assert said("00000003.segment", None) == "00000003.segment: missing"
    assert said("00000001.segment", None) == "00000001.segment: missing: the archive was kept from it on when segment 5 was written"
    assert said("00000003.segment", whole["00000002.segment"]) == "00000003.segment line 1: it is segment 2: its file was renamed"
    other, _ = written_segment(3, "0" * 64, (2, 8, 0), b"")
    assert said("00000003.segment", other) == "00000003.segment line 1: does not follow archive/00000002.segment: that has another SHA-256"
    assert said("00000003.segment", other.replace(b'"archive":1', b'"archive":2')) == "00000003.segment line 1: the format 2 is not known; expected 1"
    # A wrong reply in a segment whose digests are right, at its line in the file: the header, the state, the audit, and five lines before it.
    lines = hand().splitlines(keepends=True)
    bad = b"".join([*lines[16:21], b'{"ok":false}\n', *lines[22:24]])
    header = json.loads(third[:start])
    state = third[start:start + header["state_bytes"]]
    begin = tuple(header["from"][it] for it in ("messages", "lines", "bytes"))
    text, _ = written_segment(3, header["previous"], begin, bad, state)
    room.write("archive/00000003.segment", text)
    message = room.replay("archive", "--segments", "1-3", status=3)
    line = 1 + state.count(b"\n") + 1 + 6
    assert message == f"drf-replay: archive/00000003.segment line {line}: the reply is missing, cut or wrong; the lines before its event are a good journal, replay those", message
    assert text.splitlines()[line - 1] == b'{"ok":false}'


def test_archives_in_parts(room):
    journal = hand()
    archive(room, journal, 6, gap_before=2)
    said = room.replay("archive", status=3)
    assert said == "drf-replay: archive/00000002.segment line 1: messages 2 to 6 were never archived; replay the segments before or after them with --segments FIRST-LAST", said
    assert room.report("archive", "--segments", "-1")["journal"]["events"] == 6
    assert room.report("archive", "--segments", "2-")["journal"]["events"] == 12
    shutil.rmtree(f"{room.path}/archive")
    archive(room, journal, 6, epoch_after=1)
    assert room.replay("archive", status=3).startswith("drf-replay: archive/00000002.segment line 1: an epoch begins; replay the segments before it, or from it on, with ")
    shutil.rmtree(f"{room.path}/archive")
    archive(room, journal, 6, has_states=False)
    assert role_in(room.report("archive"), "a")["before"]["tasks"] == 3
    assert room.replay("archive", "--segments", "2-", status=3) == "drf-replay: archive/00000002.segment: begins without a state; begin at another one with --segments FIRST-LAST"


def test_journals_without_cycles(room):
    for journal in (b"", echo(events({"event": "add_agent", "agent": "n1", "total": "cpus:2"}))):
        said = room.replay(room.write("none.journal", journal), status=3)
        assert "the journal has no cycle, so there is nothing to replay" in said, said


def test_lines_that_are_not_events(room):
    # Refused events, lines that are not events and unknown keys changed nothing in the journal; a replay ignores them.
    more = b'{"event":"cycle","at":0,"color":"red"}\n{"event":"cycle","at":18446744073709551616}\nnot JSON\n{"event":"cycle","at":9223372036854775807}\n'
    lines = b"".join(hand().split(b"\n")[0:-1:2][n] + b"\n" for n in range(18))
    journal = room.write("odd.journal", echo(lines.replace(b'{"event":"cycle","at":0}\n', more + b'{"event":"cycle","at":0}\n' + more)))
    it = role_in(room.report(journal, "--without-agents", "1"), "a")["after"]
    assert it["waiting_ms"]["p95"] == 30_100, it


def test_bad_policies(room):
    journal = room.write("hand.journal", hand())
    good = events({"event": "set_weight", "role": "a", "weight": "2"})
    cases = {
        b'{"event":"set_weight","role":"a","weight":"2","color":"red"}\n': r'policy line 2 column \d+: 32 BadShape: .*color.*',
        b'{"event":"set_weight","role":"a","weight":2}\n': r"policy line 2 column \d+: 32 BadShape: .*",
        b'{"event":"set_weight","role":"a","weight":"much"}\n': r"policy line 2 column \d+: 33 BadText: .*",
        b'{"event":"set_weight","role":"a","weight":"5000"}\n': r"policy line 2: set_weight: refused 17 BadWeight at the start",
        b'{"event":"set_limit","role":"*","limit":"cpus:1"}\n': r"policy line 2: set_limit: refused 12 DefaultRole at the start",
        b'{"event":"cycle","at":0}\n': r'policy line 2: "cycle" is no event of a policy; expected one of set_weight, .*',
        b'{"event":"remove_agent","agent":"n9"}\n': r'policy line 2: no agent "n9" in .*hand.journal; the policy must add it first',
        b'{"event":"remove_framework","framework":"g"}\n': r'policy line 2: no framework "g" in .*',
        b'{"event":"add_framework","framework":"f","roles":[]}\n': r'policy line 2: "roles" of "f" is empty; expected at least one role',
        b'{"event":"reserve","agent":"n1","role":"a","resources":"cpus:9"}\n': r'policy line 2: reserve: refused 15 NotCovered when agent "n1" registers',
        b'{"event":"set_agent","agent":"n1","total":"cpus:99999999999999"}\n': r'policy line 2: set_agent: refused 18 TooLarge when "n1" registers',
        b"not JSON\n": r"policy line 2 column 1: 31 NotJson: .*",
    }
    for line, expected in cases.items():
        said = room.replay(journal, "--policy", room.write("policy", good + line), "--svg", f"{room.path}/new.svg", status=3)
        assert re.fullmatch(f"drf-replay: .*{expected}", said), said
    assert sorted(os.listdir(room.path)) == ["hand.journal", "policy"], os.listdir(room.path)


def test_bad_options(room):
    journal = room.write("hand.journal", hand())
    for words, status, expected in (
        (["--set-weight", "a=5000"], 3, "--set-weight a=5000: set_weight: refused 17 BadWeight at the start"),
        (["--set-weight", "a=x"], 2, "--set-weight a=x: 33 BadText: .*"),
        (["--set-weight", "a"], 2, '--set-weight "a": expected NAME=VALUE'),
        (["--set-limit", "a=cpus:x"], 2, "--set-limit a=cpus:x: 33 BadText: .*"),
        (["--without-agents", "3"], 3, "--without-agents 3: .*hand.journal has only 2 agents"),
        (["--without-agents", "-1"], 2, "--without-agents -1: expected a number from 0"),
        (["--without-agent", "n9"], 3, '--without-agent n9: no agent "n9" in .*'),
        (["--policy", f"{room.path}/none"], 1, ".*none: cannot be read: No such file or directory"),
        (["--svg", "/dev/stdout"], 1, "/dev/stdout: cannot be written: not a regular file"),
        (["--svg", f"{room.path}/none/x.svg"], 1, ".*none/x.svg: cannot be written: No such file or directory"),
    ):
        said = room.replay(journal, *words, status=status)
        assert re.fullmatch(f"drf-replay: {expected}", said), said
    assert "cannot be read" in room.replay("absent.journal", status=1)


def test_outputs_that_fail(room):
    journal = room.write("hand.journal", hand())
    with open("/dev/full", "w") as full:
        done = subprocess.run([REPLAY, "--quiet", journal], stdout=full, stderr=subprocess.PIPE)
    assert (done.returncode, done.stderr) == (1, b"drf-replay: standard output: No space left on device\n"), done
    piped = subprocess.run(["bash", "-c", f"{REPLAY} --quiet <(cat {journal})"], capture_output=True)
    assert piped.returncode == 0 and b"3 of 3 tasks (100.0%)" in piped.stdout, piped


def test_bad_states(room):
    journal = room.write("hand.journal", hand())
    said = room.replay(journal, "--from", room.write("bad.state", b'{"row":"state"}\n'), status=3)
    assert re.fullmatch(r"drf-replay: .*bad.state line 1 refused .*", said), said
    assert "absent.state" in room.replay(journal, "--from", "absent.state", status=1)
    state = subprocess.run([DRF, "save"], input=hand(), capture_output=True, check=True).stdout
    said = room.replay(journal, "--from", room.write("other.state", state), status=3)
    assert "line 2: " in said and "that continues the state?" in said, said


def test_runs_apart(room):
    with Apart(lambda: {"a": [1, None]}) as good, Apart(lambda: os._exit(3)) as ended, Apart(lambda: time.sleep(600)) as slow:
        assert good.result() == {"a": [1, None]}
        try:
            ended.result()
            raise AssertionError("a process that ended has a result")
        except Failed as error:
            assert str(error) == "a replay ended before it was complete", error

    def refuse():
        raise Failed("no program", 4)

    with Apart(refuse) as failed:
        try:
            failed.result()
            raise AssertionError("no error")
        except Failed as error:
            assert (str(error), error.status) == ("no program", 4), error
    # None of the processes is left, not even the slow one.
    for it in (good, ended, slow, failed):
        try:
            os.waitpid(it.pid or -1, os.WNOHANG)
            raise AssertionError("a process is left")
        except ChildProcessError:
            pass


# The output

CASE = {"tasks": int, "started": int, "finished": int, "lost": int, "waiting_ms": (dict, type(None)), "finished_per_hour": (int, float),
        "share": (int, float), "use": dict}
WAITING = {"median", "median_is_lower_bound", "p95", "p95_is_lower_bound"}


def test_shape_of_the_json(room):
    report = room.report("-", "--set-weight", "web=4", "--without-agents", "3", stdin=busy_day())
    assert set(report) == {"journal", "policy", "arrivals", "agreement", "roles", "refused"}, set(report)
    assert set(report["journal"]) == {"name", "events", "tasks", "from_ms", "to_ms"}
    assert report["journal"]["events"] == 2542 and (report["journal"]["from_ms"], report["journal"]["to_ms"]) == (0, 86_400_000)
    assert [it["role"] for it in report["roles"]] == ["ci", "data", "web", "(all)"] or {it["role"] for it in report["roles"]} == {"ci", "data", "web", "(all)"}
    assert report["policy"][0] == {"event": "set_weight", "role": "web", "weight": "4"} and len(report["policy"]) == 4
    for role in report["roles"]:
        for case in ("journal", "before", "after"):
            it = role[case]
            assert set(it) == set(CASE) and all(isinstance(it[key], kind) for key, kind in CASE.items()), it
            assert set(it["waiting_ms"]) == WAITING and 0 <= it["share"] <= 1 and 0 <= it["use"]["share"] <= it["share"] + 1e-9, it
            assert it["started"] <= it["tasks"] == role["journal"]["tasks"] and it["finished"] + it["lost"] <= it["started"], it
    whole = role_in(report, "(all)")
    for case in ("journal", "before", "after"):
        for key in ("tasks", "started", "finished", "lost"):
            assert whole[case][key] == sum(it[case][key] for it in report["roles"] if it is not whole), key
    assert set(report["agreement"]) == {"tolerance_ms", "tasks", "within", "fraction", "not_started", "difference_ms", "roles"}


def test_table_is_aligned(room):
    text = room.replay("-", "--set-weight", "web=4", stdin=busy_day())
    table = text.split("\n\n", 1)[1].splitlines()
    assert table[0].split("  ")[0] == "ROLE" and len(table) == 1 + 4 * 3, text
    end = table[0].index("WAIT P95") + len("WAIT P95")
    assert all(line[end] == " " and line[end - 1] != " " for line in table[1:]), text
    assert "agreement: with nothing changed, " in text and 'policy: {"event":"set_weight","role":"web","weight":"4"}' in text


def test_picture_is_well_formed(room):
    room.replay(room.write('a<&".journal', busy_day()), "--set-weight", "web=4", "--svg", "day.svg")
    assert sorted(os.listdir(room.path)) == ['a<&".journal', "day.svg"], os.listdir(room.path)
    tree = xml.etree.ElementTree.parse(f"{room.path}/day.svg").getroot()
    assert tree.tag == "{http://www.w3.org/2000/svg}svg"
    text = open(f"{room.path}/day.svg").read()
    assert "prefers-color-scheme:dark" in text and "href" not in text and "<script" not in text
    said = "".join(tree.itertext())
    assert all(it in said for it in ("ci", "data", "web", "(all)", "before", "after", "median wait", "95% wait")), said


# Speed


def test_speed(room):
    # A replay of 60,000 events takes about 3 s of processor time of all processes (the check, the reading and a run), and in the test at most 30, on a
    # machine that may be slow and busy. The making of the journal does not count. A policy takes one more run.
    count = 600_000 if IS_LONG else 60_000
    import churn
    lines = churn.churn(churn.Talk([DRF, "run"]), agents=1000, frameworks=200, cycles=count // 100)[:count]
    journal = room.write("long.journal", echo(("\n".join(lines) + "\n").encode()))
    assert len(lines) == count, len(lines)

    def spent():
        used = resource.getrusage(resource.RUSAGE_CHILDREN)
        return used.ru_utime + used.ru_stime

    begun, seconds = time.monotonic(), spent()
    agreed = room.report(journal)["agreement"]
    seconds, waited = spent() - seconds, time.monotonic() - begun
    assert seconds < (60 if IS_LONG else 30), f"{seconds:.1f} s"
    return f'{seconds:.1f} s of processor time in {waited:.1f} s for {count} events; {100 * agreed["fraction"]:.1f}% agree'


def main(word=""):
    passed = failed = 0
    for name, test in list(globals().items()):
        if not name.startswith("test_") or word not in name:
            continue
        title = name.removeprefix("test_").replace("_", " ")
        with tempfile.TemporaryDirectory() as path:
            try:
                told = test(Room(path))
                print(f"ok {title}" + (f": {told}" if told else ""), flush=True)
                passed += 1
            except Exception as error:
                place = traceback.extract_tb(error.__traceback__)[-1]
                why = str(error) or place.line
                print(f"FAILED {title}: {type(error).__name__} in line {place.lineno}: {why}".replace("\n", " "), flush=True)
                failed += 1
    print(f"replay: {passed} passed, {failed} failed")
    return 1 if failed else 0


if __name__ == "__main__":
    sys.exit(main(*[it for it in sys.argv[1:] if it != "--long"][:1]))
