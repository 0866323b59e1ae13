# Tests of what operators do and see: tokens that expire, an etcd with users. Each test receives the programs. Outside the proof.
import datetime
import hashlib
import json
import os
import re
import shutil
import signal
import subprocess
import tempfile
import threading
import time

from faults import small_disk
from fleet import SERVE, Fleet, NotRun, mostly_waits, wait

AGENT = {"event": "add_agent", "agent": "n1", "total": "cpus:4;mem:4096"}


def run(gateway, *words):
    """The status, the output and the complaint of a command of the gateway."""
    done = subprocess.run([gateway, *words], capture_output=True, text=True, check=False)
    return done.returncode, done.stdout, done.stderr


def test_token_expires(programs):
    """A token works until its time; then calls get 401 with a text that says so, and open streams end."""
    with Fleet("alone", programs.gateway, programs.drf, "-cycle", "0") as fleet:
        g, until = fleet.gateways[0], time.time() + 5
        when = datetime.datetime.fromtimestamp(int(until), datetime.timezone.utc).strftime("%Y-%m-%dT%H:%M:%SZ")
        code, token, told = run(programs.gateway, "token", "add", "-expires", when, fleet.tokens_path, "guest", "read")
        assert code == 0, told
        fleet.tokens["guest"] = token.strip()
        g.kill()
        g.start()
        g.until_ready()
        if g.ask("/drf/v1/status", name="guest")[0] != 200:
            raise NotRun("the gateway took longer to start than the token lives")
        streams = [threading.Thread(target=g.ask, args=(path,), kwargs={"name": "guest", "timeout": 20}, daemon=True) for path in ("/drf/v1/replies", "/drf/v1/journal?follow=1")]
        for stream in streams:
            stream.start()
        assert wait(lambda: g.ask("/drf/v1/status", name="guest")[0] == 401, 10)
        status, text, _ = g.ask("/drf/v1/status", name="guest")
        assert (status, text) == (401, f'the token "guest" expired at {when}: ask for a new one\n'), (status, text)
        assert wait(lambda: not any(stream.is_alive() for stream in streams), 5), "a stream outlives its token"
        assert g.ask("/drf/v1/status")[0] == 200
        assert f"guest  read                     {when} (expired)\n" in run(programs.gateway, "token", "list", fleet.tokens_path)[1]


def etcdctl(url, *words):
    """Changes the users of an etcd; again while a leader is found. One that did it before says that it exists, or that it is done."""
    def is_done():
        told = subprocess.run(["etcdctl", "--endpoints", url, *words], capture_output=True, text=True, check=False, env={**os.environ, "ETCDCTL_API": "3"})
        return told.returncode == 0 or "already" in told.stderr or "user name is empty" in told.stderr
    assert wait(is_done, 60), words


def test_etcd_with_users(programs):
    """Gateways over an etcd that knows its users: the password is in a file, a wrong one ends the gateway, and one member may be away at a start."""
    if not shutil.which("etcdctl"):
        raise NotRun("there is no etcdctl: apt-get install etcd-client")
    fleet = Fleet("outer", programs.gateway, programs.drf, "-cycle", "0")
    passwords = {name: os.path.join(fleet.folder, name) for name in ("right", "wrong")}
    for name, path in passwords.items():
        with open(path, "w", encoding="utf-8") as file:
            file.write(name + "-password\n")
    for n in range(3):
        fleet.start_server(n)
    url = fleet.servers[0][1]
    assert wait(lambda: fleet.leader() is not None)
    for words in (["user", "add", "root:right-password"], ["user", "grant-role", "root", "root"], ["auth", "enable"]):
        etcdctl(url, *words)
    one, other = fleet.gateways
    try:
        one.start("-etcd-user", "root", "-etcd-password-file", passwords["wrong"])
        assert one.process.wait(30) == 1, one.log()
        assert 'rejects the user "root" or its password' in one.log() and "wrong-password" not in one.log(), one.log()
        fleet.kill_server(2)
        one.start("-etcd-user", "root", "-etcd-password-file", passwords["right"])
        one.until_ready()
        assert one.send(AGENT) == [{"ok": True}]
        other.start()  # without a user
        assert wait(lambda: "user name is empty" in other.log() or "permission denied" in other.log(), 20), other.log()
        assert not other.is_ready()
        fleet.start_server(2)
        fleet.kill_server(0)  # the member that is asked first: the one that was away must take its part
        assert wait(lambda: one.ask("/drf/v1/events", '{"event":"cycle"}\n')[0] == 200, 40), one.log()
        assert "right-password" not in one.log()
    except BaseException:
        fleet.__exit__(AssertionError, None, None)
        raise
    fleet.__exit__(None, None, None)


def members(gateway, kind):
    """What a gateway says of all gateways or members of etcd, by name."""
    return {one["name"]: one for one in gateway.status()["members"][kind]}


@mostly_waits
def test_members(programs):
    """Each gateway says of each gateway and etcd member how far it is, and which of them is silent; while it is cut off too."""
    with Fleet("three", programs.gateway, programs.drf, "-cycle", "0", "-etcd-quota", "128MiB") as fleet:
        one, other, third = fleet.gateways
        one.send(AGENT)
        fleet.agreed()
        assert wait(lambda: all(len(members(g, "gateways")) == 3 and all(m["live"] and m["messages"] == 1 for m in members(g, "gateways").values()) for g in fleet.gateways), 15), one.status()
        version, drf = subprocess.run([programs.gateway, "-version"], capture_output=True, text=True, check=True).stdout.split()[-1], open(programs.drf, "rb").read()
        for g in fleet.gateways:
            gateways, etcd = members(g, "gateways"), members(g, "etcd")
            for m in gateways.values():
                assert m["ready"] and m["version"] == version and m["drf"] == hashlib.sha256(drf).hexdigest() and abs(m["clock_offset_ms"]) < 5000 and m["lag"] == 0, m
            assert len(etcd) == 3 and [m["leader"] for m in etcd.values()].count(True) == 1 and all(m["reachable"] and m["quota"] == 128 << 20 and 0 < m["used"] <= m["size"] for m in etcd.values()), etcd
        # an allocator that hangs: its gateway lags, and the others report this
        os.kill(third.status()["allocator"]["pid"], signal.SIGSTOP)
        for n in range(5):
            one.send({**AGENT, "agent": f"m{n}"})
        assert wait(lambda: third.status()["lag"] == 5 and members(one, "gateways")["g2"]["lag"] == 5 and members(other, "gateways")["g2"]["lag"] == 5, 20), one.status()
        assert figure(third, "drf_lag_messages") == 5 and figure(one, "drf_lag_messages") == 0
        os.kill(third.status()["allocator"]["pid"], signal.SIGCONT)
        assert wait(lambda: members(one, "gateways")["g2"]["lag"] == 0, 20), one.status()
        # two are gone: the third still says what it knows
        one.kill()
        other.kill()
        assert wait(lambda: not third.status()["ready"] and "cut off" in third.status()["fault"] and not any(members(third, "gateways")[name]["live"] for name in ("g0", "g1")), 30), third.status()
        assert figure(third, "drf_connected") == 0 and figure(third, "drf_ready") == 0 and figure(third, "drf_etcd_members_unreachable") == 2
        assert third.ask("/drf/v1/report")[0] == 503
        assert not members(third, "etcd")["g0"]["reachable"], members(third, "etcd")


def figure(gateway, name):
    """A figure of /metrics that has no label."""
    status, text, _ = gateway.ask("/metrics")
    assert status == 200, text
    return next((float(line.split()[1]) for line in text.splitlines() if line.startswith(name + " ")), None)


def test_members_of_an_outer_etcd(programs):
    """Of an etcd of other processes each member is asked, and one that is dead is named."""
    with Fleet("outer", programs.gateway, programs.drf, "-cycle", "0") as fleet:
        one = fleet.gateways[0]
        assert wait(lambda: [m["reachable"] for m in members(one, "etcd").values()] == [True] * 3, 15), one.status()
        leader = f"e{fleet.leader()}"
        assert [m["name"] for m in members(one, "etcd").values() if m["leader"]] == [leader] and "etcd" not in members(one, "gateways")["g0"], one.status()
        victim = next(n for n in range(3) if f"e{n}" != leader)
        fleet.kill_server(victim)
        assert wait(lambda: not members(one, "etcd")[f"e{victim}"]["reachable"] and figure(one, "drf_etcd_members_unreachable") == 1, 20), one.status()
        assert sum(m["reachable"] for m in members(one, "etcd").values()) == 2


def audit(gateway, words, name="eye"):
    status, text, _ = gateway.ask("/drf/v1/audit?" + words, name=name)
    assert status == 200, text
    return json.loads(text)


def test_audit(programs):
    """Who sent what, from each gateway alike, after a restart too; and who may ask."""
    with Fleet("outer", programs.gateway, programs.drf, "-cycle", "0") as fleet:
        one, other = fleet.gateways
        assert wait(lambda: all(len(members(g, "gateways")) == 2 for g in fleet.gateways)), one.status()  # before that, senders are not kept
        begun = time.time()
        one.send(AGENT, name="rack")
        one.send({"event": "set_limit", "role": "web", "limit": "cpus:1"}, {"event": "set_limit", "role": "web/search", "limit": "cpus:1"}, {"event": "set_weight", "role": "web", "weight": "x"}, name="ops")
        status, _, headers = other.ask("/drf/v1/events", '{"event":"set_limit","role":"web","limit":"cpus:2"}\n', name="ops", Idempotency_Key="k1")
        assert status == 200
        other.send({"event": "set_limit", "role": "web", "limit": "cpus:2"}, key="k1", name="ops")  # sent again: the same message
        other.send({"event": "cycle"})
        fleet.agreed()
        pages = [audit(g, "event=set_limit&role=web") for g in fleet.gateways]
        assert pages[0] == pages[1] and "next" not in pages[0], pages
        newest, oldest = pages[0]["records"]
        assert (newest["name"], newest["address"], newest["key"], newest["message"], newest["lines"], newest["events"]) == ("ops", "127.0.0.1", "k1", int(headers["Drf-Message"]), 1, {"set_limit": 1}), newest
        assert abs(newest["at"] / 1000 - begun) < 30 and newest["matches"] == [{"line": 5, "text": '{"event":"set_limit","limit":"cpus:2","role":"web"}', "reply": {"ok": True}}], newest
        assert (oldest["lines"], oldest["events"], oldest["refused"], [m["line"] for m in oldest["matches"]]) == (3, {"set_limit": 2, "set_weight": 1}, 1, [2]), oldest
        journal = one.ask("/drf/v1/journal")[1].encode()
        assert journal[newest["byte"]:newest["byte"] + newest["bytes"]].decode() == newest["matches"][0]["text"] + '\n{"ok":true}\n'
        assert [r["name"] for r in audit(one, "")["records"]] == ["admin", "ops", "ops", "rack"]
        first = audit(one, "limit=3")
        assert [r["message"] for r in first["records"]] == [4, 3, 2] and [r["message"] for r in audit(one, f"limit=3&before={first['next']}")["records"]] == [1]
        assert audit(one, f"to={int(begun * 1000) - 60000}")["records"] == [] and len(audit(one, f"from={int(begun * 1000) - 60000}&name=rack")["records"]) == 1
        assert [r["name"] for r in audit(one, "answer=refused")["records"]] == ["ops"] and audit(one, "cause=cycle")["records"] == []
        for secret in fleet.tokens.values():
            assert secret not in json.dumps(audit(one, "limit=1000"))
        for words, name, want, problem in (("", "site", 403, "does not have the right read"), ("", None, 401, "token"), ("from=x", "eye", 400, "from="), ("limit=0", "eye", 400, "limit="), ("before=x", "eye", 400, "before="),
                                           ("nmae=x", "eye", 400, '"nmae"'), ("answer=ok", "eye", 400, "answer=")):
            status, text, _ = one.ask("/drf/v1/audit?" + words, name=name)
            assert status == want and problem in text, (words, status, text)
        one.kill()
        one.start()
        one.until_ready()
        assert audit(one, "event=set_limit&role=web") == pages[0]


def test_settings(programs):
    """Who set what is set is known at each gateway, also when its message is pruned, and at a gateway that lost its folder."""
    with Fleet("outer", programs.gateway, programs.drf, "-cycle", "0", save_every=20) as fleet:
        one, other = fleet.gateways

        def settings(gateway, words):
            status, text, _ = gateway.ask("/drf/v1/settings?" + words, name="eye")
            assert status == 200, text
            return json.loads(text)["settings"]

        assert wait(lambda: all(len(members(g, "gateways")) == 2 for g in fleet.gateways)), one.status()
        one.send({"event": "set_limit", "role": "eng", "limit": "cpus:1"}, AGENT, {"event": "deactivate_agent", "agent": "n1"}, name="ops")
        other.send({"event": "set_limit", "role": "eng", "limit": "x"}, name="admin")  # refused: it sets nothing

        def has_four_snapshots():  # one is due at most each 250 ms, so how many messages this takes depends on how fast they are sent
            for n in range(20):
                one.send({"event": "set_weight", "role": f"r{n % 3}", "weight": "2"})
            return one.status()["state"] >= 4

        assert wait(has_four_snapshots, 60), one.status()
        assert audit(one, "event=set_limit")["records"] == []  # its message is pruned
        found, = settings(one, "event=set_limit&role=eng")
        assert (found["name"], found["address"], found["message"], found["line"], found["text"]) == ("ops", "127.0.0.1", 1, 1, '{"event":"set_limit","limit":"cpus:1","role":"eng"}'), found
        assert [s["event"] for s in settings(one, "agent=n1")] == ["deactivate_agent", "add_agent"] and len(settings(one, "event=set_weight")) == 3 and len(settings(one, "limit=2")) == 2
        fleet.agreed()
        assert settings(other, "") == settings(one, "")
        other.kill()
        shutil.rmtree(other.folder)
        other.start()
        other.until_ready()
        assert settings(other, "event=set_limit&role=eng") == [found]
        one.kill()  # whatever it had not written
        one.start()
        one.until_ready()
        assert settings(one, "") == settings(other, "")
        for words, name, want in (("", "site", 403), ("name=x", "eye", 400), ("limit=0", "eye", 400)):
            assert one.ask("/drf/v1/settings?" + words, name=name)[0] == want, words


def limits(count, start=0):
    return [{"event": "set_limit", "role": f"r{n}", "limit": "cpus:1"} for n in range(start, start + count)]


def verify(programs, folder, *words):
    return run(programs.gateway, "verify-archive", *words, folder)


def replay(programs, *words):
    """The same of a replay of a journal."""
    program = os.path.join(os.path.dirname(os.path.abspath(__file__)), "..", "..", "replay", "drf-replay")
    done = subprocess.run([program, "--quiet", "--json", *words], capture_output=True, text=True, check=False, env={**os.environ, "DRF": programs.drf})
    return done.returncode, done.stdout, done.stderr


def archived(gateway):
    return gateway.status()["archive"]


def newest_header(folder):
    name = max(name for name in os.listdir(folder) if name.endswith(".segment"))
    with open(os.path.join(folder, name), encoding="utf-8") as file:
        return json.loads(file.readline())


def test_archive(programs):
    """The archive goes on over kills of the gateway and of its allocator, epochs and pruning; it is checked by drf, and answers what the journal no longer has."""
    with Fleet("alone", programs.gateway, programs.drf, "-cycle", "100ms", "-epoch-every", "400", "-archive-segment", "8KiB", "-archive-every", "1s", save_every=40) as fleet:
        g, folder = fleet.gateways[0], os.path.join(fleet.folder, "archive")
        g.kill()
        g.start("-archive", folder)
        g.until_ready()
        g.send(*limits(3), name="ops")
        for turn in range(6):
            for n in range(40):
                g.send(*limits(2, 100 * turn + 2 * n))
            if turn % 2:
                g.kill()
                g.start("-archive", folder)
            else:
                g.kill_drf()
            g.until_ready()
        assert wait(lambda: archived(g)["messages"] >= 250 and g.status()["epoch"] >= 1 and newest_header(folder)["epoch"] >= 1, 30), g.status()
        status = archived(g)
        assert status["fault"] == "" and status["gaps"] == 0 and figure(g, "drf_archive_failing") == 0 and figure(g, "drf_archive_messages") >= 250, status
        first, = audit(g, "event=set_limit&role=r1&name=ops")["records"]

        def is_pruned():  # at a snapshot after the one that follows it, which needs more messages
            g.send(*limits(1))
            return int(g.ask("/drf/v1/journal")[2]["Drf-From"]) > first["byte"] + first["bytes"]

        assert wait(is_pruned, 60), "the journal still has it"
        assert audit(g, "event=set_limit&role=r1&name=ops")["records"] == [first]
        assert first["matches"][0]["text"] == '{"event":"set_limit","limit":"cpus:1","role":"r1"}' and first["address"] == "127.0.0.1", first
        numbers, before = [], ""
        while True:
            page = audit(g, "cause=cycle&limit=50" + before)
            numbers += [r["message"] for r in page["records"]]
            if "next" not in page:
                break
            before = f"&before={page['next']}"
        assert numbers == sorted(set(numbers), reverse=True) and numbers[-1] < 100, numbers
        g.kill()
        code, journal, told = verify(programs, folder, "-drf", programs.drf, "-print", "journal")
        last = json.loads(open(os.path.join(g.folder, "archived"), encoding="utf-8").read())
        assert code == 0 and "good: segments 1 to " in told and "messages 1 to " in told and ", and 0 messages were not checked" in told and '"role":"r1"' in journal, told
        assert verify(programs, folder, "-last", last["sha256"])[0] == 0
        # drf-replay takes the archive, one epoch at a time
        code, _, told = replay(programs, folder)
        assert code == 3 and ".segment line 1: an epoch begins; replay the segments before it" in told, told
        begins = int(told.partition(".segment line 1: ")[0][-8:])
        code, report, told = replay(programs, folder, "--segments", f"-{begins - 1}")
        with open(os.path.join(folder, f"{begins - 1:08d}.segment"), encoding="utf-8") as file:
            events = json.loads(file.readline())["to"]["lines"]
        assert code == 0 and json.loads(report)["journal"]["events"] == events > 400, told
        # damage has a status of its own, and names the segment
        names = sorted(name for name in os.listdir(folder) if name.endswith(".segment"))
        path = os.path.join(folder, names[len(names) // 2])
        with open(path, "r+b") as file:
            file.seek(os.path.getsize(path) - 200)
            byte = file.read(1)[0]
            file.seek(-1, 1)
            file.write(bytes([byte ^ 4]))
        code, _, told = verify(programs, folder)
        assert code == 3 and f"{names[len(names) // 2]} is damaged at byte " in told, told
        os.remove(path)
        code, _, told = verify(programs, folder)
        assert code == 3 and f"{names[len(names) // 2]} is damaged at byte 0: it is missing" in told, told
        assert verify(programs, os.path.join(folder, "none"))[0] == 1 and run(programs.gateway, "verify-archive")[0] == 1
        code, _, told = verify(programs, folder, "-last", "0" * 64)
        assert code == 3, told


@mostly_waits
def test_archive_on_a_full_disk(programs):
    """While the archive's disk is full or read-only the service goes on; then what came meanwhile is archived, without a gap."""
    outer = tempfile.mkdtemp(prefix="serve-test-")
    point = small_disk(outer, 500 << 20)
    try:
        with Fleet("alone", programs.gateway, programs.drf, "-cycle", "0", "-archive", os.path.join(point, "archive"), "-archive-every", "1s", save_every=20) as fleet:
            g, rest = fleet.gateways[0], os.path.join(point, "rest")
            g.send(*limits(2))
            assert wait(lambda: archived(g)["messages"] == 1, 20), archived(g)
            with open(rest, "wb") as file:
                os.posix_fallocate(file.fileno(), 0, shutil.disk_usage(point).free - (100 << 20))
            for n in range(100):
                g.send(*limits(1, n))
            assert wait(lambda: "MiB left" in archived(g)["fault"], 20) and figure(g, "drf_archive_failing") == 1, archived(g)
            os.remove(rest)
            assert wait(lambda: archived(g)["fault"] == "" and archived(g)["messages"] >= 101, 40), archived(g)
            if subprocess.run(["chattr", "+i", os.path.join(point, "archive")], capture_output=True, check=False).returncode == 0:  # nobody may write there, root neither
                for n in range(50):
                    g.send(*limits(1, n))
                assert wait(lambda: "not permitted" in archived(g)["fault"], 20), archived(g)
                subprocess.run(["chattr", "-i", os.path.join(point, "archive")], check=True)
                assert wait(lambda: archived(g)["fault"] == "" and archived(g)["messages"] >= 151, 40), archived(g)
            assert archived(g)["gaps"] == 0
            code, _, told = verify(programs, os.path.join(point, "archive"), "-drf", programs.drf)
            assert code == 0 and ", and 0 messages were not checked" in told, told
    finally:
        subprocess.run(["umount", "-l", point], check=False)
        shutil.rmtree(outer, ignore_errors=True)


def read_file(*parts):
    with open(os.path.join(SERVE, *parts), encoding="utf-8") as file:
        return file.read()


def test_alert_rules(programs):
    """The rules are right by promtool's tests, each has one and a section of the manual, and a real gateway has each metric that they name."""
    if not shutil.which("promtool"):
        raise NotRun("there is no promtool: apt-get install prometheus")
    for words in (["check", "rules", "alerts.yml"], ["test", "rules", "tests/alerts.yml"]):
        done = subprocess.run(["promtool", *words], cwd=SERVE, capture_output=True, text=True, check=False)
        assert done.returncode == 0, done.stdout + done.stderr
    rules, tests, manual = read_file("alerts.yml"), read_file("tests", "alerts.yml"), read_file("..", "docs", "OPERATIONS.md")
    names, runbooks = re.findall(r"- alert: (\w+)", rules), re.findall(r"runbook: (\S+)", rules)
    assert len(names) == len(set(names)) == len(runbooks) > 10, (names, runbooks)
    for name, runbook in zip(names, runbooks):
        assert runbook == "docs/OPERATIONS.md#" + name.lower() and f"\n### {name}\n" in manual, f"{name} has no section in docs/OPERATIONS.md"
        assert f"runbook: {runbook}\n" in tests, f"no test expects {name}"
    metrics = set(re.findall(r"\bdrf_\w+", "".join(re.findall(r"expr: .*\n(?:            .*\n|          [a-z]+ by .*\n)*", rules))))
    assert {"drf_connected", "drf_events_total", "drf_requests_refused_total", "drf_archive_gaps"} <= metrics and len(metrics) > 15, metrics
    with Fleet("alone", programs.gateway, programs.drf) as fleet:
        g = fleet.gateways[0]
        code, _, told = run(programs.gateway, "token", "add", "-expires", "30d", fleet.tokens_path, "guest", "read")
        assert code == 0, told
        g.kill()
        g.start("-archive", os.path.join(fleet.folder, "archive"))
        g.until_ready()
        g.send(AGENT, AGENT)
        g.ask("/nothing")
        assert wait(lambda: 'drf_events_total{answer="ok",event="cycle"}' in g.ask("/metrics")[1], 20)
        text = g.ask("/metrics")[1]
        assert metrics - set(re.findall(r"^(drf_\w+)", text, flags=re.M)) == set()
        for series in ('drf_table_rows{table="filters"}', 'drf_table_rows_limit{table="filters"}', 'drf_token_expires_timestamp_seconds{name="guest"}', 'drf_requests_refused_total{status="404"}'):
            assert series in text, series
        assert figure(g, "drf_etcd_quota_bytes") == 8 << 30 and 0 < figure(g, "drf_etcd_used_bytes") < 1 << 30 and figure(g, "drf_connected") == 1 and abs(figure(g, "drf_clock_offset_seconds")) < 1


TESTS = [test for name, test in list(globals().items()) if name.startswith("test_")]
