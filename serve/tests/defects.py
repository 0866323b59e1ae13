# Defects that ordinary calls once showed: each test failed before its fix. Outside the proof.
import json
import os
import signal
import socket
import ssl
import stat
import subprocess
import threading
import time

from calls import AGENT, SITE, listen, read_stream
from fleet import Fleet, free_port, make_certificate, mostly_waits, wait


def rescind(number):
    return {"event": "rescind", "offer": number}


def resident(pid):
    """The memory of a process in MiB."""
    with open(f"/proc/{pid}/status") as file:
        return next(int(line.split()[1]) for line in file if line.startswith("VmRSS:")) // 1024


def beat(gateway, path, name, stop, found):
    while not stop.is_set():
        found.append(gateway.ask(path, "", name=name, timeout=5)[:2])
        stop.wait(0.4)


@mostly_waits
def test_stale_lease(programs):
    """A framework that left and registered again is not removed when the lease of its former session ends."""
    with Fleet("alone", programs.gateway, programs.drf, "-cycle", "0", "-framework-timeout", "2s") as fleet:
        g = fleet.gateways[0]
        g.send(SITE)
        assert json.loads(g.ask("/drf/v1/frameworks/site/alive", "", name="site")[1]) == {"was_alive": False}
        g.send({"event": "remove_framework", "framework": "site"}, SITE)
        time.sleep(12)
        assert [node["path"] for node in json.loads(g.ask("/drf/v1/report")[1])["nodes"]] != [], "the new framework was removed"
        assert g.ask("/drf/v1/journal")[1].count("remove_framework") == 1


@mostly_waits
def test_pause(programs):
    """Agents and frameworks that kept sending heartbeats are there after the service was stopped for longer than their time-outs."""
    words = ["-cycle", "0", "-agent-timeout", "3s", "-agent-removal", "2s", "-framework-timeout", "3s"]
    with Fleet("alone", programs.gateway, programs.drf, *words) as fleet:
        g = fleet.gateways[0]
        g.send(SITE, AGENT)
        stop, found = threading.Event(), []
        threads = [threading.Thread(target=beat, args=(g, *who, stop, found)) for who in (("/drf/v1/agents/n1/alive", "rack"), ("/drf/v1/frameworks/site/alive", "site"))]
        for thread in threads:
            thread.start()
        time.sleep(6)
        g.process.send_signal(signal.SIGSTOP)
        time.sleep(8)
        g.process.send_signal(signal.SIGCONT)
        time.sleep(6)
        journal = g.ask("/drf/v1/journal")[1]
        stop.set()
        for thread in threads:
            thread.join()
        assert "remove" not in journal and "deactivate" not in journal, journal
        assert wait(lambda: "remove_agent" in g.ask("/drf/v1/journal")[1] and "remove_framework" in g.ask("/drf/v1/journal")[1], 40), "who is silent stays"


@mostly_waits
def test_pause_of_one(programs):
    """While one of two gateways is stopped, the other does not end those who send their heartbeats to it."""
    with Fleet("outer", programs.gateway, programs.drf, "-cycle", "0", "-framework-timeout", "2s") as fleet:
        one, other = fleet.gateways
        one.send(SITE)
        stop, found = threading.Event(), []
        thread = threading.Thread(target=beat, args=(one, "/drf/v1/frameworks/site/alive", "site", stop, found))
        thread.start()
        time.sleep(7)
        one.process.send_signal(signal.SIGSTOP)
        time.sleep(6)
        one.process.send_signal(signal.SIGCONT)
        time.sleep(4)
        journal = other.ask("/drf/v1/journal")[1]
        stop.set()
        thread.join()
        assert "remove_framework" not in journal, journal
        assert wait(lambda: "remove_framework" in other.ask("/drf/v1/journal")[1], 40), "who is silent stays"


def test_full_etcd(programs):
    """A caller with a low right cannot fill etcd: what it sends is pruned in time, or refused, and the service continues."""
    with Fleet("alone", programs.gateway, programs.drf, "-cycle", "0", "-etcd-quota", "64MiB") as fleet:
        g = fleet.gateways[0]
        body = ('{"event":"finish","framework":"site","task":"' + "t" * 60000 + '"}\n') * 50
        answers = []

        def send():
            for _ in range(4):
                until = time.time() + 120
                while time.time() < until:
                    answers.append(g.ask("/drf/v1/events", body, name="site", timeout=40)[0])
                    if answers[-1] == 200:
                        break
                    time.sleep(1)

        threads = [threading.Thread(target=send) for _ in range(8)]
        for thread in threads:
            thread.start()
        for thread in threads:
            thread.join()
        sent = answers.count(200) * len(body) >> 20
        assert sent > 64 and set(answers) <= {200, 429, 503, 504}, (sent, answers)
        assert wait(lambda: g.ask("/drf/v1/events", json.dumps(rescind(1)))[0] == 200, 30), g.log()[-600:]
        g.kill(signal.SIGTERM)
        g.start()
        g.until_ready()
        assert g.send(rescind(2)) == [{"name": "UnknownOffer", "refused": 7}]
        assert "NOSPACE" not in g.log() and "space exceeded" not in g.log(), g.log()[-600:]
        return f"{sent} MiB of events through a store of 64 MiB; {answers.count(200)} of {len(answers)} batches were taken"


@mostly_waits
def test_cut_off(programs):
    """A gateway that no majority answers says so within some seconds, and ends its streams; it comes back by itself."""
    with Fleet("three", programs.gateway, programs.drf, "-cycle", "0") as fleet:
        one, *others = fleet.gateways
        one.send(SITE)
        fleet.agreed()
        stream = threading.Thread(target=read_stream, args=(one, "/drf/v1/frameworks/site/offers", "site", [], threading.Event()), daemon=True)
        stream.start()
        time.sleep(0.5)
        for other in others:
            other.process.send_signal(signal.SIGSTOP)
        begun = time.time()
        assert wait(lambda: one.ask("/drf/v1/state")[0] == 503, 15), one.log()[-400:]
        took = time.time() - begun
        stream.join(5)
        assert not stream.is_alive(), "its streams stay open"
        status, answer, headers = one.ask("/drf/v1/events", json.dumps(rescind(1)))
        assert status == 503 and "cut off" in answer and headers["Drf-Applied"] == "no" and headers["Retry-After"], (status, answer)
        for other in others:
            other.process.send_signal(signal.SIGCONT)
        assert wait(one.is_ready, 30) and one.ask("/drf/v1/state")[0] == 200
        return f"after {took:.1f} s"


def ends_in_time(gateway):
    begun = time.time()
    gateway.process.send_signal(signal.SIGTERM)
    gateway.process.wait(20)
    took = time.time() - begun
    assert took < 6, f"{took:.1f} s from SIGTERM to the end"


def test_no_majority(programs):
    """A member that waits for others answers 503 with the reason, logs it, and ends at SIGTERM."""
    fleet = Fleet("three", programs.gateway, programs.drf, "-cycle", "0")
    one = fleet.gateways[0]
    one.start()
    try:
        assert wait(lambda: "waits for a majority" in one.ask("/healthz", name=None)[1], 20), one.log()
        for path in ("/drf/v1/status", "/drf/v1/state"):
            status, answer, _ = one.ask(path)
            assert status == 503 and "waits for a majority" in answer, (status, answer)
        assert wait(lambda: "waits for a majority" in one.log(), 15), one.log()
        ends_in_time(one)
    finally:
        fleet.__exit__(None, None, None)


@mostly_waits
def test_removed_member(programs):
    """A member that was removed says so, answers 503, and ends at SIGTERM; a new one can be added at once."""
    with Fleet("three", programs.gateway, programs.drf, "-cycle", "0") as fleet:
        one, _, third = fleet.gateways
        one.send(rescind(1))
        time.sleep(6)  # etcd changes its members only when they were connected for five seconds

        def etcdctl(*words):
            return subprocess.run(["etcdctl", "--endpoints", "unix://" + os.path.join(one.folder, "etcd.sock"), *words], capture_output=True, text=True, check=False, env={**os.environ, "ETCDCTL_API": "3"})

        def peers():
            """The ID of each member by the URL of its peers, or None while etcd does not answer."""
            done = etcdctl("member", "list")
            return {line.split(", ")[3]: line.split(", ")[0] for line in done.stdout.splitlines()} if done.returncode == 0 else None

        def change(is_done, *words):
            """Changes the members. A call that fails, as during an election, may have been applied: the list of members says so."""
            told = []

            def changed():
                told.append(etcdctl("member", *words))
                found = peers()
                return found is not None and is_done(found)

            assert wait(changed, 90, 1), told

        found = wait(peers, 60, 1)
        assert found, one.log()
        old, new = third.words[third.words.index("-members") + 1].rpartition("g2=")[2], f"http://127.0.0.1:{free_port()}"
        change(lambda found: old not in found, "remove", found[old])
        assert wait(lambda: "it was removed" in third.ask("/healthz", name=None)[1], 40), third.log()
        status, answer, _ = third.ask("/drf/v1/state")
        assert status == 503 and "it was removed" in answer and "it was removed" in third.log(), (status, answer)
        ends_in_time(third)
        change(lambda found: new in found, "add", "g2", f"--peer-urls={new}")
        assert wait(lambda: one.ask("/drf/v1/events", json.dumps(rescind(2)))[:2] == (200, '{"name":"UnknownOffer","refused":7}\n'), 40), one.log()


def test_applied(programs):
    """Each answer to a batch says whether this request applied it."""
    with Fleet("alone", programs.gateway, programs.drf, "-cycle", "0", save_every=20) as fleet:
        g = fleet.gateways[0]

        def expect(status, applied, body=json.dumps(rescind(7)), **words):
            got, answer, headers = g.ask("/drf/v1/events", body, **words)
            assert (got, headers.get("Drf-Applied")) == (status, applied), (got, answer, dict(headers))
            return headers

        expect(200, "yes", Idempotency_Key="a")
        expect(200, "yes", Idempotency_Key="a")
        expect(409, "no", body=json.dumps(rescind(8)), Idempotency_Key="a")
        expect(400, "no", body="")
        expect(401, "no", name=None)
        expect(403, "no", body="x", name="site")
        expect(403, "no", name="eye")
        expect(413, "no", body="x\n" * 70000)
        expect(410, "unknown", Idempotency_Key="01890a5d-ac96-774b-bcce-b302099a8057")
        for n in range(90):
            g.send(rescind(n), key=f"k{n}")
            time.sleep(0.03)
        # The positions of a batch may be forgotten here before its message is pruned: whichever it is, the answer has its number once that is known.
        assert wait(lambda: g.ask("/drf/v1/events", json.dumps(rescind(7)), Idempotency_Key="a")[0] == 410, 20)
        assert wait(lambda: g.ask("/drf/v1/events", json.dumps(rescind(7)), Idempotency_Key="a")[2].get("Drf-Message") == "1", 20)
        expect(410, "yes", Idempotency_Key="a")


def test_random_keys(programs):
    """Random keys of 32 hexadecimal digits are not taken for dates."""
    with Fleet("alone", programs.gateway, programs.drf, "-cycle", "0") as fleet:
        g = fleet.gateways[0]
        for n in range(16):
            key = f"0189{n:x}a5dac967{n:x}4bbcceb302099a8057"
            assert g.send(rescind(n), key=key), key


def test_bodies(programs):
    """Many bodies of line feeds take little memory: those of a token without rights are refused before they are read."""
    with Fleet("alone", programs.gateway, programs.drf, "-cycle", "0") as fleet:
        g = fleet.gateways[0]
        g.send(rescind(1))
        before, most, answers = resident(g.process.pid), [0], []

        def send(name):
            answers.append((name, g.ask("/drf/v1/events", b"\n" * (4 << 20), name=name, timeout=60)[0]))

        for name in ("eye", "admin"):
            threads = [threading.Thread(target=send, args=(name,)) for _ in range(24)]
            for thread in threads:
                thread.start()
            while any(thread.is_alive() for thread in threads):
                most[0] = max(most[0], resident(g.process.pid))
                time.sleep(0.01)
        assert {status for name, status in answers if name == "eye"} <= {403, 0}, answers
        assert {status for name, status in answers if name == "admin"} <= {413, 429}, answers
        assert most[0] - before < 150, f"{before} MiB before, {most[0]} MiB at most"
        return f"{most[0] - before} MiB"


@mostly_waits
def test_heartbeats_of_the_unknown(programs):
    """Heartbeats of agents that nobody registered become no events."""
    with Fleet("alone", programs.gateway, programs.drf, "-cycle", "0", "-agent-timeout", "1s", "-agent-removal", "1s") as fleet:
        g = fleet.gateways[0]
        before = g.status()["messages"]
        for n in range(2):
            status, answer, _ = g.ask(f"/drf/v1/agents/n{n}/alive", "", name="rack")
            assert status == 404 and "not registered" in answer, (status, answer)
        time.sleep(4)
        assert g.status()["messages"] == before


def test_limits(programs):
    """A caller that exceeds its limits gets 429 with Retry-After, and others do not notice."""
    words = ["-limit-requests", "20", "-limit-burst", "1s", "-limit-streams", "2"]
    with Fleet("alone", programs.gateway, programs.drf, "-cycle", "0", *words) as fleet:
        g = fleet.gateways[0]
        answers = [g.ask("/drf/v1/events", json.dumps(rescind(n)), name="ops") for n in range(60)]
        limited = [headers for status, _, headers in answers if status == 429]
        assert limited and all(int(headers["Retry-After"]) >= 1 and headers["Drf-Applied"] == "no" for headers in limited), [status for status, *_ in answers]
        assert g.ask("/drf/v1/frameworks/site/offers" + "x", name="site")[0] != 429
        listen(g, "/drf/v1/replies", "eye"), listen(g, "/drf/v1/replies", "eye")
        time.sleep(0.5)
        assert g.ask("/drf/v1/replies", name="eye", timeout=5)[0] == 429
        assert wait(lambda: g.ask("/drf/v1/events", json.dumps(rescind(1)), name="ops")[0] == 200, 5, 0.5)


def test_keys_of_one_caller(programs):
    """A framework that uses up half of -max-kept-keys gets 429, in the list and pruned; its batches without a key and other callers do not."""
    with Fleet("alone", programs.gateway, programs.drf, "-cycle", "0", "-max-kept-keys", "40", save_every=10) as fleet:
        g = fleet.gateways[0]

        def send(name, event, key=None):
            return g.ask("/drf/v1/events", json.dumps(event) + "\n", name=name, **({"Idempotency_Key": key} if key else {}))

        revive, activate, used, tried = {"event": "revive", "framework": "site"}, {"event": "activate_agent", "agent": "n0"}, [], 0
        until = time.time() + 60
        while len(used) < 20 and time.time() < until:  # while messages are pruned, some keys briefly count twice
            tried += 1
            status = send("site", revive, f"k{tried}")[0]
            assert status in (200, 429), status
            used += [f"k{tried}"] if status == 200 else []
            time.sleep(0 if status == 200 else 1)
        assert len(used) == 20, used
        for when in ("now", "later"):
            status, text, headers = send("site", revive, "more-" + when)
            assert status == 429 and "-max-kept-keys" in text and int(headers["Retry-After"]) >= 1 and headers["Drf-Applied"] == "no", (when, status, text, headers)
            assert send("site", revive)[0] == 200 and send("rack", activate, when)[0] == 200 and send("ops", rescind(1), when)[0] == 200, when
            assert send("site", revive, used[0])[0] in (200, 410), when
            assert wait(lambda: send("ops", rescind(1))[0] == 200 and g.status()["kept_keys"] >= 20, 60, 0.1), g.status()


def test_private_folder(programs):
    """A data folder that others can read is made private; a path that is too long for a socket is reported."""
    fleet = Fleet("alone", programs.gateway, programs.drf, "-cycle", "0")
    g = fleet.gateways[0]
    g.folder = os.path.join(fleet.folder, "d" * 120)
    os.makedirs(g.folder)
    os.chmod(g.folder, 0o755)
    with fleet:
        assert stat.S_IMODE(os.stat(g.folder).st_mode) == 0o700 and "it is private now" in g.log(), g.log()
        assert "too long for a socket" in g.log(), g.log()


def test_bearer(programs):
    with Fleet("alone", programs.gateway, programs.drf, "-cycle", "0") as fleet:
        g = fleet.gateways[0]
        token = fleet.tokens["admin"]
        for header, want in ((f"bearer {token}", 200), (f"BEARER {token}", 200), (token, 401), (f"Basic {token}", 401)):
            assert g.ask("/drf/v1/status", name=None, Authorization=header)[0] == want, header


def test_certificate_again(programs):
    """A certificate is read again at SIGHUP, and one that is wrong changes nothing."""
    with Fleet("alone", programs.gateway, programs.drf, "-cycle", "0") as fleet:
        g = fleet.gateways[0]
        cert, key = make_certificate(fleet.folder)
        g.kill()
        g.start("-cert", cert, "-key", key)
        host, port = g.url[7:].split(":")

        def shown():
            try:
                return ssl.get_server_certificate((host, int(port)))
            except OSError:
                return None

        first = wait(shown)
        make_certificate(fleet.folder)
        g.process.send_signal(signal.SIGHUP)
        assert wait(lambda: shown() not in (None, first), 10), "the certificate stays"
        second = shown()
        with open(cert, "w") as file:
            file.write("x")
        g.process.send_signal(signal.SIGHUP)
        assert wait(lambda: "the old certificate stays" in g.log(), 10) and shown() == second


def test_listens_after_bind(programs):
    """A gateway whose address is in use does not say that it listens."""
    with socket.socket() as taken:
        taken.bind(("127.0.0.1", 0))
        taken.listen()
        fleet = Fleet("alone", programs.gateway, programs.drf, "-cycle", "0")
        try:
            done = subprocess.run([programs.gateway, "-data", os.path.join(fleet.folder, "x"), "-drf", programs.drf, "-listen", "127.0.0.1:%d" % taken.getsockname()[1]],
                                  capture_output=True, text=True, timeout=20, check=False)
            assert done.returncode == 1 and "in use" in done.stderr and "listening on" not in done.stderr, done
        finally:
            fleet.__exit__(None, None, None)


def test_old_paths(programs):
    """The service's own calls are below /drf/v1/ alone: /state is that of a Mesos master."""
    with Fleet("alone", programs.gateway, programs.drf, "-cycle", "0") as fleet:
        g = fleet.gateways[0]
        for path in ("/events", "/report", "/explain", "/journal", "/replies", "/status", "/frameworks/site/offers", "/agents/n1/alive", "/drf/v1/metrics"):
            assert g.ask(path)[0] == 404, path
        for path in ("/healthz", "/metrics", "/"):
            assert g.ask(path)[0] == 200, path
        status, answer = g.ask("/state")[:2]
        assert status == 200 and '"activated_slaves":0' in answer, (status, answer)


def test_state_differences(programs):
    """Whoever has a state gets what changed since, and not all of it again."""
    with Fleet("alone", programs.gateway, programs.drf, "-cycle", "0") as fleet:
        g = fleet.gateways[0]
        g.send(*[{"event": "add_agent", "agent": f"n{n}", "total": "cpus:8;mem:8192"} for n in range(1000)])
        first = json.loads(g.ask("/drf/v1/state?since=0")[1])
        g.send({"event": "remove_agent", "agent": "n500"}, {"event": "set_agent", "agent": "n7", "total": "cpus:9"}, SITE)
        time.sleep(1.2)
        text = g.ask(f"/drf/v1/state?since={first['message']}")[1]
        after = json.loads(text)
        rows = [row for edit in after["edits"] for row in (first["rows"][edit[0]:edit[0] + edit[1]] if isinstance(edit, list) else [edit])]
        assert rows == json.loads(g.ask("/drf/v1/state")[1])["rows"] and len(rows) == 1001, len(rows)
        assert len(text) < 1000, len(text)
        assert "rows" in json.loads(g.ask("/drf/v1/state?since=999")[1]) and g.ask("/drf/v1/state?since=x")[0] == 400
        return f"{len(text)} bytes of {len(json.dumps(first))}"


TESTS = [test for name, test in list(globals().items()) if name.startswith("test_")]
