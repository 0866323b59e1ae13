# Tests of failing parts: each error is reported, and nothing is lost. Each test receives the programs. Outside the proof.
import hashlib
import json
import os
import random
import shutil
import signal
import stat
import subprocess
import tempfile
import threading
import time

from calls import AGENT, SITE
from chaos import chaos
from fleet import Fleet, NotRun, mostly_waits, wait


def ended(gateway, text, limit=20):
    """The gateway ends by itself, and says why."""
    wait(lambda: gateway.process.poll() is not None, limit)
    assert gateway.process.poll() not in (None, 0) and text in gateway.log(), gateway.log()[-800:]


def rescind(number):
    return {"event": "rescind", "offer": number}


def program(folder, name, text):
    path = os.path.join(folder, name)
    with open(path, "w", encoding="utf-8") as file:
        file.write(text)
    os.chmod(path, stat.S_IRWXU)
    return path


def test_killed_drf(programs):
    with Fleet("alone", programs.gateway, programs.drf) as fleet:
        g = fleet.gateways[0]
        g.send(AGENT)
        for n in range(5):
            assert g.kill_drf()
            assert g.send(rescind(n)) == [{"name": "UnknownOffer", "refused": 7}]  # the call waits for the new child
        assert g.status()["allocator"]["restarts"] == 5


def test_killed_gateway(programs):
    with Fleet("alone", programs.gateway, programs.drf) as fleet:
        g = fleet.gateways[0]
        first = [g.ask("/drf/v1/events", json.dumps(rescind(n)), Idempotency_Key=f"k{n}") for n in range(20)]
        before = g.ask("/drf/v1/journal")[1]
        g.kill()
        g.start()
        g.until_ready()
        again = [g.ask("/drf/v1/events", json.dumps(rescind(n)), Idempotency_Key=f"k{n}") for n in range(20)]
        assert [(a[:2], a[2]["Drf-Message"]) for a in first] == [(a[:2], a[2]["Drf-Message"]) for a in again]
        assert g.ask("/drf/v1/journal")[1].startswith(before)


def test_two_in_one_folder(programs):
    with Fleet("alone", programs.gateway, programs.drf) as fleet:
        g = fleet.gateways[0]
        said = subprocess.run([programs.gateway, "-data", g.folder, "-tokens", fleet.tokens_path, "-listen", "127.0.0.1:0"], capture_output=True, text=True, timeout=20, check=False)
        assert said.returncode == 1 and "another gateway uses it" in said.stderr, said


def test_journal_changed(programs):
    """The journal is made anew of the list, whatever its file became; but what was answered must come again."""
    with Fleet("alone", programs.gateway, programs.drf, "-cycle", "0") as fleet:
        g = fleet.gateways[0]
        g.send(*[rescind(n) for n in range(100)])
        time.sleep(1.5)
        g.kill()
        path, answered = (os.path.join(g.folder, name) for name in ("journal", "answered"))
        right = open(path, "rb").read()
        with open(path, "r+b") as file:
            file.seek(1000)
            file.write(b"#")
        g.start()
        g.until_ready()
        assert open(path, "rb").read() == right
        g.kill()
        mark = json.load(open(answered))
        assert mark == {"bytes": len(right), "sha256": hashlib.sha256(right).hexdigest()}, mark
        with open(answered, "w") as file:
            json.dump({**mark, "sha256": "0" * 64}, file)
        g.start()
        ended(g, f"first {len(right)} bytes differ")
        os.remove(answered)  # without the mark all is made again
        g.start()
        g.until_ready()
        assert open(path, "rb").read() == right


def test_other_program(programs):
    with Fleet("alone", programs.gateway, programs.drf, "-cycle", "0") as fleet:
        g = fleet.gateways[0]
        g.send(rescind(1))
        time.sleep(1.5)
        g.kill()
        fleet.drf = program(fleet.folder, "other", f"#!/bin/sh\nexec {programs.drf} \"$@\" | stdbuf -oL sed s/UnknownOffer/unknownOffer/\n")
        g.start()
        ended(g, "differ from the replies that were given before")


def test_other_echo(programs):
    with Fleet("alone", programs.gateway, programs.drf, "-cycle", "0") as fleet:
        g = fleet.gateways[0]
        fleet.drf = program(fleet.folder, "other", f"#!/bin/sh\nexec {programs.drf} \"$@\" | stdbuf -oL sed s/77/78/\n")
        g.kill()
        g.start()
        g.until_ready()
        g.send(rescind(1))
        status, answer, _ = g.ask("/drf/v1/events", json.dumps(rescind(77)), timeout=40)
        assert status in (0, 503, 504), answer
        ended(g, "echoed")


def test_list_lost_its_end(programs):
    with Fleet("alone", programs.gateway, programs.drf, "-cycle", "0") as fleet:
        g = fleet.gateways[0]
        g.send(rescind(1))
        g.kill()
        kept = os.path.join(fleet.folder, "kept")
        shutil.copytree(os.path.join(g.folder, "etcd"), kept)
        g.start()
        g.until_ready()
        g.send(rescind(2))
        time.sleep(1.5)
        g.kill()
        shutil.rmtree(os.path.join(g.folder, "etcd"))
        shutil.copytree(kept, os.path.join(g.folder, "etcd"))
        g.start()
        ended(g, "has lost messages that were already answered")


@mostly_waits
def test_lost_majority(programs):
    with Fleet("outer", programs.gateway, programs.drf, "-cycle", "0", "-clock-bound", "4s") as fleet:
        one, other = fleet.gateways
        one.send(rescind(1))
        for n in (0, 1):
            fleet.kill_server(n)
        begun = time.time()
        status, answer, _ = one.ask("/drf/v1/events", json.dumps(rescind(2)), Idempotency_Key="while", timeout=60)
        took = time.time() - begun
        assert status == 503 and "may have been applied" in answer and took < 15, (status, answer, took)
        time.sleep(5)  # longer than clocks may differ
        for n in (0, 1):
            fleet.start_server(n)
        begun = time.time()
        assert wait(lambda: other.ask("/drf/v1/events", json.dumps(rescind(2)), Idempotency_Key="while")[0] == 200, 30)
        back = time.time() - begun
        fleet.agreed()
        assert one.ask("/drf/v1/journal")[1].count('"offer": 2}') == 1
        return f"refused after {took:.1f} s, back after {back:.1f} s"


def test_leader_killed(programs):
    """The longest time without an answer, of either gateway, when etcd's leader is killed, and when it hangs as a machine without power does."""
    with Fleet("outer", programs.gateway, programs.drf, "-cycle", "0") as fleet:
        longest, last, stop = [0, 0], [time.time()] * 2, threading.Event()

        def caller(k):
            n = 0
            while not stop.is_set():
                n += 1
                while not stop.is_set() and fleet.gateways[k].ask("/drf/v1/events", json.dumps(rescind(n)), Idempotency_Key=f"k{k}-{n}")[0] != 200:
                    time.sleep(0.01)
                longest[k] = max(longest[k], time.time() - last[k])
                last[k] = time.time()
        threads = [threading.Thread(target=caller, args=(k,)) for k in range(2)]
        for thread in threads:
            thread.start()
        found = []
        for how in (signal.SIGKILL, signal.SIGSTOP):
            time.sleep(1)
            leader = wait(lambda: [n for n in [fleet.leader()] if n is not None])[0]
            longest[:] = [0, 0]
            fleet.servers[leader][2].send_signal(how)
            time.sleep(6)
            found.append(max(time.time() - min(last), *longest))
            fleet.kill_server(leader)
            fleet.start_server(leader)
        stop.set()
        for thread in threads:
            thread.join()
        assert max(found) < 6, found
        return "longest without an answer, killed and hung: " + ", ".join(f"{gap:.2f} s" for gap in found)


def test_damaged_member(programs):
    """A member whose store is damaged does not come up as if nothing was; from its copy of the list nothing is answered."""
    with Fleet("alone", programs.gateway, programs.drf, "-cycle", "0") as fleet:
        g = fleet.gateways[0]
        for n in range(50):
            g.send(rescind(n))
        time.sleep(1.2)
        g.kill()
        wal = max((os.path.join(folder, name) for folder, _, names in os.walk(os.path.join(g.folder, "etcd")) for name in names if name.endswith(".wal")), key=lambda path: open(path, "rb").read().rstrip(b"\0").__len__())
        text = open(wal, "rb").read()
        at = text.find(b'"offer": 20}')
        assert at > 0
        with open(wal, "r+b") as file:
            file.seek(at)
            file.write(b"X")
        g.start()
        wait(lambda: g.process.poll() is not None, 20)
        assert g.process.poll() not in (None, 0), g.log()[-500:]
        assert "crc" in (g.log() + open(os.path.join(g.folder, "etcd.log"), errors="replace").read()).lower()
        with open(wal, "wb") as file:
            file.write(text)
        store = os.path.join(g.folder, "etcd", "member", "snap", "db")
        whole = open(store, "rb").read()
        assert b'"offer": 20}' in whole
        with open(store, "wb") as file:
            file.write(whole.replace(b'"offer": 20}', b'"offer": 91}'))
        for name in ("journal", "answered"):
            os.remove(os.path.join(g.folder, name))
        g.start()
        ended(g, "is damaged")


def test_wiped_member(programs):
    """A member that lost its folder does not vote as if it had never stood, and what was answered stays; it comes back as a new one alone."""
    with Fleet("three", programs.gateway, programs.drf, "-cycle", "0") as fleet:
        first, _, third = fleet.gateways
        first.send(*[rescind(n) for n in range(20)])
        third.kill()
        shutil.rmtree(third.folder)
        third.start()
        ended(third, "bootstrapped")
        first.send(rescind(77))
        assert first.ask("/drf/v1/journal")[1].count('"offer": 77}') == 1


def mounted(folder, size, image=None):
    """A small disk of its own, where a test may mount one."""
    image = image or os.path.join(folder, "image")
    point = tempfile.mkdtemp(dir=folder)
    if not os.path.exists(image):
        with open(image, "wb") as file:
            file.truncate(size)
        subprocess.run(["mkfs.ext4", "-q", image], check=True, capture_output=True)
    try:
        done = subprocess.run(["mount", "-o", "loop", image, point], capture_output=True, text=True, check=False)
    except FileNotFoundError:
        raise NotRun("there is no `mount`") from None
    if done.returncode:
        raise NotRun("a disk image cannot be mounted here: " + done.stderr.strip())
    return point


def small_disk(folder, size):
    """A folder on a disk that can be filled."""
    try:
        return mounted(folder, size)
    except (NotRun, FileNotFoundError):
        point = tempfile.mkdtemp(dir=folder)
        if subprocess.run(["mount", "-t", "tmpfs", "-o", f"size={size}", "tmpfs", point], capture_output=True, check=False).returncode:
            raise NotRun("no disk can be mounted here") from None
        return point


def test_full_disk(programs):
    folder = tempfile.mkdtemp(prefix="serve-test-")
    point = small_disk(folder, 600 << 20)
    try:
        with Fleet("alone", programs.gateway, programs.drf, "-cycle", "0") as fleet:
            g = fleet.gateways[0]
            g.kill()
            g.folder = os.path.join(point, "data")
            g.start()
            g.until_ready()
            g.send(rescind(1))
            with open(os.path.join(point, "rest"), "wb") as file:
                free = shutil.disk_usage(point).free - (100 << 20)
                os.posix_fallocate(file.fileno(), 0, free)
            status, answer, _ = g.ask("/drf/v1/events", json.dumps(rescind(2)), Idempotency_Key="full")
            assert status == 503 and "nearly full" in answer and "nothing was applied" in answer, answer
            assert g.ask("/drf/v1/report")[0] == 200
            os.remove(os.path.join(point, "rest"))
            assert g.ask("/drf/v1/events", json.dumps(rescind(2)), Idempotency_Key="full")[0] == 200
            assert g.ask("/drf/v1/journal")[1].count('"offer": 2}') == 1
    finally:
        subprocess.run(["umount", "-l", point], check=False)
        shutil.rmtree(folder, ignore_errors=True)


def test_power_cut(programs):
    """A disk as it is at the moment of a cut, without what the system still held back: nothing that was acknowledged is lost."""
    folder = tempfile.mkdtemp(prefix="serve-test-")
    point, second = mounted(folder, 700 << 20), None
    try:
        with Fleet("alone", programs.gateway, programs.drf, "-cycle", "100ms") as fleet:
            g = fleet.gateways[0]
            g.kill()
            g.folder = os.path.join(point, "data")
            g.start()
            g.until_ready()
            acknowledged, stop = {}, threading.Event()

            def caller(number):
                count = 0
                while not stop.is_set():
                    count += 1
                    event = rescind(number * 10**6 + count)
                    status, answer, headers = g.ask("/drf/v1/events", json.dumps(event), timeout=5)
                    if status == 200:
                        acknowledged[event["offer"]] = answer
            threads = [threading.Thread(target=caller, args=(n,)) for n in range(1, 9)]
            for thread in threads:
                thread.start()
            time.sleep(5)
            before = dict(acknowledged)
            copy = os.path.join(folder, "copy")
            subprocess.run(["cp", "--sparse=always", os.path.join(folder, "image"), copy], check=True)
            stop.set()
            for thread in threads:
                thread.join()
            g.kill()
            second = mounted(folder, 0, copy)
            g.folder = os.path.join(second, "data")
            g.start()
            g.until_ready()
            journal = g.ask("/drf/v1/journal")[1]
            lost = [number for number in before if f'"offer": {number}}}' not in journal]
            assert len(before) > 100 and not lost, f"{len(lost)} of {len(before)} lost"
            return f"{len(before)} acknowledged batches before the cut"
    finally:
        for path in filter(None, (second, point)):
            subprocess.run(["umount", "-l", path], check=False)
        shutil.rmtree(folder, ignore_errors=True)


def keys_in(fleet, front):
    words = ["etcdctl", "--endpoints", "unix://" + os.path.join(fleet.gateways[0].folder, "etcd.sock"), "get", "--prefix", "--keys-only", front]
    return subprocess.run(words, capture_output=True, text=True, check=True, env={**os.environ, "ETCDCTL_API": "3"}).stdout.split()


def test_states(programs):
    """States come, what is before them is pruned, keys are kept, and a gateway without a folder starts from a state."""
    with Fleet("alone", programs.gateway, programs.drf, "-cycle", "0", save_every=40) as fleet:
        g = fleet.gateways[0]
        offer = g.send(SITE, AGENT, {"event": "cycle"}, key="first")[2]["offers"][0]
        for n in range(200):
            g.send(rescind(1000 + n), key=f"k{n}")
            time.sleep(0.03)
        assert wait(lambda: g.status()["state"] >= 3, 20), g.log()[-500:]
        assert wait(lambda: len(keys_in(fleet, "drf/snapshots/")) <= 3 and g.status()["kept_keys"] > 20), keys_in(fleet, "drf/snapshots/")
        assert len(keys_in(fleet, "drf/m/")) < 190
        bounds = g.status()["journal"]
        assert bounds["from"] > 0 and g.ask("/drf/v1/journal?from=0")[0] == 410
        status, answer, headers = g.ask("/drf/v1/events", json.dumps(rescind(1000)) + "\n", Idempotency_Key="k0")
        assert status == 410 and "message" in answer and headers["Drf-Message"] == "2", (status, answer, headers)
        assert g.ask("/drf/v1/events", json.dumps(rescind(1)) + "\n", Idempotency_Key="k0")[0] == 409
        assert g.ask("/drf/v1/events", json.dumps(rescind(1199)) + "\n", Idempotency_Key="k199")[0] == 200
        rows = json.loads(g.ask("/drf/v1/state")[1])["rows"]
        assert any(row["row"] == "offer" and row["offer"] == offer["offer"] for row in rows), rows[:5]
        before, report = g.status(), g.ask("/drf/v1/report")[1]
        g.kill()
        for name in os.listdir(g.folder):
            if name.startswith(("journal", "state", "registry", "answered")):
                os.remove(os.path.join(g.folder, name))
        g.start()
        g.until_ready()
        after = g.status()
        assert (after["messages"], after["lines"], after["journal"]["end"], after["offers"]) == (before["messages"], before["lines"], before["journal"]["end"], 1), (before, after)
        assert g.ask("/drf/v1/report")[1] == report
        assert g.send({"event": "decline", "framework": "site", "offer": offer["offer"]}) == [{"ok": True}]
        text = g.ask("/drf/v1/journal")[1]
        state = os.path.join(g.folder, f"state.{min(int(name[6:]) for name in os.listdir(g.folder) if name.startswith('state.') and name[6:].isdigit()):08d}")
        assert os.path.exists(state) and text


def test_states_compared(programs):
    """A gateway whose state differs from another's stops, and says so."""
    with Fleet("outer", programs.gateway, programs.drf, "-cycle", "0", save_every=20) as fleet:
        one, other = fleet.gateways
        other.kill()
        honest, fleet.drf = fleet.drf, program(fleet.folder, "other", f'#!/bin/sh\nif [ "$1" = save ]; then sleep 2; {programs.drf} "$@" | sed s/row/Row/; else exec {programs.drf} "$@"; fi\n')
        other.start()
        other.until_ready()
        fleet.drf = honest
        for n in range(30):
            one.send(rescind(n))
        ended(other, "differs from another gateway's", 30)
        assert one.is_ready()


def test_epoch(programs):
    """Numbers begin anew at the same place in every gateway."""
    with Fleet("outer", programs.gateway, programs.drf, "-cycle", "0", "-epoch-every", "100", save_every=1000) as fleet:
        one, other = fleet.gateways
        offers = one.send(SITE, AGENT, {**AGENT, "agent": "n2"}, {"event": "cycle"})[3]["offers"]
        assert [offer["offer"] for offer in offers] == [1, 2]
        one.send(*[rescind(1000 + n) for n in range(100)])
        assert wait(lambda: all(g.status() and g.status()["epoch"] == 1 and g.status()["ready"] for g in fleet.gateways), 20), [g.log()[-400:] for g in fleet.gateways]
        assert all(g.status()["offers"] == 0 for g in fleet.gateways)
        offers = other.send({"event": "cycle"})[0]["offers"]
        assert [offer["offer"] for offer in offers] == [1, 2], offers
        fleet.agreed()
        reports = [json.loads(g.ask("/drf/v1/report")[1]) for g in fleet.gateways]
        assert reports[0] == reports[1] and reports[0]["nodes"], reports
        other.kill()
        other.start()
        other.until_ready()
        found = fleet.agreed()
        assert found[0]["journal"]["sha256"] == found[1]["journal"]["sha256"] and found[1]["offers"] == 2 and found[1]["epoch"] == 1, found


def test_start_of_many(programs):
    """How long a start takes with 2,000 machines."""
    with Fleet("alone", programs.gateway, programs.drf, "-cycle", "0") as fleet:
        g = fleet.gateways[0]
        for k in range(0, 2000, 200):
            g.send(*[{"event": "add_agent", "agent": f"n{k + n}", "total": "cpus:32;mem:131072;ports:[31000-31999]"} for n in range(200)])
        g.send(*[{"event": "add_framework", "framework": f"f{n}", "roles": [f"r{n % 20}"]} for n in range(200)], {"event": "cycle"})
        g.kill(signal.SIGTERM)
        begun = time.time()
        g.start()
        wait(g.is_ready, 30, 0.01)
        took = time.time() - begun
        assert took < 10, took
        return f"{took:.2f} s"


def chaos_of(kind, seconds, seed, with_states):
    def test(programs):
        return chaos(kind, seconds, seed, programs.gateway, programs.drf, 200 if with_states else None)
    test.name = f"chaos_{kind}" + ("_states" if with_states else "")
    return test


def tests(is_long):
    seconds, seed = (300, random.randrange(10**6)) if is_long else (10, 7)
    return [test for name, test in globals().items() if name.startswith("test_")] + [chaos_of(kind, seconds, seed + k, with_states)
                                                                                   for k, (kind, with_states) in enumerate((("alone", False), ("three", False), ("outer", False), ("outer", True)))]
