# The first start over a data folder of an older gateway. The fixture was made by the last one before this format. Outside the proof.
import json
import os
import subprocess
import tarfile
import time

from fleet import HERE, Fleet, NotRun, wait

FIXTURES = os.path.join(HERE, "fixtures")


def test_conversion(programs):
    """A converted list has the same messages, state, offers and keys; a backup of what it was exists; and a second start converts nothing."""
    was = json.load(open(os.path.join(FIXTURES, "before-packages.status.json")))
    rows = json.load(open(os.path.join(FIXTURES, "before-packages.state.json")))["rows"]
    if time.time() * 1000 < was["at"]:
        raise NotRun("the clock of this machine is behind the fixture's")
    fleet = Fleet("alone", programs.gateway, programs.drf, "-cycle", "0", "-window", "1000000h", "-agent-timeout", "600s", save_every=20)
    g, = fleet.gateways
    with tarfile.open(os.path.join(FIXTURES, "before-packages.tgz")) as archive:
        archive.extractall(fleet.folder)
    os.rename(os.path.join(fleet.folder, "data"), g.folder)
    g.words += ["-name", "one"]
    with fleet:
        now = g.status()
        for name in ("messages", "lines", "bytes", "epoch", "offers", "place"):
            assert now[name] == was[name], (name, now, was)
        assert now["journal"]["sha256"] == was["journal"]["sha256"], (now, was)
        assert json.loads(g.ask("/drf/v1/state")[1])["rows"] == rows
        first = '{"event":"add_framework","framework":"site","roles":["web"]}\n{"event":"add_agent","agent":"n1","total":"cpus:4;mem:4096"}\n' \
                '{"event":"add_agent","agent":"n2","total":"cpus:4;mem:4096"}\n{"event":"cycle"}'
        for key, body, message in (("first", first, "1"), ("k1", '{"event":"rescind","offer":1001}', "2")):
            status, answer, headers = g.ask("/drf/v1/events", body, Idempotency_Key=key)
            assert (status, headers.get("Drf-Message"), headers.get("Drf-Applied")) == (410, message, "yes"), (key, status, answer)
        assert g.ask("/drf/v1/events", '{"event":"rescind","offer":1}', Idempotency_Key="k1")[0] == 409
        status, answer, headers = g.ask("/drf/v1/events", '{"event":"rescind","offer":1075}', Idempotency_Key="k75")
        assert (status, answer, headers["Drf-Message"]) == (200, '{"name":"UnknownOffer","refused":7}\n', "79"), (status, answer)
        assert g.send({"event": "decline", "framework": "site", "offer": 1}) == [{"ok": True}] and g.status()["offers"] == 1
        backup = os.path.join(g.folder, "backup-1", "etcd.snapshot")
        about = subprocess.run(["etcdctl", "snapshot", "status", backup, "-w", "json"], capture_output=True, text=True, check=True, env={**os.environ, "ETCDCTL_API": "3"}).stdout
        assert json.loads(about)["totalKey"] > 50, about
        assert "it is converted" in g.log()
        messages = g.status()["messages"]
        g.kill()
        g.start()
        g.until_ready()
        assert g.log().count("it is converted") == 1 and g.status()["messages"] == messages
        assert g.ask("/drf/v1/events", first, Idempotency_Key="first")[0] == 410
        # Snapshots after the conversion are the same whichever snapshot a gateway started from.
        for turn in range(3):
            number = g.status()["state"]
            g.send({"event": "add_agent", "agent": f"new{turn}", "total": "cpus:1"}, {"event": "remove_agent", "agent": f"new{turn}"})
            for n in range(25):
                g.send({"event": "rescind", "offer": 5000 + n})
            assert wait(lambda: g.status()["state"] > number, 20), g.log()[-600:]
            g.kill()
            g.start()
            g.until_ready()
            time.sleep(1)
            assert g.is_ready() and g.process.poll() is None, g.log()[-600:]
        assert "differs" not in g.log(), g.log()[-600:]
        return f"{was['messages']} messages"


TESTS = [test for name, test in list(globals().items()) if name.startswith("test_")]
