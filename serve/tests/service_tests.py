# Tests over a real gateway: the page, the client and its example, the dashboard. Outside the proof.
import json
import os
import re
import shutil
import subprocess
import sys
import threading
import time


from chromium import NotRun, equal, holds, test
from fleet import SERVE, Fleet
from page_tests import HOSTILE
from programs import find_programs
from service import Service, event, fill
from durzhanok import Durzhanok, Refused, Unanswered, new_key


class Room:
    """The programs, found or built once, and one gateway that most tests share."""

    def __init__(self, folder):
        self.folder, self.programs, self.shared, self.started = folder, None, None, []

    def start(self, *words):
        self.programs = self.programs or find_programs()
        self.started.append(Service(self.programs, *words))
        return self.started[-1]

    def service(self):
        if not self.shared:
            self.shared = self.start()
            fill(self.shared)
        return self.shared

    def end(self):
        if self.shared and self.shared.gateway.process.poll() is not None:
            print("FAILED the gateway ended by itself: " + self.shared.gateway.log()[-500:].replace("\n", " | "), flush=True)
        for service in self.started:  # those of tests that failed among them
            service.end()


# ---- the page

@test
def live_rows_come_in(browser, room):
    service = room.service()
    browser.enter(service.url, service.tokens["eye"])
    browser.wait("the tree", lambda: {"web", "search", "etl"} <= set(browser.texts("#tree .label")))
    browser.wait("health", lambda: browser.text("#health") == "Live")
    service.client().send(event("add_framework", framework="late", roles=["late/role"]))
    browser.wait("the event", lambda: "Framework late registered in late/role" in browser.texts("#feed li span"), 20)
    browser.wait("the row", lambda: "late" in browser.texts("#tree .role .label"), 20)
    service.client().send(event("remove_framework", framework="late"))
    browser.wait("it is gone", lambda: "late" not in browser.texts("#tree .role .label"), 20)
    equal("console", browser.console(), [])


@test
def shares_are_those_of_the_report(browser, room):
    service = room.start()
    fill(service)
    report = {node["path"]: node for node in service.get("/drf/v1/report")["nodes"]}
    browser.enter(service.url, service.tokens["eye"])
    browser.wait("the tree", lambda: browser.texts("#tree tbody tr"))
    shown = browser.ask("state", "return [...m.view.cluster.nodes.values()].map(n => [n.path, n.share, n.weighted, n.count])")
    ratio = lambda text: int(text.split("/")[0]) / int(text.split("/")[1])
    for path, share, weighted, count in shown:
        if path in report:
            wanted = report[path]
            holds(f"{path}: {share}, {weighted}, {count} where the report has {wanted}",
                  abs(share - ratio(wanted["share"])) < 1e-9 and abs(weighted - ratio(wanted["weighted"])) < 1e-9 and count == wanted["count"])
    equal("nodes that are not shown", {path for path in report if not path.endswith("/.")} - {path for path, *_ in shown}, set())
    service.end()


@test
def a_small_change_is_a_small_answer(browser, room):
    service = room.start()
    service.client().send(*[event("add_agent", agent=f"n{k}", total="cpus:8;mem:1024") for k in range(1000)])
    whole = service.gateway.ask("/drf/v1/state?since=0")[1]
    holds("all rows", len(json.loads(whole)["rows"]) == 1001)
    time.sleep(1.1)  # a state is answered again within a second
    service.client().send(event("deactivate_agent", agent="n500"))
    change = json.loads(service.gateway.ask(f"/drf/v1/state?since={json.loads(whole)['message']}")[1])
    new = [edit for edit in change["edits"] if isinstance(edit, dict) and edit["row"] == "agent"]
    equal("the row that changed", new, [{"active": False, "agent": "n500", "row": "agent", "total": "cpus:8;mem:1024"}])
    holds("and runs of rows that stay", len(change["edits"]) <= 4)
    service.end()


@test
def hostile_lines_are_text(browser, room):
    service = room.service()
    browser.enter(service.url, service.tokens["eye"])
    browser.wait("the tree", lambda: browser.texts("#tree tbody tr"))
    service.gateway.ask("/drf/v1/events", HOSTILE + "\u202e")
    service.client().send(event("add_framework", framework="odd", roles=["<b>&lt"]))
    browser.wait("the line", lambda: "Line: " + HOSTILE + "\\u{202e}" in browser.text("#feed"))
    browser.wait("the role", lambda: "<b>&lt" in browser.texts("#tree .label"))
    equal("made of it", browser.run("return [document.images.length, document.scripts.length, window.taken ?? null]"), [0, 1, None])
    equal("the only script", browser.run("return [document.scripts[0].getAttribute('src'), document.scripts[0].textContent]"), ["/page/main.js", ""])
    service.client().send(event("remove_framework", framework="odd"))
    equal("console", browser.console(), [])


@test
def the_page_may_run_nothing_but_itself(browser, room):
    service = room.service()
    browser.enter(service.url, service.tokens["eye"])
    browser.wait("the tree", lambda: browser.texts("#tree tbody tr"))
    ran = browser.run("try { const s = document.createElement('script'); s.textContent = 'window.taken = 1'; document.body.append(s); } catch { } return window.taken ?? null")
    equal("a script that was put in", ran, None)
    text = browser.run("try { document.body.insertAdjacentHTML('beforeend', '<i></i>'); return 'taken'; } catch (e) { return e.name; }")
    equal("markup of a text", text, "TypeError")
    blocked = browser.run("const e = document.createElement('div'); e.setAttribute('style', 'color: red'); return e.style.color")
    equal("a style that was put in", blocked, "")
    holds("the policy says so", any("Content Security Policy" in line or "TrustedHTML" in line for line in browser.console()))


@test
def why_nothing_of_a_real_cluster(browser, room):
    service = room.service()
    browser.enter(service.url, service.tokens["eye"])
    browser.wait("the tree", lambda: browser.texts("#tree tbody tr"))
    browser.wait("a note of who holds nothing", lambda: "1 framework holds nothing: waits" in browser.text("#notes"))
    browser.run("[...document.querySelectorAll('#notes a')].find(a => a.textContent === 'Why?').click()")
    browser.wait("the framework", lambda: browser.text("#framework-title") == "waits")
    browser.one("#framework .extra button").click()
    browser.wait("the answer", lambda: browser.texts(".because li") and "Asking" not in browser.text(".because"))
    told = browser.texts(".because li")
    holds(f"the limit is told: {told}", any(line.startswith("ops/later: the limit of ops/later leaves too little") for line in told))


@test
def a_token_without_the_right_to_read_is_told(browser, room):
    service = room.service()
    browser.enter(service.url, service.tokens["site"])
    browser.wait("the refusal", lambda: "does not have the right read" in browser.text("#denied"))
    browser.console()


@test
def a_killed_gateway_comes_back(browser, room):
    service = room.start()
    service.client().send(event("add_framework", framework="site", roles=["web"]))
    browser.enter(service.url, service.tokens["eye"])
    browser.wait("live", lambda: browser.text("#health") == "Live")
    service.gateway.kill()
    browser.wait("lost", lambda: browser.text("#health") == "No answer" and browser.one("#lost").is_displayed())
    service.start()
    browser.wait("live again", lambda: browser.text("#health") == "Live" and not browser.one("#lost").is_displayed(), 30)
    service.client().send(event("add_framework", framework="shop", roles=["web"]))
    browser.wait("events again", lambda: "Framework shop registered in web" in browser.texts("#feed li span"), 20)
    browser.console()
    service.end()


# ---- the client

@test
def a_batch_is_taken_once(browser, room):
    service = room.service()
    cluster, key, batch = service.client(), new_key(), event("add_agent", agent="once", total="cpus:1")
    equal("first", cluster.send(batch, key=key), [{"ok": True}])
    equal("sent again", cluster.send(batch, key=key), [{"ok": True}])
    equal("another batch", cluster.send(batch), [{"name": "KnownAgent", "refused": 4}])
    refused(409, lambda: cluster.send(event("remove_agent", agent="once"), key=key))
    refused(401, lambda: Durzhanok([service.url], "no token").report())
    refused(403, lambda: service.client("site").send(batch))
    refused(410, lambda: cluster.send(batch, key="01000000-0000-7000-8000-000000000000"))
    equal("by whom it may", service.client("rack").send(event("add_agent", agent="n77", total="cpus:1")), [{"ok": True}])
    cluster.send(event("remove_agent", agent="once"), event("remove_agent", agent="n77"))


def refused(status, call):
    try:
        call()
    except Refused as fault:
        equal("status", fault.status, status)
    else:
        raise AssertionError(f"{status} did not come")


@test
def the_client_waits_for_a_killed_gateway(browser, room):
    service = room.start()
    service.gateway.kill()
    replies = []
    caller = threading.Thread(target=lambda: replies.extend(service.client().send(event("add_agent", agent="n1", total="cpus:1"))))
    caller.start()
    time.sleep(0.5)
    service.start()
    caller.join(20)
    equal("the replies", replies, [{"ok": True}])
    service.gateway.kill()
    try:
        service.client(patience=0.5).send(event("report"), key="k1")
        raise AssertionError("an answer of a gateway that is dead")
    except Unanswered as fault:
        equal("the key to send again", fault.key, "k1")
    service.start()
    service.end()


@test
def offers_are_followed_over_a_broken_connection(browser, room):
    service = room.start()
    admin, told = service.client(), []
    admin.send(event("add_agent", agent="n1", total="cpus:2;mem:64"), event("add_agent", agent="n2", total="cpus:2;mem:64"),
               event("add_framework", framework="site", roles=["web"]), event("cycle"))
    threading.Thread(target=lambda: told.extend(iter_to(service.client("site").offers("site"), told)), daemon=True).start()
    browser.wait("two offers", lambda: [(kind, o["offer"]) for kind, o in told] == [("offer", 1), ("offer", 2)])
    admin.send(event("rescind", offer=1))
    browser.wait("one gone", lambda: [(kind, o["offer"]) for kind, o in told[2:]] == [("gone", 1)])
    service.gateway.kill()
    service.start()
    admin.send(event("rescind", offer=2), event("cycle"))
    browser.wait("what ended and came", lambda: sorted((kind, o["offer"]) for kind, o in told[3:]) == [("gone", 2), ("offer", 3), ("offer", 4)], 20)
    service.end()


def iter_to(stream, told):
    for each in stream:
        told.append(each)
    return []


@test
def the_client_trusts_the_right_certificate(browser, room):
    service = room.start()
    cert, key = (os.path.join(service.folder, name) for name in ("cert.pem", "key.pem"))
    subprocess.run(["openssl", "req", "-x509", "-newkey", "ec", "-pkeyopt", "ec_paramgen_curve:P-256", "-nodes", "-keyout", key, "-out", cert,
                    "-days", "2", "-subj", "/CN=127.0.0.1", "-addext", "subjectAltName=IP:127.0.0.1"], check=True, capture_output=True)
    service.gateway.kill()
    service.gateway.start("-cert", cert, "-key", key)
    url, token = service.url.replace("http:", "https:"), service.tokens["admin"]
    equal("with it", Durzhanok([url], token, authority=cert).send(event("cycle")), [{"offers": []}])
    try:
        Durzhanok([url], token, patience=0.5).report()
        raise AssertionError("a certificate of nobody was trusted")
    except Unanswered as fault:
        holds(str(fault), "certificate" in str(fault).lower())
    service.end()


@test
def the_example_runs_its_tasks(browser, room):
    service = room.start("-cycle", "200ms")
    service.client().send(*[event("add_agent", agent=f"n{k}", total="cpus:4;mem:1024;ports:[1-9]") for k in range(3)])
    token = os.path.join(service.folder, "site.token")
    with open(token, "w", encoding="utf-8") as file:
        file.write(service.tokens["site"] + "\n")
    words = [sys.executable, os.path.join(SERVE, "client", "example.py"), "--url", service.url, "--token-file", token,
             "--framework", "site", "--role", "web", "--tasks", "20", "--seconds", "0.3"]
    done = subprocess.run(words, capture_output=True, text=True, timeout=60)
    equal("its last word", (done.returncode, done.stdout.splitlines()[-1:], done.stderr), (0, ["20 tasks ended"], ""))
    journal = service.gateway.ask("/drf/v1/journal")[1]
    equal("tasks that ended", journal.count('"event":"finish"'), 20)
    equal("what it left", service.get("/drf/v1/report")["nodes"], [])
    good = subprocess.run([room.programs.drf, "check"], input=journal.encode(), capture_output=True, check=False)
    equal("the journal", good.stdout[:4], b"good")
    service.end()


@test
def the_example_sends_heartbeats(browser, room):
    service = room.start("-framework-timeout", "2s")
    cluster = service.client("site")
    cluster.send(event("add_framework", framework="site", roles=["web"]))
    beat = cluster.keep_alive("/frameworks/site", seconds=0.3)
    time.sleep(4)
    holds("it stands while it is alive", service.get("/drf/v1/report")["nodes"])
    beat.set()
    browser.wait("it leaves when it is silent", lambda: not service.get("/drf/v1/report")["nodes"])
    service.end()


# ---- what serve/README.md tells an operator to do

def etcdctl(*words):
    """What it writes; it is tried again while a new leader is found."""
    if not shutil.which("etcdctl"):
        raise NotRun("there is no etcdctl: apt-get install etcd-client")
    until = time.time() + 30
    while True:
        done = subprocess.run(["etcdctl", *words], capture_output=True, text=True, check=False, env={**os.environ, "ETCDCTL_API": "3"})
        if done.returncode == 0:
            return done.stdout
        assert time.time() < until, done.stderr
        time.sleep(1)


@test
def a_backup_is_restored(browser, room):
    service = room.start()
    cluster, key, copy = service.client(), new_key(), os.path.join(room.folder, "backup.db")
    cluster.send(event("add_framework", framework="site", roles=["web"]), key=key)
    etcdctl("--endpoints=unix://" + os.path.join(service.gateway.folder, "etcd.sock"), "snapshot", "save", copy)
    service.gateway.kill()
    shutil.rmtree(service.gateway.folder)
    etcdctl("snapshot", "restore", copy, "--data-dir", os.path.join(service.gateway.folder, "etcd"), "--name", "g0",
            "--initial-cluster", "g0=http://localhost:2380", "--initial-advertise-peer-urls", "http://localhost:2380")
    service.start()
    equal("what was taken is not taken again", cluster.send(event("add_framework", framework="site", roles=["web"]), key=key), [{"ok": True}])
    equal("events", service.get("/drf/v1/status")["lines"], 1)
    service.end()


@test
def a_machine_is_replaced(browser, room):
    room.service()
    with Fleet("three", room.programs.gateway, room.programs.drf, "-cycle", "0") as fleet:
        first, _, third = fleet.gateways
        first.send(event("add_framework", framework="site", roles=["web"]))
        third.kill()
        shutil.rmtree(third.folder)
        endpoint = "--endpoints=unix://" + os.path.join(first.folder, "etcd.sock")
        line, = [line for line in etcdctl(endpoint, "member", "list").splitlines() if f" {third.name}, " in line]
        etcdctl(endpoint, "member", "remove", line.split(",")[0])
        etcdctl(endpoint, "member", "add", third.name, "--peer-urls=" + line.split(", ")[3])
        third.start("-join")
        third.until_ready()
        equal("what it has", [status["journal"]["sha256"] for status in fleet.agreed()], [first.status()["journal"]["sha256"]] * 3)
        third.send(event("remove_framework", framework="site"))


# ---- the dashboard, the unit

def names_in(dashboard):
    """The metrics that its queries name."""
    queries = [target["expr"] for panel in dashboard["panels"] for target in panel.get("targets", [])]
    queries += [variable["query"]["query"] for variable in dashboard["templating"]["list"] if variable["type"] == "query"]
    return set(re.findall(r"\b(?:drf|etcd|process)_[a-z_]+", " ".join(queries)))


@test
def each_metric_of_the_dashboard_is_told(browser, room):
    service = room.start("-archive", os.path.join(room.folder, "archive"))
    fill(service)
    with open(os.path.join(SERVE, "grafana.json"), encoding="utf-8") as file:
        wanted = names_in(json.load(file))
    admin = service.client()
    admin.send(*[event("add_agent", agent=agent, total="cpus:1;mem:64") for agent in ("m1", "m2", "m3")])
    offers = {offer["agent"]: offer for offer in admin.send(event("cycle"))[0]["offers"]}
    by = {agent: {"framework": offers[agent]["framework"], "offer": offers[agent]["offer"]} for agent in ("m1", "m2")}
    replies = admin.send(event("accept", **by["m1"], task="metric", use="cpus:1"), event("decline", **by["m2"]), event("rescind", offer=offers["m3"]["offer"]))
    equal("answers", replies, [{"ok": True}] * 3)
    service.gateway.ask("/nothing")
    told = set(re.findall(r"^([a-z_]+)", re.sub(r"^#.*$", "", service.gateway.ask("/metrics")[1], flags=re.M), flags=re.M))
    equal("named, and not told", wanted - told, set())
    holds(f"few metrics: {wanted}", len(wanted) > 15)
    service.end()
