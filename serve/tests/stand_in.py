# A stand-in for a gateway, for tests of the page alone: it shows what is hard to produce with a real gateway, such as a large cluster or an error. Outside the proof.
import json
import os
import queue
import re
import threading
from http.server import BaseHTTPRequestHandler, ThreadingHTTPServer

TOKEN = "a-token-for-tests"


API = os.path.join(os.path.dirname(os.path.realpath(__file__)), "..", "internal", "api")
KINDS = {".html": "text/html; charset=utf-8", ".js": "text/javascript; charset=utf-8", ".css": "text/css; charset=utf-8"}


def policy():
    """The header that the gateway sends with the page."""
    with open(os.path.join(API, "page.go"), encoding="utf-8") as file:
        return "".join(re.findall(r'"([^"]*)"', re.search(r"const pagePolicy = (.*?)\n\n", file.read(), re.S)[1]))


def state(clock=1795860000000, events=40, next_offer=9):
    return {"clock": clock, "events": events, "next_offer": next_offer, "row": "state"}


def agent(name, total, active=True):
    return {"active": active, "agent": name, "row": "agent", "total": total}


def framework(name, *clients):
    """Of each client: its role, the offers that it got, and whether it is suppressed."""
    return {"clients": [{"count": count, "role": role, "suppressed": asleep} for role, count, asleep in clients], "framework": name, "row": "framework"}


def limit(role, text):
    return {"limit": text, "role": role, "row": "limit"}


def offer(number, name, role, where, resources):
    return {"agent": where, "framework": name, "offer": number, "resources": resources, "role": role, "row": "offer"}


def task(label, name, role, where, use):
    return {"agent": where, "framework": name, "role": role, "row": "task", "task": label, "use": use}


def small_rows():
    """Four agents and three teams, with round numbers: what the page has to show can be told by hand."""
    return [
        state(),
        agent("n1", "cpus:8;mem:8192;ports:[31000-31099]"), agent("n2", "cpus:8;mem:8192"),
        agent("n3", "cpus:2;cpus(data):2;mem:8192;disk:{sda,sdb}"), agent("n4", "cpus:20;mem:8192", active=False),
        framework("site", ("web", 3, False)), framework("query", ("data/adhoc", 2, False)),
        framework("batch", ("data", 1, False), ("web", 0, True)), framework("tests", ("ci", 0, False)),
        {"role": "web", "row": "weight", "weight": "2"},
        limit("data", "cpus:4;mem:8192"), limit("web", "cpus:9"),
        offer(8, "site", "web", "n2", "cpus:4;mem:1024"),
        task("front", "site", "web", "n1", "cpus:4;mem:1024;ports:[31000-31009]"),
        task("scan", "query", "data/adhoc", "n3", "cpus:1;cpus(data):1;mem:4096"),
        task("etl", "batch", "data", "n1", "cpus:1;mem:1024"),
        {"agent": "n1", "framework": "batch", "resources": "cpus:3;mem:6144", "role": "data", "row": "filter", "until": 1795860005000},
    ]


def large_rows(agents=2000, frameworks=200):
    """A cluster of many: five tasks for each agent, an offer on each tenth."""
    def role(k):
        return f"team{k % 20}/part{k % 3}"

    def holder(k):
        return f"framework{k % frameworks}", role(k % frameworks), f"rack{k % agents // 40}-{k % agents % 40}"

    return [
        state(events=100000, next_offer=50000),
        *[agent(f"rack{k // 40}-{k % 40}", "cpus:32;mem:131072;ports:[31000-31999]", k % 50 != 7) for k in range(agents)],
        *[framework(f"framework{k}", (role(k), k, False)) for k in range(frameworks)],
        *[limit(f"team{k}", f"cpus:{3000 + 100 * k}") for k in range(20)],
        *[offer(40000 + k, *holder(k), "cpus:4;mem:8192") for k in range(0, agents, 10)],
        *[task(f"t{k}", *holder(k), f"cpus:{1 + k % 5};mem:4096") for k in range(5 * agents)],
    ]


class Handler(BaseHTTPRequestHandler):
    protocol_version = "HTTP/1.1"

    def log_message(self, *words):
        pass

    def answer(self, code, body, kind="application/json", **headers):
        body = body if isinstance(body, bytes) else body.encode()
        self.send_response(code)
        for name, value in {"Content-Type": kind, "Content-Length": str(len(body)), **headers}.items():
            self.send_header(name.replace("_", "-"), value)
        self.end_headers()
        self.wfile.write(body)

    def do_GET(self):
        own, path = self.server.own, self.path.split("?")[0]
        if own.ended:  # a connection that was kept
            self.close_connection = True
            return None
        name = "index.html" if path == "/" else path.removeprefix("/page/") if path.startswith("/page/") else ""
        if name:
            with open(os.path.join(API, "page", os.path.basename(name)), "rb") as file:
                return self.answer(200, file.read(), KINDS[os.path.splitext(name)[1]], Content_Security_Policy=policy())
        if self.headers.get("Authorization") != "Bearer " + TOKEN:
            return self.answer(401, "no such token\n", "text/plain")
        if path == "/drf/v1/replies":
            return self.stream(own)
        if path == "/drf/v1/journal":
            return self.answer(200, own.journal[int(self.path.split("=")[1]):], "application/x-ndjson")
        code, body = own.answers.get(path, (404, "no such call\n"))
        self.answer(code, body if isinstance(body, str) else json.dumps(body))

    def do_POST(self):
        own, body = self.server.own, self.rfile.read(int(self.headers.get("Content-Length", 0))).decode()
        own.sent.append((self.path, body, self.headers.get("Idempotency-Key")))
        answer = own.answers.get(self.path, (404, "no such call\n"))
        if answer is None:  # the connection breaks before an answer
            self.close_connection = True
            return None
        code, text, *more = answer
        return self.answer(code, text, "application/x-ndjson", **(more[0] if more else {}))

    def stream(self, own):
        self.send_response(200)
        self.send_header("Content-Type", "text/event-stream")
        self.send_header("Connection", "close")
        self.end_headers()
        listener = queue.Queue()
        own.listeners.append(listener)
        try:
            while (text := listener.get()) is not None:
                self.wfile.write(text.encode())
                self.wfile.flush()
        except OSError:
            pass
        self.close_connection = True


class StandIn:
    """Answers what a test puts into `answers`, by path, as a status and a body."""

    def __init__(self, rows, *rights, details=()):
        self.listeners, self.message, self.journal, self.ended, self.sent, self.version = [], 1, "", False, [], 0
        self.answers = {"/drf/v1/explain": (200, ""), "/drf/v1/report": (200, {"nodes": [], "total": ""}), "/drf/v1/me": (200, {"name": "me", "rights": ["read", *rights]})}
        self.detail(*details)
        self.server = ThreadingHTTPServer(("127.0.0.1", 0), Handler)
        self.server.own, self.server.daemon_threads = self, True
        self.url = f"http://127.0.0.1:{self.server.server_port}"
        self.show(rows)
        threading.Thread(target=self.server.serve_forever, daemon=True).start()

    def show(self, rows, **status):
        self.message += 1
        self.answers["/drf/v1/state"] = (200, {"message": self.message, "rows": rows})
        self.answers["/drf/v1/status"] = (200, {
            "name": "a", "ready": True, "fault": "", "clock_fault": "", "messages": self.message, "at": 1795860000000,
            "journal": {"from": 0, "end": len(self.journal)}, "allocator": {"restarts": 0}, **status})

    def detail(self, *rows):
        self.version, self.details = self.version + 1, rows
        self.answers["/drf/v1/details"] = (200, {"version": str(self.version), "rows": list(rows)})

    def tell(self, line, reply):
        self.message += 1
        data = json.dumps({"line": line, "message": self.message, "reply": json.loads(reply)})
        text = f"id: {self.message}\nevent: reply\ndata: {data}\n\n"
        for listener in self.listeners:
            listener.put(text)

    def end(self):
        self.ended = True
        for listener in self.listeners:
            listener.put(None)
        self.server.shutdown()
        self.server.server_close()
