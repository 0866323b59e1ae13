# Gateways and etcd members for tests: started in folders of their own, asked, killed. Outside the proof.
import json
import os
import shutil
import signal
import socket
import subprocess
import sys
import tempfile
import threading
import time
import urllib.error
import urllib.request

HERE = os.path.dirname(os.path.realpath(__file__))
SERVE = os.path.dirname(HERE)
RIGHTS = {"admin": ["admin"], "eye": ["read"], "site": ["framework:site", "role:web"], "rack": ["agent:n*"], "ops": ["operate", "clock"]}
taken_ports, taking = set(), threading.Lock()


class NotRun(Exception):
    """Why a test cannot be run here."""


def mostly_waits(test):
    """Marks a test that mostly waits for time to pass. Such tests run at the same time, in threads."""
    test.mostly_waits = True
    return test


def free_port():
    with taking:
        while True:
            with socket.socket() as s:
                s.bind(("127.0.0.1", 0))
                port = s.getsockname()[1]
            if port not in taken_ports:
                taken_ports.add(port)
                return port


def wait(what, limit=30, pause=0.05):
    """The first answer of `what` that is true, or the last one at the end of the time."""
    until = time.time() + limit
    while True:
        answer = what()
        if answer or time.time() > until:
            return answer
        time.sleep(pause)


def make_certificate(folder):
    """The files of a certificate for this machine that is its own authority, and of its key."""
    cert, key = os.path.join(folder, "cert.pem"), os.path.join(folder, "key.pem")
    subprocess.run(["openssl", "req", "-x509", "-newkey", "ec", "-pkeyopt", "ec_paramgen_curve:P-256", "-nodes", "-keyout", key, "-out", cert, "-days", "2", "-subj", "/CN=127.0.0.1", "-addext", "subjectAltName=IP:127.0.0.1"],
                   check=True, capture_output=True)
    return cert, key


class Gateway:
    def __init__(self, fleet, name, words):
        self.fleet, self.name, self.words = fleet, name, list(words)
        self.folder = os.path.join(fleet.folder, name)
        self.url = f"http://127.0.0.1:{free_port()}"
        self.process = None

    def start(self, *more):
        os.makedirs(self.folder, exist_ok=True)
        with open(self.folder + ".log", "ab") as log:
            self.process = subprocess.Popen([self.fleet.gateway, "-data", self.folder, "-drf", self.fleet.drf, "-listen", self.url[7:], "-tokens", self.fleet.tokens_path,
                                             "-name", self.name, *self.words, *more], stdout=log, stderr=log, env=self.fleet.environment)

    def kill(self, how=signal.SIGKILL):
        if self.process:
            self.process.send_signal(how)
            self.process.wait()

    def log(self):
        return open(self.folder + ".log", errors="replace").read()

    def ask(self, path, body=None, name="admin", timeout=30, **headers):
        """The status, the text and the headers of an answer; the status is 0 where there is none."""
        headers = {key.replace("_", "-"): value for key, value in headers.items()}
        if name:
            headers["Authorization"] = "Bearer " + self.fleet.tokens[name]
        request = urllib.request.Request(self.url + path, body.encode() if isinstance(body, str) else body, headers)
        try:
            with urllib.request.urlopen(request, timeout=timeout) as answer:
                return answer.status, answer.read().decode(), answer.headers
        except urllib.error.HTTPError as fault:
            return fault.code, fault.read().decode(), fault.headers
        except OSError as fault:
            return 0, str(fault), {}

    def send(self, *events, key=None, name="admin"):
        """The replies to events, which must be taken."""
        status, text, _ = self.ask("/drf/v1/events", "".join(json.dumps(event) + "\n" for event in events), name=name, **({"Idempotency_Key": key} if key else {}))
        assert status == 200, f"{status} {text}"
        return [json.loads(line) for line in text.splitlines()]

    def status(self):
        status, text, _ = self.ask("/drf/v1/status", timeout=2)
        return json.loads(text) if status == 200 else None

    def is_ready(self):
        status = self.status()
        return status and status["ready"] and not status["clock_fault"]

    def until_ready(self, limit=40):
        begun = time.time()
        assert wait(self.is_ready, limit), f"{self.name} is not ready: {self.log()[-600:]}"
        return time.time() - begun

    def kill_drf(self):
        status = self.status()
        if status and status["allocator"]["pid"]:
            try:
                os.kill(status["allocator"]["pid"], signal.SIGKILL)
                return True
            except ProcessLookupError:
                pass
        return False


class Fleet:
    """Gateways: one with its own etcd, three that are members of one, or two over three processes of etcd-server."""

    def __init__(self, kind, gateway, drf, *words, save_every=None, is_secure=False):
        self.gateway, self.drf, self.kind = gateway, drf, kind
        self.folder = tempfile.mkdtemp(prefix="serve-test-")
        self.tokens_path = os.path.join(self.folder, "tokens.json")
        self.tokens = {name: subprocess.run([gateway, "token", self.tokens_path, name, *rights], check=True, capture_output=True, text=True).stdout.strip() for name, rights in RIGHTS.items()}
        self.environment = dict(os.environ)
        if save_every:
            words = [*words, "-save-every", str(save_every), "-save-apart", "0"]
        self.servers = []
        if kind == "outer":
            self.make_servers()
            words = [*words, "-etcd", ",".join(url for _, url, _ in self.servers)]
        count = {"alone": 1, "three": 3, "outer": 2}[kind]
        if kind == "three":
            words = [*words, "-members", ",".join(f"g{n}=http{'s' if is_secure else ''}://127.0.0.1:{free_port()}" for n in range(count))]
        if is_secure:
            cert, key = make_certificate(self.folder)
            words = [*words, "-peer-cert", cert, "-peer-key", key, "-peer-ca", cert]
        self.gateways = [Gateway(self, f"g{n}", words) for n in range(count)]

    def make_servers(self):
        peers = [(f"e{n}", free_port(), free_port()) for n in range(3)]
        cluster = ",".join(f"{name}=http://127.0.0.1:{peer}" for name, peer, _ in peers)
        for name, peer, client in peers:
            url = f"http://127.0.0.1:{client}"
            words = ["etcd", "--name", name, "--data-dir", os.path.join(self.folder, name), "--listen-peer-urls", f"http://127.0.0.1:{peer}", "--initial-advertise-peer-urls", f"http://127.0.0.1:{peer}",
                     "--listen-client-urls", url, "--advertise-client-urls", url, "--initial-cluster", cluster, "--max-request-bytes", "10485760", "--heartbeat-interval", "50", "--election-timeout", "600", "--logger", "zap", "--log-level", "error"]
            self.servers.append([words, url, None])

    def start_server(self, n):
        with open(os.path.join(self.folder, f"e{n}.log"), "ab") as log:
            self.servers[n][2] = subprocess.Popen(self.servers[n][0], stdout=log, stderr=log, env={**os.environ, "ETCD_UNSUPPORTED_ARCH": ""})

    def kill_server(self, n):
        self.servers[n][2].kill()
        self.servers[n][2].wait()

    def leader(self):
        """Which of the etcd-server processes leads."""
        for n, (_, url, _) in enumerate(self.servers):
            try:
                with urllib.request.urlopen(urllib.request.Request(url + "/v3/maintenance/status", b"{}"), timeout=1) as answer:
                    about = json.load(answer)
                if about.get("leader") == about["header"]["member_id"]:
                    return n
            except (OSError, ValueError):
                pass
        return None

    def start(self):
        for n in range(len(self.servers)):
            self.start_server(n)
        for gateway in self.gateways:
            gateway.start()
        for gateway in self.gateways:
            gateway.until_ready()
        return self

    def __enter__(self):
        return self.start()

    def __exit__(self, kind, error, trace):
        for process in [gateway.process for gateway in self.gateways] + [server[2] for server in self.servers]:
            if process and process.poll() is None:
                process.kill()
                process.wait()
        if kind is None:
            shutil.rmtree(self.folder, ignore_errors=True)
        else:
            print(f"the folder {self.folder} is kept", file=sys.stderr)

    def agreed(self, limit=30):
        """Waits until all gateways have the same messages, and gives their statuses."""
        def same():
            found = [gateway.status() for gateway in self.gateways]
            return found if all(found) and all(s["ready"] and s["messages"] == found[0]["messages"] for s in found) else None
        found = wait(same, limit)
        assert found, [gateway.status() for gateway in self.gateways]
        return found
