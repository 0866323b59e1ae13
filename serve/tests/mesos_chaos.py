#!/usr/bin/env python3
# Mesos' frameworks over three gateways and five agents, each in a network namespace, under random failures. Outside the proof.
"""    mesos_chaos.py TASKS SECONDS [SEED]        GATEWAY, DRF and SCHEDULER name the programs; needs root, for `ip netns`

Gateways, agents' programs and schedulers are killed and started again, links fail for seconds, disks of gateways and agents are full, and a
gateway and an agent are cut off for so long that the one loses its streams and the other its tasks. It goes on for the seconds, until the tasks have finished, and until an agent was removed. In the end each
task id started at most once, each launch has a terminal status, the allocator holds exactly the tasks that run, and `drf check` calls the
journals good.
"""
import collections
import glob
import json
import os
import random
import signal
import subprocess
import sys
import tempfile
import time
import urllib.request

from fleet import NotRun, SERVE, wait

TERMINAL = {"TASK_FINISHED", "TASK_FAILED", "TASK_KILLED", "TASK_ERROR", "TASK_LOST", "TASK_DROPPED", "TASK_GONE"}
SILENCE, AGENT_GONE = 3, 6  # seconds
PATIENCE = 600  # seconds for what comes within a few on a machine with nothing else to do


def run(*words):
    return subprocess.run(words, check=True, capture_output=True, text=True).stdout


class Node:
    """A program in a network namespace of its own, with one link to all others."""

    def __init__(self, folder, name, address):
        self.folder, self.name, self.address, self.process = folder, name, f"10.0.0.{address}", None
        run("ip", "netns", "add", name)
        run("ip", "link", "add", "v" + name, "type", "veth", "peer", "name", "eth0", "netns", name)
        run("ip", "link", "set", "v" + name, "master", "br0", "up")
        run("ip", "-n", name, "addr", "add", self.address + "/24", "dev", "eth0")
        for link in ("lo", "eth0"):
            run("ip", "-n", name, "link", "set", link, "up")

    def start(self, *words):
        self.words = words or self.words
        with open(os.path.join(self.folder, self.name + ".log"), "ab") as log:
            self.process = subprocess.Popen(["ip", "netns", "exec", self.name, *self.words], stdout=log, stderr=log, cwd=self.folder)

    def kill(self):
        self.process.kill()
        self.process.wait()

    def log(self):
        return open(os.path.join(self.folder, self.name + ".log"), errors="replace").read()

    def set_link(self, state):
        run("ip", "link", "set", "v" + self.name, state)

    def fill_disk(self, left):
        """Fills the disk of a gateway or an agent, but for some bytes."""
        path = os.path.join(self.folder, self.name, "filler")
        with open(path, "wb") as file:
            for size in (1 << 24, 1 << 16, 1):  # the gateway takes space too
                about = os.statvfs(path)
                while about.f_bavail * about.f_frsize - left >= size:
                    try:
                        os.posix_fallocate(file.fileno(), os.fstat(file.fileno()).st_size, size)
                    except OSError:
                        break
                    about = os.statvfs(path)

    def free_disk(self):
        """Makes room again. A gateway without any ended."""
        os.remove(os.path.join(self.folder, self.name, "filler"))
        if self.process.poll() is not None:
            self.start()


class Cluster:
    def __init__(self, folder, gateway, drf, scheduler):
        self.folder, self.drf, self.scheduler = folder, drf, scheduler
        self.starts = os.path.join(folder, "starts")
        run("ip", "link", "set", "lo", "up")
        run("ip", "link", "add", "br0", "type", "bridge")
        run("ip", "addr", "add", "10.0.0.1/24", "dev", "br0")
        run("ip", "link", "set", "br0", "up")
        tokens, self.token_path = os.path.join(folder, "tokens.json"), os.path.join(folder, "token")
        self.token = run(gateway, "token", "add", tokens, "admin", "admin").strip()
        with open(self.token_path, "w") as file:
            file.write(self.token)
        os.chmod(self.token_path, 0o600)  # or agents that run tasks as other users refuse it
        self.gateways = [Node(folder, f"g{n}", 11 + n) for n in range(3)]
        self.agents = [Node(folder, f"a{n}", 21 + n) for n in range(5)]
        self.schedulers = [Node(folder, f"s{n}", 31 + n) for n in range(2)]
        self.hosts = ",".join(g.address + ":8450" for g in self.gateways)
        members = ",".join(f"{g.name}=http://{g.address}:2380" for g in self.gateways)
        for g in self.gateways:
            os.mkdir(os.path.join(folder, g.name), 0o700)
            run("mount", "-t", "tmpfs", "-o", "size=600m,mode=700", "none", os.path.join(folder, g.name))
            g.start(gateway, "-data", os.path.join(folder, g.name), "-drf", drf, "-listen", g.address + ":8450", "-tokens", tokens, "-name", g.name, "-members", members, "-cycle", "200ms",
                    "-mesos-silence", f"{SILENCE}s", "-mesos-agent-gone", f"{AGENT_GONE}s", "-mesos-gateway-grace", "20s")
        self.until_ready()
        for a in self.agents:
            os.mkdir(os.path.join(folder, a.name), 0o755)
            run("mount", "-t", "tmpfs", "-o", "size=100m,mode=755", "none", os.path.join(folder, a.name))
            a.start(os.path.join(os.path.dirname(gateway), "durzhanok-agent"), "-gateways", ",".join("http://" + host for host in self.hosts.split(",")), "-work", a.name, "-name", a.name, "-token-file", self.token_path,
                    "-resources", "cpus:1;mem:1024")

    def ask(self, n, path):
        request = urllib.request.Request(f"http://{self.gateways[n].address}:8450{path}", headers={"Authorization": "Bearer " + self.token})
        with urllib.request.urlopen(request, timeout=20) as answer:
            return answer.read()

    def is_ready(self, n):
        try:
            return self.ask(n, "/healthz") is not None
        except OSError:
            return False

    def until_ready(self):
        for n in range(3):
            assert wait(lambda: self.is_ready(n), PATIENCE), f"g{n} is not ready: {self.gateways[n].log()[-2000:]}"

    def record(self, name):
        """The launches of a scheduler, and its statuses: lists of words."""
        try:
            lines = [line.split() for line in open(os.path.join(self.folder, name + ".record"))]
        except FileNotFoundError:
            return [], []
        return [line[1] for line in lines if line[0] == "launch"], [line[1:] for line in lines if line[0] == "status"]

    def finished(self, name):
        return len({status[0] for status in self.record(name)[1] if status[1] == "TASK_FINISHED"})

    def is_agent_removed(self):
        """Whether a task was lost because its agent was silent for too long."""
        return any(status[2] == "REASON_AGENT_REMOVED" for s in self.schedulers for status in self.record(s.name)[1])

    def start_scheduler(self, n, tasks, name=None, command=None):
        node = self.schedulers[n]
        name = name or node.name
        node.start(self.scheduler, "-gateways", self.hosts, "-token-file", self.token_path, "-prefix", name, "-record", name + ".record", "-id-file", name + ".id", "-tasks", str(tasks), "-within", f"{3 * PATIENCE}s",
                   "-command", command or f"echo $MESOS_TASK_ID >> {self.starts}; sleep 1.$(($$ % 9))", *(["-codec", "json", "-single"] if n == 1 else []))

    def held(self):
        """The tasks of the allocator, without what their names have of the offer."""
        rows = json.loads(self.ask(0, "/drf/v1/state"))["rows"]
        return sorted(row["task"].rsplit(".", 2)[0] for row in rows if row["row"] == "task")


def disturb(cluster, tasks, seconds, chance):
    """Random failures, one after another, and the partition near the beginning. Returns how many of each kind there were."""
    counts, begun, cut, full = collections.Counter(), time.time(), [], []
    partition, silent = begun + 2, None
    while time.time() < begun + seconds or sum(cluster.finished(s.name) for s in cluster.schedulers) < tasks or not cluster.is_agent_removed():
        assert time.time() < begun + max(20 * seconds, 2 * PATIENCE), counts
        time.sleep(chance.uniform(0.2, 1.0))
        now = time.time()
        for node, until in [one for one in cut if one[1] < now]:
            node.set_link("up")
            cut.remove((node, until))
            if node is silent and not cluster.is_agent_removed():  # it had no task, or its time began again with a gateway
                partition = now
        for node, until in [one for one in full if one[1] < now]:
            node.free_disk()
            full.remove((node, until))
        if partition and now > partition:
            partition, silent = None, chance.choice([node for node in cluster.agents if node not in [one[0] for one in cut]])
            for node, length in ((chance.choice(cluster.gateways), 7), (silent, SILENCE + 5 + AGENT_GONE + 4)):  # a heartbeat comes every 5 s
                if node not in [one[0] for one in cut]:
                    node.set_link("down")
                    cut.append((node, now + length))
            counts["partition"] += 1
            continue
        away = [one[0] for one in cut]
        isolated = any(node in cluster.gateways for node in away + [one[0] for one in full])
        node = chance.choice(cluster.gateways * 2 + cluster.agents + cluster.schedulers)
        if node in away or node in cluster.gateways and isolated:
            continue
        if chance.random() < 0.35:
            node.set_link("down")
            cut.append((node, now + chance.uniform(0.5, 3)))
            counts["link of " + node.name[0]] += 1
            continue
        if node not in cluster.schedulers and chance.random() < 0.3 and node not in [one[0] for one in full]:
            left = chance.choice((0, 60 << 20 if node in cluster.gateways else 64 << 10))
            node.fill_disk(left)
            full.append((node, now + chance.uniform(1, 3)))
            counts[f"disk of {node.name[0]} with {'no' if left == 0 else 'little'} space"] += 1
            continue
        node.kill()
        time.sleep(0 if node.name[0] == "s" else chance.uniform(0, 1.5))
        node.start()
        counts["kill of " + node.name[0]] += 1
    for node, _ in cut:
        node.set_link("up")
    for node, _ in full:
        node.free_disk()
    return counts


def check(cluster, names):
    """What must be true of launches and statuses. Returns how many there were."""
    started = collections.Counter(open(cluster.starts).read().split())
    assert max(started.values()) == 1, [one for one in started.items() if one[1] > 1]
    known, gone = set(), 0
    for name in names:
        launches, statuses = cluster.record(name)
        assert len(launches) == len(set(launches)), "a scheduler used an id twice"
        ends, durable = {}, collections.defaultdict(set)
        for task, state, reason, *uuid in statuses:
            if state in TERMINAL:
                ends[task] = state
                if uuid and uuid[0]:
                    durable[task].add((state, uuid[0]))
        missing = [task for task in launches if task not in ends]
        assert not missing, f"{len(missing)} tasks have no terminal status: {missing[:5]}"
        twice = {task: found for task, found in durable.items() if len(found) > 1}
        assert not twice, f"tasks ended twice: {twice}"
        unsaid = [task for task in started if task in set(launches) and not durable[task]]
        assert not unsaid, f"tasks started, and no status to be acknowledged said how they ended: {unsaid[:5]}"
        known.update(launches)
        gone += len({status[0] for status in statuses if status[2] == "REASON_AGENT_REMOVED"})
    assert set(started) <= known, "a task started that nobody launched"
    assert gone, "the agent that was cut off was not removed"
    return len(known), len(started), gone


def inside(folder, tasks, seconds, seed):
    chance = random.Random(seed)
    cluster = Cluster(folder, os.environ["GATEWAY"], os.environ["DRF"], os.environ["SCHEDULER"])
    try:
        for n in range(2):
            cluster.start_scheduler(n, 1_000_000)
        assert wait(lambda: all(cluster.finished(s.name) for s in cluster.schedulers), PATIENCE), "no task finishes"
        counts = disturb(cluster, tasks, seconds, chance)
        cluster.until_ready()
        for n, node in enumerate(cluster.schedulers):
            node.kill()
            cluster.start_scheduler(n, cluster.finished(node.name) + 10)
        for node in cluster.schedulers:
            assert wait(lambda: node.process.poll() is not None, PATIENCE), f"{node.name} does not end: {node.log()[-2000:]}"
            assert node.process.returncode == 0, node.log()[-2000:]
        launched, started, gone = check(cluster, [s.name for s in cluster.schedulers])
        assert wait(lambda: not cluster.held(), PATIENCE), f"the allocator holds {cluster.held()[:5]}"
        cluster.start_scheduler(0, 12, "last", "sleep 1000")
        running = lambda: sorted({status[0] for status in cluster.record("last")[1] if status[1] == "TASK_RUNNING"})
        assert wait(lambda: len(running()) == 12, PATIENCE), cluster.schedulers[0].log()[-2000:]
        assert cluster.held() == running(), f"the allocator holds {cluster.held()}, and {running()} run"
        for n, g in enumerate(cluster.gateways):
            checked = subprocess.run([cluster.drf, "check"], input=cluster.ask(n, "/drf/v1/journal"), capture_output=True, check=False)
            assert checked.stdout.startswith(b"good "), checked.stdout + checked.stderr
            for word in ("panic", "differs", "damaged"):
                assert word not in g.log(), g.log()[-3000:]
        print(f"{launched} launches, {started} starts, {gone} lost with an agent; " + ", ".join(f"{count} {kind}" for kind, count in sorted(counts.items())))
    except BaseException:
        for path in glob.glob(os.path.join(folder, "*.log")):
            print(f"--- {path}\n{open(path, errors='replace').read()[-1500:]}", file=sys.stderr)
        raise


def build_scheduler(folder):
    """The framework over mesos-go."""
    program, path = os.path.join(folder, "scheduler"), os.path.join(SERVE, "out", "path")
    subprocess.run(["go", "build", "-o", program, "gateway/tests/mesos/scheduler"], check=True, cwd=os.path.join(path, "src", "gateway"),
                   env={**os.environ, "GO111MODULE": "off", "CGO_ENABLED": "0", "GOPATH": path + ":/usr/share/gocode"})
    return program


def chaos(programs, tasks, seconds, seed):
    """Runs the test in namespaces that end with it: of the network, of mounts for `ip netns`, and of processes."""
    isolated = ["unshare", "--net", "--mount", "--pid", "--fork", "--kill-child", "--mount-proc"]
    if subprocess.run([*isolated, "sh", "-c", "mkdir -p /run/netns && mount -t tmpfs none /run/netns && ip netns add x"], capture_output=True, check=False).returncode:
        raise NotRun("network namespaces need root and iproute2")
    if not os.path.isdir("/usr/share/gocode/src/github.com/mesos/mesos-go"):
        raise NotRun("mesos-go is not installed: apt-get install golang-github-mesos-mesos-go-dev")
    with tempfile.TemporaryDirectory(prefix="mesos-chaos-", ignore_cleanup_errors=True) as folder:
        environment = {**os.environ, "GATEWAY": programs.gateway, "DRF": programs.drf, "SCHEDULER": build_scheduler(folder)}
        inner = f"mkdir -p /run/netns && mount -t tmpfs none /run/netns && exec {sys.executable} {os.path.realpath(__file__)} inside {folder} {tasks} {seconds} {seed}"
        done = subprocess.run([*isolated, "sh", "-c", inner], env=environment, capture_output=True, text=True, timeout=max(20 * seconds, 2 * PATIENCE) + 3 * PATIENCE, check=False)
        assert done.returncode == 0, f"seed {seed}: {done.stderr[-12000:]}"
        return done.stdout.strip()


def tests(is_long):
    def test(programs):
        return chaos(programs, *((2000, 180, random.randrange(10**6)) if is_long else (60, 20, random.randrange(10**6))))
    test.name = "chaos_mesos"
    return [test]


if __name__ == "__main__":
    if sys.argv[1] == "inside":
        signal.signal(signal.SIGTERM, lambda *_: sys.exit(1))
        inside(sys.argv[2], *map(int, sys.argv[3:6]))
    else:
        from programs import find_programs
        print(chaos(find_programs(), int(sys.argv[1]), int(sys.argv[2]), int(sys.argv[3]) if len(sys.argv) > 3 else random.randrange(10**6)))
