# Tests in a clean Debian, where systemd is the first process: installation by the documents, upgrade, removal, purge. Outside the proof.
import json
import os
import re
import shutil
import subprocess
import tempfile
import time

from package import NotRun, call, equal, version

DEBIAN, MIRROR = "bookworm", "http://deb.debian.org/debian"
NEEDED = "adduser,bash-completion,ca-certificates,dbus,etcd-client,python3,systemd,systemd-sysv,unzip"  # so that installing needs no network
DATA, AGENT_DATA = "/var/lib/durzhanok", "/var/lib/durzhanok-agent"
UNITS = ("durzhanok-gateway", "durzhanok-agent")
QUICKSTART = "/usr/share/doc/durzhanok/docs/QUICKSTART.md"

# In its own mount namespace, so that the clean system is not changed, and control groups have version 2 even if those of the machine do not.
START = """
if [ "$(stat -f -c %T /sys/fs/cgroup)" != cgroup2fs ]; then
    umount -R /sys/fs/cgroup
    mount -t cgroup2 cgroup2 /sys/fs/cgroup
fi
mount -t overlay overlay -o "lowerdir=$3,upperdir=$4,workdir=$5" "$1"
exec systemd-nspawn -q -D "$1" -M "$2" --register=no --keep-unit --private-network --console=read-only -b
"""


class Debian:
    """A running Debian without a network. The commands of a test run in it as root."""

    def __init__(self):
        self.folder = tempfile.mkdtemp(prefix="durzhanok-debian-")
        self.leader, self.nspawn, self.is_started = None, None, False

    def start(self):
        for name in ("root", "upper", "work"):
            os.mkdir(os.path.join(self.folder, name))
        clean = os.environ.get("DEBIAN_ROOT")
        if not clean:
            clean = os.path.join(self.folder, "clean")
            call("debootstrap", "--variant=minbase", "--include=" + NEEDED, DEBIAN, clean, MIRROR)
        self.boot(clean)
        self.is_started = True

    @property
    def root(self):
        """The root folder of this Debian, as seen from outside."""
        return f"/proc/{self.leader}/root"

    def boot(self, clean):
        log = open(os.path.join(self.folder, "console"), "wb")
        words = ["unshare", "--mount", "--propagation", "private", "sh", "-ec", START, "sh", os.path.join(self.folder, "root"), f"durzhanok-debian-{os.getpid()}",
                 clean, os.path.join(self.folder, "upper"), os.path.join(self.folder, "work")]
        self.nspawn = subprocess.Popen(words, stdin=subprocess.DEVNULL, stdout=log, stderr=log)
        for _ in range(600):
            children = call("pgrep", "-P", str(self.nspawn.pid), status=None).split()
            self.leader = children[-1] if children and call("ps", "-o", "comm=", "-p", children[-1], status=None).strip() == "systemd" else None
            if self.leader and self.try_run("systemctl is-system-running --wait")[1].strip() in ("running", "degraded"):
                return
            if self.nspawn.poll() is not None:
                break
            time.sleep(0.2)
        with open(os.path.join(self.folder, "console"), encoding="utf-8", errors="replace") as console:
            raise AssertionError("systemd does not start here: " + console.read()[-300:])

    def words(self, command):
        return ["nsenter", "--target", self.leader, "--mount", "--uts", "--ipc", "--net", "--pid", "--cgroup", "--root", "--wd", "--",
                "env", "-i", "PATH=/usr/sbin:/usr/bin:/sbin:/bin", "DEBIAN_FRONTEND=noninteractive", "LC_ALL=C.UTF-8", "sh", "-ec", command]

    def try_run(self, command, timeout=300):
        """Runs a command of the shell, and returns its status and its output."""
        done = subprocess.run(self.words(command), stdin=subprocess.DEVNULL, stdout=subprocess.PIPE, stderr=subprocess.STDOUT, text=True, check=False, timeout=timeout)
        return done.returncode, done.stdout

    def run(self, command):
        status, text = self.try_run(command)
        assert status == 0, f"{command}: status {status}\n{text}"
        return text

    def wait(self, what, command):
        for _ in range(150):
            if self.try_run(command)[0] == 0:
                return
            time.sleep(0.2)
        raise AssertionError(f"{what}: not within 30 s: {command}\n" + self.try_run("journalctl -n 30 --no-pager; " + command)[1])

    def processes(self, pattern):
        """The processes in this Debian whose commands match a pattern, by their ids outside."""
        return call("pgrep", "--ns", self.leader, "--nslist", "pid", "-f", pattern, status=None).split()

    def wait_for_processes(self, pattern, count):
        for _ in range(300):
            if len(self.processes(pattern)) == count:
                return
            time.sleep(0.2)
        raise AssertionError(f"{pattern}: not {count} processes within 60 s\n" + self.try_run("journalctl -n 30 --no-pager")[1])

    def main_pid(self, unit):
        return self.run(f"systemctl show -p MainPID --value {unit}").strip()

    def wait_until_healthy(self):
        self.wait("the gateway is healthy", "python3 -c \"import urllib.request as u; u.urlopen('http://127.0.0.1:8450/healthz')\"")

    def give(self, file):
        shutil.copy(file, os.path.join(self.root, "srv"))

    def write(self, path, text):
        with open(self.root + path, "w", encoding="utf-8") as file:
            file.write(text)

    def read(self, path):
        with open(self.root + path, encoding="utf-8") as file:
            return file.read()

    def stop(self):
        if self.nspawn and self.nspawn.poll() is None:
            self.nspawn.terminate()
            try:
                self.nspawn.wait(30)
            except subprocess.TimeoutExpired:
                self.nspawn.kill()
                self.nspawn.wait()
        shutil.rmtree(self.folder, ignore_errors=True)


running = []


def debian():
    """The one Debian of all tests."""
    if not running:
        if os.geteuid() != 0:
            raise NotRun("only root can start a Debian")
        running.append(Debian())
        running[0].start()
    assert running[0].is_started, "Debian did not start"
    return running[0]


def close():
    """Ends what the tests started."""
    for one in running:
        one.stop()


def blocks(text):
    """The paragraphs of a section and its indented lines, in order: (paragraph before, [line])."""
    paragraph, result = "", []
    for part in re.split(r"\n\n+", text):
        if part.startswith("    "):
            result.append((paragraph, [line[4:] for line in part.splitlines()]))
        else:
            paragraph = " ".join(part.split())
    return result


def matches(line, want):
    return re.fullmatch(".*".join(re.escape(part) for part in want.split("..")), line) is not None


def follow(machine, text):
    """Does what a section says: a line that begins with FLAGS= becomes the last line of the file that the paragraph names, lines after `$` are commands, and
    what follows a command is what it prints. Commands run in one folder after another, as `cd` says."""
    folder, count = "/srv", 0
    for paragraph, lines in blocks(text):
        if lines[0].startswith("FLAGS="):
            file = re.findall(r"`(/etc/[^`]*)`", paragraph)[-1]
            machine.write(file, "\n".join(machine.read(file).splitlines()[:-1] + lines) + "\n")
            continue
        for index, line in enumerate(lines):
            if not line.startswith("$ "):
                continue
            output = []
            for following in lines[index + 1:]:
                if following.startswith("$ "):
                    break
                output.append(following)
            if line.startswith("$ cd "):
                folder = line[5:]
                continue
            printed = machine.run(f"cd {folder}; {line[2:]}").splitlines()
            count += 1
            if output:
                assert len(printed) == len(output) and all(map(matches, printed, output)), f"{line}: printed {printed}, and the document says {output}"
    return count


def section(text, heading):
    return re.search(rf"^## [0-9]+\. {re.escape(heading)}\n(.*?)(?=^## )", text, flags=re.M | re.S)[1]


def test_in_debian_the_quickstart_leads_to_a_task(package):
    machine = debian()
    machine.give(package.file)
    with open(os.path.join(package.top, "docs", "QUICKSTART.md"), encoding="utf-8") as file:
        text = section(file.read(), "Install the package, and run a task on a machine")
    edited = len(re.findall(r"^    FLAGS=", text, flags=re.M))
    commands = follow(machine, text)
    assert edited <= 2 and commands >= 7, f"{edited} edited lines, {commands} commands"
    equal("the documents are those of this checkout", machine.read(QUICKSTART).count(text), 1)


def test_in_debian_the_services_run_as_they_should(package):
    machine = debian()
    owners = [machine.run(f"stat -c %U /proc/{machine.main_pid(unit)}").strip() for unit in UNITS]
    equal("users of the gateway and the agent", owners, ["durzhanok", "root"])
    equal("modes", machine.run(f"stat -c '%a %U' {DATA} {AGENT_DATA} /etc/durzhanok").split(), ["700", "durzhanok", "711", "root", "750", "root"])
    equal("enabled", machine.try_run("systemctl is-enabled durzhanok-gateway durzhanok-agent")[1].split(), ["disabled", "disabled"])
    assert machine.try_run(f"runuser -u nobody -- cat /etc/durzhanok/agent.token {DATA}/admin.token")[1].count("denied") == 2, "another user can read a token"
    equal("warnings of systemd", machine.run("journalctl -b --no-pager -p warning _PID=1 | grep durzhanok || true"), "")
    equal("groups of tasks that the unit forbids", machine.run("journalctl -u durzhanok-agent --no-pager | grep -i 'read-only' || true"), "")
    machine.run("systemctl restart durzhanok-gateway")
    machine.wait_until_healthy()


def test_in_debian_a_wrong_flag_fails_the_start(package):
    machine = debian()
    for unit in UNITS:
        file = f"/etc/default/{unit}"
        right = machine.read(file)
        machine.run(f"systemctl stop {unit}")
        machine.write(file, right.replace('FLAGS="', 'FLAGS="-wrong '))
        status, text = machine.try_run(f"systemctl start {unit}")
        assert status != 0 and f"{unit}.service" in text, f"{unit} starts with a wrong flag: {text}"
        assert "-wrong" in machine.run(f"journalctl -u {unit} -n 20 --no-pager"), f"the journal of {unit} does not name the flag"
        machine.write(file, right)
        machine.run(f"systemctl stop {unit}; systemctl start {unit}")


SLEEPER = f"cd /usr/share/doc/durzhanok/serve/client; exec python3 mesos_example.py --token-file {DATA}/admin.token 'setsid sleep 2000 & exec sleep 1000'"
TASK = "^sleep [12]000"


def start_sleeper(machine):
    """Starts a framework whose task sleeps, and returns the processes of the task."""
    machine.wait_until_healthy()
    subprocess.Popen(machine.words(SLEEPER), stdin=subprocess.DEVNULL, stdout=subprocess.DEVNULL, stderr=subprocess.DEVNULL)
    machine.wait_for_processes(TASK, 2)
    return machine.processes(TASK)


def end_sleeper(machine):
    for pid in machine.processes("mesos_example.py"):
        os.kill(int(pid), 9)


def test_in_debian_a_task_runs_as_its_user_and_ends_with_its_framework(package):
    machine = debian()
    task = start_sleeper(machine)
    users = {os.stat(f"/proc/{pid}").st_uid for pid in task}
    equal("user of the task's processes", users, {int(machine.run("id -u nobody"))})
    capabilities = {line.split()[1] for pid in task for line in open(f"/proc/{pid}/status", encoding="utf-8") if line.startswith(("CapPrm", "CapEff"))}
    equal("capabilities of the task", capabilities, {"0" * 16})
    end_sleeper(machine)  # the gateway removes the framework, and the agent kills what it started
    machine.wait_for_processes(TASK, 0)


def messages(machine):
    return json.loads(machine.run(f"""python3 -c "
import urllib.request as u
print(u.urlopen(u.Request('http://127.0.0.1:8450/drf/v1/status', headers={{'Authorization': 'Bearer ' + open('{DATA}/admin.token').read().strip()}})).read().decode())" """))["messages"]


def test_in_debian_an_upgrade_keeps_data_flags_and_tasks(package):
    machine = debian()
    newer = package.build(called=version() + "+newer")
    machine.give(newer)
    task, before = start_sleeper(machine), messages(machine)
    flags, token = machine.read("/etc/default/durzhanok-agent"), machine.read(DATA + "/admin.token")
    old = list(map(machine.main_pid, UNITS))
    machine.run(f"apt-get install -y /srv/{os.path.basename(newer)}")
    equal("installed", machine.run("dpkg-query -W -f '${Version}' durzhanok"), version() + "+newer")
    machine.wait("both run", "systemctl is-active durzhanok-gateway durzhanok-agent")
    new = list(map(machine.main_pid, UNITS))
    assert not set(old) & set(new), f"{old} and {new}: a service was not restarted"
    machine.wait_until_healthy()
    assert messages(machine) >= before > 0, "messages are lost"
    equal("the task", machine.processes(TASK), task)
    equal("flags", machine.read("/etc/default/durzhanok-agent"), flags)
    equal("token", machine.read(DATA + "/admin.token"), token)


def test_in_debian_a_removal_keeps_data_and_ends_tasks(package):
    machine = debian()
    user = machine.run("id durzhanok")
    equal("processes of the task before", len(machine.processes(TASK)), 2)
    machine.run("apt-get remove -y durzhanok")
    equal("processes", machine.processes("^/usr/bin/durzhanok|" + TASK), [])
    machine.run(f"test -s {DATA}/tokens.json && test -d {DATA}/etcd && test -s {AGENT_DATA}/id && test -s /etc/durzhanok/agent.token && test -s /etc/default/durzhanok-agent")
    equal("user", machine.run("id durzhanok"), user)
    equal("programs", machine.try_run("ls /usr/bin/drf /usr/bin/durzhanok-* /usr/share/doc/durzhanok 2>/dev/null")[1], "")


def test_in_debian_an_installation_after_a_removal_has_the_data(package):
    machine = debian()
    token = machine.read(DATA + "/admin.token")
    machine.run(f"apt-get install -y /srv/durzhanok_{version()}+newer_amd64.deb && systemctl start durzhanok-gateway")
    equal("token", machine.read(DATA + "/admin.token"), token)
    machine.wait_until_healthy()
    assert messages(machine) > 0, "messages are lost"


def test_in_debian_a_purge_removes_data_and_keeps_the_user(package):
    machine = debian()
    machine.run("systemctl enable durzhanok-gateway && apt-get purge -y durzhanok")
    left = machine.run("find / -xdev -path /proc -prune -o -path /sys -prune -o -name '*durzhanok*' -print | grep -vE '^/(root|var/log|var/lib/systemd/deb-systemd-helper)' || true")
    equal("files that are left", left, "")
    machine.run("getent passwd durzhanok")
    equal("processes", machine.processes("^/usr/bin/durzhanok"), [])


TESTS = [test_in_debian_the_quickstart_leads_to_a_task, test_in_debian_the_services_run_as_they_should, test_in_debian_a_wrong_flag_fails_the_start,
         test_in_debian_a_task_runs_as_its_user_and_ends_with_its_framework, test_in_debian_an_upgrade_keeps_data_flags_and_tasks, test_in_debian_a_removal_keeps_data_and_ends_tasks,
         test_in_debian_an_installation_after_a_removal_has_the_data, test_in_debian_a_purge_removes_data_and_keeps_the_user]
