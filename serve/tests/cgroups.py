#!/usr/bin/env python3
# The limits of tasks, as a kernel with cgroup v2 enforces them. Outside the proof.
"""    cgroups.py        prints what the test in Go said

The test is TestKernelEnforcesLimits in serve/internal/mesos/agent. Where this machine does not have the controllers of cgroup v2, as in many containers, it
runs in a virtual machine by `user-mode-linux`, which needs no rights: its root file system is that of this machine, and it writes only to memory.
"""
import os
import shutil
import signal
import subprocess
import tempfile

from fleet import NotRun, SERVE

TEST = "TestKernelEnforcesLimits"
SECONDS = 600
INIT = """#!/bin/sh
export PATH=/usr/sbin:/usr/bin:/sbin:/bin TMPDIR=/dev/shm
mount -t proc none /proc && mount -t sysfs none /sys && mkdir -p /dev/shm && mount -t tmpfs none /dev/shm && mount -t cgroup2 none /sys/fs/cgroup
ip link set lo up
echo BOOTED
cd /dev/shm && {program} -test.v -test.run '^{test}$' -test.timeout {seconds}s 2>&1
echo "RESULT $?"
exec /usr/bin/perl -e 'syscall(169, 0xfee1dead, 672274793, 0x4321fedc)'
"""


def build(program):
    """Builds the test."""
    path = os.path.join(SERVE, "out", "path")
    subprocess.run(["go", "test", "-c", "-o", program, "gateway/internal/mesos/agent"], cwd=os.path.join(path, "src", "gateway"), check=True,
                   env={**os.environ, "GO111MODULE": "off", "CGO_ENABLED": "0", "GOPATH": path + ":/usr/share/gocode"})


def has_controllers():
    try:
        with open("/sys/fs/cgroup/cgroup.controllers") as file:
            return {"cpu", "memory"} <= set(file.read().split()) and os.geteuid() == 0 and os.access("/sys/fs/cgroup", os.W_OK)
    except OSError:
        return False


def run(folder, program):
    """Runs the test, and returns what it printed and whether it passed."""
    if has_controllers():
        done = subprocess.run([program, "-test.v", "-test.run", f"^{TEST}$"], cwd=folder, capture_output=True, text=True, timeout=SECONDS, check=False)
        return done.stdout + done.stderr, done.returncode == 0
    linux = shutil.which("linux.uml")
    if not linux:
        raise NotRun("this machine has no cgroup v2 with the controllers cpu and memory, and user-mode-linux is not installed: apt-get install user-mode-linux")
    init = os.path.join(folder, "init")
    with open(init, "w") as file:
        file.write(INIT.format(program=program, test=TEST, seconds=SECONDS - 60))
    os.chmod(init, 0o755)
    words = [linux, "mem=1G", "rootfstype=hostfs", "rootflags=/", "ro", "init=" + init, "con0=null,fd:1", "con=null", f"umid=cgroups-{os.getpid()}"]
    path = os.path.join(folder, "output")
    with open(path, "wb") as output, subprocess.Popen(words, stdin=subprocess.DEVNULL, stdout=output, stderr=output, start_new_session=True) as machine:
        try:
            machine.wait(timeout=SECONDS)
        except subprocess.TimeoutExpired:
            pass  # what it printed says how far it came
        finally:
            if machine.poll() is None:
                os.killpg(machine.pid, signal.SIGKILL)  # its processes are processes of this machine
    with open(path, errors="replace") as output:
        text = output.read()
    if "BOOTED" not in text:
        raise NotRun("the virtual machine does not start: " + text[-300:])
    return text[text.index("BOOTED"):], "RESULT 0" in text


def test_limits_by_cgroups(programs):
    with tempfile.TemporaryDirectory(prefix="cgroups-") as folder:
        program = os.path.join(folder, "agent.test")
        build(program)
        text, has_passed = run(folder, program)
        assert has_passed, text[-6000:]
        if "--- SKIP" in text:
            raise NotRun(text[-300:])
        return "; ".join(line.split(": ", 1)[1] for line in text.splitlines() if "_test.go:" in line)


TESTS = [test_limits_by_cgroups]

if __name__ == "__main__":
    from programs import find_programs
    print(test_limits_by_cgroups(find_programs()))
