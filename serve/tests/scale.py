# Tests of memory and start times after hundreds of thousands of messages. Only with --long. Outside the proof.
import os
import signal
import subprocess
import time

from fleet import SERVE, Fleet, wait


def build_load(folder):
    """The program that sends many batches."""
    program, source = os.path.join(folder, "load"), os.path.join(SERVE, "tests", "load", "main.go")
    subprocess.run(["go", "build", "-o", program, source], check=True, env={**os.environ, "GO111MODULE": "off", "CGO_ENABLED": "0"})
    return program


def resident(pid):
    """The memory of a process in MiB."""
    with open(f"/proc/{pid}/status") as file:
        return next(int(line.split()[1]) for line in file if line.startswith("VmRSS:")) // 1024


def test_long_life(programs):
    """After 300,000 messages with keys a gateway takes less than 150 MiB (200 MiB under full load), and starts in less than 2 s on a quiet machine."""
    with Fleet("alone", programs.gateway, programs.drf, "-cycle", "0", "-save-apart", "5s") as fleet:
        g = fleet.gateways[0]
        load = build_load(fleet.folder)
        subprocess.run([load, "-urls", g.url, "-token", fleet.tokens["admin"], "-callers", "64", "-batch", "1", "-seconds", "600", "-keys", "-count", "300000"], check=True, stdout=subprocess.DEVNULL)
        assert wait(lambda: g.status()["kept_keys"] > 240_000, 60), g.status()
        memory = resident(g.process.pid)
        g.kill(signal.SIGTERM)
        begun = time.time()
        g.start()
        wait(g.is_ready, 60, 0.02)
        took = time.time() - begun
        after = resident(g.process.pid)
        quiet = os.getloadavg()[0] < 4
        assert memory < 200 and after < 150 and took < (2 if quiet else 10), (memory, after, took)
        return f"{memory} MiB, after a start {after} MiB; started in {took:.2f} s at a load of {os.getloadavg()[0]:.0f}"


TESTS = [test for name, test in list(globals().items()) if name.startswith("test_")]
