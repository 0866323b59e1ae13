# Tests of `./drf demo`: it starts, its link works once, it ends without a trace, and its errors are clear. Outside the proof.
import glob
import json
import os
import re
import shutil
import signal
import socket
import subprocess
import tempfile
import time
import urllib.request

from chromium import equal, holds, test
from fleet import SERVE
from programs import ROOT


class Demo:
    """A demo in a temporary folder of its own, as a user starts it at a terminal."""

    def __init__(self, folder, *words):
        self.folder = tempfile.mkdtemp(prefix="demo-", dir=folder)
        self.log = open(os.path.join(self.folder, "output"), "w+", encoding="utf-8")
        self.temporary = os.path.join(self.folder, "tmp")
        os.mkdir(self.temporary)
        self.process = subprocess.Popen([os.path.join(ROOT, "drf"), "demo", "-listen", "127.0.0.1:0", *words], stdin=subprocess.PIPE, stdout=self.log, stderr=self.log, text=True,
                                        env={**os.environ, "TMPDIR": self.temporary}, start_new_session=True)

    def output(self):
        with open(self.log.name, encoding="utf-8") as file:
            return file.read()

    def links(self, count=1, limit=240):
        """Waits for as many links."""
        until = time.time() + limit
        while len(found := re.findall(r"^ +(http://\S+#once=\S+)$", self.output(), re.M)) < count:
            assert time.time() < until and self.process.poll() is None, self.output()
            time.sleep(0.1)
        return found

    def token(self):
        path, = glob.glob(self.temporary + "/durzhanok-demo-*/data/admin.token")
        with open(path, encoding="utf-8") as file:
            return file.read().strip()

    def processes(self):
        """The processes that name the demo's folder."""
        found = []
        for path in glob.glob("/proc/[0-9]*/cmdline"):
            try:
                with open(path, "rb") as file:
                    line = file.read().replace(b"\0", b" ").decode(errors="replace")
                stat = os.path.dirname(path) + "/cwd"
                if self.temporary in line or os.readlink(stat).startswith(self.temporary):
                    found.append(line)
            except OSError:
                pass
        return found

    def end(self, how=signal.SIGINT):
        if self.process.poll() is None:
            os.killpg(self.process.pid, how)  # as a terminal does
        status = self.process.wait(60)
        self.process.stdin.close()
        self.log.close()
        return status


@test
def a_demo_starts_and_ends_without_a_trace(browser, room):
    room.service()  # builds the programs
    demo = Demo(room.folder)
    try:
        link, = demo.links()
        holds("no token in the link", demo.token() not in link)
        browser.driver.get("about:blank")
        browser.driver.get(link)
        browser.wait("the page", lambda: browser.text("#n-agents") == "40" and browser.text("#n-frameworks") == "12")
        browser.wait("tasks run", lambda: int(browser.text("#n-tasks")) > 40)
        equal("the address", browser.run("return location.href"), link.split("#")[0])
        before = browser.text("#facts")
        browser.wait("time passes", lambda: browser.text("#facts") != before)
        browser.run("sessionStorage.clear()")
        browser.driver.get("about:blank")
        browser.driver.get(link)
        browser.wait("once", lambda: "used before" in browser.text("#denied"))
        demo.process.stdin.write("\n")
        demo.process.stdin.flush()
        equal("another link", len(set(demo.links(2))), 2)
        request = urllib.request.Request(link.split("#")[0] + "drf/v1/journal", headers={"Authorization": "Bearer " + demo.token()})
        with urllib.request.urlopen(request, timeout=60) as answer:
            journal = answer.read()
        refused = [line for line in journal.decode().splitlines() if line.startswith('{"name":')]
        equal("refusals", refused[:3], [])
        events = [json.loads(line)["event"] for line in journal.decode().splitlines()[::2]]
        holds("tasks come and go", events.count("accept") > 20 and events.count("finish") > 0)
        holds("processes run", demo.processes())
    finally:
        status = demo.end()
    equal("its status", status, 0)
    holds("it says so", demo.output().rstrip().endswith("The demo has ended, and is removed."))
    equal("processes that are left", demo.processes(), [])
    equal("folders that are left", os.listdir(demo.temporary), [])
    browser.console()


@test
def a_demo_that_is_interrupted_early_leaves_nothing(browser, room):
    room.service()
    demo = Demo(room.folder)
    until = time.time() + 240
    while not glob.glob(demo.temporary + "/durzhanok-demo-*") and time.time() < until:
        time.sleep(0.02)
    demo.end(signal.SIGTERM)
    equal("processes that are left", demo.processes(), [])
    equal("folders that are left", os.listdir(demo.temporary), [])


@test
def a_demo_says_what_is_missing(browser, room):
    room.service()
    with socket.socket() as taken:
        taken.bind(("127.0.0.1", 0))
        taken.listen()
        port = taken.getsockname()[1]
        demo = Demo(room.folder, "-listen", f"127.0.0.1:{port}")
        equal("its status", demo.process.wait(120), 1)
        holds(demo.output(), f"demo: port {port} of 127.0.0.1 is in use: give another one" in demo.output())
        demo.end()
    # A repository without a built gateway, on a machine without Go.
    with tempfile.TemporaryDirectory(dir=room.folder) as bare:
        for name in ("drf", "serve/start", "serve/build"):
            os.makedirs(os.path.dirname(os.path.join(bare, name)), exist_ok=True)
            shutil.copy(os.path.join(ROOT, name), os.path.join(bare, name))
        for name in ("cmd", "internal"):
            os.mkdir(os.path.join(bare, "serve", name))
        bin_folder = os.path.join(bare, "bin")
        os.mkdir(bin_folder)
        for name in ("sh", "bash", "env", "dirname", "readlink", "find"):
            os.symlink(shutil.which(name), os.path.join(bin_folder, name))
        done = subprocess.run([os.path.join(bare, "drf"), "demo"], capture_output=True, text=True, check=False, env={"PATH": bin_folder})
        equal("its status and words", (done.returncode, done.stderr.splitlines()),
              (4, ["drf demo: Go, or the sources of etcd or protobuf, are missing: apt-get install golang-go golang-etcd-server-dev golang-google-protobuf-dev"]))


def take_screenshots(browser, room, folder):
    """What the documents show: the page of a demo, light and dark."""
    room.service()
    demo = Demo(room.folder)
    try:
        links = demo.links()
        time.sleep(60)  # until one agent is silent
        for name, dark in (("service.png", False), ("service-dark.png", True)):
            demo.process.stdin.write("\n")
            demo.process.stdin.flush()
            links = demo.links(len(links) + 1)
            browser.look(1280, 1290, dark)
            browser.driver.get("about:blank")
            browser.driver.get(links[-1])
            browser.wait("the tree", lambda: browser.texts("#tree tbody tr"))
            time.sleep(12)
            browser.run("document.activeElement.blur(); scrollTo(0, 0)")
            time.sleep(1)
            path = os.path.join(folder, name)
            browser.driver.save_screenshot(path)
            if shutil.which("pngquant"):
                subprocess.run(["pngquant", "--force", "--skip-if-larger", "--output", path, "96", path], check=False)
            browser.run("sessionStorage.clear()")
    finally:
        demo.end()
