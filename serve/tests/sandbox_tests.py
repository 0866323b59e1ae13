# Tests of Mesos' tasks on the page over a real gateway and a real agent: state, sandbox, output that grows, kill. Outside the proof.
import base64
import http.client
import json
import os
import subprocess
import threading
import urllib.error
import urllib.request

from action_tests import lines, press
from chromium import equal, holds, test
from fleet import free_port

COMMAND = "echo to stderr >&2; mkdir made; i=0; while [ $i -lt 1500 ]; do echo line $i '<b>'; i=$((i+1)); sleep 0.2; done"


class Scheduler:
    """A framework of Mesos that launches one command on its first offer."""

    def __init__(self, service):
        self.token, self.address = service.tokens["admin"], service.url[7:]
        self.headers = {"Authorization": "Basic " + base64.b64encode(b"admin:" + self.token.encode()).decode(), "Content-Type": "application/json", "Accept": "application/json"}
        self.stream = http.client.HTTPConnection(self.address, timeout=120)
        info = {"user": "root", "name": "Marathon", "roles": ["web"], "capabilities": [{"type": "MULTI_ROLE"}]}
        self.stream.request("POST", "/api/v1/scheduler", json.dumps({"type": "SUBSCRIBE", "subscribe": {"framework_info": info}}), self.headers)
        self.answer = self.stream.getresponse()
        assert self.answer.status == 200, self.answer.read()
        self.launched = threading.Event()
        threading.Thread(target=self.run, daemon=True).start()

    def events(self):
        while size := self.answer.readline().strip():
            yield json.loads(self.answer.read(int(size)))

    def run(self):
        for event in self.events():
            if event["type"] == "SUBSCRIBED":
                self.id = event["subscribed"]["framework_id"]["value"]
            if event["type"] == "OFFERS" and not self.launched.is_set():
                self.launch(event["offers"]["offers"][0])

    def launch(self, offer):
        cpus = [{"name": "cpus", "type": "SCALAR", "scalar": {"value": 1}, "allocation_info": {"role": "web"}}]
        task = {"name": "front", "task_id": {"value": "front.1"}, "agent_id": offer["agent_id"], "resources": cpus, "command": {"value": COMMAND}}
        call = {"type": "ACCEPT", "framework_id": {"value": self.id}, "accept": {"offer_ids": [offer["id"]], "operations": [{"type": "LAUNCH", "launch": {"task_infos": [task]}}]}}
        connection = http.client.HTTPConnection(self.address, timeout=60)
        connection.request("POST", "/api/v1/scheduler", json.dumps(call), {**self.headers, "Mesos-Stream-Id": self.answer.headers["Mesos-Stream-Id"]})
        assert connection.getresponse().status == 202
        self.launched.set()


@test
def a_task_of_mesos_is_followed_and_killed(browser, room):
    service = room.start("-cycle", "200ms")
    token, work, port = os.path.join(service.folder, "agent.token"), os.path.join(service.folder, "work"), free_port()
    with open(token, "w", encoding="utf-8", opener=lambda path, flags: os.open(path, flags, 0o600)) as file:
        file.write(service.tokens["rack"] + "\n")
    with open(os.path.join(service.folder, "agent.log"), "w", encoding="utf-8") as log:
        agent = subprocess.Popen([os.path.join(os.path.dirname(room.programs.gateway), "durzhanok-agent"), "-token-file", token, "-principal", "rack", "-name", "n1", "-hostname", "127.0.0.1", "-gateways", service.url,
                                  "-resources", "cpus:2;mem:256", "-work", work, "-listen", f"127.0.0.1:{port}", "-switch-user=false"], stdout=log, stderr=log)
    try:
        scheduler = Scheduler(service)
        holds("it launches: " + open(log.name, encoding="utf-8").read(), scheduler.launched.wait(60))
        browser.enter(service.url, service.tokens["admin"])
        state = "return document.querySelector('#tasks-list td[data-label=State]')?.textContent"
        browser.wait("the page", lambda: browser.text("#n-tasks") == "1")
        browser.show("tasks")
        browser.wait("it runs", lambda: browser.run(state) == "running")
        equal("task and framework", browser.run("return [...document.querySelectorAll('#tasks-list tbody tr')].map(row => [row.cells[0].textContent, row.cells[1].textContent])"), [["front.1", "Marathon"]])
        links = dict(browser.run("return [...document.querySelectorAll('#tasks-list a[target]')].map(a => [a.textContent, a.href])"))
        equal("its sandbox is at the agent", [links[name].split("#")[0] for name in ("files", "stdout", "stderr")], [f"http://127.0.0.1:{port}/sandbox"] * 3)
        page = browser.driver.current_window_handle
        browser.driver.switch_to.new_window("tab")
        try:
            follow(browser, service, links)
        finally:
            browser.driver.close()
            browser.driver.switch_to.window(page)
        press(browser, "#tasks-list", "Kill")
        equal("what is sent", lines(browser), [{"framework": scheduler.id, "task": "front.1"}])
        browser.one("#ask-go").click()
        browser.wait("it is killed", lambda: browser.run(state) == "killed", 60)
    finally:
        agent.terminate()
        agent.wait(30)
    browser.console()
    service.end()


def follow(browser, service, links):
    """Looks at the sandbox, as a browser does that was given a name and a token."""
    driver = browser.driver
    driver.execute_cdp_cmd("Network.enable", {})
    try:
        urllib.request.urlopen(links["files"].split("#")[0], timeout=30)
        raise AssertionError("the sandbox is shown to anybody")
    except urllib.error.HTTPError as refused:
        equal("how a browser gets to ask for a token", (refused.code, refused.headers["WWW-Authenticate"].split()[0]), (401, "Basic"))
    who = base64.b64encode(b"admin:" + service.tokens["admin"].encode()).decode()
    driver.execute_cdp_cmd("Network.setExtraHTTPHeaders", {"headers": {"Authorization": "Basic " + who}})
    driver.get("about:blank")
    driver.get(links["files"])
    names = "#files tbody th"
    browser.wait("the files", lambda: browser.texts(names) == ["made/", "stderr", "stdout"])
    browser.run("[...document.querySelectorAll('#files a')].find(a => a.textContent === 'stderr').click()")
    browser.wait("a file", lambda: browser.text("#text") == "to stderr\n")
    driver.get(links["stdout"])
    browser.wait("its output", lambda: "line 0 <b>\nline 1 <b>\n" in browser.text("#text"))
    last = browser.text("#text").count("\n")
    browser.wait("what comes", lambda: browser.text("#text").count("\n") > last + 5)
    got = browser.text("#text").splitlines()
    equal("each line once", got, [f"line {k} <b>" for k in range(len(got))])
    equal("made of it", browser.run("return document.querySelectorAll('b').length"), 0)
    equal("console", [line for line in browser.console() if "401" not in line], [])

