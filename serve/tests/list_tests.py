# Tests of the lists of agents, frameworks, tasks and offers, and of one agent, over a stand-in. Outside the proof.
import time

from selenium.webdriver.common.keys import Keys

import stand_in
from chromium import equal, holds, test
from stand_in import StandIn, TOKEN

NAMES = "#agents-list tbody th"


def listed(browser, name):
    """The texts of the cells of a list, row by row."""
    return browser.run("return [...document.querySelectorAll(arguments[0])].map(row => [...row.cells].filter(c => !c.hidden).map(c => c.textContent))", f"#{name}-list tbody tr")


def open_list(browser, own, name):
    browser.enter(own.url, TOKEN)
    browser.wait("the cluster", lambda: browser.text("#n-agents"))
    browser.show(name)
    browser.wait(name, lambda: browser.one(f"#{name}-list").is_displayed() and listed(browser, name))


@test
def lists_have_what_the_rows_say(browser, room):
    own = StandIn(stand_in.small_rows())
    open_list(browser, own, "agents")
    equal("agents", listed(browser, "agents"), [
        ["n1", "active", "5 / 8", "2,048 / 8,192", "–", "2", "0"], ["n2", "active", "0 / 8", "0 / 8,192", "50.0%", "0", "1"],
        ["n3", "active", "2 / 4", "4,096 / 8,192", "–", "1", "0"], ["n4", "inactive", "0 / 20", "0 / 8,192", "–", "0", "0"]])
    browser.show("frameworks")
    browser.wait("frameworks", lambda: browser.one("#frameworks-list").is_displayed())
    # Of cpus:40;mem:32768: site has cpus 4 in a task and 4 offered; query mem 4096; batch mem 1024.
    equal("frameworks", listed(browser, "frameworks"), [
        ["batch", "data, web", "active", "3.1%", "–", "mem", "1", "0"], ["query", "data/adhoc", "active", "12.5%", "–", "mem", "1", "0"],
        ["site", "web", "active", "10.0%", "10.0%", "cpus", "1", "1"], ["tests", "ci", "holds nothing", "–", "–", "", "0", "0"]])
    browser.show("tasks")
    browser.wait("tasks", lambda: browser.one("#tasks-list").is_displayed())
    equal("tasks", listed(browser, "tasks"), [
        ["etl", "batch", "data", "n1", "cpus 1, mem 1024", ""], ["front", "site", "web", "n1", "cpus 4, mem 1024, ports [31000-31009]", ""],
        ["scan", "query", "data/adhoc", "n3", "cpus 1, cpus(data) 1, mem 4096", ""]])
    browser.show("offers")
    browser.wait("offers", lambda: browser.one("#offers-list").is_displayed())
    equal("offers", listed(browser, "offers"), [["8", "site", "web", "n2", "cpus 4, mem 1024", ""]])
    equal("console", browser.console(), [])
    own.end()


@test
def lists_are_searched_filtered_and_sorted(browser, room):
    rows = stand_in.small_rows() + [stand_in.agent("n10", "cpus:2;mem:64")]
    own = StandIn(rows)
    open_list(browser, own, "agents")
    equal("in the order that people expect", browser.texts(NAMES), ["n1", "n2", "n3", "n4", "n10"])
    sort = browser.run("return [...document.querySelectorAll('#agents-list th[aria-sort]')].map(th => [th.textContent, th.getAttribute('aria-sort')])")
    equal("what is said of the order", sort[0], ["Agent", "ascending"])
    press = "[...document.querySelectorAll('#agents-list .sort')].find(b => b.textContent === arguments[0]).click()"
    browser.run(press, "cpus used")
    equal("the most used first", browser.texts(NAMES)[:2], ["n1", "n3"])
    browser.run(press, "cpus used")
    equal("the least used first", browser.texts(NAMES)[-1], "n1")
    browser.run(press, "Agent")
    box = browser.one("#agents-list input[type=search]")
    box.send_keys("data")
    equal("by a reservation", browser.texts(NAMES), ["n3"])
    browser.wait("what a screen reader gets", lambda: browser.text("#agents-list p[role=status]") == "1 of 5 agents")
    box.clear()
    box.send_keys("inactive N4")
    equal("all words, in any case", browser.texts(NAMES), ["n4"])
    box.clear()
    box.send_keys("zzz")
    equal("nothing", [browser.texts(NAMES), browser.text("#agents-list .none")], [[], "No agent matches."])
    box.send_keys(Keys.BACKSPACE * 3)
    browser.one("#agents-list option[value='with offers']").click()
    equal("with offers", browser.texts(NAMES), ["n2"])
    own.show([row for row in rows if row.get("offer") != 8])
    browser.wait("a search stays when the cluster changes", lambda: browser.texts(NAMES) == [])
    own.end()


@test
def one_agent_has_its_tasks_and_offers(browser, room):
    own = StandIn(stand_in.small_rows())
    open_list(browser, own, "agents")
    browser.run("[...document.querySelectorAll('#agents-list a')].find(a => a.textContent === 'n1').click()")
    browser.wait("the agent", lambda: browser.focused() == "agent-title")
    equal("its address", browser.run("return location.hash"), "#agents/n1")
    figures = browser.run("return [...document.querySelectorAll('.resources tbody tr')].map(row => [...row.cells].filter((_, k) => k !== 1).map(c => c.textContent))")
    equal("used, offered and free are apart", figures, [["cpus", "8", "5", "0", "3"], ["mem", "8,192", "2,048", "0", "6,144"], ["ports", "100", "10", "0", "90"]])
    equal("tasks", browser.texts("#agent .list tbody tr > :first-child"), ["etl", "front"])
    equal("no actions without a right", browser.texts("#agent button:not(.sort):not(.plain):not(.pager button)"), [])
    browser.show("agents/n2")
    browser.wait("another", lambda: browser.text("#agent-title") == "n2")
    holds("its offer", "cpus 4, mem 1024" in browser.text("#agent"))
    browser.driver.refresh()
    browser.wait("the same after a reload", lambda: browser.text("#agent-title") == "n2")
    own.show([row for row in stand_in.small_rows() if row.get("agent") != "n2"])
    browser.wait("it has left", lambda: "There is no such agent." in browser.text("#agent"))
    equal("console", browser.console(), [])
    own.end()


@test
def an_agent_drains_until_its_tasks_have_ended(browser, room):
    ended = {"row": "mesos_task", "framework": "site", "id": "uuid-0001", "task": "done.1", "agent": "n4", "state": "TASK_FINISHED", "holds": ["gone"]}
    own = StandIn([{**row, "active": False} if row["row"] == "agent" else row for row in stand_in.small_rows()], details=[ended])
    open_list(browser, own, "agents")
    browser.wait("n4 has nothing but a task that has ended", lambda: [row[:2] + row[5:6] for row in listed(browser, "agents")] == [
        ["n1", "draining", "2"], ["n2", "inactive", "0"], ["n3", "draining", "1"], ["n4", "inactive", "1"]])
    own.end()


@test
def who_is_silent_and_since_when(browser, room):
    at = 1795860000000
    own = StandIn(stand_in.small_rows(), details=[{"row": "silent", "agent": "n4", "since": at - 300_000}, {"row": "silent", "agent": "n2"},
                                                  {"row": "mesos_agent", "agent": "n3", "host": "host3", "since": at - 7_200_000}])
    browser.enter(own.url, TOKEN)
    browser.wait("a note", lambda: "3 agents are silent: n2, n3, n4." in browser.text("#notes"))
    holds("in numbers", "3 silent" in browser.text("#numbers"))
    own.detail(*own.details, {"row": "mesos_framework", "framework": "site", "id": "uuid-0001", "name": "Marathon", "since": at - 60_000})
    browser.wait("a framework too", lambda: "1 framework is disconnected: Marathon." in browser.text("#notes"))
    browser.run("document.querySelector('#notes a').click()")
    browser.wait("the silent ones", lambda: browser.texts(NAMES) == ["n2", "n3", "n4"])
    equal("since when", browser.texts("#agents-list .state"), ["silent", "no link, for 2 h", "silent, for 5 min"])
    browser.show("agents/n4")
    browser.wait("one", lambda: browser.text("#agent-title") == "n4")
    holds("the date and the zone", "about " in browser.text("#agent .facts-list") and browser.run("return new Date(%d).getFullYear()" % at) == 2026 and "2026" in browser.text("#agent .facts-list"))
    own.detail()
    browser.wait("it is back", lambda: browser.text("#agent .state") == "inactive")
    own.end()


@test
def the_clock_has_a_date_and_a_zone(browser, room):
    browser.driver.execute_cdp_cmd("Emulation.setTimezoneOverride", {"timezoneId": "Asia/Tbilisi"})
    own = StandIn(stand_in.small_rows())
    browser.enter(own.url, TOKEN)
    # 1795860000000 is 2026-11-28 10:00:00 UTC.
    browser.wait("the clock", lambda: browser.text("#time") == "14:00:00 GMT+4")
    equal("the date", browser.text("#date"), "Sat, 28 Nov 2026")
    browser.driver.execute_cdp_cmd("Emulation.setTimezoneOverride", {"timezoneId": "UTC"})
    own.end()


MESOS = [
    {"row": "mesos_framework", "framework": "site", "id": "uuid-0001", "name": "Marathon", "principal": "me", "connected": True},
    {"row": "mesos_task", "framework": "site", "id": "uuid-0001", "task": "front.7", "name": "front", "agent": "n1", "state": "TASK_RUNNING", "holds": ["front"]},
    {"row": "mesos_task", "framework": "site", "id": "uuid-0001", "task": "done.1", "agent": "n2", "state": "TASK_FAILED", "holds": ["gone"]},
    {"row": "mesos_task", "framework": "query", "id": "uuid-0002", "task": "a", "agent": "n3", "state": "TASK_STAGING", "holds": ["scan"]},
    {"row": "mesos_task", "framework": "query", "id": "uuid-0002", "task": "b", "agent": "n3", "state": "TASK_RUNNING", "killing": True, "holds": ["scan"]},
]


@test
def the_sandbox_of_a_task_is_linked_to_its_agent(browser, room):
    agent = {"row": "mesos_agent", "agent": "n1", "host": "host1", "port": 5051, "connected": True}
    details = [agent, *MESOS[:1], {**MESOS[1], "executor": "my executor"}]
    links = "return [...document.querySelectorAll('#tasks-list tbody a[target]')].map(a => [a.textContent, a.href, a.rel])"
    own = StandIn(stand_in.small_rows(), "operate", details=details)
    open_list(browser, own, "tasks")
    path = "http://host1:5051/sandbox#/frameworks/uuid-0001/executors/my%20executor/runs/latest"
    browser.wait("the links", lambda: browser.run(links) == [[name, path + more, "noopener noreferrer"] for name, more in (("files", "/"), ("stdout", "/stdout"), ("stderr", "/stderr"))])
    own.end()
    own = StandIn(stand_in.small_rows(), details=details)
    open_list(browser, own, "tasks")
    equal("without the right", browser.run(links), [])
    own.end()


@test
def tasks_of_mesos_have_their_states(browser, room):
    own = StandIn(stand_in.small_rows(), details=MESOS)
    open_list(browser, own, "tasks")
    browser.wait("the states", lambda: [row[:1] + row[1:2] + row[4:5] for row in listed(browser, "tasks")] == [
        ["a", "query", "staging"], ["b", "query", "running, being killed"], ["done.1", "Marathon", "failed"], ["etl", "batch", ""], ["front.7", "Marathon", "running"]])
    equal("what two tasks share", [row[5] for row in listed(browser, "tasks")][:2], ["cpus 1, cpus(data) 1, mem 4096 (shared)"] * 2)
    equal("only its principal's task that runs may be killed", browser.run("return [...document.querySelectorAll('#tasks-list .act button')].map(b => b.getAttribute('aria-label'))"), ["Kill task front.7"])
    own.end()


@test
def four_thousand_agents_in_lists_and_on_the_map(browser, room):
    rows = stand_in.large_rows(4096, 1000)
    own = StandIn(rows)
    open_list(browser, own, "agents")
    equal("a page of them", [len(browser.texts(NAMES)), browser.text("#agents-list .pager span")], [50, "1–50 of 4,096"])
    browser.run("[...document.querySelectorAll('#agents-list .pager button')].pop().click()")
    equal("the next page", browser.text("#agents-list .pager span"), "51–100 of 4,096")
    browser.takes("a search", 2, lambda: browser.one("#agents-list input[type=search]").send_keys("rack77-7"))
    equal("one of them", browser.texts(NAMES), ["rack77-7"])
    browser.show("tasks")
    browser.wait("tasks", lambda: browser.text("#tasks-list .pager span") == "1–50 of 20,480")
    elements = browser.run("return document.querySelectorAll('*').length")
    holds(f"{elements} elements", elements < 6000)
    browser.run("window.rows = arguments[0]", rows)
    equal("a state", browser.takes("reading a state", 1.5, lambda: browser.ask("model", "return m.clusterOf(window.rows, []).agents.length")), 4096)
    browser.takes("drawing a list", 1.5, lambda: browser.run("location.hash = 'offers'; dispatchEvent(new HashChangeEvent('hashchange'))"))
    equal("console", browser.console(), [])
    own.end()


# The number of colours that each cover at least 1 % of the map.
COLOURS = """
const map = document.getElementById('map'), data = map.getContext('2d').getImageData(0, 0, map.width, map.height).data, counts = new Map();
for (let k = 0; k < data.length; k += 4) if (data[k + 3] > 200) { const c = data[k] + ',' + data[k + 1] + ',' + data[k + 2]; counts.set(c, (counts.get(c) || 0) + 1); }
return [...counts.values()].filter(n => n > data.length / 4 / 100).length"""


@test
def the_map_of_agents_that_are_all_offered_says_to_whom(browser, room):
    teams = ["ads", "maps", "ops", "search"]
    rows = [stand_in.state(next_offer=4000), *[stand_in.agent(f"n{k}", "cpus:8;mem:1024") for k in range(3000)], *[stand_in.framework(team, (team, 9, False)) for team in teams],
            *[stand_in.offer(k + 1, teams[0 if k < 1500 else 1 + k % 3], teams[0 if k < 1500 else 1 + k % 3], f"n{k}", "cpus:8;mem:1024") for k in range(3000)]]
    own = StandIn(rows)
    browser.enter(own.url, TOKEN)
    browser.wait("the words", lambda: browser.text("#map-text") == "3,000 agents: 0 fully used, 3,000 with the rest offered.")
    equal("to whom", browser.texts("#map-roles li"), ["ads1,500 offered", "maps500 offered", "ops500 offered", "search500 offered"])
    colours = browser.run(COLOURS)
    holds(f"{colours} colours", colours >= 4)
    equal("nothing is used", set(browser.texts("#meters .top b")), {"0.0%"})
    own.end()


MEMBERS = {
    "gateways": [
        {"name": "a", "version": "1.2", "ready": True, "fault": "", "clock_fault": "", "clock_offset_ms": 3, "messages": 900, "lag": 0, "started": 1795850000000, "live": True, "silent_ms": 500},
        {"name": "b", "version": "1.2", "ready": False, "fault": "replaying", "clock_fault": "", "clock_offset_ms": -40, "messages": 100, "lag": 800, "started": 1795859990000, "live": True, "silent_ms": 100},
        {"name": "c", "version": "1.1", "ready": True, "fault": "", "clock_fault": "", "clock_offset_ms": 0, "messages": 850, "lag": 50, "started": 1795850000000, "live": False, "silent_ms": 300000}],
    "etcd": [
        {"id": "1", "name": "a", "reachable": True, "leader": True, "version": "3.4", "index": 5, "lag": 0, "used": 1, "size": 7 << 30, "quota": 8 << 30, "problems": None},
        {"id": "2", "name": "b", "reachable": True, "leader": False, "version": "3.4", "index": 5, "lag": 7, "used": 1, "size": 1 << 20, "quota": 8 << 30, "problems": ["NOSPACE"]},
        {"id": "3", "name": "c", "reachable": False, "leader": False, "version": "", "index": 0, "lag": 0, "used": 0, "size": 0, "quota": 0, "problems": None}]}


@test
def members_and_who_lags_are_shown(browser, room):
    own = StandIn(stand_in.small_rows())
    own.show(stand_in.small_rows(), members=MEMBERS)
    browser.enter(own.url, TOKEN)
    for note in ("1 gateway is silent: c.", "1 member of etcd is not reachable: c.", "1 store of etcd is nearly full: a."):
        browser.wait(note, lambda: note in browser.text("#notes"))
    browser.show("members")
    browser.wait("the lists", lambda: listed(browser, "gateways") and listed(browser, "etcd"))
    equal("gateways", [row[:6] for row in listed(browser, "gateways")], [
        ["a (this one)", "ready", "1.2", "900", "0", "3 ms"], ["b", "replaying", "1.2", "100", "800", "-40 ms"], ["c", "silent, for 5 min", "1.1", "850", "50", "0 ms"]])
    equal("members of etcd", listed(browser, "etcd"), [
        ["a", "leader", "3.4", "0", "7 GiB of 8 GiB, 87.5%"], ["b", "NOSPACE", "3.4", "7", "1 MiB of 8 GiB, 0.0%"], ["c", "not reachable", "", "–", "–"]])
    equal("console", browser.console(), [])
    own.end()


# Problems for screen readers: duplicate ids, headings that skip a level, elements without names, cells without headers; and the landmarks.
STRUCTURE = """
const all = selector => [...document.querySelectorAll(selector)].filter(e => e.checkVisibility());
const ids = [...document.querySelectorAll('[id]')].map(e => e.id), levels = all('h1, h2, h3, h4').map(e => Number(e.tagName[1]));
const name = e => (e.getAttribute('aria-label') || e.textContent || e.title || '').trim() || [...e.labels || []].map(l => l.textContent).join('').trim();
const refers = ['aria-labelledby', 'aria-describedby', 'for'].flatMap(key => [...document.querySelectorAll('[' + key + ']')].map(e => e.getAttribute(key)));
return {
  twice: ids.filter((id, k) => ids.indexOf(id) !== k), skipped: levels.filter((n, k) => k && n > levels[k - 1] + 1), nameless: all('button, a, input, select, canvas, [role=img]').filter(e => !e.ariaHidden && !name(e)).map(e => e.outerHTML.slice(0, 80)),
  dangling: refers.filter(id => !document.getElementById(id)), headers: all('thead th').filter(e => e.scope !== 'col').length + all('tbody tr').filter(row => row.cells[0].scope !== 'row').length,
  captions: all('table').filter(t => !t.caption?.textContent).length, landmarks: ['header', 'nav', 'main', 'footer'].map(tag => all(tag + (tag === 'nav' ? '[aria-label]' : '')).length > 0), language: document.documentElement.lang,
}"""


@test
def the_structure_is_sound_for_screen_readers(browser, room):
    own = StandIn(stand_in.small_rows(), "operate", details=MESOS)
    own.show(stand_in.small_rows(), members=MEMBERS)
    own.answers["/drf/v1/audit"] = (200, {"records": [{"message": 7, "at": 1795860000000, "name": "ops", "address": "10.0.0.7", "events": {"cycle": 1}, "refused": 0}]})
    browser.enter(own.url, TOKEN)
    browser.wait("the cluster", lambda: browser.text("#n-agents") == "4")
    for page in ("overview", "agents/n1", "frameworks/site", "tasks", "offers", "members", "audit"):
        browser.show(page)
        browser.wait(page, lambda: browser.run("return [...document.querySelectorAll('#content > section tbody tr')].some(e => e.checkVisibility())"))
        equal(page, browser.run(STRUCTURE), {"twice": [], "skipped": [], "nameless": [], "dangling": [], "headers": 0, "captions": 0, "landmarks": [True] * 4, "language": "en"})
    equal("who sent it", browser.run("return [...document.querySelectorAll('#audit-table tbody tr')].map(row => [...row.cells].map(c => c.textContent))"),
          [["28 Nov 2026, 10:00:00 UTC", "ops", "10.0.0.7", "1 cycle", "7"]])
    own.end()
