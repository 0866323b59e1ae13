# Tests of what an operator does from the page: over a real gateway each action with and without the right, and refusals and lost answers over a
# stand-in. Outside the proof.
import json
import os
import re

from selenium.webdriver.common.keys import Keys

import stand_in
from chromium import equal, holds, test
from fleet import SERVE
from service import event
from stand_in import StandIn, TOKEN


def press(browser, where, text):
    """Presses the button with a text, once it is there. It gets the focus first, as by a pointer."""
    find = "const b = [...document.querySelectorAll(arguments[0] + ' button')].find(b => b.textContent === arguments[1] && b.checkVisibility()); b?.focus(); b?.click(); return !!b"
    browser.wait(f"a button {text}", lambda: browser.run(find, where, text))


def lines(browser):
    return [json.loads(line) for line in browser.text("#ask-lines").split("\n")]


def fill_in(browser, **fields):
    for name, text in fields.items():
        box = browser.one("#ask-" + name)
        box.clear()
        box.send_keys(text)


def confirmed(browser, wanted, **fields):
    """Fills the dialog in, compares its lines, and sends them."""
    browser.wait("the dialog", lambda: browser.one("#ask").is_displayed())
    fill_in(browser, **fields)
    equal("the lines", lines(browser), wanted)
    browser.one("#ask-go").click()
    browser.wait("it is done", lambda: not browser.one("#ask").is_displayed())


def rows(service):
    return service.get("/drf/v1/state")["rows"]


def prepared(room):
    service = room.start()
    service.client().send(event("add_agent", agent="n1", total="cpus:8;mem:1024"), event("add_agent", agent="n2", total="cpus:8;mem:1024"),
                          event("add_framework", framework="site", roles=["web"]), event("cycle"))
    return service


@test
def each_action_is_sent_as_it_is_shown(browser, room):
    service = prepared(room)
    browser.enter(service.url, service.tokens["admin"])
    browser.wait("the cluster", lambda: browser.text("#n-agents") == "2")
    has = lambda **fields: any(fields.items() <= row.items() for row in rows(service))
    browser.show("offers")
    press(browser, "#offers-list", "Rescind")
    number = lines(browser)[0]["offer"]
    confirmed(browser, [{"event": "rescind", "offer": number}])
    equal("offers", [row["offer"] for row in rows(service) if row["row"] == "offer"], [3 - number])
    browser.show("agents/n1")
    press(browser, "#agent", "Drain")
    equal("focus in the dialog", browser.focused(), "ask-cancel")
    confirmed(browser, [{"event": "deactivate_agent", "agent": "n1"}])
    holds("n1 is inactive", has(row="agent", agent="n1", active=False))
    browser.wait("what is said", lambda: browser.text("#toast") == "N1 is drained.")
    press(browser, "#agent", "Activate")
    confirmed(browser, [{"event": "activate_agent", "agent": "n1"}])
    holds("n1 is active", has(row="agent", agent="n1", active=True))
    press(browser, "#agent", "Reserve")
    confirmed(browser, [{"event": "reserve", "agent": "n1", "role": "web", "resources": "cpus:2"}], role="web", resources="cpus:2")
    holds("n1 has a reservation", has(row="agent", agent="n1", total="cpus:6;cpus(web):2;mem:1024"))
    press(browser, "#agent", "Unreserve")
    confirmed(browser, [{"event": "unreserve", "agent": "n1", "role": "web", "resources": "cpus:2"}])
    holds("and no more", has(row="agent", agent="n1", total="cpus:8;mem:1024"))
    browser.show("overview")
    press(browser, "#tree", "Set")
    confirmed(browser, [{"event": "set_weight", "role": "web", "weight": "2.5"}, {"event": "set_limit", "role": "web", "limit": "cpus:12"}], weight="2.5", limit="cpus:12")
    holds("weight and limit", has(row="weight", role="web", weight="2.5") and has(row="limit", role="web", limit="cpus:12"))
    browser.show("agents/n1")
    press(browser, "#agent", "Remove")
    confirmed(browser, [{"event": "remove_agent", "agent": "n1"}])
    holds("n1 is gone", not has(agent="n1"))
    browser.show("frameworks/site")
    press(browser, "#framework", "Remove")
    confirmed(browser, [{"event": "remove_framework", "framework": "site"}])
    holds("site is gone", not has(framework="site"))
    equal("console", browser.console(), [])
    service.end()


ALL = "return [...document.querySelectorAll('#content .acts button, #tree .act button, #offers-list .act button, #tasks-list .act button')].map(b => b.textContent)"


@test
def without_the_right_there_are_no_actions(browser, room):
    service = prepared(room)
    browser.enter(service.url, service.tokens["eye"])
    for page in ("overview", "agents/n1", "frameworks/site", "offers"):
        browser.wait("whose token it is", lambda: browser.text("#who") == "eye")
        browser.show(page)
        browser.wait(page, lambda: browser.texts("#content > section:not([hidden]) tbody tr"))
        equal(page, browser.run(ALL), [])
    # Actions that the page does not offer are refused by the gateway too, and the page says so.
    browser.show("agents/n1")
    browser.ask("actions", "m.confirm(m.actions.drain({name: 'n1', tasks: [], offers: []}))")
    browser.one("#ask-go").click()
    browser.wait("the refusal", lambda: 'Your token does not allow this: the token "eye" has no right to send events' in browser.text("#ask-answer"))
    holds("n1 is active", any(row.get("agent") == "n1" and row["row"] == "agent" and row["active"] for row in rows(service)))
    browser.console()
    service.end()


@test
def a_right_to_some_agents_gives_their_actions(browser, room):
    own = StandIn(stand_in.small_rows(), "agent:n1*")
    browser.enter(own.url, TOKEN)
    browser.wait("the cluster", lambda: browser.text("#n-agents") == "4")
    browser.show("agents/n1")
    browser.wait("its own", lambda: browser.texts("#agent .acts button") == ["Drain", "Remove"])
    browser.show("agents/n2")
    browser.wait("another's", lambda: browser.text("#agent-title") == "n2" and browser.texts("#agent .acts button") == [])
    own.end()


def table_of_refusals():
    with open(os.path.join(SERVE, "..", "docs", "REFERENCE.md"), encoding="utf-8") as file:
        rows = re.findall(r"^\| \d+ \| `(\w+)` \| (.*) \|$", file.read(), re.M)
    return {name: text.replace("`", "") for name, text in rows}


@test
def a_refusal_is_said_in_the_words_of_the_reference(browser, room):
    service = prepared(room)
    browser.enter(service.url, service.tokens["admin"])
    browser.wait("the cluster", lambda: browser.text("#n-agents") == "2")
    meanings = table_of_refusals()
    equal("the page's words", browser.ask("actions", "return {...m.refusals}"), meanings)
    browser.show("agents/n1")
    for fields, name in (({"role": "web", "resources": "cpus:100"}, "NotCovered"), ({"role": "*", "resources": "cpus:1"}, "DefaultRole"), ({"role": "web", "resources": "cpus"}, "BadText")):
        press(browser, "#agent", "Reserve")
        fill_in(browser, **fields)
        browser.one("#ask-go").click()
        browser.wait(name, lambda: browser.text("#ask-answer") == f"The allocator refused line 1 ({name}): {meanings[name]}.")
        equal("how it is announced", browser.one("#ask-answer").get_attribute("role"), "alert")
        browser.keys(Keys.ESCAPE)
        browser.wait("closed by Escape", lambda: not browser.one("#ask").is_displayed())
        browser.wait("the focus is on the button again", lambda: browser.focused() == "Reserve on n1")
    browser.show("overview")
    press(browser, "#tree", "Set")
    fill_in(browser, weight="2000", limit="cpus:3")
    browser.one("#ask-go").click()
    browser.wait("one line of two", lambda: browser.text("#ask-answer") == f"The allocator refused line 1 (BadWeight): {meanings['BadWeight']}.")
    browser.console()
    service.end()


@test
def a_lost_answer_is_sent_again_with_its_key(browser, room):
    own = StandIn(stand_in.small_rows(), "operate")
    own.answers["/drf/v1/events"] = None
    browser.enter(own.url, TOKEN)
    browser.wait("the cluster", lambda: browser.text("#n-agents") == "4")
    browser.show("agents/n1")
    press(browser, "#agent", "Drain")
    browser.one("#ask-go").click()
    browser.wait("it is not known", lambda: "it is not known whether this was applied" in browser.text("#ask-answer"))
    equal("the button", browser.text("#ask-go"), "Send again")
    own.answers["/drf/v1/events"] = (503, "etcd's majority does not answer; the batch may have been applied: send it again with its key\n", {"Drf-Applied": "unknown"})
    browser.one("#ask-go").click()
    browser.wait("nor now", lambda: "It is not known whether this was applied: etcd" in browser.text("#ask-answer"))
    own.answers["/drf/v1/events"] = (200, '{"ok":true}\n')
    browser.wait("the button again", lambda: browser.one("#ask-go").is_enabled())
    browser.one("#ask-go").click()
    browser.wait("it is done", lambda: not browser.one("#ask").is_displayed())
    sent = [(path, json.loads(body), key) for path, body, key in own.sent]
    holds(f"sent {len(sent)} times", len(sent) >= 3)
    equal("the same, with the same key", [one == sent[0] for one in sent], [True] * len(sent))
    press(browser, "#agent", "Drain")
    browser.one("#ask-go").click()
    browser.wait("another", lambda: len(own.sent) > len(sent))
    holds("has another key", own.sent[-1][2] != sent[0][2])
    browser.console()
    own.end()


@test
def the_dialog_keeps_the_focus(browser, room):
    own = StandIn(stand_in.small_rows(), "operate")
    browser.enter(own.url, TOKEN)
    browser.wait("the cluster", lambda: browser.text("#n-agents") == "4")
    browser.show("agents/n3")
    press(browser, "#agent", "Unreserve")
    equal("what is reserved is filled in", lines(browser), [{"event": "unreserve", "agent": "n3", "role": "data", "resources": "cpus:2"}])
    equal("the first field", browser.focused(), "ask-role")
    seen = set()
    for _ in range(10):
        browser.keys(Keys.TAB)
        seen.add(browser.run("return document.activeElement === document.body ? 'ask-role' : document.activeElement.id"))
    equal("where Tab goes", seen, {"ask-role", "ask-resources", "ask-lines", "ask-cancel", "ask-go"})
    named = browser.run("const d = document.getElementById('ask'); return [d.matches(':modal'), document.getElementById(d.getAttribute('aria-labelledby')).textContent]")
    equal("its name", named, [True, "Unreserve on n3"])
    unlabelled = browser.run("return [...document.querySelectorAll('input, select')].filter(e => !e.labels.length && !e.getAttribute('aria-label')).map(e => e.id)")
    equal("fields without a label", unlabelled, [])
    own.end()


@test
def a_task_is_killed_by_who_may(browser, room):
    own = StandIn(stand_in.small_rows(), "operate", details=[{"row": "mesos_task", "framework": "site", "id": "uuid-0001", "task": "front.7", "agent": "n1", "state": "TASK_RUNNING", "holds": ["front"]}])
    own.answers["/drf/v1/kill-task"] = (202, "")
    browser.enter(own.url, TOKEN)
    browser.wait("the cluster", lambda: browser.text("#n-tasks") == "3")
    browser.show("agents/n1")
    press(browser, "#agent", "Kill")
    confirmed(browser, [{"framework": "uuid-0001", "task": "front.7"}])
    equal("sent", [(path, json.loads(body)) for path, body, _ in own.sent], [("/drf/v1/kill-task", {"framework": "uuid-0001", "task": "front.7"})])
    own.end()


@test
def a_one_time_link_signs_in_once(browser, room):
    service = room.service()
    code = json.loads(service.gateway.ask("/drf/v1/login-codes", b"", name="eye")[1])["code"]
    browser.open(service.url)
    browser.driver.get("about:blank")
    browser.driver.get(f"{service.url}/#once={code}")
    browser.wait("the cluster", lambda: browser.text("#who") == "eye")
    history = browser.driver.execute_cdp_cmd("Page.getNavigationHistory", {})["entries"]
    holds(f"the addresses {history}", not any(code in entry["url"] or service.tokens["eye"] in entry["url"] for entry in history))
    browser.run("sessionStorage.clear()")
    browser.driver.get("about:blank")
    browser.driver.get(f"{service.url}/#once={code}")
    browser.wait("the second time", lambda: "The link did not work: this link was used before" in browser.text("#denied"))
    browser.console()


@test
def an_agent_that_becomes_silent_is_shown(browser, room):
    service = room.start("-agent-timeout", "2s")
    cluster = service.client("rack")
    cluster.send(event("add_agent", agent="n1", total="cpus:1;mem:64"), event("add_agent", agent="n2", total="cpus:1;mem:64"))
    beat = cluster.keep_alive("/agents/n1", seconds=0.3)
    browser.enter(service.url, service.tokens["eye"])
    browser.wait("both are active", lambda: browser.text("#numbers div:first-child") == "agents2")
    beat.set()
    browser.wait("the note", lambda: "1 agent is silent: n1." in browser.text("#notes"), 40)
    browser.run("document.querySelector('#notes a').click()")
    browser.wait("since when", lambda: browser.text("#agent .state").startswith("silent, for ") and "about " in browser.text("#agent .facts-list"), 20)
    beat = cluster.keep_alive("/agents/n1", seconds=0.3)
    browser.wait("it is heard again, and still inactive", lambda: browser.text("#agent .state") == "inactive", 20)
    beat.set()
    service.end()


@test
def who_set_a_limit_and_when_is_found(browser, room):
    service = prepared(room)
    service.client("ops").send(event("set_limit", role="web", limit="cpus:7"))
    service.client("ops").send(event("set_weight", role="web", weight="x"))
    browser.enter(service.url, service.tokens["eye"])
    browser.wait("the cluster", lambda: browser.text("#n-agents") == "2")
    browser.show("audit?event=set_limit&role=web")
    cells = "return [...document.querySelectorAll('#audit-table tbody tr')].map(row => [...row.cells].slice(1, 4).map(c => c.textContent))"
    browser.wait("who", lambda: browser.run(cells) == [["ops", "127.0.0.1", "The limit of web is cpus 7"]])
    holds("when, with the zone", browser.text("#audit-table tbody th").endswith(" UTC") or "GMT" in browser.text("#audit-table tbody th"))
    browser.run("document.getElementById('audit-event').value = ''; document.getElementById('audit-role').value = ''; document.getElementById('audit-refused').click()")
    press(browser, "#audit", "Search")
    browser.wait("what was refused", lambda: browser.run(cells) == [["ops", "127.0.0.1", "1 set_weight, 1 refused"]])
    browser.show("agents/n1")
    browser.wait("a link", lambda: browser.text("#agent .facts-list a") == "who sent what")
    browser.run("document.querySelector('#agent .facts-list a').click()")
    browser.wait("the agent's history", lambda: browser.run(cells)[-1:] and browser.run(cells)[-1][2].startswith("Agent n1 registered"))
    equal("console", browser.console(), [])
    service.end()
