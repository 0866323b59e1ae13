# Tests of the page over a stand-in: what it shows of given rows, of events, of faults. Outside the proof.
import json
from urllib.parse import quote

from selenium.webdriver.common.keys import Keys

import stand_in
from chromium import equal, holds, test
from stand_in import StandIn, TOKEN


def small(browser, *rights):
    own = StandIn(stand_in.small_rows(), *rights)
    browser.enter(own.url, TOKEN)
    browser.wait("the cluster", lambda: browser.texts("#tree tbody tr"))
    return own


ROW = """
const cells = ['.label', '.used', '.offered', '.weighted'];
return [...document.querySelectorAll('#tree tbody tr')].map(row =>
  [...cells.map(cell => row.querySelector(cell).textContent), ...[...row.querySelectorAll('.part i')].map(part => part.style.width)])"""


@test
def a_wrong_token_is_told(browser, room):
    own = StandIn(stand_in.small_rows())
    browser.enter(own.url, "another")
    browser.wait("the refusal", lambda: "does not know" in browser.text("#denied"))
    holds("the page is not shown", not browser.one("#page").is_displayed() and browser.one("#login").is_displayed())
    equal("what is kept", browser.run("return sessionStorage.length"), 0)
    own.end()


@test
def the_token_is_kept_in_this_tab_alone(browser, room):
    own = small(browser)
    browser.driver.refresh()
    browser.wait("the cluster again", lambda: browser.texts("#tree tbody tr"))
    equal("what is kept for good", browser.run("return [localStorage.length, document.cookie]"), [0, ""])
    browser.one("#leave").click()
    browser.wait("the start", lambda: browser.focused() == "token")
    equal("what is kept behind a sign-out", browser.run("return [sessionStorage.length, document.querySelectorAll('#tree tbody tr').length]"), [0, 0])
    own.end()


@test
def an_empty_cluster_is_told(browser, room):
    own = StandIn([stand_in.state(0, 0, 1)])
    browser.enter(own.url, TOKEN)
    browser.wait("the words", lambda: browser.one("#nobody").is_displayed() and "There are no agents." in browser.text("#meters"))
    holds("what is empty is hidden", not browser.one("#tree").is_displayed() and not browser.one("#map-card").is_displayed())
    for page, words in (("agents", "There are no agents."), ("frameworks", "There are no frameworks."), ("tasks", "There are no tasks."), ("offers", "No offer is outstanding.")):
        browser.show(page)
        browser.wait(page, lambda: browser.one(f"#{page}-list .none").is_displayed())
        equal(page, browser.text(f"#{page}-list .none"), words)
    browser.show("overview")
    own.show(stand_in.small_rows() + [stand_in.agent("odd", "constructor:1;none:1;toString:2")])
    browser.wait("the cluster", lambda: browser.one("#tree").is_displayed() and browser.one("#map-card").is_displayed() and browser.run(MAPPED))
    holds("the words are gone", "There are no agents." not in browser.text("#meters"))
    equal("console", browser.console(), [])
    own.end()


# Whether something is drawn on the map.
MAPPED = """
const map = document.getElementById('map');
return map.clientWidth > 0 && map.getContext('2d').getImageData(0, 0, map.width, map.height).data.some(byte => byte > 0)"""


@test
def what_is_used_and_what_is_offered_are_apart(browser, room):
    own = small(browser)
    # Of cpus:40;mem:32768 together, the inactive agent's among them.
    equal("the tree", browser.run(ROW), [
        ["ci", "–", "–", "–", "0%", "0%"], ["tests", "–", "–", "", "0%", "0%"],
        ["data", "15.6%", "–", "15.6%", "15.63%", "0%"], ["batch", "3.1%", "–", "", "3.13%", "0%"],
        ["adhoc", "12.5%", "–", "12.5%", "12.5%", "0%"], ["query", "12.5%", "–", "", "12.5%", "0%"],
        ["web", "10.0%", "10.0%", "10.0%", "10%", "10%"], ["batch", "–", "–", "", "0%", "0%"],
        ["site", "10.0%", "10.0%", "", "10%", "10%"]])
    equal("how full is what is used", browser.texts("#meters .top b"), ["17.5%", "18.8%"])
    equal("in figures", browser.run("return [...document.querySelectorAll('#meters dl')].map(dl => [...dl.children].map(row => row.innerText.split('\\n').filter(t => t.trim()).join(' ')))"), [
        ["used 7 17.5%", "offered 4 10.0%", "free 9 22.5%", "inactive 20 50.0%", "total 40"],
        ["used 6,144 18.8%", "offered 1,024 3.1%", "free 17,408 53.1%", "inactive 8,192 25.0%", "total 32,768"]])
    equal("in numbers", browser.run("return [...document.querySelectorAll('#numbers > div')].map(e => [...e.children].map(c => c.textContent))"), [
        ["agents", "4", "1 inactive"], ["frameworks", "4", "1 holds nothing"], ["tasks", "3", ""], ["offers", "1", "outstanding"], ["filters", "1", "in force"]])
    equal("the title", browser.driver.title, "Overview · 19% used · Durzhanok")
    equal("console", browser.console(), [])
    own.end()


@test
def limits_stand_beside_consumption(browser, room):
    own = small(browser)
    # Resources reserved for `data` count once, held or not; what `data` holds of them does not count again.
    equal("limits", browser.texts("#tree .limits li"), ["cpus 4 of 4, full", "mem 5,120 of 8,192", "cpus 8 of 9"])
    holds("a full limit is told", any("data has consumed its limit of cpus" in note for note in browser.texts("#notes li")))
    own.end()


@test
def roles_fold_and_orders_change(browser, room):
    own = small(browser)
    browser.one("#fold").click()
    equal("closed", browser.texts("#tree .label"), ["ci", "data", "web"])
    browser.one("#tree button[aria-label='Open data']").click()
    equal("one opened", browser.texts("#tree .label"), ["ci", "data", "batch", "adhoc", "web"])
    browser.one("#order option[value=share]").click()
    equal("greatest first", browser.texts("#tree .label"), ["web", "data", "batch", "adhoc", "ci"])
    browser.one("#order option[value=next]").click()
    equal("served next first", browser.texts("#tree .label"), ["ci", "web", "data", "batch", "adhoc"])
    own.end()


@test
def a_change_comes_within_seconds(browser, room):
    own = small(browser)
    rows = [row for row in stand_in.small_rows() if row.get("offer") != 8]
    own.show(rows)
    own.tell('{"event":"rescind","offer":8}', '{"ok":true}')
    browser.wait("the new share", lambda: ["web", "10.0%", "–", "5.0%", "10%", "0%"] in browser.run(ROW), 20)
    equal("the event", browser.texts("#feed li span")[0], "Offer 8 rescinded")
    equal("offers", browser.text("#n-offers"), "0")
    own.end()


EVENTS = [
    ({"event": "add_agent", "agent": "n9", "total": "cpus:4;mem:1024"}, {"ok": True}, "Agent n9 registered with cpus 4, mem 1024"),
    ({"event": "set_limit", "role": "web", "limit": ""}, {"ok": True}, "web has no limit"),
    ({"event": "reserve", "agent": "n1", "role": "web", "resources": "cpus:1"}, {"ok": True}, "cpus 1 on n1 reserved for web"),
    ({"event": "accept", "framework": "site", "offer": 8, "tasks": [{"task": "a", "use": "cpus:1"}, {"task": "b", "use": "cpus:2"}]}, {"ok": True},
     "site accepted offer 8: task a uses cpus 1; task b uses cpus 2"),
    ({"event": "decline", "framework": "site", "offer": 8}, {"ok": True}, "site declined offer 8, for 5 s"),
    ({"event": "cycle", "at": 1}, {"offers": [{"framework": "site"}, {"framework": "batch"}]}, "Cycle: 2 offers, to site, batch"),
    ({"event": "rescind", "offer": 7}, {"name": "UnknownOffer", "refused": 7}, "Refused: rescind offer 7 (UnknownOffer: no outstanding offer has this number)"),
    ({"event": "constructor"}, {"name": "BadShape", "refused": 32}, 'Line: {"event": "constructor"} (BadShape: the event is unknown, a key is missing or unknown, or a value has another type)'),
    ({"event": "add_agent", "agent": 7}, {"name": "BadShape", "refused": 32}, "Refused: add_agent 7 (BadShape: the event is unknown, a key is missing or unknown, or a value has another type)"),
]


@test
def events_are_told_in_words(browser, room):
    own = small(browser)
    for event, reply, _ in EVENTS:
        own.tell(json.dumps(event), json.dumps(reply))
    browser.wait("all", lambda: len(browser.texts("#feed li time")) == len(EVENTS))
    equal("words", browser.texts("#feed li span"), [words for _, _, words in reversed(EVENTS)])
    browser.one("#refused").click()
    equal("refused alone", len(browser.texts("#feed li")), 3)
    browser.one("#refused").click()
    browser.one("#only").send_keys("n9")
    browser.wait("one", lambda: browser.texts("#feed li span") == [EVENTS[0][2]])
    browser.one("#raw").click()
    equal("the line itself", browser.text("#feed code").split("\n")[0], json.dumps(EVENTS[0][0]))
    equal("console", browser.console(), [])
    own.end()


HOSTILE = "<img src=x onerror=\"window.taken=1\"><script>window.taken=1</script>"


@test
def the_latest_events_of_the_journal_come_first(browser, room):
    own = StandIn(stand_in.small_rows())
    pairs = [f'{{"event":"decline","framework":"site","offer":{k},"at":{1795860000000 + k}}}\n{{"ok":true}}\n' for k in range(2000)]
    own.journal = "".join(pairs) + '{"ok":true}\n{"name":"BadShape","refused":32}\n'
    own.show(stand_in.small_rows())
    browser.enter(own.url, TOKEN)
    wanted = ['Line: {"ok":true} (BadShape: the event is unknown, a key is missing or unknown, or a value has another type)', "site declined offer 1999, for 5 s", "site declined offer 1998, for 5 s"]
    browser.wait("the latest", lambda: browser.texts("#feed li span")[:3] == wanted)
    own.tell('{"event":"rescind","offer":3000}', '{"ok":true}')
    browser.wait("and what comes", lambda: browser.texts("#feed li span")[:1] == ["Offer 3000 rescinded"])
    own.end()


@test
def a_hostile_text_is_text(browser, room):
    own = small(browser)
    bad = "<b>x&amp;</b>"
    rows = stand_in.small_rows() + [stand_in.framework(bad, (bad, 1, False)), stand_in.agent(HOSTILE, "cpus:1;" + bad + ":{" + HOSTILE + "}"),
                                    stand_in.task(HOSTILE, bad, bad, HOSTILE, "cpus:1"), stand_in.offer(77, bad, bad, HOSTILE, bad + ":1")]
    own.answers["/drf/v1/explain"] = (200, json.dumps({"client": bad + "/./" + bad, "why": HOSTILE}) + "\n")
    own.show(rows)
    own.tell(HOSTILE + "\u202egnp\u0000", '{"name":"NotJson","refused":31}')
    own.tell(json.dumps({"event": "add_framework", "framework": HOSTILE, "roles": [HOSTILE]}), '{"name":"' + HOSTILE.replace('"', "'") + '","refused":33}')
    browser.wait("the lines", lambda: len(browser.texts("#feed li time")) == 2)
    browser.wait("the rows", lambda: bad in browser.texts("#tree .label"))
    holds("the line is shown, marks of direction made visible", "Line: " + HOSTILE + "\\u{202e}gnp\\u{0}" in browser.text("#feed"))
    made = "return [document.querySelectorAll('img, #page b:not(.top b), #page script').length, window.taken ?? null]"
    equal("made of it", browser.run(made), [0, None])
    for page in ("tasks", "offers", "agents/" + quote(HOSTILE, safe="")):
        browser.show(page)
        browser.wait(page, lambda: HOSTILE in browser.text("#content > section:not([hidden]) table"))
        equal("made of it", browser.run(made), [0, None])
    equal("the agent", browser.text("#agent-title"), HOSTILE)
    browser.show("frameworks/" + quote(bad, safe=""))
    browser.wait("the framework", lambda: browser.text("#framework-title") == bad)
    browser.one("#framework .extra button").click()
    browser.wait("why", lambda: HOSTILE in browser.text(".because"))
    equal("made of it", browser.run(made), [0, None])
    equal("console", browser.console(), [])
    own.end()


@test
def why_is_told_in_words(browser, room):
    own = small(browser)
    own.answers["/drf/v1/explain"] = (200, "".join(json.dumps(line) + "\n" for line in [
        {"client": "web/./batch", "why": "Suppressed"}, {"agent": "n1", "client": "data/./batch", "role": "data", "why": "OverLimit"},
        {"agent": "n1", "client": "web/./site", "grant": "cpus:1"}, {"agent": "n2", "client": "data/./batch", "until": 1795860005000, "why": "HeldBack"},
        {"agent": "n3", "client": "web/./site", "grant": "cpus:2"}, {"agent": "n3", "clients": 2, "left": "cpus:0.005"}, {"agent": "n4", "why": "Inactive"}]))
    browser.show("frameworks/batch")
    browser.wait("the framework", lambda: browser.text("#framework-title") == "batch")
    browser.one("#framework .extra button").click()
    browser.wait("the answer", lambda: "The agent is inactive" in browser.text(".because"))
    told = browser.texts(".because li")
    for part in ("web: it wants no offers", "data: the limit of data leaves too little. On 1 agent: n1.", "data: it declined, or left a rest",
                 "The agent is inactive. On 1 agent: n4."):
        holds(f"{part!r} in {told}", any(part in line for line in told))
    browser.show("frameworks/nobody")
    browser.wait("no such framework", lambda: "There is no such framework." in browser.text("#framework"))
    own.end()


@test
def replaying_and_a_lost_gateway_are_told(browser, room):
    own = small(browser)
    own.show(stand_in.small_rows(), ready=False)
    browser.wait("replaying", lambda: browser.text("#health") == "Replaying" and "replaying" in browser.text("#notes"))
    own.show(stand_in.small_rows(), clock_fault="the clock of this machine is 1m0s behind the service's clock: correct it")
    browser.wait("a wrong clock", lambda: browser.text("#health") == "Takes no events" and "1m0s behind" in browser.text("#notes"))
    own.show(stand_in.small_rows(), clock_warning="the clock of this machine is 5h0m0s ahead of the last time at which the service ran: check it")
    browser.wait("a clock far ahead", lambda: browser.text("#health") == "Live" and "5h0m0s ahead" in browser.text("#notes"))
    own.show(stand_in.small_rows(), allocator={"restarts": 2})
    browser.wait("a killed allocator", lambda: "restarted 2 times" in browser.text("#notes"))
    own.show(stand_in.small_rows())
    browser.wait("live", lambda: browser.text("#health") == "Live" and "replaying" not in browser.text("#notes"))
    own.end()
    browser.wait("lost", lambda: browser.text("#health") == "No answer" and "not answered since" in browser.text("#lost"))
    holds("it says that it tries again", "tries again by itself" in browser.text("#lost") and browser.one("#lost").is_displayed())
    equal("how it is announced", [browser.one("#lost").get_attribute("role"), browser.one("#health").get_attribute("aria-live")], ["alert", "polite"])
    holds("what was last known stays", browser.texts("#tree tbody tr"))
    browser.console()


@test
def without_states_shares_are_shown(browser, room):
    own = StandIn([])
    own.answers["/drf/v1/state"] = (501, "drf has no `save`\n")
    nodes = [{"count": 2, "held": "cpus:4", "path": path, "share": "1/2", "weighted": w} for path, w in (("web", "1/4"), ("web/.", "1/2"), ("web/./site", "1/2"))]
    own.answers["/drf/v1/report"] = (200, {"nodes": nodes, "total": "cpus:8"})
    browser.enter(own.url, TOKEN)
    browser.wait("the tree", lambda: browser.texts("#tree .label") == ["web", "site"])
    equal("shares by weight", browser.texts("#tree .weighted"), ["25.0%", ""])
    holds("it says what is missing, and why", "not available: drf has no `save`" in browser.text("#notes"))
    holds("the rest is hidden", not browser.one("#map-card").is_displayed() and browser.text("#n-agents") == "")
    own.end()


UNSEEN = """
const e = document.activeElement, s = getComputedStyle(e);
return e !== document.body && (s.outlineStyle === 'none' || parseFloat(s.outlineWidth) < 2)"""


@test
def it_is_used_by_keyboard(browser, room):
    own = StandIn(stand_in.small_rows())
    browser.open(own.url)
    equal("focus at the start", browser.focused(), "token")
    browser.keys(TOKEN, Keys.ENTER)
    browser.wait("the cluster", lambda: browser.texts("#tree tbody tr"))
    seen, unseen = [], []
    for _ in range(60):
        browser.keys(Keys.TAB)
        seen.append(browser.focused())
        if browser.run(UNSEEN):
            unseen.append(seen[-1])
        if seen[-1] == "Close data":
            browser.keys(Keys.SPACE)
            equal("focus stays on what was pressed", browser.focused(), "Open data")
            holds("data is closed", "adhoc" not in browser.texts("#tree .label"))
        if seen[-1] == "map":
            browser.keys(Keys.HOME, Keys.ARROW_RIGHT, Keys.ARROW_RIGHT)
            browser.wait("the third agent", lambda: browser.text("#picked").startswith("n3: active"))
        if seen[-1] == "feed":
            break
    wanted = {"to-overview", "to-agents", "to-frameworks", "to-tasks", "to-offers", "to-members", "to-audit", "leave", "order", "unfold", "fold", "Close data", "measure", "map", "pause", "only", "refused", "raw", "feed"}
    equal("not reached", wanted - set(seen), set())
    browser.run("document.getElementById('skip').focus()")
    browser.keys(Keys.ENTER)
    equal("behind the link that skips", browser.focused(), "content")
    browser.run("document.getElementById('map').focus()")
    browser.keys(Keys.ENTER)
    browser.wait("the agent", lambda: browser.focused() == "agent-title" and browser.text("#agent-title") == "n3")
    seen = []
    for _ in range(40):
        browser.keys(Keys.TAB)
        seen.append(browser.focused())
        if browser.run(UNSEEN):
            unseen.append(seen[-1])
        if seen[-1] == "Close":
            browser.keys(Keys.ENTER)
            break
    browser.wait("the focus is on the row", lambda: browser.focused() == "n3" and not browser.one("#agent").is_displayed())
    equal("focus that is not seen", unseen, [])
    own.end()


# The contrast ratio of each visible text to its background, after WCAG 2; large texts need 3, others 4.5.
CONTRAST = """
const rgb = c => c.match(/[\\d.]+/g).map(Number), lin = v => (v /= 255) <= .04045 ? v / 12.92 : ((v + .055) / 1.055) ** 2.4;
const lum = c => .2126 * lin(c[0]) + .7152 * lin(c[1]) + .0722 * lin(c[2]);
const behind = e => {
  for (; e; e = e.parentElement) { const c = rgb(getComputedStyle(e).backgroundColor); if (c.length < 4 || c[3] > .99) return c; }
  return [255, 255, 255];
};
const isText = e => e.tagName === 'INPUT' || [...e.childNodes].some(n => n.nodeType === 3 && n.textContent.trim());
const bad = [];
for (const e of document.querySelectorAll('body *')) {
  if (!isText(e) || ['SCRIPT', 'STYLE', 'OPTION'].includes(e.tagName) || !e.checkVisibility()) continue;
  const s = getComputedStyle(e), a = lum(rgb(s.color)), b = lum(behind(e)), size = parseFloat(s.fontSize);
  const ratio = (Math.max(a, b) + .05) / (Math.min(a, b) + .05);
  if (ratio < (size >= 24 || size >= 18.66 && s.fontWeight >= 700 ? 3 : 4.5)) bad.push([e.textContent.slice(0, 30), ratio.toFixed(2)]);
}
return bad"""


@test
def contrast_is_enough_in_light_and_dark(browser, room):
    for dark in (False, True):
        browser.look(dark=dark)
        own = small(browser, "operate")
        for event, reply, _ in EVENTS:
            own.tell(json.dumps(event), json.dumps(reply))
        browser.wait("events", lambda: len(browser.texts("#feed li time")) == len(EVENTS))
        browser.one("#raw").click()
        own.show(stand_in.small_rows(), ready=False)
        browser.wait("replaying", lambda: browser.text("#health") == "Replaying")
        equal("texts of too little contrast, dark" if dark else "texts of too little contrast", browser.run(CONTRAST), [])
        own.detail({"row": "silent", "agent": "n2", "since": 1795859990000}, {"row": "mesos_agent", "agent": "n3", "since": 1795859990000})
        own.show(stand_in.small_rows())
        for page in ("agents/n2", "agents/n3", "frameworks/batch", "tasks", "offers"):
            browser.show(page)
            browser.wait(page, lambda: browser.texts("#content > section:not([hidden]) tbody tr"))
            if page == "agents/n2":
                browser.wait("silent", lambda: browser.text("#agent .state").startswith("silent"))
            equal(f"texts of too little contrast in {page}", browser.run(CONTRAST), [])
        browser.show("agents/n1")
        browser.wait("actions", lambda: browser.texts("#agent .acts button"))
        own.answers["/drf/v1/events"] = (200, '{"name":"UnknownAgent","refused":3}\n')
        browser.one("#agent .acts button").click()
        browser.one("#ask-go").click()
        browser.wait("the refusal", lambda: "UnknownAgent" in browser.text("#ask-answer"))
        equal("texts of too little contrast in the dialog", browser.run(CONTRAST), [])
        browser.one("#ask-cancel").click()
        background = browser.run("return getComputedStyle(document.body).backgroundColor")
        equal("dark", sum(int(part) for part in background[4:-1].split(",")) < 200, dark)
        own.answers["/drf/v1/status"] = (401, "no such token")
        browser.wait("the start", lambda: "does not know" in browser.text("#denied"))
        equal("texts of too little contrast at the start", browser.run(CONTRAST), [])
        browser.console()
        own.end()


CLIPPED = """
const out = e => e.checkVisibility() && !e.closest('.sr, .skip, thead, canvas, .wide') && e.getBoundingClientRect().right > innerWidth + 1;
return [...document.querySelectorAll('#page *')].filter(out).map(e => e.tagName + '.' + e.className)"""


@test
def nothing_is_wider_than_a_narrow_screen(browser, room):
    own = small(browser, "operate")
    long = "w" * 64
    own.show(stand_in.small_rows() + [
        stand_in.framework(long, (long, 1, True)), stand_in.limit(long, f"{long}:1000000;cpus:4000"), stand_in.agent(long, f"cpus:1;{long}:123456789"),
        stand_in.offer(9007199254740991, long, long, long, f"{long}:1"), stand_in.task(long, long, long, long, f"{long}:1")])
    for event, reply, _ in EVENTS:
        own.tell(json.dumps(event), json.dumps(reply))
    browser.wait("the long names", lambda: long in browser.texts("#tree .label"))
    own.tell("x" * 3000, '{"name":"NotJson","refused":31}')
    browser.wait("events", lambda: len(browser.texts("#feed li time")) > len(EVENTS))
    browser.one("#raw").click()
    for width in (360, 700, 1001):
        browser.look(width=width, height=800)
        for page in ("overview", "agents/" + long, "frameworks/" + long, "tasks", "offers", "members", "audit?role=" + long):
            browser.show(page)
            browser.wait(page, lambda: long in browser.text("#content > section:not([hidden])") or browser.run("return location.hash").startswith(("#members", "#audit")))
            equal(f"width of {page} at {width}", browser.run("return document.documentElement.scrollWidth <= innerWidth"), True)
            equal(f"what stands out in {page} at {width}", browser.run(CLIPPED), [])
        browser.show("agents/" + long)
        browser.run("document.querySelector('#agent .acts button').click()")
        equal(f"the dialog at {width}", browser.run("const r = document.getElementById('ask').getBoundingClientRect(); return r.left >= 0 && r.right <= innerWidth"), True)
        browser.run("document.getElementById('ask-cancel').click()")
    own.end()


@test
def two_thousand_agents_stay_quick(browser, room):
    own = StandIn(stand_in.large_rows())
    browser.enter(own.url, TOKEN)
    browser.wait("the cluster", lambda: len(browser.texts("#tree tbody tr")) == 20)
    holds("the map says how many", "2,000 agents" in browser.one("#map").get_attribute("aria-label"))
    elements = browser.run("return document.querySelectorAll('*').length")
    holds(f"{elements} elements", elements < 6000)
    browser.one("#unfold").click()
    equal("all opened", len(browser.texts("#tree .framework")), 200)
    for k in range(5000):
        own.tell('{"event":"rescind","offer":%d}' % k, '{"name":"UnknownOffer","refused":7}')
    browser.wait("a flood of events", lambda: "5,000 UnknownOffer" in browser.text("#notes"), 20)
    holds("the list stays short", len(browser.texts("#feed li")) <= 80)
    equal("console", browser.console(), [])
    own.end()
