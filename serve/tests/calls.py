# Tests of replies to callers: answers, refusals, rights, streams, timeouts. Each test receives the programs. Outside the proof.
import json
import os
import random
import re
import shutil
import signal
import ssl
import subprocess
import threading
import time
import urllib.request
import uuid

from fleet import Fleet, NotRun, make_certificate, mostly_waits, wait

AGENT = {"event": "add_agent", "agent": "n1", "total": "cpus:4;mem:4096"}
SITE = {"event": "add_framework", "framework": "site", "roles": ["web"]}


def old_key(hours):
    at = int((time.time() - hours * 3600) * 1000)
    return str(uuid.UUID(int=at << 80 | 7 << 76 | 2 << 62 | 12345))


def test_refusals(programs):
    with Fleet("alone", programs.gateway, programs.drf, "-cycle", "0") as fleet:
        g = fleet.gateways[0]
        line = json.dumps(AGENT) + "\n"

        def told(want, text, path="/drf/v1/events", body=line, **words):
            status, answer, _ = g.ask(path, body, **words)
            assert status == want and text in answer, f"{path}: {status} {answer}, not {want} {text}"

        told(401, "token", name=None)
        fleet.tokens["nobody"] = "0" * 48
        told(401, "token", name="nobody")
        told(400, "no event line", body="")
        told(413, "4194304", body="x" * (4 << 20) + "x")
        told(403, "line 2", body='{"event":"suppress","framework":"site","role":"web"}\n' + line, name="site")
        told(403, "read", path="/drf/v1/report", body=None, name="site")
        told(404, "no call", path="/nothing", body=None)
        told(405, "POST", body=None)
        told(410, "too long ago", Idempotency_Key=old_key(2))
        told(400, "in the future", Idempotency_Key=old_key(-1))  # it would outlive its kept entry
        told(400, "visible", Idempotency_Key="a b")
        told(400, "milliseconds", path="/drf/v1/explain?at=-1", body=None)
        told(400, "bytes", path="/drf/v1/journal?from=x", body=None)
        told(403, "needs the right agent:n1", path="/drf/v1/agents/n1/alive", name="site")
        told(501, "not watched", path="/drf/v1/agents/n1/alive", name="rack")
        first, again = (g.ask("/drf/v1/events", line, Idempotency_Key=key)[:3] for key in (old_key(0.1), old_key(0.2)))
        assert first[0] == 200 and first[1] == '{"ok":true}\n' and again[1].startswith('{"name":"KnownAgent"'), (first, again)
        first, again = (g.ask("/drf/v1/events", line + '{"event":"cycle"}\n', Idempotency_Key="k1") for _ in range(2))
        assert first[0] == again[0] == 200 and first[1] == again[1] and first[2]["Drf-Message"] == again[2]["Drf-Message"]
        told(409, "other lines", body=line, Idempotency_Key="k1")
        told(200, "", body=line, Idempotency_Key="k1", name="ops")  # another caller's key is another key
        told(200, '{"name":"NotJson","refused":31}\n{"offers":[]}', body='{"at":$,"event"\n{"event":"cycle"}\n')
        told(200, '{"name":"LineTooLong","refused":34}', body="x" * 70000)
        for longest in (65537, 65536, 65520):  # with and without the timestamp that is inserted
            told(200, "{", body='{"event":"cycle","role":"' + "<" * (longest - 27) + '"}', name="ops")
            told(200, "{", body='{"event":"cycle","role":"' + "<" * (longest - 27) + '"}')
        status, journal, _ = g.ask("/drf/v1/journal")
        verdict = subprocess.run([programs.drf, "check"], input=journal, capture_output=True, text=True, check=False).stdout
        assert verdict == f"good {journal.count(chr(10)) // 2}\n" and '{"at":$,"event"\n' in journal, verdict


def test_any_bytes(programs):
    """Whatever may be sent by who may send all is answered line by line, and stops no gateway."""
    chance = random.Random(11)
    lines = [b"", b"\r", b"\0", b"\xff\xfe", b"\xef\xbb\xbf{}", b"?", b"?report", b"?tasks x", b" ?state", b'{"event":"cycle"}\r', b'"\\ud800"', b"[" * 30000, b'{"event":' * 5000, b'{"event":"cycle","at":1e400}',
             b'{"event":"cycle","at":-0}', b'\t{\t"event":"cycle"}', b'{"event":"accept"', b'{"event":"cycle",}', b"{" + b" " * 65534 + b"}", b"{" + b" " * 65600 + b"}", b'{"event":"cycle"' + b" " * 65515 + b"}"]
    lines += [bytes(chance.choice(b'{}[]":,\\\r\0\xc3\x28?$ eventcyclat019') for _ in range(chance.randrange(60))) for _ in range(3000)]
    with Fleet("alone", programs.gateway, programs.drf, "-cycle", "0") as fleet:
        g = fleet.gateways[0]
        for some in (lines, lines[::-1]):
            status, answer, _ = g.ask("/drf/v1/events", b"\n".join(some) + b"\n")
            assert status == 200 and answer.count("\n") == len(some), (status, answer[:300])
        request = urllib.request.Request(g.url + "/drf/v1/journal", headers={"Authorization": "Bearer " + fleet.tokens["eye"]})
        journal = urllib.request.urlopen(request, timeout=20).read()
        told = subprocess.run([programs.drf, "check"], input=journal, capture_output=True, check=False).stdout.decode()
        assert told == f"good {2 * len(lines)}\n" and b"\n?" not in journal and g.is_ready(), told
        g.kill()
        g.start()
        g.until_ready()


def test_rights(programs):
    with Fleet("alone", programs.gateway, programs.drf, "-cycle", "0") as fleet:
        g = fleet.gateways[0]

        def may(name, line, want=200):
            status, answer, _ = g.ask("/drf/v1/events", line if isinstance(line, str) else json.dumps(line), name=name)
            assert status == want, f"{name} {line}: {status} {answer}"
            return answer

        for name in ("rack", "ops"):
            may(name, {**AGENT, "agent": "n-" + name})
            may(name, {"event": "deactivate_agent", "agent": "n-" + name})
        may("rack", {**AGENT, "agent": "m1"}, 403)
        may("rack", {"event": "remove_framework", "framework": "site"}, 403)
        may("site", SITE)
        may("site", {**SITE, "roles": ["web/search"]})
        for bad in ({**SITE, "roles": ["web", "ops"]}, {**SITE, "roles": ["webs"]}, {**SITE, "roles": "web"}, {**SITE, "framework": "other"}, {**SITE, "framework": ["site"]}, AGENT, {"event": "cycle"},
                    {"event": "report"}, {"event": ["add_framework"]}, {"event": "decline", "framework": "other", "offer": 1}, {"event": "rescind", "offer": 1}):
            may("site", bad, 403)
        # keys are exact, and of equal ones the last counts, as the allocator reads them
        may("site", '{"event":"finish","framework":"site","task":"t","framework":"other"}', 403)
        may("site", '{"event":"finish","framework":"other","task":"t","framework":"site"}')
        may("site", '{"Event":"cycle","event":"finish","framework":"site","Framework":"other","task":"t"}')
        may("site", '{"event":"finish","framework":"other","Framework":"site","task":"t"}', 403)
        may("site", '{"event":"finish","framework":"si\\u0074e","task":"t"}')
        for broken in ("", "x", "[]", "null", '{"event":"finish","framework":"site"} x', '{"event":"finish","framework":"site"'):
            may("site", broken + "\n" + broken, 403)
        may("site", {"event": "decline", "framework": "site", "offer": 1, "at": 99}, 403)
        may("ops", {"event": "cycle", "at": 99})
        journal = g.ask("/drf/v1/journal")[1]
        assert '{"event":"finish","framework":"site","task":"t"}' in journal and '"framework":"other"' not in journal, journal
        status, answer, _ = g.ask("/drf/v1/frameworks/other/offers", name="site")
        assert status == 403, answer


def read_stream(gateway, path, name, found, stop):
    request = urllib.request.Request(gateway.url + path, headers={"Authorization": "Bearer " + gateway.fleet.tokens[name]})
    with urllib.request.urlopen(request, timeout=60) as answer:
        kind = None
        for line in answer:
            line = line.decode().rstrip("\n")
            if line.startswith("event: "):
                kind = line[7:]
            elif line.startswith("data: "):
                found.append((kind, json.loads(line[6:])))
            if stop.is_set():
                return


def listen(gateway, path, name):
    found, stop = [], threading.Event()
    threading.Thread(target=read_stream, args=(gateway, path, name, found, stop), daemon=True).start()
    return found


def test_streams(programs):
    with Fleet("alone", programs.gateway, programs.drf, "-cycle", "0") as fleet:
        g = fleet.gateways[0]
        offer = g.send(SITE, AGENT, {"event": "cycle"})[2]["offers"][0]
        offers, replies = listen(g, "/drf/v1/frameworks/site/offers", "site"), listen(g, "/drf/v1/replies", "eye")
        assert wait(lambda: offers == [("offer", offer)]), offers
        time.sleep(0.3)
        g.send({"event": "add_agent", "agent": "n<2>\u2028", "total": "cpus:1"}, {"event": "decline", "framework": "site", "offer": offer["offer"], "refuse_ms": 0})
        assert wait(lambda: offers[1:] == [("gone", {"offer": offer["offer"], "why": "decline"})]), offers
        g.send({"event": "cycle"})
        assert wait(lambda: len(offers) == 3 and offers[2][0] == "offer"), offers
        g.send({"event": "deactivate_agent", "agent": "n1"})
        assert wait(lambda: len(offers) == 4 and offers[3][1]["why"] == "deactivate_agent"), offers
        assert wait(lambda: len(replies) == 4), replies
        assert json.loads(replies[0][1]["line"])["agent"] == "n<2>\u2028" and replies[0][1]["reply"]["name"] == "BadText", replies[0]
        g.kill_drf()  # nobody receives the outstanding offers again
        g.until_ready()
        g.send({"event": "activate_agent", "agent": "n1"}, {"event": "cycle"})
        assert wait(lambda: len(offers) == 5), offers
        assert [kind for kind, _ in offers] == ["offer", "gone", "offer", "gone", "offer"] and wait(lambda: len(replies) == 6), (offers, replies)


def test_page(programs):
    with Fleet("alone", programs.gateway, programs.drf) as fleet:
        status, text, headers = fleet.gateways[0].ask("/", name=None)
        policy = headers["Content-Security-Policy"]
        assert status == 200 and "unsafe" not in policy and "script-src 'self';" in policy and "default-src 'none'" in policy, policy
        scripts = re.findall(r"<script[^>]*>.*?</script>", text, re.S)
        assert scripts == ['<script type="module" src="/page/main.js"></script>'] and "<style" not in text and " style=" not in text and " on" not in re.sub(r">[^<]*<", "><", text), scripts
        status, text, headers = fleet.gateways[0].ask("/page/main.js", name=None)
        assert status == 200 and headers["Content-Type"].startswith("text/javascript") and headers["X-Content-Type-Options"] == "nosniff"
        assert fleet.gateways[0].ask("/page/nothing.js", name=None)[0] == 401


def test_figures(programs):
    with Fleet("alone", programs.gateway, programs.drf, "-cycle", "0") as fleet:
        g = fleet.gateways[0]
        g.send(SITE, AGENT, AGENT, {"event": "cycle"})
        status, text, _ = g.ask("/metrics", name="eye")
        for figure in ('drf_events_total{answer="KnownAgent",event="add_agent"} 1', 'drf_offers_made_total{framework="site"} 1', 'drf_role_dominant_share_ratio{role="web"} 1', "drf_ready 1"):
            assert status == 200 and figure + "\n" in text, (figure, text)
        report, lines = json.loads(g.ask("/drf/v1/report")[1]), g.ask("/drf/v1/explain")[1].splitlines()
        assert report["nodes"][0]["path"] == "web" and report["nodes"][0]["share"] == "1/1", report
        assert lines == ['{"agent":"n1","why":"NothingFree"}'], lines
        g.send({"event": "decline", "framework": "site", "offer": 1, "refuse_ms": 0})
        assert json.loads(g.ask("/drf/v1/report")[1])["nodes"][0]["share"] == "0/1"
        assert '"grant":"cpus:4;mem:4096"' in g.ask("/drf/v1/explain?at=99999999999999")[1]


def test_questions(programs):
    """Answers are as of the message that they name, whatever is sent meanwhile, and stand in no journal; one that is lost is told at once."""
    with Fleet("alone", programs.gateway, programs.drf, "-cycle", "0") as fleet:
        g, told, others, stop = fleet.gateways[0], [], [], threading.Event()
        g.send(SITE)
        g.send(AGENT)

        def ask(path, answers):
            while not stop.is_set():
                answers.append(g.ask(path))

        askers = [threading.Thread(target=ask, args=words) for words in (("/drf/v1/state", told), ("/drf/v1/state", told), ("/drf/v1/report", others), ("/drf/v1/explain", others), ("/metrics", others))]
        for asker in askers:
            asker.start()
        for offer in range(1, 31):
            g.send({"event": "cycle"})
            g.send({"event": "decline", "framework": "site", "offer": offer, "refuse_ms": 0})
        stop.set()
        for asker in askers:
            asker.join()
        journal = g.ask("/drf/v1/journal")[1]

        def of_drf(*words, lines=None):
            text = "".join(journal.splitlines(keepends=True)[:lines])
            return subprocess.run([programs.drf, *words], input=text, capture_output=True, text=True, check=True).stdout

        assert {status for status, *_ in told + others} == {200} and "\n?" not in journal and of_drf("check") == "good 62\n", (told, others)
        states = {int(headers["Drf-Message"]): text for _, text, headers in told}
        assert len(states) > 5, states.keys()
        for message, text in states.items():
            rows = of_drf("save", lines=2 * message).splitlines()[:-1]
            assert text == f'{{"message":{message},"rows":[{",".join(rows)}]}}\n', (message, text, rows)
        assert g.ask("/drf/v1/explain")[1] == of_drf("explain") and g.ask("/drf/v1/explain?at=0009999999999999")[1] == of_drf("explain", "--at", "9999999999999")
        pid = g.status()["allocator"]["questions_pid"]
        os.kill(pid, signal.SIGSTOP)
        asker = threading.Thread(target=lambda: told.append(g.ask("/drf/v1/report")))
        asker.start()
        time.sleep(0.5)
        assert asker.is_alive() and g.send({"event": "rescind", "offer": 99}) == [{"name": "UnknownOffer", "refused": 7}]  # events do not wait for answers
        os.kill(pid, signal.SIGKILL)
        asker.join(5)
        assert told[-1][0] == 503 and "ask again" in told[-1][1], told[-1]
        assert wait(lambda: g.ask("/drf/v1/report")[0] == 200, 20), g.log()[-500:]


def test_figures_by_promtool(programs):
    """The figures are as Prometheus would have them; etcd's own are not ours to name."""
    if not shutil.which("promtool"):
        raise NotRun("there is no promtool: apt-get install prometheus")
    with Fleet("alone", programs.gateway, programs.drf, "-cycle", "0") as fleet:
        g = fleet.gateways[0]
        g.send(SITE, AGENT, AGENT, {"event": "cycle"}, {"event": "decline", "framework": "site", "offer": 1})
        g.ask("/nothing")
        text = g.ask("/metrics", name="eye")[1]
        done = subprocess.run(["promtool", "check", "metrics"], input=text, capture_output=True, text=True, check=False)
        told = [line for line in (done.stdout + done.stderr).splitlines() if line.startswith("drf_") or "error" in line]
        assert not told and "drf_offers_ended_total" in text, told


def test_tokens_again(programs):
    with Fleet("alone", programs.gateway, programs.drf) as fleet:
        g = fleet.gateways[0]
        right = open(fleet.tokens_path).read()
        assert oct(os.stat(fleet.tokens_path).st_mode)[-3:] == "600" and fleet.tokens["admin"] not in right

        def reload(text):
            with open(fleet.tokens_path, "w", encoding="utf-8") as file:
                file.write(text)
            g.process.send_signal(signal.SIGHUP)
            time.sleep(0.3)

        streams = [threading.Thread(target=read_stream, args=(g, path, "eye", [], threading.Event()), daemon=True) for path in ("/drf/v1/replies", "/drf/v1/frameworks/site/offers", "/drf/v1/journal?follow=1")]
        for stream in streams:
            stream.start()
        time.sleep(0.5)
        assert all(stream.is_alive() for stream in streams)
        reload(json.dumps([caller for caller in json.loads(right) if caller["name"] != "eye"]))
        assert wait(lambda: not any(stream.is_alive() for stream in streams), 5), "a stream outlives its token"
        assert g.ask("/drf/v1/status", name="eye")[0] == 401 and g.ask("/drf/v1/status")[0] == 200
        for bad in ("[", "[{}]", right.replace('"eye"', '"cycle"'), right.replace('"read"', '"reed"')):
            reload(bad)
            assert g.ask("/drf/v1/status")[0] == 200 and "the old tokens stay in use" in g.log(), bad
        reload(right)
        assert g.ask("/drf/v1/status", name="eye")[0] == 200


def test_cycles_once(programs):
    with Fleet("outer", programs.gateway, programs.drf, "-cycle", "200ms") as fleet:
        one, other = fleet.gateways
        one.send(SITE, AGENT)
        time.sleep(4)
        fleet.agreed()
        journal = one.ask("/drf/v1/journal")[1].splitlines()
        cycles = [int(json.loads(line)["at"]) for line in journal[::2] if '"cycle"' in line]
        slots = [at // 200 for at in cycles]
        assert len(set(slots)) == len(slots) and 3 <= len(slots) <= 14, slots  # while nothing happens one in ten
        other.send({"event": "rescind", "offer": 1}, key="again")
        assert one.ask("/drf/v1/events", '{"event": "rescind", "offer": 1}\n', Idempotency_Key="again")[1] == '{"ok":true}\n'


@mostly_waits
def test_time_outs(programs):
    words = ["-cycle", "500ms", "-offer-timeout", "2s", "-agent-timeout", "2s", "-agent-removal", "2s", "-framework-timeout", "2s"]
    with Fleet("outer", programs.gateway, programs.drf, *words) as fleet:
        one, other = fleet.gateways
        one.send(SITE, AGENT, {**AGENT, "agent": "other"})
        offers = listen(one, "/drf/v1/frameworks/site/offers", "site")
        assert wait(lambda: ("gone", {"offer": 1, "why": "rescind"}) in offers, 8), offers
        assert json.loads(one.ask("/drf/v1/agents/n1/alive", "", name="rack")[1]) == {"was_alive": False}
        assert json.loads(other.ask("/drf/v1/agents/n1/alive", "", name="rack")[1]) == {"was_alive": True}
        assert json.loads(one.ask("/drf/v1/frameworks/site/alive", "", name="site")[1]) == {"was_alive": False}
        wait(lambda: '"remove_framework"' in one.ask("/drf/v1/journal")[1], 60)
        wait(lambda: '"remove_agent"' in one.ask("/drf/v1/journal")[1], 60)
        fleet.agreed()
        lines = one.ask("/drf/v1/journal")[1].splitlines()
        pairs = list(zip(lines[::2], lines[1::2]))
        for line in ('{"agent":"n1","event":"deactivate_agent"}', '{"agent":"n1","event":"remove_agent"}', '{"event":"remove_framework","framework":"site"}', '{"event":"rescind","offer":1}'):
            assert pairs.count((line, '{"ok":true}')) == 1 and sum(line == other for other, _ in pairs) == 1, (line, [pair for pair in pairs if "cycle" not in pair[0]])
        assert one.ask("/drf/v1/agents/n1/alive", "", name="rack")[0] == 404


def test_tls(programs):
    with Fleet("alone", programs.gateway, programs.drf) as fleet:
        cert, key = make_certificate(fleet.folder)
        g = fleet.gateways[0]
        g.kill()
        g.start("-cert", cert, "-key", key)

        def ready():
            try:
                return urllib.request.urlopen(g.url.replace("http:", "https:") + "/healthz", context=ssl.create_default_context(cafile=cert), timeout=2).status == 200
            except OSError:
                return False
        assert wait(ready), g.log()


def test_http2(programs):
    """With -http2, curl sends events and reads a stream over HTTP/2; without it, over HTTP/1.1."""
    with Fleet("alone", programs.gateway, programs.drf, "-cycle", "0") as fleet:
        cert, key = make_certificate(fleet.folder)
        g = fleet.gateways[0]
        url = g.url.replace("http:", "https:")

        def curl(path, *words):
            command = ["curl", "-sS", "-N", "--http2", "--cacert", cert, "-H", "Authorization: Bearer " + fleet.tokens["admin"], "-w", "\n%{http_version} %{http_code}", *words, url + path]
            return subprocess.run(command, capture_output=True, text=True, check=False).stdout

        for flags, version, answer in (([], "1.1", '{"ok":true}'), (["-http2"], "2", '{"name":"KnownAgent","refused":4}')):
            g.kill()
            g.start("-cert", cert, "-key", key, *flags)
            assert wait(lambda: curl("/healthz") == f"\n{version} 200"), g.log()
            text = curl("/drf/v1/events", "--data-binary", json.dumps(AGENT))
            assert text == f"{answer}\n\n{version} 200", text
            text = curl("/drf/v1/frameworks/site/offers", "-m", "5")
            assert text == f": all existing offers were sent\n\n\n{version} 200", text
            assert curl("/drf/v1/events", "--data-binary", "").endswith(f"\n{version} 400"), "an empty body"
            with open(os.path.join(fleet.folder, "lines"), "w", encoding="ascii") as file:
                file.write("x\n" * 70000)
            text = curl("/drf/v1/events", "--data-binary", "@" + file.name)
            assert text.endswith(f"\n{version} 413"), text


def test_tls_of_members(programs):
    """Members take each other by their certificates alone, and nobody without one."""
    with Fleet("three", programs.gateway, programs.drf, is_secure=True) as fleet:
        fleet.gateways[0].send(AGENT)
        fleet.agreed()
        port = int(fleet.gateways[0].words[fleet.gateways[0].words.index("-members") + 1].split(",")[0].rsplit(":", 1)[1])
        told = subprocess.run(["openssl", "s_client", "-connect", f"127.0.0.1:{port}", "-tls1_2"], input="", capture_output=True, text=True, check=False)
        assert "alert" in told.stderr, told


TESTS = [test for name, test in list(globals().items()) if name.startswith("test_")]
