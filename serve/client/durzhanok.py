# A client of the service for frameworks, agents and operators: Python's standard library alone. Outside the proof.
"""Batches that are taken once however often they are sent, a framework's offers as they come and go, heartbeats, and the GET calls.

    cluster = Durzhanok(["http://127.0.0.1:8450"], token)
    cluster.send({"event": "add_framework", "framework": "site", "roles": ["web"]})      # a reply for each event
    for kind, offer in cluster.offers("site"): ...                                       # "offer" or "gone", without end"""
import http.client
import json
import os
import random
import ssl
import threading
import time
import urllib.error
import urllib.request

BROKEN = (OSError, http.client.HTTPException)
RETRIED = (429, 500, 502, 503, 504)  # statuses after which the same request is sent again


class Refused(Exception):
    """The gateway refused the request: `status` and the text say why. After a 410 the batch was applied before, and its replies are no longer kept."""

    def __init__(self, status, why):
        super().__init__(f"{status}: {why}")
        self.status = status


class Unanswered(Exception):
    """No gateway answered in time. The batch may have been applied: `send` it again with this `key` to find out."""

    def __init__(self, key, why):
        super().__init__(f"{why}; send it again with the key {key}")
        self.key = key


def new_key():
    """A UUID of version 7: a gateway can tell when it is too old to be sent again."""
    digits = f"{int(time.time() * 1000):012x}7{os.urandom(2).hex()[:3]}{random.choice('89ab')}{os.urandom(8).hex()[:15]}"
    return "-".join((digits[:8], digits[8:12], digits[12:16], digits[16:20], digits[20:]))


class Durzhanok:
    def __init__(self, urls, token, authority=None, patience=60):
        """`urls` are gateways, the one to ask first in front; `authority` is a file with the certificates to trust beside the system's."""
        self.urls, self.token, self.patience = list(urls), token, patience
        self.security = ssl.create_default_context()
        if authority:
            self.security.load_verify_locations(authority)

    def open(self, path, body=None, key=None, timeout=40):
        """One request to the first gateway; what is no 200 is an urllib.error.HTTPError."""
        headers = {"Authorization": f"Bearer {self.token}", **({"Idempotency-Key": key} if key else {})}
        url = self.urls[0] + "/drf/v1" + path
        return urllib.request.urlopen(urllib.request.Request(url, body, headers), timeout=timeout, context=self.security if url.startswith("https") else None)

    def call(self, path, body=None, key=None):
        """The bytes of an answer, from any gateway: one that does not answer is passed over, and asked again later, with the same key."""
        until, wait = time.monotonic() + self.patience, 0.05
        while True:
            try:
                with self.open(path, body, key) as answer:
                    return answer.read()
            except urllib.error.HTTPError as fault:
                why = fault.read().decode(errors="replace").strip()
                if fault.code not in RETRIED:
                    raise Refused(fault.code, why) from None
                wait = max(wait, float(fault.headers.get("Retry-After", 0)) if fault.code == 429 else 0)
            except BROKEN as fault:
                why = str(fault)
            if time.monotonic() > until:
                raise Unanswered(key, why)
            self.urls.append(self.urls.pop(0))
            time.sleep(wait * random.uniform(0.5, 1))
            wait = min(2, wait * 2)

    def send(self, *events, key=None):
        """The replies to some events, which are taken together, in order, once. A refused event is a reply: {"name": .., "refused": ..}."""
        lines = "".join(json.dumps(event, separators=(",", ":")) + "\n" for event in events)
        return [json.loads(line) for line in self.call("/events", lines.encode(), key or new_key()).splitlines()]

    def report(self):
        return json.loads(self.call("/report"))

    def explain(self):
        return [json.loads(line) for line in self.call("/explain").splitlines()]

    def offers(self, framework):
        """("offer", {..}) for each offer that stands or comes, ("gone", {"offer": number, ..}) for each that ends, over broken connections too."""
        standing, wait = {}, 0.05
        while True:
            try:
                with self.open(f"/frameworks/{framework}/offers") as stream:
                    wait = 0.05
                    yield from self.follow(stream, standing)
            except urllib.error.HTTPError as fault:
                if fault.code not in RETRIED:
                    raise Refused(fault.code, fault.read().decode(errors="replace").strip()) from None
            except BROKEN:
                pass
            self.urls.append(self.urls.pop(0))
            time.sleep(wait)
            wait = min(5, wait * 2)

    @staticmethod
    def follow(stream, standing):
        """One connection: first all that stands, up to a comment, so that what ended while nobody listened is known to be gone."""
        kind, told = None, set()
        for line in stream:
            line = line.decode().rstrip("\n")
            if line.startswith("event: "):
                kind = line[7:]
            elif line.startswith("data: "):
                data = json.loads(line[6:])
                number = data["offer"]
                if told is not None:
                    told.add(number)
                if kind == "offer" and standing.get(number) != data:
                    if number in standing:  # numbers have begun again
                        yield "gone", {"offer": number}
                    standing[number] = data
                    yield kind, data
                elif kind == "gone" and standing.pop(number, None):
                    yield kind, data
            elif line == ": all existing offers were sent" and told is not None:
                for number in [n for n in standing if n not in told]:
                    del standing[number]
                    yield "gone", {"offer": number}
                told = None

    def keep_alive(self, path, seconds=5):
        """Tells again and again, on a thread of its own, that `/frameworks/NAME` or `/agents/NAME` is alive. The event that is given back ends it."""
        end = threading.Event()

        def beat():
            while not end.wait(seconds):
                try:
                    self.call(path + "/alive", b"")
                except (Refused, Unanswered):
                    pass

        threading.Thread(target=beat, daemon=True).start()
        return end
