#!/usr/bin/env python3
# An example of a Mesos framework: it runs one command on an agent, and prints the states of its task. Outside the proof.
"""Runs a command as a task of a Mesos framework (v1 scheduler API). The token needs the rights role:ROLE and user:USER.

    mesos_example.py --token-file admin.token --role web 'echo hello'"""
import argparse
import json
import ssl
import sys
import urllib.error
import urllib.request
import uuid

ENDED = {"TASK_FINISHED", "TASK_FAILED", "TASK_KILLED", "TASK_ERROR", "TASK_LOST", "TASK_DROPPED", "TASK_GONE"}


class Framework:
    """A subscribed framework. Its calls go to the gateway that it subscribed at."""

    def __init__(self, words):
        self.words, self.id, self.is_launched = words, None, False
        with open(words.token_file, encoding="utf-8") as file:
            self.headers = {"Authorization": "Bearer " + file.read().strip(), "Content-Type": "application/json", "Accept": "application/json"}
        self.context = ssl.create_default_context(cafile=words.authority) if words.url.startswith("https:") else None

    def post(self, kind, **fields):
        call = {"type": kind, **fields}
        if self.id:
            call["framework_id"] = self.id
        request = urllib.request.Request(self.words.url + "/api/v1/scheduler", json.dumps(call).encode(), self.headers)
        try:
            return urllib.request.urlopen(request, timeout=60, context=self.context)
        except urllib.error.HTTPError as error:
            raise SystemExit(f"{kind}: {error.code} {error.read().decode().strip()}") from None

    def events(self):
        """Subscribes, and yields each event: a record is its length in digits, a line feed, and as many bytes of JSON."""
        info = {"user": self.words.user, "name": self.words.name, "roles": [self.words.role], "capabilities": [{"type": "MULTI_ROLE"}]}
        stream = self.post("SUBSCRIBE", subscribe={"framework_info": info})
        self.headers["Mesos-Stream-Id"] = stream.headers["Mesos-Stream-Id"]
        while length := stream.readline().strip():
            yield json.loads(stream.read(int(length)))
        raise SystemExit("the gateway ended the stream")

    def answer(self, offer):
        """Starts the task with a part of an offer, or declines the offer."""
        has = {}
        for one in offer["resources"]:
            if one["type"] == "SCALAR" and "reservations" not in one and one.get("role", "*") == "*":
                has[one["name"]] = one["scalar"]["value"]
        use = {"cpus": self.words.cpus, "mem": self.words.mem}
        if self.is_launched or any(has.get(name, 0) < amount for name, amount in use.items()):
            self.post("DECLINE", decline={"offer_ids": [offer["id"]]})
            return
        self.is_launched = True
        resources = [{"name": name, "type": "SCALAR", "scalar": {"value": amount}, "allocation_info": offer["allocation_info"]} for name, amount in use.items()]
        task = {"name": self.words.name, "task_id": {"value": str(uuid.uuid4())}, "agent_id": offer["agent_id"], "resources": resources,
                "command": {"shell": True, "value": self.words.command}}
        self.post("ACCEPT", accept={"offer_ids": [offer["id"]], "operations": [{"type": "LAUNCH", "launch": {"task_infos": [task]}}]})

    def run(self):
        """Runs the task, and returns its last state."""
        for event in self.events():
            if event["type"] == "SUBSCRIBED":
                self.id = event["subscribed"]["framework_id"]
                print("subscribed as", self.id["value"], flush=True)
            elif event["type"] == "OFFERS":
                for offer in event["offers"]["offers"]:
                    self.answer(offer)
            elif event["type"] == "UPDATE":
                status = event["update"]["status"]
                print(status["state"], "on", status["agent_id"]["value"], status.get("message", ""), flush=True)
                if "uuid" in status:
                    self.post("ACKNOWLEDGE", acknowledge={"agent_id": status["agent_id"], "task_id": status["task_id"], "uuid": status["uuid"]})
                if status["state"] in ENDED:
                    self.post("TEARDOWN")
                    return status["state"]
            elif event["type"] == "ERROR":
                raise SystemExit(event["error"]["message"])


def main():
    parser = argparse.ArgumentParser(description=__doc__.split("\n", maxsplit=1)[0])
    parser.add_argument("--url", default="http://127.0.0.1:8450", help="a gateway (http://127.0.0.1:8450)")
    parser.add_argument("--token-file", required=True)
    parser.add_argument("--authority", help="a file with certificates to trust")
    parser.add_argument("--name", default="example", help="name of the framework and of the task")
    parser.add_argument("--role", default="example")
    parser.add_argument("--user", default="nobody", help="the user that the task runs as, if root runs the agent (nobody)")
    parser.add_argument("--cpus", type=float, default=0.5)
    parser.add_argument("--mem", type=float, default=64)
    parser.add_argument("command", help="a command for the shell")
    sys.exit(Framework(parser.parse_args()).run() != "TASK_FINISHED")


if __name__ == "__main__":
    main()
