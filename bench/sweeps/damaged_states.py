#!/usr/bin/env python3
"""Outside the proof. Damages a state file in every place: changes, removes and doubles each byte and each line, exchanges it with the next one (a line also
with the last one), cuts the file after each byte, and appends more to it. The program must refuse each damaged file with status 3, name a line that is
not before the damage, and write nothing; or the file must be the original state. Then the same is done with a last line that is correct for the
damaged lines. Such a file must be refused too, or be another state, which `save` writes again byte for byte.

    bench/sweeps/damaged_states.py                  tests the released program
    bench/sweeps/damaged_states.py PROGRAM          tests another one
    bench/sweeps/damaged_states.py PROGRAM whole    also with a state of 9 MB that fills all tables: it is read and written again, and refused with
                                                    one more row of any table"""
import hashlib
import json
import os
import re
import subprocess
import sys
import tempfile
from multiprocessing.pool import ThreadPool

sys.path.append(f"{os.path.dirname(os.path.realpath(__file__))}/../tools")
from common import released_program

# Events after which each table has rows.
LINES = b"""\
{"event":"add_agent","agent":"n1","total":"cpus:4;mem:1024;ports:[31000-31009]"}
{"event":"add_agent","agent":"n2","total":"cpus:2;cpus(eng):1;disk:{sda,sdb}"}
{"event":"add_framework","framework":"f1","roles":["eng/web"]}
{"event":"add_framework","framework":"f2","roles":["ops","eng"]}
{"event":"set_weight","role":"eng","weight":"0.5"}
{"event":"set_limit","role":"ops","limit":"cpus:2;gpus:0"}
{"event":"cycle","at":0}
{"event":"accept","framework":"f2","offer":2,"task":"t1","use":"cpus:1","at":1000,"refuse_ms":5000}
{"event":"cycle","at":2000}
{"event":"suppress","framework":"f1","role":"eng/web"}
{"event":"deactivate_agent","agent":"n2"}
"""
OTHER_BYTES = [b"0", b"1", b"9", b"a", b" ", b'"', b"\\", b",", b"}", b"\n", b"\r", b"\0", b"\xff"]
TOLD = re.compile(rb"drf: \S+ line (\d+) refused (\d+) \w+\n")


def turned(parts, one, other):
    parts = list(parts)
    parts[one], parts[other] = parts[other], parts[one]
    return parts


def with_end(body):
    """What stands before a last line, with one that fits it."""
    return body + b'{"row":"end","rows":%d,"sha256":"%s"}\n' % (body.count(b"\n"), hashlib.sha256(body).hexdigest().encode())


def byte_damages(state):
    for place, byte in enumerate(state):
        front, rest = state[:place], state[place + 1 :]
        for other in [bytes([byte ^ 1]), bytes([byte ^ 32]), *OTHER_BYTES]:
            yield front + other + rest
        yield front + rest
        yield front + bytes([byte, byte]) + rest
        yield front + rest[:1] + bytes([byte]) + rest[1:]


def line_damages(state):
    lines = state.splitlines(keepends=True)
    for place, line in enumerate(lines):
        front, rest = lines[:place], lines[place + 1 :]
        for damaged in (front + rest, front + [line, line] + rest, turned(lines, place, (place + 1) % len(lines)), turned(lines, place, -1), front + rest + [line]):
            yield b"".join(damaged)
        yield b"".join(front + [line.replace(b"\n", b"\r\n")] + rest)
        yield b"".join(front + [b"\n", line] + rest)


def damages(state):
    """Each damaged text once."""
    more = [state + b"\n", state + b" ", state + b"{}", state + state, b"\xef\xbb\xbf" + state, b""]
    cut = [state[:place] for place in range(len(state))]
    return {*byte_damages(state), *line_damages(state), *more, *cut} - {state}


def first_damaged_line(state, damaged):
    same = len(os.path.commonprefix([state, damaged]))
    return 1 + state.count(b"\n", 0, same)


class Sweep:
    def __init__(self, program, state, room):
        self.program, self.state, self.room, self.wrong = program, state, room, []

    def save_from(self, number, text):
        name = f"{self.room}/{number}"
        with open(name, "wb") as file:
            file.write(text)
        done = subprocess.run([self.program, "save", "--from", name], stdin=subprocess.DEVNULL, capture_output=True)
        os.unlink(name)
        return done

    def fault_of(self, case):
        """What is wrong with the answer, or whether the text was refused."""
        number, text, may_be_state = case
        done = self.save_from(number, text)
        told = TOLD.fullmatch(done.stderr)
        if done.returncode == 3 and told and not done.stdout:
            early = int(told[1]) < first_damaged_line(self.state, text)
            return f"a line before the damage is told: {done.stderr!r}" if early else True
        if may_be_state and done.returncode == 0 and not done.stderr and done.stdout == text:
            return False
        return f"status {done.returncode}, told {done.stderr!r}, {len(done.stdout)} bytes written"

    def run(self, texts, may_be_state):
        """How many of the texts are refused, and how many are states."""
        cases = [(number, text, may_be_state) for number, text in enumerate(sorted(texts))]
        with ThreadPool(os.cpu_count()) as pool:
            answers = pool.map(self.fault_of, cases, chunksize=16)
        self.wrong += [f"{text!r}\n  {answer}" for (_, text, _), answer in zip(cases, answers) if isinstance(answer, str)]
        return answers.count(True), answers.count(False)


# ---- a state at the ends of all tables


def row(kind, **keys):
    return json.dumps({**keys, "row": kind}, sort_keys=True, separators=(",", ":")).encode() + b"\n"


def framework(number, count):
    return row("framework", framework=f"f{number}", clients=[{"count": 0, "role": f"r{role}", "suppressed": False} for role in range(count)])


def held(kind, number, **keys):
    return row(kind, agent=f"n{number % 4096}", framework=f"f{number % 1024}", role=f"r{number % 4}", **keys)


def scalars(count):
    """Texts of so many names."""
    return ";".join(["cpus:8", "mem:1024", *[f"x{name:02}:1" for name in range(count - 2)]])


def tables():
    """The rows of each table, as many as there may be, the head first: the latest clock, a full history, the last offer that it can have made."""
    return {
        "state": [row("state", clock=1 << 62, events=(1 << 32) - 1, next_offer=1 + ((1 << 32) - 1 << 24))],
        "agent": [row("agent", active=number % 2 == 0, agent=f"n{number}", total=scalars(2 if number else 32)) for number in range(4096)],
        "framework": [framework(number, 8 if number < 512 else 0) for number in range(1024)],
        "weight": [row("weight", role=f"w{number}", weight="1000" if number else "0.001") for number in range(4096)],
        "limit": [row("limit", role=f"w{number}", limit="cpus:0" if number else scalars(32)) for number in range(4096)],
        "offer": [held("offer", number % 512, offer=number + 1, resources="cpus:0.001") for number in range(4096)],
        "task": [held("task", number % 512, task=f"t{number}", use="mem:1") for number in range(8192)],
        "filter": [held("filter", number % 512, resources="cpus:1", until=(1 << 63) - 1 - number) for number in range(65_536)],
    }


# For each: a table, the index of one of its rows or its length, what is put there, and its error.
ONE_MORE = [
    ("state", 0, row("state", clock=(1 << 62) + 1, events=1, next_offer=1), "2 BadMoment"),
    ("state", 0, row("state", clock=0, events=1 << 32, next_offer=1), "1 HistoryFull"),
    ("state", 0, row("state", clock=0, events=1, next_offer=2 + (1 << 24)), "38 BadNumber"),
    ("agent", 4096, row("agent", active=True, agent="one", total=""), "19 TooMany"),
    ("agent", 1, row("agent", active=True, agent="n1", total="y:1"), "19 TooMany"),
    ("framework", 1024, framework(1024, 0), "19 TooMany"),
    ("framework", 0, framework(0, 9), "19 TooMany"),
    ("framework", 512, framework(512, 1), "19 TooMany"),
    ("weight", 4096, row("weight", role="one", weight="1"), "19 TooMany"),
    ("limit", 4096, row("limit", role="one", limit="cpus:1"), "19 TooMany"),
    ("limit", 1, row("limit", role="w1", limit=scalars(33)), "19 TooMany"),
    ("filter", 65_536, held("filter", 0, resources="cpus:1", until=(1 << 63) - 1), "19 TooMany"),
    ("filter", 1, held("filter", 1, resources="cpus:1", until=1 << 63), "38 BadNumber"),
    ("filter", 1, held("filter", 1, resources="cpus:1", until=1 << 62), "38 BadNumber"),
]


def ends(sweep):
    whole = tables()
    text = with_end(b"".join(b"".join(rows) for rows in whole.values()))
    done = sweep.save_from("whole", text)
    if (done.returncode, done.stdout, done.stderr) != (0, text, b""):
        sweep.wrong.append(f"the state at the ends of all tables: status {done.returncode}, told {done.stderr!r}, {len(done.stdout)} bytes written")
    for kind, place, line, fault in ONE_MORE:
        more = {**whole, kind: [*whole[kind][:place], line, *whole[kind][place + 1 :]]}
        number = 1 + place + sum(len(rows) for rows in list(whole.values())[: list(whole).index(kind)])
        done = sweep.save_from("more", with_end(b"".join(b"".join(rows) for rows in more.values())))
        if done.returncode != 3 or done.stdout or not done.stderr.endswith(f" line {number} refused {fault}\n".encode()):
            sweep.wrong.append(f"line {number}, {line!r} is not refused {fault}: status {done.returncode}, told {done.stderr!r}")
    print(f"a state of {len(text)} bytes at the ends of all tables is read and written again; {len(ONE_MORE)} with more are refused")


def main(program, extent):
    state = subprocess.run([program, "save"], input=LINES, capture_output=True, check=True).stdout
    kinds = set(re.findall(rb'"row":"(\w+)"', state))
    if len(kinds) != 9 or with_end(state[: state.rindex(b"\n", 0, -1) + 1]) != state:
        sys.exit(f"damaged_states.py: the state lacks a kind of row, or its last line is another: {state!r}")
    body = state[: state.rindex(b"\n", 0, -1) + 1]
    with tempfile.TemporaryDirectory() as room:
        sweep = Sweep(program, state, room)
        refused, _ = sweep.run(damages(state), False)
        print(f"{refused} damaged files of a state of {len(state)} bytes are refused", flush=True)
        refused, others = sweep.run({with_end(damaged) for damaged in damages(body)} - {state}, True)
        print(f"with a last line that fits {refused} are refused, and {others} are other states", flush=True)
        if extent == "whole":
            ends(sweep)
    print("\n".join(sweep.wrong[:20]) or "no difference")
    return 1 if sweep.wrong else 0


if __name__ == "__main__":
    words = [word for word in sys.argv[1:] if word != "whole"]
    sys.exit(main(words[0] if words else released_program(), "whole" if "whole" in sys.argv else "small"))
