#!/usr/bin/env python3
"""Outside the proof. Repeats calls of the libraries, and refuses one memory allocation more each time, until none was refused: each event as a step of the
allocator, as a call of a master with viewers, and as an entry of a book; all events as one list, one input and one journal; each line as a text; and
calls of the crates below the allocator. When memory runs out, the state must be as before, and the same call must then succeed as if nothing had
happened. An event that is refused must be refused at every allocation, except for late refusals. It needs a C compiler. CALLS is the program of
bench/sweeps/refused_calls, and DRF the one that checks journals and answers lines.

    bench/sweeps/refused_calls.py                     builds both (CALLS without proofs, with bench/tools/unproved.py)
    bench/sweeps/refused_calls.py CALLS DRF          tests other builds
    bench/sweeps/refused_calls.py CALLS DRF whole    also on the lines of examples/; `-` for CALLS or DRF builds it"""
import json
import os
import subprocess
import sys
import tempfile

sys.path.append(f"{os.path.dirname(os.path.realpath(__file__))}/../tools")
from common import SWEEPS, released_program, inputs, shim
from unproved import build

# A size that is never requested says which growth is refused, and another asks whether one was refused. An audit uses several threads.
SHIM = r"""
#define _GNU_SOURCE
#include <dlfcn.h>
#include <errno.h>
#include <stdlib.h>
static long left;
static int was;
static int refused(size_t size) {
    if (size >> 62 == 1) { left = size & 0xffffffff; was = 0; return 1; }
    if (size == 7654321) { left = 0; return was; }
    if (left > 0 && __atomic_sub_fetch(&left, 1, __ATOMIC_SEQ_CST) == 0) { was = 1; return 1; }
    return 0;
}
void *malloc(size_t size) {
    static void *(*real)(size_t);
    if (!real) real = dlsym(RTLD_NEXT, "malloc");
    if (refused(size)) { errno = ENOMEM; return NULL; }
    return real(size);
}
void *realloc(void *kept, size_t size) {
    static void *(*real)(void *, size_t);
    if (!real) real = dlsym(RTLD_NEXT, "realloc");
    if (refused(size)) { errno = ENOMEM; return NULL; }
    return real(kept, size);
}
"""
# Which refusals of which events may be replaced by "out of memory".
LATE = {"reserve": {15, 16}, "unreserve": {15}, "set_agent": {15, 18, 19}}


class Sums:
    def __init__(self):
        self.cases, self.wrong = {}, []

    def add(self, what, refused, answered, late, wrong):
        before = self.cases.get(what, (0, 0, 0))
        self.cases[what] = tuple(map(sum, zip(before, (refused, answered, late))))
        if wrong:
            self.wrong.append(what)

    def tell(self):
        for what, (refused, answered, late) in self.cases.items():
            print(f"{what:30}{refused:7} growths refused, after {answered} all was answered, after {late} no late refusal was told, or the writer failed")
        print(f"{len(self.wrong)} differences", *self.wrong[:9])


def rows(told):
    """The lines of figures, each a text and four numbers, and the journals behind the lines `journal`."""
    figures, journals = [], []
    for line in told.splitlines():
        if line == "journal":
            journals.append([])
        elif "\t" in line:
            what, *numbers = line.split("\t")
            figures.append((what, *map(int, numbers)))
        elif line:
            journals[-1].append(line + "\n")
    return figures, ["".join(journal) for journal in journals]


def sweep_steps(sums, told, events, replies):
    figures, _ = rows(told)
    for event, reply, (line, refused, answered, late, wrong) in zip(events, replies, figures, strict=True):
        kind, number = json.loads(event)["event"], json.loads(reply).get("refused")
        is_right = line == reply and not wrong and (not late or number in LATE.get(kind, ()))
        sums.add("Core::step", refused, answered, late, not is_right)


def sweep_journals(sums, told, word, replies, check):
    figures, journals = rows(told)
    for figure in figures:
        sums.add(*figure)
    for journal in journals:
        if check(journal) != f"good {len(replies)}\n" or journal.splitlines()[1::2] != replies:
            sums.wrong.append(f"a journal of {word}")


def main(sweeps="-", program="-", extent=""):
    names = [f"{SWEEPS}/twelve_agents.jsonl", *inputs(extent)]
    sums = Sums()
    if program == "-":
        program = released_program()
    with tempfile.TemporaryDirectory() as room:
        if sweeps == "-":
            sweeps = f"{room}/sweeps"
            build(f"{SWEEPS}/refused_calls", sweeps, is_checked=True)
        library = shim(SHIM, room)

        def ran(words, given, shim=""):
            known = {**os.environ, "LD_PRELOAD": shim}
            return subprocess.run(words, input=given, capture_output=True, text=True, env=known, check=True, timeout=600).stdout

        for name in names:
            given = open(name).read()
            events, replies = given.splitlines(), ran([program, "run"], given).splitlines()
            sweep_steps(sums, ran([sweeps, "steps"], given, library), events, replies)
            for word in ("inputs", "masters"):
                sweep_journals(sums, ran([sweeps, word], given, library), word, replies, lambda journal: ran([program, "check"], journal))
        for figure in rows(ran([sweeps, "calls"], "", library))[0]:
            sums.add(*figure)
    sums.tell()
    return 1 if sums.wrong else 0


if __name__ == "__main__":
    if len(sys.argv) > 4 or sys.argv[1:2] == ["--help"]:
        sys.exit(__doc__)
    sys.exit(main(*sys.argv[1:4]))
