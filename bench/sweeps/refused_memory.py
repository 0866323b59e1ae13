#!/usr/bin/env python3
"""Outside the proof. Refuses each memory allocation in turn, once, while the program reads events. Either all replies must be written, or the output must be
complete lines of a prefix of the replies, and the status and the line on standard error must report that memory ran out. In a drive, two runs may have
different journals and allocations: `drf check` must accept what was written, and it must have all events unless memory ran out. It needs a C compiler.

    bench/sweeps/refused_memory.py                  tests the released program on lines that use every event
    bench/sweeps/refused_memory.py PROGRAM          tests another one
    bench/sweeps/refused_memory.py PROGRAM whole    also on the lines of examples/, in some minutes"""
import json
import os
import subprocess
import sys
import tempfile
from multiprocessing.pool import ThreadPool

sys.path.append(f"{os.path.dirname(os.path.realpath(__file__))}/../tools")
from common import released_program, inputs, shim

SHIM = r"""
#define _GNU_SOURCE
#include <dlfcn.h>
#include <errno.h>
#include <stdlib.h>
static long left;
__attribute__((constructor)) static void begin(void) { left = atol(getenv("REFUSED_GROWTH")); }
static int refused(void) { return left > 0 && __atomic_sub_fetch(&left, 1, __ATOMIC_SEQ_CST) == 0; }
void *malloc(size_t size) {
    static void *(*real)(size_t);
    if (!real) real = dlsym(RTLD_NEXT, "malloc");
    if (refused()) { errno = ENOMEM; return NULL; }
    return real(size);
}
void *realloc(void *kept, size_t size) {
    static void *(*real)(void *, size_t);
    if (!real) real = dlsym(RTLD_NEXT, "realloc");
    if (refused()) { errno = ENOMEM; return NULL; }
    return real(kept, size);
}
"""
COMMANDS = [["run"], ["run", "--echo"], ["audit"], ["explain"], ["check"], ["save"]]
# Enough ports that the journal of a drive is written in several chunks.
PORTS = ",".join(f"{port}-{port}" for port in range(0, 8000, 2))
# The lines of each file of a drive.
SCRIPTS = [
    [{"event": "add_agent", "agent": f"n{number}", "total": f"cpus:4;ports:[{PORTS}]"} for number in range(3)] + [{"event": "report"}],
    [{"event": "add_framework", "framework": f"f{number}", "roles": ["a/b", "c"]} for number in range(3)] + [{"event": "report"}],
    [{"event": "cycle", "at": moment} for moment in range(4)] + [{"event": "rescind", "offer": 1}],
]
# The tests end after this many refusals in a row that change nothing: no growth is left.
QUIET = 100
SIDE_BY_SIDE = 2


def ran(program, words, given, shim, growth):
    known = {**os.environ, "LD_PRELOAD": shim, "REFUSED_GROWTH": str(growth)}
    done = subprocess.run([program, *words], input=given, capture_output=True, env=known, timeout=60)
    return done.returncode, done.stdout, done.stderr


def is_right(whole, done):
    status, written, told = done
    if status == 0:
        return written == whole[1] and told == b""
    return status == 1 and told == b"drf: out of memory\n" and whole[1].startswith(written) and written[-1:] in (b"", b"\n")


def is_right_drive(program, shim, done):
    status, written, told = done
    checked = ran(program, ["check"], written, shim, 0)[1]
    if status == 0:
        return checked == b"good %d\n" % sum(map(len, SCRIPTS)) and told == b""
    return status == 1 and told == b"drf: out of memory\n" and checked.startswith(b"good ") and written[-1:] in (b"", b"\n")


def sweep(pool, run, is_right):
    """How many growths were refused, after how many of them all was answered, and those after which something was wrong."""
    growth, quiet, went_on, wrong = 0, 0, 0, []
    while quiet < QUIET:
        growths = range(growth + 1, growth + 1 + QUIET)
        done = pool.map(run, growths)
        for growth, one in zip(growths, done):
            quiet = quiet + 1 if one[0] == 0 else 0
            went_on += one[0] == 0
            if not is_right(one):
                wrong.append(growth)
    return growth - quiet, went_on - quiet, wrong


differences = 0


def tell(words, sums):
    global differences
    differences += sums[2]
    print(f"{' '.join(words[:2]):12}{sums[0]:7} growths refused, after {sums[1]} all was answered, {sums[2]} differences", flush=True)


def sweep_examples(pool, names, program, words, shim):
    sums = [0, 0, 0]
    for name in names:
        given = open(name, "rb").read()
        if words == ["check"]:
            given = ran(program, ["run", "--echo"], given, shim, 0)[1]
        whole = ran(program, words, given, shim, 0)
        refused, went_on, wrong = sweep(pool, lambda growth: ran(program, words, given, shim, growth), lambda done: is_right(whole, done))
        sums = [sums[0] + refused, sums[1] + went_on, sums[2] + len(wrong)]
        if wrong:
            print(f"{os.path.basename(name)}: wrong after {wrong[:9]}")
    tell(words, sums)


def sweep_from(pool, names, program, room, shim):
    """Commands that begin with the state after the lines of the last name."""
    state = f"{room}/state"
    with open(state, "wb") as it:
        it.write(ran(program, ["save"], open(names[-1], "rb").read(), shim, 0)[1])
    for command in ("run", "save"):
        sweep_examples(pool, names, program, [command, "--from", state], shim)


def sweep_drive(pool, program, room, shim):
    names = []
    for number, events in enumerate(SCRIPTS):
        names.append(f"{room}/{number}.jsonl")
        with open(names[-1], "w") as script:
            script.writelines(json.dumps(event) + "\n" for event in events)
    words = ["drive", *names]
    refused, went_on, wrong = sweep(pool, lambda growth: ran(program, words, b"", shim, growth), lambda done: is_right_drive(program, shim, done))
    if wrong:
        print(f"drive: wrong after {wrong[:9]}")
    tell(["drive"], [refused, went_on, len(wrong)])


def main(program=None, extent=""):
    program = program or released_program()
    names = inputs(extent)
    with tempfile.TemporaryDirectory() as room, ThreadPool(SIDE_BY_SIDE) as pool:
        library = shim(SHIM, room)
        for words in COMMANDS:
            sweep_examples(pool, names, program, words, library)
        sweep_from(pool, names, program, room, library)
        sweep_drive(pool, program, room, library)
    return 1 if differences else 0


if __name__ == "__main__":
    sys.exit(main(*sys.argv[1:3]))
