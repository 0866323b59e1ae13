#!/usr/bin/env python3
"""Outside the proof. Makes each read and each write of the program fail in turn, in several ways and with chunks of several sizes, while it reads events.
After a read error, exactly the complete lines must have been answered (an audit, an explanation, a check and a drive then write nothing). After a write
error, exactly what the device accepted must have been written, which is a prefix of the replies. The status and the line on standard error must report
the error. The size of the chunks alone must change nothing. It needs a C compiler.

    bench/sweeps/failing_devices.py                  tests the released program on lines that use every event
    bench/sweeps/failing_devices.py PROGRAM          tests another one
    bench/sweeps/failing_devices.py PROGRAM whole    also on the lines of examples/, in some minutes"""
import errno
import os
import subprocess
import sys
import tempfile
from multiprocessing.pool import ThreadPool

sys.path.append(f"{os.path.dirname(os.path.realpath(__file__))}/../tools")
from common import released_program, inputs, shim

# One call of a kind fails, and the next one would succeed. A chunk is the most bytes that a call moves. Standard error never fails.
SHIM = r"""
#define _GNU_SOURCE
#include <dlfcn.h>
#include <errno.h>
#include <fcntl.h>
#include <stdarg.h>
#include <stdlib.h>
#include <string.h>
#include <unistd.h>
static long left;
static int fault;
static size_t piece;
static const char *kind;
__attribute__((constructor)) static void begin(void) {
    left = atol(getenv("FAILING_CALL"));
    fault = atoi(getenv("FAILING_HOW"));
    piece = strtoul(getenv("FAILING_PIECE"), 0, 10);
    kind = getenv("FAILING_KIND");
}
static int fails(const char *of) { return !strcmp(of, kind) && left > 0 && __atomic_sub_fetch(&left, 1, __ATOMIC_SEQ_CST) == 0; }
ssize_t read(int file, void *bytes, size_t count) {
    static ssize_t (*real)(int, void *, size_t);
    if (!real) real = dlsym(RTLD_NEXT, "read");
    if (fails("read")) { errno = fault; return -1; }
    return real(file, bytes, count < piece ? count : piece);
}
ssize_t write(int file, const void *bytes, size_t count) {
    static ssize_t (*real)(int, const void *, size_t);
    if (!real) real = dlsym(RTLD_NEXT, "write");
    if (file == 2) return real(file, bytes, count);
    if (fails("write")) { errno = fault; return fault ? -1 : 0; }
    return real(file, bytes, count < piece ? count : piece);
}
int open(const char *path, int flags, ...) {
    static int (*real)(const char *, int, ...);
    va_list rest;
    if (!real) real = dlsym(RTLD_NEXT, "open");
    va_start(rest, flags);
    int mode = flags & O_CREAT ? va_arg(rest, int) : 0;
    va_end(rest);
    if (fails("open")) { errno = fault; return -1; }
    return real(path, flags, mode);
}
"""
COMMANDS = [["run"], ["run", "--echo"], ["audit"], ["explain"], ["check"], ["save"], ["drive"]]
# How many reply lines, and how many lines in all, are written for each input line; the other commands write after they have read
# everything.
LINES_OF = {"run": 1, "run --echo": 2}
READ_FAULTS = (errno.EIO, errno.EINTR, errno.EAGAIN, errno.EISDIR)
# 0 means a write that takes no bytes.
WRITE_FAULTS = (errno.EIO, errno.EINTR, errno.EAGAIN, errno.ENOSPC, errno.EPIPE, 0)
OPEN_FAULTS = (errno.EACCES, errno.EMFILE, errno.EINTR)
WHOLE = 1 << 30
PIECES = (1, 61, WHOLE)
# The tests end after this many calls past the last one that changes something.
QUIET = 16
# At most this many calls of one byte each are tried, spread over the input.
MOST = 160
SIDE_BY_SIDE = 2


def is_tried_again(words, how):
    """A file that is read whole is asked again after an interruption, as Rust's `fs::read` does."""
    return words == ["drive"] and how == errno.EINTR


def read_fault(words, path):
    """What is told of it; a drive names the file."""
    return f"drf: read fault: {path}\n".encode() if words == ["drive"] else b"drf: read fault\n"


class Sweep:
    def __init__(self, program, shim, pool):
        self.program, self.shim, self.pool = program, shim, pool
        self.cases, self.faults, self.wrong = 0, 0, []

    def ran(self, words, path, kind="", call=0, how=0, piece=WHOLE):
        words = words + [path] if words == ["drive"] else words
        known = {**os.environ, "LD_PRELOAD": self.shim, "FAILING_KIND": kind, "FAILING_CALL": str(call)}
        known |= {"FAILING_HOW": str(how), "FAILING_PIECE": str(piece)}
        with open(path, "rb") as given:
            done = subprocess.run([self.program, *words], stdin=given, capture_output=True, env=known, timeout=60)
        return done.returncode, done.stdout, done.stderr

    def note(self, is_right, *case):
        self.cases += 1
        if not is_right:
            self.wrong.append(case)

    def pieces(self, words, path, whole):
        for piece in (1, 2, 7, 61, 4096):
            self.note(self.ran(words, path, piece=piece) == whole, words, path, "pieces", piece)

    def reads(self, words, path, whole, given, piece):
        """Each read fails: what was given to the program before is known."""
        lines = LINES_OF.get(" ".join(words), 0)
        last = -(-len(given) // piece) + 1
        calls = list(range(1, last + 1, max(1, last // MOST))) + list(range(last - 3, last + 3))
        cases = [(call, how) for call in calls if call > 0 for how in READ_FAULTS]
        for (call, how), done in zip(cases, self.pool.map(lambda case: self.ran(words, path, "read", *case, piece), cases)):
            came = given[: (call - 1) * piece].count(b"\n") * lines
            failed = (1, b"".join(whole[1].splitlines(True)[:came]), read_fault(words, path))
            wanted = [whole if call > last or is_tried_again(words, how) else failed]
            # at its end, a file that is read completely may be read once more
            wanted += [failed] * (words == ["drive"] and call > last)
            self.faults += done != whole
            self.note(done in wanted, words, path, "read", call, how, piece)

    def writes(self, words, path, whole, piece):
        """Each write fails. With pieces of one length all but the last of a flush has that length."""
        call, quiet = 1, 0
        while quiet < QUIET:
            step = max(1, len(whole[1]) // MOST) if piece == 1 else 1
            cases = [(call, how) for how in WRITE_FAULTS]
            for (call, how), done in zip(cases, self.pool.map(lambda case: self.ran(words, path, "write", *case, piece), cases)):
                quiet = quiet + 1 if done == whole else 0
                self.faults += done != whole
                is_front = whole[1].startswith(done[1]) and (piece > 1 or len(done[1]) == call - 1)
                is_right = done == whole and (piece > 1 or call > len(whole[1])) or (done[0], done[2]) == (1, b"drf: write fault\n") and is_front
                self.note(is_right, words, path, "write", call, how, piece)
            call += step

    def opens(self, path, whole):
        for how in OPEN_FAULTS:
            done = self.ran(["drive"], path, "open", 1, how)
            self.faults += done != whole
            self.note(done == (whole if is_tried_again(["drive"], how) else (1, b"", read_fault(["drive"], path))), "drive", path, "open", how)

    def command(self, words, path):
        whole = self.ran(words, path)
        # a drive ends at a line that is not an event
        if whole[0] not in (0, 3):
            return
        given = open(path, "rb").read()
        self.pieces(words, path, whole)
        for piece in PIECES:
            self.reads(words, path, whole, given, piece)
            self.writes(words, path, whole, piece)
        if words == ["drive"]:
            self.opens(path, whole)


def real_devices(program, path):
    """Devices of the system that fail by themselves: what is told of them."""
    ends = []
    for name, script, wanted in (
        ("a folder is read", '"$0" run < /', (1, b"", b"drf: read fault\n")),
        ("no standard input", '"$0" run <&-', (1, b"", b"drf: read fault\n")),
        ("a full device", '"$0" run < "$1" > /dev/full', (1, b"", b"drf: write fault\n")),
        ("no standard output", '"$0" run < "$1" >&-', (1, b"", b"drf: write fault\n")),
        ("nobody reads", '(sleep 0.3; "$0" run < "$1"; echo $? >&2) | true', (0, b"", b"drf: write fault\n1\n")),
        ("a full standard error", '"$0" run < / 2> /dev/full', (1, b"", b"")),
        ("no standard error", '"$0" run < / 2>&-', (1, b"", b"")),
        ("a file that is not there", '"$2" drive "$1" /none', (1, b"", b"drf: read fault: /none\n")),
        ("a folder is driven", '"$2" drive "$1" /', (1, b"", b"drf: read fault: /\n")),
    ):
        done = subprocess.run(["bash", "-o", "pipefail", "-c", script, program, path, program], capture_output=True, timeout=60)
        ends.append((done.returncode, done.stdout, done.stderr) == wanted)
        if not ends[-1]:
            print(f"{name}: status {done.returncode}, {done.stdout[:80]}, {done.stderr[:80]}")
    print(f"{'the system':12}{len(ends):7} cases, {ends.count(False)} differences", flush=True)


def main(program=None, extent=""):
    program = program or released_program()
    names, wrong = inputs(extent), 0
    with tempfile.TemporaryDirectory() as room, ThreadPool(SIDE_BY_SIDE) as pool:
        library = shim(SHIM, room)
        for words in COMMANDS:
            sweep = Sweep(program, library, pool)
            for name in names:
                path = name
                if words == ["check"]:
                    path = f"{room}/journal"
                    with open(path, "wb") as journal:
                        journal.write(sweep.ran(["run", "--echo"], name)[1])
                sweep.command(words, path)
            for case in sweep.wrong[:9]:
                print("wrong:", *case)
            print(f"{' '.join(words):12}{sweep.cases:7} cases, {sweep.faults} faults met, {len(sweep.wrong)} differences", flush=True)
            wrong += len(sweep.wrong)
        real_devices(program, names[0])
    return 1 if wrong else 0


if __name__ == "__main__":
    sys.exit(main(*sys.argv[1:3]))
