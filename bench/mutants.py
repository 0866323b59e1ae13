#!/usr/bin/env python3
"""Outside the proof. Checks that each mutant, a wrong change of the code, is detected by a stored run.
Each file bench/mutants/CRATE/NAME.edit has the form of a must-fail edit, with one more line, `caught by: PROGRAM`. For each of them, this script copies
the crates, applies the edit, builds the program without proofs, runs it as `rt ci` does, and compares its output with crates/PROGRAM/stdout.
PROGRAM may also be a script of bench/, which must then find differences on the copy. Before that, everything must pass on the unchanged crates.
The script prints `ok NAME: refused by PROGRAM, at line N` or `FAILED NAME: why`. The status is 1 if one failed. It needs a C compiler.

    bench/mutants.py            all mutants: 80 minutes of processor time
    bench/mutants.py NAME..     only these"""
import glob
import itertools
import os
import re
import resource
import shutil
import subprocess
import sys
import tempfile

HERE = os.path.dirname(os.path.realpath(__file__))
sys.path.append(f"{HERE}/tools")
from common import ROOT, released_program
from unproved import KIT, TARGET, make_kit, without_added

# Seconds of processor time that a program may take.
LIMIT = 120


class Failure(Exception):
    """Why a mutant, or the unchanged program, says nothing."""


def read_edit(path):
    """Returns the catcher of a mutant, and its changes: each a file of the crate, the old text and the new one."""
    catcher, file, old, changes = None, None, None, []
    for line in open(path).read().splitlines():
        word, _, text = line.partition(": ")
        if word == "caught by":
            catcher = text
        elif word == "file":
            file = text
        elif word == "old":
            old = text
        elif word == "new":
            changes.append((file, old, text))
    if not catcher or not changes:
        raise Failure("its edit lacks a line `caught by:`, or a pair of `old:` and `new:`")
    return catcher, changes


def copy_repository(folder):
    """Copies what a build reads. The scripts of bench/ find the copy by their own path."""
    for part in ("crates", "bench"):
        shutil.copytree(f"{ROOT}/{part}", f"{folder}/{part}", ignore=shutil.ignore_patterns("out"))
    for file in ("crates.txt", "HANDLES"):
        shutil.copy(f"{ROOT}/{file}", folder)


def apply(changes, crate):
    """Changes the files of a crate. Each old text must occur once."""
    for file, old, new in changes:
        with open(f"{crate}/{file}") as source:
            text = source.read()
        if text.count(old) != 1:
            raise Failure(f"its old text occurs {text.count(old)} times in {file}: {old}")
        with open(f"{crate}/{file}", "w") as source:
            source.write(text.replace(old, new))


def build(crate, out):
    """Builds a program without proofs and without optimisation. What a proof excludes ends the program, so a mutant cannot do just anything."""
    with tempfile.TemporaryDirectory(prefix="mutants-") as room:
        make_kit(room)
        tried = subprocess.run([f"{room}/kit/bin/rt", "try"], cwd=crate, stdin=subprocess.DEVNULL, capture_output=True, text=True)
        if not os.path.exists(f"{room}/module.bc"):
            raise Failure(f"{os.path.basename(crate)} does not compile:\n{tried.stderr}")
        clang = [f"{KIT}/toolchain/bin/clang", "-x", "ir"]
        subprocess.run([*clang, "-S", "-emit-llvm", "-Xclang", "-disable-llvm-passes", f"{room}/module.bc", "-o", f"{room}/tried.ll"], check=True)
        with open(f"{room}/tried.ll") as given, open(f"{room}/plain.ll", "w") as plain:
            plain.writelines(without_added(given, is_checked=True))
        subprocess.run([*clang, *TARGET, "-fPIE", "-O0", "-c", f"{room}/plain.ll", "-o", f"{room}/program.o"], check=True)
        libraries = [f"{KIT}/c/libos_c.a", f"{KIT}/c/liblibc_c.a", "-lpthread", "-lm"]
        subprocess.run(["cc", "-pie", "-Wl,--gc-sections", "-o", out, f"{room}/program.o", *libraries], check=True)


def limit_time():
    resource.setrlimit(resource.RLIMIT_CPU, (LIMIT, LIMIT))


def first_difference(program, crate):
    """Runs a program where its crate's data lies. Returns the first line that is not the stored one, as `line N (TEXT)`, or None.
    The run ends there, since a mutant may never end."""
    stored = open(f"{crate}/stdout").read().splitlines(keepends=True)
    given = f"{crate}/stdin" if os.path.exists(f"{crate}/stdin") else os.devnull
    words = open(f"{crate}/args").read().splitlines() if os.path.exists(f"{crate}/args") else []
    with tempfile.TemporaryDirectory(prefix="mutants-") as room, open(given) as stdin:
        if os.path.isdir(f"{crate}/data"):
            shutil.copytree(f"{crate}/data", room, dirs_exist_ok=True)
        how = {"cwd": room, "stdin": stdin, "stdout": subprocess.PIPE, "stderr": subprocess.DEVNULL, "preexec_fn": limit_time}
        with subprocess.Popen([program, *words], text=True, errors="replace", **how) as ran:
            for number, (line, wanted) in enumerate(itertools.zip_longest(ran.stdout, stored), 1):
                if not (line or "").endswith("\n") and ran.wait() != 0:
                    raise Failure(f"{os.path.basename(crate)} ends with status {ran.returncode} before line {number}")
                if line != wanted:
                    ran.kill()
                    return f"line {number} ({wanted.strip()[:60] if wanted else 'one too many'})"
        if ran.returncode != 0:
            raise Failure(f"{os.path.basename(crate)} ends with status {ran.returncode}")
    return None


def count_differences(script):
    """Runs a script of bench/ that builds its program from the copy that it is in. Returns its last line if it counts differences, or None."""
    done = subprocess.run([sys.executable, script, "-", released_program()], capture_output=True, text=True)
    last = (done.stdout.splitlines() or [""])[-1]
    if done.returncode not in (0, 1) or not re.match(r"\d+ differences", last):
        raise Failure(f"{os.path.basename(script)} counts no differences:\n{done.stderr}")
    return last if done.returncode == 1 else None


def refusal(catcher, crate=None, changes=()):
    """Returns where the catcher sees that a crate of a copy was changed, or None where it sees nothing."""
    with tempfile.TemporaryDirectory(prefix="mutants-") as folder:
        copy_repository(folder)
        apply(changes, f"{folder}/crates/{crate}")
        if "/" in catcher:
            return count_differences(f"{folder}/{catcher}")
        build(f"{folder}/crates/{catcher}", f"{folder}/program")
        return first_difference(f"{folder}/program", f"{folder}/crates/{catcher}")


def check_unchanged(catcher):
    """Whether the catcher passes on the unchanged crates."""
    try:
        at = refusal(catcher)
    except Failure as failure:
        at = failure
    if at is not None:
        print(f"FAILED {catcher}, unchanged: {at}", flush=True)
    return at is None


def check_mutant(path):
    """Whether the catcher of a mutant refuses it."""
    name, crate = os.path.basename(path).removesuffix(".edit"), os.path.basename(os.path.dirname(path))
    try:
        catcher, changes = read_edit(path)
        at = refusal(catcher, crate, changes)
        why = None if at else "the stored runs do not notice it"
    except Failure as failure:
        why = failure
    print(f"FAILED {name}: {why}" if why else f"ok {name}: refused by {catcher}, at {at}", flush=True)
    return not why


def main(names):
    paths = {os.path.basename(path).removesuffix(".edit"): path for path in sorted(glob.glob(f"{HERE}/mutants/*/*.edit"))}
    unknown = [name for name in names if name not in paths]
    if unknown:
        sys.exit(f"mutants.py: unknown mutant {unknown[0]!r}; expected one of: {', '.join(paths)}")
    chosen = [paths[name] for name in names or paths]
    catchers = sorted({read_edit(path)[0] for path in chosen})
    results = [check_unchanged(catcher) for catcher in catchers] + [check_mutant(path) for path in chosen]
    return 0 if all(results) else 1


if __name__ == "__main__":
    if any(word.startswith("-") for word in sys.argv[1:]):
        sys.exit(__doc__)
    sys.exit(main(sys.argv[1:]))
