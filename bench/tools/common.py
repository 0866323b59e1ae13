"""Outside the proof. Functions that the scripts here share: the tested program, its inputs, a library that intercepts the calls of the system, and the
toolchain."""
import os
import shutil
import subprocess
import sys

ROOT = os.path.dirname(os.path.dirname(os.path.dirname(os.path.realpath(__file__))))
SWEEPS = f"{ROOT}/bench/sweeps"
# Examples that are short enough to be run thousands of times. The busy day is not.
SHORT_EXAMPLES = ("day", "first", "quota", "tasks", "teams")


def released_program():
    """Returns the path of the program of this checkout: $DRF, or the released one."""
    return os.environ.get("DRF") or f"{ROOT}/dist/drf-linux-x86_64"


def inputs(extent):
    """Returns the files of event lines: one that uses every event and, for `whole`, those of examples/ too."""
    return [f"{SWEEPS}/every_event.jsonl"] + ([f"{ROOT}/examples/{name}.jsonl" for name in SHORT_EXAMPLES] if extent == "whole" else [])


def shim(source, room):
    """Compiles a library for LD_PRELOAD, and returns its path."""
    with open(f"{room}/shim.c", "w") as text:
        text.write(source)
    subprocess.run(["cc", "-O2", "-shared", "-fPIC", "-o", f"{room}/shim.so", f"{room}/shim.c", "-ldl"], check=True)
    return f"{room}/shim.so"


def toolchain():
    """Returns the folder of the toolchain."""
    rt = shutil.which("rt") or sys.exit(f"{os.path.basename(sys.argv[0])}: rt, the command of the Rattle toolchain, is not found")
    return os.path.dirname(os.path.dirname(os.path.realpath(rt)))
