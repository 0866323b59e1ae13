#!/usr/bin/env python3
# Runs the tests of the package. Outside the proof.
"""    run.py [--only TEXT] [--long]        each test is reported as `ok NAME` or `FAILED NAME: why`"""
import argparse
import os
import signal
import sys
import tempfile
import time
import traceback

import clean
import files
from package import NotRun, Package


def main():
    parser = argparse.ArgumentParser()
    parser.add_argument("--only", default="", help="run the tests whose names have this text")
    parser.add_argument("--long", action="store_true", help="also in a clean Debian")
    words = parser.parse_args()
    counts = {"ok": 0, "FAILED": 0}

    def run(name, test, *arguments):
        begun = time.time()
        try:
            test(*arguments)
            counts["ok"] += 1
            print(f"ok {name} ({time.time() - begun:.1f} s)", flush=True)
        except NotRun as why:
            print(f"not run: {name}: {why}", flush=True)
        except Exception as error:  # a test that fails in whatever way has failed
            counts["FAILED"] += 1
            lines = str(error).splitlines() or [type(error).__name__]
            print(f"FAILED {name}: {lines[0]}", *lines[1:], sep="\n    ", flush=True)
            if not isinstance(error, AssertionError):
                traceback.print_exc(file=sys.stdout)

    signal.signal(signal.SIGTERM, lambda *_: sys.exit(1))  # so that what was started is ended
    try:
        with tempfile.TemporaryDirectory(prefix="durzhanok-packaging-") as folder:
            package = Package(os.path.join(folder, "built"))
            run("the package is built", package.build)
            for test in files.TESTS + (clean.TESTS if words.long else []):
                name = test.__name__.removeprefix("test_").replace("_", " ")
                if words.only in name:
                    run(name, test, package)
    finally:
        clean.close()
    print(f"packaging: {counts['ok']} passed, {counts['FAILED']} failed")
    sys.exit(counts["FAILED"] > 0)


if __name__ == "__main__":
    main()
