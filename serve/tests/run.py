#!/usr/bin/env python3
# Runs the tests of the service over its real parts. Outside the proof.
"""    run.py [--only TEXT] [--long]        each test is told as `ok NAME` or `FAILED NAME`; the last line counts them"""
import argparse
import sys
import time
import traceback
from concurrent.futures import ThreadPoolExecutor

from fleet import NotRun
from programs import find_programs


def name_of(test):
    return getattr(test, "name", test.__name__.removeprefix("test_"))


def outcome(test, programs):
    """Runs a test, and returns whether it passed, or None where it cannot run here, and what to print."""
    name, begun = name_of(test), time.time()
    try:
        told = test(programs)
        return True, f"ok {name} ({time.time() - begun:.1f} s){': ' + told if told else ''}"
    except NotRun as why:
        return None, f"not run: {name}: {why}"
    except Exception:  # a test that fails in whatever way has failed
        return False, f"FAILED {name}\n{traceback.format_exc()}"


def outcomes(chosen, programs):
    """Yields the outcome of each test: first of those that mostly wait, which run at the same time, then of the others, one after another."""
    waiting = [test for test in chosen if getattr(test, "mostly_waits", False)]
    if waiting:
        with ThreadPoolExecutor(8) as pool:
            yield from pool.map(lambda test: outcome(test, programs), waiting)
    for test in chosen:
        if test not in waiting:
            yield outcome(test, programs)


def main():
    words = argparse.ArgumentParser()
    words.add_argument("--only", default="", help="run the tests whose names have one of these, with commas")
    words.add_argument("--long", action="store_true", help="chaos of minutes in place of seconds")
    options = words.parse_args()
    import calls
    import cgroups
    import conversion
    import defects
    import faults
    import mesos_chaos
    import operators
    import scale
    programs = find_programs()
    every = calls.TESTS + conversion.TESTS + defects.TESTS + operators.TESTS + faults.tests(options.long) + mesos_chaos.tests(options.long) + cgroups.TESTS + (scale.TESTS if options.long else [])
    passed = failed = 0
    for has_passed, told in outcomes([test for test in every if any(part in name_of(test) for part in options.only.split(","))], programs):
        print(told, flush=True)
        passed += has_passed is True
        failed += has_passed is False
    print(f"tests of calls and faults: {passed} passed, {failed} failed")
    sys.exit(failed > 0)


if __name__ == "__main__":
    main()
