#!/usr/bin/env python3
"""Runs the tests of the growths with each growth refused in turn: first the first, then the second, and so on past the last.

    growths.py            builds the tests first
    growths.py --built    takes them as `rt ci` left them in the crates' folders

The gate does not run it; run it before a release. The tests are all of `sc_growths`, and those of `sc_rows` on regions, rolls, rounds, checkpoints and
papers. `rt test` or `rt ci` builds them; each then runs alone under `refuse.c`, which refuses one growth a run. It prints how many growths each
test has, and ends with status 1 where a test failed under a refusal.
"""
import os
import pathlib
import subprocess
import sys
import tempfile

HERE = pathlib.Path(__file__).resolve().parent
CRATES = HERE.parent / "crates"
# The crate, and what the names of its tests of growths end with.
REGIONS = ("regions::a_student_enters", "regions::a_student_or_a_school_changes", "regions::an_unknown_student_is_refused")
DISTRICTS = ("districts::districts_that_were_joined_tell_the_region", "districts::districts_follow_who_leaves_and_who_comes")
TESTED = (("sc_growths", ""), ("sc_rows", ("_where_memory_is_refused", "a_spent_round", "their_next_choices", *REGIONS, *DISTRICTS)))


def built(crate):
    """The crate's tests as one program, which runs the test that it is given by name."""
    if "--built" not in sys.argv[1:]:
        subprocess.run(["rt", "test"], cwd=CRATES / crate, check=True, stdout=subprocess.DEVNULL, stderr=subprocess.DEVNULL)
    return CRATES / crate / "out" / f"{crate}_tests"


def names(program, ends):
    listed = subprocess.run([program, "--list"], check=True, capture_output=True, text=True).stdout
    found = [line.split(": ")[0] for line in listed.splitlines() if line.endswith(": test")]
    return [name for name in found if name.endswith(ends)]


def ran(program, name, shim, **more):
    return subprocess.run([program, name], capture_output=True, text=True, env={**os.environ, "LD_PRELOAD": shim, **more})


def refused_in_turn(program, name, shim):
    """How many growths a test has, and under how many refusals it failed."""
    growths = int(ran(program, name, shim, FAIL_COUNT="1").stderr.split()[-1])
    failed = 0
    for at in range(1, growths + 1):
        done = ran(program, name, shim, FAIL_AT=str(at))
        if done.returncode or "test result: ok" not in done.stdout:
            print(f"{name}, growth {at}: {done.stdout.strip()} {done.stderr.strip()}")
            failed += 1
    return growths, failed


def main():
    tried = failures = 0
    with tempfile.TemporaryDirectory() as folder:
        shim = os.path.join(folder, "refuse.so")
        subprocess.run(["cc", "-shared", "-fPIC", "-O1", "-o", shim, HERE / "refuse.c"], check=True)
        for crate, ends in TESTED:
            program = built(crate)
            for name in names(program, ends):
                growths, failed = refused_in_turn(program, name, shim)
                print(f"{crate}, {name}: {growths} growths refused, {failed} failed")
                tried, failures = tried + growths, failures + failed
    print(f"{tried} growths refused, {failures} failed")
    return 1 if failures else 0


if __name__ == "__main__":
    sys.exit(main())
