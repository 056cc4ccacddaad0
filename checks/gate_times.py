#!/usr/bin/env python3
"""Runs the gate, or another command, and says where its processor time went: by crate, for its proof, its tests and its edits.

    gate_times.py [COMMAND ..]

Without a command it runs `rt ci`. Twice a second it looks at the processes of the toolchain that the command began, and counts the time of their children
with them too once these have ended, so the table is a tenth or so off; the totals of the whole run, user and system, are exact.
It prints a table in the form of docs/GATE.md.
"""
import collections
import os
import resource
import subprocess
import sys
import time

TICKS = os.sysconf("SC_CLK_TCK")


def told(pid):
    """The crate that a process of the toolchain works on, for what, and its processor seconds so far; None for any other."""
    try:
        words = open(f"/proc/{pid}/cmdline", "rb").read().decode(errors="replace").split("\0")
        if not os.path.basename(words[0]).startswith(("rattle", "antt")):
            return None
        where = os.readlink(f"/proc/{pid}/cwd")
        fields = open(f"/proc/{pid}/stat").read().rsplit(") ", 1)[1].split()
    except (OSError, IndexError):
        return None
    crate = words[words.index("--crate-name") + 1] if "--crate-name" in words else "others"
    kind = "edits" if "/rt-edit-" in where else "tests" if "--test" in words else "proof"
    return crate, kind, sum(map(int, fields[11:15])) / TICKS


def parents():
    """Each process and the one that began it."""
    found = {}
    for pid in filter(str.isdigit, os.listdir("/proc")):
        try:
            found[pid] = open(f"/proc/{pid}/stat").read().rsplit(") ", 1)[1].split()[1]
        except OSError:
            continue
    return found


def below(top, begun_by):
    """The processes that one began, and those that these began."""
    children = collections.defaultdict(list)
    for pid, parent in begun_by.items():
        children[parent].append(pid)
    left, found = [top], []
    while left:
        left.extend(more := children[left.pop()])
        found.extend(more)
    return found


def main():
    command = sys.argv[1:] or ["rt", "ci"]
    began = time.monotonic()
    run = subprocess.Popen(command)
    seen = {}
    while run.poll() is None:
        for pid in below(str(run.pid), parents()):
            found = told(pid)
            if found:
                seen[pid, found[:2]] = max(found[2], seen.get((pid, found[:2]), 0))
        time.sleep(0.5)
    table = collections.defaultdict(collections.Counter)
    for (_, (crate, kind)), spent in seen.items():
        table[crate][kind] += spent
    print("| Crate | Proof | Tests | Edits | All |\n|---|---|---|---|---|")
    for crate, spent in sorted(table.items(), key=lambda row: -sum(row[1].values())):
        print(f"| `{crate}` | {spent['proof']:.0f} | {spent['tests']:.0f} | {spent['edits']:.0f} | {sum(spent.values()):.0f} |")
    whole = [sum(spent[kind] for spent in table.values()) for kind in ("proof", "tests", "edits")]
    print(f"| all | {whole[0]:.0f} | {whole[1]:.0f} | {whole[2]:.0f} | {sum(whole):.0f} |")
    used = resource.getrusage(resource.RUSAGE_CHILDREN)
    print(f"user {used.ru_utime:.0f} s, system {used.ru_stime:.0f} s, {time.monotonic() - began:.0f} s on {os.cpu_count()} cores")
    return run.returncode


if __name__ == "__main__":
    sys.exit(main())
