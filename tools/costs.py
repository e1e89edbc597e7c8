#!/usr/bin/env python3
"""Says what the gate spends on each crate: python3 tools/costs.py [COMMAND..], by default .ci/run.

Runs the command in the repository, prints what it prints, and then a table: for each crate its functions, its must-fail edits, and the
processor seconds of its proofs and of its edits. What a run before has passed on a machine is not done again, so for a table of all of it
run `.ci/run` on a machine that has none kept, or `rt ci --anew`.

It looks at the processes of the command several times a second and keeps the processor time that each had when it was last seen, so that a
sum may be a second too low for each process.
"""
import os
import re
import subprocess
import sys
import threading
import time

TICKS = os.sysconf("SC_CLK_TCK")


def processes():
    """Of each process its parent, its processor seconds, and its arguments."""
    found = {}
    for pid in filter(str.isdigit, os.listdir("/proc")):
        try:
            with open(f"/proc/{pid}/stat", encoding="utf-8", errors="replace") as it:
                stat = it.read().rpartition(")")[2].split()
            with open(f"/proc/{pid}/cmdline", encoding="utf-8", errors="replace") as it:
                args = it.read().split("\0")
        except OSError:
            continue
        found[int(pid)] = (int(stat[1]), (int(stat[11]) + int(stat[12])) / TICKS, args)
    return found


def watch(top, seen, done):
    """Keeps for each process below `top` that proves a crate: (crate, whether an edit is tried) and its processor seconds."""
    while not done.is_set():
        now = processes()
        for pid, (_, seconds, args) in now.items():
            if "--crate-name" not in args:
                continue
            up = pid
            while up in now and up != top:
                up = now[up][0]
            if up == top:
                crate = args[args.index("--crate-name") + 1]
                seen[pid] = (crate, any("/rt-edits-" in a for a in args), seconds)
        done.wait(0.2)


def main():
    command = sys.argv[1:] or [os.path.join(os.path.dirname(os.path.abspath(__file__)), "..", ".ci", "run")]
    began = time.time()
    child = subprocess.Popen(command, stdout=subprocess.PIPE, stderr=subprocess.STDOUT, text=True, errors="replace")
    seen, done = {}, threading.Event()
    watcher = threading.Thread(target=watch, args=(child.pid, seen, done))
    watcher.start()
    functions, last = {}, "0"
    for line in child.stdout:
        print(line, end="", flush=True)
        count = re.search(r"logic=proved functions=(\d+)", line)
        last = count[1] if count else last
        proved = re.fullmatch(r"rt: (\w+) proved\n", line)
        if proved:
            functions[proved[1]] = last
    status = child.wait()
    wall = time.time() - began
    done.set()
    watcher.join()
    sums = {}
    for crate, edit, seconds in seen.values():
        sums.setdefault(crate, [0, 0])[edit] += seconds
    print("\n| crate | functions | edits | seconds of proofs | seconds of edits |\n|---|---:|---:|---:|---:|")
    for crate, (proofs, edits) in sorted(sums.items(), key=lambda it: -sum(it[1])):
        folder = os.path.join("crates", crate, "must-fail")
        count = len(os.listdir(folder)) if os.path.isdir(folder) else 0
        print(f"| `{crate}` | {functions.get(crate, '')} | {count} | {proofs:.0f} | {edits:.0f} |")
    proofs, edits = (sum(it[k] for it in sums.values()) for k in (0, 1))
    print(f"| all | | | {proofs:.0f} | {edits:.0f} |\n\n{wall / 60:.0f} minutes on {os.cpu_count()} processors")
    sys.exit(status)


if __name__ == "__main__":
    main()
