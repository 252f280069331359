#!/usr/bin/env python3
"""How long the gate takes, by the table of docs/GATE.md: the order in which `rt ci` runs its checks, side
by side as far as there are processors and memory, with the seconds that each took when it was measured.

Usage: tests/forecast.py [PROCESSORS [GIGABYTES]], of which a machine of the project's shows 4 and 24.9.

What `rt ci` goes by (kit 13f): a check waits for those of all crates below it, and so do the edits of a crate: one
alone is tried from nothing, several over a second check of the crate. Of what is ready the first is what has the most
lines of code behind it, along the longest chain; edits come behind all checks, and wait while one of these waits for
memory. What is ready runs if a processor is idle, and if what all that runs is expected to need fits 85 % of the
memory: 1 GB, 1 MB a line of the crate's code, 0.2 MB a line of its specs and proofs, 0.08 MB a line of code of the
crates below it, and what it loads of the kit's libraries; an edit over a second check seven tenths of that. A check
that nothing else waits beside takes idle processors too. The table's seconds are those of a busy processor, so this
takes each check to have one.
"""
import os
import re
import subprocess
import sys

TOP = os.path.join(os.path.dirname(os.path.abspath(__file__)), "..")


def lines(crate, ending):
    """How many lines the crate's files with that ending have."""
    found = 0
    for part in ("src", "specs", "proofs"):
        for at, _, names in os.walk(f"{TOP}/crates/{crate}/{part}"):
            for name in names:
                if name.endswith(ending):
                    with open(f"{at}/{name}", "rb") as file:
                        found += file.read().count(b"\n")
    return found


def crates():
    """Each crate with those that it names: of the repository, and of the kit."""
    with open(f"{TOP}/crates.txt", encoding="utf-8") as file:
        rows = [line.split("#")[0].partition(":") for line in file]
    named = {name.strip(): set(below.split()) for name, _, below in rows if name.strip()}
    return {name: (below & named.keys(), below - named.keys()) for name, below in named.items()}


def all_below(named):
    """Each crate with all crates below it."""
    found = {}

    def below(name):
        if name not in found:
            found[name] = set().union(named[name][0], *(below(it) for it in named[name][0]))
        return found[name]

    return {name: below(name) for name in named}


def loaded(libraries):
    """What a check loads of the kit's libraries, in GB."""
    kit = os.path.dirname(subprocess.run(["rt", "doc"], capture_output=True, text=True).stdout.strip())
    files = [f"{kit}/rlibs/{it}.rlib/toolchain/checked.a" for it in libraries]
    return min(sum(5 * os.path.getsize(it) for it in files if os.path.isfile(it)) / 1e9, 2.5)


def seconds():
    """What the check of each crate took; how many edits it has, and what they took."""
    row = re.compile(r"\| `(\w+)` \| *\d* *\| (\d+) s[^|]*\| *(\d*) *\| *(?:(\d+) s)?")
    with open(f"{TOP}/docs/GATE.md", encoding="utf-8") as file:
        found = [row.match(line) for line in file]
    return {it[1]: (int(it[2]), int(it[3] or 0), int(it[4] or 0)) for it in found if it}


def tasks():
    """Each task with those that it waits for, its weight in lines, its memory in GB, and its seconds."""
    named, took, made = crates(), seconds(), {}
    below = all_below(named)
    code = {name: lines(name, ".rt") for name in below}
    for name in sorted(below, key=lambda it: len(below[it])):
        if name not in took:
            print(f"{name}: not in the table of docs/GATE.md, so taken as 60 s")
        check, count, edits = took.get(name, (60, 0, 0))
        kit = set().union(*(named[it][1] for it in {name, *below[name]}))
        written = code[name] / 1e3 + lines(name, ".antt") / 5e3 + sum(code[it] for it in below[name]) * 8e-5
        memory = 1 + written + loaded(kit)
        waits = {(it, "check") for it in below[name]}
        made[name, "check"] = (waits, code[name], memory, check)
        if count == 1:
            made[name, "edits", 0] = (waits, code[name], memory, edits)
        elif count:
            seed = min(check, edits / 2)
            made[name, "second check"] = (waits, 0, memory, seed)
            edit = ({*waits, (name, "second check")}, code[name], 0.7 * memory, (edits - seed) / count)
            for number in range(count):
                made[name, "edits", number] = edit
    return made


def ranked(made):
    """The tasks, first those with the longest chain of others behind them, and all checks before edits."""
    behind = {key: 0 for key in made}
    for key in reversed(made):
        behind[key] += made[key][1]
        for it in made[key][0]:
            behind[it] = max(behind[it], behind[key])
    return sorted(made, key=lambda it: (it[1] != "check", -behind[it]))


def started(made, left, ended, running, processors, memory):
    """What starts now of the tasks that are left, each with its processors."""
    ready = [it for it in left if made[it][0] <= ended]
    checks, lacks = [it for it in ready if it[1] == "check"], False
    for at, key in enumerate(ready):
        if lacks and key[1] != "check":
            return
        room, idle = memory - sum(it[1] for it in running.values()), processors - sum(it[2] for it in running.values())
        if idle > 0 and (not running or made[key][2] <= room):
            others = len(checks) - checks.index(key) if key in checks else len(ready) - at
            spare = min(4, idle // others, 1 + int((room / made[key][2] - 1) / 0.6))
            yield key, max(1, spare) if key[1] in ("check", "second check") else 1
        else:
            lacks = lacks or idle > 0 and key in checks


def forecast(made, processors, memory):
    """The minutes, and the tasks in the order in which they end."""
    left, running, ended, now, order = ranked(made), {}, set(), 0.0, []
    while left or running:
        for key, jobs in started(made, left[:], ended, running, processors, memory):
            left.remove(key)
            end = now + made[key][3] / (1 + 0.55 * (jobs - 1))
            running[key] = (end, made[key][2] * (1 + 0.6 * (jobs - 1)), jobs)
        first = min(running, key=lambda it: running[it][0])
        now = running.pop(first)[0]
        ended.add(first)
        order.append((now / 60, *first))
    return now / 60, order


def main():
    processors = int(sys.argv[1]) if len(sys.argv) > 1 else 4
    memory = float(sys.argv[2]) if len(sys.argv) > 2 else 24.9
    made = tasks()
    minutes, order = forecast(made, processors, 0.85 * memory)
    for at, name, *what in order[-20:]:
        print(f"{at:6.1f} {name} {' '.join(map(str, what))}")
    total = sum(it[3] for it in made.values())
    print(f"{total:.0f} s in all; {minutes:.0f} minutes on {processors} processors, {memory} GB")


if __name__ == "__main__":
    main()
