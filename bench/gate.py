#!/usr/bin/env python3
"""What the gate costs: runs `rt ci --anew` at the top of the repository, and tells for each crate the processor seconds of its
proofs, its tests and its must-fail edits.

    bench/gate.py run FILE.json                 runs `rt ci --anew`, shows what it prints, and keeps the cost
    bench/gate.py table FILE.json [BEFORE.json] writes the table of docs/GATE.md, beside an earlier one where it is given

Processor seconds are read from /proc five times a second, so each process may lack a fifth of a second. They are seconds
of the machine that it ran on; compare them only with others of the same machine.
"""
import json
import os
import re
import subprocess
import sys
import time

HERTZ = os.sysconf("SC_CLK_TCK")


def processes(seen):
    """Adds to seen what each of the prover's processes has used so far."""
    for pid in filter(str.isdigit, os.listdir("/proc")):
        try:
            with open(f"/proc/{pid}/stat") as file:
                stat = file.read()
            name = stat[stat.index("(") + 1 : stat.rindex(")")]
            if not name.startswith(("rattle", "antt")):
                continue
            fields = stat[stat.rindex(")") + 2 :].split()
            key = f"{pid}.{fields[19]}"
            if key not in seen or "--crate-name" not in seen[key]["words"]:
                with open(f"/proc/{pid}/cmdline") as file:
                    words = file.read().split("\0")
                seen[key] = {"words": [it for it in words if it], "folder": os.readlink(f"/proc/{pid}/cwd"), "seconds": 0}
            seen[key]["seconds"] = (int(fields[11]) + int(fields[12])) / HERTZ
        except (OSError, ValueError):
            pass


def kind_of(process, top):
    """The crate that a process works on, and what for: proof, tests or edits; None where it is another repository's."""
    words = process["words"]
    if "--crate-name" not in words:
        return None
    crate = words[words.index("--crate-name") + 1]
    if os.path.basename(process["folder"]).startswith("rt-edit-"):
        return crate, "edits"
    if not process["folder"].startswith(top):
        return None
    return crate, "tests" if "--test" in words else "proof"


def run(to):
    top = os.getcwd()
    seen = {}
    began = time.time()
    with subprocess.Popen(["rt", "ci", "--anew"]) as gate:
        while gate.poll() is None:
            processes(seen)
            time.sleep(0.2)
    crates = {}
    for process in seen.values():
        kind = kind_of(process, top)
        if kind:
            costs = crates.setdefault(kind[0], {"proof": 0, "tests": 0, "edits": 0})
            costs[kind[1]] += process["seconds"]
    with open(to, "w") as file:
        json.dump({"minutes": (time.time() - began) / 60, "processors": os.cpu_count(), "crates": crates}, file, indent=1)
    return gate.returncode


def chain_of(crates, below):
    """The longest chain: the crates whose proofs wait for each other, with the last one's tests and edits behind it."""
    longest = {}

    def until(name):
        if name not in longest:
            before = max((until(it) for it in below.get(name, [])), default=(0, []))
            longest[name] = before[0] + crates.get(name, {}).get("proof", 0), [*before[1], name]
        return longest[name]

    def whole(name):
        costs = crates.get(name, {"tests": 0, "edits": 0})
        return until(name)[0] + costs["tests"] + costs["edits"], until(name)[1]

    return max(whole(name) for name in below)


def lines_of(name):
    count = 0
    for at, _, files in os.walk(f"crates/{name}"):
        if "/out" not in at:
            for file in files:
                if file.endswith((".rt", ".antt")):
                    with open(f"{at}/{file}", encoding="utf-8") as text:
                        count += sum(1 for _ in text)
    return count


def table(now_file, before_file):
    with open(now_file) as file:
        now = json.load(file)
    before = {"crates": {}}
    if before_file:
        with open(before_file) as file:
            before = json.load(file)
    below = {}
    with open("crates.txt") as file:
        for line in file:
            line = line.split("#")[0].strip()
            if line:
                name, _, uses = line.partition(":")
                below[name.split()[0]] = uses.split()
    below = {name: [it for it in uses if it in below] for name, uses in below.items()}
    sum_of = lambda costs: sum(costs.values()) if costs else 0
    print("| Crate | Lines | Proof | Tests | Edits | Together |" + (" Before |" if before_file else ""))
    print("|---|---|---|---|---|---|" + ("---|" if before_file else ""))
    for name in below:
        costs = now["crates"].get(name, {"proof": 0, "tests": 0, "edits": 0})
        row = [name, lines_of(name), *(round(costs[it]) for it in ("proof", "tests", "edits")), round(sum_of(costs))]
        if before_file:
            row.append(round(sum_of(before["crates"].get(name))) or "")
        print("| " + " | ".join(map(str, row)) + " |")
    gone = [name for name in before["crates"] if name not in below]
    for name in gone:
        print(f"| {name} (gone) | | | | | | {round(sum_of(before['crates'][name]))} |")
    whole = [sum(costs[it] for costs in now["crates"].values()) for it in ("proof", "tests", "edits")]
    row = ["**all**", sum(map(lines_of, below)), *map(round, whole), round(sum(whole))]
    if before_file:
        row.append(round(sum(sum_of(costs) for costs in before["crates"].values())))
    print("| " + " | ".join(map(str, row)) + " |")
    seconds, names = chain_of(now["crates"], below)
    print(f"\nThe longest chain takes {round(seconds)} processor seconds: {', '.join(names)}.")
    print(f"The whole took {round(now['minutes'])} minutes on {now['processors']} processors.")


if __name__ == "__main__":
    if len(sys.argv) == 3 and sys.argv[1] == "run":
        sys.exit(run(sys.argv[2]))
    elif len(sys.argv) in (3, 4) and sys.argv[1] == "table":
        table(sys.argv[2], sys.argv[3] if len(sys.argv) == 4 else None)
    else:
        print(__doc__, file=sys.stderr)
        sys.exit(2)
