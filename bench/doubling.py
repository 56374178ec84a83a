#!/usr/bin/env python3
"""What twice as many entries cost `edge script`, for several mixes of calls. It prints, and never judges.

    bench/doubling.py                       every mix, at 10,000 to 160,000 entries
    bench/doubling.py 20000 40000 reads     these numbers of entries, and the mixes that are named

A line tells seconds, how many times those of the line before it, and the peak of memory by the entry.

lookups: lookups of one object.
variants: an object for each of many variants of one key, each looked up.
keys: an object for each of many keys, each looked up.
transactions: a transactional lookup, its insertion and its finish, of ever new keys.
open: transactional lookups of ever new keys, all left open.
updates: one object that is renewed again and again.
reads: writes and reads of one body.
purges: objects of many surrogate keys, each purged.
guests: guests that begin, look up and end.
"""
import os
import subprocess
import sys
import tempfile
import time

TOP = os.path.dirname(os.path.dirname(os.path.abspath(__file__)))
EDGE = os.path.join(TOP, "edge")


def one_guest(lines):
    """A run of one guest with these lines, and a step for each of its entries."""
    steps = [f"{step} 1" for step in range(len(lines) + 2)]
    return ["edge-run 1", "guest", *lines, "steps", *steps, "end"]


def lookups(n):
    return one_guest(["insert 6b max=1000000000", "finish @1"] + ["lookup 6b"] * n)


def variants(n):
    half = n // 2
    heads = [f"h=a:{i:08x}" for i in range(half)]
    made = [f"insert 6b max=1000000000 vary=a {head}" for head in heads]
    return one_guest(made + [f"lookup 6b {head}" for head in heads])


def keys(n):
    half = n // 2
    return one_guest([f"insert {i:08x} max=1000000000" for i in range(half)] + [f"lookup {i:08x}" for i in range(half)])


def transactions(n):
    lines = []
    for i in range(n // 3):
        lines += [f"txlookup {i:08x}", f"txinsert @{3 * i + 1} max=10", f"finish @{3 * i + 2}"]
    return one_guest(lines)


def left_open(n):
    return one_guest([f"txlookup {i:08x}" for i in range(n)])


def updates(n):
    lines = ["insert 6b max=0 swr=1000000000000", "finish @1"]
    for i in range(n // 2):
        lines += ["txlookup 6b", f"txupdate @{2 * i + 3} max=0 swr=1000000000000"]
    return one_guest(lines)


def reads(n):
    lines = ["insert 6b max=1000000000", "lookup 6b"]
    for i in range(n // 2):
        lines += ["write @1 6162636465666768", f"read @2 {8 * i} 8"]
    return one_guest(lines)


def purges(n):
    half = n // 2
    return one_guest([f"insert {i:08x} max=1000000000 sur={i:08x}" for i in range(half)] + [f"purge {i:08x} soft" for i in range(half)])


def guests(n):
    """At most 1,000 guests are in a file, so each looks up many times."""
    each = max(1, n // 1000)
    count = n // each
    lines = ["edge-run 1"]
    for _ in range(count):
        lines += ["guest"] + ["lookup 6b"] * (each - 2)
    lines.append("steps")
    for turn in range(each):
        lines += [f"{turn} {guest + 1}" for guest in range(count)]
    return lines + ["end"]


MIXES = {
    "lookups": lookups,
    "variants": variants,
    "keys": keys,
    "transactions": transactions,
    "open": left_open,
    "updates": updates,
    "reads": reads,
    "purges": purges,
    "guests": guests,
}


def measure(name, entries, folder):
    """Seconds and peak memory of a run, and the last line of its journal."""
    path = os.path.join(folder, "a.run")
    with open(path, "w", encoding="ascii") as file:
        file.write("\n".join(MIXES[name](entries)) + "\n")
    with open(os.path.join(folder, "a.journal"), "wb") as out:
        begin = time.monotonic()
        child = subprocess.Popen([EDGE, "script", path], stdout=out)
        _, status, usage = os.wait4(child.pid, 0)
        seconds = time.monotonic() - begin
    child.returncode = os.waitstatus_to_exitcode(status)
    with open(out.name, "rb") as file:
        file.seek(-min(40, os.path.getsize(out.name)), os.SEEK_END)
        last = (file.read().splitlines() or [b""])[-1].decode("ascii", "replace")
    return seconds, usage.ru_maxrss * 1024, last


def main():
    sizes = [int(word) for word in sys.argv[1:] if word.isdigit()] or [10_000, 20_000, 40_000, 80_000, 160_000]
    names = [word for word in sys.argv[1:] if not word.isdigit()] or list(MIXES)
    unknown = [name for name in names if name not in MIXES]
    if unknown:
        sys.exit(f"unknown: {' '.join(unknown)}; known: {' '.join(MIXES)}")
    # Builds where that is needed, so that no build is measured.
    subprocess.run([EDGE, "script", os.path.join(TOP, "examples", "empty.run")], stdout=subprocess.DEVNULL, check=True)
    with tempfile.TemporaryDirectory() as folder:
        for name in names:
            before = None
            for entries in sizes:
                seconds, peak, last = measure(name, entries, folder)
                times = f"{seconds / before:5.2f} times" if before else " " * 11
                print(f"{name:>13} {entries:>9,}: {seconds:8.2f} s {times} {peak / entries:8,.0f} bytes an entry, '{last}'", flush=True)
                before = seconds


if __name__ == "__main__":
    main()
