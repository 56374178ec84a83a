#!/usr/bin/env python3
"""Processor time of reading a journal and writing it again, at 50,000 and 100,000 entries, and the ratio. It prints, and
judges only that what is written is what was read.

    bench/journal.py              50,000 and 100,000 entries
    bench/journal.py 1000 2000    these many
"""
import os
import resource
import subprocess
import sys
import tempfile

TOP = os.path.dirname(os.path.dirname(os.path.abspath(__file__)))
CRATE = os.path.join(TOP, "crates", "journal_copy")
ROUNDS = 9


def journal(entries):
    """Guests of eight entries each: Begin, six calls, End. Their turns alternate."""
    guests = entries // 8
    lines = ["edge-journal 1"]
    calls = [
        ("begin", "begun"),
        ("insert 6b max=1000000 sur=7331,7332 meta=6d h=accept:2a", "made"),
        ("write {insert} 68656c6c6f2c20776f726c64", "done"),
        ("finish {insert}", "done"),
        ("lookup 6b h=accept:2a", "got 3 {insert} 0 1000000 0 12 6d"),
        ("read {lookup} 0 65536", "bytes 68656c6c6f2c20776f726c64"),
        ("read {lookup} 12 1", "ended"),
        ("end", "done"),
    ]
    for turn, (call, reply) in enumerate(calls):
        for guest in range(guests):
            names = {"insert": guests + guest + 1, "lookup": 4 * guests + guest + 1}
            number = turn * guests + guest + 1
            lines.append(f"{number} {guest + 1} {number} {call} = {reply}".format(**names))
    for guest in range(guests):
        lines.append(f"guest {guest + 1} {guest + 1}")
        lines += [f"c {turn * guests + guest + 1}" for turn in range(8)]
        lines.append("over returned")
    lines.append(f"end {guests * 8}")
    return ("\n".join(lines) + "\n").encode("ascii")


def spent():
    """The processor time of the programs that ended, in seconds."""
    usage = resource.getrusage(resource.RUSAGE_CHILDREN)
    return usage.ru_utime + usage.ru_stime


def seconds(program, path, text):
    """The least of some rounds."""
    best = float("inf")
    for _ in range(ROUNDS):
        with open(path, "rb") as file:
            begin = spent()
            done = subprocess.run([program], stdin=file, capture_output=True, check=True)
            best = min(best, spent() - begin)
        if done.stdout != text:
            sys.exit("what was written isn't what was read")
    return best


def program():
    """Builds the program where that is needed."""
    subprocess.run(["rt", "run"], cwd=CRATE, stdin=subprocess.DEVNULL, capture_output=True, check=False)
    path = os.path.join(CRATE, "out", "journal_copy")
    if not os.path.exists(path):
        sys.exit(f"no program at {path}")
    return path


def main():
    sizes = [int(word) for word in sys.argv[1:]] or [50_000, 100_000]
    run = program()
    before = None
    with tempfile.TemporaryDirectory() as folder:
        for size in sizes:
            text = journal(size)
            path = os.path.join(folder, "journal")
            with open(path, "wb") as file:
                file.write(text)
            taken = seconds(run, path, text)
            ratio = f", {taken / before:.2f} times the one before" if before else ""
            print(f"{size:>9,} entries, {len(text):>12,} bytes: {taken:7.3f} s{ratio}", flush=True)
            before = taken


if __name__ == "__main__":
    main()
