#!/usr/bin/env python3
"""Time and peak memory of `edge script` on run files that it makes. It prints, and never judges.

    bench/script.py            all run files
    bench/script.py 1000 big   those that are named: 1000, 2000, 4000, big

1000, 2000, 4000: so many entries of mixed calls, eight for each guest, whose turns alternate.
big: a file of 16 MB with 1,000,000 steps, of guests that are over after the first few.
"""
import os
import subprocess
import sys
import tempfile
import time

TOP = os.path.dirname(os.path.dirname(os.path.abspath(__file__)))
EDGE = os.path.join(TOP, "edge")


def mixed(entries):
    """Guests of eight entries each: Begin, six lines, End. They share sixteen keys."""
    guests = entries // 8
    lines = ["edge-run 1"]
    for guest in range(guests):
        body = f"{guest:08x}" * 16
        lines += [
            "guest",
            f"insert {guest % 16:02x} max=1000000",
            f"write @1 {body}",
            "finish @1",
            f"lookup {(guest * 7) % 16:02x}",
            "read @1 0 65536",
            f"read @1 {len(body) // 2} 1",
        ]
    lines.append("steps")
    for turn in range(8):
        lines += [f"{turn * 1000 + guest} {guest + 1}" for guest in range(guests)]
    return lines + ["end"]


def big():
    """One guest is over after eight steps, and another after two; all later steps do nothing."""
    lines = ["edge-run 1", "guest", "insert 6b max=10", "write @1 6869", "finish @1", "lookup 6b", "read @4 0 10"]
    lines += ["read @4 2 10", "guest", "steps"]
    return lines + [f"{10 ** 12 + step} {1 + step % 2}" for step in range(1_000_000)] + ["end"]


FILES = {"1000": lambda: mixed(1000), "2000": lambda: mixed(2000), "4000": lambda: mixed(4000), "big": big}


def measure(name, folder):
    path = os.path.join(folder, name + ".run")
    with open(path, "w", encoding="ascii") as file:
        file.write("\n".join(FILES[name]()) + "\n")
    with open(os.path.join(folder, name + ".journal"), "wb") as out:
        begin = time.monotonic()
        child = subprocess.Popen([EDGE, "script", path], stdout=out)
        _, status, usage = os.wait4(child.pid, 0)
        seconds = time.monotonic() - begin
    child.returncode = os.waitstatus_to_exitcode(status)
    with open(out.name, "rb") as file:
        last = (file.read().splitlines() or [b""])[-1].decode("ascii", "replace")
    print(
        f"{name:>6}: {os.path.getsize(path):>10,} bytes in, {os.path.getsize(out.name):>10,} bytes out, "
        f"{seconds:8.2f} s, {usage.ru_maxrss / 1024:8.1f} MiB, status {child.returncode}, last line '{last}'",
        flush=True,
    )


def main():
    names = sys.argv[1:] or list(FILES)
    unknown = [name for name in names if name not in FILES]
    if unknown:
        sys.exit(f"unknown: {' '.join(unknown)}; known: {' '.join(FILES)}")
    # Builds where that is needed, so that no build is measured.
    subprocess.run([EDGE, "script", os.path.join(TOP, "examples", "empty.run")], stdout=subprocess.DEVNULL, check=True)
    with tempfile.TemporaryDirectory() as folder:
        for name in names:
            measure(name, folder)


if __name__ == "__main__":
    main()
