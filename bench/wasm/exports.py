"""Prints how long `edge check` takes, and its memory, on a module of 16,777,203 bytes with 2,701,068 exports, each of its own name, and on the same where the last name is the first. `python3 exports.py [SECONDS]`: each may take so many seconds, or 60."""

import itertools
import multiprocessing
import os
import random
import subprocess
import sys
import time

from common import ROOT, folder, section, unsigned, vector

SECONDS = int(sys.argv[1]) if len(sys.argv) > 1 else 60
MOST = 16_777_216
EDGE = os.path.join(ROOT, "edge")
HEAD = (
    b"\x00asm\x01\x00\x00\x00"
    + section(1, vector([b"\x60\x00\x00"]))
    + section(3, vector([b"\x00"]))
)
CODE = section(10, vector([b"\x02\x00\x0B"]))
START = b"_start"


def names():
    """`_start`, which the host asks for, and the shortest texts of ASCII, shuffled."""
    room = MOST - len(HEAD) - len(CODE) - 16 - (3 + len(START))
    found = []
    for length in itertools.count():
        some = min(128 ** length, room // (3 + length))
        found += itertools.islice(map(bytes, itertools.product(range(128), repeat=length)), some)
        room -= some * (3 + length)
        if some < 128 ** length:
            break
    random.Random(1).shuffle(found)
    return [START] + found


def module(all_names):
    exports = unsigned(len(all_names)) + b"".join(unsigned(len(name)) + name + b"\x00\x00" for name in all_names)
    data = HEAD + section(7, exports) + CODE
    assert len(data) <= MOST, len(data)
    return data


def make(distinct_path, repeated_path):
    distinct = names()
    print(f"{len(distinct)} exports")
    for path, all_names in ((distinct_path, distinct), (repeated_path, distinct[:-1] + distinct[:1])):
        with open(path, "wb") as out:
            out.write(module(all_names))


def check(path):
    start = time.perf_counter()
    command = ["timeout", str(SECONDS), EDGE, "check", path]
    child = subprocess.Popen(command, stdout=subprocess.PIPE, stderr=subprocess.STDOUT, text=True)
    told = child.stdout.read().strip()
    _, status, usage = os.wait4(child.pid, 0)
    seconds = time.perf_counter() - start
    child.returncode = os.waitstatus_to_exitcode(status)
    if child.returncode == 124:
        told = "no answer"
    processor = usage.ru_utime + usage.ru_stime
    return f"{seconds:.1f} s, {processor:.1f} s of them on a processor, {usage.ru_maxrss / 1024:.0f} MB: {told}"


def main():
    subprocess.run([EDGE], stdout=subprocess.DEVNULL, stderr=subprocess.DEVNULL)  # builds it where needed
    with folder() as work:
        paths = [os.path.join(work, name) for name in ("distinct.wasm", "repeated.wasm")]
        # In a process of its own, since a child's greatest memory begins with that of the process that starts it.
        maker = multiprocessing.Process(target=make, args=paths)
        maker.start()
        maker.join()
        assert maker.exitcode == 0
        for path in paths:
            print(f"{os.path.basename(path)}, {os.path.getsize(path)} bytes: {check(path)}")


main()
