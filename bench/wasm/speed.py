"""Prints how long reading a module of some 13 MB, reading with validating it, and writing it takes, the first two beside wasm-validate of wabt, as a ratio, and the memory."""

import multiprocessing
import os
import shutil
import subprocess
import time

from common import build, folder, packed, section, unsigned, vector, written

FUNCTIONS = 50_000
RUNS = 5


def body(index):
    """Plain code: sums, loads and stores, a loop and a branch; it validates."""
    step = (
        b"\x20\x00\x41" + bytes([index % 60]) + b"\x6A\x21\x02"  # local 2 = parameter 0 + a constant
        b"\x20\x02\x41\x03\x74\x20\x01\x73\x21\x02"  # shifted, xor parameter 1
        b"\x20\x00\x20\x02\x36\x02\x10"  # i32.store at an offset
        b"\x20\x00\x28\x02\x08\x20\x02\x6B\x21\x03"  # i32.load, less local 2
    )
    loop = b"\x03\x40\x20\x03\x41\x01\x6A\x22\x03\x41\xE4\x00\x49\x0D\x00\x0B"
    code = step * 7 + loop + b"\x20\x03\x0B"
    inside = vector([b"\x02\x7F"]) + code
    return unsigned(len(inside)) + inside


def module():
    kind = b"\x60" + vector([b"\x7F", b"\x7F"]) + vector([b"\x7F"])
    return (
        b"\x00asm\x01\x00\x00\x00"
        + section(1, vector([kind]))
        + section(3, vector([b"\x00"] * FUNCTIONS))
        + section(5, vector([b"\x00\x01"]))
        + section(10, vector([body(i) for i in range(FUNCTIONS)]))
    )


def best_of(run):
    return min(run() for _ in range(RUNS))


def make(plain, many):
    data = module()
    print(f"module: {len(data)} bytes, {FUNCTIONS} functions", flush=True)
    with open(plain, "wb") as file:
        file.write(data)
    with open(many, "wb") as file:
        file.write(packed([data]))


def main():
    with folder() as work:
        program = build(work)
        plain, many = os.path.join(work, "module.wasm"), os.path.join(work, "modules")
        # In a process of its own, since a child's greatest memory begins with that of the process that starts it.
        maker = multiprocessing.Process(target=make, args=(plain, many))
        maker.start()
        maker.join()
        assert maker.exitcode == 0
        most = 0

        def ours():
            nonlocal most
            child = subprocess.Popen([program, many], stdout=subprocess.PIPE, text=True)
            line = child.stdout.read().split()
            most = max(most, os.wait4(child.pid, 0)[2].ru_maxrss)
            assert line[1] == "ok" and line[3] == "valid", line
            return int(line[0]) / 1e9, int(line[2]) / 1e9

        def writing():
            run = subprocess.run([program, "write", many], capture_output=True, check=True)
            time_taken, is_same = run.stderr.decode().split()
            with open(plain, "rb") as file:
                assert is_same == "true" and written(run.stdout) == [file.read()]
            return int(time_taken) / 1e9

        runs = [ours() for _ in range(RUNS)]
        reading, both = min(run[0] for run in runs), min(run[1] for run in runs)
        print(f"reading: {reading:.3f} s")
        print(f"reading and validating: {both:.3f} s")
        print(f"writing: {best_of(writing):.3f} s")
        print(f"memory: {most / 1024:.0f} MB")
        validate = shutil.which("wasm-validate")
        if validate is None:
            print("wasm-validate isn't installed")
            return

        def theirs():
            start = time.perf_counter()
            subprocess.run([validate, plain], check=True)
            return time.perf_counter() - start

        beside = best_of(theirs)
        print(f"wasm-validate: {beside:.3f} s")
        print(f"ratio of reading: {reading / beside:.2f}; of both: {both / beside:.2f}")


main()
