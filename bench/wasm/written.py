"""Some thousands of mutated modules and random bodies: those that are read are written, in no more bytes, and read again as the same; wasm2wat of wabt makes the same text of both."""

import os
import random
import shutil
import subprocess
import sys

import beside
import mutated
from common import ROOT, build, folder, packed, written

COUNT = int(sys.argv[1]) if len(sys.argv) > 1 else 3000
SEED = int(sys.argv[2]) if len(sys.argv) > 2 else 1


def text(path, data):
    """What wasm2wat makes of a module, without looking at types and names; None where it refuses, as it does where an
    element or data segment names another table or memory than 0: later versions put flags in that place."""
    open(path, "wb").write(data)
    run = subprocess.run(["wasm2wat", "--no-check", "--no-debug-names", path], capture_output=True)
    return run.stdout if run.returncode == 0 else None


def main():
    rng = random.Random(SEED)
    cases = [mutated.SMALL, mutated.LARGE]
    with open(os.path.join(ROOT, "examples", "guests", "hello.wasm"), "rb") as guest:
        cases.append(guest.read())
    must = len(cases)
    for _ in range(COUNT):
        cases.append(mutated.case(rng))
        cases.append(beside.case(rng))
    shorter = same = compared = 0
    with folder() as work:
        program = build(work)
        path, one = os.path.join(work, "cases"), os.path.join(work, "one.wasm")
        open(path, "wb").write(packed(cases))
        run = subprocess.run([program, "write", path], capture_output=True, check=True)
        results = written(run.stdout)
        told = run.stderr.decode().splitlines()
        assert len(results) == len(cases), (len(results), len(cases))
        good = [(data, result) for data, result in zip(cases, results) if result is not None]
        assert None not in results[:must] and len(told) == len(good), (len(told), len(good))
        for (data, result), line in zip(good, told):
            assert line.endswith(" true") and len(result) <= len(data), (line, data.hex(), result.hex())
            shorter += len(result) < len(data)
            same += result == data
            if shutil.which("wasm2wat"):
                wanted = text(one, data)
                assert text(one, result) == wanted, (data.hex(), result.hex())
                compared += wanted is not None
    print(f"{len(good)} of {len(cases)} modules were read; written, {same} have the same bytes, {shorter} fewer")
    print(f"{compared} compared by their text")


if __name__ == "__main__":
    main()
