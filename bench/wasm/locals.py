"""The greatest memory of reading a module of half a megabyte whose 65,536 bodies have 4,096 locals each, 268,435,456 in all."""

import os
import resource
import subprocess

from common import build, folder, packed, section, unsigned, vector

COUNT = 65536
BODY = b"\1" + unsigned(4096) + b"\x7f\x0b"


def main():
    code = vector([unsigned(len(BODY)) + BODY] * COUNT)
    parts = (section(1, vector([b"\x60\0\0"])), section(3, vector([b"\0"] * COUNT)), section(10, code))
    module = b"\0asm\1\0\0\0" + b"".join(parts)
    with folder() as work:
        program = build(work)
        path = os.path.join(work, "module")
        open(path, "wb").write(packed([module]))
        before = resource.getrusage(resource.RUSAGE_CHILDREN).ru_maxrss if "WASM_BENCH" in os.environ else 0
        run = subprocess.run([program, path], capture_output=True, text=True, check=True)
    assert " ok " in run.stdout, run
    most = resource.getrusage(resource.RUSAGE_CHILDREN).ru_maxrss
    print(f"module of {len(module)} bytes: {most // 1024} MB")


if __name__ == "__main__":
    main()
