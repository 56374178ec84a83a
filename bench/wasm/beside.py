"""Some thousands of random bodies: validation accepts those that wasm-validate of wabt accepts, and no others."""

import os
import random
import subprocess
import sys

from common import build, folder, packed, section, unsigned, vector

COUNT = int(sys.argv[1]) if len(sys.argv) > 1 else 3000
SEED = int(sys.argv[2]) if len(sys.argv) > 2 else 1
FEATURES = ("multi-value", "bulk-memory", "reference-types", "simd", "sign-extension", "saturating-float-to-int")
OFF = [f"--disable-{name}" for name in FEATURES]

RESULTS = (b"\x40", b"\x7F", b"\x7E")
PLAIN = (
    b"\x00", b"\x01", b"\x0F", b"\x1A", b"\x1A", b"\x1B", b"\x10\x00", b"\x10\x01", b"\x11\x01\x00", b"\x20\x00",
    b"\x20\x01", b"\x21\x00", b"\x21\x01", b"\x22\x00", b"\x22\x01", b"\x23\x00", b"\x23\x01", b"\x24\x00", b"\x24\x01",
    b"\x28\x02\x00", b"\x29\x03\x00", b"\x36\x02\x00", b"\x37\x04\x00", b"\x3F\x00", b"\x40\x00", b"\x41\x00",
    b"\x41\x00", b"\x41\x00", b"\x42\x00", b"\x42\x00", b"\x45", b"\x46", b"\x50", b"\x51", b"\x67", b"\x6A", b"\x79",
    b"\x7C", b"\xA7", b"\xAC",
)


def branch(rng, depth):
    label = bytes([rng.randrange(depth + 1 + (rng.randrange(20) == 0))])
    kind = rng.randrange(3)
    if kind == 2:
        return b"\x0E\x01" + label + bytes([rng.randrange(depth + 1)])
    return (b"\x0C", b"\x0D")[kind] + label


def sequence(rng, depth, budget):
    out = b""
    for _ in range(rng.randrange(budget + 1)):
        kind = rng.randrange(12)
        if kind == 0 and depth < 4:
            out += rng.choice((b"\x02", b"\x03")) + rng.choice(RESULTS) + sequence(rng, depth + 1, budget // 2) + b"\x0B"
        elif kind == 1 and depth < 4:
            out += b"\x41\x01" * rng.randrange(2) + b"\x04" + rng.choice(RESULTS) + sequence(rng, depth + 1, budget // 2)
            if rng.randrange(2):
                out += b"\x05" + sequence(rng, depth + 1, budget // 2)
            out += b"\x0B"
        elif kind in (2, 3):
            out += branch(rng, depth)
        else:
            out += rng.choice(PLAIN)
    return out


def case(rng):
    kinds = [b"\x60" + vector([b"\x7F", b"\x7E"]) + vector(rng.choice(([], [b"\x7F"], [b"\x7E"])))]
    kinds.append(b"\x60" + vector([]) + vector([]))
    code = b"\x00" + sequence(rng, 0, rng.choice((3, 6, 10))) + b"\x0B"
    return (
        b"\x00asm\x01\x00\x00\x00"
        + section(1, vector(kinds))
        + section(3, vector([b"\x00", b"\x01"]))
        + section(4, vector([b"\x70\x00\x01"]))
        + section(5, vector([b"\x00\x01"]))
        + section(6, vector([b"\x7F\x00\x41\x00\x0B", b"\x7E\x01\x42\x00\x0B"]))
        + section(10, vector([unsigned(len(code)) + code, b"\x02\x00\x0B"]))
    )


def main():
    rng = random.Random(SEED)
    cases = [case(rng) for _ in range(COUNT)]
    good = 0
    with folder() as work:
        program = build(work)
        path, one = os.path.join(work, "cases"), os.path.join(work, "one.wasm")
        open(path, "wb").write(packed(cases))
        lines = subprocess.run([program, path], capture_output=True, text=True, check=True).stdout.splitlines()
        assert len(lines) == COUNT, len(lines)
        for data, line in zip(cases, lines):
            assert " ok " in line, (line, data.hex())
            open(one, "wb").write(data)
            theirs = subprocess.run(["wasm-validate", *OFF, one], capture_output=True).returncode == 0
            assert line.endswith(" valid") == theirs, (line, theirs, data.hex())
            good += theirs
    print(f"{COUNT} modules, {good} of them valid: all as wasm-validate says")


if __name__ == "__main__":
    main()
