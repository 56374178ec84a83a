"""Builds the small program that reads and validates modules, in a folder of its own, and runs it."""

import os
import shutil
import struct
import subprocess
import tempfile

HERE = os.path.dirname(os.path.abspath(__file__))
ROOT = os.path.dirname(os.path.dirname(HERE))
CRATES = ("items", "wasm_types", "wasm_code", "wasm_reader", "wasm_writer", "wasm_validate", "wasm_accept")


def build(folder):
    """The program's path: that of WASM_BENCH, if it is set. Else it is built; what checks kept of the crates is
    copied, so that little is proved again."""
    if "WASM_BENCH" in os.environ:
        return os.environ["WASM_BENCH"]
    crates = os.path.join(folder, "crates")
    for name in CRATES:
        shutil.copytree(os.path.join(ROOT, "crates", name), os.path.join(crates, name))
    source = os.path.join(crates, "wasm_bench", "src")
    os.makedirs(source)
    shutil.copy(os.path.join(HERE, "program.txt"), os.path.join(source, "main.rt"))
    with open(os.path.join(folder, "crates.txt"), "w") as lines:
        lines.write("items:\nwasm_types: items\nwasm_code: wasm_types\nwasm_reader: wasm_types wasm_code\n")
        lines.write("wasm_writer: wasm_types wasm_code wasm_reader\n")
        lines.write("wasm_validate: wasm_types\n")
        lines.write("wasm_accept: wasm_types wasm_code wasm_reader wasm_validate\n")
        lines.write("wasm_bench: wasm_reader wasm_writer wasm_accept\n")
    subprocess.run(["git", "init", "-q", folder], check=True)
    subprocess.run(
        ["rt", "run", "--jobs", "1"], cwd=os.path.dirname(source), check=True, stdout=subprocess.DEVNULL
    )
    return os.path.join(crates, "wasm_bench", "out", "wasm_bench")


def packed(modules):
    return b"".join(struct.pack("<I", len(m)) + m for m in modules)


def written(output):
    """The modules that the program wrote, None for each that was not read."""
    modules, at = [], 0
    while at < len(output):
        (length,) = struct.unpack_from("<Q", output, at)
        modules.append(output[at + 8 : at + 8 + length] if length else None)
        at += 8 + length
    return modules


def folder():
    return tempfile.TemporaryDirectory(prefix="wasm_bench_")


def unsigned(n):
    out = bytearray()
    while True:
        byte, n = n & 0x7F, n >> 7
        if n == 0:
            out.append(byte)
            return bytes(out)
        out.append(byte | 0x80)


def section(number, content):
    return bytes([number]) + unsigned(len(content)) + content


def vector(items):
    return unsigned(len(items)) + b"".join(items)
