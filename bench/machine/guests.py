#!/usr/bin/env python3
"""Prints what guests cost: the time of one guest more of small modules, and the time and peak memory of modules of 13 MB and of
nearly 16 MiB, read, validated, prepared and with one guest. Each time is that of the process, user and system, the least of
five runs. It judges nothing.

    guests.py PROGRAM        PROGRAM is what bench/machine/run builds of bench/machine/guests
"""
import os
import subprocess
import sys

GUESTS = 50_000


def unsigned(n):
    out = b""
    while n >= 128:
        out += bytes([n % 128 + 128])
        n //= 128
    return out + bytes([n])


def signed(n):
    out = b""
    while n >= 64:
        out += bytes([n % 128 + 128])
        n //= 128
    return out + bytes([n])


def section(kind, content):
    return bytes([kind]) + unsigned(len(content)) + content


ADD = b"\x20\x00\x41\x01\x6a\x21\x00"
NOP = b"\x01"


def module(functions, body, pages=1, entries=0, data=0, imports=b""):
    """Functions of one local with this body, a memory, a table whose entries all name the first one, and bytes of data. With an
    import of a global the program ends where it has accepted the module."""
    body = b"\x01\x01\x7f" + body + b"\x0b"
    out = b"\0asm\x01\0\0\0" + section(1, b"\x01\x60\x00\x00") + imports
    out += section(3, unsigned(functions) + b"\0" * functions)
    if entries:
        out += section(4, b"\x01\x70\x00" + unsigned(entries))
    out += section(5, b"\x01\x00" + unsigned(pages))
    if entries:
        out += section(9, b"\x01\x00\x41\x00\x0b" + unsigned(entries) + b"\0" * entries)
    out += section(10, unsigned(functions) + (unsigned(len(body)) + body) * functions)
    if data:
        out += section(11, b"\x01\x00\x41\x00\x0b" + unsigned(data) + b"x" * data)
    return out


GLOBAL = section(2, b"\x01\x01m\x01g\x03\x7f\x00")


def once(program, count, bytes, wanted):
    child = subprocess.Popen([program], stdin=subprocess.PIPE, stdout=subprocess.PIPE)
    child.stdin.write(b"%d\n" % count + bytes)
    child.stdin.close()
    told = child.stdout.read().strip()
    _, status, usage = os.wait4(child.pid, 0)
    if told != wanted or status != 0:
        sys.exit(f"the program told {told}, and ended with {status}")
    return usage.ru_utime + usage.ru_stime, usage.ru_maxrss * 1024


def run(program, count, bytes, wanted=None):
    """The least time in seconds, and the peak memory in bytes."""
    runs = [once(program, count, bytes, wanted or b"%d" % count) for _ in range(5)]
    return min(time for time, _ in runs), max(memory for _, memory in runs)


def more(program, name, bytes):
    few, many = run(program, 1, bytes)[0], run(program, GUESTS + 1, bytes)[0]
    print(f"a guest more of {name}: {(many - few) / GUESTS * 1e6:.1f} microseconds")


def large(program, name, functions, body, count):
    bytes = module(functions, body)
    accepted = run(program, 1, module(functions, body, imports=GLOBAL), b"imports otherwise")[0]
    seconds, memory = run(program, 1, bytes)
    print(f"{len(bytes):,} bytes, {functions * count:,} instructions, {name}: {accepted:.2f} s to read and to validate,", end=" ")
    print(f"{seconds - accepted:.2f} s more with one guest, {memory / 1e6:.0f} MB at most")


def main():
    program = os.path.abspath(sys.argv[1])
    more(program, "3 functions, 1 page", module(3, ADD * 10))
    more(program, "3 functions, 2 pages, 10,000 bytes of data", module(3, ADD * 10, 2, 0, 10_000))
    more(program, "the same with a table of 1,000 entries", module(3, ADD * 10, 2, 1_000, 10_000))
    large(program, "numbers added to a local", 190, ADD * 10_000, 40_000)
    large(program, "nothing but nop", 190, NOP * 70_000, 70_000)
    large(program, "nothing but nop", 239, NOP * 70_000, 70_000)
    more(program, "the module of additions", module(190, ADD * 10_000))
    root = os.path.join(os.path.dirname(os.path.abspath(__file__)), "..", "..")
    hello = "examples/guests/hello/hello.wasm"
    with open(os.path.join(root, hello), "rb") as file:
        more(program, hello, file.read())


main()
