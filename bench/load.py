#!/usr/bin/env python3
"""Compares the line of `edge load NUMBER` with one that a model of its own makes, for several numbers.

    bench/load.py            the numbers 0 to 9, and the greatest
    bench/load.py 7 8        these

The model is written from docs/FORMATS.md and docs/MODEL.md: the generator's words, the guests of a load and the few calls
that they make. It ends with a status other than 0 where a line differs.
"""
import os
import subprocess
import sys
import time

TOP = os.path.dirname(os.path.dirname(os.path.abspath(__file__)))
EDGE = os.path.join(TOP, "edge")
GUESTS, ROUNDS, STEPS = 500, 4, 50_000
ALL = 0xFFFFFFFF


def quarter(x, a, b, c, d):
    for one, two, three, turn in ((a, b, d, 16), (c, d, b, 12), (a, b, d, 8), (c, d, b, 7)):
        x[one] = (x[one] + x[two]) & ALL
        x[three] ^= x[one]
        x[three] = ((x[three] << turn) | (x[three] >> (32 - turn))) & ALL


def words(number):
    """The words of ChaCha with eight rounds, from the number's eight little-endian bytes and 24 zero bytes, stream 0."""
    start = [0x61707865, 0x3320646E, 0x79622D32, 0x6B206574, number & ALL, number >> 32, 0, 0, 0, 0, 0, 0]
    for block in range(1 << 64):
        first = start + [block & ALL, block >> 32, 0, 0]
        x = list(first)
        for _ in range(4):
            for column in range(4):
                quarter(x, column, column + 4, column + 8, column + 12)
            for column in range(4):
                quarter(x, column, 4 + (column + 1) % 4, 8 + (column + 2) % 4, 12 + (column + 3) % 4)
        yield from ((one + two) & ALL for one, two in zip(x, first))


class Cache:
    """What a cache of one thread knows of the calls of a load, and what it tells."""

    def __init__(self):
        self.entries = self.gots = self.bytes = self.moment = 0
        self.newest, self.held, self.objects = {}, {}, {}

    def entry(self):
        self.entries += 1
        return self.entries

    def look(self, guest, key):
        """The entry and the object found, or None where the guest has to wait."""
        made = self.newest.get(key)
        made = None if made is None or made["abandoned"] else made
        fresh = made is not None and self.moment - made["moment"] < made["max"]
        if not fresh and key in self.held:
            return None
        self.gots += 1
        number = self.entry()
        if not fresh:
            self.held[key] = (number, guest)
        return {"number": number, "object": made, "key": key, "open": not fresh}

    def insert(self, guest, lookup, most):
        number = self.entry()
        if self.held.get(lookup["key"]) != (lookup["number"], guest):
            return None
        del self.held[lookup["key"]]
        made = {"moment": self.moment, "max": most, "guest": guest, "len": 0, "finished": False, "abandoned": False}
        self.newest[lookup["key"]] = self.objects[number] = made
        return made

    def read(self, made):
        """Whether there is an answer."""
        if made is not None and not made["len"] and not made["finished"] and not made["abandoned"]:
            return False
        self.entry()
        self.bytes += min(64, made["len"]) if made is not None else 0
        return True

    def end(self, guest):
        self.entry()
        self.held = {key: tx for key, tx in self.held.items() if tx[1] != guest}
        for made in self.objects.values():
            if made["guest"] == guest and not made["finished"]:
                made["abandoned"] = True


def turn(cache, guest, rounds):
    """One try of the guest's next call; `guest` has its name, its place, and what this round found and made."""
    if guest["over"]:
        return
    if not guest["name"]:
        guest["name"] = cache.entry()
        return
    if guest["place"] == 5 * ROUNDS:
        cache.end(guest["name"])
        guest["over"] = True
        return
    word, line = rounds[guest["place"] // 5], guest["place"] % 5
    if line == 0:
        guest["lookup"] = cache.look(guest["name"], word % 64)
        if guest["lookup"] is None:
            return
    elif line == 1:
        guest["made"] = cache.insert(guest["name"], guest["lookup"], 1 + 1000 * (word // 64 % 4096))
    elif line in (2, 3):
        cache.entry()
        if guest["made"] is not None and line == 2:
            guest["made"]["len"] += 64
        elif guest["made"] is not None:
            guest["made"]["finished"] = True
    elif not cache.read(guest["lookup"]["object"]):
        return
    guest["place"] += 1


def model(number):
    stream = words(number)
    rounds = [[next(stream) for _ in range(ROUNDS)] for _ in range(GUESTS)]
    guests = [{"name": 0, "place": 0, "over": False} for _ in range(GUESTS)]
    cache = Cache()
    for step in range(1, STEPS + 1):
        player = next(stream) % GUESTS
        cache.moment = 1000 * step
        turn(cache, guests[player], rounds[player])
    for guest in guests:
        if guest["name"] and not guest["over"]:
            cache.end(guest["name"])
    return f"load {number} steps {STEPS} entries {cache.entries} got {cache.gots} bytes {cache.bytes}\n"


def main():
    numbers = [int(word) for word in sys.argv[1:]] or [*range(10), (1 << 64) - 1]
    differ = 0
    for number in numbers:
        begin = time.monotonic()
        done = subprocess.run([EDGE, "load", str(number)], stdout=subprocess.PIPE, check=False)
        seconds = time.monotonic() - begin
        wanted, told = model(number), done.stdout.decode("ascii", "replace")
        differ += told != wanted
        print(f"{seconds:6.2f} s {told.rstrip()}" + ("" if told == wanted else f": the model says {wanted.rstrip()}"), flush=True)
    sys.exit(1 if differ else 0)


if __name__ == "__main__":
    main()
