"""Some thousands of modules whose sizes were changed, cut or gone past: what reading tells is compared, kind and place, with
a model that was written from the rules of docs/MODEL.md alone. It reads byte by byte at a place, with the stated ends of
the parts that are open, and has nothing of the program's form."""

import collections
import os
import random
import sys

from common import build, folder, section, unsigned, vector
from mutated import LARGE, SMALL, mutated, read

COUNT = int(sys.argv[1]) if len(sys.argv) > 1 else 20000
SEED = int(sys.argv[2]) if len(sys.argv) > 2 else 1

FLOATS = {0x2A, 0x2B, 0x38, 0x39, 0x43, 0x44, *range(0x5B, 0x67), *range(0x8B, 0xA7), *range(0xA8, 0xAC), *range(0xAE, 0xC0)}
BARE = {0x00, 0x01, 0x0F, 0x1A, 0x1B, *range(0x45, 0x5B), *range(0x67, 0x8B), 0xA7, 0xAC, 0xAD}
INDEXED = {0x0C, 0x0D, 0x10, 0x20, 0x21, 0x22, 0x23, 0x24}
MEMORY = {0x28, 0x29, *range(0x2C, 0x38), *range(0x3A, 0x3F)}


class Fault(Exception):
    pass


class Model:
    """Reads one module. `ends` are the parts that are open: the stated end of each, and whether it is a section."""

    def __init__(self, data):
        self.data = data
        self.at = 0
        self.ends = []

    def end(self):
        return min([len(self.data)] + [end for end, _ in self.ends])

    def pass_end(self):
        """The bytes end before the stated end of a section, or outside of all, or else a part ends."""
        place = self.end()
        cut = not self.ends or any(is_section and end > len(self.data) for end, is_section in self.ends)
        raise Fault("Truncated" if cut and place == len(self.data) else "SectionSize", place)

    def byte(self):
        if self.at >= self.end():
            self.pass_end()
        self.at += 1
        return self.data[self.at - 1]

    def several(self, count):
        if self.at + count > self.end():
            self.pass_end()
        self.at += count
        return self.data[self.at - count : self.at]

    def u32(self):
        start, value = self.at, 0
        for shift in range(0, 35, 7):
            byte = self.byte()
            if shift == 28 and byte > 15:
                raise Fault("BadLeb", start)
            value |= (byte & 127) << shift
            if byte < 128:
                return value

    def signed(self, bits):
        start, most = self.at, (bits - 1) // 7
        for index in range(most + 1):
            byte = self.byte()
            if index == most:
                spare = 7 - (bits - 7 * most)
                if byte >= 128 or byte >> (6 - spare) not in (0, (1 << (spare + 1)) - 1):
                    raise Fault("BadLeb", start)
            if byte < 128:
                return

    def count(self, most):
        start = self.at
        value = self.u32()
        if value > most:
            raise Fault("TooLarge", start)
        return value

    def one_of(self, *allowed):
        start, byte = self.at, self.byte()
        if byte not in allowed:
            raise Fault("BadForm", start)
        return byte

    def value_type(self, *others):
        start, byte = self.at, self.byte()
        if byte in (0x7C, 0x7D):
            raise Fault("FloatUsed", start)
        if byte not in (0x7E, 0x7F, *others):
            raise Fault("BadForm", start)

    def name(self):
        length = self.u32()
        start = self.at
        try:
            bytes(self.several(length)).decode()
        except UnicodeDecodeError:
            raise Fault("BadName", start)

    def part(self, is_section, content):
        size = self.u32()
        self.ends.append((self.at + size, is_section))
        content()
        if self.at < self.end():
            raise Fault("SectionSize", self.at)
        if self.at < self.ends[-1][0]:
            self.pass_end()
        self.ends.pop()

    def expression(self):
        may_part = []
        while True:
            start, code = self.at, self.byte()
            if code == 0x0B:
                if not may_part:
                    return
                may_part.pop()
            elif code in (0x02, 0x03, 0x04):
                if len(may_part) == 1024:
                    raise Fault("NestedTooDeep", start)
                self.value_type(0x40)
                may_part.append(code == 0x04)
            elif code == 0x05:
                if not may_part or not may_part[-1]:
                    raise Fault("BadForm", start)
                may_part[-1] = False
            elif code in INDEXED:
                self.u32()
            elif code == 0x0E:
                for _ in range(self.count(65536) + 1):
                    self.u32()
            elif code == 0x11:
                self.u32()
                self.one_of(0)
            elif code in MEMORY:
                self.u32()
                self.u32()
            elif code in (0x3F, 0x40):
                self.one_of(0)
            elif code == 0x41:
                self.signed(32)
            elif code == 0x42:
                self.signed(64)
            elif code not in BARE:
                raise Fault("FloatUsed" if code in FLOATS else "BadOpcode", start)

    def limits(self, least, most):
        stated = self.one_of(0, 1)
        self.count(least)
        if stated:
            self.count(most)

    def table(self):
        self.one_of(0x70)
        self.limits(65536, 2**32 - 1)

    def memory(self):
        self.limits(2048, 65536)

    def global_type(self):
        self.value_type()
        self.one_of(0, 1)

    def function_type(self):
        self.one_of(0x60)
        params = self.u32()
        for _ in range(params):
            self.value_type()
        for _ in range(self.count(1)):
            self.value_type()
        return params

    def imported(self):
        self.name()
        self.name()
        (self.u32, self.table, self.memory, self.global_type)[self.one_of(0, 1, 2, 3)]()

    def exported(self):
        self.name()
        self.one_of(0, 1, 2, 3)
        self.u32()

    def global_item(self):
        self.global_type()
        self.expression()

    def element(self):
        self.u32()
        self.expression()
        self.many(self.u32)

    def segment(self):
        self.u32()
        self.expression()
        self.several(self.u32())

    def body(self, params):
        used = params
        for _ in range(self.u32()):
            used += self.count(4096 - used)
            self.value_type()
        self.expression()

    def many(self, item, most=2**32 - 1):
        return [item() for _ in range(self.count(most))]

    def custom(self):
        self.name()
        self.at = self.end()

    def code(self, types, functions):
        def params(index):
            kind = functions[index] if index < len(functions) else len(types)
            return types[kind] if kind < len(types) else 0

        bodies = self.count(65536)
        for index in range(bodies):
            self.part(False, lambda: self.body(params(index)))
        return bodies

    def sections(self):
        found = {1: [], 3: [], 10: 0}
        contents = {
            1: lambda: self.many(self.function_type, 65536),
            2: lambda: self.many(self.imported),
            3: lambda: self.many(self.u32, 65536),
            4: lambda: self.many(self.table),
            5: lambda: self.many(self.memory),
            6: lambda: self.many(self.global_item, 4096),
            7: lambda: self.many(self.exported),
            8: self.u32,
            9: lambda: self.many(self.element),
            10: lambda: self.code(found[1], found[3]),
            11: lambda: self.many(self.segment),
        }
        last = 0
        while self.at < len(self.data):
            start, number = self.at, self.byte()
            if number == 0:
                self.part(True, self.custom)
            elif number <= last or number > 11:
                raise Fault("SectionOrder", start)
            else:
                last = number
                self.part(True, lambda: found.__setitem__(number, contents[number]()))
        if len(found[3]) != found[10]:
            raise Fault("CountMismatch", len(self.data))

    def told(self):
        try:
            for word, kind in ((b"\0asm", "BadMagic"), (b"\1\0\0\0", "BadVersion")):
                start = self.at
                if self.several(4) != word:
                    raise Fault(kind, start)
            self.sections()
        except Fault as fault:
            return fault.args
        return None


def near(rng, size):
    """A size, or one a little beside it."""
    return max(0, size + rng.choice((-3, -2, -1, -1, 0, 0, 0, 0, 1, 1, 2, 3)))


def sized(rng, content):
    return unsigned(near(rng, len(content))) + content


def resized(rng):
    """A small module whose sections and bodies state sizes near the right ones, now and then cut at its end."""
    count = rng.randint(1, 3)
    bodies = [rng.choice((b"\0\x0b", b"\0\1\x0b", b"\0\1", b"\1\1\x7f\x0b", b"\0\x41\0\x1a\x0b", b"\0\x0b\x0b")) for _ in range(count)]
    code = vector([sized(rng, body) for body in bodies])
    parts = [SMALL[:8], section(1, vector([b"\x60\0\0"])), section(3, vector([b"\0"] * count))]
    if rng.randrange(3) == 0:
        parts.append(b"\0" + sized(rng, rng.choice((b"\1a", b"\3abc", b"\2abc", b"\4abc"))))
    parts.append(b"\x0a" + sized(rng, code))
    if rng.randrange(3) == 0:
        parts.append(b"\x0b" + sized(rng, vector([b"\0\x41\0\x0b\2hi"])))
    if rng.randrange(3) == 0:
        parts.append(b"\0" + sized(rng, b"\1a"))
    whole = b"".join(parts)
    return whole if rng.randrange(2) else whole[: rng.randint(len(whole) - 8, len(whole))]


def main():
    rng = random.Random(SEED)
    cases = [resized(rng) if rng.randrange(4) else mutated(rng, rng.choice((SMALL, LARGE))) for _ in range(COUNT)]
    with folder() as work:
        told = read(build(work), os.path.join(work, "cases"), cases)
    for data, fault in zip(cases, told):
        wanted = Model(data).told()
        assert fault == wanted, (data.hex(), fault, wanted)
    kinds = collections.Counter(fault[0] if fault else "ok" for fault in told)
    for name, count in sorted(kinds.items()):
        print(f"{count:6} {name}")


if __name__ == "__main__":
    main()
