"""Prints the rows of src/tests.rt: a digest of what each operation gives at the edge values (0, each power of two, the
greatest signed and unsigned number), computed from section 4.3.2 of the WebAssembly Core Specification 1.0."""

MASK = 2**64 - 1


def signed(n, bits):
    return n - 2**bits if n >= 2 ** (bits - 1) else n


def trunc(x, y):
    q = abs(x) // abs(y)
    return q if (x < 0) == (y < 0) else -q


def div_s(a, b, bits):
    if b == 0:
        return "zero"
    q = trunc(signed(a, bits), signed(b, bits))
    return "overflow" if q == 2 ** (bits - 1) else q % 2**bits


def rem_s(a, b, bits):
    if b == 0:
        return "zero"
    x, y = signed(a, bits), signed(b, bits)
    return (x - y * trunc(x, y)) % 2**bits


def rotl(a, b, bits):
    text = format(a, f"0{bits}b")
    k = b % bits
    return int(text[k:] + text[:k], 2)


def shr_s(a, b, bits):
    text = format(a, f"0{bits}b")
    k = b % bits
    return int(text[0] * k + text[: bits - k], 2)


BINARY = {
    "Add": lambda a, b, n: (a + b) % 2**n,
    "Sub": lambda a, b, n: (a - b) % 2**n,
    "Mul": lambda a, b, n: (a * b) % 2**n,
    "DivS": div_s,
    "DivU": lambda a, b, n: "zero" if b == 0 else a // b,
    "RemS": rem_s,
    "RemU": lambda a, b, n: "zero" if b == 0 else a % b,
    "And": lambda a, b, n: a & b,
    "Or": lambda a, b, n: a | b,
    "Xor": lambda a, b, n: a ^ b,
    "Shl": lambda a, b, n: (a << b % n) % 2**n,
    "ShrS": shr_s,
    "ShrU": lambda a, b, n: a >> b % n,
    "Rotl": rotl,
    "Rotr": lambda a, b, n: rotl(a, n - b % n, n),
}
COMPARE = {
    "Eq": lambda a, b, n: a == b,
    "Ne": lambda a, b, n: a != b,
    "LtS": lambda a, b, n: signed(a, n) < signed(b, n),
    "LtU": lambda a, b, n: a < b,
    "GtS": lambda a, b, n: signed(a, n) > signed(b, n),
    "GtU": lambda a, b, n: a > b,
    "LeS": lambda a, b, n: signed(a, n) <= signed(b, n),
    "LeU": lambda a, b, n: a <= b,
    "GeS": lambda a, b, n: signed(a, n) >= signed(b, n),
    "GeU": lambda a, b, n: a >= b,
}
UNARY = {
    "Clz": lambda a, n: len(format(a, f"0{n}b").split("1")[0]),
    "Ctz": lambda a, n: len(format(a, f"0{n}b").split("1")[-1]),
    "Popcnt": lambda a, n: format(a, f"0{n}b").count("1"),
}
CONVERT = {
    "WrapI64": (64, lambda a: a % 2**32),
    "ExtendI32S": (32, lambda a: signed(a, 32) % 2**64),
    "ExtendI32U": (32, lambda a: a),
}


def edges(bits):
    return [0] + [2**k for k in range(bits)] + [2 ** (bits - 1) - 1, 2**bits - 1]


def digest(answers):
    total = 0
    for answer in answers:
        n = {"zero": 1, "overflow": 2}.get(answer) if isinstance(answer, str) else int(answer) + 3
        total = (total * 0x100000001B3 + n) & MASK
    return total


def rows(name, kind, table, bits, call):
    print(f"const {name}: [({kind}, u64); {len(table)}] = [")
    for op, f in table.items():
        print(f"    ({kind}::{op}, 0x{digest(call(f, bits)):016x}),")
    print("];\n")


def pairs(f, bits):
    return (f(a, b, bits) for a in edges(bits) for b in edges(bits))


def singles(f, bits):
    return (f(a, bits) for a in edges(bits))


for bits in 32, 64:
    rows(f"BINARY_{bits}", "Binary", BINARY, bits, pairs)
    rows(f"COMPARE_{bits}", "Compare", COMPARE, bits, pairs)
    rows(f"UNARY_{bits}", "Unary", UNARY, bits, singles)
rows("CONVERT", "Convert", CONVERT, 0, lambda f, _: (f[1](a) for a in edges(f[0])))
