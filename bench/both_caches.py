#!/usr/bin/env python3
"""Random runs over the plain and the indexed cache, whose journals are compared by the program `both_caches`.

    bench/both_caches.py                 20,000 runs from the seed 1
    bench/both_caches.py 1000 7          so many runs from this seed

Each run has up to four guests of up to twelve calls over two keys, three surrogate keys, few variants and ages at the
edge of stale, and their turns in a random order. It ends with a status other than 0 where two journals differ.
"""
import os
import random
import subprocess
import sys

TOP = os.path.dirname(os.path.dirname(os.path.abspath(__file__)))
CRATE = os.path.join(TOP, "crates", "both_caches")
PIECES = ["61", "6263", "646566", ""]


def heads(rng):
    words = [f"h={name}:{rng.choice(['31', '32'])}" for name in ("a", "b") if rng.random() < 0.6]
    return "".join(" " + word for word in words)


def terms(rng):
    words = [f"max={rng.choice([0, 2, 5, 9])}"]
    if rng.random() < 0.2:
        words.append(f"age={rng.choice([1, 4])}")
    if rng.random() < 0.5:
        words.append(f"swr={rng.choice([1, 3, 30])}")
    if rng.random() < 0.6:
        words.append("sur=" + ",".join(rng.sample(["71", "72", "73"], rng.randint(1, 2))))
    return " ".join(words)


def writing(rng):
    words = [terms(rng)]
    if rng.random() < 0.5:
        words.append("vary=" + rng.choice(["a", "b", "a,b"]))
    if rng.random() < 0.3:
        words.append(f"len={rng.randint(0, 5)}")
    return " ".join(words)


def name(rng, place):
    """An earlier line of the guest mostly, else any number."""
    if place > 1 and rng.random() < 0.9:
        return f"@{rng.randint(1, place - 1)}"
    return f"#{rng.randint(0, 30)}"


def line(rng, place):
    key = rng.choice(["6b", "6b", "6c"])
    return rng.choice(
        [
            lambda: f"lookup {key}{heads(rng)}",
            lambda: f"txlookup {key}{heads(rng)}",
            lambda: f"txlookup {key}{heads(rng)}",
            lambda: f"insert {key} {writing(rng)}{heads(rng)}",
            lambda: f"txinsert {name(rng, place)} {writing(rng)}",
            lambda: f"txinsert {name(rng, place)} {writing(rng)}",
            lambda: f"txupdate {name(rng, place)} {terms(rng)}",
            lambda: f"txcancel {name(rng, place)}",
            lambda: f"close {name(rng, place)}",
            lambda: f"write {name(rng, place)} {rng.choice(PIECES) or '-'}",
            lambda: f"write {name(rng, place)} {rng.choice(PIECES) or '-'}",
            lambda: f"finish {name(rng, place)}",
            lambda: f"abandon {name(rng, place)}",
            lambda: f"read {name(rng, place)} {rng.randint(0, 6)} {rng.randint(1, 5)}",
            lambda: f"read {name(rng, place)} {rng.randint(0, 6)} {rng.randint(1, 5)}",
            lambda: f"purge {rng.choice(['71', '72', '73'])} {rng.choice(['soft', 'soft', 'hard'])}",
        ]
    )()


def run(rng):
    lines = ["edge-run 1"]
    turns = []
    for guest in range(1, rng.randint(1, 4) + 1):
        count = rng.randint(1, 12)
        lines.append("guest")
        lines += [line(rng, place) for place in range(1, count + 1)]
        turns += [guest] * (count + rng.randint(0, 4))
    rng.shuffle(turns)
    moment = 0
    lines.append("steps")
    for guest in turns:
        moment += rng.choice([0, 0, 1, 2])
        lines.append(f"{moment} {guest}")
    return "run\n" + "\n".join(lines + ["end"]) + "\n"


def main():
    words = [int(word) for word in sys.argv[1:]]
    count = words[0] if words else 20_000
    rng = random.Random(words[1] if len(words) > 1 else 1)
    subprocess.run(["rt", "run"], cwd=CRATE, stdin=subprocess.DEVNULL, stdout=subprocess.DEVNULL)
    text = "".join(run(rng) for _ in range(count)).encode("ascii")
    done = subprocess.run([os.path.join(CRATE, "out", "both_caches")], input=text)
    sys.exit(done.returncode)


if __name__ == "__main__":
    main()
