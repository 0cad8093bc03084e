#!/usr/bin/env python3
"""Decodes random errors on the published matrices of 1,944 positions under every decoder and piles of them, and
compares what reconcile prints with the independent reader.

usage: published.py PROGRAM [ROUNDS [SEED]]"""
import math
import random
import sys

import fuzz
import make_script

N = 24 * make_script.BLOCK
DECODERS = ["offset 64", "table 64", "flipping 60", "offset 5 flipping 30", "flipping 20 table 8 offset 12"]


def tables_line():
    """Tables of -ln tanh(x/2): beliefs in eighths, sums in steps of 1/500."""
    phi = lambda x: -math.log(math.tanh(x / 2))
    f2a = [round(500 * phi(i / 8)) for i in range(1, 81)]
    a2f = [min(80, round(8 * phi(i / 500))) for i in range(1, f2a[0] + 1)]
    raw = [round(8 * math.log((100 - q) / q)) for q in range(1, 13)]
    return "tables " + " ".join(",".join(map(str, run)) for run in (f2a, a2f, raw))


def decode_line(rng, rate, checks, q):
    error = [int(rng.random() < q / 100) for _ in range(N)]
    difference = "".join(str(sum(error[p] for p in check) % 2) for check in checks)
    states = "".join(rng.choices(["r", "p", str(bit)], [90, 3, 7])[0] for bit in error)
    return f"decode {rate} {difference} {states} {q} {N} {N} 16384"


def script(rng, rounds):
    yield tables_line()
    for rate, most in ((12, 12), (34, 5), (56, 3)):
        checks = make_script.published_checks(rate)
        yield make_script.matrix_line(rate, N, checks)
        for _ in range(rounds):
            for decoder in DECODERS:
                yield "decoder " + decoder
                yield decode_line(rng, rate, checks, rng.randint(1, most))


def main():
    rng = random.Random(int(sys.argv[3]) if len(sys.argv) > 3 else 1)
    text = "\n".join(script(rng, int(sys.argv[2]) if len(sys.argv) > 2 else 1)) + "\n"
    due = fuzz.compare(sys.argv[1], text.encode())
    print(f"published: {sum(line.startswith(b'pattern') for line in due)} answers, the same bytes")


if __name__ == "__main__":
    main()
