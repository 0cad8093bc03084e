#!/usr/bin/env python3
"""Runs random scripts, damaged ones included, through reconcile and the independent reader, and compares the bytes.

usage: fuzz.py PROGRAM [LINES [SEED]]"""
import random
import subprocess
import sys

import frame_reader
import reference


def random_checks(rng, n, m):
    return [sorted(rng.sample(range(n), rng.randint(1, min(n, 6)))) for _ in range(m)]


def matrix_words(rng):
    n = rng.choice([2, 3, 5, 6, 8, 12, 20])
    m = rng.randint(1, n - 1)
    checks = random_checks(rng, n, m)
    missing = [i for i in range(n) if not any(i in c for c in checks)]
    if rng.random() < 0.8:
        for i in missing:
            k = rng.randrange(m)
            checks[k] = sorted(set(checks[k] + [i]))
    positions = [p for c in checks for p in c]
    ends = [sum(len(c) for c in checks[: k + 1]) for k in range(m)]
    if rng.random() < 0.4:
        run = rng.choice([positions, ends])
        at = rng.randrange(len(run))
        run[at] = max(0, rng.choice([run[at] + 1, run[at] - 1, 0, n, 40, 65535]))
    if rng.random() < 0.1:
        n, m = rng.choice([(n, m + 1), (n + 1, m), (m, m), (0, 0), (2049, m)])
    spell = lambda run: ",".join(map(str, run)) or "-"
    return ["matrix", str(rng.randint(1, 4)), str(n), str(m), spell(positions), spell(ends)]


def syndrome_words(rng):
    length = rng.choice([2, 3, 5, 6, 8, 12, 20])
    key = "".join(rng.choice("0101010101012") for _ in range(length))
    return ["syndrome", str(rng.randint(1, 5)), key or "-", str(rng.choice([0, 1, 3, 8, 20, 1024, 2**40]))]


def frame_maker(rng):
    frames = frame_reader.cases(rng)
    return lambda _: frame_reader.line(*next(frames)).split(" ")


def tables_words(rng):
    mf, ma = rng.randint(1, 12), rng.randint(1, 12)
    falling = lambda count, most: sorted((rng.randint(0, most) for _ in range(count)), reverse=True)
    f2a, a2f, raw = falling(mf, ma), falling(ma, mf), [rng.randint(1, mf) for _ in range(12)]
    if rng.random() < 0.2:
        run = rng.choice([f2a, a2f, raw])
        run[rng.randrange(len(run))] += rng.choice([1, 5, 20])
    if rng.random() < 0.05:
        rng.choice([f2a, a2f, raw]).pop()
    spell = lambda run: ",".join(map(str, run)) or "-"
    return ["tables", spell(f2a), spell(a2f), spell(raw)]


def decoder_words(rng):
    pairs = [(rng.choice(["offset", "table", "flipping"]), rng.choice([0, 1, 2, 3, 8, 64, 65, 3000, 2**33])) for _ in range(rng.randint(1, 3))]
    return ["decoder"] + [str(word) for pair in pairs for word in pair]


def decode_words(rng):
    n = rng.choice([2, 3, 5, 6, 8, 12, 20])
    bits = "".join(rng.choice("0001") for _ in range(rng.choice([n, n, n, 3]))) or "-"
    states = "".join(rng.choice("rrrrrrp01") for _ in range(rng.choice([n, n, n, n + 1])))
    sizes = [rng.choice([20, 2048, 20, 3]) for _ in range(2)] + [rng.choice([200, 16384, 10**12, 30])]
    return ["decode", str(rng.randint(1, 5)), bits, states, str(rng.choice([0, 1, 5, 12, 13, 300]))] + [str(x) for x in sizes]


def damaged(rng, line):
    data = bytearray(line)
    for _ in range(rng.randint(1, 3)):
        kind = rng.randrange(4)
        at = rng.randrange(len(data) + 1)
        if kind == 0:
            data[at:at] = bytes([rng.randrange(256)])
        elif kind == 1 and at < len(data):
            del data[at]
        elif kind == 2 and at < len(data):
            data[at] = rng.choice(b" ,-0123456789abc#\r\t\xff")
        elif at < len(data):
            data[at] ^= 1 << rng.randrange(8)
    return bytes(data)


def script(rng, count):
    makers = [matrix_words, syndrome_words, frame_maker(rng), tables_words, decoder_words, decode_words, decode_words]
    lines = []
    for _ in range(count):
        line = " ".join(rng.choice(makers)(rng)).encode()
        if rng.random() < 0.25:
            line = damaged(rng, line)
        elif rng.random() < 0.02:
            line = rng.choice([b"", b"   ", b"# a comment", bytes(rng.randrange(256) for _ in range(rng.randrange(30)))])
        lines.append(line)
    return b"\n".join(lines) + rng.choice([b"", b"\n"])


def compare(program, text):
    """Runs the script, and ends with status 1 unless the program prints what the independent reader does."""
    run = subprocess.run([program], input=text, stdout=subprocess.PIPE, check=False)
    wanted = "".join(line + "\n" for line in reference.replies(text)).encode()
    got, due = run.stdout.splitlines(), wanted.splitlines()
    if run.returncode != 0 or run.stdout != wanted:
        first = next((i for i, (a, b) in enumerate(zip(got, due)) if a != b), min(len(got), len(due)))
        print(f"status {run.returncode}, line {first} of the output differs", got[first : first + 1], due[first : first + 1])
        sys.exit(1)
    return due


def main():
    program = sys.argv[1]
    count = int(sys.argv[2]) if len(sys.argv) > 2 else 5000
    rng = random.Random(int(sys.argv[3]) if len(sys.argv) > 3 else 1)
    print(f"fuzz: {count} lines, {len(compare(program, script(rng, count)))} replies, the same bytes")


if __name__ == "__main__":
    main()
