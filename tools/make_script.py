#!/usr/bin/env python3
"""Writes the script that ships with the program: the six-position matrix, each refusal, and a published matrix."""
import pathlib

ROOT = pathlib.Path(__file__).resolve().parent.parent
BLOCK = 81


def published_checks(rate):
    """The checks of a matrix of 1,944 positions, from its table of shifts; the rate is 12, 34 or 56."""
    text = (ROOT / f"data/ieee80211n-1944-rate{rate}.txt").read_text()
    rows = [line.split() for line in text.splitlines() if line and not line.startswith("#")]
    return [
        sorted(c * BLOCK + (i + int(s)) % BLOCK for c, s in enumerate(row) if s != "-")
        for row in rows
        for i in range(BLOCK)
    ]


def matrix_line(name, n, checks):
    ends, total = [], 0
    for check in checks:
        total += len(check)
        ends.append(total)
    positions = ",".join(str(p) for check in checks for p in check)
    return f"matrix {name} {n} {len(checks)} {positions} {','.join(map(str, ends))}"


def numbers(count):
    return ",".join(map(str, range(count)))


def script():
    six = "0,1,3,1,2,4,0,2,5"
    yield "# The matrix on six positions with checks {0,1,3}, {1,2,4}, {0,2,5}, and Alice's key."
    yield f"matrix 1 6 3 {six} 3,6,9"
    yield "syndrome 1 101100 3"
    yield "syndrome 1 101100 99"
    yield ""
    yield "# 1: a size or the count of ends is wrong."
    yield "matrix 2 1 1 0 1"
    yield f"matrix 2 2049 3 {six} 3,6,9"
    yield f"matrix 2 6 0 {six} -"
    yield f"matrix 2 6 6 {six} 3,6,9"
    yield f"matrix 2 6 4 {six} 3,6,9"
    yield f"matrix 2 2048 1025 {six} 3,6,9"
    yield f"matrix 2 6 1 {','.join(['0'] * 8193)} 8193"
    yield "# 2: a check's end."
    yield f"matrix 2 6 3 {six} 3,2,9"
    yield f"matrix 2 6 3 {six} 3,3,9"
    yield f"matrix 2 6 3 {six} 3,6,8"
    yield f"matrix 2 6 3 {six} 0,6,9"
    yield f"matrix 2 40 2 {numbers(33)},33,34 33,35"
    yield f"matrix 2 32 1 {numbers(32)} 32"
    yield "# 3: an entry."
    yield "matrix 2 6 3 0,1,6,1,2,4,0,2,5 3,6,9"
    yield "matrix 2 6 3 0,1,3,1,1,4,0,2,5 3,6,9"
    yield "matrix 2 6 3 0,1,3,1,2,4,0,5,2 3,6,9"
    yield "# 4: a position in no check, or in over 16."
    yield "matrix 2 7 3 0,1,3,1,2,4,0,2,5 3,6,9"
    degree = 17
    yield f"matrix 2 18 17 {','.join(f'0,{i}' for i in range(1, 18))} {','.join(str(2 * k) for k in range(1, degree + 1))}"
    yield f"matrix 2 17 16 {','.join(f'0,{i}' for i in range(1, 17))} {','.join(str(2 * k) for k in range(1, degree))}"
    yield "# 9: a key's place; 12: the buffer."
    yield "syndrome 1 10110 3"
    yield "syndrome 1 1011000 3"
    yield "syndrome 1 102100 3"
    yield "syndrome 1 - 3"
    yield "syndrome 1 101100 2"
    yield "syndrome 1 10210 2"
    yield "# Frames: Alice's syndrome, a disclosure of position 3, a set bit among the unused ones, cut and extra bytes."
    yield "frame 6 3 010000000007000040"
    yield "frame 6 3 02000000000700011080"
    yield "frame 6 3 010000000007000041"
    yield "frame 6 3 0100000000070000"
    yield "frame 6 3 01000000000700004000"
    yield "frame 6 3 010000000007000140"
    yield "frame 6 3 03"
    yield "frame 6 3 0102"
    yield "frame 6 3 -"
    yield "frame 6 6 010000000007000040"
    yield "# Decoders: offset propagation by default, then at limits, flipping, tables, a pile."
    yield "decode 1 110 rrrrrr 5 6 6 15"
    yield "decoder offset 1"
    yield "decode 1 100 rrrrrr 5 6 6 15"
    yield "decoder offset 2"
    yield "decode 1 100 rrrrrr 5 6 6 15"
    yield "decode 1 100 rrrrrr 5 6 6 14"
    yield "decode 1 10 rrrrrr 5 6 6 15"
    yield "decoder table 8"
    yield "tables 5,3,2,1,1 4,3,1,0,0 5,5,4,4,4,3,3,3,2,2,2,1"
    yield "tables 5,3,2,1,2 4,3,1,0,0 5,5,4,4,4,3,3,3,2,2,2,1"
    yield "tables 5,3,2,1,1 6,3,1,0,0 5,5,4,4,4,3,3,3,2,2,2,1"
    yield "tables 5,3,2,1,1 4,3,1,0,0 5,5,4,4,4,3,3,3,2,2,2,0"
    yield "tables - 4,3,1,0,0 5,5,4,4,4,3,3,3,2,2,2,1"
    yield "decoder flipping 2"
    yield "decode 1 100 rrrrrr 5 6 6 9"
    yield "decode 1 100 r1pr0r 5 9 9 9"
    yield "decoder table 8 flipping 4 offset 64"
    yield "decode 1 101 rrprr1 12 6 6 100"
    yield "decoder belief 3"
    yield "# Lines that are not understood."
    yield "syndrome 9 101100 3"
    yield "syndrome 1 10x100 3"
    yield "syndrome 1  101100 3"
    yield "matrix 4294967296 6 3 0 1"
    yield "matrix 1 6 3 0,65536 1"
    yield "matrix 1 6 3 0,,1 2"
    yield "matrix 1 +6 3 0 1"
    yield "hello"
    yield " syndrome 1 101100 3"
    yield ""
    yield "# The rate 1/2 matrix of 1,944 positions of IEEE 802.11n, with a key of period 7."
    n = 24 * BLOCK
    yield matrix_line(1944, n, published_checks(12))
    yield f"syndrome 1944 {''.join('1' if i * i % 7 == 2 else '0' for i in range(n))} 972"
    yield "decoder offset 64 flipping 100"
    yield f"decode 1944 {''.join('1' if i * i % 11 == 3 and i < 300 else '0' for i in range(972))} {'r' * n} 5 {n} {n} 16384"


if __name__ == "__main__":
    print("\n".join(script()))
