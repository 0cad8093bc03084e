#!/usr/bin/env python3
"""A second reader of frames, and a source of damaged ones.

The reader goes through the bytes once, from the left, and stops at the first
byte that no frame can have there. It shares nothing with the crate `frames`
but the format (docs/frames.md), so that the two can be held against each other.

    frame_reader.py script COUNT [SEED]   write COUNT script lines `frame N M HEX`
    frame_reader.py expect < SCRIPT       write the line that each must print
    frame_reader.py test                  try the worked frames and the generator
"""

import random
import sys


class Fault(Exception):
    """The place of the first byte at fault."""

    def __init__(self, place):
        super().__init__(place)
        self.place = place


class Source:
    """Bytes taken one after the other."""

    def __init__(self, data):
        self.data = data
        self.place = 0

    def byte(self, allowed=None):
        """The next byte; a missing one, or one not allowed, is at fault."""
        if self.place == len(self.data):
            raise Fault(self.place)
        value = self.data[self.place]
        if allowed is not None and value not in allowed:
            raise Fault(self.place)
        self.place += 1
        return value

    def number(self, length):
        value = 0
        for _ in range(length):
            value = value << 8 | self.byte()
        return value

    def run(self, width):
        """So many bits, highest first; the bits left over in the last byte are 0."""
        digits = ""
        while len(digits) < width:
            digits += format(self.byte(), "08b")
            if "1" in digits[width:]:
                raise Fault(self.place - 1)
        return digits[:width]

    def end(self):
        if self.place < len(self.data):
            raise Fault(self.place)


def take(n, m, data):
    """The words of the frame's line, or a Fault."""
    source = Source(data)
    kind = source.byte({1, 2})
    side = source.byte({0, 1})
    block = source.number(4)
    round_place = source.place
    number = source.number(2)
    if (kind == 1) != (number == 0):
        raise Fault(round_place)
    if kind == 1:
        bits = source.run(m)
        source.end()
        return f"syndrome side {side} block {block} round 0 bits {bits or '-'}"
    named = source.run(n)
    values = source.run(named.count("1"))
    source.end()
    return f"disclosure side {side} block {block} round {number} map {named or '-'} values {values or '-'}"


def read(n, m, data):
    """The line that the program prints for these bytes."""
    if not (2 <= n <= 2048 and 1 <= m <= 1024 and m < n):
        return "frame refused 1 0"
    try:
        return "frame " + take(n, m, data)
    except Fault as fault:
        return f"frame refused 13 {fault.place}"


# The other direction: frames to damage.


def packed(bits):
    filled = bits + "0" * (-len(bits) % 8)
    return bytes(int(filled[i : i + 8], 2) for i in range(0, len(filled), 8))


def head(kind, side, block, number):
    return bytes([kind, side]) + block.to_bytes(4, "big") + number.to_bytes(2, "big")


def random_bits(rng, count, ones=0.5):
    return "".join("1" if rng.random() < ones else "0" for _ in range(count))


def sound_frame(rng, n, m):
    side = rng.randrange(2)
    block = rng.choice([0, 7, 2**32 - 1, rng.randrange(2**32)])
    if rng.random() < 0.5:
        return head(1, side, block, 0) + packed(random_bits(rng, m))
    number = rng.choice([1, 255, 256, 65535, rng.randrange(1, 2**16)])
    named = random_bits(rng, n, rng.choice([0, 0.1, 0.5, 1]))
    return head(2, side, block, number) + packed(named) + packed(random_bits(rng, named.count("1")))


def sizes(rng):
    """Mostly small matrices, some at the limits, a few that no matrix has."""
    chance = rng.random()
    if chance < 0.03:
        return rng.choice([(0, 0), (1, 1), (2, 0), (2, 2), (6, 6), (3, 4), (2049, 3), (2048, 1025), (5000, 2000)])
    if chance < 0.08:
        n = rng.choice([2, 2041, 2047, 2048, rng.randrange(2, 2049)])
        return n, rng.randrange(1, min(n, 1025))
    n = rng.randrange(2, 41)
    return n, rng.randrange(1, n)


def cases(rng):
    """Sizes and bytes without end: sound frames, and each with its damages."""
    while True:
        n, m = sizes(rng)
        data = sound_frame(rng, max(n, 1), max(m, 1))
        yield n, m, data
        small = len(data) <= 24
        for length in range(len(data)) if small else rng.sample(range(len(data)), 12):
            yield n, m, data[:length]
        places = range(8 * len(data)) if small else rng.sample(range(8 * len(data)), 40)
        for place in places:
            turned = bytearray(data)
            turned[place // 8] ^= 0x80 >> place % 8
            yield n, m, bytes(turned)
        for length in range(1, 4):
            yield n, m, data + bytes(rng.randrange(256) for _ in range(length))
        yield n, m, data + b"\0"
        # several bytes changed, other sizes, and bytes that were never a frame
        for _ in range(6):
            turned = bytearray(data)
            for _ in range(rng.randrange(1, 4)):
                turned[rng.randrange(len(turned))] = rng.choice([0, 1, 2, 255, rng.randrange(256)])
            yield n, m, bytes(turned)
        yield *sizes(rng), data
        for _ in range(4):
            front = head(rng.choice([1, 2]), rng.randrange(2), 7, rng.randrange(3))[: rng.randrange(9)]
            yield n, m, front + bytes(rng.randrange(256) for _ in range(rng.randrange(12)))
        yield n, m, b""


def line(n, m, data):
    return f"frame {n} {m} {data.hex() or '-'}"


def expected(text):
    """The answer to one line of a script that `script` wrote."""
    _, n, m, digits = text.split(" ")
    return read(int(n), int(m), b"" if digits == "-" else bytes.fromhex(digits))


def test():
    worked = {
        "frame 6 3 010000000007000040": "frame syndrome side 0 block 7 round 0 bits 010",
        "frame 6 3 010000000007000041": "frame refused 13 8",
        "frame 6 3 02000000000700011080": "frame disclosure side 0 block 7 round 1 map 000100 values 1",
        "frame 6 3 02000000000700010000": "frame refused 13 9",
        "frame 6 3 020000000007000100": "frame disclosure side 0 block 7 round 1 map 000000 values -",
        "frame 6 3 010000000007000140": "frame refused 13 6",
        "frame 6 3 020000000007000000": "frame refused 13 6",
        "frame 6 3 02000000000700": "frame refused 13 7",
        "frame 6 3 090000": "frame refused 13 0",
        "frame 6 3 0102": "frame refused 13 1",
        "frame 6 3 -": "frame refused 13 0",
        "frame 6 6 010000000007000040": "frame refused 1 0",
    }
    for text, answer in worked.items():
        assert expected(text) == answer, (text, expected(text))
    rng = random.Random(1)
    source = cases(rng)
    seen = {}
    for _ in range(20000):
        n, m, data = next(source)
        answer = expected(line(n, m, data))
        assert answer == read(n, m, data)
        word = " ".join(answer.split(" ")[1:3]) if "refused" in answer else answer.split(" ")[1]
        seen[word] = seen.get(word, 0) + 1
    for _ in range(2000):
        n = rng.randrange(2, 60)
        m = rng.randrange(1, n)
        assert "refused" not in read(n, m, sound_frame(rng, n, m))
    print(seen)


def main(words):
    if words[:1] == ["script"] and len(words) in (2, 3):
        source = cases(random.Random(int(words[2]) if len(words) == 3 else 0))
        for _ in range(int(words[1])):
            print(line(*next(source)))
    elif words == ["expect"]:
        for text in sys.stdin:
            print(expected(text.rstrip("\n")))
    elif words == ["test"]:
        test()
    else:
        sys.exit(__doc__)


if __name__ == "__main__":
    main(sys.argv[1:])
