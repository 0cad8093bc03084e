#!/usr/bin/env python3
"""An independent reader of reconcile's scripts, written from docs/ alone.

Reads a script from standard input or the named file and prints what reconcile must print."""
import sys

import frame_reader

NUMBER_BITS = {"u16": 16, "u32": 32, "size": 64}


class NotUnderstood(Exception):
    pass


class Refused(Exception):
    def __init__(self, number, *places):
        super().__init__(number, *places)
        self.text = "refused " + " ".join(str(x) for x in (number, *places))


def number(word, kind):
    if not word or any(c not in "0123456789" for c in word):
        raise NotUnderstood
    value = int(word)
    if value >= 2 ** NUMBER_BITS[kind]:
        raise NotUnderstood
    return value


def run(word):
    return [] if word == "-" else [number(part, "u16") for part in word.split(",")]


def digits(word):
    if word == "-":
        return []
    if not word or any(c not in "0123456789" for c in word):
        raise NotUnderstood
    return [int(c) for c in word]


def hexadecimal(word):
    if word == "-":
        return b""
    if not word or len(word) % 2 or any(c not in "0123456789abcdef" for c in word):
        raise NotUnderstood
    return bytes.fromhex(word)


def spell(bits):
    return "".join(str(b) for b in bits) or "-"


def admit(n, m, positions, ends):
    """The checks as lists of positions, or the refusal that is due."""
    if not (2 <= n <= 2048 and 1 <= m <= 1024 and m < n and len(positions) <= 8192 and len(ends) == m):
        raise Refused(1, 0)
    begins = [0] + ends[:-1]
    for k, (begin, end) in enumerate(zip(begins, ends)):
        if end < begin or end == begin or end - begin > 32 or (k == m - 1 and end != len(positions)):
            raise Refused(2, k)
    for begin, end in zip(begins, ends):
        for j in range(begin, end):
            if positions[j] >= n or (j > begin and positions[j] <= positions[j - 1]):
                raise Refused(3, j)
    checks = [positions[b:e] for b, e in zip(begins, ends)]
    held = [0] * n
    for check in checks:
        for p in check:
            held[p] += 1
    for i in range(n):
        if not 1 <= held[i] <= 16:
            raise Refused(4, i)
    return checks


def syndrome(matrix, key, room):
    n, checks = matrix
    for i in range(max(n, len(key))):
        if i >= n or i >= len(key) or key[i] > 1:
            raise Refused(9, i)
    if room < len(checks):
        raise Refused(12, len(checks))
    return [sum(key[p] for p in check) % 2 for check in checks]


OFFSET_RAW = [37, 31, 28, 25, 24, 22, 21, 20, 19, 18, 17, 16]


def held(value, least, most):
    return min(max(value, least), most)


class OffsetRule:
    known = 800
    raw = OFFSET_RAW

    def magnitude(self, others):
        return max(min(others, default=800) - 4, 0)


class TableRule:
    def __init__(self, f2a, a2f, raw):
        self.f2a, self.a2f, self.raw, self.known = f2a, a2f, raw, len(f2a)

    def magnitude(self, others):
        if 0 in others:
            return 0
        total = sum(self.f2a[x - 1] for x in others)
        return self.known if total == 0 else self.a2f[min(total, len(self.a2f)) - 1]


def admit_tables(f2a, a2f, raw):
    if not (1 <= len(f2a) <= 4095 and 1 <= len(a2f) <= 4095 and len(raw) == 12):
        raise Refused(5, 0)
    for table, (run_, most) in enumerate([(f2a, len(a2f)), (a2f, len(f2a))]):
        for j, entry in enumerate(run_):
            if entry > most or (j > 0 and entry > run_[j - 1]):
                raise Refused(6, table, j + 1)
    for j, entry in enumerate(raw):
        if not 1 <= entry <= len(f2a):
            raise Refused(6, 2, j + 1)
    return TableRule(f2a, a2f, raw)


class Question:
    def __init__(self, matrix, difference, states, q):
        self.n, self.checks = matrix
        self.difference = [min(d, 1) for d in difference[: len(self.checks)]]
        self.states = states[: self.n]
        self.q = held(q, 1, 12)

    def fits(self, pattern):
        return all(sum(pattern[p] for p in c) % 2 == d for c, d in zip(self.checks, self.difference)) and all(
            s not in "01" or pattern[i] == int(s) for i, s in enumerate(self.states)
        )


class Propagation:
    def __init__(self, rule, limit):
        self.rule, self.limit = rule, held(limit, 1, 64)

    def need(self, n, checks):
        return n + sum(len(c) for c in checks)

    def answer(self, question):
        rule, known = self.rule, self.rule.known
        prior = [{"r": rule.raw[question.q - 1], "p": 0, "0": known, "1": -known}[s] for s in question.states]
        totals = list(prior)
        sent = [[0] * len(c) for c in question.checks]
        for _ in range(self.limit):
            fresh = []
            for check, last, bit in zip(question.checks, sent, question.difference):
                received = [held(totals[p] - last[j], -known, known) for j, p in enumerate(check)]
                row = []
                for j in range(len(check)):
                    others = received[:j] + received[j + 1 :]
                    size = rule.magnitude([abs(x) for x in others])
                    odd = (sum(x < 0 for x in others) + bit) % 2
                    row.append(-size if odd else size)
                fresh.append(row)
            sent = fresh
            totals = list(prior)
            for check, row in zip(question.checks, sent):
                for p, belief in zip(check, row):
                    totals[p] += belief
            pattern = [int(t < 0) for t in totals]
            if question.fits(pattern):
                break
        return pattern, [abs(t) for t in totals]


class Flipping:
    def __init__(self, limit):
        self.limit = held(limit, 1, 2048)

    def need(self, n, checks):
        return n + len(checks)

    def answer(self, question):
        pattern = [1 if s == "1" else 0 for s in question.states]
        free = [i for i, s in enumerate(question.states) if s not in "01"]
        holds = [[] for _ in range(question.n)]
        for k, check in enumerate(question.checks):
            for p in check:
                holds[p].append(k)

        def unmet():
            return [sum(pattern[p] for p in c) % 2 != d for c, d in zip(question.checks, question.difference)]

        bad = unmet()
        for _ in range(self.limit):
            if question.fits(pattern) or not free:
                break
            counts = [sum(bad[k] for k in holds[i]) for i in range(question.n)]
            best = min(free, key=lambda i: (-counts[i], i))
            if counts[best] == 0:
                break
            pattern[best] ^= 1
            bad = unmet()
        confidence = [16 + sum(1 if not bad[k] else -1 for k in holds[i]) for i in range(question.n)]
        return pattern, confidence


class Pile:
    def __init__(self, first, second):
        self.first, self.second = first, second

    def need(self, n, checks):
        return max(self.first.need(n, checks), self.second.need(n, checks))

    def answer(self, question):
        guess = self.first.answer(question)
        return guess if question.fits(guess[0]) else self.second.answer(question)


def decode(decoder, matrix, difference, states, q, pattern, confidence, work):
    n, checks = matrix
    if len(difference) < len(checks) or len(states) < n or min(pattern, confidence) < n or work < decoder.need(n, checks):
        raise Refused(20, 0)
    return decoder.answer(Question(matrix, difference, states, q))


def letters(word):
    if word == "-":
        return ""
    if not word or any(c not in "rp01" for c in word):
        raise NotUnderstood
    return word


class Desk:
    def __init__(self):
        self.matrices = {}
        self.table_rule = None
        self.kinds = [("offset", 64)]

    def kept_matrix(self, word):
        name = number(word, "u32")
        if name not in self.matrices:
            raise NotUnderstood
        return self.matrices[name]

    def tables(self, f2a, a2f, raw):
        f2a, a2f, raw = run(f2a), run(a2f), run(raw)
        self.table_rule = admit_tables(f2a, a2f, raw)
        return f"tables {len(f2a)} {len(a2f)}"

    def decoder(self, *words):
        if len(words) not in (2, 4, 6):
            raise NotUnderstood
        kinds = [(kind, number(limit, "size")) for kind, limit in zip(words[::2], words[1::2])]
        if any(kind not in ("offset", "table", "flipping") for kind, _ in kinds):
            raise NotUnderstood
        if any(kind == "table" for kind, _ in kinds) and self.table_rule is None:
            raise NotUnderstood
        self.kinds = kinds
        return " ".join(("decoder", *words))

    def present_decoder(self):
        made = [
            Flipping(limit) if kind == "flipping" else Propagation(OffsetRule() if kind == "offset" else self.table_rule, limit)
            for kind, limit in self.kinds
        ]
        decoder = made.pop()
        while made:
            decoder = Pile(made.pop(), decoder)
        return decoder

    def decode(self, name, difference, states, q, pattern, confidence, work):
        matrix_word, difference, states = name, digits(difference), letters(states)
        q, *sizes = (number(word, "size") for word in (q, pattern, confidence, work))
        answer = decode(self.present_decoder(), self.kept_matrix(matrix_word), difference, states, q, *sizes)
        return f"pattern {spell(answer[0])}\nconfidence {' '.join(map(str, answer[1]))}"

    def matrix(self, id_word, n, m, positions, ends):
        name, n, m = number(id_word, "u32"), number(n, "size"), number(m, "size")
        positions, ends = run(positions), run(ends)
        self.matrices[name] = (n, admit(n, m, positions, ends))
        return f"matrix {name}: {n} positions, {m} checks, {len(positions)} entries"

    def syndrome(self, id_word, key, room):
        key, room = digits(key), number(room, "size")
        return "syndrome " + spell(syndrome(self.kept_matrix(id_word), key, room))

    def frame(self, n, m, data):
        return frame_reader.read(number(n, "size"), number(m, "size"), hexadecimal(data))

    # each command's words, None for a count of its own
    COMMANDS = {
        "matrix": (matrix, 5),
        "syndrome": (syndrome, 3),
        "frame": (frame, 3),
        "tables": (tables, 3),
        "decoder": (decoder, None),
        "decode": (decode, 7),
    }

    def reply(self, line):
        words = line.split(" ")
        command, count = self.COMMANDS.get(words[0], (None, 0))
        if command is None or count not in (None, len(words) - 1):
            raise NotUnderstood
        try:
            return command(self, *words[1:])
        except Refused as refused:
            return f"{words[0]} {refused.text}"


def replies(data):
    desk = Desk()
    lines = data.split(b"\n")
    if lines[-1] == b"":
        lines.pop()
    for count, line in enumerate(lines, 1):
        if line.strip(b" ") == b"" or line.startswith(b"#"):
            continue
        try:
            yield desk.reply(line.decode("utf-8"))
        except (NotUnderstood, UnicodeDecodeError):
            yield f"line {count} not understood"


def main():
    data = open(sys.argv[1], "rb").read() if len(sys.argv) > 1 else sys.stdin.buffer.read()
    for text in replies(data):
        print(text)


if __name__ == "__main__":
    main()
