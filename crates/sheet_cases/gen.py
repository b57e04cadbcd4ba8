#!/usr/bin/env python3
"""Writes stdin and stdout of this folder: damaged and sound sheets, and what document 01 says of each.

The reader here is a second one, made from the document alone: it splits at line feeds and takes fields by a pattern.
"""
import os, re, sys

ORDER = "PBVSUWEF"
FIELDS = dict(P=5, B=3, V=1, S=6, U=3, W=1, E=6, F=3)
LIMIT = dict(P=1, B=128, V=128, S=128, U=256, W=128, E=256, F=128)
ONCE = "P"                                          # a second one is out of order
NUMBER = re.compile(rb"(?=[ 0-9]{11}$) *(0|[1-9][0-9]*)$")


def base():
    """Cells by kind, one after the other, a column as long as the limit."""
    at, where = 0, {}
    for k in ORDER:
        where[k] = at
        at += FIELDS[k] * LIMIT[k]
    return where, at


def well_formed(line):
    """The numbers of a line, or None. A line has its line feed."""
    if not line.endswith(b"\n"):
        return None
    letter = line[:1].decode("latin1")
    if letter not in FIELDS:
        return None
    body = line[1:-1]
    if len(body) != 11 * FIELDS[letter]:
        return None
    row = []
    for i in range(FIELDS[letter]):
        m = NUMBER.match(body[11 * i:11 * i + 11])
        if not m or int(m.group(1)) >= 2**32:
            return None
        row.append(int(m.group(1)))
    return letter, row


def expect(text, spare=99):
    where, room = base()
    if spare < 0:
        return b"too few cells\n"
    if not text:
        return refusal(14, 1)
    rows = {k: [] for k in ORDER}
    last = -1
    lines = re.findall(rb"[^\n]*\n|[^\n]+$", text)
    assert b"".join(lines) == text
    for number, line in enumerate(lines, 1):
        got = well_formed(line)
        if got is None:
            return refusal(14, number)
        letter, row = got
        place = ORDER.index(letter)
        if (number == 1 and letter != "P") or place < last or (place == last and letter in ONCE):
            return refusal(14, number)
        if len(rows[letter]) == LIMIT[letter]:
            return refusal(15, number)
        rows[letter].append(row)
        last = place
    held = [7] * (room + spare)
    for k in ORDER:
        for i, row in enumerate(rows[k]):
            for c, n in enumerate(row):
                held[where[k] + c * LIMIT[k] + i] = n
    total = 0
    for n in held:
        total = (total * 31 + n) % 4294967291
    return ("S " + " ".join(str(len(rows[k])) for k in ORDER) + " %d\n" % total).encode()


def refusal(number, line):
    return ("R%11d%11d\n" % (number, line)).encode()


def line(letter, *numbers):
    return (letter + "".join("%11s" % n for n in numbers) + "\n").encode()


P = line("P", 0, 1065353216, 1065353216, 1065353216, 1)
B = line("B", 1065353216, 0, 4)
V = line("V", 0)
S = line("S", 2, 14, 0, 0, 2, 0)
U = line("U", 0, 5, 1065353216)
W = line("W", 1048576000)
E = line("E", 0, 8, 12, 0, 0, 4294967295)
F = line("F", 0, 8, 0)
A = P + B + V + S + U + line("U", 3, 4, 1065353216)


def cases():
    yield A
    yield A + W + E + F
    yield P
    yield P + F
    for k, one in zip(ORDER, (P, B, V, S, U, W, E, F), strict=True):
        yield one                                   # without P, but for P itself
        yield P + one                               # a second P is 14 at line 2
        yield (P if k != "P" else b"") + one[:-1]    # no line feed at the end
        yield P + one[:-1] + b"\r\n"
        yield P + one[:-1] + b" \n"
        yield P + one[:-2] + b"\n"
        yield P + one + one[:1] + b"\n"
        yield P + one + b"\n"
        yield P + one + one[1:]
        yield P + one[:1].lower() + one[1:]
        yield P + b" " + one
    for a in (B, V, S, U, W, E, F):                 # every pair, in and out of order
        for b in (B, V, S, U, W, E, F):
            yield P + a + b
    for n in (0, 1, 9, 10, 99, 4294967294, 4294967295, 4294967296, 9999999999, 10000000000, 99999999999):
        yield P + line("V", n)
        yield line("P", n, 0, 0, 0, 0)
        yield P + line("F", 1, 2, n)
    yield P + b"V" + b"9" * 40 + b"\n"
    yield P + b"V" + b" " * 11 + b"\n"
    yield P + b"V" + b" " * 40 + b"1\n"
    for field in (b"         00", b"         01", b"00000000000", b"00000000007", b"0         0", b"          -", b"         -1",
                  b"         +1", b"        1 1", b"1          ", b"         1 ", b"         1\t", b"\t         1", b"        1.0",
                  b"       0x10", b"          a", b"          /", b"          :", b"         1\n", b"     1\n   1", b"          \n",
                  b"         1", b"           1", b"1_000000000", b"        \xc2\xa01", b"         \x001", b"         1\x00"):
        yield P + b"V" + field + b"\n"
        yield P + b"B" + b"          1" + field + b"          2\n"
        yield P + b"B" + b"          1" + b"          2" + field + b"\n"
    for byte in range(256):                         # every byte as letter, as digit, and alone
        yield P + bytes([byte]) + b"          0\n"
        yield P + b"V          " + bytes([byte]) + b"\n"
        yield bytes([byte])
    full = dict(B=B, V=V, S=S, U=U, W=W, E=E, F=F)
    for k in ORDER[1:]:
        for extra in (-1, 0, 1, 2):
            yield P + full[k] * (LIMIT[k] + extra)
        yield P + full[k] * LIMIT[k] + full[k][:-1]          # one too many, without a line feed: 14
        yield P + full[k] * LIMIT[k] + full[k][:1] + b"x" + full[k][2:]   # one too many and malformed: 14
        yield P + full[k] * (LIMIT[k] + 1) + b"broken\n"     # 15 at the line past the limit, before the broken one
        yield P + full[k] * LIMIT[k] + P
    yield P + B * 128 + V * 128 + S * 128 + U * 256 + W * 128 + E * 256 + F * 128
    yield P + B * 128 + V * 128 + S * 128 + U * 256 + W * 128 + E * 256 + F * 129
    yield P + V * 129 + B
    yield P + V * 128 + B + V
    yield b"\n"
    yield b"\n" + A
    yield A + b"\n"
    yield A + A
    yield P + P
    yield B + P
    yield b"P"
    yield b"P\n"
    yield P[1:]
    rows = b"".join(line("U", i * i, i % 10, 1199570944 - i) for i in range(200))
    yield P + rows + b"".join(line("E", i // 4, i, i + 1, i % 3, i, 4294967295 - i) for i in range(256)) + b"".join(line("F", i, 4 * i, i) for i in range(77))


def answers():
    def shown(text, room=90):
        text = text.encode()
        return b"%d\n" % len(text) + text + b"." * (room - len(text)) + b"\n"

    def end(x):
        return "%11s" % ("-" if x is None else x)

    def proposal(left, right, *numbers):
        return "Q" + end(left) + end(right) + "".join("%11d" % n for n in numbers[:-1]) + "\nH%11d\n" % numbers[-1]

    return (shown(proposal(None, None, 1073741824, 4, 0, 0, 500))
            + shown(proposal(0, 4294967295, 4294967295, 10, 99, 100, 999999999))
            + shown("N%11d\n" % 2)
            + shown("R%11d%11d\n" % (5, 1000000000))
            + b"no room\n" + b"." * 12 + b"\n")


def pieces(text):
    """A text as runs of a line, so that the file stays short: times and length in six digits each, then the bytes."""
    lines = re.findall(rb"[^\n]*\n|[^\n]+$", text)
    runs = []
    for one in lines:
        if runs and runs[-1][1] == one:
            runs[-1][0] += 1
        else:
            runs.append([1, one])
    short = []
    for times, one in runs:                          # lines that stand once are joined
        if times == 1 and short and short[-1][0] == 1:
            short[-1][1] += one
        else:
            short.append([times, one])
    return b"".join(b"%06d%06d\n" % (t, len(x)) + x for t, x in short) + b"%06d%06d\n" % (0, 0)


def main():
    here = os.path.dirname(os.path.abspath(sys.argv[0]))
    given, wanted = [], []
    for text in cases():
        assert len(text) <= 65536
        given.append(pieces(text))
        wanted.append(expect(text))
    wanted.append(expect(b""))
    wanted.append(expect(b"", spare=-1))
    wanted.append(expect(b" " * 1048576))
    wanted.append(expect(b"\n" * 1048576))
    wanted.append(answers())
    data = b"".join(given)
    assert len(data) <= 131072, len(data)
    open(os.path.join(here, "stdin"), "wb").write(data)
    open(os.path.join(here, "stdout"), "wb").write(b"".join(wanted))
    print(len(given), "cases,", len(data), "bytes")


main()
