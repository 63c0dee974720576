#!/usr/bin/env python3
"""Questions to crate time and the answers that document 01 gives them, in Python's integers.

Writes crates/time_vectors/stdin and stdout; with --check only says whether they are what it would
write (the gate runs the answers and not this script). The rules are written here anew from document 01, 'Units', and share nothing with the Rattle.
A question is a letter and four words; an answer is the letter, 01's number and the values.
"""

import random
import sys
from fractions import Fraction

sys.dont_write_bytecode = True
import stored

W = 2**64
TIMES = range(0, 2**127)
DURATIONS = range(-(2**127), 2**127)
NS = 2**32


def signed(n, bits):
    return n - 2**bits if n >= 2 ** (bits - 1) else n


def two_words(z):
    return f"0 {z % 2**128:032x}"


def within(z, values):
    return two_words(z) if z in values else "7"


def wire(n):
    ns, rest = divmod(n, NS)
    seconds, nanos = divmod(ns, 10**9)
    return f"0 {seconds:x} {nanos:x} {rest // 2**16:x}" if seconds < 2**48 else "7"


def half(z):
    return -(-z // 2) if z < 0 else z // 2


def timer(n, length):
    return f"0 {length():x}" if -9 <= n <= 16 else "2"


def sync(n):
    seconds = Fraction(2) ** n * 10**9
    assert seconds.denominator == 1
    return int(seconds)


def delay(n, k):
    exact = (2 * k + 1) * 10**9 * Fraction(2) ** (n - 52)
    nearest = int(exact + Fraction(1, 2))
    assert abs(exact - nearest) < Fraction(1, 2), "a draw gave a half"
    return nearest


def answer(letter, a, b, c, d):
    first, second = a * W + b, c * W + d
    one, two = signed(first, 128), signed(second, 128)
    correction = signed(c, 64) * 65536
    n = signed(a % 256, 8)
    if letter == "i":
        return str(int(first in TIMES))
    if letter == "w":
        return two_words(first) if first in TIMES else "3"
    if letter == "r":
        return two_words((a * 10**9 + b) * NS) if a < 2**48 else "5"
    if letter == "s":
        return wire(first)
    if letter == "p":
        return within(first + correction, TIMES)
    if letter == "m":
        return within(first - correction, TIMES)
    if letter == "t":
        return within(first - second, DURATIONS)
    if letter == "d":
        return within(one - two, DURATIONS)
    if letter == "h":
        return two_words(half(one))
    if letter == "n":
        return str(int(-9 <= n <= 16))
    if letter == "k":
        return str(int(b < 2**52))
    if letter == "y":
        return timer(n, lambda: sync(n))
    if letter == "z":
        return "3" if -9 <= n <= 16 and b >= 2**52 else timer(n, lambda: delay(n, b))
    raise ValueError(letter)


def split(n):
    return divmod(n % 2**128, W)


def beside_a_half(n):
    """The draws whose timers come nearest to a half, from above and from below.

    The timer is (2k+1) * 5^9 / 2^(43-n), so its fraction is what (2k+1) * 5^9 leaves modulo 2^(43-n).
    """
    unit = 2 ** (43 - n)
    for rest in [unit // 2 - 1, unit // 2 + 1]:
        odd = rest * pow(5**9, -1, unit) % unit
        yield odd // 2


def questions():
    """Every letter at the ends of its ranges, the slips that 01 names, and numbers of every size."""
    ends = [0, 1, 65535, 65536, 2**63, W - 1, W, 2**79 - 1, 2**79, 2**127 - 2**79 - 1, 2**127 - 2**79]
    ends += [2**127 - 65537, 2**127 - 65536, 2**127 - 1, 2**127, 2**128 - 1]
    words = [0, 1, 2**48 - 1, 2**48, 2**63 - 1, 2**63, 2**63 + 1, W - 1]
    spans = [0, 1, 2, 3, W - 1, W, W + 1, 2**127 - 2, 2**127 - 1]
    spans += [-n for n in spans if n] + [-(2**127)]
    for n in ends:
        yield "i", *split(n), 0, 0
        yield "w", *split(n), 0, 0
    for seconds in [0, 1, 2**32 - 1, 2**32, 2**47 - 1, 2**47, 2**48 - 1, 2**48, W - 1]:
        for nanos in [0, 1, 999_999_999, 1_000_000_000, 1_000_000_001, 2**32 - 1]:
            yield "r", seconds, nanos, 0, 0
    for n in ends:
        yield "s", *split(n), 0, 0
    for seconds in [1, 2**47, 2**48]:
        for n in [-1, 0, 1, 65535, 65536, NS - 1, NS, 999_999_999 * NS + 0xABCDEF01]:
            yield "s", *split(seconds * 10**9 * NS + n), 0, 0
    for n in ends:
        for c in words:
            yield "p", *split(n), c, 0
            yield "m", *split(n), c, 0
    for n in ends:
        for m in [0, 1, W - 1, W, 2**127 - 1, 2**127, 2**128 - 1]:
            yield "t", *split(n), *split(m)
    for n in spans:
        yield "h", *split(n), 0, 0
        for m in [0, 1, -1, W, -W, 2**127 - 1, -(2**127)]:
            yield "d", *split(n), *split(m)
    draws = [0, 1, 2**51 - 1, 2**51, 2**52 - 1, 2**52, W - 1]
    for k in draws:
        yield "k", 0, k, 0, 0
    for n in [*range(-12, 20), 127, -128]:
        yield "n", n % 256, 0, 0, 0
        yield "y", n % 256, 0, 0, 0
    for n in range(-10, 18):
        for k in draws:
            yield "z", n % 256, k, 0, 0
    for n in range(-9, 17):
        for k in beside_a_half(n):
            yield "z", n % 256, k, 0, 0
    draw = random.Random(1588)
    sized = lambda bits: draw.getrandbits(draw.randint(1, bits))
    for _ in range(40):
        n, m = sized(127), sized(127)
        yield "s", *split(sized(112)), 0, 0
        yield "r", sized(49), draw.getrandbits(32), 0, 0
        yield "p", *split(n), sized(64), 0
        yield "m", *split(n), W - sized(63), 0
        yield "t", *split(n), *split(m)
        yield "d", *split(draw.choice([n, -n])), *split(draw.choice([m, -m]))
        yield "h", *split(draw.choice([n, -n])), 0, 0
        yield "z", draw.randint(-9, 16) % 256, draw.getrandbits(52), 0, 0


def line(q):
    return f"{q[0]} " + " ".join(f"{w:016x}" for w in q[1:])


stored.keep("time_vectors", [(line(q), f"{q[0]} {answer(*q)}") for q in questions()])
