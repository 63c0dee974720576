#!/usr/bin/env python3
"""Questions to crates reading, wire, writing and sent and the answers of document 01.

Writes crates/wire_vectors/stdin and stdout; with --check only says whether they are what it would write (the gate runs the answers and
not this script). tools/wire_rules.py has the rules. A question is a letter and numbers of fixed widths, an answer the letter, 01's
number and the values (crates/wire_vectors/src).
"""

import random
import sys

sys.dont_write_bytecode = True
import stored
from wire_rules import BODY, HEADER, MOST, NS, SENDER, TABLE, kind_of, less, line, number, read, record, sent, write

CLOCK = 0x0123_4567_89AB_CDEF
PLAIN = {"major": 1, "minor": 1, "version": 2, "domain": 0x2A, "minor_sdo": 0x5B, "flags": 0x0200}
PLAIN |= {"correction": 0xFFFF_FFFF_FFFE_8001, "clock": CLOCK, "port": 0x8001, "id": 0xBEEF, "interval": 0xFB}
STAMPED = {"seconds": 0x0123_4567_89AB, "nanos": 0x3B9A_C9FF, "clock": 0xFEDC_BA98_7654_3210, "port": 0x4321}
US = {"sdo": 0x123, "domain": 0x7F, "minor": 1, "clock": 0xA1B2_C3FF_FED4_E5F6, "port": 0x0203}
TYPES = sorted(TABLE)


def plain(kind, **other):
    """A header for a type, whose stated length is the table's where there is one."""
    return {"type": kind, "length": TABLE[kind][1] if kind in TABLE else 64} | PLAIN | other


def two_step(flags):
    """Whether the bit 0x02 of byte 6, the first of the two, is set."""
    return line("f", *record(plain(0, flags=flags), HEADER)), f"f {flags.to_bytes(2, 'big')[0] // 2 % 2}"


def sdo_id(major, minor):
    return line("d", *record(plain(0, major=major, minor_sdo=minor), HEADER)), f"d {major * 256 + minor}"


def bytes_for(kind, size, stated=None, first=0x11, version=0x12):
    """So many bytes of a message, no two alike, with the type, version and stated length asked for."""
    message = bytearray((first + 7 * i) % 256 for i in range(size))
    front = bytes([0xC0 + kind, version]) + (size if stated is None else stated).to_bytes(2, "big")
    message[: min(4, size)] = front[:size]
    return bytes(message)


def changed(message, at, *values):
    return message[:at] + bytes(values) + message[at + len(values) :]


def read_questions():
    for kind in range(16):
        for size in (33, 34, 43, 44, 53, 54):
            yield read(bytes_for(kind, size))
        for stated in (33, 34, 43, 44, 53, 54, 55, 65):
            yield read(bytes_for(kind, 64, stated))
        for size in (44, 54):
            yield read(bytes_for(kind, size, size + 1))
    for kind in (0, 3, 4, 13):
        for size in (0, 1, 2, 3, 45, 55, 127, 128):
            yield read(bytes_for(kind, size))
        for stated in (0, 1, 0x3400, 0x8000, 0xFFFF):
            yield read(bytes_for(kind, 64, stated))
    # versions, in bytes of each length that a row looks at; row 4 comes before row 5
    for version in (0x00, 0x01, 0x02, 0x03, 0x12, 0x13, 0x20, 0x22, 0xA2, 0xF2, 0xFF):
        for size in (2, 33, 44):
            yield read(bytes_for(0, size, None, 0x80, version))
        yield read(bytes_for(4, 44, 33, 0x80, version))
    # a version that stands in the first byte that is not lent
    yield read(b"\x00", 2)
    yield read(b"", 2)
    for kind in TYPES:
        for message in (bytes(64), b"\xff" * 64):
            yield read(changed(message, 0, kind, 2, 0, 64))
        yield from read_values(kind, kind in (0, 2))


def read_values(kind, every):
    """A message of a type with each of its fields at its ends; for some types every number that is of interest."""
    length = TABLE[kind][1]
    whole = bytes_for(kind, 64, length)
    # what is not read: reserved bytes, control, all behind the body
    unread = (*range(16, 20), 32, *range(length, 64))
    other = bytearray(whole)
    for at in unread:
        other[at] ^= 0xFF
        if every:
            yield read(changed(whole, at, 0))
    yield read(bytes(other))
    for flags in (*(2**n for n in range(16)), 0, 0xFFFF) if every else (0x0200, 0xFDFF):
        yield read(changed(whole, 6, *flags.to_bytes(2, "big")))
    for correction in (0, 1, 2**16, 2**63 - 1, 2**63, 2**63 + 1, 2**64 - 1) if every else (2**63 - 1, 2**63):
        yield read(changed(whole, 8, *correction.to_bytes(8, "big")))
    for seconds in (0, 1, 2**32 - 1, 2**32, 2**47, 2**48 - 1) if every else (0, 2**48 - 1):
        for nanos in (0, 10**9 - 1, 10**9, 2**32 - 1):
            yield read(changed(whole, 34, *seconds.to_bytes(6, "big"), *nanos.to_bytes(4, "big")))


def write_questions():
    for kind in TYPES:
        length = TABLE[kind][1]
        fit = plain(kind)
        every = kind in (0, 9)
        for room in (0, 1, 33, 34, length - 1, length, length + 1, 64, 128) if every else (length - 1, length, 64):
            yield write(fit, kind, STAMPED, room, 0x00 if room == length else 0xA5)
        for version in (0, 1, 3, 18, 255) if every else (1,):
            yield write(fit | {"version": version}, kind, STAMPED, 64)
        for other in (0, 1, 2, 3, 4, 8, 9, 10, 11, 16, 25, 255) if every else (kind ^ 1, kind + 16):
            yield write(fit | {"type": other}, kind, STAMPED, 64)
        for stated in (0, 34, 43, 44, 45, 53, 54, 55, length + 256) if every else (44, 54, length + 256):
            yield write(fit | {"length": stated}, kind, STAMPED, 64)
        for name in ("major", "minor"):
            for n in (0, 15, 16, 17, 255) if every else (15, 16):
                yield write(fit | {name: n}, kind, STAMPED, 64)
        for seconds in (0, 2**48 - 1, 2**48, 2**48 + 1, 2**64 - 1) if every else (2**48 - 1, 2**48):
            yield write(fit, kind, STAMPED | {"seconds": seconds}, 64)
        # refused for both reasons: unfit comes first
        yield write(fit | {"version": 1}, kind, STAMPED, 0)
        yield write(fit | {"major": 16}, kind, STAMPED, length - 1)
        for name in ("domain", "minor_sdo", "flags", "correction", "clock", "port", "id", "interval"):
            yield write(fit | {name: 0}, kind, STAMPED, length)
        for name, n in (("nanos", 0), ("nanos", 10**9), ("nanos", 2**32 - 1), ("clock", 0), ("port", 0xFFFF)):
            yield write(fit, kind, STAMPED | {name: n}, length)


def sent_questions():
    second = 10**9 * NS
    times = (0, 1, 0xFFFF, 0x1_0000, 0x1_FFFF, NS - 1, NS, 999_999_999 * NS + 0xABCD_EF01, second - 1, second)
    times += (2**47 * second, 2**48 * second - 1, 2**48 * second, 2**127 - 1, 2**127, 2**128 - 1)
    half = 1_700_000_000 * second + 123_456_789 * NS + 0x8000_0000
    # at a fraction f: the lowest correction that stays within 64 bits less f, the highest that leaves them
    edges = [(c, f) for f in (1, 2, 0xFFFE, 0xFFFF) for c in (2**63 + f, 2**63 + f - 1, 2**63, f, f - 1)]
    edges += [(c, f) for f in (0, 0x8000) for c in (0, 1, 2**63 - 1, 2**63, 2**64 - 1)]
    for c, f in edges:
        yield less(c, f)
        for kind in (3, 9):
            yield sent(plain(1, correction=c), kind, US, 0, 0, half // NS * NS + f * 2**16 + 0xFFFF)
    for kind in TYPES:
        request = plain(2 if kind in (3, 10) else 1)
        for time in times:
            yield sent(request, kind, US, 7, 1, time)
        # past 4095 and 15 the writer has no place for them
        for sdo in (0, 1, 255, 256, 0xABC, 0xFFF, 0x1000, 0xFFFF):
            yield sent(request, kind, US | {"sdo": sdo}, 8, 2, half)
        for minor in (0, 15, 16):
            yield sent(request, kind, US | {"minor": minor}, 9, 3, half)
        for own_id, interval in ((0, 0), (1, 0xF7), (0xFFFF, 16), (0x8000, 0x7F)):
            yield sent(request, kind, US, own_id, interval, half)
        for name in ("domain", "clock", "port"):
            yield sent(request, kind, US | {name: 0}, time=half)
        # of a request only the id, the source and the correction are used
        for n in range(2):
            yield sent({name: n * (16**digits - 1) for name, digits in HEADER.items()}, kind, US, time=half)
    for kind in (4, 11, 255):
        asked = record(plain(1), HEADER) + [(kind, 2)] + record(US, SENDER) + [(0, 4), (0, 2), (0, 16), (0, 16)]
        yield line("s", *asked), "s ?"
    yield line("x", (0, 2)), "x ?"


def drawn_questions():
    """Numbers of every size, by a fixed seed."""
    draw = random.Random(1588)
    bits = lambda digits: draw.getrandbits(draw.randint(1, 4 * digits))
    for _ in range(65):
        kind = draw.choice(TYPES)
        length = TABLE[kind][1]
        header = {name: bits(digits) for name, digits in HEADER.items()}
        body = {name: bits(digits) for name, digits in BODY.items()} | {"seconds": draw.getrandbits(48)}
        us = {name: bits(digits) for name, digits in SENDER.items()}
        us |= {"sdo": us["sdo"] % 4096, "minor": draw.randint(0, 1)}
        good = {"type": kind, "version": 2, "length": length, "major": draw.randint(0, 15), "minor": draw.randint(0, 15)}
        yield write(header | good, kind, body, draw.randint(length - 2, MOST), draw.randint(0, 255))
        yield sent(header, kind, us, bits(4), bits(2), draw.getrandbits(draw.randint(60, 111)))
        yield less(draw.choice([bits(16), 2**63 + bits(4)]), bits(4))
        message = bytearray(draw.randbytes(draw.randint(30, MOST)))
        message[0] = draw.randint(0, 15) * 16 + draw.choice((kind, kind, kind, draw.randint(0, 15)))
        message[1] = draw.randint(0, 15) * 16 + draw.choice((2, 2, 2, 2, 2, 2, 2, draw.randint(0, 15)))
        stated = draw.choice((length, len(message), draw.randint(length, MOST), draw.randint(30, 60)))
        yield read(changed(bytes(message), 2, 0, stated))


def questions():
    yield from read_questions()
    yield from write_questions()
    yield from sent_questions()
    for n in (*range(18), 127, 128, 136, 255):
        yield kind_of(n)
    for flags in (*(2**n for n in range(16)), 0, 0x0300, 0x0600, 0xFDFF, 0xFFFF):
        yield two_step(flags)
    for major, minor in ((0, 0), (0, 1), (1, 0), (0, 255), (10, 0x5B), (15, 255), (16, 0), (255, 255)):
        yield sdo_id(major, minor)
    yield from drawn_questions()


if __name__ == "__main__":
    stored.keep("wire_vectors", list(questions()))
