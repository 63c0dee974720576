"""What document 01 answers to a question about messages ('Units', 'Wire form', 'Numbers the port answers'), in Python's integers.

Each function makes a question, a line, and its answer. The rules are written here anew from document 01 and share nothing with the
Rattle. tools/wire_vectors.py says what is asked, tools/tshark_packets.py asks tshark as well.
"""

LINE = 262
MOST = 128
NS = 2**32
# A header's numbers in the order in which they are asked and told, and their hexadecimal digits.
HEADER = {"major": 2, "type": 2, "minor": 2, "version": 2, "length": 4, "domain": 2, "minor_sdo": 2, "flags": 4}
HEADER |= {"correction": 16, "clock": 16, "port": 4, "id": 4, "interval": 2}
BODY = {"seconds": 16, "nanos": 8, "clock": 16, "port": 4}
SENDER = {"sdo": 4, "domain": 2, "minor": 2, "clock": 16, "port": 4}
# 01's table: type, then control, length, and whether a requester's identity follows the timestamp.
TABLE = {0: (0, 44, False), 1: (1, 44, False), 8: (2, 44, False), 2: (5, 54, False)}
TABLE |= {3: (5, 54, True), 9: (3, 54, True), 10: (5, 54, True)}
HOST = (11, 12, 13)
REFUSED = (4, 5, 6, 7, 14, 15)
SENT_ROOM = 64


def line(letter, *numbers):
    """A question: its numbers, each a value and how many digits it has, and dots to the line's end."""
    text = letter + "".join(f" {value:0{digits}x}" for value, digits in numbers)
    assert len(text) < LINE, text
    return text + "." * (LINE - 1 - len(text))


def record(values, widths):
    assert set(values) == set(widths), values
    return [(values[name], digits) for name, digits in widths.items()]


def signed(n, bits):
    return n - 2**bits if n >= 2 ** (bits - 1) else n


def told(*values):
    return "".join(f" {v:x}" for v in values)


def number(message, at, width):
    return int.from_bytes(message[at : at + width], "big")


# The questions, each with its answer.


def read(message, behind=0x5A):
    """What a message is; the program has more bytes than it lends, and those hold something else."""
    whole = message + bytes([behind]) * (MOST - len(message))
    return line("r", (len(message), 2), (int.from_bytes(whole, "big"), 2 * MOST)), "r" + reading(message)


def reading(message):
    if len(message) < 2 or message[1] % 16 != 2:
        return " 4"
    if len(message) < 34:
        return " 5"
    kind, stated = message[0] % 16, number(message, 2, 2)
    if not 34 <= stated <= len(message) or kind in REFUSED:
        return " 5"
    header = told(message[0] // 16, kind, message[1] // 16, 2, stated, message[4], message[5])
    header += told(number(message, 6, 2), number(message, 8, 8), number(message, 20, 8), number(message, 28, 2))
    header += told(number(message, 30, 2), message[33])
    if kind in HOST:
        return " 8" + header
    _, length, answers = TABLE[kind]
    if stated < length:
        return " 5"
    seconds, nanos = number(message, 34, 6), number(message, 40, 4)
    body = told(kind, seconds, nanos) + f" {(seconds * 10**9 + nanos) * NS:032x}"
    return " 0" + header + body + (told(number(message, 44, 8), number(message, 52, 2)) if answers else " -")


def spelled(header, kind, body):
    """The bytes of a message, each field at the place that 01 gives it."""
    control, length, answers = TABLE[kind]
    fields = [(header["major"] * 16 + header["type"], 1), (header["minor"] * 16 + header["version"], 1)]
    fields += [(header["length"], 2), (header["domain"], 1), (header["minor_sdo"], 1), (header["flags"], 2)]
    fields += [(header["correction"], 8), (0, 4), (header["clock"], 8), (header["port"], 2), (header["id"], 2)]
    fields += [(control, 1), (header["interval"], 1), (body["seconds"], 6), (body["nanos"], 4)]
    fields += [(body["clock"], 8), (body["port"], 2)] if answers else [(0, length - 44)]
    return b"".join(value.to_bytes(width, "big") for value, width in fields)


def fits(header, kind, body):
    room = header["major"] < 16 and header["minor"] < 16 and body["seconds"] < 2**48
    return room and (header["version"], header["type"], header["length"]) == (2, kind, TABLE[kind][1])


def writing(header, kind, body, room, fill):
    """The writer's answer and the buffer behind it."""
    left = bytes([fill]) * room
    if not fits(header, kind, body):
        said = " unfit"
    elif room < TABLE[kind][1]:
        said = " short"
    else:
        message = spelled(header, kind, body)
        said, left = told(len(message)), message + left[len(message) :]
    return said + " " + (left.hex() or "-")


def write(header, kind, body, room, fill=0xEE):
    asked = record(header, HEADER) + [(kind, 2)] + record(body, BODY) + [(room, 2), (fill, 2)]
    return line("w", *asked), "w" + writing(header, kind, body, room, fill)


def less_fraction(correction, f):
    less = signed(correction, 64) - f
    return less % 2**64 if -(2**63) <= less < 2**63 else None


def sent_values(request, kind, us, own_id, interval, time):
    """Header and body of a sent message, or None where a field of it leaves its range."""
    ns, rest = divmod(time, NS)
    seconds, nanos = divmod(ns, 10**9)
    f = rest // 2**16
    values = {"major": us["sdo"] // 256, "minor_sdo": us["sdo"] % 256, "type": kind, "version": 2}
    values |= {name: us[name] for name in ("minor", "domain", "clock", "port")}
    values |= {"length": TABLE[kind][1], "flags": 0x0200 if kind in (0, 3) else 0}
    values["interval"] = interval if kind in (0, 8, 9) else 0x7F
    values["id"] = request["id"] if kind in (3, 9) else own_id
    less = less_fraction(request["correction"], f)
    values["correction"] = {3: less, 8: f, 9: less, 10: f}.get(kind, 0)
    stamped = kind in (3, 8, 9, 10)
    body = {"seconds": seconds if stamped else 0, "nanos": nanos if stamped else 0}
    body |= {"clock": request["clock"], "port": request["port"]}
    if values["correction"] is None or body["seconds"] >= 2**48:
        return None
    return values, body


def sent(request, kind, us, own_id=0x1234, interval=0xFD, time=0):
    asked = record(request, HEADER) + [(kind, 2)] + record(us, SENDER)
    asked += [(own_id, 4), (interval, 2), (time >> 64, 16), (time % 2**64, 16)]
    made = sent_values(request, kind, us, own_id, interval, time)
    said = " 7" if made is None else " 0" + writing(made[0], kind, made[1], SENT_ROOM, 0xEE)
    return line("s", *asked), "s" + said


def kind_of(n):
    if n in TABLE:
        control, length, _ = TABLE[n]
        return line("k", (n, 2)), "k 0" + told(n, control, length)
    return line("k", (n, 2)), "k 8" if n in HOST else "k 5"


def less(correction, f):
    value = less_fraction(correction, f)
    return line("l", (correction, 16), (f, 4)), "l 7" if value is None else "l 0" + told(value)
