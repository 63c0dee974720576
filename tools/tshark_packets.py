#!/usr/bin/env python3
"""Wireshark's decoder beside ours: tshark and the program wire_vectors on the same packets, field by field.

    tools/tshark_packets.py              packets that our writer made, decoded by tshark
    tools/tshark_packets.py FILE..       packets of captures, decoded by tshark and by our reader

Without a file, the program writes each sent message once and each message of the general writer with
every field another value, then some with drawn values; tshark has to show every value that was asked
for. With files, each PTP message that tshark finds (Ethernet or UDP) is put to the program, and all that
it answers has to be what tshark shows; types 11 to 13 have to be answered 8. Then our writer gets what was
read, and it is told how often it makes the same bytes. Needs tshark, and the proved program in crates/wire_vectors/out
('rt run' there makes it, './tefandukk tshark' makes it and runs this).
"""

import random
import subprocess
import sys
import tempfile
from collections import Counter
from pathlib import Path

sys.dont_write_bytecode = True
import wire_rules as asked
from tshark import ADDED, BODIES, capture, fail, frames, number, program

NAMES = ["Sync", "DelayReq", "PDelayReq", "PDelayResp", "type 4", "type 5", "type 6", "type 7", "FollowUp"]
NAMES += ["DelayResp", "PDelayRespFollowUp", "Announce", "Signaling", "Management", "type 14", "type 15"]
# Our names of a header's numbers, and tshark's below 'ptp.v2.'; a correction is shown as two numbers.
SHOWN = {"major": "majorsdoid", "type": "messagetype", "minor": "minorversionptp", "version": "versionptp"}
SHOWN |= {"length": "messagelength", "domain": "domainnumber", "minor_sdo": "minorsdoid", "flags": "flags"}
SHOWN |= {"clock": "clockidentity", "port": "sourceportid", "id": "sequenceid", "interval": "logmessageperiod"}
# The flags that tshark has a name for, by their bit.
FLAGS = {0x0100: "alternatemaster", 0x0200: "twostep", 0x0400: "unicast", 0x2000: "specific1", 0x4000: "specific2"}
FLAGS |= {0x8000: "security", 0x0001: "li61", 0x0002: "li59", 0x0004: "utcreasonable", 0x0008: "timescale"}
FLAGS |= {0x0010: "timetraceable", 0x0020: "frequencytraceable", 0x0040: "synchronizationUncertain"}
# Where majorSdoId is odd tshark reads messages of 802.1AS, in which these have other bodies.
OTHER_IN_AS = (0, 2, 8)
DRAWN = 40


def answers(questions):
    """The program's answers, each as its words."""
    ran = subprocess.run(program("wire_vectors"), input="".join(q + "\n" for q in questions), capture_output=True, text=True)
    lines = ran.stdout.splitlines()
    if ran.returncode != 0 or len(lines) != len(questions):
        fail(f"the program answered {len(lines)} of {len(questions)} questions")
    return [line.split() for line in lines]


def decoded(path):
    """Of each PTP message in a capture: its bytes, and what tshark shows of it."""
    for frame in frames(path):
        yield frame.message, frame.shown


def expected(header, body=None):
    """By tshark's names, what it has to show of a header and of a body."""
    values = {theirs: header[ours] for ours, theirs in SHOWN.items()}
    values |= {f"flags.{name}": int(header["flags"] & bit != 0) for bit, name in FLAGS.items()}
    c = asked.signed(header["correction"], 64)
    values |= {"correction.ns": (c >> 16) % 2**64, "correction.subns": c % 2**16}
    if body and not (header["major"] % 2 and header["type"] in OTHER_IN_AS):
        stamp, *requester = BODIES[header["type"]]
        values |= {f"{stamp}.seconds": body["seconds"], f"{stamp}.nanoseconds": body["nanos"]}
        values |= {name: body[ours] for name, ours in zip(requester, ("clock", "port"))}
        if header["type"] == 8:
            values[f"{stamp}.32bit"] = (body["seconds"] * 10**9 + body["nanos"]) % 2**32
    return values


class Tally:
    """How often each field was compared, and each difference."""

    def __init__(self):
        self.types, self.fields, self.differ, self.said = Counter(), Counter(), Counter(), []

    def differs(self, name, message, text):
        self.differ[name] += 1
        self.said.append(f"{name}: {text}: {message.hex()}")

    def compare(self, message, values, shown):
        for name, value in values.items():
            self.fields[name] += 1
            if name not in shown:
                self.differs(name, message, f"ours {value}, tshark shows none")
            elif number(name, shown[name]) != value:
                self.differs(name, message, f"ours {value}, tshark's {shown[name]}")

    def tell(self):
        for line in self.said[:20]:
            print(f"  {line}")
        types = ", ".join(f"{count} {NAMES[kind]}" for kind, count in sorted(self.types.items()))
        print(f"  packets {sum(self.types.values())}: {types or 'none'}")
        print(f"  fields compared {sum(self.fields.values())}, differences {sum(self.differ.values())}")

    def add(self, other):
        self.types += other.types
        self.fields += other.fields
        self.differ += other.differ


# What our writer made, decoded by tshark.


def distinct(kind, draw=None):
    """A header and a body with no two values alike, or with drawn ones."""
    if draw:
        header = {name: draw.getrandbits(4 * digits) for name, digits in asked.HEADER.items()}
        header |= {"major": header["major"] % 16, "minor": header["minor"] % 16}
        body = {name: draw.getrandbits(4 * digits) for name, digits in asked.BODY.items()}
        body["seconds"] %= 2**48
    else:
        header = {"major": 0xB, "minor": 0x4, "domain": 0x21 + kind, "minor_sdo": 0x43 + kind, "flags": 0x2506 + kind}
        header |= {"correction": 2**64 - 0x1234_5678_9ABC - kind, "clock": 0x1122_3344_5566_7700 + kind}
        header |= {"port": 0x8990 + kind, "id": 0xA1B0 + kind, "interval": 0xE5 + kind}
        body = {"seconds": 0xC0DE_1234_0000 + kind, "nanos": 0x3210_FED0 + kind}
        body |= {"clock": 0x8877_6655_4433_2200 + kind, "port": 0x5560 + kind}
    if kind in OTHER_IN_AS:
        header["major"] -= header["major"] % 2
    return header | {"type": kind, "version": 2, "length": asked.TABLE[kind][1]}, body


def made():
    """Questions that write a packet, and the values that the packet then has."""
    us = {"sdo": 0xCD7, "domain": 0x35, "minor": 1, "clock": 0xA1B2_C3FF_FED4_E5F6, "port": 0x0203}
    time = (1_700_000_000 * 10**9 + 123_456_789) * 2**32 + 0x89AB_CDEF
    request, _ = distinct(1)
    draw = random.Random(1588)
    for kind in sorted(asked.TABLE):
        question, _ = asked.sent(request, kind, us, 0x4000 + kind, 0xF0 + kind, time)
        yield question, *asked.sent_values(request, kind, us, 0x4000 + kind, 0xF0 + kind, time)
        for header, body in [distinct(kind), *(distinct(kind, draw) for _ in range(DRAWN))]:
            yield asked.write(header, kind, body, 64)[0], header, body


def written():
    wanted = list(made())
    messages = []
    for words in answers([question for question, _, _ in wanted]):
        # at the end the length and the whole buffer
        if len(words) < 3 or words[-2] in ("short", "unfit"):
            fail(f"a packet is refused: {' '.join(words)}")
        messages.append(bytes.fromhex(words[-1])[: int(words[-2], 16)])
    with tempfile.TemporaryDirectory() as folder:
        path = Path(folder) / "made.pcap"
        capture(path, messages)
        found = list(decoded(path))
    if [message for message, _ in found] != messages:
        fail("tshark does not see as many packets of the same bytes as were written")
    tally = Tally()
    for (message, shown), (_, header, body) in zip(found, wanted):
        tally.types[header["type"]] += 1
        # what a reader does not look at
        unread = {"controlfield": asked.TABLE[header["type"]][0], "messagetypespecific": 0}
        values = expected(header, body) | unread
        tally.compare(message, values, shown)
        for name in set(shown) - set(values) - ADDED:
            tally.differs(name, message, f"tshark shows {shown[name]}, and nothing was asked")
    print("our packets, decoded by tshark: each sent message once, each of the general writer's")
    print(f"with every value another once and with drawn values {DRAWN} times")
    for name, count in tally.fields.items():
        print(f"  {name:45} {count:5} compared {tally.differ[name]:5} differ")
    tally.tell()
    return tally


# A capture, decoded by tshark and by our reader.


def taken(words):
    """Header and body of an answer; the body also has its own type and its time."""
    header = dict(zip(asked.HEADER, (int(word, 16) for word in words)))
    told = [int(word, 16) for word in words[len(asked.HEADER) :] if word != "-"]
    return header, dict(zip(("type", "seconds", "nanos", "time", "clock", "port"), told))


def written_again(read):
    """Of the messages with the length of 01's table, how many our writer makes anew to the last bit."""
    messages, questions = [], []
    for message, header, body in read:
        if body and asked.TABLE[body["type"]][1] == header["length"]:
            messages.append(message[: header["length"]])
            values = {name: body.get(name, 0) for name in asked.BODY}
            questions.append(asked.write(header, body["type"], values, header["length"])[0])
    same = [bytes.fromhex(words[-1]) == message for message, words in zip(messages, answers(questions))]
    return f"{sum(same)} of {len(same)}"


def read(path):
    found = list(decoded(path))
    short = [(message, shown) for message, shown in found if len(message) <= asked.MOST]
    said = answers([asked.read(message)[0] for message, _ in short])
    tally = Tally()
    values = []
    for (message, shown), (_, answer, *words) in zip(short, said):
        kind = int(shown.get("messagetype", "15"), 0)
        tally.types[kind] += 1
        tally.fields["answer"] += 1
        if answer != ("8" if kind in asked.HOST else "0"):
            tally.differs("answer", message, f"{answer}, and tshark reads a message of type {kind}")
        if answer not in ("0", "8"):
            continue
        header, body = taken(words)
        values.append((message, header, body))
        if body:
            time = (body["seconds"] * 10**9 + body["nanos"]) * 2**32
            ours = {"body's type": body["type"], "time": body["time"]}
            tally.compare(message, ours, {"body's type": str(kind), "time": str(time)})
        tally.compare(message, expected(header, body), shown)
        if "malformed" in shown:
            tally.differs("malformed", message, "tshark calls the packet malformed")
    print(f"{path.name}: decoded by tshark and by our reader")
    if len(short) != len(found):
        print(f"  {len(found) - len(short)} messages of more than {asked.MOST} bytes, not asked")
    tally.tell()
    print(f"  written again by our writer, byte for byte the same: {written_again(values)}")
    return tally


def main():
    paths = [Path(name) for name in sys.argv[1:]]
    tallies = [read(path) for path in paths] if paths else [written()]
    if len(paths) > 1:
        whole = Tally()
        for tally in tallies:
            whole.add(tally)
        print(f"all {len(paths)} files")
        whole.tell()
    if any(tally.differ or not tally.types for tally in tallies):
        fail("differences, or a file with no packets")


main()
