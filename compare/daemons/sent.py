"""What our port sends beside what the daemon sent in its place: every field that tshark shows, and where it goes."""

import tempfile
from collections import Counter, namedtuple
from pathlib import Path

from tshark import ADDED, BODIES, capture, fail, frames, number

from eventlog import SPARE
from talk import DELAY_REQ, NAMES, PDELAY_FOLLOW_UP, PDELAY_REQ

MOST_BEFORE = 10_000_000
MOST_BEHIND = 1_000_000
UNICAST = 0x0400


def unicast(ours, theirs, packet):
    return 0 if packet.unicast and theirs == ours | UNICAST else None


def told(ours, theirs, packet):
    before = packet.time - theirs
    return before if ours == 0 and 0 <= before < MOST_BEFORE else None


def later(ours, theirs, packet):
    behind = theirs - ours
    return behind if 0 < behind < MOST_BEHIND else None


# All that may differ: the message's type, the field, how far apart the two values are, or None where they are not as the
# reason says, and the reason.
Listed = namedtuple("Listed", "kind field apart why")
LISTED = [
    Listed(DELAY_REQ, "flags", unicast, "a unicast request says so; 01 sets no flag here"),
    Listed(DELAY_REQ, "stamp", told, "the daemon's time shortly before sending, less than 10 ms before the capture; 01 sends zero"),
    Listed(PDELAY_REQ, "stamp", told, "the same"),
    Listed(PDELAY_FOLLOW_UP, "stamp", later, "the daemon's own send stamp, less than 1 ms behind the capture's, which is ours"),
]


def shown(messages):
    """What tshark shows of messages of ours."""
    with tempfile.TemporaryDirectory() as folder:
        path = Path(folder) / "ours.pcap"
        capture(path, messages)
        found = list(frames(path))
    if [frame.message for frame in found] != messages:
        fail("tshark does not see as many packets of the same bytes as our port sends")
    return [frame.shown for frame in found]


def values(message, shown):
    """A message's fields as numbers, its timestamp as one, its flags as one; and the bytes of which tshark shows nothing."""
    fields = {name: number(name, text) for name, text in shown.items() if name not in ADDED}
    fields = {name: value for name, value in fields.items() if not name.startswith("flags.")}
    kind = fields["messagetype"]
    name = BODIES[kind][0]
    fields["stamp"] = fields.pop(f"{name}.seconds") * 10**9 + fields.pop(f"{name}.nanoseconds")
    if kind == PDELAY_REQ:
        fields["reserved"] = int.from_bytes(message[44:54], "big")
    fields["bytes behind"] = len(message) - fields["messagelength"]
    return fields


def goes(action):
    """By our port's words for an action: whether on the event entry, and whether to the neighbour only."""
    words = action.split(",")[-1].split(":")
    return {"event entry": words[0] == "event", "link-local": words[-1] == "link"}


class Sent:
    """How many packets were compared, how many of ours have no counterpart, and what differed, by how much at most."""

    def __init__(self, talk, to, pairs):
        self.compared, self.spare, self.differ, self.most, self.faults = 0, 0, Counter(), Counter(), []
        for (message, place, action), told in zip(pairs, shown([message for message, _, _ in pairs])):
            if place == SPARE:
                self.spare += 1
            else:
                self.compare(talk.packets[place], values(message, told) | goes(action))
        places = sorted(place for _, place, _ in pairs if place != SPARE and place < to)
        if places != [p.place for p in talk.sent() if p.place < to]:
            self.faults.append("what our port sends are not as many packets as the daemon sent")

    def compare(self, packet, ours):
        self.compared += 1
        theirs = values(packet.message, packet.shown)
        theirs |= {"event entry": packet.on_event, "link-local": packet.link}
        for name in sorted(ours.keys() | theirs.keys()):
            pair = ours.get(name), theirs.get(name)
            if pair[0] == pair[1]:
                continue
            listed = next((one for one in LISTED if (one.kind, one.field) == (packet.kind, name)), None)
            apart = None if None in pair or listed is None else listed.apart(*pair, packet)
            if apart is None:
                self.faults.append(f"{packet}: {name} is {pair[0]} in ours and {pair[1]} in the daemon's")
            else:
                self.differ[listed] += 1
                self.most[listed] = max(self.most[listed], apart)

    def told(self):
        return ", ".join(f"{NAMES[one.kind]} {one.field} {count}" for one, count in self.differ.items()) or "none"
