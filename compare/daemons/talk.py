"""What a master and a slave said to each other, from a capture at the slave's end: every field as tshark reads it."""

from tshark import BODIES, fail, frames, number

SYNC, DELAY_REQ, PDELAY_REQ, PDELAY_RESP, FOLLOW_UP, DELAY_RESP, PDELAY_FOLLOW_UP = 0, 1, 2, 3, 8, 9, 10
NAMES = {0: "Sync", 1: "DelayReq", 2: "PDelayReq", 3: "PDelayResp", 8: "FollowUp", 9: "DelayResp"}
NAMES |= {10: "PDelayRespFollowUp", 11: "Announce", 12: "Signaling", 13: "Management"}
HOST = (11, 12, 13)
EVENT_PORT = 319
# Where peer messages go: to the neighbour and no further.
NEIGHBOUR = {"01:80:c2:00:00:0e", "224.0.0.107"}
# How the addresses of PTP's groups begin, on Ethernet and in IP.
MULTICAST = ("01:1b:19:", "01:80:c2:", "224.0.")


class Packet:
    """A message with its capture time in ns. Identities are (clock, port); a correction is in 2^-16 ns, a stamp in ns."""

    def __init__(self, place, frame):
        self.place, self.message, self.shown, self.time = place, frame.message, frame.shown, frame.time
        self.host = frame.sender
        self.kind = self.number("messagetype")
        if "malformed" in self.shown or self.kind not in NAMES:
            fail(f"packet {place} is none that tshark can read")
        self.id = self.number("sequenceid")
        self.source = (self.number("clockidentity"), self.number("sourceportid"))
        self.two_step = self.number("flags.twostep") == 1
        whole = self.number("correction.ns")
        self.correction = (whole - 2**64 * (whole >> 63)) * 2**16 + self.number("correction.subns")
        self.stamp = self.requester = None
        if self.kind in BODIES:
            stamp, *requester = BODIES[self.kind]
            self.stamp = self.number(stamp + ".seconds") * 10**9 + self.number(stamp + ".nanoseconds")
            self.requester = tuple(self.number(name) for name in requester) or None
        by_type = self.kind <= PDELAY_RESP
        self.on_event = by_type if frame.port is None else frame.port == EVENT_PORT
        to = frame.address or frame.receiver
        self.link = to in NEIGHBOUR
        self.unicast = not to.startswith(MULTICAST)

    def number(self, name):
        if name not in self.shown:
            fail(f"packet {self.place}: tshark shows no {name}")
        return number(name, self.shown[name])

    def __str__(self):
        return f"packet {self.place} ({NAMES[self.kind]} {self.id})"


def only(values, what):
    found = set(values)
    if len(found) != 1:
        fail(f"{len(found)} {what}, and not one")
    return found.pop()


class Talk:
    """A capture's packets in order; the identities of master and slave; the packets that left the slave's host."""

    def __init__(self, path):
        self.packets = [Packet(place, frame) for place, frame in enumerate(frames(path))]
        syncs = [p for p in self.packets if p.kind == SYNC]
        self.master = only((p.source for p in syncs), "sources of Sync")
        # on a link of two ends, the slave's is the other one
        far = only((p.host for p in syncs), "Ethernet addresses that Sync comes from")
        asks = [p for p in self.packets if p.kind in (DELAY_REQ, PDELAY_REQ) and p.host != far]
        self.slave = only((p.source for p in asks), "ports that ask at the slave's end")
        self.request = only((p.kind for p in asks), "kinds of request of the slave's")
        self.host = only((p.host for p in asks), "Ethernet addresses of the slave's")

    def sent(self):
        """The port's own messages that the slave sent. Announce, Signaling and Management are the host's."""
        return [p for p in self.packets if p.host == self.host and p.kind not in HOST]

    def heard(self):
        return [p for p in self.packets if p.host != self.host]

    def interval(self, kind):
        """The log interval that the master states, where it does; it may state 0x7F, which is none. Else what
        tools/daemon_packets.sh has the daemons use."""
        stated = {p.number("logmessageperiod") for p in self.heard() if p.kind == kind} - {0x7F}
        return only(stated, "log intervals") if stated else 0xFF
