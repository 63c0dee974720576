"""The slave's side of a capture as an event log (01, 'Event log'): what a port in the slave's place would have been given.

A packet that came is a message event; on the event entry its capture time is the receive stamp. A request that the
daemon sent is a delay timer at its place and then the stamp of our request, the capture time again. The daemon's
PDelayResp is the stamp of the one that our port made when the PDelayReq came. The state is set to Slave before the first
Sync or FollowUp. No byte of a packet is changed. So that the answers to the daemon's requests are answers to ours, ours
have its ids: it counts from 0 as our port does. Where a capture begins later, or an id is missing in it, delay timers
that nobody sees are put before the request until our port has come to its id.
"""

from collections import namedtuple

from tshark import fail

from talk import DELAY_RESP, FOLLOW_UP, HOST, PDELAY_FOLLOW_UP, PDELAY_REQ, PDELAY_RESP, SYNC

# The draw that makes the delay timer one interval, to the nanosecond.
MIDDLE = 2**51 - 1
SLAVE = 4

# An event: its bytes, the number that it has to be answered, the packet's place that it comes from (None for the
# state and for timers nobody sees), and the daemon's packet that has to be like what our port then sends (None: our
# port sends nothing; SPARE: what it sends has no counterpart).
Event = namedtuple("Event", "field answer place counterpart")
SPARE = -1


def field(tag, *values):
    value = b"".join(values)
    return bytes([tag]) + len(value).to_bytes(2, "big") + value


def identity(of):
    return of[0].to_bytes(8, "big") + of[1].to_bytes(2, "big")


def time(ns):
    return field(1, (ns << 32).to_bytes(16, "big"))


def configuration(talk):
    """As the slave's own packets have it; the intervals as the master states them; no asymmetry."""
    own = next(p for p in talk.sent() if p.kind == talk.request)
    sdo = own.number("majorsdoid") << 8 | own.number("minorsdoid")
    values = [own.number("domainnumber"), own.number("minorversionptp"), int(talk.request == PDELAY_REQ)]
    values += [talk.interval(DELAY_RESP), talk.interval(SYNC)]
    return field(0x0F, identity(talk.slave), sdo.to_bytes(2, "big"), bytes(values), bytes(16))


class Log:
    """Events in their order, at most so many; 'to' is how many of the packets they come from."""

    def __init__(self, talk, most):
        self.talk, self.events, self.next_id, self.is_slave = talk, [], 0, False
        self.answers = {(p.kind, p.id, p.requester): p.place for p in talk.sent() if p.requester}
        places = [p.place for p in talk.sent()]
        self.spoke = range(places[0], places[-1])
        self.to = 0
        for packet in talk.packets:
            before = len(self.events)
            self.come(packet) if packet.host != talk.host else self.went(packet)
            if len(self.events) > most:
                del self.events[before:]
                break
            self.to = packet.place + 1
        self.bytes = configuration(talk) + b"".join(event.field for event in self.events)

    def add(self, value, place=None, counterpart=None, answer=0):
        self.events.append(Event(value, answer, place, counterpart))

    def answer_to(self, packet, kind, requester):
        """The daemon's answer. It may lack one only before it first speaks and behind its last packet."""
        place = self.answers.get((kind, packet.id, requester))
        if place is None and packet.place in self.spoke:
            fail(f"the daemon sends nothing of type {kind} for {packet}")
        return SPARE if place is None else place

    def come(self, packet):
        if packet.kind in (SYNC, FOLLOW_UP) and packet.source == self.talk.master and not self.is_slave:
            self.add(field(0x16, field(7, bytes([SLAVE]), identity(self.talk.master))))
            self.is_slave = True
        message = field(2, packet.message)
        value = field(0x10, time(packet.time), message) if packet.on_event else field(0x11, message)
        likened = self.answer_to(packet, PDELAY_RESP, packet.source) if packet.kind == PDELAY_REQ else None
        self.add(value, packet.place, likened, 8 if packet.kind in HOST else 0)

    def went(self, packet):
        if packet.kind == self.talk.request:
            while self.next_id != packet.id:
                self.timer(SPARE, None)
            self.timer(packet.place, packet.place)
            self.stamp(packet, b"")
        elif packet.kind == PDELAY_RESP:
            self.stamp(packet, identity(packet.requester), self.answer_to(packet, PDELAY_FOLLOW_UP, packet.requester))
        elif packet.kind not in (PDELAY_FOLLOW_UP, *HOST):
            fail(f"{packet} comes from the slave")

    def timer(self, counterpart, place):
        self.add(field(0x14, field(4, MIDDLE.to_bytes(8, "big"))), place, counterpart)
        self.next_id = (self.next_id + 1) % 2**16

    def stamp(self, packet, requester, counterpart=None):
        context = bytes([packet.kind]) + packet.id.to_bytes(2, "big") + requester
        self.add(field(0x12, time(packet.time), field(3, context)), packet.place, counterpart)
