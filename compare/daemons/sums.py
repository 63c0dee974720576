"""Offsets and delays straight from the fields that tshark reads and the capture times (IEEE 1588-2019, 11.2 to 11.4).

Knows nothing of the event log or of a port: an exchange is the packets with one id, and is measured if all are there.
All values are whole numbers of 2^-32 ns.
"""

from collections import namedtuple

from tshark import fail

from talk import DELAY_RESP, FOLLOW_UP, PDELAY_FOLLOW_UP, PDELAY_REQ, PDELAY_RESP, SYNC

# The place of the packet that completes the exchange; S, D or P; the raw value (for P the delay); the event's time; and
# for D the mean path delay, None where no offset came before.
Measured = namedtuple("Measured", "place letter raw time delay")


def units(ns):
    return ns * 2**32


def corrected(packet):
    """A correction field has 16 bits behind the point, a value here 32."""
    return packet.correction * 2**16


def toward_zero(value):
    return -(-value // 2) if value < 0 else value // 2


def by_id(packets):
    table = {packet.id: packet for packet in packets}
    if len(table) != len(packets):
        fail("an id comes twice: too long a capture, or a repeated packet")
    return table


def offsets(heard, master):
    of = lambda kind: by_id([p for p in heard if p.kind == kind and p.source == master])
    follow_ups = of(FOLLOW_UP)
    for id, sync in of(SYNC).items():
        received = units(sync.time) - corrected(sync)
        if not sync.two_step:
            yield Measured(sync.place, "S", received - units(sync.stamp), received, None)
        elif id in follow_ups:
            follow_up = follow_ups[id]
            sent = units(follow_up.stamp) + corrected(follow_up)
            yield Measured(max(sync.place, follow_up.place), "S", received - sent, received, None)


def path_delays(requests, heard, master, slave, syncs):
    of_us = [p for p in heard if p.kind == DELAY_RESP and p.source == master and p.requester == slave]
    responses = by_id(of_us)
    for id, request in requests.items():
        if id not in responses:
            continue
        response = responses[id]
        back = units(response.stamp) - corrected(response) - units(request.time)
        there = [s for s in syncs if s.place < response.place]
        mean = toward_zero(max(there).raw + back) if there else None
        yield Measured(response.place, "D", -back, units(request.time), mean)


def link_delays(requests, heard, slave):
    of = lambda kind: by_id([p for p in heard if p.kind == kind and p.requester == slave])
    responses, follow_ups = of(PDELAY_RESP), of(PDELAY_FOLLOW_UP)
    for id, request in requests.items():
        response = responses.get(id)
        if response is None or response.two_step and id not in follow_ups:
            continue
        received = units(response.time) - corrected(response)
        turnaround, place = 0, response.place
        if response.two_step:
            follow_up = follow_ups[id]
            turnaround = units(follow_up.stamp) + corrected(follow_up) - units(response.stamp)
            place = max(place, follow_up.place)
        yield Measured(place, "P", toward_zero(received - units(request.time) - turnaround), received, None)


def measured(talk, to):
    """Each exchange that is complete among the first so many packets, by the packet that completes it."""
    heard = [p for p in talk.heard() if p.place < to]
    requests = by_id([p for p in talk.sent() if p.kind == talk.request and p.place < to])
    found = sorted(offsets(heard, talk.master))
    if talk.request == PDELAY_REQ:
        found += link_delays(requests, heard, talk.slave)
    else:
        found += path_delays(requests, heard, talk.master, talk.slave, list(found))
    return {one.place: one for one in found}
