//! Every message as its very bytes, so that neither side of a case rests on a writer.
//!
//! Spaces part bytes 0 to 7, the correction, the reserved bytes, the source, bytes 30 to
//! 33, and what the body holds.

use crate::cast::*;
use crate::record::End;
use crate::script::Script;
use crate::Case;

pub fn all() -> Vec<Case> {
    vec![
        of_a_master(),
        of_delay_requests(),
        of_peer_requests(),
        received_syncs(),
        received_peer_answers(),
    ]
}

/// No byte twice: 0x0A0B0C0D0E0F s, 0x11121314 ns, and 0x15161718 units, so f is 0x1516.
fn distinct() -> u128 {
    units(0x0A0B_0C0D_0E0F * 1_000_000_000 + 0x1112_1314) + 0x1516_1718
}

const SYNC: &str = "a012002c7b5c0200 0000000000000000 00000000 02132435465768798a9b \
                    00000002 00000000000000000000";
const FOLLOW_UP: &str = "a812002c7b5c0000 0000000000001516 00000000 02132435465768798a9b \
                         01020202 0a0b0c0d0e0f11121314";
/// The correction is 0x3132333435363738 - 0x1516.
const DELAY_RESP: &str = "a91200367b5c0000 3132333435362222 00000000 02132435465768798a9b \
                          212203fd 0a0b0c0d0e0f11121314 61708f9cadbecfd0e1f2";
/// So it is here.
const RESPONSE: &str = "a31200367b5c0200 3132333435362222 00000000 02132435465768798a9b \
                        2324057f 0a0b0c0d0e0f11121314 61708f9cadbecfd0e1f2";
/// And here it is -0x1516.
const LOW_RESPONSE: &str = "a31200367b5c0200 ffffffffffffeaea 00000000 02132435465768798a9b \
                            2324057f 0a0b0c0d0e0f11121314 61708f9cadbecfd0e1f2";
const RESPONSE_FOLLOW_UP: &str = "aa1200367b5c0000 0000000000001516 00000000 \
                                  02132435465768798a9b 4142057f 0a0b0c0d0e0f11121314 \
                                  61708f9cadbecfd0e1f2";
const DELAY_REQ_0: &str = "a112002c7b5c0000 0000000000000000 00000000 02132435465768798a9b \
                           0000017f 00000000000000000000";
const DELAY_REQ_1: &str = "a112002c7b5c0000 0000000000000000 00000000 02132435465768798a9b \
                           0001017f 00000000000000000000";
const PDELAY_REQ_0: &str = "a21200367b5c0000 0000000000000000 00000000 02132435465768798a9b \
                            0000057f 00000000000000000000 00000000000000000000";
const PDELAY_REQ_1: &str = "a21200367b5c0000 0000000000000000 00000000 02132435465768798a9b \
                            0001057f 00000000000000000000 00000000000000000000";

/// From our master: a correction of -2^-16 ns, and a timestamp that is not read.
const THEIR_SYNC: &str = "a002002c7b5c0200 ffffffffffffffff 00000000 c1d2e3f405162738495a \
                          a1b200f9 0a0b0c0d0e0f11121314";
/// 1 s and 16 ns with a correction of 2 ns.
const THEIR_FOLLOW_UP: &str = "a802002c7b5c0000 0000000000020000 00000000 c1d2e3f405162738495a \
                               a1b202f9 00000000000100000010";
/// The same time with a correction of 3 ns, to us.
const THEIR_DELAY_RESP: &str = "a90200367b5c0000 0000000000030000 00000000 c1d2e3f405162738495a \
                                00000305 00000000000100000010 02132435465768798a9b";
/// From the peer: 32 ns with a correction of 1 ns, then 48 ns with one of 4 ns.
const THEIR_RESPONSE: &str = "a30200367b5c0200 0000000000010000 00000000 3b4c5d6e7f8091a2b3c4 \
                              0000057f 00000000000000000020 02132435465768798a9b";
const THEIR_RESPONSE_FOLLOW_UP: &str = "aa0200367b5c0000 0000000000040000 00000000 \
                                        3b4c5d6e7f8091a2b3c4 0000057f 00000000000000000030 \
                                        02132435465768798a9b";

/// Without the spaces.
fn digits(text: &str) -> String {
    text.replace(' ', "")
}

fn bytes(text: &str) -> Vec<u8> {
    let digit = |byte: u8| (byte as char).to_digit(16).expect("a hex digit") as u8;
    let text = digits(text);
    let pairs = text.as_bytes().chunks(2);
    pairs
        .map(|pair| digit(pair[0]) << 4 | digit(pair[1]))
        .collect()
}

fn of_a_master() -> Case {
    let at = distinct();
    let c = 0x3132_3334_3536_3738;
    let mut s = Script::new(end_to_end(0));
    s.set(NewState::Master).nothing();
    s.sync_timer()
        .sends_hex(&digits(SYNC), "sync-timer:4000000000,event:0:0");
    s.stamp(at, Context::Sync(0x0102))
        .sends_hex(&digits(FOLLOW_UP), "general");
    s.event(at, &delay_req(0x2122).with_correction(c))
        .sends_hex(&digits(DELAY_RESP), "general");
    s.event(at, &pdelay_req(0x2324).with_correction(c))
        .sends_hex(&digits(RESPONSE), "event:3:8996:61708f9cadbecfd0e1f2:link");
    s.stamp(at, Context::PDelayResp(0x4142, CLIENT))
        .sends_hex(&digits(RESPONSE_FOLLOW_UP), "general:link");
    s.end(
        "bytes-of-a-master",
        "The packets of a Master spelled out; any field in the wrong place or of the wrong width \
         shows.",
        End::master().ids(1, 0, 0),
    )
}

fn of_delay_requests() -> Case {
    let mut s = Script::new(end_to_end(0));
    s.slave(MASTER).nothing();
    s.delay_timer(MIDDLE)
        .sends_hex(&digits(DELAY_REQ_0), "delay-timer:125000000,event:1:0");
    // Longer and full: nothing of it may stay in the next packet.
    s.event(distinct(), &pdelay_req(0x2324)).sends_hex(
        &digits(LOW_RESPONSE),
        "event:3:8996:61708f9cadbecfd0e1f2:link",
    );
    s.delay_timer(MIDDLE)
        .sends_hex(&digits(DELAY_REQ_1), "delay-timer:125000000,event:1:1");
    s.end(
        "bytes-of-delay-requests",
        "The end-to-end request spelled out, with origin and correction 0, also after a longer \
         packet lay in the buffer.",
        End::slave(MASTER).delay(1, None, None).ids(0, 2, 0),
    )
}

fn of_peer_requests() -> Case {
    let mut s = Script::new(peer(0));
    s.delay_timer(MIDDLE).sends_hex(
        &digits(PDELAY_REQ_0),
        "delay-timer:125000000,event:2:0:link",
    );
    s.stamp(distinct(), Context::PDelayResp(0x4142, CLIENT))
        .sends_hex(&digits(RESPONSE_FOLLOW_UP), "general:link");
    s.delay_timer(MIDDLE).sends_hex(
        &digits(PDELAY_REQ_1),
        "delay-timer:125000000,event:2:1:link",
    );
    s.end(
        "bytes-of-peer-requests",
        "The peer request spelled out, with ten bytes of 0 where the packet before it named its \
         requester.",
        End::listening().open(1, None, [None; 4]).ids(0, 0, 2),
    )
}

fn received_syncs() -> Case {
    let mut s = Script::new(end_to_end(0));
    s.slave(MASTER).nothing();
    s.event_bytes(units(1_000_000_500), &bytes(THEIR_SYNC))
        .nothing();
    let raw = duration(482) + 65_536;
    s.general_bytes(&bytes(THEIR_FOLLOW_UP))
        .sync(raw, units(1_000_000_500) + STEP, None);
    s.request_delay(0);
    let at = units(1_000_000_020);
    s.stamp(at, Context::DelayReq(0)).nothing();
    // 20 - 13 ns, and half of 475 ns and a step.
    s.general_bytes(&bytes(THEIR_DELAY_RESP))
        .delay(duration(7), at, Some((475 << 31) + 32_768));
    s.end(
        "bytes-of-received-syncs",
        "Sync, FollowUp and DelayResp spelled out; any field read from the wrong place gives other \
         numbers.",
        End::slave(MASTER).raw(raw).ids(0, 1, 0),
    )
}

fn received_peer_answers() -> Case {
    let mut s = Script::new(peer(0));
    s.request_peer(0);
    s.stamp(units(100), Context::PDelayReq(0)).nothing();
    s.event_bytes(units(301), &bytes(THEIR_RESPONSE)).nothing();
    // ((300 - 100) - (52 - 32)) / 2
    s.general_bytes(&bytes(THEIR_RESPONSE_FOLLOW_UP))
        .peer(duration(90), units(300));
    s.end(
        "bytes-of-received-peer-answers",
        "PDelayResp and its follow-up spelled out; any field read from the wrong place gives other \
         numbers.",
        End::listening().done(0, PEER).ids(0, 0, 1),
    )
}
