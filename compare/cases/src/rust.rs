//! The smallest log of each listed difference of the supplied Rust (docs/DIFFERENCES.md), one
//! packet each, in which nothing else differs where that can be had.

use crate::cast::*;
use crate::record::End;
use crate::script::Script;
use crate::Case;

pub fn all() -> Vec<Case> {
    let mut all = vec![sync_interval(), follow_up_interval(), pdelay_req_interval()];
    all.extend([pdelay_resp_interval(), pdelay_resp_follow_up_interval()]);
    all.extend([
        delay_resp_minor(),
        delay_resp_flags(),
        delay_resp_correction(),
    ]);
    all.extend([pdelay_resp_correction(), pdelay_resp_follow_up_correction()]);
    all
}

/// 44 ns and 0x1234 steps of a correction, and a bit less than one more, which is cut off.
const AT: u128 = (44 << 32) | 0x1234_FFFF;
const F: i64 = 0x1234;

fn master() -> Script {
    let mut s = Script::new(end_to_end(0));
    s.set(NewState::Master).nothing();
    s
}

/// With our own minor version, so that only what a case is about differs.
fn request() -> Message {
    in_version(BASE.minor, 2, delay_req(5))
}

fn sync_interval() -> Case {
    let mut s = master();
    s.send_sync(0);
    let about = "Sync bears the sync interval; the Rust sets none.";
    s.end(
        "difference-sync-interval",
        about,
        End::master().ids(1, 0, 0),
    )
}

fn follow_up_interval() -> Case {
    let mut s = master();
    s.stamp(units(44), Context::Sync(5))
        .sends(&sent(8, 5).with_ns(44), "general");
    let about = "FollowUp bears the sync interval; the Rust sets none.";
    s.end("difference-follow-up-interval", about, End::master())
}

fn pdelay_req_interval() -> Case {
    let mut s = Script::new(peer(0));
    s.request_peer(0);
    let end = End::listening().open(0, None, [None; 4]).ids(0, 0, 1);
    let about = "PDelayReq has 0x7F for its interval; the Rust sets none.";
    s.end("difference-pdelay-req-interval", about, end)
}

fn pdelay_resp_interval() -> Case {
    let mut s = Script::new(peer(0));
    s.event(units(44), &pdelay_req(5)).answers(3, 5, 44);
    let about = "PDelayResp has 0x7F for its interval; the Rust sets none.";
    s.end("difference-pdelay-resp-interval", about, End::listening())
}

fn pdelay_resp_follow_up_interval() -> Case {
    let mut s = Script::new(peer(0));
    s.stamp(units(44), Context::PDelayResp(5, CLIENT))
        .answers(10, 5, 44);
    let about = "PDelayRespFollowUp has 0x7F for its interval; the Rust sets none.";
    s.end(
        "difference-pdelay-resp-follow-up-interval",
        about,
        End::listening(),
    )
}

fn delay_resp_minor() -> Case {
    let mut s = master();
    s.event(units(44), &in_version(0, 2, request()))
        .answers(9, 5, 44);
    let about = "DelayResp has our minor version; the Rust copies the request's.";
    s.end("difference-delay-resp-minor-version", about, End::master())
}

fn delay_resp_flags() -> Case {
    let mut s = master();
    s.event(units(44), &request().with_flags(0xFFFF))
        .answers(9, 5, 44);
    let about = "DelayResp has no flag; the Rust copies the request's, two-step apart.";
    s.end("difference-delay-resp-flags", about, End::master())
}

fn delay_resp_correction() -> Case {
    let mut s = master();
    let packet = sent(9, 5).with_ns(44).with_requester(CLIENT);
    s.event(AT, &request())
        .sends(&packet.with_correction(-F), "general");
    let about = "DelayResp carries the request's correction less f; the Rust adds f.";
    s.end("difference-delay-resp-correction", about, End::master())
}

fn pdelay_resp_correction() -> Case {
    let mut s = Script::new(peer(0));
    let packet = sent(3, 5).with_ns(44).with_requester(CLIENT);
    s.event(AT, &pdelay_req(5))
        .sends(&packet.with_correction(-F), &answers_peer(5, CLIENT));
    let about = "PDelayResp carries the request's correction less f; the Rust leaves f out.";
    s.end("difference-pdelay-resp-correction", about, End::listening())
}

fn pdelay_resp_follow_up_correction() -> Case {
    let mut s = Script::new(peer(0));
    let packet = sent(10, 5).with_ns(44).with_requester(CLIENT);
    s.stamp(AT, Context::PDelayResp(5, CLIENT))
        .sends(&packet.with_correction(F), "general:link");
    let about = "PDelayRespFollowUp carries f; the Rust sets no correction.";
    s.end(
        "difference-pdelay-resp-follow-up-correction",
        about,
        End::listening(),
    )
}
