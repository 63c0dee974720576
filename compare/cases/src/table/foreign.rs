//! Rows 6 and 8: other domains, and what is the host's.

use super::header::{both, of_each_type, slave};
use crate::cast::*;
use crate::record::End;
use crate::script::Script;
use crate::Case;

pub fn all() -> Vec<Case> {
    vec![
        every_bit_of_it(),
        foreign_before_range(),
        host_before_range(),
        host_in_every_state(),
    ]
}

/// High half of the sdo id, its low byte, and the domain, by one bit each.
const FOREIGN: [(u16, u8); 4] = [(0xB5C, 0x7B), (0xA5D, 0x7B), (0xADC, 0x7B), (0xA5C, 0x7A)];

fn every_bit_of_it() -> Case {
    let mut s = slave();
    for message in of_each_type() {
        for (sdo, domain) in FOREIGN {
            let message = in_domain(sdo, domain, message.clone());
            both(&mut s, &message.to_bytes(), 6);
        }
    }
    // The two bytes swapped, and the zero of many a port.
    for (sdo, domain) in [(0xA7B, 0x5C), (0, 0)] {
        both(&mut s, &in_domain(sdo, domain, sync(1)).to_bytes(), 6);
    }
    s.end(
        "row-6-foreign",
        "Row 6: both halves of the sdo id and the domain must be ours, on both entries; a port \
         that leaves one out answers 0.",
        End::slave(MASTER),
    )
}

fn foreign_before_range() -> Case {
    let mut s = slave();
    let early = sync(1).with_correction(i64::MAX);
    s.event(0, &foreign(early.clone())).refused(6);
    s.event(0, &early).refused(7);
    s.event(LATE, &foreign(pdelay_req(1))).refused(6);
    s.event(LATE, &pdelay_req(1)).refused(7);
    for kind in 11..=13 {
        let host = of_type(kind, early.clone());
        for (sdo, domain) in FOREIGN {
            both(&mut s, &in_domain(sdo, domain, host.clone()).to_bytes(), 6);
        }
        s.general(&host).refused(8);
    }
    s.end(
        "row-6-before-8-and-7",
        "Row 6 comes before rows 8 and 7; a port that works its sums out first answers 7 to a \
         foreign message.",
        End::slave(MASTER),
    )
}

fn host_before_range() -> Case {
    let mut s = slave();
    for kind in 11..=13 {
        for correction in [i64::MIN, -1, 1, i64::MAX] {
            let message = of_type(kind, sync(1)).with_correction(correction);
            s.event(0, &message).refused(8);
            s.event(TOP, &message).refused(8);
            s.general(&message).refused(8);
        }
    }
    s.end(
        "row-8-before-7",
        "Row 8: messages of the host are left to it before any sum; a port that corrects every \
         receive time answers 7.",
        End::slave(MASTER),
    )
}

fn host_in_every_state() -> Case {
    let mut s = Script::new(peer(0));
    for (state, reset) in [
        (NewState::Listening, false),
        (NewState::Master, false),
        (NewState::Passive, false),
        (NewState::Slave(MASTER), false),
        (NewState::Faulty, true),
    ] {
        s.set(state).resets(reset);
        for kind in 11..=13 {
            // As long as an Announce.
            let message = of_type(kind, sync(1)).with_extra(&[0; 20]).with_length(64);
            s.event(units(9), &message).refused(8);
            s.general(&message).refused(8);
        }
    }
    s.end(
        "row-8-every-state",
        "Row 8: Announce, Signaling and Management are the host's in every state and on both \
         entries; a port that drops them answers 0.",
        End::faulty(),
    )
}
