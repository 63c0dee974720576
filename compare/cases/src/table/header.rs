//! Rows 4 and 5: version, lengths and type.

use crate::cast::*;
use crate::record::End;
use crate::script::Script;
use crate::Case;

pub fn all() -> Vec<Case> {
    vec![
        too_short_for_a_version(),
        versions(),
        too_short_for_a_header(),
        bodies_cut_off(),
        stated_short(),
        stated_beyond(),
        stated_long(),
        unlisted_types(),
    ]
}

/// One message of each type of the table, all of which a Slave would look at.
pub fn of_each_type() -> Vec<Message> {
    vec![
        sync(1),
        delay_req(1),
        pdelay_req(1),
        response(1),
        follow_up(1),
        delay_resp(1),
        response_follow_up(1),
    ]
}

pub fn slave() -> Script {
    let mut s = Script::new(end_to_end(0));
    s.slave(MASTER).nothing();
    s
}

/// The same bytes on both entries.
pub fn both(s: &mut Script, bytes: &[u8], number: u8) {
    s.event_bytes(units(9), bytes).refused(number);
    s.general_bytes(bytes).refused(number);
}

fn too_short_for_a_version() -> Case {
    let mut s = slave();
    both(&mut s, &[], 4);
    both(&mut s, &[0xA0], 4);
    both(&mut s, &[0x02], 4);
    both(&mut s, &[0xA0, 0x01], 4);
    both(&mut s, &[0xA0, 0x20], 4);
    both(&mut s, &[0xA0, 0x02], 5);
    both(&mut s, &[0xA0, 0x12], 5);
    s.end(
        "row-4-shorter-than-2",
        "Row 4: no byte or one has no version; two bytes of version 2 are row 5's. A port that \
         wants 34 bytes first answers 5.",
        End::slave(MASTER),
    )
}

fn versions() -> Case {
    let mut s = slave();
    for version in [0, 1, 3, 10, 15] {
        // The minor version 2 stands in the other half of the byte.
        let wrong = |message| in_version(2, version, message);
        s.event(units(9), &wrong(sync(1))).refused(4);
        s.general(&wrong(follow_up(1))).refused(4);
        // For rows 5 and 6 as well.
        s.general(&wrong(follow_up(1).with_length(3))).refused(4);
        s.general(&wrong(of_type(5, follow_up(1)))).refused(4);
        s.general(&wrong(foreign(follow_up(1)))).refused(4);
    }
    for (id, minor) in [(1, 0), (2, 1), (3, 2), (4, 15)] {
        s.event(units(9), &in_version(minor, 2, sync(id).with_ns(5)))
            .sync(duration(4), units(9), None);
    }
    s.end(
        "row-4-versions",
        "Row 4: the low half of byte 1 must be 2, the high half is not read, and 4 comes before 5 \
         and 6; with the halves swapped the answers are, too.",
        End::slave(MASTER).raw(duration(4)),
    )
}

fn too_short_for_a_header() -> Case {
    let mut s = slave();
    for message in of_each_type() {
        let bytes = message.to_bytes();
        for length in [2, 33, 34] {
            both(&mut s, &bytes[..length], 5);
        }
    }
    s.end(
        "row-5-shorter-than-34",
        "Row 5: up to 33 bytes there is no header, and 34 hold no body of any listed type; a port \
         that reads on regardless is out of bounds.",
        End::slave(MASTER),
    )
}

fn bodies_cut_off() -> Case {
    let mut s = slave();
    for message in of_each_type() {
        let bytes = message.to_bytes();
        both(&mut s, &bytes[..bytes.len() - 1], 5);
        // Shorter, and honest about it.
        let honest = message.with_length(bytes.len() as u16 - 1).to_bytes();
        both(&mut s, &honest[..bytes.len() - 1], 5);
    }
    s.event(units(9), &sync(1).with_ns(5))
        .sync(duration(4), units(9), None);
    s.end(
        "row-5-body-cut-off",
        "Row 5: one byte less than stated is refused for every type, and so is one byte less than \
         the table's; 44 bytes of Sync are enough.",
        End::slave(MASTER).raw(duration(4)),
    )
}

fn stated_short() -> Case {
    let mut s = slave();
    for message in of_each_type() {
        let there = message.to_bytes().len() as u16;
        for length in [0, 33, 34, there - 1] {
            let short = message.clone().with_length(length).with_extra(&[0; 20]);
            both(&mut s, &short.to_bytes(), 5);
        }
    }
    // Row 5 before row 6.
    s.event(units(9), &foreign(sync(1)).with_length(43))
        .refused(5);
    s.event(units(9), &foreign(sync(1))).refused(6);
    // Bytes behind the stated length do not matter.
    s.event(units(9), &sync(1).with_ns(5).with_extra(&[0xFF; 20]))
        .sync(duration(4), units(9), None);
    s.end(
        "row-5-stated-short",
        "Row 5: the stated length counts, not what is there: below 34 or short of the table's it \
         is refused; a port that goes by the bytes there answers 0.",
        End::slave(MASTER).raw(duration(4)),
    )
}

fn stated_beyond() -> Case {
    let mut s = slave();
    for message in of_each_type() {
        let there = message.to_bytes().len() as u16;
        for length in [there + 1, 0x0100 + there, u16::MAX] {
            both(&mut s, &message.clone().with_length(length).to_bytes(), 5);
        }
    }
    s.end(
        "row-5-stated-beyond",
        "Row 5: a stated length above what is there is refused, one byte or 65,000; a port that \
         reads only its low byte answers 0.",
        End::slave(MASTER),
    )
}

fn stated_long() -> Case {
    let mut s = slave();
    for (id, length) in [(1, 45), (2, 64), (3, 1_024)] {
        let extra = vec![0xCD; usize::from(length) - 44];
        let message = sync(id).with_ns(5).with_extra(&extra);
        s.event(units(9), &message.clone().with_length(length))
            .sync(duration(4), units(9), None);
        s.event(units(9), &message.with_length(length + 1))
            .refused(5);
    }
    let request = pdelay_req(4).with_extra(&[1, 2, 3]).with_length(57);
    s.event(units(9), &request).answers(3, 4, 9);
    s.end(
        "row-5-stated-long",
        "Row 5, just inside: a stated length above the table's is good as long as the bytes are \
         there; a port that wants the table's own answers 5.",
        End::slave(MASTER).raw(duration(4)),
    )
}

fn unlisted_types() -> Case {
    let mut s = slave();
    for kind in [4, 5, 6, 7, 14, 15] {
        let message = of_type(kind, sync(1)).with_extra(&[0; 20]);
        both(&mut s, &message.to_bytes(), 5);
        both(&mut s, &message.clone().with_length(34).to_bytes(), 5);
        // Row 5 before row 6.
        both(&mut s, &foreign(message).to_bytes(), 5);
    }
    s.end(
        "row-5-unlisted-types",
        "Row 5: types 4 to 7, 14 and 15 are refused even with room to spare and in a foreign \
         domain; a port that ignores them answers 0 or 6.",
        End::slave(MASTER),
    )
}
