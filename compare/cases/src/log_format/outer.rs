//! Damage to outer fields and to the configuration.

use super::{bad_first, damages, Damage};
use crate::cast::*;
use crate::script::Script;
use crate::Case;
use generate::build::{config_bytes, field, stated, Log, CONFIG};

pub fn all() -> Vec<Case> {
    let from_the_start = |(name, about, bytes): Damage| {
        // Nothing stands before the damage, not even a configuration.
        Script::on(Log::empty()).bad_at(0, &bytes, name, about)
    };
    let starts = [no_field(), configurations(), no_configuration()].concat();
    let firsts = [tags(), lengths()].concat();
    let behind = vec![behind_refusals(), behind_an_unfit_record(), far_behind()];
    [
        starts.into_iter().map(from_the_start).collect(),
        firsts.into_iter().map(bad_first).collect(),
        behind,
    ]
    .concat()
}

/// The configuration's content.
fn content() -> Vec<u8> {
    config_bytes(&BASE)
}

fn no_field() -> Vec<Damage> {
    let whole = field(CONFIG, &content());
    damages(
        "Less than a first field is bad at 0; a lax reader takes it for a log without events.",
        vec![
            ("log-empty", vec![]),
            ("log-one-byte", whole[..1].to_vec()),
            ("log-two-bytes", whole[..2].to_vec()),
            ("log-configuration-cut-off", whole[..35].to_vec()),
        ],
    )
}

fn configurations() -> Vec<Damage> {
    let short = &content()[..32];
    let long = [content(), vec![0]].concat();
    let mut mechanism = content();
    mechanism[14] = 0xFF;
    // Takes in the event behind it.
    let greedy = [stated(CONFIG, 36, &content()), field(0x13, &[])].concat();
    damages(
        "A configuration has 33 bytes and a mechanism of 0 or 1; a lax reader fills it up, cuts \
         it, or takes any other mechanism for peer.",
        vec![
            ("log-configuration-0-bytes", field(CONFIG, &[])),
            ("log-configuration-32-bytes", field(CONFIG, short)),
            ("log-configuration-34-bytes", field(CONFIG, &long)),
            ("log-configuration-36-bytes", greedy),
            ("log-mechanism-255", field(CONFIG, &mechanism)),
        ],
    )
}

fn no_configuration() -> Vec<Damage> {
    let late = [field(0x13, &[]), field(CONFIG, &content())].concat();
    damages(
        "The first field is a configuration; a lax reader starts with values of its own.",
        vec![
            ("log-event-first", late),
            ("log-unknown-tag-first", field(0x1F, &content())),
        ],
    )
}

fn tags() -> Vec<Damage> {
    damages(
        "A tag that is no event's, a second configuration's included; a lax reader skips the \
         field.",
        vec![
            ("log-tag-00", field(0x00, &[])),
            ("log-tag-0e", field(0x0E, &[1, 2, 3])),
            ("log-tag-0f-again", field(CONFIG, &content())),
            ("log-tag-17", field(0x17, &[])),
            ("log-tag-ff", field(0xFF, &[])),
        ],
    )
}

fn lengths() -> Vec<Damage> {
    damages(
        "A sync timer holds nothing, and no length goes past the end; a lax reader skips what is \
         there, or waits for more.",
        vec![
            ("log-sync-timer-1-byte", field(0x13, &[0])),
            ("log-length-65535", stated(0x10, 65_535, &[1, 0, 16])),
        ],
    )
}

fn behind_refusals() -> Case {
    let mut s = Script::new(end_to_end(0));
    s.event(1 << 127, &sync(1)).refused(3);
    s.delay_timer(1 << 52).refused(3);
    s.general_bytes(&[]).refused(4);
    // 36, then 3 + 19 + 3 + 44, 3 + 3 + 8 and 3 + 3.
    s.bad_at(
        125,
        &[0x11, 0, 3, 2, 0, 1],
        "log-bad-behind-refusals",
        "Refused events are good fields and the offset counts them; a reader that stops at the \
         first refusal writes less.",
    )
}

fn behind_an_unfit_record() -> Case {
    let sdo = 0x1000;
    let mut s = Script::new(Config { sdo, ..BASE });
    s.sync_timer().refused(2);
    s.set(NewState::Master).refused(2);
    // 36 + 3 + 7
    s.bad_at(
        46,
        &field(0x16, &[7, 0, 1, 9]),
        "log-bad-behind-unfit-record",
        "An unfit record answers 2 to good events only, a bad field is bad all the same; a port \
         that answers first writes a third line.",
    )
}

fn far_behind() -> Case {
    let mut s = Script::new(peer(0));
    for id in 0..70 {
        s.request_peer(id);
        s.general_bytes(&[0xAB; 1_000]).refused(4);
    }
    // A request has 3 + 3 + 8 bytes, a message of 1000 another 6.
    s.bad_at(
        36 + 70 * (14 + 1_006),
        &[0x14, 0, 0],
        "log-bad-far-behind",
        "A bad field behind 71,400 bytes of events, more than a reader's window of 64 KiB; one \
         that counts from its window is off.",
    )
}
