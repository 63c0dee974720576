//! Logs that are damaged in one place, and good ones that look odd.

mod inner;
mod outer;
mod values;

use crate::cast::*;
use crate::record::End;
use crate::script::Script;
use crate::Case;

pub fn all() -> Vec<Case> {
    [
        outer::all(),
        inner::all(),
        values::all(),
        vec![odd_but_good()],
    ]
    .concat()
}

/// Where the first event of a log stands: behind a configuration of 3 + 33 bytes.
const FIRST: usize = 36;

/// A case's name, what it is about, and the damaged bytes.
type Damage = (&'static str, &'static str, Vec<u8>);

/// Fields that are damaged in the same way.
fn damages(about: &'static str, fields: Vec<(&'static str, Vec<u8>)>) -> Vec<Damage> {
    let fields = fields.into_iter();
    fields.map(|(name, bytes)| (name, about, bytes)).collect()
}

/// The damaged field comes first, and a good event behind it must not be reached.
fn bad_first((name, about, damage): Damage) -> Case {
    let rest = [damage, vec![0x16, 0, 4, 7, 0, 1, 1]].concat();
    Script::new(BASE).bad_at(FIRST, &rest, name, about)
}

fn odd_but_good() -> Case {
    let mut s = Script::new(end_to_end(0));
    s.filter(None, None).nothing();
    s.general_bytes(&[]).refused(4);
    s.event_bytes(0, &[]).refused(4);
    // Whatever a message holds is no business of the log's reader.
    s.general_bytes(&[0xFF; 1_024]).refused(4);
    s.event_bytes(0, &[0x0F; 1_024]).refused(4);
    s.general_bytes(&[0x16, 0, 4, 7, 0, 1, 1]).refused(4);
    s.slave([0; 10]).nothing();
    s.event(5, &by([0; 10], sync(0))).sync(5, 5, None);
    s.delay_timer(0)
        .sends(&sent(1, 0), "delay-timer:0,event:1:0");
    s.end(
        "log-odd-but-good",
        "Empty fields, the largest message, a message that looks like a field and an identity of \
         zeros are all good; a strict reader calls the log bad.",
        End::slave([0; 10]).delay(0, None, None).raw(5).ids(0, 1, 0),
    )
}
