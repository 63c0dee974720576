//! Rows for reading a log (01, 'Event log'; readings 1 to 6).

use super::reader::{Bad, Fault, Reading, Wrong};
use plain::Event;

type Test = Box<dyn Fn(&Reading) -> bool>;

pub struct LogRow {
    pub name: String,
    pub test: Test,
    pub domain: u64,
    pub beyond: u64,
}

const EVENTS: [u8; 7] = [0x10, 0x11, 0x12, 0x13, 0x14, 0x15, 0x16];
/// Event and inner tags that belong together, with a fixed length.
const SIZED: [(u8, u8); 7] = [
    (0x10, 1),
    (0x12, 1),
    (0x12, 3),
    (0x14, 4),
    (0x15, 5),
    (0x15, 6),
    (0x16, 7),
];

struct Rows(Vec<LogRow>);

impl Rows {
    fn add(&mut self, name: &str, test: impl Fn(&Reading) -> bool + 'static) {
        let name = format!("log: {name}");
        self.0.push(LogRow {
            name,
            test: Box::new(test),
            domain: 0,
            beyond: 0,
        });
    }

    fn bad(&mut self, name: &str, test: impl Fn(&Fault) -> bool + 'static) {
        self.add(&format!("bad, {name}"), move |reading| {
            reading.fault.as_ref().is_some_and(&test)
        });
    }

    fn same(&mut self, name: &str, tag: u8, bad: Bad) {
        self.bad(name, move |fault| fault.tag == tag && fault.bad == bad);
    }
}

pub fn rows() -> Vec<LogRow> {
    let mut rows = Rows(Vec::new());
    outer(&mut rows);
    config(&mut rows);
    for tag in EVENTS {
        event(&mut rows, tag);
    }
    inner(&mut rows);
    choices(&mut rows);
    good(&mut rows);
    rows.0
}

fn outer(rows: &mut Rows) {
    rows.bad("empty log", |fault| fault.bad == Bad::Empty);
    for count in [1, 2] {
        rows.bad(
            &format!("{count} bytes behind the last field"),
            move |fault| fault.at > 0 && fault.bad == Bad::Tail(count),
        );
        rows.bad(&format!("a log of {count} bytes"), move |fault| {
            fault.at == 0 && fault.bad == Bad::Tail(count)
        });
    }
    for (low, high) in [(0, 0x0E), (0x10, 0x16), (0x17, 0xFF)] {
        rows.bad(
            &format!("first tag 0x{low:02x} to 0x{high:02x}"),
            move |fault| fault.bad == Bad::FirstTag && (low..=high).contains(&fault.tag),
        );
    }
    for (low, high) in [(0, 0x0E), (0x17, 0x7F), (0x80, 0xFF)] {
        rows.bad(
            &format!("event tag 0x{low:02x} to 0x{high:02x}"),
            move |fault| fault.bad == Bad::OuterTag && (low..=high).contains(&fault.tag),
        );
    }
    rows.add("bad, behind good events", |reading| {
        reading.fault.is_some() && !reading.events.is_empty()
    });
    rows.add("bad, first event", |reading| {
        reading.fault.is_some() && reading.events.is_empty() && reading.config.is_some()
    });
}

fn config(rows: &mut Rows) {
    for wrong in [Wrong::Zero, Wrong::OneLess, Wrong::OneMore, Wrong::Other] {
        rows.same(
            &format!("configuration length {wrong:?}"),
            0x0F,
            Bad::ConfigLength(wrong),
        );
    }
    for mechanism in [2, 3, 128, 255] {
        rows.same(
            &format!("mechanism {mechanism}"),
            0x0F,
            Bad::Mechanism(mechanism),
        );
    }
    rows.same("configuration past the end", 0x0F, Bad::PastEnd);
    rows.same("second configuration", 0x0F, Bad::SecondConfig);
}

fn event(rows: &mut Rows, tag: u8) {
    rows.same(&format!("0x{tag:02x} past the end"), tag, Bad::PastEnd);
    if tag == 0x13 {
        return rows.same("0x13 with content", tag, Bad::Content);
    }
    for count in [1, 2] {
        let name = format!("0x{tag:02x}, {count} bytes behind its fields");
        rows.same(&name, tag, Bad::InnerTail(count));
    }
    rows.same(
        &format!("0x{tag:02x}, inner past the end"),
        tag,
        Bad::InnerPastEnd,
    );
    for inner in [0, 8, 255] {
        rows.same(
            &format!("0x{tag:02x}, inner tag {inner}"),
            tag,
            Bad::UnknownInner(inner),
        );
    }
    rows.bad(
        &format!("0x{tag:02x}, inner tag of another event"),
        move |fault| fault.tag == tag && matches!(fault.bad, Bad::NotTaken(_)),
    );
}

fn inner(rows: &mut Rows) {
    for (tag, inner) in SIZED {
        let name = format!("0x{tag:02x}, length of {inner}");
        for wrong in [Wrong::Zero, Wrong::OneLess, Wrong::OneMore] {
            // One less than the single byte of most states is zero; a whole one with
            // an identity is told apart by its length.
            rows.same(&format!("{name} {wrong:?}"), tag, Bad::Length(inner, wrong));
        }
    }
    for tag in [0x10, 0x11] {
        let bad = Bad::Length(2, Wrong::OneMore);
        rows.same(&format!("0x{tag:02x}, message of 1025 bytes"), tag, bad);
    }
    for (tag, inner) in SIZED.into_iter().chain([(0x10, 2), (0x11, 2)]) {
        rows.same(
            &format!("0x{tag:02x}, {inner} twice"),
            tag,
            Bad::Repeated(inner),
        );
        if tag != 0x15 {
            rows.same(
                &format!("0x{tag:02x}, {inner} missing"),
                tag,
                Bad::Missing(inner),
            );
        }
    }
    for (tag, inner) in [(0x10, 1), (0x12, 1), (0x15, 5)] {
        rows.same(
            &format!("0x{tag:02x}, fields swapped"),
            tag,
            Bad::Order(inner),
        );
    }
}

fn choices(rows: &mut Rows) {
    for kind in [4, 5, 255] {
        rows.same(
            &format!("context kind {kind}"),
            0x12,
            Bad::ContextKind(kind),
        );
    }
    rows.same(
        "context kind 3 without identity",
        0x12,
        Bad::IdentityMissing(3),
    );
    for kind in 0..3 {
        let bad = Bad::IdentityTooMuch(kind);
        rows.same(&format!("context kind {kind} with identity"), 0x12, bad);
    }
    for state in [5, 6, 255] {
        rows.same(&format!("state {state}"), 0x16, Bad::StateValue(state));
    }
    rows.same("Slave without identity", 0x16, Bad::IdentityMissing(4));
    for state in 0..4 {
        let bad = Bad::IdentityTooMuch(state);
        rows.same(&format!("state {state} with identity"), 0x16, bad);
    }
}

fn good(rows: &mut Rows) {
    rows.add("good, configuration alone", |reading| {
        reading.fault.is_none() && reading.events.is_empty()
    });
    for length in [0, 1024] {
        rows.add(
            &format!("good, message of {length} bytes"),
            move |reading| {
                let long = |event: &Event| match event {
                    Event::Event { message, .. } | Event::General { message } => {
                        message.len() == length
                    }
                    _ => false,
                };
                reading.fault.is_none() && reading.events.iter().any(long)
            },
        );
    }
    rows.add("good, damaged or not, with events", |reading| {
        reading.fault.is_none() && !reading.events.is_empty()
    });
}
