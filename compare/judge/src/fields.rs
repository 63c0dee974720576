//! The fields of an event log, as far as comparing, storing and shrinking need them.

/// Cuts fields of a one-byte tag and a two-byte length, and what is left when the next one
/// is cut short.
pub fn split_off(mut rest: &[u8]) -> (Vec<&[u8]>, &[u8]) {
    let mut fields = Vec::new();
    while let [_, high, low, ..] = rest {
        let length = usize::from(u16::from_be_bytes([*high, *low]));
        let Some((field, behind)) = rest.split_at_checked(3 + length) else {
            break;
        };
        fields.push(field);
        rest = behind;
    }
    (fields, rest)
}

/// The fields of a log that has nothing else.
pub fn split(log: &[u8]) -> Option<Vec<&[u8]>> {
    let (fields, rest) = split_off(log);
    rest.is_empty().then_some(fields)
}

/// What a prediction looks at in an event: its time and its message, if it has them.
#[derive(Clone, Copy, Default)]
pub struct Seen<'a> {
    pub time: u128,
    pub message: &'a [u8],
}

pub fn seen(event: &[u8]) -> Seen<'_> {
    let mut seen = Seen::default();
    for field in split(&event[3..]).unwrap_or_default() {
        match field[0] {
            1 => seen.time = u128::from_be_bytes(field[3..].try_into().unwrap_or_default()),
            2 => seen.message = &field[3..],
            _ => {}
        }
    }
    seen
}
