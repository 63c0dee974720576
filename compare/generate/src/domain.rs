//! Which events may stand in a log that the existing library is run on as well
//! (01, last section).

use crate::build::table_length;
use plain::Event;

/// The folder a log goes to.
#[derive(Clone, Copy, Debug, PartialEq, Eq)]
pub enum Part {
    Domain,
    Beyond,
}

/// Whether an event answered by `number` stays in the differential domain.
pub fn holds(event: &Event, number: u8) -> bool {
    let sound = match event {
        Event::Event { message, .. } | Event::General { message } => comparable(message),
        _ => true,
    };
    sound && matches!(number, 0 | 4 | 5 | 6)
}

/// Read strictly: a message for the host stays out even where its answer is 4, 5 or 6,
/// and a type without a row in the table counts with the largest length of the table.
/// The domain loses nothing by it that the other logs do not hold.
fn comparable(message: &[u8]) -> bool {
    let Some(kind) = message.first().map(|byte| byte & 15) else {
        return true;
    };
    let most = match kind {
        11..=13 => return false,
        4..=7 | 14 | 15 => 54,
        _ => table_length(kind),
    };
    match message.get(2..4) {
        Some(stated) => usize::from(stated[0]) << 8 | usize::from(stated[1]) <= most,
        None => true,
    }
}

#[cfg(test)]
mod tests {
    use super::*;

    #[test]
    fn lengths_and_types() {
        let message = |kind: u8, stated: u8| {
            let mut bytes = vec![0; 60];
            (bytes[0], bytes[1], bytes[3]) = (kind, 2, stated);
            bytes
        };
        assert!(comparable(&message(0, 44)) && !comparable(&message(0, 45)));
        assert!(comparable(&message(9, 54)) && !comparable(&message(9, 55)));
        assert!(!comparable(&message(11, 34)));
        assert!(comparable(&[]) && comparable(&[0, 2, 255]));
        assert!(!holds(&Event::SyncTimer, 3) && holds(&Event::SyncTimer, 0));
    }
}
