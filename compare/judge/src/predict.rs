//! The supplied Rust's packet, worked out from ours by the rules that docs/DIFFERENCES.md
//! lists. Nothing is left out of the comparison: each byte is either ours or given here.

use crate::{
    fields::Seen,
    hex::{hex, unhex},
};

/// The listed differences, with a name for the table.
#[derive(Clone, Copy, Debug, PartialEq, Eq)]
pub enum Rule {
    LogInterval,
    RequestMinor,
    RequestFlags,
    DelayRespCorrection,
    PDelayRespCorrection,
    FollowUpCorrection,
}

pub const RULES: [(Rule, &str); 6] = [
    (
        Rule::LogInterval,
        "log interval 0 in Sync, FollowUp and the three peer messages",
    ),
    (
        Rule::RequestMinor,
        "DelayResp has the request's minor version",
    ),
    (
        Rule::RequestFlags,
        "DelayResp has the request's flags, two-step apart",
    ),
    (
        Rule::DelayRespCorrection,
        "DelayResp's correction is ours + 2f",
    ),
    (
        Rule::PDelayRespCorrection,
        "PDelayResp's correction is ours + f",
    ),
    (
        Rule::FollowUpCorrection,
        "PDelayRespFollowUp's correction is 0",
    ),
];

/// A place in a packet where the two are known to differ: what 01 puts there, and what the
/// Rust does.
struct Place {
    at: usize,
    ours: Vec<u8>,
    theirs: Vec<u8>,
    rule: Rule,
}

impl Place {
    fn new(rule: Rule, at: usize, ours: &[u8], theirs: &[u8]) -> Place {
        let (ours, theirs) = (ours.to_vec(), theirs.to_vec());
        Place {
            at,
            ours,
            theirs,
            rule,
        }
    }

    fn correction(rule: Rule, ours: i64, theirs: i64) -> Place {
        Place::new(rule, 8, &ours.to_be_bytes(), &theirs.to_be_bytes())
    }
}

/// What f is: the upper 16 bits of a time's part below a nanosecond.
fn fraction(time: u128) -> i64 {
    i64::from(time as u32 >> 16)
}

/// The places of a packet of this kind. A sum that leaves 64 bits wraps: the stand-in for the
/// Rust's correction does, and 01 sends no such packet.
fn places(kind: u8, config: &[u8], event: Seen) -> Vec<Place> {
    let f = fraction(event.time);
    let (minor, sync_interval) = (config[13], config[16]);
    let interval = |ours: u8| Place::new(Rule::LogInterval, 33, &[ours], &[0]);
    let request = event.message;
    let asked = || i64::from_be_bytes(request[8..16].try_into().unwrap());
    match kind {
        0 | 8 => vec![interval(sync_interval)],
        2 => vec![interval(0x7f)],
        3 => {
            let (ours, theirs) = (asked().wrapping_sub(f), asked());
            let correction = Place::correction(Rule::PDelayRespCorrection, ours, theirs);
            vec![interval(0x7f), correction]
        }
        9 => {
            let (ours, theirs) = (asked().wrapping_sub(f), asked().wrapping_add(f));
            let flags = [request[6] & !0x02, request[7]];
            vec![
                Place::correction(Rule::DelayRespCorrection, ours, theirs),
                Place::new(Rule::RequestMinor, 1, &[minor << 4 | 2], &request[1..2]),
                Place::new(Rule::RequestFlags, 6, &[0; 2], &flags),
            ]
        }
        10 => vec![
            interval(0x7f),
            Place::correction(Rule::FollowUpCorrection, f, 0),
        ],
        _ => Vec::new(),
    }
}

/// Turns our packet into the one expected of the Rust, and says which rules changed a byte. Ours
/// must first be what 01 says in every such place; where it is not, that place is the error.
fn packet(ours: &mut [u8], config: &[u8], event: Seen) -> Result<Vec<Rule>, usize> {
    // An answer where nothing was asked: a program that is judged may write anything.
    if matches!(ours[0] & 15, 3 | 9) && event.message.len() < 34 {
        return Err(0);
    }
    let mut used = Vec::new();
    for Place {
        at,
        ours: own,
        theirs,
        rule,
    } in places(ours[0] & 15, config, event)
    {
        let place = &mut ours[at..at + own.len()];
        if place != own {
            return Err(at);
        }
        if place != theirs {
            place.copy_from_slice(&theirs);
            used.push(rule);
        }
    }
    Ok(used)
}

/// The line expected of the Rust where ours is `line`. The packet is the eighth field. A line
/// that is not 01's in one of the places can be matched by nothing.
pub fn line(line: &str, config: &[u8], event: Seen) -> (String, Vec<Rule>) {
    let mut fields: Vec<&str> = line.split(' ').collect();
    let Some(mut bytes) = fields.get(7).and_then(|text| unhex(text)) else {
        return (line.to_string(), Vec::new());
    };
    if bytes.len() < 34 {
        return (line.to_string(), Vec::new());
    }
    match packet(&mut bytes, config, event) {
        Ok(used) => {
            let text = hex(&bytes);
            fields[7] = &text;
            (fields.join(" "), used)
        }
        Err(at) => (
            format!("{line} (from byte {at} on not as 01 has it)"),
            Vec::new(),
        ),
    }
}

#[cfg(test)]
mod tests {
    use super::*;

    /// Half a nanosecond and a bit that the cut drops: f is 0x8000.
    const TIME: u128 = 5 << 32 | 0x8000_0001;

    /// Minor version 1, sync interval -3.
    fn config() -> Vec<u8> {
        let mut config = vec![0; 33];
        (config[13], config[16]) = (1, 0xfd);
        config
    }

    /// A packet as 01 has it, in answer to `request` where it is an answer.
    fn ours(kind: u8) -> Vec<u8> {
        let (interval, correction): (u8, i64) = match kind {
            0 | 8 => (0xfd, 0x1234),
            3 | 9 => (0x7f, 7 - 0x8000),
            10 => (0x7f, 0x8000),
            _ => (0x7f, 0),
        };
        let mut packet = vec![0; 54];
        (packet[0], packet[1], packet[33]) = (kind, 0x12, interval);
        packet[8..16].copy_from_slice(&correction.to_be_bytes());
        packet
    }

    /// Another minor version, all flags of byte 6, correction 7.
    fn request() -> Vec<u8> {
        let mut request = vec![0; 54];
        (request[1], request[6], request[7], request[15]) = (0x02, 0xff, 0xa5, 7);
        request
    }

    fn predicted(mut packet: Vec<u8>) -> Result<Vec<u8>, usize> {
        let event = Seen {
            time: TIME,
            message: &request(),
        };
        super::packet(&mut packet, &config(), event).map(|_| packet)
    }

    /// The packet of that kind with the given bytes changed.
    fn changed(kind: u8, changes: &[(usize, &[u8])]) -> Result<Vec<u8>, usize> {
        let mut packet = ours(kind);
        for (at, bytes) in changes {
            packet[*at..at + bytes.len()].copy_from_slice(bytes);
        }
        Ok(packet)
    }

    #[test]
    fn each_rule_changes_its_bytes_and_no_other() {
        let all = |correction: i64| correction.to_be_bytes();
        for kind in [0, 2, 8] {
            assert_eq!(predicted(ours(kind)), changed(kind, &[(33, &[0])]));
        }
        assert_eq!(predicted(ours(1)), Ok(ours(1)));
        assert_eq!(predicted(ours(3)), changed(3, &[(8, &all(7)), (33, &[0])]));
        let nine: [(usize, &[u8]); 3] = [(1, &[0x02]), (6, &[0xfd, 0xa5]), (8, &all(7 + 0x8000))];
        assert_eq!(predicted(ours(9)), changed(9, &nine));
        assert_eq!(
            predicted(ours(10)),
            changed(10, &[(8, &all(0)), (33, &[0])])
        );
    }

    /// Else a packet of ours that has the Rust's value would pass.
    #[test]
    fn ours_must_be_as_01_has_it() {
        for (kind, at) in [
            (0, 33),
            (8, 33),
            (2, 33),
            (3, 33),
            (10, 33),
            (3, 8),
            (9, 8),
            (10, 8),
        ] {
            let packet = changed(kind, &[(at, &[0x55])]).unwrap();
            assert_eq!(predicted(packet), Err(at), "{kind}");
        }
        assert_eq!(predicted(changed(9, &[(1, &[0x02])]).unwrap()), Err(1));
        assert_eq!(
            predicted(changed(9, &[(6, &[0xfd, 0xa5])]).unwrap()),
            Err(6)
        );
        let text = format!(
            "1 0 - - - - - {} general -",
            hex(&changed(0, &[(33, &[0])]).unwrap())
        );
        let (expected, _) = line(
            &text,
            &config(),
            Seen {
                time: TIME,
                message: &request(),
            },
        );
        assert_ne!(expected, text);
    }

    #[test]
    fn an_answer_needs_a_request() {
        for kind in [3, 9] {
            let event = Seen::default();
            assert_eq!(packet(&mut ours(kind), &config(), event), Err(0));
        }
    }

    #[test]
    fn a_line_without_a_packet_stays() {
        for text in ["1 0 - - - - - - - -", "end 0 - - - - - - 0:0:0", "bad at 0"] {
            assert_eq!(
                line(text, &config(), Seen::default()),
                (text.to_string(), vec![])
            );
        }
    }
}
