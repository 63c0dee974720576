//! Damage to contexts and states, whose first byte chooses their width.

use super::{bad_first, damages, Damage};
use crate::cast::*;
use crate::Case;
use generate::build::{field, joined};

pub fn all() -> Vec<Case> {
    [kinds(), context_widths(), states(), state_widths()]
        .concat()
        .into_iter()
        .map(bad_first)
        .collect()
}

fn stamp(context: &[u8]) -> Vec<u8> {
    field(0x12, &joined(&[(1, vec![0; 16]), (3, context.to_vec())]))
}

fn set(state: &[u8]) -> Vec<u8> {
    field(0x16, &field(7, state))
}

/// The beginning with so many bytes of an identity, and zeros behind the tenth.
fn long(beginning: &[u8], bytes: usize) -> Vec<u8> {
    let identity = PEER.into_iter().chain([0; 2]).take(bytes);
    beginning.iter().copied().chain(identity).collect()
}

fn kinds() -> Vec<Damage> {
    damages(
        "A context of a kind above 3; a reader that tests for 0 to 2 takes it for the last.",
        vec![
            ("log-context-kind-4", stamp(&[4, 0, 1])),
            ("log-context-kind-4-long", stamp(&long(&[4, 0, 1], 10))),
            ("log-context-kind-255", stamp(&[255, 0, 1])),
        ],
    )
}

fn context_widths() -> Vec<Damage> {
    damages(
        "A context is 3 bytes long, 13 if its kind is 3; a lax reader drops or makes up an identity.",
        vec![
            ("log-context-0-bytes", stamp(&[])),
            ("log-context-1-byte", stamp(&[0])),
            ("log-context-4-bytes", stamp(&[2, 0, 1, 0])),
            ("log-sync-context-long", stamp(&long(&[0, 0, 1], 10))),
            ("log-delay-req-context-long", stamp(&long(&[1, 0, 1], 10))),
            ("log-pdelay-req-context-long", stamp(&long(&[2, 0, 1], 10))),
            ("log-pdelay-resp-context-3", stamp(&[3, 0, 1])),
            ("log-pdelay-resp-context-12", stamp(&long(&[3, 0, 1], 9))),
            ("log-pdelay-resp-context-14", stamp(&long(&[3, 0, 1], 11))),
        ],
    )
}

fn states() -> Vec<Damage> {
    damages(
        "A state above 4; a lax reader takes it for one of the five.",
        vec![
            ("log-state-5", set(&[5])),
            ("log-state-5-long", set(&long(&[5], 10))),
            ("log-state-255", set(&[255])),
        ],
    )
}

fn state_widths() -> Vec<Damage> {
    damages(
        "A state has 1 byte, or 11 for Slave; a lax reader drops or makes up an identity.",
        vec![
            ("log-state-0-bytes", set(&[])),
            ("log-listening-long", set(&long(&[0], 10))),
            ("log-master-2-bytes", set(&[1, 0])),
            ("log-slave-1-byte", set(&[4])),
            ("log-slave-10-bytes", set(&long(&[4], 9))),
            ("log-slave-12-bytes", set(&long(&[4], 11))),
        ],
    )
}
