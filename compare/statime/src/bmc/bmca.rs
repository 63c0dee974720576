//! Stand-in written for these comparisons: statime's own file was not supplied.
//! Choosing a master is the host's: nothing here decides anything.

use crate::datastructures::common::{PortIdentity, TimeInterval};

#[derive(Debug)]
pub(crate) struct BestAnnounceMessage;

#[derive(Debug)]
pub(crate) struct Bmca<A> {
    _acceptable_master_list: A,
}

impl<A> Bmca<A> {
    pub(crate) fn new(list: A, _announce_interval: TimeInterval, _own: PortIdentity) -> Self {
        Bmca {
            _acceptable_master_list: list,
        }
    }
}
