//! Stand-in written for these comparisons: statime's own file was not supplied.
//! The data sets that a port reads, and a way to make a fresh port over them.

use core::cell::RefCell;

use rand::Rng;

use crate::{
    config::PortConfig,
    datastructures::{
        common::PortIdentity,
        datasets::{
            InternalCurrentDS, InternalDefaultDS, InternalParentDS, PathTraceDS, TimePropertiesDS,
        },
    },
    filters::Filter,
    port::{InBmca, Port},
};

#[derive(Debug, Default)]
pub struct PtpInstanceState {
    pub(crate) default_ds: InternalDefaultDS,
    pub(crate) current_ds: InternalCurrentDS,
    pub(crate) parent_ds: InternalParentDS,
    pub(crate) path_trace_ds: PathTraceDS,
    pub(crate) time_properties_ds: TimePropertiesDS,
}

pub trait PtpInstanceStateMutex {
    fn with_ref<T, F: FnOnce(&PtpInstanceState) -> T>(&self, f: F) -> T;
}

impl PtpInstanceStateMutex for RefCell<PtpInstanceState> {
    fn with_ref<T, F: FnOnce(&PtpInstanceState) -> T>(&self, f: F) -> T {
        f(&self.borrow())
    }
}

pub struct PtpInstance;

impl PtpInstance {
    /// The part of the data sets that the port's messages carry.
    pub fn state(sdo_id: u16, domain_number: u8) -> RefCell<PtpInstanceState> {
        let mut state = PtpInstanceState::default();
        state.default_ds.sdo_id.0 = sdo_id;
        state.default_ds.domain_number = domain_number;
        RefCell::new(state)
    }

    pub fn fresh_port<A, R: Rng, C, F: Filter>(
        state: &RefCell<PtpInstanceState>,
        config: PortConfig<A>,
        filter: F::Config,
        clock: C,
        identity: [u8; 10],
        rng: R,
    ) -> Port<'_, InBmca, A, R, C, F> {
        Port::new(
            state,
            config,
            filter,
            clock,
            PortIdentity::from_bytes(identity),
            rng,
        )
    }
}
