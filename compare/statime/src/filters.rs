//! Stand-in written for these comparisons: statime's own file was not supplied.
//! The calls that the port makes of a filter. What a filter does is the host's.

use crate::{port::Measurement, time::Duration, Clock};

#[derive(Debug, Clone, Copy, Default)]
pub struct FilterUpdate {
    pub next_update: Option<core::time::Duration>,
    pub mean_delay: Option<Duration>,
}

#[derive(Debug, Clone, Copy, Default)]
pub struct FilterEstimate;

pub trait Filter {
    type Config: Clone;

    fn new(config: Self::Config) -> Self;
    fn measurement<C: Clock>(&mut self, m: Measurement, clock: &mut C) -> FilterUpdate;
    fn update<C: Clock>(&mut self, clock: &mut C) -> FilterUpdate;
    fn demobilize<C: Clock>(self, clock: &mut C);
    fn current_estimates(&self) -> FilterEstimate;
}
