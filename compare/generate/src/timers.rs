//! Both timers at every interval, with the draws at the ends and in the middle.

use crate::stage::{config_of, Sink, Stage};
use plain::{Config, Mechanism, NewState};

pub fn write(sink: &mut Sink) {
    let half = 1u64 << 51;
    for mechanism in [Mechanism::EndToEnd, Mechanism::Peer] {
        for interval in -9..=16 {
            let right = config_of(mechanism);
            let config = Config {
                delay_interval: interval,
                sync_interval: interval,
                ..right
            };
            let mut stage = Stage::new(config);
            stage.set(NewState::Master);
            stage.sync_timer();
            stage.sync_timer();
            stage.slave();
            for draw in [
                0,
                1,
                2,
                half - 1,
                half,
                half + 1,
                2 * half - 2,
                2 * half - 1,
            ] {
                stage.delay_timer(draw);
            }
            // Draws with few and with many bits, where rounding goes either way.
            for bit in 0..52 {
                stage.delay_timer(1 << bit);
                stage.delay_timer(0x5_5555_5555_5555 >> bit);
            }
            stage.finish(&format!("timers-{mechanism:?}-{:02}", interval + 9), sink);
        }
    }
}
