//! Reading 19: draws and the timers they make.

use crate::cast::*;
use crate::record::End;
use crate::script::Script;
use crate::Case;

pub fn all() -> Vec<Case> {
    vec![rounding(), rounding_longest(), timer_of_nothing()]
}

/// Draws with the delay timers that they make.
fn draws(s: &mut Script, draws: &[(u64, u64)]) {
    for (id, (draw, ns)) in (0..).zip(draws) {
        s.delay_timer(*draw)
            .sends(&sent(2, id), &format!("delay-timer:{ns},event:2:{id}:link"));
    }
}

fn rounding() -> Case {
    let mut s = Script::new(peer(0));
    // With n = -3 a timer is (2k + 1) * 5^9 / 2^46 ns. These draws leave 2^45 + 1 or
    // 2^45 - 1 of 2^46 behind the whole nanoseconds, as near to a half as can be.
    draws(
        &mut s,
        &[
            (25_430_989_426_230, 1_411_704),
            (2_242_046_431_022_646, 124_458_579),
            (4_493_846_244_707_894, 249_458_579),
            (9_753_382_662_601, 541_421),
            (2_226_368_824_259_017, 123_588_296),
            (4_478_168_637_944_265, 248_588_296),
            // The first draw that makes a nanosecond, and the one before it.
            (9_007_199, 1),
            (9_007_198, 0),
            (1 << 51, 125_000_000),
        ],
    );
    s.end(
        "reading-19-rounding",
        "Reading 19: nearest, decided by the last bit beside a half; floating point or cutting is \
         one nanosecond off in some.",
        End::listening().open(8, None, [None; 4]).ids(0, 0, 9),
    )
}

fn rounding_longest() -> Case {
    let delay_interval = 16;
    let mut s = Script::new(Config {
        delay_interval,
        ..peer(0)
    });
    // With n = 16 it is (2k + 1) * 5^9 / 2^27 ns.
    draws(
        &mut s,
        &[
            (51_858_998, 1_509_296),
            (4_503_599_612_120_630, 131_071_999_556_171),
            (15_249_865, 443_829),
            (4_503_599_575_511_497, 131_071_998_490_704),
            (12_345_678_901, 359_306_546),
            (17, 1),
            (16, 0),
            ((1 << 52) - 1, 131_072_000_000_000),
            (MIDDLE, 65_536_000_000_000),
        ],
    );
    s.end(
        "reading-19-rounding-longest",
        "Reading 19 at the longest interval, where the product needs 83 bits before it is divided; \
         64 bits overflow.",
        End::listening().open(8, None, [None; 4]).ids(0, 0, 9),
    )
}

fn timer_of_nothing() -> Case {
    let delay_interval = -9;
    let mut s = Script::new(Config {
        delay_interval,
        ..peer(0)
    });
    draws(
        &mut s,
        &[
            (0, 0),
            (576_460_751, 0),
            (576_460_752, 1),
            (27_345_568_707_017, 23_718),
            (2_224_454_244_978_230, 1_929_407),
            ((1 << 52) - 1, 3_906_250),
        ],
    );
    s.end(
        "reading-19-zero-timer",
        "Reading 19: draw 0 makes a delay timer of 0 ns, and the request is sent; a port that \
         wants a timer above 0 refuses.",
        End::listening().open(5, None, [None; 4]).ids(0, 0, 6),
    )
}
