//! Milliseconds into ticks of the main function.

use std::ops::RangeInclusive;

/// Periods that rule 1 allows, in milliseconds.
pub const PERIOD_MS: RangeInclusive<u64> = 1..=100;

/// The longest time that rule 2 allows, in milliseconds.
pub const LONGEST_MS: u64 = 65_535;

/// Turns a time into whole ticks of `period_ms`, a started tick counting full.
///
/// `Err` carries the broken rule: 1 for the period, which is looked at first,
/// and 2 for a time that is too long.
pub fn ticks(period_ms: u64, ms: u64) -> Result<u64, u8> {
    if !PERIOD_MS.contains(&period_ms) {
        return Err(1);
    }
    if ms > LONGEST_MS {
        return Err(2);
    }
    Ok(ms.div_ceil(period_ms))
}

#[cfg(test)]
mod tests {
    use super::*;

    #[test]
    fn the_four_conversions() {
        assert_eq!(ticks(20, 1_010), Ok(51));
        assert_eq!(ticks(20, 1_000), Ok(50));
        assert_eq!(ticks(20, 1), Ok(1));
        assert_eq!(ticks(20, 0), Ok(0));
    }

    #[test]
    fn ends_of_both_ranges() {
        assert_eq!(ticks(1, 65_535), Ok(65_535));
        assert_eq!(ticks(100, 65_535), Ok(656));
        assert_eq!(ticks(0, 10), Err(1));
        assert_eq!(ticks(101, 10), Err(1));
        assert_eq!(ticks(1, 65_536), Err(2));
        assert_eq!(ticks(1, u64::MAX), Err(2));
    }

    #[test]
    fn the_period_is_judged_first() {
        assert_eq!(ticks(0, 65_536), Err(1));
        assert_eq!(ticks(u64::MAX, u64::MAX), Err(1));
    }

    #[test]
    fn the_fewest_ticks_that_cover_the_time() {
        for period in PERIOD_MS {
            for ms in 0..=LONGEST_MS {
                let n = ticks(period, ms).unwrap();
                assert!(n * period >= ms);
                assert!(n == 0 || (n - 1) * period < ms);
            }
        }
    }
}
