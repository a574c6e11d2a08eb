//! The configuration of a channel and the eight rules it has to pass.

use crate::ticks::{ticks, LONGEST_MS, PERIOD_MS};
use std::ops::{Range, RangeInclusive};

/// The longest PDU, and so the longest mask, PN vector and user data.
pub const MAX_BYTES: usize = 8;

/// Rule 2: times that have to be there.
const NEEDED_MS: RangeInclusive<u64> = 1..=LONGEST_MS;
/// Rule 2: times that may be 0.
const OPTIONAL_MS: RangeInclusive<u64> = 0..=LONGEST_MS;
/// Rule 2: the fast count and the node id.
const ONE_BYTE: RangeInclusive<u64> = 0..=255;
/// Rule 6.
const PDU_LENGTH: RangeInclusive<u64> = 1..=MAX_BYTES as u64;

/// Where a header field stands in the PDU.
#[derive(Clone, Copy, Debug, PartialEq, Eq)]
pub enum Position {
    /// The field is not in the PDU.
    Off,
    /// The first byte.
    Byte0,
    /// The second byte.
    Byte1,
    /// A number that is no position; rule 7 refuses it.
    Other,
}

impl Position {
    /// The position that a number names.
    pub fn from_number(number: u64) -> Self {
        match number {
            0 => Position::Byte0,
            1 => Position::Byte1,
            _ => Position::Other,
        }
    }

    /// Whether the field is in the PDU at all.
    pub fn is_on(self) -> bool {
        self != Position::Off
    }

    /// The byte the field stands in, if it stands in one.
    pub fn byte(self) -> Option<usize> {
        match self {
            Position::Byte0 => Some(0),
            Position::Byte1 => Some(1),
            Position::Off | Position::Other => None,
        }
    }
}

/// A configuration as it comes in, before any rule is judged. Times are in
/// milliseconds and numbers may have any value.
#[derive(Clone, Copy, Debug, PartialEq, Eq)]
pub struct Config {
    /// M, the period of the main function.
    pub period: u64,
    /// T, the NM timeout.
    pub timeout: u64,
    /// W, the wait before Bus-Sleep.
    pub wait: u64,
    /// R, the time in Repeat.
    pub repeat: u64,
    /// C, the message cycle.
    pub cycle: u64,
    /// O, the offset of the first message.
    pub offset: u64,
    /// IN, the number of fast messages.
    pub fast_count: u64,
    /// IC, the fast cycle.
    pub fast_cycle: u64,
    /// RS, the remote sleep time.
    pub remote: u64,
    /// Whether the channel only listens.
    pub passive: bool,
    /// L, the PDU length.
    pub length: u64,
    /// Where the source node id stands.
    pub sni: Position,
    /// Where the control bit vector stands.
    pub cbv: Position,
    /// The node's own id.
    pub node_id: u64,
    /// Whether the partial network part is on.
    pub pn_on: bool,
    /// F, the first PN byte of the PDU.
    pub pn_start: u64,
    /// N, the number of PN bytes.
    pub pn_len: u64,
    /// P, the PN reset time.
    pub pn_reset: u64,
    /// Whether the filter lets every message through.
    pub all_keep_awake: bool,
    /// The filter mask; only the first `mask_len` bytes are part of it.
    pub mask: [u8; MAX_BYTES],
    /// How many mask bytes came in, those that found no room included.
    pub mask_len: u64,
}

impl Config {
    /// Every number 0, every flag false, and header fields at the position of
    /// number 0. It breaks rule 1.
    pub const ZERO: Config = Config {
        period: 0,
        timeout: 0,
        wait: 0,
        repeat: 0,
        cycle: 0,
        offset: 0,
        fast_count: 0,
        fast_cycle: 0,
        remote: 0,
        passive: false,
        length: 0,
        sni: Position::Byte0,
        cbv: Position::Byte0,
        node_id: 0,
        pn_on: false,
        pn_start: 0,
        pn_len: 0,
        pn_reset: 0,
        all_keep_awake: false,
        mask: [0; MAX_BYTES],
        mask_len: 0,
    };

    /// The configuration of the paper's trace, where every time is a whole
    /// number of ticks: T 5, W 3, R 4, C 2.
    pub const EXAMPLE: Config = Config {
        period: 10,
        timeout: 50,
        wait: 30,
        repeat: 40,
        cycle: 20,
        length: 8,
        cbv: Position::Byte1,
        node_id: 33,
        ..Config::ZERO
    };

    /// H, the number of header fields that are on (0 to 2).
    pub fn header_len(&self) -> usize {
        header_len(self.sni, self.cbv)
    }

    /// The PDU length as a slice length.
    pub fn pdu_len(&self) -> usize {
        within_pdu(self.length)
    }

    /// The PN bytes of the PDU, none with PN off. Stands for something only
    /// if the configuration passes.
    pub fn pn_range(&self) -> Range<usize> {
        if !self.pn_on {
            return 0..0;
        }
        within_pdu(self.pn_start)..within_pdu(self.pn_start.saturating_add(self.pn_len))
    }

    /// The user data: what header and PN range leave of the PDU, which rule 8
    /// keeps in one piece. Stands for something only if the configuration
    /// passes.
    pub fn user_range(&self) -> Range<usize> {
        let (header, length) = (self.header_len(), self.pdu_len());
        let pn = self.pn_range();
        let (start, end) = if !self.pn_on {
            (header, length)
        } else if pn.start == header {
            (pn.end, length)
        } else {
            (header, pn.start)
        };
        start..end.max(start)
    }

    /// The mask bytes that are held.
    pub fn mask_bytes(&self) -> &[u8] {
        &self.mask[..within_pdu(self.mask_len)]
    }
}

/// The times of a configuration, in ticks.
#[derive(Clone, Copy, Debug, PartialEq, Eq)]
pub struct Times {
    /// T.
    pub timeout: u64,
    /// W.
    pub wait: u64,
    /// R.
    pub repeat: u64,
    /// C.
    pub cycle: u64,
    /// O.
    pub offset: u64,
    /// IC.
    pub fast_cycle: u64,
    /// RS.
    pub remote: u64,
    /// P.
    pub pn_reset: u64,
}

impl Times {
    fn of(cfg: &Config) -> Result<Times, u8> {
        let convert = |ms| ticks(cfg.period, ms);
        Ok(Times {
            timeout: convert(cfg.timeout)?,
            wait: convert(cfg.wait)?,
            repeat: convert(cfg.repeat)?,
            cycle: convert(cfg.cycle)?,
            offset: convert(cfg.offset)?,
            fast_cycle: convert(cfg.fast_cycle)?,
            remote: convert(cfg.remote)?,
            pn_reset: convert(cfg.pn_reset)?,
        })
    }

    /// Whether `of` gives these times. The configuration keeps rules 1 and 2.
    fn are_of(&self, cfg: &Config) -> bool {
        // The one multiple of the period that is not below the time and less
        // than a period above it.
        let comes_to = |ms: u64, ticks: u64| {
            ticks <= LONGEST_MS && (ms..ms + cfg.period).contains(&(ticks * cfg.period))
        };
        comes_to(cfg.timeout, self.timeout)
            && comes_to(cfg.wait, self.wait)
            && comes_to(cfg.repeat, self.repeat)
            && comes_to(cfg.cycle, self.cycle)
            && comes_to(cfg.offset, self.offset)
            && comes_to(cfg.fast_cycle, self.fast_cycle)
            && comes_to(cfg.remote, self.remote)
            && comes_to(cfg.pn_reset, self.pn_reset)
    }
}

/// The number of the first rule that is broken, 0 if the configuration passes.
pub fn first_broken_rule(cfg: &Config) -> u8 {
    checked_times(cfg).err().unwrap_or(0)
}

/// The times in ticks of a configuration that passes, or the first broken
/// rule.
pub fn checked_times(cfg: &Config) -> Result<Times, u8> {
    check_values(cfg)?;
    let times = Times::of(cfg)?;
    check_ticks_and_layout(cfg, &times)?;
    Ok(times)
}

/// Whether the configuration passes and comes to just these times. Says the
/// same as a comparison with `checked_times`, without its divisions.
pub fn passes_with(cfg: &Config, times: &Times) -> bool {
    check_values(cfg).is_ok() && times.are_of(cfg) && check_ticks_and_layout(cfg, times).is_ok()
}

/// Rules 1 and 2, which look at the numbers as they came.
fn check_values(cfg: &Config) -> Result<(), u8> {
    require(1, PERIOD_MS.contains(&cfg.period))?;
    require(2, values_in_bounds(cfg))
}

/// Rules 3 to 8; `times` are those of the configuration.
fn check_ticks_and_layout(cfg: &Config, times: &Times) -> Result<(), u8> {
    require(3, times.offset < times.cycle)?;
    require(4, cfg.fast_count == 0 || times.fast_cycle >= 1)?;
    require(5, times.timeout > times.cycle)?;
    check_header(cfg.sni, cfg.cbv, cfg.length)?;
    require(8, pn_part_fits(cfg, times))
}

/// Rules 6 and 7 alone: all that the place of SNI and CBV depends on.
pub(crate) fn check_header(sni: Position, cbv: Position, length: u64) -> Result<(), u8> {
    require(6, PDU_LENGTH.contains(&length))?;
    require(
        7,
        places_fit(sni, cbv) && header_len(sni, cbv) as u64 <= length,
    )
}

fn require(rule: u8, holds: bool) -> Result<(), u8> {
    if holds {
        Ok(())
    } else {
        Err(rule)
    }
}

/// Rule 2, in milliseconds. P is bounded here with PN off too.
fn values_in_bounds(cfg: &Config) -> bool {
    let needed = [cfg.timeout, cfg.wait, cfg.repeat, cfg.cycle];
    let optional = [cfg.offset, cfg.fast_cycle, cfg.remote, cfg.pn_reset];
    let bytes = [cfg.fast_count, cfg.node_id];
    needed.iter().all(|ms| NEEDED_MS.contains(ms))
        && optional.iter().all(|ms| OPTIONAL_MS.contains(ms))
        && bytes.iter().all(|value| ONE_BYTE.contains(value))
}

/// Rule 7 without the length: the fields that are on fill the first bytes of
/// the PDU, one byte each.
fn places_fit(sni: Position, cbv: Position) -> bool {
    use Position::{Byte0, Byte1, Off};
    matches!(
        (sni, cbv),
        (Off, Off) | (Byte0, Off) | (Off, Byte0) | (Byte0, Byte1) | (Byte1, Byte0)
    )
}

/// Rule 8.
fn pn_part_fits(cfg: &Config, times: &Times) -> bool {
    if !cfg.pn_on {
        return cfg.pn_start == 0 && cfg.pn_len == 0 && cfg.pn_reset == 0;
    }
    let Some(pn_end) = cfg.pn_start.checked_add(cfg.pn_len) else {
        return false;
    };
    let header = cfg.header_len() as u64;
    cfg.cbv.is_on()
        && cfg.pn_len >= 1
        && cfg.pn_start >= header
        && pn_end <= cfg.length
        && (cfg.pn_start == header || pn_end == cfg.length)
        && cfg.mask_len == cfg.pn_len
        && times.cycle < times.pn_reset
        && times.pn_reset < times.timeout
}

fn header_len(sni: Position, cbv: Position) -> usize {
    usize::from(sni.is_on()) + usize::from(cbv.is_on())
}

/// A number as a place in a PDU; one beyond the longest PDU becomes its end.
fn within_pdu(number: u64) -> usize {
    number.min(MAX_BYTES as u64) as usize
}

#[cfg(test)]
pub(crate) mod tests {
    use super::*;
    use crate::rng::Rng;

    pub(crate) const PLAIN: Config = Config::EXAMPLE;

    /// The layout of the paper's filter case: six bytes, PN in the last two.
    pub(crate) const PN: Config = Config {
        length: 6,
        pn_on: true,
        pn_start: 4,
        pn_len: 2,
        pn_reset: 30,
        mask: [0x01, 0x97, 0, 0, 0, 0, 0, 0],
        mask_len: 2,
        ..PLAIN
    };

    /// Every layout that passes: all lengths, header places and PN ranges.
    pub(crate) fn each_layout(mut visit: impl FnMut(&Config)) {
        use Position::{Byte0, Byte1, Off, Other};
        for length in 0..=9 {
            for sni in [Off, Byte0, Byte1, Other] {
                for cbv in [Off, Byte0, Byte1, Other] {
                    let plain = Config {
                        length,
                        sni,
                        cbv,
                        ..PLAIN
                    };
                    if first_broken_rule(&plain) == 0 {
                        visit(&plain);
                    }
                    for pn_start in 0..=9 {
                        for pn_len in 0..=9 {
                            let cfg = Config {
                                pn_on: true,
                                pn_start,
                                pn_len,
                                pn_reset: 30,
                                mask_len: pn_len,
                                ..plain
                            };
                            if first_broken_rule(&cfg) == 0 {
                                visit(&cfg);
                            }
                        }
                    }
                }
            }
        }
    }

    /// The first broken rule after one change to a configuration that passes.
    fn rule_of(base: Config, change: impl FnOnce(&mut Config)) -> u8 {
        assert_eq!(first_broken_rule(&base), 0);
        let mut cfg = base;
        change(&mut cfg);
        first_broken_rule(&cfg)
    }

    #[test]
    fn rule_1_period() {
        let slow = Config {
            period: 100,
            timeout: 500,
            wait: 300,
            repeat: 400,
            cycle: 200,
            ..PLAIN
        };
        assert_eq!(first_broken_rule(&slow), 0);
        assert_eq!(rule_of(slow, |c| c.period = 101), 1);
        assert_eq!(rule_of(slow, |c| c.period = 1), 0);
        assert_eq!(rule_of(slow, |c| c.period = 0), 1);
        assert_eq!(rule_of(slow, |c| c.period = u64::MAX), 1);
    }

    #[test]
    fn rule_2_bounds() {
        assert_eq!(rule_of(PLAIN, |c| c.timeout = 0), 2);
        assert_eq!(rule_of(PLAIN, |c| c.timeout = 65_535), 0);
        assert_eq!(rule_of(PLAIN, |c| c.timeout = 65_536), 2);
        assert_eq!(rule_of(PLAIN, |c| c.wait = 0), 2);
        assert_eq!(rule_of(PLAIN, |c| c.wait = 1), 0);
        assert_eq!(rule_of(PLAIN, |c| c.wait = 65_535), 0);
        assert_eq!(rule_of(PLAIN, |c| c.wait = 65_536), 2);
        assert_eq!(rule_of(PLAIN, |c| c.repeat = 0), 2);
        assert_eq!(rule_of(PLAIN, |c| c.repeat = 1), 0);
        assert_eq!(rule_of(PLAIN, |c| c.repeat = 65_535), 0);
        assert_eq!(rule_of(PLAIN, |c| c.repeat = 65_536), 2);
        assert_eq!(rule_of(PLAIN, |c| c.cycle = 0), 2);
        assert_eq!(rule_of(PLAIN, |c| c.cycle = 1), 0);
        assert_eq!(rule_of(PLAIN, |c| c.cycle = 65_536), 2);
        assert_eq!(rule_of(PLAIN, |c| c.offset = 65_536), 2);
        assert_eq!(rule_of(PLAIN, |c| c.fast_cycle = 65_535), 0);
        assert_eq!(rule_of(PLAIN, |c| c.fast_cycle = 65_536), 2);
        assert_eq!(rule_of(PLAIN, |c| c.remote = 65_535), 0);
        assert_eq!(rule_of(PLAIN, |c| c.remote = 65_536), 2);
        assert_eq!(rule_of(PLAIN, |c| c.pn_reset = 65_536), 2);
        assert_eq!(rule_of(PLAIN, |c| c.fast_count = 256), 2);
        assert_eq!(rule_of(PLAIN, |c| c.node_id = 0), 0);
        assert_eq!(rule_of(PLAIN, |c| c.node_id = 255), 0);
        assert_eq!(rule_of(PLAIN, |c| c.node_id = 256), 2);
        assert_eq!(rule_of(PLAIN, |c| c.node_id = u64::MAX), 2);
    }

    #[test]
    fn rule_3_compares_ticks() {
        let coarse = Config {
            period: 20,
            cycle: 20,
            ..PLAIN
        };
        assert_eq!(rule_of(coarse, |c| c.offset = 15), 3);
        assert_eq!(rule_of(coarse, |c| c.offset = 0), 0);
        assert_eq!(rule_of(PLAIN, |c| c.offset = 10), 0);
        assert_eq!(rule_of(PLAIN, |c| c.offset = 11), 3);
        assert_eq!(rule_of(PLAIN, |c| c.offset = 65_535), 3);
    }

    #[test]
    fn rule_4_fast_cycle() {
        assert_eq!(rule_of(PLAIN, |c| c.fast_count = 1), 4);
        assert_eq!(rule_of(PLAIN, |c| c.fast_count = 255), 4);
        let fast = |c: &mut Config| (c.fast_count, c.fast_cycle) = (255, 1);
        assert_eq!(rule_of(PLAIN, fast), 0);
    }

    #[test]
    fn rule_5_compares_ticks() {
        assert_eq!(rule_of(PLAIN, |c| c.timeout = 21), 0);
        assert_eq!(rule_of(PLAIN, |c| c.timeout = 20), 5);
        let same_ticks = |c: &mut Config| (c.timeout, c.cycle) = (20, 11);
        assert_eq!(rule_of(PLAIN, same_ticks), 5);
        assert_eq!(rule_of(PLAIN, |c| c.cycle = 65_535), 5);
    }

    #[test]
    fn rule_6_length() {
        assert_eq!(rule_of(PLAIN, |c| c.length = 8), 0);
        assert_eq!(rule_of(PLAIN, |c| c.length = 9), 6);
        assert_eq!(rule_of(PLAIN, |c| c.length = 0), 6);
        assert_eq!(rule_of(PLAIN, |c| c.length = u64::MAX), 6);
    }

    #[test]
    fn rule_7_header() {
        use Position::{Byte0, Byte1, Off, Other};
        let places = |sni, cbv| rule_of(PLAIN, |c| (c.sni, c.cbv) = (sni, cbv));
        for on in [Byte0, Byte1, Other] {
            let expected = if on == Byte0 { 0 } else { 7 };
            assert_eq!(places(on, Off), expected);
            assert_eq!(places(Off, on), expected);
            assert_eq!(places(on, on), 7);
            assert_eq!(places(on, Other), 7);
            assert_eq!(places(Other, on), 7);
        }
        assert_eq!(places(Off, Off), 0);
        assert_eq!(places(Byte0, Byte1), 0);
        assert_eq!(places(Byte1, Byte0), 0);

        assert_eq!(rule_of(PLAIN, |c| c.length = 2), 0);
        assert_eq!(rule_of(PLAIN, |c| c.length = 1), 7);
        let alone = Config {
            sni: Off,
            cbv: Byte0,
            ..PLAIN
        };
        assert_eq!(rule_of(alone, |c| c.length = 1), 0);
    }

    #[test]
    fn rule_8_pn_on() {
        assert_eq!(rule_of(PN, |c| c.cbv = Position::Off), 8);
        let no_bytes = |c: &mut Config| (c.pn_len, c.mask_len) = (0, 0);
        assert_eq!(rule_of(PN, no_bytes), 8);

        let range = |f, n| {
            rule_of(PN, |c| {
                (c.pn_start, c.pn_len, c.mask_len) = (f, n, n);
            })
        };
        assert_eq!(range(2, 1), 0);
        assert_eq!(range(2, 3), 0);
        assert_eq!(range(2, 4), 0);
        assert_eq!(range(3, 3), 0);
        assert_eq!(range(5, 1), 0);
        assert_eq!(range(3, 2), 8);
        assert_eq!(range(1, 5), 8);
        assert_eq!(range(2, 5), 8);
        assert_eq!(range(4, 3), 8);
        assert_eq!(range(6, 0), 8);
        assert_eq!(range(u64::MAX, 1), 8);
        assert_eq!(range(u64::MAX, u64::MAX), 8);
        assert_eq!(range(2, u64::MAX), 8);

        assert_eq!(rule_of(PN, |c| c.mask_len = 1), 8);
        assert_eq!(rule_of(PN, |c| c.mask_len = 3), 8);
        assert_eq!(rule_of(PN, |c| c.mask_len = u64::MAX), 8);
    }

    #[test]
    fn rule_8_compares_ticks() {
        assert_eq!(rule_of(PN, |c| c.pn_reset = 20), 8);
        assert_eq!(rule_of(PN, |c| c.pn_reset = 21), 0);
        assert_eq!(rule_of(PN, |c| c.pn_reset = 40), 0);
        assert_eq!(rule_of(PN, |c| c.pn_reset = 41), 8);
        assert_eq!(rule_of(PN, |c| c.pn_reset = 0), 8);
        let same_ticks = |c: &mut Config| (c.cycle, c.pn_reset) = (11, 20);
        assert_eq!(rule_of(PN, same_ticks), 8);
    }

    #[test]
    fn rule_8_pn_off() {
        assert_eq!(rule_of(PLAIN, |c| c.pn_start = 1), 8);
        assert_eq!(rule_of(PLAIN, |c| c.pn_len = 1), 8);
        assert_eq!(rule_of(PLAIN, |c| c.pn_reset = 1), 8);
        assert_eq!(rule_of(PLAIN, |c| c.pn_reset = 30), 8);
        assert_eq!(rule_of(PLAIN, |c| c.mask_len = 5), 0);
        assert_eq!(rule_of(PLAIN, |c| c.mask = [0xFF; 8]), 0);
        assert_eq!(rule_of(PLAIN, |c| c.all_keep_awake = true), 0);
    }

    #[test]
    fn the_first_of_several_is_named() {
        let mut cfg = Config {
            period: 0,
            wait: 0,
            offset: 20,
            fast_count: 1,
            timeout: 20,
            length: 9,
            sni: Position::Other,
            pn_len: 1,
            ..PLAIN
        };
        let repairs: [fn(&mut Config); 8] = [
            |c| c.period = 10,
            |c| c.wait = 30,
            |c| c.offset = 0,
            |c| c.fast_cycle = 10,
            |c| c.timeout = 50,
            |c| c.length = 8,
            |c| c.sni = Position::Byte0,
            |c| c.pn_len = 0,
        ];
        for (broken, repair) in (1..).zip(repairs) {
            assert_eq!(first_broken_rule(&cfg), broken);
            repair(&mut cfg);
        }
        assert_eq!(first_broken_rule(&cfg), 0);
    }

    #[test]
    fn times_in_ticks() {
        let times = checked_times(&Config {
            offset: 1,
            fast_cycle: 19,
            remote: 101,
            ..PN
        });
        let expected = Times {
            timeout: 5,
            wait: 3,
            repeat: 4,
            cycle: 2,
            offset: 1,
            fast_cycle: 2,
            remote: 11,
            pn_reset: 3,
        };
        assert_eq!(times, Ok(expected));
    }

    #[test]
    fn times_are_known_again_without_dividing() {
        for period in PERIOD_MS {
            for ms in (1..=300).chain(65_235..=LONGEST_MS) {
                let cfg = Config {
                    period,
                    timeout: LONGEST_MS,
                    wait: ms,
                    cycle: 1,
                    ..PLAIN
                };
                let times = checked_times(&cfg).unwrap();
                let exact = times.wait;
                for wait in [exact - 1, exact, exact + 1, exact + 100, LONGEST_MS + 1] {
                    let times = Times { wait, ..times };
                    assert_eq!(passes_with(&cfg, &times), wait == exact);
                }
            }
        }
        let times = checked_times(&PN).unwrap();
        let changes: [fn(&mut Times) -> &mut u64; 8] = [
            |t| &mut t.timeout,
            |t| &mut t.wait,
            |t| &mut t.repeat,
            |t| &mut t.cycle,
            |t| &mut t.offset,
            |t| &mut t.fast_cycle,
            |t| &mut t.remote,
            |t| &mut t.pn_reset,
        ];
        for field in changes {
            for change in [1, u64::MAX, 65_536, u64::MAX / 2] {
                let mut other = times;
                *field(&mut other) = field(&mut other).wrapping_add(change);
                assert!(!passes_with(&PN, &other));
            }
        }
        assert!(passes_with(&PN, &times));
        assert!(!passes_with(&Config { length: 9, ..PN }, &times));
        assert!(!passes_with(&Config { period: 0, ..PN }, &times));
    }

    #[test]
    fn ranges_share_out_the_pdu() {
        let mut layouts = 0;
        each_layout(|cfg| {
            layouts += 1;
            let (pn, user) = (cfg.pn_range(), cfg.user_range());
            assert_eq!(pn.len() as u64, cfg.pn_len);
            assert_eq!(pn.start as u64, cfg.pn_start);
            for byte in 0..cfg.pdu_len() {
                let owners = [
                    byte < cfg.header_len(),
                    pn.contains(&byte),
                    user.contains(&byte),
                ];
                assert_eq!(owners.iter().filter(|owns| **owns).count(), 1);
            }
            assert!(user.end <= cfg.pdu_len());
        });
        // By hand: without PN 8 + 2 * 8 + 2 * 7 layouts; with PN and b bytes
        // after the header, 2 b - 1 ranges, so b * b in all up to b.
        assert_eq!(layouts, 38 + 7 * 7 + 2 * 6 * 6);
    }

    #[test]
    fn no_values_stop_the_check() {
        let values = [
            0,
            1,
            2,
            4,
            7,
            8,
            9,
            10,
            30,
            100,
            101,
            255,
            256,
            65_535,
            65_536,
            4_294_967_296,
            9_999_999_999,
            u64::MAX - 1,
            u64::MAX,
        ];
        let mut rng = Rng::new(1);
        for _ in 0..200_000 {
            let mut cfg = if rng.chance(2) { PLAIN } else { PN };
            for _ in 0..=rng.below(6) {
                let value = *rng.pick(&values);
                match rng.below(19) {
                    0 => cfg.period = value,
                    1 => cfg.timeout = value,
                    2 => cfg.wait = value,
                    3 => cfg.repeat = value,
                    4 => cfg.cycle = value,
                    5 => cfg.offset = value,
                    6 => cfg.fast_count = value,
                    7 => cfg.fast_cycle = value,
                    8 => cfg.remote = value,
                    9 => cfg.passive = value == 1,
                    10 => cfg.length = value,
                    11 => cfg.sni = Position::from_number(value),
                    12 => cfg.cbv = Position::from_number(value),
                    13 => cfg.node_id = value,
                    14 => cfg.pn_on = value == 1,
                    15 => cfg.pn_start = value,
                    16 => cfg.pn_len = value,
                    17 => cfg.pn_reset = value,
                    _ => cfg.mask_len = value,
                }
            }
            assert!(first_broken_rule(&cfg) <= 8);
            let some = checked_times(&PN).unwrap();
            let times = checked_times(&cfg).unwrap_or(some);
            assert_eq!(passes_with(&cfg, &times), first_broken_rule(&cfg) == 0);
            assert!(cfg.header_len() <= 2);
            assert!(cfg.pn_range().end <= MAX_BYTES);
            assert!(cfg.user_range().end <= MAX_BYTES);
            assert!(cfg.mask_bytes().len() <= MAX_BYTES);
        }
    }
}
