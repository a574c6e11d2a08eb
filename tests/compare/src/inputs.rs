//! Random inputs: configurations that pass, built so that they do, and damaged ones.

use crate::product::NUMBERS;
use cannm_reference::config::{Config, Position, MAX_BYTES};
use cannm_reference::rng::Rng;

/// Numbers at the edges of what is told apart, of the types that could hold them, and of ten digits.
pub const EDGES: [u64; 48] = [
    0,
    1,
    2,
    3,
    4,
    6,
    7,
    8,
    9,
    10,
    16,
    20,
    63,
    64,
    99,
    100,
    101,
    127,
    128,
    254,
    255,
    256,
    257,
    264,
    356,
    511,
    512,
    65_534,
    65_535,
    65_536,
    65_537,
    65_544,
    65_636,
    131_071,
    0x7FFF_FFFF,
    0x8000_0000,
    0xFFFF_FFFE,
    0xFFFF_FFFF,
    0x1_0000_0000,
    0x1_0000_0001,
    0x1_0000_0008,
    1_000_000_000,
    9_999_999_999,
    0x7FFF_FFFF_FFFF_FFFF,
    0x8000_0000_0000_0000,
    0xFFFF_FFFF_FFFF_FFF8,
    u64::MAX - 1,
    u64::MAX,
];

/// The number that stands for a header field that is off.
pub const OFF: u64 = 255;

/// The longest time, in milliseconds.
pub const LONGEST: u64 = 65_535;

// The places of the numbers of a configuration.
pub const PERIOD: usize = 0;
pub const TIMEOUT: usize = 1;
pub const WAIT: usize = 2;
pub const REPEAT: usize = 3;
pub const CYCLE: usize = 4;
pub const OFFSET: usize = 5;
pub const FAST_COUNT: usize = 6;
pub const FAST_CYCLE: usize = 7;
pub const REMOTE: usize = 8;
pub const PASSIVE: usize = 9;
pub const LENGTH: usize = 10;
pub const SNI: usize = 11;
pub const CBV: usize = 12;
pub const NODE_ID: usize = 13;
pub const PN_ON: usize = 14;
pub const PN_START: usize = 15;
pub const PN_LEN: usize = 16;
pub const PN_RESET: usize = 17;
pub const KEEP_AWAKE: usize = 18;
pub const MASK_LEN: usize = 19;

/// A configuration as it is handed to the product.
#[derive(Clone, Debug)]
pub struct Handed {
    pub numbers: [u64; NUMBERS],
    /// The mask bytes that are lent; how many of them count is one of the numbers.
    pub mask: Vec<u8>,
}

impl Handed {
    /// The same configuration for the reference.
    pub fn config(&self) -> Config {
        let n = &self.numbers;
        let position = |number| match number {
            OFF => Position::Off,
            _ => Position::from_number(number),
        };
        let mut mask = [0; MAX_BYTES];
        for (to, from) in mask.iter_mut().zip(&self.mask) {
            *to = *from;
        }
        Config {
            period: n[PERIOD],
            timeout: n[TIMEOUT],
            wait: n[WAIT],
            repeat: n[REPEAT],
            cycle: n[CYCLE],
            offset: n[OFFSET],
            fast_count: n[FAST_COUNT],
            fast_cycle: n[FAST_CYCLE],
            remote: n[REMOTE],
            passive: n[PASSIVE] != 0,
            length: n[LENGTH],
            sni: position(n[SNI]),
            cbv: position(n[CBV]),
            node_id: n[NODE_ID],
            pn_on: n[PN_ON] != 0,
            pn_start: n[PN_START],
            pn_len: n[PN_LEN],
            pn_reset: n[PN_RESET],
            all_keep_awake: n[KEEP_AWAKE] != 0,
            mask,
            mask_len: n[MASK_LEN],
        }
    }
}

/// From `first` to `last`, both included; each of the two ends more often than the rest.
pub fn between(rng: &mut Rng, first: u64, last: u64) -> u64 {
    match rng.below(8) {
        0 => first,
        1 => last,
        2 => first + rng.below((last - first + 1).min(4)),
        _ => first + rng.below(last - first + 1),
    }
}

/// A time in milliseconds that lasts so many ticks.
pub fn lasting(rng: &mut Rng, period: u64, ticks: u64) -> u64 {
    if ticks == 0 {
        return 0;
    }
    between(rng, (ticks - 1) * period + 1, (ticks * period).min(LONGEST))
}

/// A configuration that passes every rule.
pub fn passing(rng: &mut Rng) -> Handed {
    let mut n = [0; NUMBERS];
    n[PERIOD] = between(rng, 1, 100);
    let most = LONGEST.div_ceil(n[PERIOD]);
    let most = if rng.chance(2) { most.min(8) } else { most };

    // the header, and with it whether PN can be on
    let places: [(u64, u64); 5] = [(OFF, OFF), (0, OFF), (OFF, 0), (0, 1), (1, 0)];
    let (sni, cbv) = *rng.pick(&places);
    let header = u64::from(sni != OFF) + u64::from(cbv != OFF);
    n[SNI] = sni;
    n[CBV] = cbv;
    n[LENGTH] = between(rng, header.max(1), 8);
    let pn_on = cbv != OFF && n[LENGTH] > header && !rng.chance(4);

    // O < C < T, and with PN on C < P < T, in ticks
    let cycle = between(rng, 1, most - if pn_on { 2 } else { 1 });
    let timeout = between(rng, cycle + if pn_on { 2 } else { 1 }, most);
    let offset = between(rng, 0, cycle - 1);
    n[CYCLE] = lasting(rng, n[PERIOD], cycle);
    n[TIMEOUT] = lasting(rng, n[PERIOD], timeout);
    n[OFFSET] = lasting(rng, n[PERIOD], offset);
    n[WAIT] = between(rng, 1, LONGEST);
    n[REPEAT] = between(rng, 1, LONGEST);
    n[REMOTE] = between(rng, 0, LONGEST);
    n[FAST_COUNT] = between(rng, 0, 255);
    n[FAST_CYCLE] = between(rng, n[FAST_COUNT].min(1), LONGEST);
    n[NODE_ID] = between(rng, 0, 255);
    n[PASSIVE] = rng.below(2);
    n[KEEP_AWAKE] = rng.below(2);

    if pn_on {
        let length = between(rng, 1, n[LENGTH] - header);
        let reset = between(rng, cycle + 1, timeout - 1);
        n[PN_ON] = 1;
        n[PN_LEN] = length;
        n[PN_START] = if rng.chance(2) {
            header
        } else {
            n[LENGTH] - length
        };
        n[PN_RESET] = lasting(rng, n[PERIOD], reset);
        n[MASK_LEN] = length;
    } else {
        n[MASK_LEN] = *rng.pick(&[0, 0, 1, 8, 9, u64::MAX]);
    }
    let mut mask = vec![0; rng.below(11) as usize];
    rng.fill(&mut mask);
    Handed { numbers: n, mask }
}

/// Some number, of any size.
pub fn number(rng: &mut Rng) -> u64 {
    match rng.below(4) {
        0 => rng.next_u64() >> rng.below(64),
        1 => rng.below(10_000_000_000),
        _ => *rng.pick(&EDGES),
    }
}

/// Another number than `value`, near it or far from it.
fn changed(rng: &mut Rng, value: u64) -> u64 {
    match rng.below(6) {
        0 => value.wrapping_add(1),
        1 => value.wrapping_sub(1),
        // the same in its low bits
        2 => value.wrapping_add(1 << *rng.pick(&[8, 16, 31, 32, 63])),
        3 => rng.below(12),
        _ => number(rng),
    }
}

/// Breaks one relation between two fields, or moves it to its edge.
fn bend(rng: &mut Rng, n: &mut [u64; NUMBERS]) {
    let period = n[PERIOD].clamp(1, 100);
    let near = |rng: &mut Rng, ms: u64| {
        let ticks = ms.min(LONGEST).div_ceil(period) + rng.below(3);
        lasting(
            rng,
            period,
            ticks.saturating_sub(1).clamp(1, LONGEST.div_ceil(period)),
        )
    };
    match rng.below(8) {
        0 => n[OFFSET] = near(rng, n[CYCLE]),
        1 => n[TIMEOUT] = near(rng, n[CYCLE]),
        2 => (n[FAST_COUNT], n[FAST_CYCLE]) = (1 + rng.below(255), rng.below(2)),
        3 => (n[SNI], n[CBV]) = (*rng.pick(&[0, 1, OFF]), *rng.pick(&[0, 1, 2, OFF])),
        4 => n[PN_RESET] = near(rng, n[CYCLE]),
        5 => n[PN_RESET] = near(rng, n[TIMEOUT]),
        // a range somewhere in the PDU or across its end, the mask along with it
        6 => {
            (n[PN_START], n[PN_LEN]) = (rng.below(9), rng.below(9));
            n[MASK_LEN] = n[PN_LEN];
        }
        // a range whose end wraps round to the end of the PDU
        _ => {
            n[PN_LEN] = n[LENGTH].wrapping_sub(n[PN_START]);
            if rng.chance(2) {
                n[PN_START] = rng.next_u64() | 1 << 63;
                n[PN_LEN] = n[LENGTH].wrapping_sub(n[PN_START]);
            }
            n[MASK_LEN] = n[PN_LEN];
        }
    }
}

/// A configuration with one or several changes, each of which may or may not break a rule.
pub fn damaged(rng: &mut Rng) -> Handed {
    let mut handed = passing(rng);
    let changes = if rng.chance(2) { 1 } else { 1 + rng.below(4) };
    for _ in 0..changes {
        if rng.chance(3) {
            bend(rng, &mut handed.numbers);
            continue;
        }
        let field = rng.below(NUMBERS as u64) as usize;
        let value = &mut handed.numbers[field];
        *value = match field {
            PASSIVE | PN_ON | KEEP_AWAKE => 1 - *value,
            _ => changed(rng, *value),
        };
    }
    handed
}

/// A configuration of any numbers at all.
pub fn wild(rng: &mut Rng) -> Handed {
    let mut handed = passing(rng);
    for (field, value) in handed.numbers.iter_mut().enumerate() {
        *value = match field {
            PASSIVE | PN_ON | KEEP_AWAKE => rng.below(2),
            _ => number(rng),
        };
    }
    handed
}

/// A length: mostly the right one, else one beside it or any up to `most`.
pub fn length(rng: &mut Rng, right: usize, most: usize) -> usize {
    let other = match rng.below(12) {
        0 => right + 1,
        1 => right.saturating_sub(1),
        2 => rng.below(most as u64 + 1) as usize,
        _ => right,
    };
    other.min(most)
}
