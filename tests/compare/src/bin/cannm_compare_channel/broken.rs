//! Ways to break exactly one condition of a sound channel.

use crate::counts::Cases;
use crate::state::{held, in_mask, Condition, CONDITIONS, MOST_TICKS};
use cannm_compare::inputs::{lasting, number, LONGEST};
use cannm_reference::channel::{Channel, State, PN_BITS};
use cannm_reference::config::{first_broken_rule, Config, Position, Times};
use cannm_reference::rng::Rng;
use State::{BusSleep, NormalOperation, PrepareBusSleep, ReadySleep, RepeatMessage};

/// A way to break a condition.
pub struct Way {
    pub text: &'static str,
    pub condition: Condition,
    /// Changes the channel; false where this channel cannot be changed so.
    change: fn(&mut Rng, &mut Channel) -> bool,
}

impl Way {
    /// The channel changed so that this condition alone is broken, if that can be.
    pub fn broken(&self, rng: &mut Rng, sound: &Channel) -> Option<Channel> {
        let mut channel = *sound;
        if !(self.change)(rng, &mut channel) {
            return None;
        }
        let mut expected = [true; CONDITIONS];
        expected[self.condition.place()] = false;
        (held(&channel) == expected).then_some(channel)
    }
}

fn set<T>(place: &mut T, value: T) -> bool {
    *place = value;
    true
}

/// A number above a bound, up to what a timer holds.
fn over(rng: &mut Rng, place: &mut u64, bound: u64) -> bool {
    if bound >= MOST_TICKS {
        return false;
    }
    let room = MOST_TICKS - bound;
    *place = match rng.below(4) {
        0 => bound + 1,
        1 => MOST_TICKS,
        2 => bound + 1 + rng.below(room.min(8)),
        _ => bound + 1 + rng.below(room),
    };
    true
}

/// Any time in ticks but 0.
fn some(rng: &mut Rng, place: &mut u64) -> bool {
    over(rng, place, 0)
}

/// Other ticks than those of the configuration.
fn off(rng: &mut Rng, place: &mut u64) -> bool {
    let old = *place;
    *place = match rng.below(5) {
        0 => old.saturating_sub(1),
        1 => 0,
        2 => MOST_TICKS,
        3 => rng.below(MOST_TICKS + 1),
        _ => old + 1,
    };
    *place <= MOST_TICKS
}

/// Puts a timer of those bits that are wanted at a number within `from..=to`.
fn time_bit(
    rng: &mut Rng,
    timers: &mut [u16; PN_BITS],
    wanted: impl Fn(usize) -> bool,
    (from, to): (u64, u64),
) -> bool {
    let bits: Vec<usize> = (0..PN_BITS).filter(|bit| wanted(*bit)).collect();
    if bits.is_empty() || from > to {
        return false;
    }
    let value = match rng.below(3) {
        0 => from,
        1 => to,
        _ => from + rng.below(to - from + 1),
    };
    timers[*rng.pick(&bits)] = value as u16;
    true
}

/// A bit of the PN bytes that is not in the mask.
fn beside_mask(cfg: &Config, bit: usize) -> bool {
    bit / 8 < cfg.pn_range().len() && !in_mask(cfg, bit)
}

/// A bit past the PN bytes.
fn past(cfg: &Config, bit: usize) -> bool {
    cfg.pn_on && bit / 8 >= cfg.pn_range().len()
}

/// A time of the configuration and its ticks.
fn last(rng: &mut Rng, channel: &mut Channel, ticks: u64, field: Field) -> bool {
    let period = channel.config.period;
    if ticks > LONGEST.div_ceil(period) {
        return false;
    }
    let (ms, kept) = field(&mut channel.config, &mut channel.times);
    *ms = lasting(rng, period, ticks);
    *kept = ticks;
    true
}

type Field = for<'a> fn(&'a mut Config, &'a mut Times) -> (&'a mut u64, &'a mut u64);

/// A number that breaks rule 2.
fn too_much(rng: &mut Rng, most: u64) -> u64 {
    (most + 1).saturating_add(number(rng))
}

fn break_rule_2(rng: &mut Rng, cfg: &mut Config) -> bool {
    match rng.below(10) {
        0 => cfg.node_id = too_much(rng, 255),
        1 => cfg.fast_count = too_much(rng, 255),
        2 => cfg.offset = too_much(rng, LONGEST),
        3 => cfg.fast_cycle = too_much(rng, LONGEST),
        4 => cfg.remote = too_much(rng, LONGEST),
        5 => cfg.pn_reset = too_much(rng, LONGEST),
        field => {
            let value = if rng.chance(2) {
                0
            } else {
                too_much(rng, LONGEST)
            };
            match field {
                6 => cfg.timeout = value,
                7 => cfg.wait = value,
                8 => cfg.repeat = value,
                _ => cfg.cycle = value,
            }
        }
    }
    true
}

fn break_rule_8(rng: &mut Rng, channel: &mut Channel) -> bool {
    let cfg = &mut channel.config;
    if cfg.pn_on {
        return match rng.below(5) {
            0 => set(&mut cfg.mask_len, cfg.pn_len + 1 + rng.below(3)),
            1 => set(&mut cfg.mask_len, cfg.pn_len - 1),
            2 => set(&mut cfg.pn_start, rng.below(9)),
            3 => {
                let ticks = channel.times.timeout + rng.below(3);
                last(rng, channel, ticks, |c, t| {
                    (&mut c.pn_reset, &mut t.pn_reset)
                })
            }
            _ => {
                let ticks = channel.times.cycle.saturating_sub(rng.below(3));
                last(rng, channel, ticks, |c, t| {
                    (&mut c.pn_reset, &mut t.pn_reset)
                })
            }
        };
    }
    match rng.below(4) {
        0 => set(&mut cfg.pn_start, 1 + rng.below(8)),
        1 => set(&mut cfg.pn_len, 1 + rng.below(8)),
        2 => set(&mut cfg.pn_on, true),
        _ => last(rng, channel, 1, |c, t| (&mut c.pn_reset, &mut t.pn_reset)),
    }
}

/// Changes the configuration, with its ticks, so that a rule is the first that it breaks.
fn rule(rng: &mut Rng, channel: &mut Channel, rule: u8) -> bool {
    let cfg = &mut channel.config;
    let changed = match rule {
        1 => {
            let period = if rng.chance(4) { 0 } else { too_much(rng, 100) };
            set(&mut cfg.period, period)
        }
        2 => break_rule_2(rng, cfg),
        3 => {
            let ticks = channel.times.cycle + rng.below(3);
            last(rng, channel, ticks, |c, t| (&mut c.offset, &mut t.offset))
        }
        4 if cfg.fast_count == 0 => set(&mut cfg.fast_count, 1 + rng.below(255)),
        4 => last(rng, channel, 0, |c, t| {
            (&mut c.fast_cycle, &mut t.fast_cycle)
        }),
        5 => {
            let ticks = channel.times.timeout + rng.below(3);
            last(rng, channel, ticks, |c, t| (&mut c.cycle, &mut t.cycle))
        }
        6 => {
            let length = if rng.chance(4) { 0 } else { too_much(rng, 8) };
            set(&mut cfg.length, length)
        }
        7 => {
            use Position::{Byte0, Byte1, Off, Other};
            let places = [Off, Byte0, Byte1, Other];
            cfg.sni = *rng.pick(&places);
            set(&mut cfg.cbv, *rng.pick(&places))
        }
        _ => break_rule_8(rng, channel),
    };
    changed && first_broken_rule(&channel.config) == rule
}

macro_rules! ways {
    ($($condition:ident { $($text:literal $change:expr;)* })*) => {
        pub const WAYS: &[Way] = &[
            $($(Way { text: $text, condition: Condition::$condition, change: $change },)*)*
        ];
    };
}

ways! {
    Config {
        "configuration: rule 1" |r, c| rule(r, c, 1);
        "configuration: rule 2" |r, c| rule(r, c, 2);
        "configuration: rule 3" |r, c| rule(r, c, 3);
        "configuration: rule 4" |r, c| rule(r, c, 4);
        "configuration: rule 5" |r, c| rule(r, c, 5);
        "configuration: rule 6" |r, c| rule(r, c, 6);
        "configuration: rule 7" |r, c| rule(r, c, 7);
        "configuration: rule 8" |r, c| rule(r, c, 8);
    }
    Ticks {
        "ticks of T" |r, c| off(r, &mut c.times.timeout);
        "ticks of W" |r, c| off(r, &mut c.times.wait);
        "ticks of R" |r, c| off(r, &mut c.times.repeat);
        "ticks of C" |r, c| off(r, &mut c.times.cycle);
        "ticks of O" |r, c| off(r, &mut c.times.offset);
        "ticks of IC" |r, c| off(r, &mut c.times.fast_cycle);
        "ticks of RS" |r, c| off(r, &mut c.times.remote);
        "ticks of P" |r, c| off(r, &mut c.times.pn_reset);
    }
    Nm {
        "NM timer 0 in Repeat" |_, c| c.state == RepeatMessage && set(&mut c.nm_timer, 0);
        "NM timer 0 in Normal" |_, c| c.state == NormalOperation && set(&mut c.nm_timer, 0);
        "NM timer 0 in Ready" |_, c| c.state == ReadySleep && set(&mut c.nm_timer, 0);
        "NM timer above T in Network Mode"
            |r, c| c.state.in_network_mode() && over(r, &mut c.nm_timer, c.times.timeout);
        "NM timer runs in Prepare" |r, c| c.state == PrepareBusSleep && some(r, &mut c.nm_timer);
        "NM timer runs in Bus-Sleep" |r, c| c.state == BusSleep && some(r, &mut c.nm_timer);
    }
    Wait {
        "wait timer 0 in Prepare" |_, c| c.state == PrepareBusSleep && set(&mut c.wait_timer, 0);
        "wait timer above W in Prepare"
            |r, c| c.state == PrepareBusSleep && over(r, &mut c.wait_timer, c.times.wait);
        "wait timer runs in Bus-Sleep" |r, c| c.state == BusSleep && some(r, &mut c.wait_timer);
        "wait timer runs in Network Mode"
            |r, c| c.state.in_network_mode() && some(r, &mut c.wait_timer);
    }
    Repeat {
        "repeat timer 0 in Repeat" |_, c| c.state == RepeatMessage && set(&mut c.repeat_timer, 0);
        "repeat timer above R in Repeat"
            |r, c| c.state == RepeatMessage && over(r, &mut c.repeat_timer, c.times.repeat);
        "repeat timer runs in Normal" |r, c| c.state == NormalOperation && some(r, &mut c.repeat_timer);
        "repeat timer runs in Ready" |r, c| c.state == ReadySleep && some(r, &mut c.repeat_timer);
        "repeat timer runs outside Network Mode"
            |r, c| !c.state.in_network_mode() && some(r, &mut c.repeat_timer);
    }
    Message {
        "message timer 0 in Repeat" |_, c| {
            c.state == RepeatMessage && !c.config.passive && set(&mut c.message_timer, 0)
        };
        "message timer 0 in Normal" |_, c| c.state == NormalOperation && set(&mut c.message_timer, 0);
        "message timer above max(C, IC) in Repeat" |r, c| {
            let most = c.times.cycle.max(c.times.fast_cycle);
            c.state == RepeatMessage && !c.config.passive && over(r, &mut c.message_timer, most)
        };
        "message timer above max(C, IC) in Normal" |r, c| {
            let most = c.times.cycle.max(c.times.fast_cycle);
            c.state == NormalOperation && over(r, &mut c.message_timer, most)
        };
        "message timer runs in Ready" |r, c| {
            c.state == ReadySleep && !c.config.passive && some(r, &mut c.message_timer)
        };
        "message timer runs outside Network Mode" |r, c| {
            !c.state.in_network_mode() && !c.config.passive && some(r, &mut c.message_timer)
        };
        "message timer runs on a passive channel in Repeat" |r, c| {
            c.state == RepeatMessage && c.config.passive && some(r, &mut c.message_timer)
        };
        "message timer runs on a passive channel elsewhere" |r, c| {
            c.state != RepeatMessage && c.config.passive && some(r, &mut c.message_timer)
        };
    }
    Fast {
        "fast count above IN in Repeat"
            |r, c| c.state == RepeatMessage && over(r, &mut c.fast_count, c.config.fast_count);
        "fast count above 0 in Normal or Ready" |r, c| {
            matches!(c.state, NormalOperation | ReadySleep) && some(r, &mut c.fast_count)
        };
        "fast count above 0 outside Network Mode"
            |r, c| !c.state.in_network_mode() && some(r, &mut c.fast_count);
    }
    Remote {
        "remote timer 0 in Normal, RS above 0, not indicated" |_, c| {
            c.state == NormalOperation && c.remote_timer > 0 && set(&mut c.remote_timer, 0)
        };
        "remote timer above RS in Normal" |r, c| {
            c.state == NormalOperation && c.remote_timer > 0 && over(r, &mut c.remote_timer, c.times.remote)
        };
        "remote timer runs in Normal, indicated" |r, c| {
            c.state == NormalOperation && c.indicated && some(r, &mut c.remote_timer)
        };
        "indicated in Normal, remote timer runs" |_, c| {
            c.state == NormalOperation && c.remote_timer > 0 && set(&mut c.indicated, true)
        };
        "not indicated in Normal, remote timer 0" |_, c| {
            c.state == NormalOperation && c.indicated && set(&mut c.indicated, false)
        };
        "remote timer runs in Normal, RS = 0" |r, c| {
            c.state == NormalOperation && c.times.remote == 0 && some(r, &mut c.remote_timer)
        };
        "remote timer runs in Repeat" |r, c| c.state == RepeatMessage && some(r, &mut c.remote_timer);
        "remote timer runs in Ready" |r, c| c.state == ReadySleep && some(r, &mut c.remote_timer);
        "remote timer runs outside Network Mode"
            |r, c| !c.state.in_network_mode() && some(r, &mut c.remote_timer);
    }
    PnTimers {
        "an ERA timer above P" |r, c| {
            let (cfg, bounds) = (c.config, (c.times.pn_reset + 1, MOST_TICKS));
            time_bit(r, &mut c.era, |bit| in_mask(&cfg, bit), bounds)
        };
        "an EIRA timer above P" |r, c| {
            let (cfg, bounds) = (c.config, (c.times.pn_reset + 1, MOST_TICKS));
            time_bit(r, &mut c.eira, |bit| in_mask(&cfg, bit), bounds)
        };
        "an ERA timer runs beside the mask" |r, c| {
            let (cfg, bounds) = (c.config, (1, c.times.pn_reset));
            time_bit(r, &mut c.era, |bit| beside_mask(&cfg, bit), bounds)
        };
        "an EIRA timer runs beside the mask" |r, c| {
            let (cfg, bounds) = (c.config, (1, c.times.pn_reset));
            time_bit(r, &mut c.eira, |bit| beside_mask(&cfg, bit), bounds)
        };
        "an ERA timer runs past the N bytes" |r, c| {
            let (cfg, bounds) = (c.config, (1, c.times.pn_reset));
            time_bit(r, &mut c.era, |bit| past(&cfg, bit), bounds)
        };
        "an EIRA timer runs past the N bytes" |r, c| {
            let (cfg, bounds) = (c.config, (1, c.times.pn_reset));
            time_bit(r, &mut c.eira, |bit| past(&cfg, bit), bounds)
        };
        "an ERA timer runs with PN off" |r, c| {
            let off = !c.config.pn_on;
            time_bit(r, &mut c.era, |_| off, (1, MOST_TICKS))
        };
        "an EIRA timer runs with PN off" |r, c| {
            let off = !c.config.pn_on;
            time_bit(r, &mut c.eira, |_| off, (1, MOST_TICKS))
        };
    }
    Requested {
        "not requested in Normal" |_, c| c.state == NormalOperation && set(&mut c.requested, false);
        "requested in Ready" |_, c| c.state == ReadySleep && set(&mut c.requested, true);
        "requested in Prepare" |_, c| c.state == PrepareBusSleep && set(&mut c.requested, true);
        "requested in Bus-Sleep" |_, c| c.state == BusSleep && set(&mut c.requested, true);
    }
    Disabled {
        "disabled in Prepare" |_, c| c.state == PrepareBusSleep && set(&mut c.disabled, true);
        "disabled in Bus-Sleep" |_, c| c.state == BusSleep && set(&mut c.disabled, true);
    }
    RepeatBit {
        "repeat bit in Normal" |_, c| c.state == NormalOperation && set(&mut c.repeat_bit, true);
        "repeat bit in Ready" |_, c| c.state == ReadySleep && set(&mut c.repeat_bit, true);
        "repeat bit in Prepare" |_, c| c.state == PrepareBusSleep && set(&mut c.repeat_bit, true);
        "repeat bit in Bus-Sleep" |_, c| c.state == BusSleep && set(&mut c.repeat_bit, true);
    }
    WakeupBit {
        "active-wakeup bit in Prepare" |_, c| {
            c.state == PrepareBusSleep && set(&mut c.active_wakeup_bit, true)
        };
        "active-wakeup bit in Bus-Sleep"
            |_, c| c.state == BusSleep && set(&mut c.active_wakeup_bit, true);
    }
    Indicated {
        "indicated in Repeat" |_, c| c.state == RepeatMessage && set(&mut c.indicated, true);
        "indicated in Prepare" |_, c| c.state == PrepareBusSleep && set(&mut c.indicated, true);
        "indicated in Bus-Sleep" |_, c| c.state == BusSleep && set(&mut c.indicated, true);
        "indicated in Normal, RS = 0" |_, c| {
            c.state == NormalOperation && c.times.remote == 0 && set(&mut c.indicated, true)
        };
        "indicated in Ready, RS = 0" |_, c| {
            c.state == ReadySleep && c.times.remote == 0 && set(&mut c.indicated, true)
        };
    }
    Passive {
        "passive and requested, in Repeat" |_, c| c.config.passive && set(&mut c.requested, true);
        "passive and disabled" |_, c| c.config.passive && set(&mut c.disabled, true);
        "passive and indicated, in Ready" |_, c| c.config.passive && set(&mut c.indicated, true);
        "passive and in Normal" |_, c| {
            c.state = NormalOperation;
            (c.requested, c.repeat_timer, c.fast_count) = (true, 0, 0);
            c.config.passive && set(&mut c.remote_timer, c.times.remote)
        };
        "passive with the repeat bit, in Repeat" |_, c| c.config.passive && set(&mut c.repeat_bit, true);
        "passive with the active-wakeup bit" |_, c| {
            c.config.passive && set(&mut c.active_wakeup_bit, true)
        };
        "passive by its configuration alone" |_, c| {
            c.state == ReadySleep && !c.config.passive && set(&mut c.config.passive, true)
        };
    }
}
