//! A channel as the words that the product takes, the conditions of a sound one, and sound ones made at random.

use crate::counts::{cases, Cases};
use cannm_compare::inputs::{between, OFF};
use cannm_compare::product::{Words, WORDS};
use cannm_reference::channel::{Channel, State, PN_BITS};
use cannm_reference::config::{first_broken_rule, Config, Position, Times};
use cannm_reference::rng::Rng;

/// The largest number of a timer.
pub const MOST_TICKS: u64 = 65_535;

/// The number that stands for a header field whose number is no position.
pub const NO_POSITION: u64 = 2;

// Where the parts of a channel start.
pub const SNI: usize = 11;
pub const CBV: usize = 12;
const MASK: usize = 20;
const TICKS: usize = 28;
const MODE: usize = 36;
pub const STATE: usize = MODE;
const USER: usize = 49;
const REQUESTS: usize = 57;
const ERA: usize = 65;
const EIRA: usize = 121;

const NUMBER_NAMES: [&str; MASK] = [
    "M",
    "T",
    "W",
    "R",
    "C",
    "O",
    "IN",
    "IC",
    "RS",
    "passive",
    "L",
    "SNI",
    "CBV",
    "id",
    "PN on",
    "F",
    "N",
    "P",
    "keep-awake",
    "mask length",
];
const TICK_NAMES: [&str; MODE - TICKS] = ["T", "W", "R", "C", "O", "IC", "RS", "P"];
const SCALAR_NAMES: [&str; USER - MODE] = [
    "state",
    "requested",
    "sending",
    "filter",
    "NM timer",
    "wait timer",
    "repeat timer",
    "message timer",
    "fast count",
    "remote timer",
    "indicated",
    "repeat bit",
    "active-wakeup bit",
];

/// What a word of a channel is.
pub fn name_of(word: usize) -> String {
    match word {
        0..MASK => NUMBER_NAMES[word].to_string(),
        MASK..TICKS => format!("mask byte {}", word - MASK),
        TICKS..MODE => format!("{} in ticks", TICK_NAMES[word - TICKS]),
        MODE..USER => SCALAR_NAMES[word - MODE].to_string(),
        USER..REQUESTS => format!("user byte {}", word - USER),
        REQUESTS..ERA => format!("PN request byte {}", word - REQUESTS),
        ERA..EIRA => format!("ERA timer {}", word - ERA),
        _ => format!("EIRA timer {}", word - EIRA),
    }
}

/// Every word of a channel that is not 0, by name.
pub fn told(words: &Words) -> String {
    let some = |(at, word): (usize, &u64)| (*word != 0).then(|| format!("{} {word}", name_of(at)));
    let told: Vec<String> = words.iter().enumerate().filter_map(some).collect();
    format!("{}, all else 0", told.join(", "))
}

fn position(position: Position) -> u64 {
    match position {
        Position::Off => OFF,
        Position::Byte0 => 0,
        Position::Byte1 => 1,
        Position::Other => NO_POSITION,
    }
}

pub fn ticks_of(times: &Times) -> [u64; 8] {
    [
        times.timeout,
        times.wait,
        times.repeat,
        times.cycle,
        times.offset,
        times.fast_cycle,
        times.remote,
        times.pn_reset,
    ]
}

/// The words of a channel of the reference: every field of it.
pub fn words_of(channel: &Channel) -> Words {
    let Channel {
        config: cfg,
        times,
        state,
        requested,
        disabled,
        filter_on,
        indicated,
        repeat_bit,
        active_wakeup_bit,
        nm_timer,
        wait_timer,
        repeat_timer,
        message_timer,
        fast_count,
        remote_timer,
        user_data,
        pn_requests,
        era,
        eira,
    } = channel;
    let numbers: [u64; MASK] = [
        cfg.period,
        cfg.timeout,
        cfg.wait,
        cfg.repeat,
        cfg.cycle,
        cfg.offset,
        cfg.fast_count,
        cfg.fast_cycle,
        cfg.remote,
        cfg.passive.into(),
        cfg.length,
        position(cfg.sni),
        position(cfg.cbv),
        cfg.node_id,
        cfg.pn_on.into(),
        cfg.pn_start,
        cfg.pn_len,
        cfg.pn_reset,
        cfg.all_keep_awake.into(),
        cfg.mask_len,
    ];
    let scalars: [u64; USER - MODE] = [
        state.number().into(),
        (*requested).into(),
        (!disabled).into(),
        (*filter_on).into(),
        *nm_timer,
        *wait_timer,
        *repeat_timer,
        *message_timer,
        *fast_count,
        *remote_timer,
        (*indicated).into(),
        (*repeat_bit).into(),
        (*active_wakeup_bit).into(),
    ];
    let mut words = [0; WORDS];
    words[..MASK].copy_from_slice(&numbers);
    words[TICKS..MODE].copy_from_slice(&ticks_of(times));
    words[MODE..USER].copy_from_slice(&scalars);
    for (start, bytes) in [
        (MASK, &cfg.mask),
        (USER, user_data),
        (REQUESTS, pn_requests),
    ] {
        for (word, byte) in words[start..].iter_mut().zip(bytes) {
            *word = (*byte).into();
        }
    }
    for (start, timers) in [(ERA, era), (EIRA, eira)] {
        for (word, timer) in words[start..].iter_mut().zip(timers) {
            *word = (*timer).into();
        }
    }
    words
}

cases! { Condition, "conditions of a sound state, broken alone", {
    Config "the configuration passes"
    Ticks "the ticks kept are those of the configuration"
    Nm "NM timer 1..T in Network Mode, else 0"
    Wait "wait timer 1..W in Prepare, else 0"
    Repeat "repeat timer 1..R in Repeat, else 0"
    Message "message timer 1..max(C, IC) in Repeat and Normal of an active channel, else 0"
    Fast "fast count 0..IN in Repeat, else 0"
    Remote "remote timer 1..RS in Normal when RS > 0 and nothing is indicated, else 0"
    PnTimers "PN timers 0..P, and 0 for bits outside the mask"
    Requested "requested in Normal, not in Ready, Prepare and Bus-Sleep"
    Disabled "disabled only in Network Mode"
    RepeatBit "repeat bit only in Repeat"
    WakeupBit "active-wakeup bit only in Network Mode"
    Indicated "indicated only in Normal or Ready and with RS > 0"
    Passive "passive: never requested, disabled, indicated or in Normal, neither bit"
}}

/// How many conditions there are.
pub const CONDITIONS: usize = Condition::TEXTS.len();

/// Whether bit k of the PN vector is in the mask.
pub fn in_mask(cfg: &Config, bit: usize) -> bool {
    bit / 8 < cfg.pn_range().len() && cfg.mask[bit / 8] >> (bit % 8) & 1 == 1
}

/// Which of the conditions hold. Where the configuration breaks rule 1 or 2 it comes to no ticks, so that no
/// ticks can be wrong.
pub fn held(channel: &Channel) -> [bool; CONDITIONS] {
    use State::{NormalOperation, PrepareBusSleep, ReadySleep, RepeatMessage};
    let (c, cfg, times) = (channel, &channel.config, &channel.times);
    let (network, normal, repeat) = (
        matches!(c.state, RepeatMessage | NormalOperation | ReadySleep),
        c.state == NormalOperation,
        c.state == RepeatMessage,
    );
    let runs = |running: bool, timer: u64, most: u64| {
        if running {
            timer >= 1 && timer <= most
        } else {
            timer == 0
        }
    };
    let rule = first_broken_rule(cfg);
    let in_ms = [
        cfg.timeout,
        cfg.wait,
        cfg.repeat,
        cfg.cycle,
        cfg.offset,
        cfg.fast_cycle,
        cfg.remote,
        cfg.pn_reset,
    ];
    let right = |(ms, ticks): (u64, u64)| ms.div_ceil(cfg.period) == ticks;
    let within = |timers: &[u16; PN_BITS]| {
        timers.iter().enumerate().all(|(bit, timer)| {
            let timer = u64::from(*timer);
            timer <= times.pn_reset && (timer == 0 || in_mask(cfg, bit))
        })
    };
    let mut held = [false; CONDITIONS];
    for (condition, holds) in [
        (Condition::Config, rule == 0),
        (
            Condition::Ticks,
            matches!(rule, 1 | 2) || in_ms.into_iter().zip(ticks_of(times)).all(right),
        ),
        (Condition::Nm, runs(network, c.nm_timer, times.timeout)),
        (
            Condition::Wait,
            runs(c.state == PrepareBusSleep, c.wait_timer, times.wait),
        ),
        (
            Condition::Repeat,
            runs(repeat, c.repeat_timer, times.repeat),
        ),
        (
            Condition::Message,
            runs(
                (repeat || normal) && !cfg.passive,
                c.message_timer,
                times.cycle.max(times.fast_cycle),
            ),
        ),
        (
            Condition::Fast,
            c.fast_count == 0 || (repeat && c.fast_count <= cfg.fast_count),
        ),
        (
            Condition::Remote,
            runs(
                normal && times.remote > 0 && !c.indicated,
                c.remote_timer,
                times.remote,
            ),
        ),
        (Condition::PnTimers, within(&c.era) && within(&c.eira)),
        (
            Condition::Requested,
            repeat || c.requested == (c.state == NormalOperation),
        ),
        (Condition::Disabled, network || !c.disabled),
        (Condition::RepeatBit, repeat || !c.repeat_bit),
        (Condition::WakeupBit, network || !c.active_wakeup_bit),
        (
            Condition::Indicated,
            !c.indicated || ((normal || c.state == ReadySleep) && times.remote > 0),
        ),
        (
            Condition::Passive,
            !cfg.passive
                || !(c.requested
                    || c.disabled
                    || c.indicated
                    || normal
                    || c.repeat_bit
                    || c.active_wakeup_bit),
        ),
    ] {
        held[condition.place()] = holds;
    }
    held
}

/// A sound channel of a configuration, whether or not some list of calls leads to it.
pub fn made(rng: &mut Rng, fresh: &Channel) -> Channel {
    use State::{NormalOperation, PrepareBusSleep, ReadySleep, RepeatMessage};
    let mut c = *fresh;
    let (cfg, times) = (c.config, c.times);
    c.state = *rng.pick(&State::ALL);
    if cfg.passive && c.state == NormalOperation {
        c.state = ReadySleep;
    }
    let state = c.state;
    let active = !cfg.passive;
    let network = state.in_network_mode();
    c.requested = match state {
        NormalOperation => true,
        RepeatMessage => active && rng.chance(2),
        _ => false,
    };
    c.disabled = active && network && rng.chance(4);
    c.filter_on = rng.chance(2);
    c.repeat_bit = active && state == RepeatMessage && rng.chance(2);
    c.active_wakeup_bit = active && network && rng.chance(2);
    let may_be_indicated = matches!(state, NormalOperation | ReadySleep) && times.remote > 0;
    c.indicated = active && may_be_indicated && rng.chance(3);
    if network {
        c.nm_timer = between(rng, 1, times.timeout);
    }
    match state {
        PrepareBusSleep => c.wait_timer = between(rng, 1, times.wait),
        RepeatMessage => {
            c.repeat_timer = between(rng, 1, times.repeat);
            c.fast_count = between(rng, 0, cfg.fast_count);
        }
        NormalOperation if times.remote > 0 && !c.indicated => {
            c.remote_timer = between(rng, 1, times.remote);
        }
        _ => {}
    }
    if active && matches!(state, RepeatMessage | NormalOperation) {
        c.message_timer = between(rng, 1, times.cycle.max(times.fast_cycle));
    }
    rng.fill(&mut c.user_data);
    rng.fill(&mut c.pn_requests);
    for timers in [&mut c.era, &mut c.eira] {
        let share = 1 + rng.below(4);
        for (bit, timer) in timers.iter_mut().enumerate() {
            if in_mask(&cfg, bit) && rng.chance(share) {
                *timer = between(rng, 0, times.pn_reset) as u16;
            }
        }
    }
    c
}
