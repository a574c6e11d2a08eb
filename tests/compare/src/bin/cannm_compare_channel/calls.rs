//! Random configurations for a channel, and random calls on it.

use cannm_compare::inputs::{self, between, lasting, Handed, LONGEST, OFF};
use cannm_compare::product::NUMBERS;
use cannm_reference::book::Call;
use cannm_reference::channel::{Channel, State};
use cannm_reference::config::Config;
use cannm_reference::pdu::{PNI_BIT, REPEAT_BIT};
use cannm_reference::rng::Rng;

pub const STATES: usize = 5;
pub const CALLS: usize = 13;

/// The calls by their number; the names are those of a trace, CNF standing for OK and BAD, STA for the status.
pub const CALL_NAMES: [&str; CALLS] = [
    "REQ", "REL", "PAS", "RMR", "DIS", "ENA", "CNF", "RX", "PNA", "UD", "PNR", "STA", "T",
];
pub const REQ: usize = 0;
pub const REL: usize = 1;
pub const PAS: usize = 2;
pub const RMR: usize = 3;
pub const DIS: usize = 4;
pub const ENA: usize = 5;
pub const CNF: usize = 6;
pub const RX: usize = 7;
pub const PNA: usize = 8;
pub const UD: usize = 9;
pub const PNR: usize = 10;
pub const STA: usize = 11;
pub const TICK: usize = 12;

/// The longest byte string or frame buffer that is lent.
const MOST: usize = 12;
/// A frame buffer with bytes before and behind it that no one may touch.
const ROOM: usize = MOST + 16;
/// Where in it the lent part starts.
const START: usize = 8;

/// The bytes of a frame buffer and around it.
pub type Room = [u8; ROOM];

/// A call with its arguments.
#[derive(Clone, Debug)]
pub struct Input {
    pub call: usize,
    /// The confirmation's good, or the driver's taking of a frame.
    pub flag: bool,
    bytes: [u8; MOST],
    length: usize,
    pub frame_len: usize,
    /// What the frame buffer and the bytes around it hold before the call.
    pub room: Room,
}

impl Input {
    /// A tick whose frame is taken.
    pub fn tick(frame_len: usize) -> Input {
        Input {
            call: TICK,
            flag: true,
            bytes: [0; MOST],
            length: 0,
            frame_len,
            room: [0xEE; ROOM],
        }
    }

    /// A call without bytes.
    pub fn plain(call: usize) -> Input {
        Input {
            call,
            ..Input::tick(0)
        }
    }

    pub fn bytes(&self) -> &[u8] {
        &self.bytes[..self.length]
    }

    /// The part of a room that is lent.
    pub fn lent<'a>(&self, room: &'a mut Room) -> &'a mut [u8] {
        &mut room[START..START + self.frame_len]
    }

    /// The same call for the book.
    pub fn call(&self) -> Call<'_> {
        match self.call {
            REQ => Call::NetworkRequest,
            REL => Call::NetworkRelease,
            PAS => Call::PassiveStartUp,
            RMR => Call::RepeatMessageRequest,
            DIS => Call::DisableCommunication,
            ENA => Call::EnableCommunication,
            CNF => Call::TxConfirmation(self.flag),
            RX => Call::RxIndication(self.bytes()),
            PNA => Call::ConfirmPnAvailability,
            UD => Call::SetUserData(self.bytes()),
            PNR => Call::SetPnRequests(self.bytes()),
            STA => Call::Status,
            _ => Call::MainFunction {
                taken: self.flag,
                frame_len: self.frame_len,
            },
        }
    }

    /// The call as it is printed.
    pub fn told(&self) -> String {
        let name = CALL_NAMES[self.call];
        match self.call {
            CNF => format!("{name}, good: {}", self.flag),
            RX | UD | PNR => format!("{name} {:02X?}", self.bytes()),
            TICK => format!(
                "{name}, taken: {}, frame buffer of {} bytes",
                self.flag, self.frame_len
            ),
            _ => name.to_string(),
        }
    }
}

// ---- configurations

/// A time in ticks, 1 at least and mostly short.
fn ticks(rng: &mut Rng, most: u64) -> u64 {
    let top = match rng.below(16) {
        0 => 300,
        1 | 2 => 40,
        3..=6 => 3,
        _ => 12,
    };
    1 + rng.below(top.min(most))
}

/// A configuration that passes every rule, with times that are mostly short.
pub fn configuration(rng: &mut Rng) -> Handed {
    let mut n = [0; NUMBERS];
    let period = between(rng, 1, 100);
    let most = LONGEST.div_ceil(period);

    let (sni, cbv) = match rng.below(12) {
        0 => (OFF, OFF),
        1 => (0, OFF),
        2..=4 => (OFF, 0),
        5..=8 => (0, 1),
        _ => (1, 0),
    };
    let header = u64::from(sni != OFF) + u64::from(cbv != OFF);
    let length = if rng.chance(3) {
        8
    } else {
        between(rng, header.max(1), 8)
    };
    let pn_on = cbv != OFF && length > header && !rng.chance(4);

    // O < C < T, and with PN on C < P < T
    let room = if pn_on { 2 } else { 1 };
    let cycle = ticks(rng, 12);
    let mut timeout = cycle + room - 1 + ticks(rng, 300);
    let offset = if rng.chance(2) { 0 } else { rng.below(cycle) };
    let mut remote = if rng.chance(3) { 0 } else { ticks(rng, 300) };
    let mut wait = ticks(rng, 300);
    let mut repeat = ticks(rng, 300);
    let fast_count = match rng.below(6) {
        0 | 1 => 0,
        2 => between(rng, 1, 255),
        _ => 1 + rng.below(6),
    };
    let mut fast_cycle = match (fast_count, rng.chance(2)) {
        (0, true) => 0,
        _ => ticks(rng, 12),
    };
    // now and then a time that no list outlasts
    match rng.below(40) {
        0 => timeout = most,
        1 => wait = most,
        2 => repeat = most,
        3 => remote = most,
        4 if fast_cycle > 0 => fast_cycle = most,
        _ => {}
    }
    n[inputs::PERIOD] = period;
    for (field, ticks) in [
        (inputs::TIMEOUT, timeout),
        (inputs::WAIT, wait),
        (inputs::REPEAT, repeat),
        (inputs::CYCLE, cycle),
        (inputs::OFFSET, offset),
        (inputs::FAST_CYCLE, fast_cycle),
        (inputs::REMOTE, remote),
    ] {
        n[field] = lasting(rng, period, ticks);
    }
    n[inputs::FAST_COUNT] = fast_count;
    n[inputs::PASSIVE] = rng.chance(5).into();
    n[inputs::LENGTH] = length;
    n[inputs::SNI] = sni;
    n[inputs::CBV] = cbv;
    n[inputs::NODE_ID] = between(rng, 0, 255);
    n[inputs::KEEP_AWAKE] = rng.chance(3).into();

    let mut mask = vec![0; rng.below(11) as usize];
    rng.fill(&mut mask);
    if pn_on {
        let bytes = between(rng, 1, length - header);
        let reset = between(rng, cycle + 1, timeout - 1);
        n[inputs::PN_ON] = 1;
        n[inputs::PN_LEN] = bytes;
        n[inputs::PN_START] = if rng.chance(2) {
            header
        } else {
            length - bytes
        };
        n[inputs::PN_RESET] = lasting(rng, period, reset);
        n[inputs::MASK_LEN] = bytes;
        mask.resize(mask.len().max(bytes as usize), 0x81);
        if rng.chance(4) {
            mask.fill_with(|| rng.byte() & rng.byte() & rng.byte());
        }
    } else {
        n[inputs::MASK_LEN] = *rng.pick(&[0, 0, 1, 8, 9, u64::MAX]);
    }
    Handed { numbers: n, mask }
}

// ---- calls

/// How often each call comes beside the others, in the order of their numbers.
type Weights = [u64; CALLS];

const QUIET: Weights = [0, 0, 0, 0, 0, 0, 0, 0, 0, 0, 0, 1, 99];
const MIXED: Weights = [6, 4, 3, 5, 3, 5, 8, 12, 1, 3, 5, 3, 45];
const EVEN: Weights = [1; CALLS];
const LISTENING: Weights = [1, 2, 2, 0, 0, 1, 0, 30, 1, 0, 0, 2, 60];
const SENDING: Weights = [5, 1, 1, 3, 1, 3, 15, 2, 0, 4, 6, 2, 60];
const DISABLED: Weights = [1, 1, 0, 2, 5, 1, 3, 6, 0, 1, 1, 1, 60];

/// A list of calls that comes in stretches, so that each state is reached and kept for a while.
pub struct Walk {
    weights: Weights,
    left: u64,
    /// Calls that come first.
    first: Vec<usize>,
    /// One frame in so many is not taken.
    busy: u64,
    /// Whether the filter may be turned on.
    filter: bool,
}

impl Walk {
    pub fn new(rng: &mut Rng) -> Walk {
        Walk {
            weights: EVEN,
            left: 0,
            first: Vec::new(),
            busy: 4,
            filter: rng.chance(2),
        }
    }

    fn turn(&mut self, rng: &mut Rng, channel: &Channel) {
        self.left = 4 + rng.below(50);
        self.busy = *rng.pick(&[1, 2, 3, 8, 1_000]);
        self.weights = match rng.below(12) {
            0..=3 => {
                let times = &channel.times;
                let asleep = times.repeat + times.timeout + times.wait;
                if asleep < 300 {
                    self.left = 1 + rng.below(asleep + 10);
                }
                if channel.requested && !rng.chance(3) {
                    self.first.push(REL);
                }
                if channel.disabled && !rng.chance(4) {
                    self.first.push(ENA);
                }
                QUIET
            }
            4..=6 => MIXED,
            7 => EVEN,
            8 => LISTENING,
            9 | 10 => {
                self.first.push(REQ);
                SENDING
            }
            _ => DISABLED,
        };
    }

    /// The next call on a channel that is now as given.
    pub fn next(&mut self, rng: &mut Rng, channel: &Channel) -> Input {
        if self.left == 0 {
            self.turn(rng, channel);
        }
        self.left -= 1;
        // Prepare is short, and any call may come in it
        let seldom = match channel.state {
            State::PrepareBusSleep => 6,
            _ => 40,
        };
        let mut call = match self.first.pop() {
            Some(call) => call,
            None if rng.chance(seldom) => weighted(rng, &EVEN),
            None => weighted(rng, &self.weights),
        };
        if call == PNA && channel.config.pn_on && !self.filter {
            call = STA;
        }
        let mut input = input(rng, &channel.config, call);
        if call == TICK {
            input.flag = !rng.chance(self.busy);
        }
        input
    }
}

fn weighted(rng: &mut Rng, weights: &Weights) -> usize {
    let mut at = rng.below(weights.iter().sum());
    for (call, weight) in weights.iter().enumerate() {
        if at < *weight {
            return call;
        }
        at -= weight;
    }
    unreachable!("the sum of the weights is the bound")
}

/// A call of any kind.
pub fn any_input(rng: &mut Rng, cfg: &Config) -> Input {
    let call = rng.below(CALLS as u64) as usize;
    input(rng, cfg, call)
}

/// A call with random arguments, which mostly have the right length.
pub fn input(rng: &mut Rng, cfg: &Config, call: usize) -> Input {
    let mut input = Input::plain(call);
    input.flag = rng.chance(2);
    for part in input.room.chunks_mut(8) {
        part.copy_from_slice(&rng.next_u64().to_le_bytes()[..part.len()]);
    }
    let right = match call {
        RX => cfg.pdu_len(),
        UD => cfg.user_range().len(),
        PNR => cfg.pn_range().len(),
        TICK => {
            let right = cfg.pdu_len();
            input.frame_len = match rng.below(16) {
                0 => rng.below(right.max(1) as u64) as usize,
                1..=6 => right,
                _ => right + rng.below((MOST - right) as u64 + 1) as usize,
            };
            return input;
        }
        _ => return input,
    };
    rng.fill(&mut input.bytes);
    match call {
        RX => {
            let pn = cfg.pn_range();
            set_pn_bytes(rng, cfg, &mut input.bytes[pn]);
            if let Some(at) = cfg.cbv.byte() {
                set_cbv(rng, cfg, &mut input.bytes[at]);
            }
        }
        PNR => set_pn_bytes(rng, cfg, &mut input.bytes[..right]),
        _ => {}
    }
    input.length = if rng.chance(8) {
        inputs::length(rng, right, MOST)
    } else {
        right
    };
    if rng.chance(16) {
        input.length = *rng.pick(&[right.saturating_sub(1), right + 1]);
    }
    input
}

/// A received CBV: mostly with PN information where PN is on, seldom with a repeat request.
fn set_cbv(rng: &mut Rng, cfg: &Config, cbv: &mut u8) {
    for (bit, set) in [
        (PNI_BIT, cfg.pn_on && !rng.chance(5)),
        (REPEAT_BIT, rng.chance(6)),
    ] {
        if set {
            *cbv |= bit;
        } else {
            *cbv &= !bit;
        }
    }
}

/// PN bytes that meet the mask, or miss it, or are as they come.
fn set_pn_bytes(rng: &mut Rng, cfg: &Config, bytes: &mut [u8]) {
    let kind = rng.below(6);
    for (byte, mask) in bytes.iter_mut().zip(&cfg.mask) {
        *byte = match kind {
            0 => 0,
            1 => *byte & !mask,
            2 | 3 => *byte & mask & rng.byte(),
            4 => 1 << rng.below(8),
            _ => *byte,
        };
    }
}
