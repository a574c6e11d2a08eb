//! Ticks and received PDUs: the two calls that a host makes all the time.
//!
//! A stretch is many equal calls on one channel. Both sides begin it with the same channel, which the same calls have
//! prepared. Each side judges in every call whether the channel is sound.

use crate::{measured, timed, Row};
use cannm_compare::inputs::{
    Handed, CBV, CYCLE, LENGTH, MASK_LEN, NODE_ID, OFF, PERIOD, PN_LEN, PN_ON, PN_RESET, PN_START,
    REMOTE, REPEAT, SNI, TIMEOUT, WAIT,
};
use cannm_compare::product::{self, Words, NUMBERS};
use cannm_reference::call::Call;
use cannm_reference::channel::{initialise, Channel, Reply, State};
use cannm_reference::config::MAX_BYTES;
use cannm_reference::pdu::PNI_BIT;
use std::hint::black_box;
use std::time::Duration;

/// How many calls a stretch has. A PN timer that is loaded before it runs longer than that.
pub const CALLS: u32 = 5_000;

/// The most PN bytes: a PDU of eight has one for the CBV.
const PN_BYTES: usize = 7;

/// A tick whose frame is taken.
const TICK: Call = Call::MainFunction {
    taken: true,
    frame_len: MAX_BYTES,
};

type Frame = [u8; MAX_BYTES];
type PnBytes = [u8; PN_BYTES];

/// What a stretch gave, summed over its calls: the answers, how many notes were raised, how many frames were sent.
#[repr(C)]
#[derive(Clone, Copy, Debug, Default, PartialEq, Eq)]
struct Sums {
    answers: u32,
    notes: u32,
    frames: u32,
}

impl Sums {
    fn add(&mut self, reply: &Reply) {
        self.answers += u32::from(reply.answer);
        self.notes += reply.notes.as_slice().len() as u32;
        self.frames += u32::from(reply.frame);
    }
}

mod raw {
    use super::Sums;

    extern "C" {
        // libbench_host.a
        pub fn bench_ticks(
            words: *mut u64,
            words_length: usize,
            count: u32,
            frame: *mut u8,
            frame_length: usize,
        ) -> Sums;
        pub fn bench_received(
            words: *mut u64,
            words_length: usize,
            count: u32,
            pdu: *const u8,
            pdu_length: usize,
        ) -> Sums;
    }
}

// ---- stretches

fn product_ticks(words: &mut Words, frame: &mut [u8]) -> Sums {
    // SAFETY: each pointer is lent with the length of its slice, and the two do not overlap.
    unsafe {
        raw::bench_ticks(
            words.as_mut_ptr(),
            words.len(),
            CALLS,
            frame.as_mut_ptr(),
            frame.len(),
        )
    }
}

fn product_received(words: &mut Words, pdu: &[u8]) -> Sums {
    // SAFETY: each pointer is lent with the length of its slice, and the words alone are written.
    unsafe {
        raw::bench_received(
            words.as_mut_ptr(),
            words.len(),
            CALLS,
            pdu.as_ptr(),
            pdu.len(),
        )
    }
}

/// A channel of which nothing is known from the call before, so that no part of its soundness is judged only once.
fn unknown(channel: &mut Channel) -> &mut Channel {
    black_box(channel)
}

#[inline(never)]
fn reference_ticks(channel: &mut Channel, frame: &mut [u8]) -> Sums {
    let mut sums = Sums::default();
    for _ in 0..CALLS {
        sums.add(&unknown(channel).main_function(true, frame));
    }
    sums
}

#[inline(never)]
fn reference_received(channel: &mut Channel, pdu: &[u8]) -> Sums {
    let mut sums = Sums::default();
    for _ in 0..CALLS {
        sums.add(&unknown(channel).rx_indication(pdu));
    }
    sums
}

// ---- what is compared

/// All that is seen of a stretch: its sums, the status after it, and the frame.
#[derive(Debug, PartialEq, Eq)]
struct Seen {
    sums: Sums,
    /// Answer, state, how many PNCs are requested, and the lowest of them.
    status: [u64; 4],
    era: [u8; MAX_BYTES],
    eira: [u8; MAX_BYTES],
    frame: Frame,
}

fn product_seen(sums: Sums, words: &Words, frame: Frame) -> Seen {
    let (mut era, mut eira) = ([0; MAX_BYTES], [0; MAX_BYTES]);
    let shown = product::status(words, &mut era, &mut eira);
    Seen {
        sums,
        status: [shown.answer, shown.state, shown.count, shown.lowest].map(u64::from),
        era,
        eira,
        frame,
    }
}

fn reference_seen(sums: Sums, channel: &Channel, frame: Frame) -> Seen {
    let status = channel.status();
    Seen {
        sums,
        status: [
            status.answer.into(),
            status.state.into(),
            status.count.into(),
            status.lowest.0,
        ],
        era: status.era,
        eira: status.eira,
        frame,
    }
}

// ---- channels

/// One channel of each side.
#[derive(Clone, Copy)]
struct Pair {
    words: Words,
    channel: Channel,
}

impl Pair {
    /// Fresh ones.
    fn fresh(handed: &Handed) -> Pair {
        let (begun, words) = product::initialise(&handed.numbers, &handed.mask);
        let (answer, _, channel) = initialise(&handed.config());
        assert_eq!((begun.answer, answer), (0, 0), "a configuration is refused");
        Pair { words, channel }
    }

    /// Ones in Normal Operation, where the node requests the network.
    fn requested(handed: &Handed) -> Pair {
        let mut pair = Pair::fresh(handed).after(Call::NetworkRequest);
        while pair.channel.state != State::NormalOperation {
            pair = pair.after(TICK);
        }
        pair
    }

    /// After a call that is carried out.
    fn after(mut self, call: Call) -> Pair {
        let (number, bytes): (u32, &[u8]) = match call {
            Call::NetworkRequest => (0, &[]),
            Call::RxIndication(pdu) => (7, pdu),
            Call::ConfirmPnAvailability => (8, &[]),
            Call::SetPnRequests(bytes) => (10, bytes),
            TICK => (12, &[]),
            _ => unreachable!("no stretch is prepared by {call:?}"),
        };
        let mut frame = Frame::default();
        let called = product::call(&mut self.words, number, true, bytes, &mut frame);
        let reply = call.perform(&mut self.channel, &mut frame);
        assert_eq!((called.answer, reply.answer), (0, 0), "{call:?} is refused");
        self
    }

    /// Measures a stretch of each side, which begins with these channels and a frame buffer of zeros. At its end the
    /// timers of exactly these PNCs run.
    fn row(
        &self,
        name: &str,
        pn: &PnBytes,
        product: impl Fn(&mut Words, &mut [u8]) -> Sums,
        reference: impl Fn(&mut Channel, &mut [u8]) -> Sums,
    ) -> Row {
        let product = || -> (Duration, Seen) {
            let (mut words, mut frame) = black_box((self.words, Frame::default()));
            let (time, sums) = timed(|| product(&mut words, &mut frame));
            (time, product_seen(sums, &words, frame))
        };
        let reference = || -> (Duration, Seen) {
            let (mut channel, mut frame) = black_box((self.channel, Frame::default()));
            let (time, sums) = timed(|| reference(&mut channel, &mut frame));
            let seen = reference_seen(sums, &channel, frame);
            for vector in [seen.era, seen.eira] {
                assert_eq!(&vector[..PN_BYTES], pn, "{name}: other PNCs are active");
            }
            (time, seen)
        };
        measured(name, CALLS, product, reference)
    }

    fn ticks(&self, name: &str, pn: &PnBytes) -> Row {
        self.row(name, pn, product_ticks, reference_ticks)
    }

    fn received(&self, name: &str, pn: &PnBytes) -> Row {
        let pdu = &pdu(pn);
        self.row(
            name,
            pn,
            |words, _| product_received(words, pdu),
            |channel, _| reference_received(channel, pdu),
        )
    }
}

/// PN off. One tick in ten sends a frame, and the remote timer runs all the time.
fn without_pn() -> Handed {
    let mut numbers = [0; NUMBERS];
    numbers[PERIOD] = 10;
    numbers[TIMEOUT] = 65_500;
    numbers[WAIT] = 1_000;
    numbers[REPEAT] = 500;
    numbers[CYCLE] = 100;
    numbers[REMOTE] = 60_000;
    numbers[LENGTH] = 8;
    numbers[SNI] = 0;
    numbers[CBV] = 1;
    numbers[NODE_ID] = 33;
    Handed {
        numbers,
        mask: Vec::new(),
    }
}

/// The same with 56 PNCs, all of them in the mask.
fn with_pn() -> Handed {
    let Handed { mut numbers, .. } = without_pn();
    numbers[SNI] = OFF;
    numbers[CBV] = 0;
    numbers[PN_ON] = 1;
    numbers[PN_START] = 1;
    numbers[PN_LEN] = PN_BYTES as u64;
    numbers[PN_RESET] = 65_000;
    numbers[MASK_LEN] = PN_BYTES as u64;
    Handed {
        numbers,
        mask: vec![0xFF; PN_BYTES],
    }
}

/// A PDU with these PN bytes, behind a CBV that says so.
fn pdu(pn: &PnBytes) -> [u8; MAX_BYTES] {
    let mut bytes = [PNI_BIT; MAX_BYTES];
    bytes[1..].copy_from_slice(pn);
    bytes
}

/// All rows of the two calls.
pub fn rows() -> Vec<Row> {
    let (none, one, all) = ([0; PN_BYTES], [0, 0, 0, 0x10, 0, 0, 0], [0xFF; PN_BYTES]);
    let plain = Pair::requested(&without_pn());
    let filtering = Pair::requested(&with_pn()).after(Call::ConfirmPnAvailability);
    // The PDU starts the timers of its PNCs in both vectors, and each frame that the channel sends those of EIRA again.
    let ticks = |name: &str, pn: &PnBytes| {
        filtering
            .after(Call::SetPnRequests(pn))
            .after(Call::RxIndication(&pdu(pn)))
            .ticks(name, pn)
    };
    vec![
        plain.ticks("tick, PN off", &none),
        ticks("tick, 56 PNCs, none active", &none),
        ticks("tick, 56 PNCs, one active", &one),
        ticks("tick, 56 PNCs, all active", &all),
        filtering.received("PDU received, 56 PNCs, dropped", &none),
        filtering.received("PDU received, 56 PNCs, loads one", &one),
        filtering.received("PDU received, 56 PNCs, loads all", &all),
    ]
}
