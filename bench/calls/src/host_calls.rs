//! The three functions for a C host, and the rules of a configuration. The reference offers the same through functions of
//! the same signatures, so that neither side is inlined into the loop that calls it.

use crate::{measured, timed, Row};
use cannm_compare::inputs::{self, Handed};
use cannm_compare::product::{self, raw, Filter, Header, Ticks};
use cannm_reference::config;
use cannm_reference::host::{self, Reply};
use cannm_reference::pdu::PNI_BIT;
use cannm_reference::rng::Rng;
use std::hint::black_box;
use std::time::Duration;

/// How many inputs there are.
const INPUTS: u32 = 1_000;
/// How often a stretch goes through them.
const TURNS: u32 = 50;
/// How many calls a stretch has.
pub const CALLS: u32 = INPUTS * TURNS;

const SEED: u64 = 1;

type TicksCall = unsafe extern "C" fn(u32, u32) -> Ticks;
type FilterCall = unsafe extern "C" fn(u32, u32, *const u8, usize, *const u8, usize) -> Filter;
type RulesCall = fn(&Handed) -> u32;
type ReadCall = unsafe extern "C" fn(u32, u32, u32, *const u8, usize) -> Header;

// ---- the reference for C

/// # Safety
///
/// So many bytes can be read from there on.
unsafe fn lent<'a>(bytes: *const u8, length: usize) -> &'a [u8] {
    if length == 0 {
        return &[];
    }
    // SAFETY: the caller lends them.
    unsafe { std::slice::from_raw_parts(bytes, length) }
}

unsafe extern "C" fn reference_ticks(period_ms: u32, time_ms: u32) -> Ticks {
    let Reply {
        answer,
        rule,
        value,
    } = host::convert(period_ms, time_ms);
    Ticks {
        answer: answer.into(),
        rule: rule.into(),
        ticks: value as u32,
    }
}

unsafe extern "C" fn reference_pn_filter(
    all_keep_awake: u32,
    cbv: u32,
    pn: *const u8,
    pn_length: usize,
    mask: *const u8,
    mask_length: usize,
) -> Filter {
    // SAFETY: the caller lends so many bytes of each.
    let (pn, mask) = unsafe { (lent(pn, pn_length), lent(mask, mask_length)) };
    let reply = host::filter(all_keep_awake != 0, cbv as u8, pn, mask);
    Filter {
        answer: reply.answer.into(),
        keep: reply.value.into(),
    }
}

unsafe extern "C" fn reference_read_pdu(
    length: u32,
    sni_position: u32,
    cbv_position: u32,
    pdu: *const u8,
    pdu_length: usize,
) -> Header {
    // SAFETY: the caller lends so many bytes.
    let pdu = unsafe { lent(pdu, pdu_length) };
    let Reply {
        answer,
        rule,
        value,
    } = host::read_header(length, sni_position, cbv_position, pdu);
    Header {
        answer: answer.into(),
        rule: rule.into(),
        sni: value.sni.into(),
        cbv: value.cbv.into(),
    }
}

// ---- stretches

/// Calls a function for every input, over and over. The sum of what it gives.
fn stretch<I>(inputs: &[I], call: impl Fn(&I) -> u32) -> (Duration, u32) {
    timed(|| {
        let mut sum = 0u32;
        for _ in 0..TURNS {
            for input in inputs {
                sum = sum.wrapping_add(call(input));
            }
        }
        sum
    })
}

/// Measures both sides on the same inputs.
fn row<I, F: Copy>(
    name: &str,
    inputs: impl FnMut() -> I,
    product: F,
    reference: F,
    call: impl Fn(F, &I) -> u32,
) -> Row {
    let inputs: Vec<I> = std::iter::repeat_with(inputs)
        .take(INPUTS as usize)
        .collect();
    // What is called is not known when the loop is compiled, so that neither side is made part of it.
    let side = |function: F| {
        let function = black_box(function);
        stretch(&inputs, |input| call(function, input))
    };
    measured(name, CALLS, || side(product), || side(reference))
}

fn ticks_row() -> Row {
    let mut rng = Rng::new(SEED);
    row(
        "`cannm_ticks`",
        || (1 + rng.below(100) as u32, rng.below(65_536) as u32),
        raw::cannm_ticks as TicksCall,
        reference_ticks as TicksCall,
        |ticks, &(period, time)| {
            // SAFETY: the function takes numbers alone.
            let Ticks {
                answer,
                rule,
                ticks,
            } = unsafe { ticks(period, time) };
            answer + rule + ticks
        },
    )
}

fn filter_row() -> Row {
    let mut rng = Rng::new(SEED);
    let mask = [0x0F; 7];
    row(
        "`cannm_pn_filter`, 7 PN bytes",
        // One PNC out of 56: with this mask half of the PDUs are kept.
        || {
            let mut pn = [0u8; 7];
            pn[rng.below(7) as usize] = 1 << rng.below(8);
            pn
        },
        raw::cannm_pn_filter as FilterCall,
        reference_pn_filter as FilterCall,
        |filter, pn| {
            // SAFETY: each pointer is lent with the length of its array.
            let Filter { answer, keep } = unsafe {
                filter(
                    0,
                    PNI_BIT.into(),
                    pn.as_ptr(),
                    pn.len(),
                    mask.as_ptr(),
                    mask.len(),
                )
            };
            answer + keep
        },
    )
}

fn read_row() -> Row {
    let mut rng = Rng::new(SEED);
    row(
        "`cannm_read_pdu`, 8 bytes",
        || rng.next_u64().to_le_bytes(),
        raw::cannm_read_pdu as ReadCall,
        reference_read_pdu as ReadCall,
        |read, pdu| {
            // SAFETY: the pointer is lent with the length of its array.
            let Header {
                answer,
                rule,
                sni,
                cbv,
            } = unsafe { read(8, 0, 1, pdu.as_ptr(), pdu.len()) };
            answer + rule + sni + cbv
        },
    )
}

fn rules_row() -> Row {
    let mut rng = Rng::new(SEED);
    row(
        "rules 1 to 8 of a configuration",
        || inputs::passing(&mut rng),
        (|handed| product::first_broken_rule(&handed.numbers, &handed.mask)) as RulesCall,
        (|handed| config::first_broken_rule(&handed.config()).into()) as RulesCall,
        |rules, handed| rules(handed),
    )
}

/// All rows of these functions.
pub fn rows() -> Vec<Row> {
    vec![ticks_row(), filter_row(), read_row(), rules_row()]
}
