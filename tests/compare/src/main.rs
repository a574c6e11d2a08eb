//! Compares the proved libraries with the plain second implementation, on random inputs; where all inputs are few
//! enough, on all of them.
//!
//! `cannm_compare [SEED]`; the same seed always gives the same inputs. Prints how often each case was
//! reached. Exit status 0: no difference, and every case reached; 1: otherwise, with the whole input of
//! the first difference; 2: a bad argument.

mod seen;

use cannm_compare::inputs::{self, Handed};
use cannm_compare::product::{self, Composed, Filter, Header, Place, Ticks};
use cannm_compare::seed_word;
use cannm_reference::answer::{Answer, Refusal};
use cannm_reference::config::{first_broken_rule, Config, Position};
use cannm_reference::pdu::{self, Fields};
use cannm_reference::pnc::{BitIndex, PncNumber};
use cannm_reference::rng::Rng;
use cannm_reference::{answer, host};
use seen::{Kind, Seen};
use std::fmt::Debug;
use std::process::ExitCode;

/// The longest byte string that is lent.
const MOST: usize = 12;
/// A lent buffer with bytes before and behind it that no one may touch.
const ROOM: usize = MOST + 16;
/// Where in it the lent part starts.
const START: usize = 8;

fn main() -> ExitCode {
    let Ok(seed) = seed_word("cannm_compare") else {
        return ExitCode::from(2);
    };
    println!("cannm_compare: seed {seed}");

    let whole: [(&str, Whole); 2] = [
        (
            "ticks: each period 1 to 100 with each time 0 to 65535",
            each_conversion,
        ),
        ("PNC numbers and bits: each range of a PDU", each_small_pnc),
    ];
    let parts: [(&str, u64, Part); 9] = [
        ("ticks", 300_000, ticks),
        ("filter", 200_000, filter),
        ("header", 200_000, header),
        ("configurations", 1_000_000, configuration),
        ("compose", 400_000, compose),
        ("read", 400_000, read),
        ("round trips", 300_000, round_trips),
        ("PNC numbers", 100_000, pnc_number),
        ("PNC bits", 100_000, pnc_bit),
    ];
    let mut seen = Seen::new();
    let mut total = 0;
    for (name, part) in whole {
        match part(&mut seen) {
            Ok(inputs) => {
                println!("  {inputs:>9}  {name}");
                total += inputs;
            }
            Err(difference) => {
                println!("{difference}");
                println!("cannm_compare: FAILED: {name}");
                return ExitCode::FAILURE;
            }
        }
    }
    for (at, (name, inputs, part)) in (1..).zip(parts) {
        // each part has its own numbers, whatever the others take
        let mut rng = Rng::new(seed ^ (at << 56));
        for input in 0..inputs {
            if let Err(difference) = part(&mut rng, &mut seen) {
                println!("{difference}");
                println!("cannm_compare: FAILED: {name}, input {input}, seed {seed}");
                return ExitCode::FAILURE;
            }
        }
        total += inputs;
    }
    seen.print();
    let missing = seen.missing();
    if !missing.is_empty() {
        println!("cannm_compare: FAILED: never reached with seed {seed}: {missing:?}");
        return ExitCode::FAILURE;
    }
    println!("cannm_compare: {total} inputs compared, no difference");
    ExitCode::SUCCESS
}

/// Compares all inputs, and gives how many they are; `Err` tells the whole of one that differs.
type Whole = fn(&mut Seen) -> Result<u64, String>;

/// Compares one input; `Err` tells the whole of it.
type Part = fn(&mut Rng, &mut Seen) -> Result<(), String>;

/// `Err` with the input and both results if they differ.
fn same<T: PartialEq + Debug>(
    call: &str,
    input: &dyn Debug,
    expected: &T,
    got: &T,
) -> Result<(), String> {
    if expected == got {
        return Ok(());
    }
    Err(format!(
        "{call}\n  input    {input:?}\n  expected {expected:?}\n  got      {got:?}"
    ))
}

/// Answer and rule as the C interface has them.
fn numbers<T>(outcome: &Answer<T>) -> (u32, u32) {
    let (answer, rule) = answer::numbers(outcome);
    (answer.into(), rule.into())
}

// ---- the C interface

/// A number of 32 bits: mostly up to `most`, else at an edge or any.
fn number_up_to(rng: &mut Rng, most: u64) -> u32 {
    match rng.below(8) {
        0 => rng.next_u64() as u32,
        1 => *rng.pick(&inputs::EDGES) as u32,
        _ => rng.below(most + 1) as u32,
    }
}

fn ticks(rng: &mut Rng, seen: &mut Seen) -> Result<(), String> {
    let period = number_up_to(rng, 102);
    let mut time = number_up_to(rng, 70_000);
    if rng.chance(4) {
        // beside a whole number of periods
        let periods = u64::from(period.clamp(1, 100)) * rng.below(700);
        time = (periods + rng.below(3)) as u32;
    }
    compare_ticks(seen, period, time)
}

/// Every period with every time that has ticks.
fn each_conversion(seen: &mut Seen) -> Result<u64, String> {
    let mut inputs = 0;
    for period in 1..=100 {
        for time in 0..=65_535 {
            compare_ticks(seen, period, time)?;
            inputs += 1;
        }
    }
    assert_eq!(inputs, 100 * 65_536, "not every conversion was compared");
    Ok(inputs)
}

fn compare_ticks(seen: &mut Seen, period: u32, time: u32) -> Result<(), String> {
    let want = host::convert(period, time);
    let expected = Ticks {
        answer: want.answer.into(),
        rule: want.rule.into(),
        ticks: want.value as u32,
    };
    match expected.rule {
        1 => seen.add(Kind::TicksRule1),
        2 => seen.add(Kind::TicksRule2),
        _ => {
            seen.add(Kind::TicksDone);
            let begun = want.value * u64::from(period) != u64::from(time);
            seen.add_if(!begun, Kind::TicksWhole);
            seen.add_if(begun, Kind::TicksBegun);
        }
    }
    let got = product::ticks(period, time);
    same(
        "cannm_ticks(period, time)",
        &(period, time),
        &expected,
        &got,
    )
}

fn filter(rng: &mut Rng, seen: &mut Seen) -> Result<(), String> {
    let (mut pn, mut mask) = ([0; 40], [0; 40]);
    rng.fill(&mut pn);
    rng.fill(&mut mask);
    let kind = rng.below(4);
    for (pn, mask) in pn.iter_mut().zip(&mut mask) {
        match kind {
            0 => {}
            // few bits, so that most do not meet
            1 => (*pn, *mask) = (*pn & rng.byte() & rng.byte(), *mask & rng.byte()),
            // no bit that meets
            2 => *mask &= !*pn,
            // no bit that meets, but for one in the whole string, perhaps
            _ => *mask = 0,
        }
    }
    let most = if rng.chance(4) { 40 } else { 8 };
    let length = rng.below(most + 1) as usize;
    if kind == 3 && length > 0 {
        mask[rng.below(length as u64) as usize] = 1 << rng.below(8);
    }
    let mask_length = if rng.chance(8) {
        inputs::length(rng, length, 40)
    } else {
        length
    };
    let (pn, mask) = (&pn[..length], &mask[..mask_length]);
    let awake = if rng.chance(4) {
        number_up_to(rng, 3)
    } else {
        0
    };
    let cbv = match rng.below(3) {
        0 => rng.next_u64() as u32,
        1 => (rng.next_u64() as u32) | 0x40,
        _ => rng.byte().into(),
    };

    let want = host::filter(awake != 0, cbv as u8, pn, mask);
    let expected = Filter {
        answer: want.answer.into(),
        keep: want.value.into(),
    };
    if want.answer == 5 {
        seen.add(Kind::FilterLength);
    } else {
        let (pni, meets) = (
            cbv & 0x40 != 0,
            pn.iter().zip(mask).any(|(p, m)| p & m != 0),
        );
        seen.add_if(cbv > 255, Kind::FilterWideCbv);
        seen.add(match (want.value, pni, meets) {
            (true, true, true) => Kind::FilterKept,
            (true, _, _) => Kind::FilterAwake,
            (false, false, true) => Kind::FilterNoPni,
            (false, true, _) => Kind::FilterNoBit,
            (false, false, false) => Kind::FilterNeither,
        });
    }
    let got = product::pn_filter(awake, cbv, pn, mask);
    let input = (awake, cbv, pn, mask);
    same(
        "cannm_pn_filter(awake, cbv, pn, mask)",
        &input,
        &expected,
        &got,
    )
}

fn header(rng: &mut Rng, seen: &mut Seen) -> Result<(), String> {
    let mut bytes = [0; MOST];
    rng.fill(&mut bytes);
    let length = if rng.chance(8) {
        number_up_to(rng, 10)
    } else {
        1 + rng.below(8) as u32
    };
    let mut position = || match rng.below(8) {
        0 => number_up_to(rng, 3),
        1 | 2 => host::POSITION_OFF,
        _ => rng.below(2) as u32,
    };
    let (sni, cbv) = (position(), position());
    let pdu = &bytes[..inputs::length(rng, length.min(MOST as u32) as usize, MOST)];

    let want = host::read_header(length, sni, cbv, pdu);
    let expected = Header {
        answer: want.answer.into(),
        rule: want.rule.into(),
        sni: want.value.sni.into(),
        cbv: want.value.cbv.into(),
    };
    seen.add(match (want.answer, want.rule) {
        (0, _) => Kind::HeaderDone,
        (2, 6) => Kind::HeaderRule6,
        (2, _) => Kind::HeaderRule7,
        _ if pdu.len() < length as usize => Kind::HeaderShort,
        _ => Kind::HeaderLong,
    });
    let got = product::read_pdu(length, sni, cbv, pdu);
    let input = (length, sni, cbv, pdu);
    same(
        "cannm_read_pdu(length, sni, cbv, pdu)",
        &input,
        &expected,
        &got,
    )
}

// ---- configurations

fn configuration(rng: &mut Rng, seen: &mut Seen) -> Result<(), String> {
    let (handed, built_to_pass) = match rng.below(10) {
        0..=2 => (inputs::passing(rng), true),
        3 => (inputs::wild(rng), false),
        _ => (inputs::damaged(rng), false),
    };
    let cfg = handed.config();
    let expected = u32::from(first_broken_rule(&cfg));
    seen.add(match (expected, cfg.pn_on) {
        (0, false) => Kind::ConfigPasses,
        (0, true) => Kind::ConfigPassesPn,
        (1, _) => Kind::ConfigRule1,
        (2, _) => Kind::ConfigRule2,
        (3, _) => Kind::ConfigRule3,
        (4, _) => Kind::ConfigRule4,
        (5, _) => Kind::ConfigRule5,
        (6, _) => Kind::ConfigRule6,
        (7, _) => Kind::ConfigRule7,
        (_, false) => Kind::ConfigRule8,
        (_, true) => Kind::ConfigRule8Pn,
    });
    let huge = handed.numbers.iter().any(|value| *value > u32::MAX.into());
    seen.add_if(huge, Kind::ConfigHuge);
    if built_to_pass {
        same("a configuration built to pass", &handed, &0, &expected)?;
    }
    let got = product::first_broken_rule(&handed.numbers, &handed.mask);
    same("test_first_broken_rule", &handed, &expected, &got)
}

// ---- PDUs

/// Mostly a configuration that passes.
fn mostly_passing(rng: &mut Rng) -> Handed {
    if rng.chance(4) {
        inputs::damaged(rng)
    } else {
        inputs::passing(rng)
    }
}

/// Counts the layout of a configuration that passes.
fn see_layout(cfg: &Config, seen: &mut Seen) {
    use Position::{Byte0, Off};
    let (pn, user) = (cfg.pn_range(), cfg.user_range());
    seen.add(match (cfg.sni, cfg.cbv) {
        (Off, Off) => Kind::LayoutNoHeader,
        (Byte0, Off) => Kind::LayoutSniOnly,
        (Off, _) => Kind::LayoutCbvOnly,
        (Byte0, _) => Kind::LayoutSniFirst,
        _ => Kind::LayoutCbvFirst,
    });
    seen.add(match cfg.pn_on {
        false => Kind::LayoutPnOff,
        true if user.is_empty() => Kind::LayoutPnOnly,
        true if pn.start < user.start => Kind::LayoutPnFirst,
        true => Kind::LayoutPnLast,
    });
    seen.add_if(cfg.pdu_len() == cfg.header_len(), Kind::LayoutHeaderOnly);
}

/// Random bytes, more than any string that is lent takes.
fn random_room(rng: &mut Rng) -> [u8; ROOM] {
    let mut room = [0; ROOM];
    rng.fill(&mut room);
    room
}

/// The part of a room that is lent.
fn lent(room: &mut [u8; ROOM], length: usize) -> &mut [u8] {
    &mut room[START..START + length]
}

fn compose(rng: &mut Rng, seen: &mut Seen) -> Result<(), String> {
    let handed = mostly_passing(rng);
    let cfg = handed.config();
    let right = (cfg.pn_range().len(), cfg.user_range().len(), cfg.pdu_len());
    let pn_length = inputs::length(rng, right.0, MOST);
    let user_length = inputs::length(rng, right.1, MOST);
    let frame_length = match rng.below(3) {
        0 => inputs::length(rng, right.2, MOST),
        _ => right.2 + rng.below((MOST - right.2) as u64 + 1) as usize,
    };
    let (pn, user) = (random_room(rng), random_room(rng));
    let (pn, user) = (&pn[..pn_length], &user[..user_length]);
    let (sni, cbv) = (rng.byte(), rng.byte());
    let before = random_room(rng);

    let mut wanted = before;
    let fields = Fields { sni, cbv, pn, user };
    let outcome = pdu::compose(&cfg, &fields, lent(&mut wanted, frame_length));
    let (answer, rule) = numbers(&outcome);
    match answer {
        0 => {
            seen.add(Kind::ComposeDone);
            seen.add_if(frame_length > right.2, Kind::ComposeRoom);
            see_layout(&cfg, seen);
        }
        2 => seen.add(Kind::ComposeRule),
        _ => {
            seen.add_if(pn_length != right.0, Kind::ComposePn);
            seen.add_if(user_length != right.1, Kind::ComposeUser);
            seen.add_if(frame_length < right.2, Kind::ComposeFrame);
        }
    }

    let mut written = before;
    let got = product::compose(
        &handed.numbers,
        &handed.mask,
        (sni, cbv),
        pn,
        user,
        lent(&mut written, frame_length),
    );
    let input = (&handed, (sni, cbv), pn, user, frame_length, &before);
    let call = "test_compose(configuration, (sni, cbv), pn, user, frame length), bytes before";
    let expected = Composed { answer, rule };
    same(call, &input, &(expected, wanted), &(got, written))?;
    // the reference too writes nothing when it refuses, and nothing behind the L bytes
    if answer != 0 {
        return same("nothing is written when refused", &input, &before, &wanted);
    }
    let end = START + right.2;
    let around = |room: &[u8; ROOM]| (room[..START].to_vec(), room[end..].to_vec());
    same(
        "later bytes keep their content",
        &input,
        &around(&before),
        &around(&written),
    )
}

fn read(rng: &mut Rng, seen: &mut Seen) -> Result<(), String> {
    let handed = mostly_passing(rng);
    let cfg = handed.config();
    let right = (cfg.pn_range().len(), cfg.user_range().len(), cfg.pdu_len());
    let pn_length = inputs::length(rng, right.0, MOST);
    let user_length = inputs::length(rng, right.1, MOST);
    let pdu_length = inputs::length(rng, right.2, MOST);
    let bytes = random_room(rng);
    let bytes = &bytes[..pdu_length];
    let (pn_before, user_before) = (random_room(rng), random_room(rng));

    let (mut pn_wanted, mut user_wanted) = (pn_before, user_before);
    let outcome = pdu::read(&cfg, bytes).and_then(|fields| {
        // the buffers have to fit, too
        if pn_length != fields.pn.len() || user_length != fields.user.len() {
            return Err(Refusal::Length);
        }
        lent(&mut pn_wanted, pn_length).copy_from_slice(fields.pn);
        lent(&mut user_wanted, user_length).copy_from_slice(fields.user);
        Ok((fields.sni, fields.cbv))
    });
    let (answer, rule) = numbers(&outcome);
    let (sni, cbv) = outcome.unwrap_or((0, 0));
    match answer {
        0 => {
            seen.add(Kind::ReadDone);
            see_layout(&cfg, seen);
        }
        2 => seen.add(Kind::ReadRule),
        _ => {
            seen.add_if(pdu_length < right.2, Kind::ReadShort);
            seen.add_if(pdu_length > right.2, Kind::ReadLong);
            seen.add_if(pn_length != right.0, Kind::ReadPn);
            seen.add_if(user_length != right.1, Kind::ReadUser);
        }
    }

    let (mut pn_written, mut user_written) = (pn_before, user_before);
    let got = product::read(
        &handed.numbers,
        &handed.mask,
        bytes,
        lent(&mut pn_written, pn_length),
        lent(&mut user_written, user_length),
    );
    let expected = Header {
        answer,
        rule,
        sni: sni.into(),
        cbv: cbv.into(),
    };
    let input = (&handed, bytes, pn_length, user_length);
    let call = "test_read(configuration, pdu, pn length, user length)";
    same(
        call,
        &(input, &pn_before, &user_before),
        &(expected, pn_wanted, user_wanted),
        &(got, pn_written, user_written),
    )
}

/// What the product composes it reads back, and the other way round.
fn round_trips(rng: &mut Rng, seen: &mut Seen) -> Result<(), String> {
    let handed = inputs::passing(rng);
    let cfg = handed.config();
    let (pn, user, length) = (cfg.pn_range().len(), cfg.user_range().len(), cfg.pdu_len());
    see_layout(&cfg, seen);

    let compose = |sni, cbv, pn: &[u8], user: &[u8]| {
        let mut frame = [0xEE; MOST];
        let fields = (sni, cbv);
        let answer = product::compose(&handed.numbers, &handed.mask, fields, pn, user, &mut frame);
        (answer, frame)
    };
    let read = |pdu: &[u8]| {
        let (mut pn_bytes, mut user_bytes) = (vec![0xEE; pn], vec![0xEE; user]);
        let (numbers, mask) = (&handed.numbers, &handed.mask);
        let header = product::read(numbers, mask, pdu, &mut pn_bytes, &mut user_bytes);
        (header, pn_bytes, user_bytes)
    };
    let done = Composed { answer: 0, rule: 0 };

    // fields, frame, fields
    let (sni, cbv) = (rng.byte(), rng.byte());
    let bytes = random_room(rng);
    let (pn_bytes, user_bytes) = (&bytes[..pn], &bytes[pn..pn + user]);
    let (answer, frame) = compose(sni, cbv, pn_bytes, user_bytes);
    let input = (&handed, sni, cbv, pn_bytes, user_bytes);
    same("compose, to be read back", &input, &done, &answer)?;
    let fields = Header {
        answer: 0,
        rule: 0,
        sni: if cfg.sni.is_on() { sni.into() } else { 0 },
        cbv: if cfg.cbv.is_on() { cbv.into() } else { 0 },
    };
    let expected = (fields, pn_bytes.to_vec(), user_bytes.to_vec());
    let got = read(&frame[..length]);
    same("read after compose", &input, &expected, &got)?;
    seen.add(Kind::BackToFields);

    // PDU, fields, PDU
    let pdu = &random_room(rng)[..length];
    let (header, pn_bytes, user_bytes) = read(pdu);
    let (sni, cbv) = (header.sni as u8, header.cbv as u8);
    let (answer, frame) = compose(sni, cbv, &pn_bytes, &user_bytes);
    let expected = (done, pdu, [0xEE; MOST][length..].to_vec());
    let got = (answer, &frame[..length], frame[length..].to_vec());
    same("compose after read", &(&handed, pdu), &expected, &got)?;
    seen.add(Kind::BackToPdu);
    Ok(())
}

// ---- PNC numbers and bits

fn place(value: Option<u64>) -> Place {
    Place {
        inside: value.is_some().into(),
        value: value.unwrap_or(0) as u32,
    }
}

fn compare_number(seen: &mut Seen, start: u32, length: u32, bit: u32) -> Result<(), String> {
    let number = BitIndex(bit.into()).to_number(start.into(), length.into());
    seen.add(match number {
        Some(_) => Kind::NumberInside,
        None => Kind::NumberOutside,
    });
    let expected = place(number.map(|PncNumber(number)| number));
    let got = product::pnc_number(start, length, bit);
    let input = (start, length, bit);
    same(
        "test_pnc_number(start, length, bit)",
        &input,
        &expected,
        &got,
    )?;
    if got.inside == 1 {
        let back = product::pnc_bit(start, length, got.value);
        let bit = place(Some(bit.into()));
        same("the bit of a bit's number", &input, &bit, &back)?;
    }
    Ok(())
}

fn compare_bit(seen: &mut Seen, start: u32, length: u32, number: u32) -> Result<(), String> {
    let bit = PncNumber(number.into()).to_index(start.into(), length.into());
    seen.add(match bit {
        Some(_) => Kind::BitInside,
        None if u64::from(number) < 8 * u64::from(start) => Kind::BitBefore,
        None => Kind::BitBehind,
    });
    let expected = place(bit.map(|BitIndex(bit)| bit));
    let got = product::pnc_bit(start, length, number);
    let input = (start, length, number);
    same(
        "test_pnc_bit(start, length, number)",
        &input,
        &expected,
        &got,
    )?;
    if got.inside == 1 {
        let back = product::pnc_number(start, length, got.value);
        let number = place(Some(number.into()));
        same("the number of a number's bit", &input, &number, &back)?;
    }
    Ok(())
}

/// A range: mostly one of a PDU, else any.
fn pn_range(rng: &mut Rng) -> (u32, u32) {
    let any = |rng: &mut Rng| match rng.below(3) {
        0 => *rng.pick(&[0, 1, 8, 255, 256, 257, 8_191, 8_192, 8_193, 65_534, 65_535]),
        _ => rng.below(65_536) as u32,
    };
    match rng.below(3) {
        0 => (any(rng), any(rng)),
        1 => (rng.below(9) as u32, any(rng)),
        _ => (rng.below(9) as u32, rng.below(9) as u32),
    }
}

/// A number near one of the edges, or any.
fn near(rng: &mut Rng, edges: &[u64]) -> u32 {
    match rng.below(4) {
        0 => number_up_to(rng, 600_000),
        1 => rng.below(80) as u32,
        _ => (*rng.pick(edges) + rng.below(17)).saturating_sub(rng.below(17)) as u32,
    }
}

fn pnc_number(rng: &mut Rng, seen: &mut Seen) -> Result<(), String> {
    let (start, length) = pn_range(rng);
    let bit = near(rng, &[0, 8 * u64::from(length)]);
    compare_number(seen, start, length, bit)
}

fn pnc_bit(rng: &mut Rng, seen: &mut Seen) -> Result<(), String> {
    let (start, length) = pn_range(rng);
    let first = 8 * u64::from(start);
    let end = first + 8 * u64::from(length);
    let number = near(rng, &[first, (first + end) / 2, end]);
    compare_bit(seen, start, length, number)
}

/// Every range of a PDU with every number near it.
fn each_small_pnc(seen: &mut Seen) -> Result<u64, String> {
    let mut inputs = 0;
    for start in 0..=9 {
        for length in 0..=9 {
            for value in 0..160 {
                compare_number(seen, start, length, value)?;
                compare_bit(seen, start, length, value)?;
                inputs += 2;
            }
        }
    }
    Ok(inputs)
}
