//! Compares the proved channel with the plain second implementation, state by state, over random lists of
//! calls on random configurations: after each call the answer, the notes in their order, the lent bytes and
//! every field of the state. Each list also runs beside the book of keep-awakes.
//!
//! `cannm_compare_channel [SEED]`; the same seed always gives the same inputs. Prints how often each case was
//! reached. Exit status 0: no difference, and every case reached; 1: otherwise, with configuration, call and
//! both states of the first difference; 2: a bad argument.

mod broken;
mod calls;
mod counts;
mod state;

use broken::{Way, WAYS};
use calls::{Input, Room, Walk, CALLS, PAS, RX, STA};
use cannm_compare::inputs::{self, Handed};
use cannm_compare::product::{self, Begun, Called, Shown, Words};
use cannm_compare::seed_word;
use cannm_reference::answer::{BROKEN_RULE, NOT_SOUND};
use cannm_reference::book::{Book, Call};
use cannm_reference::channel::{initialise, Channel, Notes, Reply, State, MAX_NOTES};
use cannm_reference::config::first_broken_rule;
use cannm_reference::pnc::PncNumber;
use cannm_reference::rng::Rng;
use counts::{note_number, Cases, Counts, Found, Tally};
use state::{held, name_of, ticks_of, told, words_of, Condition, CONDITIONS, STATE};
use std::process::ExitCode;

/// Lists of calls, each on a configuration of its own, and the calls of each.
const LISTS: u64 = 800;
const CALLS_OF_A_LIST: u64 = 1_000;
/// Configurations with sound states made at random, and the states of each.
const MADE_LISTS: u64 = 400;
const MADE_OF_A_LIST: u64 = 150;
/// Configurations that are refused.
const REFUSED: u64 = 20_000;

fn main() -> ExitCode {
    let Ok(seed) = seed_word("cannm_compare_channel") else {
        return ExitCode::from(2);
    };
    println!("cannm_compare_channel: seed {seed}");

    let ways = Tally::new("unsound states", WAYS.iter().map(|way| way.text));
    let mut counts = Counts::new(ways, Tally::of::<Condition>());
    let parts: [(&str, Part); 4] = [
        ("configurations that are refused", refused_configurations),
        ("lists of calls", lists),
        ("states made at random", made_states),
        ("the longest times", longest),
    ];
    for (at, (name, part)) in (1..).zip(parts) {
        // each part has its own numbers, whatever the others take
        let mut rng = Rng::new(seed ^ (at << 56));
        if let Err(difference) = part(&mut rng, &mut counts) {
            println!("{difference}");
            println!("cannm_compare_channel: FAILED: {name}, seed {seed}");
            return ExitCode::FAILURE;
        }
    }
    counts.print();
    let missing = counts.missing();
    if !missing.is_empty() {
        println!("{}", missing.join("\n"));
        println!("cannm_compare_channel: FAILED: reached too seldom with seed {seed}");
        return ExitCode::FAILURE;
    }
    println!(
        "cannm_compare_channel: {} calls compared, no difference",
        counts.calls
    );
    ExitCode::SUCCESS
}

/// Compares one part; `Err` tells the whole of the first difference.
type Part = fn(&mut Rng, &mut Counts) -> Result<(), String>;

// ---- one call on both

/// What a call gives beside the channel.
#[derive(Clone, Copy, Debug, PartialEq, Eq)]
struct Outcome {
    answer: u32,
    rule: u32,
    /// The notes by their number, in the order raised; 8 is EI and 9 is ER.
    notes: [u8; MAX_NOTES],
    sent: bool,
    /// The frame buffer and the bytes around it.
    room: Room,
    /// State number, ERA, EIRA, how many PNCs and the lowest of them.
    status: (u64, [u8; 8], [u8; 8], u64, u64),
}

impl Outcome {
    fn new(answer: u32, rule: u32, room: Room) -> Outcome {
        Outcome {
            answer,
            rule,
            notes: [0; MAX_NOTES],
            sent: false,
            room,
            status: (0, [0; 8], [0; 8], 0, 0),
        }
    }
}

/// The call on the reference, with its notes.
fn on_reference(channel: &mut Channel, input: &Input) -> (Outcome, Notes) {
    let mut room = input.room;
    let Reply {
        answer,
        notes,
        frame,
    } = match input.call() {
        Call::Status => {
            let status = channel.status();
            let PncNumber(lowest) = status.lowest;
            let mut outcome = Outcome::new(status.answer.into(), 0, room);
            let (state, count) = (status.state.into(), status.count.into());
            outcome.status = (state, status.era, status.eira, count, lowest);
            return (outcome, Notes::NONE);
        }
        call => call.perform(channel, input.lent(&mut room)),
    };
    let mut outcome = Outcome::new(answer.into(), 0, room);
    for (to, note) in outcome.notes.iter_mut().zip(notes.as_slice()) {
        *to = note_number(*note);
    }
    outcome.sent = frame;
    (outcome, notes)
}

/// The call on the product.
fn on_product(words: &mut Words, input: &Input) -> Outcome {
    let mut room = input.room;
    if input.call == STA {
        let (mut era, mut eira) = ([0xEE; 8], [0xEE; 8]);
        let Shown {
            answer,
            rule,
            state,
            count,
            lowest,
        } = product::status(words, &mut era, &mut eira);
        let mut outcome = Outcome::new(answer, rule, room);
        outcome.status = (state.into(), era, eira, count.into(), lowest.into());
        return outcome;
    }
    let lent = input.lent(&mut room);
    let Called {
        answer,
        rule,
        first,
        second,
        ei,
        er,
        sent,
    } = product::call(words, input.call as u32, input.flag, input.bytes(), lent);
    let mut outcome = Outcome::new(answer, rule, room);
    let raised = [first, second, 8 * ei, 9 * er];
    let raised = raised.into_iter().filter(|note| *note != 0);
    for (to, note) in outcome.notes.iter_mut().zip(raised) {
        *to = note as u8;
    }
    outcome.sent = sent != 0;
    outcome
}

/// The same channel on both sides.
#[derive(Clone, Copy)]
struct Pair {
    words: Words,
    channel: Channel,
}

/// `Err` unless a fact holds; it tells the call and the state before it.
fn fact(holds: bool, what: &str, before: &Words, input: &Input) -> Result<(), String> {
    if holds {
        return Ok(());
    }
    Err(format!(
        "does not hold: {what}\n  call     {}\n  before   {}",
        input.told(),
        told(before)
    ))
}

impl Pair {
    fn of(channel: Channel) -> Pair {
        let words = words_of(&channel);
        Pair { words, channel }
    }

    /// A freshly initialised channel.
    fn new(handed: &Handed) -> Result<Pair, String> {
        let cfg = handed.config();
        let (answer, rule, channel) = initialise(&cfg);
        let expected = Begun {
            answer: answer.into(),
            rule: rule.into(),
        };
        let (got, words) = product::initialise(&handed.numbers, &handed.mask);
        if (expected, words_of(&channel)) != (got, words) {
            return Err(format!(
                "initialise {handed:?}\n  expected {expected:?}, {}\n  got      {got:?}, {}",
                told(&words_of(&channel)),
                told(&words)
            ));
        }
        if answer != 0 {
            return Err(format!("a configuration built to pass: {handed:?}"));
        }
        Ok(Pair { words, channel })
    }

    /// One call on both; what the reference gives.
    fn step(&mut self, input: &Input) -> Result<(Outcome, Notes), String> {
        let before = self.words;
        let (expected, notes) = on_reference(&mut self.channel, input);
        let got = on_product(&mut self.words, input);
        let state = words_of(&self.channel);
        if expected == got && state == self.words {
            return Ok((expected, notes));
        }
        let mut lines = vec![
            format!("call     {}", input.told()),
            format!("before   {}", told(&before)),
            format!("expected {expected:?}"),
            format!("         {}", told(&state)),
            format!("got      {got:?}"),
            format!("         {}", told(&self.words)),
        ];
        for (at, (expected, got)) in state.iter().zip(&self.words).enumerate() {
            if expected != got {
                lines.push(format!("{}: expected {expected}, got {got}", name_of(at)));
            }
        }
        Err(lines.join("\n  "))
    }
}

// ---- configurations that are refused

fn refused_configurations(rng: &mut Rng, counts: &mut Counts) -> Result<(), String> {
    for _ in 0..REFUSED {
        let handed = match rng.below(4) {
            0 => inputs::wild(rng),
            _ => inputs::damaged(rng),
        };
        let cfg = handed.config();
        let rule = first_broken_rule(&cfg);
        if rule == 0 {
            Pair::new(&handed)?;
            continue;
        }
        let (answer, named, channel) = initialise(&cfg);
        let expected = Begun {
            answer: answer.into(),
            rule: named.into(),
        };
        let (got, words) = product::initialise(&handed.numbers, &handed.mask);
        let refused = (answer, named) == (BROKEN_RULE, rule) && channel == Channel::ZERO;
        // every word of the state is 0
        if !refused || got != expected || words != [0; product::WORDS] {
            return Err(format!(
                "initialise {handed:?}\n  expected {expected:?}, all zeros\n  got      {got:?}, {}",
                told(&words)
            ));
        }
        counts.answers.add(answer.into());
        counts.rules.add(usize::from(rule) - 1);
        // and such a state is not sound
        let input = calls::any_input(rng, &channel.config);
        refuses(&Pair { words, channel }, &input)?;
        counts.calls += 2;
    }
    Ok(())
}

// ---- lists of calls

fn lists(rng: &mut Rng, counts: &mut Counts) -> Result<(), String> {
    for list in 0..LISTS {
        let handed = calls::configuration(rng);
        let told = |difference| format!("list {list}, configuration {handed:?}\n{difference}");
        let mut pair = Pair::new(&handed).map_err(told)?;
        let mut book = Book::new(&pair.channel.config).expect("it passes");
        counts.setting(&pair.channel.config, ticks_of(&pair.channel.times));
        counts.calls += 1;
        let mut walk = Walk::new(rng);
        for at in 0..CALLS_OF_A_LIST {
            let input = walk.next(rng, &pair.channel);
            call_of_list(rng, counts, &mut pair, &mut book, &input)
                .map_err(|difference| told(format!("call {at}: {difference}")))?;
        }
    }
    Ok(())
}

fn call_of_list(
    rng: &mut Rng,
    counts: &mut Counts,
    pair: &mut Pair,
    book: &mut Book,
    input: &Input,
) -> Result<(), String> {
    let before = *pair;
    let (outcome, notes) = pair.step(input)?;
    counts.calls += 1;
    let answer = outcome.answer as u8;
    let channel = &pair.channel;
    counts.call(
        &before.channel,
        channel,
        input,
        answer,
        &notes,
        outcome.sent,
    );

    // what the book says, and what holds after any call
    let answer_by_book = book.answer(&input.call());
    let due = book.step(&input.call());
    let slept = before.channel.state != State::BusSleep && channel.state == State::BusSleep;
    let flags = (channel.requested, !channel.disabled, channel.filter_on);
    for (holds, what) in [
        (answer == answer_by_book, "the book's answer"),
        (
            pair.words[STATE] == u64::from(book.shown().number()),
            "the state that the book shows",
        ),
        (slept == due, "Bus-Sleep is entered exactly when it is due"),
        (
            flags == (book.requested, book.sending, book.filter),
            "the book's requested, sending and filter",
        ),
        (
            answer == 0 || before.words == pair.words,
            "a refusal changes nothing",
        ),
        (
            outcome.sent || outcome.room == input.room,
            "no frame, and no byte is written",
        ),
        (held(channel) == [true; CONDITIONS], "every condition holds"),
    ] {
        fact(holds, what, &before.words, input)?;
    }
    counts.found(Found::Shown);
    if due {
        counts.found(Found::Due);
    }
    if rng.chance(8) {
        break_one(rng, counts, channel)?;
    }
    Ok(())
}

// ---- states that are not sound

/// Both refuse the call with answer 1 and change nothing.
fn refuses(pair: &Pair, input: &Input) -> Result<(), String> {
    let mut after = *pair;
    let expected = Outcome::new(NOT_SOUND.into(), 0, input.room);
    let (by_reference, _) = on_reference(&mut after.channel, input);
    let by_product = on_product(&mut after.words, input);
    let kept = after.channel == pair.channel && after.words == pair.words;
    if by_reference == expected && by_product == expected && kept {
        return Ok(());
    }
    let what = format!(
        "both answer 1 and change nothing\n  reference {by_reference:?}\n            {}\n  product   {by_product:?}\n            {}",
        told(&words_of(&after.channel)),
        told(&after.words)
    );
    fact(false, &what, &pair.words, input)
}

/// Breaks one condition of a sound channel, one that was broken seldom so far, and makes every call on it.
fn break_one(rng: &mut Rng, counts: &mut Counts, sound: &Channel) -> Result<(), String> {
    // of some ways that this channel allows, the one that was taken least
    let mut chosen: Option<(usize, Channel)> = None;
    for _ in 0..24 {
        let at = rng.below(WAYS.len() as u64) as usize;
        let count = |at: usize| counts.broken.of_place(at);
        if chosen.is_none_or(|(other, _)| count(at) < count(other)) {
            if let Some(channel) = WAYS[at].broken(rng, sound) {
                chosen = Some((at, channel));
            }
        }
    }
    let Some((at, channel)) = chosen else {
        return Ok(());
    };
    let way: &Way = &WAYS[at];
    counts.broken.add(at);
    counts.conditions.add(way.condition.place());
    let mut pair = Pair::of(channel);
    for place in [state::SNI, state::CBV] {
        // any other number that is no position
        if pair.words[place] == state::NO_POSITION {
            pair.words[place] = inputs::number(rng).max(2);
            if pair.words[place] == inputs::OFF {
                pair.words[place] = 254;
            }
        }
    }
    let told = |difference| format!("unsound by: {}\n{difference}", way.text);
    for call in 0..CALLS {
        let input = calls::input(rng, &sound.config, call);
        let is_sound = (sound.is_sound(), channel.is_sound());
        fact(
            is_sound == (true, false),
            "for the reference the first is sound and the changed one is not",
            &pair.words,
            &input,
        )
        .map_err(told)?;
        refuses(&pair, &input).map_err(told)?;
        let (of_the_sound, _) = on_reference(&mut sound.clone(), &input);
        counts.unsound(call, of_the_sound.answer as u8);
        counts.calls += 1;
    }
    Ok(())
}

// ---- sound states made at random

fn made_states(rng: &mut Rng, counts: &mut Counts) -> Result<(), String> {
    for list in 0..MADE_LISTS {
        let handed = calls::configuration(rng);
        let fresh = Pair::new(&handed)?.channel;
        for _ in 0..MADE_OF_A_LIST {
            let mut pair = Pair::of(state::made(rng, &fresh));
            let input = calls::any_input(rng, &fresh.config);
            let sound = held(&pair.channel) == [true; CONDITIONS] && pair.channel.is_sound();
            let before = pair.words;
            let told = |difference| format!("list {list}, configuration {handed:?}\n{difference}");
            fact(sound, "made to be sound", &before, &input).map_err(told)?;
            let (outcome, _) = pair.step(&input).map_err(told)?;
            let answered = outcome.answer != u32::from(NOT_SOUND);
            let sound = held(&pair.channel) == [true; CONDITIONS];
            fact(answered && sound, "sound after the call", &before, &input).map_err(told)?;
            counts.calls += 1;
            counts.found(Found::Made);
            if rng.chance(4) {
                break_one(rng, counts, &pair.channel)?;
            }
        }
    }
    Ok(())
}

// ---- the longest times

/// Each time at its end: a passive start, then nothing but ticks until Bus-Sleep.
fn longest(rng: &mut Rng, counts: &mut Counts) -> Result<(), String> {
    let mut handed = calls::configuration(rng);
    let n = &mut handed.numbers;
    *n = [0; product::NUMBERS];
    n[inputs::PERIOD] = 1;
    for time in [inputs::TIMEOUT, inputs::WAIT, inputs::REPEAT] {
        n[time] = inputs::LONGEST;
    }
    n[inputs::CYCLE] = inputs::LONGEST - 2;
    n[inputs::PN_RESET] = inputs::LONGEST - 1;
    (n[inputs::LENGTH], n[inputs::SNI], n[inputs::CBV]) = (8, 0, 1);
    (n[inputs::PN_ON], n[inputs::PN_START], n[inputs::PN_LEN]) = (1, 2, 6);
    n[inputs::MASK_LEN] = 6;
    handed.mask = vec![0xFF; 6];
    let mut pair = Pair::new(&handed)?;
    let mut ticks = 0;
    for call in [PAS, RX] {
        pair.step(&calls::input(rng, &pair.channel.config, call))?;
    }
    while pair.channel.state != State::BusSleep {
        pair.step(&Input::tick(8))?;
        ticks += 1;
        counts.found(Found::Longest);
        counts.calls += 1;
    }
    // the NM timer starts anew in the tick that ends Repeat
    let expected = 3 * inputs::LONGEST;
    if ticks != expected {
        return Err(format!("{ticks} ticks to Bus-Sleep, expected {expected}"));
    }
    Ok(())
}
