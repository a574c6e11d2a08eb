//! What traces and their outputs have shown, counted: traces that never reach
//! a case show nothing about it.
//!
//! Only the texts are looked at, so that the output may come from any program
//! that runs traces.

use crate::answer::{BROKEN_RULE, DONE, PASSIVE, PN_OFF, UNREADABLE, WRONG_LENGTH, WRONG_STATE};
use crate::call::Call;
use crate::channel::{Note, State};
use crate::config::{checked_times, first_broken_rule, Config, MAX_BYTES};
use crate::trace::{
    first_field, is_pn_line, read_call, read_cfg, read_pn, Unreadable, BLOCK, CALLS_ALONE,
    CALLS_WITH_FIELD, MAX_DIGITS, MAX_HEX_BYTES, MAX_LINE,
};
use std::collections::HashMap;

/// The calls by the words of their lines, each with the answers that a trace
/// can get.
const CALLS: [(&str, &[u8]); 14] = [
    ("REQ", &[DONE, PASSIVE]),
    ("REL", &[DONE, PASSIVE]),
    ("PAS", &[DONE, WRONG_STATE]),
    ("RMR", &[DONE, WRONG_STATE, PASSIVE]),
    ("DIS", &[DONE, WRONG_STATE, PASSIVE]),
    ("ENA", &[DONE, WRONG_STATE, PASSIVE]),
    ("OK", &[DONE, PASSIVE]),
    ("BAD", &[DONE, PASSIVE]),
    ("PNA", &[DONE, PN_OFF]),
    ("RX", &[DONE, WRONG_LENGTH]),
    ("UD", &[DONE, PASSIVE, WRONG_LENGTH]),
    ("PNR", &[DONE, PASSIVE, WRONG_LENGTH, PN_OFF]),
    ("T 0", &[DONE]),
    ("T 1", &[DONE]),
];

/// The place in `CALLS` of a call that a trace has a line for.
fn place_of(call: &Call<'_>) -> Option<usize> {
    Some(match *call {
        Call::NetworkRequest => 0,
        Call::NetworkRelease => 1,
        Call::PassiveStartUp => 2,
        Call::RepeatMessageRequest => 3,
        Call::DisableCommunication => 4,
        Call::EnableCommunication => 5,
        Call::TxConfirmation(good) => 7 - usize::from(good),
        Call::ConfirmPnAvailability => 8,
        Call::RxIndication(_) => 9,
        Call::SetUserData(_) => 10,
        Call::SetPnRequests(_) => 11,
        Call::MainFunction { taken, .. } => 12 + usize::from(taken),
        Call::Status => return None,
    })
}

/// Each state and those that one call can lead to from it.
const LEADS_TO: [(State, &[State]); 5] = {
    use State::{BusSleep, NormalOperation, PrepareBusSleep, ReadySleep, RepeatMessage};
    [
        (BusSleep, &[BusSleep, RepeatMessage]),
        (PrepareBusSleep, &[BusSleep, PrepareBusSleep, RepeatMessage]),
        (RepeatMessage, &[RepeatMessage, NormalOperation, ReadySleep]),
        (
            NormalOperation,
            &[RepeatMessage, NormalOperation, ReadySleep],
        ),
        (
            ReadySleep,
            &[PrepareBusSleep, RepeatMessage, NormalOperation, ReadySleep],
        ),
    ]
};

/// Where a line stands that can't be read.
#[derive(Clone, Copy, Debug, PartialEq, Eq, Hash)]
pub enum Place {
    /// Line 1.
    Cfg,
    /// A PN line at line 2.
    Pn,
    /// Any other line.
    Call,
}

/// Why a line can't be read, in words, and where a line can have it.
const REASONS: [(Unreadable, &str, &[Place]); 13] = {
    const CONFIG: &[Place] = &[Place::Cfg, Place::Pn];
    const BYTES: &[Place] = &[Place::Pn, Place::Call];
    const ALL: &[Place] = &[Place::Cfg, Place::Pn, Place::Call];
    [
        (Unreadable::TooLong, "too long", ALL),
        (
            Unreadable::Name,
            "no name for it",
            &[Place::Cfg, Place::Call],
        ),
        (Unreadable::FieldCount, "wrong number of fields", ALL),
        (Unreadable::EmptyNumber, "empty number", CONFIG),
        (Unreadable::NotDecimal, "not decimal", CONFIG),
        (Unreadable::LeadingZero, "leading zero", CONFIG),
        (Unreadable::TooManyDigits, "too many digits", CONFIG),
        (Unreadable::NotSwitch, "not 0 or 1", ALL),
        (Unreadable::NotPosition, "not a position", &[Place::Cfg]),
        (Unreadable::EmptyHex, "no byte", BYTES),
        (Unreadable::OddHex, "half a byte", BYTES),
        (Unreadable::LowerHex, "lower-case hex", BYTES),
        (Unreadable::NotHex, "not hex", BYTES),
    ]
};

macro_rules! cases {
    ($($name:ident $text:literal)*) => {
        /// A case that is counted on its own.
        #[derive(Clone, Copy, Debug, PartialEq, Eq, Hash)]
        pub enum Case {
            $(#[doc = $text] $name),*
        }

        const CASES: &[(Case, &str)] = &[$((Case::$name, $text)),*];
    };
}

cases! {
    Empty "input: no byte"
    NoLastFeed "input: last line without line feed"
    LastFeed "input: last line with line feed"
    CfgAlone "input: CFG line and no other"
    PnAlone "input: CFG and PN line and no other"
    AfterEnd "input: lines after the end of the run"
    Active "configuration: active"
    Passive "configuration: passive"
    PnOff "configuration: PN off"
    PnFirst "configuration: PN bytes before user data"
    PnLast "configuration: PN bytes after user data"
    PnOnly "configuration: PN bytes and no user data"
    KeepAwake "configuration: all messages keep awake"
    NoCbv "configuration: no CBV"
    NoHeader "configuration: no header"
    Fast "configuration: fast frames"
    Remote "configuration: remote sleep"
    LongTimes "configuration: more than 1,000 ticks until asleep"
    TenDigits "configuration: number of ten digits"
    LongestCfg "configuration: readable CFG line of 80 bytes"
    LongestPn "configuration: readable PN line of 80 bytes"
    RefusedAlone "configuration: refused, no PN line"
    RefusedPn "configuration: refused, with a PN line"
    RefusedBehindPn "configuration: line 1 breaks a rule, PN line unreadable"
    Call79 "line: readable call of 79 bytes"
    Call80 "line: readable call of 80 bytes"
    Bytes79 "unreadable line: 79 bytes"
    Bytes80 "unreadable line: 80 bytes"
    Bytes81 "unreadable line: 81 bytes"
    Bytes82 "unreadable line: 82 bytes"
    BytesMore "unreadable line: 83 bytes or more"
    BytesBlock "unreadable line: about a block of input or more"
    Blank "unreadable line: empty"
    TabFirst "unreadable line: tab at its start"
    TabLast "unreadable line: tab at its end"
    ReturnLast "unreadable line: carriage return at its end"
    HasNul "unreadable line: holds byte 0"
    HasFf "unreadable line: holds byte FF"
    HasBlank "unreadable line: holds a blank"
    LowerName "unreadable line: name in lower case"
    SecondCfg "unreadable line: CFG line further down"
    SecondPn "unreadable line: PN line further down"
    RequestFastNormal "RMR: done in N, fast frames configured"
    RequestFastReady "RMR: done in S, fast frames configured"
    RequestFastNotTaken "RMR: done, then first fast frame not taken"
    PduFastNormal "RX: N to R, fast frames configured"
    PduFastReady "RX: S to R, fast frames configured"
    Dropped "RX: dropped in Bus-Sleep"
    FilterOn "RX: filter on"
    TickDisabled "T: sending disabled"
    LongRun "T: 100 in a row"
}

/// Ticks until asleep that count as long, and ticks in a row.
const LONG: u64 = 1_000;
const LONG_RUN: u64 = 100;

/// One line of an output.
struct Printed<'a> {
    number: u64,
    answer: u8,
    /// None where a dash is printed.
    state: Option<State>,
    notes: &'a [u8],
    frame: &'a [u8],
}

impl Printed<'_> {
    fn read(line: &[u8]) -> Option<Printed<'_>> {
        let mut fields = line.split(|byte| *byte == b'\t');
        let mut next = || fields.next();
        let printed = Printed {
            number: std::str::from_utf8(next()?).ok()?.parse().ok()?,
            answer: match next()? {
                [digit @ b'0'..=b'7'] => digit - b'0',
                _ => return None,
            },
            state: match next()? {
                b"-" => None,
                letter => {
                    let mut states = State::ALL.into_iter();
                    Some(states.find(|state| *letter == [state.letter() as u8])?)
                }
            },
            notes: next()?,
            frame: next()?,
        };
        fields.next().is_none().then_some(printed)
    }

    fn notes(&self) -> impl Iterator<Item = &[u8]> {
        let notes = self.notes.split(|byte| *byte == b',');
        notes.filter(|note| *note != b"-")
    }

    fn has(&self, note: Note) -> bool {
        self.notes()
            .any(|letters| letters == note.letters().as_bytes())
    }
}

/// What is counted.
#[derive(Clone, Copy, Debug, PartialEq, Eq, Hash)]
pub enum Kind {
    /// A printed answer.
    Answer(u8),
    /// A printed state, or the dash in its place.
    State(Option<State>),
    /// A printed note.
    Note(Note),
    /// So many notes on one line.
    Notes(usize),
    /// A printed frame of so many bytes.
    Frame(usize),
    /// A configuration whose first broken rule this is, 0 if none.
    Rule(u8),
    /// A call by its words, and its answer.
    Answered(&'static str, u8),
    /// A call by its words, and the state before it.
    CalledIn(&'static str, State),
    /// The states before and after a call or an unreadable line.
    Step(State, State),
    /// A readable RX line of so many bytes.
    Received(usize),
    /// A line that can't be read.
    Unreadable(Place, Unreadable),
    /// Anything else.
    Case(Case),
}

impl Kind {
    /// Every kind that a trace can show.
    pub fn all() -> Vec<Kind> {
        let mut kinds = vec![Kind::State(None)];
        // An output never has answer 1: each state reached is sound.
        kinds.extend([DONE, BROKEN_RULE, WRONG_STATE, PASSIVE].map(Kind::Answer));
        kinds.extend([WRONG_LENGTH, PN_OFF, UNREADABLE].map(Kind::Answer));
        kinds.extend(State::ALL.map(|state| Kind::State(Some(state))));
        kinds.extend(Note::ALL.map(Kind::Note));
        // ER never falls together with TO, so that there are no four.
        kinds.extend((0..=3).map(Kind::Notes));
        kinds.extend((1..=MAX_BYTES).map(Kind::Frame));
        kinds.extend((0..=8).map(Kind::Rule));
        for (words, answers) in CALLS {
            kinds.extend(answers.iter().map(|answer| Kind::Answered(words, *answer)));
            kinds.extend(State::ALL.map(|state| Kind::CalledIn(words, state)));
        }
        for (from, others) in LEADS_TO {
            kinds.extend(others.iter().map(|to| Kind::Step(from, *to)));
        }
        kinds.extend((1..=MAX_HEX_BYTES).map(Kind::Received));
        for (reason, _, places) in REASONS {
            let kind = |place: &Place| Kind::Unreadable(*place, reason);
            kinds.extend(places.iter().map(kind));
        }
        kinds.extend(CASES.iter().map(|(case, _)| Kind::Case(*case)));
        kinds
    }

    /// The kind in words.
    pub fn text(&self) -> String {
        match *self {
            Kind::Answer(answer) => format!("answer {answer}"),
            Kind::State(None) => "state -".to_string(),
            Kind::State(Some(state)) => format!("state {}", state.letter()),
            Kind::Note(note) => format!("note {}", note.letters()),
            Kind::Notes(number) => format!("notes on one line: {number}"),
            Kind::Frame(length) => format!("frame of {length} bytes"),
            Kind::Rule(0) => "configuration passes".to_string(),
            Kind::Rule(rule) => format!("configuration breaks rule {rule}"),
            Kind::Answered(words, answer) => format!("{words}: answer {answer}"),
            Kind::CalledIn(words, state) => format!("{words}: in {}", state.letter()),
            Kind::Step(from, to) => format!("state {} to {}", from.letter(), to.letter()),
            Kind::Received(length) => format!("RX: {length} bytes"),
            Kind::Unreadable(place, reason) => {
                let place = match place {
                    Place::Cfg => "line 1",
                    Place::Pn => "PN line",
                    Place::Call => "line",
                };
                let found = REASONS.iter().find(|(known, _, _)| *known == reason);
                let words = found.map_or("", |(_, words, _)| words);
                format!("unreadable {place}: {words}")
            }
            Kind::Case(case) => {
                let found = CASES.iter().find(|(known, _)| *known == case);
                found.map_or("", |(_, words)| words).to_string()
            }
        }
    }
}

/// The lines of a text: what line feeds part, and a last line without one if it
/// has a byte.
pub fn lines_of(text: &[u8]) -> impl Iterator<Item = &[u8]> {
    let ended = text.strip_suffix(b"\n").unwrap_or(text);
    let lines = ended.split(|byte| *byte == b'\n');
    lines.take(if text.is_empty() { 0 } else { usize::MAX })
}

/// What is known of a channel on the way through a trace.
struct Followed {
    /// Whether it is active and has fast frames.
    fast: bool,
    state: State,
    disabled: bool,
    filter_on: bool,
    /// Whether the line before was a repeat request that makes a fast frame due
    /// in the next tick.
    fast_due: bool,
    /// Ticks since any other line.
    ticks: u64,
}

impl Followed {
    fn new(fast: bool) -> Followed {
        Followed {
            fast,
            state: State::BusSleep,
            disabled: false,
            filter_on: false,
            fast_due: false,
            ticks: 0,
        }
    }
}

/// How often each kind was seen.
#[derive(Clone, Debug)]
pub struct Counts {
    counts: HashMap<Kind, u64>,
}

impl Default for Counts {
    fn default() -> Self {
        Counts::new()
    }
}

impl Counts {
    /// Nothing seen.
    pub fn new() -> Counts {
        Counts {
            counts: HashMap::new(),
        }
    }

    /// How often a kind was seen.
    pub fn of(&self, kind: Kind) -> u64 {
        self.counts.get(&kind).copied().unwrap_or(0)
    }

    /// The kinds that were never seen.
    pub fn missing(&self) -> Vec<Kind> {
        let mut kinds = Kind::all();
        kinds.retain(|kind| self.of(*kind) == 0);
        kinds
    }

    /// Counts a trace and its output. `Err` gives the first line of the output,
    /// counted from 1, that has no form or no number of a line printed there.
    pub fn add(&mut self, text: &[u8], output: &[u8]) -> Result<(), usize> {
        let mut printed = Vec::new();
        for (place, line) in (1usize..).zip(lines_of(output)) {
            let line = Printed::read(line).ok_or(place)?;
            self.see_printed(&line);
            printed.push(line);
        }
        self.see(Kind::Case(match text.last() {
            None => Case::Empty,
            Some(b'\n') => Case::LastFeed,
            Some(_) => Case::NoLastFeed,
        }));
        let lines: Vec<&[u8]> = lines_of(text).collect();
        let (calls_from, fast) = self.see_config(&lines);
        let calls = lines.get(calls_from..).unwrap_or(&[]);
        // Line 1 prints one line, and so does each call.
        let expected = lines.len().min(1) + calls.len();
        if printed.len() != expected {
            return Err(printed.len().min(expected) + 1);
        }
        let mut followed = Followed::new(fast);
        let numbers = calls_from as u64 + 1..;
        for ((number, line), (place, printed)) in
            numbers.zip(calls).zip((1..).zip(&printed).skip(1))
        {
            if printed.number != number {
                return Err(place);
            }
            self.see_call(line, printed, &mut followed);
        }
        Ok(())
    }

    fn see(&mut self, kind: Kind) {
        *self.counts.entry(kind).or_insert(0) += 1;
    }

    fn see_if(&mut self, holds: bool, case: Case) {
        if holds {
            self.see(Kind::Case(case));
        }
    }

    fn see_printed(&mut self, printed: &Printed<'_>) {
        self.see(Kind::Answer(printed.answer));
        self.see(Kind::State(printed.state));
        self.see(Kind::Notes(printed.notes().count()));
        for note in Note::ALL {
            if printed.has(note) {
                self.see(Kind::Note(note));
            }
        }
        if printed.frame != b"-" {
            self.see(Kind::Frame(printed.frame.len() / 2));
        }
    }

    /// Counts the configuration; gives the number of lines before the calls,
    /// which is that of all lines if the run ends, and whether the channel is
    /// active and has fast frames.
    fn see_config(&mut self, lines: &[&[u8]]) -> (usize, bool) {
        let run_ends = (lines.len(), false);
        let Some(first) = lines.first() else {
            return run_ends;
        };
        let config = match read_cfg(first) {
            Ok(config) => config,
            Err(reason) => {
                self.see_unreadable(Place::Cfg, reason, first);
                self.see_if(lines.len() > 1, Case::AfterEnd);
                return run_ends;
            }
        };
        let is_number = |field: &[u8]| field.len() == MAX_DIGITS && field != b"CFG";
        let mut fields = first.split(|byte| *byte == b'\t');
        self.see_if(fields.any(is_number), Case::TenDigits);
        self.see_if(first.len() == MAX_LINE, Case::LongestCfg);
        self.see_if(lines.len() == 1, Case::CfgAlone);

        let pn_line = lines.get(1).filter(|line| is_pn_line(line));
        let config = match pn_line.map(|line| (line, read_pn(line, &config))) {
            None => config,
            Some((line, Ok(config))) => {
                self.see_if(line.len() == MAX_LINE, Case::LongestPn);
                self.see_if(lines.len() == 2, Case::PnAlone);
                config
            }
            Some((line, Err(reason))) => {
                self.see_unreadable(Place::Pn, reason, line);
                self.see_if(first_broken_rule(&config) != 0, Case::RefusedBehindPn);
                self.see_if(lines.len() > 2, Case::AfterEnd);
                return run_ends;
            }
        };
        let config_lines = 1 + usize::from(pn_line.is_some());
        match checked_times(&config) {
            Ok(times) => {
                self.see(Kind::Rule(0));
                self.see_settings(&config);
                let until_asleep = times.repeat + times.timeout + times.wait;
                self.see_if(until_asleep > LONG, Case::LongTimes);
                (config_lines, config.fast_count > 0 && !config.passive)
            }
            Err(rule) => {
                self.see(Kind::Rule(rule));
                self.see_if(pn_line.is_none(), Case::RefusedAlone);
                self.see_if(pn_line.is_some(), Case::RefusedPn);
                self.see_if(lines.len() > config_lines, Case::AfterEnd);
                run_ends
            }
        }
    }

    /// Counts what a configuration that passes is like.
    fn see_settings(&mut self, config: &Config) {
        let (pn, user) = (config.pn_range(), config.user_range());
        let pn_only = config.pn_on && user.is_empty();
        self.see_if(!config.passive, Case::Active);
        self.see_if(config.passive, Case::Passive);
        self.see_if(!config.pn_on, Case::PnOff);
        self.see_if(pn_only, Case::PnOnly);
        self.see_if(
            config.pn_on && !pn_only && pn.end == user.start,
            Case::PnFirst,
        );
        self.see_if(
            config.pn_on && !pn_only && user.end == pn.start,
            Case::PnLast,
        );
        self.see_if(config.all_keep_awake, Case::KeepAwake);
        self.see_if(!config.cbv.is_on(), Case::NoCbv);
        self.see_if(config.header_len() == 0, Case::NoHeader);
        self.see_if(config.fast_count > 0, Case::Fast);
        self.see_if(config.remote > 0, Case::Remote);
    }

    fn see_call(&mut self, line: &[u8], printed: &Printed<'_>, followed: &mut Followed) {
        let before = followed.state;
        let fast_due = std::mem::take(&mut followed.fast_due);
        followed.state = printed.state.unwrap_or(before);
        self.see(Kind::Step(before, followed.state));
        let mut room = [0; MAX_HEX_BYTES];
        let call = match read_call(line, &mut room) {
            Ok(call) => call,
            Err(reason) => {
                self.see_unreadable(Place::Call, reason, line);
                self.see_if(first_field(line) == b"CFG", Case::SecondCfg);
                self.see_if(is_pn_line(line), Case::SecondPn);
                return;
            }
        };
        self.see_if(line.len() == MAX_LINE - 1, Case::Call79);
        self.see_if(line.len() == MAX_LINE, Case::Call80);
        if let Some((words, _)) = place_of(&call).map(|place| CALLS[place]) {
            self.see(Kind::Answered(words, printed.answer));
            self.see(Kind::CalledIn(words, before));
        }
        let done = printed.answer == DONE;
        let fast_in_repeat = followed.fast && followed.state == State::RepeatMessage;
        let from_normal = before == State::NormalOperation;
        let from_ready = before == State::ReadySleep;
        match call {
            Call::RepeatMessageRequest if done => {
                self.see_if(fast_in_repeat && from_normal, Case::RequestFastNormal);
                self.see_if(fast_in_repeat && from_ready, Case::RequestFastReady);
                followed.fast_due = fast_in_repeat && !followed.disabled;
            }
            Call::DisableCommunication if done => followed.disabled = true,
            Call::EnableCommunication if done => followed.disabled = false,
            Call::ConfirmPnAvailability if done => followed.filter_on = true,
            Call::RxIndication(pdu) => {
                self.see(Kind::Received(pdu.len()));
                self.see_if(done && followed.filter_on, Case::FilterOn);
                // Every PDU that is accepted there is noted.
                let asleep = before == State::BusSleep;
                self.see_if(done && asleep && !printed.has(Note::ST), Case::Dropped);
                // Only one with the repeat bit leads from there to Repeat.
                self.see_if(fast_in_repeat && from_normal, Case::PduFastNormal);
                self.see_if(fast_in_repeat && from_ready, Case::PduFastReady);
            }
            Call::MainFunction { taken, .. } => {
                self.see_if(followed.disabled, Case::TickDisabled);
                // The tick that leaves Repeat has no fast frame any more.
                let missed = fast_due && fast_in_repeat && !taken;
                self.see_if(missed, Case::RequestFastNotTaken);
                followed.ticks += 1;
                self.see_if(followed.ticks == LONG_RUN, Case::LongRun);
                return;
            }
            _ => {}
        }
        followed.ticks = 0;
    }

    /// Counts a line that can't be read, by the reason and by what it looks
    /// like.
    fn see_unreadable(&mut self, place: Place, reason: Unreadable, line: &[u8]) {
        self.see(Kind::Unreadable(place, reason));
        let name = first_field(line);
        let upper = name.to_ascii_uppercase();
        let mut names = CALLS_ALONE.iter().chain(&CALLS_WITH_FIELD);
        let is_call = names.any(|known| known.as_bytes() == upper);
        self.see_if(is_call && upper != name, Case::LowerName);
        self.see_if(line.is_empty(), Case::Blank);
        self.see_if(line.starts_with(b"\t"), Case::TabFirst);
        self.see_if(line.ends_with(b"\t"), Case::TabLast);
        self.see_if(line.ends_with(b"\r"), Case::ReturnLast);
        self.see_if(line.contains(&0), Case::HasNul);
        self.see_if(line.contains(&0xFF), Case::HasFf);
        self.see_if(line.contains(&b' '), Case::HasBlank);
        const OVER: [usize; 2] = [MAX_LINE + 1, MAX_LINE + 2];
        self.see_if(line.len() == MAX_LINE - 1, Case::Bytes79);
        self.see_if(line.len() == MAX_LINE, Case::Bytes80);
        self.see_if(line.len() == OVER[0], Case::Bytes81);
        self.see_if(line.len() == OVER[1], Case::Bytes82);
        self.see_if(line.len() > OVER[1], Case::BytesMore);
        self.see_if(line.len() >= BLOCK - 1, Case::BytesBlock);
    }
}
