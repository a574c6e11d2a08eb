//! The trace program: lines of text in, a printed line for each of them out.
//!
//! Lines go into `Trace` one by one; `run` does that for a whole text from a
//! reader, in memory that does not grow with the text.

use crate::answer::{DONE, UNREADABLE};
use crate::call::Call;
use crate::channel::{initialise, Channel, Note, State, MAX_NOTES};
use crate::config::{Config, Position, MAX_BYTES};
use std::io::{self, ErrorKind, Read, Write};

/// The longest line that can be read, without its line feed.
pub const MAX_LINE: usize = 80;

/// The most bytes in hex on such a line: what the shortest name that takes
/// them, `RX` or `UD`, and a tab leave room for.
pub const MAX_HEX_BYTES: usize = (MAX_LINE - 3) / 2;

/// The names of the calls that stand alone on their line.
pub const CALLS_ALONE: [&str; 9] = ["REQ", "REL", "PAS", "RMR", "DIS", "ENA", "OK", "BAD", "PNA"];

/// The names of the calls that take a field: a byte string, and last the tick,
/// which takes a switch.
pub const CALLS_WITH_FIELD: [&str; 4] = ["RX", "UD", "PNR", "T"];

/// The fields of a CFG line and of a PN line, names included.
const CFG_FIELDS: usize = 15;
const PN_FIELDS: usize = 6;

/// The most digits of a number.
pub const MAX_DIGITS: usize = 10;

/// The digits of the largest line number, the largest number of 64 bits.
const NUMBER_DIGITS: usize = 20;

/// The rest of a printed line: answer, state, notes and frame, each after a
/// tab, and the line feed.
const MAX_REST: usize = 2 + 2 + 3 * MAX_NOTES + 1 + 2 * MAX_BYTES + 1;

/// The most bytes that one line of a trace prints: line 2 may print line 1 too.
pub const MAX_PRINTED: usize = 2 * (NUMBER_DIGITS + MAX_REST);

/// The bytes that `run` reads and writes at once.
pub const BLOCK: usize = 64 * 1024;

/// What stands for an empty field of a printed line.
const NONE: u8 = b'-';

/// Why a line can't be read. What is printed does not depend on it.
#[derive(Clone, Copy, Debug, PartialEq, Eq, Hash)]
pub enum Unreadable {
    /// More than `MAX_LINE` bytes.
    TooLong,
    /// The first field is no name, or none that belongs at this line.
    Name,
    /// Too few or too many fields for the name.
    FieldCount,
    /// A number without a digit.
    EmptyNumber,
    /// A number with a byte that is not a digit.
    NotDecimal,
    /// A number of several digits that starts with 0.
    LeadingZero,
    /// A number of more than `MAX_DIGITS` digits.
    TooManyDigits,
    /// A switch that is neither 0 nor 1.
    NotSwitch,
    /// A position other than 0, 1 and `-`.
    NotPosition,
    /// A byte string without a byte.
    EmptyHex,
    /// A byte string with half a byte at its end.
    OddHex,
    /// A byte string with a digit in lower case.
    LowerHex,
    /// A byte string with a byte that is no digit of either case.
    NotHex,
}

/// The outcome of reading a line or a part of one.
pub type Readable<T> = Result<T, Unreadable>;

/// The bytes before the first tab.
pub fn first_field(line: &[u8]) -> &[u8] {
    let end = line.iter().position(|byte| *byte == b'\t');
    &line[..end.unwrap_or(line.len())]
}

/// Whether a line at place 2 belongs to the configuration. Needs no more of a
/// line than the bytes that `Lines` keeps.
pub fn is_pn_line(line: &[u8]) -> bool {
    first_field(line) == b"PN"
}

/// The fields of a configuration line after its name.
struct Fields<'a> {
    rest: std::slice::Split<'a, u8, fn(&u8) -> bool>,
}

impl<'a> Fields<'a> {
    fn of(line: &'a [u8], name: &[u8], count: usize) -> Readable<Fields<'a>> {
        if line.len() > MAX_LINE {
            return Err(Unreadable::TooLong);
        }
        let is_tab: fn(&u8) -> bool = |byte| *byte == b'\t';
        let mut rest = line.split(is_tab);
        if rest.next() != Some(name) {
            return Err(Unreadable::Name);
        }
        if rest.clone().count() + 1 != count {
            return Err(Unreadable::FieldCount);
        }
        Ok(Fields { rest })
    }

    fn next(&mut self) -> Readable<&'a [u8]> {
        self.rest.next().ok_or(Unreadable::FieldCount)
    }

    fn number(&mut self) -> Readable<u64> {
        read_number(self.next()?)
    }

    fn switch(&mut self) -> Readable<bool> {
        read_switch(self.next()?)
    }

    fn position(&mut self) -> Readable<Position> {
        match self.next()? {
            b"-" => Ok(Position::Off),
            b"0" => Ok(Position::Byte0),
            b"1" => Ok(Position::Byte1),
            _ => Err(Unreadable::NotPosition),
        }
    }
}

fn read_number(digits: &[u8]) -> Readable<u64> {
    if digits.is_empty() {
        return Err(Unreadable::EmptyNumber);
    }
    if !digits.iter().all(u8::is_ascii_digit) {
        return Err(Unreadable::NotDecimal);
    }
    if digits.len() > 1 && digits[0] == b'0' {
        return Err(Unreadable::LeadingZero);
    }
    if digits.len() > MAX_DIGITS {
        return Err(Unreadable::TooManyDigits);
    }
    let append = |number, digit: &u8| 10 * number + u64::from(digit - b'0');
    Ok(digits.iter().fold(0, append))
}

fn read_switch(field: &[u8]) -> Readable<bool> {
    match field {
        b"0" => Ok(false),
        b"1" => Ok(true),
        _ => Err(Unreadable::NotSwitch),
    }
}

/// The digits of a byte string in the order of their values.
const HEX_DIGITS: [u8; 16] = *b"0123456789ABCDEF";

/// The value of each byte as a digit, or `NO_DIGIT`.
const HEX_VALUES: [u8; 256] = {
    let mut values = [NO_DIGIT; 256];
    let mut value = 0;
    while value < HEX_DIGITS.len() {
        values[HEX_DIGITS[value] as usize] = value as u8;
        value += 1;
    }
    values
};

/// Above the value of every digit, also when joined to one by "or".
const NO_DIGIT: u8 = 0x80;

/// Room for the bytes of one line.
pub type Room = [u8; MAX_HEX_BYTES];

/// Decodes a byte string into `room`, which has space for that of any line
/// that is not too long.
fn read_hex<'a>(hex: &[u8], room: &'a mut Room) -> Readable<&'a [u8]> {
    let pairs = hex.chunks_exact(2);
    let is_odd = !pairs.remainder().is_empty();
    let bytes = &mut room[..pairs.len()];
    let mut seen = 0;
    for (byte, pair) in bytes.iter_mut().zip(pairs) {
        let (high, low) = (HEX_VALUES[pair[0] as usize], HEX_VALUES[pair[1] as usize]);
        seen |= high | low;
        *byte = high << 4 | low;
    }
    if hex.is_empty() || is_odd || seen & NO_DIGIT != 0 {
        return Err(why_not_hex(hex));
    }
    Ok(bytes)
}

/// What is wrong with a byte string that does not decode. A tab in it starts
/// another field, and no line has one after its byte string.
fn why_not_hex(hex: &[u8]) -> Unreadable {
    if hex.contains(&b'\t') {
        Unreadable::FieldCount
    } else if hex.is_empty() {
        Unreadable::EmptyHex
    } else if !hex.iter().all(u8::is_ascii_hexdigit) {
        Unreadable::NotHex
    } else if hex.iter().any(u8::is_ascii_lowercase) {
        Unreadable::LowerHex
    } else {
        Unreadable::OddHex
    }
}

/// Reads line 1: a configuration with PN off.
pub fn read_cfg(line: &[u8]) -> Readable<Config> {
    let mut fields = Fields::of(line, b"CFG", CFG_FIELDS)?;
    Ok(Config {
        period: fields.number()?,
        timeout: fields.number()?,
        wait: fields.number()?,
        repeat: fields.number()?,
        cycle: fields.number()?,
        offset: fields.number()?,
        fast_count: fields.number()?,
        fast_cycle: fields.number()?,
        remote: fields.number()?,
        passive: fields.switch()?,
        length: fields.number()?,
        sni: fields.position()?,
        cbv: fields.position()?,
        node_id: fields.number()?,
        ..Channel::ZERO.config
    })
}

/// Reads a PN line: the configuration of line 1 with PN on.
pub fn read_pn(line: &[u8], config: &Config) -> Readable<Config> {
    let mut fields = Fields::of(line, b"PN", PN_FIELDS)?;
    let mut with_pn = Config {
        pn_on: true,
        pn_start: fields.number()?,
        pn_len: fields.number()?,
        pn_reset: fields.number()?,
        all_keep_awake: fields.switch()?,
        ..*config
    };
    let mut room = [0; MAX_HEX_BYTES];
    let mask = read_hex(fields.next()?, &mut room)?;
    // Mask bytes beyond the longest PDU are only counted: rule 8 refuses them.
    for (to, from) in with_pn.mask.iter_mut().zip(mask) {
        *to = *from;
    }
    with_pn.mask_len = mask.len() as u64;
    Ok(with_pn)
}

/// Reads any line after the configuration. Bytes that it carries are decoded
/// into `room`.
pub fn read_call<'a>(line: &[u8], room: &'a mut Room) -> Readable<Call<'a>> {
    if line.len() > MAX_LINE {
        return Err(Unreadable::TooLong);
    }
    Ok(match line {
        [b'T', b'\t', taken @ ..] => Call::MainFunction {
            taken: read_switch(taken).map_err(|_| why_not_switch(taken))?,
            frame_len: MAX_BYTES,
        },
        [b'R', b'X', b'\t', hex @ ..] => Call::RxIndication(read_hex(hex, room)?),
        [b'U', b'D', b'\t', hex @ ..] => Call::SetUserData(read_hex(hex, room)?),
        [b'P', b'N', b'R', b'\t', hex @ ..] => Call::SetPnRequests(read_hex(hex, room)?),
        b"OK" => Call::TxConfirmation(true),
        b"BAD" => Call::TxConfirmation(false),
        b"REQ" => Call::NetworkRequest,
        b"REL" => Call::NetworkRelease,
        b"PAS" => Call::PassiveStartUp,
        b"RMR" => Call::RepeatMessageRequest,
        b"DIS" => Call::DisableCommunication,
        b"ENA" => Call::EnableCommunication,
        b"PNA" => Call::ConfirmPnAvailability,
        _ => return Err(why_no_call(line)),
    })
}

/// What is wrong with the field of a tick, which may also be several fields.
fn why_not_switch(field: &[u8]) -> Unreadable {
    if field.contains(&b'\t') {
        Unreadable::FieldCount
    } else {
        Unreadable::NotSwitch
    }
}

/// What is wrong with a line that starts like no call.
fn why_no_call(line: &[u8]) -> Unreadable {
    let name = first_field(line);
    let is_known = |names: &[&str]| names.iter().any(|known| known.as_bytes() == name);
    if is_known(&CALLS_ALONE) || is_known(&CALLS_WITH_FIELD) {
        Unreadable::FieldCount
    } else {
        Unreadable::Name
    }
}

/// The printed line: its number, counted up in place and ending where the rest
/// begins, and the rest.
#[derive(Clone, Debug)]
struct Printer {
    text: [u8; NUMBER_DIGITS + MAX_REST],
    /// Where the first digit of the number stands.
    start: usize,
}

/// Without the rest, which is written anew before it is printed.
impl PartialEq for Printer {
    fn eq(&self, other: &Printer) -> bool {
        self.text[..NUMBER_DIGITS] == other.text[..NUMBER_DIGITS]
    }
}

impl Eq for Printer {}

impl Printer {
    /// At the line of this number, 0 being before line 1.
    fn at(mut number: u64) -> Printer {
        let mut printer = Printer {
            text: [b'0'; NUMBER_DIGITS + MAX_REST],
            start: NUMBER_DIGITS,
        };
        while number > 0 {
            printer.start -= 1;
            printer.text[printer.start] += (number % 10) as u8;
            number /= 10;
        }
        printer
    }

    /// Goes on to the next line.
    fn count(&mut self) {
        let mut digit = NUMBER_DIGITS - 1;
        while self.text[digit] == b'9' {
            self.text[digit] = b'0';
            digit -= 1;
        }
        self.text[digit] += 1;
        self.start = self.start.min(digit);
    }

    fn print(&mut self, answer: u8, state: u8, notes: &[Note], frame: &[u8], out: &mut Vec<u8>) {
        let rest = &mut self.text[NUMBER_DIGITS..];
        rest[..5].copy_from_slice(&[b'\t', b'0' + answer, b'\t', state, b'\t']);
        let mut end = 5;
        if notes.is_empty() {
            rest[end..end + 2].copy_from_slice(&[NONE, b'\t']);
            end += 2;
        }
        for note in notes {
            rest[end..end + 2].copy_from_slice(note.letters().as_bytes());
            rest[end + 2] = b',';
            end += 3;
        }
        // In place of the comma after the last note.
        rest[end - 1] = b'\t';
        if frame.is_empty() {
            rest[end] = NONE;
            end += 1;
        }
        for byte in frame {
            rest[end] = HEX_DIGITS[usize::from(byte >> 4)];
            rest[end + 1] = HEX_DIGITS[usize::from(byte & 0xF)];
            end += 2;
        }
        rest[end] = b'\n';
        out.extend_from_slice(&self.text[self.start..NUMBER_DIGITS + end + 1]);
    }
}

/// How far a trace has come.
#[derive(Clone, Copy, Debug, PartialEq, Eq)]
enum Phase {
    /// Line 1 comes next.
    Start,
    /// Line 1 is read; it is printed as soon as line 2 shows whether it is a
    /// PN line.
    Configured,
    /// Calls on the channel.
    Running,
    /// Nothing more is printed.
    Ended,
}

/// A trace being run.
#[derive(Clone, Debug, PartialEq, Eq)]
pub struct Trace {
    phase: Phase,
    /// Until the calls begin, only its configuration counts.
    channel: Channel,
    printer: Printer,
}

impl Default for Trace {
    fn default() -> Self {
        Trace::new()
    }
}

impl Trace {
    /// A trace before its first line.
    pub fn new() -> Trace {
        Trace {
            phase: Phase::Start,
            channel: Channel::ZERO,
            printer: Printer::at(0),
        }
    }

    /// Goes on as if so many lines had come so far. Line 1 stays line 1.
    pub(crate) fn set_lines(&mut self, lines: u64) {
        self.printer = Printer::at(lines);
    }

    /// Whether the run is over, so that further lines print nothing.
    pub fn has_ended(&self) -> bool {
        self.phase == Phase::Ended
    }

    /// Takes the next line, without its line feed, and appends what is printed
    /// to `out`: at most `MAX_PRINTED` bytes. Of a line that is too long, the
    /// first `MAX_LINE + 1` bytes are enough.
    pub fn line(&mut self, line: &[u8], out: &mut Vec<u8>) {
        match self.phase {
            Phase::Running => self.call_line(line, out),
            Phase::Start => self.cfg_line(line, out),
            Phase::Configured if is_pn_line(line) => self.pn_line(line, out),
            Phase::Configured => {
                self.begin(out);
                if !self.has_ended() {
                    self.call_line(line, out);
                }
            }
            Phase::Ended => {}
        }
    }

    /// The text is over; every line of it was taken.
    pub fn end(&mut self, out: &mut Vec<u8>) {
        if self.phase == Phase::Configured {
            self.begin(out);
        }
        self.phase = Phase::Ended;
    }

    fn cfg_line(&mut self, line: &[u8], out: &mut Vec<u8>) {
        self.printer.count();
        match read_cfg(line) {
            Ok(config) => {
                self.channel.config = config;
                self.phase = Phase::Configured;
            }
            Err(_) => {
                print_line_1(UNREADABLE, NONE, out);
                self.phase = Phase::Ended;
            }
        }
    }

    fn pn_line(&mut self, line: &[u8], out: &mut Vec<u8>) {
        match read_pn(line, &self.channel.config) {
            Ok(config) => {
                self.channel.config = config;
                self.begin(out);
                self.printer.count();
            }
            Err(_) => {
                self.printer.count();
                self.printer.print(UNREADABLE, NONE, &[], &[], out);
                self.phase = Phase::Ended;
            }
        }
    }

    /// The configuration is complete: line 1 is printed.
    fn begin(&mut self, out: &mut Vec<u8>) {
        let (answer, _, channel) = initialise(&self.channel.config);
        self.channel = channel;
        let (state, phase) = if answer == DONE {
            (letter(channel.state), Phase::Running)
        } else {
            (NONE, Phase::Ended)
        };
        print_line_1(answer, state, out);
        self.phase = phase;
    }

    fn call_line(&mut self, line: &[u8], out: &mut Vec<u8>) {
        self.printer.count();
        let mut room = [0; MAX_HEX_BYTES];
        let mut frame = [0; MAX_BYTES];
        let channel = &mut self.channel;
        match read_call(line, &mut room) {
            Ok(call) => {
                let reply = call.perform(channel, &mut frame);
                let sent = if reply.frame {
                    &frame[..channel.config.pdu_len()]
                } else {
                    &[]
                };
                let (state, notes) = (letter(channel.state), reply.notes.as_slice());
                self.printer.print(reply.answer, state, notes, sent, out);
            }
            Err(_) => {
                let state = letter(channel.state);
                self.printer.print(UNREADABLE, state, &[], &[], out);
            }
        }
    }
}

/// Prints line 1, whatever number the lines after it have.
fn print_line_1(answer: u8, state: u8, out: &mut Vec<u8>) {
    Printer::at(1).print(answer, state, &[], &[], out);
}

fn letter(state: State) -> u8 {
    state.letter() as u8
}

/// Cuts a text that comes in blocks into lines. Keeps an unfinished line, but
/// no more of it than tells that it is too long.
#[derive(Clone, Debug)]
pub struct Lines {
    kept: [u8; MAX_LINE + 1],
    len: usize,
}

/// Without the bytes of earlier lines past the end of what is kept.
impl PartialEq for Lines {
    fn eq(&self, other: &Lines) -> bool {
        self.kept[..self.len] == other.kept[..other.len]
    }
}

impl Eq for Lines {}

impl Default for Lines {
    fn default() -> Self {
        Lines::new()
    }
}

impl Lines {
    /// The start of a text.
    pub fn new() -> Lines {
        Lines {
            kept: [0; MAX_LINE + 1],
            len: 0,
        }
    }

    /// Takes the next line off the front of `block`, without its line feed. If
    /// no line ends in the block, all of it is taken and kept.
    pub fn next<'a, 'b: 'a>(&'a mut self, block: &mut &'b [u8]) -> Option<&'a [u8]> {
        let Some(end) = block.iter().position(|byte| *byte == b'\n') else {
            self.keep(block);
            *block = &[];
            return None;
        };
        let (line, rest) = (&block[..end], &block[end + 1..]);
        *block = rest;
        if self.len == 0 {
            return Some(line);
        }
        self.keep(line);
        self.last()
    }

    /// Whether a line is kept that has a byte and no line feed yet.
    pub fn is_unfinished(&self) -> bool {
        self.len > 0
    }

    /// The line that the end of the text ends, if it has a byte.
    pub fn last(&mut self) -> Option<&[u8]> {
        let len = std::mem::take(&mut self.len);
        (len > 0).then_some(&self.kept[..len])
    }

    fn keep(&mut self, bytes: &[u8]) {
        let room = &mut self.kept[self.len..];
        let taken = bytes.len().min(room.len());
        room[..taken].copy_from_slice(&bytes[..taken]);
        self.len += taken;
    }
}

/// Runs a whole trace from a reader to a writer. Before each read everything
/// printed so far is written.
pub fn run(mut input: impl Read, mut output: impl Write) -> io::Result<()> {
    let mut trace = Trace::new();
    let mut lines = Lines::new();
    let mut block = vec![0; BLOCK];
    let mut out = Vec::with_capacity(BLOCK);
    while !trace.has_ended() {
        let mut text = match input.read(&mut block) {
            Ok(0) => break,
            Ok(length) => &block[..length],
            Err(error) if error.kind() == ErrorKind::Interrupted => continue,
            Err(error) => return Err(error),
        };
        while let Some(line) = lines.next(&mut text) {
            trace.line(line, &mut out);
            if out.len() > BLOCK - MAX_PRINTED {
                output.write_all(&out)?;
                out.clear();
            }
        }
        output.write_all(&out)?;
        out.clear();
    }
    if let Some(line) = lines.last() {
        trace.line(line, &mut out);
    }
    trace.end(&mut out);
    output.write_all(&out)?;
    output.flush()
}
