//! Traces made at random: hard ones, with states, configurations and lines of
//! every kind, and long ones as a node on a bus would give them.
//!
//! What is damaged here is not checked for what it has become; `counts` tells
//! what a set of traces reached.

use crate::channel::Channel;
use crate::config::{checked_times, Config, Position, Times, MAX_BYTES};
use crate::pdu::{ACTIVE_WAKEUP_BIT, PNI_BIT, REPEAT_BIT};
use crate::rng::Rng;
use crate::ticks::LONGEST_MS;
use crate::trace::{BLOCK, CALLS_ALONE, CALLS_WITH_FIELD, MAX_DIGITS, MAX_HEX_BYTES, MAX_LINE};

/// The places of SNI and CBV that rule 7 allows.
const PLACES: [(Position, Position); 5] = [
    (Position::Off, Position::Off),
    (Position::Byte0, Position::Off),
    (Position::Off, Position::Byte0),
    (Position::Byte0, Position::Byte1),
    (Position::Byte1, Position::Byte0),
];

/// Numbers beside the bounds of a field, beside those of a type, and with ten
/// digits.
const EDGES: [u64; 16] = [
    0,
    1,
    8,
    9,
    100,
    101,
    255,
    256,
    65_535,
    65_536,
    65_537,
    0x7FFF_FFFF,
    0xFFFF_FFFF,
    0x1_0000_0000,
    0x1_0000_000A,
    9_999_999_999,
];

/// Fields that are wrong in most places.
const ODD_FIELDS: [&str; 19] = [
    "",
    "-",
    "--",
    "+1",
    "-1",
    "00",
    "01",
    "2",
    " 1",
    "1 ",
    "1.0",
    "0x1",
    "1E2",
    "9999999999",
    "10000000000",
    "18446744073709551616",
    "0G",
    "ab",
    "\r",
];

/// Bytes that are wrong in most places, or end a field or a line.
const ODD_BYTES: [u8; 17] = [
    0, b'\t', b'\n', 0x0B, b'\r', b' ', b'"', b'-', b'0', b'9', b':', b'G', b'`', b'f', 0x7F, 0x80,
    0xFF,
];

/// First fields that name no call.
const ODD_NAMES: [&str; 12] = [
    "",
    " REQ",
    "REQ ",
    "req",
    "rx",
    "t",
    "REQQ",
    "RE",
    "X",
    "TX",
    "R X",
    "\u{FEFF}T",
];

/// Lengths of lines that are much too long.
const LONG_LENGTHS: [usize; 8] = [MAX_LINE + 3, 100, 160, 255, 256, 511, 512, 513];

/// Ticks that most times of a short trace stay within.
const FEW_TICKS: u64 = 6;
/// The same for a trace with long times.
const MANY_TICKS: u64 = 2_000;

/// A line as its fields.
type Fields = Vec<Vec<u8>>;

fn fields(texts: &[&str]) -> Fields {
    texts.iter().map(|text| text.as_bytes().to_vec()).collect()
}

fn one_of(rng: &mut Rng, texts: &[&str]) -> Vec<u8> {
    rng.pick(texts).as_bytes().to_vec()
}

fn hex(bytes: &[u8]) -> String {
    bytes.iter().map(|byte| format!("{byte:02X}")).collect()
}

/// A time in milliseconds that lasts so many ticks.
fn lasting(rng: &mut Rng, period: u64, ticks: u64) -> u64 {
    let rounded = if ticks == 0 { 0 } else { rng.below(period) };
    (ticks * period - rounded).min(LONGEST_MS)
}

/// A configuration that passes, with times of about `most` ticks.
fn passing(rng: &mut Rng, most: u64) -> Config {
    let period = if most == FEW_TICKS {
        *rng.pick(&[1, 2, 5, 10, 20, 99, 100])
    } else {
        1
    };
    let (sni, cbv) = *rng.pick(&PLACES);
    let mut config = Config {
        period,
        sni,
        cbv,
        passive: rng.chance(5),
        node_id: *rng.pick(&[0, 1, 33, 254, 255]),
        ..Channel::ZERO.config
    };
    let header = config.header_len() as u64;
    let least = header.max(1);
    config.length = least + rng.below(MAX_BYTES as u64 - least + 1);
    let pn_on = cbv.is_on() && config.length > header && !rng.chance(4);

    // In ticks: O < C < P < T.
    let cycle = 1 + rng.below(most);
    let reset = cycle + 1 + rng.below(most);
    let timeout = reset + 1 + rng.below(most);
    let offset = rng.below(cycle);
    config.cycle = lasting(rng, period, cycle);
    config.timeout = lasting(rng, period, timeout);
    config.offset = lasting(rng, period, offset);
    let some_time = |rng: &mut Rng| {
        let ticks = 1 + rng.below(2 * most);
        lasting(rng, period, ticks)
    };
    config.wait = some_time(rng);
    config.repeat = some_time(rng);
    if rng.chance(2) {
        config.fast_count = *rng.pick(&[1, 2, 3, 255]);
        config.fast_cycle = some_time(rng);
    }
    if !rng.chance(3) {
        config.remote = some_time(rng);
    }
    if rng.chance(12) {
        let field = *rng.pick::<fn(&mut Config) -> &mut u64>(&[
            |c| &mut c.wait,
            |c| &mut c.repeat,
            |c| &mut c.timeout,
            |c| &mut c.remote,
            |c| &mut c.fast_cycle,
        ]);
        *field(&mut config) = LONGEST_MS;
    }
    if pn_on {
        config.pn_on = true;
        config.pn_len = 1 + rng.below(config.length - header);
        config.pn_start = if rng.chance(2) {
            header
        } else {
            config.length - config.pn_len
        };
        config.pn_reset = lasting(rng, period, reset);
        config.all_keep_awake = rng.chance(4);
        set_mask(rng, &mut config);
    }
    config
}

/// A mask as long as the PN range, with few bits, many or none.
fn set_mask(rng: &mut Rng, config: &mut Config) {
    config.mask_len = config.pn_len;
    for byte in config.mask.iter_mut().take(config.pn_len as usize) {
        *byte = match rng.below(4) {
            0 => 0,
            1 => rng.byte() & rng.byte(),
            _ => rng.byte(),
        };
    }
}

/// Breaks a rule; a later one that this breaks too may stay broken.
fn break_rule(rng: &mut Rng, config: &mut Config, rule: u64) {
    // Another rule may be broken already.
    let period = config.period.clamp(1, 100);
    // As many ticks as another time, or more.
    let as_long = |rng: &mut Rng, ms: u64| {
        let ticks = ms.div_ceil(period) + rng.below(3);
        lasting(rng, period, ticks)
    };
    match rule {
        1 => config.period = *rng.pick(&[0, 101, 356, 65_636, 0x1_0000_000A, 9_999_999_999]),
        2 => {
            let needed: [fn(&mut Config) -> &mut u64; 4] = [
                |c| &mut c.timeout,
                |c| &mut c.wait,
                |c| &mut c.repeat,
                |c| &mut c.cycle,
            ];
            let optional: [fn(&mut Config) -> &mut u64; 4] = [
                |c| &mut c.offset,
                |c| &mut c.fast_cycle,
                |c| &mut c.remote,
                // Written only where there is a PN line.
                |c| &mut c.pn_reset,
            ];
            let bytes: [fn(&mut Config) -> &mut u64; 2] =
                [|c| &mut c.fast_count, |c| &mut c.node_id];
            let long = *rng.pick(&[65_536, 65_537, 131_072, 0x1_0000_0001, 9_999_999_999]);
            match rng.below(4) {
                0 => *rng.pick(&needed)(config) = 0,
                1 => *rng.pick(&needed)(config) = long,
                2 => *rng.pick(&optional)(config) = long,
                _ => *rng.pick(&bytes)(config) = *rng.pick(&[256, 257, 65_536, 0x1_0000_0000]),
            }
        }
        3 => config.offset = as_long(rng, config.cycle),
        4 => (config.fast_count, config.fast_cycle) = (1 + rng.below(255), 0),
        5 => config.cycle = as_long(rng, config.timeout),
        6 => config.length = *rng.pick(&[0, 9, 10, 264, 65_544, 0x1_0000_0008, 9_999_999_999]),
        7 => {
            use Position::{Byte0, Byte1, Off};
            let places = [(Byte1, Off), (Off, Byte1), (Byte0, Byte0), (Byte1, Byte1)];
            if rng.chance(4) {
                (config.sni, config.cbv, config.length) = (Byte0, Byte1, 1);
            } else {
                (config.sni, config.cbv) = *rng.pick(&places);
            }
        }
        _ => break_pn(rng, config),
    }
}

/// Breaks rule 8, if PN is on.
fn break_pn(rng: &mut Rng, config: &mut Config) {
    let header = config.header_len() as u64;
    match rng.below(11) {
        0 => (config.sni, config.cbv) = (Position::Byte0, Position::Off),
        1 => (config.sni, config.cbv) = (Position::Off, Position::Off),
        2 => config.pn_len = 0,
        3 => config.pn_start = header.saturating_sub(1),
        4 => config.pn_start += 1 + rng.below(3),
        5 => config.pn_len += 1 + rng.below(3),
        // In the middle of the PDU.
        6 => (config.length, config.pn_start, config.pn_len) = (8, header + 1, 1),
        7 => config.mask_len = 1 + (config.mask_len + rng.below(30)) % 33,
        8 => config.pn_reset = config.cycle,
        9 => config.pn_reset = config.timeout,
        _ => {
            let number = *rng.pick(&EDGES);
            match rng.below(3) {
                0 => config.pn_start = number,
                1 => config.pn_len = number,
                _ => config.pn_reset = 0,
            }
        }
    }
}

fn position(position: Position) -> &'static str {
    match position {
        Position::Off => "-",
        Position::Byte0 => "0",
        Position::Byte1 => "1",
        Position::Other => "2",
    }
}

fn switch(on: bool) -> &'static str {
    if on {
        "1"
    } else {
        "0"
    }
}

/// Line 1 of a configuration.
fn cfg_line(config: &Config) -> Fields {
    let number = |value: u64| value.to_string();
    fields(&[
        "CFG",
        &number(config.period),
        &number(config.timeout),
        &number(config.wait),
        &number(config.repeat),
        &number(config.cycle),
        &number(config.offset),
        &number(config.fast_count),
        &number(config.fast_cycle),
        &number(config.remote),
        switch(config.passive),
        &number(config.length),
        position(config.sni),
        position(config.cbv),
        &number(config.node_id),
    ])
}

/// The PN line of a configuration; mask bytes that are not held are 0.
fn pn_line(config: &Config) -> Fields {
    let mut mask = config.mask.to_vec();
    mask.resize((config.mask_len as usize).clamp(1, MAX_HEX_BYTES), 0);
    fields(&[
        "PN",
        &config.pn_start.to_string(),
        &config.pn_len.to_string(),
        &config.pn_reset.to_string(),
        switch(config.all_keep_awake),
        &hex(&mask),
    ])
}

/// Fills one field of a configuration line with something wrong for its kind.
fn misspell(rng: &mut Rng, line: &mut Fields) {
    let is_cfg = line[0] == b"CFG";
    let (switch, last) = if is_cfg { (10, 14) } else { (4, 5) };
    match rng.below(6) {
        0 => line[switch] = one_of(rng, &["", "2", "01", "00", "10", "-"]),
        1 | 2 if is_cfg => {
            let position = 12 + rng.below(2) as usize;
            line[position] = one_of(rng, &["", "2", "00", "01", "--"]);
        }
        1 | 2 => {
            let mask = &mut line[last];
            match rng.below(4) {
                0 => mask.clear(),
                1 => drop(mask.pop()),
                2 => *mask = b"0a".repeat(mask.len() / 2),
                _ => mask[0] = b'G',
            }
        }
        _ => {
            let numbers = if is_cfg { 1..10 } else { 1..4 };
            let place = rng.below(numbers.len() as u64) as usize;
            let number = &mut line[numbers][place];
            match rng.below(4) {
                0 => number.clear(),
                1 => number.insert(0, b'0'),
                2 => number.resize(MAX_DIGITS + 1, b'0'),
                _ => number.push(*rng.pick(b" -.:AaG/")),
            }
        }
    }
}

/// Changes a line in one place, so that in most cases it can't be read.
fn damage(rng: &mut Rng, line: &mut Fields) {
    if line.is_empty() {
        return;
    }
    let place = rng.below(line.len() as u64) as usize;
    match rng.below(16) {
        0 => drop(line.remove(place)),
        1 => line.insert(place, Vec::new()),
        2 => line.push(Vec::new()),
        3 => line.push(one_of(rng, &["0", "1", "00", "REQ"])),
        4 => line[place].clear(),
        5 => line[place].insert(0, b'0'),
        // One digit too many.
        6 => line[place] = vec![b'1'; MAX_DIGITS + 1],
        7 => line[place].make_ascii_lowercase(),
        8 => drop(line[place].pop()),
        9 | 10 => {
            let field = &mut line[place];
            let at = rng.below(field.len() as u64 + 1) as usize;
            field.insert(at, *rng.pick(&ODD_BYTES));
        }
        11 => {
            let field = &mut line[place];
            if !field.is_empty() {
                let at = rng.below(field.len() as u64) as usize;
                field[at] = *rng.pick(&ODD_BYTES);
            }
        }
        12 => line[place] = one_of(rng, &ODD_FIELDS),
        13 => line[0] = one_of(rng, &ODD_NAMES),
        14 => line[place].push(b'\r'),
        _ => {
            // Some byte strings lose an even number of digits and so stay
            // readable, of another length.
            let last = line.len() - 1;
            let field = &mut line[last];
            field.truncate(rng.below(field.len() as u64 + 1) as usize);
        }
    }
}

/// A trace in the making.
struct Maker<'a> {
    rng: &'a mut Rng,
    text: Vec<u8>,
    /// That of the channel, if there is one.
    config: Config,
}

impl Maker<'_> {
    fn put(&mut self, line: &Fields) {
        self.text.extend_from_slice(&line.join(&b'\t'));
        self.text.push(b'\n');
    }

    fn put_name(&mut self, name: &str) {
        self.put(&fields(&[name]));
    }

    fn put_misspelt(&mut self, mut line: Fields) {
        misspell(self.rng, &mut line);
        self.put(&line);
    }

    fn put_damaged(&mut self, mut line: Fields) {
        damage(self.rng, &mut line);
        if self.rng.chance(4) {
            damage(self.rng, &mut line);
        }
        self.put(&line);
    }

    /// The lines of the configuration.
    fn put_config(&mut self) {
        self.put(&cfg_line(&self.config));
        if self.config.pn_on {
            self.put(&pn_line(&self.config));
        }
    }

    /// A configuration that passes, in the text too.
    fn begin(&mut self, most: u64) -> Option<Times> {
        self.config = passing(self.rng, most);
        self.put_config();
        checked_times(&self.config).ok()
    }

    /// Lines that follow where no more are to be printed.
    fn put_rest(&mut self) {
        for _ in 0..self.rng.below(4) {
            let line = self.call();
            self.put(&line);
        }
    }

    /// Inputs of no line, or hardly one.
    fn hardly_anything(&mut self) {
        match self.rng.below(4) {
            0 => {}
            1 => self.text.push(b'\n'),
            2 => self.text.push(*self.rng.pick(&ODD_BYTES)),
            _ => {
                self.text.resize(1 + self.rng.below(200) as usize, 0);
                self.rng.fill(&mut self.text);
            }
        }
    }

    /// A configuration that breaks a rule, and perhaps another.
    fn refused(&mut self) {
        self.config = passing(self.rng, FEW_TICKS);
        let rule = 1 + self.rng.below(8);
        break_rule(self.rng, &mut self.config, rule);
        if self.rng.chance(4) {
            let other = 1 + self.rng.below(8);
            break_rule(self.rng, &mut self.config, other);
        }
        if self.rng.chance(6) {
            self.config.pn_on = !self.config.pn_on;
        }
        self.put_config();
        self.put_rest();
    }

    /// Line 1 as something else.
    fn unreadable_cfg(&mut self) {
        self.config = passing(self.rng, FEW_TICKS);
        match self.rng.below(12) {
            5..=8 => self.put_misspelt(cfg_line(&self.config)),
            0 => {
                let line = self.call();
                self.put(&line);
            }
            1 => self.put(&pn_line(&self.config)),
            2 => self.put_of_length(),
            3 | 4 => {
                // Numbers of any size, up to the longest line and beyond it.
                let mut line = cfg_line(&self.config);
                for place in [1, 2, 3, 4, 5, 6, 7, 8, 9, 11, 14] {
                    if self.rng.chance(3) {
                        line[place] = self.rng.pick(&EDGES).to_string().into_bytes();
                    }
                }
                let length = self.about_longest();
                let mut missing = length.saturating_sub(line.join(&b'\t').len());
                for number in line[1..10].iter_mut().filter(|number| *number != b"0") {
                    let digits = missing.min(MAX_DIGITS - number.len());
                    number.resize(number.len() + digits, b'7');
                    missing -= digits;
                }
                self.put(&line);
            }
            _ => self.put_damaged(cfg_line(&self.config)),
        }
        self.put_rest();
    }

    /// A PN line at line 2 with something wrong, under a line 1 that passes
    /// or does not.
    fn unreadable_pn(&mut self) {
        while !self.config.pn_on {
            self.config = passing(self.rng, FEW_TICKS);
        }
        if self.rng.chance(4) {
            let rule = 1 + self.rng.below(7);
            break_rule(self.rng, &mut self.config, rule);
        }
        self.put(&cfg_line(&self.config));
        let mut line = pn_line(&self.config);
        match self.rng.below(12) {
            0 => self.put_name("PN"),
            1..=3 => {
                // A mask up to the longest line and beyond it, most often of
                // whole bytes.
                let length = self.odd_length();
                line[5].clear();
                if (length - line.join(&b'\t').len()) % 2 == 1 && !self.rng.chance(4) {
                    line[3].push(b'0');
                }
                line[5] = vec![b'A'; length - line.join(&b'\t').len()];
                self.put(&line);
            }
            4..=8 => self.put_misspelt(line),
            _ => self.put_damaged(line),
        }
        self.put_rest();
    }

    /// A configuration and no call.
    fn config_only(&mut self) {
        self.begin(FEW_TICKS);
        if self.rng.chance(3) {
            // Without its PN line, or with one that was not meant.
            self.text.clear();
            self.config.pn_on = !self.config.pn_on;
            self.put_config();
        }
    }

    /// A channel with calls, most of them readable.
    fn calls(&mut self) {
        let Some(times) = self.begin(FEW_TICKS) else {
            return;
        };
        for _ in 0..8 + self.rng.below(120) {
            self.step(&times);
        }
    }

    /// A channel with long times that is woken and left to fall asleep.
    fn long_times(&mut self) {
        let most = if self.rng.chance(20) {
            LONGEST_MS / 4
        } else {
            MANY_TICKS
        };
        let Some(times) = self.begin(most) else {
            return;
        };
        let first = if self.config.passive { "PAS" } else { "REQ" };
        self.put_name(first);
        let awake = self.rng.below(times.timeout);
        self.put_ticks(awake);
        let line = self.received();
        self.put(&line);
        self.put_name("REL");
        self.put_ticks(times.repeat + times.timeout + times.wait + 1);
    }

    /// A call, a run of ticks or a line that is out of place.
    fn step(&mut self, times: &Times) {
        match self.rng.below(64) {
            0..=23 => {
                let until_asleep = times.repeat + times.timeout + times.wait;
                let ticks = *self.rng.pick(&[
                    1,
                    2,
                    3,
                    times.cycle,
                    times.repeat,
                    times.timeout,
                    times.remote,
                    times.pn_reset,
                    until_asleep,
                ]);
                // A time of many ticks is left to other traces.
                let ticks = ticks.min(10 * FEW_TICKS) + self.rng.below(2);
                self.put_ticks(ticks);
            }
            24 | 25 => {
                // What leads to Prepare from everywhere, or on to Bus-Sleep.
                self.put_name("ENA");
                self.put_name("REL");
                let in_prepare = self.rng.below(times.wait + 1);
                let ticks = times.repeat + times.timeout + in_prepare;
                self.put_ticks(ticks.min(20 * FEW_TICKS));
            }
            26 => {
                // What leads to Normal or Ready from nearly everywhere, and may
                // lead back to Repeat.
                if self.rng.chance(2) {
                    self.put_name("REQ");
                } else {
                    self.put_name("REL");
                    self.put_name("PAS");
                }
                let in_repeat = times.repeat.min(10 * FEW_TICKS);
                self.put_ticks(in_repeat);
                let line = if self.rng.chance(2) {
                    fields(&["RMR"])
                } else {
                    self.received()
                };
                self.put(&line);
                self.put_ticks(in_repeat);
            }
            27..=58 => {
                let line = self.call();
                self.put(&line);
            }
            59 | 60 => {
                let line = self.call();
                self.put_damaged(line);
            }
            61 => self.put_of_length(),
            62 => {
                let line = match self.rng.below(6) {
                    0 => fields(&["PN"]),
                    1 => fields(&["CFG"]),
                    2 => pn_line(&self.config),
                    3 => cfg_line(&self.config),
                    4 => fields(&[*self.rng.pick(&ODD_NAMES)]),
                    _ => fields(&[*self.rng.pick(&ODD_NAMES), "1"]),
                };
                self.put(&line);
            }
            _ => {
                let start = self.text.len();
                let length = self.rng.below(40) as usize;
                self.text.resize(start + length, 0);
                self.rng.fill(&mut self.text[start..]);
                self.text.push(b'\n');
            }
        }
    }

    fn put_ticks(&mut self, ticks: u64) {
        // How often the driver does not take a frame.
        let busy = *self.rng.pick(&[1, 2, 8, 8, 1_000]);
        for _ in 0..ticks {
            let line = fields(&["T", switch(!self.rng.chance(busy))]);
            self.put(&line);
        }
    }

    /// A line that can be read, except for a byte string of no bytes.
    fn call(&mut self) -> Fields {
        match self.rng.below(20) {
            0..=10 => fields(&[*self.rng.pick(&CALLS_ALONE)]),
            // Without it nothing is sent and little else happens.
            11 | 12 => fields(&["REQ"]),
            13..=16 => self.received(),
            17 => {
                let length = self.length(self.config.user_range().len());
                self.with_bytes("UD", length)
            }
            18 => {
                let length = self.length(self.config.pn_range().len());
                self.with_bytes("PNR", length)
            }
            _ => fields(&["T", switch(!self.rng.chance(4))]),
        }
    }

    /// Mostly the right length.
    fn length(&mut self, right: usize) -> usize {
        match self.rng.below(6) {
            0 => self.rng.below(MAX_HEX_BYTES as u64 + 1) as usize,
            1 if self.rng.chance(2) => right + 1,
            1 => right.saturating_sub(1),
            _ => right,
        }
    }

    fn with_bytes(&mut self, name: &str, length: usize) -> Fields {
        let mut bytes = vec![0; length];
        self.rng.fill(&mut bytes);
        fields(&[name, &hex(&bytes)])
    }

    /// A received PDU, in most cases one that means something.
    fn received(&mut self) -> Fields {
        let length = self.length(self.config.pdu_len());
        if length != self.config.pdu_len() {
            return self.with_bytes("RX", length);
        }
        let mut pdu = [0; MAX_BYTES];
        self.rng.fill(&mut pdu);
        if let Some(byte) = self.config.cbv.byte() {
            let most = 0xFF ^ REPEAT_BIT;
            pdu[byte] = *self.rng.pick(&[
                0,
                PNI_BIT,
                PNI_BIT,
                PNI_BIT | ACTIVE_WAKEUP_BIT,
                PNI_BIT | REPEAT_BIT,
                REPEAT_BIT,
                most ^ PNI_BIT,
                most,
            ]);
        }
        let kind = self.rng.below(4);
        for (at, mask) in self.config.pn_range().zip(self.config.mask) {
            match kind {
                0 => pdu[at] = 0,
                1 => pdu[at] &= mask,
                2 => pdu[at] &= !mask,
                _ => {}
            }
        }
        fields(&["RX", &hex(&pdu[..length])])
    }

    /// The length of a line that is just not too long, or just too long.
    fn about_longest(&mut self) -> usize {
        MAX_LINE - 1 + self.rng.below(4) as usize
    }

    /// Such a length, or one far beyond it.
    fn odd_length(&mut self) -> usize {
        match self.rng.below(60) {
            0 => BLOCK - 1 + self.rng.below(3) as usize,
            1..=20 => *self.rng.pick(&LONG_LENGTHS),
            _ => self.about_longest(),
        }
    }

    /// A line of a length that matters: a byte string that is otherwise
    /// right, or bytes of one kind.
    fn put_of_length(&mut self) {
        let length = self.odd_length();
        let start = self.text.len();
        if !self.rng.chance(4) {
            let name = self.rng.pick(&CALLS_WITH_FIELD[..3]);
            self.text.extend_from_slice(name.as_bytes());
            self.text.push(b'\t');
        }
        let filler = *self.rng.pick(b"000055AAAAFFF7\0\t\r \xFF");
        self.text.resize(start + length, filler);
        self.text.push(b'\n');
    }
}

/// One hard trace.
pub fn hard_trace(rng: &mut Rng) -> Vec<u8> {
    let mut maker = Maker {
        rng,
        text: Vec::new(),
        config: Channel::ZERO.config,
    };
    match maker.rng.below(64) {
        0 => maker.hardly_anything(),
        1 | 2 => maker.config_only(),
        3..=10 => maker.refused(),
        11..=20 => maker.unreadable_cfg(),
        21..=32 => maker.unreadable_pn(),
        33 => maker.long_times(),
        _ => maker.calls(),
    }
    let Maker { rng, mut text, .. } = maker;
    if rng.chance(4) {
        text.pop();
    }
    text
}

/// The traces of a seed; each is the same however many are taken.
pub fn hard_traces(seed: u64) -> impl Iterator<Item = Vec<u8>> {
    let mut seeds = Rng::new(seed);
    std::iter::repeat_with(move || hard_trace(&mut Rng::new(seeds.next_u64())))
}

/// The configuration of a long trace: a node with a period of 10 ms, fast
/// frames, remote sleep and PN in the last four bytes.
const LONG_CONFIG: &str = "CFG\t10\t1000\t750\t500\t200\t50\t5\t20\t1500\t0\t8\t0\t1\t33\n\
                           PN\t4\t4\t600\t0\tFF01970F\n";
/// Ticks until that node is asleep when all others are silent.
const LONG_SLEEP: u64 = 50 + 100 + 75;

/// A long trace as a bus would give it, made piece by piece.
pub struct LongTrace {
    rng: Rng,
}

impl LongTrace {
    /// The start of the trace, appended to `out`.
    pub fn new(seed: u64, out: &mut Vec<u8>) -> LongTrace {
        out.extend_from_slice(LONG_CONFIG.as_bytes());
        LongTrace {
            rng: Rng::new(seed),
        }
    }

    /// Appends a time awake and the time asleep after it: some 10 KB.
    pub fn append(&mut self, out: &mut Vec<u8>) {
        let wakes: &[u8] = if self.rng.chance(4) {
            b"PAS\n"
        } else {
            b"PNA\nREQ\n"
        };
        out.extend_from_slice(wakes);
        for _ in 0..200 + self.rng.below(3_000) {
            self.append_tick(out);
        }
        out.extend_from_slice(b"REL\n");
        for _ in 0..LONG_SLEEP + self.rng.below(100) {
            if self.rng.chance(300) {
                self.append_pdu(out);
            }
            out.extend_from_slice(b"T\t1\n");
        }
    }

    /// A tick, and what comes in before it: a PDU in every sixth, a
    /// confirmation in every twentieth, the rest seldom.
    fn append_tick(&mut self, out: &mut Vec<u8>) {
        match self.rng.below(600) {
            0..=99 => self.append_pdu(out),
            100..=129 => out.extend_from_slice(b"OK\n"),
            130 => out.extend_from_slice(b"BAD\n"),
            131 | 132 => out.extend_from_slice(b"REQ\n"),
            133 => out.extend_from_slice(b"REL\n"),
            134 if self.rng.chance(4) => out.extend_from_slice(b"RMR\n"),
            135 => out.extend_from_slice(format!("UD\t{:04X}\n", self.bits()).as_bytes()),
            136 => out.extend_from_slice(format!("PNR\t{:08X}\n", self.few_bits()).as_bytes()),
            137 if self.rng.chance(4) => out.extend_from_slice(b"DIS\nT\t1\nT\t1\nENA\n"),
            138 if self.rng.chance(8) => out.extend_from_slice(b"RX\t2140\n"),
            139 if self.rng.chance(8) => out.extend_from_slice(b"# noise\n"),
            140..=149 => out.extend_from_slice(b"T\t0\n"),
            _ => {}
        }
        out.extend_from_slice(b"T\t1\n");
    }

    fn append_pdu(&mut self, out: &mut Vec<u8>) {
        let cbv = *self.rng.pick(&[0, PNI_BIT, PNI_BIT, PNI_BIT]);
        let cbv = if self.rng.chance(200) {
            cbv | REPEAT_BIT
        } else {
            cbv
        };
        let (sni, user) = (self.rng.byte(), self.bits());
        let line = format!("RX\t{sni:02X}{cbv:02X}{user:04X}{:08X}\n", self.few_bits());
        out.extend_from_slice(line.as_bytes());
    }

    fn bits(&mut self) -> u16 {
        self.rng.next_u64() as u16
    }

    fn few_bits(&mut self) -> u32 {
        (self.rng.next_u64() & self.rng.next_u64() & self.rng.next_u64()) as u32
    }
}
