//! The channel by calls: the paper's example and its cases at the edges, then
//! long random runs beside the book of keep-awakes.

use cannm_reference::answer::DONE;
use cannm_reference::book::{Book, Call};
use cannm_reference::channel::{initialise, Channel, Note, Reply, State, PN_BITS};
use cannm_reference::config::{checked_times, first_broken_rule, Config, Position, Times};
use cannm_reference::pdu;
use cannm_reference::pnc::PncNumber;
use cannm_reference::rng::Rng;

use Call::{
    ConfirmPnAvailability, DisableCommunication, EnableCommunication, MainFunction, NetworkRelease,
    NetworkRequest, PassiveStartUp, RepeatMessageRequest, RxIndication, SetPnRequests, SetUserData,
    TxConfirmation,
};

/// A tick with a driver that takes a frame.
const TICK: Call = MainFunction {
    taken: true,
    frame_len: 8,
};

/// A tick with a driver that takes none.
const BUSY: Call = MainFunction {
    taken: false,
    frame_len: 8,
};

/// The configuration of the paper's example.
const PLAIN: Config = Config::EXAMPLE;

/// The layout of the paper's filter case, with P 3 ticks.
const PN: Config = Config {
    length: 6,
    pn_on: true,
    pn_start: 4,
    pn_len: 2,
    pn_reset: 30,
    mask: [0x01, 0x97, 0, 0, 0, 0, 0, 0],
    mask_len: 2,
    ..PLAIN
};

/// A PDU of eight bytes that asks for nothing, and one that asks for Repeat.
const PDU: [u8; 8] = [7, 0, 0, 0, 0, 0, 0, 0];
const REPEAT_PDU: [u8; 8] = [7, 1, 0, 0, 0, 0, 0, 0];

/// What buffers hold before a call.
const UNTOUCHED: u8 = 0xEE;
const BUFFER_LEN: usize = 12;

/// A channel and the book of its calls.
#[derive(Clone, Copy)]
struct Bench {
    channel: Channel,
    book: Book,
}

impl Bench {
    fn new(cfg: &Config) -> Bench {
        let (answer, rule, channel) = initialise(cfg);
        assert_eq!((answer, rule), (0, 0));
        let book = Book::new(cfg).unwrap();
        let bench = Bench { channel, book };
        assert!(channel.is_sound());
        assert_eq!(channel.state, book.shown());
        bench
    }

    /// One call on both, with all that holds after any call.
    fn step(&mut self, call: &Call) -> (Reply, [u8; BUFFER_LEN]) {
        let before = self.channel;
        let mut buffer = [UNTOUCHED; BUFFER_LEN];
        let expected = self.book.answer(call);
        let reply = call.perform(&mut self.channel, &mut buffer);
        let due = self.book.step(call);
        let after = &self.channel;

        assert_eq!(reply.answer, expected, "{call:?} on {before:?}");
        assert!(after.is_sound(), "{call:?} on {before:?}");
        assert_eq!(
            after.state,
            self.book.shown(),
            "{call:?} on {before:?}, book {:?}",
            self.book
        );
        let entered = before.state != State::BusSleep && after.state == State::BusSleep;
        assert_eq!(entered, due, "{call:?} on {before:?}");
        assert_eq!(after.requested, self.book.requested);
        assert_eq!(after.disabled, !self.book.sending);
        assert_eq!(after.filter_on, self.book.filter);

        if reply.answer == DONE {
            check_notes(&before, after, call, &reply);
            check_frame(&before, after, &reply, &buffer);
        } else {
            assert_eq!(*after, before);
            assert_eq!(reply.notes.as_slice(), []);
            assert!(!reply.frame);
            assert_eq!(buffer, [UNTOUCHED; BUFFER_LEN]);
        }
        (reply, buffer)
    }

    /// One call, as the fields of a trace line after its number.
    fn line(&mut self, call: Call) -> String {
        let (reply, buffer) = self.step(&call);
        let notes: Vec<&str> = reply
            .notes
            .as_slice()
            .iter()
            .map(|note| note.letters())
            .collect();
        let notes = if notes.is_empty() {
            "-".to_string()
        } else {
            notes.join(",")
        };
        let frame = if reply.frame {
            let bytes = &buffer[..self.channel.config.pdu_len()];
            bytes.iter().map(|byte| format!("{byte:02X}")).collect()
        } else {
            "-".to_string()
        };
        let letter = self.channel.state.letter();
        format!("{} {letter} {notes} {frame}", reply.answer)
    }

    /// The same call several times, each with its line.
    fn lines(&mut self, call: Call, expected: &[&str]) {
        for line in expected {
            assert_eq!(self.line(call), *line);
        }
    }
}

/// Each note stands exactly where its change happened, in the right order.
fn check_notes(before: &Channel, after: &Channel, call: &Call, reply: &Reply) {
    let is_tick = matches!(call, MainFunction { .. });
    let sending = matches!(before.state, State::RepeatMessage | State::NormalOperation);
    let (was, is) = (before.status(), after.status());
    let entered = |state: State| before.state != state && after.state == state;
    let prepared = entered(State::PrepareBusSleep);
    let may_be_heard = before.state == State::BusSleep && !before.filter_on;
    let started = reply.notes.as_slice().contains(&Note::ST);
    assert!(!started || (before.state == State::BusSleep && after.state == State::BusSleep));
    if may_be_heard {
        assert_eq!(started, matches!(call, RxIndication(_)));
    }
    let expected = [
        (
            Note::NM,
            !before.state.in_network_mode() && after.state.in_network_mode(),
        ),
        (Note::ST, started),
        (Note::PB, prepared),
        (
            Note::TO,
            is_tick && sending && !before.disabled && before.nm_timer == 1,
        ),
        (Note::BS, entered(State::BusSleep)),
        (Note::RC, before.indicated && !after.indicated && !prepared),
        (Note::RI, !before.indicated && after.indicated),
        (Note::EI, was.eira != is.eira),
        (Note::ER, was.era != is.era),
    ];
    let raised = expected.iter().filter(|(_, holds)| *holds);
    assert!(
        raised
            .clone()
            .map(|(note, _)| note)
            .eq(reply.notes.as_slice()),
        "{:?} for {call:?} on {before:?}",
        reply.notes
    );
}

/// A frame has the fields that the channel sends, and nothing else is written.
fn check_frame(before: &Channel, after: &Channel, reply: &Reply, buffer: &[u8; BUFFER_LEN]) {
    let cfg = &after.config;
    let written = if reply.frame { cfg.pdu_len() } else { 0 };
    assert!(buffer[written..].iter().all(|byte| *byte == UNTOUCHED));
    if !reply.frame {
        return;
    }
    assert!(!cfg.passive && !before.disabled);
    assert!(matches!(
        after.state,
        State::RepeatMessage | State::NormalOperation
    ));
    let fields = pdu::read(cfg, &buffer[..written]).unwrap();
    let bit = |place: u8, on: bool| u8::from(on) << place;
    let cbv = bit(0, after.repeat_bit) | bit(4, after.active_wakeup_bit) | bit(6, cfg.pn_on);
    assert_eq!(
        u64::from(fields.sni),
        if cfg.sni.is_on() { cfg.node_id } else { 0 }
    );
    assert_eq!(fields.cbv, if cfg.cbv.is_on() { cbv } else { 0 });
    assert_eq!(fields.pn, &after.pn_requests[..fields.pn.len()]);
    assert_eq!(fields.user, &after.user_data[..fields.user.len()]);
}

// The paper's example and cases.

#[test]
fn the_example() {
    let mut bench = Bench::new(&PLAIN);
    assert_eq!(bench.channel.state.letter(), 'B');
    assert_eq!(bench.line(PassiveStartUp), "0 R NM -");
    let ticks = [
        "0 R - 2100FFFFFFFFFFFF",
        "0 R - -",
        "0 R - 2100FFFFFFFFFFFF",
        "0 S - -",
        "0 P PB -",
        "0 P - -",
        "0 P - -",
        "0 B BS -",
    ];
    bench.lines(TICK, &ticks);
}

#[test]
fn case_nm_timer_before_repeat_timer() {
    let cfg = Config {
        timeout: 40,
        ..PLAIN
    };
    for passive in [false, true] {
        let mut bench = Bench::new(&Config { passive, ..cfg });
        bench.line(PassiveStartUp);
        let mut notes = Vec::new();
        for tick in 1..=11 {
            let (reply, _) = bench.step(&BUSY);
            for note in reply.notes.as_slice() {
                notes.push((tick, *note, bench.channel.state));
            }
        }
        let expected = [
            (4, Note::TO, State::ReadySleep),
            (8, Note::PB, State::PrepareBusSleep),
            (11, Note::BS, State::BusSleep),
        ];
        assert_eq!(notes, expected);
    }
}

#[test]
fn case_filter() {
    let heard = |first, second| {
        let mut bench = Bench::new(&PN);
        bench.line(ConfirmPnAvailability);
        let (reply, _) = bench.step(&RxIndication(&[7, 0x40, 0, 0, first, second]));
        assert_eq!(reply.answer, 0);
        reply.notes.as_slice().to_vec()
    };
    assert_eq!(heard(0x00, 0x68), []);
    assert_eq!(heard(0xFE, 0x68), []);
    assert_eq!(heard(0x00, 0x80), [Note::ST, Note::EI, Note::ER]);
    assert_eq!(heard(0x01, 0x00), [Note::ST, Note::EI, Note::ER]);
}

#[test]
fn case_pdu_in_bus_sleep_and_prepare() {
    let mut bench = Bench::new(&PLAIN);
    bench.lines(RxIndication(&PDU), &["0 B ST -", "0 B ST -"]);
    bench.lines(RxIndication(&REPEAT_PDU), &["0 B ST -"]);

    bench.line(PassiveStartUp);
    while bench.channel.state != State::PrepareBusSleep {
        bench.line(TICK);
    }
    assert_eq!(bench.line(RxIndication(&PDU)), "0 R NM -");
    assert_eq!(bench.channel.wait_timer, 0);
    assert_eq!(bench.channel.nm_timer, 5);
    assert!(!bench.channel.active_wakeup_bit);
}

#[test]
fn case_refusals() {
    let mut bench = Bench::new(&PLAIN);
    bench.line(PassiveStartUp);
    assert_eq!(bench.line(PassiveStartUp), "3 R - -");

    let mut bench = Bench::new(&Config {
        passive: true,
        ..PLAIN
    });
    assert_eq!(bench.line(DisableCommunication), "4 B - -");
    assert_eq!(bench.line(SetPnRequests(&[1])), "4 B - -");
    assert_eq!(bench.line(SetUserData(&[1])), "4 B - -");
    assert_eq!(bench.line(RepeatMessageRequest), "4 B - -");
    assert_eq!(bench.line(ConfirmPnAvailability), "6 B - -");
    assert_eq!(bench.line(PassiveStartUp), "0 R NM -");

    let mut bench = Bench::new(&PLAIN);
    assert_eq!(bench.line(DisableCommunication), "3 B - -");
    assert_eq!(bench.line(EnableCommunication), "3 B - -");
    assert_eq!(bench.line(RepeatMessageRequest), "3 B - -");
    assert_eq!(bench.line(SetPnRequests(&[1])), "6 B - -");
    assert_eq!(bench.line(SetPnRequests(&[])), "6 B - -");
}

#[test]
fn case_lengths_and_periods() {
    let slow = Config {
        period: 100,
        timeout: 500,
        cycle: 200,
        ..PLAIN
    };
    let numbers = |cfg: &Config| {
        let (answer, rule, channel) = initialise(cfg);
        if answer == 0 {
            let times = checked_times(cfg).unwrap();
            assert_eq!(channel, Channel::fresh(cfg, &times));
        } else {
            assert_eq!(channel, Channel::ZERO);
            assert_eq!(Book::new(cfg), Err(rule));
        }
        (answer, rule)
    };
    assert_eq!(numbers(&slow), (0, 0));
    assert_eq!(
        numbers(&Config {
            period: 101,
            ..slow
        }),
        (2, 1)
    );
    assert_eq!(numbers(&Config { length: 9, ..PLAIN }), (2, 6));
    assert_eq!(numbers(&PLAIN), (0, 0));
    let both_one_tick = Config {
        period: 20,
        offset: 15,
        cycle: 20,
        ..PLAIN
    };
    assert_eq!(numbers(&both_one_tick), (2, 3));

    let mut bench = Bench::new(&PLAIN);
    assert_eq!(bench.line(RxIndication(&PDU[..7])), "5 B - -");
    assert_eq!(bench.line(RxIndication(&[0; 9])), "5 B - -");
    assert_eq!(bench.line(RxIndication(&PDU)), "0 B ST -");
    assert_eq!(bench.line(SetUserData(&[1; 5])), "5 B - -");
    assert_eq!(bench.line(SetUserData(&[1; 7])), "5 B - -");
    assert_eq!(bench.line(SetUserData(&[1; 6])), "0 B - -");
    let short = MainFunction {
        taken: true,
        frame_len: 7,
    };
    assert_eq!(bench.line(short), "5 B - -");
    assert_eq!(bench.line(TICK), "0 B - -");
}

#[test]
fn the_fresh_channel() {
    let (_, _, channel) = initialise(&PN);
    assert_eq!(channel.config, PN);
    assert_eq!(channel.times, checked_times(&PN).unwrap());
    assert_eq!(channel.user_data, [0xFF; 8]);
    let mut rest = channel;
    (rest.config, rest.times) = (Channel::ZERO.config, Channel::ZERO.times);
    rest.user_data = [0; 8];
    assert_eq!(rest, Channel::ZERO);
    assert!(!Channel::ZERO.is_sound());
}

// Single rules.

#[test]
fn fast_frames_after_a_request() {
    let cfg = Config {
        fast_count: 3,
        fast_cycle: 30,
        cycle: 40,
        repeat: 200,
        timeout: 300,
        offset: 20,
        ..PLAIN
    };
    let frame = "0 R - 2110FFFFFFFFFFFF";
    let none = "0 R - -";
    let mut bench = Bench::new(&cfg);
    assert_eq!(bench.line(NetworkRequest), "0 R NM -");
    // The first is due at once and tried again while the driver is busy.
    bench.lines(BUSY, &[none, none]);
    bench.lines(TICK, &[frame, none, none, frame, none, none, frame]);
    assert_eq!(bench.channel.fast_count, 0);
    bench.lines(TICK, &[none, none, none, frame]);
    // Without fast frames left, a busy driver costs a whole cycle.
    bench.lines(BUSY, &[none, none, none, none]);
    bench.lines(TICK, &[none, none]);
    bench.lines(TICK, &["0 N - -", "0 N - 2110FFFFFFFFFFFF"]);

    // Woken without a request, the channel goes by the offset, and a later
    // request does not change that.
    let mut bench = Bench::new(&cfg);
    assert_eq!(bench.line(PassiveStartUp), "0 R NM -");
    assert_eq!(bench.line(NetworkRequest), "0 R - -");
    bench.lines(TICK, &["0 R - -", "0 R - 2100FFFFFFFFFFFF"]);
    bench.lines(TICK, &["0 R - -"; 3]);
    bench.lines(TICK, &["0 R - 2100FFFFFFFFFFFF"]);
}

/// Two fast frames. In ticks R is 7, C 3, O 2 and IC 2.
const FAST: Config = Config {
    timeout: 900,
    repeat: 70,
    cycle: 30,
    offset: 20,
    fast_count: 2,
    fast_cycle: 20,
    ..PLAIN
};

/// A frame in Repeat without the repeat bit, one with it, and none.
const PLAIN_FRAME: &str = "0 R - 2100FFFFFFFFFFFF";
const REPEAT_FRAME: &str = "0 R - 2101FFFFFFFFFFFF";
const NO_FRAME: &str = "0 R - -";

/// The same channel in Normal and in Ready, woken without fast frames.
fn in_normal_and_ready(cfg: &Config) -> [Bench; 2] {
    [State::NormalOperation, State::ReadySleep].map(|state| {
        let mut bench = Bench::new(cfg);
        bench.line(PassiveStartUp);
        if state == State::NormalOperation {
            bench.line(NetworkRequest);
        }
        while bench.channel.state == State::RepeatMessage {
            bench.line(TICK);
        }
        assert_eq!(bench.channel.state, state);
        bench
    })
}

/// The channel of each after Repeat, its fast frames dropped: it sends at once
/// and then each cycle in Normal, and not at all in Ready.
fn sends_by_the_cycle([mut normal, mut ready]: [Bench; 2]) {
    normal.lines(TICK, &["0 N - 2100FFFFFFFFFFFF", "0 N - -", "0 N - -"]);
    normal.lines(TICK, &["0 N - 2100FFFFFFFFFFFF"]);
    ready.lines(TICK, &["0 S - -"; 10]);
}

#[test]
fn fast_frames_after_a_repeat_request() {
    let [mut normal, mut ready] = in_normal_and_ready(&FAST);
    for bench in [&mut normal, &mut ready] {
        bench.lines(RepeatMessageRequest, &[NO_FRAME]);
        assert_eq!(bench.channel.fast_count, 2);
        assert_eq!(bench.channel.message_timer, 1);
        bench.lines(TICK, &[REPEAT_FRAME, NO_FRAME, REPEAT_FRAME]);
        assert_eq!(bench.channel.fast_count, 0);
        bench.lines(TICK, &[NO_FRAME, NO_FRAME, REPEAT_FRAME]);
    }
    normal.lines(TICK, &["0 N - -", "0 N - -", "0 N - 2100FFFFFFFFFFFF"]);
    // Not requested, the channel sends them all the same, then no more.
    ready.lines(TICK, &["0 S - -"; 10]);

    // Leaving Repeat drops what is left of them.
    let many = Config {
        fast_count: 255,
        ..FAST
    };
    let mut both = in_normal_and_ready(&many);
    for bench in &mut both {
        bench.lines(RepeatMessageRequest, &[NO_FRAME]);
        for _ in 0..3 {
            bench.lines(TICK, &[REPEAT_FRAME, NO_FRAME]);
        }
        assert_eq!(bench.channel.fast_count, 252);
    }
    sends_by_the_cycle(both);
}

#[test]
fn fast_frames_after_a_repeat_request_not_taken() {
    for mut bench in in_normal_and_ready(&FAST) {
        bench.lines(RepeatMessageRequest, &[NO_FRAME]);
        bench.lines(BUSY, &[NO_FRAME, NO_FRAME]);
        assert_eq!(bench.channel.fast_count, 2);
        bench.lines(TICK, &[REPEAT_FRAME, NO_FRAME]);
        bench.lines(BUSY, &[NO_FRAME]);
        bench.lines(TICK, &[REPEAT_FRAME]);
        assert_eq!(bench.channel.message_timer, 3);
    }

    // After the only one, a busy driver costs a whole cycle.
    let single = Config {
        fast_count: 1,
        ..FAST
    };
    for mut bench in in_normal_and_ready(&single) {
        bench.lines(RepeatMessageRequest, &[NO_FRAME]);
        bench.lines(BUSY, &[NO_FRAME]);
        bench.lines(TICK, &[REPEAT_FRAME, NO_FRAME, NO_FRAME]);
        bench.lines(BUSY, &[NO_FRAME]);
        assert_eq!(bench.channel.message_timer, 3);
    }
}

#[test]
fn a_repeat_request_without_fast_frames_goes_by_the_offset() {
    let cfg = Config {
        fast_count: 0,
        ..FAST
    };
    for mut bench in in_normal_and_ready(&cfg) {
        bench.lines(RepeatMessageRequest, &[NO_FRAME]);
        assert_eq!(bench.channel.fast_count, 0);
        bench.lines(TICK, &[NO_FRAME, REPEAT_FRAME, NO_FRAME, NO_FRAME]);
        bench.lines(TICK, &[REPEAT_FRAME]);
    }
}

#[test]
fn a_pdu_with_the_repeat_bit_starts_no_fast_frames() {
    for mut bench in in_normal_and_ready(&FAST) {
        bench.lines(RxIndication(&REPEAT_PDU), &[NO_FRAME]);
        assert_eq!(bench.channel.fast_count, 0);
        bench.lines(TICK, &[NO_FRAME, PLAIN_FRAME, NO_FRAME, NO_FRAME]);
        bench.lines(TICK, &[PLAIN_FRAME]);
    }
    // Nor does it end those of a repeat request, or start them anew.
    for mut bench in in_normal_and_ready(&FAST) {
        bench.lines(RepeatMessageRequest, &[NO_FRAME]);
        bench.lines(TICK, &[REPEAT_FRAME]);
        bench.lines(RxIndication(&REPEAT_PDU), &[NO_FRAME]);
        assert_eq!(bench.channel.fast_count, 1);
        bench.lines(TICK, &[NO_FRAME, REPEAT_FRAME, NO_FRAME, NO_FRAME]);
        bench.lines(TICK, &[REPEAT_FRAME]);
    }
}

#[test]
fn a_refused_repeat_request_leaves_fast_frames_alone() {
    let refused = "3 R - -";
    // Those of a request.
    let mut bench = Bench::new(&FAST);
    bench.line(NetworkRequest);
    bench.lines(RepeatMessageRequest, &[refused]);
    bench.lines(TICK, &["0 R - 2110FFFFFFFFFFFF"]);
    let before = bench.channel;
    assert_eq!(before.fast_count, 1);
    bench.lines(RepeatMessageRequest, &[refused]);
    assert_eq!(bench.channel, before);
    bench.lines(TICK, &[NO_FRAME, "0 R - 2110FFFFFFFFFFFF"]);
    bench.lines(RepeatMessageRequest, &[refused]);
    assert_eq!(bench.channel.fast_count, 0);

    // Those of a repeat request before it.
    for mut bench in in_normal_and_ready(&FAST) {
        bench.lines(RepeatMessageRequest, &[NO_FRAME, refused]);
        bench.lines(TICK, &[REPEAT_FRAME]);
        let before = bench.channel;
        assert_eq!(before.fast_count, 1);
        bench.lines(RepeatMessageRequest, &[refused]);
        assert_eq!(bench.channel, before);
    }

    // None are started where none run.
    let mut bench = Bench::new(&FAST);
    bench.line(PassiveStartUp);
    bench.lines(RepeatMessageRequest, &[refused]);
    assert_eq!(bench.channel.fast_count, 0);
    bench.lines(TICK, &[NO_FRAME, PLAIN_FRAME]);
}

#[test]
fn fast_frames_after_a_repeat_request_while_disabled() {
    for mut bench in in_normal_and_ready(&FAST) {
        bench.line(DisableCommunication);
        bench.lines(RepeatMessageRequest, &[NO_FRAME]);
        bench.lines(TICK, &[NO_FRAME, NO_FRAME]);
        assert_eq!(bench.channel.fast_count, 2);
        bench.lines(EnableCommunication, &[NO_FRAME]);
        bench.lines(TICK, &[REPEAT_FRAME, NO_FRAME, REPEAT_FRAME]);
        assert_eq!(bench.channel.message_timer, 3);
    }

    // Repeat ends meanwhile, and they with it.
    let mut both = in_normal_and_ready(&FAST);
    for bench in &mut both {
        bench.line(DisableCommunication);
        bench.lines(RepeatMessageRequest, &[NO_FRAME]);
        bench.lines(TICK, &[NO_FRAME; 6]);
        bench.line(TICK);
        bench.line(EnableCommunication);
        assert_eq!(bench.channel.fast_count, 0);
    }
    sends_by_the_cycle(both);
}

#[test]
fn leaving_repeat_ends_fast_frames() {
    let cfg = Config {
        fast_count: 9,
        fast_cycle: 20,
        cycle: 10,
        repeat: 20,
        ..PLAIN
    };
    let mut bench = Bench::new(&cfg);
    bench.line(NetworkRequest);
    bench.lines(TICK, &["0 R - 2110FFFFFFFFFFFF", "0 N - -"]);
    assert_eq!(bench.channel.fast_count, 0);
    bench.lines(TICK, &["0 N - 2110FFFFFFFFFFFF"; 2]);
}

#[test]
fn no_frame_in_the_tick_that_reaches_ready() {
    let cfg = Config {
        repeat: 30,
        ..PLAIN
    };
    let mut bench = Bench::new(&cfg);
    bench.line(PassiveStartUp);
    bench.lines(TICK, &["0 R - 2100FFFFFFFFFFFF", "0 R - -", "0 S - -"]);
    // A request in Ready sends in the next tick.
    assert_eq!(bench.line(NetworkRequest), "0 N - -");
    bench.lines(TICK, &["0 N - 2100FFFFFFFFFFFF"]);
}

#[test]
fn repeat_request_and_its_bit() {
    let mut bench = Bench::new(&PLAIN);
    bench.line(NetworkRequest);
    assert_eq!(bench.line(RepeatMessageRequest), "3 R - -");
    bench.lines(TICK, &["0 R - 2110FFFFFFFFFFFF"]);
    bench.lines(TICK, &["0 R - -", "0 R - 2110FFFFFFFFFFFF", "0 N - -"]);
    assert_eq!(bench.line(RepeatMessageRequest), "0 R - -");
    bench.lines(TICK, &["0 R TO 2111FFFFFFFFFFFF"]);
    bench.lines(TICK, &["0 R - -", "0 R - 2111FFFFFFFFFFFF", "0 N - -"]);
    bench.lines(TICK, &["0 N - 2110FFFFFFFFFFFF"]);
    // A PDU asks for Repeat without our own bit.
    assert_eq!(bench.line(RxIndication(&REPEAT_PDU)), "0 R - -");
    bench.lines(TICK, &["0 R - 2110FFFFFFFFFFFF"]);
    // In Repeat it asks for nothing more.
    let left = bench.channel.repeat_timer;
    assert_eq!(bench.line(RxIndication(&REPEAT_PDU)), "0 R - -");
    assert_eq!(bench.channel.repeat_timer, left);
}

#[test]
fn remote_sleep() {
    let cfg = Config {
        remote: 20,
        timeout: 300,
        ..PLAIN
    };
    let mut bench = Bench::new(&cfg);
    bench.line(NetworkRequest);
    bench.lines(BUSY, &["0 R - -", "0 R - -", "0 R - -", "0 N - -"]);
    bench.lines(BUSY, &["0 N - -", "0 N RI -", "0 N - -"]);
    // Taken back by a PDU, once, and watched for anew.
    bench.lines(RxIndication(&PDU), &["0 N RC -", "0 N - -"]);
    bench.lines(BUSY, &["0 N - -"]);
    bench.lines(RxIndication(&PDU), &["0 N - -"]);
    bench.lines(BUSY, &["0 N - -", "0 N RI -"]);
    // It lasts through Ready and back.
    assert_eq!(bench.line(NetworkRelease), "0 S - -");
    assert!(bench.channel.indicated);
    assert_eq!(bench.line(NetworkRequest), "0 N - -");
    assert!(bench.channel.indicated);
    assert_eq!(bench.channel.remote_timer, 0);
    // One RC where a PDU both cancels and asks for Repeat.
    assert_eq!(bench.line(RxIndication(&REPEAT_PDU)), "0 R RC -");
    bench.lines(BUSY, &["0 R - -", "0 R - -", "0 R - -", "0 N - -"]);
    bench.lines(BUSY, &["0 N - -", "0 N RI -"]);
    // So does our own repeat request.
    assert_eq!(bench.line(RepeatMessageRequest), "0 R RC -");
    bench.lines(BUSY, &["0 R - -", "0 R - -", "0 R - -", "0 N - -"]);
    bench.lines(BUSY, &["0 N - -", "0 N RI -"]);
    assert_eq!(bench.line(NetworkRelease), "0 S - -");
    assert_eq!(bench.line(RxIndication(&PDU)), "0 S RC -");
}

#[test]
fn prepare_clears_silently() {
    let cfg = Config {
        remote: 10,
        ..PLAIN
    };
    let mut bench = Bench::new(&cfg);
    bench.line(NetworkRequest);
    bench.lines(BUSY, &["0 R - -", "0 R - -", "0 R - -", "0 N - -"]);
    // Silence in Normal and remote sleep in one tick.
    bench.lines(BUSY, &["0 N TO,RI -"]);
    bench.line(NetworkRelease);
    assert!(bench.channel.indicated && bench.channel.active_wakeup_bit);
    bench.lines(TICK, &["0 S - -"; 4]);
    bench.lines(TICK, &["0 P PB -"]);
    assert!(!bench.channel.indicated && !bench.channel.active_wakeup_bit);
    // Woken in Prepare without a request, the frames say so.
    assert_eq!(bench.line(PassiveStartUp), "0 R NM -");
    bench.lines(TICK, &["0 R - 2100FFFFFFFFFFFF"]);
}

#[test]
fn disabled_sending() {
    let cfg = Config {
        remote: 30,
        ..PLAIN
    };
    let mut bench = Bench::new(&cfg);
    bench.line(NetworkRequest);
    assert_eq!(bench.line(EnableCommunication), "0 R - -");
    assert_eq!(bench.line(DisableCommunication), "0 R - -");
    // Repeat ends all the same; nothing else moves.
    bench.lines(TICK, &["0 R - -", "0 R - -", "0 R - -", "0 N - -"]);
    let still = bench.channel;
    bench.lines(TICK, &["0 N - -"; 20]);
    assert_eq!(bench.channel, still);
    bench.lines(DisableCommunication, &["0 N - -"]);
    assert_eq!(bench.channel, still);

    // Neither PDU nor confirmation restarts the NM timer.
    bench.channel.nm_timer = 2;
    bench.channel.remote_timer = 1;
    bench.lines(TxConfirmation(true), &["0 N - -"]);
    assert_eq!(bench.channel.remote_timer, 1);
    bench.lines(RxIndication(&PDU), &["0 N - -"]);
    assert_eq!(bench.channel.nm_timer, 2);
    assert_eq!(bench.channel.remote_timer, 3);

    // Calls still move the state, and load what it needs.
    assert_eq!(bench.line(NetworkRelease), "0 S - -");
    bench.lines(TICK, &["0 S - -"; 20]);
    assert_eq!(bench.line(NetworkRequest), "0 N - -");
    assert_eq!(bench.channel.message_timer, 1);
    assert_eq!(bench.line(RxIndication(&REPEAT_PDU)), "0 R - -");
    assert_eq!(bench.channel.nm_timer, 2);

    assert_eq!(bench.line(EnableCommunication), "0 R - -");
    assert_eq!(bench.channel.nm_timer, 5);
    bench.lines(TICK, &["0 R - 2110FFFFFFFFFFFF", "0 R - -"]);
    // Enabled already: nothing happens.
    let before = bench.channel;
    bench.lines(EnableCommunication, &["0 R - -"]);
    assert_eq!(bench.channel, before);
}

#[test]
fn enabling_in_ready_loads_no_message_timer() {
    let mut bench = Bench::new(&PLAIN);
    bench.line(PassiveStartUp);
    bench.lines(DisableCommunication, &["0 R - -"]);
    bench.lines(TICK, &["0 R - -", "0 R - -", "0 R - -", "0 S - -"]);
    bench.lines(EnableCommunication, &["0 S - -"]);
    assert_eq!(bench.channel.message_timer, 0);
    bench.lines(TICK, &["0 S - -"; 4]);
    bench.lines(TICK, &["0 P PB -", "0 P - -", "0 P - -", "0 B BS -"]);
}

#[test]
fn confirmations() {
    let mut bench = Bench::new(&PLAIN);
    bench.lines(TxConfirmation(true), &["0 B - -"]);
    bench.line(PassiveStartUp);
    bench.lines(BUSY, &["0 R - -", "0 R - -", "0 R - -", "0 S - -"]);
    bench.lines(TxConfirmation(false), &["0 S - -"]);
    assert_eq!(bench.channel.nm_timer, 1);
    bench.lines(TxConfirmation(true), &["0 S - -"]);
    assert_eq!(bench.channel.nm_timer, 5);
    bench.lines(BUSY, &["0 S - -"; 4]);
    bench.lines(BUSY, &["0 P PB -"]);
    bench.lines(TxConfirmation(true), &["0 P - -"]);
    bench.lines(BUSY, &["0 P - -", "0 P - -", "0 B BS -"]);
}

#[test]
fn a_dropped_pdu_is_not_heard() {
    let mut bench = Bench::new(&PN);
    let other = [7, 0x40, 0, 0, 0xFE, 0x68];
    bench.line(PassiveStartUp);
    bench.lines(BUSY, &["0 R - -"; 3]);
    // With the filter off it keeps awake, and its bits outside the mask stay
    // out of the vectors.
    bench.lines(RxIndication(&other), &["0 R - -"]);
    assert_eq!(bench.channel.nm_timer, 5);
    bench.lines(ConfirmPnAvailability, &["0 R - -"]);
    bench.lines(BUSY, &["0 S - -"]);
    let before = bench.channel;
    bench.lines(RxIndication(&other), &["0 S - -"]);
    bench.lines(RxIndication(&[7, 0x01, 0, 0, 0x01, 0x97]), &["0 S - -"]);
    assert_eq!(bench.channel, before);
    bench.lines(RxIndication(&[7, 0x41, 0, 0, 0x01, 0]), &["0 R EI,ER -"]);

    let mut bench = Bench::new(&Config {
        all_keep_awake: true,
        ..PN
    });
    bench.line(ConfirmPnAvailability);
    bench.lines(RxIndication(&other), &["0 B ST -"]);
    bench.lines(RxIndication(&[7, 0, 0, 0, 0x01, 0x97]), &["0 B ST -"]);
}

#[test]
fn pn_timers_and_status() {
    let mut bench = Bench::new(&PN);
    let status = bench.channel.status();
    assert_eq!((status.answer, status.state, status.count), (0, 0, 0));
    assert_eq!(status.lowest, PncNumber(0));

    let asks = [7, 0x40, 0, 0, 0xFF, 0x82];
    bench.lines(RxIndication(&asks), &["0 B ST,EI,ER -", "0 B ST -"]);
    let status = bench.channel.status();
    assert_eq!(status.era, [0x01, 0x82, 0, 0, 0, 0, 0, 0]);
    assert_eq!(status.eira, status.era);
    assert_eq!((status.count, status.lowest), (3, PncNumber(32)));

    // They run in every state, here asleep.
    bench.lines(TICK, &["0 B - -"; 2]);
    bench.lines(RxIndication(&[7, 0x40, 0, 0, 0, 0x02]), &["0 B ST -"]);
    bench.lines(TICK, &["0 B EI,ER -"]);
    let status = bench.channel.status();
    assert_eq!(status.era, [0, 0x02, 0, 0, 0, 0, 0, 0]);
    assert_eq!((status.count, status.lowest), (1, PncNumber(41)));
    bench.lines(TICK, &["0 B - -", "0 B EI,ER -"]);

    // A PDU that carries no requests loads nothing.
    bench.lines(RxIndication(&[7, 0x00, 0, 0, 0xFF, 0xFF]), &["0 B ST -"]);
}

#[test]
fn sent_requests_reach_eira_only() {
    let mut bench = Bench::new(&PN);
    bench.lines(SetPnRequests(&[1]), &["5 B - -"]);
    bench.lines(SetPnRequests(&[0xF1, 0x08]), &["0 B - -"]);
    bench.lines(SetUserData(&[0xAB, 0xCD]), &["0 B - -"]);
    bench.line(PassiveStartUp);
    bench.lines(BUSY, &["0 R - -"]);
    bench.lines(TICK, &["0 R - -", "0 R EI 2140ABCDF108"]);
    assert_eq!(bench.channel.status().era, [0; 8]);
    assert_eq!(bench.channel.status().eira, [1, 0, 0, 0, 0, 0, 0, 0]);
    assert_eq!(bench.channel.eira[0], 3);
    assert_eq!(bench.channel.status().lowest, PncNumber(32));
    bench.lines(TICK, &["0 S - -", "0 P PB -", "0 P EI -"]);
    assert_eq!(bench.channel.status().state, 1);
}

#[test]
fn a_timer_that_ends_and_is_reloaded_makes_no_note() {
    // P is one above C, and a busy driver makes the send late by one cycle.
    let cfg = Config {
        cycle: 10,
        pn_reset: 20,
        ..PN
    };
    let mut bench = Bench::new(&cfg);
    bench.line(SetPnRequests(&[1, 0]));
    bench.line(NetworkRequest);
    bench.lines(TICK, &["0 R EI 2150FFFF0100", "0 R - 2150FFFF0100"]);
    bench.lines(BUSY, &["0 R - -"]);
    assert_eq!(bench.channel.eira[0], 1);
    bench.lines(TICK, &["0 N - 2150FFFF0100"]);
    assert_eq!(bench.channel.eira[0], 2);
    bench.lines(BUSY, &["0 N TO -", "0 N EI -"]);
}

#[test]
fn frames_in_other_layouts() {
    let bare = Config {
        sni: Position::Off,
        cbv: Position::Off,
        length: 3,
        ..PLAIN
    };
    let mut bench = Bench::new(&bare);
    bench.line(SetUserData(&[1, 2, 3]));
    bench.line(NetworkRequest);
    bench.lines(TICK, &["0 R - 010203"]);
    // With no CBV no bit of it can be heard.
    bench.lines(TICK, &["0 R - -", "0 R - 010203", "0 N - -"]);
    bench.lines(RxIndication(&[0xFF; 3]), &["0 N - -"]);

    let most = Config {
        sni: Position::Off,
        cbv: Position::Byte0,
        length: 8,
        pn_start: 1,
        pn_len: 7,
        mask: [0xFF; 8],
        mask_len: 7,
        ..PN
    };
    let mut bench = Bench::new(&most);
    bench.lines(SetUserData(&[]), &["0 B - -"]);
    bench.line(SetPnRequests(&[1, 2, 3, 4, 5, 6, 0x80]));
    bench.line(NetworkRequest);
    bench.lines(TICK, &["0 R EI 5001020304050680"]);
    assert_eq!(bench.channel.eira[PN_BITS - 1], 3);
    assert_eq!(bench.channel.status().lowest, PncNumber(8));
    bench.lines(RxIndication(&[0x40, 0, 0, 0, 0, 0, 0, 0x80]), &["0 R ER -"]);
    assert_eq!(bench.channel.status().era, [0, 0, 0, 0, 0, 0, 0x80, 0]);
}

#[test]
fn a_passive_channel_only_listens() {
    let cfg = Config {
        passive: true,
        remote: 10,
        ..PN
    };
    let mut bench = Bench::new(&cfg);
    let active_calls = [
        NetworkRequest,
        NetworkRelease,
        RepeatMessageRequest,
        DisableCommunication,
        EnableCommunication,
        TxConfirmation(true),
        TxConfirmation(false),
        SetUserData(&[1, 2]),
        SetPnRequests(&[1, 2]),
        SetPnRequests(&[1]),
    ];
    for call in active_calls {
        assert_eq!(bench.line(call), "4 B - -");
    }
    assert_eq!(bench.line(ConfirmPnAvailability), "0 B - -");
    assert_eq!(bench.line(PassiveStartUp), "0 R NM -");
    bench.lines(TICK, &["0 R - -", "0 R - -", "0 R - -", "0 S - -"]);
    bench.lines(RxIndication(&[7, 0x41, 0, 0, 0, 0x04]), &["0 R EI,ER -"]);
    assert_eq!(bench.channel.message_timer, 0);
    assert!(!bench.channel.repeat_bit);
}

#[test]
fn the_book_counts_on_while_disabled() {
    let mut bench = Bench::new(&PLAIN);
    bench.lines(TICK, &["0 B - -"]);
    assert_eq!((bench.book.k, bench.book.q), (None, 0));
    bench.line(NetworkRequest);
    assert_eq!((bench.book.k, bench.book.q), (Some(0), 4));
    bench.line(DisableCommunication);
    for _ in 0..20 {
        bench.step(&TICK);
    }
    bench.lines(RxIndication(&PDU), &["0 N - -"]);
    assert_eq!((bench.book.k, bench.book.q), (Some(20), 0));
    // A refused call is no keep-awake, and no tick.
    bench.lines(PassiveStartUp, &["3 N - -"]);
    let short = MainFunction {
        taken: true,
        frame_len: 7,
    };
    bench.lines(short, &["5 N - -"]);
    assert_eq!(bench.book.k, Some(20));
    bench.line(EnableCommunication);
    assert_eq!(bench.book.k, Some(0));
    bench.lines(BUSY, &["0 N - -"; 4]);
    assert_eq!(bench.book.k, Some(4));
    bench.lines(BUSY, &["0 N TO -"]);
    assert_eq!(bench.book.k, Some(0));
}

// Soundness.

/// The list of what sound means, item by item.
fn sound_by_the_list(channel: &Channel) -> bool {
    let cfg = &channel.config;
    let Ok(times) = checked_times(cfg) else {
        return false;
    };
    let is_in = |letters: &str| letters.contains(channel.state.letter());
    let within = |value: u64, held: bool, least: u64, most: u64| {
        value == 0 && (!held || least == 0) || held && least <= value && value <= most
    };
    let only = |flag: bool, allowed: bool| !flag || allowed;
    let longest = times.cycle.max(times.fast_cycle);
    let watched = times.remote > 0 && !channel.indicated;
    let items = [
        channel.times == times,
        within(channel.nm_timer, is_in("RNS"), 1, times.timeout),
        within(channel.wait_timer, is_in("P"), 1, times.wait),
        within(channel.repeat_timer, is_in("R"), 1, times.repeat),
        within(
            channel.message_timer,
            is_in("RN") && !cfg.passive,
            1,
            longest,
        ),
        within(channel.fast_count, is_in("R"), 0, cfg.fast_count),
        within(channel.remote_timer, is_in("N") && watched, 1, times.remote),
        only(is_in("N"), channel.requested),
        only(is_in("SPB"), !channel.requested),
        only(channel.disabled, is_in("RNS")),
        only(channel.repeat_bit, is_in("R")),
        only(channel.active_wakeup_bit, is_in("RNS")),
        only(channel.indicated, is_in("NS") && times.remote > 0),
        only(cfg.passive, !channel.requested && !channel.disabled),
        only(cfg.passive, !channel.indicated && !is_in("N")),
        only(
            cfg.passive,
            !channel.repeat_bit && !channel.active_wakeup_bit,
        ),
    ];
    let pn_items = (0..PN_BITS).all(|place| {
        let (byte, bit) = (place / 8, place % 8);
        let in_mask = (byte as u64) < cfg.pn_len && cfg.mask[byte] & (1 << bit) != 0;
        let most = if in_mask { times.pn_reset } else { 0 };
        u64::from(channel.era[place]) <= most && u64::from(channel.eira[place]) <= most
    });
    items.iter().all(|item| *item) && pn_items
}

/// Changes some field of the channel, often by little.
fn disturb(rng: &mut Rng, channel: &mut Channel) {
    fn other(rng: &mut Rng, value: u64) -> u64 {
        match rng.below(6) {
            0 => 0,
            1 => 1,
            2 => value.wrapping_add(1),
            3 => value.wrapping_sub(1),
            4 => rng.below(12),
            _ => *rng.pick(&[255, 256, 65_535, 65_536, u64::MAX]),
        }
    }
    let place = rng.below(PN_BITS as u64) as usize;
    let byte = rng.below(8) as usize;
    match rng.below(34) {
        0 => channel.state = *rng.pick(&State::ALL),
        1 => channel.requested ^= true,
        2 => channel.disabled ^= true,
        3 => channel.filter_on ^= true,
        4 => channel.indicated ^= true,
        5 => channel.repeat_bit ^= true,
        6 => channel.active_wakeup_bit ^= true,
        7 => channel.nm_timer = other(rng, channel.times.timeout),
        8 => channel.wait_timer = other(rng, channel.times.wait),
        9 => channel.repeat_timer = other(rng, channel.times.repeat),
        10 => {
            let longest = channel.times.cycle.max(channel.times.fast_cycle);
            channel.message_timer = other(rng, longest);
        }
        11 => channel.fast_count = other(rng, channel.config.fast_count),
        12 => channel.remote_timer = other(rng, channel.times.remote),
        13 | 14 => channel.era[place] = other(rng, channel.times.pn_reset) as u16,
        15 | 16 => channel.eira[place] = other(rng, channel.times.pn_reset) as u16,
        17 => channel.user_data[byte] = rng.byte(),
        18 => channel.pn_requests[byte] = rng.byte(),
        19 => channel.config.mask[byte] = rng.byte(),
        20 => channel.config.passive ^= true,
        21 => channel.config.pn_on ^= true,
        22 => channel.config.all_keep_awake ^= true,
        23 => channel.config.period = other(rng, channel.config.period),
        24 => channel.config.length = other(rng, channel.config.length),
        25 => channel.config.mask_len = other(rng, channel.config.pn_len),
        26 => channel.config.node_id = other(rng, 255),
        27 => channel.config.fast_count = other(rng, channel.fast_count),
        28 => channel.config.cbv = *rng.pick(&POSITIONS),
        29 => channel.config.timeout = other(rng, channel.config.timeout),
        30 => channel.config.remote = other(rng, channel.config.remote),
        31 => channel.times.remote = other(rng, channel.times.remote),
        32 => channel.times.pn_reset = other(rng, channel.times.pn_reset),
        _ => channel.times.offset = other(rng, channel.times.offset),
    }
}

#[test]
fn an_unsound_channel_refuses_every_call() {
    let mut bench = Bench::new(&PN);
    bench.line(NetworkRequest);
    let sound = bench.channel;
    let spoil: [fn(&mut Channel); 12] = [
        |c| c.nm_timer = 0,
        |c| c.nm_timer = 6,
        |c| c.wait_timer = 1,
        |c| c.repeat_timer = 0,
        |c| c.message_timer = 3,
        |c| c.fast_count = 1,
        |c| c.remote_timer = 1,
        |c| c.indicated = true,
        |c| c.era[1] = 1,
        |c| c.eira[0] = 4,
        |c| c.config.length = 9,
        |c| c.times.wait = 4,
    ];
    for spoil in spoil {
        let mut channel = sound;
        spoil(&mut channel);
        assert!(!channel.is_sound());
        check_unsound(&channel);
    }
    check_unsound(&Channel::ZERO);
}

/// Every call, good or bad, is answered 1 and changes nothing.
fn check_unsound(channel: &Channel) {
    let calls = [
        NetworkRequest,
        NetworkRelease,
        PassiveStartUp,
        RepeatMessageRequest,
        DisableCommunication,
        EnableCommunication,
        TxConfirmation(true),
        TxConfirmation(false),
        RxIndication(&PDU[..6]),
        RxIndication(&[0; 11]),
        RxIndication(&[]),
        ConfirmPnAvailability,
        SetUserData(&[1, 2]),
        SetUserData(&[3; 20]),
        SetPnRequests(&[1, 2]),
        SetPnRequests(&[3; 20]),
        Call::Status,
        TICK,
        BUSY,
        MainFunction {
            taken: true,
            frame_len: 0,
        },
    ];
    for call in calls {
        let mut handed_in = *channel;
        let mut buffer = [UNTOUCHED; BUFFER_LEN];
        let reply = call.perform(&mut handed_in, &mut buffer);
        assert_eq!((reply.answer, reply.frame), (1, false));
        assert_eq!(reply.notes.as_slice(), []);
        assert_eq!(handed_in, *channel);
        assert_eq!(buffer, [UNTOUCHED; BUFFER_LEN]);
    }
    let status = channel.status();
    assert_eq!((status.answer, status.state, status.count), (1, 0, 0));
    assert_eq!((status.era, status.eira), ([0; 8], [0; 8]));
    assert_eq!(status.lowest, PncNumber(0));
}

#[test]
fn sound_is_what_the_list_says() {
    let mut rng = Rng::new(3);
    let (mut sound, mut unsound) = (0, 0);
    for _ in 0..400 {
        let mut bench = Bench::new(&random_config(&mut rng));
        for _ in 0..100 {
            let mut bytes = [0; 10];
            let call = random_call(&mut rng, &bench.channel.config, &mut bytes);
            bench.step(&call);
            let mut channel = bench.channel;
            assert!(sound_by_the_list(&channel));
            for _ in 0..=rng.below(3) {
                disturb(&mut rng, &mut channel);
            }
            assert_eq!(
                channel.is_sound(),
                sound_by_the_list(&channel),
                "{channel:?}"
            );
            if channel.is_sound() {
                sound += 1;
                // Calls lead from sound states to sound states, reached or not.
                for _ in 0..20 {
                    let call = random_call(&mut rng, &channel.config, &mut bytes);
                    let mut buffer = [UNTOUCHED; BUFFER_LEN];
                    let before = channel;
                    let reply = call.perform(&mut channel, &mut buffer);
                    assert!(channel.is_sound(), "{call:?} on {before:?}");
                    assert!(reply.answer == DONE || channel == before);
                }
            } else {
                unsound += 1;
                check_unsound(&channel);
            }
        }
    }
    assert!(sound > 5_000 && unsound > 5_000, "{sound} {unsound}");
}

// Random runs.

const POSITIONS: [Position; 4] = [
    Position::Off,
    Position::Byte0,
    Position::Byte1,
    Position::Other,
];

/// A configuration that passes, most often with short times.
fn random_config(rng: &mut Rng) -> Config {
    let pn_on = rng.chance(2);
    loop {
        let period = 1 + rng.below(100);
        let ticks = Times {
            cycle: 1 + rng.below(4),
            timeout: 2 + rng.below(8),
            wait: 1 + rng.below(4),
            repeat: 1 + rng.below(6),
            offset: rng.below(3),
            fast_cycle: rng.below(6),
            remote: rng.below(6),
            pn_reset: rng.below(8),
        };
        let long = rng.chance(20);
        let mut time = |ticks: u64| match ticks {
            0 => 0,
            _ if long && rng.chance(4) => 1 + rng.below(65_535),
            _ => (ticks - 1) * period + 1 + rng.below(period),
        };
        let (timeout, wait) = (time(ticks.timeout), time(ticks.wait));
        let (repeat, cycle) = (time(ticks.repeat), time(ticks.cycle));
        let (offset, fast_cycle) = (time(ticks.offset), time(ticks.fast_cycle));
        let (remote, pn_reset) = (time(ticks.remote), time(ticks.pn_reset));
        let pn_len = if pn_on { 1 + rng.below(7) } else { 0 };
        let mut mask = [0; 8];
        rng.fill(&mut mask);
        let cfg = Config {
            period,
            timeout,
            wait,
            repeat,
            cycle,
            offset,
            fast_count: *rng.pick(&[0, 0, 1, 2, 3, 255]),
            fast_cycle,
            remote,
            passive: rng.chance(4),
            length: 1 + rng.below(8),
            sni: *rng.pick(&POSITIONS),
            cbv: *rng.pick(&POSITIONS),
            node_id: rng.below(256),
            pn_on,
            pn_start: if pn_on { rng.below(8) } else { 0 },
            pn_len,
            pn_reset: if pn_on { pn_reset } else { 0 },
            all_keep_awake: rng.chance(3),
            mask,
            mask_len: if pn_on { pn_len } else { rng.below(12) },
        };
        if first_broken_rule(&cfg) == 0 {
            return cfg;
        }
    }
}

/// A call with arguments, now and then of a wrong length.
fn random_call<'a>(rng: &mut Rng, cfg: &Config, bytes: &'a mut [u8; 10]) -> Call<'a> {
    let wrong = rng.chance(12);
    let mut length = |right: usize| {
        if wrong {
            rng.below(11) as usize
        } else {
            right
        }
    };
    let pdu_len = length(cfg.pdu_len());
    let user_len = length(cfg.user_range().len());
    let pn_len = length(cfg.pn_range().len());
    let frame_len = if wrong {
        pdu_len
    } else {
        cfg.pdu_len() + rng.below(3) as usize
    };
    // Few bits, so that the filter has something to drop.
    for byte in bytes.iter_mut() {
        *byte = rng.byte() & rng.byte() & rng.byte();
    }
    if let Some(place) = cfg.cbv.byte() {
        bytes[place] = *rng.pick(&[0x00, 0x01, 0x40, 0x40, 0x41, 0xBE, 0xFF]);
    }
    let bytes = &*bytes;
    match rng.below(60) {
        0 | 1 => NetworkRequest,
        2 | 3 => NetworkRelease,
        4 | 5 => PassiveStartUp,
        6 => RepeatMessageRequest,
        7 => DisableCommunication,
        8..=10 => EnableCommunication,
        11 => TxConfirmation(true),
        12 => TxConfirmation(false),
        13..=15 => RxIndication(&bytes[..pdu_len]),
        16 => ConfirmPnAvailability,
        17 => SetUserData(&bytes[..user_len]),
        18 => SetPnRequests(&bytes[..pn_len]),
        19 => Call::Status,
        _ => MainFunction {
            taken: rng.chance(2),
            frame_len,
        },
    }
}

#[test]
fn random_runs_beside_the_book() {
    let mut rng = Rng::new(2);
    let mut answers = [0; 8];
    let mut states = [0; 5];
    let mut notes = [0; 9];
    let (mut frames, mut dropped, mut disabled, mut calls) = (0, 0, 0, 0);
    for _ in 0..1_000 {
        let mut bench = Bench::new(&random_config(&mut rng));
        for _ in 0..1_000 {
            let mut bytes = [0; 10];
            let call = random_call(&mut rng, &bench.channel.config, &mut bytes);
            let before = bench.channel;
            let (reply, _) = bench.step(&call);
            calls += 1;
            answers[usize::from(reply.answer)] += 1;
            states[usize::from(bench.channel.state.number())] += 1;
            for note in reply.notes.as_slice() {
                notes[*note as usize] += 1;
            }
            frames += u32::from(reply.frame);
            disabled += u32::from(bench.channel.disabled);
            let in_sleep = before.state == State::BusSleep && reply.notes.as_slice().is_empty();
            if matches!(call, RxIndication(_)) && reply.answer == DONE && in_sleep {
                assert!(before.filter_on && bench.channel == before);
                dropped += 1;
            }
        }
    }
    // Everything has happened, and often.
    assert!(calls >= 300_000);
    let seen = format!("{answers:?} {states:?} {notes:?} {frames} {dropped} {disabled}");
    for answer in [0, 3, 4, 5, 6] {
        assert!(answers[answer] > 1_000, "{seen}");
    }
    assert!(states.iter().all(|count| *count > 10_000), "{seen}");
    assert!(notes.iter().all(|count| *count > 500), "{seen}");
    assert!(
        frames > 10_000 && dropped > 500 && disabled > 10_000,
        "{seen}"
    );
}

#[test]
fn quiet_channels_fall_asleep() {
    // Only ticks, nothing requested, sending enabled: R + T + W ticks at most.
    let mut rng = Rng::new(4);
    for _ in 0..2_000 {
        let mut bench = Bench::new(&random_config(&mut rng));
        for _ in 0..rng.below(60) {
            let mut bytes = [0; 10];
            let call = random_call(&mut rng, &bench.channel.config, &mut bytes);
            bench.step(&call);
        }
        let Times {
            timeout,
            wait,
            repeat,
            ..
        } = bench.channel.times;
        let limit = repeat + timeout + wait;
        if limit > 2_000 {
            continue;
        }
        bench.step(&NetworkRelease);
        bench.step(&EnableCommunication);
        for _ in 0..limit {
            bench.step(&BUSY);
        }
        assert_eq!(bench.channel.state, State::BusSleep);
    }
}
