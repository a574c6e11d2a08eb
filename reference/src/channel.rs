//! The channel: what it holds, when that is sound, the calls on it and the
//! tick of the main function.
//!
//! Every call looks first whether it is refused, in the order of the answers
//! 1, 4, 6, 3, 5; a refused call changes neither the channel nor a lent byte.

use crate::answer::{BROKEN_RULE, DONE, NOT_SOUND, PASSIVE, PN_OFF, WRONG_LENGTH, WRONG_STATE};
use crate::config::{checked_times, passes_with, Config, Times, MAX_BYTES};
use crate::pdu::{read_fields, write_fields, Fields, ACTIVE_WAKEUP_BIT, PNI_BIT, REPEAT_BIT};
use crate::pnc::{BitIndex, PncNumber};

/// The most bits a PN vector has: rule 8 wants a CBV, which leaves 7 bytes.
pub const PN_BITS: usize = 56;

/// The most notes one call raises: TO, RI, EI and ER in one tick.
pub const MAX_NOTES: usize = 4;

/// The five states, numbered in the order of their letters B P R N S.
#[derive(Clone, Copy, Debug, PartialEq, Eq, Hash)]
#[repr(u8)]
pub enum State {
    /// B: Bus-Sleep.
    BusSleep = 0,
    /// P: Prepare Bus-Sleep.
    PrepareBusSleep = 1,
    /// R: Repeat Message.
    RepeatMessage = 2,
    /// N: Normal Operation.
    NormalOperation = 3,
    /// S: Ready Sleep.
    ReadySleep = 4,
}

impl State {
    /// All states, each at the place of its number.
    pub const ALL: [State; 5] = [
        State::BusSleep,
        State::PrepareBusSleep,
        State::RepeatMessage,
        State::NormalOperation,
        State::ReadySleep,
    ];

    /// 0 to 4.
    pub fn number(self) -> u8 {
        self as u8
    }

    /// The letter that a trace prints.
    pub fn letter(self) -> char {
        match self {
            State::BusSleep => 'B',
            State::PrepareBusSleep => 'P',
            State::RepeatMessage => 'R',
            State::NormalOperation => 'N',
            State::ReadySleep => 'S',
        }
    }

    /// Whether the state is one of the three of Network Mode.
    pub fn in_network_mode(self) -> bool {
        matches!(
            self,
            State::RepeatMessage | State::NormalOperation | State::ReadySleep
        )
    }
}

/// What a call tells the layer above, by the two letters that a trace prints.
#[derive(Clone, Copy, Debug, PartialEq, Eq, Hash)]
pub enum Note {
    /// Network Mode was entered.
    NM,
    /// A PDU was heard in Bus-Sleep.
    ST,
    /// Prepare was entered.
    PB,
    /// Bus-Sleep was entered.
    BS,
    /// The NM timer ran out in Repeat or Normal.
    TO,
    /// The remote sleep indication was taken back.
    RC,
    /// Remote sleep is indicated.
    RI,
    /// EIRA has changed.
    EI,
    /// ERA has changed.
    ER,
}

impl Note {
    /// All notes, each at the place of its number from 0.
    pub const ALL: [Note; 9] = [
        Note::NM,
        Note::ST,
        Note::PB,
        Note::BS,
        Note::TO,
        Note::RC,
        Note::RI,
        Note::EI,
        Note::ER,
    ];

    /// The two letters.
    pub fn letters(self) -> &'static str {
        match self {
            Note::NM => "NM",
            Note::ST => "ST",
            Note::PB => "PB",
            Note::BS => "BS",
            Note::TO => "TO",
            Note::RC => "RC",
            Note::RI => "RI",
            Note::EI => "EI",
            Note::ER => "ER",
        }
    }
}

/// The notes of one call, in the order raised.
#[derive(Clone, Copy, Debug, PartialEq, Eq)]
pub struct Notes {
    // Entries past the end are never written, so that equal notes are equal
    // values.
    list: [Note; MAX_NOTES],
    len: usize,
}

impl Notes {
    /// No notes.
    pub const NONE: Notes = Notes {
        list: [Note::NM; MAX_NOTES],
        len: 0,
    };

    /// The notes as a slice.
    pub fn as_slice(&self) -> &[Note] {
        &self.list[..self.len]
    }

    fn raise(&mut self, note: Note) {
        self.list[self.len] = note;
        self.len += 1;
    }
}

/// What a call gives back beside the channel.
#[derive(Clone, Copy, Debug, PartialEq, Eq)]
pub struct Reply {
    /// The number from the paper's table of answers.
    pub answer: u8,
    /// The notes; none when refused.
    pub notes: Notes,
    /// Whether a frame was sent and now fills the first L bytes of the buffer.
    pub frame: bool,
}

impl Reply {
    /// A call that was carried out, before it has raised a note.
    const QUIET: Reply = Reply {
        answer: DONE,
        notes: Notes::NONE,
        frame: false,
    };

    fn refused(answer: u8) -> Reply {
        Reply {
            answer,
            ..Reply::QUIET
        }
    }
}

/// What the status call gives back; when refused, 0 but for the answer.
#[derive(Clone, Copy, Debug, PartialEq, Eq)]
pub struct Status {
    /// The number from the paper's table of answers.
    pub answer: u8,
    /// The number of the state.
    pub state: u8,
    /// The ERA vector in its first N bytes, then 0.
    pub era: [u8; MAX_BYTES],
    /// The EIRA vector in its first N bytes, then 0.
    pub eira: [u8; MAX_BYTES],
    /// How many PNCs EIRA requests.
    pub count: u32,
    /// The lowest PNC that EIRA requests; 0, which no vector carries, if none.
    pub lowest: PncNumber,
}

/// What a call needs in order not to be refused, apart from a sound channel.
struct Needs {
    /// A channel that may send.
    active: bool,
    /// A channel with PN on.
    pn: bool,
    /// Whether the state is one for this call.
    state_fits: bool,
    /// Whether the lent bytes are of the right length.
    length_fits: bool,
}

impl Needs {
    const NOTHING: Needs = Needs {
        active: false,
        pn: false,
        state_fits: true,
        length_fits: true,
    };

    const ACTIVE: Needs = Needs {
        active: true,
        ..Needs::NOTHING
    };
}

/// Both PN vectors, bit k of a number being bit k of the vector.
#[derive(Clone, Copy, PartialEq, Eq)]
struct Vectors {
    era: u64,
    eira: u64,
}

/// One channel. Timers are in ticks and stand at 0 while they do not run.
#[derive(Clone, Copy, Debug, PartialEq, Eq)]
pub struct Channel {
    /// The configuration as it was given.
    pub config: Config,
    /// The times that the configuration comes to.
    pub times: Times,
    /// The state.
    pub state: State,
    /// Whether this node requests the network.
    pub requested: bool,
    /// Whether sending is disabled.
    pub disabled: bool,
    /// Whether the PN filter is on.
    pub filter_on: bool,
    /// Whether remote sleep is indicated.
    pub indicated: bool,
    /// CBV bit 0 of the frames sent.
    pub repeat_bit: bool,
    /// CBV bit 4 of the frames sent.
    pub active_wakeup_bit: bool,
    /// Ticks until the network counts as silent.
    pub nm_timer: u64,
    /// Ticks left in Prepare.
    pub wait_timer: u64,
    /// Ticks left in Repeat.
    pub repeat_timer: u64,
    /// Ticks until a frame is due.
    pub message_timer: u64,
    /// Fast frames still to be sent.
    pub fast_count: u64,
    /// Ticks until remote sleep is indicated.
    pub remote_timer: u64,
    /// The user data to send; bytes past the configured length mean nothing.
    pub user_data: [u8; MAX_BYTES],
    /// The PN requests to send; bytes past the configured length mean nothing.
    pub pn_requests: [u8; MAX_BYTES],
    /// The ERA timers, timer k being that of bit k of the PN vector.
    pub era: [u16; PN_BITS],
    /// The EIRA timers, timer k being that of bit k of the PN vector.
    pub eira: [u16; PN_BITS],
}

/// Initialises a channel: answer, first broken rule and channel. Answers 2 with
/// the rule and `Channel::ZERO` if the configuration breaks one, else 0 with
/// rule 0 and the fresh channel.
pub fn initialise(config: &Config) -> (u8, u8, Channel) {
    match checked_times(config) {
        Ok(times) => (DONE, 0, Channel::fresh(config, &times)),
        Err(rule) => (BROKEN_RULE, rule, Channel::ZERO),
    }
}

impl Channel {
    /// What stands beside a refused configuration: every number 0, every flag
    /// false, and header fields at the position of number 0. Not sound.
    pub const ZERO: Channel = Channel {
        config: Config::ZERO,
        times: Times {
            timeout: 0,
            wait: 0,
            repeat: 0,
            cycle: 0,
            offset: 0,
            fast_cycle: 0,
            remote: 0,
            pn_reset: 0,
        },
        state: State::BusSleep,
        requested: false,
        disabled: false,
        filter_on: false,
        indicated: false,
        repeat_bit: false,
        active_wakeup_bit: false,
        nm_timer: 0,
        wait_timer: 0,
        repeat_timer: 0,
        message_timer: 0,
        fast_count: 0,
        remote_timer: 0,
        user_data: [0; MAX_BYTES],
        pn_requests: [0; MAX_BYTES],
        era: [0; PN_BITS],
        eira: [0; PN_BITS],
    };

    /// The freshly initialised channel of a configuration that passes and of
    /// the times it comes to: asleep, released, sending enabled, filter off,
    /// nothing running, user data all ones.
    pub fn fresh(config: &Config, times: &Times) -> Channel {
        Channel {
            config: *config,
            times: *times,
            user_data: [0xFF; MAX_BYTES],
            ..Channel::ZERO
        }
    }

    /// Whether the channel keeps all that the paper demands of a sound state.
    pub fn is_sound(&self) -> bool {
        self.is_sound_with(self.vectors())
    }

    /// The same; `vectors` are those of this channel.
    fn is_sound_with(&self, vectors: Vectors) -> bool {
        passes_with(&self.config, &self.times)
            && self.timers_are_sound()
            && self.flags_are_sound()
            && self.pn_timers_are_sound(vectors)
    }

    /// Each timer is within its time while it runs, and 0 otherwise.
    fn timers_are_sound(&self) -> bool {
        let (state, times) = (self.state, &self.times);
        let in_repeat = state == State::RepeatMessage;
        let watching = state == State::NormalOperation && times.remote > 0 && !self.indicated;
        let most_fast = if in_repeat { self.config.fast_count } else { 0 };
        timer_fits(self.nm_timer, state.in_network_mode(), times.timeout)
            && timer_fits(self.wait_timer, state == State::PrepareBusSleep, times.wait)
            && timer_fits(self.repeat_timer, in_repeat, times.repeat)
            && timer_fits(
                self.message_timer,
                self.in_sending_state(),
                times.cycle.max(times.fast_cycle),
            )
            && self.fast_count <= most_fast
            && timer_fits(self.remote_timer, watching, times.remote)
    }

    /// Each flag is true only where it may be; "requested" also has to be true
    /// in Normal.
    fn flags_are_sound(&self) -> bool {
        let state = self.state;
        let requested_fits = match state {
            State::NormalOperation => self.requested,
            State::RepeatMessage => true,
            State::ReadySleep | State::PrepareBusSleep | State::BusSleep => !self.requested,
        };
        let may_be_indicated =
            self.times.remote > 0 && matches!(state, State::NormalOperation | State::ReadySleep);
        let any_active_flag = self.requested
            || self.disabled
            || self.indicated
            || self.repeat_bit
            || self.active_wakeup_bit;
        requested_fits
            && (!self.disabled || state.in_network_mode())
            && (!self.repeat_bit || state == State::RepeatMessage)
            && (!self.active_wakeup_bit || state.in_network_mode())
            && (!self.indicated || may_be_indicated)
            && (!self.config.passive || !(any_active_flag || state == State::NormalOperation))
    }

    /// PN timers are within P, and run in the mask only. With PN off there is
    /// no mask.
    fn pn_timers_are_sound(&self, vectors: Vectors) -> bool {
        let most = u16::try_from(self.times.pn_reset).unwrap_or(u16::MAX);
        let within = |timers: &[u16; PN_BITS]| {
            let excess = timers.iter().map(|timer| timer.saturating_sub(most));
            excess.fold(0, |all, one| all | one) == 0
        };
        (vectors.era | vectors.eira) & !self.mask_bits() == 0
            && within(&self.era)
            && within(&self.eira)
    }

    /// The network is requested by this node. Answers 4 on a passive channel.
    pub fn network_request(&mut self) -> Reply {
        self.answer(Needs::ACTIVE, |channel, reply| {
            channel.requested = true;
            match channel.state {
                State::BusSleep | State::PrepareBusSleep => {
                    channel.enter_network_mode(&mut reply.notes);
                    channel.active_wakeup_bit = true;
                    channel.begin_fast_frames();
                }
                State::ReadySleep => {
                    channel.enter_normal();
                    channel.message_timer = 1;
                }
                State::RepeatMessage | State::NormalOperation => {}
            }
        })
    }

    /// The network is no longer requested by this node. Answers 4 on a passive
    /// channel.
    pub fn network_release(&mut self) -> Reply {
        self.answer(Needs::ACTIVE, |channel, _| {
            channel.requested = false;
            if channel.state == State::NormalOperation {
                channel.enter_ready();
            }
        })
    }

    /// Wakes the network without requesting it. Answers 3 in Network Mode.
    pub fn passive_start_up(&mut self) -> Reply {
        let needs = Needs {
            state_fits: !self.state.in_network_mode(),
            ..Needs::NOTHING
        };
        self.answer(needs, |channel, reply| {
            channel.enter_network_mode(&mut reply.notes);
        })
    }

    /// Asks all nodes for Repeat, in fast frames where there are any. Answers 4
    /// on a passive channel, then 3 outside Normal and Ready.
    pub fn repeat_message_request(&mut self) -> Reply {
        let needs = Needs {
            state_fits: self.in_normal_or_ready(),
            ..Needs::ACTIVE
        };
        self.answer(needs, |channel, reply| {
            channel.enter_repeat(&mut reply.notes);
            channel.repeat_bit = true;
            channel.begin_fast_frames();
        })
    }

    /// Disables sending. Answers 4 on a passive channel, then 3 outside Network
    /// Mode.
    pub fn disable_communication(&mut self) -> Reply {
        let needs = Needs {
            state_fits: self.state.in_network_mode(),
            ..Needs::ACTIVE
        };
        self.answer(needs, |channel, _| channel.disabled = true)
    }

    /// Enables sending; where it was disabled, the NM timer starts anew and in
    /// Repeat and Normal a frame falls due in the next tick. Answers 4 on a
    /// passive channel, then 3 outside Network Mode.
    pub fn enable_communication(&mut self) -> Reply {
        let needs = Needs {
            state_fits: self.state.in_network_mode(),
            ..Needs::ACTIVE
        };
        self.answer(needs, |channel, _| {
            if channel.disabled {
                channel.disabled = false;
                channel.nm_timer = channel.times.timeout;
                if channel.in_sending_state() {
                    channel.message_timer = 1;
                }
            }
        })
    }

    /// The driver says how a frame fared. Answers 4 on a passive channel.
    pub fn tx_confirmation(&mut self, good: bool) -> Reply {
        self.answer(Needs::ACTIVE, |channel, _| {
            if good && channel.state.in_network_mode() && !channel.disabled {
                channel.nm_timer = channel.times.timeout;
            }
        })
    }

    /// A PDU has come in. Answers 5 if it does not have L bytes; one that the
    /// filter drops is answered 0 and changes nothing.
    pub fn rx_indication(&mut self, pdu: &[u8]) -> Reply {
        let needs = Needs {
            length_fits: pdu.len() == self.config.pdu_len(),
            ..Needs::NOTHING
        };
        self.answer(needs, |channel, reply| {
            let fields = read_fields(&channel.config, pdu);
            let carries_requests = fields.cbv & PNI_BIT != 0;
            let wanted = if carries_requests {
                bits(fields.pn) & channel.mask_bits()
            } else {
                0
            };
            if channel.filter_on && !channel.config.all_keep_awake && wanted == 0 {
                return;
            }
            let reset = channel.times.pn_reset;
            load(&mut channel.era, wanted, reset);
            load(&mut channel.eira, wanted, reset);
            channel.hear(fields.cbv & REPEAT_BIT != 0, &mut reply.notes);
        })
    }

    /// The transceiver is ready for PN: the filter goes on. Answers 6 with PN
    /// off.
    pub fn confirm_pn_availability(&mut self) -> Reply {
        let needs = Needs {
            pn: true,
            ..Needs::NOTHING
        };
        self.answer(needs, |channel, _| channel.filter_on = true)
    }

    /// Replaces the user data to send. Answers 4 on a passive channel, then 5
    /// if the length is not the configured one.
    pub fn set_user_data(&mut self, bytes: &[u8]) -> Reply {
        let needs = Needs {
            length_fits: bytes.len() == self.config.user_range().len(),
            ..Needs::ACTIVE
        };
        self.answer(needs, |channel, _| {
            channel.user_data[..bytes.len()].copy_from_slice(bytes);
        })
    }

    /// Replaces the PN requests to send. Answers 4 on a passive channel, then 6
    /// with PN off, then 5 if the length is not the configured one.
    pub fn set_pn_requests(&mut self, bytes: &[u8]) -> Reply {
        let needs = Needs {
            pn: true,
            length_fits: bytes.len() == self.config.pn_range().len(),
            ..Needs::ACTIVE
        };
        self.answer(needs, |channel, _| {
            channel.pn_requests[..bytes.len()].copy_from_slice(bytes);
        })
    }

    /// State, both vectors, and number and lowest of the PNCs in EIRA.
    pub fn status(&self) -> Status {
        let vectors = self.vectors();
        if let Some(answer) = self.refusal(&Needs::NOTHING, vectors) {
            return Status {
                answer,
                state: 0,
                era: [0; MAX_BYTES],
                eira: [0; MAX_BYTES],
                count: 0,
                lowest: PncNumber(0),
            };
        }
        let Vectors { era, eira } = vectors;
        let lowest_bit = BitIndex(u64::from(eira.trailing_zeros()));
        Status {
            answer: DONE,
            state: self.state.number(),
            era: era.to_le_bytes(),
            eira: eira.to_le_bytes(),
            count: eira.count_ones(),
            lowest: lowest_bit
                .to_number(self.config.pn_start, self.config.pn_len)
                .unwrap_or(PncNumber(0)),
        }
    }

    /// One tick. `taken` says beforehand whether the driver would take a frame;
    /// if one is due and taken, it fills the first L bytes of `frame`. Answers
    /// 5 if the buffer is shorter than L, whether or not a frame is due.
    pub fn main_function(&mut self, taken: bool, frame: &mut [u8]) -> Reply {
        let needs = Needs {
            length_fits: frame.len() >= self.config.pdu_len(),
            ..Needs::NOTHING
        };
        self.answer(needs, |channel, reply| {
            // A timer of a state that is entered in this tick waits for the
            // next one.
            let at_start = channel.state;
            channel.count_nm_timer(at_start, &mut reply.notes);
            channel.count_wait_timer(at_start, &mut reply.notes);
            channel.count_repeat_timer(at_start);
            channel.count_remote_timer(at_start, &mut reply.notes);
            channel.count_pn_timers();
            reply.frame = channel.count_message_timer(taken, frame);
        })
    }

    /// Carries the call out unless it is refused; a change of a vector is noted
    /// after all that the call itself notes.
    fn answer(&mut self, needs: Needs, act: impl FnOnce(&mut Channel, &mut Reply)) -> Reply {
        let before = self.vectors();
        if let Some(answer) = self.refusal(&needs, before) {
            return Reply::refused(answer);
        }
        let mut reply = Reply::QUIET;
        act(self, &mut reply);
        self.note_vectors(before, &mut reply.notes);
        reply
    }

    /// The first answer that refuses a call with these needs; `vectors` are
    /// those of this channel. Answer 2 is not among them: no configuration
    /// comes in.
    fn refusal(&self, needs: &Needs, vectors: Vectors) -> Option<u8> {
        if !self.is_sound_with(vectors) {
            Some(NOT_SOUND)
        } else if needs.active && self.config.passive {
            Some(PASSIVE)
        } else if needs.pn && !self.config.pn_on {
            Some(PN_OFF)
        } else if !needs.state_fits {
            Some(WRONG_STATE)
        } else if !needs.length_fits {
            Some(WRONG_LENGTH)
        } else {
            None
        }
    }

    /// From Bus-Sleep or Prepare.
    fn enter_network_mode(&mut self, notes: &mut Notes) {
        self.wait_timer = 0;
        self.nm_timer = self.times.timeout;
        self.enter_repeat(notes);
        notes.raise(Note::NM);
    }

    /// From any other state, without fast frames.
    fn enter_repeat(&mut self, notes: &mut Notes) {
        self.state = State::RepeatMessage;
        self.repeat_timer = self.times.repeat;
        self.fast_count = 0;
        if !self.config.passive {
            self.message_timer = self.times.offset.max(1);
        }
        self.remote_timer = 0;
        self.cancel_indication(notes);
    }

    /// In Repeat, just entered by a network or repeat request: the first of the
    /// fast frames, if any, is due in the next tick, whatever the offset.
    fn begin_fast_frames(&mut self) {
        if self.config.fast_count > 0 {
            self.fast_count = self.config.fast_count;
            self.message_timer = 1;
        }
    }

    /// From Repeat, whose message timer goes on, or from Ready.
    fn enter_normal(&mut self) {
        self.state = State::NormalOperation;
        if !self.indicated {
            self.remote_timer = self.times.remote;
        }
    }

    /// From Repeat or Normal; an indication stays.
    fn enter_ready(&mut self) {
        self.state = State::ReadySleep;
        self.message_timer = 0;
        self.remote_timer = 0;
    }

    fn cancel_indication(&mut self, notes: &mut Notes) {
        if self.indicated {
            self.indicated = false;
            notes.raise(Note::RC);
        }
    }

    /// What an accepted PDU does to the state.
    fn hear(&mut self, repeat_asked: bool, notes: &mut Notes) {
        match self.state {
            State::BusSleep => notes.raise(Note::ST),
            State::PrepareBusSleep => self.enter_network_mode(notes),
            State::RepeatMessage | State::NormalOperation | State::ReadySleep => {
                if !self.disabled {
                    self.nm_timer = self.times.timeout;
                }
                if self.in_normal_or_ready() {
                    self.cancel_indication(notes);
                    if self.state == State::NormalOperation {
                        self.remote_timer = self.times.remote;
                    }
                    if repeat_asked {
                        self.enter_repeat(notes);
                    }
                }
            }
        }
    }

    /// Step a: silence. Ready gives up; Repeat and Normal start over.
    fn count_nm_timer(&mut self, at_start: State, notes: &mut Notes) {
        if self.disabled || !at_start.in_network_mode() {
            return;
        }
        self.nm_timer -= 1;
        if self.nm_timer > 0 {
            return;
        }
        if at_start == State::ReadySleep {
            self.state = State::PrepareBusSleep;
            self.wait_timer = self.times.wait;
            notes.raise(Note::PB);
            self.indicated = false;
            self.active_wakeup_bit = false;
        } else {
            self.nm_timer = self.times.timeout;
            notes.raise(Note::TO);
        }
    }

    /// Step b: the end of Prepare.
    fn count_wait_timer(&mut self, at_start: State, notes: &mut Notes) {
        if at_start != State::PrepareBusSleep {
            return;
        }
        self.wait_timer -= 1;
        if self.wait_timer == 0 {
            self.state = State::BusSleep;
            notes.raise(Note::BS);
        }
    }

    /// Step c: the end of Repeat, which comes with sending disabled too.
    fn count_repeat_timer(&mut self, at_start: State) {
        if at_start != State::RepeatMessage {
            return;
        }
        self.repeat_timer -= 1;
        if self.repeat_timer > 0 {
            return;
        }
        self.repeat_bit = false;
        self.fast_count = 0;
        if self.requested {
            self.enter_normal();
        } else {
            self.enter_ready();
        }
    }

    /// Step d: nobody else was heard for the remote time.
    fn count_remote_timer(&mut self, at_start: State, notes: &mut Notes) {
        if at_start != State::NormalOperation || self.disabled || self.remote_timer == 0 {
            return;
        }
        self.remote_timer -= 1;
        if self.remote_timer == 0 {
            self.indicated = true;
            notes.raise(Note::RI);
        }
    }

    /// Step e, in every state.
    fn count_pn_timers(&mut self) {
        for timer in &mut self.era {
            *timer = timer.saturating_sub(1);
        }
        for timer in &mut self.eira {
            *timer = timer.saturating_sub(1);
        }
    }

    /// Step f, by the state that the other steps have left: whether a frame was
    /// sent.
    fn count_message_timer(&mut self, taken: bool, frame: &mut [u8]) -> bool {
        if !self.in_sending_state() || self.disabled {
            return false;
        }
        self.message_timer -= 1;
        if self.message_timer > 0 {
            return false;
        }
        if !taken {
            self.message_timer = if self.fast_count > 0 {
                1
            } else {
                self.times.cycle
            };
            return false;
        }
        self.write_frame(frame);
        let sent = bits(&self.pn_requests[..self.config.pn_range().len()]);
        let wanted = sent & self.mask_bits();
        load(&mut self.eira, wanted, self.times.pn_reset);
        self.fast_count = self.fast_count.saturating_sub(1);
        self.message_timer = if self.fast_count > 0 {
            self.times.fast_cycle
        } else {
            self.times.cycle
        };
        true
    }

    fn write_frame(&self, frame: &mut [u8]) {
        let cfg = &self.config;
        let bit = |on: bool, bit: u8| if on { bit } else { 0 };
        let fields = Fields {
            // Rule 2 keeps the id within a byte.
            sni: cfg.node_id as u8,
            cbv: bit(self.repeat_bit, REPEAT_BIT)
                | bit(self.active_wakeup_bit, ACTIVE_WAKEUP_BIT)
                | bit(cfg.pn_on, PNI_BIT),
            pn: &self.pn_requests[..cfg.pn_range().len()],
            user: &self.user_data[..cfg.user_range().len()],
        };
        write_fields(cfg, &fields, frame);
    }

    /// EI and ER for the vectors that are not as they were before the call.
    fn note_vectors(&self, before: Vectors, notes: &mut Notes) {
        let after = self.vectors();
        if after.eira != before.eira {
            notes.raise(Note::EI);
        }
        if after.era != before.era {
            notes.raise(Note::ER);
        }
    }

    fn vectors(&self) -> Vectors {
        Vectors {
            era: running(&self.era),
            eira: running(&self.eira),
        }
    }

    /// The N bytes of the mask; none with PN off.
    fn mask_bits(&self) -> u64 {
        bits(&self.config.mask[..self.config.pn_range().len()])
    }

    /// Whether the message timer runs: Repeat and Normal of an active channel.
    fn in_sending_state(&self) -> bool {
        !self.config.passive && matches!(self.state, State::RepeatMessage | State::NormalOperation)
    }

    fn in_normal_or_ready(&self) -> bool {
        matches!(self.state, State::NormalOperation | State::ReadySleep)
    }
}

/// Whether a timer is 1 to `limit` while it runs, else 0.
fn timer_fits(timer: u64, runs: bool, limit: u64) -> bool {
    if runs {
        (1..=limit).contains(&timer)
    } else {
        timer == 0
    }
}

/// A vector of at most 8 bytes as a number, bit k of one being bit k of the
/// other.
fn bits(bytes: &[u8]) -> u64 {
    bytes
        .iter()
        .rev()
        .fold(0, |number, byte| number << 8 | u64::from(*byte))
}

/// Starts the timers of the bits wanted.
fn load(timers: &mut [u16; PN_BITS], mut wanted: u64, reset: u64) {
    while wanted != 0 {
        // Rule 2 keeps P within 16 bits.
        timers[wanted.trailing_zeros() as usize] = reset as u16;
        wanted &= wanted - 1;
    }
}

/// The vector of the timers that are not 0.
fn running(timers: &[u16; PN_BITS]) -> u64 {
    let flags = timers.map(|timer| u8::from(timer != 0));
    let mut vector = 0;
    for eight in flags.rchunks_exact(8) {
        let mut bytes = [0; 8];
        bytes.copy_from_slice(eight);
        // The product has the flag of timer k at bit 56 + k: 8 k of its own
        // place and 56 - 7 k of the factor's bit. No other sum of a place and
        // a bit comes to the same, so that nothing is carried.
        let gathered = u64::from_le_bytes(bytes).wrapping_mul(0x0102_0408_1020_4080);
        vector = vector << 8 | gathered >> 56;
    }
    vector
}
