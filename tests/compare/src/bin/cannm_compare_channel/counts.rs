//! How often each case was reached: a run that never reaches one shows nothing about it.

use crate::calls::{
    Input, CALLS, CALL_NAMES, CNF, DIS, ENA, PAS, PNA, PNR, REL, REQ, RMR, RX, STA, STATES, TICK,
    UD,
};
use cannm_reference::channel::{Channel, Note, Notes, State};
use cannm_reference::config::Config;
use cannm_reference::pdu::{read, PNI_BIT, REPEAT_BIT};

/// A list of cases with a number for each.
pub trait Cases: Copy {
    const TITLE: &'static str;
    const TEXTS: &'static [&'static str];
    fn place(self) -> usize;
}

macro_rules! cases {
    ($name:ident, $title:literal, { $($case:ident $text:literal)* }) => {
        #[derive(Clone, Copy, Debug, PartialEq, Eq)]
        pub enum $name { $($case),* }

        impl $crate::counts::Cases for $name {
            const TITLE: &'static str = $title;
            const TEXTS: &'static [&'static str] = &[$($text),*];

            fn place(self) -> usize {
                self as usize
            }
        }
    };
}
pub(crate) use cases;

cases! { Setting, "configurations, each with a list of calls", {
    Active "active"
    Passive "passive"
    PnOff "PN off"
    PnOn "PN on"
    PnFirst "PN on, PN bytes before user data"
    PnLast "PN on, PN bytes after user data"
    PnOnly "PN on, no user data"
    PnPassive "PN on, passive"
    KeepAwake "PN on, all messages keep awake"
    NoCbv "no CBV"
    RemoteOff "RS = 0"
    RemoteOn "RS above 0"
    FastOff "IN = 0"
    FastOn "IN above 0"
    FastSlow "IN above 0, IC above C"
    Offset "O above 0"
    Short "every time at most 12 ticks"
    Long "a time above 1,000 ticks"
}}

cases! { Step, "branches of the tick, answer 0", {
    ACounts "a: NM timer counts, above 0"
    ARestartRepeat "a: at 0 in Repeat, T again and TO"
    ARestartNormal "a: at 0 in Normal, T again and TO"
    AFalls "a: at 0 in Ready, to Prepare"
    AFallsIndicated "a: the same, an indication cleared"
    AFallsWakeup "a: the same, active-wakeup cleared"
    ADisabled "a: disabled, stands still"
    AOutside "a: outside Network Mode"
    BCounts "b: wait timer counts, above 0"
    BSleeps "b: at 0, to Bus-Sleep"
    CCounts "c: repeat timer counts, above 0"
    CNormal "c: at 0, requested, to Normal"
    CReady "c: at 0, not requested, to Ready"
    CDisabled "c: at 0, sending disabled"
    CBit "c: at 0, repeat bit cleared"
    CFast "c: at 0, fast count cleared"
    CTimeout "c: at 0, TO in the same tick"
    CWatches "c: at 0, to Normal, remote timer loaded and not counted"
    DCounts "d: remote timer counts, above 0"
    DIndicates "d: at 0, indicated and RI"
    DTimeout "d: the same, TO in the same tick"
    DDisabled "d: disabled, stands still"
    DIndicated "d: not running, indicated"
    DOff "d: not running, RS = 0"
    EEraCounts "e: an ERA timer counts, above 0"
    EEiraCounts "e: an EIRA timer counts, above 0"
    EEra "e: a bit of ERA falls"
    EEira "e: a bit of EIRA falls"
    EReloaded "e: an EIRA timer at 0 is loaded by the frame of the same tick"
    FCounts "f: message timer counts, above 0"
    FTaken "f: due and taken"
    FNotTaken "f: due and not taken"
    FFastTaken "f: fast frame taken, fast frames left"
    FFastLast "f: fast frame taken, the last one"
    FFastNotTaken "f: fast frame not taken"
    FEntersNormal "f: due in the tick that reaches Normal"
    FLoads "f: a sent PN bit loads its EIRA timer"
    FEqual "f: sent, frame buffer of L bytes"
    FLonger "f: sent, frame buffer longer than L"
    FDisabled "f: not counting, disabled"
    FPassive "f: not counting, passive in Repeat"
    FReady "f: not counting, Ready reached in this tick"
    FElsewhere "f: not counting, outside Repeat and Normal"
}}

cases! { Act, "branches of the other calls, answer 0", {
    RequestWakes "request: Network Mode, IN = 0"
    RequestWakesFast "request: Network Mode, IN above 0"
    RequestReady "request: Ready to Normal, remote timer loaded"
    RequestIndicated "request: Ready to Normal, indicated"
    RequestRemoteOff "request: Ready to Normal, RS = 0"
    RequestAgain "request: requested already"
    ReleaseNormal "release: Normal to Ready"
    ReleaseIndicated "release: Normal to Ready, indicated"
    ReleaseRepeat "release: in Repeat, requested"
    RepeatNormal "repeat request: from Normal, IN = 0"
    RepeatNormalFast "repeat request: from Normal, IN above 0"
    RepeatReady "repeat request: from Ready, IN = 0"
    RepeatReadyFast "repeat request: from Ready, IN above 0"
    RepeatDisabledFast "repeat request: sending disabled, IN above 0"
    RepeatCancels "repeat request: an indication is taken back"
    Disables "disable: sending was enabled"
    DisablesAgain "disable: disabled already"
    EnablesRepeat "enable: in Repeat"
    EnablesNormal "enable: in Normal"
    EnablesReady "enable: in Ready"
    EnablesAgain "enable: enabled already"
    ConfirmsGood "confirmation: good, in Network Mode, enabled"
    ConfirmsDisabled "confirmation: good, in Network Mode, disabled"
    ConfirmsBad "confirmation: bad, in Network Mode"
    ConfirmsOutside "confirmation: outside Network Mode"
    HearsDropped "PDU: dropped by the filter"
    HearsDroppedPni "PDU: dropped by the filter, PNI 0 and a PN bit in the mask"
    HearsMask "PDU: the filter on, a PN bit in the mask"
    HearsAwake "PDU: the filter on, only since all messages keep awake"
    HearsLoads "PDU: loads a PN timer"
    HearsNoPni "PDU: PNI 0, a PN bit in the mask"
    HearsNoCbv "PDU: no CBV"
    HearsSleeping "PDU: in Bus-Sleep"
    HearsWakes "PDU: in Prepare, enters Network Mode"
    HearsRepeat "PDU: in Repeat"
    HearsRepeatBit "PDU: in Repeat, CBV bit 0"
    HearsNormal "PDU: in Normal, reloads the remote timer"
    HearsDisabled "PDU: in Network Mode, disabled"
    HearsCancelsNormal "PDU: in Normal, indication taken back"
    HearsCancelsReady "PDU: in Ready, indication taken back"
    HearsAskedNormal "PDU: CBV bit 0 in Normal"
    HearsAskedReady "PDU: CBV bit 0 in Ready"
    HearsAskedFast "PDU: CBV bit 0 in Normal or Ready, IN above 0"
    HearsAskedCancels "PDU: CBV bit 0, indication taken back"
    FilterOn "confirm-PN: the filter was off"
    FilterAgain "confirm-PN: the filter is on already"
    UserNone "set user data: none to set"
    UserSome "set user data: some bytes, fewer than 8"
    UserAll "set user data: 8 bytes"
    PnRequests "set PN requests"
    StatusNone "status: no PNC in EIRA"
    StatusSome "status: PNCs in EIRA"
    StatusEra "status: ERA and EIRA differ"
}}

cases! { Row, "refusals, by the table of answers", {
    StartUp "3: passive start-up in Network Mode"
    RepeatRequest "3: repeat request outside Normal and Ready"
    Disable "3: disable outside Network Mode"
    Enable "3: enable outside Network Mode"
    PassiveRequest "4: request on a passive channel"
    PassiveRelease "4: release"
    PassiveRepeat "4: repeat request"
    PassiveDisable "4: disable"
    PassiveEnable "4: enable"
    PassiveConfirmation "4: confirmation"
    PassiveUser "4: set user data"
    PassivePn "4: set PN requests"
    PduShort "5: a PDU too short"
    PduLong "5: a PDU too long"
    UserShort "5: user data too short"
    UserLong "5: user data too long"
    PnShort "5: PN requests too short"
    PnLong "5: PN requests too long"
    FrameShort "5: a frame buffer shorter than L, a frame due"
    FrameShortIdle "5: a frame buffer shorter than L, no frame due"
    OffConfirm "6: confirm-PN with PN off"
    OffPn "6: set PN requests with PN off"
    PassiveOverOff "4 before 6: set PN requests"
    PassiveOverState "4 before 3: repeat request, disable, enable"
    PassiveOverLength "4 before 5: set user data, set PN requests"
    OffOverLength "6 before 5: set PN requests"
}}

cases! { Over, "answer 1 where the sound channel gives", {
    Done "0"
    State "3"
    Passive "4"
    Length "5"
    PnOff "6"
}}

cases! { Found, "other checks", {
    Shown "after a call the channel is in the state that the book shows"
    Due "a tick in which the book has Bus-Sleep due, and it is entered"
    Made "sound states made at random, a call on each"
    Longest "ticks with times of 65,535 ticks"
}}

/// How often each of some cases was reached.
pub struct Tally {
    title: String,
    texts: Vec<String>,
    counts: Vec<u64>,
}

impl Tally {
    pub fn new(title: &str, texts: impl IntoIterator<Item = impl Into<String>>) -> Tally {
        let texts: Vec<String> = texts.into_iter().map(Into::into).collect();
        Tally {
            title: title.to_string(),
            counts: vec![0; texts.len()],
            texts,
        }
    }

    pub fn of<C: Cases>() -> Tally {
        Tally::new(C::TITLE, C::TEXTS.iter().copied())
    }

    pub fn add(&mut self, place: usize) {
        self.counts[place] += 1;
    }

    pub fn of_place(&self, place: usize) -> u64 {
        self.counts[place]
    }

    fn print(&self) {
        println!("{}:", self.title);
        for (text, count) in self.texts.iter().zip(&self.counts) {
            println!("  {count:>9}  {text}");
        }
    }

    fn missing(&self, least: u64) -> Vec<String> {
        let few = |(text, count): (&String, &u64)| {
            (*count < least).then(|| format!("{}: {text}: {count}", self.title))
        };
        self.texts
            .iter()
            .zip(&self.counts)
            .filter_map(few)
            .collect()
    }
}

/// All that is counted.
pub struct Counts {
    pub settings: Tally,
    pub answers: Tally,
    /// Answered 0; where the table never gives 0, answered 3.
    grid: [[u64; CALLS]; STATES],
    notes: Tally,
    steps: Tally,
    acts: Tally,
    rows: Tally,
    pub rules: Tally,
    /// Unsound states, by the way in which they were made so.
    pub broken: Tally,
    pub conditions: Tally,
    pub unsound_calls: Tally,
    over: Tally,
    found: Tally,
    /// Calls compared.
    pub calls: u64,
}

/// How often each way to break a condition has to be met.
pub const LEAST_BROKEN: u64 = 300;

/// The place of a note: 1 to 7 as the product numbers them, 8 for EI and 9 for ER.
pub fn note_number(note: Note) -> u8 {
    1 + Note::ALL.iter().position(|other| *other == note).unwrap() as u8
}

/// Whether the table never gives 0 for this call in this state.
fn never_done(state: State, call: usize) -> bool {
    use State::{NormalOperation, ReadySleep};
    match call {
        PAS => state.in_network_mode(),
        RMR => !matches!(state, NormalOperation | ReadySleep),
        DIS | ENA => !state.in_network_mode(),
        _ => false,
    }
}

impl Counts {
    pub fn new(ways: Tally, conditions: Tally) -> Counts {
        Counts {
            settings: Tally::of::<Setting>(),
            answers: Tally::new("answers", (0..7).map(|number| number.to_string())),
            grid: [[0; CALLS]; STATES],
            notes: Tally::new("notes", Note::ALL.map(|note| note.letters())),
            steps: Tally::of::<Step>(),
            acts: Tally::of::<Act>(),
            rows: Tally::of::<Row>(),
            rules: Tally::new(
                "initialising a configuration that breaks",
                (1..=8).map(|rule| format!("rule {rule}")),
            ),
            broken: ways,
            conditions,
            unsound_calls: Tally::new("answer 1, by call", CALL_NAMES),
            over: Tally::of::<Over>(),
            found: Tally::of::<Found>(),
            calls: 0,
        }
    }

    pub fn setting(&mut self, cfg: &Config, times: [u64; 8]) {
        use Setting::*;
        let counts = &mut self.settings;
        let mut add = |setting: Setting| counts.add(setting.place());
        add(if cfg.passive { Passive } else { Active });
        add(if cfg.pn_on { PnOn } else { PnOff });
        if cfg.pn_on {
            let (pn, user) = (cfg.pn_range(), cfg.user_range());
            add(match user.is_empty() {
                true => PnOnly,
                false if pn.start < user.start => PnFirst,
                false => PnLast,
            });
            if cfg.passive {
                add(PnPassive);
            }
            if cfg.all_keep_awake {
                add(KeepAwake);
            }
        }
        if !cfg.cbv.is_on() {
            add(NoCbv);
        }
        add(if cfg.remote == 0 { RemoteOff } else { RemoteOn });
        add(if cfg.fast_count == 0 { FastOff } else { FastOn });
        if cfg.fast_count > 0 && times[5] > times[3] {
            add(FastSlow);
        }
        if cfg.offset > 0 {
            add(Offset);
        }
        if times.iter().all(|ticks| *ticks <= 12) {
            add(Short);
        }
        if times.iter().any(|ticks| *ticks > 1_000) {
            add(Long);
        }
    }

    pub fn found(&mut self, found: Found) {
        self.found.add(found.place());
    }

    /// Counts a call of a list, by the channel before and after it.
    pub fn call(
        &mut self,
        before: &Channel,
        after: &Channel,
        input: &Input,
        answer: u8,
        notes: &Notes,
        sent: bool,
    ) {
        self.answers.add(answer.into());
        for note in notes.as_slice() {
            self.notes.add(usize::from(note_number(*note)) - 1);
        }
        let counted = if never_done(before.state, input.call) {
            3
        } else {
            0
        };
        if answer == counted {
            self.grid[usize::from(before.state.number())][input.call] += 1;
        }
        if answer != 0 {
            self.refusal(before, input, answer);
        } else if input.call == TICK {
            self.tick(before, after, input, sent);
        } else {
            self.act(before, after, input);
        }
    }

    fn tick(&mut self, before: &Channel, after: &Channel, input: &Input, sent: bool) {
        use State::{BusSleep, NormalOperation, PrepareBusSleep, ReadySleep, RepeatMessage};
        use Step::*;
        let counts = &mut self.steps;
        let mut add = |step: Step| counts.add(step.place());
        let state = before.state;
        let timeout = state != ReadySleep && before.nm_timer == 1 && !before.disabled;

        if !state.in_network_mode() {
            add(AOutside);
        } else if before.disabled {
            add(ADisabled);
        } else if before.nm_timer > 1 {
            add(ACounts);
        } else {
            add(match state {
                RepeatMessage => ARestartRepeat,
                NormalOperation => ARestartNormal,
                _ => AFalls,
            });
            if state == ReadySleep && before.indicated {
                add(AFallsIndicated);
            }
            if state == ReadySleep && before.active_wakeup_bit {
                add(AFallsWakeup);
            }
        }
        if state == PrepareBusSleep {
            add(if before.wait_timer > 1 {
                BCounts
            } else {
                BSleeps
            });
        }
        let leaves_repeat = state == RepeatMessage && before.repeat_timer == 1;
        if leaves_repeat {
            add(if before.requested { CNormal } else { CReady });
            for (holds, step) in [
                (before.disabled, CDisabled),
                (before.repeat_bit, CBit),
                (before.fast_count > 0, CFast),
                (timeout, CTimeout),
                (before.requested && before.times.remote > 0, CWatches),
            ] {
                if holds {
                    add(step);
                }
            }
        } else if state == RepeatMessage {
            add(CCounts);
        }
        if state == NormalOperation {
            if before.disabled {
                add(DDisabled);
            } else if before.remote_timer > 1 {
                add(DCounts);
            } else if before.remote_timer == 1 {
                add(DIndicates);
                if timeout {
                    add(DTimeout);
                }
            } else {
                add(if before.indicated { DIndicated } else { DOff });
            }
        }
        for (holds, step) in [
            (before.era.iter().any(|timer| *timer > 1), EEraCounts),
            (before.eira.iter().any(|timer| *timer > 1), EEiraCounts),
            (before.era.contains(&1), EEra),
        ] {
            if holds {
                add(step);
            }
        }
        let ended = |at_end: fn(u16) -> bool| {
            let mut pairs = before.eira.iter().zip(&after.eira);
            pairs.any(|(old, new)| *old == 1 && at_end(*new))
        };
        if ended(|new| new == 0) {
            add(EEira);
        }
        if ended(|new| new > 0) {
            add(EReloaded);
        }

        let now = after.state;
        if !matches!(now, RepeatMessage | NormalOperation) {
            add(FElsewhere);
            if now == ReadySleep && leaves_repeat && before.message_timer == 1 {
                add(FReady);
            }
            assert!(now == BusSleep || now == PrepareBusSleep || now == ReadySleep);
        } else if before.config.passive {
            add(FPassive);
        } else if before.disabled {
            add(FDisabled);
        } else if before.message_timer > 1 {
            add(FCounts);
        } else {
            let fast = if leaves_repeat { 0 } else { before.fast_count };
            add(if input.flag { FTaken } else { FNotTaken });
            match (input.flag, fast) {
                (_, 0) => {}
                (false, _) => add(FFastNotTaken),
                (true, 1) => add(FFastLast),
                (true, _) => add(FFastTaken),
            }
            if leaves_repeat {
                add(FEntersNormal);
            }
        }
        if sent {
            let longer = input.frame_len > before.config.pdu_len();
            add(if longer { FLonger } else { FEqual });
            let mut timers = before.eira.iter().zip(&after.eira);
            if timers.any(|(old, new)| *new > old.saturating_sub(1)) {
                add(FLoads);
            }
        }
    }

    fn act(&mut self, before: &Channel, after: &Channel, input: &Input) {
        use Act::*;
        use State::{BusSleep, NormalOperation, PrepareBusSleep, ReadySleep, RepeatMessage};
        let counts = &mut self.acts;
        let mut add = |act: Act| counts.add(act.place());
        let (cfg, state) = (&before.config, before.state);
        match input.call {
            REQ => match state {
                BusSleep | PrepareBusSleep if cfg.fast_count > 0 => add(RequestWakesFast),
                BusSleep | PrepareBusSleep => add(RequestWakes),
                ReadySleep if before.indicated => add(RequestIndicated),
                ReadySleep if before.times.remote == 0 => add(RequestRemoteOff),
                ReadySleep => add(RequestReady),
                RepeatMessage | NormalOperation if before.requested => add(RequestAgain),
                RepeatMessage | NormalOperation => {}
            },
            REL => match state {
                NormalOperation if before.indicated => add(ReleaseIndicated),
                NormalOperation => add(ReleaseNormal),
                RepeatMessage if before.requested => add(ReleaseRepeat),
                _ => {}
            },
            RMR => {
                let fast = cfg.fast_count > 0;
                add(match (state, fast) {
                    (NormalOperation, false) => RepeatNormal,
                    (NormalOperation, true) => RepeatNormalFast,
                    (_, false) => RepeatReady,
                    (_, true) => RepeatReadyFast,
                });
                if before.disabled && fast {
                    add(RepeatDisabledFast);
                }
                if before.indicated {
                    add(RepeatCancels);
                }
            }
            DIS if before.disabled => add(DisablesAgain),
            DIS => add(Disables),
            ENA => match state {
                _ if !before.disabled => add(EnablesAgain),
                RepeatMessage => add(EnablesRepeat),
                NormalOperation => add(EnablesNormal),
                _ => add(EnablesReady),
            },
            CNF => match (state.in_network_mode(), input.flag, before.disabled) {
                (false, _, _) => add(ConfirmsOutside),
                (true, false, _) => add(ConfirmsBad),
                (true, true, true) => add(ConfirmsDisabled),
                (true, true, false) => add(ConfirmsGood),
            },
            RX => self.pdu(before, after, input.bytes()),
            PNA if before.filter_on => add(FilterAgain),
            PNA => add(FilterOn),
            UD => add(match input.bytes().len() {
                0 => UserNone,
                8 => UserAll,
                _ => UserSome,
            }),
            PNR => add(PnRequests),
            STA => {
                let some = before.eira.iter().any(|timer| *timer > 0);
                add(if some { StatusSome } else { StatusNone });
                let mut timers = before.era.iter().zip(&before.eira);
                if timers.any(|(era, eira)| (*era > 0) != (*eira > 0)) {
                    add(StatusEra);
                }
            }
            _ => {}
        }
    }

    fn pdu(&mut self, before: &Channel, after: &Channel, pdu: &[u8]) {
        use Act::*;
        use State::{BusSleep, NormalOperation, PrepareBusSleep, ReadySleep, RepeatMessage};
        let counts = &mut self.acts;
        let mut add = |act: Act| counts.add(act.place());
        let (cfg, state) = (&before.config, before.state);
        let fields = read(cfg, pdu).expect("it was answered 0");
        let (pni, asked) = (fields.cbv & PNI_BIT != 0, fields.cbv & REPEAT_BIT != 0);
        let meets = fields
            .pn
            .iter()
            .zip(&cfg.mask)
            .any(|(pn, mask)| pn & mask != 0);
        if before.filter_on {
            if pni && meets {
                add(HearsMask);
            } else if cfg.all_keep_awake {
                add(HearsAwake);
            } else {
                add(if meets { HearsDroppedPni } else { HearsDropped });
                return;
            }
        }
        if after.era != before.era {
            add(HearsLoads);
        }
        if meets && !pni {
            add(HearsNoPni);
        }
        if !cfg.cbv.is_on() {
            add(HearsNoCbv);
        }
        if before.disabled {
            add(HearsDisabled);
        }
        let cancels = before.indicated;
        match state {
            BusSleep => add(HearsSleeping),
            PrepareBusSleep => add(HearsWakes),
            RepeatMessage => add(if asked { HearsRepeatBit } else { HearsRepeat }),
            NormalOperation if asked => add(HearsAskedNormal),
            NormalOperation if cancels => add(HearsCancelsNormal),
            NormalOperation => add(HearsNormal),
            ReadySleep if asked => add(HearsAskedReady),
            ReadySleep if cancels => add(HearsCancelsReady),
            ReadySleep => {}
        }
        if asked && cancels {
            add(HearsAskedCancels);
        }
        if asked && matches!(state, NormalOperation | ReadySleep) && cfg.fast_count > 0 {
            add(HearsAskedFast);
        }
    }

    fn refusal(&mut self, before: &Channel, input: &Input, answer: u8) {
        use Row::*;
        let counts = &mut self.rows;
        let mut add = |row: Row| counts.add(row.place());
        let cfg = &before.config;
        let (call, length) = (input.call, input.bytes().len());
        let wrong_length = match call {
            UD => length != cfg.user_range().len(),
            PNR => length != cfg.pn_range().len(),
            _ => false,
        };
        match (answer, call) {
            (3, PAS) => add(StartUp),
            (3, RMR) => add(RepeatRequest),
            (3, DIS) => add(Disable),
            (3, ENA) => add(Enable),
            (4, _) => {
                add(match call {
                    REQ => PassiveRequest,
                    REL => PassiveRelease,
                    RMR => PassiveRepeat,
                    DIS => PassiveDisable,
                    ENA => PassiveEnable,
                    CNF => PassiveConfirmation,
                    UD => PassiveUser,
                    _ => PassivePn,
                });
                if call == PNR && !cfg.pn_on {
                    add(PassiveOverOff);
                }
                if never_done(before.state, input.call) {
                    add(PassiveOverState);
                }
                if wrong_length {
                    add(PassiveOverLength);
                }
            }
            (5, RX) => add(if length < cfg.pdu_len() {
                PduShort
            } else {
                PduLong
            }),
            (5, UD) => {
                let short = length < cfg.user_range().len();
                add(if short { UserShort } else { UserLong });
            }
            (5, PNR) => {
                let short = length < cfg.pn_range().len();
                add(if short { PnShort } else { PnLong });
            }
            (5, _) => {
                let due = before.message_timer == 1 && !before.disabled;
                add(if due { FrameShort } else { FrameShortIdle });
            }
            (6, PNA) => add(OffConfirm),
            (6, _) => {
                add(OffPn);
                if wrong_length {
                    add(OffOverLength);
                }
            }
            _ => {}
        }
    }

    /// Counts a call on a state that is not sound, by the answer that the sound one gives.
    pub fn unsound(&mut self, call: usize, of_the_sound: u8) {
        self.answers.add(1);
        self.unsound_calls.add(call);
        self.over.add(match of_the_sound {
            0 => Over::Done.place(),
            3 => Over::State.place(),
            4 => Over::Passive.place(),
            5 => Over::Length.place(),
            _ => Over::PnOff.place(),
        });
    }

    fn tallies(&self) -> [(&Tally, u64); 12] {
        [
            (&self.settings, 1),
            (&self.answers, 1),
            (&self.notes, 1),
            (&self.steps, 1),
            (&self.acts, 1),
            (&self.rows, 1),
            (&self.rules, 1),
            (&self.broken, LEAST_BROKEN),
            (&self.conditions, LEAST_BROKEN),
            (&self.unsound_calls, 1),
            (&self.over, 1),
            (&self.found, 1),
        ]
    }

    pub fn print(&self) {
        for (tally, _) in self.tallies() {
            tally.print();
        }
        println!("state and call, answer 0 (* answer 3, where the table never gives 0):");
        print!("   ");
        for name in CALL_NAMES {
            print!("{name:>8}");
        }
        println!();
        for state in State::ALL {
            print!("  {}", state.letter());
            for (call, count) in self.grid[usize::from(state.number())].iter().enumerate() {
                let mark = if never_done(state, call) { "*" } else { "" };
                print!("{:>8}", format!("{count}{mark}"));
            }
            println!();
        }
    }

    /// What was reached too seldom.
    pub fn missing(&self) -> Vec<String> {
        let mut missing: Vec<String> = Vec::new();
        for (tally, least) in self.tallies() {
            missing.extend(tally.missing(least));
        }
        for (row, state) in self.grid.iter().zip(State::ALL) {
            for (count, name) in row.iter().zip(CALL_NAMES) {
                if *count == 0 {
                    missing.push(format!("state {}, call {name}", state.letter()));
                }
            }
        }
        missing
    }
}
