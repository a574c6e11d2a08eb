//! What the inputs were and what was answered, counted: a run that never reaches a case shows nothing
//! about it.

macro_rules! kinds {
    ($($name:ident $text:literal)*) => {
        /// A case that a run has to reach.
        #[derive(Clone, Copy, Debug, PartialEq, Eq)]
        pub enum Kind { $($name),* }

        /// The words of each case, in the order of `Kind`.
        const TEXTS: &[&str] = &[$($text),*];
    };
}

kinds! {
    TicksDone "ticks: answer 0"
    TicksWhole "ticks: answer 0, a whole number of periods"
    TicksBegun "ticks: answer 0, the last period only begun"
    TicksRule1 "ticks: answer 2, rule 1"
    TicksRule2 "ticks: answer 2, rule 2"

    FilterKept "filter: kept, for a PN bit in the mask"
    FilterAwake "filter: kept, only since all messages are"
    FilterNoPni "filter: dropped, PNI 0 and a PN bit in the mask"
    FilterNoBit "filter: dropped, PNI 1 and no PN bit in the mask"
    FilterNeither "filter: dropped, PNI 0 and no PN bit in the mask"
    FilterWideCbv "filter: answer 0, a CBV above 255"
    FilterLength "filter: answer 5"

    HeaderDone "header: answer 0"
    HeaderRule6 "header: answer 2, rule 6"
    HeaderRule7 "header: answer 2, rule 7"
    HeaderShort "header: answer 5, too few bytes"
    HeaderLong "header: answer 5, too many bytes"

    ConfigPasses "configuration: passes, PN off"
    ConfigPassesPn "configuration: passes, PN on"
    ConfigRule1 "configuration: rule 1"
    ConfigRule2 "configuration: rule 2"
    ConfigRule3 "configuration: rule 3"
    ConfigRule4 "configuration: rule 4"
    ConfigRule5 "configuration: rule 5"
    ConfigRule6 "configuration: rule 6"
    ConfigRule7 "configuration: rule 7"
    ConfigRule8 "configuration: rule 8, PN off"
    ConfigRule8Pn "configuration: rule 8, PN on"
    ConfigHuge "configuration: a number above 32 bits"

    ComposeDone "compose: answer 0"
    ComposeRoom "compose: answer 0, a frame buffer longer than L"
    ComposeRule "compose: answer 2"
    ComposePn "compose: answer 5, PN bytes of another length"
    ComposeUser "compose: answer 5, user data of another length"
    ComposeFrame "compose: answer 5, a frame buffer shorter than L"

    ReadDone "read: answer 0"
    ReadRule "read: answer 2"
    ReadShort "read: answer 5, too few bytes"
    ReadLong "read: answer 5, too many bytes"
    ReadPn "read: answer 5, a PN buffer of another length"
    ReadUser "read: answer 5, a user buffer of another length"

    BackToFields "round trip: fields, frame, fields"
    BackToPdu "round trip: PDU, fields, PDU"

    LayoutPnOff "layout: PN off"
    LayoutPnFirst "layout: PN bytes before user data"
    LayoutPnLast "layout: PN bytes after user data"
    LayoutPnOnly "layout: PN bytes and no user data"
    LayoutHeaderOnly "layout: L = H"
    LayoutNoHeader "layout: no header"
    LayoutSniOnly "layout: SNI alone"
    LayoutCbvOnly "layout: CBV alone"
    LayoutSniFirst "layout: SNI, then CBV"
    LayoutCbvFirst "layout: CBV, then SNI"

    NumberInside "PNC number of a bit: inside"
    NumberOutside "PNC number of a bit: outside"
    BitInside "bit of a PNC number: inside"
    BitBefore "bit of a PNC number: before the range"
    BitBehind "bit of a PNC number: behind the range"
}

/// How often each case was reached.
pub struct Seen {
    counts: [u64; TEXTS.len()],
}

impl Seen {
    pub fn new() -> Self {
        Seen {
            counts: [0; TEXTS.len()],
        }
    }

    pub fn add(&mut self, kind: Kind) {
        self.counts[kind as usize] += 1;
    }

    pub fn add_if(&mut self, holds: bool, kind: Kind) {
        if holds {
            self.add(kind);
        }
    }

    /// Prints every count.
    pub fn print(&self) {
        for (text, count) in TEXTS.iter().zip(self.counts) {
            println!("  {count:>9}  {text}");
        }
    }

    /// The cases that were never reached.
    pub fn missing(&self) -> Vec<&'static str> {
        let pairs = TEXTS.iter().zip(self.counts);
        pairs
            .filter(|(_, count)| *count == 0)
            .map(|(text, _)| *text)
            .collect()
    }
}
