//! What a call answers: a value (answer 0) or one numbered refusal.

/// Answer 0: the call was carried out.
pub const DONE: u8 = 0;
/// Answer 1: the state handed in is not sound.
pub const NOT_SOUND: u8 = 1;
/// Answer 2: the configuration breaks a rule.
pub const BROKEN_RULE: u8 = 2;
/// Answer 3: the call does not belong to the state the channel is in.
pub const WRONG_STATE: u8 = 3;
/// Answer 4: the call is not for a passive channel.
pub const PASSIVE: u8 = 4;
/// Answer 5: a byte string has the wrong length, a frame buffer is too short,
/// or a block of a trace is too long or brings too many lines.
pub const WRONG_LENGTH: u8 = 5;
/// Answer 6: the call needs PN, and PN is off.
pub const PN_OFF: u8 = 6;
/// Answer 7: a trace line that can't be read.
pub const UNREADABLE: u8 = 7;

/// Why a call was refused.
#[derive(Clone, Copy, Debug, PartialEq, Eq)]
pub enum Refusal {
    /// Answer 2: the configuration breaks rules, this being the first of them.
    Rule(u8),
    /// Answer 5: a byte string has the wrong length, or a frame buffer is too
    /// short.
    Length,
}

impl Refusal {
    /// The number in the paper's table of answers.
    pub fn number(self) -> u8 {
        match self {
            Refusal::Rule(_) => BROKEN_RULE,
            Refusal::Length => WRONG_LENGTH,
        }
    }

    /// The broken rule that goes with answer 2; 0 with any other answer.
    pub fn rule(self) -> u8 {
        match self {
            Refusal::Rule(rule) => rule,
            Refusal::Length => 0,
        }
    }
}

/// The outcome of a call; `Ok` is answer 0.
pub type Answer<T> = Result<T, Refusal>;

/// The answer number and the rule number beside it, `(0, 0)` for `Ok`.
pub fn numbers<T>(answer: &Answer<T>) -> (u8, u8) {
    match answer {
        Ok(_) => (DONE, 0),
        Err(refusal) => (refusal.number(), refusal.rule()),
    }
}

#[cfg(test)]
mod tests {
    use super::*;

    #[test]
    fn numbers_follow_the_table() {
        assert_eq!(numbers(&Ok(())), (0, 0));
        assert_eq!(numbers::<()>(&Err(Refusal::Rule(7))), (2, 7));
        assert_eq!(numbers::<()>(&Err(Refusal::Length)), (5, 0));
    }
}
