//! A trace that arrives in blocks, cut anywhere (paper 02, order 1).
//!
//! The unfinished line is carried along, so that what is printed is what the
//! whole text prints at once, wherever the cuts fall.

use crate::answer::{DONE, WRONG_LENGTH};
use crate::trace::{Lines, Trace};

/// The most bytes of a block.
pub const MAX_BLOCK: usize = 512;

/// The most lines of a text, an unfinished last one that has a byte included.
pub const MAX_LINES: u64 = 18_446_744_073_709_551_615;

/// A trace being fed. How the text so far was cut does not show in it: feeds of
/// one text are equal.
#[derive(Clone, Debug, Default, PartialEq, Eq)]
pub struct Feed {
    trace: Trace,
    carry: Lines,
    /// Counted here and not by the trace, which stops counting when the run
    /// has ended. With an unfinished line at most `MAX_LINES`.
    finished: u64,
}

impl Feed {
    /// Before the first block.
    pub fn new() -> Feed {
        Feed::default()
    }

    /// Takes the next block and appends what its finished lines print to `out`:
    /// answer 0. Answer 5 if it has over `MAX_BLOCK` bytes or would bring the
    /// text past `MAX_LINES` lines; then nothing changes, and another block may
    /// come in its place.
    pub fn block(&mut self, block: &[u8], out: &mut Vec<u8>) -> u8 {
        if block.len() > MAX_BLOCK {
            return WRONG_LENGTH;
        }
        let finished = block.iter().filter(|byte| **byte == b'\n').count() as u64;
        let unfinished = match block.last() {
            Some(last) => *last != b'\n',
            None => self.carry.is_unfinished(),
        };
        if finished + u64::from(unfinished) > MAX_LINES - self.finished {
            return WRONG_LENGTH;
        }
        self.finished += finished;
        let mut rest = block;
        while let Some(line) = self.carry.next(&mut rest) {
            self.trace.line(line, out);
        }
        DONE
    }

    /// The input is over: finishes the unfinished line, if it has a byte, and
    /// appends to `out` what that line and the end of the text print. Blocks
    /// after the end print nothing.
    pub fn end(&mut self, out: &mut Vec<u8>) {
        if let Some(line) = self.carry.last() {
            self.finished += 1;
            self.trace.line(line, out);
        }
        self.trace.end(out);
    }

    /// How many lines are finished so far, those after the end of the run
    /// included.
    pub fn lines(&self) -> u64 {
        self.finished
    }

    /// For tests: goes on as if so many lines were finished so far. The next
    /// line has the number after that, except that line 1 stays line 1.
    ///
    /// # Panics
    ///
    /// If an unfinished line is carried and `lines` leaves no number for it.
    pub fn set_lines(&mut self, lines: u64) {
        assert!(
            u64::from(self.carry.is_unfinished()) <= MAX_LINES - lines,
            "no number for the unfinished line"
        );
        self.trace.set_lines(lines);
        self.finished = lines;
    }
}
