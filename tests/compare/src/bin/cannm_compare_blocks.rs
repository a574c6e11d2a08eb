//! Compares the proved crate `trace`, through `trace_host`, with the plain second implementation: wherever the
//! cuts fall, what is printed is what the whole text prints, and a block that is refused changes nothing.
//!
//! `cannm_compare_blocks [SEED]`, in the root of the repository or with the folder of the stored traces and of
//! their list in `CANNM_TRACE_CASES`; the same seed always gives the same inputs. Prints how often each case was
//! reached. Exit status 0: no difference, and every case reached; 1: otherwise, with the whole input of the
//! first difference; 2: a bad argument.

use cannm_compare::product::{self, AfterBlock, InBlocks, Page, Preset, PAGE};
use cannm_compare::seed_word;
use cannm_reference::answer::{DONE, WRONG_LENGTH};
use cannm_reference::feed::{Feed, MAX_BLOCK, MAX_LINES};
use cannm_reference::generate::hard_traces;
use cannm_reference::rng::Rng;
use cannm_reference::trace::{is_pn_line, run, MAX_LINE};
use std::path::{Path, PathBuf};
use std::process::ExitCode;
use std::{env, fs, io};

/// The folder of the stored traces, unless `FOLDER_NAME` names another, and their list in it.
const FOLDER: &str = "crates/trace_cases/data";
const FOLDER_NAME: &str = "CANNM_TRACE_CASES";
const LIST: &str = "names";

/// Random traces that are cut at every place.
const TRACES: usize = 500;
/// The bytes of most of them, and of the first `LONG_TRACES` that have so many: the work at every place grows with
/// the square.
const MOST_BYTES: usize = 700;
const LONG_BYTES: usize = 4_096;
const LONG_TRACES: usize = 4;
/// One in so many gets an overlong line 2.
const LONG_LINE_2: u64 = 8;
/// The longest blocks of the cuttings at random places.
const RANDOM_BLOCKS: [usize; 7] = [1, 3, 12, 81, 200, MAX_BLOCK, MAX_BLOCK];
/// Traces with blocks between that are too long, and the blocks of each that also print into a page.
const REFUSAL_TRACES: usize = 400;
const PAGES: usize = 6;
/// Lengths of blocks that are too long.
const OVERLONG: [usize; 8] = [513, 513, 513, 514, 600, 1_024, 5_000, 70_000];
/// The lines that are still to come to the limit, at most, and the texts before that of either kind.
const MOST_SPARE: u64 = 600;
const LIMIT_STARTS: usize = 64;
/// Traces whose run has ended before more blocks come.
const ENDED_TRACES: usize = 300;

/// Bytes behind the room that the output needs.
const BEHIND: usize = 64;
/// What the lent buffers hold before a call; nothing prints it and no answer has it.
const UNUSED: u8 = 0xEE;
/// The most bytes that are kept of an unfinished line.
const MOST_KEPT: usize = MAX_LINE + 1;
/// The last number that a line can have, as it is printed before a tab.
const LAST_NUMBER: &[u8] = b"18446744073709551615\t";

/// The limits of a block in the order's own numbers: its bytes, and the lines with it.
const ORDER_BYTES: usize = 512;
const ORDER_LINES: u128 = 18_446_744_073_709_551_615;

fn main() -> ExitCode {
    let Ok(seed) = seed_word("cannm_compare_blocks") else {
        return ExitCode::from(2);
    };
    println!("cannm_compare_blocks: seed {seed}");

    let parts: [(&str, Part); 5] = [
        ("stored traces", stored_traces),
        ("random traces", random_traces),
        ("blocks that are too long", overlong_blocks),
        ("the limit of the lines", limit_of_lines),
        ("blocks after the end of the run", after_the_run),
    ];
    let mut work = Work::new(&mut Rng::new(seed));
    for (at, (name, part)) in (1..).zip(parts) {
        // each part has its own numbers, whatever the others take
        let mut rng = Rng::new(seed ^ (at << 56));
        if let Err(difference) = part(&mut rng, &mut work) {
            println!("{difference}");
            println!("cannm_compare_blocks: FAILED: {name}, seed {seed}");
            return ExitCode::FAILURE;
        }
    }
    work.seen.print();
    let missing = work.seen.missing();
    if !missing.is_empty() {
        println!("cannm_compare_blocks: FAILED: never reached with seed {seed}: {missing:?}");
        return ExitCode::FAILURE;
    }
    println!(
        "cannm_compare_blocks: {} traces, {} cuttings, {} single blocks, no difference",
        work.traces, work.cuttings, work.pages
    );
    ExitCode::SUCCESS
}

/// Compares one part; `Err` tells the whole of the first difference.
type Part = fn(&mut Rng, &mut Work) -> Result<(), String>;

// ---- what was reached

macro_rules! kinds {
    ($($name:ident $text:literal)*) => {
        /// A case that a run has to reach.
        #[derive(Clone, Copy, Debug, PartialEq, Eq)]
        enum Kind { $($name),* }

        /// The words of each case, in the order of `Kind`.
        const TEXTS: &[&str] = &[$($text),*];
    };
}

kinds! {
    Stored "stored traces"

    CutAtStart "cut: before the first byte"
    CutAtEnd "cut: behind the last byte"
    CutBetween "cut: between two lines"
    CutAtFeed "cut: before a line feed"
    CutAtReturn "cut: between a carriage return and a line feed"
    CutInLine "cut: inside a line"
    CutInLine1 "cut: inside line 1"
    CutInLine2 "cut: inside line 2, no PN line"
    CutInPn "cut: inside line 2, a PN line"
    CutInName "cut: inside line 2, inside its name PN or behind it"
    CutInLast "cut: inside a last line without a line feed"
    CutInLong "cut: inside an overlong line, up to 80 bytes of it before"
    CutAtLimit "cut: inside an overlong line, 81 bytes of it before"
    CutBehindLimit "cut: inside an overlong line, more than 81 bytes of it before"
    CutInLongLine1 "cut: inside an overlong line 1"
    CutInLongPn "cut: inside an overlong line 2, a PN line"
    CutEnded "cut: after the end of the run"

    TextOneBlock "random trace: up to 512 bytes"
    TextBlocks "random trace: more than 512 bytes"
    TextLong "random trace: more than 4,000 bytes"
    TextFinished "random trace: a line feed last"
    TextUnfinished "random trace: no line feed last"
    TextLongLine "random trace: an overlong line"
    TextLongLast "random trace: an overlong last line without a line feed"
    TextBlockLine "random trace: a line of more than 512 bytes"
    TextLongPn "random trace: an overlong line 2, a PN line"
    TextLongCall "random trace: an overlong line 2, no PN line"
    TextRuns "random trace: the run goes on"
    TextRefused "random trace: the configuration is refused"
    TextLine1 "random trace: line 1 is unreadable"
    TextPn "random trace: the PN line is unreadable"

    BlockEmpty "block: empty"
    BlockEmptyInLine "block: empty, an unfinished line before"
    BlockFull "block: 512 bytes"
    BlockNoFeed "block: 512 bytes without a line feed"
    BlockOverlong "block: more than 512 bytes, refused"
    BlockSplit "block: more than 512 bytes, refused, and then the same bytes in two blocks"

    InputNone "empty input: no block"
    InputEmpty "empty input: empty blocks alone"

    KeptNone "at the end of the input: nothing kept"
    KeptSome "at the end of the input: up to 80 bytes kept"
    KeptMost "at the end of the input: 81 bytes kept"
    EndWaits "at the end of the input: the configuration waits for line 2, answer 0"
    EndWaitsRefused "at the end of the input: the configuration waits for line 2, answer 2"
    EndAlone "at the end of the input: the configuration alone, its line unfinished"
    EndLine2 "at the end of the input: line 2 unfinished, and line 1 printed with it"
    EndCounted "at the end of the input: an unfinished line that is only counted"

    PageTaken "page: a block that prints"
    PageQuiet "page: a taken block that prints nothing"
    Page513 "page: a block of 513 bytes, refused"
    PageOverlong "page: a longer block, refused"
    PageLines "page: a block with too many lines, refused"

    LimitBelow "limit: taken, below it"
    LimitExact "limit: taken at it, the last line finished"
    LimitExactOpen "limit: taken at it, the last line unfinished"
    LimitPast "limit: refused, one line more, the last line finished"
    LimitPastOpen "limit: refused, one line more, the last line unfinished"
    LimitFar "limit: refused, more than one line more"
    LimitContinued "limit: taken at it, an unfinished line before"
    LimitContinuedPast "limit: refused, one line more, an unfinished line before"
    LimitEmpty "limit: an empty block at it, an unfinished line before"
    LimitEndedExact "limit: taken at it, after the end of the run"
    LimitEndedPast "limit: refused, one line more, after the end of the run"
    LimitRefused "limit: at it or one line more, the configuration is refused"
    LimitLine1 "limit: at it or one line more, line 1 is unreadable"
    LimitPn "limit: at it or one line more, the PN line is unreadable"
    LimitPrinted "limit: the last number is printed"
    LimitSmaller "limit: refused for its lines, then a part of it, taken below the limit"
    LimitSmallerExact "limit: refused for its lines, then a part of it, taken at the limit"
    LimitSecondExact "limit: taken at it, from line 2 on"
    LimitSecondOpen "limit: taken at it, line 2 unfinished"
    LimitSecondPast "limit: refused, one line more, from line 2 on"
    LimitSecondNone "limit: no line left for line 2, line 1 printed at the end of the input"
    LimitSecondCall "limit: line 2 near it, a call"
    LimitSecondPn "limit: line 2 near it, a PN line that is right"
    LimitSecondRefused "limit: line 2 near it, the configuration is refused"
    LimitSecondBroken "limit: line 2 near it, a PN line that is unreadable"

    EndedRefused "after the run: the configuration is refused"
    EndedLine1 "after the run: line 1 is unreadable"
    EndedPn "after the run: the PN line is unreadable"
}

/// How often each case was reached.
struct Seen {
    counts: [u64; TEXTS.len()],
}

impl Seen {
    fn add(&mut self, kind: Kind) {
        self.counts[kind as usize] += 1;
    }

    fn add_if(&mut self, holds: bool, kind: Kind) {
        if holds {
            self.add(kind);
        }
    }

    /// Prints every count.
    fn print(&self) {
        for (text, count) in TEXTS.iter().zip(self.counts) {
            println!("  {count:>9}  {text}");
        }
    }

    /// The cases that were never reached.
    fn missing(&self) -> Vec<&'static str> {
        let pairs = TEXTS.iter().zip(self.counts);
        pairs
            .filter(|(_, count)| *count == 0)
            .map(|(text, _)| *text)
            .collect()
    }
}

// ---- texts

/// What the reference prints for a whole text.
fn output(text: &[u8]) -> Vec<u8> {
    let mut out = Vec::new();
    run(text, &mut out).expect("a text in memory can be read and printed");
    out
}

/// The line feeds of a text.
fn feeds_of(text: &[u8]) -> u64 {
    text.iter().filter(|byte| **byte == b'\n').count() as u64
}

/// The bytes that are kept of the unfinished line at the end of a text.
fn kept_of(text: &[u8]) -> u64 {
    let behind = text.rsplit(|byte| *byte == b'\n').next();
    behind.map_or(0, |line| line.len().min(MOST_KEPT)) as u64
}

/// The counts of a text none of whose blocks is refused: its finished lines, the bytes kept of the unfinished
/// one, and the lines after the end of the input.
fn counts_of(text: &[u8]) -> [u64; 3] {
    let (feeds, kept) = (feeds_of(text), kept_of(text));
    [feeds, kept, feeds + u64::from(kept > 0)]
}

/// The same counts of a run.
fn counts_in(run: InBlocks) -> [u64; 3] {
    [run.lines, run.kept, run.end_lines]
}

/// The answers to the blocks by the words of the order: 5 for one of too many bytes, or one that would bring the
/// lines, an unfinished one counted, past the limit. What is refused adds nothing.
fn answers_by_order(text: &[u8], ends: &[u64], preset: Preset) -> Vec<u8> {
    let (mut start, mut finished, mut is_open) = (0, 0, false);
    let mut answers = Vec::with_capacity(ends.len());
    for (number, end) in (0..).zip(ends) {
        if number == preset.before {
            finished = preset.lines.into();
        }
        let block = &text[start..*end as usize];
        start = *end as usize;
        let feeds = u128::from(feeds_of(block));
        let is_open_behind = block.last().map_or(is_open, |last| *last != b'\n');
        let lines = finished + feeds + u128::from(is_open_behind);
        if block.len() > ORDER_BYTES || lines > ORDER_LINES {
            answers.push(WRONG_LENGTH);
            continue;
        }
        answers.push(DONE);
        finished += feeds;
        is_open = is_open_behind;
    }
    answers
}

/// What a text prints, with the numbers that its lines have if the count was set behind so many of them.
fn renumbered(whole: &[u8], finished: u64, set: u64) -> Vec<u8> {
    let (finished, set) = (u128::from(finished), u128::from(set));
    let mut out = Vec::with_capacity(whole.len());
    for line in whole.split_inclusive(|byte| *byte == b'\n') {
        let tab = line.iter().position(|byte| *byte == b'\t');
        let (number, rest) = line.split_at(tab.expect("a printed line has a tab"));
        let digits = std::str::from_utf8(number).ok();
        let number: u128 = digits
            .and_then(|digits| digits.parse().ok())
            .expect("a printed line begins with a number");
        let number = if number > finished {
            set + (number - finished)
        } else {
            number
        };
        out.extend_from_slice(number.to_string().as_bytes());
        out.extend_from_slice(rest);
    }
    out
}

/// Why a run ends before its input.
#[derive(Clone, Copy, Debug, PartialEq, Eq)]
enum Ending {
    Refused,
    Line1,
    Pn,
}

impl Ending {
    /// By what the whole text prints: nothing but the one line that ends the run.
    fn of(whole: &[u8]) -> Option<Ending> {
        match whole {
            [b'1', b'\t', b'2', ..] => Some(Ending::Refused),
            [b'1', b'\t', b'7', ..] => Some(Ending::Line1),
            [b'2', b'\t', b'7', ..] => Some(Ending::Pn),
            _ => None,
        }
    }

    /// The line with which the run has ended.
    fn line(self) -> usize {
        match self {
            Ending::Line1 => 1,
            // the configuration is judged when line 2 is there
            Ending::Refused | Ending::Pn => 2,
        }
    }
}

/// Counts what is in a text, and where the cuts at its every place fall.
fn see_text(seen: &mut Seen, text: &[u8], whole: &[u8]) {
    use Kind::*;
    let ending = Ending::of(whole);
    let is_finished = text.last() == Some(&b'\n');
    seen.add(if text.len() > MAX_BLOCK {
        TextBlocks
    } else {
        TextOneBlock
    });
    seen.add_if(text.len() > 4_000, TextLong);
    seen.add(match ending {
        None => TextRuns,
        Some(Ending::Refused) => TextRefused,
        Some(Ending::Line1) => TextLine1,
        Some(Ending::Pn) => TextPn,
    });
    seen.add(if is_finished {
        TextFinished
    } else {
        TextUnfinished
    });
    seen.add(CutAtStart);
    seen.add(CutAtEnd);

    for (number, whole_line) in (1..).zip(text.split_inclusive(|byte| *byte == b'\n')) {
        let line = whole_line.strip_suffix(b"\n").unwrap_or(whole_line);
        let is_last = line.len() == whole_line.len();
        let is_long = line.len() > MAX_LINE;
        let is_pn = number == 2 && ending != Some(Ending::Line1) && is_pn_line(line);
        seen.add_if(is_long, TextLongLine);
        seen.add_if(is_long && is_last, TextLongLast);
        seen.add_if(line.len() > MAX_BLOCK, TextBlockLine);
        seen.add_if(is_long && is_pn, TextLongPn);
        seen.add_if(is_long && number == 2 && !is_pn, TextLongCall);
        // the cut before the first byte of a line, which is not the first
        seen.add_if(number > 1, CutBetween);
        for place in 1..whole_line.len() {
            seen.add(if place == line.len() {
                CutAtFeed
            } else {
                CutInLine
            });
            seen.add_if(is_last, CutInLast);
            match number {
                1 => seen.add(CutInLine1),
                2 if is_pn => seen.add(CutInPn),
                2 => seen.add(CutInLine2),
                _ => {}
            }
            seen.add_if(is_pn && place <= 2, CutInName);
            if is_long {
                seen.add(match place {
                    ..=MAX_LINE => CutInLong,
                    MOST_KEPT => CutAtLimit,
                    _ => CutBehindLimit,
                });
                seen.add_if(number == 1, CutInLongLine1);
                seen.add_if(is_pn, CutInLongPn);
            }
            seen.add_if(
                ending.is_some_and(|ending| number > ending.line()),
                CutEnded,
            );
        }
    }
}

// ---- one run on both

/// The reference's feed, and how much it keeps of its unfinished line.
#[derive(Default)]
struct Fed {
    feed: Feed,
    kept: usize,
}

impl Fed {
    fn take(&mut self, block: &[u8], out: &mut Vec<u8>) -> u8 {
        let answer = self.feed.block(block, out);
        if answer == DONE {
            let behind = match block.iter().rposition(|byte| *byte == b'\n') {
                Some(feed) => block.len() - 1 - feed,
                None => self.kept + block.len(),
            };
            self.kept = behind.min(MOST_KEPT);
        }
        answer
    }
}

/// Where the first differing byte is, and some bytes from there on.
fn first_difference(expected: &[u8], got: &[u8]) -> String {
    if expected == got {
        return "the same".to_string();
    }
    let mut pairs = expected.iter().zip(got);
    let shorter = expected.len().min(got.len());
    let at = pairs.position(|(a, b)| a != b).unwrap_or(shorter);
    let some = |bytes: &[u8]| {
        bytes[at..bytes.len().min(at + 80)]
            .escape_ascii()
            .to_string()
    };
    format!(
        "at byte {at}: expected \"{}\", got \"{}\"",
        some(expected),
        some(got)
    )
}

/// The counts, and the buffers that every run uses again.
struct Work {
    seen: Seen,
    traces: u64,
    cuttings: u64,
    pages: u64,
    /// Where the blocks of the text end.
    ends: Vec<u64>,
    /// What the reference answers and prints.
    wanted_answers: Vec<u8>,
    wanted: Vec<u8>,
    /// What is lent to the product.
    answers: Vec<u8>,
    out: Vec<u8>,
    page: Box<Page>,
    /// What the page holds before a call.
    before: Box<Page>,
}

impl Work {
    fn new(rng: &mut Rng) -> Work {
        let mut before = Box::new([0; PAGE]);
        rng.fill(&mut before[..]);
        Work {
            seen: Seen {
                counts: [0; TEXTS.len()],
            },
            traces: 0,
            cuttings: 0,
            pages: 0,
            ends: Vec::new(),
            wanted_answers: Vec::new(),
            wanted: Vec::new(),
            answers: Vec::new(),
            out: Vec::new(),
            page: before.clone(),
            before,
        }
    }

    /// The first blocks on the reference.
    fn feed(&mut self, text: &[u8], blocks: usize, preset: Preset) -> Fed {
        let mut fed = Fed::default();
        self.wanted.clear();
        self.wanted_answers.clear();
        let mut start = 0;
        for (number, end) in (0..).zip(&self.ends[..blocks]) {
            if number == preset.before {
                fed.feed.set_lines(preset.lines);
            }
            let block = &text[start..*end as usize];
            start = *end as usize;
            match block.len() {
                0 => {
                    self.seen.add(Kind::BlockEmpty);
                    self.seen.add_if(fed.kept > 0, Kind::BlockEmptyInLine);
                }
                MAX_BLOCK => {
                    self.seen.add(Kind::BlockFull);
                    self.seen.add_if(feeds_of(block) == 0, Kind::BlockNoFeed);
                }
                length => self.seen.add_if(length > MAX_BLOCK, Kind::BlockOverlong),
            }
            let answer = fed.take(block, &mut self.wanted);
            self.wanted_answers.push(answer);
        }
        fed
    }

    /// The text in the blocks of `ends`, on both; what the reference gives.
    fn compare(&mut self, text: &[u8], preset: Preset) -> Result<InBlocks, String> {
        self.cuttings += 1;
        let mut fed = self.feed(text, self.ends.len(), preset);
        self.seen.add(match fed.kept {
            0 => Kind::KeptNone,
            MOST_KEPT => Kind::KeptMost,
            _ => Kind::KeptSome,
        });
        let lines = fed.feed.lines();
        let in_blocks = self.wanted.len();
        fed.feed.end(&mut self.wanted);
        let (wanted, wanted_end) = self.wanted.split_at(in_blocks);
        let end_at = wanted_end.len();
        let expected = InBlocks {
            printed: in_blocks as u64,
            lines,
            kept: fed.kept as u64,
            end_at: end_at as u64,
            end_lines: fed.feed.lines(),
        };

        // nothing of an earlier run may be left in them
        self.answers.clear();
        self.answers.resize(self.ends.len(), UNUSED);
        self.out.clear();
        self.out.resize(in_blocks + BEHIND, UNUSED);
        self.page.copy_from_slice(&self.before[..]);
        let (answers, out, page) = (&mut self.answers, &mut self.out, &mut self.page);
        let got = product::trace_in_blocks(text, &self.ends, preset, answers, out, page);
        let (printed, behind) = self.out.split_at(in_blocks);
        let (end, unused) = self.page.split_at(end_at);
        if expected != got
            || self.wanted_answers != self.answers
            || wanted != printed
            || behind != [UNUSED; BEHIND]
            || wanted_end != end
            || unused != &self.before[end_at..]
        {
            let what = format!(
                "expected {expected:?}\n  got      {got:?}\n  answers  {}\n  printed  {}\n  behind   {}\n  end      {}\n  behind   {}",
                first_difference(&self.wanted_answers, &self.answers),
                first_difference(wanted, printed),
                first_difference(&[UNUSED; BEHIND], behind),
                first_difference(wanted_end, end),
                first_difference(&self.before[end_at..], unused),
            );
            return Err(self.told("test_trace_in_blocks", text, preset, &what));
        }
        let by_order = answers_by_order(text, &self.ends, preset);
        if self.answers != by_order {
            let what = format!("answers  {}", first_difference(&by_order, &self.answers));
            return Err(self.told("not the answers of the order", text, preset, &what));
        }
        Ok(expected)
    }

    /// A text of which no block is refused: whatever the blocks are, the whole text's output, and the counts of
    /// the whole text.
    fn cutting(&mut self, text: &[u8], whole: &[u8]) -> Result<(), String> {
        let run = self.compare(text, Preset::NEVER)?;
        let (expected, counts) = (counts_of(text), counts_in(run));
        let is_taken = self.wanted_answers.iter().all(|answer| *answer == DONE);
        if !is_taken || counts != expected || self.wanted != whole {
            let what = format!(
                "expected {expected:?}\n  got      {counts:?}\n  all taken: {is_taken}\n  printed  {}",
                first_difference(whole, &self.wanted)
            );
            return Err(self.told("not as the whole text", text, Preset::NEVER, &what));
        }
        self.see_cutting(text, run);
        Ok(())
    }

    /// Counts the cuts of a text none of whose blocks is refused, and its end.
    fn see_cutting(&mut self, text: &[u8], run: InBlocks) {
        use Kind::*;
        let seen = &mut self.seen;
        if text.is_empty() {
            seen.add(if self.ends.is_empty() {
                InputNone
            } else {
                InputEmpty
            });
        }
        for end in &self.ends {
            let (before, behind) = text.split_at(*end as usize);
            let is_cut = before.ends_with(b"\r") && behind.starts_with(b"\n");
            seen.add_if(is_cut, CutAtReturn);
        }
        let end = &self.wanted[run.printed as usize..];
        match (run.lines, run.kept, end) {
            (1, 0, [b'1', b'\t', b'0', ..]) => seen.add(EndWaits),
            (1, 0, [b'1', b'\t', b'2', ..]) => seen.add(EndWaitsRefused),
            (0, 1.., [b'1', b'\t', b'0' | b'2', ..]) => seen.add(EndAlone),
            (1, 1.., [b'1', b'\t', ..]) => seen.add(EndLine2),
            (_, 1.., []) => seen.add(EndCounted),
            _ => {}
        }
    }

    /// One block more behind the first ones of the text, on both, with a page for what it prints; what the
    /// reference gives.
    fn compare_block(
        &mut self,
        text: &[u8],
        blocks: usize,
        preset: Preset,
        block: &[u8],
    ) -> Result<AfterBlock, String> {
        self.pages += 1;
        let mut fed = self.feed(text, blocks, preset);
        self.wanted.clear();
        let answer = fed.take(block, &mut self.wanted);
        let at = self.wanted.len();
        let expected = AfterBlock {
            answer: answer.into(),
            at: at as u64,
            lines: fed.feed.lines(),
            kept: fed.kept as u64,
        };
        self.seen.add(match (answer, block.len()) {
            (DONE, _) if at > 0 => Kind::PageTaken,
            (DONE, _) => Kind::PageQuiet,
            (_, 513) => Kind::Page513,
            (_, 514..) => Kind::PageOverlong,
            _ => Kind::PageLines,
        });
        assert!(at <= PAGE, "a block prints {at} bytes");

        self.page.copy_from_slice(&self.before[..]);
        let ends = &self.ends[..blocks];
        let text = &text[..ends.last().map_or(0, |end| *end as usize)];
        let got = product::trace_block(text, ends, preset, block, &mut self.page);
        // a refused block prints nothing, and then that is the whole page
        if expected == got && self.page[..at] == self.wanted && self.page[at..] == self.before[at..]
        {
            return Ok(expected);
        }
        let what = format!(
            "then     \"{}\", {} bytes, behind {blocks} blocks\n  expected {expected:?}\n  got      {got:?}\n  page     {}\n  behind   {}",
            block.escape_ascii(),
            block.len(),
            first_difference(&self.wanted, &self.page[..at]),
            first_difference(&self.before[at..], &self.page[at..]),
        );
        Err(self.told("test_trace_block", text, preset, &what))
    }

    /// The blocks that the last run took, joined.
    fn taken(&self, text: &[u8]) -> Vec<u8> {
        let mut taken = Vec::new();
        let mut start = 0;
        for (end, answer) in self.ends.iter().zip(&self.wanted_answers) {
            if *answer == DONE {
                taken.extend_from_slice(&text[start..*end as usize]);
            }
            start = *end as usize;
        }
        taken
    }

    /// A difference with the whole input.
    fn told(&self, call: &str, text: &[u8], preset: Preset, what: &str) -> String {
        let (ends, text) = (&self.ends, text.escape_ascii());
        format!("{call}\n  text     \"{text}\"\n  blocks   {ends:?}, {preset:?}\n  {what}")
    }

    /// A part of the text in blocks as long as they may be; one empty block if it has no byte.
    fn push_part(&mut self, mut start: usize, end: usize) {
        loop {
            start = end.min(start + MAX_BLOCK);
            self.ends.push(start as u64);
            if start == end {
                break;
            }
        }
    }

    /// A text cut in two at every place, cut behind every byte, and cut at random places.
    fn every_cutting(&mut self, rng: &mut Rng, text: &[u8], whole: &[u8]) -> Result<(), String> {
        self.traces += 1;
        for cut in 0..=text.len() {
            self.ends.clear();
            self.push_part(0, cut);
            self.push_part(cut, text.len());
            self.cutting(text, whole)?;
        }
        self.ends.clear();
        self.ends.extend(1..=text.len() as u64);
        self.cutting(text, whole)?;
        for most in RANDOM_BLOCKS {
            self.ends.clear();
            let mut end = 0;
            loop {
                while rng.chance(4) {
                    self.ends.push(end as u64);
                }
                if end == text.len() {
                    break;
                }
                end = text.len().min(end + rng.below(most as u64 + 1) as usize);
                self.ends.push(end as u64);
            }
            self.cutting(text, whole)?;
        }
        Ok(())
    }
}

// ---- stored traces

fn stored_traces(rng: &mut Rng, work: &mut Work) -> Result<(), String> {
    let folder = env::var_os(FOLDER_NAME).map_or(PathBuf::from(FOLDER), PathBuf::from);
    let told = |error: io::Error| format!("{FOLDER_NAME}, {}: {error}", folder.display());
    let mut paths = Vec::new();
    for entry in fs::read_dir(&folder).map_err(told)? {
        let path = entry.map_err(told)?.path();
        if path.extension().is_some_and(|ending| ending == "trace") {
            paths.push(path);
        }
    }
    // the random cuts do not depend on the order in the folder
    paths.sort();
    let mut names = String::new();
    for path in &paths {
        stored_trace(rng, work, path)
            .map_err(|difference| format!("{}\n{difference}", path.display()))?;
        work.seen.add(Kind::Stored);
        let name = path.file_stem().unwrap_or_default();
        names += &format!("{}\n", name.to_string_lossy());
    }
    let list = fs::read_to_string(folder.join(LIST)).map_err(told)?;
    if names != list {
        let pairs = list.lines().zip(names.lines());
        let same = pairs.take_while(|(listed, run)| listed == run).count();
        return Err(format!(
            "{LIST} has {} traces, {} were run; after {same}: {:?} is listed, {:?} was run",
            list.lines().count(),
            names.lines().count(),
            list.lines().nth(same),
            names.lines().nth(same),
        ));
    }
    Ok(())
}

fn stored_trace(rng: &mut Rng, work: &mut Work, path: &Path) -> Result<(), String> {
    let read = |path: &Path| fs::read(path).map_err(|error| error.to_string());
    let (text, whole) = (read(path)?, read(&path.with_extension("out"))?);
    work.every_cutting(rng, &text, &whole)
}

// ---- random traces

/// Puts an overlong line behind line 1: what it prints depends on its first field.
fn insert_overlong_line_2(rng: &mut Rng, text: &mut Vec<u8>) {
    let Some(feed) = text.iter().position(|byte| *byte == b'\n') else {
        return;
    };
    let start = *rng.pick::<&[u8]>(&[b"PN\t", b"PN\t4\t2\t30\t0\t", b"PN", b"PNR\t", b"RX\t"]);
    let length = *rng.pick(&[81, 82, 100, 512, 513, 600]);
    let filler = b"0".iter().cycle().take(length - start.len());
    let line: Vec<u8> = start.iter().chain(filler).chain(b"\n").copied().collect();
    text.splice(feed + 1..feed + 1, line);
}

fn random_traces(rng: &mut Rng, work: &mut Work) -> Result<(), String> {
    let seed = rng.next_u64();
    println!("  random traces: seed {seed}");
    let mut long = 0;
    for (number, mut text) in hard_traces(seed).take(TRACES).enumerate() {
        if text.len() >= LONG_BYTES && long < LONG_TRACES {
            long += 1;
            text.truncate(LONG_BYTES);
        } else {
            text.truncate(MOST_BYTES);
        }
        if rng.chance(LONG_LINE_2) {
            insert_overlong_line_2(rng, &mut text);
        }
        let whole = output(&text);
        see_text(&mut work.seen, &text, &whole);
        work.every_cutting(rng, &text, &whole)
            .map_err(|difference| format!("trace {number} of seed {seed}\n{difference}"))?;
    }
    // no block at all, and the input is over
    work.ends.clear();
    work.cutting(b"", b"")
}

// ---- blocks that are too long

/// A block that is too long, and that would print if it were taken.
fn push_overlong(rng: &mut Rng, text: &[u8], joined: &mut Vec<u8>) {
    let length = *rng.pick(&OVERLONG);
    let piece: &[u8] = match rng.below(5) {
        0 => b"\n",
        1 => b"x",
        2 => b"OK\n",
        3 if !text.is_empty() => text,
        _ => b"T\t1\nREQ\nCFG\t1",
    };
    joined.extend(piece.iter().cycle().take(length));
}

fn overlong_blocks(rng: &mut Rng, work: &mut Work) -> Result<(), String> {
    let seed = rng.next_u64();
    println!("  blocks that are too long: seed {seed}");
    let mut joined = Vec::new();
    let mut expected = Vec::new();
    for (number, mut text) in hard_traces(seed).take(REFUSAL_TRACES).enumerate() {
        text.truncate(LONG_BYTES);
        let told = |difference| format!("trace {number} of seed {seed}\n{difference}");
        work.traces += 1;
        joined.clear();
        expected.clear();
        work.ends.clear();
        let mut rest = text.as_slice();
        loop {
            while rng.chance(3) {
                push_overlong(rng, &text, &mut joined);
                work.ends.push(joined.len() as u64);
                expected.push(WRONG_LENGTH);
            }
            if rest.is_empty() {
                break;
            }
            let mut push = |block: &[u8], answer| {
                joined.extend_from_slice(block);
                work.ends.push(joined.len() as u64);
                expected.push(answer);
            };
            if rest.len() > MAX_BLOCK && rng.chance(3) {
                // one block that is too long, and then the same bytes in two that are not
                let most = rest.len().min(2 * MAX_BLOCK);
                let length = MAX_BLOCK + 1 + rng.below((most - MAX_BLOCK) as u64) as usize;
                let least = length - MAX_BLOCK;
                let cut = least + rng.below((MAX_BLOCK - least) as u64 + 1) as usize;
                let (both, behind) = rest.split_at(length);
                rest = behind;
                push(both, WRONG_LENGTH);
                push(&both[..cut], DONE);
                push(&both[cut..], DONE);
                work.seen.add(Kind::BlockSplit);
                continue;
            }
            let length = rng.below(rest.len().min(MAX_BLOCK) as u64 + 1);
            let (block, behind) = rest.split_at(length as usize);
            rest = behind;
            push(block, DONE);
        }
        let run = work.compare(&joined, Preset::NEVER).map_err(told)?;
        // as if the refused ones had not come
        if work.wanted_answers != expected
            || work.wanted != output(&text)
            || counts_in(run) != counts_of(&text)
        {
            let call = "not as the taken blocks alone";
            return Err(told(work.told(call, &joined, Preset::NEVER, "")));
        }
        for _ in 0..PAGES {
            let blocks = rng.below(work.ends.len() as u64 + 1) as usize;
            let end = |blocks: usize| work.ends[..blocks].last().map_or(0, |end| *end as usize);
            let next = end(blocks)..end(work.ends.len().min(blocks + 1));
            work.compare_block(&joined, blocks, Preset::NEVER, &joined[next])
                .map_err(told)?;
            // by one byte too long, in the same place
            let mut block = [b'\n'; MAX_BLOCK + 1];
            if rng.chance(2) {
                block.fill(b'x');
            }
            work.compare_block(&joined, blocks, Preset::NEVER, &block)
                .map_err(told)?;
        }
    }
    Ok(())
}

// ---- the limit of the lines

/// A text after which it is settled whether the run goes on: two lines or more, all finished.
fn settled(rng: &mut Rng, mut text: Vec<u8>) -> Vec<u8> {
    text.truncate(200 + rng.below(600) as usize);
    text.extend_from_slice(b"\nREQ\n");
    text
}

/// Finished lines, behind which the count is set near the limit. It is never set before line 1: to an unreadable
/// line 1 the product then gives the number behind the count, the reference number 1, and no text leads there.
struct Start {
    text: Vec<u8>,
    /// Why the run is over.
    ending: Option<Ending>,
    /// Line 2, of one byte or more, if only line 1 has come; else nothing.
    second: Vec<u8>,
}

impl Start {
    fn settled(rng: &mut Rng, text: Vec<u8>) -> Start {
        let text = settled(rng, text);
        let ending = Ending::of(&output(&text));
        Start {
            text,
            ending,
            second: Vec::new(),
        }
    }

    /// Line 1 alone, so that the configuration waits for line 2; not of every text.
    fn waiting(rng: &mut Rng, mut text: Vec<u8>) -> Option<Start> {
        if rng.chance(LONG_LINE_2) {
            insert_overlong_line_2(rng, &mut text);
        }
        let mut lines = text.split_inclusive(|byte| *byte == b'\n');
        let first = lines.next().filter(|line| line.ends_with(b"\n"))?;
        let second = lines.next()?;
        let second = second.strip_suffix(b"\n").unwrap_or(second);
        if second.is_empty() || Ending::of(&output(first)) == Some(Ending::Line1) {
            return None;
        }
        Some(Start {
            text: first.to_vec(),
            ending: None,
            second: second.to_vec(),
        })
    }
}

/// Lines for one block of at most 512 bytes, unless the line feeds alone are more, and behind them an unfinished
/// line, if asked for. The first of them is the one that is handed in, as far as there is room, unless that is
/// empty.
fn push_lines(rng: &mut Rng, first: &mut &[u8], feeds: u64, is_open: bool, joined: &mut Vec<u8>) {
    const LINES: [&[u8]; 8] = [b"", b"", b"T\t1", b"OK", b"REQ", b"REL", b"x", b"RX\t00"];
    let mut room = MAX_BLOCK.saturating_sub(feeds as usize + usize::from(is_open));
    let mut push_some = |rng: &mut Rng, joined: &mut Vec<u8>| {
        let line = match std::mem::take(first) {
            [] => *rng.pick(&LINES),
            line => &line[..line.len().min(room)],
        };
        if line.len() <= room {
            room -= line.len();
            joined.extend_from_slice(line);
        }
    };
    for _ in 0..feeds {
        push_some(rng, joined);
        joined.push(b'\n');
    }
    if is_open {
        push_some(rng, joined);
        joined.push(b'T');
    }
}

/// In place of a block that is refused: as many of its lines as are left, or the first bytes of them.
fn smaller_block(rng: &mut Rng, block: &[u8], spare: u64) -> Vec<u8> {
    let lines = block.split_inclusive(|byte| *byte == b'\n');
    let bytes: usize = lines.take(spare as usize).map(<[u8]>::len).sum();
    let mut length = bytes.min(MAX_BLOCK);
    if length > 0 && rng.chance(2) {
        length = 1 + rng.below(length as u64) as usize;
    }
    block[..length].to_vec()
}

/// A block near the limit.
#[derive(Clone, Copy, Debug)]
struct AtLimit {
    /// How many lines more there can be when the count is set.
    spare: u64,
    /// Whether there is an unfinished line before the block, and one behind it.
    open_before: bool,
    open_behind: bool,
    /// The lines that the block has more than there can be.
    over: i64,
}

fn limit_of_lines(rng: &mut Rng, work: &mut Work) -> Result<(), String> {
    let seed = rng.next_u64();
    println!("  the limit of the lines: seed {seed}");
    let mut texts = hard_traces(seed);
    let settled: Vec<_> = texts
        .by_ref()
        .take(LIMIT_STARTS)
        .map(|text| Start::settled(rng, text))
        .collect();
    let waiting: Vec<_> = texts
        .filter_map(|text| Start::waiting(rng, text))
        .take(LIMIT_STARTS)
        .collect();
    work.traces += 2 * LIMIT_STARTS as u64;
    let mut joined = Vec::new();
    for spare in 0..=MOST_SPARE {
        for over in [-3, -1, 0, 1, 2, 120] {
            for (open_before, open_behind) in
                [(false, false), (false, true), (true, false), (true, true)]
            {
                // an unfinished line has a number
                if open_before && spare == 0 {
                    continue;
                }
                let at = AtLimit {
                    spare,
                    open_before,
                    open_behind,
                    over,
                };
                for starts in [&settled, &waiting] {
                    let start = rng.pick(starts);
                    at_limit(rng, work, start, at, &mut joined)
                        .map_err(|difference| format!("{at:?}\n{difference}"))?;
                }
            }
        }
    }
    Ok(())
}

fn at_limit(
    rng: &mut Rng,
    work: &mut Work,
    start: &Start,
    at: AtLimit,
    joined: &mut Vec<u8>,
) -> Result<(), String> {
    joined.clear();
    joined.extend_from_slice(&start.text);
    let finished = feeds_of(joined);
    let mut second = start.second.as_slice();
    if at.open_before {
        if second.is_empty() {
            let length = *rng.pick(&[1, 2, 79, 80, 81, 82, 300]);
            let byte = *rng.pick(b"xT");
            joined.resize(joined.len() + length, byte);
        } else {
            let (open, behind) = second.split_at(1 + rng.below(second.len() as u64) as usize);
            joined.extend_from_slice(open);
            second = behind;
        }
    }
    work.ends.clear();
    work.push_part(0, joined.len());
    let preset = Preset {
        before: work.ends.len() as u64,
        lines: MAX_LINES - at.spare,
    };
    let set_at = work.ends.len();
    // the count is set before an empty block, or before one with lines
    if rng.chance(2) {
        work.ends.push(joined.len() as u64);
    }
    // more lines than fit into one block need another before it
    let mut spare = at.spare;
    if spare > 500 || (spare > 2 && rng.chance(3)) {
        let least = spare.saturating_sub(500);
        let feeds = least + rng.below(MAX_BLOCK as u64 - 1).min(spare - 1 - least);
        let feeds = feeds.min(MAX_BLOCK as u64 - 1);
        push_lines(rng, &mut second, feeds, at.open_before, joined);
        work.ends.push(joined.len() as u64);
        spare -= feeds;
    }
    let number = work.ends.len();
    let from = joined.len();
    let lines = spare as i64 + at.over;
    let feeds = (lines - i64::from(at.open_behind)).max(0) as u64;
    push_lines(rng, &mut second, feeds, at.open_behind, joined);
    work.ends.push(joined.len() as u64);
    let block = from..joined.len();
    let is_open = if block.is_empty() {
        at.open_before
    } else {
        at.open_behind
    };
    let lines = feeds + u64::from(is_open);
    let is_refused = block.len() > MAX_BLOCK || lines > spare;
    let smaller = if is_refused && rng.chance(2) {
        smaller_block(rng, &joined[block.clone()], spare)
    } else {
        Vec::new()
    };
    if !smaller.is_empty() {
        joined.extend_from_slice(&smaller);
        work.ends.push(joined.len() as u64);
    }
    // what comes behind finds the counts that they left
    for _ in 0..rng.below(4) {
        let piece = *rng.pick::<&[u8]>(&[b"", b"x", b"\n", b"\n\n", b"0\nT\t1\n"]);
        joined.extend_from_slice(piece);
        work.ends.push(joined.len() as u64);
    }

    work.compare(joined, preset)?;
    let answer = work.wanted_answers[number];
    if answer != if is_refused { WRONG_LENGTH } else { DONE } {
        let what = format!("block {number} has {lines} lines, {spare} are left, answer {answer}");
        return Err(work.told("not what the block is to be", joined, preset, &what));
    }
    let taken = work.taken(joined);
    let whole = output(&taken);
    let expected = renumbered(&whole, finished, preset.lines);
    if work.wanted != expected {
        let what = first_difference(&expected, &work.wanted);
        return Err(work.told("not the lines of the taken text", joined, preset, &what));
    }

    let seen = &mut work.seen;
    see_limit(seen, at, lines, spare, &joined[block.clone()], start.ending);
    if !smaller.is_empty() && block.len() <= MAX_BLOCK {
        let lines = feeds_of(&smaller) + u64::from(!smaller.ends_with(b"\n"));
        let kind = if lines == spare {
            Kind::LimitSmallerExact
        } else {
            Kind::LimitSmaller
        };
        seen.add_if(work.wanted_answers[number + 1] == DONE, kind);
    }
    if !start.second.is_empty() && feeds_of(&joined[..from]) == 1 {
        see_second(seen, feeds, lines, spare, &joined[block.clone()], &taken);
    }
    let is_last = |line: &[u8]| line == LAST_NUMBER;
    let is_printed = work.wanted.windows(LAST_NUMBER.len()).any(is_last);
    seen.add_if(is_printed, Kind::LimitPrinted);

    // alone, with a page; the count has to be set before
    if number > set_at {
        work.compare_block(joined, number, preset, &joined[block])?;
    }
    if !smaller.is_empty() {
        work.compare_block(joined, number + 1, preset, &smaller)?;
    }
    Ok(())
}

/// Counts a block near the limit that comes when the configuration waits for line 2, with the text that was taken
/// in all.
fn see_second(seen: &mut Seen, feeds: u64, lines: u64, spare: u64, block: &[u8], taken: &[u8]) {
    use Kind::*;
    if block.is_empty() || block.len() > MAX_BLOCK {
        return;
    }
    if lines > spare {
        seen.add_if(lines == spare + 1, LimitSecondPast);
        seen.add_if(spare == 0, LimitSecondNone);
        return;
    }
    if feeds == 0 {
        seen.add_if(lines == spare, LimitSecondOpen);
        return;
    }
    seen.add_if(lines == spare, LimitSecondExact);
    let second = taken.split(|byte| *byte == b'\n').nth(1);
    seen.add(match Ending::of(&output(taken)) {
        Some(Ending::Pn) => LimitSecondBroken,
        Some(_) => LimitSecondRefused,
        None if second.is_some_and(is_pn_line) => LimitSecondPn,
        None => LimitSecondCall,
    });
}

/// Counts a block near the limit, with its lines and those that are left for it.
fn see_limit(
    seen: &mut Seen,
    at: AtLimit,
    lines: u64,
    spare: u64,
    block: &[u8],
    ending: Option<Ending>,
) {
    use Kind::*;
    if block.len() > MAX_BLOCK {
        return;
    }
    if block.is_empty() {
        seen.add_if(at.open_before && lines == spare, LimitEmpty);
        return;
    }
    if lines < spare {
        seen.add(LimitBelow);
        return;
    }
    if lines > spare + 1 {
        seen.add(LimitFar);
        return;
    }
    let is_taken = lines == spare;
    seen.add(match (is_taken, at.open_behind) {
        (true, false) => LimitExact,
        (true, true) => LimitExactOpen,
        (false, false) => LimitPast,
        (false, true) => LimitPastOpen,
    });
    let (continued, ended) = if is_taken {
        (LimitContinued, LimitEndedExact)
    } else {
        (LimitContinuedPast, LimitEndedPast)
    };
    seen.add_if(at.open_before, continued);
    seen.add_if(ending.is_some(), ended);
    match ending {
        None => {}
        Some(Ending::Refused) => seen.add(LimitRefused),
        Some(Ending::Line1) => seen.add(LimitLine1),
        Some(Ending::Pn) => seen.add(LimitPn),
    }
}

// ---- blocks after the end of the run

/// What would print at the start of an input.
const RUN: &[u8] = b"CFG\t10\t50\t30\t40\t20\t0\t0\t0\t0\t0\t8\t0\t1\t33\nREQ\nT\t1\n";

fn after_the_run(rng: &mut Rng, work: &mut Work) -> Result<(), String> {
    let seed = rng.next_u64();
    println!("  blocks after the end of the run: seed {seed}");
    let mut joined = Vec::new();
    let mut ended = 0;
    for (number, text) in hard_traces(seed).enumerate() {
        if ended == ENDED_TRACES {
            break;
        }
        let start = settled(rng, text);
        let whole = output(&start);
        let Some(ending) = Ending::of(&whole) else {
            continue;
        };
        ended += 1;
        work.traces += 1;
        work.seen.add(match ending {
            Ending::Refused => Kind::EndedRefused,
            Ending::Line1 => Kind::EndedLine1,
            Ending::Pn => Kind::EndedPn,
        });
        block_after_the_run(rng, work, &start, &whole, &mut joined)
            .map_err(|difference| format!("trace {number} of seed {seed}\n{difference}"))?;
    }
    Ok(())
}

fn block_after_the_run(
    rng: &mut Rng,
    work: &mut Work,
    start: &[u8],
    whole: &[u8],
    joined: &mut Vec<u8>,
) -> Result<(), String> {
    joined.clear();
    joined.extend_from_slice(start);
    work.ends.clear();
    work.push_part(0, start.len());
    let first = work.ends.len();
    for _ in 0..2 + rng.below(6) {
        let from = joined.len();
        match rng.below(5) {
            0 => {}
            1 => {
                joined.resize(from + 1 + rng.below(MAX_BLOCK as u64) as usize, 0);
                rng.fill(&mut joined[from..]);
            }
            2 => joined.resize(from + 1 + rng.below(MAX_BLOCK as u64) as usize, b'\n'),
            3 => joined.extend_from_slice(RUN),
            _ => {
                let (feeds, is_open) = (rng.below(60), rng.chance(2));
                push_lines(rng, &mut b"".as_slice(), feeds, is_open, joined);
            }
        }
        work.ends.push(joined.len() as u64);
    }
    work.cutting(joined, whole)?;
    for number in first..work.ends.len() {
        let block = work.ends[number - 1] as usize..work.ends[number] as usize;
        let expected = AfterBlock {
            answer: DONE.into(),
            at: 0,
            lines: feeds_of(&joined[..block.end]),
            kept: kept_of(&joined[..block.end]),
        };
        let got = work.compare_block(joined, number, Preset::NEVER, &joined[block])?;
        if expected != got {
            let what = format!("block {number}: expected {expected:?}, got {got:?}");
            return Err(work.told("not only counted", joined, Preset::NEVER, &what));
        }
    }
    Ok(())
}
