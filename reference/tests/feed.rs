//! Traces that arrive in blocks: every cut prints what the whole text prints,
//! and a block that is refused changes nothing.

use cannm_reference::answer::{DONE, WRONG_LENGTH};
use cannm_reference::counts::lines_of;
use cannm_reference::feed::{Feed, MAX_BLOCK, MAX_LINES};
use cannm_reference::generate::{hard_traces, LongTrace};
use cannm_reference::rng::Rng;
use cannm_reference::trace::{run, MAX_LINE};

/// The configuration of the paper's example. In these tests blanks stand for
/// tabs.
const CFG: &str = "CFG 10 50 30 40 20 0 0 0 0 0 8 0 1 33";
/// A layout with room for PN, and its PN line.
const SHORT: &str = "CFG 10 50 30 40 20 0 0 0 0 0 6 0 1 33";
const PN: &str = "PN 4 2 30 0 0197";
/// Breaks rule 1.
const BROKEN: &str = "CFG 0 50 30 40 20 0 0 0 0 0 8 0 1 33";

/// What a trace prints at once.
fn output(text: &[u8]) -> Vec<u8> {
    let mut out = Vec::new();
    run(text, &mut out).unwrap();
    out
}

fn tabbed(text: &str) -> Vec<u8> {
    text.replace(' ', "\t").into_bytes()
}

/// A line with this start and so many bytes in all.
fn long(start: &str, bytes: usize) -> String {
    format!("{start}{}", "0".repeat(bytes - start.len()))
}

/// Texts with everything that a cut could split or hide.
fn texts() -> Vec<Vec<u8>> {
    let ticks = "T 1\n".repeat(12);
    let too_long = MAX_LINE + 1;
    let texts = [
        String::new(),
        "\n".to_string(),
        "\n\nREQ\n".to_string(),
        CFG.to_string(),
        format!("{CFG}\n"),
        format!("{CFG}\n\n"),
        format!("{CFG}\nPAS\n{ticks}"),
        // Blank lines, and no line feed at the end.
        format!("{CFG}\n\n\nREQ\n\n{ticks}\nREL\n{ticks}T 1"),
        format!("{SHORT}\n{PN}"),
        format!("{SHORT}\n{PN}\nPNA\nRX 074000000080\nREQ\nT 1\nRX 0740\nPNR 0101\n{ticks}BAD"),
        // Lines as long as they may be, by one too long, and far too long.
        format!("{CFG}\n{}\nPAS\n", long("RX ", MAX_LINE)),
        format!("{CFG}\n{}\nPAS\n", long("RX ", too_long)),
        format!("{CFG}\nPAS\n{}\nT 1\n", long("RX ", 700)),
        format!("{CFG}\nPAS\n{}", long("RX ", 300)),
        // Lines 2 that are too long, told apart by their first field.
        format!("{SHORT}\n{}\nREQ\n", long("PN 4 2 30 0 ", too_long)),
        format!("{SHORT}\n{}\nREQ\n", long("PN ", 200)),
        format!("{SHORT}\n{}", long("PN ", 200)),
        format!("{SHORT}\n{}\nREQ\n", long("PN", 200)),
        format!("{SHORT}\n{}\nREQ\n", long("PNR ", too_long)),
        format!("{SHORT}\n{}", long("PNR ", 200)),
        // Runs that end early.
        format!("{BROKEN}\nREQ\nT 1\n"),
        format!("{BROKEN}\n\nREQ"),
        format!("{BROKEN}\n{PN}\nREQ\n"),
        format!("{BROKEN}\n{}\nREQ\n", long("PN ", 200)),
        format!("{BROKEN}\n{}\nREQ\n", long("PN", 200)),
        format!("{SHORT}\nPN 4 2 30 0\nREQ\n{ticks}"),
        format!("CFG 10\n{PN}\nREQ\n"),
        format!("{}\nREQ\nT 1", long("CFG ", 200)),
    ];
    texts.iter().map(|text| tabbed(text)).collect()
}

/// A feed beside what it printed.
#[derive(Clone, Debug, PartialEq)]
struct Fed {
    feed: Feed,
    out: Vec<u8>,
}

impl Fed {
    fn new() -> Fed {
        let (feed, out) = (Feed::new(), Vec::new());
        Fed { feed, out }
    }

    /// A feed that has taken this text, then set to so many lines.
    fn at(text: &str, lines: u64) -> Fed {
        let mut fed = Fed::new();
        fed.take_all(&tabbed(text));
        fed.feed.set_lines(lines);
        fed.out.clear();
        fed
    }

    fn take(&mut self, block: &[u8]) {
        assert_eq!(self.feed.block(block, &mut self.out), DONE);
    }

    /// In blocks as large as they may be.
    fn take_all(&mut self, text: &[u8]) {
        for block in text.chunks(MAX_BLOCK) {
            self.take(block);
        }
    }

    fn refuse(&mut self, block: &[u8]) {
        let before = self.clone();
        assert_eq!(self.feed.block(block, &mut self.out), WRONG_LENGTH);
        assert_eq!(*self, before);
    }

    fn end(&mut self) {
        self.feed.end(&mut self.out);
    }

    /// What was printed since the last look, with blanks for tabs.
    fn printed(&mut self) -> String {
        let out = std::mem::take(&mut self.out);
        String::from_utf8(out).unwrap().replace('\t', " ")
    }
}

// Cuts.

#[test]
fn cuts_at_every_place() {
    for text in texts() {
        let expected = output(&text);
        let mut whole = Fed::new();
        whole.take_all(&text);
        for cut in 0..=text.len() {
            let (head, tail) = text.split_at(cut);
            let mut fed = Fed::new();
            fed.take_all(head);
            let finished = head.iter().filter(|byte| **byte == b'\n').count();
            assert_eq!(fed.feed.lines(), finished as u64);
            fed.take_all(tail);
            assert_eq!(fed, whole);
            fed.end();
            assert_eq!(fed.out, expected, "cut at {cut}");
            assert_eq!(fed.feed.lines(), lines_of(&text).count() as u64);
        }
    }
}

#[test]
fn blocks_of_every_size() {
    for text in texts() {
        let expected = output(&text);
        for size in (1..=90).chain([511, 512]) {
            let mut fed = Fed::new();
            for block in text.chunks(size) {
                fed.take(block);
            }
            fed.end();
            assert_eq!(fed.out, expected, "blocks of {size}");
        }
    }
}

#[test]
fn lines_print_at_their_line_feed() {
    for text in texts() {
        let mut fed = Fed::new();
        for (place, byte) in text.iter().enumerate() {
            let before = fed.out.len();
            fed.take(&[*byte]);
            // The text could end after every byte.
            let expected = output(&text[..=place]);
            let mut ended = fed.clone();
            ended.end();
            assert_eq!(ended.out, expected, "ended at {place}");
            if *byte != b'\n' {
                assert_eq!(fed.out.len(), before, "at {place}");
            } else if fed.feed.lines() > 1 {
                // Only line 1 may have to wait for the next.
                assert_eq!(fed.out, expected, "at {place}");
            }
        }
    }
}

#[test]
fn empty_blocks_change_nothing() {
    for text in texts() {
        let mut fed = Fed::new();
        for byte in &text {
            let before = fed.clone();
            fed.take(b"");
            assert_eq!(fed, before);
            fed.take(&[*byte]);
        }
        fed.take(b"");
        fed.end();
        assert_eq!(fed.out, output(&text));
    }
    let mut fed = Fed::new();
    fed.take(b"");
    assert_eq!(fed, Fed::new());
    fed.end();
    assert_eq!((fed.printed().as_str(), fed.feed.lines()), ("", 0));
}

#[test]
fn random_cuts_of_hard_and_long_traces() {
    let mut rng = Rng::new(12);
    let mut long = Vec::new();
    let mut source = LongTrace::new(5, &mut long);
    while long.len() < 200_000 {
        source.append(&mut long);
    }
    for text in hard_traces(31).take(300).chain([long]) {
        let expected = output(&text);
        for most in [3, 40, 200, MAX_BLOCK as u64] {
            let mut fed = Fed::new();
            let mut rest = text.as_slice();
            while !rest.is_empty() {
                let size = rng.below(most + 1).min(rest.len() as u64);
                let (block, after) = rest.split_at(size as usize);
                fed.take(block);
                rest = after;
            }
            fed.end();
            assert_eq!(fed.out, expected);
            assert_eq!(fed.feed.lines(), lines_of(&text).count() as u64);
        }
    }
}

#[test]
fn a_line_too_long_is_refused_once_at_its_end() {
    let mut fed = Fed::at(&format!("{CFG}\nPAS\n"), 2);
    for _ in 0..40 {
        fed.take(&[b'0'; MAX_BLOCK]);
        assert_eq!((fed.printed().as_str(), fed.feed.lines()), ("", 2));
    }
    fed.take(b"\nT\t0\n");
    assert_eq!(fed.printed(), "3 7 R - -\n4 0 R - -\n");
    // Ended by the end of the text.
    fed.take(&[b'0'; MAX_LINE + 1]);
    fed.end();
    assert_eq!(fed.printed(), "5 7 R - -\n");
}

#[test]
fn after_the_end_nothing_is_printed() {
    for text in [CFG, BROKEN, "", "REQ\n"] {
        let mut fed = Fed::at(text, 0);
        fed.end();
        fed.printed();
        fed.end();
        fed.take(b"REQ\nREQ");
        fed.end();
        assert_eq!(fed.printed(), "");
    }
}

// Refused blocks.

#[test]
fn a_block_has_at_most_512_bytes() {
    assert_eq!(MAX_BLOCK, 512);
    let text = [tabbed(CFG), b"\nPAS\n".to_vec(), b"T\t1\n".repeat(300)].concat();
    let (head, tail) = text.split_at(512);
    let mut fed = Fed::new();
    fed.refuse(&text[..513]);
    assert_eq!(fed, Fed::new());
    fed.take(head);
    let finished = head.iter().rposition(|byte| *byte == b'\n').unwrap() + 1;
    assert!(finished < 512, "the cut is to fall into a line");
    assert_eq!(fed.out, output(&head[..finished]));
    // Whatever the block is made of.
    fed.refuse(tail);
    fed.refuse(&tail[..513]);
    fed.refuse(&[b'\n'; 513]);
    fed.refuse(&[b'x'; 513]);
    fed.refuse(&[b'\n'; 100_000]);
    // Smaller ones in its place.
    fed.take_all(tail);
    fed.end();
    assert_eq!(fed.out, output(&text));
    // After the end of the run too.
    let mut fed = Fed::at("REQ\n", 1);
    fed.refuse(&[b'\n'; 513]);
    fed.take(&[b'\n'; 512]);
    assert_eq!(fed.feed.lines(), 513);
}

#[test]
fn lines_up_to_the_limit() {
    assert_eq!(MAX_LINES, u64::MAX);
    let start = format!("{CFG}\nPAS\n");
    let mut fed = Fed::at(&start, MAX_LINES - 3);
    fed.refuse(b"T\t0\nT\t0\nT\t0\nT\t0\n");
    // An unfinished line counts.
    fed.refuse(b"T\t0\nT\t0\nT\t0\nT");
    fed.take(b"T\t0\nT\t0\nT");
    let expected = "18446744073709551613 0 R - -\n18446744073709551614 0 R - -\n";
    assert_eq!(fed.printed(), expected);
    assert_eq!(fed.feed.lines(), MAX_LINES - 1);
    // It goes on and ends as the last line that there can be.
    fed.take(b"");
    fed.take(b"\t");
    fed.refuse(b"0\nx");
    fed.refuse(b"0\n\n");
    let mut ended = fed.clone();
    ended.take(b"0");
    ended.end();
    assert_eq!(ended.printed(), "18446744073709551615 0 R - -\n");
    assert_eq!(ended.feed.lines(), MAX_LINES);
    fed.take(b"0\n");
    assert_eq!(fed.printed(), "18446744073709551615 0 R - -\n");
    assert_eq!(fed.feed.lines(), MAX_LINES);
    // No further line, not even its first byte.
    fed.refuse(b"\n");
    fed.refuse(b"T");
    fed.refuse(&[b'\n'; MAX_BLOCK]);
    fed.take(b"");
    fed.end();
    assert_eq!(fed.printed(), "");
    assert_eq!(fed.feed.lines(), MAX_LINES);
}

#[test]
fn the_limit_counts_a_line_too_long_once() {
    let mut fed = Fed::at(&format!("{CFG}\nPAS\n"), MAX_LINES - 1);
    for _ in 0..3 {
        fed.take(&[b'x'; MAX_BLOCK]);
    }
    fed.refuse(b"x\nx");
    fed.take(b"x\n");
    assert_eq!(fed.printed(), "18446744073709551615 7 R - -\n");
    fed.refuse(b"x");
}

#[test]
fn full_blocks_at_the_limit() {
    for ended in [false, true] {
        let start = if ended { BROKEN } else { CFG };
        for spare in [511, 512, 513] {
            let mut fed = Fed::at(&format!("{start}\nPAS\n"), MAX_LINES - spare);
            if spare < 512 {
                fed.refuse(&[b'\n'; 512]);
                fed.take(&[b'\n'; 511]);
            } else {
                fed.take(&[b'\n'; 512]);
            }
            let left = spare.saturating_sub(512);
            assert_eq!(fed.feed.lines(), MAX_LINES - left);
            assert_eq!(fed.out.is_empty(), ended);
        }
        // As many lines with the last of them unfinished.
        let block = [&[b'\n'; 511][..], b"x"].concat();
        let mut fed = Fed::at(&format!("{start}\nPAS\n"), MAX_LINES - 511);
        fed.refuse(&block);
        fed.take(&block[1..]);
        assert_eq!(fed.feed.lines(), MAX_LINES - 1);
    }
}

#[test]
fn the_limit_holds_after_the_run_has_ended() {
    let refused = format!("{BROKEN}\nREQ\n");
    let bad_pn = format!("{SHORT}\nPN\n");
    for start in ["REQ\n", refused.as_str(), bad_pn.as_str()] {
        let mut fed = Fed::at(start, MAX_LINES - 2);
        fed.refuse(b"a\nb\nc");
        fed.refuse(b"\n\n\n");
        fed.take(b"a\nb");
        fed.refuse(b"\nc");
        fed.take(b"b\n");
        assert_eq!(fed.feed.lines(), MAX_LINES);
        fed.refuse(b"c");
        fed.refuse(b"\n");
        fed.take(b"");
        fed.end();
        assert_eq!(fed.printed(), "");
    }
    // Lines after the end of the run are counted.
    let mut fed = Fed::new();
    fed.take(b"REQ\n\nT\t1\nPAS\nx");
    assert_eq!(fed.printed(), "1 7 - - -\n");
    assert_eq!(fed.feed.lines(), 4);
    fed.end();
    assert_eq!(fed.feed.lines(), 5);
}

#[test]
fn the_configuration_at_the_limit() {
    // Line 1 prints its number, the lines after it those of the count.
    let mut fed = Fed::at("", MAX_LINES - 2);
    let text = tabbed(&format!("{CFG}\nPAS\n"));
    fed.refuse(&[text.as_slice(), b"x"].concat());
    fed.take(&text);
    assert_eq!(fed.printed(), "1 0 B - -\n18446744073709551615 0 R NM -\n");
    fed.refuse(b"x");

    let mut fed = Fed::at(&format!("{CFG}\n"), MAX_LINES);
    fed.refuse(b"\n");
    fed.end();
    assert_eq!(fed.printed(), "1 0 B - -\n");

    let mut fed = Fed::at("", MAX_LINES - 1);
    fed.take(b"REQ\n");
    assert_eq!(fed.printed(), "1 7 - - -\n");

    let mut fed = Fed::at(&format!("{BROKEN}\n"), MAX_LINES - 1);
    fed.take(b"REQ");
    fed.end();
    assert_eq!(fed.printed(), "1 2 - - -\n");

    // A PN line prints only if it can't be read, and counts in any case.
    let mut fed = Fed::at(&format!("{SHORT}\n"), MAX_LINES - 2);
    fed.take(&tabbed(&format!("{PN}\nREQ\n")));
    assert_eq!(fed.printed(), "1 0 B - -\n18446744073709551615 0 R NM -\n");
    let mut fed = Fed::at(&format!("{SHORT}\n"), MAX_LINES - 1);
    fed.take(&tabbed(&long("PN ", 200)));
    fed.end();
    assert_eq!(fed.printed(), "18446744073709551615 7 - - -\n");
}

#[test]
fn set_lines_sets_the_next_number() {
    for lines in [0, 1, 8, 9, 10, 99, 1_000, 4_294_967_295, MAX_LINES - 1] {
        let mut fed = Fed::at(&format!("{CFG}\nPAS\n"), lines);
        assert_eq!(fed.feed.lines(), lines);
        fed.take(b"OK\n");
        assert_eq!(fed.printed(), format!("{} 0 R - -\n", lines + 1));
        assert_eq!(fed.feed.lines(), lines + 1);
    }
    // With an unfinished line, as long as there is a number for it.
    let mut fed = Fed::at(&format!("{CFG}\nPAS\nO"), MAX_LINES - 1);
    fed.take(b"K");
    fed.end();
    assert_eq!(fed.printed(), "18446744073709551615 0 R - -\n");
}

#[test]
#[should_panic(expected = "no number for the unfinished line")]
fn set_lines_leaves_room_for_the_unfinished_line() {
    Fed::at(&format!("{CFG}\nx"), MAX_LINES);
}

#[test]
fn a_refused_block_and_smaller_ones_in_its_place() {
    let start = format!("{CFG}\nPAS\nT ");
    let mut fed = Fed::at(&start, MAX_LINES - 2);
    fed.refuse(b"1\nT\t1\nT\t1\n");
    fed.take(b"1\n");
    fed.refuse(b"T\t1\nT\t1\n");
    fed.take(b"T\t1\n");
    let expected = "18446744073709551614 0 R - 2100FFFFFFFFFFFF\n18446744073709551615 0 R - -\n";
    assert_eq!(fed.printed(), expected);
}
