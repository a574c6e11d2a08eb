//! The trace program: the paper's example and cases as texts, what can and
//! can't be read, cuts and failures of input and output, and the traces made
//! at random.

use cannm_reference::answer::{DONE, UNREADABLE};
use cannm_reference::book::Book;
use cannm_reference::channel::{Note, State};
use cannm_reference::config::first_broken_rule;
use cannm_reference::counts::{lines_of, Counts, Kind};
use cannm_reference::generate::{hard_traces, LongTrace};
use cannm_reference::trace::{
    is_pn_line, read_call, read_cfg, read_pn, run, Lines, Trace, BLOCK, MAX_HEX_BYTES, MAX_LINE,
    MAX_PRINTED,
};
use std::fs::{self, File};
use std::io::{self, ErrorKind, Read, Write};
use std::path::Path;
use std::process::{Command, Output, Stdio};

/// The configuration of the paper's example; in ticks T 5, W 3, R 4, C 2. In
/// these tests blanks stand for tabs.
const CFG: &str = "CFG 10 50 30 40 20 0 0 0 0 0 8 0 1 33";
/// The same on a passive channel.
const PASSIVE: &str = "CFG 10 50 30 40 20 0 0 0 0 1 8 0 1 33";
/// The layout of the paper's filter case, with P 3 ticks.
const SHORT: &str = "CFG 10 50 30 40 20 0 0 0 0 0 6 0 1 33";
const PN: &str = "PN 4 2 30 0 0197";

/// What a trace prints.
fn output(text: &[u8]) -> Vec<u8> {
    let mut out = Vec::new();
    run(text, &mut out).unwrap();
    out
}

fn tabbed(line: &str) -> Vec<u8> {
    line.replace(' ', "\t").into_bytes()
}

/// A text of these lines, with a line feed after each.
fn text_of<L: AsRef<[u8]>>(lines: &[L]) -> Vec<u8> {
    lines
        .iter()
        .flat_map(|line| [line.as_ref(), b"\n"].concat())
        .collect()
}

/// Runs lines with blanks for tabs and compares what they print.
fn check(lines: &[&str], expected: &[&str]) {
    let tabbed =
        |lines: &[&str]| text_of(&lines.iter().map(|line| tabbed(line)).collect::<Vec<_>>());
    let printed = output(&tabbed(lines));
    assert_eq!(
        String::from_utf8_lossy(&printed),
        String::from_utf8_lossy(&tabbed(expected)),
        "{lines:?}"
    );
}

/// The lines with so many ticks after them.
fn with_ticks<'a>(lines: &[&'a str], ticks: usize) -> Vec<&'a str> {
    [lines, &vec!["T 1"; ticks]].concat()
}

// The paper's example and cases.

#[test]
fn the_example() {
    let input = b"CFG\t10\t50\t30\t40\t20\t0\t0\t0\t0\t0\t8\t0\t1\t33\nPAS\n\
        T\t1\nT\t1\nT\t1\nT\t1\nT\t1\nT\t1\nT\t1\nT\t1\n";
    let expected = b"1\t0\tB\t-\t-\n\
        2\t0\tR\tNM\t-\n\
        3\t0\tR\t-\t2100FFFFFFFFFFFF\n\
        4\t0\tR\t-\t-\n\
        5\t0\tR\t-\t2100FFFFFFFFFFFF\n\
        6\t0\tS\t-\t-\n\
        7\t0\tP\tPB\t-\n\
        8\t0\tP\t-\t-\n\
        9\t0\tP\t-\t-\n\
        10\t0\tB\tBS\t-\n";
    assert_eq!(output(input), expected);
}

#[test]
fn case_rule_3_compares_ticks() {
    check(&["CFG 20 50 30 40 20 15 0 0 0 0 8 0 1 33"], &["1 2 - - -"]);
    check(&["CFG 20 50 30 40 20 0 0 0 0 0 8 0 1 33"], &["1 0 B - -"]);
}

#[test]
fn case_nm_timer_before_repeat_timer() {
    // T = 4, R = 4, W = 3 ticks: TO in tick 4, Prepare in tick 8, Bus-Sleep in
    // tick 11.
    let lines = with_ticks(&["CFG 10 40 30 40 20 0 0 0 0 1 8 0 1 33", "PAS"], 11);
    let expected = [
        "1 0 B - -",
        "2 0 R NM -",
        "3 0 R - -",
        "4 0 R - -",
        "5 0 R - -",
        "6 0 S TO -",
        "7 0 S - -",
        "8 0 S - -",
        "9 0 S - -",
        "10 0 P PB -",
        "11 0 P - -",
        "12 0 P - -",
        "13 0 B BS -",
    ];
    check(&lines, &expected);
}

#[test]
fn case_filter() {
    let lines = [
        SHORT,
        PN,
        "PNA",
        "RX 074000000068",
        "RX 07400000FE68",
        "RX 074000000080",
        "RX 074000000100",
        "RX 070000000100",
    ];
    let expected = [
        "1 0 B - -",
        "3 0 B - -",
        "4 0 B - -",
        "5 0 B - -",
        "6 0 B ST,EI,ER -",
        "7 0 B ST,EI,ER -",
        "8 0 B - -",
    ];
    check(&lines, &expected);
    // With all messages keeping awake the filter drops none.
    let lines = [SHORT, "PN 4 2 30 1 0197", "PNA", "RX 070000000100"];
    check(&lines, &["1 0 B - -", "3 0 B - -", "4 0 B ST -"]);
}

#[test]
fn case_pdu_in_bus_sleep_and_prepare() {
    let mut lines = with_ticks(&[CFG, "RX 0701000000000000", "PAS"], 5);
    lines.push("RX 0701000000000000");
    let expected = [
        "1 0 B - -",
        "2 0 B ST -",
        "3 0 R NM -",
        "4 0 R - 2100FFFFFFFFFFFF",
        "5 0 R - -",
        "6 0 R - 2100FFFFFFFFFFFF",
        "7 0 S - -",
        "8 0 P PB -",
        "9 0 R NM -",
    ];
    check(&lines, &expected);
}

#[test]
fn case_refusals() {
    let lines = [
        CFG,
        "PAS",
        "PAS",
        "RMR",
        "RX 07000000000000",
        "PNA",
        "PNR 00",
    ];
    let expected = [
        "1 0 B - -",
        "2 0 R NM -",
        "3 3 R - -",
        "4 3 R - -",
        "5 5 R - -",
        "6 6 R - -",
        "7 6 R - -",
    ];
    check(&lines, &expected);
    let lines = [
        PASSIVE, "DIS", "ENA", "REQ", "REL", "RMR", "OK", "BAD", "UD 00", "PNR 00", "PNA", "PAS",
    ];
    let expected = [
        "1 0 B - -",
        "2 4 B - -",
        "3 4 B - -",
        "4 4 B - -",
        "5 4 B - -",
        "6 4 B - -",
        "7 4 B - -",
        "8 4 B - -",
        "9 4 B - -",
        "10 4 B - -",
        "11 6 B - -",
        "12 0 R NM -",
    ];
    check(&lines, &expected);
    let lines = [CFG, "DIS", "ENA", "REL", "BAD", "OK"];
    let expected = [
        "1 0 B - -",
        "2 3 B - -",
        "3 3 B - -",
        "4 0 B - -",
        "5 0 B - -",
        "6 0 B - -",
    ];
    check(&lines, &expected);
}

#[test]
fn case_bounds() {
    check(
        &["CFG 100 500 300 400 200 0 0 0 0 0 8 0 1 33"],
        &["1 0 B - -"],
    );
    check(
        &["CFG 101 500 300 400 200 0 0 0 0 0 8 0 1 33"],
        &["1 2 - - -"],
    );
    check(&["CFG 10 50 30 40 20 0 0 0 0 0 9 0 1 33"], &["1 2 - - -"]);
    check(&["CFG 10 50 30 40 20 0 0 0 0 0 1 - - 0"], &["1 0 B - -"]);
}

// Other behaviour that a trace shows.

#[test]
fn the_message_timer_of_repeat_goes_on_in_normal() {
    let lines = with_ticks(&["CFG 1 9 3 3 3 0 0 0 0 0 2 0 1 33", "REQ"], 6);
    let expected = [
        "1 0 B - -",
        "2 0 R NM -",
        "3 0 R - 2110",
        "4 0 R - -",
        "5 0 N - -",
        "6 0 N - 2110",
        "7 0 N - -",
        "8 0 N - -",
    ];
    check(&lines, &expected);
}

#[test]
fn frames_carry_requests_and_user_data() {
    let lines = [
        SHORT, PN, "UD ABCD", "PNR 0300", "REQ", "T 0", "T 1", "T 1", "T 1", "RMR", "T 1",
    ];
    let expected = [
        "1 0 B - -",
        "3 0 B - -",
        "4 0 B - -",
        "5 0 R NM -",
        "6 0 R - -",
        "7 0 R - -",
        "8 0 R EI 2150ABCD0300",
        "9 0 N - -",
        "10 0 R - -",
        "11 0 R TO 2151ABCD0300",
    ];
    check(&lines, &expected);
}

#[test]
fn remote_sleep_and_its_end() {
    let lines = [
        "CFG 10 50 30 10 20 0 0 0 20 0 8 0 1 33",
        "REQ",
        "T 1",
        "T 1",
        "T 1",
        "RX 0701000000000000",
    ];
    let expected = [
        "1 0 B - -",
        "2 0 R NM -",
        "3 0 N - 2110FFFFFFFFFFFF",
        "4 0 N - -",
        "5 0 N RI 2110FFFFFFFFFFFF",
        "6 0 R RC -",
    ];
    check(&lines, &expected);
}

// The first lines.

#[test]
fn few_bytes_or_none() {
    assert_eq!(output(b""), b"");
    for text in ["\n", "x", "x\n", "\0", "\t\n", "\r\n", "\n\n\nREQ\n"] {
        assert_eq!(output(text.as_bytes()), b"1\t7\t-\t-\t-\n", "{text:?}");
    }
}

#[test]
fn a_last_line_without_line_feed() {
    let line = tabbed(CFG);
    let alone = b"1\t0\tB\t-\t-\n".to_vec();
    assert_eq!(output(&line), alone);
    assert_eq!(output(&text_of(&[&line])), alone);
    let more = [&alone[..], b"2\t7\tB\t-\t-\n"].concat();
    assert_eq!(output(&[&line[..], b"\n\n"].concat()), more);
    assert_eq!(output(&[&line[..], b"\nR"].concat()), more);
    let called = [&alone[..], b"2\t0\tR\tNM\t-\n"].concat();
    assert_eq!(output(&[&line[..], b"\nREQ"].concat()), called);
    assert_eq!(output(&[&line[..], b"\nREQ\n"].concat()), called);
}

#[test]
fn a_configuration_alone() {
    check(&[SHORT, PN], &["1 0 B - -"]);
    let without_feed = [tabbed(SHORT), tabbed(PN)].join(&b'\n');
    assert_eq!(output(&without_feed), b"1\t0\tB\t-\t-\n");
}

/// Lines 1 that break each rule, with the PN line that breaks rule 8.
const BROKEN: [(&str, Option<&str>, u8); 16] = [
    ("CFG 0 50 30 40 20 0 0 0 0 0 8 0 1 33", None, 1),
    ("CFG 4294967306 50 30 40 20 0 0 0 0 0 8 0 1 33", None, 1),
    ("CFG 10 65536 30 40 20 0 0 0 0 0 8 0 1 33", None, 2),
    ("CFG 10 50 30 0 20 0 0 0 0 0 8 0 1 33", None, 2),
    ("CFG 10 50 30 40 20 0 256 1 0 0 8 0 1 33", None, 2),
    ("CFG 10 50 30 40 20 0 0 0 0 0 8 0 1 9999999999", None, 2),
    ("CFG 10 50 30 40 20 11 0 0 0 0 8 0 1 33", None, 3),
    ("CFG 10 50 30 40 20 0 1 0 0 0 8 0 1 33", None, 4),
    ("CFG 10 20 30 40 20 0 0 0 0 0 8 0 1 33", None, 5),
    ("CFG 10 50 30 40 20 0 0 0 0 0 0 0 1 33", None, 6),
    ("CFG 10 50 30 40 20 0 0 0 0 0 8 1 - 33", None, 7),
    ("CFG 10 50 30 40 20 0 0 0 0 0 1 0 1 33", None, 7),
    (SHORT, Some("PN 4 0 30 0 01"), 8),
    (SHORT, Some("PN 4 2 30 0 01"), 8),
    (SHORT, Some("PN 4 2 50 0 0197"), 8),
    (SHORT, Some("PN 9999999999 2 30 0 0197"), 8),
];

#[test]
fn a_broken_rule_ends_the_run() {
    for (cfg, pn, rule) in BROKEN {
        let config = read_cfg(&tabbed(cfg)).unwrap();
        let config = pn.map_or(config, |pn| read_pn(&tabbed(pn), &config).unwrap());
        assert_eq!(first_broken_rule(&config), rule);
        let mut lines = vec![cfg];
        lines.extend(pn);
        check(&lines, &["1 2 - - -"]);
        lines.extend(["REQ", "", "CFG", "T 1"]);
        check(&lines, &["1 2 - - -"]);
    }
    // A PN line that is right does not help, and one that can't be read comes
    // before any rule.
    let cfg = BROKEN[0].0;
    check(&[cfg, PN], &["1 2 - - -"]);
    check(&[cfg, "PN", "REQ"], &["2 7 - - -"]);
}

#[test]
fn an_unreadable_line_1_ends_the_run() {
    let lines = [
        "",
        "CFG",
        "CFG ",
        "cfg 10 50 30 40 20 0 0 0 0 0 8 0 1 33",
        "CFG 10 50 30 40 20 0 0 0 0 0 8 0 1",
        "CFG 10 50 30 40 20 0 0 0 0 0 8 0 1 33 ",
        "CFG 10 50 30 40 20 0 0 0 0 0 8 0 1 33 0",
        " CFG 10 50 30 40 20 0 0 0 0 0 8 0 1 33",
        "CFG  50 30 40 20 0 0 0 0 0 8 0 1 33",
        "CFG 010 50 30 40 20 0 0 0 0 0 8 0 1 33",
        "CFG 10 50 30 40 20 00 0 0 0 0 8 0 1 33",
        "CFG 10000000000 50 30 40 20 0 0 0 0 0 8 0 1 33",
        "CFG 10 50 30 40 20 -1 0 0 0 0 8 0 1 33",
        "CFG +10 50 30 40 20 0 0 0 0 0 8 0 1 33",
        "CFG 10 50 30 40 20 0 0 0 0 2 8 0 1 33",
        "CFG 10 50 30 40 20 0 0 0 0 01 8 0 1 33",
        "CFG 10 50 30 40 20 0 0 0 0  8 0 1 33",
        "CFG 10 50 30 40 20 0 0 0 0 0 8 2 1 33",
        "CFG 10 50 30 40 20 0 0 0 0 0 8 0 -- 33",
        "CFG 10 50 30 40 20 0 0 0 0 0 8 0  33",
        "CFG 10 50 30 40 20 0 0 0 0 0 8 0 1 33\r",
        "CFG 10 50 30 40 20 0 0 0 0 0 8 0 1 A",
        "REQ",
        PN,
    ];
    for line in lines {
        check(&[line], &["1 7 - - -"]);
        check(&[line, PN, "REQ"], &["1 7 - - -"]);
        check(&[line, "PN"], &["1 7 - - -"]);
    }
}

#[test]
fn an_unreadable_pn_line_ends_the_run() {
    let lines = [
        "PN",
        "PN ",
        "PN 4 2 30 0",
        "PN 4 2 30 0 0197 ",
        "PN 4 2 30 0 0197 1",
        "PN 4 2 30 0 ",
        "PN 4 2 30 0 019",
        "PN 4 2 30 0 01a7",
        "PN 4 2 30 0 01G7",
        "PN 4 2 30 2 0197",
        "PN 4 2 30  0197",
        "PN 04 2 30 0 0197",
        "PN 4 10000000000 30 0 0197",
        "PN 4 2 x 0 0197",
        "PN 4 2 30 0 0197\r",
    ];
    for line in lines {
        check(&[SHORT, line], &["2 7 - - -"]);
        check(&[SHORT, line, PN, "REQ"], &["2 7 - - -"]);
    }
}

#[test]
fn other_lines_2() {
    for line in [
        "PNX",
        "PN1 4 2 30 0 0197",
        " PN 4 2 30 0 0197",
        "pn 4",
        "CFG",
        "",
    ] {
        check(
            &[SHORT, line, "PAS"],
            &["1 0 B - -", "2 7 B - -", "3 0 R NM -"],
        );
    }
    check(
        &[SHORT, "PNR 0000", "PAS"],
        &["1 0 B - -", "2 6 B - -", "3 0 R NM -"],
    );
}

#[test]
fn configuration_lines_further_down() {
    let lines = [
        SHORT,
        PN,
        PN,
        SHORT,
        "PAS",
        "PN 4 2 30 1 FFFF",
        CFG,
        "RX 074000000001",
    ];
    let expected = [
        "1 0 B - -",
        "3 7 B - -",
        "4 7 B - -",
        "5 0 R NM -",
        "6 7 R - -",
        "7 7 R - -",
        "8 0 R EI,ER -",
    ];
    check(&lines, &expected);
    check(&[CFG, "REL", PN], &["1 0 B - -", "2 0 B - -", "3 7 B - -"]);
}

// Lines further down.

#[test]
fn an_unreadable_line_changes_nothing() {
    let mut unreadable: Vec<Vec<u8>> = [
        "",
        " ",
        "  ",
        "X",
        "req",
        "REQ ",
        " REQ",
        "REQ 1",
        "REQREQ",
        "RE",
        "OK 1",
        "T",
        "T ",
        "T 2",
        "T 01",
        "T 1 ",
        "T 1 1",
        "T  1",
        "T1",
        "t 1",
        "RX",
        "RX ",
        "RX 1",
        "RX 123",
        "RX 0g",
        "RX 0a",
        "RX 07 00",
        "RX 0700000000000000 ",
        "RX 0x07",
        "RX0700000000000000",
        "UD",
        "UD ",
        "UD 0",
        "PNR",
        "PNR ",
        "PNR 0",
        "CFG",
        "PN",
        "STA",
        "REQ\r",
        "T 1\r",
        "\r",
    ]
    .iter()
    .map(|line| tabbed(line))
    .collect();
    unreadable.extend([b"REQ ".to_vec(), b"T 1".to_vec(), b"RX 07".to_vec()]);
    unreadable.extend([
        vec![0],
        vec![0xFF],
        b"REQ\0".to_vec(),
        b"\xEF\xBB\xBFREQ".to_vec(),
    ]);
    unreadable.extend([vec![b'T'; MAX_LINE + 1], vec![0; 1_000], vec![b'\t'; BLOCK]]);

    // Line 2 is a call, so that a PN line stands further down.
    let calls = ["REQ", "DIS", "ENA", "RX 0700000000000000", "REL"];
    let quiet = with_ticks(&[&[CFG][..], &calls].concat(), 10);
    let quiet: Vec<Vec<u8>> = quiet.iter().map(|line| tabbed(line)).collect();
    let expected = output(&text_of(&quiet));
    let expected: Vec<&[u8]> = lines_of(&expected).collect();
    for line in &unreadable {
        let mut lines = vec![quiet[0].clone()];
        for call in &quiet[1..] {
            lines.extend([call.clone(), line.clone()]);
        }
        let printed = output(&text_of(&lines));
        let printed: Vec<&[u8]> = lines_of(&printed).collect();
        assert_eq!(printed.len(), lines.len(), "{line:?}");
        let mut state = b'B';
        for (place, printed) in printed.iter().enumerate() {
            let (number, rest) = split_number(printed);
            assert_eq!(number, place + 1);
            if place > 0 && place % 2 == 0 {
                let dashes = [b'7', b'\t', state, b'\t', b'-', b'\t', b'-'];
                assert_eq!(rest, dashes, "{line:?}");
            } else {
                let call = place.div_ceil(2);
                assert_eq!(rest, split_number(expected[call]).1, "{line:?}");
                state = rest[2];
            }
        }
    }
}

fn split_number(line: &[u8]) -> (usize, &[u8]) {
    let tab = line.iter().position(|byte| *byte == b'\t').unwrap();
    let number = std::str::from_utf8(&line[..tab]).unwrap();
    (number.parse().unwrap(), &line[tab + 1..])
}

#[test]
fn byte_strings_of_every_length() {
    for length in 1..=50 {
        let bytes = "0A".repeat(length);
        let (rx, ud) = (format!("RX {bytes}"), format!("UD {bytes}"));
        let pnr = format!("PNR {bytes}");
        let answer = |line: &str, right: usize| match length {
            _ if line.len() > MAX_LINE => UNREADABLE,
            _ if length == right => DONE,
            _ => 5,
        };
        // In Network Mode, so that a PDU is not noted.
        let lines = [SHORT, PN, "PAS", &ud, &pnr, &rx];
        let expected = [
            "1 0 B - -".to_string(),
            "3 0 R NM -".to_string(),
            format!("4 {} R - -", answer(&ud, 2)),
            format!("5 {} R - -", answer(&pnr, 2)),
            format!("6 {} R - -", answer(&rx, 6)),
        ];
        check(&lines, &expected.each_ref().map(String::as_str));
    }
    let longest = "00".repeat(MAX_HEX_BYTES);
    assert_eq!(format!("PNR {longest}").len(), MAX_LINE);
}

#[test]
fn no_user_bytes_to_set() {
    let cfg = "CFG 10 50 30 40 20 0 0 0 0 0 2 0 1 33";
    let expected = ["1 0 B - -", "2 7 B - -", "3 7 B - -", "4 5 B - -"];
    check(&[cfg, "UD", "UD ", "UD 00"], &expected);
}

#[test]
fn the_longest_configuration_lines() {
    // Eighty bytes are read, and then rule 1 is broken.
    let longest =
        "CFG 9999999999 9999999999 9999999999 9999999999 9999999999 99999 0 0 0 0 1 0 - 1";
    assert_eq!(longest.len(), MAX_LINE);
    check(&[longest], &["1 2 - - -"]);
    check(&[&format!("{longest}0")], &["1 7 - - -"]);

    let longest = format!("PN 4 2 300 0 {}", "A0".repeat(33));
    assert_eq!(longest.len(), MAX_LINE - 1);
    check(&[SHORT, &longest], &["1 2 - - -"]);
    check(&[SHORT, &longest.replace("300", "3000")], &["1 2 - - -"]);
    check(&[SHORT, &format!("{longest}A0")], &["2 7 - - -"]);
    check(&[SHORT, &format!("{longest}A")], &["2 7 - - -"]);
}

#[test]
fn lines_far_too_long() {
    let long = |start: &str| format!("{start}{}", "0".repeat(3 * BLOCK));
    check(&[&long("CFG ")], &["1 7 - - -"]);
    check(&[SHORT, &long("PN "), "REQ"], &["2 7 - - -"]);
    check(&[BROKEN[0].0, &long("PN ")], &["2 7 - - -"]);
    check(&[BROKEN[0].0, &long("PN")], &["1 2 - - -"]);
    let expected = ["1 0 B - -", "2 7 B - -", "3 0 R NM -"];
    check(&[SHORT, &long("PN"), "PAS"], &expected);
    check(&[SHORT, &long("RX "), "PAS"], &expected);
}

#[test]
fn line_numbers_count_every_line() {
    let mut text = text_of(&[tabbed(CFG)]);
    for number in 2..=100_100 {
        let line: &[u8] = if number % 3 == 0 { b"\n" } else { b"T\t1\n" };
        text.extend_from_slice(line);
    }
    let printed = output(&text);
    let mut expected = 1;
    for line in lines_of(&printed) {
        assert_eq!(split_number(line).0, expected);
        expected += 1;
    }
    assert_eq!(expected, 100_101);
}

// Blocks, and input and output that fail.

/// A reader that gives at most `most` bytes at once, and now and then none
/// because of an interrupt.
struct Pieces<'a> {
    text: &'a [u8],
    most: usize,
    interrupted: bool,
}

impl Read for Pieces<'_> {
    fn read(&mut self, buffer: &mut [u8]) -> io::Result<usize> {
        self.interrupted = !self.interrupted;
        if self.interrupted {
            return Err(ErrorKind::Interrupted.into());
        }
        let end = self.text.len().min(self.most).min(buffer.len());
        self.text.read(&mut buffer[..end])
    }
}

#[test]
fn cuts_do_not_show() {
    let mut long = Vec::new();
    LongTrace::new(3, &mut long).append(&mut long);
    let traces = hard_traces(99).take(40).chain([long]);
    for text in traces.filter(|text| text.len() < 100_000) {
        let expected = output(&text);
        for most in [1, 2, 3, 79, 80, 81, 82, 512, 4_096] {
            let pieces = Pieces {
                text: &text,
                most,
                interrupted: false,
            };
            let mut out = Vec::new();
            run(pieces, &mut out).unwrap();
            assert_eq!(out, expected);
        }
        // The same line by line, in memory that does not grow.
        let (mut trace, mut all) = (Trace::new(), Vec::new());
        let mut out = Vec::with_capacity(MAX_PRINTED);
        for line in lines_of(&text) {
            trace.line(line, &mut out);
            assert!(out.len() <= MAX_PRINTED);
            all.append(&mut out);
        }
        trace.end(&mut out);
        assert!(out.len() <= MAX_PRINTED);
        all.append(&mut out);
        assert_eq!(all, expected);
    }
}

#[test]
fn lines_are_cut_as_their_text_says() {
    let text = b"\nab\n\n\nc\td\n0123\nend";
    let whole: Vec<Vec<u8>> = lines_of(text).map(<[u8]>::to_vec).collect();
    assert_eq!(whole, [&b""[..], b"ab", b"", b"", b"c\td", b"0123", b"end"]);
    for most in 1..=text.len() {
        let (mut lines, mut cut) = (Lines::new(), Vec::new());
        for mut block in text.chunks(most) {
            while let Some(line) = lines.next(&mut block) {
                cut.push(line.to_vec());
            }
        }
        cut.extend(lines.last().map(<[u8]>::to_vec));
        assert_eq!(cut, whole);
        assert_eq!(lines.last(), None);
    }
    assert_eq!(lines_of(b"").count(), 0);
    assert_eq!(lines_of(b"\n").count(), 1);
    // Of a line in several blocks only the start is kept.
    let mut lines = Lines::new();
    for _ in 0..5 {
        assert_eq!(lines.next(&mut &[b'x'; 50][..]), None);
    }
    assert_eq!(
        lines.next(&mut &b"y\n"[..]),
        Some(&[b'x'; MAX_LINE + 1][..])
    );
}

/// A writer with room for so many bytes.
struct Full {
    room: usize,
    largest: usize,
}

impl Write for Full {
    fn write(&mut self, bytes: &[u8]) -> io::Result<usize> {
        self.largest = self.largest.max(bytes.len());
        let taken = bytes.len().min(self.room);
        self.room -= taken;
        if taken == 0 {
            return Err(ErrorKind::BrokenPipe.into());
        }
        Ok(taken)
    }

    fn flush(&mut self) -> io::Result<()> {
        Ok(())
    }
}

/// A reader of ticks without end, which counts what was read.
struct Endless {
    begun: bool,
    read: usize,
}

impl Read for Endless {
    fn read(&mut self, buffer: &mut [u8]) -> io::Result<usize> {
        if !self.begun {
            self.begun = true;
            return text_of(&[tabbed(CFG)]).as_slice().read(buffer);
        }
        let mut count = 0;
        for place in buffer.chunks_exact_mut(4) {
            place.copy_from_slice(b"T\t1\n");
            count += 4;
        }
        self.read += count;
        Ok(count)
    }
}

#[test]
fn a_full_output_ends_the_run() {
    for room in [0, 1, 100, BLOCK, 10 * BLOCK] {
        let mut input = Endless {
            begun: false,
            read: 0,
        };
        let mut output = Full { room, largest: 0 };
        let error = run(&mut input, &mut output).unwrap_err();
        assert_eq!(error.kind(), ErrorKind::BrokenPipe);
        assert!(input.read <= room + 2 * BLOCK);
        assert!(output.largest <= BLOCK);
    }
}

#[test]
fn a_failing_input_ends_the_run() {
    struct Failing(bool);
    impl Read for Failing {
        fn read(&mut self, buffer: &mut [u8]) -> io::Result<usize> {
            if std::mem::replace(&mut self.0, true) {
                return Err(ErrorKind::Other.into());
            }
            text_of(&[tabbed(CFG), tabbed("PAS")])
                .as_slice()
                .read(buffer)
        }
    }
    let mut out = Vec::new();
    let error = run(Failing(false), &mut out).unwrap_err();
    assert_eq!(error.kind(), ErrorKind::Other);
    assert_eq!(out, b"1\t0\tB\t-\t-\n2\t0\tR\tNM\t-\n");
}

// The programs.

const TRACE: &str = env!("CARGO_BIN_EXE_cannm_reference_trace");
const TRACES: &str = env!("CARGO_BIN_EXE_cannm_traces");
const TRACE_COUNTS: &str = env!("CARGO_BIN_EXE_cannm_trace_counts");

fn program(name: &str, arguments: &[&str]) -> Output {
    let mut command = Command::new(name);
    command.args(arguments).stdin(Stdio::null());
    command.output().unwrap()
}

/// A program that failed says so in one line, without a panic.
fn check_failed(output: &Output, status: i32) {
    let message = String::from_utf8_lossy(&output.stderr);
    assert_eq!(output.status.code(), Some(status), "{message}");
    assert_eq!(message.lines().count(), 1, "{message}");
    assert!(!message.contains("panicked"), "{message}");
}

#[test]
fn programs_make_run_and_count_traces() {
    let folder = Path::new(env!("CARGO_TARGET_TMPDIR")).join("traces");
    let place = folder.to_str().unwrap();
    let made = program(TRACES, &["3", "30", place]);
    assert!(made.status.success() && made.stdout.is_empty());
    for (number, text) in hard_traces(3).take(30).enumerate() {
        let file = folder.join(format!("{number:05}.trace"));
        assert_eq!(fs::read(&file).unwrap(), text);
        let ran = program(TRACE, &[file.to_str().unwrap()]);
        assert!(ran.status.success());
        assert_eq!(ran.stdout, output(&text));
    }
    // So few traces do not show every kind.
    let counted = program(TRACE_COUNTS, &[place]);
    check_failed(&counted, 1);
    let expected = Kind::all().len() + 1;
    assert_eq!(lines_of(&counted.stdout).count(), expected);
    fs::remove_dir_all(&folder).unwrap();

    let long = program(TRACES, &["3", "200000", "-"]);
    assert!(long.status.success());
    assert!((200_000..300_000).contains(&long.stdout.len()));
    assert!(program(TRACE, &[]).stdout.is_empty());
}

#[test]
fn programs_that_cannot_go_on() {
    check_failed(&program(TRACE, &["no such file"]), 1);
    check_failed(&program(TRACE, &["one", "two"]), 2);
    check_failed(&program(TRACE_COUNTS, &["no such folder"]), 1);
    check_failed(&program(TRACE_COUNTS, &[]), 2);
    check_failed(&program(TRACES, &["1", "x", "-"]), 2);
    check_failed(&program(TRACES, &["1", "2"]), 2);
}

#[test]
fn a_closed_or_full_output_ends_the_programs() {
    // Far more than the programs write before they find the output closed.
    let mut children = vec![Command::new(TRACES)
        .args(["1", "1000000000000", "-"])
        .stdout(Stdio::piped())
        .stderr(Stdio::piped())
        .spawn()
        .unwrap()];
    let ticks = children[0].stdout.take().unwrap();
    let mut child = Command::new(TRACE)
        .stdin(ticks)
        .stdout(Stdio::piped())
        .stderr(Stdio::piped())
        .spawn()
        .unwrap();
    let mut first = [0; 10];
    child.stdout.take().unwrap().read_exact(&mut first).unwrap();
    assert_eq!(&first, b"1\t0\tB\t-\t-\n");
    children.push(child);
    for child in children {
        check_failed(&child.wait_with_output().unwrap(), 1);
    }

    if let Ok(full) = File::options().write(true).open("/dev/full") {
        let mut command = Command::new(TRACES);
        command.args(["1", "100000", "-"]).stdout(full);
        check_failed(&command.output().unwrap(), 1);
    }
}

// Traces made at random.

#[test]
fn hard_traces_show_every_kind() {
    for seed in [1, 2] {
        let mut counts = Counts::new();
        for text in hard_traces(seed).take(2_000) {
            assert_eq!(counts.add(&text, &output(&text)), Ok(()));
        }
        let missing: Vec<String> = counts.missing().iter().map(Kind::text).collect();
        assert_eq!(missing, [""; 0], "seed {seed}");
    }
}

#[test]
fn the_same_seed_makes_the_same_traces() {
    let taken = |seed, count| hard_traces(seed).take(count).collect::<Vec<_>>();
    assert_eq!(taken(5, 20), taken(5, 30)[..20]);
    assert_ne!(taken(5, 20), taken(6, 20));
}

#[test]
fn hard_traces_agree_with_the_book() {
    let mut calls = 0;
    for text in hard_traces(7).take(400) {
        let lines: Vec<&[u8]> = lines_of(&text).collect();
        let Some(Ok(config)) = lines.first().map(|line| read_cfg(line)) else {
            continue;
        };
        let pn_line = lines.get(1).filter(|line| is_pn_line(line));
        let config = pn_line.map_or(Ok(config), |line| read_pn(line, &config));
        let Some(mut book) = config.ok().and_then(|config| Book::new(&config).ok()) else {
            continue;
        };
        let printed = output(&text);
        let first = 1 + usize::from(pn_line.is_some());
        let pairs = lines[first..].iter().zip(lines_of(&printed).skip(1));
        for (line, printed) in pairs {
            let mut room = [0; MAX_HEX_BYTES];
            let answer = match read_call(line, &mut room) {
                Ok(call) => {
                    let answer = book.answer(&call);
                    book.step(&call);
                    answer
                }
                Err(_) => UNREADABLE,
            };
            let (_, rest) = split_number(printed);
            assert_eq!(rest[0], b'0' + answer);
            assert_eq!(rest[2], book.shown().letter() as u8);
            calls += 1;
        }
    }
    assert!(calls > 20_000, "{calls}");
}

#[test]
fn a_long_trace_is_mostly_readable_and_sleeps() {
    let mut text = Vec::new();
    let mut long = LongTrace::new(1, &mut text);
    while text.len() < 300_000 {
        long.append(&mut text);
    }
    let mut counts = Counts::new();
    assert_eq!(counts.add(&text, &output(&text)), Ok(()));
    let lines = lines_of(&text).count() as u64;
    assert!(counts.of(Kind::Answer(DONE)) > lines * 99 / 100);
    for state in State::ALL {
        assert!(counts.of(Kind::State(Some(state))) > 0, "{state:?}");
    }
    for note in [Note::NM, Note::BS, Note::EI, Note::ER] {
        assert!(counts.of(Kind::Note(note)) > 0, "{note:?}");
    }
    assert!(counts.of(Kind::Frame(8)) > lines / 100);
}

#[test]
fn counts_tell_an_output_that_is_none() {
    let text = text_of(&[tabbed(SHORT), tabbed(PN), tabbed("PAS"), tabbed("T 1")]);
    let good = output(&text);
    let add = |output: &[u8]| Counts::new().add(&text, output);
    assert_eq!(add(&good), Ok(()));
    assert_eq!(add(b""), Err(1));
    assert_eq!(add(b"1\t0\tB\t-\t-\n"), Err(2));
    assert_eq!(add(b"1\t0\tB\t-\n"), Err(1));
    assert_eq!(
        add(b"1\t0\tB\t-\t-\n2\t0\tR\tNM\t-\n3\t0\tR\t-\t-\n"),
        Err(2)
    );
    assert_eq!(add(&[&good[..], b"5\t0\tR\t-\t-\n"].concat()), Err(4));
    assert_eq!(
        add(b"1\t0\tB\t-\t-\n3\t8\tR\tNM\t-\n4\t0\tR\t-\t-\n"),
        Err(2)
    );
    assert_eq!(
        add(b"1\t0\tB\t-\t-\n3\t0\tX\tNM\t-\n4\t0\tR\t-\t-\n"),
        Err(2)
    );
}
