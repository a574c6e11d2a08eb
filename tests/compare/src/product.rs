//! The functions of the proved libraries, called as a C host calls them.

/// How many numbers a configuration is handed over as.
pub const NUMBERS: usize = 20;
/// How many numbers a whole channel is handed over as.
pub const WORDS: usize = 177;

/// A whole channel.
pub type Words = [u64; WORDS];

/// How many bytes are lent for what one block of a trace, or its end, prints.
pub const PAGE: usize = 38_545;

/// What one block of a trace, or its end, prints, and the bytes behind it.
pub type Page = [u8; PAGE];

/// Before which block of a trace, counted from 0, the count of finished lines is set, and to what.
#[derive(Clone, Copy, Debug, PartialEq, Eq)]
pub struct Preset {
    pub before: u64,
    pub lines: u64,
}

impl Preset {
    /// The lines are counted from 0 on.
    pub const NEVER: Preset = Preset {
        before: u64::MAX,
        lines: 0,
    };
}

#[repr(C)]
#[derive(Clone, Copy, Debug, PartialEq, Eq)]
pub struct Ticks {
    pub answer: u32,
    pub rule: u32,
    pub ticks: u32,
}

#[repr(C)]
#[derive(Clone, Copy, Debug, PartialEq, Eq)]
pub struct Filter {
    pub answer: u32,
    pub keep: u32,
}

#[repr(C)]
#[derive(Clone, Copy, Debug, PartialEq, Eq)]
pub struct Header {
    pub answer: u32,
    pub rule: u32,
    pub sni: u32,
    pub cbv: u32,
}

#[repr(C)]
#[derive(Clone, Copy, Debug, PartialEq, Eq)]
pub struct Composed {
    pub answer: u32,
    pub rule: u32,
}

#[repr(C)]
#[derive(Clone, Copy, Debug, PartialEq, Eq)]
pub struct Place {
    pub inside: u32,
    pub value: u32,
}

#[repr(C)]
#[derive(Clone, Copy, Debug, PartialEq, Eq)]
pub struct Begun {
    pub answer: u32,
    pub rule: u32,
}

/// The notes are numbers: 0 none, 1 NM, 2 ST, 3 PB, 4 BS, 5 TO, 6 RC, 7 RI.
#[repr(C)]
#[derive(Clone, Copy, Debug, PartialEq, Eq)]
pub struct Called {
    pub answer: u32,
    pub rule: u32,
    pub first: u32,
    pub second: u32,
    pub ei: u32,
    pub er: u32,
    pub sent: u32,
}

#[repr(C)]
#[derive(Clone, Copy, Debug, PartialEq, Eq)]
pub struct Shown {
    pub answer: u32,
    pub rule: u32,
    pub state: u32,
    pub count: u32,
    pub lowest: u32,
}

/// A whole trace in blocks: the bytes that the blocks printed, whether they had room or not, the finished lines
/// and the bytes kept of the unfinished one; then, of the end of the input, where on the page its output ends,
/// and the finished lines after it.
#[repr(C)]
#[derive(Clone, Copy, Debug, PartialEq, Eq)]
pub struct InBlocks {
    pub printed: u64,
    pub lines: u64,
    pub kept: u64,
    pub end_at: u64,
    pub end_lines: u64,
}

/// One block of a trace: where on the page its output ends, and the counts after it.
#[repr(C)]
#[derive(Clone, Copy, Debug, PartialEq, Eq)]
pub struct AfterBlock {
    pub answer: u64,
    pub at: u64,
    pub lines: u64,
    pub kept: u64,
}

/// The functions as the libraries export them.
pub mod raw {
    use super::{
        AfterBlock, Begun, Called, Composed, Filter, Header, InBlocks, Page, Place, Shown, Ticks,
    };

    extern "C" {
        // libcannm_c.a, as include/cannm.h declares them
        pub fn cannm_ticks(period_ms: u32, time_ms: u32) -> Ticks;
        pub fn cannm_pn_filter(
            all_keep_awake: u32,
            cbv: u32,
            pn: *const u8,
            pn_length: usize,
            mask: *const u8,
            mask_length: usize,
        ) -> Filter;
        pub fn cannm_read_pdu(
            length: u32,
            sni_position: u32,
            cbv_position: u32,
            pdu: *const u8,
            pdu_length: usize,
        ) -> Header;

        // libtest_host.a
        pub fn test_first_broken_rule(
            numbers: *const u64,
            numbers_length: usize,
            mask: *const u8,
            mask_length: usize,
        ) -> u32;
        pub fn test_compose(
            numbers: *const u64,
            numbers_length: usize,
            mask: *const u8,
            mask_length: usize,
            sni: u32,
            cbv: u32,
            pn: *const u8,
            pn_length: usize,
            user: *const u8,
            user_length: usize,
            frame: *mut u8,
            frame_length: usize,
        ) -> Composed;
        pub fn test_read(
            numbers: *const u64,
            numbers_length: usize,
            mask: *const u8,
            mask_length: usize,
            pdu: *const u8,
            pdu_length: usize,
            pn: *mut u8,
            pn_length: usize,
            user: *mut u8,
            user_length: usize,
        ) -> Header;
        pub fn test_pnc_number(start: u32, length: u32, bit: u32) -> Place;
        pub fn test_pnc_bit(start: u32, length: u32, number: u32) -> Place;
        pub fn test_initialise(
            numbers: *const u64,
            numbers_length: usize,
            mask: *const u8,
            mask_length: usize,
            words: *mut u64,
            words_length: usize,
        ) -> Begun;
        pub fn test_call(
            words: *mut u64,
            words_length: usize,
            call: u32,
            flag: u32,
            bytes: *const u8,
            bytes_length: usize,
            frame: *mut u8,
            frame_length: usize,
        ) -> Called;
        pub fn test_status(
            words: *const u64,
            words_length: usize,
            era: *mut u8,
            era_length: usize,
            eira: *mut u8,
            eira_length: usize,
        ) -> Shown;

        // libtrace_host.a
        pub fn test_trace_page() -> u64;
        pub fn test_trace_in_blocks(
            text: *const u8,
            text_length: usize,
            ends: *const u64,
            ends_length: usize,
            preset_before: u64,
            preset: u64,
            answers: *mut u8,
            answers_length: usize,
            out: *mut u8,
            out_length: usize,
            page: *mut Page,
        ) -> InBlocks;
        pub fn test_trace_block(
            text: *const u8,
            text_length: usize,
            ends: *const u64,
            ends_length: usize,
            preset_before: u64,
            preset: u64,
            block: *const u8,
            block_length: usize,
            page: *mut Page,
        ) -> AfterBlock;
    }
}

/// Where a string starts; NULL if it is empty, as the C interface allows.
fn start_of(bytes: &[u8]) -> *const u8 {
    if bytes.is_empty() {
        std::ptr::null()
    } else {
        bytes.as_ptr()
    }
}

pub fn ticks(period_ms: u32, time_ms: u32) -> Ticks {
    // SAFETY: the function takes numbers alone.
    unsafe { raw::cannm_ticks(period_ms, time_ms) }
}

pub fn pn_filter(all_keep_awake: u32, cbv: u32, pn: &[u8], mask: &[u8]) -> Filter {
    // SAFETY: each pointer is lent with the length of its string, NULL only with length 0.
    unsafe {
        raw::cannm_pn_filter(
            all_keep_awake,
            cbv,
            start_of(pn),
            pn.len(),
            start_of(mask),
            mask.len(),
        )
    }
}

pub fn read_pdu(length: u32, sni_position: u32, cbv_position: u32, pdu: &[u8]) -> Header {
    // SAFETY: the pointer is lent with the length of its string, NULL only with length 0.
    unsafe { raw::cannm_read_pdu(length, sni_position, cbv_position, start_of(pdu), pdu.len()) }
}

pub fn first_broken_rule(numbers: &[u64; NUMBERS], mask: &[u8]) -> u32 {
    // SAFETY: each pointer is lent with the length of its slice.
    unsafe {
        raw::test_first_broken_rule(numbers.as_ptr(), numbers.len(), mask.as_ptr(), mask.len())
    }
}

pub fn compose(
    numbers: &[u64; NUMBERS],
    mask: &[u8],
    (sni, cbv): (u8, u8),
    pn: &[u8],
    user: &[u8],
    frame: &mut [u8],
) -> Composed {
    // SAFETY: each pointer is lent with the length of its slice, and the frame alone is written.
    unsafe {
        raw::test_compose(
            numbers.as_ptr(),
            numbers.len(),
            mask.as_ptr(),
            mask.len(),
            sni.into(),
            cbv.into(),
            pn.as_ptr(),
            pn.len(),
            user.as_ptr(),
            user.len(),
            frame.as_mut_ptr(),
            frame.len(),
        )
    }
}

pub fn read(
    numbers: &[u64; NUMBERS],
    mask: &[u8],
    pdu: &[u8],
    pn: &mut [u8],
    user: &mut [u8],
) -> Header {
    // SAFETY: each pointer is lent with the length of its slice, and only `pn` and `user`, which do
    // not overlap, are written.
    unsafe {
        raw::test_read(
            numbers.as_ptr(),
            numbers.len(),
            mask.as_ptr(),
            mask.len(),
            pdu.as_ptr(),
            pdu.len(),
            pn.as_mut_ptr(),
            pn.len(),
            user.as_mut_ptr(),
            user.len(),
        )
    }
}

pub fn pnc_number(start: u32, length: u32, bit: u32) -> Place {
    // SAFETY: the function takes numbers alone.
    unsafe { raw::test_pnc_number(start, length, bit) }
}

pub fn pnc_bit(start: u32, length: u32, number: u32) -> Place {
    // SAFETY: the function takes numbers alone.
    unsafe { raw::test_pnc_bit(start, length, number) }
}

/// Initialises a channel; what the words hold before is no part of the outcome.
pub fn initialise(numbers: &[u64; NUMBERS], mask: &[u8]) -> (Begun, Words) {
    let mut words = [u64::MAX; WORDS];
    // SAFETY: each pointer is lent with the length of its slice, and the words alone are written.
    let begun = unsafe {
        raw::test_initialise(
            numbers.as_ptr(),
            numbers.len(),
            mask.as_ptr(),
            mask.len(),
            words.as_mut_ptr(),
            words.len(),
        )
    };
    (begun, words)
}

/// Any call but status, by its number.
pub fn call(words: &mut Words, call: u32, flag: bool, bytes: &[u8], frame: &mut [u8]) -> Called {
    // SAFETY: each pointer is lent with the length of its slice, and only the words and the frame, which do
    // not overlap, are written.
    unsafe {
        raw::test_call(
            words.as_mut_ptr(),
            words.len(),
            call,
            flag.into(),
            bytes.as_ptr(),
            bytes.len(),
            frame.as_mut_ptr(),
            frame.len(),
        )
    }
}

/// The status, with ERA and EIRA in the lent bytes.
pub fn status(words: &Words, era: &mut [u8], eira: &mut [u8]) -> Shown {
    // SAFETY: each pointer is lent with the length of its slice, and only the two vectors, which do not
    // overlap, are written.
    unsafe {
        raw::test_status(
            words.as_ptr(),
            words.len(),
            era.as_mut_ptr(),
            era.len(),
            eira.as_mut_ptr(),
            eira.len(),
        )
    }
}

/// A page is lent without its length. Panics if the library takes another number of bytes for one than `PAGE`.
fn check_page() {
    // SAFETY: the function takes nothing.
    let taken = unsafe { raw::test_trace_page() };
    assert_eq!(taken, PAGE as u64, "the bytes of a page");
}

/// A trace in blocks, each ending before the byte that `ends` names, and then the end of the input, with a page
/// for what that prints.
pub fn trace_in_blocks(
    text: &[u8],
    ends: &[u64],
    preset: Preset,
    answers: &mut [u8],
    out: &mut [u8],
    page: &mut Page,
) -> InBlocks {
    check_page();
    // SAFETY: each pointer but the last is lent with the length of its slice; the page has the length that the
    // function takes it for. Only the answers, the output and the page, which do not overlap, are written.
    unsafe {
        raw::test_trace_in_blocks(
            text.as_ptr(),
            text.len(),
            ends.as_ptr(),
            ends.len(),
            preset.before,
            preset.lines,
            answers.as_mut_ptr(),
            answers.len(),
            out.as_mut_ptr(),
            out.len(),
            page,
        )
    }
}

/// One block behind the others of a trace, whose output is thrown away.
pub fn trace_block(
    text: &[u8],
    ends: &[u64],
    preset: Preset,
    block: &[u8],
    page: &mut Page,
) -> AfterBlock {
    check_page();
    // SAFETY: each pointer but the last is lent with the length of its slice; the page has the length that the
    // function takes it for, and it alone is written.
    unsafe {
        raw::test_trace_block(
            text.as_ptr(),
            text.len(),
            ends.as_ptr(),
            ends.len(),
            preset.before,
            preset.lines,
            block.as_ptr(),
            block.len(),
            page,
        )
    }
}
