//! A second, plain implementation of one CanNm channel, written from the
//! requirement paper alone. It exists to be compared with the product, in what
//! it gives and in how long it takes, and shares no code with it.
//!
//! "Rule n" in the comments is configuration rule n of paper 01; a "refusal"
//! is an answer other than 0 from its table of answers.
//!
//! Channel and trace allocate nothing for a call, a line or a block: byte
//! strings are borrowed from the caller.

#![forbid(unsafe_code)]
#![warn(missing_docs)]

pub mod answer;
pub mod book;
pub mod call;
pub mod channel;
pub mod config;
pub mod counts;
pub mod feed;
pub mod filter;
pub mod generate;
pub mod host;
pub mod pdu;
pub mod pnc;
pub mod program;
pub mod rng;
pub mod ticks;
pub mod trace;
