//! What the comparisons share: random configurations, and the functions of the proved libraries.

pub mod inputs;
pub mod product;

/// The seed of a run that names none.
const DEFAULT_SEED: u64 = 20_240_229;

/// The seed that a program's first argument names, or the default one. An argument that is no number
/// gets the program's usage.
pub fn seed_word(program: &str) -> Result<u64, std::num::ParseIntError> {
    match std::env::args().nth(1) {
        None => Ok(DEFAULT_SEED),
        Some(word) => word
            .parse()
            .inspect_err(|_| eprintln!("usage: {program} [SEED]")),
    }
}
