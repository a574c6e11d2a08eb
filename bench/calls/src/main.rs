//! Measures calls of the product beside the same calls of the reference, in one run. Prints what it measures, and then
//! for each call a line: its name, the time of the product and that of the reference, in nanoseconds, parted by tabs.
//!
//! A stretch is many calls of one kind, one after the other, long enough for the clock. The stretches of the two sides
//! take turns, so that what else the machine does slows both, and what they give is compared.

mod channel_calls;
mod host_calls;

use std::time::{Duration, Instant};

/// How many stretches of each side are measured.
const ROUNDS: u32 = 400;

/// What is printed of a call.
struct Row {
    name: String,
    product: f64,
    reference: f64,
}

/// The time of one run, and what it gave.
fn timed<T>(run: impl FnOnce() -> T) -> (Duration, T) {
    let began = Instant::now();
    let outcome = run();
    (began.elapsed(), outcome)
}

/// Measures stretches of `calls` calls of both sides in turn. What the two give has to be the same.
fn measured<T: PartialEq + std::fmt::Debug>(
    name: &str,
    calls: u32,
    mut product: impl FnMut() -> (Duration, T),
    mut reference: impl FnMut() -> (Duration, T),
) -> Row {
    let mut fastest = [Duration::MAX; 2];
    for _ in 0..ROUNDS {
        let (product_time, product_gave) = product();
        let (reference_time, reference_gave) = reference();
        assert_eq!(product_gave, reference_gave, "{name}: the two differ");
        fastest[0] = fastest[0].min(product_time);
        fastest[1] = fastest[1].min(reference_time);
    }
    let [product, reference] = fastest.map(|time| time.as_secs_f64() * 1e9 / f64::from(calls));
    Row {
        name: name.to_string(),
        product,
        reference,
    }
}

/// What is measured.
fn about() -> String {
    let (channel, host) = (channel_calls::CALLS, host_calls::CALLS);
    format!(
        "\
In a run each side makes {ROUNDS} stretches of calls for each row, in turn with the other, and both give the same. The
fastest stretch of each counts.

- Ticks and PDUs: {channel} calls on one channel, which the product takes by value and the reference by `&mut`. Both
  judge in every call whether the channel is sound. It is in Normal Operation, and one tick in ten sends a frame.
- 56 PNCs: all in the mask, the filter on. A PDU before the stretch starts the timers of the active ones in ERA and
  EIRA, and the reset time is longer than the stretch, so that exactly these run in every tick.
- Functions for C, and rules: {host} calls through a pointer to a function. The reference has functions of the same
  signatures. The configurations pass, and each side first puts them together from their numbers, in every call.
- Lent buffers: the frame was cleared before each stretch on both sides, and not between its calls. No other is written."
    )
}

fn main() {
    let mut rows = channel_calls::rows();
    rows.extend(host_calls::rows());
    println!("{}", about());
    for row in rows {
        println!("{}\t{:.3}\t{:.3}", row.name, row.product, row.reference);
    }
}
