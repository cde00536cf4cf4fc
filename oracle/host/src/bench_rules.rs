//! The conversion of seconds alone, by both rules, against the Rust's `round` and `round_ties_even`: a call for each of 1,000 seconds. All four are called by one and the same loop.
use crate::bench::best;
use crate::port::{Turn, S_TO_MS};
use crate::rng::Rng;
use crate::rules::{self, AWAY, TO_EVEN};
use std::hint::black_box;

const COUNT: usize = 1000;

/// Seconds whose product with 1000.0 is a half, behind odd and even whole numbers.
fn halves() -> Vec<f64> {
    let near = |ms: u64| (ms as f64 + 0.5) / 1000.0;
    (0..).map(near).filter(|s| (s * 1000.0).fract() == 0.5).take(COUNT).collect()
}

/// Seconds of milliseconds up to 16 minutes, and anything between two of them.
fn ordinary() -> Vec<f64> {
    let mut r = Rng::new(1);
    (0..COUNT).map(|_| (r.below(1_000_000) as f64 + r.below(1000) as f64 / 1000.0) / 1000.0).collect()
}

fn seconds_of(sort: &str) -> Vec<f64> {
    match sort {
        "halves" => halves(),
        "ordinary" => ordinary(),
        "zero" => vec![0.0; COUNT],
        _ => panic!("no seconds are called {sort}"),
    }
}

/// The Rust's conversions, called as the port's is; each has its own rule.
extern "C" fn rust_away(seconds: f64, _: u8) -> u64 {
    (seconds * 1000.0).round() as u32 as u64
}

extern "C" fn rust_to_even(seconds: f64, _: u8) -> u64 {
    rules::to_even(seconds) as u64
}

/// The conversions by name, each with its rule.
const TURNS: [(&str, Turn, u8); 4] = [("rust-1", rust_away, AWAY), ("rust-2", rust_to_even, TO_EVEN), ("1", S_TO_MS, AWAY), ("2", S_TO_MS, TO_EVEN)];

/// The sum of what a conversion gives.
#[inline(never)]
fn sum(turn: Turn, rule: u8, seconds: &[f64]) -> u64 {
    seconds.iter().map(|s| unsafe { turn(black_box(*s), rule) }).sum()
}

/// One conversion so often on all seconds of a sort, for a counter of instructions.
pub fn once(what: &str, sort: &str, times: u32) {
    let (_, turn, rule) = TURNS.into_iter().find(|(name, _, _)| *name == what).expect("rust-1, rust-2, 1 or 2");
    let seconds = seconds_of(sort);
    for _ in 0..times {
        black_box(sum(turn, rule, &seconds));
    }
}

fn sort(name: &str) {
    let seconds = &seconds_of(name);
    let sums = TURNS.map(|(_, turn, rule)| sum(turn, rule, seconds));
    assert_eq!(sums[..2], sums[2..], "the milliseconds differ");
    let call = |(_, turn, rule): (&str, Turn, u8)| -> Box<dyn FnMut() + '_> {
        Box::new(move || {
            black_box(sum(black_box(turn), rule, seconds));
        })
    };
    let each: Vec<f64> = best(TURNS.into_iter().map(call).collect()).iter().map(|s| s * 1e9 / COUNT as f64).collect();
    println!("{name}\t{:.3}\t{:.3}\t{:.3}\t{:.3}\t{:.3}", each[0], each[1], each[2], each[3], each[3] / each[2]);
}

pub fn run() {
    println!("seconds\treference by rule 1, ns\tby rule 2, ns\tport by rule 1, ns\tby rule 2, ns\tport, 2 / 1");
    ["halves", "ordinary", "zero"].into_iter().for_each(sort);
}
