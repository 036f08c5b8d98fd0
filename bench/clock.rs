//! Time of a call, and the line that shows it.

use std::hint::black_box;
use std::time::Instant;

const ROUNDS: usize = 60;
/// A turn is one call, or as many as last about this many nanoseconds.
const TURN: u128 = 20_000;

fn nanoseconds<T>(calls: u128, call: &mut impl FnMut() -> T) -> u128 {
    let start = Instant::now();
    for _ in 0..calls {
        black_box(call());
    }
    start.elapsed().as_nanos()
}

/// How many calls make a turn.
fn calls<T>(call: &mut impl FnMut() -> T) -> u128 {
    let mut calls = 1;
    while nanoseconds(calls, call) < TURN / 2 {
        calls *= 2;
    }
    calls
}

/// What else the machine does only adds to a time.
fn least(times: Vec<f64>) -> f64 {
    times.into_iter().fold(f64::INFINITY, f64::min)
}

/// Nanoseconds of a call.
pub fn one<T>(mut call: impl FnMut() -> T) -> f64 {
    let calls = calls(&mut call);
    least((0..ROUNDS).map(|_| nanoseconds(calls, &mut call) as f64 / calls as f64).collect())
}

/// What a turn begins with.
#[derive(Clone, Copy, PartialEq)]
enum Turn {
    /// A timed call, which finds the caches as the other left them.
    Cold,
    /// A call that is not timed, so that the timed ones find the caches as one of their own left them.
    Warm,
}

/// Nanoseconds of two calls that take turns.
fn two<T, U>(rounds: usize, turn: Turn, mut first: impl FnMut() -> T, mut second: impl FnMut() -> U) -> (f64, f64) {
    let (a, b) = (calls(&mut first), calls(&mut second));
    let mut times = (Vec::new(), Vec::new());
    for _ in 0..rounds {
        times.0.push(timed(turn, a, &mut first));
        times.1.push(timed(turn, b, &mut second));
    }
    (least(times.0), least(times.1))
}

fn timed<T>(turn: Turn, calls: u128, call: &mut impl FnMut() -> T) -> f64 {
    if turn == Turn::Warm {
        black_box(call());
    }
    nanoseconds(calls, call) as f64 / calls as f64
}

/// Three or four digits with their unit.
pub fn shown(ns: f64) -> String {
    match ns {
        _ if ns < 10_000.0 => format!("{ns:.1} ns"),
        _ if ns < 10_000_000.0 => format!("{:.1} us", ns / 1e3),
        _ => format!("{:.2} ms", ns / 1e6),
    }
}

pub fn head(title: &str) {
    println!("\n{title:<48}{:>12}{:>12}{:>8}", "ours", "Rust", "ratio");
}

/// A line: what was timed, ours, the Rust's, and ours divided by the Rust's.
pub fn line<T, U>(what: &str, ours: impl FnMut() -> T, rust: impl FnMut() -> U) {
    let (a, b) = two(ROUNDS, Turn::Warm, ours, rust);
    println!("  {what:<46}{:>12}{:>12}{:>8.2}", shown(a), shown(b), a / b);
}

pub fn growth_head(title: &str) {
    println!("\n{title:<26}{:<20}{:>12}{:>12}{:>8}", "", "1,024", "4,096", "times");
}

/// How much longer a call takes at 4,096 buses than at 1,024: the two taking turns, each by itself,
/// and each right after the Rust's call of the same size.
pub fn growth<T, U, V, W>(
    what: &str,
    mut small: impl FnMut() -> T,
    mut large: impl FnMut() -> U,
    rust_small: impl FnMut() -> V,
    rust_large: impl FnMut() -> W,
) {
    let turns = two(4 * ROUNDS, Turn::Cold, &mut small, &mut large);
    let alone = (one(&mut small), one(&mut large));
    let after = (two(ROUNDS, Turn::Cold, small, rust_small).0, two(ROUNDS, Turn::Cold, large, rust_large).0);
    for (measure, (a, b)) in [("in turns", turns), ("by itself", alone), ("after the Rust's", after)] {
        println!("  {what:<24}{measure:<20}{:>12}{:>12}{:>8.2}", shown(a), shown(b), b / a);
    }
}
