//! Times of two programs side by side, and how they are printed.

use crate::families::Rule;
use std::hint::black_box;
use std::time::{Duration, Instant};

/// A measurement is the least of so many rounds, one and the other in turn.
pub const ROUNDS: usize = 5;

/// The seconds that each takes for a rule, on average of the rules.
pub fn best_times<A, B>(rules: &[Rule], mut one: impl FnMut(&Rule) -> A, mut other: impl FnMut(&Rule) -> B) -> [f64; 2] {
    let mut best = [f64::INFINITY; 2];
    for _ in 0..ROUNDS {
        best[0] = best[0].min(seconds_of(rules, &mut one));
        best[1] = best[1].min(seconds_of(rules, &mut other));
    }
    best.map(|seconds| seconds / rules.len() as f64)
}

fn seconds_of<A>(rules: &[Rule], mut run: impl FnMut(&Rule) -> A) -> f64 {
    let start = Instant::now();
    for rule in rules {
        black_box(run(rule));
    }
    start.elapsed().as_secs_f64()
}

/// The 200 rules that take longest, each by the least of three times, the longest first.
pub fn slowest(rules: Vec<Rule>, mut run: impl FnMut(&Rule)) -> Vec<(Duration, Rule)> {
    let mut timed: Vec<(Duration, Rule)> = rules
        .into_iter()
        .map(|rule| {
            let least = (0..3).map(|_| time_of(|| run(&rule))).min();
            (least.unwrap_or_default(), rule)
        })
        .collect();
    timed.sort_by_key(|(time, _)| std::cmp::Reverse(*time));
    timed.truncate(200);
    timed
}

pub fn time_of(run: impl FnOnce()) -> Duration {
    let start = Instant::now();
    run();
    start.elapsed()
}

pub fn print_title(one: &str, other: &str) {
    println!("{:56} {:>8} {:>12} {:>12} {:>7}", "", "rules", one, other, "ratio");
}

pub fn print_row(name: &str, n: usize, [one, other]: [f64; 2]) {
    let micro = 1e6;
    println!("{name:56} {n:8} {:9.3} us {:9.3} us {:7.2}", one * micro, other * micro, one / other);
}
