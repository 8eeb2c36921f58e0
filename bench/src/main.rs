//! The proved library side by side with plain Rust: the same rules in one process, every answer compared.

mod families;
mod finite;
mod ours;
mod plain;
mod plain_finite;
mod programs;
mod rounds;

use families::{Random, Rule};
use plain::{Answer, Plain};
use rounds::{best_times, print_row, print_title, slowest, ROUNDS};
use std::time::Instant;

const CELLS: usize = 262_144;

struct Desk {
    plain: Plain,
    work: Vec<u32>,
    ours: Vec<u32>,
    theirs: Vec<u32>,
}

fn main() {
    let mut desk = Desk {
        plain: Plain::new(),
        work: vec![0; ours::WORK],
        ours: vec![0; CELLS],
        theirs: vec![0; CELLS],
    };
    let mut random = Random::new(1);
    let slow = slowest(families::many_of_16_blocks(&mut random), |rule| {
        ours::decide(rule.kinds, rule.wide, &rule.table, &mut desk.ours, &mut desk.work);
    });
    let slow: Vec<Rule> = slow.into_iter().map(|(_, rule)| rule).collect();
    print_title("ours", "plain");
    decide_row(&mut desk, "(a) all of two kinds and width 4", &families::all_of_width_4());
    decide_row(&mut desk, "(b) at random, of all sizes", &families::of_all_sizes(&mut random, 10_000));
    decide_row(&mut desk, "(c) permutive and nearly so, of 16 blocks", &families::of_16_blocks(&mut random, 240));
    decide_row(&mut desk, "(d) the slowest that a search found", &slow);
    for kinds in [2, 4, 16] {
        ring_rows(&mut random, kinds);
    }
    finite::rows(&mut random);
    print_title("finite", "decide");
    finite::row_beside_decide();
    programs::row_beside_decide();
}

/// Both decide all rules; the time is for each rule.
fn decide_row(desk: &mut Desk, name: &str, rules: &[Rule]) {
    let best = best_times(
        rules,
        |rule| ours::decide(rule.kinds, rule.wide, &rule.table, &mut desk.ours, &mut desk.work),
        |rule| desk.plain.decide(rule.kinds, rule.wide, &rule.table, &mut desk.theirs),
    );
    for rule in rules {
        compare(desk, rule);
    }
    print_row(name, rules.len(), best);
}

/// Ways back and orphans are the same cell for cell; two rows are any two of one next row.
fn compare(desk: &mut Desk, rule: &Rule) {
    let ours = ours::decide(rule.kinds, rule.wide, &rule.table, &mut desk.ours, &mut desk.work);
    let theirs = desk.plain.decide(rule.kinds, rule.wide, &rule.table, &mut desk.theirs);
    let same = match (ours, theirs) {
        (Answer::Twins { left, mid, right }, Answer::Twins { left: l, mid: m, right: r }) => {
            are_twins(rule, left, mid, right, &desk.ours) && are_twins(rule, l, m, r, &desk.theirs)
        }
        (Answer::Undone { width, .. }, _) => {
            let cells = rule.kinds.pow(width) as usize;
            ours == theirs && desk.ours[..cells] == desk.theirs[..cells]
        }
        (Answer::Orphan { cells }, _) => ours == theirs && desk.ours[..cells] == desk.theirs[..cells],
        _ => ours == theirs,
    };
    assert!(same, "{} {} {:?}: {ours:?} and {theirs:?}", rule.kinds, rule.wide, rule.table);
}

/// Different middles, and one next row with up to a width of copies on both sides.
fn are_twins(rule: &Rule, left: usize, mid: usize, right: usize, cells: &[u32]) -> bool {
    let (first, rest) = cells.split_at(left + mid + right);
    let second = &rest[..left + mid + right];
    let next = |row: &[u32], copies: usize| -> Vec<u32> {
        let mut all = row[..left].repeat(copies);
        all.extend_from_slice(&row[left..left + mid]);
        all.extend(row[left + mid..].repeat(copies));
        rule.next_row(&all)
    };
    first[left..left + mid] != second[left..left + mid]
        && (0..=rule.wide as usize).all(|copies| next(first, copies) == next(second, copies))
}

/// Seconds of 12,000 cells, by a rule and by a way back: a rule of width 3 (16 kinds: 2) and a table of width 4 (16: 3).
fn ring_rows(random: &mut Random, kinds: u32) {
    let (there, back) = if kinds == 16 { (2, 3) } else { (3, 4) };
    for (name, wide, place) in [("forwards", there, 0), ("by a way back", back, 2)] {
        let rule = families::uniform(random, (kinds, wide));
        let row: Vec<u32> = (0..12_000).map(|_| random.below(kinds)).collect();
        let best = ring_times(&rule, place, &row);
        print_row(&format!("(e) a second of 12,000 cells, {kinds} kinds, {name}"), 1, best);
    }
}

fn ring_times(rule: &Rule, place: usize, row: &[u32]) -> [f64; 2] {
    let mut best = [f64::INFINITY; 2];
    let seconds = 1000;
    for _ in 0..ROUNDS {
        let (mut ours, mut spare) = (row.to_vec(), row.to_vec());
        let start = Instant::now();
        let swapped = ours::steps(rule.kinds, rule.wide, &rule.table, place, seconds, &mut ours, &mut spare);
        best[0] = best[0].min(start.elapsed().as_secs_f64());
        let (mut plain, mut other) = (row.to_vec(), row.to_vec());
        let start = Instant::now();
        for _ in 0..seconds {
            plain::step(rule.kinds, rule.wide, &rule.table, place, &plain, &mut other);
            std::mem::swap(&mut plain, &mut other);
        }
        best[1] = best[1].min(start.elapsed().as_secs_f64());
        assert!(plain == if swapped { spare } else { ours }, "the rows differ");
    }
    best.map(|time| time / seconds as f64)
}
