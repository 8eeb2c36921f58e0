//! Two rows that differ at finitely many places: the proved search beside the plain one, and beside the decision.

use crate::families::{self, Random, Rule};
use crate::ours;
use crate::plain_finite::{Finite, PlainFinite};
use crate::rounds::{best_times, print_row, slowest};

struct Desk {
    plain: PlainFinite,
    work: Vec<u32>,
    ours: Vec<u32>,
    theirs: Vec<u32>,
}

impl Desk {
    fn new() -> Desk {
        Desk {
            plain: PlainFinite::new(),
            work: vec![0; ours::FINITE_WORK],
            ours: vec![0; ours::FINITE_ROWS],
            theirs: vec![0; ours::FINITE_ROWS],
        }
    }

    fn run_ours(&mut self, rule: &Rule) -> Finite {
        ours::find_twins(rule.kinds, rule.wide, &rule.table, &mut self.ours, &mut self.work)
    }

    fn run_plain(&mut self, rule: &Rule) -> Finite {
        self.plain.find(rule.kinds, rule.wide, &rule.table, &mut self.theirs)
    }
}

pub fn rows(random: &mut Random) {
    let mut desk = Desk::new();
    let mut many = families::many_of_16_blocks(random);
    many.extend(families::of_most_pairs(random, 600));
    let slow = slowest(many, |rule| {
        desk.run_ours(rule);
    });
    row(&mut desk, "(f) finite: all of two kinds and width 4", &families::all_of_width_4());
    row(&mut desk, "(f) finite: at random, of all sizes", &families::of_all_sizes(random, 10_000));
    row(&mut desk, "(f) finite: permutive and nearly so, of 16 blocks", &families::of_16_blocks(random, 240));
    row(&mut desk, "(f) finite: through the most pairs, of 16 blocks", &families::of_most_pairs(random, 240));
    let slow_rules: Vec<Rule> = slow.iter().map(|(_, rule)| rule.clone()).collect();
    row(&mut desk, "(f) finite: the slowest that a search found", &slow_rules);
    let (time, rule) = &slow[0];
    println!("the slowest rule of 16 blocks for finite: {:.3} ms, {}", time.as_secs_f64() * 1e3, rule);
}

/// Both look for twins of all rules; the time is for each rule.
fn row(desk: &mut Desk, name: &str, rules: &[Rule]) {
    let Desk { plain, work, ours: out, theirs } = desk;
    let best = best_times(
        rules,
        |rule| ours::find_twins(rule.kinds, rule.wide, &rule.table, out, work),
        |rule| plain.find(rule.kinds, rule.wide, &rule.table, theirs),
    );
    for rule in rules {
        compare(desk, rule);
    }
    print_row(name, rules.len(), best);
}

/// Both find rows, with middles of one length, or both find none.
fn compare(desk: &mut Desk, rule: &Rule) {
    let (ours, theirs) = (desk.run_ours(rule), desk.run_plain(rule));
    let same = match ours {
        Finite::Twins { left, mid, right } => {
            let cells = left + mid + right;
            ours == theirs
                && are_twins(rule, [left, mid, right], &desk.ours[..2 * cells])
                && are_twins(rule, [left, mid, right], &desk.theirs[..2 * cells])
        }
        _ => ours == theirs,
    };
    assert!(same, "{rule}: {ours:?} and {theirs:?}");
}

/// Middles that differ at their first and last cell between the same blocks, and one next row. What stands farther out
/// changes nothing, since a window that reaches there has no cell of the middle.
fn are_twins(rule: &Rule, [left, mid, right]: [usize; 3], cells: &[u32]) -> bool {
    let (one, other) = cells.split_at(left + mid + right);
    let middle = left..left + mid;
    left == rule.wide as usize - 1
        && right == left
        && one[..left] == other[..left]
        && one[left + mid..] == other[left + mid..]
        && one[middle.start] != other[middle.start]
        && one[middle.end - 1] != other[middle.end - 1]
        && rule.next_row(one) == rule.next_row(other)
}

/// The proved search beside the proved decision.
pub fn row_beside_decide() {
    let mut desk = Desk::new();
    let mut words = vec![0; ours::WORK];
    let mut cells = vec![0; crate::CELLS];
    let rules = families::all_of_width_4();
    let best = best_times(
        &rules,
        |rule| desk.run_ours(rule),
        |rule| ours::decide(rule.kinds, rule.wide, &rule.table, &mut cells, &mut words),
    );
    print_row("all of two kinds and width 4, as calls", rules.len(), best);
}
