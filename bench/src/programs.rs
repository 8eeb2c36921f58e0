//! The built programs, given all rules of two kinds and width 4 as lines: `finite -` beside `decide -`.

use crate::families;
use crate::rounds::{print_row, time_of};
use std::fs::File;
use std::path::{Path, PathBuf};
use std::process::{Command, Stdio};

/// Each runs so many times, in turn, and the least time counts.
const RUNS: usize = 3;

pub fn row_beside_decide() {
    let root = Path::new(env!("CARGO_MANIFEST_DIR")).join("..");
    let lines = root.join("target/rules-of-width-4");
    let rules = write_lines(&lines);
    let mut finite = Command::new(built(&root, "explore"));
    finite.args(["finite", "-"]);
    let mut decide = Command::new(built(&root, "decide"));
    decide.arg("-");
    let mut best = [f64::INFINITY; 2];
    for _ in 0..RUNS {
        best[0] = best[0].min(seconds_of(&mut finite, &lines));
        best[1] = best[1].min(seconds_of(&mut decide, &lines));
    }
    print_row("all of two kinds and width 4, as lines to the programs", rules, best.map(|time| time / rules as f64));
}

fn built(root: &Path, name: &str) -> PathBuf {
    root.join("crates").join(name).join("out").join(name)
}

/// A line for each rule, and how many there are.
fn write_lines(path: &Path) -> usize {
    let rules = families::all_of_width_4();
    let lines: String = rules.iter().map(|rule| format!("{rule}\n")).collect();
    std::fs::write(path, lines).expect("the lines are written");
    rules.len()
}

fn seconds_of(program: &mut Command, lines: &Path) -> f64 {
    program.stdin(File::open(lines).expect("the lines are read")).stdout(Stdio::null());
    let time = time_of(|| {
        let status = program.status().expect("the program runs");
        assert!(status.success(), "{program:?}: {status}");
    });
    time.as_secs_f64()
}
