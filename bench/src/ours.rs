//! The proved library, by its C interface.

use crate::plain::Answer;
use crate::plain_finite::Finite;

/// As `include/undone.h` has it.
#[repr(C)]
#[derive(Clone, Copy)]
struct Numbers {
    answer: u32,
    width: u32,
    place: u32,
    orphan: usize,
    left: usize,
    middle: usize,
    right: usize,
}

/// As `include/undone.h` has it.
#[repr(C)]
#[derive(Clone, Copy)]
struct FiniteNumbers {
    answer: u32,
    left: usize,
    middle: usize,
    right: usize,
    wanted: usize,
}

extern "C" {
    #[allow(clippy::too_many_arguments)]
    fn undone_decide(
        kinds: u32,
        wide: u32,
        table: *const u32,
        table_cells: usize,
        out: *mut u32,
        out_cells: usize,
        work: *mut u32,
        work_words: usize,
    ) -> Numbers;

    #[allow(clippy::too_many_arguments)]
    fn undone_finite(
        kinds: u32,
        wide: u32,
        table: *const u32,
        table_cells: usize,
        out: *mut u32,
        out_cells: usize,
        work: *mut u32,
        work_words: usize,
    ) -> FiniteNumbers;

    #[allow(clippy::too_many_arguments)]
    fn undone_steps(
        kinds: u32,
        wide: u32,
        table: *const u32,
        table_cells: usize,
        place: usize,
        seconds: u64,
        row: *mut u32,
        row_cells: usize,
        spare: *mut u32,
        spare_cells: usize,
    ) -> u32;
}

/// What a question about a rule is asked by: kinds, width, table, `out` and words of work, each slice a pointer and its length.
type Question<T> = unsafe extern "C" fn(u32, u32, *const u32, usize, *mut u32, usize, *mut u32, usize) -> T;

fn ask<T>(question: Question<T>, kinds: u32, wide: u32, table: &[u32], out: &mut [u32], work: &mut [u32]) -> T {
    let (cells, words) = (out.len(), work.len());
    // The lengths are those of the slices, none of which overlaps another.
    unsafe { question(kinds, wide, table.as_ptr(), table.len(), out.as_mut_ptr(), cells, work.as_mut_ptr(), words) }
}

pub const WORK: usize = 524_288;

pub fn decide(kinds: u32, wide: u32, table: &[u32], out: &mut [u32], work: &mut [u32]) -> Answer {
    let told = ask(undone_decide, kinds, wide, table, out, work);
    match told.answer {
        1 => Answer::Undone { width: told.width, place: told.place },
        2 => Answer::Orphan { cells: told.orphan },
        3 => Answer::Twins { left: told.left, mid: told.middle, right: told.right },
        4 => Answer::UndoneFull { width: told.width, place: told.place },
        5 => Answer::OrphanFull { cells: told.orphan },
        _ => Answer::NoRule,
    }
}

pub const FINITE_WORK: usize = 4096;

/// So many cells of `out` always suffice.
pub const FINITE_ROWS: usize = 1024;

pub fn find_twins(kinds: u32, wide: u32, table: &[u32], out: &mut [u32], work: &mut [u32]) -> Finite {
    let told = ask(undone_finite, kinds, wide, table, out, work);
    match told.answer {
        1 => Finite::Twins { left: told.left, mid: told.middle, right: told.right },
        2 => Finite::NoTwins,
        3 => Finite::Full(told.wanted),
        _ => Finite::NoRule,
    }
}

/// Whether the last row stands in `spare`.
#[allow(clippy::too_many_arguments)]
pub fn steps(kinds: u32, wide: u32, table: &[u32], place: usize, seconds: u64, row: &mut [u32], spare: &mut [u32]) -> bool {
    let told = unsafe {
        undone_steps(
            kinds,
            wide,
            table.as_ptr(),
            table.len(),
            place,
            seconds,
            row.as_mut_ptr(),
            row.len(),
            spare.as_mut_ptr(),
            spare.len(),
        )
    };
    assert!(told < 2, "a ring was refused: {told}");
    told == 1
}
