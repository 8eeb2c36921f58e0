//! Two rows of one next row that differ at finitely many places, in plain Rust, written for speed and on its own: nothing
//! here is taken from the proved library.
//!
//! A breadth-first search over unordered pairs of different blocks, from all that two windows of one cell lead to from a
//! block and itself. The blocks that follow a block by a cell are the bits of a word, so that one step takes all pairs that
//! a cell of the one row leads to.

use crate::plain::{check, Rule};

/// What is told of a rule. The two rows stand first in the cells that were lent.
#[derive(Clone, Copy, PartialEq, Eq, Debug)]
pub enum Finite {
    Twins { left: usize, mid: usize, right: usize },
    NoTwins,
    NoRule,
    /// The rows want so many cells, and fewer were lent.
    Full(usize),
}

/// A pair that is found. Of the first ones `before` is a block, and of the others the place of the pair before.
#[derive(Clone, Copy, Default)]
struct Found {
    first: u8,
    second: u8,
    before: u8,
}

/// Memory that is used again from rule to rule.
pub struct PlainFinite {
    /// For each cell and block, the blocks that follow by a window of that cell.
    masks: [u16; 256],
    /// For each block, the blocks that it is found with.
    met: [u16; 16],
    queue: [Found; 120],
    /// How many are found, and how many of them come from a block and itself.
    tail: usize,
    begun: usize,
}

impl PlainFinite {
    pub fn new() -> PlainFinite {
        PlainFinite { masks: [0; 256], met: [0; 16], queue: [Found::default(); 120], tail: 0, begun: 0 }
    }

    pub fn find(&mut self, kinds: u32, wide: u32, table: &[u32], out: &mut [u32]) -> Finite {
        let Some(rule) = check(kinds, wide, table) else {
            return Finite::NoRule;
        };
        self.write_masks(rule);
        self.begin(rule);
        match self.search(rule) {
            Some((place, block)) => self.write(rule, place, block, out),
            None => Finite::NoTwins,
        }
    }

    fn write_masks(&mut self, rule: Rule) {
        self.masks[..rule.table.len()].fill(0);
        for block in 0..rule.blocks {
            for kind in 0..rule.kinds {
                let window = block * rule.kinds + kind;
                self.masks[rule.table[window] as usize * rule.blocks + block] |= 1 << (window % rule.blocks);
            }
        }
    }

    /// The pairs that a block and itself lead to.
    fn begin(&mut self, rule: Rule) {
        self.met = [0; 16];
        self.tail = 0;
        for block in 0..rule.blocks {
            for kind in 0..rule.kinds {
                let window = block * rule.kinds + kind;
                let first = window % rule.blocks;
                let seconds = self.masks[rule.table[window] as usize * rule.blocks + block] & !(1 << first);
                self.push_all(first, seconds, block);
            }
        }
        self.begun = self.tail;
    }

    /// The place of the first pair from which two windows of one cell lead to the same block, and that block.
    fn search(&mut self, rule: Rule) -> Option<(usize, usize)> {
        let mut head = 0;
        while head < self.tail {
            let Found { first, second, .. } = self.queue[head];
            for kind in 0..rule.kinds {
                let window = first as usize * rule.kinds + kind;
                let block = window % rule.blocks;
                let seconds = self.masks[rule.table[window] as usize * rule.blocks + second as usize];
                if seconds >> block & 1 != 0 {
                    return Some((head, block));
                }
                self.push_all(block, seconds, head);
            }
            head += 1;
        }
        None
    }

    /// Pairs of a block with each of others, as far as they are new.
    #[inline]
    fn push_all(&mut self, first: usize, seconds: u16, before: usize) {
        let mut new = seconds & !self.met[first];
        self.met[first] |= new;
        while new != 0 {
            let second = new.trailing_zeros() as usize;
            new &= new - 1;
            self.met[second] |= 1 << first;
            self.queue[self.tail] = Found { first: first as u8, second: second as u8, before: before as u8 };
            self.tail += 1;
        }
    }

    /// The rows: a block, the last cell of each block on the way, and the last cell of the block where they meet.
    fn write(&self, rule: Rule, place: usize, met: usize, out: &mut [u32]) -> Finite {
        let side = rule.wide - 1;
        let cells = side + self.steps(place) + 1;
        if out.len() < 2 * cells {
            return Finite::Full(2 * cells);
        }
        let (one, rest) = out.split_at_mut(cells);
        let other = &mut rest[..cells];
        let mut at = cells - 1;
        one[at] = (met % rule.kinds) as u32;
        other[at] = one[at];
        let mut place = place;
        loop {
            at -= 1;
            let Found { first, second, before } = self.queue[place];
            one[at] = u32::from(first) % rule.kinds as u32;
            other[at] = u32::from(second) % rule.kinds as u32;
            if place < self.begun {
                write_block(rule, before as usize, &mut one[..side]);
                other[..side].copy_from_slice(&one[..side]);
                return Finite::Twins { left: side, mid: cells - 2 * side, right: side };
            }
            place = before as usize;
        }
    }

    /// How many pairs lie on the way to a place, with its own.
    fn steps(&self, mut place: usize) -> usize {
        let mut steps = 1;
        while place >= self.begun {
            place = self.queue[place].before as usize;
            steps += 1;
        }
        steps
    }
}

fn write_block(rule: Rule, mut block: usize, cells: &mut [u32]) {
    for cell in cells.iter_mut().rev() {
        *cell = (block % rule.kinds) as u32;
        block /= rule.kinds;
    }
}
