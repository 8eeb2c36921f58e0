//! The same question in plain Rust, written for speed and on its own: nothing here is taken from the proved library.
//!
//! Orphans: breadth-first search over sets of blocks, with successor tables over the two bytes of a set once a search
//! has become long. Ways back and twins: the graph of unordered pairs of blocks, whose pairs without a past (or a
//! future) are peeled off one by one.

/// What is told of a rule. What it is about stands first in the cells that were lent.
#[derive(Clone, Copy, PartialEq, Eq, Debug)]
pub enum Answer {
    Undone { width: u32, place: u32 },
    Orphan { cells: usize },
    Twins { left: usize, mid: usize, right: usize },
    /// The answer is known and its cells do not fit.
    UndoneFull { width: u32, place: u32 },
    OrphanFull { cells: usize },
    NoRule,
}

/// After so many sets a search is held to be long, and successor tables are made.
const LONG: usize = 64;

/// A pair that can be walked to, or on from, for ever.
const ENDLESS: u32 = u32::MAX;

/// Memory that is used again from rule to rule.
pub struct Plain {
    /// For each kind and block, the blocks that follow by a window of that cell.
    masks: [u16; 256],
    /// For each kind, the sets that follow a set's lower byte and its upper byte.
    low: Vec<[u16; 256]>,
    high: Vec<[u16; 256]>,
    /// A bit for each set that is found.
    seen: Vec<u64>,
    /// The sets in the order in which they are found, with the place of the set before and the kind that led on.
    queue: Vec<u16>,
    parent: Vec<u16>,
    symbol: Vec<u8>,
    pasts: [u32; 256],
    futures: [u32; 256],
    degrees: [u32; 256],
    stack: Vec<u8>,
}

/// A checked rule.
#[derive(Clone, Copy)]
pub struct Rule<'a> {
    pub kinds: usize,
    pub blocks: usize,
    pub wide: usize,
    pub table: &'a [u32],
}

impl Plain {
    pub fn new() -> Plain {
        Plain {
            masks: [0; 256],
            low: vec![[0; 256]; 16],
            high: vec![[0; 256]; 16],
            seen: vec![0; 1024],
            queue: vec![0; 65_536],
            parent: vec![0; 65_536],
            symbol: vec![0; 65_536],
            pasts: [0; 256],
            futures: [0; 256],
            degrees: [0; 256],
            stack: Vec::with_capacity(256),
        }
    }

    pub fn decide(&mut self, kinds: u32, wide: u32, table: &[u32], out: &mut [u32]) -> Answer {
        let Some(rule) = check(kinds, wide, table) else {
            return Answer::NoRule;
        };
        self.write_masks(rule);
        if let Some(last) = self.search(rule) {
            return self.spell(last, out);
        }
        self.peel(rule, false);
        self.peel(rule, true);
        match self.endless(rule) {
            Some(pair) => self.twins(rule, pair, out),
            None => self.way_back(rule, out),
        }
    }

    fn write_masks(&mut self, rule: Rule) {
        let masks = &mut self.masks[..rule.kinds * rule.blocks];
        masks.fill(0);
        for (window, &cell) in rule.table.iter().enumerate() {
            masks[cell as usize * rule.blocks + window / rule.kinds] |= 1 << (window % rule.blocks);
        }
    }

    /// The set that follows by a kind, block by block.
    #[inline]
    fn follow(&self, rule: Rule, kind: usize, set: u16) -> u16 {
        let masks = &self.masks[kind * rule.blocks..(kind + 1) * rule.blocks];
        let mut rest = set;
        let mut next = 0;
        while rest != 0 {
            next |= masks[rest.trailing_zeros() as usize];
            rest &= rest - 1;
        }
        next
    }

    /// For each byte the union of what follows its highest block and what follows the rest.
    fn write_tables(&mut self, rule: Rule) {
        for kind in 0..rule.kinds {
            let masks = &self.masks[kind * rule.blocks..(kind + 1) * rule.blocks];
            let lower = rule.blocks.min(8);
            fill_byte(&masks[..lower], &mut self.low[kind]);
            fill_byte(&masks[lower..], &mut self.high[kind]);
        }
    }

    /// The place in the queue from which, and the kind by which, the empty set is first come to.
    fn search(&mut self, rule: Rule) -> Option<(usize, u8)> {
        let full = ((1u32 << rule.blocks) - 1) as u16;
        let words = (1usize << rule.blocks).div_ceil(64);
        self.seen[..words].fill(0);
        self.queue[0] = full;
        self.seen[full as usize / 64] |= 1 << (full % 64);
        let mut tail = 1;
        let mut head = 0;
        while head < tail {
            if head == LONG {
                self.write_tables(rule);
            }
            let set = self.queue[head];
            for kind in 0..rule.kinds {
                let next = if head < LONG {
                    self.follow(rule, kind, set)
                } else {
                    self.low[kind][(set & 255) as usize] | self.high[kind][(set >> 8) as usize]
                };
                if next == 0 {
                    return Some((head, kind as u8));
                }
                let bit = 1u64 << (next % 64);
                let word = &mut self.seen[next as usize / 64];
                if *word & bit == 0 {
                    *word |= bit;
                    self.queue[tail] = next;
                    self.parent[tail] = head as u16;
                    self.symbol[tail] = kind as u8;
                    tail += 1;
                }
            }
            head += 1;
        }
        None
    }

    fn spell(&self, (head, last): (usize, u8), out: &mut [u32]) -> Answer {
        let mut cells = 1;
        let mut place = head;
        while place != 0 {
            place = self.parent[place] as usize;
            cells += 1;
        }
        if cells > out.len() {
            return Answer::OrphanFull { cells };
        }
        out[cells - 1] = u32::from(last);
        let mut place = head;
        for i in (0..cells - 1).rev() {
            out[i] = u32::from(self.symbol[place]);
            place = self.parent[place] as usize;
        }
        Answer::Orphan { cells }
    }

    /// For each pair i < j the longest walk that ends (`forwards`: begins) there, peeled off from the pairs that have
    /// none. Equal pairs have endless ones.
    fn peel(&mut self, rule: Rule, forwards: bool) {
        let blocks = rule.blocks;
        let depths = if forwards { &mut self.futures } else { &mut self.pasts };
        self.stack.clear();
        for i in 0..blocks {
            depths[i * blocks + i] = ENDLESS;
            for j in i + 1..blocks {
                let pair = i * blocks + j;
                let mut degree = 0;
                neighbours(rule, forwards, i, j, |_, _| degree += 1);
                self.degrees[pair] = degree;
                depths[pair] = ENDLESS;
                if degree == 0 {
                    depths[pair] = 0;
                    self.stack.push(pair as u8);
                }
            }
        }
        // First come, first served: a pair whose last neighbour is peeled off lies one edge farther than that.
        let mut head = 0;
        while head < self.stack.len() {
            let pair = self.stack[head] as usize;
            head += 1;
            let (stack, degrees) = (&mut self.stack, &mut self.degrees);
            let deep = depths[pair] + 1;
            neighbours(rule, !forwards, pair / blocks, pair % blocks, |i, j| {
                if i != j {
                    let next = i.min(j) * blocks + i.max(j);
                    degrees[next] -= 1;
                    if degrees[next] == 0 {
                        depths[next] = deep;
                        stack.push(next as u8);
                    }
                }
            });
        }
    }

    fn endless(&self, rule: Rule) -> Option<usize> {
        let blocks = rule.blocks;
        (0..blocks)
            .flat_map(|i| (i + 1..blocks).map(move |j| i * blocks + j))
            .find(|&pair| self.pasts[pair] == ENDLESS && self.futures[pair] == ENDLESS)
    }

    /// The least width and place: (v, o) fails exactly if two blocks differ at a place that lies at o, with the past and
    /// the future that v leaves on both sides.
    fn way_back(&self, rule: Rule, out: &mut [u32]) -> Answer {
        let mut width = 1;
        loop {
            for place in 0..width + rule.wide - 1 {
                if self.tells(rule, width, place) {
                    return write_back(rule, width, place, out);
                }
            }
            width += 1;
        }
    }

    fn tells(&self, rule: Rule, width: usize, place: usize) -> bool {
        let blocks = rule.blocks;
        let behind = place.min(width);
        let digit = place - behind;
        let unit = rule.kinds.pow((rule.wide - 2 - digit) as u32);
        for i in 0..blocks {
            for j in i + 1..blocks {
                let pair = i * blocks + j;
                if i / unit % rule.kinds != j / unit % rule.kinds
                    && self.pasts[pair] as usize >= behind
                    && self.futures[pair] as usize >= width - behind
                {
                    return false;
                }
            }
        }
        true
    }

    /// Two rows along a walk back and a walk on from a pair that has both for ever, each until a pair comes again. The
    /// middle has all of the pair, whose blocks differ.
    fn twins(&self, rule: Rule, pair: usize, out: &mut [u32]) -> Answer {
        let (back, (back_from, left)) = self.walk(rule, pair, false);
        let (on, (on_from, right)) = self.walk(rule, pair, true);
        let mid = back_from + on_from + rule.wide - 1;
        let cells = left + mid + right;
        let first = rule.blocks / rule.kinds;
        let old = back[1..=back_from + left].iter().rev();
        for (at, &(i, j)) in old.chain(&on).take(cells).enumerate() {
            out[at] = (i / first) as u32;
            out[cells + at] = (j / first) as u32;
        }
        Answer::Twins { left, mid, right }
    }

    /// The pairs of an endless walk until one comes again and a width on, with the place of the first such and the
    /// length of the round.
    fn walk(&self, rule: Rule, pair: usize, forwards: bool) -> (Vec<(usize, usize)>, (usize, usize)) {
        let blocks = rule.blocks;
        let depths = if forwards { &self.futures } else { &self.pasts };
        let mut path = vec![(pair / blocks, pair % blocks)];
        let mut met = [usize::MAX; 256];
        let round = loop {
            let (i, j) = path[path.len() - 1];
            if met[i * blocks + j] != usize::MAX {
                let from = met[i * blocks + j];
                break (from, path.len() - 1 - from);
            }
            met[i * blocks + j] = path.len() - 1;
            let mut next = None;
            neighbours(rule, forwards, i, j, |a, b| {
                if next.is_none() && depths[a.min(b) * blocks + a.max(b)] == ENDLESS {
                    next = Some((a, b));
                }
            });
            path.push(next.expect("an endless pair has an endless neighbour"));
        };
        for k in 0..rule.wide {
            path.push(path[round.0 + 1 + k % round.1]);
        }
        (path, round)
    }
}

pub fn check(kinds: u32, wide: u32, table: &[u32]) -> Option<Rule<'_>> {
    if kinds < 2 || wide < 2 {
        return None;
    }
    let blocks = kinds.checked_pow(wide - 1)?;
    if blocks > 16 || table.len() != (blocks * kinds) as usize || table.iter().any(|&cell| cell >= kinds) {
        return None;
    }
    Some(Rule { kinds: kinds as usize, blocks: blocks as usize, wide: wide as usize, table })
}

fn fill_byte(masks: &[u16], sets: &mut [u16; 256]) {
    sets[0] = 0;
    for (block, &mask) in masks.iter().enumerate() {
        for set in 0..1 << block {
            sets[(1 << block) + set] = sets[set] | mask;
        }
    }
}

/// The pairs that follow a pair, or precede it, by two windows of one cell.
#[inline]
fn neighbours(rule: Rule, forwards: bool, i: usize, j: usize, mut see: impl FnMut(usize, usize)) {
    let Rule { kinds, blocks, table, .. } = rule;
    for a in 0..kinds {
        let first = if forwards { i * kinds + a } else { a * blocks + i };
        for b in 0..kinds {
            let second = if forwards { j * kinds + b } else { b * blocks + j };
            if table[first] == table[second] {
                if forwards {
                    see(first % blocks, second % blocks);
                } else {
                    see(first / kinds, second / kinds);
                }
            }
        }
    }
}

/// Every piece of `width` windows writes its cell at `place` at the number of its next row.
fn write_back(rule: Rule, width: usize, place: usize, out: &mut [u32]) -> Answer {
    let told = (width as u32, place as u32);
    match rule.kinds.checked_pow(width as u32) {
        Some(cells) if cells <= out.len() => {}
        _ => return Answer::UndoneFull { width: told.0, place: told.1 },
    }
    for block in 0..rule.blocks {
        let cell = match place < rule.wide - 1 {
            true => block / rule.kinds.pow((rule.wide - 2 - place) as u32) % rule.kinds,
            false => 0,
        };
        fill(rule, width, place, rule.wide - 1, block, 0, cell, out);
    }
    Answer::Undone { width: told.0, place: told.1 }
}

/// The pieces that begin with `long` cells, of which `block` are the last, `row` is the next row so far and `cell` is
/// the one that is told.
#[allow(clippy::too_many_arguments)]
fn fill(rule: Rule, left: usize, place: usize, long: usize, block: usize, row: usize, cell: usize, out: &mut [u32]) {
    if left == 0 {
        out[row] = cell as u32;
        return;
    }
    for kind in 0..rule.kinds {
        let window = block * rule.kinds + kind;
        let told = if long == place { kind } else { cell };
        let next = row * rule.kinds + rule.table[window] as usize;
        fill(rule, left - 1, place, long + 1, window % rule.blocks, next, told, out);
    }
}

/// One second on a ring. The window's number rolls along the row; with a power of two kinds it is shifted and masked, and
/// the row is gone through as one slice and the few cells where the ring closes.
pub fn step(kinds: u32, wide: u32, table: &[u32], place: usize, row: &[u32], out: &mut [u32]) {
    let (kinds, wide, n) = (kinds as usize, wide as usize, row.len());
    let start = (n - place % n) % n;
    let mut block = 0;
    for i in 0..wide - 1 {
        block = block * kinds + row[(start + i) % n] as usize;
    }
    let next = (start + wide - 1) % n;
    let (ahead, behind) = out.split_at_mut(n - next);
    if kinds.is_power_of_two() {
        let (shift, mask) = (kinds.trailing_zeros(), table.len() - 1);
        for (cells, row) in [(ahead, &row[next..]), (behind, &row[..next])] {
            for (cell, &new) in cells.iter_mut().zip(row) {
                block = (block << shift | new as usize) & mask;
                *cell = table[block];
            }
        }
    } else {
        let blocks = table.len() / kinds;
        for (cells, row) in [(ahead, &row[next..]), (behind, &row[..next])] {
            for (cell, &new) in cells.iter_mut().zip(row) {
                block = block % blocks * kinds + new as usize;
                *cell = table[block];
            }
        }
    }
}
