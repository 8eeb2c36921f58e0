//! The rules that are measured.

/// A rule by its kinds, its width and its table.
#[derive(Clone)]
pub struct Rule {
    pub kinds: u32,
    pub wide: u32,
    pub table: Vec<u32>,
}

impl Rule {
    /// The next row of a piece.
    pub fn next_row(&self, row: &[u32]) -> Vec<u32> {
        row.windows(self.wide as usize)
            .map(|window| self.table[window.iter().fold(0, |n, &cell| n * self.kinds + cell) as usize])
            .collect()
    }
}

/// As the programs read it.
impl std::fmt::Display for Rule {
    fn fmt(&self, f: &mut std::fmt::Formatter) -> std::fmt::Result {
        write!(f, "{} {} ", self.kinds, self.wide)?;
        self.table.iter().try_for_each(|cell| write!(f, "{cell:x}"))
    }
}

/// Kinds and widths of all rules that can be decided: at most 16 blocks.
pub const SIZES: [(u32, u32); 19] = [
    (2, 2), (2, 3), (2, 4), (2, 5), (3, 2), (3, 3), (4, 2), (4, 3), (5, 2), (6, 2),
    (7, 2), (8, 2), (9, 2), (10, 2), (11, 2), (12, 2), (13, 2), (14, 2), (16, 2),
];

/// The sizes with 16 blocks.
pub const LARGEST: [(u32, u32); 3] = [(2, 5), (4, 3), (16, 2)];

/// Numbers at random: xorshift64*, from a fixed seed.
pub struct Random(u64);

impl Random {
    pub fn new(seed: u64) -> Random {
        Random(seed.max(1))
    }

    pub fn below(&mut self, n: u32) -> u32 {
        self.0 ^= self.0 >> 12;
        self.0 ^= self.0 << 25;
        self.0 ^= self.0 >> 27;
        ((self.0.wrapping_mul(0x2545_F491_4F6C_DD1D) >> 32) * u64::from(n) >> 32) as u32
    }

    fn permutation(&mut self, n: u32) -> Vec<u32> {
        let mut all: Vec<u32> = (0..n).collect();
        for i in (1..all.len()).rev() {
            all.swap(i, self.below(i as u32 + 1) as usize);
        }
        all
    }
}

pub fn all_of_width_4() -> Vec<Rule> {
    (0..65_536u32)
        .map(|number| Rule { kinds: 2, wide: 4, table: (0..16).map(|w| number >> w & 1).collect() })
        .collect()
}

pub fn uniform(random: &mut Random, (kinds, wide): (u32, u32)) -> Rule {
    let table = (0..kinds.pow(wide)).map(|_| random.below(kinds)).collect();
    Rule { kinds, wide, table }
}

pub fn of_all_sizes(random: &mut Random, n: usize) -> Vec<Rule> {
    (0..n).map(|i| uniform(random, SIZES[i % SIZES.len()])).collect()
}

/// For each block a permutation of the kinds, by the last cell or by the first; up to two cells are then changed.
pub fn permutive(random: &mut Random, (kinds, wide): (u32, u32), changes: u32) -> Rule {
    let blocks = kinds.pow(wide - 1);
    let by_last = random.below(2) == 0;
    let mut table = vec![0; (blocks * kinds) as usize];
    for block in 0..blocks {
        for (cell, &image) in random.permutation(kinds).iter().enumerate() {
            let cell = cell as u32;
            let window = if by_last { block * kinds + cell } else { cell * blocks + block };
            table[window as usize] = image;
        }
    }
    for _ in 0..changes {
        let window = random.below(blocks * kinds) as usize;
        table[window] = random.below(kinds);
    }
    Rule { kinds, wide, table }
}

/// One cell of the window, turned by a permutation that the others choose among few: often undone.
pub fn conditional(random: &mut Random, (kinds, wide): (u32, u32)) -> Rule {
    let blocks = kinds.pow(wide - 1);
    let (a, b) = (random.below(kinds), random.below(kinds));
    let when = random.below(blocks);
    let table = (0..blocks * kinds)
        .map(|window| {
            let (first, rest) = (window / blocks, window % blocks);
            match first {
                _ if rest != when => first,
                cell if cell == a => b,
                cell if cell == b => a,
                cell => cell,
            }
        })
        .collect();
    Rule { kinds, wide, table }
}

pub fn of_16_blocks(random: &mut Random, n: usize) -> Vec<Rule> {
    (0..n)
        .map(|i| match i % 4 {
            3 => conditional(random, LARGEST[i / 4 % 3]),
            changes => permutive(random, LARGEST[i / 4 % 3], changes as u32),
        })
        .collect()
}

/// The first cell, with what a function of the others says added to it. A search from equal blocks on goes through all
/// pairs and finds no way back to equal ones, since what is known of a row from some cell on tells the cell before.
pub fn shifted(random: &mut Random, (kinds, wide): (u32, u32), choices: u32) -> Rule {
    let blocks = kinds.pow(wide - 1);
    let shifts: Vec<u32> = (0..blocks).map(|_| random.below(choices)).collect();
    let table = (0..blocks * kinds)
        .map(|window| (window / blocks + shifts[(window % blocks) as usize]) % kinds)
        .collect();
    Rule { kinds, wide, table }
}

/// Rules whose search goes through the most pairs: of each size the first cell alone, and then with functions of the others
/// at random.
pub fn of_most_pairs(random: &mut Random, n: usize) -> Vec<Rule> {
    (0..n)
        .map(|i| {
            let size = LARGEST[i % 3];
            let choices = if i < 3 { 1 } else { size.0 };
            shifted(random, size, choices)
        })
        .collect()
}

/// Rules of 16 blocks, among which slow ones are looked for.
pub fn many_of_16_blocks(random: &mut Random) -> Vec<Rule> {
    (0..6000)
        .map(|i| {
            let size = LARGEST[i % 3];
            match i % 5 {
                0 => uniform(random, size),
                1 => conditional(random, size),
                changes => permutive(random, size, changes as u32 - 2),
            }
        })
        .collect()
}
