//! Random numbers with a fixed seed, random statements, and damage to tables.

use crate::statement::Statement;
use crate::table::{length, pack, write};
use Statement::*;

/// The generator splitmix64.
pub struct Random(pub u64);

impl Random {
    pub fn next(&mut self) -> u64 {
        self.0 = self.0.wrapping_add(0x9e37_79b9_7f4a_7c15);
        let mut z = self.0;
        z = (z ^ (z >> 30)).wrapping_mul(0xbf58_476d_1ce4_e5b9);
        z = (z ^ (z >> 27)).wrapping_mul(0x94d0_49bb_1331_11eb);
        z ^ (z >> 31)
    }

    /// A number below n.
    pub fn below(&mut self, n: usize) -> usize {
        (self.next() % n as u64) as usize
    }

    /// A number from low to high, both included.
    pub fn between(&mut self, low: usize, high: usize) -> usize {
        low + self.below(high - low + 1)
    }

    pub fn one_in(&mut self, n: usize) -> bool {
        self.below(n) == 0
    }

    pub fn pick<T: Clone>(&mut self, from: &[T]) -> T {
        from[self.below(from.len())].clone()
    }

    pub fn shuffle<T>(&mut self, items: &mut [T]) {
        for i in (1..items.len()).rev() {
            items.swap(i, self.below(i + 1));
        }
    }
}

/// What random statements are made of: how many signals and labels, and the weight of each kind.
#[derive(Clone)]
pub struct Taste {
    pub signals: u8,
    pub labels: u8,
    pub leaves: [u8; 5],
    pub inner: [u8; 6],
}

/// Weights of nothing, pause, gotopause, emit, exit; of signal, present, sequence, parallel, loop, try.
pub const TASTES: [Taste; 6] = [
    Taste { signals: 3, labels: 6, leaves: [2, 4, 3, 4, 3], inner: [2, 3, 5, 3, 2, 2] },
    // jumps into branches that are only resumed
    Taste { signals: 2, labels: 8, leaves: [1, 7, 4, 1, 1], inner: [1, 6, 6, 2, 1, 2] },
    // exits of different level in parallel
    Taste { signals: 2, labels: 5, leaves: [1, 3, 1, 2, 7], inner: [1, 2, 4, 4, 1, 6] },
    // local signals with a choice, inside loops
    Taste { signals: 4, labels: 5, leaves: [1, 3, 1, 6, 1], inner: [4, 5, 5, 3, 3, 1] },
    // many labels
    Taste { signals: 32, labels: 63, leaves: [1, 8, 4, 2, 2], inner: [1, 3, 6, 4, 2, 2] },
    // wide: everything alike
    Taste { signals: 32, labels: 63, leaves: [1, 1, 1, 1, 1], inner: [1, 1, 1, 1, 1, 1] },
];

/// A valid statement of n nodes and at most the given depth.
pub fn statement(random: &mut Random, taste: &Taste, n: usize, depth: usize) -> Statement {
    let mut labels: Vec<u8> = (1..=taste.labels).collect();
    random.shuffle(&mut labels);
    Maker { random, taste, labels }.statement(n, depth, 0)
}

/// A valid statement of low to high nodes, to the taste of one of the first four.
pub fn program(random: &mut Random, low: usize, high: usize) -> Statement {
    let taste = &TASTES[random.below(4)];
    let n = random.between(low, high);
    statement(random, taste, n, 60)
}

struct Maker<'a> {
    random: &'a mut Random,
    taste: &'a Taste,
    /// Labels that no pause has yet.
    labels: Vec<u8>,
}

impl Maker<'_> {
    fn weighted(&mut self, weights: &[u8]) -> usize {
        let total: usize = weights.iter().map(|&w| usize::from(w)).sum();
        let mut at = self.random.below(total);
        weights
            .iter()
            .position(|&w| {
                at < w.into() || {
                    at -= usize::from(w);
                    false
                }
            })
            .unwrap()
    }

    fn signal(&mut self) -> u8 {
        self.random.below(self.taste.signals.into()) as u8
    }

    fn leaf(&mut self, tries: u8) -> Statement {
        loop {
            match self.weighted(&self.taste.leaves) {
                0 => return Nothing,
                1 => match self.labels.pop() {
                    Some(label) => return Pause(label),
                    None => continue,
                },
                // now and then a label that no pause has
                2 => {
                    return Gotopause(
                        self.random.between(1, (self.taste.labels + 1).min(63).into()) as u8,
                    )
                }
                3 => return Emit(self.signal()),
                _ if tries > 0 => return Exit(self.random.between(1, tries.into()) as u8),
                _ => return Nothing,
            }
        }
    }

    fn statement(&mut self, n: usize, depth: usize, tries: u8) -> Statement {
        if n == 1 {
            return self.leaf(tries);
        }
        // the nodes that fit below a child
        let room = if depth > 12 { 4095 } else { (1 << (depth - 1)) - 1 };
        let kind = loop {
            let kind = self.weighted(&self.taste.inner);
            let single = matches!(kind, 0 | 4 | 5);
            if single && n - 1 <= room || !single && n > 2 {
                break kind;
            }
        };
        let inside = tries + u8::from(kind == 5);
        let mut child = |n| Box::new(self.statement(n, depth - 1, inside));
        match kind {
            0 => {
                let p = child(n - 1);
                return Signal(self.signal(), p);
            }
            4 => return Loop(child(n - 1)),
            5 => return Try(child(n - 1)),
            _ => {}
        }
        let least = (n - 1).saturating_sub(room).max(1);
        let first = match self.random.below(4) {
            0 => least,
            1 => n - 1 - least,
            _ => self.random.between(least, n - 1 - least),
        };
        let mut child = |n| Box::new(self.statement(n, depth - 1, inside));
        let (p, q) = (child(first), child(n - 1 - first));
        match kind {
            1 => Present(self.signal(), p, q),
            2 => Sequence(p, q),
            _ => Parallel(p, q),
        }
    }
}

/// A node count: small mostly, now and then up to the most that a table can have.
pub fn size(random: &mut Random) -> usize {
    match random.below(100) {
        0..=59 => random.between(1, 14),
        60..=89 => random.between(10, 40),
        90..=97 => random.between(40, 150),
        98 => random.between(150, 500),
        _ => random.between(500, 1024),
    }
}

/// The table of a random valid statement.
pub fn table(random: &mut Random) -> Vec<u8> {
    let n = size(random);
    sized_table(random, n)
}

pub fn sized_table(random: &mut Random, n: usize) -> Vec<u8> {
    let taste = random.pick(&TASTES);
    write(&statement(random, &taste, n, 60))
}

/// A header that fits the length, and nodes that mostly have an operand in range.
pub fn loose_table(random: &mut Random) -> Vec<u8> {
    let n = random.between(1, 24);
    let mut fields = vec![(1, 4), (n, 12)];
    for _ in 0..n {
        let kind = if random.one_in(60) { random.below(16) } else { random.below(11) };
        let operand = match kind {
            1 | 2 => random.between(1, 9),
            3 | 5 | 6 => random.below(32),
            4 => random.between(1, 3),
            _ => 0,
        };
        fields.push((kind, 4));
        fields.push((if random.one_in(40) { random.below(64) } else { operand }, 6));
    }
    pack(&fields, length(n))
}

/// A table damaged by flipped bits, cut, lengthened, or with another node count.
pub fn damaged(random: &mut Random, mut table: Vec<u8>) -> Vec<u8> {
    for _ in 0..random.between(1, 3) {
        match random.below(8) {
            0..=4 if !table.is_empty() => {
                let bit = random.below(8 * table.len());
                table[bit / 8] ^= 128 >> (bit % 8);
            }
            5 => table.truncate(random.below(table.len() + 1)),
            6 => (0..random.between(1, 4)).for_each(|_| table.push(random.next() as u8)),
            _ if table.len() > 1 => table[1] = table[1].wrapping_add(random.pick(&[1, 255])),
            _ => {}
        }
    }
    table
}

/// A table of any sort: valid, damaged or loose.
pub fn any_table(random: &mut Random) -> Vec<u8> {
    match random.below(10) {
        0..=3 => table(random),
        4..=6 => {
            let table = table(random);
            damaged(random, table)
        }
        7 | 8 => loose_table(random),
        _ => {
            let table = loose_table(random);
            damaged(random, table)
        }
    }
}
