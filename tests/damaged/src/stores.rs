//! Stores for the tests: sound ones made of random live, free and retired slots, and damage to a few of their words.

use crate::checker::{NONE, TOP_LIMIT};

pub struct Rng(pub u64);

impl Rng {
    pub fn next(&mut self) -> u64 {
        self.0 = self.0.wrapping_add(0x9E37_79B9_7F4A_7C15);
        let mut z = self.0;
        z = (z ^ (z >> 30)).wrapping_mul(0xBF58_476D_1CE4_E5B9);
        z = (z ^ (z >> 27)).wrapping_mul(0x94D0_49BB_1331_11EB);
        z ^ (z >> 31)
    }

    pub fn below(&mut self, n: u64) -> u64 {
        self.next() % n
    }
}

/// Lays a balanced tree over the slots given in order; answers the root.
fn tree(s: &mut [u64], cap: usize, order: &[usize], back: u64) -> u64 {
    if order.is_empty() {
        return NONE;
    }
    let mid = order.len() / 2;
    let i = order[mid];
    let left = tree(s, cap, &order[..mid], i as u64);
    let right = tree(s, cap, &order[mid + 1..], i as u64);
    let rank = |s: &[u64], p: u64| if p == NONE { 0 } else { s[16 + 4 * p as usize + 3] };
    let higher = rank(s, left).max(rank(s, right)) + 1;
    s[16 + 4 * i + 1] = left;
    s[16 + 4 * i + 2] = right;
    s[16 + 4 * i + 3] = higher;
    s[16 + 4 * cap + 6 * i] = back;
    i as u64
}

/// A sound store with random slots live, free and retired.
pub fn store(rng: &mut Rng, cap: usize) -> Vec<u64> {
    let extra = rng.below(4) as usize;
    let mut s = vec![0u64; 16 + 10 * cap + extra];
    let top = [1, 2, 3, 1000, TOP_LIMIT][rng.below(5) as usize];
    let mut slots: Vec<usize> = (0..cap).collect();
    for k in (1..cap).rev() {
        slots.swap(k, rng.below(k as u64 + 1) as usize);
    }
    let live = rng.below(cap as u64 + 1) as usize;
    let free = rng.below((cap - live) as u64 + 1) as usize;
    for i in 0..cap {
        let (near, far) = (16 + 4 * i, 16 + 4 * cap + 6 * i);
        s[near + 1] = NONE;
        s[near + 2] = NONE;
        s[far] = NONE;
        s[far + 1] = NONE;
        s[far + 2] = NONE;
        s[far + 3] = top;
        s[far + 5] = NONE;
    }
    let order = &slots[..live];
    s[0] = cap as u64;
    s[1] = top;
    s[2] = free as u64;
    s[3] = order.first().map_or(NONE, |&i| i as u64);
    s[4] = order.last().map_or(NONE, |&i| i as u64);
    s[5] = tree(&mut s, cap, order, NONE);
    let mut key = rng.below(5);
    for (at, &i) in order.iter().enumerate() {
        let (near, far) = (16 + 4 * i, 16 + 4 * cap + 6 * i);
        s[near] = key;
        key += 1 + rng.below(1 << 40);
        s[far + 1] = if at == 0 { NONE } else { order[at - 1] as u64 };
        s[far + 2] = order.get(at + 1).map_or(NONE, |&i| i as u64);
        s[far + 3] = 1 + rng.below(top);
        s[far + 4] = rng.next();
    }
    for (place, &i) in slots[live..live + free].iter().enumerate() {
        s[16 + 4 * cap + 6 * i] = place as u64;
        s[16 + 4 * cap + 6 * i + 3] = 1 + rng.below(top);
        s[16 + 4 * cap + 6 * place + 5] = i as u64;
    }
    s
}

/// One to four words get another number: a likely one, a copy of another word, a flipped bit, or anything.
pub fn damage(rng: &mut Rng, s: &mut [u64], cap: usize) {
    for _ in 0..1 + rng.below(4) {
        let k = rng.below(s.len() as u64) as usize;
        s[k] = match rng.below(6) {
            0 => rng.below(cap as u64 + 1),
            1 => NONE,
            2 => rng.below(4),
            3 => s[rng.below(s.len() as u64) as usize],
            4 => s[k] ^ (1 << rng.below(64)),
            _ => rng.next(),
        };
    }
}
