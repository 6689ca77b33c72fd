//! What both sides are asked: keys to fill with, and rounds of searches, an insertion and a removal.

pub struct Round {
    pub searched: [i64; 9],
    pub added: i64,
    /// Which of the live entries leaves; the added one takes its number.
    pub removed: usize,
}

pub struct Work {
    pub filled: Vec<i64>,
    pub rounds: Vec<Round>,
}

/// xorshift: enough for keys, and the same everywhere.
struct Random(u64);

impl Random {
    fn next(&mut self) -> u64 {
        self.0 ^= self.0 << 13;
        self.0 ^= self.0 >> 7;
        self.0 ^= self.0 << 17;
        self.0
    }
    fn below(&mut self, n: u64) -> u64 {
        (self.next() >> 32) * n >> 32
    }
}

impl Work {
    /// Every key ever added is new: an even random number. A search looks for a live key or, as often, for the odd
    /// number after one, which is absent.
    pub fn new(entries: usize, rounds: usize, seed: u64) -> Work {
        let mut random = Random(seed.wrapping_mul(0x9e37_79b9_7f4a_7c15) | 1);
        let mut used = std::collections::HashSet::new();
        let mut fresh = |random: &mut Random| loop {
            let key = (random.next() as i64) & !1;
            if used.insert(key) {
                return key;
            }
        };
        let filled: Vec<i64> = (0..entries).map(|_| fresh(&mut random)).collect();
        let mut live = filled.clone();
        let rounds = (0..rounds)
            .map(|_| {
                let searched = core::array::from_fn(|_| {
                    let key = live[random.below(entries as u64) as usize];
                    key | (random.below(2) as i64)
                });
                let added = fresh(&mut random);
                let removed = random.below(entries as u64) as usize;
                live[removed] = added;
                Round { searched, added, removed }
            })
            .collect();
        Work { filled, rounds }
    }
}
