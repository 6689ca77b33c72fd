//! Ours. Where a phase's keys and values come from.

use super::rng::Rng;

#[derive(Debug, Clone, Copy, PartialEq, Eq)]
pub enum Keys {
    Wide,
    Edge,
    Cluster,
    Rising,
    Falling,
    /// Any of the others, anew for each key.
    Any,
}

pub struct KeyMaker {
    kind: Keys,
    /// The last rising or falling key.
    turn: i64,
    bases: [i64; 3],
}

impl KeyMaker {
    pub fn new(kind: Keys, rng: &mut Rng) -> Self {
        let mut base = || (rng.word() >> 1) as i64 - (1 << 62);
        KeyMaker { kind, turn: base() / 4, bases: [base(), base(), 0] }
    }

    pub fn key(&mut self, rng: &mut Rng) -> i64 {
        let kind = match self.kind {
            Keys::Any => {
                rng.pick(&[Keys::Wide, Keys::Edge, Keys::Cluster, Keys::Rising, Keys::Falling])
            }
            kind => kind,
        };
        match kind {
            Keys::Wide | Keys::Any => rng.word() as i64,
            Keys::Edge => edge(rng),
            Keys::Cluster => rng.pick(&self.bases) + rng.below(60) as i64 - 30,
            Keys::Rising => self.turned(rng, 1),
            Keys::Falling => self.turned(rng, -1),
        }
    }

    /// One step on in that direction; now and then a little back, as a late booking would be.
    fn turned(&mut self, rng: &mut Rng, way: i64) -> i64 {
        if rng.percent(5) {
            return self.turn - way * rng.below(40) as i64;
        }
        self.turn += way * rng.between(1, 9) as i64;
        self.turn
    }
}

fn edge(rng: &mut Rng) -> i64 {
    let near = rng.below(12) as i64;
    match rng.below(6) {
        0 | 1 => i64::MIN + near,
        2 | 3 => i64::MAX - near,
        4 => near - 6,
        _ => rng.pick(&[0, -1, 1, 1 << 32, -(1 << 32), i64::MIN / 2, i64::MAX / 2]),
    }
}

pub fn value(rng: &mut Rng) -> u64 {
    match rng.below(8) {
        0 => rng.pick(&[0, 1, u64::MAX, 1 << 63, (1 << 63) - 1, 1 << 32]),
        1 => rng.word(),
        _ => rng.below(1_000_000) as u64,
    }
}
