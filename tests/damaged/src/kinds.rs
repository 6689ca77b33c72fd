//! Every call of the static library behind one face: what it may answer, whether it may write, and random arguments for it.

use calls::Row;

use crate::checker::NONE;
use crate::stores::Rng;

pub struct Given {
    pub slot: u64,
    pub generation: u64,
    pub side: u64,
    pub key: i64,
    pub value: u64,
    pub capacity: u64,
    pub top: u64,
}

impl Given {
    /// Arguments that often fit the store: a slot's own generation, a stored key or one beside it.
    pub fn random(rng: &mut Rng, s: &[u64], cap: usize) -> Given {
        let word = |rng: &mut Rng| if s.is_empty() { 0 } else { s[rng.below(s.len() as u64) as usize] };
        let slot = [rng.below(cap as u64 + 1), rng.below(cap as u64), NONE, rng.next()][rng.below(4) as usize];
        let named = 16 + 4 * cap as u64 + 6 * (slot % cap as u64) + 3;
        let own = s.get(named as usize).copied().unwrap_or(1);
        let near = s.get(16 + 4 * rng.below(cap as u64) as usize).copied().unwrap_or(0);
        let key = [near, near.wrapping_add(1), near.wrapping_sub(1), word(rng), rng.next()][rng.below(5) as usize];
        Given {
            slot,
            generation: [own, own, own, word(rng), rng.next()][rng.below(5) as usize],
            side: rng.below(4),
            key: (key ^ (1 << 63)) as i64,
            value: rng.next(),
            capacity: [cap as u64, rng.below(14), 1_024, 1_025, rng.next()][rng.below(5) as usize],
            top: [1, 3, rng.below(5), u64::from(u32::MAX), rng.next()][rng.below(5) as usize],
        }
    }
}

pub struct Kind {
    pub name: &'static str,
    pub writes: bool,
    /// Its answers past the refusals are 16 and up to this.
    pub last: u64,
    pub refusals: &'static [u64],
    pub call: fn(&mut [u64], &Given, &mut Row) -> u64,
}

const fn kind(
    name: &'static str,
    writes: bool,
    last: u64,
    refusals: &'static [u64],
    call: fn(&mut [u64], &Given, &mut Row) -> u64,
) -> Kind {
    Kind { name, writes, last, refusals, call }
}

pub const KINDS: [Kind; 16] = [
    kind("lay_out", true, 16, &[4], |s, g, _| calls::lay_out(s, g.capacity, g.top)),
    kind("insert", true, 17, &[1, 5], |s, g, a| calls::insert(s, g.key, g.value, a)),
    kind("insert_empty", true, 17, &[1, 2, 5], |s, g, a| calls::insert_empty(s, g.key, g.value, a)),
    kind("insert_manual", true, 17, &[1, 2, 5], |s, g, a| {
        calls::insert_manual(s, g.slot, g.generation, g.side, g.key, g.value, a)
    }),
    kind("remove", true, 17, &[3, 5], |s, g, a| calls::remove(s, g.slot, g.generation, a)),
    kind("look_ahead", false, 17, &[1, 5], |s, g, a| calls::look_ahead(s, g.key, a)),
    kind("look_ahead_empty", false, 17, &[1, 2, 5], |s, _, a| calls::look_ahead_empty(s, a)),
    kind("look_ahead_manual", false, 17, &[1, 2, 5], |s, g, a| {
        calls::look_ahead_manual(s, g.slot, g.generation, g.side, g.key, a)
    }),
    kind("read", false, 16, &[3, 5], |s, g, a| calls::read(s, g.slot, g.generation, a)),
    kind("search", false, 19, &[5], |s, g, a| calls::search(s, g.key, a)),
    kind("first", false, 17, &[5], |s, _, a| calls::first(s, a)),
    kind("last", false, 17, &[5], |s, _, a| calls::last(s, a)),
    kind("at", false, 16, &[3, 5], |s, g, a| calls::at(s, g.slot, g.generation, a)),
    kind("forward", false, 17, &[3, 5], |s, g, a| calls::forward(s, g.slot, g.generation, a)),
    kind("back", false, 17, &[3, 5], |s, g, a| calls::back(s, g.slot, g.generation, a)),
    kind("sound", false, 17, &[], |s, _, _| 16 + u64::from(calls::sound(s))),
];
