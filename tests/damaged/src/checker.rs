//! An independent checker of a store, written from document 01's rules and docs/STORE.md, not from the Rattle code: it builds
//! the tree and compares, where the code walks with falling ranks.

pub const NONE: u64 = 65_535;
pub const LIMIT: u64 = 1_024;
pub const TOP_LIMIT: u64 = 4_294_967_295;

/// One slot's words, by name.
pub struct Slot {
    pub key: u64,
    pub left: u64,
    pub right: u64,
    pub rank: u64,
    pub back: u64,
    pub prev: u64,
    pub next: u64,
    pub generation: u64,
    pub value: u64,
    pub stack: u64,
}

pub fn slot(s: &[u64], cap: usize, i: usize) -> Slot {
    let near = 16 + 4 * i;
    let far = 16 + 4 * cap + 6 * i;
    Slot {
        key: s[near],
        left: s[near + 1],
        right: s[near + 2],
        rank: s[near + 3],
        back: s[far],
        prev: s[far + 1],
        next: s[far + 2],
        generation: s[far + 3],
        value: s[far + 4],
        stack: s[far + 5],
    }
}

fn blank(x: &Slot) -> bool {
    x.key == 0 && x.left == NONE && x.right == NONE && x.rank == 0 && x.prev == NONE && x.next == NONE && x.value == 0
}

/// The live slots left to right, or None where the links form no tree. Iterative, so that no damage can overflow the stack.
fn in_order(slots: &[Slot], root: u64) -> Option<Vec<usize>> {
    let mut order = Vec::new();
    let mut seen = vec![false; slots.len()];
    let mut path: Vec<(usize, bool)> = Vec::new();
    let mut at = root;
    let mut below = NONE;
    loop {
        while at != NONE {
            let i = usize::try_from(at).ok().filter(|&i| i < slots.len())?;
            if seen[i] || slots[i].back != below || slots[i].rank == 0 {
                return None;
            }
            seen[i] = true;
            path.push((i, false));
            below = at;
            at = slots[i].left;
        }
        // climb to the next node whose right side was not walked
        loop {
            let (i, done) = match path.pop() {
                None => return Some(order),
                Some(top) => top,
            };
            if done {
                continue;
            }
            order.push(i);
            path.push((i, true));
            below = i as u64;
            at = slots[i].right;
            break;
        }
    }
}

fn rank_of(slots: &[Slot], p: u64) -> u64 {
    if p == NONE { 0 } else { slots[p as usize].rank }
}

/// Rule 2 at one node.
fn ranked(slots: &[Slot], x: &Slot) -> bool {
    let (a, b) = (rank_of(slots, x.left), rank_of(slots, x.right));
    let near = |c: u64| x.rank == c + 1 || x.rank == c + 2;
    near(a) && near(b) && (x.left != NONE || x.right != NONE || x.rank == 1)
}

/// Document 01: "A store is sound when its header passes and all of these hold", rules 1 to 7.
pub fn sound(s: &[u64]) -> bool {
    if s.len() < 16 {
        return false;
    }
    let cap = s[0];
    if cap < 1 || LIMIT < cap || (s.len() as u64) < 16 + 10 * cap {
        return false;
    }
    let (top, height, first, last, root) = (s[1], s[2], s[3], s[4], s[5]);
    if top < 1 || TOP_LIMIT < top || cap < height || s[6..16].iter().any(|&w| w != 0) {
        return false;
    }
    let n = cap as usize;
    let slots: Vec<Slot> = (0..n).map(|i| slot(s, n, i)).collect();
    let Some(order) = in_order(&slots, root) else {
        return false;
    };
    if !order.iter().all(|&i| ranked(&slots, &slots[i])) {
        return false;
    }
    // rules 3 and 4: the chain is that order, and keys rise
    let link = |i: Option<&usize>| i.map_or(NONE, |&i| i as u64);
    if first != link(order.first()) || last != link(order.last()) {
        return false;
    }
    for (at, &i) in order.iter().enumerate() {
        let before = if at == 0 { NONE } else { order[at - 1] as u64 };
        if slots[i].prev != before || slots[i].next != link(order.get(at + 1)) {
            return false;
        }
        if at > 0 && slots[i].key <= slots[order[at - 1]].key {
            return false;
        }
    }
    states(&slots, &order, height, top)
}

/// Rules 5 to 7 of each slot and of the free stack.
fn states(slots: &[Slot], order: &[usize], height: u64, top: u64) -> bool {
    let mut live = vec![false; slots.len()];
    order.iter().for_each(|&i| live[i] = true);
    let mut free = 0;
    for (i, x) in slots.iter().enumerate() {
        if x.generation < 1 || top < x.generation {
            return false;
        }
        if live[i] {
            continue;
        }
        if !blank(x) {
            return false;
        }
        if x.back == NONE {
            if x.generation != top {
                return false;
            }
        } else {
            if height <= x.back || slots[x.back as usize].stack != i as u64 {
                return false;
            }
            free += 1;
        }
    }
    free == height && slots.iter().skip(height as usize).all(|x| x.stack == NONE)
}
