//! Ours. Document 01's rules of soundness, after the given `_check_invariants`.
//!
//! The given check covers rule 1, rule 2 and most of rule 3 and lets equal keys pass; what is left
//! of document 01's list is done here.

use crate::arena::ArenaSlot;
use crate::fundamental::{PtrInx, Slot};
use crate::ord::Tree;
use crate::queue::Queue;

/// Err names the first rule found broken.
pub fn check(queue: &Queue) -> Result<(), String> {
    Tree::_check_invariants(&queue.tree).map_err(|e| format!("the given check: {e}"))?;
    ends(queue)?;
    keys_and_links(queue)?;
    ranks(queue)?;
    slots(queue)
}

fn ends(queue: &Queue) -> Result<(), String> {
    let (live, _, _) = queue.counts();
    if live != queue.len() {
        return Err(format!("{live} live slots, length {}", queue.len()));
    }
    let Some(last) = queue.last() else {
        return Ok(());
    };
    let (_, link) = queue.tree.get_inx_node(last.slot).expect("a live slot");
    match link.next() {
        None => Ok(()),
        Some(_) => Err("rule 3: last has a next".to_string()),
    }
}

/// Rule 4, and rule 3's "each live slot once" by the count.
fn keys_and_links(queue: &Queue) -> Result<(), String> {
    let all = queue.shown();
    if all.len() != queue.len() {
        return Err(format!("rule 3: the chain meets {} of {}", all.len(), queue.len()));
    }
    for pair in all.windows(2) {
        if pair[0].strike.key >= pair[1].strike.key {
            return Err(format!("rule 4: keys do not rise at {}", pair[1].strike.key));
        }
    }
    Ok(())
}

/// Rule 2 once more, word for word, since the given check says it in another form.
fn ranks(queue: &Queue) -> Result<(), String> {
    for shown in queue.shown() {
        let [_, left, right, _, _] = shown.links;
        for child in [left, right] {
            let below = child.map_or(0, |p| queue.tree.a.get_inx_unwrap(p).rank);
            if shown.rank != below + 1 && shown.rank != below + 2 {
                return Err(format!("rule 2: rank {} over {below}", shown.rank));
            }
        }
        if left.is_none() && right.is_none() && shown.rank != 1 {
            return Err(format!("rule 2: no child and rank {}", shown.rank));
        }
    }
    Ok(())
}

/// Rules 5 and 6.
fn slots(queue: &Queue) -> Result<(), String> {
    let arena = &queue.tree.a.a;
    let mut met = vec![0u32; arena.m.len()];
    for p in arena.free_list() {
        met[Slot::to_usize(p)] += 1;
    }
    for (i, slot) in arena.m.iter().enumerate() {
        let want = u32::from(matches!(slot, ArenaSlot::Free(_)));
        if met[i] != want {
            return Err(format!("rule 5: slot {i} is {} times in the free list", met[i]));
        }
        let generation = arena.generations[i];
        if generation.0 < 1 || generation > arena.top {
            return Err(format!("rule 6: slot {i} has generation {}", generation.0));
        }
        match slot {
            ArenaSlot::Retired if generation != arena.top => {
                return Err(format!("rule 6: slot {i} is retired below the top"));
            }
            ArenaSlot::Allocated(own, _) if *own != generation => {
                return Err(format!("slot {i} holds an entry of generation {}", own.0));
            }
            _ => {}
        }
    }
    Ok(())
}
