//! What the given bodies do by themselves, without our wrapper, where document 01 asks for something
//! else. EXPECTED-notes.md tells each finding with its smallest script.

mod common;

use core::cmp::Ordering;
use std::panic::{AssertUnwindSafe, catch_unwind};

use standin::fundamental::{Generation, Slot};
use standin::ord::{Strike, Tree};
use standin::traits::ArenaTrait;
use standin::{OrdEntryKind, OrdInsertKind};

fn strike(key: i64) -> Strike {
    Strike { key, value: 0 }
}

fn with(capacity: usize, keys: &[i64]) -> Tree {
    let mut tree = Tree::laid_out(capacity, Generation(9));
    for key in keys {
        tree.insert_within_capacity(strike(*key)).unwrap();
    }
    tree
}

fn manual(tree: &mut Tree, slot: u32, direction: Ordering, key: i64) -> Option<Strike> {
    let kind = OrdInsertKind::Manual { p_target: Slot(slot), direction };
    tree.entry_insert_within_capacity(kind).unwrap().insert(strike(key))
}

#[test]
fn manual_does_not_look_at_the_key() {
    let mut tree = with(8, &[10]);
    manual(&mut tree, 0, Ordering::Greater, 5);
    assert_eq!(Tree::_check_invariants(&tree), Err("incorrect ordering"));
    assert_eq!(tree.find_key(5), None, "an entry that no search finds");
}

#[test]
fn manual_equal_changes_the_key() {
    let mut tree = with(8, &[10]);
    assert_eq!(manual(&mut tree, 0, Ordering::Equal, 99), Some(strike(10)));
    assert_eq!(tree.get_inx(Slot(0)).unwrap().1.key, 99);
}

#[test]
fn manual_takes_a_bare_index() {
    let mut tree = with(8, &[1]);
    tree.remove_slot(Slot(0)).unwrap();
    tree.insert_within_capacity(strike(5)).unwrap();
    // Whoever kept the index of key 1 now inserts beside key 5.
    assert_eq!(manual(&mut tree, 0, Ordering::Greater, 7), None);
    assert_eq!(tree.len(), 2);
}

#[test]
fn the_last_removal_leaves_root_first_and_last_stale() {
    let mut tree = with(8, &[10]);
    tree.remove_slot(Slot(0)).unwrap();
    assert!(tree.is_empty());
    assert_eq!(tree.ends_as_stored(), [Slot(0); 3]);
    assert_eq!(Tree::_check_invariants(&tree), Ok(()), "its own check does not look");
}

#[test]
fn the_unwrapping_insertion_panics() {
    let quiet = |tree: &mut Tree, slot, side| {
        let run = || tree.insert_inx_manual_unwrap(Slot(slot), side, strike(7));
        catch_unwind(AssertUnwindSafe(run)).is_err()
    };
    assert!(quiet(&mut with(8, &[1]), 3, Ordering::Less), "a free slot");
    assert!(quiet(&mut with(8, &[]), 0, Ordering::Equal), "an empty queue");
    assert!(quiet(&mut with(1, &[1]), 0, Ordering::Greater), "no room");
}

/// Request 2 says that the Rust would stop at a bad start; the given find.rs searches normally.
#[test]
fn linear_with_a_bad_start_is_a_normal_search() {
    let tree = with(8, &[10, 20, 30]);
    for start in [3, 7, 8, u32::MAX] {
        for key in [5, 10, 15, 25, 35] {
            let linear = tree.find_similar_key_linear(Slot(start), 5, key);
            assert_eq!(linear, tree.find_similar_key(key));
        }
    }
}

/// It may name the other neighbour than the tree search does; the place in the tree is the same.
#[test]
fn linear_may_end_at_the_other_neighbour() {
    let tree = with(8, &[10, 20, 30]);
    let (near, side) = tree.find_similar_key_linear(Slot(1), 5, 15).unwrap();
    assert_eq!((near.slot, side), (Slot(0), Ordering::Greater));
    let (near, side) = tree.find_similar_key_linear(Slot(0), 5, 15).unwrap();
    assert_eq!((near.slot, side), (Slot(1), Ordering::Less));
    let (near, side) = tree.find_similar_key(15).unwrap();
    assert_eq!((near.slot, side), (Slot(0), Ordering::Greater));
}

#[test]
fn the_given_check_lets_equal_keys_pass() {
    let mut tree = with(8, &[10]);
    manual(&mut tree, 0, Ordering::Greater, 10);
    assert_eq!(Tree::_check_invariants(&tree), Ok(()));
}

/// The entry is the look-ahead: made and dropped, it changes nothing, though it borrows mutably.
#[test]
fn an_entry_dropped_changes_nothing() {
    let mut tree = with(2, &[10]);
    let kind = |key| OrdInsertKind::Normal(key);
    let first = tree.entry_insert_within_capacity(kind(20)).unwrap().ptr();
    let again = tree.entry_insert_within_capacity(kind(20)).unwrap().ptr();
    assert_eq!(first, again);
    assert!(matches!(first, OrdEntryKind::New(p) if p.slot == Slot(1)));
    assert_eq!(tree.len(), 1);
}

/// The scripts of EXPECTED-notes.md answer as document 01 asks.
#[test]
fn the_scripts_of_the_notes() {
    use common::expect;
    expect("new 8 9\nins 10 1\nman 0 1 5 2", "ok\nnew 0\nerr 2");
    expect("new 8 9\nins 10 1\nman 0 0 99 2", "ok\nnew 0\nerr 2");
    expect("new 8 9\nins 1 1\nrem 0\nins 5 5\nman 0 1 7 7", "ok\nnew 0\nrem 0 1 1\nnew 1\nerr 2");
    expect("new 8 9\nins 10 1\nrem 0\ndump", "ok\nnew 0\nrem 0 10 1\ndump 0 root - first - last -");
    expect(
        "new 4 9\nins 1 1\nins 2 2\nins 3 3\nrem 0\nrem 2\nins 4 4\nlist",
        "ok\nnew 0\nnew 1\nnew 2\nrem 0 1 1\nrem 2 3 3\nnew 3
        live 2 free 2 retired 0\n2 2 1 1 2\n4 4 2 2 1",
    );
}
