//! The two sides behind one face: the proved calls over a lent store, and the given Rust bodies over the stand-in's arena.

use std::cmp::Ordering;

use calls::FIRST;
use standin::fundamental::{Generation, Handle};
use standin::ord::{Strike, Tree};
use standin::traits::{ArenaTrait, Ptr};

pub trait Side {
    type Handle: Copy;
    fn insert(&mut self, key: i64, value: u64) -> Self::Handle;
    /// The key of the entry that leaves.
    fn remove(&mut self, handle: Self::Handle) -> i64;
    /// 0 where the key is there, else 1 or 2 for the side.
    fn search(&self, key: i64) -> u8;
}

pub struct Proved {
    store: Vec<u64>,
}

impl Proved {
    pub fn new(capacity: u64) -> Proved {
        let mut store = vec![0; 16 + 10 * capacity as usize];
        assert_eq!(calls::lay_out(&mut store, capacity, u64::from(u32::MAX)), FIRST, "laid out");
        Proved { store }
    }
}

impl Side for Proved {
    type Handle = (u64, u64);
    fn insert(&mut self, key: i64, value: u64) -> (u64, u64) {
        let mut a = [0; 4];
        assert_eq!(calls::insert(&mut self.store, key, value, &mut a), FIRST, "a new entry");
        (a[0], a[1])
    }
    fn remove(&mut self, handle: (u64, u64)) -> i64 {
        let mut a = [0; 4];
        assert_eq!(calls::remove(&mut self.store, handle.0, handle.1, &mut a), FIRST, "a live handle");
        (a[0] ^ (1 << 63)) as i64
    }
    fn search(&self, key: i64) -> u8 {
        let mut a = [0; 4];
        (calls::search(&self.store, key, &mut a) - FIRST) as u8
    }
}

pub struct Rust {
    tree: Tree,
}

impl Rust {
    pub fn new(capacity: usize) -> Rust {
        Rust { tree: Tree::laid_out(capacity, Generation(u32::MAX)) }
    }
}

impl Side for Rust {
    type Handle = Handle;
    fn insert(&mut self, key: i64, value: u64) -> Handle {
        match self.tree.insert_within_capacity(Strike { key, value }) {
            Ok((handle, None)) => handle,
            _ => panic!("a new entry"),
        }
    }
    fn remove(&mut self, handle: Handle) -> i64 {
        assert!(self.tree.contains(handle), "a live handle");
        self.tree.remove_slot(handle.inx()).expect("a live handle").key
    }
    fn search(&self, key: i64) -> u8 {
        match self.tree.find_similar_key(key) {
            Some((_, Ordering::Equal)) => 0,
            Some((_, Ordering::Less)) => 1,
            Some((_, Ordering::Greater)) => 2,
            None => 3,
        }
    }
}
