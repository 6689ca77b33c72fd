//! Ours. The calls of document 01 around the given bodies. What document 01 marks "added" is done
//! here, and each place says so; the tree work is always the given body's.

use core::cmp::Ordering;

use crate::arena::{ArenaSlot, ArenaTrait};
use crate::errors::OrdInsertionError;
use crate::fundamental::{Generation, Handle, InvalidationResult, Ptr, Slot};
use crate::ord::{Strike, Tree};
use crate::{OrdEntryKind, OrdInsertKind};

/// Document 01's limits.
pub const CAPACITY_LIMIT: u64 = 1_024;
pub const TOP_LIMIT: u64 = 4_294_967_295;

/// Document 01's refusals, without 6, which is no matter of the queue.
#[derive(Debug, Clone, Copy, PartialEq, Eq)]
pub enum Refusal {
    NotWithinCapacity = 1,
    FailedOrdRequirement = 2,
    InvalidPtr = 3,
    BadLayout = 4,
    NotSound = 5,
}

/// How an insertion finds its place. A handle is None where the script named no handle ever given.
#[derive(Debug, Clone, Copy, PartialEq, Eq)]
pub enum Kind {
    Normal,
    Empty,
    Manual(Option<Handle>, Ordering),
}

#[derive(Debug, Clone, Copy, PartialEq, Eq)]
pub enum Placed {
    New(Handle),
    Replacing(Handle, u64),
}

#[derive(Debug, Clone, Copy, PartialEq, Eq)]
pub struct Found {
    pub at: Handle,
    pub side: Ordering,
    pub count: usize,
}

/// One entry with its links, as the dump shows it.
#[derive(Debug, Clone, Copy, PartialEq, Eq)]
pub struct Shown {
    pub at: Handle,
    pub strike: Strike,
    pub rank: u8,
    /// back, left, right, prev, next
    pub links: [Option<Slot>; 5],
}

pub struct Queue {
    pub(crate) tree: Tree,
}

impl Queue {
    /// Added: laying out, with refusal 4.
    pub fn lay_out(capacity: u64, top: u64) -> Result<Queue, Refusal> {
        if !(1..=CAPACITY_LIMIT).contains(&capacity) || !(1..=TOP_LIMIT).contains(&top) {
            return Err(Refusal::BadLayout);
        }
        let top = Generation(u32::try_from(top).expect("within the limit"));
        let tree = Tree::laid_out(capacity as usize, top);
        Ok(Queue { tree })
    }

    /// Added: a Manual target is a live handle, where the Rust takes a bare index; and its key must
    /// fit, where the Rust doesn't look. Both before the question of room, so 2 goes before 1.
    fn given_kind(&self, kind: Kind, key: i64) -> Result<OrdInsertKind<Handle, i64>, Refusal> {
        let (target, direction) = match kind {
            Kind::Normal => return Ok(OrdInsertKind::Normal(key)),
            Kind::Empty => return Ok(OrdInsertKind::Empty),
            Kind::Manual(target, direction) => (target, direction),
        };
        let at = self.live(target).ok_or(Refusal::FailedOrdRequirement)?;
        if !self.fits(at, direction, key) {
            return Err(Refusal::FailedOrdRequirement);
        }
        Ok(OrdInsertKind::Manual { p_target: at.inx(), direction })
    }

    /// Added: strictly between the target's key and its chain neighbour's on that side, or equal.
    fn fits(&self, at: Handle, direction: Ordering, key: i64) -> bool {
        let key_of = |p: Slot| self.tree.a.get_inx_unwrap(p).t.key;
        let (_, link) = self.tree.get_inx_link_no_gen(at.inx()).expect("a live handle");
        let (prev, next) = link.prev_next();
        let target = key_of(at.inx());
        key.cmp(&target) == direction
            && match direction {
                Ordering::Less => prev.is_none_or(|p| key_of(p) < key),
                Ordering::Equal => true,
                Ordering::Greater => next.is_none_or(|p| key < key_of(p)),
            }
    }

    /// The look-ahead: the given entry is made and dropped, which changes nothing.
    pub fn look(&mut self, kind: Kind, key: i64) -> Result<OrdEntryKind<Handle>, Refusal> {
        let kind = self.given_kind(kind, key)?;
        let entry = self.tree.entry_insert_within_capacity(kind).map_err(refusal)?;
        Ok(entry.ptr())
    }

    pub fn insert(&mut self, kind: Kind, key: i64, value: u64) -> Result<Placed, Refusal> {
        let kind = self.given_kind(kind, key)?;
        let entry = self.tree.entry_insert_within_capacity(kind).map_err(refusal)?;
        let announced = entry.ptr();
        let old = entry.insert(Strike { key, value });
        let at = announced.any();
        assert_eq!(self.read(Some(at)), Ok(Strike { key, value }), "placed as announced");
        match (announced, old) {
            (OrdEntryKind::New(_), None) => Ok(Placed::New(at)),
            (OrdEntryKind::Replacing(_), Some(old)) => Ok(Placed::Replacing(at, old.value)),
            _ => panic!("the given insertion did not do what it announced"),
        }
    }

    /// True in the second place: noted GenerationOverflow. Added: by handle, so a handle that names
    /// no live entry is refused 3; the given body takes the bare index. Where this removes the last
    /// entry the given body leaves root, first and last stale; `root`, `first` and `last` below
    /// look at the length first, and a later insertion sets all three.
    pub fn remove(&mut self, handle: Option<Handle>) -> Result<(Strike, bool), Refusal> {
        let at = self.live(handle).ok_or(Refusal::InvalidPtr)?;
        match self.tree.internal_remove(at.inx()) {
            InvalidationResult::Success((_, strike)) => Ok((strike, false)),
            InvalidationResult::GenerationOverflow((_, strike)) => Ok((strike, true)),
            InvalidationResult::InvalidPtr => panic!("a live handle was refused"),
        }
    }

    pub fn read(&self, handle: Option<Handle>) -> Result<Strike, Refusal> {
        let at = self.live(handle).ok_or(Refusal::InvalidPtr)?;
        Ok(self.tree.a.get_inx_unwrap(at.inx()).t)
    }

    /// The given search; None is document 01's Empty. Added: the count, which is the length of the
    /// path from the root to the node found, read off the stored tree.
    pub fn find(&self, key: i64) -> Option<Found> {
        let (at, side) = self.tree.find_similar_key(key)?;
        let mut count = 1;
        let mut node = self.tree.a.get_inx_unwrap(at.inx());
        let mut top = at.inx();
        while let Some(back) = node.p_back {
            top = back;
            node = self.tree.a.get_inx_unwrap(back);
            count += 1;
        }
        assert_eq!(top, self.tree.root, "the path starts at the root");
        Some(Found { at, side, count })
    }

    /// The neighbour along the chain, by the given `get_inx_link_no_gen`, `prev` and `next`: Greater
    /// steps on, Less steps back; None is End. Added: by handle, refused 3.
    pub fn step(&self, from: Option<Handle>, to: Ordering) -> Result<Option<Handle>, Refusal> {
        let at = self.live(from).ok_or(Refusal::InvalidPtr)?;
        let (_, link) = self.tree.get_inx_link_no_gen(at.inx()).expect("a live handle");
        let slot = if to == Ordering::Less { link.prev() } else { link.next() };
        Ok(slot.map(|slot| self.handle(slot)))
    }

    pub fn first(&self) -> Option<Handle> {
        self.tree.first()
    }

    pub fn last(&self) -> Option<Handle> {
        self.tree.last()
    }

    pub fn root(&self) -> Option<Handle> {
        (!self.tree.is_empty()).then(|| self.handle(self.tree.root))
    }

    pub fn len(&self) -> usize {
        self.tree.len()
    }

    pub fn is_empty(&self) -> bool {
        self.tree.is_empty()
    }

    /// live, free, retired
    pub fn counts(&self) -> (usize, usize, usize) {
        let slots = &self.tree.a.a.m;
        let of = |want: fn(&ArenaSlot<_, _>) -> bool| slots.iter().filter(|s| want(s)).count();
        (
            of(|s| matches!(s, ArenaSlot::Allocated(..))),
            of(|s| matches!(s, ArenaSlot::Free(_))),
            of(|s| matches!(s, ArenaSlot::Retired)),
        )
    }

    /// The entries in chain order.
    pub fn shown(&self) -> Vec<Shown> {
        let mut all = Vec::with_capacity(self.len());
        let mut at = self.first();
        while let Some(handle) = at {
            assert!(all.len() < self.len(), "the chain is longer than the queue");
            let (_, link) = self.tree.get_inx_node(handle.inx()).expect("a live slot");
            let node = &link.t;
            all.push(Shown {
                at: handle,
                strike: node.t,
                rank: node.rank,
                links: [node.p_back, node.p_tree0, node.p_tree1, link.prev(), link.next()],
            });
            at = link.next().map(|slot| self.handle(slot));
        }
        all
    }

    fn live(&self, handle: Option<Handle>) -> Option<Handle> {
        handle.filter(|h| self.tree.contains(*h))
    }

    fn handle(&self, slot: Slot) -> Handle {
        let (generation, _) = self.tree.get_inx_node(slot).expect("a live slot");
        Handle::_from_raw(slot, generation)
    }
}

fn refusal(error: OrdInsertionError) -> Refusal {
    match error {
        OrdInsertionError::FailedOrdRequirement => Refusal::FailedOrdRequirement,
        OrdInsertionError::NotWithinCapacity => Refusal::NotWithinCapacity,
        // These belong to the reallocating forms, which are left out.
        other => panic!("not reached with a fixed capacity: {other}"),
    }
}
