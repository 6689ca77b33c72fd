//! Ours. The slots of document 01, under the names that the given files call. Names and signatures
//! come from the Rust's arena/base_arena.rs and arena/impl_arena_trait.rs, changed; NOTICE.
//!
//! Not as in the Rust, and decided by document 01: each slot has a generation of its own, from 1 up
//! to a top; at the top the slot is retired; the slot freed last is taken first, and a fresh store
//! gives 0, 1, 2 ..; the capacity is fixed.

use core::num::NonZeroUsize;

use crate::errors::NotWithinCapacityError;
use crate::fundamental::{InvalidationResult, Ptr, PtrGen, PtrInx};
use crate::stack::NonZeroInxGenericStack;

pub use crate::left_out::{ArenaTrait, Canonicalize};

/// The given files are generic over a backing, which names the kind of stack that holds slots.
pub trait ArenaBacking {
    type Stack<T>: NonZeroInxGenericStack<T>;
}

pub enum ArenaSlot<P: Ptr, T> {
    /// The slot that is free after this one; its own number at the end of the list.
    Free(P::Inx),
    Allocated(P::Gen, T),
    /// Added by document 01.
    Retired,
}

pub struct Arena<P: Ptr, T, B: ArenaBacking> {
    pub(crate) m: B::Stack<ArenaSlot<P, T>>,
    pub(crate) len: usize,
    pub(crate) freelist_root: Option<P::Inx>,
    /// By slot: its generation; of a free slot, the one that its next entry gets.
    pub(crate) generations: Vec<P::Gen>,
    pub(crate) top: P::Gen,
}

/// A stack counts from 1, slots from 0.
pub fn from_checked_raw<P: Ptr>(inx: NonZeroUsize) -> P::Inx {
    P::Inx::from_usize(inx.get() - 1)
}

pub fn from_checked_ptr<P: Ptr>(inx: P::Inx) -> NonZeroUsize {
    NonZeroUsize::MIN.saturating_add(P::Inx::to_usize(inx))
}

/// Steps over the handles of live entries; the caller passes the arena anew each time.
pub trait Advancer<C> {
    type Item;
    fn advance(&mut self, collection: &C) -> Option<Self::Item>;
}

/// A place for one insertion, found and not yet used. Dropping it changes nothing.
pub trait ArenaInsertEntryTrait<'a, P: Ptr, T> {
    fn ptr(&self) -> P;
    fn insert(self, t: T);
}

pub trait ArenaInsertTrait<P: Ptr, T> {
    type InsertionEntry<'a>: ArenaInsertEntryTrait<'a, P, T>
    where
        Self: 'a;
    fn entry_insert_within_capacity(
        &mut self,
    ) -> Result<Self::InsertionEntry<'_>, NotWithinCapacityError>;
}

pub struct ArenaInsertEntry<'a, P: Ptr, T, B: ArenaBacking> {
    this: &'a mut Arena<P, T, B>,
    p: P,
}

impl<'a, P: Ptr, T, B: ArenaBacking> ArenaInsertEntryTrait<'a, P, T>
    for ArenaInsertEntry<'a, P, T, B>
{
    fn ptr(&self) -> P {
        self.p
    }

    fn insert(self, t: T) {
        let (this, p) = (self.this, self.p);
        let slot = this.m.get_mut(from_checked_ptr::<P>(p.inx())).expect("a slot");
        let taken = core::mem::replace(slot, ArenaSlot::Allocated(p.generation(), t));
        let ArenaSlot::Free(after) = taken else { panic!("a free slot") };
        this.freelist_root = (after != p.inx()).then_some(after);
        this.len += 1;
    }
}

impl<P: Ptr, T, B: ArenaBacking> ArenaInsertTrait<P, T> for Arena<P, T, B> {
    type InsertionEntry<'a>
        = ArenaInsertEntry<'a, P, T, B>
    where
        Self: 'a;

    fn entry_insert_within_capacity(
        &mut self,
    ) -> Result<Self::InsertionEntry<'_>, NotWithinCapacityError> {
        let inx = self.freelist_root.ok_or(NotWithinCapacityError)?;
        let p = P::_from_raw(inx, self.generations[P::Inx::to_usize(inx)]);
        Ok(ArenaInsertEntry { this: self, p })
    }
}

impl<P: Ptr, T, B: ArenaBacking> ArenaTrait<P, T> for Arena<P, T, B> {
    type PtrAdvancer = ();

    fn len(&self) -> usize {
        self.len
    }

    fn get_inx(&self, p: P::Inx) -> Option<(P::Gen, &T)> {
        match self.m.get(from_checked_ptr::<P>(p))? {
            ArenaSlot::Allocated(generation, t) => Some((*generation, t)),
            _ => None,
        }
    }

    fn remove_inx(&mut self, p: P::Inx) -> InvalidationResult<(P::Gen, T)> {
        let (at, top, root) = (P::Inx::to_usize(p), self.top, self.freelist_root);
        let Some(slot) = self.m.get_mut(from_checked_ptr::<P>(p)) else {
            return InvalidationResult::InvalidPtr;
        };
        let ArenaSlot::Allocated(generation, _) = slot else {
            return InvalidationResult::InvalidPtr;
        };
        let retires = *generation == top;
        let after = if retires { ArenaSlot::Retired } else { ArenaSlot::Free(root.unwrap_or(p)) };
        let ArenaSlot::Allocated(ended, t) = core::mem::replace(slot, after) else {
            unreachable!()
        };
        self.len -= 1;
        if retires {
            return InvalidationResult::GenerationOverflow((ended, t));
        }
        self.generations[at] = P::Gen::up(ended);
        self.freelist_root = Some(p);
        InvalidationResult::Success((ended, t))
    }
}

impl<P: Ptr, T, B: ArenaBacking> Arena<P, T, B> {
    pub fn laid_out(capacity: usize, top: P::Gen) -> Self {
        let after = |i: usize| P::Inx::from_usize((i + 1).min(capacity - 1));
        Arena {
            m: B::Stack::of((0..capacity).map(|i| ArenaSlot::Free(after(i))).collect()),
            len: 0,
            freelist_root: Some(P::Inx::from_usize(0)),
            generations: vec![P::Gen::one(); capacity],
            top,
        }
    }

    pub fn get_inx_unwrap(&self, p: P::Inx) -> &T {
        self.get_inx(p).expect("a link leads to a live slot").1
    }

    pub fn get_inx_mut_unwrap(&mut self, p: P::Inx) -> &mut T {
        match self.m.get_mut(from_checked_ptr::<P>(p)) {
            Some(ArenaSlot::Allocated(_, t)) => t,
            _ => panic!("a link leads to a live slot"),
        }
    }

    /// The first live slot at `from` or after it.
    pub fn live_from(&self, from: usize) -> Option<P> {
        (from..self.m.len()).find_map(|i| {
            let inx = P::Inx::from_usize(i);
            self.get_inx(inx).map(|(generation, _)| P::_from_raw(inx, generation))
        })
    }

    /// The free list as it stands, given up after as many steps as there are slots and one more.
    pub fn free_list(&self) -> Vec<P::Inx> {
        let mut met = Vec::new();
        let mut at = self.freelist_root;
        while let Some(inx) = at
            && met.len() <= self.m.len()
        {
            met.push(inx);
            at = match self.m.get(from_checked_ptr::<P>(inx)) {
                Some(ArenaSlot::Free(after)) if *after != inx => Some(*after),
                _ => None,
            };
        }
        met
    }
}
