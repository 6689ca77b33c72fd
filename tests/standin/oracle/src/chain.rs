//! Ours. What the given chain/impl_chain_arena_trait.rs and the tree files name of a chain, from
//! files of the published crate that were not given: the type, the kinds of insertion, the trait
//! with its provided methods, the advancers, and a check of prev and next.
//!
//! Linking in, unlinking and reading a link are the given file's bodies. Names and signatures come
//! from the Rust, changed; NOTICE.

use crate::LinkNoGen;
use crate::arena::{Advancer, Arena, ArenaBacking, ArenaInsertEntryTrait, ArenaTrait};
use crate::errors::ChainInsertionError;
use crate::fundamental::{InvalidationOption, InvalidationResult, Ptr, PtrInx};

pub struct ChainArena<P: Ptr, T, B: ArenaBacking> {
    pub(crate) a: Arena<P, LinkNoGen<P, T>, B>,
}

/// Where a new link goes. The tree files use Disconnected, PrevToInx and NextToInx.
#[derive(Debug, Clone, Copy, PartialEq, Eq)]
pub enum LinkInsertKind<P: Ptr> {
    Disconnected,
    SingleLinkCyclic,
    ChainStart(P),
    ChainStartInx(P::Inx),
    ChainEnd(P),
    ChainEndInx(P::Inx),
    PrevTo(P),
    PrevToInx(P::Inx),
    NextTo(P),
    NextToInx(P::Inx),
    AtInterlink { next_to: P, prev_to: P },
    AtInterlinkInx { next_to: P::Inx, prev_to: P::Inx },
    Bridge { end: P, start: P },
    BridgeInx { end: P::Inx, start: P::Inx },
}

/// The same, tested: what it names is live.
#[derive(Debug, Clone, Copy, PartialEq, Eq)]
pub enum LinkInsertInxKind<P: Ptr> {
    Disconnected,
    SingleLinkCyclic,
    ChainStartInx(P::Inx),
    ChainEndInx(P::Inx),
    PrevToInx(P::Inx),
    NextToInx(P::Inx),
    InternalConnect { next_to: P::Inx, prev_to: P::Inx },
}

pub trait ChainArenaTrait<P: Ptr, T>: ArenaTrait<P, T> {
    type ChainPtrAdvancer: Advancer<Self, Item = P>;
    type InsertionEntry<'a>: ArenaInsertEntryTrait<'a, P, T>
    where
        Self: 'a;

    fn get_inx_link_no_gen(&self, p: P::Inx) -> Option<(P::Gen, &LinkNoGen<P, T>)>;
    fn advancer_chain(&self, p_init: P) -> Option<Self::ChainPtrAdvancer>;
    fn entry_insert_within_capacity(
        &mut self,
        kind: LinkInsertKind<P>,
    ) -> Result<Self::InsertionEntry<'_>, ChainInsertionError>;
    fn connect(&mut self, p_prev: P, p_next: P) -> Option<()>;
    fn break_prev(&mut self, p: P) -> Option<()>;
    fn break_next(&mut self, p: P) -> Option<()>;
    fn exchange_next(&mut self, p0: P, p1: P) -> Option<()>;
    fn remove_inx_link_no_gen(
        &mut self,
        p: P::Inx,
    ) -> InvalidationResult<(P::Gen, LinkNoGen<P, T>)>;
    fn drain_chain(
        &mut self,
        p_init: P,
    ) -> Option<impl Iterator<Item = InvalidationOption<(P, LinkNoGen<P, T>)>>>;
    fn compress_canonical(&mut self, reset_generation: bool) -> InvalidationOption<()>;

    fn get_link_no_gen(&self, p: P) -> Option<&LinkNoGen<P, T>> {
        let (generation, link) = self.get_inx_link_no_gen(p.inx())?;
        (generation == p.generation()).then_some(link)
    }

    fn remove_link_no_gen(&mut self, p: P) -> InvalidationResult<LinkNoGen<P, T>> {
        if self.contains(p) {
            self.remove_inx_link_no_gen(p.inx()).map(|(_, link)| link)
        } else {
            InvalidationResult::InvalidPtr
        }
    }

    fn insert_within_capacity(
        &mut self,
        kind: LinkInsertKind<P>,
        t: T,
    ) -> Result<P, ChainInsertionError> {
        let entry = self.entry_insert_within_capacity(kind)?;
        let p = entry.ptr();
        entry.insert(t);
        Ok(p)
    }

    // The capacity is fixed, so the reallocating forms are the same; the given files name them.
    fn entry_insert_reallocating(
        &mut self,
        kind: LinkInsertKind<P>,
    ) -> Result<Self::InsertionEntry<'_>, ChainInsertionError> {
        self.entry_insert_within_capacity(kind)
    }
    fn insert_reallocating(
        &mut self,
        kind: LinkInsertKind<P>,
        t: T,
    ) -> Result<P, ChainInsertionError> {
        self.insert_within_capacity(kind, t)
    }
}

pub mod chain_iterators {
    pub use super::{ChainPtrAdvancer, PtrAdvancer};
}

/// Steps by slot number.
pub struct PtrAdvancer<P: Ptr> {
    next: usize,
    kind: core::marker::PhantomData<P>,
}

impl<P: Ptr, T, B: ArenaBacking> Advancer<ChainArena<P, T, B>> for PtrAdvancer<P> {
    type Item = P;
    fn advance(&mut self, collection: &ChainArena<P, T, B>) -> Option<P> {
        let p = collection.a.live_from(self.next)?;
        self.next = P::Inx::to_usize(p.inx()) + 1;
        Some(p)
    }
}

/// Steps along the chain. It gives up after as many steps as there are entries, so that a broken
/// chain is a wrong count to `_check_invariants` and no endless loop.
pub struct ChainPtrAdvancer<P: Ptr> {
    at: Option<P::Inx>,
    left: usize,
}

impl<P: Ptr, T, B: ArenaBacking> Advancer<ChainArena<P, T, B>> for ChainPtrAdvancer<P> {
    type Item = P;
    fn advance(&mut self, collection: &ChainArena<P, T, B>) -> Option<P> {
        let inx = self.at?;
        self.left = self.left.checked_sub(1)?;
        let (generation, link) = collection.get_inx_link_no_gen(inx)?;
        self.at = link.next();
        Some(P::_from_raw(inx, generation))
    }
}

impl<P: Ptr, T, B: ArenaBacking> ChainArena<P, T, B> {
    pub fn get_inx_unwrap(&self, p: P::Inx) -> &T {
        &self.a.get_inx_unwrap(p).t
    }

    pub fn get_inx_mut_unwrap(&mut self, p: P::Inx) -> &mut T {
        &mut self.a.get_inx_mut_unwrap(p).t
    }

    pub fn advancer(&self) -> PtrAdvancer<P> {
        PtrAdvancer { next: 0, kind: core::marker::PhantomData }
    }

    pub(crate) fn internal_advancer_chain(&self, p_init: P) -> Option<ChainPtrAdvancer<P>> {
        self.contains(p_init)
            .then(|| ChainPtrAdvancer { at: Some(p_init.inx()), left: self.len() + 1 })
    }

    /// Called by the given `_check_invariants`: prev and next agree, both ways.
    pub fn _check_invariants(this: &Self) -> Result<(), &'static str> {
        let mut adv = this.advancer();
        while let Some(p) = adv.advance(this) {
            let (prev, next) = this.a.get_inx_unwrap(p.inx()).prev_next();
            let agrees = |to: Option<P::Inx>, back: fn(&LinkNoGen<P, T>) -> Option<P::Inx>| {
                let Some(to) = to else { return true };
                this.a.get_inx(to).is_some_and(|(_, link)| back(link) == Some(p.inx()))
            };
            if !agrees(prev, LinkNoGen::next) || !agrees(next, LinkNoGen::prev) {
                return Err("prev and next do not agree");
            }
        }
        Ok(())
    }
}
