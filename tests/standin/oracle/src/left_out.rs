//! Ours. What the given files name beside what the queue needs: growing, copying, compressing and
//! draining, backings, one generation for all slots. Document 01 leaves these out. They stand here
//! so that the given files compile unchanged; each panics, and nothing calls one. Names and
//! signatures come from the Rust, changed; NOTICE.

use core::num::NonZeroUsize;
use core::slice::GetDisjointMutError;

use crate::LinkNoGen;
use crate::arena::{Arena, ArenaBacking, ArenaSlot};
use crate::chain::{ChainArena, PtrAdvancer};
use crate::errors::{AllocError, MaxCapacityReductionError, ReallocationError};
use crate::fundamental::{InvalidationOption, InvalidationResult, Ptr};

fn left_out() -> ! {
    panic!("left out by document 01")
}

/// What the given files ask of an arena, a chain and a queue alike. In use: `len`, `is_empty`,
/// `get_inx`, `get`, `contains`, and an arena's `remove_inx`.
pub trait ArenaTrait<P: Ptr, T>: Sized {
    type PtrAdvancer;
    fn len(&self) -> usize;
    fn get_inx(&self, p: P::Inx) -> Option<(P::Gen, &T)>;

    fn is_empty(&self) -> bool {
        self.len() == 0
    }
    fn get(&self, p: P) -> Option<&T> {
        let (generation, t) = self.get_inx(p.inx())?;
        (generation == p.generation()).then_some(t)
    }
    fn contains(&self, p: P) -> bool {
        self.get(p).is_some()
    }

    fn remove_inx(&mut self, _p: P::Inx) -> InvalidationResult<(P::Gen, T)> {
        left_out()
    }
    fn new() -> Self {
        left_out()
    }
    fn with_min_capacity(_min_capacity: usize) -> Result<Self, AllocError> {
        left_out()
    }
    fn capacity(&self) -> usize {
        left_out()
    }
    fn max_capacity(&self) -> Option<usize> {
        left_out()
    }
    fn reallocate_min_capacity(&mut self, _min_capacity: usize) -> Result<(), ReallocationError> {
        left_out()
    }
    fn singular_generation(&self) -> Option<P::Gen> {
        left_out()
    }
    fn get_inx_mut(&mut self, _p: P::Inx) -> Option<(P::Gen, &mut T)> {
        left_out()
    }
    fn get_mut(&mut self, _p: P) -> Option<&mut T> {
        left_out()
    }
    fn find_first_inx_ptr(&self) -> Option<P> {
        left_out()
    }
    fn find_last_inx_ptr(&self) -> Option<P> {
        left_out()
    }
    fn advancer_inx(&self, _inx: P::Inx, _rev: bool) -> Self::PtrAdvancer {
        left_out()
    }
    fn invalidate(&mut self, _p: P) -> InvalidationResult<P> {
        left_out()
    }
    fn drain(&mut self) -> impl Iterator<Item = InvalidationOption<(P, T)>> {
        core::iter::from_fn(|| left_out())
    }
    fn remove(&mut self, _p: P) -> InvalidationResult<T> {
        left_out()
    }
    fn clear(&mut self) -> InvalidationOption<()> {
        left_out()
    }
    fn compress_with<F: FnMut(P, &mut T, P)>(
        &mut self,
        _reset_generation: bool,
        _map: F,
    ) -> InvalidationOption<()> {
        left_out()
    }
}

pub trait DisjointableArenaTrait<P: Ptr, T> {
    fn get_disjoint_inx_mut<const N: usize>(
        &mut self,
        _indices: [P::Inx; N],
    ) -> Result<[(P::Gen, &mut T); N], GetDisjointMutError> {
        left_out()
    }
    fn iter_mut<'a>(&'a mut self) -> impl Iterator<Item = (P, &'a mut T)>
    where
        T: 'a,
    {
        core::iter::from_fn(|| left_out())
    }
    fn vals_mut<'a>(&'a mut self) -> impl Iterator<Item = &'a mut T>
    where
        T: 'a,
    {
        core::iter::from_fn(|| left_out())
    }
}
impl<P: Ptr, T, B: ArenaBacking> DisjointableArenaTrait<P, T> for Arena<P, T, B> {}

pub trait CompactArenaTrait<P: Ptr, T>: ArenaTrait<P, T> {}
impl<P: Ptr, T, B: ArenaBacking> CompactArenaTrait<P, T> for Arena<P, T, B> {}

pub trait ArenaCloneFromWith<P: Ptr, T> {
    fn clone_from_with<U, A: CompactArenaTrait<P, U>, F: FnMut(P, &U) -> T>(
        &mut self,
        source: &A,
        map: F,
    ) -> Result<(), ReallocationError>;
}

pub trait SetMaxCapacity {
    fn set_max_capacity(&mut self, _max_capacity: usize) -> Result<(), MaxCapacityReductionError> {
        left_out()
    }
}
impl<P: Ptr, T, B: ArenaBacking> SetMaxCapacity for ChainArena<P, T, B> {}

pub struct Canonicalize<'a, P: Ptr, T, B: ArenaBacking>(pub(crate) &'a mut Arena<P, T, B>);

impl<P: Ptr, T, B: ArenaBacking> Canonicalize<'_, P, T, B> {
    pub fn cancel(self) {
        left_out()
    }
}

impl<P: Ptr, T, B: ArenaBacking> Arena<P, T, B> {
    pub(crate) fn nziter(&self) -> core::iter::Empty<NonZeroUsize> {
        left_out()
    }
    pub(crate) fn remove_free_end_slots(&mut self) {
        left_out()
    }
    pub(crate) fn generation(&self) -> P::Gen {
        left_out()
    }
    pub(crate) fn set_generation(&mut self, _new_gen: P::Gen) {
        left_out()
    }
}

impl<P: Ptr, T, B: ArenaBacking> ChainArena<P, T, B> {
    pub(crate) fn generation(&self) -> P::Gen {
        left_out()
    }
    pub(crate) fn set_generation(&mut self, _new_gen: P::Gen) {
        left_out()
    }
    pub(crate) fn inc_generation(&mut self) -> InvalidationOption<()> {
        left_out()
    }
    pub(crate) fn are_neighbors(&self, _next_to: P, _prev_to: P) -> bool {
        left_out()
    }
    pub(crate) fn are_neighbors_inx(&self, _next_to: P::Inx, _prev_to: P::Inx) -> bool {
        left_out()
    }
    pub(crate) fn internal_advancer_inx(&self, _inx: P::Inx, _rev: bool) -> PtrAdvancer<P> {
        left_out()
    }
    #[allow(clippy::type_complexity)]
    pub(crate) fn internal_drain_chain(
        &mut self,
        _p_init: P,
    ) -> Option<core::iter::Empty<InvalidationOption<(P, LinkNoGen<P, T>)>>> {
        left_out()
    }
    pub(crate) fn clone_from_with<U, B1: ArenaBacking, F: FnMut(P, &LinkNoGen<P, U>) -> T>(
        &mut self,
        _source: &ChainArena<P, U, B1>,
        _map: F,
    ) -> Result<(), ReallocationError> {
        left_out()
    }
    pub(crate) fn transfer_canonical_reallocating<
        Q: Ptr,
        U,
        B1: ArenaBacking,
        F: FnMut(Q, InvalidationOption<U>, P) -> T,
    >(
        &mut self,
        _new_generation: P::Gen,
        _source: &mut ChainArena<Q, U, B1>,
        _map: F,
    ) -> Result<(), ReallocationError> {
        left_out()
    }
    pub(crate) fn backing(&self) -> &B::Stack<ArenaSlot<P, LinkNoGen<P, T>>> {
        left_out()
    }
    /// # Safety
    /// Nothing calls it.
    pub(crate) unsafe fn backing_mut(&mut self) -> &mut B::Stack<ArenaSlot<P, LinkNoGen<P, T>>> {
        left_out()
    }
}

impl<P: Ptr, T: Clone, B: ArenaBacking> Clone for ChainArena<P, T, B> {
    fn clone(&self) -> Self {
        left_out()
    }
}
