//! Ours. The item and the one instance in use, around the queue of the given simple_ord_arena.rs.
//! Names and signatures come from the Rust, changed; NOTICE.

use crate::arena::{Arena, ArenaBacking, ArenaTrait};
use crate::chain::{ChainArena, PtrAdvancer};
use crate::fundamental::{Handle, InvalidationResult, Ptr, PtrInx};
use crate::simple_ord_arena::SimpleOrdArena;
use crate::stack::Fixed;

pub trait SimpleOrdItem {
    type Key<'a>: Ord;
    fn key(&self) -> Self::Key<'_>;
    fn shorten_key<'short, 'long: 'short>(k: Self::Key<'long>) -> Self::Key<'short>;
}

/// What an entry holds: document 01's key and value.
#[derive(Debug, Clone, Copy, PartialEq, Eq)]
pub struct Strike {
    pub key: i64,
    pub value: u64,
}

impl SimpleOrdItem for Strike {
    type Key<'a> = i64;
    fn key(&self) -> i64 {
        self.key
    }
    fn shorten_key<'short, 'long: 'short>(k: i64) -> i64 {
        k
    }
}

/// The one instance in use.
pub type Tree = SimpleOrdArena<Handle, Strike, Fixed>;

impl<P: Ptr, T, B: ArenaBacking> SimpleOrdArena<P, T, B> {
    pub fn laid_out(capacity: usize, top: P::Gen) -> Self {
        let none = P::Inx::best_effort_invalid();
        SimpleOrdArena {
            root: none,
            first: none,
            last: none,
            a: ChainArena { a: Arena::laid_out(capacity, top) },
        }
    }

    /// root, first and last as they stand, stale ones too. Only the tests of findings look.
    pub fn ends_as_stored(&self) -> [P::Inx; 3] {
        [self.root, self.first, self.last]
    }

    /// The published crate has a `remove` over the given body, in a file that was not given.
    pub fn remove_slot(&mut self, p: P::Inx) -> Option<T> {
        match self.internal_remove(p) {
            InvalidationResult::Success((_, t)) => Some(t),
            InvalidationResult::GenerationOverflow((_, t)) => Some(t),
            InvalidationResult::InvalidPtr => None,
        }
    }

    /// Named by the given comparisons and the given Debug.
    pub fn iter_ordered(&self) -> impl Iterator<Item = (P, &T)> {
        let at = |inx| {
            let (generation, link) = self.get_inx_link_no_gen(inx)?;
            Some((P::_from_raw(inx, generation), link))
        };
        let first = self.first().and_then(|p| at(p.inx()));
        let all = core::iter::successors(first, move |(_, link)| link.next().and_then(at));
        all.map(|(p, link)| (p, link.t))
    }
}

/// The given files ask a queue only for its length and for an entry by slot.
impl<P: Ptr, T, B: ArenaBacking> ArenaTrait<P, T> for SimpleOrdArena<P, T, B> {
    type PtrAdvancer = PtrAdvancer<P>;
    fn len(&self) -> usize {
        self.a.len()
    }
    fn get_inx(&self, p: P::Inx) -> Option<(P::Gen, &T)> {
        self.a.get_inx(p).map(|(generation, node)| (generation, &node.t))
    }
}
