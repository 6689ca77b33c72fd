//! A STAND-IN for the published crate triple_arena 0.15.1, for tests only. It is not that crate.
//!
//! Given, byte for byte (see given.sha256): insert.rs, remove.rs, find.rs, simple_ord_arena.rs,
//! links.rs, impl_chain_arena_trait.rs, errors.rs. They decide the tree work (search, placing,
//! ranks, restructuring, replacement, the climbs) and the chain: linking in, unlinking, stepping.
//! Ours: everything else. arena, stack, chain, fundamental and ord hold what the given files call,
//! in the smallest form that compiles; slots, generations and the free order follow document 01
//! there. left_out holds what the given files name and nothing calls. queue adds what document 01
//! marks "added"; check, script and run serve the script language.
//!
//! The given files say `use crate::{..}`; the names below are laid out so that those lines resolve.

pub mod arena;
pub mod chain;
pub mod check;
pub mod fundamental;
pub mod generator;
mod left_out;
pub mod ord;
pub mod queue;
pub mod run;
pub mod script;
pub mod stack;

// The given files. They are never formatted, and what only the left-out parts use is not flagged.
#[path = "given/errors.rs"]
#[rustfmt::skip]
pub mod errors;
#[path = "given/find.rs"]
#[rustfmt::skip]
mod find;
#[path = "given/impl_chain_arena_trait.rs"]
#[rustfmt::skip]
#[allow(clippy::all)]
mod impl_chain_arena_trait;
#[path = "given/insert.rs"]
#[rustfmt::skip]
#[allow(clippy::all)]
mod insert;
#[path = "given/links.rs"]
#[rustfmt::skip]
mod links;
#[path = "given/remove.rs"]
#[rustfmt::skip]
mod remove;
#[path = "given/simple_ord_arena.rs"]
#[rustfmt::skip]
#[allow(clippy::all)]
mod simple_ord_arena;

pub use arena::Arena;
pub(crate) use chain::LinkInsertInxKind;
pub use chain::{ChainArena, LinkInsertKind, chain_iterators};
pub use fundamental::{InvalidationOption, InvalidationResult};
pub use insert::{OrdEntryKind, OrdInsertKind, SimpleOrdArenaInsertEntry};
pub use links::{Link, LinkNoGen};
pub use simple_ord_arena::SimpleOrdArena;

pub mod traits {
    pub use crate::arena::{Advancer, ArenaInsertEntryTrait, ArenaInsertTrait, ArenaTrait};
    pub use crate::chain::ChainArenaTrait;
    pub use crate::fundamental::Ptr;
    pub use crate::left_out::{ArenaCloneFromWith, CompactArenaTrait, DisjointableArenaTrait};
}

pub mod utils {
    pub use crate::arena::{ArenaSlot, from_checked_ptr, from_checked_raw};
    pub use crate::impl_chain_arena_trait::ChainArenaInsertEntry;
    pub use crate::simple_ord_arena::SimpleOrdArenaNode;
    pub mod traits {
        pub use crate::arena::ArenaBacking;
        pub use crate::fundamental::PtrGen;
        pub use crate::left_out::SetMaxCapacity;
        pub use crate::ord::SimpleOrdItem;
        pub use crate::stack::NonZeroInxGenericStack;
    }
}
