//! Ours. Pointers, as far as the given files need them, and the handle of document 01. Names and
//! signatures come from the Rust's fundamental/ptr.rs and fundamental.rs, changed; NOTICE.

use core::fmt::{self, Debug};
use core::hash::Hash;

/// A slot's number.
pub trait PtrInx: Debug + Hash + Copy + Ord + 'static {
    fn from_usize(n: usize) -> Self;
    fn to_usize(this: Self) -> usize;
    fn best_effort_invalid() -> Self;
    fn fmt_hex(this: Self, f: &mut fmt::Formatter<'_>) -> fmt::Result;
}

/// A generation. Document 01: the first is 1, where the Rust starts at 2.
pub trait PtrGen: Debug + Hash + Copy + Ord + 'static {
    fn one() -> Self;
    /// Named by what document 01 leaves out.
    fn two() -> Self;
    /// Only called below the top generation, so it never wraps, unlike the Rust's.
    fn up(this: Self) -> Self;
}

/// A handle: slot and generation.
pub trait Ptr: Debug + Hash + Copy + Ord + 'static {
    type Inx: PtrInx;
    type Gen: PtrGen;
    fn invalid() -> Self;
    fn inx(self) -> Self::Inx;
    fn generation(self) -> Self::Gen;
    fn _from_raw(inx: Self::Inx, generation: Self::Gen) -> Self;
}

/// What a removal answers: the entry, the entry with document 01's note, or refusal 3.
#[derive(Debug, Clone, Copy, PartialEq, Eq)]
pub enum InvalidationResult<T> {
    Success(T),
    GenerationOverflow(T),
    InvalidPtr,
}

impl<T> InvalidationResult<T> {
    pub fn map<U, F: FnOnce(T) -> U>(self, f: F) -> InvalidationResult<U> {
        match self {
            Self::Success(t) => InvalidationResult::Success(f(t)),
            Self::GenerationOverflow(t) => InvalidationResult::GenerationOverflow(f(t)),
            Self::InvalidPtr => InvalidationResult::InvalidPtr,
        }
    }

    /// What was removed, and whether document 01's note stands with it.
    pub fn overflowing(self) -> (Option<T>, bool) {
        match self {
            Self::Success(t) => (Some(t), false),
            Self::GenerationOverflow(t) => (Some(t), true),
            Self::InvalidPtr => (None, false),
        }
    }
}

/// The same without a refusal; only what document 01 leaves out answers it.
#[derive(Debug, Clone, Copy, PartialEq, Eq)]
pub enum InvalidationOption<T> {
    Success(T),
    GenerationOverflow(T),
}

impl<T> InvalidationOption<T> {
    pub fn map<U, F: FnOnce(T) -> U>(self, f: F) -> InvalidationOption<U> {
        match self {
            Self::Success(t) => InvalidationOption::Success(f(t)),
            Self::GenerationOverflow(t) => InvalidationOption::GenerationOverflow(f(t)),
        }
    }
}

#[derive(Debug, Clone, Copy, PartialEq, Eq, PartialOrd, Ord, Hash)]
pub struct Slot(pub u32);

#[derive(Debug, Clone, Copy, PartialEq, Eq, PartialOrd, Ord, Hash)]
pub struct Generation(pub u32);

#[derive(Debug, Clone, Copy, PartialEq, Eq, PartialOrd, Ord, Hash)]
pub struct Handle {
    pub slot: Slot,
    pub generation: Generation,
}

impl PtrInx for Slot {
    fn from_usize(n: usize) -> Self {
        Slot(u32::try_from(n).expect("a slot's number fits 32 bits"))
    }
    fn to_usize(this: Self) -> usize {
        this.0 as usize
    }
    fn best_effort_invalid() -> Self {
        Slot(u32::MAX)
    }
    fn fmt_hex(this: Self, f: &mut fmt::Formatter<'_>) -> fmt::Result {
        write!(f, "{:x}", this.0)
    }
}

impl PtrGen for Generation {
    fn one() -> Self {
        Generation(1)
    }
    fn two() -> Self {
        Generation(2)
    }
    fn up(this: Self) -> Self {
        Generation(this.0 + 1)
    }
}

impl Ptr for Handle {
    type Inx = Slot;
    type Gen = Generation;
    fn invalid() -> Self {
        Self::_from_raw(PtrInx::best_effort_invalid(), PtrGen::one())
    }
    fn inx(self) -> Slot {
        self.slot
    }
    fn generation(self) -> Generation {
        self.generation
    }
    fn _from_raw(slot: Slot, generation: Generation) -> Self {
        Handle { slot, generation }
    }
}
