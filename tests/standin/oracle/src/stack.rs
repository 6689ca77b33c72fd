//! Ours. Stacks counted from 1, as far as the given files name them. Names and signatures come from
//! the Rust, changed; NOTICE.

use core::num::NonZeroUsize;

use crate::arena::ArenaBacking;

#[allow(clippy::len_without_is_empty)]
pub trait NonZeroInxGenericStack<T> {
    fn of(all: Vec<T>) -> Self;
    fn len(&self) -> usize;
    fn get(&self, inx: NonZeroUsize) -> Option<&T>;
    fn get_mut(&mut self, inx: NonZeroUsize) -> Option<&mut T>;
    fn pop(&mut self) -> Option<T>;
}

/// The one backing: as many slots as were laid out.
pub struct Fixed;
impl ArenaBacking for Fixed {
    type Stack<T> = Vec<T>;
}

impl<T> NonZeroInxGenericStack<T> for Vec<T> {
    fn of(all: Vec<T>) -> Self {
        all
    }
    fn len(&self) -> usize {
        self.len()
    }
    fn get(&self, inx: NonZeroUsize) -> Option<&T> {
        self.as_slice().get(inx.get() - 1)
    }
    fn get_mut(&mut self, inx: NonZeroUsize) -> Option<&mut T> {
        self.as_mut_slice().get_mut(inx.get() - 1)
    }
    fn pop(&mut self) -> Option<T> {
        self.pop()
    }
}

/// Named by the given rebuilding of a tree, which nothing here calls.
pub struct NonZeroInxArray<T, const N: usize>(Vec<T>);

impl<T, const N: usize> NonZeroInxArray<T, N> {
    #[allow(clippy::new_without_default)]
    pub fn new() -> Self {
        NonZeroInxArray(Vec::with_capacity(N))
    }
    pub fn push(&mut self, t: T) {
        self.0.push(t)
    }
}

impl<T, const N: usize> NonZeroInxGenericStack<T> for NonZeroInxArray<T, N> {
    fn of(all: Vec<T>) -> Self {
        NonZeroInxArray(all)
    }
    fn len(&self) -> usize {
        self.0.len()
    }
    fn get(&self, inx: NonZeroUsize) -> Option<&T> {
        NonZeroInxGenericStack::get(&self.0, inx)
    }
    fn get_mut(&mut self, inx: NonZeroUsize) -> Option<&mut T> {
        NonZeroInxGenericStack::get_mut(&mut self.0, inx)
    }
    fn pop(&mut self) -> Option<T> {
        self.0.pop()
    }
}
