//! The queue's calls for tests in Rust: each is a function of the static library that tests/host makes. An answer is a code
//! and a row of four numbers, as crates/host_numbers/specs/inner/Told.antt says: 1 to 6 refuse, 16 and up answer.

/// The code of laid out, new, equal, at, and of an entry that was read or removed.
pub const FIRST: u64 = 16;

pub type Row = [u64; 4];

mod library {
    use super::Row;
    unsafe extern "C" {
        pub fn hosted_sound(s: *const u64, len: usize) -> bool;
        pub fn hosted_lay_out(s: *mut u64, len: usize, capacity: u64, top: u64) -> u64;
        pub fn hosted_insert(s: *mut u64, len: usize, key: i64, value: u64, a: *mut Row) -> u64;
        pub fn hosted_insert_empty(s: *mut u64, len: usize, key: i64, value: u64, a: *mut Row) -> u64;
        pub fn hosted_insert_manual(
            s: *mut u64, len: usize, slot: u64, generation: u64, side: u64, key: i64, value: u64, a: *mut Row,
        ) -> u64;
        pub fn hosted_look_ahead(s: *const u64, len: usize, key: i64, a: *mut Row) -> u64;
        pub fn hosted_look_ahead_empty(s: *const u64, len: usize, a: *mut Row) -> u64;
        pub fn hosted_look_ahead_manual(
            s: *const u64, len: usize, slot: u64, generation: u64, side: u64, key: i64, a: *mut Row,
        ) -> u64;
        pub fn hosted_remove(s: *mut u64, len: usize, slot: u64, generation: u64, a: *mut Row) -> u64;
        pub fn hosted_read(s: *const u64, len: usize, slot: u64, generation: u64, a: *mut Row) -> u64;
        pub fn hosted_search(s: *const u64, len: usize, key: i64, a: *mut Row) -> u64;
        pub fn hosted_first(s: *const u64, len: usize, a: *mut Row) -> u64;
        pub fn hosted_last(s: *const u64, len: usize, a: *mut Row) -> u64;
        pub fn hosted_at(s: *const u64, len: usize, slot: u64, generation: u64, a: *mut Row) -> u64;
        pub fn hosted_forward(s: *const u64, len: usize, slot: u64, generation: u64, a: *mut Row) -> u64;
        pub fn hosted_back(s: *const u64, len: usize, slot: u64, generation: u64, a: *mut Row) -> u64;
    }
}

/// A safe function over each of the library's: the library is proved to stay in the slice and in the row.
macro_rules! writes {
    ($($name:ident = $of:ident($($arg:ident: $kind:ty),*);)*) => {$(
        pub fn $name(s: &mut [u64], $($arg: $kind),*) -> u64 {
            unsafe { library::$of(s.as_mut_ptr(), s.len(), $($arg),*) }
        }
    )*};
}

macro_rules! looks {
    ($($name:ident = $of:ident($($arg:ident: $kind:ty),*) -> $answer:ty;)*) => {$(
        pub fn $name(s: &[u64], $($arg: $kind),*) -> $answer {
            unsafe { library::$of(s.as_ptr(), s.len(), $($arg),*) }
        }
    )*};
}

writes! {
    lay_out = hosted_lay_out(capacity: u64, top: u64);
    insert = hosted_insert(key: i64, value: u64, a: &mut Row);
    insert_empty = hosted_insert_empty(key: i64, value: u64, a: &mut Row);
    insert_manual = hosted_insert_manual(slot: u64, generation: u64, side: u64, key: i64, value: u64, a: &mut Row);
    remove = hosted_remove(slot: u64, generation: u64, a: &mut Row);
}

looks! {
    sound = hosted_sound() -> bool;
    look_ahead = hosted_look_ahead(key: i64, a: &mut Row) -> u64;
    look_ahead_empty = hosted_look_ahead_empty(a: &mut Row) -> u64;
    look_ahead_manual = hosted_look_ahead_manual(slot: u64, generation: u64, side: u64, key: i64, a: &mut Row) -> u64;
    read = hosted_read(slot: u64, generation: u64, a: &mut Row) -> u64;
    search = hosted_search(key: i64, a: &mut Row) -> u64;
    first = hosted_first(a: &mut Row) -> u64;
    last = hosted_last(a: &mut Row) -> u64;
    at = hosted_at(slot: u64, generation: u64, a: &mut Row) -> u64;
    forward = hosted_forward(slot: u64, generation: u64, a: &mut Row) -> u64;
    back = hosted_back(slot: u64, generation: u64, a: &mut Row) -> u64;
}
