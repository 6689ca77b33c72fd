//! Ours. The script language of PAIRED.md, with the rules of SCRIPT.md for lines that are not in it.

use core::cmp::Ordering;

/// A line longer than this is a bad line.
pub const LINE_LIMIT: usize = 128;

#[derive(Debug, Clone, Copy, PartialEq, Eq)]
pub enum Place {
    Normal,
    Empty,
    Manual(u64, Ordering),
}

#[derive(Debug, Clone, Copy, PartialEq, Eq)]
pub enum Call {
    New(u64, u64),
    Insert(Place, i64, u64),
    Look(Place, i64),
    Remove(u64),
    Get(u64),
    Find(i64),
    Next(u64),
    Prev(u64),
    First,
    Last,
    List,
    Dump,
    Check,
}

#[derive(Debug, Clone, Copy, PartialEq, Eq)]
pub enum Line {
    /// Empty or a comment: no answer.
    Skip,
    Bad,
    Unknown,
    Call(Call),
}

/// Reads one line, given without its newline.
pub fn read(line: &[u8]) -> Line {
    if line.len() > LINE_LIMIT {
        return Line::Bad;
    }
    let line = line.strip_suffix(b"\r").unwrap_or(line);
    let fields: Vec<&[u8]> = line.split(|b| *b == b' ').filter(|f| !f.is_empty()).collect();
    let Some((word, rest)) = fields.split_first() else {
        return Line::Skip;
    };
    if word[0] == b'#' {
        return Line::Skip;
    }
    match arity(word) {
        None => Line::Unknown,
        Some(n) if n != rest.len() => Line::Bad,
        Some(_) => call(word, rest).map_or(Line::Bad, Line::Call),
    }
}

fn arity(word: &[u8]) -> Option<usize> {
    match word {
        b"first" | b"last" | b"list" | b"dump" | b"check" => Some(0),
        b"peek" | b"pemp" | b"rem" | b"get" | b"find" | b"next" | b"prev" => Some(1),
        b"new" | b"ins" | b"emp" => Some(2),
        b"pman" => Some(3),
        b"man" => Some(4),
        _ => None,
    }
}

/// None: an argument does not parse or is out of its range. The number of arguments is right.
fn call(word: &[u8], rest: &[&[u8]]) -> Option<Call> {
    let un = |i: usize| unsigned(rest[i]);
    let key = |i: usize| signed(rest[i]);
    let manual = || Some(Place::Manual(un(0)?, side(rest[1])?));
    Some(match word {
        b"new" => Call::New(un(0)?, un(1)?),
        b"ins" => Call::Insert(Place::Normal, key(0)?, un(1)?),
        b"emp" => Call::Insert(Place::Empty, key(0)?, un(1)?),
        b"man" => Call::Insert(manual()?, key(2)?, un(3)?),
        b"peek" => Call::Look(Place::Normal, key(0)?),
        b"pemp" => Call::Look(Place::Empty, key(0)?),
        b"pman" => Call::Look(manual()?, key(2)?),
        b"rem" => Call::Remove(un(0)?),
        b"get" => Call::Get(un(0)?),
        b"find" => Call::Find(key(0)?),
        b"next" => Call::Next(un(0)?),
        b"prev" => Call::Prev(un(0)?),
        b"first" => Call::First,
        b"last" => Call::Last,
        b"list" => Call::List,
        b"dump" => Call::Dump,
        b"check" => Call::Check,
        _ => return None,
    })
}

/// One or more decimal digits, up to 2^64 - 1. No sign.
fn unsigned(field: &[u8]) -> Option<u64> {
    if field.is_empty() {
        return None;
    }
    field.iter().try_fold(0u64, |sum, byte| {
        let digit = byte.is_ascii_digit().then(|| u64::from(byte - b'0'))?;
        sum.checked_mul(10)?.checked_add(digit)
    })
}

/// Digits, or a minus and digits, from -2^63 to 2^63 - 1. `-0` is 0.
fn signed(field: &[u8]) -> Option<i64> {
    match field.strip_prefix(b"-") {
        None => i64::try_from(unsigned(field)?).ok(),
        Some(digits) => 0i64.checked_sub_unsigned(unsigned(digits)?),
    }
}

fn side(field: &[u8]) -> Option<Ordering> {
    match signed(field)? {
        -1 => Some(Ordering::Less),
        0 => Some(Ordering::Equal),
        1 => Some(Ordering::Greater),
        _ => None,
    }
}
