//! Every call of the static library on stores with random damage, each store between two pages that can't be touched: every call ends,
//! reads and writes nothing outside, and answers one of its kind; a look changes nothing; a sound store stays sound, and a
//! refusal leaves it as it stood. usage: guarded STORES SEED, or guarded touch, which reads outside and must be stopped.
mod checker;
mod fence;
mod kinds;
mod stores;

use checker::{LIMIT, sound};
use fence::Fence;
use kinds::{Given, KINDS, Kind};
use stores::{Rng, damage, store};

const UNTOUCHED: u64 = 0xA5A5_5A5A_C3C3_3C3C;

/// Document 01, number 5: how many words the capacity needs, where the header passes.
fn need(s: &[u64]) -> Option<usize> {
    let cap = *s.first().filter(|cap| (1..=LIMIT).contains(*cap))?;
    let need = 16 + 10 * cap as usize;
    (s.len() >= need).then_some(need)
}

/// Fails the run, and shows what it takes to see it again.
fn wrong(kind: &Kind, what: &str, before: &[u64]) -> ! {
    println!("{}: {what}: {before:?}", kind.name);
    std::process::exit(1)
}

/// One call, with the store in the room from `at` on. Answers whether it was refused.
fn one(kind: &Kind, given: &Given, before: &[u64], room: &mut [u64], at: usize, row: &mut Fence) -> bool {
    let end = at + before.len();
    let code = {
        let a = row.room().last_chunk_mut::<4>().expect("a row");
        (kind.call)(&mut room[at..end], given, a)
    };
    let after = &room[at..end];
    let refused = code < calls::FIRST;
    let laying = kind.name == "lay_out";
    if room[..at].iter().chain(&room[end..]).any(|w| *w != UNTOUCHED) {
        wrong(kind, "a word outside was written", before);
    }
    if if refused { !kind.refusals.contains(&code) } else { code > kind.last } {
        wrong(kind, "no answer of its kind", before);
    }
    if !kind.writes && after != before {
        wrong(kind, "a look changed the store", before);
    }
    if !laying && kind.name != "sound" && need(before).is_none() && (code != 5 || after != before) {
        wrong(kind, "the header fails, and it was not refused 5 with nothing changed", before);
    }
    if let Some(n) = need(if laying { after } else { before })
        && after[n..] != before[n..]
    {
        wrong(kind, "a word past the needed ones was written", before);
    }
    if laying && (refused && after != before || !refused && !sound(after)) {
        wrong(kind, "laying out did neither lay out nor refuse", before);
    }
    if !laying && sound(before) && (code == 5 || !sound(after) || refused && after != before) {
        wrong(kind, "a sound store was refused 5, or did not stay sound, or a refusal changed it", before);
    }
    refused
}

/// A store: mostly small, at times large, cut short, whole or with more words than it needs; mostly damaged.
fn made(rng: &mut Rng, large: bool) -> (Vec<u64>, usize) {
    let cap = 1 + rng.below(if large { LIMIT } else { 12 }) as usize;
    let mut s = store(rng, cap);
    if rng.below(8) > 0 {
        damage(rng, &mut s, cap);
    }
    match rng.below(16) {
        0 => s.truncate(rng.below(s.len() as u64 + 1) as usize),
        1..=4 => s.resize_with(s.len().next_multiple_of(512), || rng.next()),
        _ => {}
    }
    (s, cap)
}

fn main() {
    if std::env::args().nth(1).as_deref() == Some("touch") {
        let mut fence = Fence::new(512);
        let past = fence.room().as_ptr_range().end;
        println!("the page outside holds {}", unsafe { past.read_volatile() });
        return;
    }
    let mut numbers = std::env::args().skip(1).map(|a| a.parse::<u64>());
    let (Ok(stores), Ok(seed)) = (numbers.next().unwrap_or(Ok(100_000)), numbers.next().unwrap_or(Ok(1))) else {
        eprintln!("usage: guarded STORES SEED, two numbers");
        std::process::exit(2)
    };
    let mut rng = Rng(seed);
    let (mut small, mut large, mut row) = (Fence::new(512), Fence::new(16 + 10 * LIMIT as usize + 3), Fence::new(4));
    let (mut made_calls, mut refused, mut whole) = (0u64, 0u64, 0u64);
    let start = std::time::Instant::now();
    for n in 0..stores {
        let big = n % 2_000 == 1_999;
        let (image, cap) = made(&mut rng, big);
        whole += u64::from(sound(&image));
        let room = if big { large.room() } else { small.room() };
        let at = if n % 2 == 0 { 0 } else { room.len() - image.len() };
        room.fill(UNTOUCHED);
        let mut before = image.clone();
        for kind in &KINDS {
            // in a quarter of the stores the calls follow each other, else each meets the first damage
            if n % 4 != 3 {
                before.copy_from_slice(&image);
            }
            let given = Given::random(&mut rng, &before, cap);
            room[at..at + before.len()].copy_from_slice(&before);
            refused += u64::from(one(kind, &given, &before, room, at, &mut row));
            made_calls += 1;
            before.copy_from_slice(&room[at..at + image.len()]);
        }
    }
    println!(
        "guarded: {stores} stores, {whole} of them sound; {made_calls} calls, {refused} of them refused, in {:.1} s",
        start.elapsed().as_secs_f64()
    );
}
