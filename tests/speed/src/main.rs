//! Nine searches to one insertion and one removal, at 1,000 entries: the static library of the queue's calls
//! against the stand-in's bodies. Same keys, same machine; both are filled beforehand. speed [REPETITIONS [ROUNDS [SEED]]]

mod sides;
mod work;

use sides::{Proved, Rust, Side};
use std::time::Instant;
use work::Work;

/// Fills a side, then times the rounds alone. Answers nanoseconds for each round, and what the answers add up to.
fn timed<S: Side>(mut side: S, work: &Work) -> (f64, u64) {
    let mut live: Vec<S::Handle> = work.filled.iter().map(|k| side.insert(*k, 1)).collect();
    let mut sum = 0u64;
    let start = Instant::now();
    for round in &work.rounds {
        for key in round.searched {
            sum = sum.wrapping_mul(31).wrapping_add(side.search(key) as u64);
        }
        let added = side.insert(round.added, 2);
        let gone = core::mem::replace(&mut live[round.removed], added);
        sum = sum.wrapping_mul(31).wrapping_add(side.remove(gone) as u64);
    }
    (start.elapsed().as_nanos() as f64 / work.rounds.len() as f64, sum)
}

fn argument(i: usize, default: u64) -> u64 {
    match std::env::args().nth(i) {
        None => default,
        Some(text) => text.parse().unwrap_or_else(|_| {
            eprintln!("speed: '{text}' is no number");
            std::process::exit(2)
        }),
    }
}

/// Smallest, median and largest.
fn spread(mut all: Vec<f64>) -> (f64, f64, f64) {
    all.sort_by(f64::total_cmp);
    (all[0], all[all.len() / 2], all[all.len() - 1])
}

fn main() {
    let (repetitions, rounds, seed) = (argument(1, 11), argument(2, 200_000), argument(3, 1));
    let work = Work::new(1_000, rounds as usize, seed);
    let (mut ours, mut theirs, mut shares) = (Vec::new(), Vec::new(), Vec::new());
    for _ in 0..repetitions {
        let (a, x) = timed(Proved::new(1_024), &work);
        let (b, y) = timed(Rust::new(1_024), &work);
        assert_eq!(x, y, "both sides give the same answers");
        ours.push(a);
        theirs.push(b);
        shares.push(a / b);
    }
    println!("{repetitions} repetitions of {rounds} rounds, alternating; a round is nine searches, an insertion, a removal");
    for (name, all) in [("proved, ns a round", ours), ("Rust, ns a round", theirs), ("proved to Rust", shares)] {
        let (low, middle, high) = spread(all);
        println!("{name:<20} median {middle:8.3}  from {low:8.3} to {high:8.3}");
    }
}
