//! The check of a store against an independent checker: sound stores, every single-word change of small ones, and stores with
//! random damage. usage: damaged RANDOM SEED
mod checker;
mod stores;

use checker::{NONE, TOP_LIMIT, sound};
use stores::{Rng, damage, store};

fn compare(s: &[u64], what: &str) -> bool {
    let (want, got) = (sound(s), calls::sound(s));
    if want != got {
        println!("{what}: the independent checker says {want}, the check {got}: {s:?}");
        std::process::exit(1);
    }
    want
}

fn main() {
    let mut args = std::env::args().skip(1).map(|a| a.parse::<u64>().expect("a number"));
    let (random, seed) = (args.next().unwrap_or(100_000), args.next().unwrap_or(1));
    let mut rng = Rng(seed);
    let mut whole = 0u64;
    for cap in (1..=24).chain([64, 200, 1_024]) {
        for _ in 0..40 {
            let s = store(&mut rng, cap);
            assert!(compare(&s, "a sound store"), "the builder's store is not sound");
            for short in [0, 1, 15, 16, 16 + 10 * cap - 1] {
                assert!(!compare(&s[..short.min(s.len())], "a store cut short"));
            }
            whole += 1;
        }
    }
    let (mut single, mut still) = (0u64, 0u64);
    for cap in [1usize, 2, 3, 5, 8] {
        for _ in 0..12 {
            let s = store(&mut rng, cap);
            for k in 0..s.len() {
                let old = s[k];
                let wrong = [0, 1, 2, 3, cap as u64 - 1, cap as u64, NONE, TOP_LIMIT, TOP_LIMIT + 1, u64::MAX, old ^ 1, old.wrapping_add(1), old.wrapping_sub(1), rng.next()];
                for v in wrong {
                    let mut t = s.clone();
                    t[k] = v;
                    still += u64::from(compare(&t, "one word changed"));
                    single += 1;
                }
            }
        }
    }
    let mut unharmed = 0u64;
    for _ in 0..random {
        let cap = 1 + rng.below(12) as usize;
        let mut s = store(&mut rng, cap);
        damage(&mut rng, &mut s, cap);
        unharmed += u64::from(compare(&s, "random damage"));
    }
    println!("checked: {whole} sound stores; {single} single-word changes, {still} of them sound; {random} damaged stores, {unharmed} of them sound");
}
