//! Ours. Writes scripts of PAIRED.md from a seed. The same seed gives the same script everywhere.
//!
//! The maker runs its own script on the stand-in as it goes, so that it knows which handles are
//! live and between which keys a Manual insertion fits; it never looks at ranks or at the tree.

mod keys;
mod lines;
mod maker;
mod orders;
mod phases;
mod rng;

pub use lines::{full, lines};
pub use orders::{ORDERS_LIMIT, orders};
pub use phases::{PHASES, limits, script};
pub use rng::Rng;

/// The names that `any` knows: the phases, and the special classes after them.
pub fn names() -> Vec<&'static str> {
    let special = ["limits", "lines", "full"];
    PHASES.iter().map(|mix| mix.name).chain(special).collect()
}

/// The script of that phase or class; None for an unknown name.
pub fn any(name: &str, seed: u64, calls: usize) -> Option<String> {
    match name {
        "limits" => Some(limits(seed, calls)),
        "lines" => Some(lines(seed, calls)),
        "full" => Some(full(seed)),
        _ => {
            let mix = PHASES.iter().find(|mix| mix.name == name)?;
            Some(script(mix, seed, calls))
        }
    }
}
