//! Ours. Every order of insertion of N keys, and for each every order of removal.

use core::fmt::Write;

/// 120 times 120 for five keys; six would be 518,400 pairs.
pub const ORDERS_LIMIT: usize = 5;

/// Dumps after each removal. The insertions of one order are dumped step by step once only, before
/// its first order of removal; after that they are the same again.
pub fn orders(n: usize) -> String {
    let mut text = String::new();
    let all = permutations(n);
    for insertion in &all {
        for (i, removal) in all.iter().enumerate() {
            let _ = writeln!(text, "new {} 4294967295", n + 1);
            for (value, key) in insertion.iter().enumerate() {
                let _ = writeln!(text, "ins {} {}", 10 * (key + 1), value + 1);
                if i == 0 {
                    text.push_str("dump\ncheck\n");
                }
            }
            for number in removal {
                let _ = writeln!(text, "rem {number}\ndump");
            }
            text.push_str("check\n");
        }
    }
    text
}

fn permutations(n: usize) -> Vec<Vec<usize>> {
    let mut done = vec![Vec::new()];
    for _ in 0..n {
        let mut longer = Vec::new();
        for part in &done {
            longer.extend((0..n).filter(|k| !part.contains(k)).map(|k| {
                let mut next: Vec<usize> = part.clone();
                next.push(k);
                next
            }));
        }
        done = longer;
    }
    done
}
