//! Writes scripts for paired runs. See USAGE for how it is called.

use std::io::{self, Write};
use std::path::Path;
use std::process::ExitCode;

use standin::generator::{ORDERS_LIMIT, any, names, orders};

const USAGE: &str = "usage:
  scriptgen PHASE SEED [CALLS]            one script (CALLS: 1000 unless given)
  scriptgen --limits SEED [CALLS]         the same as the phase limits
  scriptgen --orders N                    all insertion and removal orders of N keys, N 1 to 5
  scriptgen --all DIR COUNT SEED [CALLS]  COUNT scripts into DIR, the phases in turn
  scriptgen --phases                      the names of the phases";

fn main() -> ExitCode {
    let args: Vec<String> = std::env::args().skip(1).collect();
    let words: Vec<&str> = args.iter().map(String::as_str).collect();
    match serve(&words) {
        Some(Ok(())) => ExitCode::SUCCESS,
        Some(Err(error)) => {
            eprintln!("scriptgen: {error}");
            ExitCode::FAILURE
        }
        None => {
            eprintln!("{USAGE}");
            ExitCode::FAILURE
        }
    }
}

/// None: the words are not understood.
fn serve(words: &[&str]) -> Option<io::Result<()>> {
    match words {
        ["--phases"] => Some(write(&(names().join("\n") + "\n"))),
        ["--orders", n] => {
            let n: usize = n.parse().ok()?;
            (1..=ORDERS_LIMIT).contains(&n).then(|| write(&orders(n)))
        }
        ["--limits", rest @ ..] => one("limits", rest),
        ["--all", dir, count, seed, rest @ ..] => {
            Some(all(Path::new(dir), count.parse().ok()?, seed.parse().ok()?, calls(rest)?))
        }
        [name, rest @ ..] => one(name, rest),
        [] => None,
    }
}

fn one(name: &str, rest: &[&str]) -> Option<io::Result<()>> {
    let (seed, rest) = rest.split_first()?;
    let text = any(name, seed.parse().ok()?, calls(rest)?)?;
    Some(write(&text))
}

fn calls(rest: &[&str]) -> Option<usize> {
    match rest {
        [] => Some(1_000),
        [n] => n.parse().ok(),
        _ => None,
    }
}

/// Every name in turn but `full`, which is long and the same for all purposes; it comes once.
fn all(dir: &Path, count: usize, seed: u64, calls: usize) -> io::Result<()> {
    std::fs::create_dir_all(dir)?;
    let names: Vec<&str> = names().into_iter().filter(|n| *n != "full").collect();
    for i in 0..count {
        let name = if i + 1 == count { "full" } else { names[i % names.len()] };
        let text = any(name, seed.wrapping_add(i as u64), calls).expect("a known name");
        std::fs::write(dir.join(format!("{i:04}-{name}.script")), text)?;
    }
    Ok(())
}

fn write(text: &str) -> io::Result<()> {
    io::stdout().write_all(text.as_bytes())
}
