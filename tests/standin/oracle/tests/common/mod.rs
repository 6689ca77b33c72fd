//! Helpers of the tests.
#![allow(dead_code)]

use standin::run::run;

/// Runs the script and compares every line. Both are written one item a line; blanks don't count.
pub fn expect(script: &str, answers: &str) {
    let lines = |text: &str| -> Vec<String> {
        let kept = text.lines().map(str::trim).filter(|l| !l.is_empty());
        kept.map(str::to_string).collect()
    };
    let script: String = lines(script).iter().map(|l| format!("{l}\n")).collect();
    assert_eq!(lines(&run(script.as_bytes())), lines(answers), "script:\n{script}");
}

/// The answers of a script line by line: each line with all that it answered.
pub fn paired(script: &str) -> Vec<(String, String)> {
    let mut session = standin::run::Session::default();
    let mut all = Vec::new();
    for line in script.split('\n') {
        let mut answer = String::new();
        session.line(line.as_bytes(), &mut answer);
        all.push((line.to_string(), answer));
    }
    all
}

/// A number of random scripts: every phase in turn, and the limits among them.
pub fn scripts(count: usize, seed: u64, calls: usize) -> Vec<(String, String)> {
    let names: Vec<_> = standin::generator::names().into_iter().filter(|n| *n != "full").collect();
    (0..count)
        .map(|i| {
            let name = names[i % names.len()];
            let text = standin::generator::any(name, seed + i as u64, calls).unwrap();
            (format!("{name} {}", seed + i as u64), text)
        })
        .collect()
}
