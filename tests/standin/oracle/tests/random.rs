//! Random scripts on the stand-in itself.

mod common;
use common::{paired, scripts};

/// 210 scripts of every phase, the limits among them: sound after every single line.
#[test]
fn sound_after_every_operation() {
    let mut lines = 0;
    for (name, script) in scripts(210, 1_000, 1_000) {
        let mut session = standin::run::Session::default();
        for line in script.split('\n') {
            let mut answer = String::new();
            session.line(line.as_bytes(), &mut answer);
            lines += 1;
            if let Some(queue) = session.queue() {
                let sound = standin::check::check(queue);
                assert_eq!(sound, Ok(()), "{name} after {line}");
            }
        }
    }
    assert!(lines >= 210_000);
}

/// The look-ahead says what the insertion after it answers, and leaves no trace: with one put
/// before every insertion, every other answer stays as it was.
#[test]
fn look_ahead_equals_what_follows() {
    for (name, script) in scripts(75, 5_000, 600) {
        let mut with = String::new();
        for line in script.split('\n') {
            if let Some(ahead) = ahead_of(line) {
                with.push_str(&ahead);
                with.push('\n');
            }
            with.push_str(line);
            with.push('\n');
        }
        let plain = paired(&script);
        let mut longer = paired(&with).into_iter();
        for (line, answer) in plain {
            if let Some(ahead) = ahead_of(&line) {
                let (asked, told) = longer.next().unwrap();
                assert_eq!(asked, ahead);
                assert_eq!(told, foretold(&answer), "{name}: {line}");
            }
            assert_eq!(longer.next(), Some((line, answer)), "{name}");
        }
    }
}

/// Only for lines in plain dress; the others are left as they are.
fn ahead_of(line: &str) -> Option<String> {
    let good = matches!(standin::script::read(line.as_bytes()), standin::script::Line::Call(_));
    let (rest, _) = line.trim_end().rsplit_once(' ')?;
    let (word, rest) = rest.trim_end().split_once(' ')?;
    match word {
        "ins" if good => Some(format!("peek {rest}")),
        "emp" | "man" if good => Some(format!("p{word} {rest}")),
        _ => None,
    }
}

fn foretold(answer: &str) -> String {
    let words: Vec<&str> = answer.split_whitespace().collect();
    match words[..] {
        ["new", _] => "new\n".to_string(),
        ["rep", n, _] => format!("rep {n}\n"),
        _ => answer.to_string(),
    }
}

/// The numbers run out after 8,192 new entries and begin anew with the next `new`.
#[test]
fn full_after_8192() {
    let script = standin::generator::full(1);
    let said = paired(&script);
    let full: Vec<&str> =
        said.iter().filter(|(_, a)| a == "full\n").map(|(l, _)| l.as_str()).collect();
    assert_eq!(
        full,
        [
            "ins 5000 1",
            "ins 0 1",
            "emp 5000 1",
            "man 0 1 5000 1",
            "man 0 0 0 1",
            "man 0 0 9 1",
            "ins 5000 1",
            "ins 1 1"
        ]
    );
    assert_eq!(said.iter().filter(|(_, a)| a == "new 8191\n").count(), 1);
    let tail: Vec<&str> = said[said.len() - 9..].iter().map(|(_, a)| a.as_str()).collect();
    assert_eq!(tail[..6], ["ok\n", "new 0\n", "got 1 1\n", "err 3\n", "rep 0 1\n", "err 1\n"]);
}

/// The same seed gives the same script, and another seed another one.
#[test]
fn the_generator_is_fixed_by_its_seed() {
    for name in standin::generator::names() {
        let of = |seed| standin::generator::any(name, seed, 200).unwrap();
        assert_eq!(of(3), of(3), "{name}");
        assert_ne!(of(3), of(4), "{name}");
    }
}

/// Scripts for paired runs stay below the capacity and the top generation.
#[test]
fn paired_scripts_meet_no_limit() {
    for (name, script) in scripts(45, 9_000, 1_000) {
        if name.starts_with("limits") {
            continue;
        }
        for (line, answer) in paired(&script) {
            assert_ne!(answer, "err 1\n", "{name}: {line}");
            assert!(!answer.ends_with("overflow\n") && answer != "full\n", "{name}: {line}");
        }
    }
}
