//! The oracle of paired runs: a script on standard input, its answers on standard output.
//! It stands in for the published crate triple_arena 0.15.1; see lib.rs for what was given.

use std::io::{self, BufRead, Write};

use standin::run::Session;

fn main() -> io::Result<()> {
    let mut input = io::stdin().lock();
    let mut output = io::BufWriter::new(io::stdout().lock());
    let mut session = Session::default();
    let (mut line, mut answer) = (Vec::new(), String::new());
    while input.read_until(b'\n', &mut line)? != 0 {
        if line.last() == Some(&b'\n') {
            line.pop();
        }
        session.line(&line, &mut answer);
        output.write_all(answer.as_bytes())?;
        line.clear();
        answer.clear();
    }
    output.flush()
}
