//! Ours. Scripts with bad lines, and the script that uses up the numbers.

use core::fmt::Write;

use super::maker::Maker;
use super::phases::PHASES;
use super::rng::Rng;
use crate::run::NUMBERS;

/// Each is a bad line, an unknown word or passed over, whatever the queue holds.
const FIXED: &[&str] = &[
    "new",
    "new 8",
    "new 8 3 1",
    "new -8 3",
    "new 8 -3",
    "new +8 3",
    "new 8 18446744073709551616",
    "ins",
    "ins 1",
    "ins 1 2 3",
    "ins 9223372036854775808 1",
    "ins -9223372036854775809 1",
    "ins 1 18446744073709551616",
    "ins 1 -1",
    "ins 1 -0",
    "ins +1 1",
    "ins - 1",
    "ins -- 1",
    "ins 1- 1",
    "ins 0x10 1",
    "ins 1.0 1",
    "ins 1,0 1",
    "emp 5",
    "emp five 5",
    "man 0 1 5",
    "man 0 2 5 5",
    "man 0 -2 5 5",
    "man 0 +1 5 5",
    "man -1 1 5 5",
    "man 0 1 5 5 5",
    "peek",
    "peek 1 2",
    "peek x",
    "pemp",
    "pemp 1 1",
    "pman 0 1",
    "pman 0 3 1",
    "pman 0 1 1 1",
    "rem",
    "rem -1",
    "rem -0",
    "rem 18446744073709551616",
    "rem 0 0",
    "get",
    "get x",
    "find",
    "find 1 2",
    "next",
    "next -",
    "prev",
    "prev 1 1",
    "first 0",
    "last last",
    "list 1",
    "dump all",
    "check 0",
    "INS 1 1",
    "insert 1 1",
    "in 1 1",
    "lin",
    "ins\t1 1",
    "\tins 1 1",
    "-",
    "0",
    "?",
    "Check",
    "# ins 1 1",
    "#",
    "  # ins 1 1",
    "",
    " ",
    "   ",
    "\r",
    "  \r",
    "ins 1 1\r\r",
    "ins 1 1\t",
];

/// Good lines in unusual dress mixed with damaged ones; the rest of the script still runs.
pub fn lines(seed: u64, calls: usize) -> String {
    let mix = PHASES.last().expect("mixed is the last phase");
    let mut maker = Maker::new(mix, seed);
    for early in
        ["check", "ins 1 1", "first", "dump", "list", "find 0", "rem 0", "peek 1", "new 0 1"]
    {
        maker.call(early);
    }
    maker.most = 40;
    maker.put("  new   1024   00000004294967295  \r");
    while maker.calls < calls {
        match maker.rng.below(4) {
            0 => {
                let line = maker.rng.pick(FIXED);
                maker.call(line);
            }
            1 => {
                let line = dressed(&mut maker.rng);
                maker.call(&line);
            }
            _ => maker.step(),
        }
        maker.look_over();
    }
    maker.put("dump");
    maker.put("check");
    maker.text()
}

/// Leading zeros, spare spaces, a carriage return, or a length around the limit.
fn dressed(rng: &mut Rng) -> String {
    let sign = rng.pick(&["", "-"]);
    let zeros = "0".repeat(rng.below(30));
    let key = rng.below(100);
    let space = " ".repeat(rng.between(1, 4));
    let mut line = format!("ins{space}{sign}{zeros}{key}{space}{zeros}{key}");
    if rng.percent(30) {
        let tail = rng.between(120, 136).saturating_sub(line.len());
        let fill = rng.pick(&[" ", "0", "#"]);
        line.push_str(&fill.repeat(tail));
    }
    if rng.percent(30) {
        line.push('\r');
    }
    line
}

/// Gives out every number of a `new`, meets `full`, and begins again.
pub fn full(seed: u64) -> String {
    let mut rng = Rng::new(seed);
    let mut text = String::from("new 3 4294967295\nins 0 7\n");
    for n in 1..NUMBERS {
        let key = 1 + rng.below(1_000);
        let _ = writeln!(text, "ins {key} {n}\nrem {n}");
    }
    text.push_str("dump\nlist\ncheck\n");
    text.push_str("ins 5000 1\nins 0 1\nemp 5000 1\nman 0 1 5000 1\nman 0 0 0 1\nman 0 0 9 1\n");
    text.push_str("ins x 1\nman 0 1 5000\npeek 5000\npeek 0\npemp 1\npman 0 1 5000\nfind 0\n");
    text.push_str("new 0 1\nins 5000 1\nrem 0\nins 1 1\npeek 1\ndump\ncheck\n");
    text.push_str("new 1 1\nins 1 1\nget 0\nget 1\nins 1 2\nins 2 1\ndump\ncheck\n");
    text
}
