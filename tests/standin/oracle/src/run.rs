//! Ours. Runs a script and writes PAIRED.md's answers.

use core::cmp::Ordering;
use core::fmt::Write;

use crate::OrdEntryKind;
use crate::check;
use crate::fundamental::{Handle, Ptr, Slot};
use crate::queue::{Kind, Placed, Queue, Refusal};
use crate::script::{self, Call, Line, Place};

/// So many new entries have a number after a `new`; then insertions answer `full`.
pub const NUMBERS: usize = 8_192;

/// The queue of the last `new` that was not refused, and the numbers given since.
#[derive(Default)]
pub struct Session {
    queue: Option<Queue>,
    /// By number: the handle that this insertion gave.
    given: Vec<Handle>,
    /// By slot: the number of the insertion that last took it.
    number: Vec<usize>,
}

/// Runs a whole script.
pub fn run(script: &[u8]) -> String {
    let mut session = Session::default();
    let mut out = String::new();
    for line in script.split(|b| *b == b'\n') {
        session.line(line, &mut out);
    }
    out
}

impl Session {
    /// Runs one line (without its newline) and writes its answer, if it has one.
    pub fn line(&mut self, line: &[u8], out: &mut String) {
        match script::read(line) {
            Line::Skip => {}
            Line::Bad => out.push_str("bad line\n"),
            Line::Unknown => out.push_str("unknown\n"),
            Line::Call(call) => self.call(call, out),
        }
    }

    pub fn queue(&self) -> Option<&Queue> {
        self.queue.as_ref()
    }

    /// None for a number that no insertion has given: it names no live entry.
    pub fn handle(&self, n: u64) -> Option<Handle> {
        self.given.get(usize::try_from(n).ok()?).copied()
    }

    pub fn number(&self, handle: Handle) -> usize {
        self.number[handle.slot.0 as usize]
    }

    fn call(&mut self, call: Call, out: &mut String) {
        if let Call::New(capacity, top) = call {
            return self.lay_out(capacity, top, out);
        }
        // Before the first good `new` the store has length 0: its header fails.
        if self.queue.is_none() {
            let answer = if call == Call::Check { "unsound" } else { "err 5" };
            return line(out, answer);
        }
        match call {
            Call::New(..) => unreachable!(),
            Call::Insert(place, key, value) => self.insert(place, key, value, out),
            Call::Look(place, key) => self.look(place, key, out),
            Call::Remove(n) => self.remove(n, out),
            Call::List => self.list(out),
            Call::Dump => self.dump(out),
            Call::Check => self.check(out),
            other => self.read(other, out),
        }
    }

    /// A refused `new` leaves the earlier queue and its numbers as they were.
    fn lay_out(&mut self, capacity: u64, top: u64, out: &mut String) {
        match Queue::lay_out(capacity, top) {
            Err(refusal) => refused(out, refusal),
            Ok(queue) => {
                self.queue = Some(queue);
                self.given.clear();
                self.number = vec![usize::MAX; capacity as usize];
                line(out, "ok");
            }
        }
    }

    fn kind(&self, place: Place) -> Kind {
        match place {
            Place::Normal => Kind::Normal,
            Place::Empty => Kind::Empty,
            Place::Manual(n, side) => Kind::Manual(self.handle(n), side),
        }
    }

    fn insert(&mut self, place: Place, key: i64, value: u64, out: &mut String) {
        if self.given.len() == NUMBERS {
            return line(out, "full");
        }
        let kind = self.kind(place);
        match self.queue_mut().insert(kind, key, value) {
            Err(refusal) => refused(out, refusal),
            Ok(Placed::Replacing(at, old)) => {
                say(out, format_args!("rep {} {old}", self.number(at)));
            }
            Ok(Placed::New(at)) => {
                self.number[at.slot.0 as usize] = self.given.len();
                say(out, format_args!("new {}", self.given.len()));
                self.given.push(at);
            }
        }
    }

    fn look(&mut self, place: Place, key: i64, out: &mut String) {
        let kind = self.kind(place);
        match self.queue_mut().look(kind, key) {
            Err(refusal) => refused(out, refusal),
            Ok(OrdEntryKind::New(_)) => line(out, "new"),
            Ok(OrdEntryKind::Replacing(at)) => {
                say(out, format_args!("rep {}", self.number(at)));
            }
        }
    }

    fn remove(&mut self, n: u64, out: &mut String) {
        let handle = self.handle(n);
        match self.queue_mut().remove(handle) {
            Err(refusal) => refused(out, refusal),
            Ok((strike, overflow)) => {
                let note = if overflow { " overflow" } else { "" };
                say(out, format_args!("rem {n} {} {}{note}", strike.key, strike.value));
            }
        }
    }

    /// Reading, search and stepping.
    fn read(&self, call: Call, out: &mut String) {
        let queue = self.queue.as_ref().expect("tested before");
        let stepped = match call {
            Call::Get(n) => {
                match queue.read(self.handle(n)) {
                    Err(refusal) => refused(out, refusal),
                    Ok(strike) => say(out, format_args!("got {} {}", strike.key, strike.value)),
                }
                return;
            }
            Call::Find(key) => return self.find(key, out),
            Call::Next(n) => queue.step(self.handle(n), Ordering::Greater),
            Call::Prev(n) => queue.step(self.handle(n), Ordering::Less),
            Call::First => Ok(queue.first()),
            Call::Last => Ok(queue.last()),
            other => unreachable!("{other:?}"),
        };
        match stepped {
            Err(refusal) => refused(out, refusal),
            Ok(None) => line(out, "end"),
            Ok(Some(at)) => say(out, format_args!("at {}", self.number(at))),
        }
    }

    fn find(&self, key: i64, out: &mut String) {
        let queue = self.queue.as_ref().expect("tested before");
        let Some(found) = queue.find(key) else {
            return line(out, "empty 0");
        };
        let word = match found.side {
            Ordering::Less => "less",
            Ordering::Equal => "eq",
            Ordering::Greater => "greater",
        };
        let n = self.number(found.at);
        say(out, format_args!("{word} {n} {}", found.count));
    }

    fn list(&self, out: &mut String) {
        let queue = self.queue.as_ref().expect("tested before");
        let (live, free, retired) = queue.counts();
        say(out, format_args!("live {live} free {free} retired {retired}"));
        for e in queue.shown() {
            let (slot, generation) = (e.at.inx().0, e.at.generation().0);
            let (key, value) = (e.strike.key, e.strike.value);
            say(out, format_args!("{key} {value} {slot} {generation} {}", e.rank));
        }
    }

    fn dump(&self, out: &mut String) {
        let queue = self.queue.as_ref().expect("tested before");
        let end = |h: Option<Handle>| self.shown_number(h.map(Ptr::inx));
        let (root, first, last) = (end(queue.root()), end(queue.first()), end(queue.last()));
        say(out, format_args!("dump {} root {root} first {first} last {last}", queue.len()));
        for e in queue.shown() {
            let n = self.number(e.at);
            let _ = write!(out, "{n} {} {} {}", e.strike.key, e.strike.value, e.rank);
            for link in e.links {
                let _ = write!(out, " {}", self.shown_number(link));
            }
            out.push('\n');
        }
    }

    fn shown_number(&self, slot: Option<Slot>) -> String {
        slot.map_or("-".to_string(), |slot| self.number[slot.0 as usize].to_string())
    }

    /// On this side an unsound queue is a fault of the stand-in, so it stops the run.
    fn check(&self, out: &mut String) {
        let queue = self.queue.as_ref().expect("tested before");
        if let Err(why) = check::check(queue) {
            panic!("the stand-in's queue is not sound: {why}");
        }
        line(out, "sound");
    }

    fn queue_mut(&mut self) -> &mut Queue {
        self.queue.as_mut().expect("tested before")
    }
}

fn refused(out: &mut String, refusal: Refusal) {
    say(out, format_args!("err {}", refusal as u8));
}

fn line(out: &mut String, answer: &str) {
    out.push_str(answer);
    out.push('\n');
}

fn say(out: &mut String, answer: core::fmt::Arguments<'_>) {
    let _ = out.write_fmt(answer);
    out.push('\n');
}
