//! Ours. Writes a script line by line, running it on the stand-in to know what is live.

use core::cmp::Ordering;

use super::keys::{KeyMaker, value};
use super::phases::Mix;
use super::rng::Rng;
use crate::run::Session;

pub struct Maker<'a> {
    pub rng: Rng,
    pub mix: &'a Mix,
    keys: KeyMaker,
    session: Session,
    text: String,
    /// The answer to the line last put.
    answer: String,
    /// Numbers that name live entries, and those that no longer do.
    live: Vec<usize>,
    gone: Vec<usize>,
    /// Lines put since the last `new`, `dump` and `check` left aside.
    pub calls: usize,
    since_dump: usize,
    /// Insertions are held back here, so that the capacity is not met.
    pub most: usize,
    filling: bool,
    tide: usize,
}

impl<'a> Maker<'a> {
    pub fn new(mix: &'a Mix, seed: u64) -> Self {
        let mut rng = Rng::new(seed);
        Maker {
            mix,
            keys: KeyMaker::new(mix.keys, &mut rng),
            rng,
            session: Session::default(),
            text: String::new(),
            answer: String::new(),
            live: Vec::new(),
            gone: Vec::new(),
            calls: 0,
            since_dump: 0,
            most: 0,
            filling: true,
            tide: 1,
        }
    }

    pub fn text(self) -> String {
        self.text
    }

    pub fn put(&mut self, line: &str) {
        self.text.push_str(line);
        self.text.push('\n');
        self.answer.clear();
        self.session.line(line.as_bytes(), &mut self.answer);
        self.note();
    }

    /// Learns from the answer which handles came and went.
    fn note(&mut self) {
        let answer = self.answer.trim_end();
        if answer == "ok" {
            self.live.clear();
            self.gone.clear();
        } else if let Some(n) = answer.strip_prefix("new ") {
            self.live.push(n.parse().expect("a number"));
        } else if let Some(rest) = answer.strip_prefix("rem ") {
            let n: usize = rest.split(' ').next().unwrap().parse().expect("a number");
            self.live.retain(|m| *m != n);
            self.gone.push(n);
        }
    }

    /// Now and then a dump, less often the longer it gets, and a check beside every second one.
    pub fn look_over(&mut self) {
        self.since_dump += 1;
        if self.since_dump > 10 + self.live.len() / 3 {
            self.since_dump = 0;
            self.put("dump");
            if self.rng.percent(50) {
                self.put("check");
            }
        }
    }

    /// One call (a look-ahead and the insertion after it are two).
    pub fn step(&mut self) {
        let mut weights = self.mix.weights;
        self.turn_tide();
        let slack = if self.filling { 3 } else { 0 };
        weights[slack] = weights[slack].div_ceil(4);
        match self.rng.weighed(&weights) {
            0 => self.insert(),
            1 => self.empty(),
            2 => self.manual(),
            3 => self.remove(),
            4 => self.look(),
            5 => self.find(),
            6 => self.by_handle("get"),
            7 => self.walk(),
            _ => {
                let end = self.rng.pick(&["first", "last"]);
                self.call(end);
            }
        }
    }

    /// The queue fills up to a random height, then empties, and so on.
    fn turn_tide(&mut self) {
        if self.live.is_empty() {
            self.filling = true;
            self.tide = self.rng.between(1, self.most.max(1));
        } else if self.live.len() >= self.tide {
            self.filling = false;
        }
    }

    pub fn call(&mut self, line: &str) {
        self.calls += 1;
        self.put(line);
    }

    fn has_room(&self) -> bool {
        self.live.len() < self.most
    }

    /// Repeats a live key at times, so that entries are replaced.
    fn key(&mut self) -> i64 {
        if !self.live.is_empty() && self.rng.percent(self.mix.again) {
            let n = self.rng.pick(&self.live);
            return self.key_of(n);
        }
        self.keys.key(&mut self.rng)
    }

    fn key_of(&self, n: usize) -> i64 {
        let queue = self.session.queue().expect("after `new`");
        queue.read(self.session.handle(n as u64)).expect("live").key
    }

    /// An insertion, at times with its look-ahead before it.
    fn place(&mut self, word: &str, rest: &str) {
        if self.rng.percent(self.mix.ahead) {
            let ahead = if word == "ins" { "peek" } else { &format!("p{word}") };
            self.call(&format!("{ahead} {rest}"));
        }
        let value = value(&mut self.rng);
        self.call(&format!("{word} {rest} {value}"));
    }

    fn insert(&mut self) {
        if !self.has_room() {
            return self.remove();
        }
        let key = self.key();
        self.place("ins", &key.to_string());
    }

    fn empty(&mut self) {
        let key = self.key();
        self.place("emp", &key.to_string());
    }

    fn manual(&mut self) {
        if !self.has_room() {
            return self.remove();
        }
        let rest = self.manual_words();
        self.place("man", &rest);
    }

    fn manual_words(&mut self) -> String {
        let n = self.number();
        let side = self.rng.below(3) as i64 - 1;
        let free = self.keys.key(&mut self.rng);
        if !self.live.contains(&n) {
            return format!("{n} {side} {free}");
        }
        if self.rng.percent(self.mix.misfit) {
            let key = self.misfit(n, side, free);
            return format!("{n} {side} {key}");
        }
        match self.fitting(n, side) {
            Some(key) => format!("{n} {side} {key}"),
            None => format!("{n} 0 {}", self.key_of(n)),
        }
    }

    /// The target's key and, on that side, its neighbour's or the last key there is.
    fn bounds(&self, n: usize, side: i64) -> (i128, i128, bool) {
        let queue = self.session.queue().expect("after `new`");
        let way = if side < 0 { Ordering::Less } else { Ordering::Greater };
        let beside = queue.step(self.session.handle(n as u64), way).expect("live");
        let end = if side < 0 { i64::MIN } else { i64::MAX };
        let other = beside.map_or(end, |h| self.key_of(self.session.number(h)));
        (self.key_of(n) as i128, other as i128, beside.is_some())
    }

    /// None where no key fits between the two.
    fn fitting(&mut self, n: usize, side: i64) -> Option<i64> {
        if side == 0 {
            return Some(self.key_of(n));
        }
        let (target, other, taken) = self.bounds(n, side);
        let room = (other - target).unsigned_abs() - u128::from(taken);
        if other == target || room == 0 {
            return None;
        }
        // Mostly near the target, so that clusters stay clusters; at times the outermost.
        let far = if self.rng.percent(10) { room } else { room.min(9) };
        let off = match self.rng.percent(10) {
            true => far,
            false => 1 + self.rng.word() as u128 % far,
        };
        i64::try_from(target + side as i128 * off as i128).ok()
    }

    fn misfit(&mut self, n: usize, side: i64, free: i64) -> i64 {
        let target = self.key_of(n);
        let (_, other, _) = self.bounds(n, side);
        let other = other as i64;
        match self.rng.below(5) {
            0 => target,
            1 => other,
            2 => other.saturating_add(side),
            3 => target.saturating_sub(side.max(1)),
            _ => free,
        }
    }

    /// A live number, or at times one that names no live entry.
    fn number(&mut self) -> usize {
        let given = self.live.len() + self.gone.len();
        let stale = self.rng.percent(self.mix.stale);
        if !stale && !self.live.is_empty() {
            self.rng.pick(&self.live)
        } else if !self.gone.is_empty() && self.rng.percent(80) {
            self.rng.pick(&self.gone)
        } else {
            given + self.rng.pick(&[0, 0, 1, 7, 9_000, usize::MAX - 20_000])
        }
    }

    fn remove(&mut self) {
        let (first, last) = self.mix.take;
        let end = self.rng.below(100) as u32;
        let queue = self.session.queue().expect("after `new`");
        let at = if end < first {
            queue.first()
        } else if end < first + last {
            queue.last()
        } else {
            None
        };
        match at.map(|h| self.session.number(h)) {
            Some(n) => self.call(&format!("rem {n}")),
            None => self.by_handle("rem"),
        }
    }

    fn by_handle(&mut self, word: &str) {
        let n = self.number();
        self.call(&format!("{word} {n}"));
    }

    fn look(&mut self) {
        let line = match self.rng.below(4) {
            0 | 1 => format!("peek {}", self.key()),
            2 => format!("pemp {}", self.key()),
            _ => format!("pman {}", self.manual_words()),
        };
        self.call(&line);
    }

    /// A live key, one beside it, or a free one.
    fn find(&mut self) {
        let mut key = self.key();
        if self.rng.percent(30) {
            key = key.saturating_add(self.rng.below(5) as i64 - 2);
        }
        self.call(&format!("find {key}"));
    }

    /// Steps by handle, at times several, each from where the last one led.
    fn walk(&mut self) {
        let word = self.rng.pick(&["next", "prev"]);
        self.by_handle(word);
        for _ in 0..self.rng.below(6) {
            let Some(n) = self.answer.trim_end().strip_prefix("at ") else {
                return;
            };
            let line = format!("{word} {n}");
            self.call(&line);
        }
    }
}
