//! A second reading of document 01 without any tree: a sorted map, a stack of free slots and the
//! generations. Every answer of the stand-in that does not show the tree's shape must agree.

mod common;
use std::collections::BTreeMap;

use common::scripts;
use standin::script::{Call, Line, Place, read};

#[derive(Default)]
struct Model {
    top: u64,
    /// By key: number, value, slot.
    live: BTreeMap<i64, (u64, u64, usize)>,
    /// By number: the key, while live.
    keys: Vec<Option<i64>>,
    free: Vec<usize>,
    generations: Vec<u64>,
    retired: usize,
}

impl Model {
    fn new(capacity: u64, top: u64) -> Self {
        Model {
            top,
            free: (0..capacity as usize).rev().collect(),
            generations: vec![1; capacity as usize],
            ..Model::default()
        }
    }

    fn key(&self, n: u64) -> Option<i64> {
        *self.keys.get(n as usize)?
    }

    fn beside(&self, key: i64, less: bool) -> Option<i64> {
        use std::ops::Bound::{Excluded, Unbounded};
        let found = match less {
            true => self.live.range(..key).next_back(),
            false => self.live.range((Excluded(key), Unbounded)).next(),
        };
        found.map(|(k, _)| *k)
    }

    /// What an insertion of this kind meets: the number it replaces, or None for a new entry.
    fn place(&self, place: Place, key: i64) -> Result<Option<u64>, u8> {
        let equal = self.live.get(&key).map(|e| e.0);
        let found = match place {
            Place::Normal => equal,
            Place::Empty if self.live.is_empty() => None,
            Place::Empty => return Err(2),
            Place::Manual(n, side) => {
                let target = self.key(n).ok_or(2)?;
                let less = side.is_lt();
                let beyond = |k: i64| if less { k < key } else { key < k };
                let near = side.is_eq() || self.beside(target, less).is_none_or(beyond);
                if key.cmp(&target) != side || !near {
                    return Err(2);
                }
                equal
            }
        };
        if found.is_none() && self.free.is_empty() {
            return Err(1);
        }
        Ok(found)
    }

    fn insert(&mut self, place: Place, key: i64, value: u64) -> String {
        match self.place(place, key) {
            Err(r) => format!("err {r}"),
            Ok(Some(n)) => {
                let entry = self.live.get_mut(&key).unwrap();
                format!("rep {n} {}", core::mem::replace(&mut entry.1, value))
            }
            Ok(None) => {
                let n = self.keys.len() as u64;
                let slot = self.free.pop().unwrap();
                self.live.insert(key, (n, value, slot));
                self.keys.push(Some(key));
                format!("new {n}")
            }
        }
    }

    fn remove(&mut self, n: u64) -> String {
        let Some(key) = self.key(n) else { return "err 3".to_string() };
        self.keys[n as usize] = None;
        let (_, value, slot) = self.live.remove(&key).unwrap();
        if self.generations[slot] == self.top {
            self.retired += 1;
            return format!("rem {n} {key} {value} overflow");
        }
        self.generations[slot] += 1;
        self.free.push(slot);
        format!("rem {n} {key} {value}")
    }

    fn at(&self, key: Option<i64>) -> String {
        key.map_or("end".to_string(), |k| format!("at {}", self.live[&k].0))
    }

    fn step(&self, n: u64, less: bool) -> String {
        match self.key(n) {
            None => "err 3".to_string(),
            Some(key) => self.at(self.beside(key, less)),
        }
    }

    /// Without the ranks.
    fn list(&self) -> String {
        let counts = (self.live.len(), self.free.len(), self.retired);
        let mut text = format!("live {} free {} retired {}", counts.0, counts.1, counts.2);
        for (key, (_, value, slot)) in &self.live {
            text += &format!("\n{key} {value} {slot} {}", self.generations[*slot]);
        }
        text
    }

    /// Number, key, value, prev and next of each.
    fn dump(&self) -> String {
        let number = |k: Option<i64>| k.map_or("-".to_string(), |k| self.live[&k].0.to_string());
        let (first, last) = (self.live.keys().next(), self.live.keys().next_back());
        let ends = (number(first.copied()), number(last.copied()));
        let mut text = format!("dump {} first {} last {}", self.live.len(), ends.0, ends.1);
        for (key, (n, value, _)) in &self.live {
            let (prev, next) = (self.beside(*key, true), self.beside(*key, false));
            text += &format!("\n{n} {key} {value} {} {}", number(prev), number(next));
        }
        text
    }

    /// The places where a search may end: at the key, or at a neighbour on the right side.
    fn finds(&self, key: i64) -> Vec<String> {
        if let Some((n, _, _)) = self.live.get(&key) {
            return vec![format!("eq {n}")];
        }
        let at = |side: &str, k: Option<i64>| k.map(|k| format!("{side} {}", self.live[&k].0));
        let near = [at("greater", self.beside(key, true)), at("less", self.beside(key, false))];
        let near: Vec<String> = near.into_iter().flatten().collect();
        if near.is_empty() { vec!["empty 0".to_string()] } else { near }
    }
}

/// The wanted answers; the stand-in's has to be one of them.
fn wanted(model: &mut Option<Model>, call: Call) -> Vec<String> {
    if let Call::New(capacity, top) = call {
        let good = (1..=1024).contains(&capacity) && (1..=4_294_967_295).contains(&top);
        if good {
            *model = Some(Model::new(capacity, top));
        }
        return vec![if good { "ok" } else { "err 4" }.to_string()];
    }
    let Some(m) = model else {
        return vec![if call == Call::Check { "unsound" } else { "err 5" }.to_string()];
    };
    let one = match call {
        Call::New(..) => unreachable!(),
        Call::Insert(place, key, value) => m.insert(place, key, value),
        Call::Look(place, key) => match m.place(place, key) {
            Err(r) => format!("err {r}"),
            Ok(None) => "new".to_string(),
            Ok(Some(n)) => format!("rep {n}"),
        },
        Call::Remove(n) => m.remove(n),
        Call::Get(n) => match m.key(n) {
            None => "err 3".to_string(),
            Some(key) => format!("got {key} {}", m.live[&key].1),
        },
        Call::Find(key) => return m.finds(key),
        Call::Next(n) => m.step(n, false),
        Call::Prev(n) => m.step(n, true),
        Call::First => m.at(m.live.keys().next().copied()),
        Call::Last => m.at(m.live.keys().next_back().copied()),
        Call::List => m.list(),
        Call::Dump => m.dump(),
        Call::Check => "sound".to_string(),
    };
    vec![one]
}

/// Leaves out of an answer what shows the tree: root, ranks, back, left, right, counts.
fn without_tree(call: Call, answer: &str) -> String {
    let keep: &[usize] = match call {
        _ if answer.starts_with("err") => return answer.trim_end().to_string(),
        Call::Find(_) => &[0, 1],
        Call::List => &[0, 1, 2, 3],
        Call::Dump => &[0, 1, 2, 7, 8],
        _ => return answer.trim_end().to_string(),
    };
    let mut lines: Vec<String> = answer.trim_end().lines().map(str::to_string).collect();
    for (i, line) in lines.iter_mut().enumerate() {
        let words: Vec<&str> = line.split(' ').collect();
        let head: &[usize] = match call {
            Call::List => &[0, 1, 2, 3, 4, 5],
            Call::Dump => &[0, 1, 4, 5, 6, 7],
            _ => keep,
        };
        let kept = if i == 0 { head } else { keep };
        *line = kept.iter().map(|k| words[*k]).collect::<Vec<_>>().join(" ");
    }
    lines.join("\n")
}

#[test]
fn agrees_with_the_plain_model() {
    for (name, script) in scripts(300, 20_000, 1_000) {
        let mut model = None;
        for (line, answer) in common::paired(&script) {
            let Line::Call(call) = read(line.as_bytes()) else { continue };
            let want = wanted(&mut model, call);
            let got = without_tree(call, &answer);
            assert!(want.contains(&got), "{name}: {line}\nwanted {want:?}\ngot {got}");
        }
    }
}
