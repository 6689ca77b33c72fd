//! Document 01's sections "Placing a strike" and "Taking a strike away", written out on plain trees
//! from the document's words alone. The given bodies must leave the same keys, ranks and children.

mod common;
use standin::queue::Queue;
use standin::run::Session;
use standin::script::{Call, Line, read};

#[derive(Clone)]
struct Node {
    key: i64,
    rank: u8,
    child: [Tree; 2],
}
type Tree = Option<Box<Node>>;

/// One node on the way up: the side on which we hang, and what hangs on the other.
struct Up {
    side: usize,
    key: i64,
    rank: u8,
    other: Tree,
}

fn rank(tree: &Tree) -> u8 {
    tree.as_ref().map_or(0, |n| n.rank)
}

fn node(side: usize, near: Tree, key: i64, rank: u8, far: Tree) -> Tree {
    let child = if side == 0 { [near, far] } else { [far, near] };
    Some(Box::new(Node { key, rank, child }))
}

fn hung(up: Up, below: Tree) -> Tree {
    node(up.side, below, up.key, up.rank, up.other)
}

fn whole(mut way: Vec<Up>, mut tree: Tree) -> Tree {
    while let Some(up) = way.pop() {
        tree = hung(up, tree);
    }
    tree
}

/// Down to the key or to the missing child where it belongs.
fn descend(mut tree: Tree, key: i64) -> (Vec<Up>, Tree) {
    let mut way = Vec::new();
    while let Some(n) = tree {
        if n.key == key {
            return (way, Some(n));
        }
        let side = usize::from(key > n.key);
        tree = below(&mut way, *n, side);
    }
    (way, None)
}

fn below(way: &mut Vec<Up>, n: Node, side: usize) -> Tree {
    let Node { key, rank, child: [left, right] } = n;
    let (near, other) = if side == 0 { (left, right) } else { (right, left) };
    way.push(Up { side, key, rank, other });
    near
}

fn insert(tree: Tree, key: i64) -> Tree {
    let (mut way, found) = descend(tree, key);
    if found.is_some() {
        return whole(way, found);
    }
    let mut n0 = node(0, None, key, 1, None);
    let Some(mut n1) = way.pop() else { return n0 };
    if n1.rank == 2 {
        way.push(n1);
        return whole(way, n0);
    }
    n1.rank = 2;
    loop {
        let Some(mut n2) = way.pop() else { return hung(n1, n0) };
        if n1.rank < n2.rank {
            way.extend([n2, n1]);
            return whole(way, n0);
        }
        if rank(&n2.other) + 1 == n2.rank {
            n2.rank += 1;
            n0 = hung(n1, n0);
            n1 = n2;
            continue;
        }
        return whole(way, restructured(n0, n1, n2));
    }
}

fn restructured(n0: Tree, n1: Up, n2: Up) -> Tree {
    let d = n2.side;
    let old = rank(&n0);
    if n1.side == d {
        let lowered = node(d, n1.other, n2.key, old, n2.other);
        return node(d, n0, n1.key, n1.rank, lowered);
    }
    let n0 = n0.unwrap();
    let [left, right] = n0.child;
    // n1 hangs on side d of n2, so it keeps n0's child of side d, and n2 gets the other one.
    let (to1, to2) = if d == 0 { (left, right) } else { (right, left) };
    let low1 = node(d, n1.other, n1.key, old, to1);
    let low2 = node(d, to2, n2.key, old, n2.other);
    node(d, low1, n0.key, n1.rank, low2)
}

fn remove(tree: Tree, key: i64) -> Tree {
    let (mut way, found) = descend(tree, key);
    let mut d = *found.expect("the key is there");
    while d.child[0].is_some() || d.child[1].is_some() {
        // With a left child the chain prev is the last below it, else the next is the right child.
        let side = if d.child[0].is_some() { 0 } else { 1 };
        let place = way.len();
        let mut r = *below(&mut way, d, side).unwrap();
        while side == 0 && r.child[1].is_some() {
            r = *below(&mut way, r, 1).unwrap();
        }
        way[place].key = r.key;
        d = r;
    }
    emptied(way)
}

/// The climb from the parent of the emptied place.
fn emptied(mut way: Vec<Up>) -> Tree {
    let mut n0 = None;
    if let Some(n1) = way.pop_if(|up| up.other.is_none()) {
        n0 = node(0, None, n1.key, 1, None);
    }
    while let Some(mut n1) = way.pop() {
        if n1.rank != rank(&n0) + 3 {
            way.push(n1);
            return whole(way, n0);
        }
        if rank(&n1.other) + 2 == n1.rank {
            n1.rank -= 1;
            n0 = hung(n1, n0);
            continue;
        }
        let mut s0 = n1.other.take().unwrap();
        let d = n1.side;
        let (a, b) = (rank(&s0.child[d]), rank(&s0.child[1 - d]));
        if b + 1 != s0.rank && a + 2 == s0.rank && b + 2 == s0.rank {
            n1.rank -= 1;
            s0.rank -= 1;
            n1.other = Some(s0);
            n0 = hung(n1, n0);
            continue;
        }
        return whole(way, rotated(n0, n1, *s0));
    }
    n0
}

fn rotated(n0: Tree, n1: Up, mut s0: Node) -> Tree {
    let d = n1.side;
    let (a, b) = (s0.child[d].take(), s0.child[1 - d].take());
    let old = rank(&a);
    if rank(&b) + 1 == s0.rank {
        let low = node(d, n0, n1.key, old + 1, a);
        return node(d, low, s0.key, n1.rank, b);
    }
    let mut a = a.unwrap();
    let (c, e) = (a.child[d].take(), a.child[1 - d].take());
    let low1 = node(d, n0, n1.key, old, c);
    let low2 = node(d, e, s0.key, old, b);
    node(d, low1, a.key, n1.rank, low2)
}

/// In order: key, rank, the children's keys.
type Row = (i64, u8, Option<i64>, Option<i64>);

fn rows(tree: &Tree, out: &mut Vec<Row>) {
    if let Some(n) = tree {
        let key = |t: &Tree| t.as_ref().map(|n| n.key);
        rows(&n.child[0], out);
        out.push((n.key, n.rank, key(&n.child[0]), key(&n.child[1])));
        rows(&n.child[1], out);
    }
}

fn stored(queue: &Queue) -> Vec<Row> {
    let all = queue.shown();
    let keys: std::collections::HashMap<_, _> =
        all.iter().map(|e| (e.at.slot, e.strike.key)).collect();
    let key = |link: Option<_>| link.map(|slot| keys[&slot]);
    all.iter().map(|e| (e.strike.key, e.rank, key(e.links[1]), key(e.links[2]))).collect()
}

/// Runs a script on the stand-in, and its insertions and removals by key on the plain tree.
fn compare(name: &str, script: &str) {
    let mut session = Session::default();
    let mut tree: Tree = None;
    for line in script.split('\n') {
        let mut answer = String::new();
        session.line(line.as_bytes(), &mut answer);
        let words: Vec<&str> = answer.split_whitespace().collect();
        tree = match (read(line.as_bytes()), &words[..]) {
            (Line::Call(Call::New(..)), ["ok"]) => None,
            (Line::Call(Call::Insert(_, key, _)), ["new", _]) => insert(tree, key),
            (Line::Call(Call::Remove(_)), ["rem", _, key, ..]) => {
                remove(tree, key.parse().unwrap())
            }
            _ => continue,
        };
        let mut want = Vec::new();
        rows(&tree, &mut want);
        assert_eq!(stored(session.queue().unwrap()), want, "{name} after {line}");
    }
}

#[test]
fn all_orders_of_up_to_five_keys() {
    for n in 1..=5 {
        compare("orders", &standin::generator::orders(n));
    }
}

/// Manual insertions go by key here too: a key that fits has one place only, the Normal one.
#[test]
fn random_scripts() {
    for (name, script) in common::scripts(150, 40_000, 1_000) {
        compare(&name, &script);
    }
}
