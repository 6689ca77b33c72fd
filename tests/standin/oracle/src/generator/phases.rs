//! Ours. The phases: which keys, which calls how often.

use super::keys::Keys;
use super::maker::Maker;

pub struct Mix {
    pub name: &'static str,
    pub keys: Keys,
    /// The queue holds up to so many entries.
    pub live: usize,
    /// ins, emp, man, rem, look-ahead, find, get, next and prev, first and last
    pub weights: [u32; 9],
    /// Percent: a live key again; a look-ahead before an insertion; a handle that names no live
    /// entry; a Manual key that doesn't fit.
    pub again: u32,
    pub ahead: u32,
    pub stale: u32,
    pub misfit: u32,
    /// Percent of removals that take the first and the last entry.
    pub take: (u32, u32),
}

/// The plain one; the others say where they differ.
const PLAIN: Mix = Mix {
    name: "",
    keys: Keys::Wide,
    live: 300,
    weights: [50, 1, 3, 25, 4, 8, 3, 4, 2],
    again: 10,
    ahead: 5,
    stale: 5,
    misfit: 30,
    take: (10, 10),
};

pub const PHASES: &[Mix] = &[
    Mix { name: "wide", ..PLAIN },
    Mix { name: "edge", keys: Keys::Edge, live: 40, ..PLAIN },
    Mix { name: "cluster", keys: Keys::Cluster, live: 120, ..PLAIN },
    Mix { name: "rising", keys: Keys::Rising, take: (60, 5), ..PLAIN },
    Mix { name: "falling", keys: Keys::Falling, take: (5, 60), ..PLAIN },
    Mix {
        name: "removal",
        keys: Keys::Any,
        live: 120,
        weights: [30, 1, 2, 55, 2, 4, 2, 2, 2],
        ..PLAIN
    },
    Mix {
        name: "manual",
        keys: Keys::Cluster,
        live: 150,
        weights: [10, 2, 50, 20, 8, 4, 2, 2, 2],
        stale: 8,
        ..PLAIN
    },
    Mix {
        name: "stale",
        keys: Keys::Any,
        live: 60,
        weights: [25, 3, 12, 30, 6, 4, 10, 10, 1],
        stale: 50,
        ..PLAIN
    },
    Mix {
        name: "ahead",
        keys: Keys::Cluster,
        live: 100,
        weights: [35, 4, 15, 20, 20, 2, 2, 1, 1],
        again: 30,
        ahead: 90,
        ..PLAIN
    },
    Mix { name: "search", keys: Keys::Any, weights: [25, 1, 4, 12, 3, 50, 2, 2, 1], ..PLAIN },
    Mix {
        name: "step",
        keys: Keys::Any,
        live: 200,
        weights: [25, 1, 4, 15, 2, 3, 8, 30, 12],
        stale: 10,
        ..PLAIN
    },
    Mix { name: "tall", live: 1_000, weights: [60, 0, 4, 40, 0, 2, 1, 1, 0], ..PLAIN },
    Mix {
        name: "mixed",
        keys: Keys::Any,
        live: 600,
        weights: [30, 2, 15, 20, 8, 10, 5, 6, 4],
        stale: 12,
        ..PLAIN
    },
];

/// The most calls in one segment: a `new` serves 8,192 insertions.
const SEGMENT: usize = 8_000;

/// A script for paired runs: it stays below the capacity and the top generation.
pub fn script(mix: &Mix, seed: u64, calls: usize) -> String {
    let mut maker = Maker::new(mix, seed);
    let segments = [1, 1, 1, 2, 3][maker.rng.below(5)];
    let each = calls.div_ceil(segments).min(SEGMENT);
    while maker.calls < calls {
        let until = (maker.calls + each).min(calls);
        lay_out(&mut maker, each);
        while maker.calls < until {
            maker.step();
            maker.look_over();
            if maker.rng.below(400) == 0 {
                refused_layout(&mut maker);
            }
        }
        maker.put("dump");
        maker.put("check");
    }
    maker.text()
}

/// Room for one more than will ever be live, and more generations than there are calls.
fn lay_out(maker: &mut Maker<'_>, calls: usize) {
    let live = maker.mix.live;
    let high = if maker.rng.percent(25) { live.min(12) } else { live };
    maker.most = maker.rng.between(2, high);
    let capacity = maker.rng.between(maker.most + 1, 1_024);
    let least = calls + 20;
    let top = match maker.rng.percent(50) {
        true => 4_294_967_295,
        false => least + maker.rng.below(100_000),
    };
    maker.put(&format!("new {capacity} {top}"));
}

/// The earlier queue must stay as it was.
fn refused_layout(maker: &mut Maker<'_>) {
    let line = maker.rng.pick(&["new 0 5", "new 1025 5", "new 4 0", "new 4 4294967296"]);
    maker.call(line);
}

/// Small capacities and tops, met and passed; document 01 alone decides there. Many short segments,
/// since a queue whose slots are all retired has little left to say.
pub fn limits(seed: u64, calls: usize) -> String {
    let mix =
        Mix { keys: Keys::Cluster, weights: [40, 4, 15, 30, 8, 4, 4, 4, 2], stale: 15, ..PLAIN };
    let mut maker = Maker::new(&mix, seed);
    while maker.calls < calls {
        let capacity = maker.rng.between(1, 6);
        let top = maker.rng.between(1, 4);
        maker.put(&format!("new {capacity} {top}"));
        maker.most = capacity + 2;
        let until = maker.calls + maker.rng.between(10, 20 * top * capacity.div_ceil(2));
        while maker.calls < until.min(calls) {
            maker.step();
            match maker.rng.below(4) {
                0 => maker.put("list"),
                1 => maker.put("dump"),
                2 => maker.put("check"),
                _ => {}
            }
        }
        maker.put("list");
        maker.put("dump");
        maker.put("check");
    }
    maker.text()
}
