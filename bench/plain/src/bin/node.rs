//! How long puts and gets of one node take: `node TENANTS CALLS`. It makes the calls of the proved node's program and prints
//! the same lines: nanoseconds, and a number that depends on all replies.

use plain::node::{Body, Call, Node, Reply};
use plain::types::{Key, Layout, Name, Pair, Pairs, Quota, Shape, Tenant, Version};
use std::sync::Arc;
use std::time::Instant;

const MOST: u64 = 4_294_967_295;
const QUOTA: Quota = Quota {
    versions: MOST,
    bytes: MOST,
    outbox: MOST,
    contexts: MOST,
    deps: 1024,
    actors: MOST,
    audit: MOST,
};
const LAYOUT: Layout = Layout::Two;
const KEYS: usize = 10_000;
const VALUE: &str = "a_value_of_thirty_two_bytes_0123";

/// A key, and what its puts depend on.
struct Item {
    key: Key,
    deps: Vec<Pair>,
    near: Vec<Pair>,
}

fn next(state: u64) -> u64 {
    state
        .wrapping_mul(6364136223846793005)
        .wrapping_add(1442695040888963407)
}

/// The slot and the place of the key that are drawn.
fn drawn(state: u64, tenants: u64) -> (usize, usize) {
    let r = state >> 33;
    ((r % tenants) as usize, (r / 8) as usize % KEYS)
}

/// Puts of each key depend on four keys, the first of which is the nearest.
fn items() -> Vec<Item> {
    let key = |n: usize| Key::new(format!("key_{n:04}").as_bytes()).expect("a key");
    let keys: Vec<Key> = (0..KEYS).map(key).collect();
    let version = Version::of(LAYOUT, 1, 0);
    let first = |n: usize| Pair {
        key: keys[n % KEYS].clone(),
        version,
    };
    let item = |n: usize| {
        let mut deps: Vec<Pair> = (n..n + 4).map(first).collect();
        deps.sort_by(|left, right| left.key.cmp(&right.key));
        Item {
            key: keys[n].clone(),
            deps,
            near: vec![first(n)],
        }
    };
    (0..KEYS).map(item).collect()
}

fn put(item: &Item) -> Call {
    let (deps, near) = (Pairs::from(&item.deps[..]), Pairs::from(&item.near[..]));
    Call::Put(Arc::new(Body {
        key: item.key.clone(),
        value: VALUE.as_bytes().into(),
        deps,
        near,
    }))
}

/// The number of the version that was stored or found.
fn number(reply: Reply) -> u64 {
    match reply {
        Reply::Stored(version) | Reply::Found(version, _) => version.0,
        _ => 0,
    }
}

/// The one node of a cluster, and how many tenants call it.
struct Caller {
    node: Node,
    tenants: u64,
}

impl Caller {
    fn new(tenants: u64) -> Self {
        let shape = Shape {
            layout: LAYOUT,
            dcs: 1,
            shards: 1,
            trans_time: 5000,
            restarts: 1,
        };
        let mut node = Node::new(std::hint::black_box(shape), 0, true);
        for slot in 0..tenants {
            let name = Name::new(format!("t{slot}").as_bytes()).expect("a name");
            let token = u128::from(slot).to_be_bytes();
            node.admit(
                slot as usize,
                &Tenant {
                    name,
                    token,
                    first_clock: 0,
                    quota: QUOTA,
                },
            );
        }
        Caller { node, tenants }
    }

    fn ask(&mut self, slot: usize, moment: u64, call: Call) -> u64 {
        if !self.node.fits(&call) {
            return 0;
        }
        number(self.node.step(slot, moment, call))
    }

    /// So many calls of random tenants and keys, each a moment after the one before.
    fn all(&mut self, items: &[Item], first: u64, count: u64, call: fn(&Item) -> Call) -> u64 {
        let mut state = if first == 0 { 1 } else { 7 };
        let mut sum = 0u64;
        for i in 0..count {
            state = next(state);
            let (slot, place) = drawn(state, self.tenants);
            let reply = self.ask(slot, first + i, call(&items[place]));
            sum = sum.wrapping_mul(31).wrapping_add(reply);
        }
        sum
    }
}

fn main() {
    let words: Vec<u64> = std::env::args()
        .skip(1)
        .map(|word| word.parse().expect("a number"))
        .collect();
    let [tenants, count] = words[..] else {
        panic!("usage: node TENANTS CALLS");
    };
    let items = items();
    let mut caller = Caller::new(tenants);
    let start = Instant::now();
    let sum = caller.all(&items, 0, count, put);
    println!("put {} {sum}", start.elapsed().as_nanos());
    let start = Instant::now();
    let sum = caller.all(&items, count, count, |item| Call::Latest(item.key.clone()));
    println!("get {} {sum}", start.elapsed().as_nanos());
}
