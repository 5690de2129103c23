//! How long threads take for puts or gets at the nodes of a cluster, each behind a `std::sync::Mutex`:
//! `turns put|get THREADS NODES CALLS STRIDE mutexes|alone`. It makes the calls of the proved program of seats and prints the same line:
//! nanoseconds, and a number that depends on all replies. With `alone` one thread makes all calls at nodes that have no lock.

use plain::node::{Body, Call, Node, Reply};
use plain::types::{Key, Layout, Name, Pair, Pairs, Quota, Shape, Tenant, Version};
use std::sync::{Arc, Mutex};
use std::thread;
use std::time::Instant;

const MOST: u64 = 4_294_967_295;
const QUOTA: Quota = Quota {
    versions: MOST,
    bytes: MOST,
    outbox: MOST,
    contexts: MOST,
    deps: 1024,
    actors: MOST,
    audit: MOST,
};
const LAYOUT: Layout = Layout::Two;
/// How many keys lie on each node.
const KEYS: u64 = 500;
const VALUE: &str = "a_value_of_thirty_two_bytes_0123";

/// A key, and what its puts depend on.
struct Item {
    key: Key,
    deps: Vec<Pair>,
    near: Vec<Pair>,
}

/// What the threads do.
#[derive(Clone, Copy)]
struct Load {
    puts: bool,
    threads: usize,
    nodes: usize,
    calls: u64,
    stride: u64,
}

fn next(state: u64) -> u64 {
    state
        .wrapping_mul(6364136223846793005)
        .wrapping_add(1442695040888963407)
}

fn letter(n: u64) -> u8 {
    (n % 26) as u8 + b'a'
}

/// A key for each number.
fn key(n: u64) -> Key {
    let [a, b, c, d] = [n / 17576, n / 676, n / 26, n].map(letter);
    Key::new(&[b'k', b'e', b'y', b'_', a, b, c, d]).expect("a key")
}

/// Puts of the key depend on four keys, the first of which is the nearest.
fn item(n: u64) -> Item {
    let version = Version::of(LAYOUT, 1, 0);
    let first = |n| Pair {
        key: key(n),
        version,
    };
    let mut deps: Vec<Pair> = (n..n + 4).map(first).collect();
    deps.sort_by(|left, right| left.key.cmp(&right.key));
    Item {
        key: key(n),
        deps,
        near: vec![first(n)],
    }
}

/// The items of each shard, one shard after another.
fn items(shards: usize) -> Vec<Item> {
    let of_shard = |shard| {
        let numbers = (0..200_000).filter(move |&n| key(n).shard(shards) == shard);
        numbers.take(KEYS as usize).map(item)
    };
    (0..shards).flat_map(of_shard).collect()
}

fn call(item: &Item, puts: bool) -> Call {
    if !puts {
        return Call::Latest(item.key.clone());
    }
    let (deps, near) = (Pairs::from(&item.deps[..]), Pairs::from(&item.near[..]));
    Call::Put(Arc::new(Body {
        key: item.key.clone(),
        value: VALUE.as_bytes().into(),
        deps,
        near,
    }))
}

/// The number of the version that was stored or found.
fn number(reply: Reply) -> u64 {
    match reply {
        Reply::Stored(version) | Reply::Found(version, _) => version.0,
        _ => 0,
    }
}

impl Load {
    /// Empty nodes, with a tenant for each thread.
    fn nodes(self) -> Vec<Node> {
        let shape = Shape {
            layout: LAYOUT,
            dcs: 1,
            shards: self.nodes,
            trans_time: 5000,
            restarts: 1,
        };
        let node = |number| {
            let mut node = Node::new(shape, number, true);
            for slot in 0..self.threads {
                let name = Name::new(format!("t{slot}").as_bytes()).expect("a name");
                let tenant = Tenant {
                    name,
                    token: (slot as u128).to_be_bytes(),
                    first_clock: 0,
                    quota: QUOTA,
                };
                node.admit(slot, &tenant);
            }
            node
        };
        (0..self.nodes).map(node).collect()
    }

    /// All items are put for each tenant.
    fn fill(self, nodes: &mut [Node], items: &[Item]) {
        for slot in 0..self.threads {
            for item in items {
                let node = item.key.shard(self.nodes);
                number(nodes[node].step(slot, 0, call(item, true)));
            }
        }
    }

    /// The calls of one thread, each at the node on which its key lies.
    fn work(
        self,
        items: &[Item],
        slot: usize,
        mut ask: impl FnMut(usize, u64, Call) -> Reply,
    ) -> u64 {
        let mut state = slot as u64;
        let mut sum = 0u64;
        for i in 0..self.calls {
            state = next(state);
            let node = (slot as u64).wrapping_add(i.wrapping_mul(self.stride)) % self.nodes as u64;
            let item = &items[(node * KEYS + (state >> 33) % KEYS) as usize];
            let reply = ask(item.key.shard(self.nodes), i, call(item, self.puts));
            sum = sum.wrapping_mul(31).wrapping_add(number(reply));
        }
        sum
    }

    /// All threads at once.
    fn work_in_threads(self, nodes: &[Mutex<Node>], items: &[Item]) -> u64 {
        thread::scope(|scope| {
            let start = |slot| {
                scope.spawn(move || {
                    self.work(items, slot, |node, moment, call| {
                        nodes[node].lock().unwrap().step(slot, moment, call)
                    })
                })
            };
            let threads: Vec<_> = (0..self.threads).map(start).collect();
            let sums = threads.into_iter().map(|thread| thread.join().unwrap());
            sums.fold(0, u64::wrapping_add)
        })
    }

    /// The calls of all threads, made by one.
    fn work_alone(self, nodes: &mut [Node], items: &[Item]) -> u64 {
        let work = |slot| {
            self.work(items, slot, |node, moment, call| {
                nodes[node].step(slot, moment, call)
            })
        };
        (0..self.threads).map(work).fold(0, u64::wrapping_add)
    }
}

fn main() {
    let words: Vec<String> = std::env::args().skip(1).collect();
    let [what, threads, nodes, calls, stride, how] = &words[..] else {
        panic!("usage: turns put|get THREADS NODES CALLS STRIDE mutexes|alone");
    };
    let number = |word: &String| word.parse::<u64>().expect("a number");
    let load = Load {
        puts: what == "put",
        threads: number(threads) as usize,
        nodes: number(nodes) as usize,
        calls: number(calls),
        stride: number(stride),
    };
    let items = items(load.nodes);
    let mut nodes = load.nodes();
    load.fill(&mut nodes, &items);
    let (start, sum);
    if how == "mutexes" {
        let nodes: Vec<Mutex<Node>> = nodes.into_iter().map(Mutex::new).collect();
        start = Instant::now();
        sum = load.work_in_threads(&nodes, &items);
    } else {
        start = Instant::now();
        sum = load.work_alone(&mut nodes, &items);
    }
    println!("{} {sum}", start.elapsed().as_nanos());
    std::process::exit(0);
}
