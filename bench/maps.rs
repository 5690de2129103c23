//! Compares a store with a plain `HashMap` of chains in the same run, and prints how its costs grow.
//! Arguments: the store's program, and how often each is measured. It prints medians.
use std::collections::HashMap;
use std::hash::{Hash, Hasher};
use std::hint::black_box;
use std::process::Command;
use std::sync::Arc;
use std::time::Instant;

/// How many node numbers there are: a version is its clock, and then a node in 16 bits.
const NODES: u64 = 1 << 16;

#[derive(Clone, Copy)]
struct Key {
    bytes: [u8; 64],
    len: usize,
}

impl Key {
    fn new(text: &[u8]) -> Key {
        let mut bytes = [0; 64];
        bytes[..text.len()].copy_from_slice(text);
        Key {
            bytes,
            len: text.len(),
        }
    }

    fn bytes(&self) -> &[u8] {
        &self.bytes[..self.len]
    }
}

impl PartialEq for Key {
    fn eq(&self, other: &Key) -> bool {
        self.bytes() == other.bytes()
    }
}

impl Eq for Key {}

impl Hash for Key {
    fn hash<H: Hasher>(&self, state: &mut H) {
        self.bytes().hash(state);
    }
}

#[allow(dead_code)]
struct Entry {
    key: Key,
    version: u64,
    value: Arc<[u8]>,
    deps: Option<Arc<[(Key, u64)]>>,
    near: Option<Arc<[(Key, u64)]>>,
    prev: u64,
}

#[allow(dead_code)]
struct Kept {
    entry: Arc<Entry>,
    at: u64,
    stale: Option<u64>,
}

type Chains = HashMap<(usize, Key), Vec<Kept>>;

fn next(state: u64) -> u64 {
    state
        .wrapping_mul(6364136223846793005)
        .wrapping_add(1442695040888963407)
}

fn drawn(state: u64) -> (usize, usize) {
    let r = state >> 33;
    ((r % 8) as usize, (r / 8 % 10_000) as usize)
}

fn insert(chains: &mut Chains, slot: usize, key: Key, version: u64, now: u64) {
    let entry = Entry {
        key,
        version,
        value: Arc::from([7; 16].as_slice()),
        deps: None,
        near: None,
        prev: 0,
    };
    let chain = chains.entry((slot, key)).or_default();
    if let Some(last) = chain.last_mut() {
        last.stale = Some(now);
    }
    chain.push(Kept {
        entry: Arc::new(entry),
        at: now,
        stale: None,
    });
}

fn fill(chains: &mut Chains, keys: &[Key], count: u64) {
    let mut state = 1;
    for i in 0..count {
        state = next(state);
        let (slot, place) = drawn(state);
        insert(chains, slot, keys[place], (i + 1) * NODES, i);
    }
}

fn read_latest(chains: &Chains, keys: &[Key], count: u64) -> u64 {
    let mut state = 7;
    let mut sum = 0u64;
    for _ in 0..count {
        state = next(state);
        let (slot, place) = drawn(state);
        if let Some(chain) = chains.get(&(slot, keys[place])) {
            sum = sum.wrapping_add(chain.last().unwrap().entry.version);
        }
    }
    sum
}

fn read_exactly(chains: &Chains, keys: &[Key], count: u64, clocks: u64) -> u64 {
    let mut state = 7;
    let mut hits = 0;
    for _ in 0..count {
        state = next(state);
        let (slot, place) = drawn(state);
        let version = ((state >> 33) % clocks + 1) * NODES;
        if let Some(chain) = chains.get(&(slot, keys[place])) {
            hits += u64::from(
                chain
                    .binary_search_by_key(&version, |kept| kept.entry.version)
                    .is_ok(),
            );
        }
    }
    hits
}

/// All tenants' collections, by a walk over the whole map.
fn collect_all(chains: &mut Chains, now: u64) -> u64 {
    let mut removed = 0;
    for chain in chains.values_mut() {
        let before = chain.len();
        chain.retain(|kept| {
            kept.stale
                .map_or(true, |from| now.saturating_sub(from) <= 1)
        });
        removed += before - chain.len();
    }
    removed as u64
}

type Figures = Vec<(String, f64, u64)>;

fn timed(figures: &mut Figures, name: &str, run: impl FnOnce() -> u64) {
    let start = Instant::now();
    let answer = black_box(run());
    figures.push((name.to_string(), start.elapsed().as_nanos() as f64, answer));
}

fn plain(count: u64) -> Figures {
    let keys: Vec<Key> = (0..10_000)
        .map(|n| Key::new(format!("key_{n:05}").as_bytes()))
        .collect();
    let mut chains = Chains::new();
    let mut figures = Vec::new();
    timed(&mut figures, "insert", || {
        fill(&mut chains, &keys, count);
        1
    });
    timed(&mut figures, "latest", || {
        read_latest(&chains, &keys, count * 10)
    });
    timed(&mut figures, "exactly", || {
        read_exactly(&chains, &keys, count * 10, count)
    });
    timed(&mut figures, "collect_half", || {
        collect_all(&mut chains, count / 2)
    });
    timed(&mut figures, "collect_rest", || {
        collect_all(&mut chains, count + 10)
    });
    figures
}

fn store(program: &str, measured: u64, count: u64) -> Figures {
    let ran = Command::new(program)
        .args([measured.to_string(), count.to_string()])
        .output()
        .unwrap();
    assert!(ran.status.success());
    let text = String::from_utf8(ran.stdout).unwrap();
    let figure = |line: &str| {
        let words: Vec<&str> = line.split(' ').collect();
        (
            words[0].to_string(),
            words[1].parse().unwrap(),
            words[2].parse().unwrap(),
        )
    };
    text.lines().map(figure).collect()
}

fn median(mut numbers: Vec<f64>) -> f64 {
    numbers.sort_by(f64::total_cmp);
    numbers[numbers.len() / 2]
}

/// The median of each figure over several runs, which all have to give the same answers.
fn medians(runs: &[Figures]) -> Vec<(String, f64)> {
    let first = &runs[0];
    let of = |i: usize| {
        assert!(
            runs.iter().all(|run| run[i].2 == first[i].2),
            "other answers"
        );
        (
            first[i].0.clone(),
            median(runs.iter().map(|run| run[i].1).collect()),
        )
    };
    (0..first.len()).map(of).collect()
}

fn main() {
    let words: Vec<String> = std::env::args().collect();
    let times: usize = words[2].parse().unwrap();
    let (mut ours, mut theirs) = (Vec::new(), Vec::new());
    for _ in 0..times {
        ours.push(store(&words[1], 0, 1_000_000));
        theirs.push(plain(1_000_000));
    }
    for (mine, other) in ours[0].iter().zip(&theirs[0]) {
        assert_eq!(
            (&mine.0, mine.2),
            (&other.0, other.2),
            "other answers than the map"
        );
    }
    println!("time in ratio to a plain HashMap of chains");
    for ((name, mine), (_, other)) in medians(&ours).iter().zip(medians(&theirs)) {
        println!("  {name} {:.2}", mine / other);
    }
    println!("with so many versions of one key, in ratio to the first row: insert, latest, exactly, and what is collected, a record");
    grown(&[1_000, 10_000, 100_000, 1_000_000], |count| {
        let runs: Vec<Figures> = (0..times).map(|_| store(&words[1], 1, count)).collect();
        let all = medians(&runs);
        let removed = runs[0][3].2;
        vec![
            all[0].1 / count as f64,
            all[1].1,
            all[2].1,
            all[3].1 / removed as f64,
        ]
    });
    println!("beside so many records of others, in ratio to the first row: insert, latest, a collection of nothing, and one of all that is stale");
    grown(&[0, 100_000, 1_000_000, 4_000_000], |count| {
        let runs: Vec<Figures> = (0..times).map(|_| store(&words[1], 2, count)).collect();
        medians(&runs)[1..].iter().map(|figure| figure.1).collect()
    });
    println!("beside so many keys of others with something stale, in ratio to the first row: a collection that finds one record");
    grown(&[0, 1_000, 100_000], |count| {
        let runs: Vec<Figures> = (0..times).map(|_| store(&words[1], 3, count)).collect();
        medians(&runs)[1..].iter().map(|figure| figure.1).collect()
    });
}

/// Prints for each count the figures in ratio to those of the first.
fn grown(counts: &[u64], figures: impl Fn(u64) -> Vec<f64>) {
    let first = figures(counts[0]);
    for count in counts {
        let ratios: Vec<String> = figures(*count)
            .iter()
            .zip(&first)
            .map(|(one, other)| format!("{:.2}", one / other))
            .collect();
        println!("  {count} {}", ratios.join(" "));
    }
}
