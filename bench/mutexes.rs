//! Turns per second through the seats of a cluster, beside a `std::sync::Mutex` for each node.
//! Arguments: the program of seats, and how often both are measured in turn. It prints medians of both, and the median of the ratios.
mod work;

use std::hint::black_box;
use std::process::Command;
use std::sync::Mutex;
use std::thread;
use std::time::Instant;
use work::{median, microsecond, Worker};

#[derive(Clone, Copy)]
struct Load {
    threads: u64,
    nodes: u64,
    turns: u64,
    rounds: u64,
    stride: u64,
}

impl Load {
    /// Million turns per second.
    fn speed(self, nanos: f64) -> f64 {
        (self.threads * self.turns) as f64 * 1e3 / nanos
    }
}

fn mutexes(load: Load) -> f64 {
    let node = |_| Mutex::new(Worker::new());
    let nodes: Vec<Mutex<Worker>> = (0..load.nodes).map(node).collect();
    let start = Instant::now();
    thread::scope(|scope| {
        for first in 0..load.threads {
            let nodes = &nodes;
            scope.spawn(move || {
                for turn in 0..load.turns {
                    let node = (first + turn * load.stride) % load.nodes;
                    black_box(nodes[node as usize].lock().unwrap().turn(load.rounds));
                }
            });
        }
    });
    load.speed(start.elapsed().as_nanos() as f64)
}

fn seats(program: &str, load: Load) -> f64 {
    let words = [load.threads, load.nodes, load.turns, load.rounds, load.stride];
    let told = Command::new(program)
        .args(words.map(|word| word.to_string()))
        .output()
        .expect("the program of seats");
    let text = String::from_utf8(told.stdout).expect("text");
    load.speed(text.trim().parse().expect("nanoseconds"))
}

fn main() {
    let words: Vec<String> = std::env::args().collect();
    let times: usize = words[2].parse().expect("a number");
    let work = microsecond();
    // Each run takes a fifth of a second or more: in shorter ones the ratio of four threads at four nodes varied more.
    println!("| Nodes | Each thread | Threads | Work of a turn | Seats | Mutexes | Ratio |");
    println!("|---|---|---|---|---|---|---|");
    for (nodes, stride, way) in [(1, 0, "at the node"), (4, 0, "at one node"), (4, 1, "goes round"), (16, 0, "at one node"), (16, 1, "goes round")] {
        for threads in [1, 2, 4, 8] {
            for (name, rounds, total) in [("none", 0, 4_000_000), ("1 microsecond", work, 800_000)] {
                let load = Load { threads, nodes, turns: total / threads, rounds, stride };
                let (mut of_seats, mut of_mutexes, mut ratios) = (Vec::new(), Vec::new(), Vec::new());
                for _ in 0..times {
                    let (seats, mutexes) = (seats(&words[1], load), mutexes(load));
                    of_seats.push(seats);
                    of_mutexes.push(mutexes);
                    ratios.push(seats / mutexes);
                }
                let (seats, mutexes, ratio) = (median(of_seats), median(of_mutexes), median(ratios));
                println!("| {nodes} | {way} | {threads} | {name} | {seats:.2} | {mutexes:.2} | {ratio:.2} |");
            }
        }
    }
}
