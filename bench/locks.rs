//! Turns per second at a gate, a `std::sync::Mutex` and a plain ticket lock.
//! Arguments: the gate's program, and how often each is measured. It prints medians, and ratios of turns per second.
mod work;

use std::cell::UnsafeCell;
use std::hint::{black_box, spin_loop};
use std::process::Command;
use std::sync::atomic::{AtomicBool, AtomicU64, Ordering};
use std::sync::Mutex;
use std::thread;
use std::time::{Duration, Instant};
use work::{median, microsecond, Worker};

trait Shared: Sync {
    fn turn(&self, rounds: u64) -> u64;
}

struct Locked(Mutex<Worker>);

impl Shared for Locked {
    fn turn(&self, rounds: u64) -> u64 {
        self.0.lock().unwrap().turn(rounds)
    }
}

/// The textbook's ticket lock: draw, spin until it is served. With `GIVES_WAY` it yields at each look.
struct Ticketed<const GIVES_WAY: bool> {
    ticket: AtomicU64,
    serving: AtomicU64,
    worker: UnsafeCell<Worker>,
}

unsafe impl<const GIVES_WAY: bool> Sync for Ticketed<GIVES_WAY> {}

impl<const GIVES_WAY: bool> Ticketed<GIVES_WAY> {
    fn new() -> Self {
        Ticketed {
            ticket: AtomicU64::new(0),
            serving: AtomicU64::new(0),
            worker: UnsafeCell::new(Worker::new()),
        }
    }
}

impl<const GIVES_WAY: bool> Shared for Ticketed<GIVES_WAY> {
    fn turn(&self, rounds: u64) -> u64 {
        let mine = self.ticket.fetch_add(1, Ordering::Relaxed);
        while self.serving.load(Ordering::Acquire) != mine {
            if GIVES_WAY {
                thread::yield_now();
            } else {
                spin_loop();
            }
        }
        // SAFETY: one ticket is served at a time.
        let reply = unsafe { (*self.worker.get()).turn(rounds) };
        self.serving.store(mine + 1, Ordering::Release);
        reply
    }
}

/// Turns per second, if each thread makes so many.
fn counted(shared: &dyn Shared, threads: u64, turns: u64, rounds: u64) -> f64 {
    let start = Instant::now();
    thread::scope(|scope| {
        for _ in 0..threads {
            scope.spawn(|| {
                for _ in 0..turns {
                    black_box(shared.turn(rounds));
                }
            });
        }
    });
    (threads * turns) as f64 / start.elapsed().as_secs_f64()
}

/// The same over a tenth of a second, for locks that may collapse.
fn timed(shared: &dyn Shared, threads: u64, rounds: u64) -> f64 {
    let (stopped, made) = (AtomicBool::new(false), AtomicU64::new(0));
    let start = Instant::now();
    thread::scope(|scope| {
        for _ in 0..threads {
            scope.spawn(|| {
                let mut turns = 0;
                while !stopped.load(Ordering::Relaxed) {
                    black_box(shared.turn(rounds));
                    turns += 1;
                }
                made.fetch_add(turns, Ordering::Relaxed);
            });
        }
        thread::sleep(Duration::from_millis(100));
        stopped.store(true, Ordering::Relaxed);
    });
    made.into_inner() as f64 / start.elapsed().as_secs_f64()
}

fn gate(program: &str, threads: u64, turns: u64, rounds: u64) -> f64 {
    let words = [threads.to_string(), turns.to_string(), rounds.to_string()];
    let told = Command::new(program).args(words).output().expect("the gate's program");
    let text = String::from_utf8(told.stdout).expect("text");
    let nanos: f64 = text.split(' ').next().and_then(|it| it.parse().ok()).expect("nanoseconds");
    (threads * turns) as f64 * 1e9 / nanos
}

fn main() {
    let words: Vec<String> = std::env::args().collect();
    let times: usize = words[2].parse().expect("a number");
    let work = microsecond();
    println!("threads work: million turns/s of gate, mutex, ticket lock, yielding ticket lock | the gate as ratio to each");
    for (name, rounds, total) in [("none", 0, 1_600_000), ("1us", work, 160_000)] {
        for threads in [1, 2, 4, 8] {
            let turns = total / threads;
            let mut all = [const { Vec::new() }; 4];
            for _ in 0..times {
                all[0].push(gate(&words[1], threads, turns, rounds));
                let locked = Locked(Mutex::new(Worker::new()));
                all[1].push(counted(&locked, threads, turns, rounds));
                all[2].push(timed(&Ticketed::<false>::new(), threads, rounds));
                all[3].push(timed(&Ticketed::<true>::new(), threads, rounds));
            }
            let speed = all.map(|it| median(it) / 1e6);
            let ratio = [1, 2, 3].map(|it| speed[0] / speed[it]);
            println!("{threads} {name}: {speed:.3?} | {ratio:.2?}");
        }
    }
}
