//! The work of a turn, and what its measurements share.
use std::hint::black_box;
use std::time::Instant;

/// A machine whose turn mixes a number so many rounds, and counts itself.
pub struct Worker {
    turns: u64,
    mixed: u64,
}

impl Worker {
    pub fn new() -> Self {
        Worker { turns: 0, mixed: 1 }
    }

    pub fn turn(&mut self, rounds: u64) -> u64 {
        let mut mixed = self.mixed;
        for _ in 0..rounds {
            mixed = mixed
                .wrapping_mul(6364136223846793005)
                .wrapping_add(1442695040888963407);
        }
        self.mixed = mixed;
        self.turns = self.turns.wrapping_add(1);
        self.turns
    }
}

/// How many rounds of work take a microsecond.
pub fn microsecond() -> u64 {
    let mut worker = Worker::new();
    let best = (0..20)
        .map(|_| {
            let start = Instant::now();
            black_box(worker.turn(black_box(1_000_000)));
            black_box(worker.mixed);
            start.elapsed().as_nanos() as u64
        })
        .min()
        .unwrap();
    1_000_000_000 / best.max(1)
}

pub fn median(mut speeds: Vec<f64>) -> f64 {
    speeds.sort_by(f64::total_cmp);
    speeds[speeds.len() / 2]
}
