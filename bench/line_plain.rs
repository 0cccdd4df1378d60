//! What `crates/bench` measures of the line, over the same words in plain Rust: `AtomicU64`s with the orderings that the steps
//! need, and plain words behind a `Mutex`. Build and run it by
//!
//!     rustc -O --edition 2021 bench/line_plain.rs -o /tmp/line_plain && /tmp/line_plain
use std::sync::atomic::{AtomicU64, Ordering};
use std::sync::Mutex;
use std::time::Instant;

const NUMBERS: u64 = 1_048_576;

const FRONTIER: usize = 0;

const COUNT: usize = 1;

trait Words: Sync {
    /// Adds one to the count, and answers what it was.
    fn add_to_count(&self) -> u64;
    fn set_mark(&self, number: u64);
    fn load_mark(&self, number: u64) -> bool;
    /// Raises the frontier to a number, and answers the frontier after it.
    fn lift_frontier(&self, number: u64) -> u64;
}

/// Word 0 is the frontier, word 1 the count, and word n + 1 the mark of the number n.
struct Atomics(Vec<AtomicU64>);

impl Words for Atomics {
    fn add_to_count(&self) -> u64 {
        self.0[COUNT].fetch_add(1, Ordering::Relaxed)
    }

    fn set_mark(&self, number: u64) {
        self.0[number as usize + 1].store(1, Ordering::Release);
    }

    fn load_mark(&self, number: u64) -> bool {
        self.0[number as usize + 1].load(Ordering::Acquire) != 0
    }

    fn lift_frontier(&self, number: u64) -> u64 {
        self.0[FRONTIER].fetch_max(number, Ordering::AcqRel).max(number)
    }
}

/// The same, with every step sequentially consistent, as the proved line makes it.
struct Ordered(Vec<AtomicU64>);

impl Words for Ordered {
    fn add_to_count(&self) -> u64 {
        self.0[COUNT].fetch_add(1, Ordering::SeqCst)
    }

    fn set_mark(&self, number: u64) {
        self.0[number as usize + 1].store(1, Ordering::SeqCst);
    }

    fn load_mark(&self, number: u64) -> bool {
        self.0[number as usize + 1].load(Ordering::SeqCst) != 0
    }

    fn lift_frontier(&self, number: u64) -> u64 {
        self.0[FRONTIER].fetch_max(number, Ordering::SeqCst).max(number)
    }
}

struct Locked(Mutex<Vec<u64>>);

impl Words for Locked {
    fn add_to_count(&self) -> u64 {
        let mut words = self.0.lock().unwrap();
        words[COUNT] += 1;
        words[COUNT] - 1
    }

    fn set_mark(&self, number: u64) {
        self.0.lock().unwrap()[number as usize + 1] = 1;
    }

    fn load_mark(&self, number: u64) -> bool {
        self.0.lock().unwrap()[number as usize + 1] != 0
    }

    fn lift_frontier(&self, number: u64) -> u64 {
        let mut words = self.0.lock().unwrap();
        words[FRONTIER] = words[FRONTIER].max(number);
        words[FRONTIER]
    }
}

fn draw_all<W: Words>(words: &W) -> u64 {
    let mut count = 0;
    loop {
        let before = words.add_to_count();
        if before >= NUMBERS {
            return count;
        }
        words.set_mark(before + 1);
        count += 1;
    }
}

fn raise_all<W: Words>(words: &W) -> u64 {
    let mut seen = 0;
    let mut count = 0;
    while seen < NUMBERS {
        let next = seen + 1;
        if words.load_mark(next) {
            seen = words.lift_frontier(next);
        }
        count += 1;
    }
    count
}

/// Runs a load in so many threads, and prints how many times a second it was done.
fn run<W: Words>(name: &str, load: &str, threads: usize, words: &W, work: fn(&W) -> u64) {
    let start = Instant::now();
    let count: u64 = std::thread::scope(|scope| {
        let workers: Vec<_> = (0..threads).map(|_| scope.spawn(|| work(words))).collect();
        workers.into_iter().map(|worker| worker.join().unwrap()).sum()
    });
    let rate = u128::from(count) * 1_000_000 / start.elapsed().as_micros().max(1);
    println!("{name}: {load} by {threads} threads: {rate} a second");
}

fn measure<W: Words>(name: &str, threads: usize, words: W) {
    run(name, "drawn and filled", threads, &words, draw_all::<W>);
    run(name, "raised", threads, &words, raise_all::<W>);
}

fn main() {
    let length = NUMBERS as usize + 2;
    // What a process does first takes longer.
    draw_all(&Atomics((0..length).map(|_| AtomicU64::new(0)).collect()));
    for threads in [1, 2, 4, 8] {
        measure("acquire and release", threads, Atomics((0..length).map(|_| AtomicU64::new(0)).collect()));
        measure("sequentially consistent", threads, Ordered((0..length).map(|_| AtomicU64::new(0)).collect()));
        measure("mutex", threads, Locked(Mutex::new(vec![0; length])));
    }
}
