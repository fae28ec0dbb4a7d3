// The same work as the cells' benchmark over a Mutex and two Condvars, in Rust's own library.
// Prints the nanoseconds of a pair of write and read of one thread, and of a round of two threads that hand a value back and forth,
// first where every call notifies, as one writes it, and then where a call notifies only if a thread waits, which saves system calls.
use std::sync::{Arc, Condvar, Mutex};
use std::thread;
use std::time::Instant;

const PAIRS: u64 = 2_000_000;
const ROUNDS: u64 = 100_000;

/// What the lock guards: the value, if the cell is full, and how many threads wait for either state.
#[derive(Default)]
struct Inner {
    value: Option<i64>,
    wait_for_full: u32,
    wait_for_empty: u32,
}

/// A cell. With `COUNTS`, a call that no one waits for notifies no one.
#[derive(Default)]
struct Cell<const COUNTS: bool> {
    inner: Mutex<Inner>,
    full: Condvar,
    empty: Condvar,
}

impl<const COUNTS: bool> Cell<COUNTS> {
    fn write_ef(&self, value: i64) {
        let mut inner = self.inner.lock().unwrap();
        while inner.value.is_some() {
            inner.wait_for_empty += 1;
            inner = self.empty.wait(inner).unwrap();
            inner.wait_for_empty -= 1;
        }
        inner.value = Some(value);
        if !COUNTS || inner.wait_for_full > 0 {
            self.full.notify_one();
        }
    }

    fn read_fe(&self) -> i64 {
        let mut inner = self.inner.lock().unwrap();
        loop {
            if let Some(value) = inner.value.take() {
                if !COUNTS || inner.wait_for_empty > 0 {
                    self.empty.notify_one();
                }
                return value;
            }
            inner.wait_for_full += 1;
            inner = self.full.wait(inner).unwrap();
            inner.wait_for_full -= 1;
        }
    }
}

fn measure<const COUNTS: bool>() -> (u128, u128) {
    let cell = Cell::<COUNTS>::default();
    let mut sum = 0;
    let start = Instant::now();
    for _ in 0..PAIRS {
        cell.write_ef(1);
        sum += cell.read_fe();
    }
    let pair = start.elapsed().as_nanos() / u128::from(PAIRS);

    let cells = Arc::new((Cell::<COUNTS>::default(), Cell::<COUNTS>::default()));
    let other = Arc::clone(&cells);
    let start = Instant::now();
    let answers = thread::spawn(move || {
        for _ in 0..ROUNDS {
            let value = other.0.read_fe();
            other.1.write_ef(value);
        }
    });
    for _ in 0..ROUNDS {
        cells.0.write_ef(1);
        sum += cells.1.read_fe();
    }
    answers.join().unwrap();
    let round = start.elapsed().as_nanos() / u128::from(ROUNDS);
    assert_eq!(sum, (PAIRS + ROUNDS) as i64);
    (pair, round)
}

fn main() {
    let (pair, round) = measure::<false>();
    let (counted_pair, counted_round) = measure::<true>();
    println!("{pair} {round} {counted_pair} {counted_round}");
}
