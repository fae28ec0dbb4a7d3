// The same reads as the arrays' benchmark, of vectors of Rust with a test of the bounds.
// Prints for each the picoseconds of a read, and a number that shows what was read.
use std::hint::black_box;
use std::time::Instant;

const ROUNDS: u64 = 20;

#[inline(never)]
fn line(values: &[i64], low: i64, from: i64, to: i64, rounds: u64) -> i64 {
    let mut check = 0i64;
    for _ in 0..rounds {
        for i in from..to {
            check = check.wrapping_mul(3) ^ values.get((i - low) as usize).copied().unwrap_or(0);
        }
    }
    check
}

#[inline(never)]
fn plane(values: &[i64], low: i64, width: i64, from: i64, to: i64, rounds: u64) -> i64 {
    let mut check = 0i64;
    for _ in 0..rounds {
        for i in from..to {
            for j in from..to {
                check = check.wrapping_mul(3) ^ values.get(((i - low) * width + (j - low)) as usize).copied().unwrap_or(0);
            }
        }
    }
    check
}

fn timed(work: impl FnOnce() -> i64) {
    let start = Instant::now();
    let check = work();
    print!("{} {} ", start.elapsed().as_nanos() / (ROUNDS as u128 * 1000), check);
}

fn main() {
    let all: Vec<i64> = (0..1_000_000).map(|k| k * 7).collect();
    let part: Vec<i64> = (250_000..500_000).map(|k| k * 7).collect();
    let quarter: Vec<i64> = (0..250_000).map(|k| ((k / 500 + 500) * 1000 + k % 500 + 500) * 7).collect();
    let whole = |values: &Vec<i64>| line(black_box(values), black_box(1), black_box(1), black_box(1_000_001), ROUNDS);
    let own = |values: &Vec<i64>| line(black_box(values), black_box(250_001), black_box(250_001), black_box(500_001), ROUNDS * 4);
    timed(|| whole(&all));
    timed(|| own(&part));
    timed(|| whole(&all));
    timed(|| whole(&all));
    timed(|| whole(&all));
    timed(|| own(&part));
    timed(|| whole(&all));
    timed(|| whole(&all));
    timed(|| plane(black_box(&all), black_box(1), black_box(1_000), black_box(1), black_box(1_001), ROUNDS));
    timed(|| plane(black_box(&quarter), black_box(501), black_box(500), black_box(501), black_box(1_001), ROUNDS * 4));
    timed(|| plane(black_box(&all), black_box(1), black_box(1_000), black_box(1), black_box(1_001), ROUNDS));
    timed(|| plane(black_box(&all), black_box(1), black_box(1_000), black_box(1), black_box(1_001), ROUNDS));
    timed(|| plane(black_box(&all), black_box(1), black_box(1_000), black_box(1), black_box(1_001), ROUNDS));
    println!();
}
