// The same work as the ranges' benchmark by plain nested loops over plain numbers.
// Prints for each domain the picoseconds of an index and of a place, and two numbers that show what was gone over.
use std::hint::black_box;
use std::time::Instant;

const SAMPLES: u64 = 1_000;
const ROUNDS: u64 = 16_000;
const THOUSANDS: u128 = 16_000;

/// One dimension: the integers from low to high, or each stride-th of them, and how many there are.
#[derive(Clone, Copy)]
struct Line {
    low: i64,
    high: i64,
    stride: i64,
    size: u64,
}

impl Line {
    fn new(low: i64, high: i64, stride: i64) -> Line {
        let size = ((high - low) / stride + 1) as u64;
        Line { low, high, stride, size }
    }

    fn place(self, i: i64) -> Option<u64> {
        if i < self.low || self.high < i {
            return None;
        }
        let offset = (i - self.low) as u64;
        let stride = self.stride as u64;
        if stride == 1 {
            Some(offset)
        } else if offset % stride == 0 {
            Some(offset / stride)
        } else {
            None
        }
    }
}

#[inline(never)]
fn walk_one(z_line: Line) -> i64 {
    let mut check = 0i64;
    let mut z = z_line.low;
    while z <= z_line.high {
        check = check.wrapping_mul(3) ^ z;
        z += z_line.stride;
    }
    check
}

#[inline(never)]
fn walk_two(y_line: Line, z_line: Line) -> i64 {
    let mut check = 0i64;
    let mut y = y_line.low;
    while y <= y_line.high {
        let mut z = z_line.low;
        while z <= z_line.high {
            check = check.wrapping_mul(3) ^ y ^ z;
            z += z_line.stride;
        }
        y += y_line.stride;
    }
    check
}

#[inline(never)]
fn walk_three(x_line: Line, y_line: Line, z_line: Line) -> i64 {
    let mut check = 0i64;
    let mut x = x_line.low;
    while x <= x_line.high {
        let mut y = y_line.low;
        while y <= y_line.high {
            let mut z = z_line.low;
            while z <= z_line.high {
                check = check.wrapping_mul(3) ^ x ^ y ^ z;
                z += z_line.stride;
            }
            y += y_line.stride;
        }
        x += x_line.stride;
    }
    check
}

fn place<const RANK: usize>(lines: &[Line; RANK], index: &[i64; RANK]) -> Option<u64> {
    let mut place = 0;
    for (line, i) in lines.iter().zip(index) {
        place = place * line.size + line.place(*i)?;
    }
    Some(place)
}

#[inline(never)]
fn places<const RANK: usize>(lines: &[Line; RANK], samples: &[[i64; RANK]]) -> u64 {
    let mut check = 0u64;
    for _ in 0..ROUNDS {
        for index in samples {
            if let Some(place) = place(lines, index) {
                check = check.wrapping_mul(3) ^ place;
            }
        }
    }
    check
}

// Some indices of a domain, far from one another.
fn sample<const RANK: usize>(lines: &[Line; RANK]) -> Vec<[i64; RANK]> {
    let size: u64 = lines.iter().map(|line| line.size).product();
    let at = |k: u64| {
        let mut rest = k * 1_048_573 % size;
        let mut index = [0; RANK];
        for (line, i) in lines.iter().zip(&mut index).rev() {
            *i = line.low + (rest % line.size) as i64 * line.stride;
            rest /= line.size;
        }
        index
    };
    (0..SAMPLES).map(at).collect()
}

fn measure<const RANK: usize>(lines: [Line; RANK], walk: impl Fn(&[Line; RANK]) -> i64) {
    let lines = black_box(lines);
    let samples = black_box(sample(&lines));
    let start = Instant::now();
    let walked = walk(&lines);
    let index_time = start.elapsed().as_nanos() / THOUSANDS;
    let start = Instant::now();
    let placed = places(&lines, &samples);
    let place_time = start.elapsed().as_nanos() / THOUSANDS;
    print!("{index_time} {place_time} {walked} {placed} ");
}

fn main() {
    let line = |high, stride| Line::new(1, high, stride);
    measure([line(16_000_000, 1)], |l| walk_one(l[0]));
    measure([line(4_000, 1); 2], |l| walk_two(l[0], l[1]));
    let three = |l: &[Line; 3]| walk_three(l[0], l[1], l[2]);
    measure([line(250, 1), line(250, 1), line(256, 1)], three);
    measure([line(750, 3), line(750, 3), line(768, 3)], three);
    println!();
}
