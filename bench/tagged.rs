//! Times of "is anything tagged between here and there" (02, E1): libmodel.a beside a plain
//! Rust version written for speed, in one run. `bench/calls.sh tagged [ROUNDS]` builds and runs it
//! (default 200): each round runs both, one after the other, and the best times count. The
//! largest memory: none of its leaves in use, 2 of 100, and 60. The whole memory is asked; the
//! sweep asks again and again from the group after the last one found.

#[path = "../tests/model/mod.rs"]
mod model;

use model::draw::{self, Random};
use std::hint::black_box;
use std::time::Instant;

extern "C" {
    fn tag_first_tagged(n: u64, memory: *const u8, length: usize, a: u64, b: u64) -> u64;
    fn tag_first_tagged_as_true(n: u64, memory: *const u8, length: usize, a: u64, b: u64) -> u64;
    fn tag_tagged_leaves_as_true(n: u64, memory: *const u8, length: usize, a: u64, b: u64) -> u64;
}

const REFUSED: u64 = 1 << 32;
const NONE: u64 = 1 << 33;

// ------------------------------------------------------------ Plain Rust, for speed

mod plain {
    use super::{NONE, REFUSED};

    const BLOCK: usize = 64;

    fn refusal(n: u64, memory: &[u8], a: u64, b: u64, as_true: bool) -> u64 {
        if !(1..=262_144).contains(&n) {
            return 1;
        }
        let leaves = n as usize;
        if memory.len() != BLOCK * (leaves + (leaves + 511) / 512) {
            return 2;
        }
        if !as_true && !is_true(leaves, memory) {
            return 3;
        }
        if a > b || b > 16 * n {
            6
        } else {
            0
        }
    }

    fn is_true(n: usize, memory: &[u8]) -> bool {
        let (leaves, map) = memory.split_at(BLOCK * n);
        for (i, &byte) in map.iter().enumerate() {
            let mut bits = byte;
            while bits != 0 {
                let k = 8 * i + bits.trailing_zeros() as usize;
                if k >= n || leaves[BLOCK * k..][..BLOCK].iter().fold(0, |all, b| all | b) == 0 {
                    return false;
                }
                bits &= bits - 1;
            }
        }
        true
    }

    fn lowest(n: u64, memory: &[u8], a: u64, b: u64) -> u64 {
        if a == b {
            return NONE;
        }
        let (leaves, map) = memory.split_at(BLOCK * n as usize);
        let (first, last) = (a / 16, (b - 1) / 16);
        let mut i = first / 8;
        let mut bits = map[i as usize] & (0xff << (first % 8));
        loop {
            while bits == 0 {
                i += 1;
                if i > last / 8 {
                    return NONE;
                }
                bits = map[i as usize];
            }
            let k = 8 * i + bits.trailing_zeros() as u64;
            if k > last {
                return NONE;
            }
            for g in a.max(16 * k)..b.min(16 * k + 16) {
                if leaves[4 * g as usize..][..4] != [0; 4] {
                    return g;
                }
            }
            bits &= bits - 1;
        }
    }

    fn marked(n: u64, memory: &[u8], a: u64, b: u64) -> u64 {
        if a == b {
            return 0;
        }
        let map = &memory[BLOCK * n as usize..];
        let (first, last) = (a / 16, (b - 1) / 16);
        let (low, high) = (0xffu8 << (first % 8), 0xffu8 >> (7 - last % 8));
        let (i, j) = ((first / 8) as usize, (last / 8) as usize);
        if i == j {
            return (map[i] & low & high).count_ones() as u64;
        }
        let whole: u32 = map[i + 1..j].iter().map(|byte| byte.count_ones()).sum();
        (whole + (map[i] & low).count_ones() + (map[j] & high).count_ones()) as u64
    }

    /// The whole answer: the group or NONE, and the leaves.
    pub fn between(n: u64, memory: &[u8], a: u64, b: u64) -> (u64, u64) {
        match refusal(n, memory, a, b, false) {
            0 => (lowest(n, memory, a, b), marked(n, memory, a, b)),
            refusal => (REFUSED + refusal, REFUSED + refusal),
        }
    }

    pub fn first_as_true(n: u64, memory: &[u8], a: u64, b: u64) -> u64 {
        match refusal(n, memory, a, b, true) {
            0 => lowest(n, memory, a, b),
            refusal => REFUSED + refusal,
        }
    }

    pub fn leaves_as_true(n: u64, memory: &[u8], a: u64, b: u64) -> u64 {
        match refusal(n, memory, a, b, true) {
            0 => marked(n, memory, a, b),
            refusal => REFUSED + refusal,
        }
    }
}

// ------------------------------------------------------------ The measurement

/// Prints the best times of both, run one after the other in each round. They agree.
fn best(what: &str, rounds: u64, mut proved: impl FnMut() -> u64, mut plain: impl FnMut() -> u64) {
    let mut best = (f64::MAX, f64::MAX);
    for _ in 0..rounds {
        let begun = Instant::now();
        let one = black_box(proved());
        best.0 = best.0.min(begun.elapsed().as_secs_f64());
        let begun = Instant::now();
        let other = black_box(plain());
        best.1 = best.1.min(begun.elapsed().as_secs_f64());
        assert_eq!(one, other);
    }
    println!(
        "tagged: {what:<24} proved {:10.1} us, plain Rust {:10.1} us, time ratio {:.2}",
        1e6 * best.0,
        1e6 * best.1,
        best.0 / best.1
    );
}

/// The number of groups that a sweep visits.
fn sweep(groups: u64, first: impl Fn(u64) -> u64) -> u64 {
    let mut visited = 0;
    let mut group = first(0);
    while group < groups {
        visited += 1;
        group = first(group + 1);
    }
    visited
}

fn main() {
    let rounds =
        std::env::args().nth(1).map_or(200, |word| word.parse().expect("ROUNDS is a number"));
    let n = 262_144;
    let end = 16 * n;
    for parts in [0, 2, 60] {
        let memory = draw::true_memory(&mut Random(1), n, parts);
        let (bytes, length) = (memory.as_ptr(), memory.len());
        println!("tagged: n = {n}, {parts} of 100 leaves, best of {rounds}");
        best(
            "tested, from 0",
            rounds,
            || unsafe { tag_first_tagged(n, bytes, length, 0, end) },
            || plain::between(n, black_box(&memory), 0, end).0,
        );
        best(
            "as true, leaves",
            rounds,
            || unsafe { tag_tagged_leaves_as_true(n, bytes, length, 0, end) },
            || plain::leaves_as_true(n, black_box(&memory), 0, end),
        );
        best(
            "as true, a sweep",
            rounds / 10 + 1,
            || sweep(end, |a| unsafe { tag_first_tagged_as_true(n, bytes, length, a, end) }),
            || sweep(end, |a| plain::first_as_true(n, black_box(&memory), a, end)),
        );
    }
}
