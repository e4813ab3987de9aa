//! MB/s of the image test, writing and restoring: libmodel.a beside a plain Rust
//! version written for speed, in one run. `bench/calls.sh archive [ROUNDS]` builds and runs it
//! (default 15): each round runs both, one after the other, and the best times count. MB
//! are 1,000,000 bytes of the image. The largest memory, with 60 of 100 leaves in use and
//! with 2.

#[path = "../tests/model/mod.rs"]
mod model;

use model::draw::{self, Random};
use std::time::Instant;

extern "C" {
    fn tag_write_image(
        n: u64,
        memory: *const u8,
        memory_length: usize,
        output: *mut u8,
        output_length: usize,
    ) -> u64;
    fn tag_restore(
        image: *const u8,
        image_length: usize,
        memory: *mut u8,
        memory_length: usize,
    ) -> u64;
    fn tag_image_test(image: *const u8, image_length: usize) -> u64;
}

// ------------------------------------------------------------ Plain Rust, for speed

mod plain {
    const BLOCK: usize = 64;
    const IMAGE_BLOCK: usize = 512;
    const RECORD: usize = 68;

    fn length(n: usize) -> usize {
        BLOCK * (n + (n + 511) / 512)
    }

    fn number16(bytes: &[u8], at: usize) -> u16 {
        u16::from_le_bytes(bytes[at..at + 2].try_into().unwrap())
    }

    fn number32(bytes: &[u8], at: usize) -> u32 {
        u32::from_le_bytes(bytes[at..at + 4].try_into().unwrap())
    }

    fn empty(bytes: &[u8]) -> bool {
        bytes.iter().fold(0, |all, b| all | b) == 0
    }

    /// Version 1: both sums are far below 2^32 over 254 words, so they are reduced once.
    fn old_check(block: &[u8; IMAGE_BLOCK]) -> u32 {
        let (mut a, mut b) = (1u32, 0u32);
        for word in block[..508].chunks_exact(2) {
            a += u16::from_le_bytes([word[0], word[1]]) as u32;
            b += a;
        }
        a % 65_535 | (b % 65_535) << 16
    }

    /// Every other version: both sums wrap.
    fn new_check(block: &[u8; IMAGE_BLOCK]) -> u32 {
        let (mut a, mut b) = (1u16, 0u16);
        for word in block[..508].chunks_exact(2) {
            a = a.wrapping_add(u16::from_le_bytes([word[0], word[1]]));
            b = b.wrapping_add(a);
        }
        a as u32 | (b as u32) << 16
    }

    fn check(version: u16, block: &[u8; IMAGE_BLOCK]) -> u32 {
        if version == 1 {
            old_check(block)
        } else {
            new_check(block)
        }
    }

    fn seal(block: &mut [u8; IMAGE_BLOCK]) {
        let sums = new_check(block);
        block[508..].copy_from_slice(&sums.to_le_bytes());
    }

    pub fn image_test(image: &[u8]) -> u64 {
        if image.is_empty() || image.len() % IMAGE_BLOCK != 0 {
            return 10;
        }
        let last = image.len() / IMAGE_BLOCK - 1;
        let version = number16(image, 6);
        let n = number32(image, 8);
        let mut right = (1..=262_144).contains(&n);
        let (mut least, mut records) = (0u32, 0u32);
        for (i, block) in image.chunks_exact(IMAGE_BLOCK).enumerate() {
            let block: &[u8; IMAGE_BLOCK] = block.try_into().unwrap();
            if check(version, block) != number32(block, 508) {
                return 10;
            }
            let (kind, count) = (number16(block, 4), number16(block, 6) as usize);
            right &= number32(block, 0) as usize == i;
            if i == 0 {
                right &= kind == 1 && (1..=2).contains(&count) && empty(&block[16..508]);
                continue;
            }
            right &= kind == 2 && (count == 7 || i == last && (1..=7).contains(&count));
            if !right {
                continue;
            }
            for record in block[8..8 + RECORD * count].chunks_exact(RECORD) {
                let leaf = number32(record, 0);
                right &= leaf >= least && leaf < n && !empty(&record[4..]);
                least = leaf.saturating_add(1);
            }
            right &= empty(&block[8 + RECORD * count..508]);
            records += count as u32;
        }
        if right && number32(image, 12) == records {
            0
        } else {
            11
        }
    }

    pub fn write_image(n: u64, memory: &[u8], output: &mut [u8]) -> Result<usize, u64> {
        if !(1..=262_144).contains(&n) {
            return Err(1);
        }
        let n = n as usize;
        if memory.len() != length(n) {
            return Err(2);
        }
        let (leaves, map) = memory.split_at(BLOCK * n);
        let mut m = 0;
        for (i, &byte) in map.iter().enumerate() {
            let mut bits = byte;
            while bits != 0 {
                let k = 8 * i + bits.trailing_zeros() as usize;
                if k >= n || empty(&leaves[BLOCK * k..][..BLOCK]) {
                    return Err(3);
                }
                bits &= bits - 1;
                m += 1;
            }
        }
        let blocks = 1 + (m + 6) / 7;
        if output.len() < IMAGE_BLOCK * blocks {
            return Err(9);
        }
        let output = &mut output[..IMAGE_BLOCK * blocks];
        let (head, rest) = output.split_at_mut(IMAGE_BLOCK);
        head.fill(0);
        (head[4], head[6]) = (1, 2);
        head[8..12].copy_from_slice(&(n as u32).to_le_bytes());
        head[12..16].copy_from_slice(&(m as u32).to_le_bytes());
        seal(head.try_into().unwrap());
        let mut next = 0;
        for (i, block) in rest.chunks_exact_mut(IMAGE_BLOCK).enumerate() {
            let count = (m - 7 * i).min(7);
            block[..4].copy_from_slice(&(i as u32 + 1).to_le_bytes());
            block[4..8].copy_from_slice(&[2, 0, count as u8, 0]);
            for record in block[8..8 + RECORD * count].chunks_exact_mut(RECORD) {
                while map[next / 8] >> (next % 8) == 0 {
                    next = (next / 8 + 1) * 8;
                }
                next += (map[next / 8] >> (next % 8)).trailing_zeros() as usize;
                record[..4].copy_from_slice(&(next as u32).to_le_bytes());
                record[4..].copy_from_slice(&leaves[BLOCK * next..][..BLOCK]);
                next += 1;
            }
            block[8 + RECORD * count..508].fill(0);
            seal(block.try_into().unwrap());
        }
        Ok(output.len())
    }

    pub fn restore(image: &[u8], memory: &mut [u8]) -> u64 {
        let refusal = image_test(image);
        if refusal != 0 {
            return refusal;
        }
        let n = number32(image, 8) as usize;
        if memory.len() != length(n) {
            return 2;
        }
        let (leaves, map) = memory.split_at_mut(BLOCK * n);
        map.fill(0);
        let mut next = 0;
        for block in image.chunks_exact(IMAGE_BLOCK).skip(1) {
            let count = number16(block, 6) as usize;
            for record in block[8..8 + RECORD * count].chunks_exact(RECORD) {
                let k = number32(record, 0) as usize;
                leaves[BLOCK * next..BLOCK * k].fill(0);
                leaves[BLOCK * k..][..BLOCK].copy_from_slice(&record[4..]);
                map[k / 8] |= 1 << (k % 8);
                next = k + 1;
            }
        }
        leaves[BLOCK * next..].fill(0);
        0
    }
}

// ------------------------------------------------------------ The measurement

/// Best seconds of both, run one after the other in each round.
fn best(rounds: u64, mut proved: impl FnMut(), mut plain: impl FnMut()) -> (f64, f64) {
    let mut best = (f64::MAX, f64::MAX);
    for _ in 0..rounds {
        let begun = Instant::now();
        proved();
        best.0 = best.0.min(begun.elapsed().as_secs_f64());
        let begun = Instant::now();
        plain();
        best.1 = best.1.min(begun.elapsed().as_secs_f64());
    }
    best
}

fn print(what: &str, bytes: usize, (proved, plain): (f64, f64)) {
    let rate = |seconds: f64| bytes as f64 / 1e6 / seconds;
    println!(
        "archive: {what:<8} proved {:7.0} MB/s, plain Rust {:7.0} MB/s, time ratio {:.2}",
        rate(proved),
        rate(plain),
        proved / plain
    );
}

fn main() {
    let rounds =
        std::env::args().nth(1).map_or(15, |word| word.parse().expect("ROUNDS is a number"));
    let n = 262_144;
    for parts in [60, 2] {
        let memory = draw::true_memory(&mut Random(1), n, parts);
        let mut one = vec![0; 512 * 40_000];
        let mut other = one.clone();
        let length = plain::write_image(n, &memory, &mut other).expect("the memory is true");
        println!(
            "archive: n = {n}, {parts} of 100 leaves, an image of {length} bytes, best of {rounds}"
        );

        let writing = best(
            rounds,
            || {
                let (from, into) = (memory.as_ptr(), one.as_mut_ptr());
                let got = unsafe { tag_write_image(n, from, memory.len(), into, one.len()) };
                assert_eq!(got, length as u64);
            },
            || assert_eq!(plain::write_image(n, &memory, &mut other), Ok(length)),
        );
        assert!(one == other && one[..length] == model::encode(n, &model::records_of(n, &memory)));
        let image = &one[..length];
        let testing = best(
            rounds,
            || assert_eq!(unsafe { tag_image_test(image.as_ptr(), length) }, 0),
            || assert_eq!(plain::image_test(image), 0),
        );
        let (mut here, mut there) = (vec![0xff; memory.len()], vec![0xff; memory.len()]);
        let restoring = best(
            rounds,
            || {
                let (from, into) = (image.as_ptr(), here.as_mut_ptr());
                assert_eq!(unsafe { tag_restore(from, length, into, here.len()) }, 0)
            },
            || assert_eq!(plain::restore(image, &mut there), 0),
        );
        assert!(here == there);
        print("test", length, testing);
        print("write", length, writing);
        print("restore", length, restoring);
    }
}
