//! Writing, testing and restoring images by libmodel.a against the model: random true
//! memories and others, outputs too short, exact and longer, restoring into dirty memories
//! of right and wrong lengths, damaged images. All lent bytes are compared, so a refused
//! call that changed one is found. `archive DRIVER [SEED]`, in the root of the repository,
//! with the driver of `tests/archive_calls.c`; ends with `archive: N checks`, status 1 on
//! the first difference.

mod driver;
mod model;

use driver::Argument::{Change, Number, Read};
use driver::{Driver, Function};
use model::draw::{self, Random};
use std::process::exit;

const WRITE_IMAGE: Function = Function(0, "tag_write_image");
const RESTORE: Function = Function(1, "tag_restore");
const IMAGE_TEST: Function = Function(2, "tag_image_test");

fn same(driver: &mut Driver, what: &str, got: bool) {
    if !got {
        println!("archive: DIFFERENT: {what}");
        exit(1);
    }
    driver.checks += 1;
}

/// Write into an output of this length, dirty, by both.
fn write(driver: &mut Driver, random: &mut Random, n: u64, memory: &[u8], length: usize) {
    let mut output = vec![0; length];
    random.fill(&mut output);
    let lent = vec![Number(n), Read(driver.put(0, memory)), Change(driver.put(1, &output))];
    let expected = match model::write_image(n, memory, &mut output) {
        Ok(length) => length as u64,
        Err(refusal) => (1 << 32) + refusal,
    };
    driver.call(WRITE_IMAGE, lent, expected, vec![output]);
}

/// Test and restore into a dirty memory of this length by both.
fn restore(driver: &mut Driver, random: &mut Random, image: &[u8], length: usize) -> u64 {
    let mut memory = vec![0; length];
    random.fill(&mut memory);
    let (from, into) = (driver.put(0, image), driver.put(1, &memory));
    let expected = model::restore(image, &mut memory);
    driver.call(IMAGE_TEST, vec![Read(from.clone())], model::image_test(image), vec![]);
    let answer = if expected == 0 { 0 } else { (1 << 32) + expected };
    driver.call(RESTORE, vec![Read(from), Change(into)], answer, vec![memory]);
    expected
}

/// A true memory through all of it: written into every kind of output, restored, read again.
fn there_and_back(driver: &mut Driver, random: &mut Random, n: u64, memory: &[u8]) {
    let mut image = vec![0; 512 * (n as usize / 7 + 2)];
    let length = model::write_image(n, memory, &mut image).expect("the memory is true");
    image.truncate(length);
    for output in [0, 1, 511, 512, length - 512, length - 1, length, length + 1, length + 700] {
        write(driver, random, n, memory, output);
    }
    let right = memory.len();
    for into in [0, right - 64, right - 1, right, right + 1, right + 64] {
        restore(driver, random, &image, into);
    }
    // The last sentence of demand 2: the same plain reading for every group, and true.
    let (from, into) = (driver.put(0, &image), driver.put(1, &vec![0xff; right]));
    let (_, again) = driver.ask(RESTORE, vec![Read(from), Change(into)]);
    same(driver, "restored memory is true", model::is_true(n, &again[0]));
    let reads = |m: &[u8]| -> Vec<_> { (0..16 * n).map(|g| model::plain_read(n, m, g)).collect() };
    same(driver, "plain reading after restoring", reads(&again[0]) == reads(memory));
    // Other numbers and lengths with this memory.
    for other in [0, n + 1, n + 512, 262_144, 262_145, 1 << 32 | n, u64::MAX] {
        write(driver, random, other, memory, 0);
        write(driver, random, other, memory, length);
    }
    for cut in [1, 64, right] {
        write(driver, random, n, &memory[..right - cut], length);
    }
}

/// Memories that are not true, or just are: each small change of the map or of a leaf.
fn almost_true(driver: &mut Driver, random: &mut Random, n: u64, memory: &[u8]) {
    let room = 512 * (n as usize / 7 + 2);
    let map = 64 * n as usize;
    for _ in 0..20 {
        let mut changed = memory.to_vec();
        if random.percent(50) {
            let bit = random.below(8 * (changed.len() - map) as u64) as usize;
            changed[map + bit / 8] ^= 1 << (bit % 8);
        } else {
            let k = random.below(n) as usize;
            changed[64 * k..64 * (k + 1)].fill(0);
        }
        write(driver, random, n, &changed, room);
        write(driver, random, n, &changed, 0);
    }
    // The first bit past the last leaf, and the last bit of all.
    for bit in [n as usize, 8 * (memory.len() - map) - 1] {
        if bit < 8 * (memory.len() - map) {
            let mut changed = memory.to_vec();
            changed[map + bit / 8] |= 1 << (bit % 8);
            write(driver, random, n, &changed, room);
        }
    }
}

fn main() {
    let words: Vec<String> = std::env::args().collect();
    let Some(program) = words.get(1) else {
        println!("archive DRIVER [SEED]");
        exit(2)
    };
    let seed = words.get(2).map_or(1, |word| word.parse().expect("the seed is a number"));
    let mut driver = Driver::start("archive", program);
    let mut random = Random(seed);
    for n in [1, 2, 7, 8, 15, 511, 512, 513, 2000] {
        for parts in [0, 3, 30, 70, 100] {
            for _ in 0..if n > 100 { 4 } else { 20 } {
                let memory = draw::true_memory(&mut random, n, parts);
                there_and_back(&mut driver, &mut random, n, &memory);
                almost_true(&mut driver, &mut random, n, &memory);
            }
        }
    }
    // A memory of random bytes, and the largest.
    for n in [1, 2, 511, 513] {
        for _ in 0..50 {
            let mut memory = vec![0; model::memory_length(n)];
            random.fill(&mut memory);
            write(&mut driver, &mut random, n, &memory, 512 * 80);
        }
    }
    let memory = draw::true_memory(&mut random, 262_144, 60);
    there_and_back(&mut driver, &mut random, 262_144, &memory);
    drop(memory);

    // Damaged images. Restored if accepted: into a memory as long as they say.
    let mut images = [0u64; 4];
    for (version, n, m) in [
        (2, 2, 0),
        (2, 1, 1),
        (2, 512, 2),
        (2, 40, 7),
        (2, 8, 8),
        (2, 513, 15),
        (1, 1, 1),
        (1, 40, 7),
        (1, 8, 8),
    ] {
        let memory = draw::true_memory_of(&mut random, n, m);
        let image = model::encode_as(version, n, &model::records_of(n, &memory));
        let mut dirty = Random(seed ^ n);
        draw::damages(&mut random, &image, |damaged| {
            let said = match damaged.len() {
                0..=511 => n,
                _ => model::number32(damaged, 8) as u64,
            };
            let said = if (1..3000).contains(&said) { said } else { n };
            let right = model::memory_length(said);
            // Sometimes into a memory of another length.
            let length = dirty.pick(&[
                right,
                right,
                right,
                right,
                right,
                right,
                right,
                right - 1,
                0,
                right + 64,
            ]);
            let refusal = restore(&mut driver, &mut dirty, damaged, length);
            images[[0, 2, 10, 11].iter().position(|&r| r == refusal).unwrap()] += 1;
        });
    }
    let [restored, length, check, rule] = images;
    println!(
        "archive: damaged images: {restored} restored, {length} refused 2, {check} refused 10, \
         {rule} refused 11 (seed {seed})"
    );
    println!("archive: {} checks", driver.finish());
}
