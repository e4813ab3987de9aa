//! Two exports of libhost.a against the model: plain reading on random bytes, true or
//! not, with every refusal; the image test on images of random true memories and on every
//! damage that `draw` knows. `host DRIVER [SEED]`, in the root of the repository, with the
//! driver of `tests/host_calls.c`; ends with `host: N checks`, status 1 on the first
//! difference.

mod driver;
mod model;

use driver::Argument::{Number, Read};
use driver::{Driver, Function, Slice};
use model::draw::{self, Random};

const PLAIN_READ: Function = Function(0, "tag_plain_read");
const IMAGE_TEST: Function = Function(1, "tag_image_test");

/// One reading by both of a memory: of the first `length` bytes that were put.
fn read(driver: &mut Driver, n: u64, (bytes, put): (&[u8], &Slice), length: usize, g: u64) {
    let expected = match model::plain_read(n, &bytes[..length], g) {
        Ok(group) => group as u64,
        Err(refusal) => (1 << 32) + refusal,
    };
    let arguments = vec![Number(n), Read(put.part(0..length)), Number(g)];
    driver.call(PLAIN_READ, arguments, expected, vec![]);
}

fn test(driver: &mut Driver, image: &[u8]) -> u64 {
    let expected = model::image_test(image);
    let put = driver.put(0, image);
    driver.call(IMAGE_TEST, vec![Read(put)], expected, vec![]);
    expected
}

/// Numbers at and about the limits of n, and wherever a product could wrap.
fn leaf_numbers() -> Vec<u64> {
    let mut numbers = vec![0, 1, 2, 511, 512, 513, 800, 262_143, 262_144, 262_145, u64::MAX];
    numbers.extend((17..64).map(|power| (1u64 << power) + 1));
    numbers
}

fn plain_reading(driver: &mut Driver, random: &mut Random) {
    for (n, rounds) in
        [(1, 200), (2, 200), (511, 20), (512, 20), (513, 20), (800, 20), (262_144, 2)]
    {
        for round in 0..rounds {
            let length = model::memory_length(n);
            let mut memory = match round % 3 {
                0 => vec![0; length],
                1 => draw::true_memory(random, n, 50),
                _ => vec![0xff; length],
            };
            if round % 3 == 0 {
                random.fill(&mut memory);
            }
            memory.resize(length + 64, 0);
            let put = driver.put(0, &memory);
            let mut read = |n, length, g| read(driver, n, (&memory, &put), length, g);
            let groups = model::GROUPS * n;
            // Every group of a small memory, a choice of a large one.
            if groups <= 16_384 {
                (0..groups).for_each(|g| read(n, length, g));
            } else {
                (0..100_000).for_each(|_| read(n, length, random.below(groups)));
            }
            let past = [groups - 1, groups, groups + 1, 1 << 32, 1 << 60, u64::MAX];
            past.iter().for_each(|&g| read(n, length, g));
            // Wrong lengths, and other n's with this length; group 0 and one that is too large.
            for cut in [1, 2, 63, 64, 65, 127, 128, length] {
                read(n, length - cut, 0);
                read(n, length - cut, u64::MAX);
            }
            for other in leaf_numbers() {
                read(other, length, 0);
                read(other, length, u64::MAX);
                read(other, 0, 0);
            }
            read(n, length + 1, 0);
            read(n, length + 64, 0);
        }
    }
}

/// How many images were accepted, refused 10 and refused 11.
fn images(driver: &mut Driver, random: &mut Random) -> [u64; 3] {
    let mut answers = [0; 3];
    let mut one = |image: &[u8]| {
        let answer = test(driver, image);
        answers[if answer == 0 { 0 } else { answer as usize - 9 }] += 1;
    };
    // Random true memories of every size.
    for n in [1, 2, 7, 8, 15, 100, 511, 512, 513, 800, 2000] {
        for parts in [0, 1, 3, 30, 70, 100] {
            for _ in 0..10 {
                one(&model::encode(n, &model::records_of(n, &draw::true_memory(random, n, parts))));
            }
        }
    }
    // Random bytes, and random bytes with right checks.
    for blocks in 0..4 {
        for _ in 0..200 {
            let mut image = vec![0; blocks * model::IMAGE_BLOCK];
            random.fill(&mut image);
            one(&image);
            let version = if blocks == 0 { 2 } else { model::version(&image) };
            image.chunks_exact_mut(model::IMAGE_BLOCK).for_each(|b| model::seal(version, b));
            one(&image);
        }
    }
    // Every damage, for images of one to four blocks.
    for (n, m) in [(2, 0), (1, 1), (512, 2), (700, 7), (8, 8), (262_144, 14), (513, 15)] {
        let memory = draw::true_memory_of(random, n, m);
        for version in [1, 2] {
            let image = model::encode_as(version, n, &model::records_of(n, &memory));
            draw::damages(random, &image, &mut one);
        }
    }
    // The largest image, whole and with one wrong bit in its last block.
    let mut image = {
        let memory = draw::true_memory(random, 262_144, 100);
        model::encode(262_144, &model::records_of(262_144, &memory))
    };
    one(&image);
    let last = image.len() - 5;
    image[last] ^= 1;
    one(&image);
    answers
}

fn main() {
    let words: Vec<String> = std::env::args().collect();
    let Some(program) = words.get(1) else {
        println!("host DRIVER [SEED]");
        std::process::exit(2)
    };
    let seed = words.get(2).map_or(1, |word| word.parse().expect("the seed is a number"));
    let mut driver = Driver::start("host", program);
    let mut random = Random(seed);
    plain_reading(&mut driver, &mut random);
    println!("host: {} plain readings, seed {seed}", driver.checks);
    let [accepted, check, rule] = images(&mut driver, &mut random);
    println!(
        "host: {} images: {accepted} accepted, {check} refused 10, {rule} refused 11",
        accepted + check + rule
    );
    println!("host: {} checks", driver.finish());
}
