//! "Is anything tagged between here and there?" (02, E1): the four calls of libhost.a
//! against a reading of every group. Every A and B of small memories, random ones up to the
//! largest; true memories, others, and every refusal. `tagged DRIVER [SEED]`, in the root of
//! the repository, with the driver of `tests/host_calls.c`; ends with `tagged: N checks`,
//! status 1 on the first difference.

mod driver;
mod model;

use driver::Argument::{Number, Read};
use driver::{Driver, Function, Slice};
use model::draw::{self, Random};

const FIRST: Function = Function(2, "tag_first_tagged");
const LEAVES: Function = Function(3, "tag_tagged_leaves");
const FIRST_AS_TRUE: Function = Function(4, "tag_first_tagged_as_true");
const LEAVES_AS_TRUE: Function = Function(5, "tag_tagged_leaves_as_true");

const REFUSED: u64 = 1 << 32;
const NONE: u64 = 1 << 33;

/// A memory read group by group: what the answers are looked up in.
struct Reading {
    n: u64,
    length: usize,
    is_true: bool,
    groups: Vec<u32>,
    /// Of each leaf: some group is not zero.
    tagged: Vec<bool>,
    bits: Vec<bool>,
}

impl Reading {
    fn of(n: u64, memory: &[u8]) -> Reading {
        let groups: Vec<u32> = (0..16 * n)
            .map(|g| model::plain_read(n, memory, g).expect("there is a group"))
            .collect();
        let tagged = groups.chunks(16).map(|leaf| leaf.iter().any(|&v| v != 0)).collect();
        let bits = (0..n).map(|k| model::bit_of(n, memory, k)).collect();
        let is_true = model::is_true(n, memory);
        Reading { n, length: memory.len(), is_true, groups, tagged, bits }
    }

    /// "Refusals: 1, 2, 3, then 6 for A > B or B > 16n."
    fn refusal(&self, n: u64, length: usize, a: u64, b: u64, as_true: bool) -> Option<u64> {
        if n == 0 || n > 262_144 {
            return Some(1);
        }
        if length != 64 * (n + (n + 511) / 512) as usize {
            return Some(2);
        }
        assert!(n == self.n && length == self.length);
        if !as_true && !self.is_true {
            return Some(3);
        }
        (a > b || b > 16 * n).then_some(6)
    }

    /// "the lowest group with a set tag, or none"
    fn first(&self, a: u64, b: u64) -> u64 {
        (a..b).find(|&g| self.groups[g as usize] != 0).unwrap_or(NONE)
    }

    /// "the number of tagged leaves from A's leaf to that of group B - 1, both counted";
    /// taken as true, of leaves with bit 1.
    fn leaves(&self, a: u64, b: u64, as_true: bool) -> u64 {
        if a == b {
            return 0;
        }
        let of = if as_true { &self.bits } else { &self.tagged };
        of[(a / 16) as usize..=((b - 1) / 16) as usize].iter().filter(|&&one| one).count() as u64
    }
}

/// The four calls by both.
fn ask(driver: &mut Driver, reading: &Reading, put: &Slice, n: u64, length: usize, a: u64, b: u64) {
    for (first, leaves, as_true) in [(FIRST, LEAVES, false), (FIRST_AS_TRUE, LEAVES_AS_TRUE, true)]
    {
        let (found, counted) = match reading.refusal(n, length, a, b, as_true) {
            Some(refusal) => (REFUSED + refusal, REFUSED + refusal),
            None => (reading.first(a, b), reading.leaves(a, b, as_true)),
        };
        let mut call = |function, expected| {
            let arguments = vec![Number(n), Read(put.part(0..length)), Number(a), Number(b)];
            driver.call(function, arguments, expected, vec![]);
        };
        call(first, found);
        call(leaves, counted);
    }
}

/// A memory of each kind: true ones from empty to full, one bit off true, and any bytes.
fn memory(random: &mut Random, n: u64, kind: usize) -> Vec<u8> {
    let mut memory = match kind {
        0 => draw::true_memory(random, n, 0),
        1 => draw::true_memory_of(random, n, 1),
        2 => draw::true_memory(random, n, 2),
        3 => draw::true_memory(random, n, 20),
        4 => draw::true_memory(random, n, 100),
        _ => draw::true_memory(random, n, 50),
    };
    match kind {
        // a bit over a leaf of zeros
        5 => {
            let k = random.below(n);
            memory[model::own_place(n, model::Block::Leaf(k))].fill(0);
            model::put_bit(&mut memory[model::own_place(n, model::Block::Map(k / 512))], k, true);
        }
        6 => random.fill(&mut memory),
        _ => {}
    }
    memory
}

const KINDS: usize = 7;

/// Every A and B, those past the end too.
fn every(driver: &mut Driver, random: &mut Random, n: u64, rounds: usize) {
    for round in 0..rounds {
        let bytes = memory(random, n, round % KINDS);
        let reading = Reading::of(n, &bytes);
        let put = driver.put(0, &bytes);
        for a in 0..=16 * n + 1 {
            for b in 0..=16 * n + 1 {
                ask(driver, &reading, &put, n, bytes.len(), a, b);
            }
        }
    }
}

/// A and B near each other, near an edge of a leaf, of a map byte or of the memory, or anywhere.
fn range(random: &mut Random, n: u64) -> (u64, u64) {
    let end = 16 * n;
    let mut number = || match random.below(4) {
        0 => random.below(end + 1),
        1 => (random.below(n + 1) * 16 + random.below(3)).saturating_sub(1).min(end),
        2 => (random.below(n / 8 + 1) * 128 + random.below(3)).saturating_sub(1).min(end),
        _ => random.pick(&[0, 1, 15, 16, 17, end - 16, end - 1, end]),
    };
    let (a, b) = (number(), number());
    if random.percent(20) {
        return (a, (a + random.below(40)).min(end));
    }
    (a.min(b), a.max(b))
}

fn drawn(driver: &mut Driver, random: &mut Random, n: u64, rounds: usize, calls: usize) {
    for round in 0..rounds {
        let bytes = memory(random, n, round % KINDS);
        let reading = Reading::of(n, &bytes);
        let put = driver.put(0, &bytes);
        for _ in 0..calls {
            let (a, b) = range(random, n);
            ask(driver, &reading, &put, n, bytes.len(), a, b);
        }
    }
}

/// Numbers that do not fit, alone and together: the order of the refusals.
fn refusals(driver: &mut Driver, random: &mut Random) {
    for n in [1, 2, 511, 512, 513] {
        for kind in [3, 5] {
            let mut bytes = memory(random, n, kind);
            let reading = Reading::of(n, &bytes);
            let length = bytes.len();
            bytes.push(0);
            let put = driver.put(0, &bytes);
            let end = 16 * n;
            let numbers = [0, 1, end, end + 1, 1 << 32, (1 << 32) + 1, 1 << 60, u64::MAX];
            for a in numbers {
                for b in numbers {
                    for length in [0, length - 64, length - 1, length, length + 1] {
                        ask(driver, &reading, &put, n, length, a, b);
                    }
                    for n in [0, 262_145, (1 << 32) + n, u64::MAX] {
                        ask(driver, &reading, &put, n, length, a, b);
                    }
                }
            }
        }
    }
}

/// A sweep, as docs/sweep.c has it, visits every tagged group.
fn sweep(driver: &mut Driver, random: &mut Random, n: u64, kind: usize) {
    let bytes = memory(random, n, kind);
    let reading = Reading::of(n, &bytes);
    let put = driver.put(0, &bytes);
    let tagged = (0..16 * n).filter(|&g| reading.groups[g as usize] != 0);
    let mut from = 0;
    for g in tagged.chain([NONE]) {
        let arguments = vec![Number(n), Read(put.clone()), Number(from), Number(16 * n)];
        driver.call(FIRST_AS_TRUE, arguments, g, vec![]);
        from = g + 1;
    }
}

fn main() {
    let words: Vec<String> = std::env::args().collect();
    let Some(program) = words.get(1) else {
        println!("tagged DRIVER [SEED]");
        std::process::exit(2)
    };
    let seed = words.get(2).map_or(1, |word| word.parse().expect("the seed is a number"));
    let mut driver = Driver::start("tagged", program);
    let mut random = Random(seed);
    every(&mut driver, &mut random, 1, 10 * KINDS);
    every(&mut driver, &mut random, 2, 2 * KINDS);
    every(&mut driver, &mut random, 9, KINDS);
    every(&mut driver, &mut random, 17, 4);
    println!("tagged: {} checks of every A and B, seed {seed}", driver.checks);
    for n in [8, 16, 511, 512, 513, 800] {
        drawn(&mut driver, &mut random, n, 2 * KINDS, 500);
    }
    drawn(&mut driver, &mut random, 262_144, KINDS, 60);
    refusals(&mut driver, &mut random);
    for kind in 0..KINDS {
        sweep(&mut driver, &mut random, 513, kind);
    }
    sweep(&mut driver, &mut random, 262_144, 1);
    println!("tagged: {} checks", driver.finish());
}
