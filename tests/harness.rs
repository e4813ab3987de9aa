//! The cache's and the archive's calls in libmodel.a against the model. After each call its
//! answer, the state's words and all that was lent are compared; of a memory of more than
//! 1,030 leaves every block that is or was in a line or belongs to the access, and all of it
//! every thousandth call and at the end. States come from runs from fresh and open, and are
//! drawn: whole, with one word changed, of any words. `harness DRIVER [SEED]`, in the root of
//! the repository, with the driver of `tests/harness_calls.c`; prints how often each call met
//! each of its refusals and ends with `harness: N calls`, status 1 on the first difference, or
//! where a refusal was met less than a thousand times.

mod bench;
mod driver;
mod image_calls;
mod met;
mod model;
mod states;
mod words;

use bench::{Bench, Lengths, FRESH, MORE, OPEN};
use driver::Driver;
use met::Met;
use model::draw::{true_memory, Random};
use model::{memory_length, Access};

impl Bench<'_> {
    /// The lengths of a call: mostly right, now and then one that is too short or too long.
    fn lengths(&self, random: &mut Random, other: usize) -> Lengths {
        let mut lengths = Lengths { other, ..self.right };
        if random.below(40) == 0 {
            let (length, more) = match random.below(4) {
                0 => (&mut lengths.state, 8),
                1 => (&mut lengths.bytes, MORE as u64),
                2 => (&mut lengths.memory, MORE as u64),
                _ => (&mut lengths.other, 1),
            };
            *length = match random.below(4) {
                0 => 0,
                1 => *length + random.below(more) as usize + 1,
                2 => length.saturating_sub(1),
                _ => random.below(*length as u64 + 1) as usize,
            };
        }
        lengths
    }

    /// A run of calls that are drawn, of other forms among them.
    fn any_run(&mut self, random: &mut Random, near: &[u64]) {
        let mut calls: Vec<u64> = vec![];
        for _ in 0..random.below(33) {
            let kind = if random.percent(5) { random.below(5) } else { random.pick(&[1, 1, 1, 2, 2, 2, 2, 2, 2, 2, 2, 2, 2, 3]) };
            let x = if random.percent(3) { random.pick(&[self.words[1], 8, 1 << 32, u64::MAX]) } else { random.below(self.words[1].clamp(1, 8)) };
            let g = if random.percent(3) { random.pick(&[16 * self.words[0], 1 << 32, (1 << 32) + near[0], u64::MAX]) } else { random.pick(near) };
            let v = random.pick(&[0, 0, 1, 0x0100_0000, u32::MAX as u64, 1 << 32]);
            calls.extend([kind, x, random.pick(&[0, 1, 1 << 40]), random.pick(&[0, 1, 2]), g, v]);
        }
        if random.percent(3) {
            calls.truncate(random.below(calls.len() as u64 + 1) as usize);
        }
        let lengths = self.lengths(random, calls.len());
        self.run(&calls, lengths);
    }

    /// A call that is drawn, on the state as it is: a group near those in hand.
    fn any(&mut self, random: &mut Random, near: &[u64]) {
        let n = self.words[0].clamp(1, 262_144);
        let x = match random.below(20) {
            0 => random.pick(&[self.words[1], 8, 64, 1 << 32, u64::MAX]),
            _ => random.below(self.words[1].clamp(1, 8)),
        };
        match random.below(100) {
            0..=24 => {
                let g = match random.below(40) {
                    0 => random.pick(&[16 * n, 16 * n + 5, u32::MAX as u64, 1 << 32, (1 << 32) + near[0], u64::MAX]),
                    1..=4 => random.below(16 * n),
                    _ => random.pick(near),
                };
                let any = random.next() as u32;
                let v = random.pick(&[0, 0, 1, 0x0100_0000, u32::MAX, any]);
                let wide = (random.pick(&[0, 0, 1, 2, 1 << 32, u64::MAX]), random.pick(&[0, 0, 1, 256, 1 << 63]), v);
                let access = Access { g, write: (wide.0 != 0).then_some(v), bottom_up: wide.1 != 0 };
                let lengths = self.lengths(random, 6);
                self.issue(x, access, wide, lengths);
            }
            25..=29 => self.any_run(random, near),
            30..=84 => {
                let lengths = self.lengths(random, 6);
                self.step(x, lengths);
            }
            85..=89 => {
                let lengths = self.lengths(random, 6);
                self.drain(lengths);
            }
            90..=95 => {
                let k = match random.below(8) {
                    0 => random.pick(&[n, n + 1, 1 << 32, u64::MAX, u64::MAX - 15]),
                    _ => random.pick(near) / 16,
                };
                let lengths = self.lengths(random, 6);
                self.show(k, lengths);
            }
            _ => {
                let mut lengths = self.lengths(random, 6);
                if random.below(8) == 0 {
                    lengths.state = random.below(words::STATE as u64 + 8) as usize;
                }
                self.whole(lengths);
            }
        }
    }
}

/// A few groups, in few leaves and map blocks.
fn near(random: &mut Random, n: u64) -> Vec<u64> {
    let leaves: Vec<u64> = (0..4).map(|_| random.below(n)).collect();
    (0..12)
        .map(|_| {
            let k = random.pick(&leaves);
            16 * k + random.below(16)
        })
        .collect()
}

/// A run: from fresh or open, calls that are drawn, each on what the one before left.
fn run(driver: &mut Driver, met: &mut Met, random: &mut Random, n: u64, calls: u64) {
    let t = 1 + random.below(8);
    let most = if random.percent(50) { 3 } else { 64 - t };
    let l = t + 1 + random.below(most);
    let parts = random.pick(&[0, 30, 100]);
    let memory = true_memory(random, n, parts);
    let mut any = vec![0; words::STATE];
    any.fill_with(|| random.next());
    let mut bench = Bench::of(driver, met, random, any, l, memory);
    let right = Lengths { other: 3, ..bench.right };
    let function = random.pick(&[FRESH, OPEN]);
    bench.begin(random, function, [n, t, l, 5], right);
    let mut close = near(random, n);
    for i in 0..calls {
        if i % 500 == 499 {
            close = near(random, n);
        }
        bench.any(random, &close);
    }
    // To rest, drained, and every leaf that was near shown.
    let right = bench.right;
    for _ in 0..40 * 8 {
        (0..t).for_each(|x| {
            if bench.words[words::place(x as usize)][0] != 0 {
                bench.step(x, right);
            }
        });
    }
    bench.drain(right);
    close.iter().for_each(|g| {
        bench.show(g / 16, right);
    });
    if bench.big() {
        bench.calls = 999;
        bench.whole(right);
    }
}

/// A state that is drawn, with any line bytes and any memory, and calls on it.
fn drawn(driver: &mut Driver, met: &mut Met, random: &mut Random, n: u64, calls: u64) {
    let close = near(random, n);
    let (words, l) = states::drawn(random, n, &close);
    let mut memory = vec![0; memory_length(n)];
    if random.percent(80) {
        random.fill(&mut memory);
    }
    let mut bench = Bench::of(driver, met, random, words, l, memory);
    (0..calls).for_each(|_| bench.any(random, &close));
}

/// Fresh and open on n, T and L in and out of their limits, on any memory, with other lengths.
fn begins(driver: &mut Driver, met: &mut Met, random: &mut Random, rounds: u64) {
    for _ in 0..rounds {
        let (n, t) = (1 + random.below(24), 1 + random.below(8));
        let l = t + 1 + random.below(64 - t);
        let mut memory = true_memory(random, n, 50);
        if random.percent(30) {
            random.fill(&mut memory);
        }
        let mut any = vec![0; words::STATE];
        any.fill_with(|| random.next());
        let mut bench = Bench::of(driver, met, random, any, l, memory);
        for _ in 0..4 {
            let mut device = [n, t, l, 5];
            if random.percent(30) {
                device[random.below(3) as usize] = random.pick(&[0, 1, 8, 9, 64, 65, t, 262_144, 262_145, (1 << 32) + 2, u64::MAX]);
            }
            let lengths = bench.lengths(random, 3);
            let function = random.pick(&[FRESH, OPEN]);
            bench.begin(random, function, device, lengths);
        }
    }
}

fn main() {
    let mut words = std::env::args().skip(1);
    let mut driver = Driver::start("harness", &words.next().expect("harness DRIVER [SEED]"));
    let mut random = Random(words.next().map_or(1, |word| word.parse().expect("a seed")));
    let mut met = Met::default();
    begins(&mut driver, &mut met, &mut random, 8_000);
    image_calls::calls(&mut driver, &mut met, &mut random);
    for n in [1, 2, 3, 8, 17, 31].into_iter().cycle().take(60) {
        run(&mut driver, &mut met, &mut random, n, 8_000);
    }
    for n in [511, 512, 513, 1023, 1024, 1025, 1030] {
        run(&mut driver, &mut met, &mut random, n, 3_000);
        (0..20).for_each(|_| drawn(&mut driver, &mut met, &mut random, n, 50));
    }
    for _ in 0..24_000 {
        let n = 1 + random.below(20);
        drawn(&mut driver, &mut met, &mut random, n, 20);
    }
    for n in [1_031, 5_000, 262_143, 262_144, 262_144] {
        run(&mut driver, &mut met, &mut random, n, 6_000);
        (0..2).for_each(|_| drawn(&mut driver, &mut met, &mut random, n, 1_000));
    }
    driver.finish();
    let often = met.print();
    println!("harness: {} calls", met.calls());
    if met.calls() < 1_000_000 || !often {
        std::process::exit(1);
    }
}
