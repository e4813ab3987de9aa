//! `make L [STEPS]` prints a script for `bench/replay.sh`: 800 leaves, 8 trackers, L lines,
//! STEPS steps (default 1,000,000) of busy trackers with the issues that they need. From 1
//! to 8 trackers are busy at a time, for a thousand steps each; half of the accesses are
//! writes, a third of those of zero; half of the groups lie in 24 leaves.

#[path = "../tests/model/mod.rs"]
mod model;

use model::draw::Random;
use std::io::Write;

const LEAVES: u64 = 800;
const TRACKERS: u64 = 8;

fn access(random: &mut Random, x: u64) -> String {
    let leaf = if random.percent(50) { 33 * random.below(24) } else { random.below(LEAVES) };
    let g = 16 * leaf + random.below(16);
    let order = random.pick(&["t", "b"]);
    let value = if random.percent(33) { 0 } else { random.next() as u32 };
    match random.percent(50) {
        true => format!("r {x} {g} {order}"),
        false => format!("w {x} {g} {value:08x} {order}"),
    }
}

fn main() {
    let words: Vec<String> = std::env::args().collect();
    let number = |i: usize| words.get(i).map(|word| word.parse::<u64>().expect("a number"));
    let l = number(1).expect("make L [STEPS]");
    let steps = number(2).unwrap_or(1_000_000);
    let mut random = Random(l);
    let mut replay = model::Replay::new();
    let mut output = std::io::BufWriter::new(std::io::stdout().lock());
    let mut say = |replay: &mut model::Replay, line: String| {
        replay.line(line.as_bytes());
        writeln!(output, "{line}").unwrap();
    };
    say(&mut replay, format!("n {LEAVES} {l} {TRACKERS}"));
    let mut given = 0;
    while given < steps {
        let wanted = 1 + (given / 1000) as usize % TRACKERS as usize;
        let trackers = &replay.machine.as_ref().expect("L is in its limits").trackers;
        let x = random.below(TRACKERS);
        if trackers[x as usize].busy() {
            say(&mut replay, format!("s {x}"));
            given += 1;
        } else if trackers.iter().filter(|tracker| tracker.busy()).count() < wanted {
            say(&mut replay, access(&mut random, x));
        }
    }
}
