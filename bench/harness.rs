//! Nanoseconds of a call of libmodel.a on a cache beside the plain Rust cache of
//! `bench/plain.rs`, call by call and in runs of a thousand; with a test of the whole state before each call, as the library has, and
//! without. `bench/calls.sh harness [ROUNDS]` builds and runs it (default 5): the same million calls
//! by each, one after the other, the best times count.

#[path = "plain.rs"]
#[allow(dead_code)]
mod plain;

use plain::{Answer, Cache, Phase, FREE, NOBODY};
use std::time::Instant;

const STATE: usize = 132;
const LEAVES: u32 = 800;
const TRACKERS: u32 = 8;
const CALLS: usize = 1_000_000;

extern "C" {
    fn tag_fresh(device: *const u64, device_words: usize, state: *mut u64, words: usize, bytes: *const u8, bytes_length: usize, memory: *mut u8, memory_length: usize) -> u64;
    fn tag_issue(state: *mut u64, words: usize, bytes: *const u8, bytes_length: usize, memory: *const u8, memory_length: usize, x: u64, write: u64, bottom: u64, g: u64, v: u32) -> u64;
    fn tag_run(state: *mut u64, words: usize, bytes: *mut u8, bytes_length: usize, memory: *mut u8, memory_length: usize, calls: *const u64, calls_words: usize, answers: *mut u64, answers_words: usize) -> u64;
    fn tag_step(state: *mut u64, words: usize, bytes: *mut u8, bytes_length: usize, memory: *mut u8, memory_length: usize, x: u64, answer: *mut u64, answer_words: usize) -> u64;
}

#[derive(Clone, Copy)]
enum Call {
    Issue { x: u32, g: u32, write: Option<u32>, bottom: bool },
    Step { x: u32 },
}

/// A state is whole, by the library's clauses on this cache's lines and trackers.
fn whole(cache: &Cache) -> bool {
    let blocks = cache.n + (cache.n + 511) / 512;
    let map = |g: u32| cache.n + g / 16 / 512;
    let holds = |x: usize, block: u32| {
        let tracker = &cache.trackers[x];
        matches!(tracker.phase, Phase::Leaf | Phase::Set | Phase::Clear) && map(tracker.group) == block
    };
    (1..=262_144).contains(&cache.n)
        && (1..=8).contains(&cache.trackers.len())
        && cache.lines.len() > cache.trackers.len()
        && cache.lines.len() <= 64
        && cache.hand < cache.lines.len()
        && cache.lines.iter().enumerate().all(|(i, line)| {
            line.block == FREE
                || line.block < blocks
                    && cache.find(line.block) == Some(i)
                    && (line.holder == NOBODY || (line.holder as usize) < cache.trackers.len() && holds(line.holder as usize, line.block))
        })
        && cache.trackers.iter().enumerate().all(|(x, tracker)| {
            tracker.phase == Phase::Idle
                || tracker.group < 16 * cache.n
                    && match tracker.phase {
                        Phase::Set | Phase::Clear => tracker.write,
                        _ => true,
                    }
                    && (matches!(tracker.phase, Phase::Probe | Phase::Map)
                        || cache.find(map(tracker.group)).is_some_and(|i| cache.lines[i].holder as usize == x))
        })
}

fn does(cache: &mut Cache, call: Call) -> Answer {
    match call {
        Call::Issue { x, g, write, bottom } => cache.issue(x, g, write, bottom),
        Call::Step { x } => cache.step(x),
    }
}

/// Calls that are mostly accepted: a busy tracker is stepped, an idle one has an issue.
fn drawn(l: u32) -> Vec<Call> {
    let mut cache = Cache::fresh(LEAVES, l, TRACKERS);
    let mut seed = 1u64;
    let mut draw = move |end: u32| {
        seed = seed.wrapping_mul(6_364_136_223_846_793_005).wrapping_add(1_442_695_040_888_963_407);
        (seed >> 33) as u32 % end
    };
    (0..CALLS)
        .map(|_| {
            let x = draw(TRACKERS);
            let call = if cache.trackers[x as usize].phase != Phase::Idle {
                Call::Step { x }
            } else {
                let write = (draw(2) == 0).then(|| draw(3));
                Call::Issue { x, g: draw(16 * LEAVES), write, bottom: draw(2) == 0 }
            };
            does(&mut cache, call);
            call
        })
        .collect()
}

/// Seconds of all calls by plain Rust, and the turns that its endings said.
fn by_plain(calls: &[Call], l: u32, tested: bool) -> (f64, u64) {
    let mut cache = Cache::fresh(LEAVES, l, TRACKERS);
    let (mut said, start) = (0, Instant::now());
    for &call in calls {
        if tested && !std::hint::black_box(whole(&cache)) {
            break;
        }
        if let Answer::Read(_, sums) | Answer::Done(sums) | Answer::Same(sums) = does(&mut cache, call) {
            said += sums.turns as u64;
        }
    }
    (start.elapsed().as_secs_f64(), said)
}

fn by_library(calls: &[Call], l: u32) -> (f64, u64) {
    let device = [LEAVES as u64, TRACKERS as u64, l as u64];
    let (mut state, mut answer) = ([0u64; STATE], [0u64; 6]);
    let mut bytes = vec![0u8; 64 * l as usize];
    let mut memory = vec![0u8; 64 * (LEAVES + (LEAVES + 511) / 512) as usize];
    let (s, a, b, m) = (state.as_mut_ptr(), answer.as_mut_ptr(), bytes.as_mut_ptr(), memory.as_mut_ptr());
    let (bl, ml) = (bytes.len(), memory.len());
    let (mut said, start) = (0, Instant::now());
    // Pointers to what stands above, with its own lengths.
    unsafe {
        assert_eq!(tag_fresh(device.as_ptr(), 3, s, STATE, b, bl, m, ml), 0);
        for &call in calls {
            match call {
                Call::Issue { x, g, write, bottom } => {
                    tag_issue(s, STATE, b, bl, m, ml, x as u64, write.is_some() as u64, bottom as u64, g as u64, write.unwrap_or(0));
                }
                Call::Step { x } => {
                    if tag_step(s, STATE, b, bl, m, ml, x as u64, a, 6) == 0 && *a > 2 {
                        said += *a.add(2);
                    }
                }
            }
        }
    }
    (start.elapsed().as_secs_f64(), said)
}

/// The same by runs of a thousand calls.
fn by_runs(calls: &[Call], l: u32) -> (f64, u64) {
    let device = [LEAVES as u64, TRACKERS as u64, l as u64];
    let words: Vec<u64> = calls
        .iter()
        .flat_map(|&call| match call {
            Call::Issue { x, g, write, bottom } => [1, x as u64, write.is_some() as u64, bottom as u64, g as u64, write.unwrap_or(0) as u64],
            Call::Step { x } => [2, x as u64, 0, 0, 0, 0],
        })
        .collect();
    let (mut state, mut answers) = ([0u64; STATE], vec![0u64; 6 * 1000]);
    let mut bytes = vec![0u8; 64 * l as usize];
    let mut memory = vec![0u8; 64 * (LEAVES + (LEAVES + 511) / 512) as usize];
    let (s, b, m) = (state.as_mut_ptr(), bytes.as_mut_ptr(), memory.as_mut_ptr());
    let (bl, ml) = (bytes.len(), memory.len());
    let (mut said, start) = (0, Instant::now());
    // Pointers to what stands above, with its own lengths.
    unsafe {
        assert_eq!(tag_fresh(device.as_ptr(), 3, s, STATE, b, bl, m, ml), 0);
        for run in words.chunks(6 * 1000) {
            assert_eq!(tag_run(s, STATE, b, bl, m, ml, run.as_ptr(), run.len(), answers.as_mut_ptr(), run.len()), 0);
            said += answers[..run.len()].chunks(6).filter(|one| (3..=5).contains(&one[0])).map(|one| one[2]).sum::<u64>();
        }
    }
    (start.elapsed().as_secs_f64(), said)
}

fn main() {
    let rounds = std::env::args().nth(1).map_or(5, |word| word.parse().expect("ROUNDS"));
    for l in [9, 64] {
        let calls = drawn(l);
        let mut best = [f64::MAX; 4];
        for _ in 0..rounds {
            let told = [by_library(&calls, l), by_runs(&calls, l), by_plain(&calls, l, true), by_plain(&calls, l, false)];
            assert!(told.iter().all(|one| one.1 == told[0].1), "they answer differently");
            told.iter().zip(&mut best).for_each(|(one, best)| *best = best.min(one.0));
        }
        let [library, runs, tested, bare] = best.map(|seconds| seconds * 1e9 / CALLS as f64);
        println!(
            "L = {l}: a call of libmodel.a {library:.0} ns, in a run of a thousand {runs:.0} ns, plain Rust with the same test {tested:.0} ns, without it {bare:.0} ns; ratios {:.2}, {:.2}",
            library / tested,
            runs / bare
        );
    }
}
