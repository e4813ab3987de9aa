//! States for `tests/harness.rs`, as words: whole, with one word changed, of any words.

use crate::model::draw::Random;
use crate::model::{leaf_of, map_blocks, map_of};
use crate::words::{place, LINES, STATE};

/// A state over n leaves, with trackers at groups near by, and the number of its lines.
pub fn drawn(random: &mut Random, n: u64, near: &[u64]) -> (Vec<u64>, u64) {
    let (mut words, l) = whole(random, n, near);
    match random.below(10) {
        0..=5 => {}
        6..=8 => change(random, &mut words),
        _ if random.percent(50) => words.fill_with(|| random.next() >> random.below(64)),
        _ => words.fill_with(|| random.below(9)),
    }
    (words, l)
}

/// A whole state: of the trackers some are idle with anything in their fields; a held map
/// block has a line that names its holder.
fn whole(random: &mut Random, n: u64, near: &[u64]) -> (Vec<u64>, u64) {
    let t = 1 + random.below(8);
    let most = if random.percent(60) { 3 } else { 64 - t };
    let l = t + 1 + random.below(most);
    let mut words = vec![0; STATE];
    words[..LINES].copy_from_slice(&[n, t, l, random.below(l)]);
    // Blocks that are to be in a line, each with 1 plus its holder.
    let mut blocks: Vec<(u64, u64)> = vec![];
    for x in 0..8 {
        let any = [
            random.below(2),
            random.below(2),
            random.next() >> 32,
            random.next() >> 32,
            random.pick(&[0, 1, 65_534, 65_535]),
            random.pick(&[0, 1, 254, 255]),
            random.pick(&[0, 1, 254, 255]),
        ];
        let eight = &mut words[place(x)];
        if x as u64 >= t || random.percent(35) {
            if random.percent(30) {
                eight[1..].copy_from_slice(&any);
            }
            continue;
        }
        let g = if random.percent(80) { random.pick(near) } else { random.below(16 * n) };
        let map = n + map_of(leaf_of(g));
        let mut phase = 1 + random.below(5);
        if phase > 2 {
            if blocks.iter().any(|block| block.0 == map) {
                phase = 2;
            } else {
                blocks.push((map, x as u64 + 1));
            }
        }
        eight[1..].copy_from_slice(&any);
        eight[0] = phase;
        eight[3] = g;
        match phase {
            1 => eight[2] = 1,
            4 | 5 => eight[1] = 1,
            _ => {}
        }
        if random.percent(30) {
            eight[4] = 0;
        }
    }
    // Others: those of groups near by, and any.
    let all = n + map_blocks(n);
    for _ in 0..random.below(2 * l) {
        let block = match random.below(4) {
            0 => random.below(all),
            1 => n + map_of(leaf_of(random.pick(near))),
            _ => leaf_of(random.pick(near)),
        };
        if blocks.len() < l as usize && blocks.iter().all(|other| other.0 != block) {
            blocks.push((block, 0));
        }
    }
    // In any lines of the l.
    let mut lines: Vec<u64> = (0..l).collect();
    for (block, holder) in blocks {
        let i = lines.swap_remove(random.below(lines.len() as u64) as usize);
        words[LINES + i as usize] = 1 + random.below(2) + 2 * holder + 256 * block;
    }
    (words, l)
}

/// One word made another.
fn change(random: &mut Random, words: &mut [u64]) {
    let i = match random.below(3) {
        0 => random.below(LINES as u64) as usize,
        1 => random.below(STATE as u64) as usize,
        // A word that is not 0.
        _ => (0..200).map(|_| random.below(STATE as u64) as usize).find(|&i| words[i] != 0).unwrap_or(0),
    };
    let old = words[i];
    let (narrow, wide, name) = (random.below(32), random.below(64), random.below(7));
    let other = words[random.below(STATE as u64) as usize];
    words[i] = random.pick(&[
        0,
        1,
        2,
        3,
        5,
        6,
        64,
        old.wrapping_add(1),
        old.wrapping_sub(1),
        old ^ 1 << wide,
        old ^ 1 << narrow,
        old.wrapping_add(2 << name),
        old.wrapping_add(256),
        other,
        65_535,
        65_536,
        u32::MAX as u64,
        1 << 32,
        old | 1 << 32,
        u64::MAX,
    ]);
}
