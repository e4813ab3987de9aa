//! The words of a state, as `include/tag_model.h` has them, and the model's machine that
//! they say. Written from that page, not from the library.

use crate::model::{
    in_limits, leaf_of, map_of, Access, Answer, Block, Line, Machine, Phase, Tracker, Transfers,
};

/// n, T, L and the hand; 64 lines; 8 trackers of 8 words.
pub const STATE: usize = LINES + 64 + 8 * TRACKER;
pub const LINES: usize = 4;
pub const TRACKERS: usize = LINES + 64;
pub const TRACKER: usize = 8;

const PHASES: [Phase; 5] =
    [Phase::Probe, Phase::Map, Phase::Leaf, Phase::FinishSet, Phase::FinishClear];

/// The words of tracker x.
pub fn place(x: usize) -> std::ops::Range<usize> {
    TRACKERS + TRACKER * x..TRACKERS + TRACKER * (x + 1)
}

/// The map block that a tracker holds: its own group's, at Leaf and at Finish.
pub fn holds(tracker: Tracker) -> Option<Block> {
    match tracker {
        Tracker::Busy { access, phase, .. } if phase != Phase::Probe && phase != Phase::Map => {
            Some(Block::Map(map_of(leaf_of(access.g))))
        }
        _ => None,
    }
}

/// The word of a line: its block, changed or not, and 1 plus the tracker that holds it.
fn line_word(n: u64, line: Line, trackers: &[Tracker]) -> u64 {
    let (block, changed) = match line {
        Line::Free => return 0,
        Line::Clean(block) => (block, 0),
        Line::Changed(block) => (block, 1),
    };
    let number = match block {
        Block::Leaf(k) => k,
        Block::Map(m) => n + m,
    };
    let holder = trackers.iter().position(|&t| holds(t) == Some(block)).map_or(0, |x| x as u64 + 1);
    1 + changed + 2 * holder + 256 * number
}

/// A line, and 1 plus the tracker that its word names.
fn line_of(n: u64, word: u64) -> (Line, usize) {
    if word == 0 {
        return (Line::Free, 0);
    }
    let (number, holder) = ((word - 1) / 256, (word - 1) / 2 % 128);
    let block = if number < n { Block::Leaf(number) } else { Block::Map(number - n) };
    (if (word - 1) % 2 == 1 { Line::Changed(block) } else { Line::Clean(block) }, holder as usize)
}

/// A tracker; none if a word is too wide for its field.
fn tracker_of(words: &[u64]) -> Option<Tracker> {
    let [phase, write, bottom, g, v, turns, fetched, back] = words.try_into().unwrap();
    let wide = g >> 32 != 0 || v >> 32 != 0 || turns >> 16 != 0 || fetched >> 8 != 0 || back >> 8 != 0;
    if phase > 5 || write > 1 || bottom > 1 || wide {
        return None;
    }
    if phase == 0 {
        return Some(Tracker::Idle);
    }
    let write = if write == 1 { Some(v as u32) } else { None };
    let access = Access { g, write, bottom_up: bottom == 1 };
    Some(Tracker::Busy { access, phase: PHASES[phase as usize - 1], turns: turns as u16, transfers: Transfers { fetched: fetched as u8, back: back as u8 } })
}

/// The machine, if the words code a whole state: the model finds it whole, what is not used
/// is free and idle, and each line names the tracker that holds its block.
pub fn machine(words: &[u64]) -> Option<Machine> {
    let (n, t, l, hand) = (words[0], words[1], words[2], words[3]);
    let mut trackers = vec![];
    for x in 0..8 {
        let tracker = tracker_of(&words[place(x)])?;
        if x as u64 >= t && tracker.busy() {
            return None;
        }
        trackers.push(tracker);
    }
    if words[LINES..TRACKERS].iter().any(|word| word >> 32 != 0) || !in_limits(n, t, l) || hand >= l {
        return None;
    }
    trackers.truncate(t as usize);
    let (used, unused) = words[LINES..TRACKERS].split_at(l as usize);
    let named: Vec<(Line, usize)> = used.iter().map(|&word| line_of(n, word)).collect();
    let lines = named.iter().map(|named| named.0).collect();
    let machine = Machine { n, t, l, hand: hand as usize, lines, trackers };
    let right = |&(line, name): &(Line, usize)| match line {
        Line::Free => true,
        Line::Clean(block) | Line::Changed(block) => {
            let holders = machine.trackers.iter().enumerate().filter(|(_, &y)| holds(y) == Some(block));
            holders.map(|(y, _)| y + 1).collect::<Vec<_>>() == if name == 0 { vec![] } else { vec![name] }
        }
    };
    let whole = unused.iter().all(|&word| word == 0) && machine.whole() && named.iter().all(right);
    whole.then_some(machine)
}

/// The words of a machine that was made of `old` and then called once: an idle tracker's
/// fields stay, as do an access's own; one that ended is zero throughout.
pub fn after(old: &[u64], machine: &Machine) -> Vec<u64> {
    let mut words = old.to_vec();
    words[..LINES].copy_from_slice(&[machine.n, machine.t, machine.l, machine.hand as u64]);
    for (i, &line) in machine.lines.iter().enumerate() {
        words[LINES + i] = line_word(machine.n, line, &machine.trackers);
    }
    for (x, &tracker) in machine.trackers.iter().enumerate() {
        let eight = &mut words[place(x)];
        match tracker {
            Tracker::Idle if eight[0] != 0 => eight.fill(0),
            Tracker::Idle => {}
            Tracker::Busy { access, phase, turns, transfers } => {
                let number = 1 + PHASES.iter().position(|&one| one == phase).unwrap() as u64;
                if eight[0] == 0 {
                    let (write, v) = (access.write.is_some(), access.write.unwrap_or(0));
                    eight[1..5].copy_from_slice(&[write as u64, access.bottom_up as u64, access.g, v as u64]);
                }
                eight[0] = number;
                eight[5..].copy_from_slice(&[turns as u64, transfers.fetched as u64, transfers.back as u64]);
            }
        }
    }
    words
}

/// The words of a state as fresh and open leave it; of the zero state where n, T and L are 0.
pub fn begun(n: u64, t: u64, l: u64) -> Vec<u64> {
    let mut words = vec![0; STATE];
    words[..3].copy_from_slice(&[n, t, l]);
    words
}

/// The words of an answer.
pub const ANSWER: usize = 6;

/// An ending's words: what was said, the value, the turns, the blocks fetched and written back.
fn ending(said: u64, v: u32, turns: u16, t: Transfers) -> [u64; ANSWER] {
    [said, v as u64, turns as u64, t.fetched as u64, t.back as u64, 0]
}

/// What was said, as words; a refusal is the number that its call gives.
pub fn answer(said: Result<Answer, u64>) -> [u64; ANSWER] {
    match said {
        Ok(Answer::Ok) => [0; ANSWER],
        Ok(Answer::Wait) => [1, 0, 0, 0, 0, 0],
        Ok(Answer::Moved) => [2, 0, 0, 0, 0, 0],
        Ok(Answer::Read(v, turns, t)) => ending(3, v, turns, t),
        Ok(Answer::Done(turns, t)) => ending(4, 0, turns, t),
        Ok(Answer::Same(turns, t)) => ending(5, 0, turns, t),
        Ok(Answer::Drained(back)) => [0, 0, 0, 0, back as u64, 0],
        Ok(Answer::No(no)) | Err(no) => [(1 << 32) + no, 0, 0, 0, 0, 0],
    }
}

pub fn bytes(words: &[u64]) -> Vec<u8> {
    words.iter().flat_map(|word| word.to_le_bytes()).collect()
}
