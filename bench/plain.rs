//! Replay as a plain Rust program: the same step rules, the same output, the state behind
//! `&mut`, standard input read in chunks and output buffered. Nothing is proved here: it is
//! what the proved replay is timed against (`bench/replay.sh`), and its cache what the
//! library's calls are (`bench/calls.sh harness`).

use std::io::{self, Read, Write};

const BLOCK: usize = 64;
const CHUNK: usize = 65_536;
pub const FREE: u32 = u32::MAX;
pub const NOBODY: u8 = u8::MAX;

// ------------------------------------------------------------ The cache

/// A line's block by its place in memory (leaf k is k, map block m is n + m), and the
/// tracker that holds it.
#[derive(Clone, Copy)]
pub struct Line {
    pub block: u32,
    pub changed: bool,
    pub holder: u8,
}

const EMPTY: Line = Line { block: FREE, changed: false, holder: NOBODY };

#[derive(Clone, Copy, PartialEq)]
pub enum Phase {
    Idle,
    Probe,
    Map,
    Leaf,
    Set,
    Clear,
}

/// What an ending carries: its turns, blocks fetched and blocks written back.
#[derive(Clone, Copy)]
pub struct Sums {
    pub turns: u16,
    pub fetched: u8,
    pub back: u8,
}

const NONE: Sums = Sums { turns: 0, fetched: 0, back: 0 };

#[derive(Clone, Copy)]
pub struct Tracker {
    pub phase: Phase,
    pub write: bool,
    pub group: u32,
    pub value: u32,
    pub sums: Sums,
}

const REST: Tracker = Tracker { phase: Phase::Idle, write: false, group: 0, value: 0, sums: NONE };

pub enum Answer {
    Ok,
    Wait,
    Moved,
    Read(u32, Sums),
    Done(Sums),
    Same(Sums),
    No(u8),
}

pub struct Cache {
    pub n: u32,
    pub hand: usize,
    pub lines: Vec<Line>,
    pub trackers: Vec<Tracker>,
    pub bytes: Vec<u8>,
    pub memory: Vec<u8>,
}

impl Cache {
    pub fn fresh(n: u32, l: u32, t: u32) -> Cache {
        let (l, t) = (l as usize, t as usize);
        Cache {
            n,
            hand: 0,
            lines: vec![EMPTY; l],
            trackers: vec![REST; t],
            bytes: vec![0; BLOCK * l],
            memory: vec![0; BLOCK * (n + (n + 511) / 512) as usize],
        }
    }

    pub fn find(&self, block: u32) -> Option<usize> {
        self.lines.iter().position(|line| line.block == block)
    }

    fn line(&self, i: usize) -> &[u8; BLOCK] {
        self.bytes[BLOCK * i..][..BLOCK].try_into().unwrap()
    }

    fn line_mut(&mut self, i: usize) -> &mut [u8; BLOCK] {
        (&mut self.bytes[BLOCK * i..][..BLOCK]).try_into().unwrap()
    }

    fn write_back(&mut self, i: usize) {
        let at = BLOCK * self.lines[i].block as usize;
        self.memory[at..at + BLOCK].copy_from_slice(&self.bytes[BLOCK * i..][..BLOCK]);
    }

    fn place(&mut self, x: usize, block: u32) -> usize {
        let i = match self.find(FREE) {
            Some(i) => i,
            None => {
                let mut i = self.hand;
                while self.lines[i].holder != NOBODY {
                    i += 1;
                    if i == self.lines.len() {
                        i = 0;
                    }
                }
                if self.lines[i].changed {
                    self.write_back(i);
                    let sums = &mut self.trackers[x].sums;
                    sums.back = sums.back.saturating_add(1);
                }
                self.hand = if i + 1 == self.lines.len() { 0 } else { i + 1 };
                i
            }
        };
        self.lines[i] = Line { block, ..EMPTY };
        i
    }

    fn bring_in(&mut self, x: usize, block: u32) -> usize {
        if let Some(i) = self.find(block) {
            return i;
        }
        let i = self.place(x, block);
        let at = BLOCK * block as usize;
        self.bytes[BLOCK * i..][..BLOCK].copy_from_slice(&self.memory[at..at + BLOCK]);
        let sums = &mut self.trackers[x].sums;
        sums.fetched = sums.fetched.saturating_add(1);
        i
    }

    pub fn issue(&mut self, x: u32, group: u32, write: Option<u32>, bottom_up: bool) -> Answer {
        let Some(tracker) = self.trackers.get(x as usize) else {
            return Answer::No(5);
        };
        if group >= 16 * self.n {
            return Answer::No(6);
        }
        if tracker.phase != Phase::Idle {
            return Answer::No(7);
        }
        if self.trackers.iter().any(|other| {
            other.phase != Phase::Idle
                && other.group == group
                && (write.is_some() || other.write)
        }) {
            return Answer::No(13);
        }
        self.trackers[x as usize] = Tracker {
            phase: if bottom_up { Phase::Probe } else { Phase::Map },
            write: write.is_some(),
            group,
            value: write.unwrap_or(0),
            sums: NONE,
        };
        Answer::Ok
    }

    pub fn step(&mut self, x: u32) -> Answer {
        let x = x as usize;
        let Some(tracker) = self.trackers.get_mut(x) else {
            return Answer::No(5);
        };
        if tracker.phase == Phase::Idle {
            return Answer::No(8);
        }
        tracker.sums.turns = tracker.sums.turns.saturating_add(1);
        let tracker = *tracker;
        match tracker.phase {
            Phase::Probe => self.probe(x, tracker),
            Phase::Map => self.map(x, tracker),
            Phase::Leaf if tracker.write => self.leaf_write(x, tracker),
            Phase::Leaf => self.leaf_read(x, tracker),
            _ => self.finish(x, tracker),
        }
    }

    fn on(&mut self, x: usize, phase: Phase) -> Answer {
        self.trackers[x].phase = phase;
        Answer::Moved
    }

    fn end(&mut self, x: usize, answer: impl FnOnce(Sums) -> Answer) -> Answer {
        answer(std::mem::replace(&mut self.trackers[x], REST).sums)
    }

    fn let_go(&mut self, x: usize, map: usize, answer: impl FnOnce(Sums) -> Answer) -> Answer {
        self.lines[map].holder = NOBODY;
        self.end(x, answer)
    }

    fn probe(&mut self, x: usize, tracker: Tracker) -> Answer {
        if let Some(i) = self.find(tracker.leaf()) {
            let old = group_in(self.line(i), tracker.group);
            if !tracker.write {
                return self.end(x, |sums| Answer::Read(old, sums));
            }
            if old == tracker.value {
                return self.end(x, Answer::Same);
            }
        }
        self.on(x, Phase::Map)
    }

    fn map_block(&self, tracker: Tracker) -> u32 {
        self.n + tracker.leaf() / 512
    }

    /// The line of the map block that a tracker at Leaf or Finish holds.
    fn held_line(&self, tracker: Tracker) -> usize {
        self.find(self.map_block(tracker)).unwrap()
    }

    fn map(&mut self, x: usize, tracker: Tracker) -> Answer {
        let i = self.bring_in(x, self.map_block(tracker));
        if self.lines[i].holder != NOBODY {
            return Answer::Wait;
        }
        if !bit_in(self.line(i), tracker.leaf()) {
            if !tracker.write {
                return self.end(x, |sums| Answer::Read(0, sums));
            }
            if tracker.value == 0 {
                return self.end(x, Answer::Same);
            }
        }
        self.lines[i].holder = x as u8;
        self.on(x, Phase::Leaf)
    }

    fn leaf_read(&mut self, x: usize, tracker: Tracker) -> Answer {
        let i = self.bring_in(x, tracker.leaf());
        let value = group_in(self.line(i), tracker.group);
        let map = self.held_line(tracker);
        self.let_go(x, map, |sums| Answer::Read(value, sums))
    }

    fn leaf_write(&mut self, x: usize, tracker: Tracker) -> Answer {
        let map = self.held_line(tracker);
        if !bit_in(self.line(map), tracker.leaf()) {
            if tracker.value == 0 {
                return self.let_go(x, map, Answer::Same);
            }
            let i = match self.find(tracker.leaf()) {
                Some(i) => i,
                None => self.place(x, tracker.leaf()),
            };
            let leaf = self.line_mut(i);
            *leaf = [0; BLOCK];
            put_group(leaf, tracker.group, tracker.value);
            self.lines[i].changed = true;
            return self.on(x, Phase::Set);
        }
        let i = self.bring_in(x, tracker.leaf());
        let leaf = self.line_mut(i);
        if group_in(leaf, tracker.group) == tracker.value {
            return self.let_go(x, map, Answer::Same);
        }
        put_group(leaf, tracker.group, tracker.value);
        if *leaf == [0; BLOCK] {
            self.lines[i] = EMPTY;
            return self.on(x, Phase::Clear);
        }
        self.lines[i].changed = true;
        self.let_go(x, map, Answer::Done)
    }

    fn finish(&mut self, x: usize, tracker: Tracker) -> Answer {
        let map = self.held_line(tracker);
        let k = tracker.leaf();
        let byte = &mut self.line_mut(map)[(k % 512 / 8) as usize];
        if tracker.phase == Phase::Set {
            *byte |= 1 << (k % 8);
        } else {
            *byte &= !(1 << (k % 8));
        }
        self.lines[map].changed = true;
        self.let_go(x, map, Answer::Done)
    }

    fn drain(&mut self) -> Answer {
        if self.trackers.iter().any(|tracker| tracker.phase != Phase::Idle) {
            return Answer::No(7);
        }
        for i in 0..self.lines.len() {
            if self.lines[i].changed {
                self.write_back(i);
                self.lines[i].changed = false;
            }
        }
        Answer::Ok
    }
}

impl Tracker {
    fn leaf(&self) -> u32 {
        self.group / 16
    }
}

fn group_in(leaf: &[u8; BLOCK], g: u32) -> u32 {
    let at = 4 * (g % 16) as usize;
    u32::from_le_bytes(leaf[at..at + 4].try_into().unwrap())
}

fn put_group(leaf: &mut [u8; BLOCK], g: u32, v: u32) {
    let at = 4 * (g % 16) as usize;
    leaf[at..at + 4].copy_from_slice(&v.to_le_bytes());
}

fn bit_in(map: &[u8; BLOCK], k: u32) -> bool {
    map[(k % 512 / 8) as usize] >> (k % 8) & 1 == 1
}

// ------------------------------------------------------------ The script

/// A line of the script, read from left to right.
struct Text<'a> {
    line: &'a [u8],
    at: usize,
}

impl Text<'_> {
    /// A space and a number of 1 to 9 digits.
    fn number(&mut self) -> Option<u32> {
        self.space()?;
        let begin = self.at;
        let mut number = 0;
        while let Some(digit) = self.line.get(self.at).map(|b| b.wrapping_sub(b'0')) {
            if digit > 9 || self.at - begin == 9 {
                break;
            }
            number = 10 * number + digit as u32;
            self.at += 1;
        }
        (self.at > begin).then_some(number)
    }

    /// A space and 8 lower-case hex digits.
    fn value(&mut self) -> Option<u32> {
        self.space()?;
        let digits = self.line.get(self.at..self.at + 8)?;
        self.at += 8;
        let mut value = 0;
        for b in digits {
            let digit = match b {
                b'0'..=b'9' => b - b'0',
                b'a'..=b'f' => b - b'a' + 10,
                _ => return None,
            };
            value = value << 4 | digit as u32;
        }
        Some(value)
    }

    /// A space and `t` or `b`: is it bottom-up?
    fn order(&mut self) -> Option<bool> {
        self.space()?;
        self.at += 1;
        match self.line.get(self.at - 1)? {
            b't' => Some(false),
            b'b' => Some(true),
            _ => None,
        }
    }

    fn space(&mut self) -> Option<()> {
        self.at += 1;
        (self.line.get(self.at - 1) == Some(&b' ')).then_some(())
    }

    fn end(&self) -> Option<()> {
        (self.at == self.line.len()).then_some(())
    }
}

/// A replay under way, and its output.
struct Replay {
    count: u64,
    cache: Option<Cache>,
    output: Vec<u8>,
}

impl Replay {
    fn line(&mut self, line: &[u8]) -> io::Result<()> {
        self.count += 1;
        let answer = self.answer(line).unwrap_or(Answer::No(12));
        self.say(answer);
        if self.output.len() > CHUNK - BLOCK {
            self.flush()?;
        }
        Ok(())
    }

    fn answer(&mut self, line: &[u8]) -> Option<Answer> {
        let mut text = Text { line, at: 1 };
        if self.count == 1 {
            if *line.first()? != b'n' {
                return None;
            }
            let (n, l, t) = (text.number()?, text.number()?, text.number()?);
            text.end()?;
            if !(1..=800).contains(&n) || !(1..=8).contains(&t) || !(t + 1..=64).contains(&l) {
                return Some(Answer::No(1));
            }
            self.cache = Some(Cache::fresh(n, l, t));
            return Some(Answer::Ok);
        }
        let cache = self.cache.as_mut()?;
        Some(match line.first()? {
            b's' => {
                let x = text.number()?;
                text.end()?;
                cache.step(x)
            }
            b'r' => {
                let (x, g, order) = (text.number()?, text.number()?, text.order()?);
                text.end()?;
                cache.issue(x, g, None, order)
            }
            b'w' => {
                let (x, g, v, order) =
                    (text.number()?, text.number()?, text.value()?, text.order()?);
                text.end()?;
                cache.issue(x, g, Some(v), order)
            }
            b'd' => {
                text.end()?;
                cache.drain()
            }
            _ => return None,
        })
    }

    fn say(&mut self, answer: Answer) {
        self.number(self.count);
        match answer {
            Answer::Ok => self.output.extend_from_slice(b" ok"),
            Answer::Wait => self.output.extend_from_slice(b" wait"),
            Answer::Moved => self.output.extend_from_slice(b" moved"),
            Answer::Read(v, sums) => {
                self.output.extend_from_slice(b" read ");
                for digit in (0..8).rev() {
                    self.output.push(b"0123456789abcdef"[(v >> (4 * digit) & 15) as usize]);
                }
                self.sums(sums);
            }
            Answer::Done(sums) => {
                self.output.extend_from_slice(b" done");
                self.sums(sums);
            }
            Answer::Same(sums) => {
                self.output.extend_from_slice(b" same");
                self.sums(sums);
            }
            Answer::No(refusal) => {
                self.output.extend_from_slice(b" no ");
                self.number(refusal as u64);
            }
        }
        self.output.push(b'\n');
    }

    fn sums(&mut self, sums: Sums) {
        self.output.extend_from_slice(b" turns ");
        self.number(sums.turns as u64);
        self.output.extend_from_slice(b" in ");
        self.number(sums.fetched as u64);
        self.output.extend_from_slice(b" out ");
        self.number(sums.back as u64);
    }

    fn number(&mut self, mut number: u64) {
        let mut digits = [0; 20];
        let mut at = 20;
        loop {
            at -= 1;
            digits[at] = b'0' + (number % 10) as u8;
            number /= 10;
            if number == 0 {
                break;
            }
        }
        self.output.extend_from_slice(&digits[at..]);
    }

    fn flush(&mut self) -> io::Result<()> {
        io::stdout().lock().write_all(&self.output)?;
        self.output.clear();
        Ok(())
    }
}

fn main() -> io::Result<()> {
    let mut input = io::stdin().lock();
    let mut replay = Replay { count: 0, cache: None, output: Vec::with_capacity(CHUNK) };
    let mut chunk = vec![0; CHUNK];
    let mut filled = 0;
    loop {
        // A line that fills the whole chunk is refused whatever follows: keep its front.
        if filled == CHUNK {
            filled = CHUNK / 2;
        }
        let got = input.read(&mut chunk[filled..])?;
        if got == 0 {
            break;
        }
        let mut begin = 0;
        let mut from = filled;
        filled += got;
        while let Some(length) = chunk[from..filled].iter().position(|&b| b == b'\n') {
            replay.line(&chunk[begin..from + length])?;
            from += length + 1;
            begin = from;
        }
        chunk.copy_within(begin..filled, 0);
        filled -= begin;
    }
    if filled > 0 {
        replay.line(&chunk[..filled])?;
    }
    replay.flush()
}
