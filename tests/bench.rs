//! What the library is lent beside what the model has of it, for `tests/harness.rs`: each call
//! is made by both, and its answer, the state's words and all that was lent are compared.

use crate::driver::Argument::{Change, Keep, Number, Read};
use crate::driver::{Argument, Driver, Function, Look, Slice};
use crate::met::{Met, REFUSED};
use crate::model::draw::Random;
use crate::model::{map_of, memory_length, own_place, Access, Answer, Block, Line, Machine, BLOCK};
use crate::words;

pub const FRESH: Function = Function(0, "tag_fresh");
pub const OPEN: Function = Function(1, "tag_open");
const ISSUE: Function = Function(2, "tag_issue");
const STEP: Function = Function(3, "tag_step");
const DRAIN: Function = Function(4, "tag_drain");
const SHOW: Function = Function(5, "tag_show");
const WHOLE: Function = Function(6, "tag_whole");
const RUN: Function = Function(10, "tag_run");

const IN_MEMORY: u64 = 1 << 40;
/// Up to so many leaves all of the memory is compared after every call.
const ALL: u64 = 1_030;

/// The number that a call gives: a refusal, a drain's write-backs, or 0.
fn number(said: Result<Answer, u64>) -> u64 {
    match said {
        Err(no) => REFUSED + no,
        Ok(Answer::Drained(back)) => back as u64,
        Ok(_) => 0,
    }
}

/// The lengths that a call lends: words of the state, line bytes, memory, and the words of the
/// device or of the answer.
#[derive(Clone, Copy)]
pub struct Lengths {
    pub state: usize,
    pub bytes: usize,
    pub memory: usize,
    pub other: usize,
}

/// What the library is lent, in slots of the driver, and what the model has of it. Each slot
/// has some more than is right, so that too much can be lent.
pub struct Bench<'a> {
    driver: &'a mut Driver,
    met: &'a mut Met,
    state: Slice,
    line_bytes: Slice,
    lent: Slice,
    answer: Slice,
    pub words: Vec<u64>,
    bytes: Vec<u8>,
    memory: Vec<u8>,
    said: Vec<u64>,
    pub right: Lengths,
    pub calls: u64,
}

pub const MORE: usize = 64;
/// The words of the answers of one run, at most.
const MOST_ANSWERS: usize = 6 * 40;

impl Bench<'_> {
    /// A state's words, with line bytes for l lines and a memory of n leaves.
    pub fn of<'a>(
        driver: &'a mut Driver,
        met: &'a mut Met,
        random: &mut Random,
        mut words: Vec<u64>,
        l: u64,
        mut memory: Vec<u8>,
    ) -> Bench<'a> {
        let right = Lengths { state: words::STATE, bytes: BLOCK * l as usize, memory: memory.len(), other: 6 };
        words.resize(words::STATE + MORE, 7);
        memory.resize(memory.len() + MORE, 0xdd);
        let (mut bytes, said) = (vec![0; right.bytes + MORE], vec![9; MOST_ANSWERS + MORE]);
        random.fill(&mut bytes);
        let state = driver.put(0, &words::bytes(&words));
        let line_bytes = driver.put(1, &bytes);
        let lent = driver.put(2, &memory);
        let answer = driver.put(3, &words::bytes(&said));
        Bench { driver, met, state, line_bytes, lent, answer, words, bytes, memory, said, right, calls: 0 }
    }

    pub fn big(&self) -> bool {
        self.right.memory > memory_length(ALL)
    }

    /// The machine that the words say, where their number is right: else the refusal.
    fn machine(&self, lengths: Lengths) -> Result<Machine, u64> {
        if lengths.state != words::STATE {
            return Err(2);
        }
        words::machine(&self.words[..words::STATE]).ok_or(4)
    }

    /// A memory that is lent to read or to change: a big one stays in the driver.
    fn memory(&self, length: usize, change: bool) -> Argument {
        let slice = self.lent.part(0..length);
        match (self.big(), change) {
            (true, _) => Keep(slice),
            (false, true) => Change(slice),
            (false, false) => Read(slice),
        }
    }

    /// One call by both; what is lent to change comes back, and of a big memory the blocks
    /// that the call has to do with.
    fn call(&mut self, function: Function, arguments: Vec<Argument>, value: u64, lengths: Lengths, blocks: Vec<Block>) {
        let mut looks: Vec<Look> = vec![];
        for (i, argument) in arguments.iter().enumerate() {
            if let Change(slice) = argument {
                let expected = match i {
                    _ if same(slice, &self.state) => words::bytes(&self.words[..lengths.state]),
                    _ if same(slice, &self.line_bytes) => self.bytes[..lengths.bytes].to_vec(),
                    _ if same(slice, &self.lent) => self.memory[..lengths.memory].to_vec(),
                    _ => words::bytes(&self.said[..lengths.other]),
                };
                looks.push((slice.clone(), expected));
            }
        }
        self.calls += 1;
        if self.big() {
            let n = self.words[0];
            // A state's own n may be any number: a place that is none is not looked at.
            let there = |range: &std::ops::Range<usize>| range.start < range.end && range.end <= self.right.memory;
            if self.calls % 1000 == 0 {
                looks.push((self.lent.clone(), self.memory.clone()));
            }
            for range in blocks.into_iter().map(|block| own_place(n, block)).filter(there) {
                looks.push((self.lent.part(range.clone()), self.memory[range].to_vec()));
            }
        }
        self.met.one(function, value);
        self.driver.call_and_look(function, arguments, value, looks);
    }

    pub fn begin(&mut self, random: &mut Random, function: Function, device: [u64; 4], lengths: Lengths) {
        let [n, t, l, _] = device;
        let slot = self.driver.put(4, &words::bytes(&device));
        let (bytes, memory) = (&self.bytes[..lengths.bytes], &mut self.memory[..lengths.memory]);
        let said = if lengths.other != 3 || lengths.state != words::STATE {
            Err(2)
        } else {
            let said = match function.0 {
                0 => Machine::fresh(n, t, l, bytes, memory),
                _ => Machine::open(n, t, l, bytes, memory),
            };
            let begun = if said.is_ok() { words::begun(n, t, l) } else { words::begun(0, 0, 0) };
            self.words[..words::STATE].copy_from_slice(&begun);
            said.map(|_| 0)
        };
        let value = said.unwrap_or_else(|no| REFUSED + no);
        let blocks = vec![Block::Leaf(random.below(n.clamp(1, 262_144))), Block::Map(0)];
        let arguments = vec![
            Read(slot.part(0..8 * lengths.other)),
            Change(self.state.part(0..8 * lengths.state)),
            Read(self.line_bytes.part(0..lengths.bytes)),
            self.memory(lengths.memory, function.0 == 0),
        ];
        self.call(function, arguments, value, lengths, blocks);
    }

    /// The group of tracker x.
    fn group_of(&self, x: u64) -> u64 {
        if x < 8 { self.words[words::place(x as usize)][3] } else { 0 }
    }

    /// The blocks in the lines, and those of an access.
    fn blocks(&self, g: u64) -> Vec<Block> {
        let mut blocks = vec![Block::Leaf(g / 16), Block::Map(map_of(g / 16))];
        if let Some(machine) = words::machine(&self.words[..words::STATE]) {
            for line in machine.lines {
                if let Line::Clean(block) | Line::Changed(block) = line {
                    blocks.push(block);
                }
            }
        }
        blocks
    }

    /// One call of the machine that the words say: refused, or the words are those that it leaves.
    fn made(
        &mut self,
        lengths: Lengths,
        call: impl FnOnce(&mut Machine, &mut [u8], &mut [u8]) -> Answer,
    ) -> Result<Answer, u64> {
        let mut machine = self.machine(lengths)?;
        match call(&mut machine, &mut self.bytes[..lengths.bytes], &mut self.memory[..lengths.memory]) {
            Answer::No(no) => Err(no),
            said => {
                let after = words::after(&self.words[..words::STATE], &machine);
                self.words[..words::STATE].copy_from_slice(&after);
                Ok(said)
            }
        }
    }

    pub fn issue(&mut self, x: u64, access: Access, wide: (u64, u64, u32), lengths: Lengths) {
        let said = self.made(lengths, |machine, bytes, memory| machine.issue(x, access, bytes, memory));
        let arguments = vec![
            Change(self.state.part(0..8 * lengths.state)),
            Read(self.line_bytes.part(0..lengths.bytes)),
            self.memory(lengths.memory, false),
            Number(x),
            Number(wide.0),
            Number(wide.1),
            Number(access.g),
            Number(wide.2 as u64),
        ];
        let blocks = self.blocks(access.g % (1 << 30));
        self.call(ISSUE, arguments, number(said), lengths, blocks);
    }

    pub fn step(&mut self, x: u64, lengths: Lengths) {
        let g = self.group_of(x);
        let mut blocks = self.blocks(g);
        let said = if lengths.state == words::STATE && lengths.other != words::ANSWER {
            Err(2)
        } else {
            self.made(lengths, |machine, bytes, memory| machine.step(x, bytes, memory))
        };
        if said.is_ok() {
            self.said[..words::ANSWER].copy_from_slice(&words::answer(said));
        }
        blocks.extend(self.blocks(g));
        let arguments = vec![
            Change(self.state.part(0..8 * lengths.state)),
            Change(self.line_bytes.part(0..lengths.bytes)),
            self.memory(lengths.memory, true),
            Number(x),
            Change(self.answer.part(0..8 * lengths.other)),
        ];
        self.call(STEP, arguments, number(said), lengths, blocks);
    }

    pub fn drain(&mut self, lengths: Lengths) {
        let said = self.made(lengths, |machine, bytes, memory| machine.drain(bytes, memory));
        let arguments = vec![
            Change(self.state.part(0..8 * lengths.state)),
            Read(self.line_bytes.part(0..lengths.bytes)),
            self.memory(lengths.memory, true),
        ];
        let blocks = self.blocks(0);
        self.call(DRAIN, arguments, number(said), lengths, blocks);
    }

    /// Calls, six words each, in one call: lengths.other is the number of the answers' words.
    pub fn run(&mut self, calls: &[u64], lengths: Lengths) {
        let fit = lengths.state == words::STATE && calls.len() % 6 == 0 && lengths.other == calls.len();
        let said = if !fit {
            Err(2)
        } else {
            self.machine(lengths).and_then(|machine| {
                let right = lengths.bytes == BLOCK * machine.l as usize && lengths.memory == memory_length(machine.n);
                if right { Ok(Answer::Ok) } else { Err(2) }
            })
        };
        let mut blocks = self.blocks(0);
        if said.is_ok() {
            for (i, one) in calls.chunks(6).enumerate() {
                let [kind, x, write, bottom, g, v] = one.try_into().unwrap();
                blocks.extend(self.blocks(if kind == 1 { g % (1 << 30) } else { self.group_of(x) }));
                let answer = self.made(lengths, |machine, bytes, memory| match kind {
                    1 if v >> 32 == 0 => {
                        let access = Access { g, write: (write != 0).then_some(v as u32), bottom_up: bottom != 0 };
                        machine.issue(x, access, bytes, memory)
                    }
                    2 => machine.step(x, bytes, memory),
                    3 => machine.drain(bytes, memory),
                    _ => Answer::No(12),
                });
                self.met.inside(answer.err());
                self.said[6 * i..6 * (i + 1)].copy_from_slice(&words::answer(answer));
            }
        }
        blocks.extend(self.blocks(0));
        let slot = self.driver.put(4, &words::bytes(calls));
        let arguments = vec![
            Change(self.state.part(0..8 * lengths.state)),
            Change(self.line_bytes.part(0..lengths.bytes)),
            self.memory(lengths.memory, true),
            Read(slot),
            Change(self.answer.part(0..8 * lengths.other)),
        ];
        self.call(RUN, arguments, number(said), lengths, blocks);
    }

    pub fn show(&mut self, k: u64, lengths: Lengths) {
        let (bytes, memory) = (&self.bytes[..lengths.bytes], &self.memory[..lengths.memory]);
        let value = match self.machine(lengths).map(|machine| {
            let place = |part: &[u8]| {
                let at = part.as_ptr() as usize;
                match at.wrapping_sub(bytes.as_ptr() as usize) {
                    line if line < bytes.len() => 1 + line as u64,
                    _ => IN_MEMORY + 1 + (at - memory.as_ptr() as usize) as u64,
                }
            };
            machine.show(k, bytes, memory).map(|part| if part.is_empty() { 0 } else { place(part) })
        }) {
            Err(no) | Ok(Err(no)) => REFUSED + no,
            Ok(Ok(value)) => value,
        };
        let arguments = vec![
            Read(self.state.part(0..8 * lengths.state)),
            Read(self.line_bytes.part(0..lengths.bytes)),
            self.memory(lengths.memory, false),
            Number(k),
        ];
        let blocks = self.blocks(16 * (k % (1 << 24)));
        self.call(SHOW, arguments, value, lengths, blocks);
    }

    pub fn whole(&mut self, lengths: Lengths) {
        let value = match self.machine(lengths) {
            Ok(_) => 1,
            Err(4) => 0,
            Err(no) => REFUSED + no,
        };
        let arguments = vec![Read(self.state.part(0..8 * lengths.state))];
        self.call(WHOLE, arguments, value, lengths, vec![]);
    }
}

/// Two slices of one slot.
fn same(part: &Slice, whole: &Slice) -> bool {
    part.slot() == whole.slot()
}
