//! 01 "The cache": lines and trackers, fresh and open, placing and bringing in.

use super::*;

/// A line is free or holds one block, clean or changed.
#[derive(Clone, Copy, PartialEq, Debug)]
pub enum Line {
    Free,
    Clean(Block),
    Changed(Block),
}

impl Line {
    pub fn block(self) -> Option<Block> {
        match self {
            Line::Free => None,
            Line::Clean(block) | Line::Changed(block) => Some(block),
        }
    }
}

/// An access is a read or a write of value v, of group g, top-down or bottom-up.
#[derive(Clone, Copy, PartialEq, Debug)]
pub struct Access {
    pub g: u64,
    pub write: Option<u32>,
    pub bottom_up: bool,
}

#[derive(Clone, Copy, PartialEq, Debug)]
pub enum Phase {
    Probe,
    Map,
    Leaf,
    FinishSet,
    FinishClear,
}

/// Blocks fetched and blocks written back (02, E4).
#[derive(Clone, Copy, PartialEq, Debug, Default)]
pub struct Transfers {
    pub fetched: u8,
    pub back: u8,
}

impl Transfers {
    /// A sum stays at 255 once there.
    pub fn one_fetched(&mut self) {
        self.fetched = self.fetched.saturating_add(1);
    }

    pub fn one_back(&mut self) {
        self.back = self.back.saturating_add(1);
    }
}

#[derive(Clone, Copy, PartialEq, Debug)]
pub enum Tracker {
    Idle,
    Busy { access: Access, phase: Phase, turns: u16, transfers: Transfers },
}

impl Tracker {
    pub fn busy(self) -> bool {
        self != Tracker::Idle
    }

    /// A tracker holds its own group's map block exactly while it is at Leaf or Finish.
    pub fn held(self) -> Option<Block> {
        match self {
            Tracker::Idle | Tracker::Busy { phase: Phase::Probe | Phase::Map, .. } => None,
            Tracker::Busy { access, .. } => Some(Block::Map(map_of(leaf_of(access.g)))),
        }
    }
}

/// The state. The line bytes and the memory are lent to each call.
#[derive(Clone, PartialEq, Debug)]
pub struct Machine {
    pub n: u64,
    pub t: u64,
    pub l: u64,
    pub hand: usize,
    pub lines: Vec<Line>,
    pub trackers: Vec<Tracker>,
}

/// What a call answers; a refusal by its number. An ending carries its turns and its
/// transfers, a drain its write-backs (02, E4).
#[derive(Clone, Copy, PartialEq, Debug)]
pub enum Answer {
    Ok,
    Wait,
    Moved,
    Read(u32, u16, Transfers),
    Done(u16, Transfers),
    Same(u16, Transfers),
    Drained(u8),
    No(u64),
}

/// What a step does with its tracker.
pub enum Move {
    Wait,
    On(Phase),
    EndRead(u32),
    EndDone,
    EndSame,
}

/// There are T trackers, 1 to 8, and L lines, T + 1 to 64.
pub fn in_limits(n: u64, t: u64, l: u64) -> bool {
    leaves_in_limits(n) && (1..=8).contains(&t) && (t + 1..=64).contains(&l)
}

/// The 64 bytes of line i.
pub fn line(i: usize) -> std::ops::Range<usize> {
    BLOCK * i..BLOCK * (i + 1)
}

impl Machine {
    /// After fresh and open every line is free, every tracker idle. The hand starts at 0.
    pub fn at_rest(n: u64, t: u64, l: u64) -> Machine {
        Machine {
            n,
            t,
            l,
            hand: 0,
            lines: vec![Line::Free; l as usize],
            trackers: vec![Tracker::Idle; t as usize],
        }
    }

    /// A fresh memory sets every map byte to 0 and touches nothing else. Refusals 1, 2.
    pub fn fresh(n: u64, t: u64, l: u64, bytes: &[u8], memory: &mut [u8]) -> Result<Machine, u64> {
        if !in_limits(n, t, l) {
            return Err(1);
        }
        let machine = Machine::at_rest(n, t, l);
        if !machine.lengths_right(bytes, memory) {
            return Err(2);
        }
        memory[BLOCK * n as usize..].fill(0);
        Ok(machine)
    }

    /// Opening changes no byte. Refusals 1, 2, 3.
    pub fn open(n: u64, t: u64, l: u64, bytes: &[u8], memory: &[u8]) -> Result<Machine, u64> {
        if !in_limits(n, t, l) {
            return Err(1);
        }
        let machine = Machine::at_rest(n, t, l);
        if !machine.lengths_right(bytes, memory) {
            return Err(2);
        }
        if !is_true(n, memory) {
            return Err(3);
        }
        Ok(machine)
    }

    /// The line bytes are a lent buffer of 64 x L; the memory has its length.
    pub fn lengths_right(&self, bytes: &[u8], memory: &[u8]) -> bool {
        bytes.len() == BLOCK * self.l as usize && memory.len() == memory_length(self.n)
    }

    pub fn line_of(&self, block: Block) -> Option<usize> {
        self.lines.iter().position(|line| line.block() == Some(block))
    }

    pub fn is_held(&self, block: Block) -> bool {
        self.trackers.iter().any(|tracker| tracker.held() == Some(block))
    }

    pub fn any_busy(&self) -> bool {
        self.trackers.iter().any(|tracker| tracker.busy())
    }

    /// Placing a block takes the lowest free line, and the hand stays; with none free, the
    /// first line at or after the hand, round the circle, that no tracker holds. That line,
    /// if changed, is first written to its block's own place; the hand then moves to the
    /// line after it. The new block's bytes are the caller's to fill in. A line written to
    /// memory is one block written back.
    pub fn place(
        &mut self,
        block: Block,
        bytes: &[u8],
        memory: &mut [u8],
        transfers: &mut Transfers,
    ) -> usize {
        let i = match self.lines.iter().position(|&line| line == Line::Free) {
            Some(i) => i,
            None => {
                let l = self.lines.len();
                let i = (self.hand..self.hand + l)
                    .map(|i| i % l)
                    .find(|&i| !self.is_held(self.lines[i].block().unwrap()))
                    .expect("L is above T, so some line is not held");
                if let Line::Changed(old) = self.lines[i] {
                    memory[own_place(self.n, old)].copy_from_slice(&bytes[line(i)]);
                    transfers.one_back();
                }
                self.hand = (i + 1) % l;
                i
            }
        };
        self.lines[i] = Line::Clean(block);
        i
    }

    /// "Bring in" means: use the line that has the block, else place it and copy 64 bytes
    /// from memory, clean. The copy is one block fetched.
    pub fn bring_in(
        &mut self,
        block: Block,
        bytes: &mut [u8],
        memory: &mut [u8],
        transfers: &mut Transfers,
    ) -> usize {
        self.line_of(block).unwrap_or_else(|| {
            let i = self.place(block, bytes, memory, transfers);
            bytes[line(i)].copy_from_slice(&memory[own_place(self.n, block)]);
            transfers.one_fetched();
            i
        })
    }
}
