//! 01 "One step of a tracker", and issue, drain, show and whole.

use super::*;

impl Machine {
    /// Refusals 4 and 2, which come first in each call on a state.
    fn unfit(&self, bytes: &[u8], memory: &[u8]) -> Option<u64> {
        if !self.whole() {
            return Some(4);
        }
        if !self.lengths_right(bytes, memory) {
            return Some(2);
        }
        None
    }

    /// Issue an access to tracker x. Refusals 4, 2, 5, 6, 7, 13: a write to a group that any
    /// busy tracker has, and a read of a group that a busy write has (02, E3).
    pub fn issue(&mut self, x: u64, access: Access, bytes: &[u8], memory: &[u8]) -> Answer {
        if let Some(no) = self.unfit(bytes, memory) {
            return Answer::No(no);
        }
        if x >= self.t {
            return Answer::No(5);
        }
        if access.g >= GROUPS * self.n {
            return Answer::No(6);
        }
        if self.trackers[x as usize].busy() {
            return Answer::No(7);
        }
        for tracker in &self.trackers {
            if let Tracker::Busy { access: other, .. } = tracker {
                if other.g == access.g && (access.write.is_some() || other.write.is_some()) {
                    return Answer::No(13);
                }
            }
        }
        let phase = if access.bottom_up { Phase::Probe } else { Phase::Map };
        self.trackers[x as usize] =
            Tracker::Busy { access, phase, turns: 0, transfers: Transfers::default() };
        Answer::Ok
    }

    /// One step of tracker x. Refusals 4, 2, 5, 8.
    pub fn step(&mut self, x: u64, bytes: &mut [u8], memory: &mut [u8]) -> Answer {
        if let Some(no) = self.unfit(bytes, memory) {
            return Answer::No(no);
        }
        if x >= self.t {
            return Answer::No(5);
        }
        let x = x as usize;
        let Tracker::Busy { access, phase, turns, mut transfers } = self.trackers[x] else {
            return Answer::No(8);
        };
        // Waits included; it stays at 65,535 once there.
        let turns = turns.saturating_add(1);
        let copies = &mut transfers;
        let moved = match (phase, access.write) {
            (Phase::Probe, _) => self.probe(access, bytes),
            (Phase::Map, _) => self.map(x, access, bytes, memory, copies),
            (Phase::Leaf, None) => self.leaf_read(access, bytes, memory, copies),
            (Phase::Leaf, Some(v)) => self.leaf_write(access, v, bytes, memory, copies),
            (Phase::FinishSet, _) => self.finish(access, true, bytes),
            (Phase::FinishClear, _) => self.finish(access, false, bytes),
        };
        let (tracker, answer) = match moved {
            Move::Wait => (Tracker::Busy { access, phase, turns, transfers }, Answer::Wait),
            Move::On(phase) => (Tracker::Busy { access, phase, turns, transfers }, Answer::Moved),
            // Ending lets go: an idle tracker holds nothing.
            Move::EndRead(v) => (Tracker::Idle, Answer::Read(v, turns, transfers)),
            Move::EndDone => (Tracker::Idle, Answer::Done(turns, transfers)),
            Move::EndSame => (Tracker::Idle, Answer::Same(turns, transfers)),
        };
        self.trackers[x] = tracker;
        answer
    }

    /// Probe. Leaf in a line: a read ends with the group; a write whose group equals v ends
    /// "same". Otherwise on to Map.
    fn probe(&self, access: Access, bytes: &[u8]) -> Move {
        if let Some(i) = self.line_of(Block::Leaf(leaf_of(access.g))) {
            let old = group_in(&bytes[line(i)], access.g);
            match access.write {
                None => return Move::EndRead(old),
                Some(v) if v == old => return Move::EndSame,
                Some(_) => {}
            }
        }
        Move::On(Phase::Map)
    }

    /// Map. If another tracker holds this map block: wait. Else bring it in. Bit 0: a read
    /// ends with 0; a write of 0 ends "same". Otherwise hold the map block, on to Leaf.
    fn map(
        &mut self,
        x: usize,
        access: Access,
        bytes: &mut [u8],
        memory: &mut [u8],
        transfers: &mut Transfers,
    ) -> Move {
        let k = leaf_of(access.g);
        let map = Block::Map(map_of(k));
        if (0..self.trackers.len()).any(|y| y != x && self.trackers[y].held() == Some(map)) {
            return Move::Wait;
        }
        let i = self.bring_in(map, bytes, memory, transfers);
        match (bit_in(&bytes[line(i)], k), access.write) {
            (false, None) => Move::EndRead(0),
            (false, Some(0)) => Move::EndSame,
            _ => Move::On(Phase::Leaf),
        }
    }

    /// Leaf, read. Bring in the leaf, end with the group, let go.
    fn leaf_read(
        &mut self,
        access: Access,
        bytes: &mut [u8],
        memory: &mut [u8],
        transfers: &mut Transfers,
    ) -> Move {
        let i = self.bring_in(Block::Leaf(leaf_of(access.g)), bytes, memory, transfers);
        Move::EndRead(group_in(&bytes[line(i)], access.g))
    }

    /// Leaf, write. The bit is read again in the held map line.
    fn leaf_write(
        &mut self,
        access: Access,
        v: u32,
        bytes: &mut [u8],
        memory: &mut [u8],
        transfers: &mut Transfers,
    ) -> Move {
        let k = leaf_of(access.g);
        let map = self.line_of(Block::Map(map_of(k))).expect("a held map block is in a line");
        if bit_in(&bytes[line(map)], k) {
            // Bit 1: bring in the leaf.
            let i = self.bring_in(Block::Leaf(k), bytes, memory, transfers);
            if group_in(&bytes[line(i)], access.g) == v {
                return Move::EndSame;
            }
            put_group(&mut bytes[line(i)], access.g, v);
            if some_byte(&bytes[line(i)]) {
                self.lines[i] = Line::Changed(Block::Leaf(k));
                Move::EndDone
            } else {
                // All 64 bytes now zero: the line is made free without writing to memory.
                self.lines[i] = Line::Free;
                Move::On(Phase::FinishClear)
            }
        } else {
            // Bit 0: the old content is 64 zero bytes, never fetched.
            if v == 0 {
                return Move::EndSame;
            }
            let mut leaf = [0; BLOCK];
            put_group(&mut leaf, access.g, v);
            // The leaf goes into its line if it has one, else is placed; changed.
            let i = match self.line_of(Block::Leaf(k)) {
                Some(i) => i,
                None => self.place(Block::Leaf(k), bytes, memory, transfers),
            };
            bytes[line(i)].copy_from_slice(&leaf);
            self.lines[i] = Line::Changed(Block::Leaf(k));
            Move::On(Phase::FinishSet)
        }
    }

    /// Finish. Set or clear the bit, the map line is changed, end "done", let go.
    fn finish(&mut self, access: Access, bit: bool, bytes: &mut [u8]) -> Move {
        let k = leaf_of(access.g);
        let map = Block::Map(map_of(k));
        let i = self.line_of(map).expect("a held map block is in a line");
        put_bit(&mut bytes[line(i)], k, bit);
        self.lines[i] = Line::Changed(map);
        Move::EndDone
    }

    /// Drain writes changed lines to memory, lowest line first, and marks them clean; the
    /// lines stay. Refusals 4, 2, 7. It reports its write-backs (02, E4).
    pub fn drain(&mut self, bytes: &[u8], memory: &mut [u8]) -> Answer {
        if let Some(no) = self.unfit(bytes, memory) {
            return Answer::No(no);
        }
        if self.any_busy() {
            return Answer::No(7);
        }
        let mut transfers = Transfers::default();
        for i in 0..self.lines.len() {
            if let Line::Changed(block) = self.lines[i] {
                memory[own_place(self.n, block)].copy_from_slice(&bytes[line(i)]);
                transfers.one_back();
                self.lines[i] = Line::Clean(block);
            }
        }
        Answer::Drained(transfers.back)
    }

    /// Showing leaf k hands back the caller's own bytes: the 64 in the lines, if a line has
    /// it; else, under bit 1 (read in the map block's line if it has one), the 64 in memory;
    /// under bit 0, an empty part of memory. Refusals 4, 2, 6, 7.
    pub fn show<'a>(&self, k: u64, bytes: &'a [u8], memory: &'a [u8]) -> Result<&'a [u8], u64> {
        if let Some(no) = self.unfit(bytes, memory) {
            return Err(no);
        }
        if k >= self.n {
            return Err(6);
        }
        if self.any_busy() {
            return Err(7);
        }
        if let Some(i) = self.line_of(Block::Leaf(k)) {
            return Ok(&bytes[line(i)]);
        }
        let bit = match self.line_of(Block::Map(map_of(k))) {
            Some(i) => bit_in(&bytes[line(i)], k),
            None => bit_of(self.n, memory, k),
        };
        Ok(if bit { &memory[own_place(self.n, Block::Leaf(k))] } else { &memory[..0] })
    }

    /// A state is whole. (Lines L and up and trackers T and up are not there at all.)
    pub fn whole(&self) -> bool {
        in_limits(self.n, self.t, self.l)
            && self.lines.len() == self.l as usize
            && self.trackers.len() == self.t as usize
            && self.hand < self.lines.len()
            && self.lines.iter().enumerate().all(|(i, line)| match line.block() {
                None => true,
                Some(block) => self.exists(block) && self.line_of(block) == Some(i),
            })
            && self.trackers.iter().all(|&tracker| self.tracker_whole(tracker))
    }

    fn exists(&self, block: Block) -> bool {
        match block {
            Block::Leaf(k) => k < self.n,
            Block::Map(m) => m < map_blocks(self.n),
        }
    }

    /// Busy groups are below 16n, a tracker at Probe is bottom-up and one at Finish is a
    /// write, and each held map block is in a line and has one holder.
    fn tracker_whole(&self, tracker: Tracker) -> bool {
        let Tracker::Busy { access, phase, .. } = tracker else {
            return true;
        };
        access.g < GROUPS * self.n
            && match phase {
                Phase::Probe => access.bottom_up,
                Phase::FinishSet | Phase::FinishClear => access.write.is_some(),
                Phase::Map | Phase::Leaf => true,
            }
            && match tracker.held() {
                None => true,
                Some(map) => {
                    let holders = self.trackers.iter().filter(|y| y.held() == Some(map)).count();
                    self.line_of(map).is_some() && holders == 1
                }
            }
    }
}
