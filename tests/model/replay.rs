//! 01 "The replay program".

use super::*;

/// N is at most 800 in a script.
pub const MOST_REPLAYED: u64 = 800;

#[derive(Clone, Copy, PartialEq, Debug)]
pub enum Command {
    New { n: u64, l: u64, t: u64 },
    Issue { x: u64, access: Access },
    Step { x: u64 },
    Drain,
}

/// A script line to a command; none if it is not of the form.
pub fn command(line: &[u8]) -> Option<Command> {
    if line.len() > 64 {
        return None;
    }
    let words: Vec<&[u8]> = line.split(|&byte| byte == b' ').collect();
    match words[..] {
        [b"n", n, l, t] => Some(Command::New { n: decimal(n)?, l: decimal(l)?, t: decimal(t)? }),
        [b"r", x, g, o] => {
            let access = Access { g: decimal(g)?, write: None, bottom_up: order(o)? };
            Some(Command::Issue { x: decimal(x)?, access })
        }
        [b"w", x, g, v, o] => {
            let access = Access { g: decimal(g)?, write: Some(hex(v)?), bottom_up: order(o)? };
            Some(Command::Issue { x: decimal(x)?, access })
        }
        [b"s", x] => Some(Command::Step { x: decimal(x)? }),
        [b"d"] => Some(Command::Drain),
        _ => None,
    }
}

/// 1 to 9 decimal digits.
fn decimal(word: &[u8]) -> Option<u64> {
    if !(1..=9).contains(&word.len()) || !word.iter().all(|b| b.is_ascii_digit()) {
        return None;
    }
    Some(word.iter().fold(0, |number, b| 10 * number + (b - b'0') as u64))
}

/// 8 lower-case hex digits.
fn hex(word: &[u8]) -> Option<u32> {
    if word.len() != 8 || !word.iter().all(|b| matches!(b, b'0'..=b'9' | b'a'..=b'f')) {
        return None;
    }
    u32::from_str_radix(std::str::from_utf8(word).unwrap(), 16).ok()
}

/// `t` or `b`.
fn order(word: &[u8]) -> Option<bool> {
    match word {
        b"t" => Some(false),
        b"b" => Some(true),
        _ => None,
    }
}

/// A replay under way.
pub struct Replay {
    /// Lines answered.
    pub count: u64,
    /// None before line 1 and after a refused one.
    pub machine: Option<Machine>,
    bytes: Vec<u8>,
    memory: Vec<u8>,
}

impl Replay {
    pub fn new() -> Replay {
        Replay { count: 0, machine: None, bytes: Vec::new(), memory: Vec::new() }
    }

    /// The tracker that a line steps, if it is one.
    pub fn stepped(&self, line: &[u8]) -> Option<Tracker> {
        match (command(line), &self.machine) {
            (Some(Command::Step { x }), Some(machine)) => machine.trackers.get(x as usize).copied(),
            _ => None,
        }
    }

    /// The answer to the next line.
    pub fn line(&mut self, line: &[u8]) -> Answer {
        self.count += 1;
        let command = command(line);
        match (command, &mut self.machine) {
            (Some(Command::New { n, l, t }), _) if self.count == 1 => self.begin(n, l, t),
            (Some(Command::Issue { x, access }), Some(machine)) => {
                machine.issue(x, access, &self.bytes, &self.memory)
            }
            (Some(Command::Step { x }), Some(machine)) => {
                machine.step(x, &mut self.bytes, &mut self.memory)
            }
            (Some(Command::Drain), Some(machine)) => machine.drain(&self.bytes, &mut self.memory),
            // Other lines, a later `n`, and every line after a refused line 1.
            _ => Answer::No(12),
        }
    }

    /// Line 1. The memory is fresh; what its leaves' bytes were means nothing.
    fn begin(&mut self, n: u64, l: u64, t: u64) -> Answer {
        if n > MOST_REPLAYED || !in_limits(n, t, l) {
            return Answer::No(1);
        }
        self.bytes = vec![0xee; BLOCK * l as usize];
        self.memory = vec![0xee; memory_length(n)];
        match Machine::fresh(n, t, l, &self.bytes, &mut self.memory) {
            Ok(machine) => {
                self.machine = Some(machine);
                Answer::Ok
            }
            Err(refusal) => Answer::No(refusal),
        }
    }
}

impl std::fmt::Display for Answer {
    fn fmt(&self, f: &mut std::fmt::Formatter) -> std::fmt::Result {
        match self {
            Answer::Ok | Answer::Drained(_) => write!(f, "ok"),
            Answer::Wait => write!(f, "wait"),
            Answer::Moved => write!(f, "moved"),
            Answer::Read(v, turns, transfers) => write!(f, "read {v:08x} turns {turns}{transfers}"),
            Answer::Done(turns, transfers) => write!(f, "done turns {turns}{transfers}"),
            Answer::Same(turns, transfers) => write!(f, "same turns {turns}{transfers}"),
            Answer::No(refusal) => write!(f, "no {refusal}"),
        }
    }
}

impl std::fmt::Display for Transfers {
    fn fmt(&self, f: &mut std::fmt::Formatter) -> std::fmt::Result {
        write!(f, " in {} out {}", self.fetched, self.back)
    }
}

/// The lines of a script. A last line needs no newline; no input has no line.
pub fn lines(script: &[u8]) -> Vec<&[u8]> {
    let mut lines: Vec<&[u8]> = script.split(|&byte| byte == b'\n').collect();
    if lines.last() == Some(&&b""[..]) {
        lines.pop();
    }
    lines
}

/// The whole output for a script: line number, space, answer.
pub fn replay(script: &[u8]) -> Vec<u8> {
    use std::io::Write;
    let (mut replay, mut output) = (Replay::new(), Vec::new());
    for line in lines(script) {
        let answer = replay.line(line);
        writeln!(output, "{} {}", replay.count, answer).unwrap();
    }
    output
}
