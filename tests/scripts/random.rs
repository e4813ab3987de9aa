//! Random scripts: any lines, turns in a circle, crowds on few groups, bent bytes.

use super::model;
use super::model::draw::Random;
use super::model::Tracker;
use super::player::Script;

/// What a script works on.
#[derive(Clone)]
pub struct Work {
    pub n: u64,
    pub l: u64,
    pub t: u64,
    /// The groups it prefers.
    pub hot: Vec<u64>,
    pub bad: u64,
}

pub fn work(random: &mut Random) -> Work {
    let n = match random.below(6) {
        0 => 1,
        1 => 2,
        2 => 1 + random.below(12),
        3 => 1 + random.below(100),
        4 => random.pick(&[511, 512, 513, 514, 799, 800]),
        _ => 1 + random.below(800),
    };
    let t = if random.percent(30) { 8 } else { 1 + random.below(8) };
    let l = match random.below(4) {
        0 | 1 => t + 1,
        2 => t + 1 + random.below(4).min(63 - t),
        _ => t + 1 + random.below(64 - t),
    };
    let hot = (0..1 + random.below(24)).map(|_| random.below(16 * n)).collect();
    Work { n, l, t, hot, bad: random.pick(&[0, 0, 1, 5, 30]) }
}

impl Work {
    pub fn group(&self, random: &mut Random) -> u64 {
        match random.below(20) {
            0..=13 => random.pick(&self.hot),
            14 | 15 => random.pick(&self.hot) / 16 * 16 + random.below(16),
            _ => random.below(16 * self.n),
        }
    }

    pub fn issue(&self, random: &mut Random, x: u64) -> String {
        let (g, order) = (self.group(random), random.pick(&["t", "b"]));
        self.access(random, x, g, order)
    }

    pub fn access(&self, random: &mut Random, x: u64, g: u64, order: &str) -> String {
        let value = match random.below(10) {
            0..=4 => 0,
            5 | 6 => 1,
            7 => 1 << random.below(32),
            8 => u32::MAX,
            _ => random.next() as u32,
        };
        match random.below(3) {
            0 => format!("r {x} {g} {order}"),
            _ => format!("w {x} {g} {value:08x} {order}"),
        }
    }

    /// A call that is refused, or a line that is no command.
    pub fn odd(&self, random: &mut Random, bad: &[Vec<u8>]) -> Vec<u8> {
        let far = random.pick(&[self.t, self.t + 1, 8, 64, 255, 256, 999_999_999]);
        let past = 16 * self.n + random.pick(&[0, 1, 15, 16, 512, 65_536]);
        let x = random.below(self.t);
        match random.below(8) {
            0 => format!("s {far}").into_bytes(),
            1 => self.issue(random, far).into_bytes(),
            2 => self.access(random, x, past, "t").into_bytes(),
            3 => self.access(random, far, past, "b").into_bytes(),
            4 => format!("s {x}").into_bytes(),
            5 => b"d".to_vec(),
            _ => bad[random.below(bad.len() as u64) as usize].clone(),
        }
    }
}

/// Any calls in any order: mostly steps of busy trackers and issues to idle ones.
pub fn anyhow(random: &mut Random, script: &mut Script, work: &Work, lines: u64, bad: &[Vec<u8>]) {
    let drains = random.pick(&[0, 1, 5]);
    let steps = random.pick(&[60, 75, 85]);
    for _ in 0..lines {
        let (busy, idle) = (script.busy(), script.idle());
        if random.percent(work.bad) {
            script.say(work.odd(random, bad));
        } else if random.percent(drains) {
            // Sometimes everything is ended first, so that the drain is accepted.
            if random.percent(50) {
                for _ in 0..40 {
                    script.busy().iter().for_each(|x| script.say(format!("s {x}")));
                }
            }
            script.say("d");
        } else if !busy.is_empty() && (idle.is_empty() || random.percent(steps)) {
            script.say(format!("s {}", random.pick(&busy)));
        } else if !idle.is_empty() {
            let x = random.pick(&idle);
            script.say(work.issue(random, x as u64));
        } else {
            script.say("d");
        }
    }
}

/// 2T for a top-down read, 2T + 1 for a top-down write or a bottom-up read, 2T + 2 for a
/// bottom-up write.
pub fn bound(t: u64, tracker: Tracker) -> Option<u64> {
    match tracker {
        Tracker::Idle => None,
        Tracker::Busy { access, .. } => {
            Some(2 * t + access.write.is_some() as u64 + access.bottom_up as u64)
        }
    }
}

/// A circle run, from whatever state the script is in: the place moves round a fixed order
/// of the trackers, idle ones are passed over, and between turns anything may be issued,
/// drained or refused. Accesses from before have no bound.
pub fn circle(random: &mut Random, script: &mut Script, work: &Work, turns: u64, bad: &[Vec<u8>]) {
    let t = work.t as usize;
    let mut order: Vec<usize> = (0..t).collect();
    for i in 1..t {
        order.swap(i, random.below(i as u64 + 1) as usize);
    }
    let mut under = vec![false; t];
    let issues = random.pick(&[10, 30, 60, 100]);
    let mut place = random.below(t as u64) as usize;
    for _ in 0..turns {
        for _ in 0..t {
            let idle = script.idle();
            if !idle.is_empty() && random.percent(issues) {
                let x = random.pick(&idle);
                script.say(work.issue(random, x as u64));
                under[x] = true;
            }
        }
        while random.percent(work.bad) {
            // No step of a busy tracker out of its turn.
            let line = work.odd(random, bad);
            match model::command(&line) {
                Some(model::Command::Step { x }) if script.busy().contains(&(x as usize)) => {}
                Some(model::Command::Issue { x, .. }) if script.idle().contains(&(x as usize)) => {
                    script.say(&line);
                    under[x as usize] = true;
                }
                _ => script.say(&line),
            }
        }
        if random.percent(2) {
            script.say("d");
        }
        if let Some(passed) = (0..t).find(|i| script.trackers()[order[(place + i) % t]].busy()) {
            let x = order[(place + passed) % t];
            let bound = if under[x] { bound(work.t, script.trackers()[x]) } else { None };
            script.say_under(format!("s {x}"), bound);
            place = (place + passed + 1) % t;
        }
    }
}

/// The trackers all busy with the same few leaves, in an order that never changes.
pub fn crowd(random: &mut Random) -> Work {
    let mut crowd = work(random);
    crowd.t = 1 + random.below(8);
    crowd.l = crowd.t + 1 + random.below(3).min(63 - crowd.t);
    crowd.n = random.pick(&[1, 8, 30, 800]);
    crowd.hot = (0..1 + random.below(20)).map(|_| random.below(16 * crowd.n)).collect();
    crowd.bad = random.pick(&[0, 0, 3]);
    crowd
}

/// A good script with some bytes changed, left out or put in.
pub fn bent(random: &mut Random, script: &mut Vec<u8>) {
    for _ in 0..1 + random.below(20) {
        let at = random.below(script.len() as u64) as usize;
        let byte = match random.below(3) {
            0 => random.pick(b"\n\r 0t9ansdrwb"),
            1 => random.next() as u8,
            _ => 0,
        };
        match random.below(4) {
            0 => script[at] = byte,
            1 => script.insert(at, byte),
            2 => drop(script.remove(at)),
            _ => script[at] ^= 1 << random.below(8),
        }
        if script.is_empty() {
            break;
        }
    }
}

pub fn random_script(random: &mut Random, bad: &[Vec<u8>]) -> Script {
    let mut script = Script::new();
    let lines = match random.below(100) {
        0..=59 => 1 + random.below(300),
        60..=97 => 500 + random.below(1500),
        _ => 10_000 + random.below(10_000),
    };
    let circling = random.percent(40);
    let work = if circling { crowd(random) } else { work(random) };
    script.say(format!("n {} {} {}", work.n, work.l, work.t));
    if circling {
        if random.percent(50) {
            let before = random.pick(&[10, 100]);
            anyhow(random, &mut script, &work, before, bad);
        }
        circle(random, &mut script, &work, lines, bad);
    } else {
        anyhow(random, &mut script, &work, lines, bad);
    }
    script
}
