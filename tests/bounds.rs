//! The 32 runs that reach the four bounds of demand 3, for every T from 1 to 8, and the runs
//! that reach the bounds of an access's transfers (02, E4).
//!
//! `bounds [FOLDER]` writes them (default `runs`) and has the model play each: it must be
//! a circle run (turns go round 0, 1, .., T - 1, idle trackers are passed over) in which
//! tracker 0's last access ends with exactly the bound.
//!
//! Why the bound is reached. An access that changes a leaf's bit holds the map block from
//! its Map step to its Finish step, two turns later in the circle. So the waiter loses two
//! turns to each of the others if they hold the map block one after another. That is how
//! it goes when they all set bits under the same map block and stand behind the waiter in
//! the circle, 1, 2, .., T - 1: tracker 1 is given its Map step just after the waiter's
//! place has passed. In the next round the waiter waits (tracker 1 is at Leaf), and in the
//! next it waits again (tracker 1 is at Finish). Tracker 1 then finishes and lets go, and
//! the next in the circle that asks for the map block is not the waiter but tracker 2. And
//! so on: 2 (T - 1) waits, until tracker T - 1 lets go and the circle comes to the waiter.
//! Nobody can come in front of it again, since whoever lets go stands in front of those
//! that still wait. After the waits the waiter makes its own steps, as many as it can have:
//!
//! | Access          | Its own steps            | With 2 (T - 1) waits |
//! |-----------------|--------------------------|----------------------|
//! | top-down read   | Map, Leaf                | 2T                   |
//! | top-down write  | Map, Leaf, Finish        | 2T + 1               |
//! | bottom-up read  | Probe, Map, Leaf         | 2T + 1               |
//! | bottom-up write | Probe, Map, Leaf, Finish | 2T + 2               |
//!
//! A read must get to Leaf: its leaf has bit 1, set before by tracker 0. A bottom-up read
//! must also miss at Probe: T more leaves are set, which with L = T + 1 lines (one of them
//! the held map block's) drops the read's leaf from the lines. A write gets to Finish by
//! setting the bit of a leaf that is not in a line.
//!
//! Transfers. One tracker has two lines, and leaves 0 and 512 lie under two map blocks. A
//! write that sets a bit leaves both lines changed, its map block's and its leaf's. So an
//! access under the other map block writes one back and fetches its map block, then writes
//! the other back and fetches its leaf: 4. A leaf that is created is not fetched: 3.

mod model;

use model::{Answer, Replay, Transfers};

#[derive(Clone, Copy)]
struct Kind {
    name: &'static str,
    write: bool,
    bottom_up: bool,
}

const KINDS: [Kind; 4] = [
    Kind { name: "top-read", write: false, bottom_up: false },
    Kind { name: "top-write", write: true, bottom_up: false },
    Kind { name: "bottom-read", write: false, bottom_up: true },
    Kind { name: "bottom-write", write: true, bottom_up: true },
];

impl Kind {
    fn bound(self, t: u64) -> u64 {
        2 * t + self.write as u64 + self.bottom_up as u64
    }
}

/// A write that sets leaf k's bit, by its first group.
fn setting(x: u64, k: u64, order: &str) -> String {
    format!("w {x} {} 0000000a {order}", 16 * k)
}

/// A circle run under way.
struct Run {
    t: u64,
    place: u64,
    lines: Vec<String>,
    replay: Replay,
}

impl Run {
    fn say(&mut self, line: String) {
        self.replay.line(line.as_bytes());
        self.lines.push(line);
    }

    /// The next busy tracker's turn; false if all are idle.
    fn turn(&mut self) -> bool {
        let Some(x) = next(&self.replay, self.t, self.place) else {
            return false;
        };
        self.say(format!("s {x}"));
        self.place = (x + 1) % self.t;
        true
    }
}

/// The script: the waiter is tracker 0 and its leaf is leaf 0.
fn script(kind: Kind, t: u64) -> Vec<String> {
    let mut run = Run { t, place: 0, lines: Vec::new(), replay: Replay::new() };
    let (n, l) = (2 * t, t + 1);
    run.say(format!("n {n} {l} {t}"));
    // What a read finds: leaf 0 set, and for a bottom-up read dropped again by T more.
    let before = match (kind.write, kind.bottom_up) {
        (true, _) => 0,
        (false, false) => 1,
        (false, true) => t + 1,
    };
    for k in 0..before {
        run.say(setting(0, k, "t"));
        while run.turn() {}
    }
    let order = if kind.bottom_up { "b" } else { "t" };
    let waiter = match kind.write {
        true => setting(0, 0, order),
        false => format!("r 0 0 {order}"),
    };
    // The others set leaves whose bits are still 0. A bottom-up waiter has its Probe before
    // tracker 1 has its Map step; a top-down one is issued just after that step.
    let others = (1..t).map(|x| setting(x, before.max(1) + x - 1, "t"));
    if kind.bottom_up {
        run.say(waiter);
        run.turn();
        others.for_each(|line| run.say(line));
    } else {
        others.for_each(|line| run.say(line));
        run.turn();
        run.say(waiter);
    }
    while run.turn() {}
    run.say("d".to_string());
    run.lines
}

/// What each run of transfers has last, and how many blocks that fetches and writes back.
const TRANSFERS: [(&str, Option<&str>, u8, u8); 6] = [
    ("3-set", None, 1, 2),
    ("4-read", Some("r 0 0 t"), 2, 2),
    ("4-bottom-read", Some("r 0 0 b"), 2, 2),
    ("4-same", Some("w 0 0 0000000a t"), 2, 2),
    ("4-done", Some("w 0 1 0000000b t"), 2, 2),
    ("4-cleared", Some("w 0 0 00000000 t"), 2, 2),
];

/// Both leaves are set, leaf 512 last; then that access.
fn transfers(access: Option<&str>) -> Vec<String> {
    let mut run = Run { t: 1, place: 0, lines: Vec::new(), replay: Replay::new() };
    run.say("n 513 2 1".to_string());
    let set = [0, 512].map(|k| setting(0, k, "t"));
    for line in set.into_iter().chain(access.map(str::to_string)) {
        run.say(line);
        while run.turn() {}
    }
    run.say("d".to_string());
    run.lines
}

/// The next busy tracker at or after the place, round the circle.
fn next(replay: &Replay, t: u64, place: u64) -> Option<u64> {
    let trackers = &replay.machine.as_ref().unwrap().trackers;
    (0..t).map(|i| (place + i) % t).find(|&x| trackers[x as usize].busy())
}

/// Played by the model: a circle run from its first line, nothing refused. The turns and the
/// transfers of tracker 0's last ending.
fn verify(name: &str, lines: &[String], t: u64) -> (u64, Transfers) {
    let (mut replay, mut place, mut last) = (Replay::new(), 0, None);
    for line in lines {
        let stepped = line.strip_prefix("s ").map(|x| x.parse::<u64>().unwrap());
        if let Some(x) = stepped {
            assert_eq!(Some(x), next(&replay, t, place), "{name}: {line} is not the circle's turn");
            place = (x + 1) % t;
        }
        match replay.line(line.as_bytes()) {
            Answer::No(refusal) => panic!("{name}: {line} is refused {refusal}"),
            Answer::Read(_, turns, sums) | Answer::Done(turns, sums) | Answer::Same(turns, sums)
                if stepped == Some(0) =>
            {
                last = Some((turns as u64, sums))
            }
            _ => {}
        }
    }
    last.expect("tracker 0's access ends")
}

fn written(folder: &str, name: &str, lines: &[String]) {
    let path = format!("{folder}/{name}");
    if let Err(error) = std::fs::write(&path, lines.join("\n") + "\n") {
        println!("bounds: {path}: {error}");
        std::process::exit(2);
    }
}

fn main() {
    let folder = std::env::args().nth(1).unwrap_or("runs".to_string());
    for kind in KINDS {
        for t in 1..=8 {
            let name = format!("bound-{}-{t}.script", kind.name);
            let lines = script(kind, t);
            let (turns, _) = verify(&name, &lines, t);
            assert_eq!(turns, kind.bound(t), "{name}: turns of tracker 0's last access");
            written(&folder, &name, &lines);
        }
    }
    for (what, access, fetched, back) in TRANSFERS {
        let name = format!("transfers-{what}.script");
        let lines = transfers(access);
        let (_, sums) = verify(&name, &lines, 1);
        assert_eq!(sums, Transfers { fetched, back }, "{name}: transfers of the last access");
        written(&folder, &name, &lines);
    }
    println!("bounds: 32 scripts in {folder}, each reaches its bound, and {} that reach the bounds of transfers", TRANSFERS.len());
}
