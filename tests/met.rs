//! How often each call met each of its refusals, for `tests/harness.rs`.

use crate::driver::Function;
use std::collections::BTreeMap;

/// Each call with its refusals, in its order.
const REFUSALS: [(&str, &[u64]); 13] = [
    ("tag_fresh", &[1, 2]),
    ("tag_open", &[1, 2, 3]),
    ("tag_issue", &[4, 2, 5, 6, 7, 13]),
    ("tag_step", &[4, 2, 5, 8]),
    ("tag_drain", &[4, 2, 7]),
    ("tag_show", &[4, 2, 6, 7]),
    ("tag_whole", &[2]),
    ("tag_run", &[4, 2]),
    ("a call of tag_run", &[5, 6, 7, 8, 12, 13]),
    ("tag_write_image", &[1, 2, 3, 9]),
    ("tag_restore", &[10, 11, 2]),
    ("tag_open_reader", &[2, 10, 11]),
    ("tag_record", &[2]),
];

/// What a refused call gives is this and the refusal.
pub const REFUSED: u64 = 1 << 32;

/// How often each call gave what: a refusal by its number, 0 for none.
#[derive(Default)]
pub struct Met(BTreeMap<(&'static str, u64), u64>);

impl Met {
    pub fn one(&mut self, function: Function, value: u64) {
        let refusal = if value >> 32 == 1 { value - REFUSED } else { 0 };
        *self.0.entry((function.1, refusal)).or_default() += 1;
    }

    /// A call of a run, and its refusal.
    pub fn inside(&mut self, refusal: Option<u64>) {
        *self.0.entry(("a call of tag_run", refusal.unwrap_or(0))).or_default() += 1;
    }

    pub fn calls(&self) -> u64 {
        self.0.values().sum()
    }

    /// Prints the table; false if a refusal was met less than a thousand times.
    pub fn print(&self) -> bool {
        let mut often = true;
        for (name, refusals) in REFUSALS {
            let count = |refusal: u64| self.0.get(&(name, refusal)).copied().unwrap_or(0);
            let row: Vec<String> = refusals.iter().map(|&no| format!("no {no}: {}", count(no))).collect();
            println!("harness: {name}: accepted {}, {}", count(0), row.join(", "));
            often &= refusals.iter().all(|&no| count(no) >= 1000);
        }
        often
    }
}
