//! The replay program against the model, line by line, on random scripts.
//!
//! `scripts REPLAY [SEED [LINES]]`, in the root of the repository: the scripts of `edges`,
//! then random ones of every kind until LINES more lines (default 1,000,000) are played.
//! The first difference is printed, its script saved, and the status is 1. Among them are
//! circle runs: the trackers are given turns in a fixed circle, idle ones passed over, and
//! no ending may have more turns than its bound. Prints how often two accesses to one group
//! were refused (13). Ends with `scripts: N scripts, M lines`.

mod edges;
#[path = "../model/mod.rs"]
mod model;
mod player;
mod random;

use edges::{bad_lines, edges};
use model::draw::Random;
use player::Player;
use random::{bent, random_script};
use std::process::exit;

fn main() {
    let words: Vec<String> = std::env::args().collect();
    let number = |i: usize, default| match words.get(i) {
        None => default,
        Some(word) => word.parse().expect("SEED and LINES are numbers"),
    };
    let Some(program) = words.get(1) else {
        println!("scripts REPLAY [SEED [LINES]]");
        exit(2)
    };
    let (seed, least) = (number(2, 1), number(3, 1_000_000));
    let mut player = Player {
        program: program.clone(),
        seed,
        scripts: 0,
        lines: 0,
        endings: 0,
        at_bound: 0,
        refused_13: 0,
        most_transfers: [0; 2],
    };
    edges(&mut player);
    println!("scripts: {} edge scripts, {} lines", player.scripts, player.lines);
    let mut random = Random(seed);
    let bad = bad_lines();
    let least = player.lines + least;
    while player.lines < least {
        let mut script = random_script(&mut random, &bad);
        match random.below(10) {
            0 => {
                // Bent, its answers are others: no line keeps its bound.
                bent(&mut random, &mut script.text);
                script.bounds.clear();
            }
            1 | 2 => drop(script.text.pop()),
            _ => {}
        }
        let piece = match random.below(8) {
            0 if script.text.len() < 2000 => 1 + random.below(9) as usize,
            0..=2 => 0,
            3 => 1000 + random.below(100_000) as usize,
            _ => 65_536,
        };
        player.play(&script.text, &script.bounds, piece);
    }
    println!(
        "scripts: {} endings under a circle, {} at their bound, none above",
        player.endings, player.at_bound
    );
    println!("scripts: {} issues refused 13", player.refused_13);
    println!(
        "scripts: {} endings with 4 transfers, {} that set a bit with 3, none above",
        player.most_transfers[0], player.most_transfers[1]
    );
    println!("scripts: {} scripts, {} lines", player.scripts, player.lines);
}
