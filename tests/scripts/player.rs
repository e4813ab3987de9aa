//! A script under way, and the program that plays it beside the model.

use super::model;
use super::model::{Answer, Phase, Replay, Tracker};
use std::io::{Read, Write};
use std::process::{exit, Child, Command, Stdio};

/// A script under way: its bytes, and the model's answers so far, so that a generator can
/// look at the trackers.
pub struct Script {
    pub text: Vec<u8>,
    pub replay: Replay,
    /// Of each line: the bound of the access that is stepped, if the circle gives one.
    pub bounds: Vec<Option<u64>>,
}

impl Script {
    pub fn new() -> Script {
        Script { text: Vec::new(), replay: Replay::new(), bounds: Vec::new() }
    }

    pub fn say(&mut self, line: impl AsRef<[u8]>) {
        self.say_under(line, None);
    }

    pub fn say_under(&mut self, line: impl AsRef<[u8]>, bound: Option<u64>) {
        self.text.extend_from_slice(line.as_ref());
        self.text.push(b'\n');
        self.replay.line(line.as_ref());
        self.bounds.push(bound);
    }

    pub fn trackers(&self) -> &[Tracker] {
        self.replay.machine.as_ref().map_or(&[], |machine| &machine.trackers)
    }

    pub fn busy(&self) -> Vec<usize> {
        let trackers = self.trackers();
        (0..trackers.len()).filter(|&x| trackers[x].busy()).collect()
    }

    pub fn idle(&self) -> Vec<usize> {
        let trackers = self.trackers();
        (0..trackers.len()).filter(|&x| !trackers[x].busy()).collect()
    }
}

pub struct Player {
    pub program: String,
    pub seed: u64,
    pub scripts: u64,
    pub lines: u64,
    pub endings: u64,
    pub at_bound: u64,
    pub refused_13: u64,
    /// Endings with 4 transfers, and endings that set a bit with 3.
    pub most_transfers: [u64; 2],
}

impl Player {
    /// Play a script and compare. Written through a pipe in pieces of this many bytes; 0
    /// stands for a file as standard input.
    pub fn play(&mut self, script: &[u8], bounds: &[Option<u64>], piece: usize) {
        let output = match piece {
            0 => self.from_file(script),
            _ => self.from_pipe(script, piece),
        };
        let expected = self.by_model(script);
        if output != expected {
            self.different(script, &output, &expected);
        }
        self.refused_13 +=
            output.split(|&b| b == b'\n').filter(|line| line.ends_with(b" no 13")).count() as u64;
        for (line, bound) in output.split(|&b| b == b'\n').zip(bounds) {
            let Some(bound) = bound else { continue };
            let words: Vec<_> = std::str::from_utf8(line).unwrap().split(' ').collect();
            if words[1] == "no" {
                self.stop(
                    script,
                    &format!("a busy tracker's step is refused: {}", words.join(" ")),
                );
            }
            if words.len() > 2 {
                let at = words.iter().position(|&word| word == "turns").unwrap();
                let turns: u64 = words[at + 1].parse().unwrap();
                if turns > *bound {
                    self.stop(script, &format!("above its bound {bound}: {}", words.join(" ")));
                }
                self.endings += 1;
                self.at_bound += (turns == *bound) as u64;
            }
        }
        self.scripts += 1;
        self.lines += model::lines(script).len() as u64;
    }

    /// The model's output. An ending has at most 4 transfers, and at most 3 if it sets a bit
    /// (02, E4).
    fn by_model(&mut self, script: &[u8]) -> Vec<u8> {
        let (mut replay, mut output) = (Replay::new(), Vec::new());
        for line in model::lines(script) {
            let sets = matches!(replay.stepped(line), Some(Tracker::Busy { phase: Phase::FinishSet, .. }));
            let answer = replay.line(line);
            writeln!(output, "{} {}", replay.count, answer).unwrap();
            if let Answer::Read(_, _, sums) | Answer::Done(_, sums) | Answer::Same(_, sums) = answer {
                let (sum, most) = (sums.fetched + sums.back, if sets { 3 } else { 4 });
                if sum > most {
                    self.stop(script, &format!("above {most} transfers: {} {answer}", replay.count));
                }
                self.most_transfers[sets as usize] += (sum == most) as u64;
            }
        }
        output
    }

    pub fn start(&self, stdin: Stdio, stderr: Stdio) -> Child {
        let mut command = Command::new("./launch");
        command.arg(&self.program).stdin(stdin).stdout(Stdio::piped()).stderr(stderr);
        command.spawn().unwrap_or_else(|error| {
            println!("scripts: ./launch: {error}");
            exit(2)
        })
    }

    pub fn from_pipe(&self, script: &[u8], piece: usize) -> Vec<u8> {
        let mut child = self.start(Stdio::piped(), Stdio::inherit());
        let mut stdin = child.stdin.take().unwrap();
        let mut output = Vec::new();
        std::thread::scope(|scope| {
            // Its own thread: the program may be waiting for its output to be read.
            scope.spawn(move || script.chunks(piece).all(|bytes| stdin.write_all(bytes).is_ok()));
            child.stdout.take().unwrap().read_to_end(&mut output).unwrap();
        });
        self.ended(child, script);
        output
    }

    pub fn from_file(&self, script: &[u8]) -> Vec<u8> {
        let path = self.saved("input", script);
        let mut child =
            self.start(Stdio::from(std::fs::File::open(&path).unwrap()), Stdio::inherit());
        let mut output = Vec::new();
        child.stdout.take().unwrap().read_to_end(&mut output).unwrap();
        self.ended(child, script);
        let _ = std::fs::remove_file(path);
        output
    }

    /// Nobody reads the output: the program must still end, however it says so.
    pub fn closed_output(&self, script: &[u8]) {
        let path = self.saved("input", script);
        let mut child = self.start(Stdio::from(std::fs::File::open(&path).unwrap()), Stdio::null());
        drop(child.stdout.take());
        let begun = std::time::Instant::now();
        while child.try_wait().unwrap().is_none() {
            if begun.elapsed().as_secs() > 20 {
                let _ = child.kill();
                self.stop(script, "the output is closed and the program does not end");
            }
            std::thread::sleep(std::time::Duration::from_millis(5));
        }
        let _ = std::fs::remove_file(path);
    }

    pub fn ended(&self, mut child: Child, script: &[u8]) {
        let status = child.wait().unwrap();
        if !status.success() {
            self.stop(script, &format!("the program ended with {status}"));
        }
    }

    pub fn saved(&self, name: &str, script: &[u8]) -> std::path::PathBuf {
        let path =
            std::env::temp_dir().join(format!("scripts-{}-{name}.script", std::process::id()));
        std::fs::write(&path, script).unwrap();
        path
    }

    pub fn stop(&self, script: &[u8], what: &str) -> ! {
        let path = self.saved("different", script);
        println!("scripts: DIFFERENT: script {} of seed {}: {what}", self.scripts + 1, self.seed);
        println!("scripts: the script is in {}", path.display());
        exit(1)
    }

    pub fn different(&self, script: &[u8], output: &[u8], expected: &[u8]) -> ! {
        let text = |bytes: Option<&&[u8]>| match bytes {
            Some(bytes) => format!("'{}'", bytes.escape_ascii()),
            None => "nothing".to_string(),
        };
        let (got, model) = (model::lines(output), model::lines(expected));
        let at = (0..).find(|&i| got.get(i) != model.get(i) || i >= model.len()).unwrap();
        let mut line = text(model::lines(script).get(at));
        line.truncate(100);
        let what = format!(
            "line {}: {line}: {}, the model {}",
            at + 1,
            text(got.get(at)),
            text(model.get(at))
        );
        self.stop(script, &what)
    }
}
