//! A proved library at the other end of a pipe: `tests/driver.c`, linked with it, started by
//! `./launch` in the root of the repository. Calls are sent together and their answers
//! compared with the model's when they come, so that a call costs no turn of the pipe. On
//! the first difference what the call was lent is saved, and the test ends with status 1.

// A test need not use all of it.
#![allow(dead_code)]

use std::io::{BufReader, Read as _, Write};
use std::process::{exit, Child, ChildStdin, ChildStdout, Command, Stdio};
use std::rc::Rc;

// The words of a request, as `tests/driver.c` numbers them.
const PUT: u64 = 0;
const GET: u64 = 1;
const CALL: u64 = 2;
const SEND: u64 = 3;
const NUMBER: u64 = 0;
const READ: u64 = 1;
const CHANGE: u64 = 2;

/// So many bytes of requests and answers go together.
const TOGETHER: usize = 1 << 20;

/// A function of the library: its number in `tests/NAME_calls.c`, and its name.
#[derive(Clone, Copy)]
pub struct Function(pub u64, pub &'static str);

/// A part of the bytes that were put into a slot of the driver.
#[derive(Clone)]
pub struct Slice {
    slot: u64,
    at: usize,
    length: usize,
    put: Rc<[u8]>,
}

impl Slice {
    pub fn part(&self, range: std::ops::Range<usize>) -> Slice {
        assert!(range.start <= range.end && range.end <= self.length);
        Slice { at: self.at + range.start, length: range.len(), ..self.clone() }
    }

    pub fn slot(&self) -> u64 {
        self.slot
    }

    pub fn length(&self) -> usize {
        self.length
    }

    fn row(&self, what: u64) -> [u64; 4] {
        [what, self.slot, self.at as u64, self.length as u64]
    }
}

pub enum Argument {
    Number(u64),
    /// Lent to read: the driver sees that it stays as it was.
    Read(Slice),
    /// Lent to change: it comes back with the answer.
    Change(Slice),
    /// Lent to change: it stays in the driver, and a call says which parts of it come back.
    Keep(Slice),
}

use Argument::*;

/// A part of a slot, and what the model says that it is.
pub type Look = (Slice, Vec<u8>);

/// A call that was sent, and what the model says: the value, and what each part that comes
/// back is.
struct Asked {
    function: Function,
    arguments: Vec<Argument>,
    value: u64,
    looks: Vec<Look>,
}

/// The driver's end of the answers.
struct Answers {
    test: &'static str,
    child: Child,
    stdout: BufReader<ChildStdout>,
}

pub struct Driver {
    stdin: ChildStdin,
    answers: Answers,
    requests: Vec<u8>,
    asked: Vec<Asked>,
    /// Bytes of requests and answers that have not yet gone.
    together: usize,
    /// Answers, and slices lent to change, that are compared.
    pub checks: u64,
}

fn changing(arguments: &[Argument]) -> impl Iterator<Item = &Slice> {
    arguments.iter().filter_map(|argument| match argument {
        Change(slice) => Some(slice),
        _ => None,
    })
}

impl Driver {
    pub fn start(test: &'static str, program: &str) -> Driver {
        let mut command = Command::new("./launch");
        command.arg(program).stdin(Stdio::piped()).stdout(Stdio::piped());
        let mut child = command.spawn().unwrap_or_else(|error| {
            println!("{test}: ./launch: {error}");
            exit(2)
        });
        let stdin = child.stdin.take().unwrap();
        let stdout = BufReader::with_capacity(TOGETHER, child.stdout.take().unwrap());
        let answers = Answers { test, child, stdout };
        Driver { stdin, answers, requests: vec![], asked: vec![], together: 0, checks: 0 }
    }

    /// Puts these bytes into a slot.
    pub fn put(&mut self, slot: u64, bytes: &[u8]) -> Slice {
        self.row([PUT, slot, bytes.len() as u64, 0]);
        self.requests.extend_from_slice(bytes);
        self.more(bytes.len());
        Slice { slot, at: 0, length: bytes.len(), put: bytes.into() }
    }

    /// One call by both: the model says what it answers, and what each slice that is lent to
    /// change is afterwards.
    pub fn call(
        &mut self,
        function: Function,
        arguments: Vec<Argument>,
        value: u64,
        changed: Vec<Vec<u8>>,
    ) {
        assert_eq!(changing(&arguments).count(), changed.len());
        let looks = changing(&arguments).cloned().zip(changed).collect();
        self.call_and_look(function, arguments, value, looks);
    }

    /// The same, where the caller says which parts come back: what was lent to change, and
    /// parts of what stays in the driver.
    pub fn call_and_look(
        &mut self,
        function: Function,
        arguments: Vec<Argument>,
        value: u64,
        looks: Vec<Look>,
    ) {
        self.request(function, &arguments);
        looks.iter().for_each(|(slice, _)| self.row(slice.row(GET)));
        self.checks += 1 + looks.len() as u64;
        let awaited = looks.iter().map(|(_, bytes)| bytes.len()).sum();
        self.asked.push(Asked { function, arguments, value, looks });
        self.more(awaited);
    }

    /// One call by the library alone: what it answers, and each slice that was lent to change.
    pub fn ask(&mut self, function: Function, arguments: Vec<Argument>) -> (u64, Vec<Vec<u8>>) {
        self.compare();
        self.request(function, &arguments);
        changing(&arguments).for_each(|slice| self.row(slice.row(GET)));
        self.compare();
        let value = self.answers.word();
        (value, changing(&arguments).map(|slice| self.answers.bytes(slice.length)).collect())
    }

    /// Compares what is left; the driver must end well. Gives the number of checks.
    pub fn finish(mut self) -> u64 {
        self.compare();
        let Driver { stdin, mut answers, checks, .. } = self;
        drop(stdin);
        answers.ended();
        checks
    }

    fn row(&mut self, row: [u64; 4]) {
        row.iter().for_each(|word| self.requests.extend_from_slice(&word.to_le_bytes()));
    }

    fn request(&mut self, function: Function, arguments: &[Argument]) {
        self.row([CALL, function.0, arguments.len() as u64, 0]);
        for argument in arguments {
            self.row(match argument {
                Number(number) => [NUMBER, *number, 0, 0],
                Read(slice) => slice.row(READ),
                Change(slice) | Keep(slice) => slice.row(CHANGE),
            });
        }
    }

    /// A request more, with so many bytes put or awaited.
    fn more(&mut self, bytes: usize) {
        self.together += 256 + bytes;
        if self.together >= TOGETHER {
            self.compare();
        }
    }

    /// Sends the requests, and compares the answers with what the model says.
    fn compare(&mut self) {
        self.row([SEND, 0, 0, 0]);
        self.together = 0;
        let requests = std::mem::take(&mut self.requests);
        let Driver { stdin, answers, asked, .. } = self;
        std::thread::scope(|scope| {
            // Its own thread: the driver may be waiting for its answers to be read. Where it
            // has ended, an answer is missing.
            scope.spawn(|| stdin.write_all(&requests).is_ok());
            asked.drain(..).for_each(|one| answers.compare(one));
        });
    }
}

impl Answers {
    fn read(&mut self, bytes: &mut [u8]) {
        if self.stdout.read_exact(bytes).is_err() {
            self.ended();
            println!("{}: the driver ended before its last answer", self.test);
            exit(1)
        }
    }

    fn word(&mut self) -> u64 {
        let mut word = [0; 8];
        self.read(&mut word);
        u64::from_le_bytes(word)
    }

    fn bytes(&mut self, length: usize) -> Vec<u8> {
        let mut bytes = vec![0; length];
        self.read(&mut bytes);
        bytes
    }

    fn ended(&mut self) {
        let status = self.child.wait().unwrap();
        if !status.success() {
            println!("{}: the driver ended with {status}", self.test);
            exit(1)
        }
    }

    fn compare(&mut self, asked: Asked) {
        let got = self.word();
        if got != asked.value {
            self.different(&asked, &format!("{got}, the model {}", asked.value));
        }
        for (slice, expected) in &asked.looks {
            let got = self.bytes(slice.length);
            if got != *expected {
                let at = (0..).find(|&at| got.get(at) != expected.get(at)).unwrap();
                self.different(&asked, &format!("byte {at} of what it was lent to change"));
            }
        }
    }

    fn different(&self, asked: &Asked, what: &str) -> ! {
        let mut words = Vec::new();
        for (i, argument) in asked.arguments.iter().enumerate() {
            words.push(match argument {
                Number(number) => number.to_string(),
                Read(slice) | Change(slice) | Keep(slice) => self.saved(i, slice),
            });
        }
        let name = asked.function.1;
        println!("{}: DIFFERENT: {name}({}): {what}", self.test, words.join(", "));
        exit(1)
    }

    /// Saves what a slice was when it was put.
    fn saved(&self, argument: usize, slice: &Slice) -> String {
        let path = std::env::temp_dir().join(format!("{}-different.{argument}", self.test));
        let _ = std::fs::write(&path, &slice.put[slice.at..slice.at + slice.length]);
        format!("{} bytes in {}", slice.length, path.display())
    }
}
