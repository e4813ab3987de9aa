//! The archive's calls for `tests/harness.rs`: any memory, images whole and damaged, short
//! and long, readers and their records to the end, records at any place, other lengths.

use crate::driver::Argument::{self, Change, Number, Read};
use crate::driver::{Driver, Function, Slice};
use crate::model::draw::{damages, true_memory, Random};
use crate::model::{encode_as, memory_length, open_reader, record, records_of, restore, write_image, IMAGE_BLOCK, RECORD, RECORDS, RECORDS_AT};
use crate::met::{Met, REFUSED};
use crate::words;

const WRITE_IMAGE: Function = Function(7, "tag_write_image");
const RESTORE: Function = Function(8, "tag_restore");
const RECORD_AT: Function = Function(9, "tag_record");
const OPEN_READER: Function = Function(11, "tag_open_reader");

fn number(said: Result<usize, u64>) -> u64 {
    said.map_or_else(|no| REFUSED + no, |value| value as u64)
}

fn writes(driver: &mut Driver, met: &mut Met, random: &mut Random) {
    let n = 1 + random.below(20);
    let mut memory = true_memory(random, n, 60);
    if random.percent(20) {
        random.fill(&mut memory);
    }
    let length = if random.percent(15) { random.below(memory.len() as u64 + 1) as usize } else { memory.len() };
    let asked = if random.percent(15) { random.pick(&[0, 262_145, 1 << 32, (1 << 32) + n, u64::MAX]) } else { n };
    let mut output = vec![0; random.below(4) as usize * IMAGE_BLOCK + random.pick(&[0, 1, 511])];
    random.fill(&mut output);
    let (lent, written) = (driver.put(0, &memory[..length]), driver.put(1, &output));
    let value = number(write_image(asked, &memory[..length], &mut output));
    met.one(WRITE_IMAGE, value);
    driver.call(WRITE_IMAGE, vec![Number(asked), Read(lent), Change(written)], value, vec![output]);
}

/// Words for an answer of two, as many or other.
fn two_words(random: &mut Random) -> Vec<u64> {
    let length = if random.percent(20) { random.below(5) as usize } else { 2 };
    (0..length).map(|_| random.next()).collect()
}

/// A call whose answer goes into two words: `told` says what it gives and, where it writes
/// them, the words.
fn in_two(driver: &mut Driver, met: &mut Met, function: Function, mut arguments: Vec<Argument>, mut words: Vec<u64>, told: (u64, Option<[u64; 2]>)) {
    let lent = driver.put(2, &words::bytes(&words));
    let (value, two) = if words.len() == 2 { told } else { (REFUSED + 2, None) };
    if let Some(two) = two {
        words = two.to_vec();
    }
    met.one(function, value);
    arguments.push(Change(lent));
    driver.call(function, arguments, value, vec![words::bytes(&words)]);
}

/// Opening a reader of an image that is in a slot; its place, and the part that it reads.
fn opens(driver: &mut Driver, met: &mut Met, slot: &Slice, image: &[u8], words: Vec<u64>) -> (u64, Slice) {
    let (no, part, place) = open_reader(image);
    let value = if no == 0 { 0 } else { REFUSED + no };
    in_two(driver, met, OPEN_READER, vec![Read(slot.clone())], words, (value, Some([part.len() as u64, place])));
    (place, slot.part(0..part.len()))
}

/// The record at place p of an image that is in a slot; whether there is one.
fn reads_at(driver: &mut Driver, met: &mut Met, slot: &Slice, image: &[u8], p: u64, words: Vec<u64>) -> bool {
    let found = record(image, p);
    let told = found.as_ref().map(|record| {
        let at = IMAGE_BLOCK * (1 + p as usize / RECORDS) + RECORDS_AT + RECORD * (p as usize % RECORDS) + 4;
        assert_eq!(record.bytes, image[at..at + record.bytes.len()]);
        [record.leaf as u64, at as u64]
    });
    in_two(driver, met, RECORD_AT, vec![Read(slot.clone()), Number(p)], words, (told.is_some() as u64, told));
    found.is_some()
}

/// Restoring from one image into a memory of its own length and of another, a reader of it,
/// and a record of it, tested or not.
fn reads(driver: &mut Driver, met: &mut Met, random: &mut Random, n: u64, image: &[u8]) {
    let slot = driver.put(0, image);
    let mut memory = vec![0; if random.percent(20) { random.below(2_000) as usize } else { memory_length(n) }];
    random.fill(&mut memory);
    let lent = driver.put(1, &memory);
    let value = match restore(image, &mut memory) {
        0 => 0,
        no => REFUSED + no,
    };
    met.one(RESTORE, value);
    driver.call(RESTORE, vec![Read(slot.clone()), Change(lent)], value, vec![memory]);
    opens(driver, met, &slot, image, two_words(random));
    let p = if random.below(8) == 0 { random.next() >> random.below(64) } else { random.below(12) };
    reads_at(driver, met, &slot, image, p, two_words(random));
}

/// A reader is opened, and its records are read one after another, to the end and once more.
fn walks(driver: &mut Driver, met: &mut Met, image: &[u8]) {
    let slot = driver.put(0, image);
    let (mut p, part) = opens(driver, met, &slot, image, vec![0; 2]);
    let read = &image[..part.length()];
    while reads_at(driver, met, &part, read, p, vec![0; 2]) {
        p += 1;
    }
    reads_at(driver, met, &part, read, p + 1, vec![0; 2]);
}

pub fn calls(driver: &mut Driver, met: &mut Met, random: &mut Random) {
    (0..12_000).for_each(|_| writes(driver, met, random));
    for (version, n, parts) in [(2, 3, 100), (2, 9, 90), (1, 9, 90), (2, 1, 0)] {
        let memory = true_memory(random, n, parts);
        let image = encode_as(version, n, &records_of(n, &memory));
        let mut images = vec![];
        damages(random, &image, |damaged| images.push(damaged.to_vec()));
        images.iter().step_by(2).for_each(|image| reads(driver, met, random, n, image));
        images.iter().step_by(40).for_each(|image| walks(driver, met, image));
    }
    // Long images, whole, cut short, and with a byte changed.
    for (version, n) in [(2, 700), (1, 513), (2, 2_000)] {
        let mut image = encode_as(version, n, &records_of(n, &true_memory(random, n, 60)));
        walks(driver, met, &image);
        walks(driver, met, &image[..image.len() - IMAGE_BLOCK]);
        walks(driver, met, &image[..image.len() - 1]);
        let at = random.below(image.len() as u64) as usize;
        image[at] ^= 1 << random.below(8);
        walks(driver, met, &image);
    }
}
