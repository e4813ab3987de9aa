//! Salvage by libmodel.a against a model of it: a hundred thousand damaged images, outputs and
//! lists too short, exact and longer, all of them dirty. After each call the answer and
//! everything lent are compared; of each salvaged image the paper's claims are looked at too.
//! `salvage DRIVER [SEED]`, in the root of the repository, with the driver of
//! `tests/salvage_calls.c`; ends with `salvage: N images, M checks`, status 1 on the first
//! difference.

mod driver;
mod model;

use driver::Argument::{Change, Read};
use driver::{Driver, Function};
use model::draw::Random;
use model::{Record, IMAGE_BLOCK, RECORD, RECORDS, RECORDS_AT};
use std::process::exit;

const SALVAGE: Function = Function(0, "tag_salvage");
const LISTED: Function = Function(1, "tag_salvage_listed");
const REFUSED: u64 = 1 << 32;
const IMAGES: u64 = 100_000;

/// E8 of document 02 in plain Rust, in its words and from them alone.
mod paper {
    use super::model::*;

    pub struct Salvaged {
        pub kept: Vec<Record>,
        pub image: Vec<u8>,
        pub list: Vec<u64>,
    }

    pub fn blocks(image: &[u8]) -> Vec<&[u8]> {
        image.chunks_exact(IMAGE_BLOCK).collect()
    }

    fn check_right(image: &[u8], block: &[u8]) -> bool {
        block[CHECK_AT..] == check(version(image), block)
    }

    /// "It needs a sound head. .. 10 for a bad length or head check, then 11 for a head rule
    /// broken (m apart)".
    pub fn head(image: &[u8]) -> Result<(), u64> {
        if image.is_empty() || image.len() % IMAGE_BLOCK != 0 {
            return Err(10);
        }
        let head = &image[..IMAGE_BLOCK];
        if !check_right(image, head) {
            return Err(10);
        }
        let sound = number32(head, 0) == 0
            && number16(head, 4) == 1
            && [1, 2].contains(&number16(head, 6))
            && leaves_in_limits(number32(head, 8) as u64)
            && !some_byte(&head[16..CHECK_AT]);
        if sound { Ok(()) } else { Err(11) }
    }

    /// "the blocks whose check, number, kind, count (7, in the last 1 to 7) and unused bytes
    /// are right".
    pub fn sound(image: &[u8], place: usize) -> bool {
        let block = blocks(image)[place];
        let last = place + 1 == blocks(image).len();
        let count = number16(block, 6) as usize;
        check_right(image, block)
            && number32(block, 0) as usize == place
            && number16(block, 4) == 2
            && (count == 7 || last && (1..=7).contains(&count))
            && !some_byte(&block[RECORDS_AT + RECORD * count..CHECK_AT])
    }

    pub fn records(block: &[u8]) -> Vec<Record> {
        let record = |i: usize| {
            let at = RECORDS_AT + RECORD * i;
            let bytes = block[at + 4..at + RECORD].try_into().unwrap();
            Record { leaf: number32(block, at), bytes }
        };
        (0..number16(block, 6) as usize).map(record).collect()
    }

    /// "taking each record that is not empty, has a number below n and above the last one
    /// kept"; "it lists in input order each block not used, as 8 x its place + 7, and each
    /// record left out, as 8 x block place + 0 to 6".
    pub fn salvage(image: &[u8]) -> Result<Salvaged, u64> {
        head(image)?;
        let n = number32(image, 8);
        let (mut kept, mut list): (Vec<Record>, Vec<u64>) = (vec![], vec![]);
        for (place, block) in blocks(image).into_iter().enumerate().skip(1) {
            if !sound(image, place) {
                list.push(8 * place as u64 + 7);
                continue;
            }
            for (i, record) in records(block).into_iter().enumerate() {
                let above = kept.last().map_or(true, |last| last.leaf < record.leaf);
                if some_byte(&record.bytes) && record.leaf < n && above {
                    kept.push(record);
                } else {
                    list.push(8 * place as u64 + i as u64);
                }
            }
        }
        let image = encode(n as u64, &kept);
        Ok(Salvaged { kept, image, list })
    }
}

fn in_bytes(list: &[u64]) -> Vec<u8> {
    list.iter().flat_map(|entry| entry.to_le_bytes()).collect()
}

fn expect(driver: &mut Driver, what: &str, right: bool) {
    if !right {
        println!("salvage: DIFFERENT: {what}");
        exit(1);
    }
    driver.checks += 1;
}

/// One salvage by both, into a dirty output and list of these lengths.
fn salvage(driver: &mut Driver, random: &mut Random, image: &[u8], room: usize, entries: usize) {
    let (mut output, mut list) = (vec![0; room], vec![0; 8 * entries]);
    random.fill(&mut output);
    random.fill(&mut list);
    let lent = vec![
        Read(driver.put(0, image)),
        Change(driver.put(1, &output)),
        Change(driver.put(2, &list)),
    ];
    let expected = match paper::salvage(image) {
        Err(refusal) => REFUSED + refusal,
        Ok(salvaged) if room < salvaged.image.len() || entries < salvaged.list.len() => REFUSED + 9,
        Ok(salvaged) => {
            let listed = in_bytes(&salvaged.list);
            output[..salvaged.image.len()].copy_from_slice(&salvaged.image);
            list[..listed.len()].copy_from_slice(&listed);
            salvaged.image.len() as u64
        }
    };
    driver.call(SALVAGE, lent, expected, vec![output, list]);
}

/// The paper's claims of the model's own answer, so of the library's.
fn claims(driver: &mut Driver, image: &[u8], salvaged: &paper::Salvaged) {
    expect(driver, "the new image is accepted", model::image_test(&salvaged.image) == 0);
    expect(driver, "it is no longer than the image", salvaged.image.len() <= image.len());
    expect(driver, "the list rises", salvaged.list.windows(2).all(|two| two[0] < two[1]));
    let mut told = 0;
    let mut from = vec![];
    for place in 1..image.len() / IMAGE_BLOCK {
        if paper::sound(image, place) {
            let records = paper::records(paper::blocks(image)[place]);
            told += records.len();
            from.extend(records);
        } else {
            told += 1;
        }
    }
    let all = salvaged.kept.len() + salvaged.list.len();
    expect(driver, "every record and block is kept or listed", told == all);
    let sound = salvaged.kept.iter().all(|record| from.contains(record));
    expect(driver, "every leaf is one from a sound block", sound);
    let again = paper::salvage(&salvaged.image);
    let same = again.is_ok_and(|again| again.image == salvaged.image && again.list.is_empty());
    expect(driver, "salvaging again changes nothing", same);
    if model::image_test(image) == 0 {
        expect(driver, "nothing of a sound image is listed", salvaged.list.is_empty());
        let old = model::version(image) == 1;
        expect(driver, "a sound image of version 2 is unchanged", old || salvaged.image == image);
    }
}

/// One image: salvaged into outputs and lists that have room, just do and just do not.
fn all_ways(driver: &mut Driver, random: &mut Random, image: &[u8]) {
    let listed = match paper::salvage(image) {
        Err(refusal) => {
            salvage(driver, random, image, image.len(), 4);
            salvage(driver, random, image, 0, 0);
            REFUSED + refusal
        }
        Ok(salvaged) => {
            claims(driver, image, &salvaged);
            let (room, entries) = (salvaged.image.len(), salvaged.list.len());
            salvage(driver, random, image, room, entries);
            match random.below(6) {
                0 => salvage(driver, random, image, room - 1, entries),
                1 if entries > 0 => salvage(driver, random, image, room, entries - 1),
                2 => salvage(driver, random, image, room - 512, entries + 1),
                3 => salvage(driver, random, image, room + 700, entries + 3),
                4 => salvage(driver, random, image, 0, 0),
                _ => salvage(driver, random, image, image.len(), entries),
            }
            entries as u64
        }
    };
    let lent = vec![Read(driver.put(0, image))];
    driver.call(LISTED, lent, listed, vec![]);
}

/// A sound image of either version, most often of few blocks.
fn sound_image(random: &mut Random) -> Vec<u8> {
    let n = match random.below(10) {
        0 => 1,
        1 => 262_144,
        _ => 1 + random.below(60),
    };
    let most = random.pick(&[0, 1, 6, 7, 8, 14, 15, 22, 30]).min(n);
    let mut leaves = std::collections::BTreeSet::new();
    while (leaves.len() as u64) < most {
        leaves.insert(random.below(n) as u32);
    }
    let record = |leaf: u32| {
        let mut bytes = [0; 64];
        if random.percent(50) {
            random.fill(&mut bytes);
        }
        bytes[random.below(64) as usize] |= 1;
        Record { leaf, bytes }
    };
    let records: Vec<Record> = leaves.into_iter().map(record).collect();
    let version = if random.percent(30) { 1 } else { 2 };
    model::encode_as(version, n, &records)
}

fn put16(block: &mut [u8], at: usize, v: u64) {
    block[at..at + 2].copy_from_slice(&(v as u16).to_le_bytes());
}

fn put32(block: &mut [u8], at: usize, v: u64) {
    block[at..at + 4].copy_from_slice(&(v as u32).to_le_bytes());
}

/// One damage of the head: each of its fields, and the bytes after them.
fn broken_head(random: &mut Random, head: &mut [u8]) {
    match random.below(8) {
        0 => put32(head, 0, random.pick(&[1, 255, 1 << 31])),
        1 => put16(head, 4, random.pick(&[0, 2, 256])),
        2 => put16(head, 6, random.pick(&[0, 1, 2, 3, 258, 65_535])),
        3 => put32(head, 8, random.pick(&[0, 1, 262_144, 262_145, u32::MAX as u64])),
        4 => put32(head, 8, 1 + random.below(40)),
        5 => put32(head, 12, random.pick(&[0, 1, 7, u32::MAX as u64])),
        6 => head[16 + random.below(492) as usize] = 1 + random.below(255) as u8,
        _ => head[508 + random.below(4) as usize] ^= 1 << random.below(8),
    }
}

/// One damage of a record block: its front, a record, its unused bytes, its check.
fn broken_block(random: &mut Random, block: &mut [u8], place: usize) {
    let slot = RECORDS_AT + RECORD * random.below(RECORDS as u64) as usize;
    match random.below(12) {
        0 => put32(block, 0, random.pick(&[0, place as u64 + 1, place as u64 - 1, 1 << 24])),
        1 => put16(block, 4, random.pick(&[0, 1, 3, 513])),
        2 | 3 => put16(block, 6, random.pick(&[0, 1, 2, 6, 7, 8, 263, 65_535])),
        4 | 5 => put32(block, slot, random.below(60)),
        6 => put32(block, slot, random.pick(&[0, 262_143, 262_144, u32::MAX as u64])),
        7 | 8 => block[slot + 4..slot + RECORD].fill(0),
        9 => block[484 + random.below(24) as usize] = 1 + random.below(255) as u8,
        10 => block[508 + random.below(4) as usize] ^= 1 << random.below(8),
        _ => block[random.below(512) as usize] = random.next() as u8,
    }
}

/// One damage of an image; where bytes were changed, the block is sealed again or not.
fn damage(random: &mut Random, image: &mut Vec<u8>) {
    let blocks = image.len() / IMAGE_BLOCK;
    if blocks == 0 {
        return;
    }
    // The head is spared more often than another block.
    let mut place = || random.below(blocks as u64).max(random.below(blocks as u64)) as usize;
    let (place, other) = (place(), place());
    let range = |place: usize| IMAGE_BLOCK * place..IMAGE_BLOCK * (place + 1);
    match random.below(12) {
        0 => drop(image.drain(range(place))),
        1 => {
            let block = image[range(place)].to_vec();
            image.splice(IMAGE_BLOCK * other..IMAGE_BLOCK * other, block);
        }
        2 => {
            let block = image[range(place)].to_vec();
            image.copy_within(range(other), range(place).start);
            image[range(other)].copy_from_slice(&block);
        }
        3 => image.truncate(IMAGE_BLOCK * place),
        4 if random.percent(20) => image.truncate(random.below(image.len() as u64) as usize),
        4 => image.extend_from_slice(&vec![random.pick(&[0, 255]); IMAGE_BLOCK]),
        _ => {
            let place = if random.percent(8) { 0 } else { place };
            let seal = random.percent(75);
            let version = model::version(image);
            let block = &mut image[range(place)];
            if place == 0 {
                broken_head(random, block);
            } else {
                broken_block(random, block, place);
            }
            if seal {
                let version = if place == 0 { model::number16(block, 6) } else { version };
                model::seal(version, block);
            }
        }
    }
}

fn main() {
    let arguments: Vec<String> = std::env::args().collect();
    let seed = arguments.get(2).map_or(8, |seed| seed.parse().expect("a seed is a number"));
    let mut random = Random(seed);
    let mut driver = Driver::start("salvage", &arguments[1]);
    let mut images = 0;
    let (mut refused, mut whole, mut kept, mut listed) = (0, 0, 0, 0);
    while images < IMAGES {
        let mut image = sound_image(&mut random);
        for _ in 0..random.below(6) {
            damage(&mut random, &mut image);
        }
        all_ways(&mut driver, &mut random, &image);
        match paper::salvage(&image) {
            Err(_) => refused += 1,
            Ok(salvaged) => {
                whole += salvaged.list.is_empty() as u64;
                kept += salvaged.kept.len();
                listed += salvaged.list.len();
            }
        }
        images += 1;
    }
    // A large one: every seventh leaf of the most there are, some of its blocks bad.
    let record = |leaf: u32| Record { leaf, bytes: [leaf as u8 | 1; 64] };
    let mut image = model::encode(262_144, &(0..262_144).step_by(7).map(record).collect::<Vec<_>>());
    for place in (5..image.len() / IMAGE_BLOCK).step_by(97) {
        image[IMAGE_BLOCK * place + 100] ^= 1;
    }
    all_ways(&mut driver, &mut random, &image);
    println!("salvage: {refused} heads refused, {whole} with nothing listed, {kept} records kept, {listed} entries");
    println!("salvage: {images} images, {} checks", driver.finish());
}
