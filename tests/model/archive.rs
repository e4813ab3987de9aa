//! 01 "Archive image", with 02 E2.

use super::*;

/// An image is blocks of 512 bytes.
pub const IMAGE_BLOCK: usize = 512;
/// Records stand from byte 8, each the leaf number (4 bytes) and its 64 bytes, at most 7.
pub const RECORDS_AT: usize = 8;
pub const RECORD: usize = 4 + BLOCK;
pub const RECORDS: usize = 7;
/// The check's place: bytes 508 to 511.
pub const CHECK_AT: usize = 508;

#[derive(Clone, PartialEq, Debug)]
pub struct Record {
    pub leaf: u32,
    pub bytes: [u8; BLOCK],
}

/// All numbers low byte first.
pub fn number16(block: &[u8], at: usize) -> u16 {
    u16::from_le_bytes(block[at..at + 2].try_into().unwrap())
}

pub fn number32(block: &[u8], at: usize) -> u32 {
    u32::from_le_bytes(block[at..at + 4].try_into().unwrap())
}

/// The version in the head: bytes 6 to 7 of block 0.
pub fn version(image: &[u8]) -> u16 {
    number16(image, 6)
}

/// Version 1 takes both sums modulo 65,535, every other modulo 65,536.
pub fn modulus(version: u16) -> u32 {
    if version == 1 {
        65_535
    } else {
        65_536
    }
}

/// Check, over the 254 two-byte words of bytes 0 to 507. Stored: a, then b.
pub fn check(version: u16, block: &[u8]) -> [u8; 4] {
    let (mut a, mut b) = (1u32, 0u32);
    for at in (0..CHECK_AT).step_by(2) {
        a = (a + number16(block, at) as u32) % modulus(version);
        b = (b + a) % modulus(version);
    }
    let (a, b) = ((a as u16).to_le_bytes(), (b as u16).to_le_bytes());
    [a[0], a[1], b[0], b[1]]
}

pub fn seal(version: u16, block: &mut [u8]) {
    let sums = check(version, block);
    block[CHECK_AT..].copy_from_slice(&sums);
}

/// The image of these records: what is written, version 2.
pub fn encode(n: u64, records: &[Record]) -> Vec<u8> {
    encode_as(2, n, records)
}

/// The image of these records in a version: block 0, then 7 records to a block.
pub fn encode_as(version: u16, n: u64, records: &[Record]) -> Vec<u8> {
    let mut head = vec![0; IMAGE_BLOCK];
    head[4..6].copy_from_slice(&1u16.to_le_bytes());
    head[6..8].copy_from_slice(&version.to_le_bytes());
    head[8..12].copy_from_slice(&(n as u32).to_le_bytes());
    head[12..16].copy_from_slice(&(records.len() as u32).to_le_bytes());
    seal(version, &mut head);
    let mut image = head;
    for (i, seven) in records.chunks(RECORDS).enumerate() {
        let mut block = [0; IMAGE_BLOCK];
        block[0..4].copy_from_slice(&(i as u32 + 1).to_le_bytes());
        block[4..6].copy_from_slice(&2u16.to_le_bytes());
        block[6..8].copy_from_slice(&(seven.len() as u16).to_le_bytes());
        for (j, record) in seven.iter().enumerate() {
            let at = RECORDS_AT + RECORD * j;
            block[at..at + 4].copy_from_slice(&record.leaf.to_le_bytes());
            block[at + 4..at + RECORD].copy_from_slice(&record.bytes);
        }
        seal(version, &mut block);
        image.extend_from_slice(&block);
    }
    image
}

/// The leaves with bit 1, rising.
pub fn records_of(n: u64, memory: &[u8]) -> Vec<Record> {
    (0..n)
        .filter(|&k| bit_of(n, memory, k))
        .map(|k| Record {
            leaf: k as u32,
            bytes: memory[own_place(n, Block::Leaf(k))].try_into().unwrap(),
        })
        .collect()
}

/// Writing reads a true memory, gives the image's length and leaves output past it
/// unchanged. Refusals 1, 2, 3, 9.
pub fn write_image(n: u64, memory: &[u8], output: &mut [u8]) -> Result<usize, u64> {
    if !leaves_in_limits(n) {
        return Err(1);
    }
    if memory.len() != memory_length(n) {
        return Err(2);
    }
    if !is_true(n, memory) {
        return Err(3);
    }
    let image = encode(n, &records_of(n, memory));
    if output.len() < image.len() {
        return Err(9);
    }
    output[..image.len()].copy_from_slice(&image);
    Ok(image.len())
}

/// Record p mod 7 of block 1 + p/7, or the end: the image has no such whole block, or its
/// count there is not above p mod 7. Any image, tested or not, and any place.
pub fn record(image: &[u8], p: u64) -> Option<Record> {
    let (block, place) = (1 + p / RECORDS as u64, p % RECORDS as u64);
    if block >= (image.len() / IMAGE_BLOCK) as u64 {
        return None;
    }
    let block = &image[IMAGE_BLOCK * block as usize..][..IMAGE_BLOCK];
    if number16(block, 6) as u64 <= place {
        return None;
    }
    let at = RECORDS_AT + RECORD * place as usize;
    Some(Record {
        leaf: number32(block, at),
        bytes: block[at + 4..at + RECORD].try_into().unwrap(),
    })
}

/// Opening a reader: its refusal, 10 or 11, 0 if none, its image and its place. A refused
/// reader has an empty image and place 0.
pub fn open_reader(image: &[u8]) -> (u64, &[u8], u64) {
    match image_test(image) {
        0 => (0, image, 0),
        no => (no, &[], 0),
    }
}

/// All records of an image, read one at a time from place 0 to the end.
pub fn records(image: &[u8]) -> Vec<Record> {
    (0..).map_while(|p| record(image, p)).collect()
}

/// The image test. 10: length 0 or not a multiple of 512, or a wrong check. 11: checks
/// right, another image rule broken. 0: none.
pub fn image_test(image: &[u8]) -> u64 {
    if image.is_empty() || image.len() % IMAGE_BLOCK != 0 {
        return 10;
    }
    if image.chunks(IMAGE_BLOCK).any(|block| block[CHECK_AT..] != check(version(image), block)) {
        return 10;
    }
    if !(blocks_right(image) && records_right(image)) {
        return 11;
    }
    0
}

/// Block numbers, kinds, version, counts, and zeros where nothing is said.
fn blocks_right(image: &[u8]) -> bool {
    let last = image.len() / IMAGE_BLOCK - 1;
    image.chunks(IMAGE_BLOCK).enumerate().all(|(i, block)| {
        let (kind, count) = (number16(block, 4), number16(block, 6) as usize);
        number32(block, 0) as usize == i
            && if i == 0 {
                kind == 1 && (1..=2).contains(&count) && !some_byte(&block[16..CHECK_AT])
            } else {
                kind == 2
                    && (count == RECORDS || i == last && (1..=RECORDS).contains(&count))
                    && !some_byte(&block[RECORDS_AT + RECORD * count..CHECK_AT])
            }
    })
}

/// n is in its limits, m is the number of records, leaf numbers rise and are below n, and
/// no record is empty.
fn records_right(image: &[u8]) -> bool {
    let (n, m) = (number32(image, 8), number32(image, 12));
    let records = records(image);
    leaves_in_limits(n as u64)
        && m as usize == records.len()
        && records.windows(2).all(|two| two[0].leaf < two[1].leaf)
        && records.iter().all(|record| record.leaf < n && some_byte(&record.bytes))
}

/// Restoring fills all of memory: recorded leaves and their bits, zeros elsewhere.
/// Refusals 10, 11, 2; 0 if none.
pub fn restore(image: &[u8], memory: &mut [u8]) -> u64 {
    let refusal = image_test(image);
    if refusal != 0 {
        return refusal;
    }
    let n = number32(image, 8) as u64;
    if memory.len() != memory_length(n) {
        return 2;
    }
    memory.fill(0);
    for record in records(image) {
        let k = record.leaf as u64;
        memory[own_place(n, Block::Leaf(k))].copy_from_slice(&record.bytes);
        put_bit(&mut memory[own_place(n, Block::Map(map_of(k)))], k, true);
    }
    0
}
