//! 01 "The tag memory".

use super::*;

/// A leaf block and a map block are 64 bytes.
pub const BLOCK: usize = 64;
/// A leaf block is 16 groups of 4 bytes.
pub const GROUPS: u64 = 16;
/// A map block is 512 bits.
pub const BITS: u64 = 512;
/// There are n leaves, 1 to 262,144.
pub const MOST_LEAVES: u64 = 262_144;

/// A block of the memory by its number among the leaves or among the map blocks.
#[derive(Clone, Copy, PartialEq, Debug)]
pub enum Block {
    Leaf(u64),
    Map(u64),
}

pub fn leaves_in_limits(n: u64) -> bool {
    (1..=MOST_LEAVES).contains(&n)
}

/// n / 512 rounded up.
pub fn map_blocks(n: u64) -> u64 {
    (n + BITS - 1) / BITS
}

/// Memory is the n leaves, then the map blocks: 64 x (n + n/512 rounded up) bytes.
pub fn memory_length(n: u64) -> usize {
    BLOCK * (n + map_blocks(n)) as usize
}

/// The leaf in which group g lies.
pub fn leaf_of(g: u64) -> u64 {
    g / GROUPS
}

/// The map block in which leaf k has its bit.
pub fn map_of(k: u64) -> u64 {
    k / BITS
}

/// The bytes of a block's own place in the memory.
pub fn own_place(n: u64, block: Block) -> std::ops::Range<usize> {
    let at = match block {
        Block::Leaf(k) => BLOCK * k as usize,
        Block::Map(m) => BLOCK * (n + m) as usize,
    };
    at..at + BLOCK
}

/// Group g in its leaf's 64 bytes: 4 bytes at 4 x (g mod 16), low byte first.
pub fn group_in(leaf: &[u8], g: u64) -> u32 {
    let at = 4 * (g % GROUPS) as usize;
    u32::from_le_bytes(leaf[at..at + 4].try_into().unwrap())
}

pub fn put_group(leaf: &mut [u8], g: u64, v: u32) {
    let at = 4 * (g % GROUPS) as usize;
    leaf[at..at + 4].copy_from_slice(&v.to_le_bytes());
}

/// Leaf k's bit in its map block's 64 bytes: byte (k mod 512) / 8, bit k mod 8, bit 0 lowest.
pub fn bit_in(map: &[u8], k: u64) -> bool {
    map[(k % BITS / 8) as usize] >> (k % 8) & 1 == 1
}

pub fn put_bit(map: &mut [u8], k: u64, bit: bool) {
    let byte = &mut map[(k % BITS / 8) as usize];
    if bit {
        *byte |= 1 << (k % 8);
    } else {
        *byte &= !(1 << (k % 8));
    }
}

/// Some byte is not zero.
pub fn some_byte(bytes: &[u8]) -> bool {
    bytes.iter().any(|&b| b != 0)
}

/// Leaf k's bit as the memory has it.
pub fn bit_of(n: u64, memory: &[u8], k: u64) -> bool {
    bit_in(&memory[own_place(n, Block::Map(map_of(k)))], k)
}

/// Plain reading: a group under bit 0 is zero, under bit 1 it is the leaf's bytes.
/// Refusals 1, 2, 6.
pub fn plain_read(n: u64, memory: &[u8], g: u64) -> Result<u32, u64> {
    if !leaves_in_limits(n) {
        return Err(1);
    }
    if memory.len() != memory_length(n) {
        return Err(2);
    }
    if g >= GROUPS * n {
        return Err(6);
    }
    let k = leaf_of(g);
    Ok(if bit_of(n, memory, k) { group_in(&memory[own_place(n, Block::Leaf(k))], g) } else { 0 })
}

/// A memory is true when every bit 1 stands over a leaf with some byte not zero and all
/// bits for leaves n and up are 0.
pub fn is_true(n: u64, memory: &[u8]) -> bool {
    (0..map_blocks(n) * BITS)
        .all(|k| !bit_of(n, memory, k) || k < n && some_byte(&memory[own_place(n, Block::Leaf(k))]))
}
