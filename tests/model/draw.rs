//! Random memories and damaged images for the tests. No rule of 01 stands here.

use super::*;

/// A seeded generator (splitmix64).
pub struct Random(pub u64);

impl Random {
    pub fn next(&mut self) -> u64 {
        self.0 = self.0.wrapping_add(0x9e37_79b9_7f4a_7c15);
        let mut z = self.0;
        z = (z ^ (z >> 30)).wrapping_mul(0xbf58_476d_1ce4_e5b9);
        z = (z ^ (z >> 27)).wrapping_mul(0x94d0_49bb_1331_11eb);
        z ^ (z >> 31)
    }

    /// A number below `end`, which is not 0.
    pub fn below(&mut self, end: u64) -> u64 {
        self.next() % end
    }

    /// True `parts` times in a hundred.
    pub fn percent(&mut self, parts: u64) -> bool {
        self.below(100) < parts
    }

    pub fn pick<T: Copy>(&mut self, from: &[T]) -> T {
        from[self.below(from.len() as u64) as usize]
    }

    pub fn fill(&mut self, bytes: &mut [u8]) {
        for eight in bytes.chunks_mut(8) {
            let drawn = self.next().to_le_bytes();
            eight.copy_from_slice(&drawn[..eight.len()]);
        }
    }
}

/// A true memory of n leaves in which about `parts` of a hundred have bit 1. Some of
/// those have one byte only; under bit 0 there are stale bytes.
pub fn true_memory(random: &mut Random, n: u64, parts: u64) -> Vec<u8> {
    let mut memory = vec![0; memory_length(n)];
    let leaves = BLOCK * n as usize;
    random.fill(&mut memory[..leaves]);
    for k in 0..n {
        if random.percent(parts) {
            put_bit(&mut memory[own_place(n, Block::Map(map_of(k)))], k, true);
            let leaf = &mut memory[own_place(n, Block::Leaf(k))];
            if random.percent(30) {
                leaf.fill(0);
            }
            leaf[random.below(BLOCK as u64) as usize] = 1 + random.below(255) as u8;
        }
    }
    memory
}

/// A true memory of n leaves, m of them with bit 1.
pub fn true_memory_of(random: &mut Random, n: u64, m: u64) -> Vec<u8> {
    let mut memory = true_memory(random, n, 0);
    let mut set = 0;
    while set < m {
        let k = random.below(n);
        if !bit_of(n, &memory, k) {
            put_bit(&mut memory[own_place(n, Block::Map(map_of(k)))], k, true);
            memory[own_place(n, Block::Leaf(k))][random.below(BLOCK as u64) as usize] |= 1;
            set += 1;
        }
    }
    memory
}

fn resealed(image: &[u8], change: impl FnOnce(&mut [u8])) -> Vec<u8> {
    let mut damaged = image.to_vec();
    change(&mut damaged);
    let version = if damaged.len() < 8 { 2 } else { version(&damaged) };
    for block in damaged.chunks_exact_mut(IMAGE_BLOCK) {
        seal(version, block);
    }
    damaged
}

/// Every single-bit damage of an image, as it is and resealed.
pub fn single_bits(image: &[u8], mut each: impl FnMut(&[u8])) {
    let mut damaged = image.to_vec();
    for bit in 0..8 * image.len() {
        let flip = 1 << (bit % 8);
        damaged[bit / 8] ^= flip;
        each(&damaged);
        let block = bit / 8 / IMAGE_BLOCK * IMAGE_BLOCK;
        let version = version(&damaged);
        seal(version, &mut damaged[block..block + IMAGE_BLOCK]);
        each(&damaged);
        damaged[block..block + IMAGE_BLOCK].copy_from_slice(&image[block..block + IMAGE_BLOCK]);
    }
}

/// Every truncation of an image, and extensions.
pub fn lengths(image: &[u8], mut each: impl FnMut(&[u8])) {
    for end in 0..image.len() {
        each(&image[..end]);
    }
    for more in [1, 2, 511, 512, 513, 1024] {
        for byte in [0, 0xff] {
            let mut longer = image.to_vec();
            longer.resize(image.len() + more, byte);
            each(&longer);
            each(&resealed(&longer, |_| {}));
        }
    }
    // One more block with no record.
    let blocks = image.len() / IMAGE_BLOCK;
    let mut longer = image.to_vec();
    longer.resize(image.len() + IMAGE_BLOCK, 0);
    each(&resealed(&longer, |d| {
        d[IMAGE_BLOCK * blocks..][..4].copy_from_slice(&(blocks as u32).to_le_bytes());
        d[IMAGE_BLOCK * blocks + 4] = 2;
    }));
    // One more block that is like a block of the image, numbered as it must be or not.
    for block in image.chunks(IMAGE_BLOCK) {
        let mut longer = image.to_vec();
        longer.extend_from_slice(block);
        each(&longer);
        each(&resealed(&longer, |d| {
            d[IMAGE_BLOCK * blocks..][..4].copy_from_slice(&(blocks as u32).to_le_bytes())
        }));
    }
}

/// Damage of every field, each block's check made right again.
pub fn fields(image: &[u8], mut each: impl FnMut(&[u8])) {
    let blocks = image.len() / IMAGE_BLOCK;
    let n = number32(image, 8);
    let m = number32(image, 12);
    let most = MOST_LEAVES as u32;
    let mut put = |at: usize, bytes: &[u8]| {
        each(&resealed(image, |d| d[at..at + bytes.len()].copy_from_slice(bytes)));
    };
    let leaf_at =
        |p: usize| IMAGE_BLOCK * (1 + p / RECORDS) + RECORDS_AT + RECORD * (p % RECORDS);
    for i in 0..blocks {
        let block = IMAGE_BLOCK * i;
        let number = i as u32;
        for value in [0, 1, 2, number ^ 1, number + 1, number + 65_536, u32::MAX] {
            put(block, &value.to_le_bytes());
        }
        for value in [0u16, 1, 2, 3, 0x0101, 0x0102, 0x0200, 0xffff] {
            put(block + 4, &value.to_le_bytes());
        }
        for value in (0u16..10).chain([0x0100, 0x0101, 0x0107, 0x0700, 0xffff]) {
            put(block + 6, &value.to_le_bytes());
        }
        // Every byte after these, used or not.
        for at in block + 8..block + CHECK_AT {
            put(at, &[0]);
            put(at, &[0x80]);
        }
    }
    for value in [0, 1, 2, n - 1, n + 1, 511, 512, 513, most - 1, most, most + 1, u32::MAX] {
        put(8, &value.to_le_bytes());
    }
    for value in [0, 1, m.wrapping_sub(1), m + 1, m + 7, m + 65_536, u32::MAX] {
        put(12, &value.to_le_bytes());
    }
    for p in 0..m as usize {
        let at = leaf_at(p);
        let leaf = number32(image, at);
        let other = number32(image, leaf_at(p.saturating_sub(1)));
        let next = number32(image, leaf_at((p + 1).min(m as usize - 1)));
        for value in [
            0,
            leaf.wrapping_sub(1),
            leaf + 1,
            other,
            other + 1,
            next,
            n - 1,
            n,
            n + 1,
            u32::MAX,
        ] {
            put(at, &value.to_le_bytes());
        }
        put(at + 4, &[0; BLOCK]);
        for byte in 0..BLOCK {
            let mut one = [0; BLOCK];
            one[byte] = 1;
            put(at + 4, &one);
        }
        // n made to end just at and just after this leaf.
        put(8, &leaf.to_le_bytes());
        put(8, &(leaf + 1).to_le_bytes());
    }
}

/// Damage that moves whole parts or keeps, exchanges or bends the check.
pub fn moves(random: &mut Random, image: &[u8], mut each: impl FnMut(&[u8])) {
    let blocks = image.len() / IMAGE_BLOCK;
    let renumber = |d: &mut [u8]| {
        for (i, block) in d.chunks_exact_mut(IMAGE_BLOCK).enumerate() {
            block[..4].copy_from_slice(&(i as u32).to_le_bytes());
        }
    };
    for i in 0..blocks {
        // A block stands in another's place, or is left out.
        for j in 0..blocks {
            let mut order: Vec<usize> = (0..blocks).collect();
            order.swap(i, j);
            let swapped: Vec<u8> = order
                .iter()
                .flat_map(|&b| image[IMAGE_BLOCK * b..][..IMAGE_BLOCK].to_vec())
                .collect();
            each(&swapped);
            each(&resealed(&swapped, renumber));
        }
        let mut without = image.to_vec();
        without.drain(IMAGE_BLOCK * i..IMAGE_BLOCK * (i + 1));
        each(&without);
        each(&resealed(&without, renumber));
        // Zero and 65,535 are the same in both sums of version 1: the check stays right.
        for at in (0..CHECK_AT).step_by(2) {
            let at = IMAGE_BLOCK * i + at;
            let other = match number16(image, at) {
                0 => [0xff, 0xff],
                0xffff => [0, 0],
                _ => continue,
            };
            let mut damaged = image.to_vec();
            damaged[at..at + 2].copy_from_slice(&other);
            each(&damaged);
        }
        // The check's four bytes in other orders, and random ones.
        let at = IMAGE_BLOCK * i + CHECK_AT;
        let c: [u8; 4] = image[at..at + 4].try_into().unwrap();
        let orders = [[1, 0, 2, 3], [0, 1, 3, 2], [2, 3, 0, 1], [3, 2, 1, 0], [1, 0, 3, 2]];
        for order in orders {
            let mut damaged = image.to_vec();
            damaged[at..at + 4].copy_from_slice(&order.map(|j: usize| c[j]));
            each(&damaged);
        }
        for _ in 0..8 {
            let mut damaged = image.to_vec();
            random.fill(&mut damaged[at..at + 4]);
            each(&damaged);
        }
        // One sum made 0 by the last word; stored as 0 it is right, as 65,535 it is wrong.
        for sum in 0..2 {
            let (word, stored) = (at - 2, at + 2 * sum);
            let mut damaged = image.to_vec();
            let version = version(image);
            let value = (number16(image, word) as u32 + modulus(version)
                - number16(image, stored) as u32)
                % modulus(version);
            damaged[word..at].copy_from_slice(&(value as u16).to_le_bytes());
            seal(version, &mut damaged[IMAGE_BLOCK * i..IMAGE_BLOCK * (i + 1)]);
            assert_eq!(number16(&damaged, stored), 0);
            each(&damaged);
            damaged[stored..stored + 2].fill(0xff);
            each(&damaged);
        }
    }
}

/// Every damage above.
pub fn damages(random: &mut Random, image: &[u8], mut each: impl FnMut(&[u8])) {
    each(image);
    single_bits(image, &mut each);
    lengths(image, &mut each);
    fields(image, &mut each);
    moves(random, image, &mut each);
}
