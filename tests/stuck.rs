//! A stuck line: words of images that became other words. In images of version 2, as the
//! library writes them, every other value of some words and several of every word of every
//! block, bytes 0 to 507, must be refused with 10, the version word among them. By the old
//! rule 0000 and FFFF are alike: such an image of version 1 is accepted. Images of version 1
//! that the old writer wrote (tests/images) are accepted and restored.
//! `stuck DRIVER DIRECTORY`, in the root of the repository, with the driver of
//! `tests/archive_calls.c` and the images; ends with `stuck: N checks`, status 1 on a
//! difference.

mod driver;
mod model;

use driver::Argument::{Change, Number, Read};
use driver::{Driver, Function};
use model::draw::{self, Random};
use std::process::exit;

const WRITE_IMAGE: Function = Function(0, "tag_write_image");
const RESTORE: Function = Function(1, "tag_restore");
const IMAGE_TEST: Function = Function(2, "tag_image_test");

fn expect(driver: &mut Driver, what: &str, right: bool) {
    if !right {
        println!("stuck: DIFFERENT: {what}");
        exit(1);
    }
    driver.checks += 1;
}

fn test(driver: &mut Driver, image: &[u8], expected: u64) {
    let lent = Read(driver.put(0, image));
    driver.call(IMAGE_TEST, vec![lent], expected, vec![]);
}

fn written(driver: &mut Driver, n: u64, memory: &[u8]) -> Vec<u8> {
    let room = vec![0; 512 * (n as usize / 7 + 2)];
    let lent = vec![Number(n), Read(driver.put(0, memory)), Change(driver.put(1, &room))];
    let (length, mut changed) = driver.ask(WRITE_IMAGE, lent);
    let mut image = changed.remove(0);
    image.truncate(length as usize);
    image
}

/// One word of an image made each of these values, where it has another.
fn word(
    driver: &mut Driver,
    image: &mut [u8],
    block: usize,
    word: usize,
    values: impl Iterator<Item = u16>,
) {
    let at = model::IMAGE_BLOCK * block + 2 * word;
    let own = model::number16(image, at);
    for value in values.filter(|&value| value != own) {
        image[at..at + 2].copy_from_slice(&value.to_le_bytes());
        test(driver, image, 10);
    }
    image[at..at + 2].copy_from_slice(&own.to_le_bytes());
}

/// The words of an image of version 2.
fn words(driver: &mut Driver, random: &mut Random, image: &mut [u8]) {
    test(driver, image, 0);
    let blocks = image.len() / model::IMAGE_BLOCK;
    for block in 0..blocks {
        for k in 0..254 {
            let own = model::number16(image, model::IMAGE_BLOCK * block + 2 * k);
            let any = random.below(65_536) as u16;
            word(driver, image, block, k, [0, 1, 0xffff, own ^ 1, !own, any].into_iter());
        }
    }
    // Every other value of a few words: numbers, kind, version, n, m, a leaf number, a
    // record's bytes, unused ones.
    for (block, k) in [(0, 0), (0, 2), (0, 3), (0, 4), (0, 6), (0, 8), (0, 253)] {
        word(driver, image, block, k, 0..=0xffff);
    }
    if blocks > 1 {
        for k in [0, 3, 4, 6, 7, 38, 253] {
            word(driver, image, blocks - 1, k, 0..=0xffff);
        }
    }
}

/// By the old rule a word 0000 of a record may become FFFF, and FFFF become 0000.
fn alike(driver: &mut Driver, image: &[u8]) {
    let mut stuck = image.to_vec();
    let mut found = 0;
    for at in (model::IMAGE_BLOCK + 12..model::IMAGE_BLOCK + 12 + 64).step_by(2) {
        if model::number16(image, at) == 0 {
            stuck[at..at + 2].copy_from_slice(&[0xff, 0xff]);
            test(driver, &stuck, 0);
            stuck[at..at + 2].copy_from_slice(&[0, 0]);
            found += 1;
        }
    }
    if found == 0 {
        println!("stuck: an image of version 1 without a word 0000 in its first record");
        exit(1);
    }
}

/// An image of the old writer: accepted, and restored as the model restores it.
fn old(driver: &mut Driver, name: &str, image: &[u8]) {
    expect(driver, &format!("{name}: its version"), model::version(image) == 1);
    test(driver, image, 0);
    let n = model::number32(image, 8) as u64;
    let mut memory = vec![0xee; model::memory_length(n)];
    let lent = vec![Read(driver.put(0, image)), Change(driver.put(1, &memory))];
    model::restore(image, &mut memory);
    let again = model::encode_as(1, n, &model::records_of(n, &memory));
    expect(driver, &format!("{name}: the old writer's"), again == image);
    driver.call(RESTORE, lent, 0, vec![memory]);
}

fn main() {
    let given: Vec<String> = std::env::args().skip(1).collect();
    let [program, directory] = &given[..] else {
        println!("usage: stuck DRIVER DIRECTORY, with images of version 1");
        exit(2);
    };
    let mut driver = Driver::start("stuck", program);
    let mut random = Random(1);
    for (n, m) in [(2, 0), (1, 1), (700, 7), (8, 8), (513, 15)] {
        let memory = draw::true_memory_of(&mut random, n, m);
        let mut image = written(&mut driver, n, &memory);
        words(&mut driver, &mut random, &mut image);
    }
    let mut files = 0;
    let mut paths: Vec<_> = match std::fs::read_dir(directory) {
        Ok(entries) => entries.filter_map(|entry| Some(entry.ok()?.path())).collect(),
        Err(error) => {
            println!("stuck: {directory}: {error}");
            exit(2);
        }
    };
    paths.sort();
    for path in paths.iter().filter(|path| path.extension().is_some_and(|e| e == "image")) {
        let image = std::fs::read(path).expect("the image is read");
        old(&mut driver, &path.display().to_string(), &image);
        files += 1;
    }
    if files == 0 {
        println!("stuck: no image in {directory}");
        exit(1);
    }
    let mut memory = vec![0; model::memory_length(1)];
    (memory[0], memory[64]) = (1, 1);
    alike(&mut driver, &model::encode_as(1, 1, &model::records_of(1, &memory)));
    println!("stuck: {files} images of the old writer");
    println!("stuck: {} checks", driver.finish());
}
