//! What the operations answer where no book can lead: one line each. The README has the bytes of every case.

use reference::block::{self, read_block, seal, write_block, write_header};
use reference::book::{self, Book, Sums};
use reference::line::{into_buffer, sum_line};
use reference::plant::{Plant, MOST_SECONDS};
use reference::record;

fn report<T>(what: &str, answer: Result<T, u8>) {
    match answer {
        Ok(_) => println!("{} accepted", what),
        Err(number) => println!("{} refused {}", what, number),
    }
}

/// Factors for what a buffer holds before, and for the bytes of seconds.
const BUFFER: usize = 7;
const SECONDS: usize = 13;

/// Bytes whose byte i is (i × factor + 3) mod 251.
fn filled(length: usize, factor: usize) -> Vec<u8> {
    (0..length).map(|i| ((i * factor + 3) % 251) as u8).collect()
}

/// A line with the sum of (i + 1) × byte over the whole buffer after the operation.
fn report_buffer(what: &str, answer: Result<(), u8>, buffer: &[u8]) {
    let sum: usize = buffer.iter().enumerate().map(|(i, &byte)| (i + 1) * byte as usize).sum();
    match answer {
        Ok(()) => println!("{} accepted {}", what, sum),
        Err(number) => println!("{} refused {} {}", what, number, sum),
    }
}

/// Label, bytes in the buffer, owner, seconds.
const HEADERS: [(&str, usize, u8, u32); 13] = [
    ("write-header", 512, 2, 1),
    ("write-header-most", 512, 7, 90_000),
    ("write-header-12-short", 511, 2, 1),
    ("write-header-12-long", 513, 2, 1),
    ("write-header-12-empty", 0, 2, 1),
    ("write-header-12-before-16", 511, 8, 1),
    ("write-header-12-before-17", 513, 2, 0),
    ("write-header-16", 512, 8, 1),
    ("write-header-16-largest", 512, 255, 1),
    ("write-header-16-before-17", 512, 8, 0),
    ("write-header-17-none", 512, 7, 0),
    ("write-header-17-one-more", 512, 0, 90_001),
    ("write-header-17-largest", 512, 0, u32::MAX),
];

/// Label, bytes in the buffer, number, bytes of seconds.
const BLOCKS: [(&str, usize, u32, usize); 17] = [
    ("write-block-one", 512, 1, 108),
    ("write-block-two", 512, 22_500, 216),
    ("write-block-three", 512, 16_909_060, 324),
    ("write-block-four", 512, u32::MAX, 432),
    ("write-block-12-short", 511, 1, 108),
    ("write-block-12-long", 513, 1, 108),
    ("write-block-12-empty", 0, 1, 108),
    ("write-block-12-before-19", 511, 0, 108),
    ("write-block-12-before-23", 513, 1, 107),
    ("write-block-19", 512, 0, 108),
    ("write-block-19-before-23", 512, 0, 0),
    ("write-block-23-none", 512, 1, 0),
    ("write-block-23-less", 512, 1, 107),
    ("write-block-23-more", 512, 1, 109),
    ("write-block-23-one-byte-more", 512, 1, 433),
    ("write-block-23-five", 512, 1, 540),
    ("write-block-23-many", 512, 1, 28_080),
];

/// A block with its number and its check, all else 0: no second in it.
fn blank_block(number: u8) -> [u8; block::LENGTH] {
    let mut bytes = [0; block::LENGTH];
    bytes[0] = number;
    seal(&mut bytes);
    bytes
}

fn main() {
    let blank = [0; record::LENGTH];
    let blank_second = [0; book::LENGTH];

    let mut plant = Plant::default();
    for _ in 0..MOST_SECONDS {
        let accepted = plant.consider(&blank).expect("a blank second is accepted");
        plant.second(accepted, 0, 0);
    }
    report("plant-second-90001", plant.consider(&blank));

    let mut book = Book::default();
    report("book-second-owner-8", book.second(8, &blank_second).map_err(|refusal| refusal.number));

    report("line-buffer-199", into_buffer(&sum_line(&Sums::default()), &mut [0; 199]));

    report("block-number-0", read_block(&blank_block(0), 4, 0));
    report("block-none-due", read_block(&blank_block(5), 4, 5));

    report("plant-second-35-bytes", Plant::default().consider(&blank[..35]));
    report("book-second-107-bytes", book.second(0, &blank_second[..107]).map_err(|refusal| refusal.number));

    for (label, length, owner, seconds) in HEADERS {
        let mut buffer = filled(length, BUFFER);
        let answer = write_header(&mut buffer, owner, seconds);
        report_buffer(label, answer, &buffer);
    }
    for (label, length, number, bytes) in BLOCKS {
        let mut buffer = filled(length, BUFFER);
        let answer = write_block(&mut buffer, number, &filled(bytes, SECONDS));
        report_buffer(label, answer, &buffer);
    }

    let mut buffer = filled(block::LENGTH, BUFFER);
    let answer = write_block(&mut buffer, 1, &filled(4 * book::LENGTH, SECONDS));
    report_buffer("write-block-first-of-two", answer, &buffer);
    let answer = write_block(&mut buffer, 2, &filled(book::LENGTH, SECONDS));
    report_buffer("write-block-over-it", answer, &buffer);
    let answer = write_header(&mut buffer, 5, 5);
    report_buffer("write-header-over-it", answer, &buffer);
}
