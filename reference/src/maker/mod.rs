//! Books, books that are cut, books under sheets, and records of meters, by seed, for comparing programs.

pub mod broken;
pub mod cut_contents;
pub mod cuts;
pub mod example;
pub mod families;
pub mod meter_contents;
pub mod meters;
pub mod random;
pub mod sheet_contents;
pub mod sheets;
pub mod tracks;

use crate::block::{self, write_block, write_header};
use crate::book;
use crate::record::Record;

/// Records of U, A and B.
pub type Second = [Record; 3];

pub fn second_bytes(second: &Second) -> [u8; book::LENGTH] {
    let mut bytes = [0; book::LENGTH];
    for (plant, record) in second.iter().enumerate() {
        bytes[plant * 36..plant * 36 + 36].copy_from_slice(&record.write());
    }
    bytes
}

/// The blocks of a book, header first.
pub fn book_blocks(owner: u8, seconds: &[Second]) -> Vec<Vec<u8>> {
    let mut buffer = [0; block::LENGTH];
    write_header(&mut buffer, owner, seconds.len() as u32).expect("a sound owner and count");
    let mut blocks = vec![buffer.to_vec()];
    for (k, few) in seconds.chunks(block::MOST).enumerate() {
        let inside = few.iter().map(second_bytes).collect::<Vec<_>>().concat();
        write_block(&mut buffer, k as u32 + 1, &inside).expect("a number from 1 and one to four seconds");
        blocks.push(buffer.to_vec());
    }
    blocks
}

pub fn book_bytes(owner: u8, seconds: &[Second]) -> Vec<u8> {
    book_blocks(owner, seconds).concat()
}
