//! Document 02, W1: what is written reads back, what the reader accepts is what the writer makes of its fields, and the
//! writers' refusals leave the buffer as found.

use reference::block::{due, read_block, read_header, write_block, write_header, Header, LENGTH};
use reference::copy::copy;
use reference::line::second_line;
use reference::maker::families::{make, seeds_for_all};
use reference::program::output_of;

const STALE: [u8; LENGTH] = [0xa5; LENGTH];

fn bytes(count: usize) -> Vec<u8> {
    (0..count).map(|i| (i * 31 + 7) as u8).collect()
}

fn copied(book: &[u8]) -> Vec<u8> {
    let mut output = Vec::new();
    copy(&mut &book[..], &mut output).expect("memory does not fail");
    output
}

#[test]
fn a_header_reads_back() {
    for owner in 0..=7 {
        for seconds in [1, 2, 255, 256, 65_537, 89_999, 90_000] {
            let mut buffer = STALE;
            assert_eq!(write_header(&mut buffer, owner, seconds), Ok(()));
            assert_eq!(read_header(&buffer), Ok(Header { owner, seconds }));
        }
    }
}

#[test]
fn a_block_with_the_number_and_count_due_reads_back() {
    for seconds in [1, 2, 3, 4, 5, 8, 1_027, 89_999, 90_000u32] {
        for number in [1, 2, 257, seconds.div_ceil(4)] {
            let due = due(seconds, number);
            if due <= 0 {
                continue;
            }
            let inside = bytes(108 * due as usize);
            let mut buffer = STALE;
            assert_eq!(write_block(&mut buffer, number, &inside), Ok(()));
            assert_eq!(read_block(&buffer, seconds, number), Ok(&inside[..]));
        }
    }
}

/// Every book of the comparison, copied: block after block as it came, up to the first that the reader refuses.
#[test]
fn a_copy_is_the_book_up_to_its_first_refused_block() {
    for seed in 1..=seeds_for_all() {
        let made = make(seed, None).expect("a family");
        let given = &made.bytes;
        let mut sound = 0;
        if let Some(Ok(header)) = given.get(..LENGTH).map(read_header) {
            sound = LENGTH;
            for number in 1..=header.seconds.div_ceil(4) {
                match given.get(sound..sound + LENGTH).map(|block| read_block(block, header.seconds, number)) {
                    Some(Ok(_)) => sound += LENGTH,
                    _ => break,
                }
            }
        }
        assert!(copied(given) == given[..sound], "seed {} ({})", seed, made.name);
        if output_of(given, second_line).contains("sum A") {
            assert_eq!(sound, given.len(), "seed {} ({})", seed, made.name);
        }
    }
}

#[test]
fn headers_that_are_not_written() {
    let cases = [
        (511, 2, 1, 12),
        (513, 2, 1, 12),
        (0, 2, 1, 12),
        (511, 8, 0, 12),
        (512, 8, 1, 16),
        (512, 8, 0, 16),
        (512, 255, 90_001, 16),
        (512, 7, 0, 17),
        (512, 0, 90_001, 17),
        (512, 0, u32::MAX, 17),
    ];
    for (length, owner, seconds, number) in cases {
        let found = bytes(length);
        let mut buffer = found.clone();
        assert_eq!(write_header(&mut buffer, owner, seconds), Err(number));
        assert_eq!(buffer, found);
    }
}

#[test]
fn blocks_that_are_not_written() {
    let cases = [
        (511, 1, 108, 12),
        (513, 1, 108, 12),
        (0, 1, 108, 12),
        (511, 0, 107, 12),
        (512, 0, 108, 19),
        (512, 0, 540, 19),
        (512, 1, 0, 23),
        (512, 1, 107, 23),
        (512, 1, 109, 23),
        (512, 1, 431, 23),
        (512, 1, 433, 23),
        (512, 1, 540, 23),
        (512, 1, 260 * 108, 23),
    ];
    for (length, number, seconds, refusal) in cases {
        let found = bytes(length);
        let mut buffer = found.clone();
        assert_eq!(write_block(&mut buffer, number, &bytes(seconds)), Err(refusal));
        assert_eq!(buffer, found);
    }
}

/// Numbers up to the largest and one to four seconds, with 0 in all else, whatever stood there.
#[test]
fn every_byte_of_a_block() {
    let mut buffer = STALE;
    for (number, count) in [(1, 4), (0x0102_0304, 1), (u32::MAX, 3), (2, 2)] {
        let inside = bytes(108 * count);
        assert_eq!(write_block(&mut buffer, number, &inside), Ok(()));
        let mut wanted = number.to_le_bytes().to_vec();
        wanted.push(count as u8);
        wanted.resize(16, 0);
        wanted.extend(&inside);
        wanted.resize(508, 0);
        let check: u32 = 1 + wanted.iter().enumerate().map(|(i, &byte)| (i as u32 + 1) * byte as u32).sum::<u32>();
        wanted.extend(check.to_le_bytes());
        assert_eq!(buffer[..], wanted[..]);
    }
}
