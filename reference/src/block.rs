//! Header and blocks: 512 bytes each.

use crate::book;
use crate::plant::MOST_SECONDS;

pub const LENGTH: usize = 512;
/// Where the seconds of a block start, and how many there are at most.
pub const FIRST: usize = 16;
pub const MOST: usize = 4;

fn four(bytes: &[u8], at: usize) -> u32 {
    u32::from_le_bytes([bytes[at], bytes[at + 1], bytes[at + 2], bytes[at + 3]])
}

/// "1 plus the sum over bytes i = 0 to 507 of (i + 1) × byte."
pub fn check(bytes: &[u8]) -> u32 {
    let mut sum = 1;
    for (i, &byte) in bytes[..508].iter().enumerate() {
        sum += (i as u32 + 1) * byte as u32;
    }
    sum
}

#[derive(Clone, Copy, Debug, PartialEq)]
pub struct Header {
    pub owner: u8,
    pub seconds: u32,
}

/// The header's owner and seconds, or a refusal number.
pub fn read_header(bytes: &[u8]) -> Result<Header, u8> {
    if bytes.len() != LENGTH {
        return Err(12);
    }
    if four(bytes, 508) != check(bytes) {
        return Err(13);
    }
    if &bytes[0..4] != b"RLIW" {
        return Err(14);
    }
    if u16::from_le_bytes([bytes[4], bytes[5]]) != 1 {
        return Err(15);
    }
    let owner = bytes[6];
    if owner > 7 {
        return Err(16);
    }
    let seconds = four(bytes, 8);
    if seconds == 0 || seconds > MOST_SECONDS as u32 {
        return Err(17);
    }
    if bytes[7] != 0 || bytes[12..508].iter().any(|&byte| byte != 0) {
        return Err(18);
    }
    Ok(Header { owner, seconds })
}

/// "Due in it are the smaller of 4 and seconds - 4 × (n - 1)."
pub fn due(seconds: u32, number: u32) -> i64 {
    (seconds as i64 - 4 * (number as i64 - 1)).min(4)
}

/// The bytes of the seconds in block `number`, 108 each, or a refusal number.
pub fn read_block(bytes: &[u8], seconds: u32, number: u32) -> Result<&[u8], u8> {
    if bytes.len() != LENGTH {
        return Err(12);
    }
    if four(bytes, 508) != check(bytes) {
        return Err(13);
    }
    let due = due(seconds, number);
    if four(bytes, 0) != number || number == 0 || due <= 0 {
        return Err(19);
    }
    if bytes[4] as i64 != due {
        return Err(20);
    }
    let end = FIRST + book::LENGTH * due as usize;
    if bytes[5..FIRST].iter().any(|&byte| byte != 0) || bytes[end..508].iter().any(|&byte| byte != 0) {
        return Err(18);
    }
    Ok(&bytes[FIRST..end])
}

/// Writes the check of a block into it.
pub fn seal(bytes: &mut [u8]) {
    let sum = check(bytes);
    bytes[508..512].copy_from_slice(&sum.to_le_bytes());
}

/// The header writer: the whole buffer becomes the header, or a refusal number leaves it as found.
pub fn write_header(buffer: &mut [u8], owner: u8, seconds: u32) -> Result<(), u8> {
    if buffer.len() != LENGTH {
        return Err(12);
    }
    if owner > 7 {
        return Err(16);
    }
    if seconds == 0 || seconds > MOST_SECONDS as u32 {
        return Err(17);
    }
    buffer.fill(0);
    buffer[0..4].copy_from_slice(b"RLIW");
    buffer[4..6].copy_from_slice(&1u16.to_le_bytes());
    buffer[6] = owner;
    buffer[8..12].copy_from_slice(&seconds.to_le_bytes());
    seal(buffer);
    Ok(())
}

/// The block writer, of the bytes of one to four seconds; it cannot know how many are due.
pub fn write_block(buffer: &mut [u8], number: u32, seconds: &[u8]) -> Result<(), u8> {
    if buffer.len() != LENGTH {
        return Err(12);
    }
    if number == 0 {
        return Err(19);
    }
    let count = seconds.len() / book::LENGTH;
    if seconds.len() % book::LENGTH != 0 || count < 1 || count > MOST {
        return Err(23);
    }
    buffer.fill(0);
    buffer[0..4].copy_from_slice(&number.to_le_bytes());
    buffer[4] = count as u8;
    buffer[FIRST..FIRST + seconds.len()].copy_from_slice(seconds);
    seal(buffer);
    Ok(())
}
