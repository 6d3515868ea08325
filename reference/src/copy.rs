//! A book written anew: each block that the reader takes, as the writer makes it of the block's fields.

use crate::block::{self, read_block, read_header, write_block, write_header};
use crate::program::next_bytes;
use std::io::{self, Read, Write};

/// Copies blocks until the reader refuses one or all are copied; seconds are not judged.
pub fn copy(input: &mut impl Read, output: &mut impl Write) -> io::Result<()> {
    let mut buffer = [0; block::LENGTH];
    let Ok(header) = read_header(&next_bytes(input, block::LENGTH)?) else {
        return Ok(());
    };
    write_header(&mut buffer, header.owner, header.seconds).expect("the reader's ranges are the writer's");
    output.write_all(&buffer)?;
    for number in 1..=header.seconds.div_ceil(block::MOST as u32) {
        let bytes = next_bytes(input, block::LENGTH)?;
        let Ok(seconds) = read_block(&bytes, header.seconds, number) else {
            return Ok(());
        };
        write_block(&mut buffer, number, seconds).expect("the reader's ranges are the writer's");
        output.write_all(&buffer)?;
    }
    Ok(())
}
