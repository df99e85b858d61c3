//! Files on the box: which blocks they have, and how they are saved and read.

use crate::drives::FieldBox;
use ferjulm::{Block, Caller, Offered, Slot, PAGE};
use std::error::Error;
use std::ops::Range;

/// The blocks of the survey file, of the scans, and of other files.
pub const SURVEY: Range<u32> = 8..13;
pub const SCANS: Range<u32> = 32..43;
pub const OTHERS: Range<u32> = 20..23;
/// A block of another file that is read.
pub const OLD_PLAN: Block = Block(50);

/// A file as the pages of its blocks, zero past its end.
pub fn pages(file: &[u8], blocks: Range<u32>) -> Vec<(Block, [u8; PAGE])> {
    assert!(
        file.len().div_ceil(PAGE) <= blocks.len(),
        "the file fits its blocks"
    );
    let page = |i: usize| {
        let mut page = [0; PAGE];
        let bytes = file.iter().skip(i * PAGE);
        page.iter_mut()
            .zip(bytes)
            .for_each(|(to, from)| *to = *from);
        page
    };
    blocks
        .enumerate()
        .map(|(i, block)| (Block(block), page(i)))
        .collect()
}

/// Offers a write, and again where a dirty page had to be copied out to make room.
pub fn offer(field: &mut FieldBox, block: Block) -> Result<Offered, Box<dyn Error>> {
    loop {
        let offered = field.call(|cache| cache.offer(block, Caller::People), Offered::stored)?;
        if !matches!(offered, Offered::CopiedOut { .. }) {
            return Ok(offered);
        }
    }
}

pub fn land(field: &mut FieldBox, block: Block, page: &[u8; PAGE]) -> Result<(), Box<dyn Error>> {
    field.call(|cache| cache.land(block, page), Some)?;
    field.landed(block, page);
    Ok(())
}

/// A file read through the box, its zeros at the end left out.
pub fn read_file(field: &mut FieldBox, blocks: Range<u32>) -> Result<Vec<u8>, ferjulm::Refusal> {
    let mut bytes = Vec::new();
    for block in blocks {
        bytes.extend(field.read(|cache| cache.view(Block(block)).map(|view| *view.page))?);
    }
    let end = bytes
        .iter()
        .rposition(|&b| b != 0)
        .map_or(0, |last| last + 1);
    bytes.truncate(end);
    Ok(bytes)
}

/// The slot that a block is cached in and not open.
pub fn slot_of(field: &mut FieldBox, block: Block) -> Result<Option<Slot>, Box<dyn Error>> {
    let condition = field.call_storing_nothing(|cache| cache.look_up(block))?;
    Ok(condition.closed())
}
