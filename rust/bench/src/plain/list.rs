//! A list of blocks looked up, by one pass over the table for the whole list.

use super::judge::serves;
use crate::image::PAGE;
use crate::world::World;

/// The residues by which listed blocks are marked.
const MARKS: usize = 4096;

#[inline(never)]
pub fn look_up_list(w: &mut World, blocks: &[u32], room: usize) -> Result<u32, u32> {
    let judged = serves(w, PAGE, None)?;
    if blocks.is_empty() || blocks.len() > 64 || blocks.len() != room {
        return Err(16);
    }
    if blocks.iter().any(|b| *b >= judged.record.blocks) {
        return Err(7);
    }
    let words = &mut w.words[..room];
    locate(&w.table, blocks, words);
    for word in words.iter_mut().filter(|word| **word != 0) {
        let flags = &mut w.table[2 * *word as usize - 1];
        if *flags / 4 % 2 == 1 {
            *word = 0;
        } else {
            *flags |= 8;
        }
    }
    Ok(0)
}

/// The lowest slot of each block plus 1, or 0.
pub fn locate(table: &[u32], blocks: &[u32], words: &mut [u32]) {
    let mut marks = [false; MARKS];
    blocks
        .iter()
        .for_each(|b| marks[*b as usize % MARKS] = true);
    words.fill(0);
    for (s, row) in table.chunks_exact(2).enumerate() {
        let (block, flags) = (row[0], row[1]);
        if !marks[block as usize % MARKS] || flags % 2 == 0 {
            continue;
        }
        for (word, b) in words.iter_mut().zip(blocks) {
            if *word == 0 && *b == block {
                *word = s as u32 + 1;
            }
        }
    }
}
