//! Lists of blocks looked up (document 02, N6): their lengths, blocks too high, and tables that only a caller could make.

use crate::looked::{condition, singles, word};
use crate::rig::{word as at, Call, Rig};
use crate::say;
use ferjulm::{Block, Cache, Geometry, Images, Record, Refusal};

const SMALL: Geometry = Geometry::new(4, 8);

pub fn lines() -> Vec<String> {
    let mut lines = vec![String::new(), "lists of blocks".to_string()];
    lines.extend(lengths());
    lines.extend(doubled());
    lines.push(one_mark());
    lines
}

/// A box of rows 1 clean, 2 dirty, 3 open for writing and 4 open for fetch, its slots in that order.
fn rowed() -> Rig {
    let mut rig = Rig::formatted(SMALL);
    rig.table = vec![1, 1, 2, 3, 3, 7, 4, 5];
    rig.set(at::COUNT, 2);
    rig.set(at::WINDOW, 2);
    rig.set(at::WINDOW + 1, 3);
    rig
}

/// Looks a list up, with room for so many words: what it says, and the words, or that a refusal changed nothing.
fn line(name: &str, mut rig: Rig, blocks: Vec<Block>, room: usize) -> String {
    let before = rig.clone();
    let words: Vec<u32> = blocks
        .iter()
        .map(|block| word(condition(&rig.table, *block)))
        .collect();
    assert_eq!(
        words,
        singles(&rig, &blocks).0,
        "{name}: words by the table, and by single look-ups"
    );
    let said = rig.make(&Call::LookUpList(blocks, room)).said;
    let left = match said {
        Ok(_) => {
            let words = words.iter().take(8).map(u32::to_string);
            format!("words {}; flags {}", say::list(words), flags(&rig))
        }
        Err(_) => say::unchanged(rig == before).to_string(),
    };
    format!("{name} -> {}; {left}", say::said(said))
}

/// The flags of the rows.
fn flags(rig: &Rig) -> String {
    say::list(rig.table.chunks(2).map(|row| row[1].to_string()))
}

/// Lists of 0, 1, 2, 64 and 65 blocks, answer lists that are shorter and longer by one, and a block too high, first, last, and in a
/// list that is too long besides.
fn lengths() -> Vec<String> {
    let of = |n: u32| (0..n).map(|block| Block(block % 5)).collect::<Vec<_>>();
    let with = |n: u32, at: usize| {
        let mut blocks = of(n);
        blocks[at] = Block(8);
        blocks
    };
    vec![
        line("0 blocks", rowed(), of(0), 0),
        line("0 blocks, room for 1", rowed(), of(0), 1),
        line("1 block", rowed(), of(1), 1),
        line("2 blocks", rowed(), of(2), 2),
        line("64 blocks", rowed(), of(64), 64),
        line("65 blocks", rowed(), of(65), 65),
        line("64 blocks, room for 63", rowed(), of(64), 63),
        line("64 blocks, room for 65", rowed(), of(64), 65),
        line("64 blocks, the last too high", rowed(), with(64, 63), 64),
        line("64 blocks, the first too high", rowed(), with(64, 0), 64),
        line("65 blocks, one too high", rowed(), with(65, 3), 65),
        line("2 blocks, one too high, room for 1", rowed(), with(2, 1), 1),
    ]
}

/// A block in two rows, which no call but a reopening judges: the lowest counts, even if it is open.
fn doubled() -> Vec<String> {
    let of = |low: u32, high: u32| {
        let mut rig = Rig::formatted(SMALL);
        rig.table = vec![0, 0, 6, low, 6, high, 0, 0];
        let open = if low & 4 != 0 { 1 } else { 2 };
        rig.set(at::COUNT, ((low | high) & 4 != 0) as u32);
        rig.set(at::WINDOW, if (low | high) & 4 != 0 { open } else { 0 });
        rig
    };
    let list = || vec![Block(6), Block(0), Block(6)];
    vec![
        line("6 in two rows, clean and dirty", of(1, 3), list(), 3),
        line("6 in two rows, open and dirty", of(7, 3), list(), 3),
        line("6 in two rows, dirty and open", of(3, 5), list(), 3),
    ]
}

/// Sixty-four blocks that leave the same when divided by 4,096, in 64 slots, in the reverse order of the list.
fn one_mark() -> String {
    let geometry = Geometry::new(64, 64 * 4096);
    let (mut images, mut record) = (Images::zeroed(geometry), Record::default());
    let mut table = vec![0; geometry.table_words()];
    let mut cache = Cache::new(images.lend(), &mut table, &mut record);
    cache.format(geometry).expect("a format");
    let stored = cache.finish(|_, _| Ok::<(), Refusal>(()));
    stored.expect("the steps of a format");
    table = (0..64).rev().flat_map(|block| [4096 * block, 1]).collect();
    let blocks: Vec<Block> = (0..64).map(|block| Block(4096 * block)).collect();
    let mut words = [77; 64];
    let mut cache = Cache::new(images.lend(), &mut table, &mut record);
    let said = cache.look_up_list(&blocks, &mut words);
    let right = words.iter().rev().copied().eq(1..=64);
    let used = table.chunks(2).all(|row| row[1] == 9);
    format!("64 blocks of one mark -> {said:?}; words {right}; used {used}")
}
