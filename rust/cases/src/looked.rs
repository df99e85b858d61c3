//! What a look-up answers and leaves, by the table alone: the condition of the block's lowest row, open or not (document 02, N5).

use crate::call::{Answer, Call, Made};
use crate::place::Memory;
use crate::rig::Rig;
use ferjulm::{calls, Block, Condition, Images, Slot};

/// A block's condition: that of the lowest valid row that names it.
pub fn condition(table: &[u32], block: Block) -> Condition {
    let mut rows = table.chunks_exact(2);
    let Some(at) = rows.position(|row| row[1] & 1 == 1 && row[0] == block.0) else {
        return Condition::NotCached;
    };
    let slot = Slot(at as u32);
    match table[2 * at + 1] & 6 {
        0 => Condition::Clean(slot),
        2 => Condition::Dirty(slot),
        4 => Condition::OpenFetch(slot),
        _ => Condition::OpenWrite(slot),
    }
}

/// A block's word: the slot plus 1, or 0 where it is open or not cached (document 02, N6).
pub fn word(condition: Condition) -> u32 {
    condition.closed().map_or(0, |slot| slot.0 + 1)
}

/// The words of single look-ups, in list order, and the table after them; a look-up that is refused leaves the table.
pub fn singles(rig: &Rig, blocks: &[Block]) -> (Vec<u32>, Vec<u32>) {
    let mut table = rig.table.clone();
    let (Images { ssd, hdd }, record) = (&rig.images, rig.record.words());
    let word = |block: &Block| {
        let mut slot = 0;
        match calls::look_up(ssd, hdd, &mut table, record, block.0, &mut slot) {
            108 | 109 => slot + 1,
            _ => 0,
        }
    };
    let words = blocks.iter().map(word).collect();
    (words, table)
}

/// A look-up that is not refused answers the condition, sets the used flag of a closed slot and changes nothing else in memory; of
/// a list the same, for each block. Its words are compared where the call is made.
pub fn check(mut before: Memory, after: &Rig, call: &Call, made: &Made) {
    let Ok(answer) = made.said else {
        return;
    };
    let blocks = match call {
        Call::LookUp(block) => std::slice::from_ref(block),
        Call::LookUpList(blocks, _) => blocks.as_slice(),
        _ => return,
    };
    for block in blocks {
        let condition = condition(&before.table, *block);
        let said = matches!(call, Call::LookUpList(..)) || answer == Answer::Looked(condition);
        assert!(said, "{call:?}: {answer:?}");
        if let Some(slot) = condition.closed() {
            before.table[2 * slot.0 as usize + 1] |= 8;
        }
    }
    let same = after.table == before.table && after.record == before.record;
    assert!(same, "{call:?}: used flags, and nothing else");
}
