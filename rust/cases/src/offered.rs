//! Offers, by table and record alone: what document 01 says of one, and of a list of them as one (document 02, N3), made one after
//! another on a copy.

use crate::call::{Answer, Call, Made};
use crate::looked::condition;
use crate::place::{hdd, metadata_page, Memory};
use crate::rig::{word, Rig};
use ferjulm::{Block, Caller, Condition, Place, Record, Slot};

/// What an offer answers and leaves: memory, and the page that it stores.
pub struct Offered {
    pub answer: Answer,
    pub after: Memory,
    pub stored: Option<Place>,
}

/// 13, for an offer: "4,294,967,232 or more".
const SPENT: u32 = 4_294_967_232;

/// A box in memory that offers are made on, with stamps to spare: none is spent here.
#[derive(Clone)]
struct Draft {
    table: Vec<u32>,
    words: Vec<u32>,
}

impl Draft {
    fn of(memory: &Memory) -> Self {
        Draft {
            table: memory.table.clone(),
            words: memory.record.words().to_vec(),
        }
    }

    fn flags(&mut self, slot: Slot) -> &mut u32 {
        &mut self.table[2 * slot.0 as usize + 1]
    }

    /// "Offer a write of a block", with its refusals from 7 to 12.
    fn offer(&mut self, block: Block, caller: Caller) -> Result<Answer, u32> {
        if block.0 >= self.words[1] {
            return Err(7);
        }
        let found = condition(&self.table, block);
        match found {
            Condition::OpenWrite(_) | Condition::OpenFetch(_) => return Err(8),
            Condition::Dirty(_) => return Ok(Answer::Overwrite),
            Condition::Clean(_) | Condition::NotCached => self.room(caller)?,
        }
        if let Condition::Clean(slot) = found {
            *self.flags(slot) |= 6;
            return Ok(self.join(slot, caller));
        }
        let slot = self.sweep().ok_or(12u32)?;
        if *self.flags(slot) & 2 != 0 {
            *self.flags(slot) -= 2;
            self.words[word::HAND] = slot.0;
            return Ok(Answer::CopiedOut);
        }
        self.table[2 * slot.0 as usize..][..2].copy_from_slice(&[block.0, 7]);
        self.words[word::HAND] = (slot.0 + 1) % self.words[word::SLOTS];
        Ok(self.join(slot, caller))
    }

    /// 17 and 11.
    fn room(&self, caller: Caller) -> Result<(), u32> {
        let open = self.words[word::COUNT] as usize;
        let callers = &self.words[word::CALLERS..][..open];
        let import = callers.iter().filter(|caller| **caller == 1).count();
        match (caller, open) {
            (Caller::Import, _) if import >= 8 => Err(17),
            (_, 63..) => Err(11),
            _ => Ok(()),
        }
    }

    /// "from the hand, wrapping: pass open slots; take a free slot or one without the used flag; clear a used flag and pass"; none
    /// where all are open.
    fn sweep(&mut self) -> Option<Slot> {
        let (slots, hand) = (self.words[word::SLOTS], self.words[word::HAND]);
        for slot in (0..2 * slots).map(|passed| Slot((hand + passed) % slots)) {
            let flags = self.flags(slot);
            match *flags & 12 {
                0 => return Some(slot),
                8 => *flags -= 8,
                _ => {}
            }
        }
        None
    }

    /// "joins the window", with its caller.
    fn join(&mut self, slot: Slot, caller: Caller) -> Answer {
        let at = self.words[word::COUNT] as usize;
        self.words[word::WINDOW + at] = slot.0;
        self.words[word::CALLERS + at] = caller as u32;
        self.words[word::COUNT] += 1;
        Answer::Announced(slot)
    }

    /// What is left where nothing but this was stored.
    fn left(self, answer: Answer, stored: Option<Place>) -> Offered {
        let words: &[u32] = &self.words;
        Offered {
            answer,
            after: Memory {
                table: self.table,
                record: Record::from_words(words.try_into().expect("a record")),
            },
            stored,
        }
    }

    /// "metadata store": a stamp is spent, unless none is left, and all that has landed is settled.
    fn stores(mut self, answer: Answer, slot: Slot) -> Result<Offered, u32> {
        if self.words[word::NEWEST] >= SPENT {
            return Err(13);
        }
        self.words[word::NEWEST] += 1;
        self.words[word::UNSETTLED] = 0;
        Ok(self.left(answer, Some(metadata_page(slot))))
    }
}

/// An offer of a ready box.
fn single(before: &Memory, block: Block, caller: Caller) -> Result<Offered, u32> {
    let mut draft = Draft::of(before);
    let answer = draft.offer(block, caller)?;
    match answer {
        Answer::Announced(slot) => draft.stores(answer, slot),
        Answer::CopiedOut => {
            let out = 2 * draft.words[word::HAND] as usize;
            let stored = hdd(draft.table[out] as usize);
            Ok(draft.left(answer, Some(stored)))
        }
        _ => Ok(draft.left(answer, None)),
    }
}

/// Whether 15 refuses a list.
fn is_bad(blocks: &[Block]) -> bool {
    let twice = |(at, block): (usize, &Block)| blocks[..at].contains(block);
    blocks.is_empty() || blocks.len() > 63 || blocks.iter().enumerate().any(twice)
}

/// A list offered to a ready box: "treated as offers one after another", each on a copy, to the first that is not dealt with.
pub fn list(before: &Memory, blocks: &[Block], caller: Caller) -> Result<Offered, u32> {
    if is_bad(blocks) {
        return Err(15);
    }
    let mut draft = Draft::of(before);
    let mut first: Option<Slot> = None;
    let mut dealt = 0;
    for block in blocks {
        let mut next = draft.clone();
        match next.offer(*block, caller) {
            Ok(Answer::Overwrite) => {}
            Ok(Answer::Announced(slot)) => {
                let first = *first.get_or_insert(slot);
                if metadata_page(first) != metadata_page(slot) {
                    break;
                }
            }
            _ => break,
        }
        (draft, dealt) = (next, dealt + 1);
    }
    match (dealt, first) {
        (0, _) => single(before, blocks[0], caller),
        (_, None) => Ok(draft.left(Answer::Dealt(dealt), None)),
        (_, Some(slot)) => draft.stores(Answer::Dealt(dealt), slot),
    }
}

/// An offer, or a list of them, that gets past 6 is refused, answers and leaves as told here.
pub fn check(before: &Memory, after: &Rig, call: &Call, made: &Made) {
    let said = made.said.map_err(|refusal| refusal.number());
    let expected = match call {
        _ if matches!(said, Err(3..=6)) => return,
        Call::Offer(block, caller) => single(before, *block, *caller),
        Call::OfferList(blocks, caller) => list(before, blocks, *caller),
        _ => return,
    };
    match expected {
        Err(number) => assert_eq!(said, Err(number), "{call:?}"),
        Ok(expected) => {
            assert_eq!(said, Ok(expected.answer), "{call:?}");
            assert_eq!(made.stored, expected.stored, "{call:?}");
            let same = Memory::of(after) == expected.after;
            assert!(same, "{call:?}: table or record");
        }
    }
}
