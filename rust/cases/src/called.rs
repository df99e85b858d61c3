//! Whose slots are open (document 02, N7), by the record and the table before a call alone.

use crate::call::{Answer, Call, Made};
use crate::looked::condition;
use crate::place::Memory;
use crate::rig::Rig;
use ferjulm::{Block, Caller, Condition, Record, Slot};

/// The import may have so many slots open.
const IMPORT_MOST: usize = 8;

/// The window's slots, each with its caller.
pub fn places(record: &Record) -> Vec<(Slot, Caller)> {
    record.window().zip(record.callers()).collect()
}

/// 17 refuses exactly the import with 8 slots open or more, where the call would open another and no number before it refuses; and
/// callers come and go with their slots.
pub fn check(before: &Memory, after: &Rig, call: &Call, made: &Made) {
    if let Call::Offer(block, caller) | Call::Fetch(block, caller) = call {
        let another = opens_another(before, call, *block);
        let full = open_by_import(&before.record) >= IMPORT_MOST && *caller == Caller::Import;
        match made.said.map_err(|refusal| refusal.number()) {
            Ok(_) | Err(11..=13) => assert!(!(full && another), "{call:?}: 17 was passed"),
            Err(17) => assert!(full && another, "{call:?} was refused by 17"),
            Err(_) => {}
        }
    }
    let Ok(answer) = made.said else {
        return;
    };
    let mut expected = places(&before.record);
    match (call, answer) {
        (Call::Format(_) | Call::Step | Call::Reopen, _) => {
            let people = after
                .record
                .callers()
                .all(|caller| caller == Caller::People);
            return assert!(people, "{call:?} left the import's slots");
        }
        // the whole record is compared elsewhere
        (Call::OfferList(..), _) => return,
        (Call::Offer(_, caller) | Call::Fetch(_, caller), Answer::Announced(slot)) => {
            expected.push((slot, *caller))
        }
        (Call::Land(block, _) | Call::LandFetch(block), _) => {
            if let Condition::OpenWrite(closed) | Condition::OpenFetch(closed) =
                condition(&before.table, *block)
            {
                expected.retain(|place| place.0 != closed)
            }
        }
        _ => {}
    }
    assert_eq!(places(&after.record), expected, "{call:?}");
}

/// Slots of the import.
fn open_by_import(record: &Record) -> usize {
    record
        .callers()
        .filter(|caller| *caller == Caller::Import)
        .count()
}

/// Whether an offer or a fetch would open another slot, if nothing refused it.
fn opens_another(before: &Memory, call: &Call, block: Block) -> bool {
    match condition(&before.table, block) {
        Condition::NotCached => true,
        Condition::Clean(_) => matches!(call, Call::Offer(..)),
        _ => false,
    }
}
