//! The record: 134 words.

use crate::{Geometry, Slot};

/// Words of a record.
pub const RECORD_WORDS: usize = 134;

/// The first of the window's 63 slots.
const WINDOW: usize = 8;

/// The first of the callers of its 63 places.
const CALLERS: usize = 71;

/// Who offers or fetches (document 02, N7). The import may have at most 8 slots open.
#[derive(Clone, Copy, Debug, Default, PartialEq, Eq)]
pub enum Caller {
    /// People, who type.
    #[default]
    People = 0,
    /// The scanner's import.
    Import = 1,
}

/// The phase of a box.
#[derive(Clone, Copy, Debug, PartialEq, Eq)]
pub enum Phase {
    /// A format has begun, with so many steps done.
    Formatting(u32),
    /// After a reopening, while slots are pending: document 01's "mending".
    Recovering,
    /// The box serves calls.
    Ready,
}

/// What a box keeps in memory beside its table. Any words may stand in it: every call but format and reopen judges them.
#[derive(Clone, Copy, Debug, PartialEq, Eq)]
pub struct Record(pub(crate) [u32; RECORD_WORDS]);

impl Default for Record {
    /// Zero words, to be lent to a format or a reopening.
    fn default() -> Self {
        Record([0; RECORD_WORDS])
    }
}

impl Record {
    /// A record of any words.
    pub fn from_words(words: [u32; RECORD_WORDS]) -> Self {
        Record(words)
    }

    /// Its words: slots, blocks, hand, newest, phase, steps done, unconfirmed, count, then the window, then its callers.
    pub fn words(&self) -> &[u32; RECORD_WORDS] {
        &self.0
    }

    /// Slots and blocks.
    pub fn geometry(&self) -> Geometry {
        Geometry::new(self.0[0], self.0[1])
    }

    /// The slot at which the next sweep starts.
    pub fn hand(&self) -> Slot {
        Slot(self.0[2])
    }

    /// The newest stamp.
    pub fn newest(&self) -> u32 {
        self.0[3]
    }

    /// The phase; none where the words are no phase, which every call that judges the record refuses by 3.
    pub fn phase(&self) -> Option<Phase> {
        match (self.0[4], self.0[5]) {
            (0, steps) => Some(Phase::Formatting(steps)),
            (1, 0) => Some(Phase::Recovering),
            (2, 0) => Some(Phase::Ready),
            _ => None,
        }
    }

    /// Whether an open slot was landed with no metadata store after it: document 01's "unsettled".
    pub fn unconfirmed(&self) -> bool {
        self.0[6] == 1
    }

    /// The open slots in the order of opening, or while recovering the pending ones.
    pub fn window(&self) -> impl Iterator<Item = Slot> + '_ {
        self.0[WINDOW..CALLERS]
            .iter()
            .take(self.0[7] as usize)
            .map(|&slot| Slot(slot))
    }

    /// The caller of each slot of the window, in its order: people while recovering.
    pub fn callers(&self) -> impl Iterator<Item = Caller> + '_ {
        self.0[CALLERS..]
            .iter()
            .take(self.0[7] as usize)
            .map(|&caller| match caller {
                0 => Caller::People,
                _ => Caller::Import,
            })
    }
}
