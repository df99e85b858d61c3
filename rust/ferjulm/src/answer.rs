//! What each call answers where it is not refused.

use crate::place::{foreign, Out};
use crate::{Place, Refusal, Slot, PAGE};

/// The answer of an offer.
#[derive(Clone, Copy, Debug, PartialEq, Eq)]
#[non_exhaustive]
pub enum Offered {
    /// The block's slot is open, and its metadata page was stored: land next.
    Announced { slot: Slot, stored: Place },
    /// The block is dirty and not open, nothing was stored: land.
    Overwrite,
    /// A dirty page was stored on the HDD to make room: offer again.
    CopiedOut { stored: Place },
}

impl Offered {
    pub(crate) fn of(code: u32, out: Out) -> Self {
        match (code, out.place()) {
            (101, Some(stored)) => Offered::Announced {
                slot: Slot(out.slot),
                stored,
            },
            (102, None) => Offered::Overwrite,
            (103, Some(stored)) => Offered::CopiedOut { stored },
            _ => foreign(code),
        }
    }

    /// The page that was stored.
    pub fn stored(self) -> Option<Place> {
        match self {
            Offered::Announced { stored, .. } | Offered::CopiedOut { stored } => Some(stored),
            Offered::Overwrite => None,
        }
    }
}

/// The answer of a list offer.
#[derive(Clone, Copy, Debug, PartialEq, Eq)]
pub enum OfferedList {
    /// So many places of the list, its first ones, are announced or overwrites: land these, and offer what is left. One metadata page
    /// was stored for all that was announced, and none where every place is an overwrite.
    Dealt {
        places: usize,
        stored: Option<Place>,
    },
    /// A dirty page was stored on the HDD to make room for the first place: offer the list again.
    CopiedOut { stored: Place },
}

impl OfferedList {
    pub(crate) fn of(code: u32, out: Out) -> Self {
        match (code, out.place()) {
            (112, stored) => OfferedList::Dealt {
                places: out.dealt as usize,
                stored,
            },
            (103, Some(stored)) => OfferedList::CopiedOut { stored },
            _ => foreign(code),
        }
    }

    /// The page that was stored.
    pub fn stored(self) -> Option<Place> {
        match self {
            OfferedList::Dealt { stored, .. } => stored,
            OfferedList::CopiedOut { stored } => Some(stored),
        }
    }

    /// How many places of the list were dealt with: those before the rest.
    pub fn places(self) -> usize {
        match self {
            OfferedList::Dealt { places, .. } => places,
            OfferedList::CopiedOut { .. } => 0,
        }
    }
}

/// The answer of a fetch.
#[derive(Clone, Copy, Debug, PartialEq, Eq)]
pub enum Fetched {
    /// The block's slot is open, and its metadata page was stored: land the fetch next.
    Announced { slot: Slot, stored: Place },
    /// A dirty page was stored on the HDD to make room: fetch again.
    CopiedOut { stored: Place },
}

impl Fetched {
    pub(crate) fn of(code: u32, out: Out) -> Self {
        match (code, out.place()) {
            (101, Some(stored)) => Fetched::Announced {
                slot: Slot(out.slot),
                stored,
            },
            (103, Some(stored)) => Fetched::CopiedOut { stored },
            _ => foreign(code),
        }
    }

    /// The page that was stored: there always is one.
    pub fn stored(self) -> Option<Place> {
        let (Fetched::Announced { stored, .. } | Fetched::CopiedOut { stored }) = self;
        Some(stored)
    }
}

/// The answer of a write back or a flush.
#[derive(Clone, Copy, Debug, PartialEq, Eq)]
pub enum Saved {
    /// It was done by storing this page.
    Stored(Place),
    /// The block is not dirty, or nothing is unconfirmed.
    NothingToDo,
}

impl Saved {
    pub(crate) fn of(code: u32, out: Out) -> Self {
        match (code, out.place()) {
            (0, Some(stored)) => Saved::Stored(stored),
            (106, None) => Saved::NothingToDo,
            _ => foreign(code),
        }
    }

    /// The page that was stored.
    pub fn stored(self) -> Option<Place> {
        match self {
            Saved::Stored(stored) => Some(stored),
            Saved::NothingToDo => None,
        }
    }
}

/// The answer of a look-up: the block's condition, with its slot.
///
/// The page of a slot that is open may still be its former block's: read a block by a view.
///
/// ```
/// use ferjulm::Condition;
///
/// /// What a status panel says of a block.
/// fn panel(condition: Condition) -> &'static str {
///     match condition {
///         Condition::NotCached => "on the disk alone",
///         Condition::Clean(_) => "in the cache, and the same on the disk",
///         Condition::Dirty(_) => "in the cache, the disk is behind: write it back before the disk is taken away",
///         Condition::OpenWrite(_) => "being written: till it lands it reads as before, from the disk",
///         Condition::OpenFetch(_) => "on its way into the cache: till then it reads from the disk",
///     }
/// }
/// assert_eq!(panel(Condition::NotCached), "on the disk alone");
/// ```
#[derive(Clone, Copy, Debug, PartialEq, Eq)]
pub enum Condition {
    /// It has no slot.
    NotCached,
    /// In a slot and not open, as the HDD has it.
    Clean(Slot),
    /// In a slot and not open; the HDD may be behind.
    Dirty(Slot),
    /// Its slot is open for writing: a write was announced and has not landed.
    OpenWrite(Slot),
    /// Its slot is open for fetch: the fetch has not landed.
    OpenFetch(Slot),
}

impl Condition {
    pub(crate) fn of(code: u32, slot: u32) -> Self {
        match code {
            107 => Condition::NotCached,
            108 => Condition::Clean(Slot(slot)),
            109 => Condition::Dirty(Slot(slot)),
            110 => Condition::OpenWrite(Slot(slot)),
            111 => Condition::OpenFetch(Slot(slot)),
            _ => foreign(code),
        }
    }

    /// The slot whose page is the block's: that of a clean block or a dirty one, and none of an open one.
    pub fn closed(self) -> Option<Slot> {
        match self {
            Condition::Clean(slot) | Condition::Dirty(slot) => Some(slot),
            Condition::NotCached | Condition::OpenWrite(_) | Condition::OpenFetch(_) => None,
        }
    }
}

/// What a view finds: a block's page, lent where it lies.
#[derive(Clone, Copy, Debug, PartialEq, Eq)]
pub struct View<'a> {
    /// Where the page lies.
    pub place: Place,
    /// The page itself.
    pub page: &'a [u8; PAGE],
}

/// The stores that an import would make, by kind.
#[derive(Clone, Copy, Debug, Default, PartialEq, Eq)]
pub struct Counts {
    /// Dirty pages copied to the HDD to make room.
    pub copy_outs: u32,
    /// Metadata pages.
    pub metadata: u32,
    /// Pages that landed.
    pub data: u32,
}

impl Counts {
    /// All stores together.
    pub fn stores(self) -> u32 {
        self.copy_outs + self.metadata + self.data
    }
}

/// What an import would cost.
#[derive(Clone, Copy, Debug, PartialEq, Eq)]
pub enum Cost {
    /// It would be made, with these stores.
    Counted(Counts),
    /// It would meet a refusal at this place of the list, counted from 0, after these stores.
    Met {
        refusal: Refusal,
        place: usize,
        counts: Counts,
    },
}

impl Cost {
    pub(crate) fn of(code: u32, counts: [u32; 3], met: [u32; 2]) -> Self {
        let [copy_outs, metadata, data] = counts;
        let counts = Counts {
            copy_outs,
            metadata,
            data,
        };
        match (code, Refusal::of_code(met[0])) {
            (0, _) => Cost::Counted(counts),
            (113, Some(refusal)) => Cost::Met {
                refusal,
                place: met[1] as usize,
                counts,
            },
            _ => foreign(code),
        }
    }

    /// The stores, all of them or those up to the refusal.
    pub fn counts(self) -> Counts {
        match self {
            Cost::Counted(counts) | Cost::Met { counts, .. } => counts,
        }
    }
}
