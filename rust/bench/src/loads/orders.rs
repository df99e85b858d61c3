//! The two rivals of source document 000, counted by rule on the box's own decisions: the same slots, hits, landings and
//! copy-outs. One metadata update is one page store; no two are put together. An overwrite of a dirty block, whose entry stays
//! as it is, updates nothing in any order.

/// What came up in a run.
#[derive(Clone, Copy, Default)]
pub struct Events {
    pub announced: u64,
    pub landed_write: u64,
    pub landed_fetch: u64,
    pub overwritten: u64,
    pub copied_out: u64,
}

impl Events {
    pub fn data_stores(&self) -> u64 {
        self.landed_write + self.landed_fetch + self.overwritten
    }
}

pub struct Order {
    pub name: &'static str,
    /// Metadata stores.
    pub updates: fn(&Events) -> u64,
    /// Whether a slot with these flags can be used after a cut.
    pub keeps: fn(u32) -> bool,
}

pub const ORDERS: [Order; 2] = [
    // The entry is stored after the page, when a slot becomes dirty and when it becomes clean, and not for a fetch; so a clean
    // slot's page may be another block's, and after a cut the dirty slots that are closed are all that can be used.
    Order {
        name: "write, update",
        updates: |e| e.landed_write + e.copied_out,
        keeps: |flags| flags % 8 == 3,
    },
    // The entry is stored before the page and again after it, for a write and for a fetch; so after a cut every closed slot can
    // be used. A copy-out needs no update: a slot wrongly taken for dirty holds the disk's page.
    Order {
        name: "update, write, update",
        updates: |e| e.announced + e.landed_write + e.landed_fetch,
        keeps: |flags| flags % 8 == 1 || flags % 8 == 3,
    },
];
