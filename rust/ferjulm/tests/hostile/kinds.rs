//! The calls: how each may end, and what it may change.

/// A call: the numbers that it may refuse with, its other results, and what it may change if it is done.
pub struct Kind {
    pub name: &'static str,
    pub refusals: &'static [u32],
    pub results: &'static [u32],
    pub changes: &'static [&'static str],
}

const fn kind(
    name: &'static str,
    refusals: &'static [u32],
    results: &'static [u32],
    changes: &'static [&'static str],
) -> Kind {
    Kind {
        name,
        refusals,
        results,
        changes,
    }
}

const ALL: &[&str] = &["ssd", "hdd", "table", "record", "slot", "place"];
const LANDING: &[&str] = &["ssd", "table", "record", "place"];

pub const KINDS: [Kind; 16] = [
    kind("format", &[1, 3, 4], &[0], &["table", "record"]),
    kind("step", &[3, 4, 5, 6, 13], &[0], &["ssd", "record", "place"]),
    kind("reopen", &[2, 3, 4, 5], &[0], &["table", "record"]),
    kind(
        "offer",
        &[3, 4, 5, 6, 18, 7, 8, 17, 11, 12, 13],
        &[101, 102, 103],
        ALL,
    ),
    kind(
        "offer a list",
        &[3, 4, 5, 6, 15, 18, 7, 8, 17, 11, 12, 13],
        &[112, 103],
        &["ssd", "hdd", "table", "record", "dealt", "place"],
    ),
    kind("land", &[3, 4, 5, 6, 7, 9], &[0], LANDING),
    kind(
        "fetch",
        &[3, 4, 5, 6, 18, 7, 10, 8, 17, 11, 12, 13],
        &[101, 103],
        ALL,
    ),
    kind("land a fetch", &[3, 4, 5, 6, 7, 9], &[0], LANDING),
    kind(
        "look up",
        &[3, 4, 5, 6, 7],
        &[107, 108, 109, 110, 111],
        &["table", "slot"],
    ),
    kind(
        "look up a list",
        &[3, 4, 5, 6, 16, 7],
        &[0],
        &["table", "words"],
    ),
    kind("view", &[3, 4, 5, 6, 7], &[0], &["place"]),
    kind(
        "write back",
        &[3, 4, 5, 6, 7, 8],
        &[0, 106],
        &["hdd", "table", "place"],
    ),
    kind(
        "flush",
        &[3, 4, 5, 6, 13],
        &[0, 106],
        &["ssd", "record", "place"],
    ),
    kind("map", &[3, 4, 5, 6, 14], &[0], &["sheet"]),
    kind(
        "cost",
        &[3, 4, 5, 6, 15, 18],
        &[0, 113],
        &["scratch", "counts", "met"],
    ),
    kind("label", &[2], &[0], &["label"]),
];

impl Kind {
    /// Whether it may store a page, and so names one or none.
    pub fn stores(&self) -> bool {
        self.changes.contains(&"place") && self.name != "view"
    }
}
