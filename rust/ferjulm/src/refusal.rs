//! Why a call says no.

use crate::place::foreign;
use core::fmt;

/// Why a call said no. Nothing has changed.
#[derive(Clone, Copy, Debug, PartialEq, Eq)]
pub struct Refusal {
    number: u32,
    length: Option<WrongLength>,
}

/// Something lent that has a wrong length: the first such of SSD, HDD and table.
#[derive(Clone, Copy, Debug, PartialEq, Eq)]
pub struct WrongLength {
    /// What has it.
    pub of: Lent,
    /// The length that it has: bytes of an image, words of the table.
    pub has: usize,
    /// The length that it should have.
    pub expected: usize,
}

/// What a box lends to a call that has a length.
#[derive(Clone, Copy, Debug, PartialEq, Eq)]
#[non_exhaustive]
pub enum Lent {
    /// The SSD image.
    Ssd,
    /// The HDD image.
    Hdd,
    /// The table.
    Table,
}

/// The conditions of documents 01 and 02 by number; 5, 9, 11 and 13 are shortened.
const REASONS: [(u32, &str); 18] = [
    (1, "format: slots or blocks outside the limits"),
    (2, "reopen: SSD under a page, or first page no legal label"),
    (3, "a record number out of range, window repeated or not zero past its length"),
    (4, "an image, table or data page of the wrong length"),
    (5, "a metadata page (reopen) or table row (others) breaks its rule, or rows, window and phase don't agree"),
    (6, "wrong phase: step when ready, anything else before"),
    (7, "block number too high"),
    (8, "offer, write back: the block's slot is open; fetch: it is open for writing"),
    (9, "land: block neither open for writing nor dirty; land a fetch: not open for fetch"),
    (10, "fetch: the block is cached and not open, or open for fetch already"),
    (11, "a fetch, or an offer of a block that isn't dirty, while 63 are open"),
    (12, "a slot must be swept for, all are open"),
    (13, "this call would store metadata, and too few stamps are left"),
    (14, "map: the buffer is shorter than 67 × the number of lines"),
    (15, "an empty list, a list of more than 63, or one that names a block twice"),
    (16, "a list that is empty, over 64, or not as long as the answer list"),
    (17, "a fetch, or an offer of a block that isn't dirty, by the import with 8 or more open"),
    (18, "a caller that is neither 0 nor 1"),
];

/// The condition of a number, if it is a refusal's.
fn reason_of(number: u32) -> Option<&'static str> {
    let reason = REASONS.iter().find(|reason| reason.0 == number)?;
    Some(reason.1)
}

impl Refusal {
    /// The refusal that a result code of [`calls`](crate::calls) stands for; none where it stands for an answer. It has no
    /// [`length`](Refusal::length).
    pub fn of_code(code: u32) -> Option<Self> {
        let refusal = |number| Refusal {
            number,
            length: None,
        };
        reason_of(code).map(|_| refusal(code))
    }

    /// Its number: document 01's, 1 to 13, or document 02's, 14 to 18.
    pub fn number(self) -> u32 {
        self.number
    }

    /// The condition, in the documents' words.
    pub fn reason(self) -> &'static str {
        reason_of(self.number).expect("the number of a refusal")
    }

    /// For 4: which length is wrong, and which was expected.
    pub fn length(self) -> Option<WrongLength> {
        self.length
    }
}

impl fmt::Display for Refusal {
    fn fmt(&self, f: &mut fmt::Formatter<'_>) -> fmt::Result {
        write!(f, "refused by {}: {}", self.number, self.reason())?;
        match self.length {
            Some(length) => write!(f, " ({length})"),
            None => Ok(()),
        }
    }
}

impl fmt::Display for WrongLength {
    fn fmt(&self, f: &mut fmt::Formatter<'_>) -> fmt::Result {
        let (name, unit) = match self.of {
            Lent::Ssd => ("SSD", "bytes"),
            Lent::Hdd => ("HDD", "bytes"),
            Lent::Table => ("table", "words"),
        };
        write!(f, "{name}: {} {unit}, expected {}", self.has, self.expected)
    }
}

impl core::error::Error for Refusal {}

/// So that a function that stores on files may fail by either.
#[cfg(feature = "std")]
impl From<Refusal> for std::io::Error {
    fn from(refusal: Refusal) -> Self {
        std::io::Error::other(refusal)
    }
}

/// A code that is no refusal; `length` is asked for with 4.
pub(crate) fn judged(
    code: u32,
    length: impl FnOnce() -> Option<WrongLength>,
) -> Result<u32, Refusal> {
    match Refusal::of_code(code) {
        Some(refusal) if code == 4 => Err(Refusal {
            length: length(),
            ..refusal
        }),
        Some(refusal) => Err(refusal),
        None if (1..=99).contains(&code) => foreign(code),
        None => Ok(code),
    }
}
