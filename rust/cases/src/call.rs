//! Calls as values, and what they say.

use crate::stored::named;
use ferjulm::{
    Block, Caller, Condition, Fetched, Geometry, Offered, OfferedList, Place, Refusal, Saved, Slot,
};

/// A call with its arguments.
#[derive(Clone, Debug, PartialEq)]
pub enum Call {
    Format(Geometry),
    Step,
    Reopen,
    Offer(Block, Caller),
    OfferList(Vec<Block>, Caller),
    Land(Block, Vec<u8>),
    Fetch(Block, Caller),
    LandFetch(Block),
    LookUp(Block),
    /// A list of blocks, and how many words are lent for the answer.
    LookUpList(Vec<Block>, usize),
    View(Block),
    /// Into a buffer of so many bytes.
    Map(usize),
    /// With a scratch table of so many words more than the table.
    Cost(Vec<Block>, Caller, isize),
    WriteBack(Block),
    Flush,
}

impl Call {
    /// The call of a text: its name, then its numbers (`look up 5`, `format 4 8`), then the name of the page to be landed
    /// (`land 5 A`).
    pub fn of(text: &str) -> Self {
        let at = text.find(char::is_numeric).unwrap_or(text.len());
        let (name, arguments) = text.split_at(at);
        let arguments: Vec<&str> = arguments.split(' ').collect();
        let number = |at: usize| arguments[at].parse::<u32>().expect("a number");
        let block = || Block(number(0));
        let blocks = || (0..arguments.len()).map(|at| Block(number(at)));
        match name.trim_end() {
            "format" => Call::Format(Geometry::new(number(0), number(1))),
            "step" => Call::Step,
            "reopen" => Call::Reopen,
            "offer" => Call::Offer(block(), Caller::People),
            "import offer" => Call::Offer(block(), Caller::Import),
            "offer list" => Call::OfferList(blocks().collect(), Caller::People),
            "import offer list" => Call::OfferList(blocks().collect(), Caller::Import),
            "land" => Call::Land(block(), named(arguments[1])),
            "fetch" => Call::Fetch(block(), Caller::People),
            "import fetch" => Call::Fetch(block(), Caller::Import),
            "land fetch" => Call::LandFetch(block()),
            "look up" => Call::LookUp(block()),
            "look up list" => Call::list(blocks()),
            "view" => Call::View(block()),
            "map" => Call::Map(number(0) as usize),
            "cost" => Call::Cost(blocks().collect(), Caller::People, 0),
            "write back" => Call::WriteBack(block()),
            "flush" => Call::Flush,
            _ => panic!("no call: {text}"),
        }
    }

    /// A list look-up with room for as many words as there are blocks.
    pub fn list(blocks: impl Iterator<Item = Block>) -> Self {
        let blocks: Vec<Block> = blocks.collect();
        let room = blocks.len();
        Call::LookUpList(blocks, room)
    }
}

/// The answer of any call, in the documents' words.
#[derive(Clone, Copy, Debug, PartialEq, Eq)]
pub enum Answer {
    /// Where document 01 names no answer.
    Done,
    Announced(Slot),
    Overwrite,
    CopiedOut,
    /// So many places of a list.
    Dealt(usize),
    Looked(Condition),
    NothingToDo,
}

/// What a call says.
pub type Said = Result<Answer, Refusal>;

/// What came of a call: what it says, and the page that it names as stored.
#[derive(Clone, Copy, Debug, PartialEq, Eq)]
pub struct Made {
    pub said: Said,
    pub stored: Option<Place>,
}

impl From<Refusal> for Made {
    fn from(refusal: Refusal) -> Self {
        Made {
            said: Err(refusal),
            stored: None,
        }
    }
}

/// A call that was not refused.
fn made(answer: Answer, stored: Option<Place>) -> Made {
    let said = Ok(answer);
    Made { said, stored }
}

/// A call that stores nothing.
impl From<()> for Made {
    fn from((): ()) -> Self {
        made(Answer::Done, None)
    }
}

/// A call that always stores.
impl From<Place> for Made {
    fn from(stored: Place) -> Self {
        made(Answer::Done, Some(stored))
    }
}

impl From<Offered> for Made {
    fn from(offered: Offered) -> Self {
        let answer = match offered {
            Offered::Announced { slot, .. } => Answer::Announced(slot),
            Offered::Overwrite => Answer::Overwrite,
            Offered::CopiedOut { .. } => Answer::CopiedOut,
            other => panic!("no case has {other:?}"),
        };
        made(answer, offered.stored())
    }
}

impl From<OfferedList> for Made {
    fn from(offered: OfferedList) -> Self {
        let answer = match offered {
            OfferedList::Dealt { places, .. } => Answer::Dealt(places),
            OfferedList::CopiedOut { .. } => Answer::CopiedOut,
        };
        made(answer, offered.stored())
    }
}

impl From<Fetched> for Made {
    fn from(fetched: Fetched) -> Self {
        let answer = match fetched {
            Fetched::Announced { slot, .. } => Answer::Announced(slot),
            Fetched::CopiedOut { .. } => Answer::CopiedOut,
        };
        made(answer, fetched.stored())
    }
}

impl From<Condition> for Made {
    fn from(condition: Condition) -> Self {
        made(Answer::Looked(condition), None)
    }
}

impl From<Saved> for Made {
    fn from(saved: Saved) -> Self {
        let answer = match saved {
            Saved::Stored(_) => Answer::Done,
            Saved::NothingToDo => Answer::NothingToDo,
        };
        made(answer, saved.stored())
    }
}
