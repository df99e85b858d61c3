//! Document 02, N11: open blocks are landed in several orders, writes and fetches mixed. Images, table and record are the same to
//! the byte, and so they are after a cut and a reopening; a cut after each landing keeps what is promised of a cut.

use crate::beside::Beside;
use crate::random::Random;
use crate::rig::{word, Call, Rig};
use crate::say;
use crate::stored::{page, LANDED_PAGES};
use ferjulm::{Block, Caller, Geometry, Slot};

pub fn lines() -> Vec<String> {
    let title = [String::new(), "orders".to_string()].to_vec();
    [title, six(), random()].concat()
}

/// The six orders of two writes and a fetch, whose slots lie on two metadata pages: the last two slots of 241, and the first.
fn six() -> Vec<String> {
    const ORDERS: [[usize; 3]; 6] = [
        [0, 1, 2],
        [0, 2, 1],
        [1, 0, 2],
        [1, 2, 0],
        [2, 0, 1],
        [2, 1, 0],
    ];
    let opened = opened(241, 239, &["offer 3", "offer 7", "fetch 5"].map(Call::of));
    let texts = ["land 3 A", "land 7 B", "land fetch 5"];
    let named = |order: &[usize; 3]| order.map(|at| texts[at]).join(", ");
    let orders = ORDERS.map(|order| (named(&order), order.map(|at| Call::of(texts[at])).to_vec()));
    landed(&opened, &orders)
}

/// 63 slots open, every other block for fetch, and two orders that a seed makes.
fn random() -> Vec<String> {
    let calls: Vec<Call> = (0..63).map(Block).map(opening).collect();
    let opened = opened(260, 199, &calls);
    let mut random = Random(11);
    let orders = [(); 2].map(|()| {
        let mut blocks: Vec<u32> = (0..63).collect();
        for left in (1..blocks.len()).rev() {
            blocks.swap(left, random.below(left as u32 + 1) as usize);
        }
        let first = say::list(blocks.iter().take(8).map(u32::to_string));
        let calls = blocks.into_iter().map(Block).map(landing).collect();
        (format!("land {first} .."), calls)
    });
    landed(&opened, &orders)
}

fn opening(block: Block) -> Call {
    match block.0 % 2 {
        0 => Call::Offer(block, Caller::People),
        _ => Call::Fetch(block, Caller::People),
    }
}

fn landing(block: Block) -> Call {
    match block.0 % 2 {
        0 => Call::Land(block, page(LANDED_PAGES + block.0 as u64)),
        _ => Call::LandFetch(block),
    }
}

/// A box of which slots are opened from the hand on.
fn opened(slots: u32, hand: u32, calls: &[Call]) -> Beside {
    let blocks = slots + 9;
    let mut b = Beside::formatted(Geometry::new(slots, blocks));
    b.rig.set(word::HAND, hand);
    calls.iter().for_each(|call| made(&mut b, call));
    b
}

fn made(b: &mut Beside, call: &Call) {
    b.make(call).expect("a call that is served");
}

/// What an order leaves: after all landings, after a cut then, and after a flush and a cut.
#[derive(PartialEq)]
struct Left([Rig; 3]);

/// A line for what is open, and for each order with its name.
fn landed(opened: &Beside, orders: &[(String, Vec<Call>)]) -> Vec<String> {
    let open: Vec<Slot> = opened.rig.record.window().collect();
    let (first, last) = (open[0].0, open[open.len() - 1].0);
    let mut lines = vec![format!(
        "{} slots, {} open from slot {first} to slot {last}",
        opened.geometry.slots,
        open.len()
    )];
    let mut before: Option<Left> = None;
    for (name, order) in orders {
        let (left, line) = in_order(opened, order);
        let same = before.is_none_or(|before| before == left);
        let same = if same { "same" } else { "OTHER" };
        lines.push(format!("{name} -> {line}; {same}"));
        before = Some(left);
    }
    lines
}

/// Lands in an order, with a cut of a copy after each landing, after all, and after a flush.
fn in_order(opened: &Beside, order: &[Call]) -> (Left, String) {
    let mut b = opened.clone();
    let mut cuts = Vec::new();
    for call in order {
        made(&mut b, call);
        b.check_reads();
        cuts.push(after_cut(&b));
    }
    let landed = b.rig.clone();
    made(&mut b, &Call::Flush);
    let (flushed, none) = after_cut(&b);
    let (cut, steps) = cuts.pop().expect("a landing");
    assert!(cuts.iter().all(|(_, took)| *took == steps));
    let line = format!(
        "{}; cut after each: steps {steps}, after a flush: steps {none}; reads=ok",
        say::record(&landed.record)
    );
    (Left([landed, cut, flushed]), line)
}

/// A copy of the box after a cut and a finished reopening, with the steps that this took.
fn after_cut(b: &Beside) -> (Rig, u32) {
    let mut b = b.clone();
    b.cut(|| 0xffff_ffff);
    made(&mut b, &Call::Reopen);
    let steps = b.recover();
    (b.rig, steps)
}
