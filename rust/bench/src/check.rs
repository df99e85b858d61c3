//! Both sides make the same calls on boxes of their own, which must stay the same in every word and byte, and name the same page
//! as stored: random ones, and those that are timed.

use crate::calls;
use crate::image::PAGE;
use crate::plain::Plain;
use crate::proved::Proved;
use crate::report::grouped;
use crate::rng::{scattered, Rng};
use crate::scans;
use crate::world::{
    map_bytes, meta_pages, Call, Side, World, COUNT, NEWEST, PHASE, READY, RECORD, WORDS,
};
use std::collections::{BTreeMap, BTreeSet};

/// How often each result code was seen.
pub type Seen = BTreeMap<u32, u32>;

/// Something lent that a caller may get wrong.
#[derive(Clone, Copy)]
enum Place {
    Record(usize),
    Row(usize),
    Stored(usize),
    TableLength,
    RecordLength,
}

impl Place {
    fn is_restored(&self) -> bool {
        !matches!(self, Place::Record(_) | Place::Row(_))
    }
}

/// Puts a value at the place and gives back what was there.
fn swap(w: &mut World, place: Place, value: u32) -> u32 {
    let length = |words: &mut Vec<u32>| {
        let before = words.len() as u32;
        words.resize(value as usize, 0);
        before
    };
    match place {
        Place::Record(k) => std::mem::replace(&mut w.record[k], value),
        Place::Row(k) => std::mem::replace(&mut w.table[k], value),
        Place::Stored(k) => std::mem::replace(&mut w.ssd[k], value as u8) as u32,
        Place::TableLength => length(&mut w.table),
        Place::RecordLength => length(&mut w.record),
    }
}

/// A place and a value that is likely to break a rule there.
fn wrong(rng: &mut Rng, slots: u32) -> (Place, u32) {
    let at = |rng: &mut Rng, n: usize| rng.below(n as u64) as usize;
    let stored = PAGE * (1 + meta_pages(slots) as usize);
    let value = rng.pick(&[0, 1, 2, 3, 5, 7, 8, 63, 64, slots, 255, u32::MAX]);
    match rng.below(12) {
        0..=3 => (Place::Record(at(rng, 12)), value),
        4 => (Place::Record(at(rng, RECORD)), value),
        5..=7 => (Place::Row(at(rng, 2 * slots as usize)), value),
        8 => (Place::Stored(at(rng, 60)), value),
        9 => (Place::Stored(PAGE + at(rng, stored - PAGE)), value),
        10 => (Place::TableLength, 2 * slots + 1),
        _ => (Place::RecordLength, RECORD as u32 + 1),
    }
}

/// A call that fits the phase more often than not, and often names an open block; while `opening`, none is landed.
fn random_call<'a>(
    rng: &mut Rng,
    w: &World,
    opening: bool,
    page: &'a [u8],
    list: &'a [u32],
) -> Call<'a> {
    let (slots, blocks) = ((w.table.len() / 2) as u32, (w.hdd.len() / PAGE) as u32);
    let room = map_bytes(slots);
    let open = &w.record[8..8 + w.record[COUNT] as usize];
    let caller = rng.pick(&[0, 0, 0, 0, 1, 1, 1, 2]);
    let block = match rng.below(3) {
        0 if !open.is_empty() => w.table[2 * rng.pick(open) as usize],
        _ => rng.below(blocks as u64 + 1) as u32,
    };
    if w.record[PHASE] != READY && rng.below(8) != 0 {
        return Call::Step;
    }
    match rng.below(1_000) {
        0 => Call::Format(rng.pick(&[slots, 0, slots + 1]), blocks),
        1 => Call::Format(slots, rng.pick(&[blocks, 16_777_217])),
        2..=15 => Call::Reopen,
        16..=19 => Call::Step,
        20..=59 => Call::Flush,
        60..=119 => Call::WriteBack(block),
        120..=129 => Call::Map(rng.pick(&[0, room - 1, room, room, room, room + 1, room + 67])),
        130..=149 => Call::Cost(
            list,
            caller,
            2 * slots as usize + rng.pick(&[0, 0, 0, 0, 0, 1]),
        ),
        150..=189 => Call::View(block),
        190..=249 => Call::LookUp(block),
        250..=289 => Call::LookUpList(list, (list.len() + (rng.below(8) == 0) as usize).min(WORDS)),
        290..=319 => Call::OfferList(list, caller),
        320..=389 => Call::Fetch(block, caller),
        390..=489 if !opening => Call::LandFetch(block),
        490..=739 if !opening => Call::Land(block, page),
        _ => Call::Offer(block, caller),
    }
}

/// A list of up to 65 blocks, now and then empty, or with one that is too high; in most no block comes twice.
pub fn random_list(rng: &mut Rng, blocks: u32) -> Vec<u32> {
    let n = match rng.below(3) {
        0 => rng.below(66) as u32,
        1 => rng.pick(&[0, 1, 63, 64, 65]),
        _ => rng.pick(&[1, 2, 3, 5]),
    };
    let most = blocks + (rng.below(8) == 0) as u32;
    let mut list: Vec<u32> = (0..n).map(|_| rng.below(most as u64) as u32).collect();
    if rng.below(4) != 0 {
        let mut seen = BTreeSet::new();
        list.retain(|block| seen.insert(*block));
    }
    list
}

/// Makes random calls on both sides; now and then something lent is wrong for one call, or the stamps are near their end.
fn agree(slots: u32, blocks: u32, calls: usize, seen: &mut Seen) {
    let mut rng = Rng::new();
    let [mut ours, mut theirs] = [Proved::make, Plain::make].map(|make| {
        let mut w = World::stored(slots, blocks, |s| scattered(s, blocks));
        assert!(make(&mut w, Call::Reopen) == 0);
        w
    });
    let mut page = vec![0u8; PAGE];
    for i in 0..calls {
        page.resize(if rng.below(50) == 0 { PAGE - 1 } else { PAGE }, 0);
        page.fill(rng.next() as u8);
        if rng.below(1_000) == 0 {
            ours.record[NEWEST] = 4_294_967_225;
            theirs.record[NEWEST] = 4_294_967_225;
        }
        let list = random_list(&mut rng, blocks);
        let call = random_call(&mut rng, &ours, i / 500 % 2 == 0, &page, &list);
        let spoilt = (rng.below(10) == 0).then(|| wrong(&mut rng, slots));
        let make = |w: &mut World, side: fn(&mut World, Call) -> u32| {
            let before = spoilt.map(|(place, value)| (place, swap(w, place, value)));
            let answer = side(w, call);
            // a record or row with which the call was made stays
            before
                .filter(|(place, _)| (1..100).contains(&answer) || place.is_restored())
                .map(|(place, value)| swap(w, place, value));
            answer
        };
        let (a, b) = (
            make(&mut ours, Proved::make),
            make(&mut theirs, Plain::make),
        );
        assert!(a == b, "{slots} slots, call {i}: {a} and {b}");
        assert!(ours == theirs, "{slots} slots: not the same after call {i}");
        *seen.entry(a).or_default() += 1;
    }
}

/// Checks boxes of three sizes. Every answer and every refusal must have come up. Then the calls that are timed.
pub fn run() -> String {
    let mut seen = Seen::new();
    let sizes = [(4, 8, 40_000), (64, 70, 40_000), (300, 310, 8_000)];
    for (slots, blocks, calls) in sizes {
        agree(slots, blocks, calls, &mut seen);
        scans::agree(slots, blocks, &mut seen);
    }
    let all: Vec<u32> = (0..=18).chain(101..=103).chain(106..=113).collect();
    assert!(seen.keys().eq(&all), "the result codes seen: {seen:?}");
    let random: u32 = seen.values().sum();
    let refused: u32 = seen.range(1..100).map(|(_, n)| n).sum();
    calls::OPEN.iter().for_each(|(_, open)| calls::check(*open));
    format!(
        "{} random calls, {} of them refused, with every answer and every number from 1 to 18 among them, and the calls\n\
         that are timed, with 0, 16 and 63 slots open: both sides gave the same code, named the same\n\
         slot, words, places, page and counts, and left the same record, table, images, sheet and scratch table.\n",
        grouped(random),
        grouped(refused)
    )
}
