//! Any lengths, any words and any bytes: a call is refused by a number of its own and changes nothing, or it is done and stays
//! within what it was lent.

mod input;
mod kinds;
mod lent;

use cases::costed;
use cases::looked::condition;
use cases::mapped;
use cases::offered;
use cases::place::Memory;
use cases::random::Random;
use cases::rig::{word, Answer, Rig};
use cases::stored::{label, label_page};
use ferjulm::{
    Block, Caller, Condition, Cost, Counts, Geometry, Image, Images, Record, Slot, PAGE,
};
use input::{boxes, late, opened, Input};
use kinds::{Kind, KINDS};
use lent::{Lent, UNSET};
use std::collections::BTreeMap;

const SMALL: Geometry = Geometry::new(4, 8);

/// Makes one call and checks it; returns its result.
fn check(kind: &Kind, input: &Input) -> u32 {
    let before = Lent::new(input);
    let mut lent = before.clone();
    let result = lent.call(kind, input);
    let name = kind.name;
    assert!(lent.same_guards(&before), "{name} wrote outside");
    let changes = lent.changes(&before);
    if (1..100).contains(&result) {
        assert!(
            kind.refusals.contains(&result),
            "{name} refused by {result}"
        );
        assert!(
            lent == before,
            "{name} refused by {result} changed {changes:?}"
        );
        if name == "offer a list" && result > 6 {
            assert_eq!(offered_list(input).err(), Some(result), "{name}");
        }
        return result;
    }
    assert!(kind.results.contains(&result), "{name} gave {result}");
    let allowed = changes.iter().all(|part| kind.changes.contains(part));
    assert!(allowed, "{name} changed {changes:?}");
    check_slot(name, result, &mut lent);
    check_place(kind, result, &mut lent, &before, input);
    check_fits(kind, &mut lent, input);
    match name {
        "look up" => check_condition(result, &mut lent, input),
        "look up a list" => check_list(&mut lent, input),
        "offer a list" => check_offered(result, &mut lent, input),
        "map" => check_sheet(&mut lent, input),
        "cost" => check_cost(result, &mut lent, input),
        _ => {}
    }
    result
}

/// What must have held of a call that is done: lengths, phase and block number. The box that a reopening found is in the
/// record that it made. A label that was read is that of a page of a text, whatever else is lent.
fn check_fits(kind: &Kind, lent: &mut Lent, input: &Input) {
    let name = kind.name;
    if name == "label" {
        let (slots, blocks) = (lent.slots.lent()[0], lent.blocks.lent()[0]);
        let text = label(Geometry::new(slots, blocks));
        assert!(input.ssd[..PAGE] == label_page(&text), "label: {text}");
        return;
    }
    let record = lent.record.lent();
    let (slots, blocks) = (record[0], record[1]);
    let geometry = Geometry::new(slots, blocks);
    assert!(
        (1..=57_600).contains(&slots) && (1..=16_777_216).contains(&blocks),
        "{name}: limits"
    );
    assert_eq!(record.len(), 134, "{name}: record");
    assert_eq!(input.ssd.len(), geometry.ssd_bytes(), "{name}: SSD");
    assert_eq!(input.hdd.len(), geometry.hdd_bytes(), "{name}: HDD");
    assert_eq!(input.table.len(), geometry.table_words(), "{name}: table");
    assert!(name != "land" || input.page.len() == PAGE, "{name}: page");
    match name {
        "format" | "reopen" => {}
        "step" => assert!(input.record[4] < 2, "a step when ready"),
        _ => assert_eq!(input.record[4], 2, "{name} when not ready"),
    }
    if name == "look up a list" {
        let fits = (1..=64).contains(&input.list.len()) && input.list.len() == input.room;
        assert!(
            fits && input.list.iter().all(|block| *block < blocks),
            "{name}"
        );
        return;
    }
    if name == "offer a list" {
        return assert!(input.list[0] < blocks, "{name}");
    }
    if name == "cost" {
        return assert_eq!(input.scratch.len(), input.table.len(), "{name}");
    }
    assert!(
        !kind.refusals.contains(&7) || input.block < blocks,
        "{name}: block"
    );
}

/// What an offer of the list comes to that gets past 6, by document 01's offers one after another; 15 comes before 18.
fn offered_list(input: &Input) -> Result<offered::Offered, u32> {
    let words = input.record[..].try_into().expect("a record");
    let before = Memory {
        table: input.table.clone(),
        record: Record::from_words(words),
    };
    let blocks: Vec<Block> = input.list.iter().map(|block| Block(*block)).collect();
    let by = |caller| offered::list(&before, &blocks, caller);
    match (by(Caller::People), input.caller) {
        (Err(15), _) => Err(15),
        (people, 0) => people,
        (_, 1) => by(Caller::Import),
        _ => Err(18),
    }
}

/// A list that was offered and not refused: answer, table, record and page.
fn check_offered(result: u32, lent: &mut Lent, input: &Input) {
    let expected = offered_list(input).unwrap_or_else(|number| panic!("{result}, not {number}"));
    let (code, dealt) = match expected.answer {
        Answer::Dealt(places) => (112, places as u32),
        _ => (103, UNSET),
    };
    assert_eq!((result, lent.dealt.lent()[0]), (code, dealt));
    let (image, offset) = expected.stored.map_or((0, 0), |place| {
        (1 + (place.image == Image::Hdd) as u32, place.offset)
    });
    assert_eq!(
        (lent.image.lent()[0], lent.offset.lent()[0]),
        (image, offset)
    );
    let Memory { table, record } = expected.after;
    assert!(lent.table.lent() == table && lent.record.lent() == record.words());
}

/// A slot is set where the answer carries one, and nowhere else.
fn check_slot(name: &str, result: u32, lent: &mut Lent) {
    let slot = lent.slot.lent()[0];
    let carries = result == 101 || (108..=111).contains(&result);
    assert!(
        carries == (slot != UNSET),
        "{name} gave {result} and slot {slot}"
    );
}

/// A look-up that is done answers by the block's lowest row, open or not, and sets the used flag of a closed slot alone.
fn check_condition(result: u32, lent: &mut Lent, input: &Input) {
    let condition = condition(&input.table, Block(input.block));
    let (code, slot) = match condition {
        Condition::NotCached => (107, Slot(UNSET)),
        Condition::Clean(slot) => (108, slot),
        Condition::Dirty(slot) => (109, slot),
        Condition::OpenWrite(slot) => (110, slot),
        Condition::OpenFetch(slot) => (111, slot),
    };
    assert_eq!((result, Slot(lent.slot.lent()[0])), (code, slot));
    let mut table = input.table.clone();
    if let Some(slot) = condition.closed() {
        table[2 * slot.0 as usize + 1] |= 8;
    }
    assert!(lent.table.lent() == table, "a look-up of {condition:?}");
}

/// A map that is done has the table's lines, and then what the buffer had.
fn check_sheet(lent: &mut Lent, input: &Input) {
    let text = mapped::text(&input.table);
    let rest = &input.sheet[text.len()..];
    let sheet = [text.as_bytes(), rest].concat();
    assert!(lent.sheet.lent() == sheet, "a map: {text}");
}

/// The cost of an import that is answered: what really doing it stores and meets, and its table. A number that is not set stays.
fn check_cost(result: u32, lent: &mut Lent, input: &Input) {
    let words = input.record[..].try_into().expect("a record");
    let rig = Rig {
        images: Images {
            ssd: input.ssd.clone(),
            hdd: input.hdd.clone(),
        },
        table: input.table.clone(),
        record: Record::from_words(words),
    };
    let blocks: Vec<Block> = input.list.iter().map(|block| Block(*block)).collect();
    let caller = [Caller::People, Caller::Import][input.caller as usize];
    let (cost, table) = costed::really(&rig, &blocks, caller);
    let (code, met) = match cost {
        Cost::Counted(_) => (0, [UNSET; 2]),
        Cost::Met { refusal, place, .. } => (113, [refusal.number(), place as u32]),
    };
    let Counts {
        copy_outs,
        metadata,
        data,
    } = cost.counts();
    assert_eq!((result, lent.met.lent()), (code, &mut met.clone()[..]));
    assert_eq!(lent.counts.lent(), [copy_outs, metadata, data]);
    assert!(lent.scratch.lent() == table, "the scratch table");
}

/// A list look-up that is done: a word for each place by its block's lowest row, and the used flags of closed slots alone.
fn check_list(lent: &mut Lent, input: &Input) {
    let mut table = input.table.clone();
    let words = input.list.iter().map(|block| {
        let slot = condition(&table, Block(*block)).closed();
        slot.map_or(0, |slot| {
            table[2 * slot.0 as usize + 1] |= 8;
            slot.0 + 1
        })
    });
    let words: Vec<u32> = words.collect();
    assert!(lent.words.lent() == words && lent.table.lent() == table);
}

/// The page that a call names lies in its image, and no other was changed; it names one exactly where its answer says so, and
/// a call that stores nothing changes none.
fn check_place(kind: &Kind, result: u32, lent: &mut Lent, before: &Lent, input: &Input) {
    let name = kind.name;
    let changed = lent.pages_changed(before);
    let (image, offset) = (lent.image.lent()[0], lent.offset.lent()[0]);
    if kind.stores() {
        let stores = ![102, 106].contains(&result);
        let told = stores == (image != 0) || result == 112;
        assert!(told, "{name}: {result}, image {image}");
        assert!(
            changed.iter().all(|&page| page == (image, offset)),
            "{name} named {offset} in image {image} and changed {changed:?}"
        );
    } else {
        assert!(changed.is_empty(), "{name} changed {changed:?}");
        let set = image != UNSET || offset != UNSET as u64;
        assert_eq!(set, name == "view", "{name} named {offset}");
    }
    let length = match image {
        0 => return assert_eq!(offset, 0, "{name}: nothing stored, and where"),
        1 => input.ssd.len(),
        2 => input.hdd.len(),
        _ => return assert!(image == UNSET && !kind.changes.contains(&"place")),
    };
    let offset = offset as usize;
    assert!(
        offset % PAGE == 0 && offset + PAGE <= length,
        "{name} gave {offset}"
    );
}

#[test]
fn any_input_is_refused_or_served_within() {
    let mut inputs = boxes(SMALL);
    inputs.extend(boxes(Geometry::new(1, 4)));
    let early = inputs.len();
    for stamp in [u32::MAX, u32::MAX - 63, u32::MAX - 64] {
        for k in 0..early {
            inputs.push(late(&inputs[k], stamp));
        }
    }
    for _ in 0..3 {
        inputs.push(opened(63, Caller::People));
        inputs.push(opened(8, Caller::Import));
    }
    let mut random = Random(20);
    let mut counts: BTreeMap<(&str, u32), u32> = BTreeMap::new();
    for _ in 0..150_000 {
        let mut input = inputs[random.below(inputs.len() as u32) as usize].clone();
        for _ in 0..random.below(3) {
            input.spoil(&mut random);
        }
        input.block = random.of(&[0, 1, 2, 3, 4, 7, 8, 65, 66, u32::MAX]);
        input.caller = random.of(&[0, 1, 1, 2, u32::MAX]);
        input.list_anew(&mut random);
        if random.once_in(4) {
            input.slots = random.of(&[0, 1, 4, 5, 240, 57_600, 57_601, u32::MAX]);
            input.blocks = random.of(&[0, 1, 8, 16_777_216, 16_777_217, u32::MAX]);
        }
        let kind = &KINDS[random.below(KINDS.len() as u32) as usize];
        *counts.entry((kind.name, check(kind, &input))).or_default() += 1;
    }
    for kind in &KINDS {
        for result in kind.refusals.iter().chain(kind.results) {
            assert!(
                counts.contains_key(&(kind.name, *result)),
                "{} never gave {result}",
                kind.name
            );
        }
    }
}

/// Lengths of 0, for each thing alone and for everything at once. Numbers in the order of `KINDS`.
#[test]
fn nothing_lent() {
    type Empty = fn(&mut Input);
    const FOUR: [u32; 16] = [4, 4, 4, 4, 4, 4, 4, 4, 4, 4, 4, 4, 4, 4, 4, 0];
    let empties: [(Empty, [u32; 16]); 5] = [
        (
            |input| input.record.clear(),
            [3, 3, 3, 3, 3, 3, 3, 3, 3, 3, 3, 3, 3, 3, 3, 0],
        ),
        (
            |input| input.ssd.clear(),
            [4, 4, 2, 4, 4, 4, 4, 4, 4, 4, 4, 4, 4, 4, 4, 2],
        ),
        (|input| input.hdd.clear(), FOUR),
        (|input| input.table.clear(), FOUR),
        (clear_all, [3, 3, 2, 3, 3, 3, 3, 3, 3, 3, 3, 3, 3, 3, 3, 2]),
    ];
    for (empty, numbers) in empties {
        let mut input = Input::of(Rig::formatted(SMALL), SMALL);
        empty(&mut input);
        for (kind, number) in KINDS.iter().zip(numbers) {
            assert_eq!(check(kind, &input), number, "{}", kind.name);
        }
    }
}

fn clear_all(input: &mut Input) {
    for bytes in [
        &mut input.ssd,
        &mut input.hdd,
        &mut input.page,
        &mut input.sheet,
    ] {
        bytes.clear();
    }
    input.table.clear();
    input.record.clear();
}

/// A block in two rows, which no call but a reopening judges: every pair of legal flags, used or not. Its lowest slot counts, open
/// or not, for a look-up and for every other call.
#[test]
fn a_block_in_two_rows() {
    const FLAGS: [u32; 8] = [1, 3, 5, 7, 9, 11, 13, 15];
    let mut seen: BTreeMap<(&str, u32), u32> = BTreeMap::new();
    for (low, high) in FLAGS
        .into_iter()
        .flat_map(|low| FLAGS.map(|high| (low, high)))
    {
        let mut input = Input::of(Rig::formatted(SMALL), SMALL);
        input.block = 6;
        input.table[2..6].copy_from_slice(&[6, low, 6, high]);
        let open = [(1, low), (2, high)]
            .into_iter()
            .filter(|row| row.1 & 4 != 0);
        let open: Vec<u32> = open.map(|row| row.0).collect();
        input.record[word::COUNT] = open.len() as u32;
        input.record[word::WINDOW..][..open.len()].copy_from_slice(&open);
        for kind in &KINDS {
            // a list that is offered names a block once
            let list = match kind.name {
                "offer a list" => vec![6, 0],
                _ => vec![6, 0, 6],
            };
            (input.room, input.list) = (list.len(), list);
            let result = check(kind, &input);
            *seen.entry((kind.name, result)).or_default() += 1;
            let wanted = match (kind.name, low & 7) {
                ("offer", 1) => 101,
                ("offer", 3) => 102,
                ("offer a list", 1 | 3) => 112,
                ("offer" | "offer a list" | "write back", 5 | 7) | ("fetch", 7) => 8,
                ("fetch", _) => 10,
                ("land", 1 | 5) | ("land a fetch", 1 | 3 | 7) => 9,
                ("land" | "land a fetch", _) | ("write back", 3) => 0,
                ("write back", _) => 106,
                _ => result,
            };
            assert_eq!(result, wanted, "{}: flags {low} and {high}", kind.name);
        }
    }
    for code in 108..=111 {
        assert_eq!(seen[&("look up", code)], 16, "look-ups that gave {code}");
    }
}

/// Words that are no phase, and numbers out of range, are refused by 3 by every call that judges a record.
#[test]
fn words_that_are_no_record() {
    let wrong = [
        (0, 0),
        (0, 57_601),
        (1, 0),
        (1, 16_777_217),
        (2, 4),
        (4, 3),
        (5, 1),
        (6, 2),
        (7, 64),
        (8, 1),
        (70, 1),
        (71, 1),
        (71, 2),
        (133, 1),
    ];
    for (at, word) in wrong {
        let mut input = Input::of(Rig::formatted(SMALL), SMALL);
        input.record[at] = word;
        let judging = KINDS
            .iter()
            .filter(|kind| !["format", "reopen", "label"].contains(&kind.name));
        for kind in judging {
            assert_eq!(
                check(kind, &input),
                3,
                "{} with word {at} as {word}",
                kind.name
            );
        }
    }
}
