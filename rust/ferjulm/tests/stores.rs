//! The page that each call stores is the one that it names, and none else; document 01's arithmetic is written out here.

use cases::place::{hdd, page_of, ssd};
use cases::rig::{Answer, Call, Rig};
use ferjulm::{Block, Cache, Geometry, Images, Phase, Place, Record, Refusal, Slot, PAGE};
use std::io;

/// Makes a call that is not refused: its answer, and the page that it named. `Rig::make` compares the whole images.
fn made(rig: &mut Rig, call: &str) -> (Answer, Option<Place>) {
    let made = rig.make(&Call::of(call));
    (made.said.expect(call), made.stored)
}

/// Opens a slot by an offer or a fetch: its metadata page is stored.
fn opened(rig: &mut Rig, call: &str) -> Slot {
    let (said, stored) = made(rig, call);
    let Answer::Announced(slot) = said else {
        panic!("{call}: {said:?}")
    };
    assert_eq!(stored, Some(ssd(1 + slot.0 as usize / 240)), "{call}");
    slot
}

/// 481 slots are three metadata pages.
const GEOMETRY: Geometry = Geometry::new(481, 500);
const METADATA: usize = 3;

#[test]
fn each_call_stores_the_page_that_it_names() {
    let mut rig = Rig::unformatted(GEOMETRY);
    assert_eq!(made(&mut rig, "format 481 500").1, None);
    while let Some(Phase::Formatting(done)) = rig.record.phase() {
        let page = if done as usize <= METADATA { done } else { 0 };
        assert_eq!(made(&mut rig, "step").1, Some(ssd(page as usize)));
    }
    for block in 0..GEOMETRY.slots {
        let (open, land) = match block % 2 {
            0 => (format!("offer {block}"), format!("land {block} A")),
            _ => (format!("fetch {block}"), format!("land fetch {block}")),
        };
        let slot = opened(&mut rig, &open);
        let page = ssd(1 + METADATA + slot.0 as usize);
        assert_eq!(made(&mut rig, &land).1, Some(page));
    }
    assert_eq!(made(&mut rig, "flush").1, Some(ssd(1)));
    assert_eq!(made(&mut rig, "flush").1, None);
    assert_eq!(made(&mut rig, "write back 240").1, Some(hdd(240)));
    assert_eq!(made(&mut rig, "write back 240").1, None);

    // all slots are used, by a landed write or a look-up: the sweep comes round to the hand, on slot 0, whose block is dirty
    for block in (1..GEOMETRY.slots).step_by(2) {
        assert_eq!(made(&mut rig, &format!("look up {block}")).1, None);
    }
    let (said, stored) = made(&mut rig, "offer 490");
    let row = 2 * rig.record.hand().0 as usize;
    assert_eq!(said, Answer::CopiedOut);
    assert_eq!(stored, Some(hdd(rig.table[row] as usize)));

    // a slot open on each page, the last first
    for block in [480, 241, 3, 1] {
        made(&mut rig, &format!("write back {block}"));
        opened(&mut rig, &format!("offer {block}"));
    }
    rig.forget(|| 0xffff_ffff);
    assert_eq!(made(&mut rig, "reopen").1, None);
    let mut steps = 0;
    while rig.recovering() {
        let least = rig.record.window().map(|slot| slot.0).min();
        let page = 1 + least.expect("a pending slot") as usize / 240;
        assert_eq!(made(&mut rig, "step").1, Some(ssd(page)));
        steps += 1;
    }
    assert_eq!(steps, METADATA);
    assert_eq!(rig.slot_of(Block(3)), None);
}

/// Makes a call that leaves every byte as it was: the page that it names.
fn made_again(rig: &mut Rig, call: &str) -> Option<Place> {
    let before = rig.images.clone();
    let named = made(rig, call).1;
    assert!(rig.images == before, "{call} changed a byte");
    named
}

#[test]
fn a_store_that_leaves_the_bytes_is_named_all_the_same() {
    let mut rig = Rig::formatted(GEOMETRY);
    made(&mut rig, "format 481 500");
    made(&mut rig, "step");
    for metadata in 1..=METADATA {
        assert_eq!(made_again(&mut rig, "step"), Some(ssd(metadata)));
    }
    made(&mut rig, "step");
    for call in ["offer 7", "land 7 A"] {
        made(&mut rig, call);
    }
    // the slot has A already, then the disk has it too
    assert_eq!(made_again(&mut rig, "land 7 A"), Some(ssd(1 + METADATA)));
    made(&mut rig, "write back 7");
    made(&mut rig, "offer 7");
    assert_eq!(made_again(&mut rig, "land 7 A"), Some(ssd(1 + METADATA)));
    assert_eq!(made_again(&mut rig, "write back 7"), Some(hdd(7)));
}

#[test]
fn finish_hands_over_each_page_and_stops_where_storing_fails() {
    let mut images = Images::zeroed(GEOMETRY);
    let mut table = vec![0; GEOMETRY.table_words()];
    let mut record = Record::default();
    let mut cache = Cache::new(images.lend(), &mut table, &mut record);
    cache.format(GEOMETRY).expect("a format");
    let mut stored = Vec::new();
    let mut store = |place: Place, page: &[u8; PAGE]| {
        stored.push((place, page.to_vec()));
        if stored.len() == 2 {
            return Err(io::Error::other("the drive is full"));
        }
        Ok(())
    };
    let said = cache.finish(&mut store).map_err(|why| why.to_string());
    assert_eq!(said, Err("the drive is full".to_string()));
    assert_eq!(cache.record().phase(), Some(Phase::Formatting(2)));
    assert_eq!(cache.finish(&mut store).expect("the other steps"), 3);
    assert_eq!(cache.finish(&mut store).expect("none"), 0);
    assert!(matches!(cache.step(), Err(refusal) if refusal.number() == 6));
    let places: Vec<Place> = stored.iter().map(|stored| stored.0).collect();
    assert_eq!(places, [0, 1, 2, 3, 0].map(ssd));
    // each page as it was then: the first was zero, the last is the label
    assert!(stored[0].1 == [0; PAGE] && page_of(&images, ssd(0)) == stored[4].1);
}

#[test]
fn a_refusal_ends_finish() {
    let mut rig = Rig::formatted(GEOMETRY);
    rig.set(cases::rig::word::PHASE, 3);
    let said = rig.cache().finish(|_, _| Ok::<(), Refusal>(()));
    assert_eq!(said.map_err(Refusal::number), Err(3));
    let said = rig.cache().finish(|_, _| Ok::<(), io::Error>(()));
    let text = said.expect_err("the same").to_string();
    assert!(text.starts_with("refused by 3: "), "{text}");
}
