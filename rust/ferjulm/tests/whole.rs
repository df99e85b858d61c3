//! The largest box: 57,600 slots, 240 metadata pages.

use cases::mapped;
use cases::place::{hdd, page_of, ssd};
use cases::rig::{word, Answer, Call, Rig, Said};
use cases::stored::{label, label_page, page, Meta, Metas, LANDED_PAGES};
use ferjulm::{Block, Caller, Condition, Geometry, Images, Place, Slot, PAGE};
use std::collections::BTreeMap;

const WHOLE: Geometry = Geometry::new(57_600, 60_000);

/// The box, and the pages that its calls named, as they were stored last.
struct Whole {
    rig: Rig,
    stored: BTreeMap<Place, Vec<u8>>,
}

impl Whole {
    /// Makes a call, and notes the page that it names.
    fn make(&mut self, call: &Call) -> Said {
        let made = self.rig.make_told(call);
        if let Some(place) = made.stored {
            let page = page_of(&self.rig.images, place).to_vec();
            self.stored.insert(place, page);
        }
        made.said
    }

    /// Every page of both images is as it was named last, or zero as at first: no other was ever stored.
    fn check_images(&self) {
        let ssds = (0..self.rig.images.ssd.len() / PAGE).map(ssd);
        let hdds = (0..self.rig.images.hdd.len() / PAGE).map(hdd);
        let zero = vec![0; PAGE];
        for place in ssds.chain(hdds) {
            let expected = self.stored.get(&place).unwrap_or(&zero);
            let same = page_of(&self.rig.images, place) == expected;
            assert!(same, "{place:?} is not what a call named");
        }
    }
}

fn offer(whole: &mut Whole, block: u32, slot: u32) {
    let said = whole.make(&Call::Offer(Block(block), Caller::People));
    assert_eq!(said, Ok(Answer::Announced(Slot(slot))));
}

fn land(whole: &mut Whole, block: u32) {
    let page = page(LANDED_PAGES + block as u64);
    let said = whole.make(&Call::Land(Block(block), page));
    assert_eq!(said, Ok(Answer::Done));
}

/// A box after its format, of 242 steps.
fn formatted() -> Whole {
    let mut whole = Whole {
        rig: Rig::of(WHOLE, Images::zeroed(WHOLE)),
        stored: BTreeMap::new(),
    };
    assert_eq!(whole.rig.images.ssd.len(), (1 + 240 + 57_600) * PAGE);
    whole.make(&Call::Format(WHOLE)).expect("a format");
    for _ in 0..242 {
        assert!(!whole.rig.ready());
        whole.make(&Call::Step).expect("a step");
    }
    assert!(whole.rig.ready() && whole.stored.len() == 241);
    let ssd = &whole.rig.images.ssd;
    assert!(ssd[..PAGE] == label_page(&label(WHOLE)));
    assert_eq!(Geometry::of_label(ssd), Some(WHOLE));
    assert_eq!(Metas::read(WHOLE, ssd), Metas(vec![Meta::empty(); 240]));
    whole
}

/// The blocks that stay open, with their slots, in the order of opening: in metadata pages 239, 239, 0 and 100.
const OPEN: [(u32, u32); 4] = [
    (59_005, 57_575),
    (59_028, 57_598),
    (59_035, 5),
    (200, 24_000),
];

/// Sixty-three offers from slot 57,570 on, past the last slot; all but three landed and flushed; a further one open.
fn written() -> Whole {
    let mut whole = formatted();
    // any slot is a legal hand
    whole.rig.set(word::HAND, 57_570);
    for k in 0..63 {
        offer(&mut whole, 59_000 + k, (57_570 + k) % 57_600);
    }
    let full = whole
        .make(&Call::Offer(Block(7), Caller::People))
        .map_err(|refusal| refusal.number());
    assert_eq!(full, Err(11));
    let closed = (59_000..59_063).filter(|block| !OPEN.iter().any(|open| open.0 == *block));
    closed.for_each(|block| land(&mut whole, block));
    assert_eq!(whole.make(&Call::Flush), Ok(Answer::Done));
    assert_eq!(whole.make(&Call::Flush), Ok(Answer::NothingToDo));
    whole.rig.set(word::HAND, 24_000);
    offer(&mut whole, 200, 24_000);
    // 960 lines; the last begins at slot 57,540
    let lines = mapped::lines(&whole.rig.table);
    assert!(lines.len() == 960 && lines[959].starts_with("57540 .........."));
    assert!(lines[959].ends_with("dddddwddddddddddddddddddddddwd"));
    assert_eq!(whole.make(&whole_map(0)), Ok(Answer::Done));
    assert_eq!(whole.make(&whole_map(1)), Ok(Answer::Done));
    let short = whole.make(&Call::Map(WHOLE.map_bytes() - 1));
    assert_eq!(short.map_err(|refusal| refusal.number()), Err(14));
    whole.check_images();
    whole
}

/// A map into a buffer that is so much longer than it.
fn whole_map(more: usize) -> Call {
    assert_eq!(WHOLE.map_bytes(), 64_320);
    Call::Map(64_320 + more)
}

/// What every block reads as that has to do with the list: landed and kept, or dropped and not cached.
fn check_reads(whole: &mut Whole) {
    for block in (59_000..59_064).chain([7, 200]) {
        let dropped = OPEN.iter().any(|open| open.0 == block);
        let kept = (59_000..59_063).contains(&block) && !dropped;
        let cache = whole.rig.cache();
        let read = cache.view(Block(block)).expect("a view").page.to_vec();
        let found = whole.make(&Call::LookUp(Block(block)));
        if kept {
            let slot = Slot((57_570 + block - 59_000) % 57_600);
            assert_eq!(found, Ok(Answer::Looked(Condition::Dirty(slot))));
            assert!(
                read == page(LANDED_PAGES + block as u64)
                    && read == whole.rig.slot_page(WHOLE, slot)
            );
        } else {
            assert_eq!(found, Ok(Answer::Looked(Condition::NotCached)));
            assert!(
                read == [0; PAGE],
                "block {block} is not cached, and zero on disk"
            );
        }
    }
}

/// Sixty-three blocks offered as lists from slot 57,570 on: a list for each of the two metadata pages, 239 and 0.
#[test]
fn the_largest_box_is_scanned() {
    let mut whole = formatted();
    whole.rig.set(word::HAND, 57_570);
    let scan = |from: u32| Call::OfferList((from..59_063).map(Block).collect(), Caller::People);
    assert_eq!(whole.make(&scan(59_000)), Ok(Answer::Dealt(30)));
    assert_eq!(whole.make(&scan(59_030)), Ok(Answer::Dealt(33)));
    let open: Vec<u32> = whole.rig.record.window().map(|slot| slot.0).collect();
    assert!(open.iter().copied().eq((57_570..57_600).chain(0..33)));
    let stamps = Metas::read(WHOLE, &whole.rig.images.ssd).0;
    let stamps = [239, 0].map(|page| stamps[page].stamp);
    assert_eq!((whole.rig.record.newest(), stamps), (2, [1, 2]));
    whole.check_images();
}

#[test]
fn the_largest_box_is_cut_and_recovered() {
    let mut whole = written();
    whole.rig.forget(|| 0xffff_ffff);
    assert_eq!(whole.make(&Call::Reopen), Ok(Answer::Done));
    let pending: Vec<u32> = whole.rig.record.window().map(|slot| slot.0).collect();
    assert_eq!(pending, OPEN.map(|open| open.1));
    assert!(whole.rig.recovering() && whole.rig.record.newest() == 65);
    for left in [3, 2, 0] {
        whole.make(&Call::Step).expect("a step");
        assert_eq!(whole.rig.record.window().count(), left);
    }
    assert!(whole.rig.ready() && whole.rig.record.newest() == 68);
    whole.check_images();
    check_reads(&mut whole);
    whole.rig.forget(|| 0);
    assert_eq!(whole.make(&Call::Reopen), Ok(Answer::Done));
    assert!(whole.rig.ready(), "recovered once, nothing is pending");
    check_reads(&mut whole);
    whole.check_images();
}
