//! What a refusal tells: its number, its condition, and for 4 the length that was expected.

use cases::rig::Rig;
use ferjulm::{Block, Caller, Geometry, Lent, Refusal, WrongLength, PAGE};

const SMALL: Geometry = Geometry::new(4, 8);

/// The wrong length that each call tells, of a box that judges by this geometry.
fn lengths(rig: &mut Rig, geometry: Geometry) -> Vec<WrongLength> {
    let mut cache = rig.cache();
    let said: [Result<(), Refusal>; 8] = [
        cache.format(geometry),
        cache.reopen(),
        cache.offer(Block(5), Caller::People).map(|_| ()),
        cache.offer_list(&[], Caller::People).map(|_| ()),
        cache.land(Block(5), &[0; PAGE]).map(|_| ()),
        cache.view(Block(5)).map(|_| ()),
        cache.map(&mut []),
        cache.flush().map(|_| ()),
    ];
    said.iter()
        .map(|said| {
            let refusal = said.expect_err("a wrong length");
            assert_eq!(refusal.number(), 4);
            refusal.length().expect("a length")
        })
        .collect()
}

#[test]
fn number_4_tells_the_length_that_was_expected() {
    type Resize = fn(&mut Rig);
    let wrong = |of, has, expected| WrongLength { of, has, expected };
    let cases: [(Resize, WrongLength); 4] = [
        (
            |rig| rig.images.ssd.truncate(5 * PAGE),
            wrong(Lent::Ssd, 5 * PAGE, 6 * PAGE),
        ),
        (
            |rig| rig.images.hdd.push(0),
            wrong(Lent::Hdd, 8 * PAGE + 1, 8 * PAGE),
        ),
        (|rig| rig.table.clear(), wrong(Lent::Table, 0, 8)),
        // the first of two
        (
            |rig| {
                rig.images.hdd.clear();
                rig.table.clear();
            },
            wrong(Lent::Hdd, 0, 8 * PAGE),
        ),
    ];
    for (resize, expected) in cases {
        let mut rig = Rig::formatted(SMALL);
        resize(&mut rig);
        assert_eq!(lengths(&mut rig, SMALL), [expected; 8]);
    }
}

#[test]
fn a_refusal_in_words() {
    let mut rig = Rig::formatted(SMALL);
    let refused = rig.cache().land(Block(3), &[0; PAGE]).unwrap_err();
    assert_eq!(refused.number(), 9);
    assert_eq!(refused.length(), None);
    assert_eq!(
        refused.to_string(),
        "refused by 9: land: block neither open for writing nor dirty; land a fetch: not open for fetch"
    );
    let more = Geometry::new(5, SMALL.blocks);
    let refused: Box<dyn std::error::Error> = rig.cache().format(more).unwrap_err().into();
    assert_eq!(
        refused.to_string(),
        "refused by 4: an image, table or data page of the wrong length (SSD: 24576 bytes, expected 28672)"
    );
}

#[test]
fn refusals_of_result_codes() {
    for code in (0..200).chain([u32::MAX]) {
        let refusal = Refusal::of_code(code);
        let number = (1..=18).contains(&code).then_some(code);
        assert_eq!(refusal.map(Refusal::number), number);
        assert!(refusal.is_none_or(|refusal| !refusal.reason().is_empty()));
    }
}
