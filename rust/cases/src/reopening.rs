//! Reopenings that are refused and reopenings that are taken, of images made by hand.

use crate::rig::{Call, Rig};
use crate::say;
use crate::stored::{ssd_of, Meta};
use ferjulm::{Geometry, Images, PAGE};

const SMALL: Geometry = Geometry::new(4, 8);
const TWO_PAGES: Geometry = Geometry::new(241, 8);

pub fn lines() -> Vec<String> {
    let mut lines = vec![reopened("after P6's second offer", small())];
    lines.extend(formats());
    lines.extend(lengths());
    lines.extend(pages());
    lines.extend(stamps());
    lines
}

/// After P6's second offer: block 5 closed in slot 0, block 6 open in slot 1.
fn small() -> Rig {
    let metas = [Meta::with(2, &[1], &[(5, 3), (6, 7)])];
    boxed(SMALL, &metas)
}

/// A box that has lost table and record, with these metadata pages.
fn boxed(geometry: Geometry, metas: &[Meta]) -> Rig {
    let ssd = ssd_of(geometry, metas);
    let hdd = vec![0x55; geometry.hdd_bytes()];
    Rig::of(geometry, Images { ssd, hdd })
}

/// Reopens: the number and its name with all that was lent unchanged, or what is pending.
fn reopened(name: &str, mut rig: Rig) -> String {
    let before = rig.clone();
    match rig.make(&Call::Reopen).said {
        Err(refusal) => {
            let same = if rig == before {
                "nothing changed"
            } else {
                "CHANGED"
            };
            format!("reopen, {name}: {refusal}; {same}")
        }
        Ok(_) => {
            let unstored = if rig.images == before.images {
                "nothing stored"
            } else {
                "STORED"
            };
            let pending = say::slots(rig.record.window());
            format!(
                "reopen, {name}: taken, rows {}, pending {pending}; {unstored}",
                rows(&rig)
            )
        }
    }
}

/// The rows that are not zero: slot, block and flags.
fn rows(rig: &Rig) -> String {
    let rows = rig.table.chunks(2).enumerate();
    let rows = rows.filter(|(_, row)| row != &[0, 0]);
    say::list(rows.map(|(slot, row)| format!("{slot}:{}/{}", row[0], row[1])))
}

/// A format of a used box, cut after each of its stores: a label stands only before the first and after the last.
fn formats() -> Vec<String> {
    (0..=3)
        .map(|stores| {
            let mut rig = small();
            rig.make(&Call::Format(SMALL)).said.expect("a format");
            for _ in 0..stores {
                rig.make(&Call::Step).said.expect("a step");
            }
            rig.forget(|| 0xffff_ffff);
            let plural = if stores == 1 { "" } else { "s" };
            reopened(&format!("a format cut after {stores} store{plural}"), rig)
        })
        .collect()
}

fn lengths() -> Vec<String> {
    type Resize = fn(&mut Rig);
    let resizes: [(&str, Resize); 6] = [
        ("SSD a page less", |rig| rig.images.ssd.truncate(5 * PAGE)),
        ("SSD a page more", |rig| rig.images.ssd.resize(7 * PAGE, 0)),
        ("HDD a page less", |rig| rig.images.hdd.truncate(7 * PAGE)),
        ("HDD a page more", |rig| rig.images.hdd.resize(9 * PAGE, 0)),
        ("table a word less", |rig| rig.table.truncate(7)),
        ("table a word more", |rig| rig.table.resize(9, 0)),
    ];
    resizes
        .iter()
        .map(|(name, resize)| {
            let mut rig = small();
            resize(&mut rig);
            reopened(name, rig)
        })
        .collect()
}

/// Stamp, window and first entries of a metadata page.
type Page = (u32, &'static [u32], &'static [(u32, u8)]);

/// Boxes of two metadata pages.
const PAGES: [(&str, Page, Page); 10] = [
    (
        "two pages in order",
        (1, &[0], &[(5, 7)]),
        (2, &[240], &[(6, 7)]),
    ),
    (
        "a stamp-0 page with entries",
        (0, &[], &[(5, 3), (7, 1)]),
        (1, &[], &[(6, 3)]),
    ),
    (
        "an older window of closed slots",
        (3, &[0, 240], &[(5, 3)]),
        (4, &[], &[(6, 1)]),
    ),
    (
        "two pages with one stamp",
        (2, &[0], &[(5, 7)]),
        (2, &[240], &[(6, 7)]),
    ),
    (
        "a block twice in a page",
        (1, &[], &[(5, 3), (5, 1)]),
        (2, &[], &[]),
    ),
    (
        "a block twice across pages",
        (1, &[], &[(5, 3)]),
        (2, &[], &[(5, 1)]),
    ),
    (
        "the newest window naming an invalid entry",
        (1, &[], &[(5, 7)]),
        (2, &[0, 1], &[]),
    ),
    (
        "the newest window naming an entry that is not writing",
        (1, &[], &[(5, 3)]),
        (2, &[0], &[]),
    ),
    (
        "an older window with a repeated slot",
        (1, &[0, 0], &[(5, 7)]),
        (2, &[], &[]),
    ),
    (
        "an older window with a slot too high",
        (1, &[241], &[(5, 7)]),
        (2, &[], &[]),
    ),
];

fn pages() -> Vec<String> {
    let lines = PAGES.iter().map(|(name, first, second)| {
        let metas = [first, second].map(|page| Meta::with(page.0, page.1, page.2));
        reopened(name, boxed(TWO_PAGES, &metas))
    });
    lines.collect()
}

/// A step of a recovery at the last stamps.
fn stamps() -> Vec<String> {
    [u32::MAX, u32::MAX - 1]
        .map(|stamp| {
            let mut rig = boxed(SMALL, &[Meta::with(stamp, &[1], &[(5, 3), (6, 7)])]);
            rig.make(&Call::Reopen).said.expect("a reopening");
            let before = rig.clone();
            let said = say::said(rig.make(&Call::Step).said);
            let newest = rig.record.newest();
            let (ready, same) = (rig.ready(), rig == before);
            format!("mending step at stamp {stamp}: {said}, newest {newest}, ready {ready}, nothing changed {same}")
        })
        .to_vec()
}
