//! Each refusal number with document 01's example, on a box of 4 slots and 8 blocks; 11 is in `windows`.

use crate::listed::{refused, Listed};
use crate::rig::word::{COUNT, HAND, PHASE, SLOTS, STEPS, WINDOW};
use crate::rig::{Call, Rig};
use crate::stored::{label, label_page};
use ferjulm::{Block, Geometry, PAGE};

const SMALL: Geometry = Geometry::new(4, 8);

/// The numbers of the phases.
const FORMATTING: u32 = 0;
const RECOVERING: u32 = 1;

pub fn lines() -> Vec<String> {
    [
        number_1(),
        number_2(),
        number_3(),
        number_4(),
        number_5(),
        number_5_agree(),
        number_6(),
        number_7(),
        numbers_8_to_10(),
        fetched_twice(),
        number_12(),
        number_13(),
        least_first(),
    ]
    .concat()
}

/// A box formatted, under a title.
fn small(title: &str) -> Listed {
    Listed::formatted(title, SMALL.slots, SMALL.blocks)
}

/// A format that is refused, on images and table of 4 slots and 8 blocks.
fn format_refused(text: &str) -> String {
    refused(Rig::unformatted(SMALL), text, &Call::of(text))
}

/// Puts a window into the record: its length and its first two slots.
fn set_window(rig: &mut Rig, count: u32, slots: [u32; 2]) {
    rig.set(COUNT, count);
    rig.set(WINDOW, slots[0]);
    rig.set(WINDOW + 1, slots[1]);
}

/// Puts the record into another phase.
fn set_phase(rig: &mut Rig, phase: u32, steps: u32) {
    rig.set(PHASE, phase);
    rig.set(STEPS, steps);
}

/// Puts block and flags into row 0.
fn set_row(rig: &mut Rig, block: u32, flags: u32) {
    rig.table[..2].copy_from_slice(&[block, flags]);
}

/// Takes a page from the SSD.
fn shorten_ssd(rig: &mut Rig) {
    rig.images.ssd.truncate(5 * PAGE);
}

fn number_1() -> Vec<String> {
    let title = "1: slots or blocks outside the limits";
    let formats = [
        "format 0 8",
        "format 57601 8",
        "format 4 0",
        "format 4 16777217",
    ];
    let mut lines = vec![String::new(), title.to_string()];
    lines.extend(formats.map(format_refused));
    lines
}

fn number_2() -> Vec<String> {
    let mut list = small("2: SSD under a page, or first page no legal label");
    // neither record nor table is judged
    list.b.rig.forget(|| 0xaaaa_aaaa);
    list.spoilt("SSD of 0 bytes: ", "reopen", |rig| rig.images.ssd.clear());
    list.spoilt("SSD of 4095 bytes: ", "reopen", |rig| {
        rig.images.ssd.truncate(PAGE - 1)
    });
    list.spoilt("layout=01: ", "reopen", |rig| {
        let other = label(SMALL).replace("layout=1", "layout=01");
        rig.images.ssd[..PAGE].copy_from_slice(&label_page(&other))
    });
    list.lines
}

fn number_3() -> Vec<String> {
    let mut list =
        small("3: a record number out of range, window repeated or not zero past its length");
    list.spoilt("hand 4 with slots 4: ", "offer 5", |rig| rig.set(HAND, 4));
    list.spoilt("slots 57601: ", "land 5 A", |rig| rig.set(SLOTS, 57_601));
    list.spoilt("slot 4 in the window: ", "fetch 5", |rig| {
        set_window(rig, 1, [4, 0])
    });
    list.spoilt("slot 0 in the window twice: ", "land fetch 5", |rig| {
        set_window(rig, 2, [0, 0])
    });
    list.spoilt("slot 1 past the window's length: ", "look up 5", |rig| {
        set_window(rig, 1, [0, 1])
    });
    list.spoilt("window length 64: ", "write back 5", |rig| {
        set_window(rig, 64, [0, 0])
    });
    list.spoilt("3 steps of a format done: ", "flush", |rig| {
        set_phase(rig, FORMATTING, 3)
    });
    list.lines
}

fn number_4() -> Vec<String> {
    let mut list = small("4: an image, table or data page of the wrong length").run("offer 5");
    let short = Call::Land(Block(5), vec![65; PAGE - 1]);
    let line = refused(list.b.rig.clone(), "land 4095 bytes 5", &short);
    list.lines.push(line);
    list.spoilt("SSD a page short: ", "land 5 A", shorten_ssd);
    list.spoilt("HDD a page short: ", "look up 5", |rig| {
        rig.images.hdd.truncate(7 * PAGE)
    });
    list.spoilt("table a row short: ", "flush", |rig| rig.table.truncate(6));
    list.lines
        .extend(["format 5 8", "format 4 9"].map(format_refused));
    list.lines
}

fn number_5() -> Vec<String> {
    let mut list = small("5: a row breaks its rule, or rows, window and phase don't agree");
    for (name, call, block, flags) in [
        ("flags 2: ", "offer 5", 5, 2),
        ("flags 8, used and not valid: ", "fetch 5", 0, 8),
        ("flags 17: ", "look up 5", 5, 17),
        ("block 8 of 8: ", "flush", 8, 1),
        ("flags 0 with a block: ", "flush", 5, 0),
    ] {
        list.spoilt(name, call, |rig| set_row(rig, block, flags));
    }
    list.lines
}

fn number_5_agree() -> Vec<String> {
    let mut list = small("5: rows, window and phase");
    list.spoilt("an open row, the window empty: ", "land 5 A", |rig| {
        set_row(rig, 5, 7)
    });
    list.spoilt(
        "slot 0 in the window, its row closed: ",
        "write back 5",
        |rig| {
            set_row(rig, 5, 3);
            set_window(rig, 1, [0, 0])
        },
    );
    list.spoilt("mending, the window empty: ", "flush", |rig| {
        set_phase(rig, RECOVERING, 0)
    });
    list.spoilt("formatting, a row not zero: ", "flush", |rig| {
        set_row(rig, 5, 1);
        set_phase(rig, FORMATTING, 1)
    });
    list.lines
}

fn number_6() -> Vec<String> {
    let mut list = small("6: wrong phase");
    for call in ["view 5", "offer 5", "flush"] {
        list.spoilt("mending: ", call, |rig| {
            set_window(rig, 1, [0, 0]);
            set_phase(rig, RECOVERING, 0)
        });
    }
    list.spoilt("formatting: ", "look up 5", |rig| {
        set_phase(rig, FORMATTING, 2)
    });
    list.lines
}

fn number_7() -> Vec<String> {
    small("7: block number too high")
        .run("offer 8, land 8 A, fetch 8, land fetch 8, look up 8, write back 8, view 8, view 7")
        .lines
}

/// 8, 9 and 10 by the block's condition.
fn numbers_8_to_10() -> Vec<String> {
    small("8, 9 and 10: the block's slot")
        .run("offer 5, offer 5, fetch 5, write back 5, land 3 A, land fetch 3, land fetch 5, land 5 A")
        .run("fetch 5, write back 5, fetch 5, land 5 B")
        .lines
}

/// Document 02, N9: two readers of one block. The second is told 10 and waits for the landing; an offer or a write back meanwhile is 8.
fn fetched_twice() -> Vec<String> {
    small("a block that is being fetched")
        .run("fetch 5, fetch 5, offer 5, write back 5, land fetch 5, look up 5, fetch 5, offer 5, fetch 5")
        .lines
}

fn number_12() -> Vec<String> {
    small("12: all slots are open")
        .run("offer 0, offer 1, fetch 2, offer 3, offer 4, fetch 4")
        .lines
}

fn number_13() -> Vec<String> {
    small("13: the stamps are spent")
        .at_stamp(4_294_967_232)
        .run("offer 5, fetch 5")
        .lines
}

/// Formatting, a row with flags 2, an SSD a page short, hand 4 and block 8 at once; then one of them less each time.
fn least_first() -> Vec<String> {
    let spoils: [fn(&mut Rig); 4] = [
        |rig| set_phase(rig, FORMATTING, 0),
        |rig| set_row(rig, 5, 2),
        shorten_ssd,
        |rig| rig.set(HAND, 4),
    ];
    let mut list = small("least number first");
    for count in (1..=4).rev() {
        list.spoilt("", "offer 8", |rig| {
            spoils[..count].iter().for_each(|spoil| spoil(rig))
        });
    }
    list.run("offer 8").lines
}
