//! The import that floods (document 02, N7): it is refused from its ninth open slot on, and people go on.

use crate::listed::Listed;
use crate::rig::word::{CALLERS, PHASE};
use crate::rig::{Call, Rig};
use crate::say;
use ferjulm::{calls, Block, Caller, Images};

pub fn lines() -> Vec<String> {
    [eight(), overwriting(), crowded(), nine(), cut(), numbers()].concat()
}

/// A box with so many slots open to the import, blocks 0 and on.
fn flooded(title: &str, count: u32) -> Listed {
    let mut list = Listed::formatted(title, 70, 90);
    for block in 0..count {
        let said = list.b.make(&Call::Fetch(Block(block), Caller::Import));
        said.expect("a fetch of the import");
    }
    let record = say::record(&list.b.rig.record);
    list.lines
        .push(format!("import fetch 0 to {} -> {record}", count - 1));
    list
}

/// The ninth is refused; people's notes get their slots; after a landing, whoever makes it, the import goes on with one.
fn eight() -> Vec<String> {
    flooded("import: 7 open", 7)
        .run(
            "import fetch 7, import fetch 8, import offer 8, offer 60, land 60 A, fetch 61, import fetch 8, land fetch 3, \
             import fetch 8, import fetch 9, land fetch 61, import fetch 9",
        )
        .lines
}

/// What opens nothing is not refused by 17: writing over a dirty block, a block that is open already, one that is clean by a
/// fetch; an offer of a clean block opens, and is.
fn overwriting() -> Vec<String> {
    flooded("import: 8 open, and blocks cached", 8)
        .run(
            "offer 60, land 60 A, import offer 60, land 60 B, fetch 61, land fetch 61, import fetch 61, import offer 61, \
             import offer 3, import fetch 3, offer 61",
        )
        .lines
}

/// Sixty-three open, 8 of them the import's: 17 is judged before 11.
fn crowded() -> Vec<String> {
    let mut list = flooded("import: 63 open", 8);
    for block in 8..63 {
        let said = list.b.make(&Call::Offer(Block(block), Caller::People));
        said.expect("an offer of people");
    }
    let record = say::record(&list.b.rig.record);
    list.lines.push(format!("offer 8 to 62 -> {record}"));
    list.run(
        "import fetch 70, fetch 70, import offer 70, offer 70, land 8 A, import fetch 70, fetch 70",
    )
    .lines
}

/// A record that has 9 already, as only a caller could make it.
fn nine() -> Vec<String> {
    let mut list = flooded("import: 9 open by the record", 8).run("offer 60");
    list.b.rig.set(CALLERS + 8, 1);
    list.run("import fetch 8, offer 61, land fetch 0, import fetch 8, land fetch 1, import fetch 8")
        .lines
}

/// A reopening names no caller: the import begins anew.
fn cut() -> Vec<String> {
    let mut list = flooded("import: cut with 8 open", 8);
    list.b.cut(|| 0xaaaa_aaaa);
    let said = list.b.make(&Call::Reopen);
    list.lines
        .push(format!("cut, reopen -> {}", say::said(said)));
    let people = |rig: &Rig| rig.record.callers().all(|caller| caller == Caller::People);
    let (mending, pending) = (people(&list.b.rig), list.b.rig.record.window().count());
    let steps = list.b.recover();
    list.lines.push(format!(
        "{pending} pending, people's: {mending}; steps {steps}"
    ));
    list.run("import fetch 8, import fetch 9").lines
}

/// A word that is no caller, in the record and in the call; a caller past the length, and while mending.
fn numbers() -> Vec<String> {
    let mut list = flooded("import: words that are no caller", 1);
    list.spoilt("caller 2 of the first place: ", "offer 60", |rig| {
        rig.set(CALLERS, 2)
    });
    list.spoilt("the import past the length: ", "flush", |rig| {
        rig.set(CALLERS + 1, 1)
    });
    list.spoilt("the import while mending: ", "step", |rig| {
        rig.table[..2].copy_from_slice(&[0, 0]);
        rig.set(PHASE, 1);
    });
    for (name, caller, block) in [
        ("caller 2", 2, 60),
        ("caller 2, block 90 of 90", 2, 90),
        ("caller 1, block 90 of 90", 1, 90),
    ] {
        let code = offered(list.b.rig.clone(), block, caller);
        list.lines
            .push(format!("offer with {name} -> refused {code}"));
    }
    list.lines
}

/// What C gets for an offer that is refused, which changes nothing.
fn offered(mut rig: Rig, block: u32, caller: u32) -> u32 {
    let (before, mut words) = (rig.clone(), *rig.record.words());
    let (mut slot, mut image, mut offset) = (77, 77, 77);
    let Images { ssd, hdd } = &mut rig.images;
    let code = calls::offer(
        ssd,
        hdd,
        &mut rig.table,
        &mut words,
        block,
        caller,
        &mut slot,
        &mut image,
        &mut offset,
    );
    let same =
        (slot, image, offset) == (77, 77, 77) && words == *before.record.words() && rig == before;
    assert!(same, "a refused offer changed something");
    code
}
