//! Scans: lists of blocks that are offered as one (document 02, N3).

use crate::listed::Listed;
use crate::rig::{word, Call, Rig};
use crate::say;
use ferjulm::{calls, Block, Caller, Geometry, Images};

pub fn lines() -> Vec<String> {
    [
        small(),
        traceless(),
        stamps(),
        pages(),
        taken(),
        doubled(),
        windows(),
        imported(),
        lengths(),
        cuts(),
        numbers(),
    ]
    .concat()
}

/// Makes calls; of each list that is offered, the page that was stored, and the rows of a small box.
fn run(mut list: Listed, texts: &str) -> Listed {
    for text in texts.split(", ") {
        list.make(text);
        if text.contains("list") {
            tell(&mut list);
        }
    }
    list
}

/// Offers the blocks of a range as one.
fn scan(mut list: Listed, blocks: std::ops::Range<u32>, caller: Caller) -> Listed {
    let (from, to) = (blocks.start, blocks.end - 1);
    let by = if caller == Caller::Import {
        "import "
    } else {
        ""
    };
    let call = Call::OfferList(blocks.map(Block).collect(), caller);
    list.make_call(&format!("{by}offer list {from} to {to}"), &call);
    tell(&mut list);
    list
}

/// Adds to the last line which page was stored, and the rows of a small box: block and flags.
fn tell(list: &mut Listed) {
    let mut text = format!("; stored {}", say::place(list.b.stored));
    if list.b.geometry.slots <= 4 {
        text += &format!("; rows {}", rows(&list.b.rig));
    }
    *list.lines.last_mut().expect("a line") += &text;
}

fn rows(rig: &Rig) -> String {
    say::list(
        rig.table
            .chunks(2)
            .map(|row| format!("{}/{}", row[0], row[1])),
    )
}

/// One store for three blocks; a list of more than there are slots; after a landing and a flush; and after P5's cut.
fn small() -> Vec<String> {
    let three = run(
        Listed::formatted("scan: three blocks", 4, 8),
        "offer list 5 6 7, land 6 A, land 5 B, land 7 C, flush, offer list 5 6 7",
    );
    let five = run(
        Listed::formatted("scan: more blocks than slots", 4, 8),
        "offer list 0 1 2 3 4, offer list 4, offer list 0 4",
    );
    let flushed = run(
        Listed::formatted("scan: after a flush", 4, 8),
        "offer 5, land 5 A, flush, offer list 5 6",
    );
    let mut cut = flushed_and_cut();
    cut = run(cut, "offer list 5 6, offer list 6 5, offer list 6 5");
    [three.lines, five.lines, flushed.lines, cut.lines].concat()
}

/// P5's box: hand 0, and 5 dirty and unused in slot 0.
fn flushed_and_cut() -> Listed {
    let mut list = Listed::formatted("scan: after P5", 4, 8).run("offer 5, land 5 A, flush");
    reopen(&mut list, "cut");
    list
}

fn reopen(list: &mut Listed, name: &str) {
    if name == "cut" {
        list.b.cut(|| 0xaaaa_aaaa);
    }
    let said = say::said(list.b.make(&Call::Reopen));
    let pending = list.b.rig.record.window().count();
    let steps = list.b.recover();
    let record = say::record(&list.b.rig.record);
    list.lines.push(format!(
        "{name}, reopen -> {said}; pending {pending}, steps {steps}; {record}"
    ));
}

/// The place that ends a list leaves no trace: the used flag that its sweep would clear stays; as a list's first it copies out.
fn traceless() -> Vec<String> {
    let two = run(
        Listed::formatted("scan: two slots", 2, 4),
        "offer 0, land 0 A, offer list 1 2, offer list 2 1",
    );
    let one = run(
        Listed::formatted("scan: one slot", 1, 3),
        "offer 0, land 0 A, offer list 1 2, offer list 1 2, offer list 2",
    );
    [two.lines, one.lines].concat()
}

/// 13 is judged for the one store: not where every place is an overwrite, nor where the first copies out.
fn stamps() -> Vec<String> {
    let list = Listed::formatted("scan: the last stamps", 4, 8)
        .run("offer 5, land 5 A")
        .at_stamp(4_294_967_232);
    let list = run(list, "offer list 5, offer list 5 6, offer list 6").at_stamp(4_294_967_231);
    let list = run(
        list,
        "offer list 5 6 7 0, land 6 B, land 7 C, land 0 D, offer list 5 6 7 0, offer list 1 2, offer list 1 2",
    );
    list.lines
}

/// A scan that crosses to the next metadata page; overwrites of another page are passed, clean blocks of another end the list.
fn pages() -> Vec<String> {
    let mut list = Listed::formatted("scan: slots 239 and 240", 300, 400);
    list.lines.push("hand 238".to_string());
    list.b.rig.set(word::HAND, 238);
    let list = run(
        list,
        "offer list 10 11 12 13, offer list 12 13, land 10 A, land 12 B, offer list 14 10 15 12, land 11 C, write back 11, \
         offer list 16 11, offer list 10 11 16 12",
    );
    [list.lines, used()].concat()
}

/// A place whose slot is on the next page leaves no trace either: slot 239, which its sweep would pass, stays used.
fn used() -> Vec<String> {
    let mut list = Listed::formatted("scan: slot 239 used", 300, 400);
    list.lines.push("hand 238".to_string());
    list.b.rig.set(word::HAND, 238);
    let mut list = list.run("fetch 20, land fetch 20, fetch 21, land fetch 21, look up 21");
    list.lines.push("hand 238".to_string());
    list.b.rig.set(word::HAND, 238);
    let mut list = run(list, "offer list 30 31");
    let flags = list.b.rig.table[2 * 239 + 1];
    list.lines.push(format!("slot 239: flags {flags}"));
    list.lines
}

/// A block of the list whose slot an earlier place takes is not cached when its turn comes.
fn taken() -> Vec<String> {
    let fetched =
        |title| Listed::formatted(title, 2, 4).run("fetch 0, land fetch 0, fetch 1, land fetch 1");
    [
        run(fetched("scan: a slot taken"), "offer list 2 0").lines,
        run(fetched("scan: a slot kept"), "offer list 2 1 0").lines,
        run(fetched("scan: a slot opened"), "offer list 0 2 1").lines,
    ]
    .concat()
}

/// A block in two rows, of which an earlier place takes the lower: the other counts then.
fn doubled() -> Vec<String> {
    let mut rig = Rig::formatted(Geometry::new(4, 8));
    rig.table = vec![6, 1, 7, 3, 6, 1, 0, 0];
    let said = rig.make(&Call::of("offer list 5 6 7")).said;
    let (said, record, rows) = (say::said(said), say::record(&rig.record), rows(&rig));
    vec![
        String::new(),
        "scan: a block in two rows".to_string(),
        format!("6/1 7/3 6/1 0/0: offer list 5 6 7 -> {said}; {record}; rows {rows}"),
    ]
}

/// All slots of a box of 62, 63 and 64 by one list; with 62 open there is room for one, with 63 for none.
fn windows() -> Vec<String> {
    let of = |slots: u32| {
        let title = format!("scan: {slots} slots");
        let list = Listed::formatted(&title, slots, 70);
        scan(list, 0..63, Caller::People)
    };
    let more = "offer list 63 64, land 0 A, offer list 0 63 64, offer list 64 0, offer list 0 64";
    [
        of(62).lines,
        run(of(63), more).lines,
        run(of(64), more).lines,
    ]
    .concat()
}

/// The import with 5 slots open has room for three of six; people go on.
fn imported() -> Vec<String> {
    let list = Listed::formatted("scan: the import with 5 open", 70, 90).run(
        "import fetch 0, import fetch 1, import fetch 2, import fetch 3, import fetch 4, offer 80, land 80 A",
    );
    let list = scan(list, 10..16, Caller::Import);
    let list = scan(list, 13..16, Caller::Import);
    let list = run(list, "import offer list 80 13");
    scan(list, 13..16, Caller::People).lines
}

/// Lists of 0, 1, 63 and 64 places; a block twice, by itself, at both ends, and too high; a block too high first and later; a block
/// that is open, first and later.
fn lengths() -> Vec<String> {
    let mut list = Listed::formatted("scan: lengths", 70, 80);
    list.make_call(
        "offer list of none",
        &Call::OfferList(vec![], Caller::People),
    );
    let list = run(
        list,
        "offer list 9 9, offer list 80 80, offer list 9 8 7 9, offer list 80, offer list 9 80, offer list 9, offer list 8 9",
    );
    let list = scan(list, 10..74, Caller::People);
    let list = scan(list, 10..73, Caller::People);
    list.lines
}

/// A scan is cut before its store and after it, with an earlier landing that is not flushed: its store makes that last.
fn cuts() -> Vec<String> {
    let cut = |arrives: bool| {
        let when = if arrives { "after" } else { "before" };
        let title = format!("scan: cut {when} its store");
        let mut list = Listed::formatted(&title, 4, 8).run("offer 0, land 0 A");
        let call = Call::of("offer list 5 6 7");
        list.b.cut_in(&call, arrives, || 0xaaaa_aaaa);
        reopen(&mut list, &format!("offer list 5 6 7 cut {when} its store"));
        list.run("look up 0, look up 5").lines
    };
    [cut(false), cut(true)].concat()
}

/// The order of refusals: 15 after 6, before 18 and 7; 18 before 7.
fn numbers() -> Vec<String> {
    let mut list = Listed::formatted("scan: refused", 4, 8);
    let twice = "offer list 9 9";
    list.spoilt("window of a slot 4: ", twice, |rig| {
        rig.set(word::COUNT, 1);
        rig.set(word::WINDOW, 4)
    });
    list.spoilt("no HDD: ", twice, |rig| rig.images.hdd.clear());
    list.spoilt("flags 2: ", twice, |rig| rig.table[1] = 2);
    list.spoilt("formatting: ", twice, |rig| rig.set(word::PHASE, 0));
    for (name, blocks, caller) in [
        ("9 9, caller 2", &[9, 9][..], 2),
        ("none, caller 2", &[], 2),
        ("9, caller 2", &[9], 2),
        ("1, caller 2", &[1], 2),
        ("9, caller 1", &[9], 1),
    ] {
        let code = refused(list.b.rig.clone(), blocks, caller);
        list.lines
            .push(format!("offer list {name} -> refused {code}"));
    }
    list.lines
}

/// What C gets for a list that is refused, which changes nothing.
fn refused(mut rig: Rig, blocks: &[u32], caller: u32) -> u32 {
    let (before, mut words) = (rig.clone(), *rig.record.words());
    let (mut dealt, mut image, mut offset) = (77, 77, 77);
    let Images { ssd, hdd } = &mut rig.images;
    let code = calls::offer_list(
        ssd,
        hdd,
        &mut rig.table,
        &mut words,
        blocks,
        caller,
        &mut dealt,
        &mut image,
        &mut offset,
    );
    let same =
        (dealt, image, offset) == (77, 77, 77) && words == *before.record.words() && rig == before;
    assert!(same, "a refused list changed something");
    code
}
