//! docs/CRASH.md, line by line: what it has in indented blocks is what the library does.
//!
//! A call stands there with its answer and the page that it stored; `power goes` loses record and table; a view with the place of
//! its page. Bytes follow, of that page or of the whole SSD, 16 to a line, lines of zeros left out. `table` and `record` are what
//! memory has then.

use cases::place::image_of;
use cases::rig::{Call, Rig};
use cases::say;
use ferjulm::{calls, Block, Geometry, Images, PAGE};

const GEOMETRY: Geometry = Geometry::new(4, 8);

/// What is done on the page, in order.
const DONE: [&str; 12] = [
    "format 4 8",
    "step",
    "step",
    "step",
    "offer 5",
    "land 5",
    "offer 6",
    "power goes",
    "reopen",
    "step",
    "view 5",
    "view 6",
];

/// A page that begins with a text.
fn page(text: &str) -> Vec<u8> {
    let mut page = text.as_bytes().to_vec();
    page.resize(PAGE, 0);
    page
}

/// A box before its format: other bytes in the SSD's first pages, a text in each block of the HDD.
fn unformatted() -> Rig {
    let mut images = Images::zeroed(GEOMETRY);
    images.ssd[..2 * PAGE].fill(0xaa);
    let text = |block| page(&format!("last year's block {block}"));
    images.hdd = (0..GEOMETRY.blocks).flat_map(text).collect();
    Rig::of(GEOMETRY, images)
}

/// Bytes of an image as the page shows them.
fn shown(image: &[u8], from: usize, length: usize) -> Vec<String> {
    let rows = image[from..][..length].chunks(16).enumerate();
    let rows = rows.filter(|(_, row)| row.iter().any(|&byte| byte != 0));
    let readable = |&byte: &u8| match byte {
        32..=126 => byte as char,
        _ => '.',
    };
    let line = |(at, row): (usize, &[u8])| {
        let text: String = row.iter().map(readable).collect();
        format!("{:04x}: {}  {text}", from + 16 * at, say::hexadecimal(row))
    };
    rows.map(line).collect()
}

/// Does what a line says: that line and the bytes after it, as the page has to have them.
fn done(rig: &mut Rig, line: &str) -> Vec<String> {
    if line.starts_with("power goes") {
        rig.forget(|| 0xffff_ffff);
        let length = rig.images.ssd.len();
        return [
            vec!["power goes".to_string()],
            shown(&rig.images.ssd, 0, length),
        ]
        .concat();
    }
    let (call, _) = line.split_once(" -> ").expect("a call and its answer");
    if let Some(block) = call.strip_prefix("view ") {
        let (mut image, mut offset) = (0, 0);
        let (ssd, hdd) = (&rig.images.ssd, &rig.images.hdd);
        let (words, block) = (rig.record.words(), block.parse().expect("a block"));
        let code = calls::view(ssd, hdd, &rig.table, words, block, &mut image, &mut offset);
        assert_eq!(code, 0, "{line}");
        let (name, of) = [("SSD", ssd), ("HDD", hdd)][image as usize - 1];
        let head = format!("{call} -> {name}, from {offset:04x}");
        return [vec![head], shown(of, offset as usize, PAGE)].concat();
    }
    let made = match call.strip_prefix("land 5 ") {
        Some(text) => Call::Land(Block(5), page(text.trim_matches('"'))),
        None => Call::of(call),
    };
    let made = rig.make(&made);
    let (said, stored) = (say::said(made.said), say::place(made.stored));
    let head = format!("{call} -> {said}; stores {stored}");
    let bytes = match made.stored {
        Some(place) => shown(image_of(&rig.images, place), place.offset as usize, PAGE),
        None => vec![],
    };
    [vec![head], bytes].concat()
}

/// What memory has.
fn memory(rig: &Rig) -> [String; 2] {
    let rows = rig.table.chunks(2);
    let rows: Vec<String> = rows.map(|row| format!("{}/{}", row[0], row[1])).collect();
    let (phase, record) = (say::phase(&rig.record), say::record(&rig.record));
    [
        format!("table {}", rows.join(" ")),
        format!("record {phase} {record}"),
    ]
}

#[test]
fn every_line_of_the_crash_is_what_the_library_does() {
    let document = include_str!("../../../docs/CRASH.md").lines();
    let mut lines = document.filter_map(|line| line.strip_prefix("    "));
    let mut rig = unformatted();
    let mut calls = Vec::new();
    while let Some(line) = lines.next() {
        if line.starts_with("table ") || line.starts_with("record ") {
            let now = memory(&rig);
            assert!(now.iter().any(|now| now == line), "{line}: {now:?}");
            continue;
        }
        let call = line.split(" -> ").next().expect("a line");
        calls.push(call.split(" \"").next().expect("a call"));
        let mut said = vec![line];
        let now = done(&mut rig, line);
        said.extend(lines.by_ref().take(now.len() - 1));
        assert_eq!(said, now, "left: docs/CRASH.md");
    }
    assert_eq!(calls, DONE);
}

/// Power goes after these calls, and again after so many steps of mending: whether 5 then reads as it landed.
fn landed_after(calls: &[&str], steps: Option<usize>) -> bool {
    let mut rig = Rig::formatted(GEOMETRY);
    for call in calls {
        rig.make(&Call::of(call)).said.expect("a call");
    }
    rig.forget(|| 0xffff_ffff);
    if let Some(steps) = steps {
        rig.make(&Call::Reopen).said.expect("a reopening");
        (0..steps).for_each(|_| assert!(rig.make(&Call::Step).said.is_ok()));
        rig.forget(|| 0xffff_ffff);
    }
    rig.make(&Call::Reopen).said.expect("a reopening");
    assert_eq!(
        rig.recovering(),
        calls.last() != Some(&"flush") && steps != Some(1)
    );
    rig.finish();
    let landed = cases::stored::named("A");
    let read = rig.cache().view(Block(5)).expect("a view").page.to_vec();
    assert!(read == landed || read == cases::stored::page(5));
    read == landed
}

#[test]
fn power_that_goes_at_another_moment() {
    let calls = ["offer 5", "land 5 A", "offer 6"];
    let now = [
        landed_after(&calls[..1], None),
        landed_after(&calls[..2], None),
        landed_after(&["offer 5", "land 5 A", "flush"], None),
        landed_after(&calls, None),
        landed_after(&calls, Some(0)),
        landed_after(&calls, Some(1)),
    ];
    let document = include_str!("../../../docs/CRASH.md").lines();
    let rows =
        document.filter(|line| line.starts_with("| after ") || line.starts_with("| before "));
    let said: Vec<bool> = rows.map(|row| row.contains("| landed")).collect();
    assert_eq!(said, now, "left: docs/CRASH.md");
}

#[test]
fn the_bytes_in_format_are_those_after_the_second_offer() {
    let mut rig = unformatted();
    for call in &DONE[..7] {
        let call = call.replace("land 5", "land 5 A");
        rig.make(&Call::of(&call)).said.expect("a call");
    }
    let shown = shown(&rig.images.ssd, 0, 2 * PAGE);
    let document = include_str!("../../../docs/FORMAT.md").lines();
    let bytes =
        document.filter_map(|line| line.strip_prefix("    ").filter(|line| line.contains(": ")));
    let said: Vec<&str> = bytes.collect();
    assert_eq!(said.len(), shown.len());
    for (said, now) in said.iter().zip(&shown) {
        assert!(now.starts_with(said), "docs/FORMAT.md: {said}, now: {now}");
    }
}
