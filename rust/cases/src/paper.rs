//! P1 to P10 of document 01's table of cases.

use crate::beside::Beside;
use crate::rig::{Call, Rig};
use crate::say;
use crate::stored::{label, label_page, named, page, ssd_of, Meta, Metas};
use ferjulm::{Block, Caller, Geometry, Images, PAGE};

const SMALL: Geometry = Geometry::new(4, 8);

pub fn lines() -> Vec<String> {
    vec![p1(), p2(), p3(), p4(), p5(), p6(), p7(), p8(), p9(), p10()]
}

/// What a block reads as: "A" and "B" were landed, "HDD" was on its block before the format.
fn reading(b: &mut Beside, block: u32) -> String {
    let found = say::said(b.rig.make(&Call::LookUp(Block(block))).said);
    let cache = b.rig.cache();
    let read = cache.view(Block(block)).expect("a view").page;
    let landed = ["A", "B"].into_iter().find(|&name| named(name) == read);
    let name = match landed {
        Some(name) => name.to_string(),
        None if page(block as u64) == read => "HDD".to_string(),
        None => "something else".to_string(),
    };
    format!("{block} {found} reads {name}")
}

/// Power fails; the box is reopened and recovers: each of its stores with its stamp.
fn cut(b: &mut Beside) -> String {
    b.cut(|| 0xffff_ffff);
    let mut line = format!("reopen {}", say::said(b.make(&Call::Reopen)));
    while b.recovering() {
        let step = say::said(b.make(&Call::Step));
        let stored = say::place(b.stored);
        line += &format!(", step {step} stores {stored} stamp {}", newest(b));
    }
    format!("{line}, ready {}", b.serves())
}

fn newest(b: &Beside) -> u32 {
    Metas::read(b.geometry, &b.rig.images.ssd).newest().stamp
}

fn p1() -> String {
    let mut rig = Rig::unformatted(SMALL);
    let hdd = rig.images.hdd.clone();
    let format = rig.make(&Call::Format(SMALL)).said;
    let mut line = format!("P1 format {}", say::said(format));
    while !rig.ready() {
        let step = rig.make(&Call::Step);
        let (said, stored) = (say::said(step.said), say::place(step.stored));
        line += &format!(", step {said} stores {stored}");
    }
    assert!(rig.images.ssd[..PAGE] == label_page(&label(SMALL)));
    assert!(rig.images.ssd[PAGE..2 * PAGE] == Meta::empty().bytes());
    let untouched =
        rig.images.hdd == hdd && rig.images.ssd[2 * PAGE..].iter().all(|&byte| byte == 0xaa);
    format!(
        "{line}; SSD {} bytes; HDD and slots untouched {untouched}",
        rig.images.ssd.len()
    )
}

/// The box of P2, and its line.
fn offered() -> (Beside, String) {
    let mut b = Beside::formatted(SMALL);
    let said = say::said(b.make(&Call::Offer(Block(5), Caller::People)));
    let entry = say::hexadecimal(&b.rig.images.ssd[PAGE + 512..PAGE + 520]);
    let (stored, stamp, hand) = (say::place(b.stored), newest(&b), b.rig.record.hand().0);
    let line =
        format!("P2 offer 5: {said}, stores {stored}, stamp {stamp}, entry {entry}, hand {hand}");
    (b, line)
}

/// The box of P2, with A landed.
fn landed() -> Beside {
    let (mut b, _) = offered();
    assert_eq!(say::said(b.make(&Call::Land(Block(5), named("A")))), "done");
    b
}

fn p2() -> String {
    offered().1
}

fn p3() -> String {
    let (mut b, _) = offered();
    format!("P3 P2, cut: {}; {}", cut(&mut b), reading(&mut b, 5))
}

fn p4() -> String {
    let mut b = landed();
    let stored = say::place(b.stored);
    format!(
        "P4 P2, land A stores {stored}, cut: {}; {}",
        cut(&mut b),
        reading(&mut b, 5)
    )
}

/// The box of P5, and its line.
fn flushed() -> (Beside, String) {
    let mut b = landed();
    let flush = say::said(b.make(&Call::Flush));
    let stored = say::place(b.stored);
    let (cut, read) = (cut(&mut b), reading(&mut b, 5));
    (
        b,
        format!("P5 P2, land A, flush {flush} stores {stored}, cut: {cut}; {read}"),
    )
}

fn p5() -> String {
    flushed().1
}

fn p6() -> String {
    let mut b = landed();
    let offer = say::said(b.make(&Call::Offer(Block(6), Caller::People)));
    let cut = cut(&mut b);
    let (five, six) = (reading(&mut b, 5), reading(&mut b, 6));
    format!("P6 P2, land A, offer 6: {offer}, cut: {cut}; {five}; {six}")
}

fn p7() -> String {
    let (mut b, _) = flushed();
    let offer = say::said(b.make(&Call::Offer(Block(5), Caller::People)));
    let land = say::said(b.make(&Call::Land(Block(5), named("B"))));
    let stored = say::place(b.stored);
    let (cut, read) = (cut(&mut b), reading(&mut b, 5));
    format!(
        "P7 P5, offer 5: {offer}, land B {land} stores {stored}, cut: {cut}; {read}; stamp {}",
        newest(&b)
    )
}

/// Makes calls one after another: what each says.
fn run(b: &mut Beside, calls: &[(&str, Call)]) -> String {
    let said: Vec<String> = calls
        .iter()
        .map(|(name, call)| format!("{name} {}", say::said(b.make(call))))
        .collect();
    b.check_reads();
    said.join(", ")
}

fn p8() -> String {
    let mut b = Beside::formatted(Geometry::new(1, 2));
    let calls = [
        ("offer 0", Call::Offer(Block(0), Caller::People)),
        ("land A", Call::Land(Block(0), named("A"))),
        ("offer 1", Call::Offer(Block(1), Caller::People)),
    ];
    let said = run(&mut b, &calls);
    let stored = say::place(b.stored);
    let again = run(&mut b, &[("again", Call::Offer(Block(1), Caller::People))]);
    format!(
        "P8 {said} stores {stored}, {again} stores {}; {}",
        say::place(b.stored),
        reading(&mut b, 0)
    )
}

fn p9() -> String {
    let mut b = Beside::formatted(Geometry::new(2, 3));
    let calls = [
        ("fetch 0", Call::Fetch(Block(0), Caller::People)),
        ("land it", Call::LandFetch(Block(0))),
        ("fetch 1", Call::Fetch(Block(1), Caller::People)),
        ("land it", Call::LandFetch(Block(1))),
        ("look up 0", Call::LookUp(Block(0))),
        ("offer 2", Call::Offer(Block(2), Caller::People)),
    ];
    let said = run(&mut b, &calls);
    format!("P9 {said}, hand {}", b.rig.record.hand().0)
}

fn p10() -> String {
    let geometry = Geometry::new(241, 8);
    let metas = [
        Meta::with(1, &[0], &[(5, 7)]),
        Meta::with(2, &[240], &[(6, 7)]),
    ];
    let ssd = ssd_of(geometry, &metas);
    let mut rig = Rig::of(
        geometry,
        Images {
            ssd,
            hdd: vec![0; geometry.hdd_bytes()],
        },
    );
    let said = say::said(rig.make(&Call::Reopen).said);
    let (kept, dropped) = (&rig.table[..2], &rig.table[480..]);
    let rest = rig.table[2..480].iter().all(|&word| word == 0);
    let pending = say::slots(rig.record.window());
    format!("P10 reopen {said}: row 0 {kept:?}, row 240 {dropped:?}, others zero {rest}; pending {pending}")
}
