//! The days of the week. Each checks itself.

use crate::drawing;
use crate::drives::{FieldBox, GEOMETRY};
use crate::files::{land, offer, pages, read_file, slot_of, OLD_PLAN, OTHERS, SCANS, SURVEY};
use crate::plot::plot;
use crate::survey;
use ferjulm::{Block, Caller, Fetched, Offered, Phase, Saved, PAGE};
use std::error::Error;
use std::fs;
use std::path::Path;

type Done = Result<(), Box<dyn Error>>;

/// Offers a write that is announced, and says in which slot.
fn announce(field: &mut FieldBox, block: Block) -> Done {
    let Offered::Announced { slot, .. } = offer(field, block)? else {
        return Err(format!("block {} is dirty already", block.0).into());
    };
    println!("  block {} is announced: Announced({slot:?})", block.0);
    Ok(())
}

pub fn monday(field: &mut FieldBox, file: &[u8]) -> Done {
    println!(
        "Monday: {} legs, as counted in the notebook, are typed into one file and saved.",
        survey::count(file)
    );
    assert_eq!(survey::count(file), survey::LEGS);
    for (block, _) in pages(file, SURVEY) {
        announce(field, block)?;
    }
    for (block, page) in pages(file, SURVEY) {
        let last_year = field.on_disk(block).to_vec();
        land(field, block, &page)?;
        assert!(
            field.on_disk(block) == last_year && page != last_year[..],
            "the disk still has last year's block"
        );
    }
    println!("  Their bytes are in the slots; the disk still has last year's. Nothing is flushed: a cut now would drop them all.");
    Ok(())
}

pub fn tuesday(field: &mut FieldBox, file: &[u8]) -> Done {
    println!("Tuesday: the mapping program reads the file back.");
    for block in SURVEY {
        let slot = slot_of(field, Block(block))?.expect("the block is in a slot");
        println!("  block {block} comes from slot {}", slot.0);
    }
    assert!(read_file(field, SURVEY)? == file, "the bytes are Monday's");
    Ok(())
}

pub fn wednesday(field: &mut FieldBox, file: &[u8]) -> Done {
    println!("Wednesday: {} pages of scans crowd the cache.", SCANS.len());
    let last_year: Vec<Vec<u8>> = SURVEY
        .map(|block| field.on_disk(Block(block)).to_vec())
        .collect();
    for block in SCANS {
        offer(field, Block(block))?;
        land(field, Block(block), &[block as u8; PAGE])?;
    }
    let mut copied = 0;
    for ((block, page), last_year) in pages(file, SURVEY).into_iter().zip(last_year) {
        let cached = slot_of(field, block)?;
        let expected = if cached.is_some() {
            &last_year[..]
        } else {
            &page
        };
        assert!(
            field.on_disk(block) == expected,
            "a block that lost its slot was copied out, another was not"
        );
        if cached.is_none() {
            println!(
                "  block {} was copied out, and its slot went to another block",
                block.0
            );
            copied += 1;
        }
    }
    assert_eq!(copied, 2, "two of the file's blocks");
    assert!(read_file(field, SURVEY)? == file, "the bytes are Monday's");
    Ok(())
}

pub fn thursday(
    field: &mut FieldBox,
    typed: &[survey::Leg],
    legs: &[survey::Leg],
) -> Result<Vec<u8>, Box<dyn Error>> {
    let changed = typed
        .iter()
        .zip(legs)
        .filter(|(old, new)| old != new)
        .count();
    println!("Thursday: {changed} legs, one on each page of the notebook, are corrected and saved; a flush makes that lasting.");
    println!(
        "  The worst loop was {:.2} m off, and is {:.2} m off.",
        survey::misclosure(typed),
        survey::misclosure(legs)
    );
    assert_eq!(changed, 11);
    let file = survey::file("Ferjulm", legs);
    for (block, page) in pages(&file, SURVEY) {
        offer(field, block)?;
        land(field, block, &page)?;
    }
    let flushed = field.call(|cache| cache.flush(), Saved::stored)?;
    assert!(flushed.stored().is_some(), "writes were unconfirmed");
    println!("  flush: Done");
    for block in SURVEY {
        let saved = field.call(|cache| cache.write_back(Block(block)), Saved::stored)?;
        assert!(saved.stored().is_some(), "the block was dirty");
    }
    println!("  The survey is written back to the disk: its slots are clean.");
    Ok(file)
}

pub fn friday(field: &mut FieldBox) -> Done {
    println!("Friday: other writes are announced, and an old plan is fetched; the generator stops before they land.");
    for block in OTHERS {
        announce(field, Block(block))?;
    }
    loop {
        let fetched = field.call(
            |cache| cache.fetch(OLD_PLAN, Caller::People),
            Fetched::stored,
        )?;
        if let Fetched::Announced { slot, .. } = fetched {
            println!(
                "  block {} is being fetched into slot {}",
                OLD_PLAN.0, slot.0
            );
            return Ok(());
        }
    }
}

pub fn saturday(field: &mut FieldBox) -> Done {
    println!("Saturday: power is back. The box reopens, drops what was in doubt and mends its metadata before it serves.");
    field.power_on()?;
    field.call_storing_nothing(|cache| cache.reopen())?;
    assert_eq!(
        field.read(|cache| cache.record().phase()),
        Some(Phase::Recovering)
    );
    let early = field.read(|cache| cache.view(Block(SURVEY.start)).map(|_| ()));
    println!(
        "  a view before it is mended: {}",
        early.expect_err("the box does not serve yet")
    );
    let mut steps = 0;
    while field.read(|cache| cache.record().phase()) != Some(Phase::Ready) {
        field.call(|cache| cache.step(), Some)?;
        steps += 1;
    }
    assert_eq!(steps, 1, "one metadata page had pending slots");
    println!("  mending took {steps} step");
    for block in OTHERS.map(Block).chain([OLD_PLAN]) {
        assert_eq!(
            slot_of(field, block)?,
            None,
            "what had not landed is dropped"
        );
    }
    Ok(())
}

pub fn sunday(field: &mut FieldBox, file: &[u8], folder: &Path) -> Done {
    println!("Sunday: the file is copied to the office.");
    for block in 0..GEOMETRY.blocks {
        let page = field.read(|cache| cache.view(Block(block)).map(|view| *view.page))?;
        assert!(
            page == field.plain(Block(block)),
            "block {block} is as on a plain disk"
        );
    }
    let copy = read_file(field, SURVEY)?;
    assert!(
        copy == file && survey::count(&copy) == survey::LEGS,
        "the bytes are Thursday's"
    );
    println!(
        "  {} legs, the bytes are Thursday's, and every block is as on a plain disk.",
        survey::count(&copy)
    );
    let path = folder.join("ferjulm.svx");
    fs::write(&path, &copy)?;
    plot(&path, survey::misclosure(&survey::legs()))?;
    let drawn = path.with_extension("svg");
    fs::write(&drawn, drawing::svg(&survey::lines(&survey::read(&copy))))?;
    println!("  plan and elevation: {}", drawn.display());
    Ok(())
}
