//! A surveyor's week on a field box: a survey is saved, read, crowded out, corrected and flushed; power fails, the box
//! reopens and recovers, and the file that is copied to the office is Thursday's. Each day checks itself and shows the listing
//! of the SSD and the slot map. `run` beside this builds what is needed first.

mod days;
mod drawing;
mod drives;
mod files;
mod plot;
mod survey;

use drives::{FieldBox, GEOMETRY};
use ferjulm::{Phase, PAGE};
use files::{pages, SURVEY};
use std::fs::File;
use std::path::{Path, PathBuf};
use std::process::{Command, ExitCode};

type Done = Result<(), Box<dyn std::error::Error>>;

/// Shows the listing of the SSD.
fn list(field: &FieldBox, listing: &Path) -> Done {
    let output = Command::new(listing)
        .stdin(File::open(field.ssd())?)
        .output()?;
    let text = String::from_utf8(output.stdout)?;
    assert!(
        output.status.success() && text.starts_with("layout=1\n"),
        "the SSD lists: {text}"
    );
    for line in text.lines() {
        println!("    {line}");
    }
    Ok(())
}

/// Shows the slot map: its letters.
fn map(field: &mut FieldBox) -> Result<String, Box<dyn std::error::Error>> {
    let mut sheet = vec![0; GEOMETRY.map_bytes()];
    field.read(|cache| cache.map(&mut sheet))?;
    let text = String::from_utf8(sheet)?;
    let line = text.trim_end();
    println!("    {line}\n");
    Ok(line[6..].to_string())
}

/// The disk as last year left it: an older survey, and other files.
fn last_year() -> Vec<u8> {
    let mut hdd: Vec<u8> = (0..GEOMETRY.blocks)
        .flat_map(|block| [!block as u8; PAGE])
        .collect();
    let legs = survey::legs();
    let older = survey::file("Ferjulm, last year", &legs[legs.len() / 2..]);
    for (block, page) in pages(&older, SURVEY) {
        hdd[GEOMETRY.block_at(block)..][..PAGE].copy_from_slice(&page);
    }
    hdd
}

fn week(folder: &Path, listing: &Path) -> Done {
    let legs = survey::legs();
    let typed = survey::misread(&legs);
    let first = survey::file("Ferjulm", &typed);
    let mut field = FieldBox::new(folder, last_year())?;
    field.call_storing_nothing(|cache| cache.format(GEOMETRY))?;
    while field.read(|cache| cache.record().phase()) != Some(Phase::Ready) {
        field.call(|cache| cache.step(), Some)?;
    }
    let mut maps = String::new();
    let mut show = |field: &mut FieldBox| -> Done {
        list(field, listing)?;
        maps += &map(field)?;
        Ok(())
    };
    days::monday(&mut field, &first)?;
    show(&mut field)?;
    days::tuesday(&mut field, &first)?;
    show(&mut field)?;
    days::wednesday(&mut field, &first)?;
    show(&mut field)?;
    let second = days::thursday(&mut field, &typed, &legs)?;
    show(&mut field)?;
    days::friday(&mut field)?;
    show(&mut field)?;
    days::saturday(&mut field)?;
    show(&mut field)?;
    days::sunday(&mut field, &second, folder)?;
    show(&mut field)?;
    let all = ".cdwf".chars().all(|letter| maps.contains(letter));
    assert!(all, "the week's maps have all five letters: {maps}");
    Ok(())
}

/// The repository that cargo runs this in, and the program that lists an SSD.
fn places() -> Result<(PathBuf, PathBuf), Box<dyn std::error::Error>> {
    let package = std::env::var_os("CARGO_MANIFEST_DIR").ok_or("it is run by examples/week/run")?;
    let root = Path::new(&package).join("../..").canonicalize()?;
    let listing = root.join("crates/listing/out/listing");
    if !listing.is_file() {
        return Err(format!("{} is missing: run examples/week/run", listing.display()).into());
    }
    Ok((root, listing))
}

fn main() -> ExitCode {
    match places().and_then(|(root, listing)| week(&root.join("target/week"), &listing)) {
        Ok(()) => ExitCode::SUCCESS,
        Err(why) => {
            eprintln!("the week broke off: {why}");
            ExitCode::FAILURE
        }
    }
}
