//! What the lines say, in document 01's words.

use crate::rig::{Answer, Said};
use ferjulm::{Condition, Image, Phase, Place, Record, Slot, PAGE};

/// An answer, or a refusal with its number.
pub fn said(said: Said) -> String {
    match said {
        Ok(Answer::Done) => "done".to_string(),
        Ok(Answer::Announced(Slot(slot))) => format!("announced {slot}"),
        Ok(Answer::Overwrite) => "overwrite".to_string(),
        Ok(Answer::CopiedOut) => "copied out".to_string(),
        Ok(Answer::Dealt(places)) => format!("dealt with {places}"),
        Ok(Answer::Looked(found)) => condition(found),
        Ok(Answer::NothingToDo) => "nothing to do".to_string(),
        Err(refusal) => format!("refused {}", refusal.number()),
    }
}

/// A block's condition.
fn condition(found: Condition) -> String {
    match found {
        Condition::NotCached => "not cached".to_string(),
        Condition::Clean(Slot(slot)) => format!("clean in slot {slot}"),
        Condition::Dirty(Slot(slot)) => format!("dirty in slot {slot}"),
        Condition::OpenWrite(Slot(slot)) => format!("open for writing in slot {slot}"),
        Condition::OpenFetch(Slot(slot)) => format!("open for fetch in slot {slot}"),
    }
}

/// A record's phase.
pub fn phase(record: &Record) -> String {
    match record.phase() {
        Some(Phase::Formatting(steps)) => format!("formatting {steps}"),
        Some(Phase::Recovering) => "mending".to_string(),
        Some(Phase::Ready) => "ready".to_string(),
        None => "no phase".to_string(),
    }
}

/// Hand, newest stamp, how many slots are open (and which, if few), and whether it is settled.
pub fn record(record: &Record) -> String {
    let (hand, newest) = (record.hand().0, record.newest());
    let open: Vec<Slot> = record.window().collect();
    let few = if open.len() <= 4 { &open[..] } else { &[] };
    let few: String = few.iter().map(|slot| format!(" #{}", slot.0)).collect();
    let settled = if record.unconfirmed() {
        "unsettled"
    } else {
        "settled"
    };
    format!(
        "hand {hand} newest {newest} open {}{few} {settled}",
        open.len()
    )
}

/// Whether a refused call left all that it was lent.
pub fn unchanged(same: bool) -> &'static str {
    if same {
        "unchanged"
    } else {
        "CHANGED"
    }
}

/// The page that was stored.
pub fn place(place: Option<Place>) -> String {
    let Some(Place { image, offset }) = place else {
        return "nothing".to_string();
    };
    let name = match image {
        Image::Ssd => "SSD",
        Image::Hdd => "HDD",
    };
    format!("{name} page {}", offset / PAGE as u64)
}

/// Bytes in hexadecimal.
pub fn hexadecimal(bytes: &[u8]) -> String {
    let digits: Vec<String> = bytes.iter().map(|byte| format!("{byte:02x}")).collect();
    digits.join(" ")
}

/// Slot numbers.
pub fn slots(slots: impl Iterator<Item = Slot>) -> String {
    list(slots.map(|slot| slot.0.to_string()))
}

/// A list, or "none".
pub fn list(items: impl Iterator<Item = String>) -> String {
    let items: Vec<String> = items.collect();
    if items.is_empty() {
        return "none".to_string();
    }
    items.join(" ")
}
