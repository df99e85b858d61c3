//! Compares the proved calls with plain Rust that does the same, and times both. README.md has the commands.

mod boxes;
mod calls;
mod check;
mod cost;
mod document;
mod image;
mod load;
mod loads;
mod pages;
mod plain;
mod plot;
mod proved;
mod reopening;
mod report;
mod rng;
mod scans;
mod timing;
mod world;

use std::collections::HashMap;
use std::fs;

const USAGE: &str = "bench [--load | --check] [--only NAME] [--document FILE] [--plot FILE]";
/// The calls in the plot; reopening is the last line there.
const PLOTTED: [&str; 4] = [
    "format",
    "look up, clean",
    "land, open",
    "offer, announced (swept)",
];

type Options = HashMap<String, String>;

/// Options by name; each takes a value, but for --check and --load.
fn options() -> Options {
    let mut args = std::env::args().skip(1);
    let mut options = Options::new();
    while let Some(name) = args.next() {
        let known =
            ["--load", "--check", "--only", "--document", "--plot"].contains(&name.as_str());
        assert!(known, "{USAGE}");
        let value = if name == "--check" || name == "--load" {
            String::new()
        } else {
            args.next().expect(USAGE)
        };
        options.insert(name, value);
    }
    options
}

/// The lines of the plot.
fn lines(calls: &calls::Measured, reopened: &[reopening::Measured]) -> Vec<plot::Line> {
    let mut lines: Vec<plot::Line> = PLOTTED
        .iter()
        .map(|name| (*name, calls.line(name)))
        .collect();
    lines.push(("reopen, 4 blocks a slot", reopening::line(reopened)));
    lines
}

fn main() {
    let options = options();
    if options.contains_key("--load") {
        return load::run();
    }
    let only = |name: &str| {
        !options.contains_key("--check") && options.get("--only").is_none_or(|only| only == name)
    };
    let mut sections = vec![("check", check::run())];
    let measured = calls::OPEN.into_iter().filter(|(name, _)| only(name));
    let measured: Vec<_> = measured
        .map(|(name, open)| (name, calls::measure(open)))
        .collect();
    let reopened = only("reopening").then(reopening::measure);
    sections.extend(measured.iter().map(|(name, calls)| (*name, calls.table())));
    sections.extend(only("cost").then(|| ("cost", cost::table())));
    sections.extend(only("pages").then(|| ("pages", pages::table())));
    sections.extend(
        reopened
            .as_ref()
            .map(|measured| ("reopening", reopening::table(measured))),
    );
    sections.extend(only("loads").then(|| ("loads", loads::table())));
    sections.extend(only("depths").then(|| ("depths", loads::depths())));
    for (name, text) in &sections {
        println!("## {name}\n\n{text}");
    }
    if let Some(file) = options.get("--document") {
        let text = fs::read_to_string(file).expect("the document can be read");
        fs::write(file, document::filled(&text, &sections)).expect("the document can be written");
    }
    let calls = measured.iter().find(|(name, _)| *name == "calls");
    if let (Some(file), Some((_, calls)), Some(reopened)) = (options.get("--plot"), calls, reopened)
    {
        fs::write(file, plot::svg(&lines(calls, &reopened))).expect("the plot can be written");
    }
}
