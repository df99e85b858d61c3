//! A list of calls on a box beside the plain disk, with a line for each call.

use crate::beside::Beside;
use crate::rig::{word, Call, Rig};
use crate::say;
use ferjulm::Geometry;

/// A list in the making: its box, and the lines so far.
pub struct Listed {
    pub b: Beside,
    pub lines: Vec<String>,
}

impl Listed {
    /// A box formatted: its phase after the format and after each step.
    pub fn formatted(title: &str, slots: u32, blocks: u32) -> Self {
        let geometry = Geometry::new(slots, blocks);
        let mut rig = Rig::unformatted(geometry);
        let text = format!("format {slots} {blocks}");
        let mut line = format!("{text} -> {}", say::said(rig.make(&Call::of(&text)).said));
        line += &format!(", {}", say::phase(&rig.record));
        while !rig.ready() {
            rig.make(&Call::Step).said.expect("a step of a format");
            line += &format!(", {}", say::phase(&rig.record));
        }
        let mut b = Beside::of(geometry, rig);
        line += &format!("; {}; {}", say::record(&b.rig.record), reads(&mut b));
        let lines = vec![String::new(), title.to_string(), line];
        Listed { b, lines }
    }

    /// Makes a call, and reads every block after it: the answer, and the record after it or that a refusal changed nothing.
    pub fn make(&mut self, text: &str) {
        self.make_call(text, &Call::of(text));
    }

    /// The same of a call with a text for it.
    pub fn make_call(&mut self, text: &str, call: &Call) {
        let before = self.b.rig.clone();
        let said = self.b.make(call);
        let left = match said {
            Ok(_) => say::record(&self.b.rig.record),
            Err(_) => say::unchanged(self.b.rig == before).to_string(),
        };
        let reads = reads(&mut self.b);
        let said = say::said(said);
        self.lines
            .push(format!("{text} -> {said}; {left}; {reads}"));
    }

    /// Makes calls, one after the other.
    pub fn run(mut self, texts: &str) -> Self {
        texts.split(", ").for_each(|text| self.make(text));
        self
    }

    /// A call on a copy of the box that was spoilt before it; the name says how.
    pub fn spoilt(&mut self, name: &str, text: &str, spoil: impl Fn(&mut Rig)) {
        let mut rig = self.b.rig.clone();
        spoil(&mut rig);
        let line = refused(rig, text, &Call::of(text));
        self.lines.push(format!("{name}{line}"));
    }

    /// Puts another newest stamp into the record.
    pub fn at_stamp(mut self, newest: u32) -> Self {
        self.lines.push(format!("at stamp {newest}"));
        self.b.rig.set(word::NEWEST, newest);
        self
    }
}

/// A call that is refused with no block read, since every view is refused too: its number, and whether all is unchanged.
pub fn refused(mut rig: Rig, text: &str, call: &Call) -> String {
    let before = rig.clone();
    let said = say::said(rig.make(call).said);
    format!("{text} -> {said}; {}", say::unchanged(rig == before))
}

/// Every block reads as the plain disk; where one does not, the list ends here.
fn reads(b: &mut Beside) -> &'static str {
    b.check_reads();
    "reads=ok"
}
