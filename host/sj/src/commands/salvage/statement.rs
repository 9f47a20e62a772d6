//! The statement of loss: what a salvage makes of an image, in lines or as an object, and the sums of many.

use super::Way;
use crate::commands::check;
use crate::commands::many::Tally;
use crate::directory::{self, Written};
use crate::failure::{Failure, counting, grouped, named, plain, shown};
use crate::input;
use crate::json::Object;
use crate::manner::Manner;
use skilletjay::{Checked, Fate, Image, Refusal, Salvaged, Slot};
use std::fmt::Write;
use std::path::Path;

/// What became of an image.
pub struct Statement {
    about: String,
    way: Way,
    /// Of the mended image.
    checked: Checked,
    /// The slots that weren't empty.
    used: Vec<Used>,
    /// Whether the mended image is another than the one that was given.
    pub changed: bool,
    map_values: usize,
    freed: usize,
}

/// A slot that wasn't empty.
struct Used {
    slot: Slot,
    written: Written,
    /// Why it is lost, if it is.
    dropped: Option<Refusal>,
}

impl Statement {
    /// Mends an image in memory. Its directory is read before, since what is lost isn't in it afterwards.
    pub fn of(path: &Path, way: &Way, image: &mut Image) -> Result<Statement, Failure> {
        let about = named(path);
        let refused = |refusal| Failure::refused(&about, refusal).hindering();
        let given = image.clone();
        let salvaged = image.salvage().map_err(refused)?;
        let checked = image.check().map_err(refused)?;
        Ok(Statement {
            way: way.clone(),
            used: used(&checked, &given, &salvaged),
            changed: given != *image,
            map_values: salvaged.map_values,
            freed: directory::freed(&checked, given.bytes(), image.bytes()),
            checked,
            about,
        })
    }

    /// How many slots are lost.
    pub fn dropped(&self) -> usize {
        self.used.iter().filter(|used| used.dropped.is_some()).count()
    }

    /// How many slots are kept.
    fn kept(&self) -> usize {
        self.used.len() - self.dropped()
    }

    /// The statement as it is told.
    pub fn text(&self, manner: Manner) -> String {
        if manner.json { self.object().line() } else { self.lines() }
    }

    fn lines(&self) -> String {
        let (kind, density) = (self.checked.kind, self.checked.density);
        let mut text = format!("{}: {kind} {density}, {}\n", plain(&self.about), self.done());
        let widest = |part: fn(&Used) -> String| self.used.iter().map(|used| part(used).len()).max();
        let (types, names) = (widest(Used::file_type).unwrap_or(0), widest(Used::name).unwrap_or(0));
        for used in &self.used {
            let (slot, length) = (used.slot.to_string(), used.written.length());
            let (file_type, name, fate) = (used.file_type(), used.name(), used.fate());
            let _ = writeln!(text, "{slot:>4} {file_type:<types$} {length:>8} {name:<names$} {fate}");
        }
        let (values, freed) = (counting(self.map_values, "map value"), counting(self.freed, "block"));
        let (kept, dropped) = (counting(self.kept(), "slot"), grouped(self.dropped()));
        let _ = writeln!(text, "  {kept} kept, {dropped} dropped, {values} changed, {freed} freed");
        text
    }

    /// What was done with the image.
    fn done(&self) -> String {
        let written = |to: &Path| match input::is_standard(to) {
            true => "written to standard output".to_string(),
            false => format!("written to {}", shown(to)),
        };
        match (&self.way, self.changed) {
            (Way::DryRun, true) => "would be mended, nothing is written".into(),
            (Way::InPlace(_), true) => "mended in place".into(),
            (Way::To(to), true) => format!("mended, {}", written(to)),
            (Way::DryRun | Way::InPlace(_), false) => "nothing to mend, it is as it was".into(),
            (Way::To(to), false) => format!("nothing to mend, {}", written(to)),
        }
    }

    fn object(&self) -> Object {
        let to = if let Way::To(to) = &self.way { to.display().to_string() } else { String::new() };
        let slots: Vec<String> = self.used.iter().map(|used| used.object().inline()).collect();
        check::object(&self.about, &self.checked)
            .raw("changed", self.changed)
            .raw("dry_run", matches!(self.way, Way::DryRun))
            .text_if("to", &to)
            .number("kept", self.kept())
            .number("dropped", self.dropped())
            .number("map_values", self.map_values)
            .number("freed", self.freed)
            .raw("slots", format!("[{}]", slots.join(",")))
    }
}

/// The slots that weren't empty, as they were given.
fn used(checked: &Checked, given: &Image, salvaged: &Salvaged) -> Vec<Used> {
    let one = |(slot, fate): (usize, &Fate)| {
        let dropped = match fate {
            Fate::Empty => return None,
            Fate::Kept => None,
            Fate::Dropped(refusal) => Some(*refusal),
        };
        let slot = Slot(slot);
        Some(Used { slot, written: Written::at(checked.kind, given.bytes(), slot), dropped })
    };
    salvaged.slots.iter().enumerate().filter_map(one).collect()
}

impl Used {
    fn file_type(&self) -> String {
        self.written.file_type()
    }

    fn name(&self) -> String {
        format!("[{}]", self.written.name())
    }

    fn fate(&self) -> String {
        match self.dropped {
            None => "kept".into(),
            Some(refusal) => {
                let identity = self.written.bad_identity();
                let identity = identity.map_or(String::new(), |told| format!(", its identity is {told}"));
                format!("dropped: {}{identity} (refusal {})", refusal.words(), refusal.number())
            }
        }
    }

    /// A lost slot has its bytes too: nothing else has them any more.
    fn object(&self) -> Object {
        let object = Object::new()
            .number("slot", self.slot.0)
            .text("name", self.written.name().trim_end())
            .text("stored", &self.written.name())
            .text("type", &self.file_type())
            .number("type_byte", self.written.type_byte().into())
            .number("length", self.written.length());
        match self.dropped {
            None => object.text("fate", "kept"),
            Some(refusal) => object
                .text("fate", "dropped")
                .number("refusal", refusal.number() as usize)
                .text("words", refusal.words())
                .text("bytes", &self.written.digits()),
        }
    }
}

/// Sums of many statements.
#[derive(Default)]
pub struct Sums {
    accepted: usize,
    mended: usize,
    kept: usize,
    /// Slots that are lost.
    pub dropped: usize,
    map_values: usize,
    freed: usize,
}

impl Sums {
    /// Counts an image.
    pub fn add(&mut self, statement: &Statement) {
        *(if statement.changed { &mut self.mended } else { &mut self.accepted }) += 1;
        self.kept += statement.kept();
        self.dropped += statement.dropped();
        self.map_values += statement.map_values;
        self.freed += statement.freed;
    }

    /// The closing line: images, then slots, map values and blocks.
    pub fn closing(&self, tally: &Tally, manner: Manner, dry: bool) -> String {
        if manner.json {
            let object = Object::new().number("accepted", self.accepted).number("mended", self.mended);
            return tally
                .fields(object.raw("dry_run", dry))
                .number("kept", self.kept)
                .number("dropped", self.dropped)
                .number("map_values", self.map_values)
                .number("freed", self.freed)
                .line();
        }
        let mended = if dry { "to mend" } else { "mended" };
        let images =
            format!("{} accepted, {} {mended}, {}", self.accepted, self.mended, tally.words("failed"));
        let (kept, dropped) = (counting(self.kept, "slot"), grouped(self.dropped));
        let (values, freed) = (counting(self.map_values, "map value"), counting(self.freed, "block"));
        format!("{images}; {kept} kept, {dropped} dropped, {values} changed, {freed} freed\n")
    }
}
