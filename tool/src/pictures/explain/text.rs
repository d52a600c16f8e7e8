//! An explanation as lines of text.

use super::covering::{CoveringReport, What};
use super::{Explanation, Lists, WorldReport};

/// Said where the independent model and the proved library disagree.
pub const FAULT: &str =
    "a fault of the model or of the library, not of the die; please report it with these files";

impl Explanation {
    pub fn text(&self) -> String {
        let mut lines = self.head();
        lines.push(String::new());
        lines.push("what covers it, in drawing order:".to_string());
        lines.push(format!("  BKCOL gives {}", self.bkcol));
        lines.extend(self.covering.iter().flat_map(CoveringReport::lines));
        lines.push(String::new());
        lines.push(self.bytes.head());
        for half in self.covering.iter().flat_map(|one| &one.bytes) {
            let [low, high] = half.bytes;
            lines.push(format!("  0x{:05X}  {low:02X} {high:02X}  {}", half.address, half.what));
        }
        lines.push(String::new());
        lines.push("worlds, from 31 downwards:".to_string());
        lines.extend(self.worlds.iter().flat_map(WorldReport::lines));
        lines.join("\n") + "\n"
    }

    fn head(&self) -> Vec<String> {
        let Explanation { column, row, eye, value, library_value, .. } = self;
        let mut lines = vec![format!("pixel ({column}, {row}) of the {eye} eye: value {value}")];
        let computed = "computed by the independent model; the proved library draws";
        if value == library_value {
            lines.push(format!("{computed} {library_value}, the same"));
        } else {
            lines.push(format!("{computed} {library_value}: they differ, {FAULT}"));
        }
        lines
    }
}

impl Explanation {
    /// A line that says what gives the pixel its value.
    pub fn winner(&self) -> String {
        match self.covering.iter().find(|one| one.wins) {
            Some(one) => one.line(),
            None => format!("BKCOL gives {}", self.bkcol),
        }
    }
}

impl Lists {
    pub(super) fn same(&self) -> bool {
        self.library == self.model
    }

    pub(super) fn head(&self) -> String {
        let (library, model) = (self.library.len(), self.model.len());
        if self.same() {
            return format!(
                "the bytes it answers to, {library}, proved; the independent model's are the same:"
            );
        }
        format!(
            "the bytes it answers to: the proved library lists {library}, the independent model {model}, and the lists \
             differ: {FAULT}"
        )
    }
}

impl CoveringReport {
    /// Where it comes from and what it gives, without the record.
    pub fn line(&self) -> String {
        let gives = match self.gives {
            Some(shade) => format!("value {} gives {shade}", self.character_value),
            None => "value 0 is transparent".to_string(),
        };
        let flips = match (self.horizontal_flip, self.vertical_flip) {
            (true, true) => ", flipped both ways",
            (true, false) => ", flipped horizontally",
            (false, true) => ", flipped vertically",
            (false, false) => "",
        };
        let (world, character, palette) = (self.world, self.character, self.palette);
        let number = self.palette_number;
        match &self.what {
            What::Background { source: (sx, sy), overplane, cell, cell_address, map, .. } => {
                let place = if *overplane { "overplane cell" } else { "cell" };
                let map = map.map_or(String::new(), |(map, column, row)| {
                    format!(" (map {map}, column {column}, row {row})")
                });
                format!(
                    "world {world}, {}: source ({sx}, {sy}), {place} 0x{cell:04X} at 0x{cell_address:05X}{map}, \
                     character {character}{flips}, GPLT{number} 0x{palette:02X}: {gives}",
                    self.kind
                )
            }
            What::Object { object, group, again, position: (column, row), .. } => format!(
                "world {world}, group {group}, object {object}{}: column {column}, row {row} of character \
                 {character}{flips}, JPLT{number} 0x{palette:02X}: {gives}",
                if *again { " again" } else { "" }
            ),
        }
    }

    fn lines(&self) -> Vec<String> {
        let mark = if self.wins { "  <- the pixel" } else { "" };
        let mut lines = vec![format!("  {}{mark}", self.line())];
        if let What::Object { record, .. } = &self.what {
            lines.push(format!("    {}", record.text()));
        }
        lines
    }
}

impl WorldReport {
    fn lines(&self) -> Vec<String> {
        let mut lines = vec![format!("  {:2}  {}", self.world, self.fate)];
        if !self.record.end {
            lines.push(format!("      {} at 0x{:05X}", self.record.text(), self.record.address));
        }
        for one in self.objects.iter().filter_map(|objects| objects.each.as_ref()).flatten() {
            let (number, record) = (one.record.object, one.record.text());
            lines.push(format!("      object {number:4}  {}: {record}", one.fate));
        }
        lines
    }
}
