//! Where a saved state has what, by its form and pak RAM's length (paper 02, W1 and W12).

use serde::Serialize;
use vb::{DRAWING_LENGTH, PROCESSOR_WORDS_LENGTH, VRAM_LENGTH, WRAM_LENGTH};

pub const PROCESSOR: u16 = 1;
pub const DRAWING: u16 = 2;
pub const WRAM: u16 = 3;
pub const VRAM: u16 = 4;
pub const PAK: u16 = 5;
pub const LINES: u16 = 6;

/// Bytes of the longest pak RAM.
const LONGEST: usize = 1 << 24;

#[derive(Clone, Copy, Debug, Default, PartialEq, Eq)]
pub enum Form {
    /// A count, an entry for each body, and the bodies.
    One,
    /// It begins with halfwords 0 and 2, has a sum in each entry, and kind 6.
    #[default]
    Two,
}

impl Form {
    /// The form of a file: form 2 begins with a halfword 0.
    pub fn of(file: &[u8]) -> Form {
        if file.starts_with(&[0, 0]) {
            Form::Two
        } else {
            Form::One
        }
    }

    pub fn other(self) -> Form {
        match self {
            Form::One => Form::Two,
            Form::Two => Form::One,
        }
    }

    pub fn number(self) -> u16 {
        match self {
            Form::One => 1,
            Form::Two => 2,
        }
    }

    /// Bytes before the first entry, and of an entry.
    fn sizes(self) -> (usize, usize) {
        match self {
            Form::One => (2, 10),
            Form::Two => (6, 14),
        }
    }
}

/// A body as the contents have it.
#[derive(Clone, Copy, Debug, PartialEq, Eq, Serialize)]
pub struct Body {
    pub kind: u16,
    pub name: &'static str,
    pub offset: usize,
    pub length: usize,
}

#[derive(Clone, Debug, PartialEq, Eq)]
pub struct Layout {
    pub form: Form,
    pub bodies: Vec<Body>,
}

impl Layout {
    pub fn of(form: Form, pak: usize) -> Layout {
        let all = [
            (PROCESSOR, "processor record", PROCESSOR_WORDS_LENGTH),
            (DRAWING, "drawing record", DRAWING_LENGTH),
            (WRAM, "WRAM", WRAM_LENGTH),
            (VRAM, "VRAM", VRAM_LENGTH),
            (PAK, "pak RAM", pak),
            (LINES, "request lines and timer", if form == Form::Two { 8 } else { 0 }),
        ];
        let held: Vec<_> = all.into_iter().filter(|(_, _, length)| *length > 0).collect();
        let (head, entry) = form.sizes();
        let mut offset = head + entry * held.len();
        let bodies = held.into_iter().map(|(kind, name, length)| {
            offset += length;
            Body { kind, name, offset: offset - length, length }
        });
        Layout { form, bodies: bodies.collect() }
    }

    /// The layout of a file: its first halfword gives the form, its length pak RAM's.
    pub fn of_file(file: &[u8]) -> Option<Layout> {
        Layout::of_length(Form::of(file), file.len())
    }

    pub fn of_length(form: Form, length: usize) -> Option<Layout> {
        let paks = (0..=LONGEST.ilog2()).map(|bit| 1 << bit);
        let mut all = std::iter::once(0).chain(paks).map(|pak| Layout::of(form, pak));
        all.find(|layout| layout.length() == length)
    }

    pub fn length(&self) -> usize {
        self.bodies.last().map_or(0, |body| body.offset + body.length)
    }

    /// The length of a kind's body, 0 where there is none.
    pub fn length_of(&self, kind: u16) -> usize {
        self.body(kind).map_or(0, |body| body.length)
    }

    pub fn body(&self, kind: u16) -> Option<&Body> {
        self.bodies.iter().find(|body| body.kind == kind)
    }

    /// A kind's bytes in a file of this layout.
    pub fn bytes<'a>(&self, file: &'a [u8], kind: u16) -> &'a [u8] {
        self.body(kind).map_or(&[], |body| &file[body.offset..body.offset + body.length])
    }

    /// The bytes before the first body, as a writer makes them for the bodies of a file.
    pub fn contents(&self, file: &[u8]) -> Vec<u8> {
        let mut contents = match self.form {
            Form::One => Vec::new(),
            Form::Two => vec![0, 0, 2, 0],
        };
        contents.extend((self.bodies.len() as u16).to_le_bytes());
        for body in &self.bodies {
            contents.extend(body.kind.to_le_bytes());
            contents.extend((body.offset as u32).to_le_bytes());
            contents.extend((body.length as u32).to_le_bytes());
            if self.form == Form::Two {
                let bytes = self.bytes(file, body.kind).iter();
                let sum = bytes.fold(0u32, |sum, &byte| sum.wrapping_add(u32::from(byte)));
                contents.extend(sum.to_le_bytes());
            }
        }
        contents
    }

    /// What a byte before the first body belongs to.
    pub fn part(&self, at: usize) -> String {
        let (head, entry) = self.form.sizes();
        if at < head {
            let place = if at + 2 < head { "the form" } else { "the count of bodies" };
            return place.to_string();
        }
        let (n, inside) = ((at - head) / entry, (at - head) % entry);
        let field = match inside {
            0 | 1 => "kind",
            2..=5 => "offset",
            6..=9 => "length",
            _ => "sum",
        };
        format!("the {field} in entry {n}, {}", self.bodies[n].name)
    }
}
