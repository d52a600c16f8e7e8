//! What covers a pixel, in drawing order: source, cell, character and what each gives.

use model::answers::{Answers, Covered, Covering};
use model::world::WorldKind;
use serde::Serialize;

use super::records::kind_text;
use super::{ObjectRecord, Question};

/// A background world or an object that covers the pixel.
#[derive(Serialize)]
pub struct CoveringReport {
    pub world: u32,
    pub kind: &'static str,
    #[serde(flatten)]
    pub what: What,
    pub character: u32,
    pub row_address: usize,
    pub horizontal_flip: bool,
    pub vertical_flip: bool,
    /// Which of the four palettes, and its value.
    pub palette_number: usize,
    pub palette: u16,
    pub character_value: u8,
    pub transparent: bool,
    pub gives: Option<u8>,
    /// Whether this one gave the pixel its value.
    pub wins: bool,
    pub bytes: Vec<Half>,
}

#[derive(Serialize)]
#[serde(untagged)]
pub enum What {
    Background {
        /// i and j, from the window's unclipped corner.
        offset: (i32, i32),
        /// Before it wraps.
        source: (i32, i32),
        overplane: bool,
        cell: u16,
        cell_address: usize,
        /// The map, and the cell's column and row in it; none for the overplane's cell.
        map: Option<(usize, usize, usize)>,
    },
    Object {
        object: u32,
        group: usize,
        /// Drawn here by an earlier object world already.
        again: bool,
        /// The column and row of its square.
        position: (u32, u32),
        record: ObjectRecord,
    },
}

/// Two of the bytes that the pixel answers to.
#[derive(Serialize)]
pub struct Half {
    pub address: usize,
    pub bytes: [u8; 2],
    pub what: String,
}

pub fn reported(question: &Question, found: &Answers) -> Vec<CoveringReport> {
    let winner = found.winner();
    found
        .covering
        .iter()
        .map(|one| covering(question, one, winner.is_some_and(|winner| std::ptr::eq(winner, one))))
        .collect()
}

fn covering(question: &Question, one: &Covering, wins: bool) -> CoveringReport {
    let Covering { world, dot, palette, shade, .. } = one;
    let kind = match &one.what {
        Covered::Background { kind, .. } => kind_text(*kind),
        Covered::Object { .. } => "object",
    };
    let halves = halves(one).into_iter().map(|(what, address)| Half {
        address,
        bytes: [question.vram[address], question.vram[address + 1]],
        what,
    });
    CoveringReport {
        world: *world,
        kind,
        what: what(question, one),
        character: dot.character,
        row_address: dot.row_address,
        horizontal_flip: dot.flipped_horizontally,
        vertical_flip: dot.flipped_vertically,
        palette_number: dot.palette,
        palette: *palette,
        character_value: dot.value,
        transparent: shade.is_none(),
        gives: *shade,
        wins,
        bytes: halves.collect(),
    }
}

fn what(question: &Question, one: &Covering) -> What {
    match &one.what {
        Covered::Background { offset, source, overplane, cell, cell_address, .. } => {
            let at = cell_address - 0x20000;
            let cell_of_map = at % 8_192 / 2;
            What::Background {
                offset: *offset,
                source: *source,
                overplane: *overplane,
                cell: *cell,
                cell_address: *cell_address,
                map: (!overplane).then_some((at / 8_192, cell_of_map % 64, cell_of_map / 64)),
            }
        }
        Covered::Object { number, group, position, again, .. } => What::Object {
            object: *number,
            group: *group,
            again: *again,
            position: *position,
            record: ObjectRecord::read(question.vram, *number, question.eye),
        },
    }
}

/// The halfwords that the pixel answers to by one covering: what each is, and its address.
fn halves(one: &Covering) -> Vec<(String, usize)> {
    let row = one.dot.row_address;
    let character = one.dot.character;
    match &one.what {
        Covered::Object { again: true, .. } => Vec::new(),
        Covered::Object { number, .. } => {
            vec![(format!("object {number}: row of character {character}"), row)]
        }
        Covered::Background { cell_address, parameters, kind, overplane, .. } => {
            let world = one.world;
            let names = ["MX", "MP", "MY", "DX", "DY"];
            let mut all: Vec<(String, usize)> = Vec::new();
            for (i, &at) in parameters.iter().enumerate() {
                let name = if *kind == WorldKind::Affine { names[i] } else { "HOFST" };
                all.push((format!("world {world}: parameter {name}"), at));
            }
            let cell = if *overplane { "overplane cell" } else { "cell" };
            all.push((format!("world {world}: {cell}"), *cell_address));
            all.push((format!("world {world}: row of character {character}"), row));
            all
        }
    }
}
