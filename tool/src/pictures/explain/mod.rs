//! Why a pixel has its value: every world and object that has a part in it, decoded, by the independent model. The
//! proved library's value of the pixel and its list of the pixel's bytes stand next to it. What is printed as text has the
//! same members as the JSON.

mod covering;
mod objects;
mod records;
mod text;

use model::answers::{answers, Answers, Fate};
use model::world::{Eye, World};
use model::DrawingRegisters;
use serde::Serialize;
use vb::Drawing;

use crate::failure::Failure;
use covering::CoveringReport;
pub use objects::Objects;
pub use records::{kind_text, span_text, ObjectRecord, WorldRecord};
pub use text::FAULT;

/// Everything that is reported about one pixel.
#[derive(Serialize)]
pub struct Explanation {
    pub computed_by: &'static str,
    pub eye: &'static str,
    pub column: u32,
    pub row: u32,
    /// By the independent model.
    pub value: u8,
    /// By the proved library.
    pub library_value: u8,
    pub agree: bool,
    pub bkcol: u8,
    pub covering: Vec<CoveringReport>,
    pub bytes: Lists,
    pub worlds: Vec<WorldReport>,
}

/// The addresses of the bytes that the pixel answers to, in the order of docs/PROMISES.md.
#[derive(Serialize)]
pub struct Lists {
    /// By the independent model.
    pub model: Vec<u32>,
    /// By the proved library.
    pub library: Vec<u32>,
}

/// A world that was looked at, and what became of it.
#[derive(Serialize)]
pub struct WorldReport {
    pub world: u32,
    pub fate: String,
    pub record: WorldRecord,
    /// Of an object world: its group's objects.
    pub objects: Option<Objects>,
}

/// What is asked: the memory before drawing, the registers, the pixel, and the library's value of it.
#[derive(Clone, Copy)]
pub struct Question<'a> {
    pub vram: &'a [u8],
    pub drawing: &'a Drawing,
    pub eye: Eye,
    pub x: u32,
    pub y: u32,
    pub library_value: u8,
    /// Whether objects that do not cover the pixel are listed one by one.
    pub every_object: bool,
}

pub fn eye_name(eye: Eye) -> &'static str {
    match eye {
        Eye::Left => "left",
        Eye::Right => "right",
    }
}

/// The drawing registers as the independent model takes them.
pub fn registers(drawing: &Drawing) -> DrawingRegisters {
    let Drawing { spt, gplt, jplt, bkcol } = *drawing;
    DrawingRegisters { spt, gplt, jplt, bkcol }
}

pub fn explain(question: &Question) -> Result<Explanation, Failure> {
    let Question { vram, drawing, eye, x, y, library_value, .. } = *question;
    let found = answers(vram, &registers(drawing), eye, x, y).map_err(|refusal| {
        Failure::bad(format!("the independent model: {}", refusal.sentence()))
    })?;
    let model = found.listed().into_iter().map(|address| address as u32).collect();
    let lists = Lists { model, library: library_list(question)? };
    Ok(Explanation {
        computed_by: "independent model",
        eye: eye_name(eye),
        column: x,
        row: y,
        value: found.shade(),
        library_value,
        agree: found.shade() == library_value && lists.same(),
        bkcol: found.bkcol,
        covering: covering::reported(question, &found),
        bytes: lists,
        worlds: worlds(question, &found),
    })
}

/// The list by the proved library.
fn library_list(question: &Question) -> Result<Vec<u32>, Failure> {
    let Question { vram, drawing, eye, x, y, .. } = *question;
    let listed = drawing.pixel_bytes(vram, eye.number(), x, y);
    listed.map_err(|none| Failure::bad(none.to_string()))
}

fn worlds(question: &Question, found: &Answers) -> Vec<WorldReport> {
    let reports = found.worlds.iter().map(|(number, fate)| {
        let record = WorldRecord::read(question.vram, *number, question.eye);
        let objects = match fate {
            Fate::Objects { group, .. } => Some(Objects::of(question, *group)),
            _ => None,
        };
        let fate = match &objects {
            Some(objects) => objects.fate(),
            None => fate_text(question, fate, &record),
        };
        WorldReport { world: *number, fate, record, objects }
    });
    reports.collect()
}

fn fate_text(question: &Question, fate: &Fate, record: &WorldRecord) -> String {
    match fate {
        Fate::End => "END: no world from here on is drawn".to_string(),
        Fate::Skipped => "skipped: LON and RON are both clear".to_string(),
        Fate::Hidden => {
            let flag = if question.eye == Eye::Left { "LON" } else { "RON" };
            format!("not shown to this eye: {flag} is clear")
        }
        Fate::Elsewhere => elsewhere(question, record),
        Fate::Covers => "covers the pixel".to_string(),
        Fate::Objects { .. } => String::new(),
    }
}

/// Which side of its window a world misses the pixel by.
fn elsewhere(question: &Question, record: &WorldRecord) -> String {
    let world = World::read(question.vram, record.world);
    let (columns, rows) = (world.visible_columns(question.eye), world.visible_rows());
    let (x, y) = (question.x as i32, question.y as i32);
    let mut missed = Vec::new();
    if !columns.contains(&x) {
        missed.push(format!("column {x}"));
    }
    if !rows.contains(&y) {
        missed.push(format!("row {y}"));
    }
    let window = record.window.map(|window| {
        format!("{}, {}", span_text("column", window.columns), span_text("row", window.rows))
    });
    format!(
        "its window ({}) does not hold {}",
        window.unwrap_or_default(),
        if missed.is_empty() { "the pixel".to_string() } else { missed.join(" or ") }
    )
}

#[cfg(test)]
mod tests;
