//! Which world or object gives each pixel of a part of a picture its value, by the independent model.

use std::ops::Range;

use model::drawing::{paint, Area, Source};
use model::world::{Eye, World};
use model::DrawingRegisters;
use serde::{Deserialize, Serialize};

use crate::pictures::difference::{Bounds, Difference};
use crate::pictures::explain::kind_text;

/// How many differing pixels one source accounts for.
#[derive(Clone, Debug, Deserialize, PartialEq, Eq, Serialize)]
pub struct Share {
    /// In words, such as `world 28, H-bias`.
    pub what: String,
    pub world: Option<u32>,
    pub object: Option<u32>,
    pub pixels: usize,
    /// The first of them.
    pub column: usize,
    pub row: usize,
}

/// The sources of a part of one eye's picture.
pub struct Sources {
    columns: Range<i32>,
    rows: Range<i32>,
    /// The source and the value of each pixel, row by row; none is BKCOL.
    of: Vec<(Option<Source>, u8)>,
}

impl Sources {
    pub fn of(vram: &[u8], drawing: &DrawingRegisters, eye: Eye, bounds: &Bounds) -> Sources {
        let columns = bounds.left as i32..bounds.right as i32 + 1;
        let rows = bounds.top as i32..bounds.bottom as i32 + 1;
        let of = vec![(None, drawing.bkcol as u8); columns.len() * rows.len()];
        let area = Area { eye, columns: columns.clone(), rows: rows.clone() };
        let mut sources = Sources { columns, rows, of };
        paint(vram, drawing, &area, &mut |source, x, y, shade| {
            let at = sources.index(x, y);
            sources.of[at] = (Some(source), shade);
        });
        sources
    }

    /// The source of a pixel, and the model's value of it.
    pub fn at(&self, x: usize, y: usize) -> (Option<Source>, u8) {
        self.of[self.index(x as i32, y as i32)]
    }

    fn index(&self, x: i32, y: i32) -> usize {
        let width = self.columns.end - self.columns.start;
        ((y - self.rows.start) * width + x - self.columns.start) as usize
    }

    /// Whether the model has the library's value at every differing pixel.
    pub fn agree(&self, found: &[Difference]) -> bool {
        found.iter().all(|pixel| self.at(pixel.x, pixel.y).1 == pixel.expected)
    }

    /// The differing pixels by source, most first.
    pub fn shares(&self, vram: &[u8], found: &[Difference]) -> Vec<Share> {
        let mut counted: Vec<(Option<Source>, usize, &Difference)> = Vec::new();
        for pixel in found {
            let source = self.at(pixel.x, pixel.y).0;
            match counted.iter_mut().find(|(other, _, _)| *other == source) {
                Some((_, count, _)) => *count += 1,
                None => counted.push((source, 1, pixel)),
            }
        }
        counted.sort_by_key(|(source, count, _)| (std::cmp::Reverse(*count), *source));
        let share = |(source, pixels, first): &(Option<Source>, usize, &Difference)| {
            Share::of(vram, *source, *pixels, first)
        };
        counted.iter().map(share).collect()
    }
}

impl Share {
    fn of(vram: &[u8], source: Option<Source>, pixels: usize, first: &Difference) -> Share {
        let (what, world, object) = match source {
            None => ("BKCOL".to_string(), None, None),
            Some(Source::Background { world }) => {
                let kind = kind_text(World::read(vram, world).kind);
                (format!("world {world}, {kind}"), Some(world), None)
            }
            Some(Source::Object { world, object }) => {
                (format!("object {object} of world {world}"), Some(world), Some(object))
            }
        };
        Share { what, world, object, pixels, column: first.x, row: first.y }
    }
}
