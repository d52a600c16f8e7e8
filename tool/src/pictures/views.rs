//! Both eyes' pictures of a frame, and the files that show them.

use clap::ValueEnum;
use vb::{image_offset, IMAGE_LENGTH};

use crate::eye::Eye;
use crate::pictures::picture::Picture;

/// Which pictures of a frame are written.
#[derive(Clone, Copy, PartialEq, Eq, ValueEnum)]
pub enum Layout {
    /// The left eye's picture
    Left,
    /// The right eye's picture
    Right,
    /// A picture for each eye
    Both,
    /// One picture: the left eye's, then the right one's
    SideBySide,
    /// One picture: red for the left eye, cyan for the right one
    Anaglyph,
    /// All four of them
    All,
}

impl Layout {
    pub fn shows(self, one: Layout) -> bool {
        self == one
            || self == Layout::All
            || (self == Layout::Both && matches!(one, Layout::Left | Layout::Right))
    }
}

/// Both eyes' pictures of a frame in VRAM.
#[derive(Clone)]
pub struct Views {
    pub left: Picture,
    pub right: Picture,
}

impl Views {
    pub fn of(vram: &[u8], frame: u32) -> Views {
        let [left, right] = Eye::BOTH.map(|eye| Views::one(vram, frame, eye));
        Views { left, right }
    }

    /// One eye's picture.
    pub fn one(vram: &[u8], frame: u32, eye: Eye) -> Picture {
        let offset = image_offset(frame, eye.number());
        Picture::of_image(&vram[offset..offset + IMAGE_LENGTH])
    }

    pub fn eye(&self, eye: Eye) -> &Picture {
        match eye {
            Eye::Left => &self.left,
            Eye::Right => &self.right,
        }
    }

    /// The files `frameN-left.png` and so on.
    pub fn files(&self, frame: u32, layout: Layout, scale: usize) -> Vec<(String, Vec<u8>)> {
        let mut files = Vec::new();
        let mut add = |one: Layout, name: &str, png: &dyn Fn() -> Vec<u8>| {
            if layout.shows(one) {
                files.push((format!("frame{frame}-{name}.png"), png()));
            }
        };
        add(Layout::Left, "left", &|| self.left.png(scale));
        add(Layout::Right, "right", &|| self.right.png(scale));
        add(Layout::SideBySide, "side-by-side", &|| self.left.side_by_side(&self.right, scale));
        add(Layout::Anaglyph, "anaglyph", &|| self.left.anaglyph(&self.right, scale));
        files
    }
}
