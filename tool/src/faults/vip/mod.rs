//! Faults of the image processor: what a drawing leaves in VRAM.
//!
//! Every picture is drawn by the library: from changed registers or characters at once; from changed tables, cells or
//! parameters world by world, each alone, and laid over each other; or stored otherwise after the drawing.

mod bits;
mod buffer;
mod layer;
mod memory;
mod names;
mod order;
mod pieces;
mod registers;
mod scene;
mod stage;
mod tables;
#[cfg(test)]
mod tests;
mod window;

pub use bits::Bits;
pub use buffer::Buffer;
pub use memory::Memory;
pub use names::list;
pub use order::Order;
pub use registers::{Character, Register};
pub use scene::Scene;
pub use tables::Table;
pub use window::{Side, Window};

use vb::Drawing;

use self::order::Piece;
use super::Fault;

/// What a fault of the image processor changes.
#[derive(Clone, Debug, PartialEq)]
pub enum Effect {
    /// Nothing: the plain drawing.
    Nothing,
    Table(Table),
    Memory(Memory),
    Register(Register),
    Character(Character),
    Window(Window),
    Order(Order),
    Buffer(Buffer),
    /// An eye starts with shade 0, not with BKCOL.
    BkcolZero {
        eye: usize,
    },
    /// Dots of value 0 are painted, with the palette's lowest two bits.
    Value0Opaque,
}

impl Effect {
    fn memory(&self) -> Option<&Memory> {
        match self {
            Effect::Memory(memory) => Some(memory),
            _ => None,
        }
    }

    /// Whether it changes how a piece is drawn; the tables and the order are changed before.
    fn changes(&self, piece: &Piece) -> bool {
        let Piece::World(worlds) = piece else { return false };
        match self {
            Effect::Memory(memory) => worlds.iter().any(|world| memory.changes(world)),
            Effect::Window(window) => worlds.iter().any(|world| window.changes(world)),
            _ => false,
        }
    }
}

/// Draws frame 0 or 1, both eyes, as a die with this fault does. Another part's fault changes nothing here.
pub fn draw(fault: &Fault, vram: &mut [u8], drawing: &Drawing, frame: u32) {
    let effect = match &fault.effect {
        super::Effect::Picture(effect) => effect,
        super::Effect::Processor(_) => &Effect::Nothing,
    };
    let scene = Scene::new(vram, drawing, frame);
    let after = scene.after(effect).unwrap_or_else(|| scene.plain().to_vec());
    vram.copy_from_slice(&after);
}
