//! An independent model of the console, written from the specification alone.
//!
//! It shares no code and no definition with the proved library; the
//! differential tests hold the two against each other. Signed quantities are
//! signed integers, and each formula stands as the paper prints it.
//!
//! "01" is the build specification, "000" the Scroll, "001" the measurements,
//! and R1 to R8 are the rulings on the places where they differ
//! (docs/DECISIONS.md).
//!
//! Three layers: [`bus`], [`processor`] over it, and [`drawing`] over the caller's VRAM.
//! [`hardware`] has the request lines and the timer; [`answers`] explains a drawn
//! pixel.

pub mod access_list;
pub mod answers;
pub mod arithmetic;
pub mod background;
pub mod boundary;
pub mod bus;
pub mod character;
pub mod deviation;
pub mod display;
pub mod drawing;
pub mod encoding;
pub mod exception;
pub mod floating;
pub mod hardware;
pub mod instruction;
pub mod number;
pub mod object;
pub mod probe;
pub mod processor;
pub mod refusal;
pub mod replay;
pub mod salvage;
pub mod saved;
pub mod world;

pub use bus::{DrawingRegisters, Loaded, Memories, ReadMemories};
pub use exception::Cause;
pub use hardware::Hardware;
pub use processor::{Mode, Processor, Ran, StepAnswer, Stepped, Undefined};
pub use refusal::Refusal;
