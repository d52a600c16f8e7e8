//! What the differential tests share: a generator of random numbers, machines
//! held twice, bus accesses and steps made on both, sets of broken conditions,
//! random programs and pictures, and conversions between the library's records and the model's.

pub mod access;
pub mod broken;
#[cfg(target_os = "linux")]
pub mod fence;
pub mod machine;
pub mod program;
pub mod random;
pub mod scene;
pub mod state;
pub mod twin;
