//! Pictures: drawn, compared, and explained pixel by pixel.

pub mod brightness;
pub mod difference;
pub mod explain;
pub mod picture;
pub mod sources;
pub mod views;
