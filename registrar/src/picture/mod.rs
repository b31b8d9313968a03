//! Pictures of plans and of runs, as SVG without scripts, fonts or files from
//! elsewhere. They show what is there, and decide nothing.

mod arrows;
mod bars;
mod heads;
mod label;
mod layout;
mod legend;
mod marks;
pub mod plan;
pub mod svg;
mod timeline;
pub mod width;

pub use plan::plan;
pub use timeline::{banded, timeline};
