//! A second implementation of document 01, by other means than the product:
//! texts are merged, slices are compared and files are cut up by searching.

#![forbid(unsafe_code)]

mod check;
pub mod cut;
pub mod drive;
mod drop;
mod join;
mod lay;
mod lend;
mod list;
mod orders;
mod place;
mod programs;
mod refusal;
mod rules;
mod sheet;

pub use check::{check_ribbon, Checked};
pub use join::overlap;
pub use lay::{lay_ribbon, Laid};
pub use orders::{read_orders, Read};
pub use place::{how_often, way_from, Place, Way};
pub use programs::{check_output, ribbon_of, ribbon_output, sheet_output};
pub use refusal::Refusal;
pub use sheet::{write_sheet, Sheet};
