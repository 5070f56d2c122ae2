//! Tests by what a run goes through; expected values are worked out by hand.

mod fields;
mod lines;
mod made;
mod remarks;
mod texts;
