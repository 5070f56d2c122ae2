//! For the commands beside the library: one of the product's programs is run
//! on an input, and what it does is held against what the library gives.

pub mod chance;
pub mod files;
pub mod outcomes;
pub mod programs;
pub mod run;
