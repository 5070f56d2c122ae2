//! Tests by section of document 01. Expected values stand in document 01 or
//! are worked out by hand from it.

mod chance;
mod common;
mod trials;

mod bands_codes_files;
mod dropping;
mod joining;
mod layouts_that_look_fine;
mod lent_memory;
mod places_and_checking;
mod precedence;
mod properties;
mod refused_files;
mod refused_lists;
mod ribbons_by_hand;
mod the_sheet;
mod the_work;
