//! Tests by request of document 02. Expected values stand in document 02 or
//! are worked out by hand from it.

#[path = "../document_01/chance.rs"]
#[allow(dead_code)]
mod chance;
#[path = "../document_01/common.rs"]
#[allow(dead_code)]
mod common;

mod m101_how_often;
mod m103_either;
mod m105_one_pass;
mod m112_number_14;
mod starts;
