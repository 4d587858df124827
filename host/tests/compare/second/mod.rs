//! The second reader. It works out every rule of the documents anew for each
//! call, from the whole dump: all records are collected and sorted, and an
//! index is the set of pages added since the start. What its words hold, and
//! what they say where something else wrote them, it has from docs/CELLS.md.
//!
//! - `layout`: the table of layouts, and the tests of K and of the length.
//! - `page`: tags, page kinds and header fields.
//! - `find`: which layout a dump has.
//! - `records`: the records of a dump and their order.
//! - `rules`: newest, cuts, size, copy, hidden, shown, valid and visits.
//! - `refusal`: the numbers and the order among several.
//! - `cells`: the words of an index on any cells.
//! - `index`: the added pages, and the calls start, add, list and objects.
//! - `recorded`: the records of an object.
//! - `copies`: the shown copies of a file.
//! - `lookup`: size, chunk, read and part.
//! - `table`: the chunks of a file, by the lookup of each.
//! - `whole`: the calls that read the dump whatever was added.
//! - `tree`: paths from the root, and what has none.
//! - `compare`: two dumps, and what differs between them.
//! - `why`: why a byte of a file is what it is.
//! - `stands`: how each record of an object stands.
//! - `history`: what a file was after each of its records.
//! - `script`: requests and their answer lines.
//! - `report`: the ten lines of the report.
//! - `wrong`: rules made wrong on purpose, one at a time.

pub mod cells;
pub mod compare;
pub mod copies;
pub mod find;
pub mod history;
pub mod index;
pub mod layout;
pub mod lookup;
pub mod page;
pub mod recorded;
pub mod records;
pub mod refusal;
pub mod report;
pub mod rules;
pub mod script;
pub mod stands;
pub mod table;
pub mod tree;
pub mod whole;
pub mod why;
pub mod wrong;

#[cfg(test)]
mod tests;
