//! The command `lohenarr`: it maps a dump read-only, lends the memory to the
//! proved library, and prints what that answers. No rule about dumps is
//! decided here.
//!
//! - `ffi`: the library's calls, declared and wrapped.
//! - `dump`: a dump as a slice of bytes.
//! - `second`: a second thread on a long dump.
//! - `arguments`, `typed`, `usage`: what was typed, and what is wrong with it.
//! - `paths`: objects by an id or by a path.
//! - `block`: K where nobody names it.
//! - `refusal`: the names of the refusals, and what each means.
//! - `looks`: what a file looks like that is no dump.
//! - `failure`: why a command ends without its answer.
//! - `objects`: the objects of a dump and their chunks, as the commands ask for them.
//! - `table`: the chunks of a file and its bytes.
//! - `tree`: the live objects with their paths.
//! - `compare`: two dumps, object by object.
//! - `reasons`, `because`: why bytes of a file are what they are.
//! - `records`: how the records of an object stand.
//! - `rules`: the rules of the paper by their numbers.
//! - `sums`: SHA-256.
//! - `export`: a folder with the live files and directories.
//! - `fields`: answers as lines or as JSON.
//! - `commands`: a file for each command.
//! - `script`: the requests of a script and their answers.
//! - `writing`: the bytes of a file, written.
//! - `new_file`, `new_folder`: what appears under its name once it is whole.
//! - `folder`: a folder by its handle.
//! - `progress`: how far a command is.
//! - `signals`, `standard`: signals, and standard input and output.
//!
//! `unsafe` is in `ffi`, `dump`, `folder`, `second`, `signals` and `standard` alone. Each
//! block says why it is sound, and clippy refuses one that does not.

pub mod arguments;
mod because;
pub mod block;
pub mod commands;
pub mod compare;
pub mod dump;
mod export;
pub mod failure;
pub mod ffi;
pub mod fields;
mod folder;
mod looks;
mod new_file;
mod new_folder;
pub mod objects;
pub mod paths;
mod progress;
pub mod reasons;
pub mod records;
pub mod refusal;
mod rules;
pub mod script;
mod second;
pub mod signals;
pub mod standard;
mod sums;
pub mod table;
pub mod tree;
mod typed;
pub mod usage;
mod writing;
