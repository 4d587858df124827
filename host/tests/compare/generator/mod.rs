//! Dumps and requests made from a seed, to compare readers on. Equal seeds
//! give equal cases.
//!
//! - `rng`: the numbers.
//! - `build`: pages put together from tags and header fields.
//! - `shelf`: the shelf dump W.
//! - `dump`: dumps that crowd the edges of the rules.
//! - `rewritten`: dumps of files that are cut and grow again.
//! - `shrunk`: dumps of a file that is cut inside its chunks.
//! - `trees`: dumps of directories, loops and what has no path.
//! - `pairs`: two dumps to be compared.
//! - `controller`, `night`: a controller that writes pages, and what it does.
//! - `decoy`: tags of other layouts, and lengths that fit none.
//! - `pages`: its pages, of each kind.
//! - `arguments`: what a request asks for.
//! - `requests`: lists of requests to one dump, refused ones among them.
//! - `foreign`: the same on cells that something else wrote.

mod arguments;
pub mod build;
mod controller;
mod decoy;
pub mod dump;
mod foreign;
mod night;
mod pages;
pub mod pairs;
pub mod requests;
mod rewritten;
pub mod rng;
pub mod shelf;
mod shrunk;
mod trees;

#[cfg(test)]
mod tests;

use std::collections::BTreeSet;

use crate::second::index::Reader;
use crate::second::script::{answer, index_words, Answer, Request};
use crate::second::wrong::Wrong;
use dump::Dump;
use rng::Rng;

/// A dump and the requests to put to it, in this order.
pub struct Case {
    pub seed: u64,
    pub dump: Dump,
    pub requests: Vec<Request>,
}

/// Of so many seeds two make a dump of files that are written over and over, two a
/// tree, and one a file that is cut inside its chunks.
const SORTS: u64 = 12;

/// The case of a seed.
pub fn case(seed: u64) -> Case {
    let mut rng = Rng::new(seed);
    let dump = match seed % SORTS {
        0 | 6 => rewritten::dump(&mut rng),
        3 | 9 => trees::dump(&mut rng),
        4 => shrunk::dump(&mut rng),
        _ => dump::dump(&mut rng),
    };
    let requests = requests::requests(&mut rng, &dump);
    Case {
        seed,
        dump,
        requests,
    }
}

impl Case {
    /// The second reader, under one wrong rule or none.
    pub fn reader(&self, wrong: Wrong) -> Reader<'_> {
        Reader::lent(&self.dump.bytes, index_words(&self.requests), wrong)
    }

    /// Its answers, each with the index words as the call left them.
    pub fn answers(&self, wrong: Wrong) -> impl Iterator<Item = (Answer, Vec<u32>)> + '_ {
        let mut reader = self.reader(wrong);
        let requests = self.requests.iter();
        requests.map(move |r| (answer(&mut reader, r), reader.words.clone()))
    }

    /// The values of K that it asks to find the layout with.
    pub fn finds(&self) -> BTreeSet<u64> {
        let finds = self.requests.iter().filter_map(|request| match *request {
            Request::Find { k } => Some(k),
            _ => None,
        });
        finds.collect()
    }

    /// The requests as a script, to be replayed by hand.
    pub fn script(&self) -> String {
        let lines = self.requests.iter().map(|request| format!("{request}\n"));
        lines.collect()
    }
}
