//! What pages are shown as: by how they stand, those of the object that is shown, and all
//! others by their kinds.

use std::collections::HashMap;

use crate::ffi::{self, Geometry, KindAnswer, StandingAnswer};
use crate::records::standing_name;
use crate::refusal::kind_name;

/// How pages of an object stand, in the legend's order.
const STANDINGS: [u32; 6] = [
    StandingAnswer::NEWEST_HEADER,
    StandingAnswer::OLDER_HEADER,
    StandingAnswer::HOLDS,
    StandingAnswer::SUPERSEDED,
    StandingAnswer::CUT,
    StandingAnswer::NO_FILE,
];

/// The kinds of pages, in the legend's order.
const KINDS: [u32; 5] = [
    KindAnswer::HEADER,
    KindAnswer::DATA,
    KindAnswer::BLANK,
    KindAnswer::FOREIGN,
    KindAnswer::DAMAGED,
];

const ALL: usize = STANDINGS.len() + KINDS.len();

/// A number from 0 on: first the standings, then the kinds.
#[derive(Clone, Copy, PartialEq, Eq)]
pub struct Class(usize);

impl Class {
    pub fn standings() -> impl Iterator<Item = Class> {
        (0..STANDINGS.len()).map(Class)
    }

    pub fn kinds() -> impl Iterator<Item = Class> {
        (STANDINGS.len()..ALL).map(Class)
    }

    pub fn name(self) -> &'static str {
        match self.0.checked_sub(STANDINGS.len()) {
            None => standing_name(STANDINGS[self.0]),
            Some(kind) => kind_name(KINDS[kind]),
        }
    }

    /// What the style calls it.
    pub fn style(self) -> String {
        self.name().replace(' ', "-")
    }
}

/// Something for each class.
#[derive(Clone, Default)]
pub struct ByClass<T>([T; ALL]);

impl<T> ByClass<T> {
    pub fn of(&self, class: Class) -> &T {
        &self.0[class.0]
    }

    pub fn of_mut(&mut self, class: Class) -> &mut T {
        &mut self.0[class.0]
    }
}

/// How many pages are of each class.
pub type Counts = ByClass<u32>;

impl Counts {
    pub fn add(&mut self, others: &Counts) {
        for (count, other) in self.0.iter_mut().zip(&others.0) {
            *count += other;
        }
    }

    /// The classes that occur, with their counts: the standings first.
    pub fn present(&self) -> Vec<(Class, u32)> {
        let all = Class::standings().chain(Class::kinds());
        let counted = all.map(|class| (class, *self.of(class)));
        counted.filter(|(_, count)| *count > 0).collect()
    }

    /// The classes that a cell shows: of one with pages of the object these alone.
    pub fn telling(&self) -> Vec<(Class, u32)> {
        let mut present = self.present();
        if present.iter().any(|(class, _)| class.0 < STANDINGS.len()) {
            present.retain(|(class, _)| class.0 < STANDINGS.len());
        }
        present
    }
}

/// The pages of a dump, with the standings of one object, if one is shown.
pub struct Pages<'d> {
    pub dump: &'d [u8],
    pub on: Geometry,
    pub standings: HashMap<u32, StandingAnswer>,
}

impl Pages<'_> {
    /// What a page is shown as; one that is of no class here is left out.
    pub fn class(&self, page: u32) -> Option<Class> {
        let (at, first) = match self.standings.get(&page) {
            Some(standing) => (STANDINGS.iter().position(|s| *s == standing.stands), 0),
            None => {
                let kind = ffi::kind(self.dump, self.on, page).kind;
                (KINDS.iter().position(|k| *k == kind), STANDINGS.len())
            }
        };
        at.map(|at| Class(first + at))
    }
}
