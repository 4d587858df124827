//! The numbered refusals, and which of several is given.

use super::wrong::Wrong;

/// A refusal by its number.
#[derive(Clone, Copy, Debug, PartialEq, Eq)]
pub enum Refusal {
    BadLayout = 1,
    BadLength = 2,
    NoLayout = 3,
    BadObject = 4,
    BadChunk = 5,
    NoObject = 6,
    NoHeader = 7,
    Deleted = 8,
    NotAFile = 9,
    PastEnd = 10,
    ShortBuffer = 11,
    ShortIndex = 12,
    IndexDamaged = 13,
    BadPage = 14,
    AlreadyAdded = 15,
    NotHeader = 16,
}

use Refusal::*;

/// The order in which refusals are given where several apply.
const ORDER: [Refusal; 16] = [
    BadLayout,
    BadLength,
    NoLayout,
    ShortIndex,
    BadPage,
    NotHeader,
    BadObject,
    BadChunk,
    IndexDamaged,
    AlreadyAdded,
    NoObject,
    NoHeader,
    Deleted,
    NotAFile,
    PastEnd,
    ShortBuffer,
];

/// Of the refusals that apply, the one the order gives.
pub fn refuse(tests: &[(Refusal, bool)], wrong: Wrong) -> Result<(), Refusal> {
    let mut order = ORDER;
    let mut swap = |one, other| {
        let place = |refusal| ORDER.iter().position(|&r| r == refusal).unwrap();
        order.swap(place(one), place(other));
    };
    match wrong {
        Wrong::ShortBufferBeforePastEnd => swap(PastEnd, ShortBuffer),
        Wrong::BadChunkBeforeBadObject => swap(BadObject, BadChunk),
        Wrong::BadPageBeforeShortIndex => swap(ShortIndex, BadPage),
        Wrong::BadObjectBeforeBadPage => swap(BadPage, BadObject),
        Wrong::BadLengthBeforeBadLayout => swap(BadLayout, BadLength),
        Wrong::AlreadyAddedBeforeDamaged => swap(IndexDamaged, AlreadyAdded),
        Wrong::NotAFileBeforeDeleted => swap(Deleted, NotAFile),
        _ => {}
    }
    match order.iter().find(|&&r| tests.contains(&(r, true))) {
        Some(&refusal) => Err(refusal),
        None => Ok(()),
    }
}
