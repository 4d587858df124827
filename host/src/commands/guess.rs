//! What follows from the layout of a long dump, made of a guess while the layout
//! is found. It counts only if that is the one that is found.

use crate::block::Fitting;
use crate::ffi::{self, Answer as _, Geometry, LayoutAnswer};
use crate::objects::{by_sequence, Started};

/// The dump in so many parts: the guess is the layout of the middle one, which
/// stands behind what a device may begin with. Parts that are no whole pages make
/// it wrong, and only time is lost.
const PARTS: usize = 64;

pub struct Guess {
    pub layout: LayoutAnswer,
    /// Which K fit the whole dump, where none is named.
    pub fitting: Option<Fitting>,
    /// The index of the whole dump.
    pub started: Started,
}

impl Guess {
    /// With K, or with the one that is found; nothing where anything is refused.
    pub fn of(dump: &[u8], k: Option<u32>) -> Option<Guess> {
        let part = dump.len() / PARTS;
        let middle = &dump[PARTS / 2 * part..][..part];
        let layout = ffi::find(middle, 1).given().ok()?;
        let runs = by_sequence(dump, layout.number);
        let fitting = k.is_none().then(|| fitting(dump, layout));
        let on = Geometry {
            layout: layout.number,
            block: k.or(fitting.as_ref().map(Fitting::taken))?,
        };
        Some(Guess {
            layout,
            fitting,
            started: Started::of(dump, on, runs).ok()?,
        })
    }
}

/// Which K fit a dump under a layout.
pub fn fitting(dump: &[u8], layout: LayoutAnswer) -> Fitting {
    Fitting::of(layout.number, |on, need| ffi::score(dump, on, need))
}
