//! K where nobody names it: the largest power of two with which a layout keeps
//! the score that it has with K = 1. The scores are the library's.

use std::fmt;

use crate::ffi::Geometry;

/// The powers of two that a block can have as pages, largest first, but 1.
const TRIED: [u32; 8] = [256, 128, 64, 32, 16, 8, 4, 2];

/// The powers of two that fit a layout as K, largest first: none where the
/// layout does not fit the dump even with K = 1.
pub struct Fitting(Vec<u32>);

impl Fitting {
    /// `score` gives the score of a layout with K, or 0 where it is below the one
    /// that is needed.
    pub fn of(layout: u32, score: impl Fn(Geometry, u32) -> u32) -> Fitting {
        let score = |block, need| score(Geometry { layout, block }, need);
        let most = score(1, 1);
        if most == 0 {
            return Fitting(Vec::new());
        }
        let keeps = |k: &u32| score(*k, most) == most;
        let taken = TRIED.into_iter().find(keeps).unwrap_or(1);
        // where the good pages of every block bear one sequence, those of its
        // halves do: what is smaller fits as well, and need not be gone through
        let fitting = TRIED.into_iter().chain([1]).filter(|&k| k <= taken);
        Fitting(fitting.collect())
    }

    /// The K that is taken: the largest that fits, or 1.
    pub fn taken(&self) -> u32 {
        self.0.first().copied().unwrap_or(1)
    }

    /// The others that fit as well, largest first.
    pub fn others(&self) -> &[u32] {
        self.0.get(1..).unwrap_or_default()
    }
}

impl Fitting {
    /// Which K is taken, which others would fit as well, and that an option names it.
    pub fn sentence(&self, option: &str) -> String {
        let taken = self.taken();
        let others: Vec<String> = self.others().iter().map(u32::to_string).collect();
        let why = match &others[..] {
            [] if self.0.is_empty() => "as too few tags make sense under the layout".to_string(),
            [] => "as no larger power of two fits".to_string(),
            [other] => format!("and {other} would fit as well"),
            [others @ .., last] => {
                format!("and {} and {last} would fit as well", others.join(", "))
            }
        };
        let pages = if taken == 1 { "page" } else { "pages" };
        format!("K is {taken} {pages} a block, {why}; {option} names it")
    }
}

impl fmt::Display for Fitting {
    fn fmt(&self, f: &mut fmt::Formatter<'_>) -> fmt::Result {
        f.write_str(&self.sentence("--block"))
    }
}

#[cfg(test)]
mod tests {
    use super::*;

    /// Stands for the library: how many pages bear the sequence of the first one
    /// of their block, of pages that bear these; 0 is a blank one.
    fn score(sequences: &[u32], block: u32, need: u32) -> u32 {
        if !sequences.len().is_multiple_of(block as usize) {
            return 0;
        }
        let blocks = sequences.chunks(block as usize);
        let bearing = blocks.map(|pages| {
            let good = || pages.iter().filter(|&&sequence| sequence > 0);
            good().filter(|&page| Some(page) == good().next()).count()
        });
        let score = bearing.sum::<usize>() as u32;
        if score < need {
            0
        } else {
            score
        }
    }

    /// The K of pages that were written in blocks of so many, the last one half.
    fn taken_of(block: u32, blocks: u32) -> u32 {
        let page = |page| match page < block * blocks - block / 2 {
            true => 7 + page / block,
            false => 0,
        };
        let sequences: Vec<u32> = (0..block * blocks).map(page).collect();
        let fitting = Fitting::of(3, |on, need| {
            assert_eq!(on.layout, 3);
            score(&sequences, on.block, need)
        });
        fitting.taken()
    }

    #[test]
    fn the_largest_that_keeps_the_score() {
        for block in [2, 4, 8, 16, 32, 64, 128, 256] {
            assert_eq!(taken_of(block, 5), block);
            assert_eq!(taken_of(block, 8), block);
        }
        assert_eq!(taken_of(96, 7), 32, "the largest power of two in 96");
        assert_eq!(taken_of(1, 256), 1);
        assert_eq!(taken_of(512, 3), 256);
    }

    /// One page of another sequence in the last block decides, and a page that
    /// is no good one does not.
    #[test]
    fn one_page_decides() {
        let mut sequences = vec![9; 256];
        let fitting = |sequences: &[u32]| {
            let fitting = Fitting::of(0, |on, need| score(sequences, on.block, need));
            fitting.0
        };
        let all = [256, 128, 64, 32, 16, 8, 4, 2, 1];
        assert_eq!(fitting(&sequences), all);
        sequences[254] = 0;
        assert_eq!(fitting(&sequences), all);
        sequences[255] = 10;
        assert_eq!(fitting(&sequences), [2, 1]);
        sequences[254] = 9;
        assert_eq!(fitting(&sequences), [1]);
        assert!(fitting(&[0; 256]).is_empty(), "nothing scores");
    }

    /// The dump is gone through for no K below the one that is taken.
    #[test]
    fn the_library_is_asked_no_more_than_that() {
        let fits = |on: Geometry, need: u32| match on.block {
            1 | 64 => need.max(5),
            128 | 256 => 0,
            other => panic!("{other} was asked for"),
        };
        assert_eq!(Fitting::of(0, fits).0, [64, 32, 16, 8, 4, 2, 1]);
    }

    #[test]
    fn what_is_said() {
        let said: [(&[u32], &str); 5] = [
            (
                &[64, 32, 4, 1],
                "K is 64 pages a block, and 32, 4 and 1 would fit as well",
            ),
            (
                &[4, 2, 1],
                "K is 4 pages a block, and 2 and 1 would fit as well",
            ),
            (&[2, 1], "K is 2 pages a block, and 1 would fit as well"),
            (&[1], "K is 1 page a block, as no larger power of two fits"),
            (
                &[],
                "K is 1 page a block, as too few tags make sense under the layout",
            ),
        ];
        for (fitting, sentence) in said {
            let sentence = format!("{sentence}; --block names it");
            assert_eq!(Fitting(fitting.to_vec()).to_string(), sentence);
        }
    }
}
