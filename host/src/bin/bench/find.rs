//! The same finding of the layout in plain Rust. A guess by a few blocks of
//! each candidate says which to try first; the others are left once they
//! cannot win any more.

use super::plain::{claim_of, word, Claim, LAYOUTS};

/// How many blocks of a candidate are looked at for the guess.
const PROBES: usize = 8;

/// The number in the table of the layout that fits best, or 13.
pub fn find(dump: &[u8], k: usize) -> u32 {
    let candidate = |number| Candidate::of(number, dump, k);
    let guess = guess(dump, k);
    let (mut best, mut found) = (0, 0);
    for turn in 0..LAYOUTS.len() {
        let number = match turn {
            0 => guess,
            _ if turn == guess => 0,
            _ => turn,
        };
        let need = if number < found { best } else { best + 1 };
        if let Some(score) = candidate(number).and_then(|candidate| candidate.score(need)) {
            (best, found) = (score, number);
        }
    }
    if best == 0 {
        found = LAYOUTS.len();
    }
    found as u32
}

/// The candidate that scores most in a few blocks.
fn guess(dump: &[u8], k: usize) -> usize {
    let (mut most, mut guess) = (0, 0);
    for number in 0..LAYOUTS.len() {
        let sum = Candidate::of(number, dump, k).map_or(0, |candidate| candidate.probe());
        if sum > most {
            (most, guess) = (sum, number);
        }
    }
    guess
}

/// A layout that divides the dump into whole blocks.
struct Candidate<'d> {
    dump: &'d [u8],
    data: usize,
    tag: usize,
    page: usize,
    k: usize,
}

impl<'d> Candidate<'d> {
    fn of(number: usize, dump: &'d [u8], k: usize) -> Option<Candidate<'d>> {
        let (data, spare, tag) = LAYOUTS[number];
        let page = data + spare;
        dump.len().is_multiple_of(k * page).then_some(Candidate {
            dump,
            data,
            tag,
            page,
            k,
        })
    }

    /// The score in blocks that are spread over the dump.
    fn probe(&self) -> usize {
        let block = self.k * self.page;
        let step = self.dump.len() / block / PROBES * block;
        let scores = (0..PROBES).map(|probe| self.counts(&self.dump[probe * step..][..block]).0);
        scores.sum()
    }

    /// The score, if it is at least `need` and the candidate fits. None as
    /// soon as the pages left cannot bring it there.
    fn score(&self, need: usize) -> Option<usize> {
        let lost = |score, marked, left| score + left < need || 2 * score + left < marked;
        let (mut score, mut marked) = (0, 0);
        let mut left = self.dump.len() / self.page;
        for block in self.dump.chunks_exact(self.k * self.page) {
            if lost(score, marked, left) {
                return None;
            }
            let (bearing, not_blank) = self.counts(block);
            score += bearing;
            marked += not_blank;
            left -= self.k;
        }
        (!lost(score, marked, left)).then_some(score)
    }

    /// How many pages of a block are good and bear the sequence of its first
    /// good one, and how many are not blank. One pass does for both: no page
    /// before the first good one scores.
    fn counts(&self, block: &[u8]) -> (usize, usize) {
        let (mut first, mut score, mut blank) = (0, 0, 0);
        for page in block.chunks_exact(self.page) {
            let tags = &page[self.data + self.tag..][..16];
            let sequence = word(tags, 0);
            let is_good = || {
                let claim = claim_of(tags, sequence, self.data);
                matches!(claim, Claim::Header | Claim::Data)
            };
            if sequence == u32::MAX {
                blank += 1;
            } else if first == 0 {
                if is_good() {
                    (first, score) = (sequence, 1);
                }
            } else if sequence == first && is_good() {
                score += 1;
            }
        }
        (score, self.k - blank)
    }
}
