//! Finding the layout of a dump.

use super::layout::{bad_block, bad_length, broken_block, table, Layout};
use super::page::{kind, tags, Kind};
use super::refusal::{refuse, Refusal};
use super::wrong::Wrong;

/// The layout of a dump with blocks of K pages, or refusal 1, 2 or 3.
pub fn find(dump: &[u8], k: u64, wrong: Wrong) -> Result<Layout, Refusal> {
    let length = dump.len() as u64;
    let tests = [
        (Refusal::BadLayout, bad_block(k, wrong)),
        (Refusal::BadLength, bad_length(length)),
    ];
    refuse(&tests, wrong)?;
    let mut candidates: Vec<Candidate> = candidates(wrong)
        .into_iter()
        .filter(|&layout| !broken_block(layout, k, length, wrong))
        .map(|layout| Candidate::of(dump, layout, k, wrong))
        .collect();
    if wrong != Wrong::HighestChosenBeforeFit {
        candidates.retain(|candidate| candidate.fits(wrong));
    }
    let highest = highest(&candidates, wrong).filter(|candidate| candidate.fits(wrong));
    highest
        .map(|candidate| candidate.layout)
        .ok_or(Refusal::NoLayout)
}

/// The score of a layout with blocks of K pages, if it fits; 0 where it does not,
/// or where a dump of this length has no such blocks.
pub fn score(dump: &[u8], layout: Layout, k: u64, wrong: Wrong) -> usize {
    let length = dump.len() as u64;
    if bad_block(k, wrong) || bad_length(length) || broken_block(layout, k, length, wrong) {
        return 0;
    }
    let candidate = Candidate::of(dump, layout, k, wrong);
    match candidate.fits(wrong) {
        true => candidate.score(),
        false => 0,
    }
}

/// The candidate with the highest score, and of several the first.
fn highest(candidates: &[Candidate], wrong: Wrong) -> Option<&Candidate> {
    let highest = candidates.iter().map(|c| c.rank(wrong)).max();
    let mut best = candidates.iter().filter(|c| Some(c.rank(wrong)) == highest);
    match wrong {
        Wrong::LastBestWins => best.next_back(),
        Wrong::ClearWinnerNeeded if best.clone().count() > 1 => None,
        _ => best.next(),
    }
}

/// The candidates, in the order of the table.
fn candidates(wrong: Wrong) -> Vec<Layout> {
    let mut candidates = table();
    match wrong {
        Wrong::CandidatesByOffset => candidates.sort_by_key(|layout| layout.tag),
        Wrong::CandidatesBySize => candidates.sort_by_key(|layout| layout.data),
        _ => {}
    }
    candidates
}

/// A candidate, and of each of its blocks the part of the score and how many
/// pages are not blank.
struct Candidate {
    layout: Layout,
    scores: Vec<usize>,
    not_blank: Vec<usize>,
}

impl Candidate {
    fn of(dump: &[u8], layout: Layout, k: u64, wrong: Wrong) -> Candidate {
        let pages: Vec<usize> = (0..dump.len() / layout.page()).collect();
        let k = if wrong == Wrong::BlockIgnored { 1 } else { k };
        let blocks = || pages.chunks(k as usize);
        let is_marked = |&&page: &&usize| match wrong {
            Wrong::BlankCountedNotBlank => true,
            _ => !tags(dump, layout, page).blank(),
        };
        Candidate {
            layout,
            scores: blocks()
                .map(|b| block_score(dump, layout, b, wrong))
                .collect(),
            not_blank: blocks()
                .map(|b| b.iter().filter(is_marked).count())
                .collect(),
        }
    }

    /// The score: of all good pages, those that bear the sequence of their block.
    fn score(&self) -> usize {
        self.scores.iter().sum()
    }

    /// Whether the score is at least one, and at least half of all pages that
    /// are not blank.
    fn fits(&self, wrong: Wrong) -> bool {
        let blocks = self.scores.len();
        let half = match wrong {
            Wrong::HalfNotNeeded => true,
            Wrong::HalfNeededThroughout => (1..=blocks).all(|end| self.half(end, end, wrong)),
            Wrong::LastBlockNotCounted => self.half(blocks, blocks - 1, wrong),
            _ => self.half(blocks, blocks, wrong),
        };
        self.score() >= 1 && half
    }

    /// Whether the score of so many blocks is at least half of the pages that
    /// are not blank in so many.
    fn half(&self, scored: usize, counted: usize, wrong: Wrong) -> bool {
        let score: usize = self.scores[..scored].iter().sum();
        let not_blank: usize = self.not_blank[..counted].iter().sum();
        match wrong {
            Wrong::MoreThanHalfNeeded => 2 * score > not_blank,
            _ => 2 * score >= not_blank,
        }
    }

    /// What decides between candidates: the score.
    fn rank(&self, wrong: Wrong) -> [usize; 2] {
        let half = self.scores.len().div_ceil(2);
        match wrong {
            Wrong::FirstFitWins => [0, 0],
            Wrong::FirstHalfRanks => [self.scores[..half].iter().sum(), 0],
            Wrong::TiesByFirstBlock => [self.score(), self.scores[0]],
            _ => [self.score(), 0],
        }
    }
}

/// A block's part of the score: the sequence is that of its first good page.
fn block_score(dump: &[u8], layout: Layout, block: &[usize], wrong: Wrong) -> usize {
    let good: Vec<usize> = block
        .iter()
        .copied()
        .filter(|&page| good(dump, layout, page, wrong))
        .collect();
    let giver = match wrong {
        Wrong::BlockSequenceOfLastGood => good.last(),
        Wrong::BlockSequenceOfFirstPage => block.first(),
        _ => good.first(),
    };
    let Some(&giver) = giver else {
        return 0;
    };
    let sequence = |page| tags(dump, layout, page).sequence;
    let bearing = good
        .iter()
        .filter(|&&page| sequence(page) == sequence(giver))
        .count();
    match wrong {
        Wrong::PagesBeforeFirstGoodScore => bearing + (giver - block[0]),
        _ => bearing,
    }
}

/// Whether a page is good for this candidate, by its tags alone.
fn good(dump: &[u8], layout: Layout, page: usize, wrong: Wrong) -> bool {
    if wrong == Wrong::FindReadsTypes {
        return matches!(kind(dump, layout, page, wrong), Kind::Record(_));
    }
    let tags = tags(dump, layout, page);
    !tags.blank() && !tags.foreign(wrong) && !tags.damaged(layout, wrong)
}
