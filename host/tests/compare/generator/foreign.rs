//! Requests on cells that something else wrote: words filled, forged chains,
//! and single words poked after additions.

use super::arguments::Asker;
use crate::second::cells::{first_of, key_of, link_of, link_to, mixed, need, slots, SEED};
use crate::second::index::{Lent, Over};
use crate::second::layout::Layout;
use crate::second::page::LAST_OBJECT;
use crate::second::records::records;
use crate::second::script::Request;
use crate::second::wrong::Wrong;

/// Dumps of more pages get no word of their own for every cell.
const FEW: usize = 40;

impl Asker<'_> {
    /// Some cells, and calls on them; a dump that cannot be started gets none.
    pub fn foreign_calls(&mut self) {
        let lent = self.exactly_lent();
        if self.refused(lent) {
            return;
        }
        let (layout, pages) = (self.dump.layout, self.pages() as usize);
        let noise = self.rng.word();
        match self.rng.below(10) {
            0 => {
                let words = [0, 1, 2, 3, u32::MAX, u32::MAX, 0x0101_0101, noise];
                let word = self.rng.pick(&words);
                self.fill(word);
            }
            1 if pages <= FEW => (0..need(pages)).for_each(|at| self.noise(at, pages)),
            1..=4 => {
                self.fill(0);
                self.forge_chains(layout, pages);
            }
            part => {
                self.start_with(lent);
                self.additions(layout, pages);
                if part == 5 {
                    self.forge_chains(layout, pages);
                }
            }
        }
        for _ in 0..self.rng.between(3, 8) {
            for _ in 0..self.rng.below(4) {
                self.poke_somewhere(pages);
            }
            for _ in 0..self.rng.between(2, 6) {
                self.foreign_call();
            }
        }
        self.list.push(Request::List {
            over: Over::Index(lent),
            buffer: self.dump.ids.len() + 1,
        });
    }

    /// The dump's own layout and K, and just as many words as it needs.
    fn exactly_lent(&mut self) -> Lent {
        Lent {
            layout: self.named(self.dump.layout),
            k: self.dump.k,
            words: self.need(self.dump.layout),
        }
    }

    /// An addition, or a lookup or listing; sometimes under another layout or
    /// with too few words.
    fn foreign_call(&mut self) {
        let layout = self.any_layout();
        let words = self.words(layout.layout().unwrap_or(self.dump.layout));
        let lent = Lent {
            layout,
            k: self.k(),
            words,
        };
        match self.rng.below(100) {
            0..=29 => {
                let page = self.page();
                self.list.push(Request::Add { lent, page });
            }
            30..=34 => self.older(lent),
            _ => self.lookup(Over::Index(lent)),
        }
    }

    pub fn fill(&mut self, word: u32) {
        self.seed = word;
        self.list.push(Request::Fill { word });
    }

    fn poke(&mut self, at: usize, word: u32) {
        if at == SEED {
            self.seed = word;
        }
        self.list.push(Request::Poke { at, word });
    }

    /// A word of noise: mostly one that is small enough to lead somewhere.
    fn noise(&mut self, at: usize, pages: usize) {
        let small = self.rng.below(pages as u64 + 4) as u32;
        let word = match self.rng.chance(80) {
            true => small,
            false => self.rng.word(),
        };
        self.poke(at, word);
    }

    /// A link: to any page, past the last one, or to none.
    fn any_link(&mut self, pages: usize) -> u32 {
        let any = self.rng.word();
        match self.rng.below(6) {
            0 => self.rng.pick(&[0, 1]),
            1 => self
                .rng
                .pick(&[link_to(pages), link_to(pages) + 1, u32::MAX, any]),
            _ => link_to(self.rng.below(pages as u64) as usize),
        }
    }

    /// A key: an object's of the dump, none, or one that no object has.
    fn any_key(&mut self) -> u32 {
        let known = self.rng.pick(&self.dump.ids) as u32;
        let high = LAST_OBJECT as u32 + 1;
        match self.rng.below(8) {
            0 => 0,
            1 => self.rng.pick(&[high, high | known, u32::MAX]),
            2 => self.rng.word(),
            _ => known,
        }
    }

    /// Overwrites one word that our calls may have left.
    fn poke_somewhere(&mut self, pages: usize) {
        let page = self.rng.below(pages as u64) as usize;
        let slot = self.slot_of_some_object(pages);
        match self.rng.below(40) {
            0 => {
                let seed = self.any_seed();
                self.poke(SEED, seed);
            }
            1..=15 => {
                let link = self.any_link(pages);
                self.poke(link_of(page), link);
            }
            16..=19 => self.poke(link_of(page), link_to(page)),
            20..=23 => self.poke(link_of(page), 0),
            24..=31 => {
                let link = self.any_link(pages);
                self.poke(first_of(slot), link);
            }
            32..=35 => {
                let key = self.any_key();
                self.poke(key_of(slot), key);
            }
            _ => {
                let at = self.rng.below(need(pages) as u64) as usize;
                self.noise(at, pages);
            }
        }
    }

    /// The home of an object of the dump, or a slot close by.
    fn slot_of_some_object(&mut self, pages: usize) -> usize {
        let id = self.rng.pick(&self.dump.ids);
        let home = self.home(id, pages) + slots(pages);
        (home - self.rng.pick(&[0, 0, 0, 1])) % slots(pages)
    }

    /// The home of an object.
    fn home(&self, id: u64, pages: usize) -> usize {
        let number = mixed(self.seed, id as u32, Wrong::None);
        (number % slots(pages) as u64) as usize
    }

    /// Chains of some objects as nobody added them: part of the records, now
    /// and then two in the wrong order, and any end.
    fn forge_chains(&mut self, layout: Layout, pages: usize) {
        let all = records(&self.dump.bytes, layout, &vec![true; pages], Wrong::None);
        for id in self.dump.ids.clone() {
            let mut chain: Vec<usize> = Vec::new();
            let own = all.iter().rev().filter(|r| u64::from(r.object) == id);
            for record in own {
                if self.rng.chance(85) {
                    chain.push(record.page);
                }
            }
            if chain.len() > 1 && self.rng.chance(25) {
                let place = self.rng.below(chain.len() as u64 - 1) as usize;
                chain.swap(place, place + 1);
            }
            let slot = self.home(id, pages);
            self.poke(key_of(slot), id as u32);
            let mut at = first_of(slot);
            for page in chain {
                self.poke(at, link_to(page));
                at = link_of(page);
            }
            let end = match self.rng.chance(60) {
                true => self.rng.pick(&[0, 1]),
                false => self.any_link(pages),
            };
            self.poke(at, end);
        }
    }
}
