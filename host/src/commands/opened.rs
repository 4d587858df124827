//! A dump with its layout and K, and what a refusal means for whoever asked.

use std::cell::Cell;

use crate::arguments::{Block, On, Past, Source};
use crate::block::Fitting;
use crate::dump::Dump;
use crate::failure::Failure;
use crate::ffi::{self, Answer as _, Geometry, KindAnswer, LayoutAnswer};
use crate::objects::{by_sequence, Objects, Started};
use crate::paths::Named;
use crate::progress::Progress;
use crate::reasons::Reasons;
use crate::refusal::{kind_name, meaning, Asked};
use crate::standard::say;
use crate::tree::Tree;
use crate::typed::Typed;

use super::guess::{self, Guess};

/// A dump that its layout and K divide, each of which was named or found.
pub struct Opened {
    pub dump: Dump,
    pub layout: LayoutAnswer,
    pub block: Typed,
    pub pages: u32,
    /// Which K fit, where none was named.
    pub fitting: Option<Fitting>,
    /// The layout, where it was named.
    pub named: Option<Typed>,
    /// The page of the record before which the dump is read.
    before: Option<Typed>,
    started: Cell<Option<Started>>,
}

impl Opened {
    pub fn on(on: &On) -> Result<Opened, Failure> {
        Opened::open(&on.source, on.layout.as_ref(), &on.block)
    }

    /// Fails where the dump is to be read before what is no record.
    pub fn past(past: &Past) -> Result<Opened, Failure> {
        let mut opened = Opened::on(&past.on)?;
        if let Some(page) = &past.before {
            opened.check_record(page)?;
            opened.before = Some(page.clone());
        }
        Ok(opened)
    }

    /// What was taken as K is said once nothing is refused.
    pub fn open(source: &Source, named: Option<&Typed>, block: &Block) -> Result<Opened, Failure> {
        let opened = Opened::tried(source, named, block.block.as_ref())?;
        if let Some(fitting) = &opened.fitting {
            say(&format!("lohenarr: {fitting}"));
        }
        Ok(opened)
    }

    /// Where K is not named, the layout is found with K = 1, and then K.
    pub fn tried(
        source: &Source,
        named: Option<&Typed>,
        block: Option<&Typed>,
    ) -> Result<Opened, Failure> {
        let dump = Dump::open(&source.dump, source.copy).map_err(Failure::File)?;
        let first = block.cloned().unwrap_or_else(|| Typed::from(1));
        let k = block.map(|typed| typed.number);
        let (answer, guess) = match named {
            Some(named) => (ffi::layout(named.number), None),
            None => found(&dump, k),
        };
        let layout = done(&dump, answer.given(), Asked::dump(&dump, named, &first))?;
        let (fitting, started) = match guess.filter(|guess| guess.layout == layout) {
            Some(guess) => (guess.fitting, Some(guess.started)),
            None => (k.is_none().then(|| fitting(&dump, layout)), None),
        };
        let mut opened = Opened {
            dump,
            layout,
            block: fitting.as_ref().map_or(first, |f| f.taken().into()),
            pages: 0,
            fitting,
            named: named.cloned(),
            before: None,
            started: Cell::new(started),
        };
        let pages = ffi::pages(&opened.dump, opened.geometry());
        opened.pages = opened.given(pages, opened.asked())?.pages;
        Ok(opened)
    }

    /// The layout with K.
    pub fn geometry(&self) -> Geometry {
        Geometry {
            layout: self.layout.number,
            block: self.block.number,
        }
    }

    fn check_record(&self, page: &Typed) -> Result<(), Failure> {
        let asked = Asked {
            page,
            ..self.asked()
        };
        let kind = ffi::kind(&self.dump, self.geometry(), page.number);
        match self.given(kind, asked)?.kind {
            KindAnswer::HEADER | KindAnswer::DATA => Ok(()),
            kind => {
                let kind = kind_name(kind);
                let no_record =
                    format!("--before wants the page of a record; page {page} is {kind}");
                Err(Failure::Usage(no_record))
            }
        }
    }

    /// The objects, and what is asked of this dump.
    pub fn objects(&self) -> Result<(Objects<'_>, Asked<'_>), Failure> {
        let asked = self.asked();
        let progress = Progress::new("adding pages", Some(self.pages.into()));
        let told = |pages: u32| progress.add(pages.into());
        let on = self.geometry();
        let started = match self.started.take() {
            Some(started) => Ok(started),
            None => Started::of(&self.dump, on, by_sequence(&self.dump, on.layout)),
        };
        let before = self.before();
        let objects = started.and_then(|s| Objects::telling(&self.dump, on, s, before, told));
        Ok((self.done(objects, asked)?, asked))
    }

    /// The reasons of this dump, by the dump alone.
    pub fn reasons(&self) -> Reasons<'_> {
        Reasons {
            dump: &self.dump,
            on: self.geometry(),
            before: self.before(),
        }
    }

    /// The tree of this dump, by the dump alone.
    pub fn tree(&self) -> Result<Tree<'_>, Failure> {
        let _progress = Progress::new("going over the pages", None);
        let tree = Tree::of(&self.dump, self.geometry(), self.before());
        self.done(tree, self.asked())
    }

    /// An object that was typed, by its id: that of a path is asked of the tree.
    pub fn object(&self, named: &Named) -> Result<Typed, Failure> {
        let path = match named {
            Named::Id(id) => return Ok(id.clone()),
            Named::Path(path) => path,
        };
        let object = path.object(&self.tree()?);
        object.map(Typed::from).map_err(|[why, next]| {
            Failure::Path(match &self.before {
                Some(page) => format!("{why}, as the dump stood before page {page}{next}"),
                None => why + &next,
            })
        })
    }

    /// The page of the record before which the dump is read.
    pub fn before(&self) -> Option<u32> {
        self.before.as_ref().map(|page| page.number)
    }

    /// What is asked of this dump.
    pub fn asked(&self) -> Asked<'_> {
        Asked {
            layout: Some(self.layout),
            before: self.before.as_ref(),
            ..Asked::dump(&self.dump, self.named.as_ref(), &self.block)
        }
    }

    /// The library's answer, or the refusal with what it means here.
    pub fn given<A: ffi::Answer>(&self, answer: A, asked: Asked<'_>) -> Result<A, Failure> {
        self.done(answer.given(), asked)
    }

    /// What was done, or the refusal with what it means here.
    pub fn done<T>(&self, answer: Result<T, u32>, asked: Asked<'_>) -> Result<T, Failure> {
        done(&self.dump, answer, asked)
    }

    /// Fails where not all of the dump was there to be read.
    pub fn check_length(&self) -> Result<(), Failure> {
        self.dump.check_length().map_err(Failure::File)
    }
}

/// The layout of a dump in blocks of K pages, or of one where K is to be found; and
/// what a second thread made meanwhile of a guess.
fn found(dump: &Dump, k: Option<u32>) -> (LayoutAnswer, Option<Guess>) {
    let _progress = Progress::new("finding the layout", None);
    let bytes: &[u8] = dump;
    let find = || ffi::find(bytes, k.unwrap_or(1));
    let (answer, guess) = dump.beside(find, || Guess::of(bytes, k));
    (answer, guess.flatten())
}

/// Which K fit a dump under a layout.
fn fitting(dump: &Dump, layout: LayoutAnswer) -> Fitting {
    let _progress = Progress::new("finding K", None);
    guess::fitting(dump, layout)
}

/// What was done on a dump, if all of it was there, or the refusal with what it
/// means here.
fn done<T>(dump: &Dump, answer: Result<T, u32>, asked: Asked<'_>) -> Result<T, Failure> {
    dump.check_length().map_err(Failure::File)?;
    answer.map_err(|number| Failure::Refused(number, meaning(number, asked)))
}
