//! Dumps of trees: directories above each other, loops, and objects whose parents
//! lead nowhere, under names of every sort. Most objects have one header that
//! decides, and some an older one that says otherwise.

use super::build::Builder;
use super::dump::Dump;
use super::rng::Rng;
use crate::second::layout::{table, Layout};

const FILE: u32 = 1;
const DIRECTORY: u32 = 3;
const ROOT: u32 = 1;

/// Sequences of the headers that decide, and of those that do not.
const NEWEST: u32 = 0x2000;
const OLDER: u32 = 0x1000;

/// What a header says.
#[derive(Clone, Copy)]
struct Header {
    id: u32,
    file_type: u32,
    parent: u32,
}

/// The objects of a dump in the making.
struct Forest<'r> {
    rng: &'r mut Rng,
    /// Ids that no object has yet.
    free: Vec<u32>,
    /// Live directories, whether they have a path or not.
    directories: Vec<u32>,
    headers: Vec<Header>,
    older: Vec<Header>,
    /// Ids that have data pages.
    data: Vec<u32>,
}

/// A random dump of that sort.
pub fn dump(rng: &mut Rng) -> Dump {
    let (layout, shapes) = match rng.below(10) {
        0 => (rng.pick(&table()), 2),
        1..=3 => (pick_of(rng, 2048), 4),
        _ => (pick_of(rng, 512), 5),
    };
    let large = layout.data > 2048;
    let mut forest = Forest::new(rng);
    forest.root();
    for _ in 0..forest.rng.between(1, shapes) {
        forest.shape(large);
    }
    forest.rename();
    let (headers, older, data) = (forest.headers, forest.older, forest.data);
    let k = rng.pick(&[1, 1, 2, 4, 8]);
    let used = headers.len() + older.len() + data.len();
    let pages = used.next_multiple_of(k as usize);
    let mut ids: Vec<u64> = headers.iter().map(|header| header.id.into()).collect();
    ids.extend(data.iter().map(|&id| u64::from(id)));
    ids.sort_unstable();
    ids.dedup();
    rng.shuffle(&mut ids);
    let mut places: Vec<usize> = (0..pages).collect();
    if rng.chance(80) {
        rng.shuffle(&mut places);
    }
    let mut builder = Builder::new(layout, pages);
    let mut places = places.into_iter();
    for (first, headers) in [(OLDER, older), (NEWEST, headers)] {
        for (header, page) in headers.into_iter().zip(&mut places) {
            let sequence = first + rng.below(4) as u32;
            header_page(rng, &mut builder, page, sequence, header);
        }
    }
    for (id, page) in data.into_iter().zip(places) {
        rng.fill(builder.data(page));
        let sequence = rng.pick(&[OLDER, NEWEST]) + rng.below(4) as u32;
        let chunk = rng.between(1, 2) as u32;
        builder.tags(page, [sequence, id, chunk, layout.data as u32 / 2]);
    }
    Dump {
        bytes: builder.bytes,
        layout,
        k,
        calm: true,
        ids,
        span: 2,
        lengths: vec![layout.data as u64 / 2],
    }
}

/// A layout with so many data bytes.
fn pick_of(rng: &mut Rng, data: usize) -> Layout {
    let mut layouts = table();
    layouts.retain(|layout| layout.data == data);
    rng.pick(&layouts)
}

impl<'r> Forest<'r> {
    fn new(rng: &'r mut Rng) -> Forest<'r> {
        let mut free: Vec<u32> = (5..=300).collect();
        rng.shuffle(&mut free);
        // taken from the end
        free.extend([2, 3, 4, 0x0FFF_FFFF, 0x0FFF_FFFE]);
        let from = free.len() - 12;
        rng.shuffle(&mut free[from..]);
        Forest {
            rng,
            free,
            directories: vec![ROOT],
            headers: Vec::new(),
            older: Vec::new(),
            data: Vec::new(),
        }
    }

    fn fresh(&mut self) -> u32 {
        self.free.pop().unwrap_or(0x0ABC_DEF0)
    }

    /// An id that can be a parent: what stands under 3 and 4 is gone.
    fn fresh_above(&mut self) -> u32 {
        loop {
            let id = self.fresh();
            if id != 3 && id != 4 {
                return id;
            }
        }
    }

    /// A header of a new object.
    fn add(&mut self, file_type: u32, parent: u32) -> u32 {
        let id = self.fresh();
        self.put(Header {
            id,
            file_type,
            parent,
        });
        id
    }

    /// The same of one that can be a parent.
    fn add_above(&mut self, file_type: u32, parent: u32) -> u32 {
        loop {
            let id = self.add(file_type, parent);
            if id != 3 && id != 4 {
                return id;
            }
        }
    }

    fn put(&mut self, header: Header) {
        self.headers.push(header);
        let live = header.parent != 3 && header.parent != 4;
        if header.file_type == DIRECTORY && live && header.id != 3 && header.id != 4 {
            self.directories.push(header.id);
        }
    }

    /// The root or a directory, perhaps one without a path.
    fn directory(&mut self) -> u32 {
        match self.rng.chance(40) {
            true => ROOT,
            false => self.rng.pick(&self.directories),
        }
    }

    /// A type: mostly of a file or a directory.
    fn file_type(&mut self) -> u32 {
        let any = self.rng.between(1, 5) as u32;
        self.rng.pick(&[FILE, FILE, DIRECTORY, DIRECTORY, any])
    }

    /// Object 1 mostly has no header, and else one that may say anything.
    fn root(&mut self) {
        if self.rng.chance(50) {
            return;
        }
        let any = self.rng.between(1, 5) as u32;
        let file_type = self.rng.pick(&[DIRECTORY, DIRECTORY, DIRECTORY, FILE, any]);
        // the id that the next object gets is that of an entry, mostly
        let next = self.free.last().copied().unwrap_or(0);
        let parent = self.rng.pick(&[1, 1, 0, 3, 4, next, next, 0x1000_0001]);
        self.headers.push(Header {
            id: ROOT,
            file_type,
            parent,
        });
    }

    fn shape(&mut self, large: bool) {
        match self.rng.below(12) {
            0..=3 => self.bush(),
            4 | 5 if !large => self.chain(),
            6 | 7 => self.ring(),
            8 => self.under_deleted(),
            9 => self.under_no_directory(),
            _ => self.astray(),
        }
    }

    /// Some objects under directories.
    fn bush(&mut self) {
        for _ in 0..self.rng.between(2, 8) {
            let (file_type, parent) = (self.file_type(), self.directory());
            self.add(file_type, parent);
        }
    }

    /// So many directories above each other, and something in the last.
    fn chain(&mut self) {
        let mut last = match self.rng.chance(75) {
            true => ROOT,
            false => self.adrift(),
        };
        for _ in 0..self.rng.between(30, 36) {
            last = self.add_above(DIRECTORY, last);
        }
        let file_type = self.file_type();
        self.add(file_type, last);
    }

    /// Directories that are each other's parents, and some objects below them. One
    /// that is its own parent may be of any type, and now and then another is no
    /// directory.
    fn ring(&mut self) {
        let length = self.rng.pick(&[1, 1, 2, 3, 4, 7]);
        let ids: Vec<u32> = (0..length).map(|_| self.fresh_above()).collect();
        let broken = self.rng.chance(30).then(|| self.rng.below(length as u64));
        for (place, &id) in ids.iter().enumerate() {
            let file_type = match length == 1 || broken == Some(place as u64) {
                true => self.file_type(),
                false => DIRECTORY,
            };
            self.put(Header {
                id,
                file_type,
                parent: ids[(place + 1) % length],
            });
        }
        let mut last = self.rng.pick(&ids);
        for _ in 0..self.rng.below(3) {
            let file_type = self.file_type();
            last = self.add_above(file_type, last);
        }
    }

    /// Objects in what is unlinked or deleted.
    fn under_deleted(&mut self) {
        let (file_type, parent) = (self.file_type(), self.rng.pick(&[3, 4]));
        let gone = self.add_above(file_type, parent);
        let below = self.file_type();
        let below = self.add_above(below, gone);
        if self.rng.chance(50) {
            self.add(FILE, below);
        }
    }

    /// Objects in what is no directory.
    fn under_no_directory(&mut self) {
        let (file_type, parent) = (self.rng.pick(&[1, 2, 2, 4, 4, 5]), self.directory());
        let no_directory = self.add_above(file_type, parent);
        let below = self.file_type();
        let below = self.add_above(below, no_directory);
        if self.rng.chance(50) {
            self.add(FILE, below);
        }
    }

    /// An object whose parent is not there, and one below it.
    fn astray(&mut self) {
        let (file_type, parent) = (self.file_type(), self.adrift());
        let below = self.add_above(file_type, parent);
        if self.rng.chance(50) {
            self.add(FILE, below);
        }
    }

    /// A parent that is missing: no id at all, one that only seems to be that of a
    /// directory, or one that has no header.
    fn adrift(&mut self) -> u32 {
        let (known, fresh) = (self.directory(), self.fresh());
        if self.rng.chance(40) {
            self.data.push(fresh);
        }
        let high = known | 1 << self.rng.between(28, 31);
        self.rng.pick(&[fresh, fresh, fresh, 0, high, u32::MAX])
    }

    /// Older headers, which say something else, and data of some objects.
    fn rename(&mut self) {
        for place in 0..self.headers.len() {
            let id = self.headers[place].id;
            let percent = if self.headers.len() > 30 { 6 } else { 30 };
            if self.rng.chance(percent) {
                let (file_type, known) = (self.file_type(), self.directory());
                let parent = self.rng.pick(&[known, known, ROOT, 3, 0]);
                self.older.push(Header {
                    id,
                    file_type,
                    parent,
                });
            }
            if self.rng.chance(10) {
                self.data.push(id);
            }
        }
    }
}

fn header_page(rng: &mut Rng, b: &mut Builder, page: usize, sequence: u32, header: Header) {
    let Header {
        id,
        file_type,
        parent,
    } = header;
    match rng.chance(50) {
        true => rng.fill(b.data(page)),
        false => b.data(page).fill(0),
    }
    name(rng, &mut b.data(page)[0xA..0x10A]);
    let size = rng.pick(&[0, 1, 100, 700]);
    b.header(page, [file_type, parent, size, 0]);
    // what tags may say of a parent decides nothing
    let tag = rng.pick(&[0, parent, ROOT, 5, 257]) & 0x0FFF_FFFF;
    match rng.chance(30) {
        true => b.tags(page, [sequence, id, 0, 0]),
        false => b.tags(page, [sequence, file_type << 28 | id, 0x8000_0000 | tag, 0]),
    }
}

/// A name, with a zero behind it if there is room: bytes behind that stay.
fn name(rng: &mut Rng, field: &mut [u8]) {
    let names: [&[u8]; 16] = [
        b"a",
        b"a",
        b"b",
        b"b",
        b"log",
        b"pass0.log",
        b"old",
        b"Z",
        b"a/b",
        b"/",
        b"..",
        b".",
        b"",
        b"x\ny",
        b"x\nobject=5",
        b"\\x0A \xC3\xA4\xFF\x01",
    ];
    let long = rng.pick(&[254, 255, 256]);
    let name = match rng.below(24) {
        0 => vec![b'n'; long],
        1 => (0..256).map(|_| rng.between(1, 255) as u8).collect(),
        _ => rng.pick(&names).to_vec(),
    };
    field[..name.len()].copy_from_slice(&name);
    if let Some(behind) = field.get_mut(name.len()) {
        *behind = 0;
    }
}
