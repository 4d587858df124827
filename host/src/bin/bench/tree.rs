//! The tree in plain Rust: one pass over the dump for the headers, sorted by id, the
//! newest of each kept; entries sorted by parent and id; and the text of both lists.

use std::io::Write as _;

use super::plain::{bad_type, claim_of, word, Claim, LAYOUTS};

const ROOT: u32 = 1;
const DIRECTORY: u32 = 3;
const DEEPEST: usize = 32;

/// Where a header has its name, and how long that is at most.
const NAME: (usize, usize) = (0xA, 256);

/// What the newest header of an object says.
#[derive(Clone, Copy)]
struct Head {
    id: u32,
    page: u32,
    file_type: u32,
    parent: u32,
}

impl Head {
    fn is_gone(&self) -> bool {
        matches!(self.parent, 3 | 4)
    }
}

/// Why an object has no path.
#[derive(Clone, Copy, PartialEq, Eq)]
enum Stop {
    TooDeep,
    Loop,
    Missing,
    Deleted,
    /// At this parent, which is no directory.
    At(u32),
}

/// The text of the tree of a dump.
pub fn text(dump: &[u8], layout: u32) -> Vec<u8> {
    let (data, spare, _) = LAYOUTS[layout as usize];
    let heads = heads(dump, layout);
    let mut entries: Vec<(u32, u32)> = (0..)
        .zip(&heads)
        .filter(|(_, head)| head.id != ROOT && !head.is_gone())
        .map(|(place, head)| (head.parent, place))
        .collect();
    // places go by id
    entries.sort_unstable();
    let name = |place: u32| {
        let at = heads[place as usize].page as usize * (data + spare) + NAME.0;
        let name = &dump[at..at + NAME.1];
        &name[..name.iter().position(|&byte| byte == 0).unwrap_or(NAME.1)]
    };
    let mut text = Vec::new();
    let mut listed = vec![false; heads.len()];
    let mut path = Vec::new();
    // for each directory that is open: where its next entry stands, its id, and
    // how long its path is
    let first = |id| entries.partition_point(|&(parent, _)| parent < id);
    let mut open = vec![(first(ROOT), ROOT, 0)];
    while let Some((next, id, length)) = open.last_mut() {
        let entry = entries.get(*next).filter(|(parent, _)| parent == id);
        let Some(&(_, place)) = entry else {
            open.pop();
            continue;
        };
        *next += 1;
        path.truncate(*length);
        path.push(b'/');
        path.extend_from_slice(name(place));
        let head = heads[place as usize];
        listed[place as usize] = true;
        put(&mut text, head.id, b"path=", &path);
        if head.file_type == DIRECTORY && open.len() < DEEPEST {
            open.push((first(head.id), head.id, path.len()));
        }
    }
    let mut stops = Stops::of(&heads);
    for (place, head) in heads.iter().enumerate() {
        if head.id != ROOT && !head.is_gone() && !listed[place] {
            let reason: &[u8] = match stops.stop(place) {
                Stop::TooDeep => b"too deep",
                Stop::Loop => b"loop",
                Stop::Missing => b"missing",
                Stop::Deleted => b"deleted",
                Stop::At(_) => b"non-directory",
            };
            put(&mut text, head.id, b"reason=", reason);
        }
    }
    text
}

/// The two lines of an object.
fn put(text: &mut Vec<u8>, id: u32, key: &[u8], value: &[u8]) {
    let _ = writeln!(text, "object={id}");
    text.extend_from_slice(key);
    text.extend_from_slice(value);
    text.push(b'\n');
}

/// The newest header of each object, by id.
fn heads(dump: &[u8], layout: u32) -> Vec<Head> {
    let (data, spare, tag) = LAYOUTS[layout as usize];
    let mut headers = Vec::new();
    for (page, bytes) in (0u32..).zip(dump.chunks_exact(data + spare)) {
        let tags = &bytes[data + tag..data + tag + 16];
        let sequence = word(tags, 0);
        if claim_of(tags, sequence, data) == Claim::Header && !bad_type(bytes, data, tag) {
            // either form has the id in these bits
            headers.push((word(tags, 4) & 0x0FFF_FFFF, sequence, page));
        }
    }
    headers.sort_unstable();
    let newest = headers.chunk_by(|one, other| one.0 == other.0);
    let newest = newest.filter_map(|headers| headers.last());
    newest
        .map(|&(id, _, page)| {
            let at = page as usize * (data + spare);
            let [file_type, parent] = [0, 4].map(|field| word(&dump[at..], field));
            Head {
                id,
                page,
                file_type,
                parent,
            }
        })
        .collect()
}

/// Where the parents of objects stop; of each directory it is found out once.
struct Stops<'h> {
    heads: &'h [Head],
    known: Vec<Option<Stop>>,
    /// By which search a directory was met.
    met: Vec<u32>,
}

impl<'h> Stops<'h> {
    fn of(heads: &'h [Head]) -> Stops<'h> {
        let (known, met) = (vec![None; heads.len()], vec![0; heads.len()]);
        Stops { heads, known, met }
    }

    fn stop(&mut self, start: usize) -> Stop {
        let (mut at, mut way) = (start, Vec::new());
        let search = start as u32 + 1;
        let stop = loop {
            if let Some(stop) = self.known[at] {
                break stop;
            }
            if self.met[at] == search {
                break Stop::Loop;
            }
            self.met[at] = search;
            way.push(at);
            let parent = self.heads[at].parent;
            if parent == ROOT {
                break Stop::TooDeep;
            }
            let above = self.heads.binary_search_by_key(&parent, |head| head.id);
            let Ok(above) = above else {
                break Stop::Missing;
            };
            let head = self.heads[above];
            match head.file_type {
                _ if head.is_gone() => break Stop::Deleted,
                DIRECTORY => at = above,
                _ => break Stop::At(parent),
            }
        };
        // an object that is no directory stops the others, but is itself on a loop
        for at in way {
            if self.heads[at].file_type == DIRECTORY {
                self.known[at] = Some(stop);
            }
        }
        match stop == Stop::At(self.heads[start].id) {
            true => Stop::Loop,
            false => stop,
        }
    }
}
