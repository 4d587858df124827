//! The tree, on the dump alone: the live objects that have a path from the root,
//! and why the others have none. The first list is made by walking down from the
//! root, the second by following parents upwards.

use std::collections::BTreeMap;

use super::index::Reader;
use super::layout::Layout;
use super::page::{data, tags, Body, Record};
use super::records::{ids, records};
use super::refusal::{refuse, Refusal};
use super::rules::Object;
use super::why::Past;
use super::wrong::Wrong;

/// The object that stands as root.
const ROOT: u32 = 1;

/// The type of a directory.
const DIRECTORY: u32 = 3;

/// How far below the root objects are listed.
const DEEPEST: usize = 32;

/// No dump of a test has so many directories above each other.
const ENDLESS: usize = 2000;

/// Where the name of a header stands, and how many bytes it has.
const NAME: (usize, usize) = (0xA, 256);

/// Where following the parents of an object stops, if not at a listed place.
#[derive(Clone, Copy, Debug, PartialEq, Eq)]
pub enum Stop {
    TooDeep = 1,
    Loop = 2,
    Missing = 3,
    Deleted = 4,
    NonDirectory = 5,
}

impl Stop {
    pub fn name(self) -> &'static str {
        match self {
            Stop::TooDeep => "too deep",
            Stop::Loop => "loop",
            Stop::Missing => "missing",
            Stop::Deleted => "deleted",
            Stop::NonDirectory => "non-directory",
        }
    }
}

/// An object of the first list: its newest header, the row of its directory
/// unless that is the root, and its path.
pub struct Entry {
    pub object: u32,
    pub page: usize,
    pub directory: Option<usize>,
    pub path: Vec<u8>,
}

/// An object of the second list.
pub struct Other {
    pub object: u32,
    pub page: usize,
    pub stop: Stop,
}

/// Both lists, and how many header records they were made of.
pub struct Tree {
    pub listed: Vec<Entry>,
    pub others: Vec<Other>,
    pub headers: usize,
}

impl Tree {
    /// The lines of both lists, two for each object.
    pub fn text(&self) -> Vec<u8> {
        let mut text = Vec::new();
        for entry in &self.listed {
            text.extend(format!("object={}\npath=", entry.object).bytes());
            text.extend_from_slice(&entry.path);
            text.push(b'\n');
        }
        for Other { object, stop, .. } in &self.others {
            text.extend(format!("object={object}\nreason={}\n", stop.name()).bytes());
        }
        text
    }

    /// Two numbers for each object: the page of its newest header, and the row of
    /// its directory plus 1 (0 for the root) or the number of its reason.
    pub fn rows(&self) -> Vec<u32> {
        let listed = self.listed.iter().map(|entry| {
            let key = entry.directory.map_or(0, |row| row + 1);
            [entry.page as u32, key as u32]
        });
        let others = self.others.iter();
        let others = others.map(|other| [other.page as u32, other.stop as u32]);
        listed.chain(others).flatten().collect()
    }
}

/// What the newest header of an object says.
struct Node {
    id: u32,
    page: usize,
    file_type: u32,
    parent: u32,
    deleted: bool,
    name: Vec<u8>,
}

/// The objects that have a header, and those that have data alone with their
/// newest page.
struct Nodes {
    headed: BTreeMap<u32, Node>,
    headless: BTreeMap<u32, usize>,
    wrong: Wrong,
}

impl Nodes {
    fn is_directory(&self, node: &Node) -> bool {
        match self.wrong {
            Wrong::TreeLinksFollowed => [DIRECTORY, 2].contains(&node.file_type),
            Wrong::TreeHardLinksFollowed => [DIRECTORY, 4].contains(&node.file_type),
            _ => node.file_type == DIRECTORY,
        }
    }

    /// Whether object 1 is the root, which it is in every case.
    fn has_root(&self) -> bool {
        let root = self.headed.get(&ROOT);
        match self.wrong {
            Wrong::TreeRootNeedsHeader => root.is_some(),
            Wrong::TreeRootNeedsDirectory => root.is_none_or(|root| self.is_directory(root)),
            Wrong::TreeRootNeedsLive => root.is_none_or(|root| !root.deleted),
            _ => true,
        }
    }

    /// The entries of a directory, in the order in which they are listed.
    fn entries(&self, directory: u32) -> Vec<&Node> {
        let all = self.headed.values();
        let own = all.filter(|node| node.parent == directory && !node.deleted);
        let own = own.filter(|node| node.id != ROOT || self.wrong == Wrong::TreeRootAsEntry);
        let mut own: Vec<&Node> = own.collect();
        match self.wrong {
            Wrong::TreeEntriesByPage => own.sort_by_key(|node| node.page),
            Wrong::TreeEntriesByName => own.sort_by_key(|node| &node.name),
            Wrong::TreeEntriesDescending => own.reverse(),
            Wrong::TreeDirectoriesFirst => own.sort_by_key(|node| !self.is_directory(node)),
            _ => {}
        }
        own
    }

    /// The path of an entry of the directory with this path.
    fn path(&self, directory: &[u8], name: &[u8]) -> Vec<u8> {
        let mut path = directory.to_vec();
        match self.wrong {
            Wrong::TreePathOfNameAlone => path.clear(),
            Wrong::TreeEmptyNameNoStep if name.is_empty() => return path,
            Wrong::TreeDotsFollowed if name == b".." => {
                let last = path.iter().rposition(|&byte| byte == b'/');
                path.truncate(last.unwrap_or(0));
                return path;
            }
            _ => {}
        }
        path.push(b'/');
        for &byte in name {
            match (self.wrong, byte) {
                (Wrong::TreeSlashInNameShown, b'/') => path.push(b'_'),
                (Wrong::TreeNewlineEscaped, b'\n') => path.extend(b"\\x0A"),
                _ => path.push(byte),
            }
        }
        path
    }

    /// Lists what stands below a directory, which is itself at a depth, as a row,
    /// under a path.
    fn walk(&self, directory: u32, at: (usize, Option<usize>, &[u8]), listed: &mut Vec<Entry>) {
        let (depth, row, path) = at;
        let deepest = match self.wrong {
            Wrong::TreeDepth33Listed => DEEPEST + 1,
            Wrong::TreeDepth32NotListed => DEEPEST - 1,
            _ => DEEPEST,
        };
        if depth == deepest {
            return;
        }
        let mut waiting = Vec::new();
        for node in self.entries(directory) {
            let path = self.path(path, &node.name);
            let own = listed.len();
            listed.push(Entry {
                object: node.id,
                page: node.page,
                directory: row,
                path: path.clone(),
            });
            if !self.is_directory(node) || node.id == ROOT {
                continue;
            }
            match self.wrong {
                Wrong::TreeEntriesAfterAll => waiting.push((node.id, own, path)),
                _ => self.walk(node.id, (depth + 1, Some(own), &path), listed),
            }
        }
        for (id, own, path) in waiting {
            self.walk(id, (depth + 1, Some(own), &path), listed);
        }
    }

    /// Where following the parents of an object stops.
    fn stop(&self, start: &Node) -> Stop {
        let (mut met, mut node) = (vec![start.id], start);
        loop {
            let parent = node.parent;
            if parent == ROOT && self.has_root() {
                return Stop::TooDeep;
            }
            let again = match self.wrong {
                Wrong::TreeLoopFollowed => false,
                Wrong::TreeStartNotMet => met[1..].contains(&parent),
                Wrong::TreeLoopToStartAlone => parent == start.id,
                _ => met.contains(&parent),
            };
            if again {
                return Stop::Loop;
            }
            let far = self.wrong == Wrong::TreeTooDeepFirst && met.len() >= DEEPEST;
            if far || met.len() > ENDLESS {
                return Stop::TooDeep;
            }
            let Some(above) = self.headed.get(&parent) else {
                let has_data = self.headless.contains_key(&parent);
                return match self.wrong {
                    Wrong::TreeMissingIsDeleted => Stop::Deleted,
                    Wrong::TreeHeadlessNoDirectory if has_data => Stop::NonDirectory,
                    _ => Stop::Missing,
                };
            };
            let is_directory = self.is_directory(above);
            match (above.deleted, self.wrong) {
                (true, Wrong::TreeNonDirectoryFirst) if !is_directory => return Stop::NonDirectory,
                (true, Wrong::TreeDeletedIsMissing) => return Stop::Missing,
                (true, Wrong::TreeDeletedPassed) if is_directory => {}
                (true, _) => return Stop::Deleted,
                (false, Wrong::TreeLoopThroughFile) if !is_directory => {
                    return match self.leads_to(above, start.id) {
                        true => Stop::Loop,
                        false => Stop::NonDirectory,
                    };
                }
                (false, _) if !is_directory => return Stop::NonDirectory,
                (false, _) => {}
            }
            met.push(parent);
            node = above;
        }
    }

    /// Whether an object is among the parents of another, whatever these are.
    fn leads_to(&self, from: &Node, id: u32) -> bool {
        let up = |node: &&Node| self.headed.get(&node.parent);
        let mut above = std::iter::successors(Some(from), up).take(ENDLESS);
        above.any(|node| node.parent == id)
    }

    /// The live objects that are not listed, but for the root.
    fn others(&self, listed: &[Entry]) -> Vec<Other> {
        let is_listed = |id| listed.iter().any(|entry| entry.object == id);
        let stands = |node: &&Node| match self.wrong {
            Wrong::TreeRootAmongOthers => !node.deleted && !is_listed(node.id),
            Wrong::TreeDeletedListed => node.id != ROOT && !is_listed(node.id),
            _ => node.id != ROOT && !node.deleted && !is_listed(node.id),
        };
        let others = self.headed.values().filter(stands).map(|node| Other {
            object: node.id,
            page: node.page,
            stop: self.stop(node),
        });
        let mut others: Vec<Other> = others.collect();
        match self.wrong {
            Wrong::TreeOthersByPage => others.sort_by_key(|other| other.page),
            Wrong::TreeOthersByReason => others.sort_by_key(|other| other.stop as u8),
            Wrong::TreeHeadlessListed => {
                let headless = self.headless.iter().filter(|(&id, _)| id != ROOT);
                others.extend(headless.map(|(&object, &page)| Other {
                    object,
                    page,
                    stop: Stop::Missing,
                }));
                others.sort_by_key(|other| other.object);
            }
            _ => {}
        }
        others
    }
}

impl Reader<'_> {
    /// The parent that a header names.
    fn parent(&self, layout: Layout, header: &Record) -> u32 {
        let Body::Header { parent, .. } = header.body else {
            return 0;
        };
        let tag = tags(self.dump, layout, header.page).chunk;
        match self.wrong {
            Wrong::TreeParentOfTags if tag > 0x8000_0000 => tag & 0x0FFF_FFFF,
            Wrong::TreeHighParentMasked => parent & 0x0FFF_FFFF,
            Wrong::TreeParentZeroIsRoot if parent == 0 => ROOT,
            _ => parent,
        }
    }

    /// The name in a header, up to its first zero byte.
    fn name(&self, layout: Layout, header: &Record) -> Vec<u8> {
        let (at, most) = NAME;
        let name = &data(self.dump, layout, header.page)[at..at + most];
        let end = match self.wrong {
            Wrong::TreeNameWhole => None,
            Wrong::TreeNameEndsAtNewline => name.iter().position(|byte| b"\0\n".contains(byte)),
            Wrong::TreeName255 => name[..255].iter().position(|&byte| byte == 0).or(Some(255)),
            _ => name.iter().position(|&byte| byte == 0),
        };
        name[..end.unwrap_or(most)].to_vec()
    }

    /// What the newest header of an object says, or the newest page of one that has
    /// data alone.
    fn node(&self, layout: Layout, object: &Object) -> Result<Node, Option<usize>> {
        let newest = object.newest_header().map(|place| object.records[place]);
        let Some(newest) = newest else {
            return Err(object.records.last().map(|record| record.page));
        };
        let is_header = |record: &&Record| matches!(record.body, Body::Header { .. });
        let oldest = object.records.iter().find(is_header).copied();
        let of = |wrong| match self.wrong == wrong {
            true => oldest.unwrap_or(newest),
            false => newest,
        };
        let file_type = match of(Wrong::TreeTypeOfOldest).body {
            Body::Header { file_type, .. } => file_type,
            Body::Data { .. } => 0,
        };
        let parent = self.parent(layout, &of(Wrong::TreeParentOfOldest));
        Ok(Node {
            id: object.id,
            page: newest.page,
            file_type,
            parent,
            deleted: match self.wrong {
                Wrong::TreeUnlinkedLive => object.deleted() && parent != 3,
                _ => object.deleted(),
            },
            name: self.name(layout, &of(Wrong::TreeNameOfOldest)),
        })
    }

    /// The tree of a dump.
    pub fn tree(&self, on: Past) -> Result<Tree, Refusal> {
        let (layout, pages) = self.opened(on.layout, on.k)?;
        let bad_page = on.before.is_some_and(|page| page >= pages as u64);
        refuse(&[(Refusal::BadPage, bad_page)], self.wrong)?;
        let seen = match on.before {
            Some(page) if self.wrong != Wrong::TreeAsItStands => {
                self.older(layout, pages, page as usize)
            }
            _ => vec![true; pages],
        };
        let records = records(self.dump, layout, &seen, self.wrong);
        let mut nodes = Nodes {
            headed: BTreeMap::new(),
            headless: BTreeMap::new(),
            wrong: self.wrong,
        };
        for id in ids(&records) {
            let object = Object::among(&records, id, layout, self.wrong);
            match self.node(layout, &object) {
                Ok(node) => drop(nodes.headed.insert(id, node)),
                Err(page) => nodes.headless.extend(page.map(|page| (id, page))),
            }
        }
        let mut listed = Vec::new();
        if nodes.has_root() {
            nodes.walk(ROOT, (0, None, b""), &mut listed);
        }
        let headers = records.iter();
        let headers = headers.filter(|record| matches!(record.body, Body::Header { .. }));
        Ok(Tree {
            others: nodes.others(&listed),
            listed,
            headers: headers.count(),
        })
    }
}
