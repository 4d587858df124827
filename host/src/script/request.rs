//! The requests of a script, and reading them.

use crate::ffi::{Geometry, AS_IT_STANDS};
use crate::typed::{exact, layout, long, number};

/// How each request is typed, for the help.
pub const FORMS: &str = "\
The requests of a script, one a line; # starts a comment:

  find K            pages L K         counts L K        kind L K PAGE
  header L K PAGE   dsize L K OBJ     dchunk L K OBJ N  dpart L K OBJ N
  dlist L K WORDS   dobjects L K      copy ROW          dread L K OBJ N BUFLEN
  row L PLACE VALID                   dspans L K OBJ    dwhy L K OBJ POS
  dtree L K         dstands L K OBJ   dhistory L K OBJ

  start L K WORDS   add PAGE          size OBJ          chunk OBJ N
  part OBJ N        list WORDS        objects           read OBJ N BUFLEN
  table OBJ WORDS   copies OBJ ROWS   fill X            records OBJ WORDS
  poke I X          peek I            older FROM TO PAGE

L is P/S/T or a layout's number. The first ask the dump alone, the others an
index: under the layout and K of the last accepted start, with as many words.
k=, words= and layout= behind the arguments of such a call give it others, and
seed= behind those of a start gives it a seed, which is 0 if left out. before=PAGE
behind those of dwhy, dspans, dstands, dhistory and dtree asks the dump as it stood
before that record.
";

/// What a call on the index is given by options of its own: layout, K and how
/// many words of the index it is lent.
#[derive(Clone, Copy, Debug, Default, PartialEq, Eq)]
pub struct Lent {
    pub layout: Option<u32>,
    pub k: Option<u32>,
    pub words: Option<usize>,
}

/// What a lookup reads: the dump alone, or the index.
#[derive(Clone, Copy, Debug, PartialEq, Eq)]
pub enum Over {
    Dump(Geometry),
    Index(Lent),
}

/// One line of a script. Lengths are of a buffer, in bytes or in words.
#[derive(Clone, Copy, Debug, PartialEq, Eq)]
#[rustfmt::skip]
pub enum Request {
    Find { k: u32 },
    Pages { on: Geometry },
    Counts { on: Geometry },
    Kind { on: Geometry, page: u32 },
    Header { on: Geometry, page: u32 },
    Start { on: Geometry, words: usize, seed: u32 },
    Add { lent: Lent, page: u32 },
    Older { lent: Lent, from: u32, to: u32, before: u32 },
    Size { over: Over, object: u32 },
    Chunk { over: Over, object: u32, n: u32 },
    Read { over: Over, object: u32, n: u32, length: usize },
    Part { over: Over, object: u32, n: u32 },
    List { over: Over, length: usize },
    Objects { over: Over },
    Records { lent: Lent, object: u32, length: usize },
    Table { lent: Lent, object: u32, length: usize },
    Row { layout: u32, place: u32, valid: u32 },
    Copies { lent: Lent, object: u32, length: usize },
    Copy { row: u64 },
    Why { on: Geometry, before: Option<u32>, object: u32, position: u64 },
    Spans { on: Geometry, before: Option<u32>, object: u32 },
    Stands { on: Geometry, before: Option<u32>, object: u32 },
    History { on: Geometry, before: Option<u32>, object: u32 },
    Tree { on: Geometry, before: Option<u32> },
    Fill { word: u32 },
    Poke { at: usize, word: u32 },
    Peek { at: usize },
}

impl Request {
    /// How many words the request names, for the index or for what it lists.
    pub fn words(&self) -> Option<usize> {
        let over = |over: Over| match over {
            Over::Index(lent) => lent.words,
            Over::Dump(_) => None,
        };
        match *self {
            Request::Start { words, .. } => Some(words),
            Request::Add { lent, .. }
            | Request::Older { lent, .. }
            | Request::Copies { lent, .. } => lent.words,
            Request::Size { over: o, .. }
            | Request::Chunk { over: o, .. }
            | Request::Read { over: o, .. }
            | Request::Part { over: o, .. }
            | Request::Objects { over: o } => over(o),
            Request::List { over: o, length } => over(o).max(Some(length)),
            Request::Table { lent, length, .. } | Request::Records { lent, length, .. } => {
                lent.words.max(Some(length))
            }
            _ => None,
        }
    }
}

/// The requests of a script, or what is wrong with one of its lines.
pub fn parse(script: &str) -> Result<Vec<Request>, String> {
    let mut requests = Vec::new();
    for (i, line) in script.lines().enumerate() {
        let request = request(line).map_err(|wrong| format!("line {}: {wrong}", i + 1))?;
        requests.extend(request);
    }
    Ok(requests)
}

/// The request of a line; none where it is empty or a comment.
pub fn request(line: &str) -> Result<Option<Request>, String> {
    let line = line.split('#').next().unwrap_or_default();
    let mut words = Words(line.split_whitespace().collect());
    if words.0.is_empty() {
        return Ok(None);
    }
    let name = words.0.remove(0);
    let request = words.request(name)?;
    match words.0.first() {
        Some(word) => Err(format!("{name} does not take {word}")),
        None => Ok(Some(request)),
    }
}

/// The words of a line that have not been read yet.
struct Words<'l>(Vec<&'l str>);

impl Words<'_> {
    fn request(&mut self, name: &str) -> Result<Request, String> {
        Ok(match name {
            "find" => Request::Find {
                k: self.number("K")?,
            },
            "pages" => Request::Pages { on: self.on()? },
            "counts" => Request::Counts { on: self.on()? },
            "kind" => Request::Kind {
                on: self.on()?,
                page: self.number("PAGE")?,
            },
            "header" => Request::Header {
                on: self.on()?,
                page: self.number("PAGE")?,
            },
            "start" => {
                let seed = self.seed()?;
                let on = self.on()?;
                let words = self.length("WORDS")?;
                Request::Start { on, words, seed }
            }
            "add" => {
                let lent = self.lent()?;
                let page = self.number("PAGE")?;
                Request::Add { lent, page }
            }
            "older" => Request::Older {
                lent: self.lent()?,
                from: self.number("FROM")?,
                to: self.number("TO")?,
                before: self.number("PAGE")?,
            },
            "fill" => Request::Fill { word: self.word()? },
            "poke" => Request::Poke {
                at: self.length("I")?,
                word: self.word()?,
            },
            "peek" => Request::Peek {
                at: self.length("I")?,
            },
            "table" => Request::Table {
                lent: self.lent()?,
                object: self.number("OBJ")?,
                length: self.length("WORDS")?,
            },
            "records" => Request::Records {
                lent: self.lent()?,
                object: self.number("OBJ")?,
                length: self.length("WORDS")?,
            },
            "copies" => Request::Copies {
                lent: self.lent()?,
                object: self.number("OBJ")?,
                length: self.length("ROWS")?,
            },
            "copy" => Request::Copy {
                row: self.next("ROW", long)?,
            },
            "dwhy" => Request::Why {
                before: self.before()?,
                on: self.on()?,
                object: self.number("OBJ")?,
                position: self.next("POS", exact)?,
            },
            "dspans" => Request::Spans {
                before: self.before()?,
                on: self.on()?,
                object: self.number("OBJ")?,
            },
            "dstands" => Request::Stands {
                before: self.before()?,
                on: self.on()?,
                object: self.number("OBJ")?,
            },
            "dhistory" => Request::History {
                before: self.before()?,
                on: self.on()?,
                object: self.number("OBJ")?,
            },
            "dtree" => Request::Tree {
                before: self.before()?,
                on: self.on()?,
            },
            "row" => Request::Row {
                layout: self.next("L", layout)?,
                place: self.number("PLACE")?,
                valid: self.number("VALID")?,
            },
            "dsize" | "dchunk" | "dread" | "dpart" | "dlist" | "dobjects" => {
                let over = Over::Dump(self.on()?);
                self.lookup(&name[1..], over)?
            }
            "size" | "chunk" | "read" | "part" | "list" | "objects" => {
                let over = Over::Index(self.lent()?);
                self.lookup(name, over)?
            }
            _ => return Err(format!("there is no request {name}")),
        })
    }

    fn lookup(&mut self, name: &str, over: Over) -> Result<Request, String> {
        if name == "objects" {
            return Ok(Request::Objects { over });
        }
        if name == "list" {
            let length = self.length("WORDS")?;
            return Ok(Request::List { over, length });
        }
        let object = self.number("OBJ")?;
        if name == "size" {
            return Ok(Request::Size { over, object });
        }
        let n = self.number("N")?;
        Ok(match name {
            "chunk" => Request::Chunk { over, object, n },
            "part" => Request::Part { over, object, n },
            _ => {
                let length = self.length("BUFLEN")?;
                Request::Read {
                    over,
                    object,
                    n,
                    length,
                }
            }
        })
    }

    /// The next word, read.
    fn next<T>(&mut self, name: &str, read: impl Fn(&str) -> Option<T>) -> Result<T, String> {
        if self.0.is_empty() {
            return Err(format!("{name} is missing"));
        }
        let word = self.0.remove(0);
        read(word).ok_or_else(|| format!("{name} cannot be {word}"))
    }

    fn number(&mut self, name: &str) -> Result<u32, String> {
        self.next(name, number)
    }

    fn length(&mut self, name: &str) -> Result<usize, String> {
        self.next(name, length)
    }

    /// A word of the index, which has 32 bits.
    fn word(&mut self) -> Result<u32, String> {
        self.next("X", word)
    }

    /// The seed, which may stand behind the arguments of a start.
    fn seed(&mut self) -> Result<u32, String> {
        Ok(self.option("seed", word)?.unwrap_or(0))
    }

    /// The page before which the dump is read, which may stand behind the arguments.
    fn before(&mut self) -> Result<Option<u32>, String> {
        self.option("before", before)
    }

    /// The value of one option, which may stand behind the arguments.
    fn option<T>(
        &mut self,
        name: &str,
        read: impl Fn(&str) -> Option<T>,
    ) -> Result<Option<T>, String> {
        let last = self.0.last().and_then(|word| word.split_once('='));
        let Some((_, value)) = last.filter(|(option, _)| *option == name) else {
            return Ok(None);
        };
        let value = read(value).ok_or_else(|| format!("{name} cannot be {value}"))?;
        self.0.pop();
        Ok(Some(value))
    }

    fn on(&mut self) -> Result<Geometry, String> {
        Ok(Geometry {
            layout: self.next("L", layout)?,
            block: self.number("K")?,
        })
    }

    /// The options, which stand behind the arguments.
    fn lent(&mut self) -> Result<Lent, String> {
        let mut lent = Lent::default();
        while let Some((name, value)) = self.0.last().and_then(|word| word.split_once('=')) {
            let cannot = || format!("{name} cannot be {value}");
            match name {
                "k" => lent.k = Some(number(value).ok_or_else(cannot)?),
                "words" => lent.words = Some(length(value).ok_or_else(cannot)?),
                "layout" => lent.layout = Some(layout(value).ok_or_else(cannot)?),
                _ => return Err(format!("there is no option {name}=")),
            }
            self.0.pop();
        }
        Ok(lent)
    }
}

fn length(word: &str) -> Option<usize> {
    usize::try_from(long(word)?).ok()
}

/// A number of 32 bits and no more.
fn word(word: &str) -> Option<u32> {
    u32::try_from(long(word)?).ok()
}

/// A page before which a dump is read. The largest number of 32 bits stands for
/// none, and those beyond for a page that no dump has.
fn before(word: &str) -> Option<u32> {
    number(word).map(|page| page.min(AS_IT_STANDS - 1))
}

#[cfg(test)]
mod tests {
    use super::*;

    #[test]
    fn lines_are_read() {
        let on = Geometry {
            layout: 6,
            block: 4,
        };
        let lines = [
            ("find 0x4 # K", Request::Find { k: 4 }),
            ("kind 512/16/0 4 3", Request::Kind { on, page: 3 }),
            (
                "start 6 4 48",
                Request::Start {
                    on,
                    words: 48,
                    seed: 0,
                },
            ),
            (
                "start 6 4 48 seed=0x10",
                Request::Start {
                    on,
                    words: 48,
                    seed: 16,
                },
            ),
            (
                "older 0 8 4 k=4",
                Request::Older {
                    lent: Lent {
                        k: Some(4),
                        ..Lent::default()
                    },
                    from: 0,
                    to: 8,
                    before: 4,
                },
            ),
            ("copy 0x100000000", Request::Copy { row: 1 << 32 }),
            (
                "dwhy 6 4 257 0xFFFFFFFFFFFFFFFF",
                Request::Why {
                    on,
                    before: None,
                    object: 257,
                    position: u64::MAX,
                },
            ),
            (
                "dspans 6 4 257 before=4",
                Request::Spans {
                    on,
                    before: Some(4),
                    object: 257,
                },
            ),
            (
                "dspans 6 4 257 before=4294967295",
                Request::Spans {
                    on,
                    before: Some(u32::MAX - 1),
                    object: 257,
                },
            ),
            (
                "dstands 6 4 257 before=5",
                Request::Stands {
                    on,
                    before: Some(5),
                    object: 257,
                },
            ),
            (
                "dhistory 512/16/0 4 257",
                Request::History {
                    on,
                    before: None,
                    object: 257,
                },
            ),
            ("dtree 6 4", Request::Tree { on, before: None }),
            (
                "dtree 512/16/0 4 before=0x7",
                Request::Tree {
                    on,
                    before: Some(7),
                },
            ),
            (
                "  dread 6 4 257 1 512",
                Request::Read {
                    over: Over::Dump(on),
                    object: 257,
                    n: 1,
                    length: 512,
                },
            ),
            (
                "list 2 k=4 words=48 layout=6",
                Request::List {
                    over: Over::Index(Lent {
                        layout: Some(6),
                        k: Some(4),
                        words: Some(48),
                    }),
                    length: 2,
                },
            ),
            ("poke 1 0xFFFFFFFF", Request::Poke { at: 1, word: !0 }),
            (
                "dobjects 6 4",
                Request::Objects {
                    over: Over::Dump(on),
                },
            ),
            (
                "table 257 6 words=48",
                Request::Table {
                    lent: Lent {
                        words: Some(48),
                        ..Lent::default()
                    },
                    object: 257,
                    length: 6,
                },
            ),
            (
                "row 512/16/0 8 10",
                Request::Row {
                    layout: 6,
                    place: 8,
                    valid: 10,
                },
            ),
        ];
        for (line, expected) in lines {
            assert_eq!(request(line), Ok(Some(expected)), "{line}");
        }
        assert_eq!(parse("\n# none\n   \n"), Ok(vec![]));
    }

    /// Each form with a 1 for each argument is a request, and with one more none.
    #[test]
    fn requests_are_typed_as_the_help_says() {
        let forms = FORMS.lines().filter_map(|line| line.strip_prefix("  "));
        let forms = forms.flat_map(|line| line.split("  ").map(str::trim));
        let mut count = 0;
        for form in forms.filter(|form| !form.is_empty()) {
            let one = |word: &str| match word.contains(char::is_uppercase) {
                true => "1".to_string(),
                false => word.to_string(),
            };
            let line = form.split(' ').map(one).collect::<Vec<_>>().join(" ");
            assert!(matches!(request(&line), Ok(Some(_))), "{form}");
            assert!(request(&format!("{line} 1")).is_err(), "{form}");
            count += 1;
        }
        assert_eq!(count, 33);
    }

    #[test]
    fn what_is_wrong_is_said() {
        let wrong = [
            ("look 1", "there is no request look"),
            ("find", "K is missing"),
            ("find four", "K cannot be four"),
            ("find 4 5", "find does not take 5"),
            ("size 257 j=4", "there is no option j="),
            ("dsize 6 4 257 k=4", "dsize does not take k=4"),
            ("pages 512/16 4", "L cannot be 512/16"),
            ("table 257", "WORDS is missing"),
            ("objects 257", "objects does not take 257"),
            ("fill 0x100000000", "X cannot be 0x100000000"),
            ("size 257 k=", "k cannot be "),
            (
                "start 6 4 48 seed=0x100000000",
                "seed cannot be 0x100000000",
            ),
            ("size 257 seed=1", "there is no option seed="),
            ("dwhy 6 4 257", "POS is missing"),
            (
                "dwhy 6 4 257 18446744073709551616",
                "POS cannot be 18446744073709551616",
            ),
            ("dwhy 6 4 257 0 before=", "before cannot be "),
            ("dwhy 6 4 257 0 k=4", "dwhy does not take k=4"),
            ("dspans 6 4 257 0", "dspans does not take 0"),
            ("dstands 6 4", "OBJ is missing"),
            ("dhistory 6 4 257 k=4", "dhistory does not take k=4"),
            ("dtree 6", "K is missing"),
            ("dtree 6 4 257", "dtree does not take 257"),
        ];
        for (line, said) in wrong {
            assert_eq!(request(line), Err(said.to_string()), "{line}");
        }
        let said = "line 2: there is no request look".to_string();
        assert_eq!(parse("find 4\nlook"), Err(said));
    }
}
