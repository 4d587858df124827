//! The names under which objects are written: their own, or where that cannot be, one
//! that is made up of the id and of what of the name is plain.

use std::io;

/// The most bytes of a name that file systems take.
const LONGEST: usize = 255;

/// A path up to which names are kept. Programs open paths of 4,095 bytes; this, and what
/// names that are made up add to it 32 steps deep, is below that.
const LONGEST_PATH: usize = 2000;

/// The most bytes of a name in one that is made up.
const SOME: usize = 64;

/// What names begin with that are made up. No other name that is written does.
const MADE_UP: &str = "object-";

/// Why an object cannot be written under its own name, below a path of so many bytes.
pub fn unfit(name: &[u8], below: usize) -> Option<&'static str> {
    let begin = &name[..name.len().min(MADE_UP.len())];
    match name {
        b"" => Some("its name is empty"),
        b"." | b".." => Some("its name is that of another folder"),
        _ if name.contains(&b'/') => Some("its name has a slash in it"),
        _ if name.len() > LONGEST => Some("its name is longer than 255 bytes"),
        _ if begin.eq_ignore_ascii_case(MADE_UP.as_bytes()) => {
            Some("its name begins as one that is made up")
        }
        _ if below + 1 + name.len() > LONGEST_PATH => Some("its path is longer than 2000 bytes"),
        _ => None,
    }
}

/// Why the system did not take the name of an object; other errors are not the name's.
pub fn untaken(error: io::Error) -> io::Result<&'static str> {
    match error.raw_os_error() {
        Some(libc::EEXIST) => Ok("its name is taken in its folder"),
        Some(libc::EINVAL | libc::EILSEQ | libc::ENAMETOOLONG) => {
            Ok("the file system does not take its name")
        }
        _ => Err(error),
    }
}

/// A name for an object that no other has.
pub fn made_up(object: u32, name: &[u8]) -> Vec<u8> {
    let mut text = format!("{MADE_UP}{object}-").into_bytes();
    let most = text.len() + SOME;
    for &byte in name {
        let is_plain = byte.is_ascii_alphanumeric() || b"._-".contains(&byte);
        let part = match is_plain {
            true => vec![byte],
            false => format!("%{byte:02X}").into_bytes(),
        };
        if text.len() + part.len() > most {
            break;
        }
        text.extend(part);
    }
    text
}

#[cfg(test)]
mod tests {
    use super::*;

    #[test]
    fn names_are_kept_or_not() {
        let longest = [b'a'; LONGEST];
        for name in [
            &b"a"[..],
            b"...",
            b".a",
            b"a\n\\",
            b"object",
            b" ",
            &longest,
        ] {
            assert_eq!(unfit(name, 1), None, "{name:?}");
        }
        let unfits = [
            &b""[..],
            b".",
            b"..",
            b"/",
            b"a/b",
            b"object-1-a",
            b"Object-",
            &[b'a'; LONGEST + 1],
        ];
        for name in unfits {
            assert!(unfit(name, 1).is_some(), "{name:?}");
        }
        assert_eq!(unfit(b"a", LONGEST_PATH - 2), None);
        assert!(unfit(b"a", LONGEST_PATH - 1).is_some());
    }

    #[test]
    fn names_are_made_up() {
        assert_eq!(made_up(257, b"a/b c.log"), b"object-257-a%2Fb%20c.log");
        assert_eq!(made_up(1, b".."), b"object-1-..");
        assert_eq!(made_up(1, b""), b"object-1-");
        let longest = made_up(0xFFF_FFFF, &[0xFF; 256]);
        assert_eq!(longest.len(), "object-268435455-".len() + 63);
    }

    /// Names that are kept, as long as can be, and then some that are made up: no path
    /// is longer than programs open.
    #[test]
    fn paths_are_short_enough() {
        let longest = "object-268435455-".len() + SOME;
        for kept in 0..=32 {
            let path = (kept * (1 + LONGEST)).min(LONGEST_PATH) + (32 - kept) * (1 + longest);
            assert!(path < 4095, "{kept}: {path}");
        }
    }
}
