//! What a file looks like that is no dump: by the bytes that it begins with.

const BEGINS: [(&[u8], &str); 9] = [
    (b"\x1F\x8B", "a gzip file"),
    (b"\x7FELF", "an ELF file"),
    (b"PK\x03\x04", "a zip file"),
    (b"7z\xBC\xAF\x27\x1C", "a 7z file"),
    (b"\xFD7zXZ\0", "an xz file"),
    (b"\x28\xB5\x2F\xFD", "a zstd file"),
    (b"BZh", "a bzip2 file"),
    (b"UBI#", "a UBI image"),
    (b"hsqs", "a squashfs image"),
];

/// How much is looked at to tell a text.
const ENOUGH: usize = 4096;

/// What the bytes look like, if that is anything common.
pub fn like(bytes: &[u8]) -> Option<&'static str> {
    let begun = BEGINS.iter().find(|(begin, _)| bytes.starts_with(begin));
    match begun {
        Some((_, name)) => Some(name),
        None if is_text(&bytes[..bytes.len().min(ENOUGH)]) => Some("a text"),
        None => None,
    }
}

/// Whether bytes are UTF-8 without control characters; the last character may
/// be cut.
fn is_text(bytes: &[u8]) -> bool {
    let whole = match str::from_utf8(bytes) {
        Ok(text) => text,
        Err(error) if error.error_len().is_none() => {
            str::from_utf8(&bytes[..error.valid_up_to()]).unwrap_or_default()
        }
        Err(_) => return false,
    };
    let is_plain = |c: char| !c.is_control() || c.is_ascii_whitespace();
    !whole.is_empty() && whole.chars().all(is_plain)
}

#[cfg(test)]
mod tests {
    use super::*;

    #[test]
    fn what_is_common_is_told() {
        let told = [
            (&b"\x1F\x8B\x08\0rest"[..], Some("a gzip file")),
            (b"\x7FELF\x02\x01", Some("an ELF file")),
            (b"BZh9", Some("a bzip2 file")),
            (b"two\tlines\r\n", Some("a text")),
            (b"\xC3\xA4\xC3", Some("a text")),
            (b"\xC3", None),
            (b"zero\0", None),
            (b"\xFF\xFF\xFF\xFF", None),
            (b"", None),
        ];
        for (bytes, name) in told {
            assert_eq!(like(bytes), name, "{bytes:?}");
        }
        let long = ["ä".repeat(ENOUGH).as_bytes(), b"\xFF"].concat();
        assert_eq!(like(&long[1..]), None, "the first character is cut");
        assert_eq!(like(&long), Some("a text"), "no more is looked at");
    }
}
