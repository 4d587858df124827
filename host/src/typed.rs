//! Numbers and layouts as they are typed.

use std::fmt;

use crate::ffi;

/// A number or a layout: as the library takes it, and as it was typed.
#[derive(Clone, Debug)]
pub struct Typed {
    pub number: u32,
    text: String,
}

impl Typed {
    /// What stands where nothing was asked for.
    pub const NOTHING: &'static Typed = &Typed {
        number: 0,
        text: String::new(),
    };

    /// A number, or what it has to be.
    pub fn number(text: &str) -> Result<Typed, &'static str> {
        Typed::read(text, number).ok_or("a number, decimal or with 0x")
    }

    /// A layout by its number in the table, or what it has to be.
    pub fn layout(text: &str) -> Result<Typed, &'static str> {
        Typed::read(text, layout).ok_or("P/S/T or a number in the table")
    }

    fn read(text: &str, read: impl Fn(&str) -> Option<u32>) -> Option<Typed> {
        Some(Typed {
            number: read(text)?,
            text: text.to_string(),
        })
    }
}

impl From<u32> for Typed {
    fn from(number: u32) -> Typed {
        let text = number.to_string();
        Typed { number, text }
    }
}

impl fmt::Display for Typed {
    fn fmt(&self, f: &mut fmt::Formatter<'_>) -> fmt::Result {
        self.text.fmt(f)
    }
}

/// The number in the table of a layout that is named by it or as P/S/T; one
/// that the table lacks is not in it.
pub fn layout(text: &str) -> Option<u32> {
    let parts: Option<Vec<u32>> = text.split('/').map(number).collect();
    match parts?[..] {
        [number] => Some(number),
        [p, s, t] => Some(ffi::layout_sized(p, s, t).number),
        _ => None,
    }
}

/// A number, decimal or with 0x. One beyond 32 bits is taken as the largest
/// of these, which every call refuses alike.
pub fn number(text: &str) -> Option<u32> {
    long(text).map(|n| u32::try_from(n).unwrap_or(u32::MAX))
}

/// A number of 64 bits, or the largest of these for one beyond them.
pub fn long(text: &str) -> Option<u64> {
    wide(text).map(|n| u64::try_from(n).unwrap_or(u64::MAX))
}

/// A number of 64 bits and no more.
pub fn exact(text: &str) -> Option<u64> {
    u64::try_from(wide(text)?).ok()
}

/// A position in a file, or what it has to be.
pub fn position(text: &str) -> Result<u64, &'static str> {
    exact(text).ok_or("a number up to 18446744073709551615, decimal or with 0x")
}

/// A number of 128 bits, or the largest of these for one beyond them.
fn wide(text: &str) -> Option<u128> {
    let (digits, radix) = match text.strip_prefix("0x") {
        Some(digits) => (digits, 16),
        None => (text, 10),
    };
    if digits.is_empty() {
        return None;
    }
    digits.chars().try_fold(0u128, |n, c| {
        let digit = c.to_digit(radix)?;
        Some(n.saturating_mul(radix.into()).saturating_add(digit.into()))
    })
}
