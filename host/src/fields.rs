//! Answers as fields: on lines, or as JSON with an object on each line.

use std::io::{self, Write};

use serde::ser::{Serialize, SerializeMap, Serializer};

/// A field's value. A hole has none.
pub enum Value<'a> {
    Number(u64),
    Word(String),
    /// A name: bytes up to the first zero.
    Text(&'a [u8]),
    /// Bytes that are no text.
    Bytes(&'a [u8]),
    /// Several of one name.
    Numbers(Vec<u64>),
    Nothing,
}

impl From<u32> for Value<'_> {
    fn from(number: u32) -> Self {
        Value::Number(number.into())
    }
}

impl From<u64> for Value<'_> {
    fn from(number: u64) -> Self {
        Value::Number(number)
    }
}

impl From<String> for Value<'_> {
    fn from(word: String) -> Self {
        Value::Word(word)
    }
}

impl From<&str> for Value<'_> {
    fn from(word: &str) -> Self {
        Value::Word(word.to_string())
    }
}

pub type Field<'a> = (&'static str, Value<'a>);

/// Where answers are printed, and in which form.
pub struct Printer<'w> {
    out: &'w mut dyn Write,
    json: bool,
}

impl<'w> Printer<'w> {
    pub fn new(out: &'w mut dyn Write, json: bool) -> Printer<'w> {
        Printer { out, json }
    }

    /// Where what is no field goes.
    pub fn raw(&mut self) -> &mut dyn Write {
        self.out
    }

    pub fn is_json(&self) -> bool {
        self.json
    }

    /// Prints fields on one line.
    pub fn line(&mut self, fields: &[Field<'_>]) -> io::Result<()> {
        match self.json {
            true => self.object(fields),
            false => writeln!(self.out, "{}", line(fields)),
        }
    }

    /// Prints fields on a line each.
    pub fn lines(&mut self, fields: &[Field<'_>]) -> io::Result<()> {
        if self.json {
            return self.object(fields);
        }
        let mut fields = fields.iter();
        fields.try_for_each(|field| writeln!(self.out, "{}", word(field, "\n")))
    }

    fn object(&mut self, fields: &[Field<'_>]) -> io::Result<()> {
        serde_json::to_writer(&mut *self.out, &Object(fields))?;
        self.out.write_all(b"\n")
    }
}

/// Fields as a JSON object.
pub fn object(fields: &[Field<'_>]) -> String {
    serde_json::to_string(&Object(fields)).expect("keys are strings")
}

/// Fields on one line.
pub fn line(fields: &[Field<'_>]) -> String {
    let words: Vec<String> = fields.iter().map(|field| word(field, " ")).collect();
    words.join(" ")
}

/// A field; where it is several numbers, these stand apart in this way.
pub fn word((name, value): &Field<'_>, apart: &str) -> String {
    match value {
        Value::Number(number) => format!("{name}={number}"),
        Value::Word(word) => format!("{name}={word}"),
        Value::Text(bytes) => format!("{name}={}", text(bytes)),
        Value::Bytes(bytes) => format!("{name}={}", hex(bytes)),
        Value::Numbers(numbers) => {
            let words = numbers.iter().map(|number| format!("{name}={number}"));
            words.collect::<Vec<_>>().join(apart)
        }
        Value::Nothing => name.to_string(),
    }
}

/// Fields as a JSON object, in their order; beside a name its bytes in hex.
struct Object<'f>(&'f [Field<'f>]);

impl Serialize for Object<'_> {
    fn serialize<S: Serializer>(&self, serializer: S) -> Result<S::Ok, S::Error> {
        let mut map = serializer.serialize_map(None)?;
        for (name, value) in self.0 {
            match value {
                Value::Number(number) => map.serialize_entry(name, number)?,
                Value::Word(word) => map.serialize_entry(name, word)?,
                Value::Text(bytes) => {
                    map.serialize_entry(name, &text(bytes))?;
                    map.serialize_entry(&format!("{name}_hex"), &hex(before_zero(bytes)))?;
                }
                Value::Bytes(bytes) => map.serialize_entry(name, &hex(bytes))?,
                Value::Numbers(numbers) => map.serialize_entry(name, numbers)?,
                Value::Nothing => map.serialize_entry(name, &true)?,
            }
        }
        map.end()
    }
}

/// Bytes up to the first zero.
pub fn before_zero(bytes: &[u8]) -> &[u8] {
    bytes.split(|&byte| byte == 0).next().unwrap_or_default()
}

/// A name: printable ASCII as it stands, a backslash twice, and every other
/// byte as \xHH.
pub fn text(bytes: &[u8]) -> String {
    let bytes = before_zero(bytes);
    let mut text = String::with_capacity(bytes.len());
    for &byte in bytes {
        match byte {
            b'\\' => text.push_str("\\\\"),
            b' '..=b'~' => text.push(byte.into()),
            _ => {
                text.push_str("\\x");
                let digits = digits(byte);
                text.extend(digits.map(|digit| digit.to_ascii_uppercase()));
            }
        }
    }
    text
}

/// Bytes as hex digits.
pub fn hex(bytes: &[u8]) -> String {
    let mut hex = String::with_capacity(2 * bytes.len());
    for &byte in bytes {
        hex.extend(digits(byte));
    }
    hex
}

/// The two hex digits of a byte.
fn digits(byte: u8) -> [char; 2] {
    [byte >> 4, byte & 0xF].map(|digit| char::from(b"0123456789abcdef"[usize::from(digit)]))
}

#[cfg(test)]
mod tests {
    use super::*;

    /// A newline in a name and a backslash before x0A are told apart.
    #[test]
    fn names_are_told_apart() {
        assert_eq!(text(b"a\nb\0c"), "a\\x0Ab");
        assert_eq!(text(b"a\\x0Ab"), "a\\\\x0Ab");
        assert_eq!(text(b"\xC3\xA4 ~"), "\\xC3\\xA4 ~");
    }

    #[test]
    fn fields_are_printed() {
        let name: &[u8] = b"a\\\"\n\0rest";
        let fields = [
            ("page", 7u32.into()),
            ("name", Value::Text(name)),
            ("hole", Value::Nothing),
            ("layout", "512/16/0".into()),
            ("reserved", Value::Bytes(&[0, 255])),
            ("win_created", u64::MAX.into()),
            ("size", Value::Numbers(vec![7, 9])),
        ];
        let printed = |json, each: bool| {
            let mut out = Vec::new();
            let mut printer = Printer::new(&mut out, json);
            let done = match each {
                true => printer.lines(&fields),
                false => printer.line(&fields),
            };
            done.unwrap();
            String::from_utf8(out).unwrap()
        };
        let words = "page=7 name=a\\\\\"\\x0A hole layout=512/16/0 reserved=00ff \
                     win_created=18446744073709551615 size=7 size=9\n";
        assert_eq!(printed(false, false), words);
        assert_eq!(printed(false, true), words.replace(' ', "\n"));
        let object = r#"{"page":7,"name":"a\\\\\"\\x0A","name_hex":"615c220a","hole":true,"layout":"512/16/0","reserved":"00ff","win_created":18446744073709551615,"size":[7,9]}"#;
        assert_eq!(printed(true, false), format!("{object}\n"));
        assert_eq!(printed(true, true), format!("{object}\n"));
    }
}
