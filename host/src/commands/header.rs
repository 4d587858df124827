//! `header DUMP PAGE`: the fields of a header page, a line each.

use super::Opened;
use crate::failure::Failure;
use crate::ffi::{self, Geometry, HeaderAnswer};
use crate::fields::{line, Field, Printer, Value};
use crate::refusal::Asked;
use crate::typed::Typed;

pub fn header(opened: &Opened, page: &Typed, out: &mut Printer<'_>) -> Result<(), Failure> {
    let asked = Asked {
        page,
        ..opened.asked()
    };
    let header = Header::of(&opened.dump, opened.geometry(), page.number);
    opened.given(header.numbers, asked)?;
    out.lines(&header.fields())?;
    opened.check_length()
}

/// The fields of a header, or the refusal in `numbers`.
pub struct Header<'a> {
    pub numbers: HeaderAnswer,
    name: &'a [u8],
    alias: &'a [u8],
    reserved: &'a [u8],
}

impl<'a> Header<'a> {
    pub fn of(dump: &'a [u8], on: Geometry, page: u32) -> Header<'a> {
        Header {
            numbers: ffi::header(dump, on, page),
            name: ffi::header_name(dump, on, page).of(dump),
            alias: ffi::header_alias(dump, on, page).of(dump),
            reserved: ffi::header_reserved(dump, on, page).of(dump),
        }
    }

    /// The fields on one line, those that are bytes whole and in hex.
    pub fn line(&self) -> String {
        let fields = self.fields().map(|(name, value)| match value {
            Value::Text(bytes) => (name, Value::Bytes(bytes)),
            _ => (name, value),
        });
        line(&fields)
    }

    /// The fields with their names, in the table's order.
    pub fn fields(&self) -> [Field<'a>; 24] {
        let n = &self.numbers;
        [
            ("type", n.page_type.into()),
            ("parent", n.parent.into()),
            ("unused1", n.unused1.into()),
            ("name", Value::Text(self.name)),
            ("unused2", n.unused2.into()),
            ("mode", n.mode.into()),
            ("uid", n.uid.into()),
            ("gid", n.gid.into()),
            ("accessed", n.accessed.into()),
            ("modified", n.modified.into()),
            ("created", n.created.into()),
            ("file_size", n.file_size.into()),
            ("equivalent_id", n.equivalent_id.into()),
            ("alias", Value::Text(self.alias)),
            ("rdev", n.rdev.into()),
            ("win_created", n.win_created.into()),
            ("win_accessed", n.win_accessed.into()),
            ("win_modified", n.win_modified.into()),
            ("inband_shadow", n.inband_shadow.into()),
            ("inband_shrink", n.inband_shrink.into()),
            ("size_high", n.size_high.into()),
            ("reserved", Value::Bytes(self.reserved)),
            ("shadowed_id", n.shadowed_id.into()),
            ("shrink", n.shrink.into()),
        ]
    }
}
