//! `find DUMP`: the layout.

use super::Opened;
use crate::failure::Failure;
use crate::fields::Printer;

pub fn find(opened: &Opened, out: &mut Printer<'_>) -> Result<(), Failure> {
    Ok(out.lines(&[("layout", opened.layout.to_string().into())])?)
}
