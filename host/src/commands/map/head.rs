//! Above the cells: the title, what the picture shows, and the legend.

use std::ffi::OsStr;
use std::fmt::Write as _;
use std::os::unix::ffi::OsStrExt;
use std::path::Path;

use super::classes::Class;
use super::picture::{Picture, Shown, MARGIN};
use super::svg::put_text;
use crate::ffi;
use crate::fields::text;
use crate::records::newest_header;

/// Heights of the title, of a line of text and of one of the legend, and the room above
/// the cells.
const HEADING: u32 = 28;
const LINE: u32 = 20;
const ENTRY: u32 = 28;
const ABOVE_CELLS: u32 = 36;

/// The legend's entries.
const ENTRY_WIDTH: u32 = 190;
const SWATCH: u32 = 16;

/// The narrowest picture: a line of the legend.
pub const NARROWEST: u32 = 6 * ENTRY_WIDTH;

/// The most characters of a title.
const TITLE: usize = 80;

impl Picture<'_> {
    /// The name of the dump, without the folders that lead to it.
    pub fn name(&self) -> String {
        let name: &OsStr = self.opened.dump.name();
        let name = Path::new(name).file_name().unwrap_or(name);
        shortened(text(name.as_bytes()))
    }

    /// What is said below the title.
    fn lines(&self) -> Vec<String> {
        let (opened, grid) = (self.opened, &self.grid);
        let block = opened.geometry().block;
        let mut lines = vec![format!(
            "layout {}, K = {block}, {} pages in {} blocks",
            opened.layout,
            opened.pages,
            opened.pages / block
        )];
        if let Some(shown) = &self.shown {
            lines.push(self.object(shown));
        }
        let row = match (grid.gathered, grid.in_row) {
            (0, 1) => "Each cell is a page, and each row a block.".to_string(),
            (0, blocks) => format!("Each cell is a page, and each row {blocks} blocks."),
            (1, _) => "Each cell is a block, split from the left by what its pages are: by \
                       their shares, but none below an eighth."
                .to_string(),
            (blocks, _) => format!(
                "Each cell is {blocks} blocks, split from the left by what their pages are: by \
                 their shares, but none below an eighth."
            ),
        };
        lines.push(format!("{row} In front of a row is its first page."));
        if grid.gathered > 0 && self.shown.is_some() {
            lines.push("A cell with pages of the object shows these alone.".to_string());
        }
        lines
    }

    /// What is said of the object that is shown.
    fn object(&self, shown: &Shown) -> String {
        let (dump, on) = (self.pages.dump, self.pages.on);
        let object = shown.object;
        match newest_header(&shown.records) {
            Ok(page) => {
                let name = shortened(text(ffi::header_name(dump, on, page).of(dump)));
                format!("object {object}, {name}: its pages by how they stand, all others pale")
            }
            Err(_) => format!("object {object}: its pages by how they stand, all others pale"),
        }
    }

    /// Where the cells begin.
    pub fn head_height(&self) -> u32 {
        let legends = if self.shown.is_some() { 2 } else { 1 };
        MARGIN + HEADING + LINE * self.lines().len() as u32 + ENTRY * legends + ABOVE_CELLS
    }

    /// Title and legend.
    pub fn head(&self, to: &mut String) {
        put_text(to, "heading", (MARGIN, MARGIN + 14), &self.name());
        let mut y = MARGIN + HEADING;
        for line in self.lines() {
            put_text(to, "quiet", (MARGIN, y + 14), &line);
            y += LINE;
        }
        y += 8;
        if self.shown.is_some() {
            self.legend(to, Class::standings(), y, "");
            y += ENTRY;
            self.legend(to, Class::kinds(), y, "other ");
        } else {
            self.legend(to, Class::kinds(), y, "");
        }
    }

    /// A line of the legend: what each class looks like, and how many pages are of it.
    fn legend(&self, to: &mut String, classes: impl Iterator<Item = Class>, y: u32, of: &str) {
        let pale = if of.is_empty() { "" } else { " class=\"pale\"" };
        for (x, class) in (MARGIN..).step_by(ENTRY_WIDTH as usize).zip(classes) {
            let (style, name, count) = (class.style(), class.name(), self.counts.of(class));
            let (text_x, text_y) = (x + SWATCH + 8, y + 13);
            let _ = writeln!(
                to,
                "<g{pale}><rect class=\"{style}\" x=\"{x}\" y=\"{y}\" width=\"{SWATCH}\" \
                 height=\"{SWATCH}\"/></g><text x=\"{text_x}\" y=\"{text_y}\">{of}{name} \
                 <tspan class=\"count\">{count}</tspan></text>"
            );
        }
    }
}

/// A title that has room.
fn shortened(mut title: String) -> String {
    if title.len() > TITLE {
        title.truncate(TITLE);
        title.push_str("..");
    }
    title
}
