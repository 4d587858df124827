//! The whole picture, and in it the cells of all pages.

use std::fmt::Write as _;

use super::super::{pages, records, Opened};
use super::classes::{Class, Counts, Pages};
use super::grid::{shares, Grid};
use super::head::NARROWEST;
use super::svg::{escaped, put_text, put_title, Rectangle, Shapes};
use crate::ffi::StandingAnswer;
use crate::fields::line;
use crate::progress::Progress;

const STYLE: &str = include_str!("style.css");
const PATTERNS: &str = include_str!("patterns.xml");

/// Around the picture.
pub const MARGIN: u32 = 24;

/// The most cells, or else rows, of which something is said when the pointer is there.
const SAID: u32 = 1 << 12;

/// An object whose pages are shown by how they stand.
pub struct Shown {
    pub object: u32,
    pub records: Vec<StandingAnswer>,
}

pub struct Picture<'o> {
    pub opened: &'o Opened,
    pub shown: Option<Shown>,
    pub pages: Pages<'o>,
    pub grid: Grid,
    pub counts: Counts,
    shapes: Shapes,
    said: String,
    labels: String,
    /// Where the grid begins.
    top: u32,
}

impl<'o> Picture<'o> {
    pub fn of(opened: &'o Opened, shown: Option<Shown>) -> Picture<'o> {
        let on = opened.geometry();
        let records = shown.iter().flat_map(|shown| &shown.records);
        let standings = records.map(|record| (record.page, *record)).collect();
        Picture {
            opened,
            shown,
            pages: Pages {
                dump: &opened.dump,
                on,
                standings,
            },
            grid: Grid::of(opened.pages, on.block),
            counts: Counts::default(),
            shapes: Shapes::default(),
            said: String::new(),
            labels: String::new(),
            top: 0,
        }
    }

    pub fn drawn(mut self) -> String {
        self.top = self.head_height();
        let progress = Progress::new("drawing", Some(self.opened.pages.into()));
        for row in 0..self.grid.all_rows() {
            let pages = self.row(row);
            progress.add(pages.into());
        }
        let width = self.grid.width().max(NARROWEST) + 2 * MARGIN;
        let height = self.top + self.grid.height() + MARGIN;
        let mut to = self.begin(width, height);
        self.head(&mut to);
        self.body(&mut to);
        to.push_str("</svg>\n");
        to
    }

    /// Draws the cells of a row, and gives how many pages they are.
    fn row(&mut self, row: u32) -> u32 {
        let grid = self.grid;
        let (x, y) = grid.row(row);
        let (x, y) = (x + MARGIN, y + self.top);
        let first = row * grid.cells_in_row();
        let last = (first + grid.cells_in_row()).min(grid.cells());
        let mut of_row = Counts::default();
        for cell in first..last {
            let place = Rectangle {
                x: x + grid.across(cell - first),
                y,
                width: grid.cell,
                height: grid.cell,
            };
            let counts = self.cell(cell, place);
            of_row.add(&counts);
        }
        let (begin, end) = (first * grid.in_cell(), self.page_at(last));
        if grid.cells() > SAID && grid.all_rows() <= SAID {
            let width = grid.across(last - first);
            let height = grid.cell;
            let place = Rectangle {
                x,
                y,
                width,
                height,
            };
            put_title(&mut self.said, place, &summary(begin, end, &of_row));
        }
        if row.is_multiple_of(grid.labelled()) {
            let at = (x - 6, y + (grid.cell + 8) / 2);
            put_text(&mut self.labels, "label row", at, &begin.to_string());
        }
        self.counts.add(&of_row);
        end - begin
    }

    /// The first page of a cell, or where all pages end.
    fn page_at(&self, cell: u32) -> u32 {
        let page = u64::from(cell) * u64::from(self.grid.in_cell());
        page.min(self.opened.pages.into()) as u32
    }

    /// Draws a cell, split by what its pages are shown as.
    fn cell(&mut self, cell: u32, place: Rectangle) -> Counts {
        let (begin, end) = (self.page_at(cell), self.page_at(cell + 1));
        let mut counts = Counts::default();
        for page in begin..end {
            if let Some(class) = self.pages.class(page) {
                *counts.of_mut(class) += 1;
            }
        }
        let mut x = place.x;
        for (class, width) in shares(&counts.telling(), place.width) {
            self.shapes.add(class, Rectangle { x, width, ..place });
            x += width;
        }
        if self.grid.cells() <= SAID {
            let said = match self.grid.gathered {
                0 => self.page(begin),
                _ => summary(begin, end, &counts),
            };
            put_title(&mut self.said, place, &said);
        }
        counts
    }

    /// What a page says, as other commands print it.
    fn page(&self, page: u32) -> String {
        let (dump, on) = (self.pages.dump, self.pages.on);
        line(&match self.pages.standings.get(&page) {
            Some(record) => records::line(dump, on, record),
            None => pages::line(dump, on, page),
        })
    }

    fn begin(&self, width: u32, height: u32) -> String {
        let name = escaped(&self.name());
        format!(
            "<?xml version=\"1.0\" encoding=\"UTF-8\"?>\n\
             <svg xmlns=\"http://www.w3.org/2000/svg\" width=\"{width}\" height=\"{height}\" \
             viewBox=\"0 0 {width} {height}\" role=\"img\">\n\
             <title>Map of {name}</title>\n\
             <style>\n{STYLE}</style>\n\
             {PATTERNS}\
             <rect class=\"ground\" width=\"{width}\" height=\"{height}\"/>\n"
        )
    }

    /// The cells, what parts them, their labels, and what is said of them.
    fn body(&mut self, to: &mut String) {
        let pale = if self.shown.is_some() {
            " class=\"pale\""
        } else {
            ""
        };
        let _ = writeln!(to, "<g{pale}>");
        Class::kinds().for_each(|class| self.shapes.put(class, to));
        to.push_str("</g>\n<g>\n");
        Class::standings().for_each(|class| self.shapes.put(class, to));
        to.push_str("</g>\n");
        if self.grid.gathered == 0 {
            self.between_cells(to);
        }
        to.push_str(&self.labels);
        let said = &self.said;
        let _ = writeln!(to, "<g class=\"over\" fill-opacity=\"0\">\n{said}</g>");
    }

    /// Lines between the cells of each column, and above it which page of a row it is.
    fn between_cells(&self, to: &mut String) {
        let grid = &self.grid;
        let width = if grid.cell < 8 { "0.5" } else { "1" };
        let every = 30_u32.div_ceil(grid.cell).next_power_of_two();
        let mut path = String::new();
        for (row, rows) in grid.columns() {
            let (x, y) = grid.row(row);
            let (x, y) = (x + MARGIN, y + self.top);
            let down = grid.down_to(rows);
            for cell in 0..grid.cells_in_row() {
                let x = x + grid.across(cell);
                let _ = write!(path, "M{x} {y}v{down}");
                if cell % every == 0 {
                    put_text(to, "label", (x, y - 6), &format!("+{cell}"));
                }
            }
        }
        let _ = writeln!(
            to,
            "<path class=\"line\" stroke-width=\"{width}\" d=\"{path}\"/>"
        );
    }
}

/// How many pages are of each class.
fn summary(begin: u32, end: u32, counts: &Counts) -> String {
    let counts = counts.present().into_iter();
    let counts = counts.map(|(class, count)| format!("{count} {}", class.name()));
    let counts: Vec<String> = counts.collect();
    format!("pages {begin} to {}: {}", end - 1, counts.join(", "))
}
