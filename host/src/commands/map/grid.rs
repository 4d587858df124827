//! Where cells stand: a row for each block and a cell for each page. Where that would be
//! too long, a row has several blocks; of very many pages a cell stands for one or more
//! blocks. Rows are broken into columns beside one another.

/// The most pages that have a cell each.
const PAGES: u32 = 1 << 16;

/// The most cells of gathered blocks, and how many of them a row has.
const GATHERED: u32 = 1 << 12;
const IN_ROW: u32 = 64;

/// A side of a cell of gathered blocks, which is split, and the gap behind it.
pub const SPLIT: u32 = 16;
const GAP: u32 = 2;

/// The widest that columns are together, the tallest that they are unless they would be
/// wider, and the fewest rows that are broken.
const WIDEST: u32 = 1280;
const TALLEST: u32 = 2100;
const FEWEST: u32 = 32;

/// Between columns, and how wide a digit of a label is.
const BETWEEN: u32 = 28;
const DIGIT: u32 = 7;

#[derive(Clone, Copy)]
pub struct Grid {
    pages: u32,
    block: u32,
    /// How many blocks a cell stands for; none where it is a page.
    pub gathered: u32,
    /// How many blocks, or gathered ones, a row has, and how many rows a column.
    pub in_row: u32,
    rows: u32,
    columns: u32,
    /// A side of a cell.
    pub cell: u32,
}

impl Grid {
    pub fn of(pages: u32, block: u32) -> Grid {
        match pages <= PAGES {
            true => Grid::by_pages(pages, block),
            false => Grid::by_blocks(pages, block),
        }
    }

    fn by_pages(pages: u32, block: u32) -> Grid {
        let side = match pages {
            0..=256 => 24,
            257..=1024 => 16,
            1025..=4096 => 12,
            4097..=16384 => 8,
            _ => 5,
        };
        let mut grid = Grid {
            pages,
            block,
            gathered: 0,
            in_row: 1,
            rows: 0,
            columns: 0,
            cell: side.min(WIDEST / block),
        }
        .broken();
        while grid.height() > TALLEST && 2 * grid.cells_across() < WIDEST {
            grid.in_row *= 2;
            grid = grid.broken();
        }
        grid
    }

    fn by_blocks(pages: u32, block: u32) -> Grid {
        let mut gathered = 1;
        while pages.div_ceil(gathered * block) > GATHERED {
            gathered *= 2;
        }
        Grid {
            pages,
            block,
            gathered,
            in_row: IN_ROW,
            rows: 0,
            columns: 0,
            cell: SPLIT,
        }
        .broken()
    }

    /// Breaks the rows into as many columns as have room.
    fn broken(self) -> Grid {
        let rows = self.all_rows();
        let most = ((WIDEST + BETWEEN) / self.column()).max(1);
        let each = rows.div_ceil(most).max(FEWEST.min(rows));
        Grid {
            rows: each,
            columns: rows.div_ceil(each),
            ..self
        }
    }

    /// How many pages a cell stands for.
    pub fn in_cell(&self) -> u32 {
        (self.gathered * self.block).max(1)
    }

    /// How many cells a row has.
    pub fn cells_in_row(&self) -> u32 {
        match self.gathered {
            0 => self.in_row * self.block,
            _ => self.in_row,
        }
    }

    pub fn cells(&self) -> u32 {
        self.pages.div_ceil(self.in_cell())
    }

    pub fn all_rows(&self) -> u32 {
        self.cells().div_ceil(self.cells_in_row())
    }

    /// The gap behind a block that has others beside it, or behind a gathered one.
    fn gap(&self) -> u32 {
        match (self.gathered, self.in_row, self.block) {
            (0, 1, _) | (0, _, 1) => 0,
            _ => GAP,
        }
    }

    /// Where a cell of a row begins.
    pub fn across(&self, at: u32) -> u32 {
        let blocks = match self.gathered {
            0 => at / self.block,
            _ => at,
        };
        at * self.cell + blocks * self.gap()
    }

    fn cells_across(&self) -> u32 {
        self.across(self.cells_in_row())
    }

    /// From one row to the next.
    fn down(&self) -> u32 {
        self.cell + if self.cell < 8 { 1 } else { GAP }
    }

    /// Room for the label of a row.
    pub fn label(&self) -> u32 {
        DIGIT * self.pages.to_string().len() as u32 + 8
    }

    /// From one column to the next.
    fn column(&self) -> u32 {
        self.label() + self.cells_across() + BETWEEN
    }

    /// Where the cells of a row begin.
    pub fn row(&self, row: u32) -> (u32, u32) {
        let x = row / self.rows * self.column() + self.label();
        (x, row % self.rows * self.down())
    }

    /// The rows with which columns begin, and how many rows each column has.
    pub fn columns(&self) -> impl Iterator<Item = (u32, u32)> + '_ {
        let begins = (0..self.columns).map(|column| column * self.rows);
        begins.map(|row| (row, self.rows.min(self.all_rows() - row)))
    }

    /// Every so many rows have a label, so that they do not meet.
    pub fn labelled(&self) -> u32 {
        12_u32.div_ceil(self.down()).next_power_of_two()
    }

    pub fn width(&self) -> u32 {
        self.columns * self.column() - BETWEEN
    }

    /// The height of so many rows.
    pub fn down_to(&self, rows: u32) -> u32 {
        rows * self.down()
    }

    pub fn height(&self) -> u32 {
        self.down_to(self.rows)
    }
}

/// The narrowest share of a cell that can be seen.
const LEAST: u32 = SPLIT / 8;

/// Widths for counts that add up to the width of a cell, by their shares; none is too
/// narrow to be seen.
pub fn shares<T: Copy>(counts: &[(T, u32)], width: u32) -> Vec<(T, u32)> {
    let all: u64 = counts.iter().map(|(_, count)| u64::from(*count)).sum();
    let room = u64::from(width) - u64::from(LEAST) * counts.len() as u64;
    let share = |count: u32| LEAST + (u64::from(count) * room / all.max(1)) as u32;
    let mut shares: Vec<(T, u32)> = counts.iter().map(|(t, c)| (*t, share(*c))).collect();
    let left = width - shares.iter().map(|(_, share)| share).sum::<u32>();
    if let Some(largest) = (0..counts.len()).max_by_key(|&at| counts[at].1) {
        shares[largest].1 += left;
    }
    shares
}

#[cfg(test)]
mod tests {
    use super::*;

    #[test]
    fn shares_fill_a_cell() {
        let widths = |counts: &[u32]| {
            let counts: Vec<((), u32)> = counts.iter().map(|count| ((), *count)).collect();
            let shares = shares(&counts, SPLIT);
            shares.iter().map(|(_, share)| *share).collect::<Vec<_>>()
        };
        assert_eq!(widths(&[7]), [16]);
        assert_eq!(widths(&[1, 1_000_000]), [2, 14]);
        assert_eq!(widths(&[10, 10]), [8, 8]);
        assert_eq!(widths(&[1; 6]), [2, 2, 2, 2, 2, 6]);
    }

    /// Every page has a cell, and a picture is no larger than a browser shows well.
    #[test]
    fn grids_of_every_length() {
        for block in [1, 2, 4, 16, 64, 128, 256] {
            for pages in [
                1, 64, 1025, 4097, 16_385, 65_536, 65_537, 500_000, 2_033_601,
            ] {
                let grid = Grid::of(pages, block);
                let of = format!("{pages} in blocks of {block}");
                assert!(grid.cells() * grid.in_cell() >= pages, "{of}");
                let in_columns: u32 = grid.columns().map(|(_, rows)| rows).sum();
                assert_eq!(in_columns, grid.all_rows(), "{of}");
                assert!(grid.width() < 1400, "{of}: {}", grid.width());
                assert!(grid.height() <= 2 * TALLEST, "{of}: {}", grid.height());
                let (x, y) = grid.row(grid.all_rows() - 1);
                assert!(x + grid.cells_across() <= grid.width(), "{of}");
                assert!(y + grid.cell <= grid.height(), "{of}");
            }
        }
    }
}
