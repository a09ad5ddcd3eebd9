//! Cells in columns that are as wide as they have to be.

use std::fmt::{Display, Write};

use crate::visible;

/// On which side of its column a cell stands.
#[derive(Clone, Copy, PartialEq, Eq)]
pub enum Side {
    Left,
    Right,
}

/// A table of cells below their heads.
pub struct Grid {
    columns: Vec<Column>,
    /// The texts of all cells, row by row, one directly behind the other.
    text: String,
    /// Where each cell ends in the text, and how wide it is.
    cells: Vec<(usize, usize)>,
}

struct Column {
    head: &'static str,
    side: Side,
    /// How wide its widest cell is.
    widest: usize,
}

impl Grid {
    /// A table without rows. A head that starts with `>` has its column on the right.
    pub fn new(heads: &[&'static str]) -> Grid {
        let column = |head: &&'static str| match head.strip_prefix('>') {
            Some(head) => Column { head, side: Side::Right, widest: 0 },
            None => Column { head, side: Side::Left, widest: 0 },
        };
        Grid { columns: heads.iter().map(column).collect(), text: String::new(), cells: vec![] }
    }

    /// Adds a row, which has a cell for each column.
    pub fn add<const CELLS: usize>(&mut self, cells: [&dyn Display; CELLS]) {
        assert_eq!(CELLS, self.columns.len());
        for (column, cell) in self.columns.iter_mut().zip(cells) {
            let start = self.text.len();
            write!(self.text, "{cell}").expect("a string takes all");
            let width = visible::width(&self.text[start..]);
            column.widest = column.widest.max(width);
            self.cells.push((self.text.len(), width));
        }
    }

    /// Puts the lines of the table behind a text. A column that is empty in every row is left out.
    pub fn put(&self, page: &mut String) {
        if self.cells.is_empty() {
            page.push_str("  none\n");
            return;
        }
        let widths: Vec<_> = self.columns.iter().map(Column::width).collect();
        for (column, wide) in self.columns.iter().zip(&widths) {
            put_cell(page, column.side, *wide, column.head, visible::width(column.head));
        }
        end_line(page);
        let mut start = 0;
        for row in self.cells.chunks(self.columns.len()) {
            for ((column, wide), (end, width)) in self.columns.iter().zip(&widths).zip(row) {
                put_cell(page, column.side, *wide, &self.text[start..*end], *width);
                start = *end;
            }
            end_line(page);
        }
    }
}

impl Column {
    /// How wide it is; 0 where it is left out.
    fn width(&self) -> usize {
        match self.widest {
            0 => 0,
            widest => widest.max(visible::width(self.head)),
        }
    }
}

/// Puts a cell of this width behind a text, in a column that is so wide.
fn put_cell(page: &mut String, side: Side, wide: usize, cell: &str, width: usize) {
    if wide == 0 {
        return;
    }
    let free = wide - width;
    let (left, right) = if side == Side::Left { (0, free) } else { (free, 0) };
    spaces(page, 2 + left);
    page.push_str(cell);
    spaces(page, right);
}

/// Ends a line, without spaces at its end.
fn end_line(page: &mut String) {
    page.truncate(page.trim_end_matches(' ').len());
    page.push('\n');
}

fn spaces(page: &mut String, count: usize) {
    const SPACES: &str = "                                ";
    let mut left = count;
    while left > SPACES.len() {
        page.push_str(SPACES);
        left -= SPACES.len();
    }
    page.push_str(&SPACES[..left]);
}

#[cfg(test)]
mod tests {
    use super::*;

    #[test]
    fn wide_characters_line_up() {
        let mut grid = Grid::new(&[">n", "empty", "text", "end"]);
        grid.add([&9, &"", &"日本", &"a"]);
        grid.add([&10, &"", &"e\u{301}", &"b"]);
        grid.add([&11, &"", &"", &""]);
        let mut page = String::new();
        grid.put(&mut page);
        assert_eq!(page, "   n  text  end\n   9  日本  a\n  10  e\u{301}     b\n  11\n");
    }
}
