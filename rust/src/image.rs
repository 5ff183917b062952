//! The image of a saved file: lines of 128 characters, and the store over them.

use crate::columns::{self, CELL};
use crate::proper::{self, Cell, ROW_CELLS};
use crate::store::{Full, PLACES, Store, TOP_COUNT};

pub const LINE: usize = 128;
/// Where the count begins, and the newline stands.
const COUNT: usize = ROW_CELLS * CELL;
const END: usize = LINE - 1;

#[derive(Clone, Copy, PartialEq, Eq, Debug)]
pub enum Refused {
    /// 40: the length is not that of 1 to 4,096 lines.
    Length,
    /// 41: a line is bad, at a first field from 1 to 14.
    Line { line: usize, field: usize },
    /// 42: the row of this line stands in an earlier line.
    Twice { line: usize },
}

impl std::fmt::Display for Refused {
    fn fmt(&self, f: &mut std::fmt::Formatter) -> std::fmt::Result {
        match self {
            Refused::Length => write!(f, "refused with 40"),
            Refused::Line { line, field } => write!(f, "refused with 41, line {line}, field {field}"),
            Refused::Twice { line } => write!(f, "refused with 42, line {line}"),
        }
    }
}

/// What a good line shows.
#[derive(Clone, PartialEq, Eq, Debug)]
pub enum Shown {
    Free,
    Row(Vec<Cell>, u32),
}

/// What the 128 bytes of a line show, or the first field that no proper line has after the fields before it.
pub fn read_line(arities: &[u8; 32], line: &[u8]) -> Result<Shown, usize> {
    let fields: Vec<&[u8]> = line[..COUNT].chunks(CELL).collect();
    let mut row = Vec::new();
    for (i, field) in fields.iter().enumerate() {
        let complete = row.is_empty() || proper::check_row(arities, &row).is_ok();
        if columns::is_blank(field) && complete {
            // Behind the row, or on a free line, only blanks go on.
            if let Some(other) = fields[i..].iter().position(|f| !columns::is_blank(f)) {
                return Err(i + other + 1);
            }
            break;
        }
        row.push(columns::read_cell(field).ok_or(i + 1)?);
        if !proper::begins_row(arities, &row) {
            return Err(i + 1);
        }
    }
    read_end(line, row)
}

/// The count and the newline of a line whose cells are in order.
fn read_end(line: &[u8], row: Vec<Cell>) -> Result<Shown, usize> {
    let shown = if row.is_empty() {
        columns::is_blank(&line[COUNT..END]).then_some(Shown::Free)
    } else {
        columns::read_number(&line[COUNT..END]).filter(|n| *n <= TOP_COUNT).map(|n| Shown::Row(row, n))
    };
    let shown = shown.ok_or(13usize)?;
    if line[END] == b'\n' { Ok(shown) } else { Err(14) }
}

pub fn write_line(row: &[Cell], count: u32) -> Vec<u8> {
    let mut line = row_columns(row);
    columns::write_number(&mut line, END - COUNT, u64::from(count));
    line.push(b'\n');
    line
}

pub fn free_line() -> Vec<u8> {
    let mut line = vec![b' '; END];
    line.push(b'\n');
    line
}

/// The first 120 columns of the row's line.
fn row_columns(row: &[Cell]) -> Vec<u8> {
    let mut out = Vec::with_capacity(LINE);
    for cell in row {
        columns::write_cell(&mut out, *cell);
    }
    out.resize(COUNT, b' ');
    out
}

/// The bytes of an image that was opened.
#[derive(Clone, PartialEq, Eq, Debug)]
pub struct Image {
    lines: Vec<Vec<u8>>,
}

impl Image {
    pub fn open(arities: &[u8; 32], bytes: &[u8]) -> Result<Image, Refused> {
        let lines: Vec<Vec<u8>> = bytes.chunks(LINE).map(<[u8]>::to_vec).collect();
        if !bytes.len().is_multiple_of(LINE) || lines.is_empty() || lines.len() > PLACES {
            return Err(Refused::Length);
        }
        let mut earlier = std::collections::HashSet::new();
        for (i, line) in lines.iter().enumerate() {
            let shown = read_line(arities, line).map_err(|field| Refused::Line { line: i, field })?;
            // Columns show at most one row, so equal rows have equal columns.
            if shown != Shown::Free && !earlier.insert(&line[..COUNT]) {
                return Err(Refused::Twice { line: i });
            }
        }
        Ok(Image { lines })
    }

    pub fn bytes(&self) -> Vec<u8> {
        self.lines.concat()
    }

    fn line_of(&self, row: &[Cell]) -> Option<usize> {
        let columns = row_columns(row);
        self.lines.iter().position(|line| line[..COUNT] == columns)
    }

    /// The row and the count of a good line; none of a free one, which has no count.
    fn read(line: &[u8]) -> Option<(Vec<Cell>, u32)> {
        let row = line[..COUNT].chunks(CELL).filter_map(columns::read_cell).collect();
        Some((row, columns::read_number(&line[COUNT..END])?))
    }
}

impl Store for Image {
    fn places(&self) -> usize {
        self.lines.len()
    }

    fn rows(&self) -> Vec<(Vec<Cell>, u32)> {
        self.lines.iter().filter_map(|line| Image::read(line)).collect()
    }

    fn find(&self, row: &[Cell]) -> Option<u32> {
        columns::read_number(&self.lines[self.line_of(row)?][COUNT..END])
    }

    fn put(&mut self, row: &[Cell], count: u32) -> Result<(), Full> {
        let first_free = || self.lines.iter().position(|line| columns::is_blank(&line[..END]));
        let place = self.line_of(row).or_else(first_free).ok_or(Full)?;
        self.lines[place] = write_line(row, count);
        Ok(())
    }

    fn drop_row(&mut self, row: &[Cell]) -> bool {
        let place = self.line_of(row);
        if let Some(i) = place {
            self.lines[i] = free_line();
        }
        place.is_some()
    }
}
