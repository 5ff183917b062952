//! Numbers and cells in fixed columns.

use crate::proper::Cell;

pub const CELL: usize = 10;

/// The number that the columns show: blanks, then digits to the end, the first of them no zero unless it is alone.
pub fn read_number(columns: &[u8]) -> Option<u32> {
    let digits = trim_start(columns);
    let leading_zero = digits.len() > 1 && digits[0] == b'0';
    if digits.is_empty() || leading_zero || !digits.iter().all(u8::is_ascii_digit) {
        return None;
    }
    std::str::from_utf8(digits).ok()?.parse().ok()
}

/// The cell that ten columns show. A blank letter shows none.
pub fn read_cell(columns: &[u8]) -> Option<Cell> {
    let (letter, number) = columns.split_first()?;
    if *letter == b' ' {
        return None;
    }
    Some(Cell::new(*letter, read_number(number)?))
}

pub fn write_number(out: &mut Vec<u8>, width: usize, number: u64) {
    out.extend_from_slice(format!("{number:>width$}").as_bytes());
}

pub fn write_blanks(out: &mut Vec<u8>, width: usize) {
    out.resize(out.len() + width, b' ');
}

/// The number, or blanks where there is none.
pub fn write_figure(out: &mut Vec<u8>, width: usize, number: Option<u64>) {
    match number {
        Some(n) => write_number(out, width, n),
        None => write_blanks(out, width),
    }
}

pub fn write_cell(out: &mut Vec<u8>, cell: Cell) {
    out.push(cell.letter);
    write_number(out, CELL - 1, u64::from(cell.number));
}

pub fn is_blank(columns: &[u8]) -> bool {
    columns.iter().all(|b| *b == b' ')
}

/// The columns without the blanks at their start; other white space is none.
fn trim_start(columns: &[u8]) -> &[u8] {
    let start = columns.iter().position(|b| *b != b' ').unwrap_or(columns.len());
    &columns[start..]
}

/// The columns without the blanks at their end.
pub fn trim_end(columns: &[u8]) -> &[u8] {
    let end = columns.iter().rposition(|b| *b != b' ').map_or(0, |last| last + 1);
    &columns[..end]
}
