//! Images to compare programs on: valid ones, and such with one line or byte that is wrong.

use crate::draw::Draw;
use crate::generate::{self, cell};
use crate::image::{self, LINE};
use crate::proper::Cell;
use crate::store::PLACES;

/// A valid image of few places, or of many.
pub fn valid(draw: &mut Draw) -> Vec<u8> {
    let places = match draw.below(40) {
        0 => PLACES,
        1..=4 => 64,
        _ => 1 + draw.below(12) as usize,
    };
    let spread = if places > 12 { 1_000_000_000 } else { 4 };
    let free = *draw.pick(&[0, 20, 60, 100]);
    let mut rows: std::collections::BTreeSet<Vec<Cell>> = Default::default();
    let mut bytes = Vec::new();
    for _ in 0..places {
        let row = generate::row(draw, spread);
        let count = *draw.pick(&[0, 7, 250, 99_999, 999_999]);
        let line = if draw.chance(free) || !rows.insert(row.clone()) { image::free_line() } else { image::write_line(&row, count) };
        bytes.extend_from_slice(&line);
    }
    bytes
}

/// A valid image with something changed in it; it may be valid still.
pub fn damaged(draw: &mut Draw) -> Vec<u8> {
    let mut bytes = valid(draw);
    let k = draw.below(bytes.len() as u64) as usize;
    let line = k / LINE * LINE..(k / LINE + 1) * LINE;
    match draw.below(13) {
        0 | 1 => bytes[k] = draw.below(256) as u8,
        2 | 3 => bytes[k] = *draw.pick(b" 0123456789SVNHC\n-"),
        4 => drop(bytes.remove(k)),
        5 => bytes.insert(k, b' '),
        6 => wrong_length(draw, &mut bytes),
        7 => {
            // The same row in two lines, with its count or another one.
            let mut twice = bytes[line.clone()].to_vec();
            if draw.chance(50) {
                twice[LINE - 2] = b'1';
            }
            bytes.extend_from_slice(&twice);
        }
        8 => leading_zero(draw, &mut bytes[line]),
        9 => {
            let count = draw.pick(&[b"1000000", b"9999999", b"       ", b"000000 "]).as_slice();
            bytes[line.start + 120..line.start + 127].copy_from_slice(count);
        }
        10 => bytes[line].copy_from_slice(&wrong_line(draw)),
        11 => bytes[line.end - 1] = *draw.pick(b" 0\r\0"),
        _ => {
            // One field moved, blanked or taken from elsewhere.
            let (to, from) = (draw.below(12) as usize * 10 + line.start, draw.below(12) as usize * 10 + line.start);
            let field = bytes[from..from + 10].to_vec();
            bytes[to..to + 10].copy_from_slice(&field);
        }
    }
    bytes
}

fn wrong_length(draw: &mut Draw, bytes: &mut Vec<u8>) {
    match draw.below(4) {
        0 => bytes.clear(),
        1 => bytes.resize((PLACES + 1) * LINE, b' '),
        2 => bytes.truncate(LINE - 1),
        _ => bytes.push(b'\n'),
    }
}

fn leading_zero(draw: &mut Draw, line: &mut [u8]) {
    let starts: Vec<usize> = (1..LINE).filter(|i| line[*i].is_ascii_digit() && line[i - 1] == b' ').collect();
    if !starts.is_empty() {
        line[*draw.pick(&starts) - 1] = b'0';
    }
}

/// A line of twelve cells at most that are each a cell, but no row that is proper, or just one.
fn wrong_line(draw: &mut Draw) -> Vec<u8> {
    let mut row = generate::row(draw, 4);
    let k = draw.below(row.len() as u64) as usize;
    match draw.below(7) {
        0 => row = vec![cell(b'S', 1); 1 + draw.below(12) as usize],
        1 => row = vec![cell(b'S', 2); 1 + draw.below(12) as usize],
        2 => row.resize(12, cell(b'S', 3)),
        3 => row.truncate(k),
        4 => row[k] = *draw.pick(&[cell(b'V', 0), cell(b'S', 32), cell(b'H', 168), cell(b'C', 24), cell(b'Q', 1), cell(b'N', 999_999_999)]),
        5 => row.push(cell(b'N', 1)),
        _ => row.insert(k, cell(b'S', 3)),
    }
    row.truncate(12);
    image::write_line(&row, 12)
}
