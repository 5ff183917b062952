//! Pairs of patterns: shallow and deep, with repeated variables, near-circles, constraints of all kinds, also on absent variables. And rows.

use crate::draw::Draw;
use crate::kinds::Condition;
use crate::proper::{ARITIES, Cell, Constraint, Pattern};

pub fn cell(letter: u8, number: u64) -> Cell {
    Cell::new(letter, number as u32)
}

fn value(d: &mut Draw) -> Cell {
    match d.below(6) {
        0 => cell(b'H', d.below(168)),
        1 => cell(b'C', d.below(24)),
        _ => cell(b'N', d.below(5)),
    }
}

/// One term of at most `room` cells, behind `out`.
fn term(d: &mut Draw, room: usize, variables: u64, deep: u64, out: &mut Vec<Cell>) {
    if room > 1 && d.chance(deep) {
        let fitting: Vec<u32> = (1..4).filter(|s| (ARITIES[*s as usize] as usize) < room).collect();
        let symbol = *d.pick(&fitting);
        symbol_term(d, symbol, room, variables, deep, out);
    } else if variables > 0 && d.chance(55) {
        out.push(cell(b'V', d.below(variables)));
    } else if d.chance(15) {
        out.push(Cell::new(b'S', 0));
    } else {
        out.push(value(d));
    }
}

fn symbol_term(d: &mut Draw, symbol: u32, room: usize, variables: u64, deep: u64, out: &mut Vec<Cell>) {
    out.push(Cell::new(b'S', symbol));
    let end = out.len() - 1 + room;
    let args = ARITIES[symbol as usize] as usize;
    for k in 0..args {
        let left = end - out.len() - (args - 1 - k);
        term(d, left, variables, deep, out);
    }
}

fn condition(d: &mut Draw) -> Condition {
    match d.below(9) {
        0..=3 => Condition { form: b'B', a: d.below(4) as u32, b: d.below(6) as u32 },
        4..=5 => Condition { form: b'X', a: d.below(5) as u32, b: 0 },
        6 => Condition { form: b'W', a: d.below(128) as u32, b: (d.below(16_777_216) & d.below(16_777_216)) as u32 },
        7 => Condition { form: b'M', a: (d.below(16_777_216) & d.below(16_777_216)) as u32, b: 0 },
        _ => Condition { form: b'X', a: 999_999_999, b: 0 },
    }
}

pub fn constraints(d: &mut Draw) -> Vec<Constraint> {
    let count = if d.chance(50) { 0 } else { d.below(5) };
    (0..count).map(|_| Constraint { variable: d.below(4) as u32, condition: condition(d) }).collect()
}

fn pattern(d: &mut Draw) -> Vec<Cell> {
    let room = if d.chance(30) { 24 } else { 3 + d.below(12) as usize };
    let deep = *d.pick(&[15, 45, 80]);
    let variables = d.below(5);
    let symbol = 2 + d.below(2) as u32;
    let mut cells = Vec::new();
    symbol_term(d, symbol, room, variables, deep, &mut cells);
    cells
}

/// The same pattern with some cells without arguments turned into variables or other values.
pub fn altered(d: &mut Draw, cells: &[Cell]) -> Vec<Cell> {
    let variables = 1 + d.below(5);
    let mut out = cells.to_vec();
    for c in out.iter_mut().skip(1) {
        if c.letter != b'S' && d.chance(50) {
            *c = if d.chance(75) { cell(b'V', d.below(variables)) } else { value(d) };
        }
    }
    out
}

pub fn pair(d: &mut Draw) -> (Pattern, Pattern) {
    let left = pattern(d);
    let right = if d.chance(70) { altered(d, &left) } else { pattern(d) };
    (Pattern { cells: left, constraints: constraints(d) }, Pattern { cells: right, constraints: constraints(d) })
}

/// A pattern with something wrong in it, or not.
pub fn damaged(d: &mut Draw) -> Pattern {
    let mut cells = pattern(d);
    let mut ks = constraints(d);
    match d.below(8) {
        0 => cells.truncate(d.below(cells.len() as u64 + 1) as usize),
        1 => cells.push(value(d)),
        2 => {
            let i = d.below(cells.len() as u64) as usize;
            cells[i].number = *d.pick(&[7, 8, 23, 24, 31, 32, 167, 168, 999_999_999, 1_000_000_000, u32::MAX]);
        }
        3 => {
            let i = d.below(cells.len() as u64) as usize;
            cells[i].letter = d.below(256) as u8;
        }
        4 => cells.extend_from_slice(&vec![Cell::new(b'S', 1); d.below(30) as usize]),
        5 => {
            while ks.len() < 9 {
                ks.push(Constraint { variable: d.below(9) as u32, condition: condition(d) });
            }
        }
        6 => ks.push(Constraint {
            variable: d.below(10) as u32,
            condition: Condition { form: d.below(256) as u8, a: d.below(1_000_000_002) as u32, b: d.below(3) as u32 },
        }),
        _ => {}
    }
    Pattern { cells, constraints: ks }
}

pub fn hour(d: &mut Draw) -> Cell {
    cell(b'H', *d.pick(&[0, 7, 8, 31, 32, 167]))
}

pub fn class(d: &mut Draw) -> Cell {
    cell(b'C', *d.pick(&[0, 3, 23]))
}

fn arm(d: &mut Draw, spread: u64, out: &mut Vec<Cell>) {
    if d.chance(10) {
        out.push(cell(b'S', 3));
    }
    out.push(cell(b'N', d.below(spread)));
}

fn turn(d: &mut Draw, spread: u64, out: &mut Vec<Cell>) {
    out.push(cell(b'S', 2));
    arm(d, spread, out);
    arm(d, spread, out);
}

/// A proper row, mostly a turn or a count, with junctions and arms below `spread`.
pub fn row(d: &mut Draw, spread: u64) -> Vec<Cell> {
    let mut out = Vec::new();
    match d.below(20) {
        0..=9 => turn(d, spread, &mut out),
        10..=16 => {
            out.extend_from_slice(&[cell(b'S', 1), cell(b'N', d.below(spread)), hour(d), class(d)]);
            turn(d, spread, &mut out);
        }
        17 => {
            out.push(cell(b'S', 3));
            arm(d, spread, &mut out);
        }
        18 => out.push(cell(b'S', *d.pick(&[0, 4, 31]))),
        _ => {
            // A row of the largest size, or about it.
            out.resize(8 + d.below(4) as usize, cell(b'S', 3));
            out.push(cell(b'N', 1));
        }
    }
    out
}
