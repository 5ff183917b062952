//! Which cells and constraints are accepted, and where the others go wrong.

use crate::kinds::{self, Condition};

#[derive(Clone, Copy, PartialEq, Eq, PartialOrd, Ord, Debug)]
pub struct Cell {
    pub letter: u8,
    pub number: u32,
}

impl Cell {
    pub fn new(letter: u8, number: u32) -> Cell {
        Cell { letter, number }
    }
}

/// What stands where there is no cell.
pub const BLANK: Cell = Cell { letter: b' ', number: 0 };

#[derive(Clone, Copy, PartialEq, Eq, Debug)]
pub struct Constraint {
    pub variable: u32,
    pub condition: Condition,
}

#[derive(Clone, PartialEq, Eq, Debug, Default)]
pub struct Pattern {
    pub cells: Vec<Cell>,
    pub constraints: Vec<Constraint>,
}

/// Symbol 1 has four arguments, symbol 2 two, symbol 3 one, and the others none.
pub const ARITIES: [u8; 32] = {
    let mut arities = [0; 32];
    arities[1] = 4;
    arities[2] = 2;
    arities[3] = 1;
    arities
};

/// The most cells of a row in a call or a store, and of a pattern.
pub const ROW_CELLS: usize = 12;
pub const PATTERN_CELLS: usize = 24;

/// A refusal's number and place.
pub type Fault = (u32, usize);

pub fn check_arities(arities: &[u8; 32]) -> Result<(), Fault> {
    match arities.iter().enumerate().find(|(i, a)| **a > 7 || (*i == 0 && **a > 0)) {
        Some((symbol, _)) => Err((19, symbol)),
        None => Ok(()),
    }
}

/// The terms still open after some cells, as a stack of how many arguments each open symbol still lacks.
fn open_after(arities: &[u8; 32], cells: &[Cell]) -> Option<Vec<u8>> {
    let mut open: Vec<u8> = vec![1];
    for c in cells {
        while open.last() == Some(&0) {
            open.pop();
        }
        *open.last_mut()? -= 1;
        if c.letter == b'S' {
            open.push(arities[c.number as usize]);
        }
    }
    Some(open)
}

/// Whether some row (or pattern) of at most `limit` cells begins with these cells, of which each is a cell that it may have.
fn begins_some(arities: &[u8; 32], cells: &[Cell], limit: usize) -> bool {
    if cells.first().is_some_and(|c| c.letter != b'S') {
        return false;
    }
    match open_after(arities, cells) {
        Some(open) => cells.len() + open.iter().map(|n| *n as usize).sum::<usize>() <= limit,
        None => false,
    }
}

/// The first fault of the cells of a row or a pattern of at most `limit` cells, whose variables are below `variables`.
fn check_cells(arities: &[u8; 32], variables: u32, limit: usize, cells: &[Cell]) -> Result<(), Fault> {
    for (i, c) in cells.iter().enumerate() {
        let allowed = match c.letter {
            b'S' => c.number < 32,
            b'V' => c.number < variables,
            l => match kinds::top(l) {
                Some(t) if c.number <= t => true,
                _ => return Err((20, i)),
            },
        };
        if !allowed || !begins_some(arities, &cells[..=i], limit) {
            return Err((21, i));
        }
    }
    match open_after(arities, cells) {
        Some(open) if open.iter().all(|n| *n == 0) => Ok(()),
        _ => Err((21, cells.len())),
    }
}

pub fn check_constraints(constraints: &[Constraint]) -> Result<(), Fault> {
    for (i, k) in constraints.iter().enumerate() {
        if i >= 8 || k.variable > 7 {
            return Err((23, i));
        }
        if kinds::letter(k.condition).is_none() {
            return Err((22, i));
        }
    }
    Ok(())
}

pub fn check_row(arities: &[u8; 32], cells: &[Cell]) -> Result<(), Fault> {
    check_cells(arities, 0, ROW_CELLS, cells)
}

/// Whether some row in a call or a store begins with these cells.
pub fn begins_row(arities: &[u8; 32], cells: &[Cell]) -> bool {
    match check_row(arities, cells) {
        Ok(()) => true,
        Err((_, place)) => place == cells.len(),
    }
}

pub fn check_pattern(arities: &[u8; 32], pattern: &Pattern) -> Result<(), Fault> {
    check_cells(arities, 8, PATTERN_CELLS, &pattern.cells)?;
    check_constraints(&pattern.constraints)
}
