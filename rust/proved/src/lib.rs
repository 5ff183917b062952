//! The proved library, by its C interface. Nothing checks these declarations against its source: keep them few.

use model::proper::{Cell, Constraint, Pattern};

unsafe extern "C" {
    fn pilmoert_next(form: u8, a: u32, b: u32, v: u32) -> u32;
    fn pilmoert_compare(
        arities: *const u8,
        arities_len: usize,
        left_cells: *const u8,
        left_cells_len: usize,
        left_constraints: *const u8,
        left_constraints_len: usize,
        right_cells: *const u8,
        right_cells_len: usize,
        right_constraints: *const u8,
        right_constraints_len: usize,
        out: *mut u8,
        out_len: usize,
    ) -> u32;
}

#[derive(Clone, PartialEq, Eq, Debug)]
pub enum Answer {
    Clash,
    Overlap { cells: [Cell; 12], more: bool },
    Refused(u32, usize),
}

/// The smallest code from v on in a condition's set.
pub fn next(form: u8, a: u32, b: u32, v: u32) -> Option<u32> {
    // SAFETY: numbers only.
    match unsafe { pilmoert_next(form, a, b, v) } {
        u32::MAX => None,
        code => Some(code),
    }
}

fn cell_bytes(cells: &[Cell]) -> Vec<u8> {
    let mut out = Vec::with_capacity(cells.len() * 5);
    for c in cells {
        out.push(c.letter);
        out.extend_from_slice(&c.number.to_be_bytes());
    }
    out
}

fn constraint_bytes(constraints: &[Constraint]) -> Vec<u8> {
    let mut out = Vec::with_capacity(constraints.len() * 13);
    for k in constraints {
        out.extend_from_slice(&k.variable.to_be_bytes());
        out.push(k.condition.form);
        out.extend_from_slice(&k.condition.a.to_be_bytes());
        out.extend_from_slice(&k.condition.b.to_be_bytes());
    }
    out
}

/// A pair of patterns in the library's bytes, so that a benchmark times the comparison alone.
pub struct Encoded {
    arities: [u8; 32],
    parts: [Vec<u8>; 4],
}

impl Encoded {
    pub fn new(arities: &[u8; 32], left: &Pattern, right: &Pattern) -> Encoded {
        Encoded {
            arities: *arities,
            parts: [cell_bytes(&left.cells), constraint_bytes(&left.constraints), cell_bytes(&right.cells), constraint_bytes(&right.constraints)],
        }
    }

    pub fn compare(&self) -> Answer {
        let mut out = [0u8; 61];
        let [a, b, c, d] = &self.parts;
        // SAFETY: each pointer goes with its own length, and the library keeps none of them.
        let code = unsafe {
            pilmoert_compare(
                self.arities.as_ptr(),
                self.arities.len(),
                a.as_ptr(),
                a.len(),
                b.as_ptr(),
                b.len(),
                c.as_ptr(),
                c.len(),
                d.as_ptr(),
                d.len(),
                out.as_mut_ptr(),
                out.len(),
            )
        };
        match code {
            0 => Answer::Clash,
            1 => {
                let mut cells = [Cell { letter: 0, number: 0 }; 12];
                for (cell, bytes) in cells.iter_mut().zip(out.chunks_exact(5)) {
                    cell.letter = bytes[0];
                    cell.number = u32::from_be_bytes([bytes[1], bytes[2], bytes[3], bytes[4]]);
                }
                Answer::Overlap { cells, more: out[60] == 1 }
            }
            number => Answer::Refused(number, out[0] as usize),
        }
    }
}

pub fn compare(arities: &[u8; 32], left: &Pattern, right: &Pattern) -> Answer {
    Encoded::new(arities, left, right).compare()
}
