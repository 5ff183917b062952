//! Cells and patterns from words, as `describe` reads them: `S2 N3 V0 V0:B:1:5`.
#![allow(dead_code)]

use model::kinds::Condition;
use model::proper::{Cell, Constraint, Pattern};

fn number(word: &str) -> u32 {
    word.parse().expect("a number")
}

pub fn cells(words: &str) -> Vec<Cell> {
    words.split_whitespace().map(|w| Cell::new(w.as_bytes()[0], number(&w[1..]))).collect()
}

pub fn pattern(words: &str) -> Pattern {
    let (constraints, cells): (Vec<&str>, Vec<&str>) = words.split_whitespace().partition(|w| w.contains(':'));
    let constraint = |word: &&str| {
        let parts: Vec<&str> = word.split(':').collect();
        let condition = Condition { form: parts[1].as_bytes()[0], a: number(parts[2]), b: number(parts[3]) };
        Constraint { variable: number(&parts[0][1..]), condition }
    };
    Pattern { cells: self::cells(&cells.join(" ")), constraints: constraints.iter().map(constraint).collect() }
}
