//! Compares the proved comparison with the unifier on trees: `pairs [COUNT [SEED]]`. It ends with status 1 at the first difference.

use link::Answer;
use model::draw::Draw;
use model::generate;
use model::proper::{self, ARITIES, BLANK, Pattern};
use model::unify;
use std::process::ExitCode;

/// What the rules say of a pair.
fn expected(left: &Pattern, right: &Pattern) -> Answer {
    for side in [left, right] {
        if let Err((number, place)) = proper::check_pattern(&ARITIES, side) {
            return Answer::Refused(number, place);
        }
    }
    match unify::sample(&ARITIES, left, right) {
        None => Answer::Clash,
        Some(row) => {
            let mut cells = [BLANK; 12];
            for (c, r) in cells.iter_mut().zip(&row) {
                *c = *r;
            }
            Answer::Overlap { cells, more: row.len() > 12 }
        }
    }
}

fn number(word: Option<String>, default: u64) -> u64 {
    word.and_then(|w| w.parse().ok()).unwrap_or(default)
}

fn main() -> ExitCode {
    let mut args = std::env::args().skip(1);
    let count = number(args.next(), 20_000);
    let mut draw = Draw::new(number(args.next(), 1));
    let (mut overlaps, mut clashes, mut refusals, mut long) = (0u64, 0u64, 0u64, 0u64);
    for i in 0..count {
        let (mut left, mut right) = generate::pair(&mut draw);
        if i % 10 == 9 {
            if draw.chance(50) { left = generate::damaged(&mut draw) } else { right = generate::damaged(&mut draw) }
        }
        let ours = expected(&left, &right);
        let theirs = link::compare(&ARITIES, &left, &right);
        if ours != theirs {
            eprintln!("pair {i} differs:\n left {left:?}\n right {right:?}\n rules {ours:?}\n proved {theirs:?}");
            return ExitCode::FAILURE;
        }
        match ours {
            Answer::Overlap { more, .. } => {
                overlaps += 1;
                long += u64::from(more);
            }
            Answer::Clash => clashes += 1,
            Answer::Refused(..) => refusals += 1,
        }
    }
    println!("{count} pairs agree: {overlaps} overlap ({long} with a sample of more than 12 cells), {clashes} clash, {refusals} are refused");
    ExitCode::SUCCESS
}
