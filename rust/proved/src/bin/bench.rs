//! Speed of the proved comparison, beside the unifier on trees, in one run. Both sides are optimised; patterns are encoded beforehand.
//! The worst pair is looked for by changing a slow pair a little again and again.

use link::Encoded;
use model::draw::Draw;
use model::proper::{ARITIES, Cell, Pattern};
use model::{generate, proper, unify};
use std::hint::black_box;
use std::time::Instant;

/// The shortest of some runs, in nanoseconds.
fn shortest(runs: u32, mut work: impl FnMut()) -> u128 {
    (0..runs)
        .map(|_| {
            let start = Instant::now();
            work();
            start.elapsed().as_nanos()
        })
        .min()
        .unwrap_or(0)
}

fn proved(pair: &(Pattern, Pattern), runs: u32) -> u128 {
    let encoded = Encoded::new(&ARITIES, &pair.0, &pair.1);
    shortest(runs, || {
        black_box(encoded.compare());
    })
}

fn trees(pair: &(Pattern, Pattern), runs: u32) -> u128 {
    let (left, right) = pair;
    shortest(runs, || {
        black_box(unify::sample(&ARITIES, left, right));
    })
}

fn proper_pair(pair: &(Pattern, Pattern)) -> bool {
    [&pair.0, &pair.1].iter().all(|p| proper::check_pattern(&ARITIES, p).is_ok())
}

/// The pair with some cells changed for others of the same arity.
fn changed(draw: &mut Draw, pair: &(Pattern, Pattern)) -> (Pattern, Pattern) {
    let mut pair = pair.clone();
    for _ in 0..1 + draw.below(3) {
        let side = if draw.chance(50) { &mut pair.0 } else { &mut pair.1 };
        let i = draw.below(side.cells.len() as u64) as usize;
        if side.cells[i].letter != b'S' {
            side.cells[i] = Cell::new(b'V', draw.below(8) as u32);
        }
    }
    pair
}

fn main() {
    let mut draw = Draw::new(5);
    let pairs: Vec<_> = (0..20_000).map(|_| generate::pair(&mut draw)).filter(proper_pair).collect();
    let ours: u128 = pairs.iter().map(|p| proved(p, 3)).sum();
    let theirs: u128 = pairs.iter().map(|p| trees(p, 3)).sum();
    let n = pairs.len() as u128;
    println!("typical pairs: proved {} ns, trees {} ns each, ratio {:.2}", ours / n, theirs / n, ours as f64 / theirs as f64);

    let mut worst = pairs.iter().max_by_key(|p| proved(p, 5)).cloned().expect("some pair");
    let mut time = proved(&worst, 20);
    for round in 0..600_000 {
        let base = if round % 50 == 0 { generate::pair(&mut draw) } else { worst.clone() };
        let next = changed(&mut draw, &base);
        if proper_pair(&next) && proved(&next, 3) > time {
            let again = proved(&next, 20);
            if again > time {
                time = again;
                worst = next;
            }
        }
    }
    println!("worst pair found: proved {} ns, trees {} ns", proved(&worst, 50), trees(&worst, 50));
    println!("  left  {}", cells(&worst.0));
    println!("  right {}", cells(&worst.1));
}

fn cells(p: &Pattern) -> String {
    p.cells.iter().map(|c| format!("{}{}", c.letter as char, c.number)).collect::<Vec<_>>().join(" ")
}
