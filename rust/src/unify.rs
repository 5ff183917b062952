//! Robinson's unification on trees, with occurs check, and conditions on variables.

use crate::kinds::{self, Condition};
use crate::proper::{Cell, Constraint, Pattern};
use std::collections::BTreeMap;

#[derive(Clone, PartialEq, Eq, Debug)]
pub enum Term {
    Symbol(u32, Vec<Term>),
    Value(u8, u32),
    Variable(u32),
}

/// The term that begins at `at`, with its variables moved up by `shift`; and where it ends.
pub fn tree(arities: &[u8; 32], cells: &[Cell], at: usize, shift: u32) -> (Term, usize) {
    let c = cells[at];
    match c.letter {
        b'S' => {
            let mut next = at + 1;
            let mut args = Vec::new();
            for _ in 0..arities[c.number as usize] {
                let (arg, end) = tree(arities, cells, next, shift);
                args.push(arg);
                next = end;
            }
            (Term::Symbol(c.number, args), next)
        }
        b'V' => (Term::Variable(c.number + shift), at + 1),
        l => (Term::Value(l, c.number), at + 1),
    }
}

type Bindings = BTreeMap<u32, Term>;

fn walk(bindings: &Bindings, t: &Term) -> Term {
    let mut t = t.clone();
    while let Term::Variable(x) = t {
        match bindings.get(&x) {
            Some(u) => t = u.clone(),
            None => break,
        }
    }
    t
}

fn occurs(bindings: &Bindings, x: u32, t: &Term) -> bool {
    match walk(bindings, t) {
        Term::Variable(y) => x == y,
        Term::Value(..) => false,
        Term::Symbol(_, args) => args.iter().any(|a| occurs(bindings, x, a)),
    }
}

fn unify(bindings: &mut Bindings, s: &Term, t: &Term) -> bool {
    match (walk(bindings, s), walk(bindings, t)) {
        (Term::Variable(x), Term::Variable(y)) if x == y => true,
        (Term::Variable(x), u) | (u, Term::Variable(x)) => {
            if occurs(bindings, x, &u) {
                return false;
            }
            bindings.insert(x, u);
            true
        }
        (Term::Value(l, n), Term::Value(m, k)) => l == m && n == k,
        (Term::Symbol(f, a), Term::Symbol(g, b)) => {
            f == g && a.len() == b.len() && a.iter().zip(&b).all(|(x, y)| unify(bindings, x, y))
        }
        _ => false,
    }
}

fn flatten(bindings: &Bindings, chosen: &BTreeMap<u32, Cell>, t: &Term, out: &mut Vec<Cell>) {
    match walk(bindings, t) {
        Term::Variable(x) => out.push(chosen.get(&x).copied().unwrap_or(Cell { letter: b'S', number: 0 })),
        Term::Value(letter, number) => out.push(Cell::new(letter, number)),
        Term::Symbol(number, args) => {
            out.push(Cell { letter: b'S', number });
            for a in &args {
                flatten(bindings, chosen, a, out);
            }
        }
    }
}

/// The conditions on each variable that stays free, by variable; none if a bound one does not meet a condition on it.
fn classes(bindings: &Bindings, constraints: &[Constraint]) -> Option<BTreeMap<u32, Vec<Condition>>> {
    let mut classes: BTreeMap<u32, Vec<Condition>> = BTreeMap::new();
    for k in constraints {
        match walk(bindings, &Term::Variable(k.variable)) {
            Term::Variable(y) => classes.entry(y).or_default().push(k.condition),
            Term::Value(l, n) if kinds::letter(k.condition) == Some(l) && kinds::holds(k.condition, n) => {}
            _ => return None,
        }
    }
    Some(classes)
}

/// A row that fits both patterns, each free variable at the smallest value that is left to it; none if no row does.
pub fn sample(arities: &[u8; 32], left: &Pattern, right: &Pattern) -> Option<Vec<Cell>> {
    let (s, _) = tree(arities, &left.cells, 0, 0);
    let (t, _) = tree(arities, &right.cells, 0, 8);
    let mut bindings = Bindings::new();
    if !unify(&mut bindings, &s, &t) {
        return None;
    }
    let mut constraints = left.constraints.clone();
    constraints.extend(right.constraints.iter().map(|k| Constraint { variable: k.variable + 8, ..*k }));
    let mut chosen = BTreeMap::new();
    for (y, qs) in classes(&bindings, &constraints)? {
        let (letter, number) = kinds::smallest(&qs)?;
        chosen.insert(y, Cell::new(letter, number));
    }
    let mut row = Vec::new();
    flatten(&bindings, &chosen, &s, &mut row);
    Some(row)
}

/// Goes down a pattern and a row together, and notes what each variable stands for.
fn meets(chosen: &mut Bindings, pattern: &Term, row: &Term) -> bool {
    match (pattern, row) {
        (Term::Variable(x), _) => chosen.entry(*x).or_insert_with(|| row.clone()) == row,
        (Term::Symbol(f, a), Term::Symbol(g, b)) => f == g && a.iter().zip(b).all(|(p, r)| meets(chosen, p, r)),
        _ => pattern == row,
    }
}

/// Whether a proper row fits a proper pattern.
pub fn fits(arities: &[u8; 32], row: &[Cell], pattern: &Pattern) -> bool {
    let (r, _) = tree(arities, row, 0, 0);
    let (p, _) = tree(arities, &pattern.cells, 0, 0);
    let mut chosen = Bindings::new();
    meets(&mut chosen, &p, &r)
        && classes(&chosen, &pattern.constraints).is_some_and(|left| left.values().all(|qs| kinds::smallest(qs).is_some()))
}
