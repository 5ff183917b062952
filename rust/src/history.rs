//! A check of histories: whether the answers on a printed sheet are those of a serial order, from the request lines and the
//! answer lines alone.

use crate::proper::{self, ARITIES, Cell, Pattern};
use crate::sheet::{self, Answer, Request};
use crate::unify;
use std::collections::{BTreeMap, BTreeSet};

type Map = BTreeMap<Vec<Cell>, u32>;

/// A granted call of one transaction, with what was printed as its answer.
#[derive(Debug)]
enum Step {
    Look { row: Vec<Cell>, printed: Option<u64> },
    Survey { pattern: Pattern, printed: (Option<u64>, Option<u64>) },
    Write { row: Vec<Cell>, count: u32 },
    Strike { row: Vec<Cell> },
}

struct Held {
    owner: u32,
    right: u8,
    pattern: Pattern,
}

/// What was checked.
#[derive(Clone, Copy, PartialEq, Eq, Debug, Default)]
pub struct Summary {
    pub committed: u64,
    pub open: u64,
    pub looks: u64,
    pub surveys: u64,
}

#[derive(Default)]
struct History {
    /// What the committed transactions leave, each run alone in the order of their commits.
    map: Map,
    open: BTreeMap<u32, Vec<Step>>,
    held: BTreeMap<u32, Held>,
    /// Every transaction's, reservation's and commit's number that was given.
    given: [BTreeSet<u32>; 3],
    conflicts: u64,
    summary: Summary,
}

/// Checks a whole printed sheet, over a map that is empty at first. An error says which line is wrong and why.
pub fn check(requests: &[u8], answers: &[u8]) -> Result<Summary, String> {
    let requests = sheet::lines(requests);
    let answers: Vec<&[u8]> = answers.split_inclusive(|b| *b == b'\n').collect();
    if requests.len() != answers.len() {
        return Err(format!("{} request lines have {} answer lines", requests.len(), answers.len()));
    }
    let mut history = History::default();
    for (i, (request, answer)) in requests.iter().zip(answers).enumerate() {
        let request = request.and_then(sheet::read_request);
        let answer = answer.strip_suffix(b"\n").and_then(Answer::read);
        let answer = answer.ok_or_else(|| format!("line {}: the answer is not laid out", i + 1))?;
        history.line(request, &answer).map_err(|why| format!("line {}: {why}", i + 1))?;
    }
    history.check_open().map_err(|why| format!("at the end: {why}"))?;
    history.summary.open = history.open.len() as u64;
    Ok(history.summary)
}

impl History {
    fn line(&mut self, request: Option<Request>, answer: &Answer) -> Result<(), String> {
        let word = request.as_ref().map_or("", Request::word);
        if word != answer.word || request.is_none() != (answer.number == 44) {
            return Err(format!("'{word}' is answered by '{}' with {}", answer.word, answer.number));
        }
        match request {
            Some(request) if answer.number == 0 => self.granted(request, answer),
            Some(Request::Reserve { transaction, right, pattern }) if answer.number == 30 => {
                self.conflicts += 1;
                self.conflict(Held { owner: transaction, right, pattern }, answer)
            }
            _ => Ok(()),
        }
    }

    /// A conflict is with a standing reservation of another transaction, and the sample, if it is whole, fits both.
    fn conflict(&self, new: Held, answer: &Answer) -> Result<(), String> {
        let (owner, number) = (answer.first.unwrap_or(0) as u32, answer.second.unwrap_or(0) as u32);
        let held = self.held.get(&number).filter(|h| h.owner == owner && may_collide(h, &new));
        let held = held.ok_or_else(|| format!("no reservation {number} of transaction {owner} is in the way"))?;
        let fits = |pattern| unify::fits(&ARITIES, &answer.sample, pattern);
        if answer.more || (proper::check_row(&ARITIES, &answer.sample).is_ok() && fits(&held.pattern) && fits(&new.pattern)) {
            Ok(())
        } else {
            Err(format!("the sample does not fit both this and reservation {number}"))
        }
    }

    fn granted(&mut self, request: Request, answer: &Answer) -> Result<(), String> {
        match request {
            Request::Begin { .. } => {
                let number = self.number(0, answer)?;
                self.open.insert(number, Vec::new());
                Ok(())
            }
            Request::Reserve { transaction, right, pattern } => {
                let number = self.number(1, answer)?;
                self.steps(transaction)?;
                self.reserve(number, Held { owner: transaction, right, pattern })
            }
            Request::Look { transaction, row } => self.step(transaction, Step::Look { row, printed: answer.first }),
            Request::Survey { transaction, reservation } => {
                let held = self.held.get(&reservation).filter(|h| h.owner == transaction);
                let pattern = held.ok_or("a survey of a reservation that is not its own")?.pattern.clone();
                self.step(transaction, Step::Survey { pattern, printed: (answer.first, answer.second) })
            }
            Request::Write { transaction, row, count } => self.step(transaction, Step::Write { row, count }),
            Request::Strike { transaction, row } => self.step(transaction, Step::Strike { row }),
            Request::Commit { transaction } => {
                self.number(2, answer)?;
                self.commit(transaction)
            }
            Request::Abandon { transaction } => {
                self.check_alone(transaction)?;
                self.leave(transaction);
                Ok(())
            }
            Request::Tally if answer.second == Some(self.conflicts) => Ok(()),
            Request::Tally => Err(format!("there were {} conflicts", self.conflicts)),
        }
    }

    /// The number that was given, which has to be larger than all before.
    fn number(&mut self, of: usize, answer: &Answer) -> Result<u32, String> {
        let number = answer.first.ok_or("no number is given")? as u32;
        let larger = self.given[of].last().is_none_or(|last| *last < number);
        self.given[of].insert(number);
        if larger { Ok(number) } else { Err(format!("the number {number} is given again")) }
    }

    fn steps(&mut self, transaction: u32) -> Result<&mut Vec<Step>, String> {
        self.open.get_mut(&transaction).ok_or_else(|| format!("transaction {transaction} is not open"))
    }

    fn step(&mut self, transaction: u32, step: Step) -> Result<(), String> {
        self.steps(transaction)?.push(step);
        Ok(())
    }

    /// No two reservations of different open transactions overlap, if one is for writing.
    fn reserve(&mut self, number: u32, new: Held) -> Result<(), String> {
        for (other, held) in &self.held {
            if may_collide(held, &new) && unify::sample(&ARITIES, &held.pattern, &new.pattern).is_some() {
                return Err(format!("reservation {number} overlaps reservation {other}"));
            }
        }
        self.held.insert(number, new);
        Ok(())
    }

    fn commit(&mut self, transaction: u32) -> Result<(), String> {
        let steps = self.open.get(&transaction).ok_or("it is not open")?;
        self.map = alone(&self.map, steps).map_err(|why| format!("transaction {transaction} run alone: {why}"))?;
        for step in steps {
            self.summary.looks += u64::from(matches!(step, Step::Look { .. }));
            self.summary.surveys += u64::from(matches!(step, Step::Survey { .. }));
        }
        self.summary.committed += 1;
        self.leave(transaction);
        // The map has changed, so the others are looked at again.
        self.check_open()
    }

    fn leave(&mut self, transaction: u32) {
        self.open.remove(&transaction);
        self.held.retain(|_, held| held.owner != transaction);
    }

    fn check_alone(&self, transaction: u32) -> Result<(), String> {
        let steps = self.open.get(&transaction).ok_or("it is not open")?;
        alone(&self.map, steps).map(|_| ()).map_err(|why| format!("open transaction {transaction} run alone: {why}"))
    }

    fn check_open(&self) -> Result<(), String> {
        self.open.keys().try_for_each(|transaction| self.check_alone(*transaction))
    }
}

/// Whether they are of different transactions, and one is for writing.
fn may_collide(one: &Held, other: &Held) -> bool {
    one.owner != other.owner && (one.right == b'W' || other.right == b'W')
}

/// Runs a transaction alone, and gives what it leaves; an error where an answer is not the printed one.
fn alone(map: &Map, steps: &[Step]) -> Result<Map, String> {
    let mut map = map.clone();
    for step in steps {
        match step {
            Step::Look { row, printed } => {
                let found = map.get(row).map(|count| u64::from(*count));
                if found != *printed {
                    return Err(format!("the look at {row:?} finds {found:?}, and {printed:?} is printed"));
                }
            }
            Step::Survey { pattern, printed } => {
                let fitting: Vec<u32> = map.iter().filter(|(row, _)| unify::fits(&ARITIES, row, pattern)).map(|(_, n)| *n).collect();
                let total: u64 = fitting.iter().map(|n| u64::from(*n)).sum();
                if *printed != (Some(fitting.len() as u64), Some(total)) {
                    return Err(format!("the survey of {pattern:?} finds {} rows with {total}, and {printed:?} is printed", fitting.len()));
                }
            }
            Step::Write { row, count } => drop(map.insert(row.clone(), *count)),
            Step::Strike { row } => drop(map.remove(row)),
        }
    }
    Ok(map)
}
