//! The manager: transactions, reservations and pending changes over a store, and the nine calls.

use crate::proper::{self, ARITIES, Cell, Fault, Pattern};
use crate::store::{Store, TOP_COUNT};
use crate::unify;

pub const TRANSACTIONS: usize = 16;
pub const RESERVATIONS: usize = 64;
pub const CHANGES: usize = 128;
const TOP_PLANNER: u32 = 16;
const TOP_NUMBER: u32 = 999_999;
const TOP_TALLY: u32 = 999_999_999;

#[derive(Clone, PartialEq, Eq, Debug)]
pub enum Refusal {
    Plain(u32),
    /// With its place.
    At(u32, usize),
    /// 30: whose reservation stands in the way, and a row that fits both.
    Conflict { transaction: u32, reservation: u32, sample: Vec<Cell> },
}

impl From<Fault> for Refusal {
    fn from((number, place): Fault) -> Refusal {
        Refusal::At(number, place)
    }
}

type Result<T> = std::result::Result<T, Refusal>;

#[derive(Clone, Copy, PartialEq, Eq, Debug)]
enum Right {
    Read,
    Write,
}

#[derive(Clone, Debug)]
struct Reservation {
    number: u32,
    owner: u32,
    right: Right,
    pattern: Pattern,
}

#[derive(Clone, Debug)]
struct Change {
    owner: u32,
    row: Vec<Cell>,
    /// Absent for a strike.
    count: Option<u32>,
}

pub struct Machine<S> {
    arities: [u8; 32],
    pub store: S,
    open: Vec<u32>,
    reservations: Vec<Reservation>,
    changes: Vec<Change>,
    last_transaction: u32,
    last_reservation: u32,
    last_commit: u32,
    tally: u32,
}

fn require(holds: bool, number: u32) -> Result<()> {
    if holds { Ok(()) } else { Err(Refusal::Plain(number)) }
}

impl<S: Store> Machine<S> {
    pub fn new(store: S) -> Machine<S> {
        Machine {
            arities: ARITIES,
            store,
            open: Vec::new(),
            reservations: Vec::new(),
            changes: Vec::new(),
            last_transaction: 0,
            last_reservation: 0,
            last_commit: 0,
            tally: 0,
        }
    }

    pub fn begin(&mut self, planner: u32) -> Result<u32> {
        require((1..=TOP_PLANNER).contains(&planner), 10)?;
        require(self.open.len() < TRANSACTIONS, 11)?;
        require(self.last_transaction < TOP_NUMBER, 12)?;
        self.last_transaction += 1;
        self.open.push(self.last_transaction);
        Ok(self.last_transaction)
    }

    pub fn reserve(&mut self, transaction: u32, right: u8, pattern: &Pattern) -> Result<u32> {
        self.require_open(transaction)?;
        let right = match right {
            b'R' => Right::Read,
            b'W' => Right::Write,
            _ => return Err(Refusal::Plain(14)),
        };
        proper::check_pattern(&self.arities, pattern)?;
        require(self.reservations.len() < RESERVATIONS, 24)?;
        require(self.last_reservation < TOP_NUMBER, 12)?;
        if let Some(conflict) = self.conflict(transaction, right, pattern) {
            self.tally = (self.tally + 1).min(TOP_TALLY);
            return Err(conflict);
        }
        self.last_reservation += 1;
        let number = self.last_reservation;
        self.reservations.push(Reservation { number, owner: transaction, right, pattern: pattern.clone() });
        Ok(number)
    }

    /// The first reservation in the roll that collides.
    fn conflict(&self, transaction: u32, right: Right, pattern: &Pattern) -> Option<Refusal> {
        let others = self.reservations.iter().filter(|r| r.owner != transaction);
        others.filter(|r| r.right == Right::Write || right == Right::Write).find_map(|r| {
            let sample = unify::sample(&self.arities, &r.pattern, pattern)?;
            Some(Refusal::Conflict { transaction: r.owner, reservation: r.number, sample })
        })
    }

    pub fn look(&self, transaction: u32, row: &[Cell]) -> Result<Option<u32>> {
        self.require_open(transaction)?;
        proper::check_row(&self.arities, row)?;
        require(self.own(transaction).any(|r| self.fits(row, r)), 25)?;
        match self.change(transaction, row) {
            Some(change) => Ok(change.count),
            None => Ok(self.store.find(row)),
        }
    }

    /// How many rows fit the reservation, and the total of their counts.
    pub fn survey(&self, transaction: u32, reservation: u32) -> Result<(u32, u64)> {
        self.require_open(transaction)?;
        let Some(reservation) = self.own(transaction).find(|r| r.number == reservation) else {
            return Err(Refusal::Plain(26));
        };
        let mut counts: Vec<u32> = Vec::new();
        for (row, count) in self.store.rows() {
            if self.change(transaction, &row).is_none() && self.fits(&row, reservation) {
                counts.push(count);
            }
        }
        for change in self.changes.iter().filter(|c| c.owner == transaction) {
            if self.fits(&change.row, reservation) {
                counts.extend(change.count);
            }
        }
        Ok((counts.len() as u32, counts.iter().map(|c| u64::from(*c)).sum()))
    }

    pub fn write(&mut self, transaction: u32, row: &[Cell], count: u32) -> Result<()> {
        self.require_open(transaction)?;
        proper::check_row(&self.arities, row)?;
        require(count <= TOP_COUNT, 27)?;
        self.enter(transaction, row, Some(count))
    }

    pub fn strike(&mut self, transaction: u32, row: &[Cell]) -> Result<()> {
        self.require_open(transaction)?;
        proper::check_row(&self.arities, row)?;
        self.enter(transaction, row, None)
    }

    /// Notes a pending change. One that is there for the row is changed where it stands, and keeps its turn.
    fn enter(&mut self, owner: u32, row: &[Cell], count: Option<u32>) -> Result<()> {
        require(self.own(owner).any(|r| r.right == Right::Write && self.fits(row, r)), 28)?;
        match self.changes.iter_mut().find(|c| c.owner == owner && c.row == row) {
            Some(change) => change.count = count,
            None => {
                require(self.changes.len() < CHANGES, 29)?;
                self.changes.push(Change { owner, row: row.to_vec(), count });
            }
        }
        Ok(())
    }

    pub fn commit(&mut self, transaction: u32) -> Result<u32> {
        self.require_open(transaction)?;
        let (struck, written): (Vec<Change>, Vec<Change>) =
            self.changes.iter().filter(|c| c.owner == transaction).cloned().partition(|c| c.count.is_none());
        let dropped = struck.iter().filter(|c| self.store.find(&c.row).is_some()).count();
        let added = written.iter().filter(|c| self.store.find(&c.row).is_none()).count();
        require(self.store.rows().len() - dropped + added <= self.store.places(), 31)?;
        for change in &struck {
            self.store.drop_row(&change.row);
        }
        for change in &written {
            self.store.put(&change.row, change.count.expect("a count")).expect("a place");
        }
        self.leave(transaction);
        self.last_commit += 1;
        Ok(self.last_commit)
    }

    pub fn abandon(&mut self, transaction: u32) -> Result<u32> {
        self.require_open(transaction)?;
        let count = self.changes.iter().filter(|c| c.owner == transaction).count();
        self.leave(transaction);
        Ok(count as u32)
    }

    pub fn tally(&self) -> u32 {
        self.tally
    }

    fn leave(&mut self, transaction: u32) {
        self.open.retain(|t| *t != transaction);
        self.reservations.retain(|r| r.owner != transaction);
        self.changes.retain(|c| c.owner != transaction);
    }

    fn require_open(&self, transaction: u32) -> Result<()> {
        require(self.open.contains(&transaction), 13)
    }

    fn own(&self, transaction: u32) -> impl Iterator<Item = &Reservation> {
        self.reservations.iter().filter(move |r| r.owner == transaction)
    }

    fn change(&self, transaction: u32, row: &[Cell]) -> Option<&Change> {
        self.changes.iter().find(|c| c.owner == transaction && c.row == row)
    }

    fn fits(&self, row: &[Cell], reservation: &Reservation) -> bool {
        unify::fits(&self.arities, row, &reservation.pattern)
    }
}

#[cfg(test)]
mod tests {
    use super::*;
    use crate::store::Table;

    fn plain<T>(number: u32) -> Result<T> {
        Err(Refusal::Plain(number))
    }

    /// No sheet is long enough to come to the last numbers.
    #[test]
    fn last_numbers() {
        let mut m = Machine::new(Table::new(1).expect("a length of a table"));
        m.last_transaction = TOP_NUMBER - 2;
        assert_eq!((m.begin(1), m.begin(1)), (Ok(999_998), Ok(999_999)));
        assert_eq!((m.begin(0), m.begin(1)), (plain(10), plain(12)));
        let pattern = Pattern { cells: vec![Cell::new(b'S', 0)], constraints: Vec::new() };
        m.last_reservation = TOP_NUMBER - 1;
        assert_eq!(m.reserve(999_998, b'W', &pattern), Ok(999_999));
        // The number is looked at before a conflict, and the conflict is not counted.
        assert_eq!((m.reserve(999_999, b'W', &pattern), m.tally()), (plain(12), 0));
        m.last_reservation = 7;
        m.tally = TOP_TALLY - 1;
        for _ in 0..2 {
            assert!(matches!(m.reserve(999_999, b'R', &pattern), Err(Refusal::Conflict { .. })));
            assert_eq!(m.tally(), 999_999_999);
        }
    }
}
