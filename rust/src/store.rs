//! What a store is, and the table.

use crate::proper::Cell;

pub const PLACES: usize = 4096;
/// The places of the table that a sheet is answered over.
pub const TABLE: usize = 64;
pub const TOP_COUNT: u32 = 999_999;

/// Every place is taken.
#[derive(Clone, Copy, PartialEq, Eq, Debug)]
pub struct Full;

/// A map from rows to counts, with room for as many rows as it has places.
pub trait Store {
    fn places(&self) -> usize;
    /// Each row once, with its count.
    fn rows(&self) -> Vec<(Vec<Cell>, u32)>;
    fn find(&self, row: &[Cell]) -> Option<u32>;
    fn put(&mut self, row: &[Cell], count: u32) -> Result<(), Full>;
    /// Says if the row was there.
    fn drop_row(&mut self, row: &[Cell]) -> bool;
}

/// Places in memory, each free or with a row and its count.
pub struct Table(Vec<Option<(Vec<Cell>, u32)>>);

impl Table {
    /// None unless it is 1 to 4,096 places long.
    pub fn new(places: usize) -> Option<Table> {
        (1..=PLACES).contains(&places).then(|| Table(vec![None; places]))
    }
}

impl Store for Table {
    fn places(&self) -> usize {
        self.0.len()
    }

    fn rows(&self) -> Vec<(Vec<Cell>, u32)> {
        self.0.iter().flatten().cloned().collect()
    }

    fn find(&self, row: &[Cell]) -> Option<u32> {
        self.0.iter().flatten().find(|(r, _)| r == row).map(|(_, count)| *count)
    }

    fn put(&mut self, row: &[Cell], count: u32) -> Result<(), Full> {
        if let Some((_, old)) = self.0.iter_mut().flatten().find(|(r, _)| r == row) {
            *old = count;
            return Ok(());
        }
        let free = self.0.iter_mut().find(|place| place.is_none()).ok_or(Full)?;
        *free = Some((row.to_vec(), count));
        Ok(())
    }

    fn drop_row(&mut self, row: &[Cell]) -> bool {
        let taken = self.0.iter_mut().find(|place| place.as_ref().is_some_and(|(r, _)| r == row));
        taken.map(|place| *place = None).is_some()
    }
}
