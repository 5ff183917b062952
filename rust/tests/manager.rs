//! The nine calls by hand.

mod common;
use common::{cells, pattern};
use model::machine::{CHANGES, Machine, RESERVATIONS, Refusal, TRANSACTIONS};
use model::store::{Store, Table};

fn manager(places: usize) -> Machine<Table> {
    Machine::new(Table::new(places).expect("a length of a table"))
}

fn refused<T>(number: u32) -> Result<T, Refusal> {
    Err(Refusal::Plain(number))
}

#[test]
fn begins() {
    let mut m = manager(1);
    assert_eq!((m.begin(0), m.begin(17)), (refused(10), refused(10)));
    for number in 1..=TRANSACTIONS as u32 {
        assert_eq!(m.begin(number), Ok(number));
    }
    assert_eq!((m.begin(17), m.begin(1)), (refused(10), refused(11)));
    assert_eq!(m.abandon(3), Ok(0));
    assert_eq!((m.begin(16), m.begin(1)), (Ok(17), refused(11)));
}

#[test]
fn reserves_are_checked_in_order() {
    let mut m = manager(1);
    m.begin(1).expect("a number");
    let (bad_cell, bad_form) = (pattern("S2 Q1 V0 V0:Q:0:0"), pattern("S2 V0 V0 V0:Q:0:0"));
    assert_eq!(m.reserve(2, b'x', &bad_cell), refused(13));
    assert_eq!(m.reserve(1, b'x', &bad_cell), refused(14));
    assert_eq!(m.reserve(1, b'r', &bad_cell), refused(14));
    assert_eq!(m.reserve(1, b'R', &bad_cell), Err(Refusal::At(20, 1)));
    assert_eq!(m.reserve(1, b'R', &bad_form), Err(Refusal::At(22, 0)));
    assert_eq!(m.reserve(1, b'R', &pattern("S2 V0 V0 V8:Q:0:0")), Err(Refusal::At(23, 0)));
    assert_eq!(m.reserve(1, b'R', &pattern("S2 V0")), Err(Refusal::At(21, 2)));
    for number in 1..=RESERVATIONS as u32 {
        assert_eq!(m.reserve(1, b'W', &pattern("S2 V0 V0")), Ok(number));
    }
    m.begin(1).expect("a number");
    assert_eq!(m.reserve(2, b'R', &bad_form), Err(Refusal::At(22, 0)));
    assert_eq!(m.reserve(2, b'W', &pattern("S2 V0 V1")), refused(24));
    assert_eq!(m.tally(), 0);
}

#[test]
fn conflicts_name_the_first_that_collides() {
    let mut m = manager(1);
    for _ in 0..3 {
        m.begin(1).expect("a number");
    }
    assert_eq!(m.reserve(1, b'R', &pattern("S2 N1 V0")), Ok(1));
    assert_eq!(m.reserve(2, b'R', &pattern("S2 V0 N2")), Ok(2));
    assert_eq!(m.reserve(2, b'W', &pattern("S3 V0 V0:B:5:9")), Ok(3));
    // Two that read do not collide; one that writes does, and one's own never does.
    assert_eq!(m.reserve(3, b'R', &pattern("S2 V0 V1")), Ok(4));
    let first = |transaction, reservation, row| Err(Refusal::Conflict { transaction, reservation, sample: cells(row) });
    assert_eq!(m.reserve(3, b'W', &pattern("S2 V0 V1")), first(1, 1, "S2 N1 S0"));
    assert_eq!(m.reserve(1, b'W', &pattern("S2 N1 V1")), first(2, 2, "S2 N1 N2"));
    assert_eq!(m.reserve(1, b'R', &pattern("S3 V0 V0:B:9:12")), first(2, 3, "S3 N9"));
    assert_eq!(m.reserve(1, b'R', &pattern("S3 V0 V0:B:10:12")), Ok(5));
    assert_eq!(m.tally(), 3);
    // What has left stands in nobody's way.
    assert_eq!((m.commit(1), m.abandon(2)), (Ok(1), Ok(0)));
    assert_eq!(m.reserve(3, b'W', &pattern("S2 V0 V1")), Ok(6));
}

#[test]
fn long_samples_are_whole() {
    let mut m = manager(1);
    m.begin(1).expect("a number");
    m.begin(2).expect("a number");
    assert_eq!(m.reserve(1, b'W', &pattern("S2 S2 V0 V0 S2 V1 V1")), Ok(1));
    let Err(Refusal::Conflict { sample, .. }) = m.reserve(2, b'R', &pattern("S2 V0 S2 S1 N1 N1 N1 N1 V1")) else { panic!("a conflict") };
    assert_eq!(sample, cells("S2 S2 S0 S0 S2 S1 N1 N1 N1 N1 S1 N1 N1 N1 N1"));
}

#[test]
fn changes_are_seen_by_their_owner() {
    let mut m = manager(2);
    let (row, other) = (cells("S3 N1"), cells("S3 N2"));
    m.begin(1).expect("a number");
    assert_eq!(m.look(2, &cells("Q1")), refused(13));
    assert_eq!(m.look(1, &cells("Q1")), Err(Refusal::At(20, 0)));
    assert_eq!(m.look(1, &row), refused(25));
    assert_eq!(m.reserve(1, b'R', &pattern("S3 V0")), Ok(1));
    assert_eq!(m.look(1, &row), Ok(None));
    assert_eq!(m.write(1, &row, 5), refused(28));
    assert_eq!(m.reserve(1, b'W', &pattern("S3 V0 V0:B:1:1")), Ok(2));
    assert_eq!(m.write(1, &row, 1_000_000), refused(27));
    assert_eq!(m.write(1, &other, 1_000_000), refused(27));
    assert_eq!(m.write(1, &cells("S3 V0"), 1_000_000), Err(Refusal::At(21, 1)));
    assert_eq!((m.write(1, &row, 5), m.look(1, &row)), (Ok(()), Ok(Some(5))));
    assert_eq!((m.write(1, &row, 6), m.survey(1, 1), m.survey(1, 2)), (Ok(()), Ok((1, 6)), Ok((1, 6))));
    assert_eq!((m.strike(1, &row), m.look(1, &row), m.survey(1, 1)), (Ok(()), Ok(None), Ok((0, 0))));
    assert_eq!((m.strike(1, &other), m.survey(1, 3), m.survey(2, 1)), (refused(28), refused(26), refused(13)));
    assert_eq!((m.write(1, &row, 7), m.store.find(&row)), (Ok(()), None));
    assert_eq!((m.commit(1), m.store.find(&row)), (Ok(1), Some(7)));
    assert_eq!((m.commit(1), m.abandon(1), m.look(1, &row)), (refused(13), refused(13), refused(13)));
}

#[test]
fn surveys_count_rows_of_the_store_and_own_changes() {
    let mut m = manager(4);
    m.begin(1).expect("a number");
    m.reserve(1, b'W', &pattern("S3 V0")).expect("a number");
    for n in 1..=3 {
        m.write(1, &cells(&format!("S3 N{n}")), n * 10).expect("a change");
    }
    m.commit(1).expect("a number");
    m.begin(1).expect("a number");
    m.reserve(2, b'R', &pattern("S3 V0 V0:B:2:9")).expect("a number");
    assert_eq!(m.survey(2, 1), refused(26));
    assert_eq!(m.survey(2, 2), Ok((2, 50)));
    m.reserve(2, b'W', &pattern("S3 V0")).expect("a number");
    m.write(2, &cells("S3 N2"), 1).expect("a change");
    m.write(2, &cells("S3 N9"), 999_999).expect("a change");
    m.strike(2, &cells("S3 N3")).expect("a change");
    m.strike(2, &cells("S3 N8")).expect("a change");
    assert_eq!((m.survey(2, 2), m.survey(2, 3)), (Ok((2, 1_000_000)), Ok((3, 1_000_010))));
    assert_eq!(m.abandon(2), Ok(4));
    assert_eq!(m.store.rows().len(), 3);
}

#[test]
fn the_roll_of_changes() {
    let mut m = manager(1);
    m.begin(1).expect("a number");
    m.begin(2).expect("a number");
    m.reserve(1, b'W', &pattern("S3 V0")).expect("a number");
    m.reserve(2, b'W', &pattern("S2 V0 V0")).expect("a number");
    for n in 0..CHANGES as u32 - 1 {
        m.write(1, &cells(&format!("S3 N{n}")), 1).expect("a change");
    }
    assert_eq!(m.strike(2, &cells("S2 N1 N1")), Ok(()));
    assert_eq!(m.write(1, &cells("S3 N500"), 1), refused(29));
    assert_eq!(m.write(1, &cells("S2 N1 N1"), 1), refused(28));
    assert_eq!(m.strike(2, &cells("S2 N2 N2")), refused(29));
    assert_eq!((m.write(1, &cells("S3 N0"), 2), m.strike(1, &cells("S3 N1"))), (Ok(()), Ok(())));
    assert_eq!((m.abandon(2), m.write(1, &cells("S3 N500"), 1)), (Ok(1), Ok(())));
}

#[test]
fn commits_need_places() {
    let mut m = manager(2);
    m.begin(1).expect("a number");
    m.reserve(1, b'W', &pattern("S3 V0")).expect("a number");
    for n in 1..=3 {
        m.write(1, &cells(&format!("S3 N{n}")), n).expect("a change");
    }
    assert_eq!((m.commit(1), m.store.rows().len()), (refused(31), 0));
    // A strike of an absent row makes no room, and a change that becomes one needs none.
    m.strike(1, &cells("S3 N7")).expect("a change");
    assert_eq!(m.commit(1), refused(31));
    m.strike(1, &cells("S3 N2")).expect("a change");
    assert_eq!(m.commit(1), Ok(1));
    // Absences come first, so a full store can change a row for another.
    m.begin(1).expect("a number");
    m.reserve(2, b'W', &pattern("S3 V0")).expect("a number");
    m.write(2, &cells("S3 N9"), 9).expect("a change");
    m.write(2, &cells("S3 N3"), 33).expect("a change");
    m.strike(2, &cells("S3 N1")).expect("a change");
    assert_eq!((m.commit(2), m.store.rows()), (Ok(2), vec![(cells("S3 N9"), 9), (cells("S3 N3"), 33)]));
}
