//! Numbers and cells in columns, rows, patterns and the unifier, by hand.

mod common;
use common::{cells, pattern};
use model::columns::{read_cell, read_number, write_cell, write_number};
use model::draw::Draw;
use model::proper::{ARITIES, Cell, Pattern, begins_row, check_pattern, check_row};
use model::{generate, unify};

#[test]
fn columns_show_at_most_one_number() {
    let shown: [(&[u8], Option<u32>); 14] = [
        (b"      0", Some(0)),
        (b"     12", Some(12)),
        (b"9999999", Some(9_999_999)),
        (b"999999999", Some(999_999_999)),
        (b"", None),
        (b"       ", None),
        (b"     00", None),
        (b"     01", None),
        (b"1      ", None),
        (b"    1 2", None),
        (b"     +1", None),
        (b"     -1", None),
        (b"\t     1", None),
        (b"     1\0", None),
    ];
    for (columns, number) in shown {
        assert_eq!(read_number(columns), number, "{}", columns.escape_ascii());
    }
}

#[test]
fn cells_in_columns() {
    assert_eq!(read_cell(b"N        3"), Some(Cell::new(b'N', 3)));
    assert_eq!(read_cell(b"\xff        0"), Some(Cell::new(255, 0)));
    assert_eq!(read_cell(b"S999999999"), Some(Cell::new(b'S', 999_999_999)));
    for columns in [b"          ", b"         3", b"N         ", b"N       03", b"N       3 "] {
        assert_eq!(read_cell(columns), None, "{}", columns.escape_ascii());
    }
}

#[test]
fn what_is_written_reads_back() {
    for number in [0, 9, 10, 999_999, 999_999_999] {
        let mut out = Vec::new();
        write_number(&mut out, 9, u64::from(number));
        assert_eq!((out.len(), read_number(&out)), (9, Some(number)));
        let mut out = Vec::new();
        write_cell(&mut out, Cell::new(b'Q', number));
        assert_eq!((out.len(), read_cell(&out)), (10, Some(Cell::new(b'Q', number))));
    }
}

#[test]
fn faults_of_rows() {
    let faults = [
        ("S2 N3 S3 N3", Ok(())),
        ("S0", Ok(())),
        ("S31", Ok(())),
        ("S1 N999999999 H167 C23 S0", Ok(())),
        ("S3 S3 S3 S3 S3 S3 S3 S3 S3 S3 S3 N1", Ok(())),
        ("", Err((21, 0))),
        ("N1", Err((21, 0))),
        ("Q1", Err((20, 0))),
        ("S32", Err((21, 0))),
        ("V0", Err((21, 0))),
        ("S2 N3", Err((21, 2))),
        ("S2 V0 N1", Err((21, 1))),
        ("S2 N3 N3 N1", Err((21, 3))),
        ("S2 N3 N3 Q1", Err((20, 3))),
        ("S1 N1 H168 C24 S0", Err((20, 2))),
        ("S1 N1 H7 C24 S0", Err((20, 3))),
        ("S2 N1000000000 N0", Err((20, 1))),
        ("S1 S1 S1", Err((21, 2))),
        ("S1 S1 Q1", Err((20, 2))),
        ("S3 S3 S3 S3 S3 S3 S3 S3 S3 S3 S3 S3", Err((21, 11))),
    ];
    for (words, fault) in faults {
        assert_eq!(check_row(&ARITIES, &cells(words)), fault, "{words}");
    }
    assert!(begins_row(&ARITIES, &cells("S1 S1")));
    assert!(!begins_row(&ARITIES, &cells("S1 S1 S1")));
    assert!(!begins_row(&ARITIES, &cells("S2 N3 N3 N1")));
}

#[test]
fn faults_of_patterns() {
    let eight = "V0:B:0:1 V1:B:0:1 V2:B:0:1 V3:B:0:1 V4:B:0:1 V5:B:0:1 V6:B:0:1 V7:B:0:1";
    let nine = format!("S0 {eight} V99:Q:0:0");
    let eight = format!("S0 {eight}");
    let faults = [
        ("S2 V0 V7", Ok(())),
        (eight.as_str(), Ok(())),
        (nine.as_str(), Err((23, 8))),
        ("V0", Err((21, 0))),
        ("S2 V8 V0", Err((21, 1))),
        ("S1 S1 S1 S1 S1 S1", Err((21, 5))),
        ("S1 S1 S1 S1 S1", Err((21, 5))),
        ("S2 V0 V1 V8:B:0:1", Err((23, 0))),
        ("S2 V0 V1 V8:Q:0:1", Err((23, 0))),
        ("S2 V0 V1 V0:Q:0:1", Err((22, 0))),
        ("S2 V0 V1 V0:X:0:0 V0:X:0:1", Err((22, 1))),
        ("S2 V0 V1 V0:W:128:0", Err((22, 0))),
        ("S2 V0 V1 V0:W:127:16777216", Err((22, 0))),
        ("S2 V0 V1 V0:M:16777215:0 V0:M:16777216:0", Err((22, 1))),
        ("S2 V0 V1 V0:B:9:1", Ok(())),
        ("S2 V0 Q1 V0:Q:0:1", Err((20, 2))),
    ];
    for (words, fault) in faults {
        assert_eq!(check_pattern(&ARITIES, &pattern(words)), fault, "{words}");
    }
}

#[test]
fn samples() {
    let pairs = [
        ("S2 V0 V0", "S2 N3 V0", Some("S2 N3 N3")),
        ("S2 V0 V0", "S2 N3 N4", None),
        ("S2 V0 V0", "S2 V0 S3 V0", None),
        ("S2 V0 V1", "S2 V0 V1", Some("S2 S0 S0")),
        ("S2 V0 V1 V0:B:3:5", "S2 V0 N1 V0:B:5:9", Some("S2 N5 N1")),
        ("S2 V0 V1 V0:B:3:4", "S2 V0 N1 V0:B:5:9", None),
        ("S2 V0 V1 V0:X:0:0 V0:X:1:0", "S2 V3 V3", Some("S2 N2 N2")),
        ("S3 V0 V0:W:31:384", "S3 V1", Some("S3 H7")),
        ("S3 V0 V0:W:96:384", "S3 V1 V1:W:64:16776960", Some("S3 H152")),
        ("S3 V0 V0:M:8:0", "S3 C3", Some("S3 C3")),
        ("S3 V0 V0:M:8:0", "S3 C4", None),
        ("S3 V0 V0:M:8:0", "S3 V0 V0:W:1:1", None),
        ("S3 V0 V0:B:0:9", "S3 S0", None),
        ("S3 V0 V5:B:9:1", "S3 V0", None),
        ("S3 V0 V5:B:1:9", "S3 V0", Some("S3 S0")),
        ("S3 V0", "S2 V0 V1", None),
    ];
    for (left, right, row) in pairs {
        let row = row.map(cells);
        assert_eq!(unify::sample(&ARITIES, &pattern(left), &pattern(right)), row, "{left} | {right}");
        assert_eq!(unify::sample(&ARITIES, &pattern(right), &pattern(left)), row, "{right} | {left}");
    }
}

#[test]
fn rows_that_fit() {
    let pairs = [
        ("S2 N3 N3", "S2 V0 V0", true),
        ("S2 N3 N4", "S2 V0 V0", false),
        ("S2 S3 N3 S3 N3", "S2 V0 V0", true),
        ("S3 N5", "S3 V0 V0:B:5:5", true),
        ("S3 N5", "S3 V0 V0:B:5:5 V0:X:5:0", false),
        ("S3 H5", "S3 V0 V0:B:5:5", false),
        ("S3 N5", "S3 V0 V1:B:1:2 V1:B:3:4", false),
        ("S3 N5", "S3 V0 V1:B:1:3 V1:B:3:4", true),
    ];
    for (row, description, fits) in pairs {
        assert_eq!(unify::fits(&ARITIES, &cells(row), &pattern(description)), fits, "{row} | {description}");
    }
}

#[test]
fn fitting_is_overlapping_with_the_row() {
    let mut draw = Draw::new(9);
    let mut fitting = 0;
    for _ in 0..20_000 {
        let row = generate::row(&mut draw, 3);
        let cells = generate::altered(&mut draw, &row);
        let pattern = Pattern { cells, constraints: generate::constraints(&mut draw) };
        let alone = Pattern { cells: row.clone(), constraints: Vec::new() };
        let fits = unify::fits(&ARITIES, &row, &pattern);
        assert_eq!(fits, unify::sample(&ARITIES, &alone, &pattern).is_some(), "{row:?} {pattern:?}");
        fitting += u32::from(fits);
    }
    assert!((4_000..16_000).contains(&fitting), "{fitting}");
}
