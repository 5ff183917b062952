//! Images by hand.

mod common;
use common::cells;
use model::draw::Draw;
use model::image::{Image, LINE, Refused, Shown, free_line, read_line, write_line};
use model::images;
use model::proper::ARITIES;
use model::store::{Full, Store, Table};

/// A line from its fields: twelve cells and the count.
fn line(cells: &str, count: &str) -> Vec<u8> {
    format!("{cells:<120}{count:>7}\n").into_bytes()
}

fn field_of(line: &[u8]) -> usize {
    assert_eq!(line.len(), LINE);
    read_line(&ARITIES, line).expect_err("a bad line")
}

const TURN: &str = "S        2N        1N        3";

#[test]
fn lines() {
    assert_eq!(read_line(&ARITIES, &line(TURN, "240")), Ok(Shown::Row(cells("S2 N1 N3"), 240)));
    assert_eq!(read_line(&ARITIES, &line("", "")), Ok(Shown::Free));
    assert_eq!(write_line(&cells("S2 N1 N3"), 240), line(TURN, "240"));
    assert_eq!(free_line(), line("", ""));
}

#[test]
fn first_bad_fields() {
    let s1 = "S        1";
    let s3 = "S        3";
    let vectors: Vec<(String, &str, usize)> = vec![
        ("N        1".into(), "1", 1),
        ("S       32".into(), "1", 1),
        ("V        0".into(), "1", 1),
        ("         0".into(), "1", 1),
        ("S        2V        0N        3".into(), "1", 2),
        ("S        2N       01N        3".into(), "1", 2),
        ("S        2          N        3".into(), "1", 2),
        ("S        2N        1".into(), "1", 3),
        ("S        2N        1H      168".into(), "1", 3),
        (s1.repeat(3), "1", 3),
        (s3.repeat(12), "1", 12),
        (format!("{TURN}N        1"), "1", 4),
        (format!("{TURN}          N        1"), "1", 5),
        (format!("{TURN} "), "", 13),
        (TURN.into(), "01", 13),
        (TURN.into(), "1000000", 13),
        (TURN.into(), "1 ", 13),
        ("".into(), "0", 13),
        ("          S        0".into(), "", 2),
    ];
    for (cells, count, field) in vectors {
        assert_eq!(field_of(&line(&cells, count)), field, "{cells} {count}");
    }
    for (cells, count) in [(TURN, "1"), ("", "")] {
        let mut bytes = line(cells, count);
        bytes[LINE - 1] = b' ';
        assert_eq!(field_of(&bytes), 14);
    }
}

#[test]
fn a_bad_line_is_good_before_its_field() {
    let mut draw = Draw::new(4);
    let mut bad = 0;
    for _ in 0..3_000 {
        let image = images::damaged(&mut draw);
        for bytes in image.chunks_exact(LINE).take(12) {
            let Err(field) = read_line(&ARITIES, bytes) else { continue };
            bad += 1;
            // Some proper line agrees in the fields before: the rest of a free line, or of the row ended by symbols without arguments.
            let before = &bytes[..(field - 1).min(12) * 10];
            let completed = (0..=12).map(|symbols| {
                let mut full = before.to_vec();
                full.extend_from_slice("S        0".repeat(symbols).as_bytes());
                full.resize(full.len().max(120), b' ');
                full
            });
            let ends: [&[u8]; 3] = [b"      0\n", b"       \n", &[&bytes[120..127], b"\n"].concat()];
            let good = completed.filter(|c| c.len() == 120).any(|c| {
                ends.iter().any(|end| {
                    let full = [c.as_slice(), end].concat();
                    full[..120.min(before.len())] == *before && (field < 14 || full[..127] == bytes[..127]) && read_line(&ARITIES, &full).is_ok()
                })
            });
            assert!(good, "field {field} of {}", bytes.escape_ascii());
        }
    }
    assert!(bad > 300, "{bad}");
}

#[test]
fn openings() {
    let open = |bytes: &[u8]| Image::open(&ARITIES, bytes).map(|image| image.bytes());
    let (turn, free) = (line(TURN, "240"), line("", ""));
    let other = line("S        3N        1", "0");
    let good = [turn.clone(), free.clone(), other.clone()].concat();
    assert_eq!(open(&good), Ok(good.clone()));
    assert_eq!(open(b""), Err(Refused::Length));
    assert_eq!(open(&good[1..]), Err(Refused::Length));
    assert_eq!(open(&free.repeat(4096)), Ok(free.repeat(4096)));
    assert_eq!(open(&free.repeat(4097)), Err(Refused::Length));
    assert_eq!(open(&[turn.clone(), free.clone(), line(TURN, "1")].concat()), Err(Refused::Twice { line: 2 }));
    // The first bad line counts, whatever is wrong with it.
    let bad = line(TURN, "");
    assert_eq!(open(&[turn.clone(), turn.clone(), bad.clone()].concat()), Err(Refused::Twice { line: 1 }));
    assert_eq!(open(&[turn.clone(), bad, turn].concat()), Err(Refused::Line { line: 1, field: 13 }));
}

/// The same for every store.
fn as_a_store(mut store: impl Store) {
    let [a, b, c] = [cells("S3 N1"), cells("S3 N2"), cells("S3 N3")];
    assert_eq!((store.places(), store.rows(), store.find(&a)), (2, Vec::new(), None));
    assert_eq!(store.put(&a, 5), Ok(()));
    assert_eq!(store.put(&b, 999_999), Ok(()));
    assert_eq!(store.put(&c, 1), Err(Full));
    assert_eq!(store.put(&a, 0), Ok(()));
    assert_eq!((store.find(&a), store.find(&b), store.find(&c)), (Some(0), Some(999_999), None));
    assert!(store.drop_row(&a) && !store.drop_row(&a));
    assert_eq!(store.put(&c, 1), Ok(()));
    assert_eq!(store.rows(), vec![(c, 1), (b, 999_999)]);
}

#[test]
fn stores() {
    as_a_store(Table::new(2).expect("two places"));
    as_a_store(Image::open(&ARITIES, &free_line().repeat(2)).expect("two places"));
    assert!(Table::new(0).is_none() && Table::new(4097).is_none());
}

#[test]
fn changes_of_an_image_are_in_one_line() {
    let lines = [line(TURN, "240"), line("", ""), line("S        3N        1", "0"), line("", "")];
    let mut image = Image::open(&ARITIES, &lines.concat()).expect("an image");
    image.put(&cells("S3 N2"), 7).expect("a place");
    let new = line("S        3N        2", "7");
    assert_eq!(image.bytes(), [&lines[0][..], &new, &lines[2], &lines[3]].concat());
    image.put(&cells("S3 N1"), 12).expect("a place");
    assert_eq!(image.bytes(), [&lines[0][..], &new, &line("S        3N        1", "12"), &lines[3]].concat());
    image.drop_row(&cells("S2 N1 N3"));
    assert_eq!(image.bytes(), [&lines[1][..], &new, &line("S        3N        1", "12"), &lines[3]].concat());
}
