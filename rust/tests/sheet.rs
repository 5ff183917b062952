//! Sheets by hand: layout, answers, and the check for a serial order.

mod common;
use common::{cells, pattern};
use model::draw::Draw;
use model::history;
use model::image::Image;
use model::machine::Machine;
use model::proper::ARITIES;
use model::sheet::{self, Answer, Request, SHEET, read_request, write_request};
use model::sheets;
use model::store::{TABLE, Table};

fn answers(sheet: &[u8]) -> String {
    let mut machine = Machine::new(Table::new(TABLE).expect("a length of a table"));
    String::from_utf8(sheet::answer(&mut machine, sheet)).expect("letters")
}

const WORKED: &str = "\
begin         1
begin         2
reserve       1       WS        2V        0V        0
reserve       2       RS        2N        3V        0
write         1    250 S        2N        3N        3
commit        1
";

const WORKED_ANSWERS: &str = "\
begin         0      1
begin         0      2
reserve       0      1
reserve      30      1          1S        2N        3N        3
write         0
commit        0      1
";

#[test]
fn worked_example() {
    assert_eq!(answers(WORKED.as_bytes()), WORKED_ANSWERS);
}

#[test]
fn requests_are_laid_out_in_columns() {
    let row = cells("S2 N3 N4");
    let laid_out = [
        ("begin        16", Request::Begin { planner: 16 }),
        ("begin   9999999", Request::Begin { planner: 9_999_999 }),
        ("look          1        S        2N        3N        4", Request::Look { transaction: 1, row: row.clone() }),
        ("strike        0        S        2N        3N        4", Request::Strike { transaction: 0, row: row.clone() }),
        ("write         1      0 S        2N        3N        4", Request::Write { transaction: 1, row, count: 0 }),
        ("write         1      0", Request::Write { transaction: 1, row: Vec::new(), count: 0 }),
        ("survey        1     12", Request::Survey { transaction: 1, reservation: 12 }),
        ("commit        1", Request::Commit { transaction: 1 }),
        ("abandon       1", Request::Abandon { transaction: 1 }),
        ("tally", Request::Tally),
        (
            "reserve       1       WS        2V        0V        1B        0         3         5M        1       255         0",
            Request::Reserve { transaction: 1, right: b'W', pattern: pattern("S2 V0 V1 V0:B:3:5 V1:M:255:0") },
        ),
        ("reserve       1", Request::Reserve { transaction: 1, right: b' ', pattern: pattern("") }),
        (
            "reserve       1       RB        0         3         5",
            Request::Reserve { transaction: 1, right: b'R', pattern: pattern("V0:B:3:5") },
        ),
    ];
    for (line, request) in laid_out {
        assert_eq!(read_request(line.as_bytes()).as_ref(), Some(&request), "{line}");
        assert_eq!(read_request(format!("{line}      ").as_bytes()).as_ref(), Some(&request), "{line}");
        assert_eq!(write_request(&request), line.as_bytes());
    }
}

#[test]
fn lines_that_are_not_laid_out() {
    let lines: [&[u8]; 34] = [
        b"",
        b"          ",
        b"begin",
        b"Begin         1",
        b"BEGIN         1",
        b" begin        1",
        b"begins        1",
        b"begin        1",
        b"begin          1",
        b"begin        01",
        b"begin         1 1",
        b"begin         1      1",
        b"begin         1       R",
        b"begin         1        S        0",
        b"begin         1\r",
        b"begin\t        1",
        b"begin        +1",
        b"beginning     1",
        b"tally         0",
        b"tally                x",
        b"survey        1",
        b"survey               1",
        b"survey        1      1 S        0",
        b"write         1        S        2N        3N        4",
        b"write         1      5RS        2N        3N        4",
        b"look          1      5 S        2N        3N        4",
        b"look          1        S        2N        3N       04",
        b"look          1        S        2          N        4",
        b"look          1       S        2N        3N        4",
        b"look          1        S        2V        0V        1B        0         3         5",
        b"reserve       1       WS        2V        0V        1B        0         3",
        b"reserve       1       WS        2V        0V        1B        0         3         5N        1",
        b"reserve       1       WS        2V        0V        1B        0         3         5                   7",
        b"reserve       1       W         2V        0V        1",
    ];
    for line in lines {
        assert_eq!(read_request(line), None, "{}", line.escape_ascii());
        let sheet = [line, b"\ntally\n"].concat();
        assert_eq!(answers(&sheet), "             44\ntally         0                 0\n", "{}", line.escape_ascii());
    }
}

#[test]
fn refusals_have_places() {
    let sheet = "\
begin         0
begin         1
reserve       1        S        2V        0V        0
reserve       1       RS        2V        0
reserve       1       R
reserve       1       RS        2V        0Q        0
reserve       1       RS        2V        0V        1B        0         3         5X        0         3         5
reserve       1       RS        2V        0V        1B        9         3         5
look          1        S       99
look          1        S        0
look          7        S        0
reserve       1       RS        0
look          1        S        0
survey        1      1
survey        1      2
write         1      5 S        0
write         11000000 S        0
strike        1        S        0
abandon       1
tally
";
    let printed = "\
begin        10
begin         0      1
reserve      14
reserve      21      2
reserve      21      0
reserve      20      2
reserve      22      1
reserve      23      0
look         21      0
look         25
look         13
reserve       0      1
look          0
survey        0      0          0
survey       26
write        28
write        27
strike       28
abandon       0      0
tally         0                 0
";
    assert_eq!(answers(sheet.as_bytes()), printed);
}

#[test]
fn long_samples_have_a_mark() {
    let sheet = "\
begin         1
begin         1
reserve       1       WS        2V        0V        0
reserve       2       RS        2S        1N        1N        2N        3N        4V        0
reserve       2       RS        2S        1N        1N        2N        3S        3N        4V        0
tally
";
    let eleven = "S        2S        1N        1N        2N        3N        4S        1N        1N        2N        3N        4";
    let thirteen = "S        2S        1N        1N        2N        3S        3N        4S        1N        1N        2N        3S        3+";
    let printed = format!(
        "begin         0      1\nbegin         0      2\nreserve       0      1\nreserve      30      1          1{eleven}\n\
         reserve      30      1          1{thirteen}\ntally         0                 2\n"
    );
    assert_eq!(answers(sheet.as_bytes()), printed);
}

#[test]
fn ends_of_sheets() {
    assert_eq!(answers(b""), "");
    assert_eq!(answers(b"\n"), "             44\n");
    assert_eq!(answers(b"tally"), "             44\n");
    assert_eq!(answers(b"tally\ntally"), "tally         0                 0\n             44\n");
    // A line that ends with the last byte that is read is whole, and a later one is not read.
    let mut full = b"tally".to_vec();
    full.resize(SHEET - 1, b' ');
    full.push(b'\n');
    assert_eq!(answers(&full), "tally         0                 0\n");
    full.extend_from_slice(b"tally\n");
    assert_eq!(answers(&full), "tally         0                 0\n");
    full.insert(5, b' ');
    assert_eq!(answers(&full), "             44\n");
    assert_eq!(answers(&b"\n".repeat(SHEET + 1)), "             44\n".repeat(SHEET));
}

#[test]
fn a_sheet_over_an_image() {
    let line = |row: &str, count: &str| format!("{row:<120}{count:>7}\n");
    let before = [line("S        3N        1", "5"), line("", ""), line("S        3N        2", "6"), line("", "")].concat();
    let sheet = "\
begin         1
reserve       1       WS        3V        0
survey        1      1
write         1     70 S        3N        7
write         1     80 S        3N        8
write         1     61 S        3N        2
strike        1        S        3N        1
write         1     71 S        3N        7
commit        1
";
    let mut machine = Machine::new(Image::open(&ARITIES, before.as_bytes()).expect("an image"));
    let printed = String::from_utf8(sheet::answer(&mut machine, sheet.as_bytes())).expect("letters");
    assert_eq!(printed.lines().nth(2), Some("survey        0      2         11"));
    assert_eq!(printed.lines().last(), Some("commit        0      1"));
    // The dropped line is blank when the new rows come, in the order of arrival.
    let after = [line("S        3N        7", "71"), line("S        3N        8", "80"), line("S        3N        2", "61"), line("", "")];
    assert_eq!(String::from_utf8(machine.store.bytes()), Ok(after.concat()));
}

#[test]
fn answers_read_back() {
    for line in WORKED_ANSWERS.lines() {
        let answer = Answer::read(line.as_bytes()).expect("an answer");
        assert_eq!(answer.write(), format!("{line}\n").as_bytes());
    }
    for line in ["", "begin", "begin         0      1 ", "begin         0     01", "begin         0      1          1S        "] {
        assert_eq!(Answer::read(line.as_bytes()), None, "{line}");
    }
}

/// One transaction commits a row, a second one sees it.
const TWO: &str = "\
begin         1
reserve       1       WS        3V        0
write         1      5 S        3N        1
look          1        S        3N        1
commit        1
begin         2
reserve       2       WS        3V        0
look          2        S        3N        1
strike        2        S        3N        1
survey        2      2
";

const TWO_ANSWERS: &str = "\
begin         0      1
reserve       0      1
write         0
look          0      5
commit        0      1
begin         0      2
reserve       0      2
look          0      5
strike        0
survey        0      0          0
";

#[test]
fn serial_answers() {
    assert_eq!(answers(TWO.as_bytes()), TWO_ANSWERS);
    let summary = history::check(TWO.as_bytes(), TWO_ANSWERS.as_bytes()).expect("a serial order");
    assert_eq!((summary.committed, summary.open, summary.looks, summary.surveys), (1, 1, 1, 0));
    assert!(history::check(WORKED.as_bytes(), WORKED_ANSWERS.as_bytes()).is_ok());
}

#[test]
fn answers_that_are_not_serial() {
    let changes = [
        ("look          0      5\ncommit", "look          0\ncommit", "transaction 1 run alone"),
        ("look          0      5\nstrike", "look          0      6\nstrike", "open transaction 2 run alone"),
        ("survey        0      0          0", "survey        0      1          5", "open transaction 2 run alone"),
        ("survey        0      0          0", "survey        0      0", "open transaction 2 run alone"),
        ("begin         0      2", "begin         0      1", "given again"),
        ("reserve       0      2", "reserve       0      1", "given again"),
        ("begin         0      2", "begin         0      3", "not open"),
        ("commit        0      1", "abandon       0      1", "is answered by"),
        ("commit        0      1", "             44", "is answered by"),
        ("commit        0      1", "commit       13", "overlaps"),
        ("strike        0\n", "", "answer lines"),
        ("strike        0\n", "strike        00\n", "not laid out"),
    ];
    for (from, to, why) in changes {
        let changed = TWO_ANSWERS.replacen(from, to, 1);
        assert_ne!(changed, TWO_ANSWERS);
        let found = history::check(TWO.as_bytes(), changed.as_bytes()).expect_err(to);
        assert!(found.contains(why), "{found}");
    }
}

/// A transaction looks twice, and another commits between.
#[test]
fn a_look_that_cannot_be_repeated() {
    let requests = "\
begin         1
begin         2
reserve       1       RS        3N        1
look          1        S        3N        1
reserve       2       WS        3N        2
write         2      5 S        3N        2
commit        2
look          1        S        3N        1
commit        1
";
    let printed = "\
begin         0      1
begin         0      2
reserve       0      1
look          0
reserve       0      2
write         0
commit        0      1
look          0
commit        0      2
";
    assert!(history::check(requests.as_bytes(), printed.as_bytes()).is_ok());
    let last = printed.replace("look          0\ncommit        0      2", "look          0      5\ncommit        0      2");
    assert!(history::check(requests.as_bytes(), last.as_bytes()).is_err());
    let overlapping = requests.replace("N        2", "N        1");
    let found = history::check(overlapping.as_bytes(), printed.as_bytes()).expect_err("an overlap");
    assert!(found.contains("reservation 2 overlaps reservation 1"), "{found}");
}

#[test]
fn conflicts_that_are_none() {
    let conflict = "1          1S        2N        3N        3";
    let requests = format!("{WORKED}tally\n");
    let printed = format!("{WORKED_ANSWERS}tally         0                 1\n");
    assert!(history::check(requests.as_bytes(), printed.as_bytes()).is_ok());
    let changes = [
        (conflict, "2          1S        2N        3N        3", "no reservation 1 of transaction 2"),
        (conflict, "1          2S        2N        3N        3", "no reservation 2 of transaction 1"),
        (conflict, "1          1S        2N        3N        4", "does not fit"),
        (conflict, "1          1S        2N        3", "does not fit"),
        ("                 1\n", "                 0\n", "there were 1 conflicts"),
    ];
    for (from, to, why) in changes {
        let found = history::check(requests.as_bytes(), printed.replace(from, to).as_bytes()).expect_err(to);
        assert!(found.contains(why), "{found}");
    }
}

#[test]
fn generated_sheets_are_serial() {
    let mut draw = Draw::new(11);
    for _ in 0..40 {
        let sheet = sheets::sheet(&mut draw);
        history::check(&sheet, answers(&sheet).as_bytes()).expect("a serial order");
    }
}
