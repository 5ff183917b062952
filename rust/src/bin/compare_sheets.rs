//! Compares the proved program `sheet` with the rules on generated sheets: `compare_sheets [COUNT [SEED [PROGRAM]]]`.
//! COUNT is the number of request lines; PROGRAM (or the variable SHEET) is where the program lies, by default crates/NAME/out/NAME of the
//! repository. Each sheet is also checked for a serial order. It ends with status 1 at the first difference, and keeps the sheet.
//! The word `rules` for PROGRAM runs the rules alone, with the check for a serial order.

use model::draw::Draw;
use model::history::{self, Summary};
use model::machine::Machine;
use model::store::{TABLE, Table};
use model::{programs, sheet, sheets};
use std::collections::BTreeMap;
use std::io;
use std::path::{Path, PathBuf};
use std::process::ExitCode;

fn rules(bytes: &[u8]) -> Vec<u8> {
    sheet::answer(&mut Machine::new(Table::new(TABLE).expect("a length of a table")), bytes)
}

/// What is wrong with the program's answers, if anything is.
fn fault(program: Option<&Path>, bytes: &[u8], expected: &[u8]) -> io::Result<Option<String>> {
    let Some(program) = program else { return Ok(None) };
    let printed = programs::run(program, &[], bytes)?;
    let difference = programs::first_difference(expected, &printed.bytes);
    Ok(if printed.status.is_some() { difference } else { Some("its end: a signal ended it".to_string()) })
}

/// How often each refusal was answered; 0 stands for granted.
#[derive(Default)]
struct Tallies {
    sheets: u64,
    requests: u64,
    answers: BTreeMap<u32, u64>,
    long: u64,
    serial: Summary,
}

impl Tallies {
    fn add(&mut self, answers: &[u8], serial: Summary) {
        self.sheets += 1;
        for line in answers.split_inclusive(|b| *b == b'\n') {
            self.requests += 1;
            let number = std::str::from_utf8(&line[8..15]).ok().and_then(|n| n.trim().parse().ok()).unwrap_or(0);
            *self.answers.entry(number).or_default() += 1;
            self.long += u64::from(line.ends_with(b"+\n"));
        }
        self.serial.committed += serial.committed;
        self.serial.looks += serial.looks;
        self.serial.surveys += serial.surveys;
    }

    fn print(&self) {
        println!("{} request lines in {} sheets agree", self.requests, self.sheets);
        let by_number: Vec<String> = self.answers.iter().map(|(number, count)| format!("{number}: {count}")).collect();
        println!("answers by number: {}; samples of more than 12 cells: {}", by_number.join(", "), self.long);
        let s = self.serial;
        println!("serial order: {} committed transactions with {} looks and {} surveys", s.committed, s.looks, s.surveys);
    }
}

fn compare(count: u64, seed: u64, program: Option<&Path>) -> io::Result<ExitCode> {
    let mut draw = Draw::new(seed);
    let mut tallies = Tallies::default();
    while tallies.requests < count || tallies.sheets == 0 {
        let bytes = sheets::sheet(&mut draw);
        let answers = rules(&bytes);
        if let Some(why) = fault(program, &bytes, &answers)? {
            let differs = |part: &[u8]| fault(program, part, &rules(part)).is_ok_and(|found| found.is_some());
            let small = programs::shrink(&bytes, differs);
            let (whole, part) = (programs::keep("sheet-whole.txt", &bytes)?, programs::keep("sheet-small.txt", &small)?);
            println!("sheet {} differs in {why}\nkept: {}, and smaller {}", tallies.sheets, whole.display(), part.display());
            return Ok(ExitCode::FAILURE);
        }
        match history::check(&bytes, &answers) {
            Ok(serial) => tallies.add(&answers, serial),
            Err(why) => {
                println!("sheet {} is not serial: {why}\nkept: {}", tallies.sheets, programs::keep("sheet-whole.txt", &bytes)?.display());
                return Ok(ExitCode::FAILURE);
            }
        }
    }
    tallies.print();
    Ok(ExitCode::SUCCESS)
}

fn main() -> ExitCode {
    let mut args = std::env::args().skip(1);
    let mut number = |default: u64| args.next().map_or(Some(default), |word| word.parse().ok());
    let (Some(count), Some(seed)) = (number(20_000), number(1)) else {
        eprintln!("usage: compare_sheets [COUNT [SEED [PROGRAM]]]");
        return ExitCode::from(2);
    };
    let program: PathBuf = programs::place(args.next(), "SHEET", "sheet");
    let alone = program == Path::new("rules");
    if !alone && !program.is_file() {
        eprintln!("compare_sheets: there is no program {}; `rt check sheet` builds it", program.display());
        return ExitCode::from(2);
    }
    compare(count, seed, (!alone).then_some(&program)).unwrap_or_else(|error| {
        eprintln!("compare_sheets: {error}");
        ExitCode::from(2)
    })
}
