//! Sheets: a request on each line, and an answer line for each.

use crate::columns::{self, CELL};
use crate::kinds::Condition;
use crate::machine::{Machine, Refusal};
use crate::proper::{Cell, Constraint, Pattern, ROW_CELLS};
use crate::store::Store;

/// The most bytes of a sheet that are read.
pub const SHEET: usize = 65_536;

const WORD: usize = 8;
const NUMBER: usize = 7;
const SECOND: usize = 11;

#[derive(Clone, PartialEq, Eq, Debug)]
pub enum Request {
    Begin { planner: u32 },
    Reserve { transaction: u32, right: u8, pattern: Pattern },
    Look { transaction: u32, row: Vec<Cell> },
    Survey { transaction: u32, reservation: u32 },
    Write { transaction: u32, row: Vec<Cell>, count: u32 },
    Strike { transaction: u32, row: Vec<Cell> },
    Commit { transaction: u32 },
    Abandon { transaction: u32 },
    Tally,
}

impl Request {
    pub fn word(&self) -> &'static str {
        match self {
            Request::Begin { .. } => "begin",
            Request::Reserve { .. } => "reserve",
            Request::Look { .. } => "look",
            Request::Survey { .. } => "survey",
            Request::Write { .. } => "write",
            Request::Strike { .. } => "strike",
            Request::Commit { .. } => "commit",
            Request::Abandon { .. } => "abandon",
            Request::Tally => "tally",
        }
    }
}

/// The columns of a line, as parts; columns that are missing are blank.
struct Parts {
    word: Vec<u8>,
    /// Columns 9 to 15 and 16 to 22.
    numbers: [Vec<u8>; 2],
    right: u8,
    /// Columns 24 on, by tens.
    groups: Vec<Vec<u8>>,
}

impl Parts {
    fn of(line: &[u8]) -> Parts {
        let fixed = WORD + 2 * NUMBER + 1;
        let mut line = columns::trim_end(line).to_vec();
        let tens = line.len().saturating_sub(fixed).div_ceil(CELL);
        line.resize(fixed + tens * CELL, b' ');
        Parts {
            word: columns::trim_end(&line[..WORD]).to_vec(),
            numbers: [line[WORD..WORD + NUMBER].to_vec(), line[WORD + NUMBER..fixed - 1].to_vec()],
            right: line[fixed - 1],
            groups: line[fixed..].chunks(CELL).map(<[u8]>::to_vec).collect(),
        }
    }

    /// Takes the first number or the second; what is taken is blank afterwards.
    fn number(&mut self, k: usize) -> Option<u32> {
        columns::read_number(&std::mem::take(&mut self.numbers[k]))
    }

    fn right(&mut self) -> u8 {
        std::mem::replace(&mut self.right, b' ')
    }

    fn row(&mut self) -> Option<Vec<Cell>> {
        read_cells(&std::mem::take(&mut self.groups))
    }

    /// Cells, then conditions, of which each is a group with a letter and two without.
    fn pattern(&mut self) -> Option<Pattern> {
        let groups = std::mem::take(&mut self.groups);
        let is_form = |i: usize| groups.get(i + 1).is_some_and(|g| g[0] == b' ');
        let cells = (0..groups.len()).take_while(|i| !is_form(*i)).count();
        let (cells, conditions) = groups.split_at(cells);
        let constraints = conditions.chunks(3).map(condition).collect::<Option<_>>()?;
        Some(Pattern { cells: read_cells(cells)?, constraints })
    }

    /// Whether nothing is left to take.
    fn is_blank(&self) -> bool {
        self.numbers.iter().all(|n| columns::is_blank(n)) && self.right == b' ' && self.groups.is_empty()
    }
}

fn read_cells(groups: &[Vec<u8>]) -> Option<Vec<Cell>> {
    groups.iter().map(|g| columns::read_cell(g)).collect()
}

fn condition(groups: &[Vec<u8>]) -> Option<Constraint> {
    let [head, a, b] = groups else { return None };
    let head = columns::read_cell(head)?;
    let number = |group: &[u8]| if group[0] == b' ' { columns::read_number(&group[1..]) } else { None };
    Some(Constraint { variable: head.number, condition: Condition { form: head.letter, a: number(a)?, b: number(b)? } })
}

/// The request that a line without its newline is laid out as.
pub fn read_request(line: &[u8]) -> Option<Request> {
    let mut parts = Parts::of(line);
    let request = match parts.word.as_slice() {
        b"begin" => Request::Begin { planner: parts.number(0)? },
        b"reserve" => Request::Reserve { transaction: parts.number(0)?, right: parts.right(), pattern: parts.pattern()? },
        b"look" => Request::Look { transaction: parts.number(0)?, row: parts.row()? },
        b"survey" => Request::Survey { transaction: parts.number(0)?, reservation: parts.number(1)? },
        b"write" => Request::Write { transaction: parts.number(0)?, row: parts.row()?, count: parts.number(1)? },
        b"strike" => Request::Strike { transaction: parts.number(0)?, row: parts.row()? },
        b"commit" => Request::Commit { transaction: parts.number(0)? },
        b"abandon" => Request::Abandon { transaction: parts.number(0)? },
        b"tally" => Request::Tally,
        _ => return None,
    };
    // Columns that the call does not use have to be blank.
    parts.is_blank().then_some(request)
}

/// The request's line, without a newline and without blanks at its end.
pub fn write_request(request: &Request) -> Vec<u8> {
    let (first, second, right) = match request {
        Request::Begin { planner } => (Some(*planner), None, b' '),
        Request::Reserve { transaction, right, .. } => (Some(*transaction), None, *right),
        Request::Survey { transaction, reservation } => (Some(*transaction), Some(*reservation), b' '),
        Request::Write { transaction, count, .. } => (Some(*transaction), Some(*count), b' '),
        Request::Look { transaction, .. }
        | Request::Strike { transaction, .. }
        | Request::Commit { transaction }
        | Request::Abandon { transaction } => (Some(*transaction), None, b' '),
        Request::Tally => (None, None, b' '),
    };
    let mut out = format!("{:<WORD$}", request.word()).into_bytes();
    columns::write_figure(&mut out, NUMBER, first.map(u64::from));
    columns::write_figure(&mut out, NUMBER, second.map(u64::from));
    out.push(right);
    match request {
        Request::Reserve { pattern, .. } => write_pattern(&mut out, pattern),
        Request::Look { row, .. } | Request::Write { row, .. } | Request::Strike { row, .. } => write_cells(&mut out, row),
        _ => {}
    }
    columns::trim_end(&out).to_vec()
}

fn write_cells(out: &mut Vec<u8>, cells: &[Cell]) {
    for cell in cells {
        columns::write_cell(out, *cell);
    }
}

fn write_pattern(out: &mut Vec<u8>, pattern: &Pattern) {
    write_cells(out, &pattern.cells);
    for k in &pattern.constraints {
        columns::write_cell(out, Cell::new(k.condition.form, k.variable));
        columns::write_number(out, CELL, u64::from(k.condition.a));
        columns::write_number(out, CELL, u64::from(k.condition.b));
    }
}

/// An answer line.
#[derive(Clone, PartialEq, Eq, Debug, Default)]
pub struct Answer {
    /// Empty on 44.
    pub word: String,
    /// The refusal's number, or 0.
    pub number: u32,
    pub first: Option<u64>,
    pub second: Option<u64>,
    pub sample: Vec<Cell>,
    /// Whether the sample has more cells than these.
    pub more: bool,
}

impl Answer {
    fn not_laid_out() -> Answer {
        Answer { number: 44, ..Answer::default() }
    }

    fn refused(refusal: Refusal) -> Answer {
        match refusal {
            Refusal::Plain(number) => Answer { number, ..Answer::default() },
            Refusal::At(number, place) => Answer { number, first: Some(place as u64), ..Answer::default() },
            Refusal::Conflict { transaction, reservation, mut sample } => {
                let more = sample.len() > ROW_CELLS;
                sample.truncate(ROW_CELLS);
                let (first, second) = (Some(u64::from(transaction)), Some(u64::from(reservation)));
                Answer { number: 30, first, second, sample, more, ..Answer::default() }
            }
        }
    }

    /// The answer's line, with its newline and without blanks at its end.
    pub fn write(&self) -> Vec<u8> {
        let mut out = format!("{:<WORD$}", self.word).into_bytes();
        columns::write_number(&mut out, NUMBER, u64::from(self.number));
        columns::write_figure(&mut out, NUMBER, self.first);
        columns::write_figure(&mut out, SECOND, self.second);
        write_cells(&mut out, &self.sample);
        if self.more {
            out.push(b'+');
        }
        let mut out = columns::trim_end(&out).to_vec();
        out.push(b'\n');
        out
    }

    /// The answer that a line without its newline shows; what is written again has to be the same line.
    pub fn read(line: &[u8]) -> Option<Answer> {
        let fixed = WORD + 2 * NUMBER + SECOND;
        let mut full = line.to_vec();
        full.resize(line.len().max(fixed), b' ');
        let figure = |from: usize, width: usize| columns::read_number(&full[from..from + width]);
        let (cells, more) = match full[fixed..].split_last() {
            Some((b'+', cells)) => (cells, true),
            _ => (&full[fixed..], false),
        };
        let answer = Answer {
            word: String::from_utf8(columns::trim_end(&full[..WORD]).to_vec()).ok()?,
            number: figure(WORD, NUMBER)?,
            first: figure(WORD + NUMBER, NUMBER).map(u64::from),
            second: figure(WORD + 2 * NUMBER, SECOND).map(u64::from),
            sample: cells.chunks(CELL).map(columns::read_cell).collect::<Option<_>>()?,
            more,
        };
        let written = answer.write();
        (written[..written.len() - 1] == *line).then_some(answer)
    }
}

/// What a granted request answers: the first number and the second.
type Figures = (Option<u64>, Option<u64>);

fn one(number: u32) -> Figures {
    (Some(u64::from(number)), None)
}

fn call<S: Store>(machine: &mut Machine<S>, request: &Request) -> Result<Figures, Refusal> {
    match request {
        Request::Begin { planner } => machine.begin(*planner).map(one),
        Request::Reserve { transaction, right, pattern } => machine.reserve(*transaction, *right, pattern).map(one),
        Request::Look { transaction, row } => machine.look(*transaction, row).map(|count| (count.map(u64::from), None)),
        Request::Survey { transaction, reservation } => {
            machine.survey(*transaction, *reservation).map(|(rows, total)| (Some(u64::from(rows)), Some(total)))
        }
        Request::Write { transaction, row, count } => machine.write(*transaction, row, *count).map(|()| (None, None)),
        Request::Strike { transaction, row } => machine.strike(*transaction, row).map(|()| (None, None)),
        Request::Commit { transaction } => machine.commit(*transaction).map(one),
        Request::Abandon { transaction } => machine.abandon(*transaction).map(one),
        Request::Tally => Ok((None, Some(u64::from(machine.tally())))),
    }
}

/// The answer to a line without its newline.
pub fn answer_line<S: Store>(machine: &mut Machine<S>, line: &[u8]) -> Answer {
    let Some(request) = read_request(line) else { return Answer::not_laid_out() };
    let answer = match call(machine, &request) {
        Ok((first, second)) => Answer { first, second, ..Answer::default() },
        Err(refusal) => Answer::refused(refusal),
    };
    Answer { word: request.word().to_string(), ..answer }
}

/// The lines of a sheet without their newlines; none for a last line that lacks it.
pub fn lines(sheet: &[u8]) -> Vec<Option<&[u8]>> {
    let read = &sheet[..sheet.len().min(SHEET)];
    let ended = read.split_inclusive(|b| *b == b'\n');
    ended.map(|line| line.strip_suffix(b"\n")).collect()
}

/// The answer lines to a whole sheet.
pub fn answer<S: Store>(machine: &mut Machine<S>, sheet: &[u8]) -> Vec<u8> {
    let mut out = Vec::new();
    for line in lines(sheet) {
        let answer = match line {
            Some(line) => answer_line(machine, line),
            None => Answer::not_laid_out(),
        };
        out.extend_from_slice(&answer.write());
    }
    out
}
