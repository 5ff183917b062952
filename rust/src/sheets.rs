//! Sheets to compare programs on: requests that collide often and reach every limit, and damaged ones.

use crate::draw::Draw;
use crate::generate::{self, cell};
use crate::kinds::Condition;
use crate::machine::Machine;
use crate::proper::{ARITIES, Cell, Constraint, Pattern};
use crate::sheet::{self, Request, SHEET};
use crate::store::{TABLE, Table};

/// What a sheet is mostly about.
#[derive(Clone, Copy, PartialEq, Eq, Debug)]
enum Theme {
    /// Few transactions with few patterns over few rows.
    Busy,
    /// More transactions than there is room for.
    Crowd,
    /// More reservations than there is room for.
    Readers,
    /// More rows and changes than there is room for.
    Loader,
    /// Commits into a store that is about full.
    Full,
    /// Nested patterns, with long samples.
    Deep,
    /// Busy, with damage in many lines.
    Damaged,
    /// Any bytes.
    Noise,
}

const THEMES: [Theme; 8] =
    [Theme::Busy, Theme::Crowd, Theme::Readers, Theme::Loader, Theme::Full, Theme::Deep, Theme::Damaged, Theme::Noise];

impl Theme {
    /// Shares of begin, reserve, look, survey, write, strike, commit, abandon and tally.
    fn shares(self) -> [u64; 9] {
        match self {
            Theme::Busy | Theme::Damaged => [12, 24, 14, 12, 18, 6, 8, 4, 2],
            Theme::Crowd => [45, 20, 8, 6, 8, 3, 4, 4, 2],
            Theme::Readers => [6, 80, 4, 4, 2, 1, 1, 1, 1],
            Theme::Loader => [2, 4, 4, 3, 76, 8, 2, 0, 1],
            Theme::Full => [3, 6, 4, 4, 60, 12, 9, 1, 1],
            Theme::Deep | Theme::Noise => [10, 50, 10, 6, 10, 4, 4, 4, 2],
        }
    }

    /// Percent of lines whose bytes are damaged.
    fn damage(self) -> u64 {
        match self {
            Theme::Damaged => 40,
            Theme::Noise => 50,
            _ => 1,
        }
    }

    /// How many numbers there are for junctions and arms.
    fn spread(self) -> u64 {
        match self {
            Theme::Loader => 14,
            Theme::Full => 9,
            _ => 4,
        }
    }
}

/// A reservation as the sheet's writer remembers it.
struct Held {
    transaction: u32,
    reservation: u32,
    pattern: Pattern,
}

/// Writes a sheet line by line, and knows from the answers what is open.
struct Writer<'a> {
    draw: &'a mut Draw,
    theme: Theme,
    /// Percent of requests with something in them that the manager refuses.
    wrong: u64,
    machine: Machine<Table>,
    open: Vec<u32>,
    held: Vec<Held>,
    last: u32,
    bytes: Vec<u8>,
}

/// A sheet of any theme, any length and any ending.
pub fn sheet(draw: &mut Draw) -> Vec<u8> {
    let theme = *draw.pick(&THEMES);
    let length = match draw.below(20) {
        0..=9 => 1 + draw.below(600),
        10..=16 => 2_000 + draw.below(12_000),
        _ => SHEET as u64 + 200,
    };
    themed(draw, theme, length as usize)
}

/// A sheet that is short or of middling length, with many commits.
pub fn short_sheet(draw: &mut Draw) -> Vec<u8> {
    let theme = *draw.pick(&[Theme::Busy, Theme::Loader, Theme::Full, Theme::Full, Theme::Damaged]);
    let most = *draw.pick(&[600, 6_000, 12_000]);
    let length = 1 + draw.below(most) as usize;
    themed(draw, theme, length)
}

fn themed(draw: &mut Draw, theme: Theme, length: usize) -> Vec<u8> {
    let wrong = *draw.pick(&[0, 3, 10, 30]);
    let machine = Machine::new(Table::new(TABLE).expect("a length of a table"));
    let mut writer = Writer { draw, theme, wrong, machine, open: Vec::new(), held: Vec::new(), last: 0, bytes: Vec::new() };
    if length > SHEET && writer.draw.chance(5) {
        writer.huge_line();
    }
    while writer.bytes.len() < length {
        writer.line();
    }
    let mut bytes = writer.bytes;
    end(draw, &mut bytes);
    bytes
}

/// Ends a sheet: whole, cut anywhere, or just about at the limit.
fn end(draw: &mut Draw, bytes: &mut Vec<u8>) {
    if bytes.len() < SHEET {
        match draw.below(16) {
            0 => bytes.clear(),
            1 => bytes.truncate(bytes.len() - 1),
            2 => bytes.truncate(draw.below(bytes.len() as u64) as usize),
            3 => bytes.push(b'\n'),
            _ => {}
        }
        return;
    }
    match draw.below(6) {
        0 => bytes.truncate(SHEET),
        1 => bytes.truncate(SHEET + 1),
        2 => end_line_at(bytes, SHEET),
        3 => end_line_at(bytes, SHEET + 1),
        4 => end_line_at(bytes, SHEET - 1),
        _ => {}
    }
}

/// Makes the sheet so long, with a last line that ends there: the last line that ended before gets blanks, which mean nothing.
fn end_line_at(bytes: &mut Vec<u8>, length: usize) {
    bytes.truncate(length - 1);
    let end = bytes.iter().rposition(|b| *b == b'\n').unwrap_or(0);
    bytes.truncate(end);
    bytes.resize(length - 1, b' ');
    bytes.push(b'\n');
}

/// Where the term that begins at `at` ends.
fn term_end(cells: &[Cell], at: usize) -> usize {
    let mut lacking = 1;
    let mut end = at;
    while lacking > 0 && end < cells.len() {
        lacking -= 1;
        if cells[end].letter == b'S' {
            lacking += ARITIES[cells[end].number as usize];
        }
        end += 1;
    }
    end
}

impl Writer<'_> {
    fn line(&mut self) {
        let mut line = if self.theme == Theme::Noise && self.draw.chance(50) {
            self.noise()
        } else {
            let request = self.request();
            sheet::write_request(&request)
        };
        if self.draw.chance(self.theme.damage()) {
            self.damage(&mut line);
        }
        self.add(&line);
    }

    /// A line of thousands of cells, laid out but perhaps for its end.
    fn huge_line(&mut self) {
        self.add(b"begin         1");
        let cells = 1_000 + self.draw.below(5_500) as usize;
        let mut line = b"look          1        ".to_vec();
        line.extend_from_slice(&b"S        0".repeat(cells));
        line.extend_from_slice(self.draw.pick::<&[u8]>(&[b"", b"N", b"N       01", b"                   1"]));
        self.add(&line);
    }

    fn add(&mut self, line: &[u8]) {
        self.enter(line);
        self.bytes.extend_from_slice(line);
        self.bytes.push(b'\n');
    }

    /// Keeps up with what the line does. A damaged line may be two.
    fn enter(&mut self, line: &[u8]) {
        for part in line.split(|b| *b == b'\n') {
            let answer = sheet::answer_line(&mut self.machine, part);
            let (Some(request), 0) = (sheet::read_request(part), answer.number) else { continue };
            let number = answer.first.unwrap_or(0) as u32;
            match request {
                Request::Begin { .. } => {
                    self.open.push(number);
                    self.last = number;
                }
                Request::Reserve { transaction, pattern, .. } => self.held.push(Held { transaction, reservation: number, pattern }),
                Request::Commit { transaction } | Request::Abandon { transaction } => {
                    self.open.retain(|t| *t != transaction);
                    self.held.retain(|h| h.transaction != transaction);
                }
                _ => {}
            }
        }
    }

    fn wrong(&mut self) -> bool {
        self.draw.chance(self.wrong)
    }

    fn request(&mut self) -> Request {
        if self.open.is_empty() && !self.wrong() {
            return self.begin();
        }
        if self.held.is_empty() && matches!(self.theme, Theme::Loader | Theme::Full) {
            return self.reserve();
        }
        let shares = self.theme.shares();
        let mut drawn = self.draw.below(shares.iter().sum());
        let mut call = 0;
        while drawn >= shares[call] {
            drawn -= shares[call];
            call += 1;
        }
        match call {
            0 => self.begin(),
            1 => self.reserve(),
            2 => {
                let (transaction, row) = self.held_row();
                Request::Look { transaction, row }
            }
            3 => self.survey(),
            4 => {
                let (transaction, row) = self.held_row();
                Request::Write { transaction, row, count: self.count() }
            }
            5 => {
                let (transaction, row) = self.held_row();
                Request::Strike { transaction, row }
            }
            6 => Request::Commit { transaction: self.transaction() },
            7 => Request::Abandon { transaction: self.transaction() },
            _ => Request::Tally,
        }
    }

    fn begin(&mut self) -> Request {
        let planner = if self.wrong() { *self.draw.pick(&[0, 17, 18, 9_999_999]) } else { 1 + self.draw.below(16) as u32 };
        Request::Begin { planner }
    }

    fn transaction(&mut self) -> u32 {
        if self.open.is_empty() || self.wrong() {
            let last = self.last;
            return *self.draw.pick(&[0, 1, last / 2, last, last + 1, 999_999, 9_999_999]);
        }
        *self.draw.pick(&self.open)
    }

    fn reserve(&mut self) -> Request {
        let transaction = self.transaction();
        let writes = match self.theme {
            Theme::Readers => 5,
            Theme::Loader | Theme::Full => 90,
            _ => 50,
        };
        let mut right = if self.draw.chance(writes) { b'W' } else { b'R' };
        if self.wrong() && self.draw.chance(30) {
            right = *self.draw.pick(b" rwX\0\xff");
        }
        let pattern = if self.wrong() {
            self.damaged_pattern()
        } else {
            match self.theme {
                Theme::Deep => self.deep_pattern(),
                Theme::Loader | Theme::Full if self.draw.chance(80) => self.broad_pattern(),
                _ => self.pattern(),
            }
        };
        Request::Reserve { transaction, right, pattern }
    }

    fn survey(&mut self) -> Request {
        if self.held.is_empty() || self.wrong() {
            let reservation = *self.draw.pick(&[0, 1, 2, 3, 7, 64, 9_999_999]);
            return Request::Survey { transaction: self.transaction(), reservation };
        }
        let k = self.draw.below(self.held.len() as u64) as usize;
        let transaction = if self.draw.chance(92) { self.held[k].transaction } else { self.transaction() };
        Request::Survey { transaction, reservation: self.held[k].reservation }
    }

    fn count(&mut self) -> u32 {
        if self.wrong() {
            return *self.draw.pick(&[0, 999_999, 1_000_000, 9_999_999]);
        }
        match self.draw.below(8) {
            0 => 0,
            1 => 999_999,
            _ => self.draw.below(2_000) as u32,
        }
    }

    /// A transaction, and a row that often fits a reservation of its own.
    fn held_row(&mut self) -> (u32, Vec<Cell>) {
        let (transaction, row) = if self.held.is_empty() || self.draw.chance(12) {
            (self.transaction(), generate::row(self.draw, self.theme.spread()))
        } else {
            let k = self.draw.below(self.held.len() as u64) as usize;
            let pattern = self.held[k].pattern.clone();
            (self.held[k].transaction, self.row_of(&pattern))
        };
        (transaction, if self.wrong() { self.damaged_row(row) } else { row })
    }

    /// The pattern with values for its variables; not all of them meet its constraints.
    fn row_of(&mut self, pattern: &Pattern) -> Vec<Cell> {
        let chosen: Vec<Vec<Cell>> = (0..8).map(|variable| self.term_for(variable, pattern)).collect();
        let mut row = Vec::new();
        for c in &pattern.cells {
            match c.letter {
                b'V' => row.extend_from_slice(&chosen[c.number as usize]),
                _ => row.push(*c),
            }
        }
        row
    }

    fn term_for(&mut self, variable: u32, pattern: &Pattern) -> Vec<Cell> {
        let condition = pattern.constraints.iter().find(|k| k.variable == variable).map(|k| k.condition);
        let spread = self.theme.spread();
        vec![match condition {
            Some(q) if q.form == b'B' => cell(b'N', u64::from(q.a) + self.draw.below(spread)),
            Some(q) if q.form == b'X' => cell(b'N', self.draw.below(spread)),
            Some(q) if q.form == b'W' => generate::hour(self.draw),
            Some(_) => generate::class(self.draw),
            None if self.draw.chance(10) => cell(b'S', self.draw.below(32).saturating_sub(4)),
            None if self.draw.chance(8) => generate::hour(self.draw),
            None => cell(b'N', self.draw.below(spread)),
        }]
    }

    /// A row with some of its terms turned into variables, and constraints that let little more through than what stood there.
    fn pattern(&mut self) -> Pattern {
        let row = generate::row(self.draw, self.theme.spread());
        let often = *self.draw.pick(&[20, 50, 90]);
        let variables = 1 + self.draw.below(4);
        let mut pattern = Pattern { cells: vec![row[0]], constraints: Vec::new() };
        let mut at = 1;
        while at < row.len() {
            if self.draw.chance(often) {
                let variable = self.draw.below(variables) as u32;
                pattern.cells.push(Cell::new(b'V', variable));
                if self.draw.chance(40) {
                    let condition = self.condition(row[at]);
                    pattern.constraints.push(Constraint { variable, condition });
                }
                at = term_end(&row, at);
            } else {
                pattern.cells.push(row[at]);
                at += 1;
            }
        }
        while self.draw.chance(6) {
            let value = *self.draw.pick(&[cell(b'N', 2), cell(b'H', 8), cell(b'C', 3)]);
            let condition = self.condition(value);
            pattern.constraints.push(Constraint { variable: self.draw.below(8) as u32, condition });
        }
        pattern
    }

    /// Every turn, or those from some arms on, or up to some.
    fn broad_pattern(&mut self) -> Pattern {
        let split = self.draw.below(self.theme.spread()) as u32;
        let range = *self.draw.pick(&[(0, 999_999_999), (0, split), (split, 13), (split + 1, 13)]);
        let condition = Condition { form: b'B', a: range.0, b: range.1 };
        Pattern { cells: vec![cell(b'S', 2), cell(b'V', 0), cell(b'V', 1)], constraints: vec![Constraint { variable: 0, condition }] }
    }

    /// A nested pattern, often made from one that is held.
    fn deep_pattern(&mut self) -> Pattern {
        if self.held.is_empty() || self.draw.chance(40) {
            return generate::pair(self.draw).0;
        }
        let k = self.draw.below(self.held.len() as u64) as usize;
        let cells = generate::altered(self.draw, &self.held[k].pattern.cells);
        Pattern { cells, constraints: generate::constraints(self.draw) }
    }

    /// A condition that a value mostly meets, with few others, so that two of them barely overlap.
    fn condition(&mut self, value: Cell) -> Condition {
        let n = value.number;
        match value.letter {
            b'N' if self.draw.chance(25) => Condition { form: b'X', a: self.draw.below(4) as u32, b: 0 },
            b'N' => {
                let below = self.draw.below(3) as u32;
                let above = *self.draw.pick(&[0, 0, 1, 2, 30, 999_999_900]);
                Condition { form: b'B', a: n.saturating_sub(below), b: n + above }
            }
            b'C' => Condition { form: b'M', a: (1 << n) | self.draw.below(16) as u32, b: 0 },
            b'H' => Condition { form: b'W', a: (1 << (n / 24)) | self.draw.below(4) as u32, b: (1 << (n % 24)) | self.draw.below(2) as u32 },
            _ => Condition { form: b'B', a: self.draw.below(3) as u32, b: self.draw.below(4) as u32 },
        }
    }

    /// A pattern with something wrong in it, or just not.
    fn damaged_pattern(&mut self) -> Pattern {
        let mut pattern = if self.draw.chance(50) { generate::damaged(self.draw) } else { self.pattern() };
        match self.draw.below(6) {
            0 => {
                let a = *self.draw.pick(&[0, 127, 128, 16_777_215, 16_777_216, 999_999_999]);
                let b = *self.draw.pick(&[0, 0, 1, 16_777_215, 16_777_216, 999_999_999]);
                let condition = Condition { form: *self.draw.pick(b"BXWM"), a, b };
                pattern.constraints.push(Constraint { variable: *self.draw.pick(&[0, 7, 8]), condition });
            }
            1 => {
                let count = *self.draw.pick(&[8, 9, 10, 24, 200]);
                let condition = Condition { form: b'B', a: 0, b: 999_999_999 };
                pattern.constraints.resize(count, Constraint { variable: 1, condition });
            }
            2 => pattern.cells.resize(*self.draw.pick(&[23, 24, 25, 26, 300]), cell(b'V', 1)),
            3 => pattern.cells = [vec![cell(b'S', 3); *self.draw.pick(&[22, 23, 24])], vec![cell(b'V', 7)]].concat(),
            4 if !pattern.cells.is_empty() => {
                let k = self.draw.below(pattern.cells.len() as u64) as usize;
                pattern.cells[k].number = self.edge(pattern.cells[k].letter);
            }
            _ => {}
        }
        pattern
    }

    /// The last number of a letter's cells, or the first that is too large.
    fn edge(&mut self, letter: u8) -> u32 {
        let last = match letter {
            b'S' => 31,
            b'V' => 7,
            b'H' => 167,
            b'C' => 23,
            _ => return 999_999_999,
        };
        last + self.draw.below(2) as u32
    }

    fn damaged_row(&mut self, mut row: Vec<Cell>) -> Vec<Cell> {
        let k = self.draw.below(row.len() as u64) as usize;
        match self.draw.below(9) {
            0 => row.truncate(k),
            1 => row.push(cell(b'N', 0)),
            2 => row[k].letter = *self.draw.pick(b"SVNHCABZsn+\0\xff"),
            3 => row[k].number = self.edge(row[k].letter),
            4 => row[k] = cell(b'V', self.draw.below(10)),
            5 => row.resize(*self.draw.pick(&[12, 13, 14, 25, 30, 300]), cell(b'S', 0)),
            6 => row.splice(..0, vec![cell(b'S', 3); 1 + self.draw.below(13) as usize]).for_each(drop),
            7 => row = vec![cell(b'S', 1); 1 + self.draw.below(5) as usize],
            _ => row[0] = cell(b'N', 1),
        }
        row
    }

    /// A line of any bytes, or of bytes that requests have.
    fn noise(&mut self) -> Vec<u8> {
        let most = *self.draw.pick(&[1, 4, 30, 80, 300]);
        let length = self.draw.below(most);
        let any = self.draw.chance(50);
        (0..length).map(|_| if any { self.draw.below(256) as u8 } else { *self.draw.pick(b"  019SVNRWbeginlook") }).collect()
    }

    fn damage(&mut self, line: &mut Vec<u8>) {
        let k = self.draw.below(line.len() as u64 + 1) as usize;
        match self.draw.below(16) {
            0 | 1 => self.damage_byte(line),
            2 => line.insert(k, b' '),
            3 => drop(line.drain(k..line.len().min(k + 1))),
            4 => self.leading_zero(line),
            5 => line.iter_mut().take(1 + self.draw.below(8) as usize).for_each(|b| *b = b.to_ascii_uppercase()),
            6 => line.resize(line.len() + self.draw.below(60) as usize, b' '),
            7 => self.fill(line),
            8 => line.extend_from_slice(b"B        0         0         9"),
            9 => line.extend_from_slice(b"N        3"),
            10 => line.truncate(k),
            11 => line.push(*self.draw.pick(b"\r\t\0+ 0")),
            12 => line.insert(k, b'\n'),
            13 => line.resize(line.len() + self.draw.below(12) as usize, b'0'),
            14 => line.splice(..0, *b" ").for_each(drop),
            _ => *line = self.noise(),
        }
    }

    /// Changes one byte to any value, or to one that stands elsewhere in requests.
    fn damage_byte(&mut self, line: &mut [u8]) {
        if !line.is_empty() {
            let k = self.draw.below(line.len() as u64) as usize;
            line[k] = if self.draw.chance(50) { self.draw.below(256) as u8 } else { *self.draw.pick(b" 0123456789SVNHCBXWMR\t-+") };
        }
    }

    /// Puts a zero where the blank before some number ends.
    fn leading_zero(&mut self, line: &mut [u8]) {
        let starts: Vec<usize> = (1..line.len()).filter(|i| line[*i].is_ascii_digit() && line[i - 1] == b' ').collect();
        if !starts.is_empty() {
            let start = *self.draw.pick(&starts);
            line[start - 1] = b'0';
        }
    }

    /// Puts something into one of the first columns, or just behind the line.
    fn fill(&mut self, line: &mut Vec<u8>) {
        let k = self.draw.below(34) as usize;
        line.resize(line.len().max(k + 1), b' ');
        line[k] = *self.draw.pick(b"01RSx\n");
    }
}
