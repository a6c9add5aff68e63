// The program `crates/explain` in plain Rust: reads a ticket from standard input and prints its report. Each letter has a list of rules of its own, with sets as numbers.
mod search;

use search::{Halved, Line, MOST_LINES, Search, halve};
use std::fmt::{self, Write as _};
use std::io::{self, Read, Write as _};

// A ticket as it is read.

const LONGEST: usize = 16_384;

#[derive(Clone, Copy)]
enum Flaw {
    Long = 1,
    Cut,
    Key,
    Count,
    Form,
    Range,
    Order,
    Tail = 9,
}

// Why a ticket is refused, with line and field.
struct Fault(Flaw, usize, usize);

// The requests that have to be in a set for a rule to be in force: none for a rule of the house.
type Asker = u32;

struct Turn {
    asker: Asker,
    options: u32,
    head: u32,
}

struct Bar {
    asker: Asker,
    options: u32,
}

struct Gap {
    asker: Asker,
    a: usize,
    b: usize,
    w: i32,
}

// The faces in the lower half, and the bit in the upper.
struct Sum {
    asker: Asker,
    sum: u64,
}

#[derive(Default)]
struct Rules {
    turns: Vec<Turn>,
    bars: Vec<Bar>,
    gaps: Vec<Gap>,
    sums: Vec<Sum>,
}

struct Ticket {
    requests: u32,
    checks: u32,
    rules: Rules,
}

// One to seven digits, with no 0 before others.
fn number(field: &[u8]) -> Option<u32> {
    match field {
        [b'0'] => Some(0),
        [b'1'..=b'9', ..] if field.len() <= 7 => field.iter().try_fold(0, |sum, b| b.is_ascii_digit().then(|| sum * 10 + u32::from(b - b'0'))),
        _ => None,
    }
}

fn signed(field: &[u8]) -> Option<i32> {
    match field {
        [b'-', b'0', ..] => None,
        [b'-', digits @ ..] => number(digits).map(|n| -(n as i32)),
        _ => number(field).map(|n| n as i32),
    }
}

// How a field is written, and the range of its number.
#[derive(Clone, Copy)]
enum Column {
    Number(i32, i32),
    Head,
    Width,
}

impl Column {
    // -1 says `-` where that may stand, which no number there does.
    fn said(self, field: &[u8]) -> Option<i32> {
        match self {
            Column::Head if field == b"-" => Some(-1),
            Column::Width => signed(field),
            Column::Number(..) | Column::Head => number(field).map(|n| n as i32),
        }
    }

    fn has(self, value: i32) -> bool {
        match self {
            Column::Number(low, high) => (low..=high).contains(&value),
            Column::Head => value <= 31,
            Column::Width => value.abs() <= 10_000,
        }
    }
}

const MOST_FIELDS: usize = 10;

// What is left of a ticket, and the number of the line before it.
struct Rest<'a> {
    line: usize,
    text: &'a [u8],
}

impl<'a> Rest<'a> {
    fn line(&mut self) -> Result<&'a [u8], Fault> {
        self.line += 1;
        let end = self.text.iter().position(|b| *b == b'\n').ok_or(Fault(Flaw::Cut, self.line, 0))?;
        let line = &self.text[..end];
        self.text = &self.text[end + 1..];
        Ok(line)
    }

    // The fields of a value: so many, each in its column, and those from the third on a rising row where it ends in a set.
    fn fields<'b>(&self, value: &[u8], least: usize, columns: &[Column], set: bool, values: &'b mut [i32; MOST_FIELDS]) -> Result<&'b [i32], Fault> {
        let count = value.iter().filter(|b| **b == b',').count() + 1;
        if count < least || count > columns.len() {
            return Err(Fault(Flaw::Count, self.line, 0));
        }
        for (i, field) in value.split(|b| *b == b',').enumerate() {
            values[i] = columns[i].said(field).ok_or(Fault(Flaw::Form, self.line, i + 1))?;
        }
        let values = &values[..count];
        if let Some(i) = (0..count).find(|i| !columns[*i].has(values[*i])) {
            return Err(Fault(Flaw::Range, self.line, i + 1));
        }
        match (3..count).find(|i| set && values[*i] <= values[i - 1]) {
            Some(i) => Err(Fault(Flaw::Order, self.line, i + 1)),
            None => Ok(values),
        }
    }

    fn header(&mut self, key: &[u8], low: i32, high: i32) -> Result<u32, Fault> {
        let value = self.line()?.strip_prefix(key).ok_or(Fault(Flaw::Key, self.line, 0))?;
        let mut values = [0; MOST_FIELDS];
        Ok(self.fields(value, 1, &[Column::Number(low, high)], false, &mut values)?[0] as u32)
    }

    fn rule(&mut self, requests: u32, rules: &mut Rules) -> Result<(), Fault> {
        let (letter, value) = match self.line()? {
            [letter @ (b'h' | b'g' | b'f'), b'=', value @ ..] => (*letter, value),
            _ => return Err(Fault(Flaw::Key, self.line, 0)),
        };
        let owner = Column::Number(0, requests as i32);
        let mut columns = [Column::Number(0, 31); MOST_FIELDS];
        columns[0] = owner;
        let mut values = [0; MOST_FIELDS];
        match letter {
            b'h' => {
                columns[1] = Column::Head;
                let values = self.fields(value, 2, &columns, true, &mut values)?;
                let (asker, options) = (asker(values), members(values));
                match values[1] {
                    -1 => rules.bars.push(Bar { asker, options }),
                    head => rules.turns.push(Turn { asker, options, head: 1 << head }),
                }
            }
            b'g' => {
                let mark = Column::Number(0, 15);
                let values = self.fields(value, 4, &[owner, mark, mark, Column::Width], false, &mut values)?;
                rules.gaps.push(Gap { asker: asker(values), a: values[1] as usize, b: values[2] as usize, w: values[3] });
            }
            _ => {
                columns[1] = Column::Number(0, 1);
                let values = self.fields(value, 3, &columns, true, &mut values)?;
                rules.sums.push(Sum { asker: asker(values), sum: u64::from(members(values)) | (values[1] as u64) << 32 });
            }
        }
        Ok(())
    }
}

fn asker(values: &[i32]) -> Asker {
    match values[0] {
        0 => 0,
        owner => 1 << (owner - 1),
    }
}

fn members(values: &[i32]) -> u32 {
    values[2..].iter().fold(0, |set, i| set | 1 << i)
}

fn read(text: &[u8]) -> Result<Ticket, Fault> {
    if text.len() > LONGEST {
        return Err(Fault(Flaw::Long, 0, 0));
    }
    let mut rest = Rest { line: 0, text };
    rest.header(b"ticket=", 1, 1)?;
    let requests = rest.header(b"requests=", 0, 32)?;
    let checks = rest.header(b"checks=", 0, 1_000_000)?;
    let count = rest.header(b"rules=", 0, 96)?;
    let mut rules = Rules::default();
    for _ in 0..count {
        rest.rule(requests, &mut rules)?;
    }
    match rest.line()?.strip_prefix(b"end=") {
        Some(b"ticket") => {}
        Some(_) => return Err(Fault(Flaw::Form, rest.line, 1)),
        None => return Err(Fault(Flaw::Key, rest.line, 0)),
    }
    if !rest.text.is_empty() {
        return Err(Fault(Flaw::Tail, rest.line + 1, 0));
    }
    Ok(Ticket { requests, checks, rules })
}

// Whether a set of requests can be met.

impl Rules {
    // From no option on, until nothing changes.
    fn options_fit(&self, set: u32) -> bool {
        let mut on = 0;
        loop {
            let before = on;
            for turn in &self.turns {
                if turn.asker & !set == 0 && turn.options & !on == 0 {
                    on |= turn.head;
                }
            }
            if on == before {
                break;
            }
        }
        !self.bars.iter().any(|bar| bar.options & !on == 0 && bar.asker & !set == 0)
    }

    // Each mark is raised as far as the gaps ask by the places before the round, sixteen times at most.
    fn gaps_fit(&self, set: u32) -> bool {
        let mut marks = [0; 16];
        for _ in 0..16 {
            let old = marks;
            for gap in &self.gaps {
                if gap.asker & !set == 0 {
                    marks[gap.b] = marks[gap.b].max(old[gap.a] - gap.w);
                }
            }
            if marks == old {
                return true;
            }
        }
        false
    }

    // Elimination: a row for each face that is the lowest of one.
    fn faces_fit(&self, set: u32) -> bool {
        let mut rows = [0; 32];
        for rule in self.sums.iter().filter(|rule| rule.asker & !set == 0) {
            let mut sum = rule.sum;
            while sum as u32 != 0 {
                let row = &mut rows[sum.trailing_zeros() as usize];
                if *row == 0 {
                    *row = sum;
                    break;
                }
                sum ^= *row;
            }
            if sum == 1 << 32 {
                return false;
            }
        }
        true
    }

    fn fit(&self, set: u32) -> bool {
        self.options_fit(set) && self.gaps_fit(set) && self.faces_fit(set)
    }
}

// The most kept sets that are fit, and the most that are unfit.
const KEPT: usize = 64;

// What can be asked of a ticket: what is known already costs no look at the rules, and each answer takes one of the checks.
struct Oracle {
    rules: Rules,
    left: u32,
    fits: Vec<u32>,
    unfits: Vec<u32>,
}

struct Spent;

impl Oracle {
    fn new(rules: Rules, left: u32) -> Oracle {
        Oracle { rules, left, fits: Vec::with_capacity(KEPT), unfits: Vec::with_capacity(KEPT) }
    }

    fn check(&mut self, set: u32) -> Result<bool, Spent> {
        self.left = self.left.checked_sub(1).ok_or(Spent)?;
        if self.fits.iter().any(|kept| set & !kept == 0) {
            return Ok(true);
        }
        if self.unfits.iter().any(|kept| kept & !set == 0) {
            return Ok(false);
        }
        let fit = self.rules.fit(set);
        let kept = if fit { &mut self.fits } else { &mut self.unfits };
        if kept.len() < KEPT {
            kept.push(set);
        }
        Ok(fit)
    }
}

// The listing.

enum End {
    All,
    Full,
}

struct Listing {
    oracle: Oracle,
    width: u32,
    lines: Vec<Line>,
    checks: usize,
}

impl Listing {
    fn check(&mut self, set: u32) -> Result<bool, Spent> {
        let fit = self.oracle.check(set)?;
        self.checks += 1;
        Ok(fit)
    }

    // The result of halving a seed. It goes through the answers so far again at each step.
    fn halved(&mut self, seed: u32, answers: &mut Vec<bool>) -> Result<u32, Spent> {
        answers.clear();
        loop {
            match halve(0, 0, seed, answers) {
                Halved::Asks(set) => answers.push(self.check(set)?),
                Halved::Ends(set, _) => return Ok(set),
            }
        }
    }

    fn list(&mut self) -> Result<End, Spent> {
        if !self.check(0)? {
            self.lines.push(Line::Conflict(0));
        }
        let mut search = Search::new();
        let mut answers = Vec::with_capacity(64);
        while let Some(seed) = search.seed(self.width, &self.lines) {
            if self.lines.len() >= MOST_LINES {
                return Ok(End::Full);
            }
            let line = if self.check(seed)? { Line::Relaxation(seed) } else { Line::Conflict(self.halved(seed, &mut answers)?) };
            self.lines.push(line);
        }
        Ok(End::All)
    }

    fn bound(&self) -> usize {
        let depth = [1, 2, 4, 8, 16].iter().filter(|most| **most < self.width).count();
        let sizes: usize = self.lines.iter().map(|line| if let Line::Conflict(set) = line { set.count_ones() as usize } else { 0 }).sum();
        1 + self.lines.len() + 2 * depth * sizes
    }
}

fn print_set(report: &mut String, set: u32) -> fmt::Result {
    if set == 0 {
        return report.write_str("-");
    }
    let mut rest = set;
    while rest != 0 {
        let comma = if rest == set { "" } else { "," };
        write!(report, "{comma}{}", rest.trailing_zeros() + 1)?;
        rest &= rest - 1;
    }
    Ok(())
}

fn explain(text: &[u8], report: &mut String) -> fmt::Result {
    let ticket = match read(text) {
        Ok(ticket) => ticket,
        Err(Fault(flaw, line, field)) => return writeln!(report, "refused={},{line},{field}", flaw as u32),
    };
    let width = ticket.requests;
    let mut listing = Listing { oracle: Oracle::new(ticket.rules, ticket.checks), width, lines: Vec::with_capacity(MOST_LINES), checks: 0 };
    let ended = match listing.list() {
        Ok(End::All) => "all",
        Ok(End::Full) => "full",
        Err(Spent) => "spent,1",
    };
    writeln!(report, "requests={width}")?;
    for line in &listing.lines {
        let (key, set) = match line {
            Line::Conflict(set) => ("conflict=", *set),
            Line::Relaxation(set) => ("relaxation=", *set),
        };
        report.push_str(key);
        print_set(report, set)?;
        report.push('\n');
    }
    writeln!(report, "checks={}\nbound={}\nended={ended}", listing.checks, listing.bound())
}

fn main() -> io::Result<()> {
    let mut text = Vec::new();
    io::stdin().lock().take(LONGEST as u64 + 1).read_to_end(&mut text)?;
    let mut report = String::new();
    explain(&text, &mut report).map_err(io::Error::other)?;
    io::stdout().lock().write_all(report.as_bytes())
}
