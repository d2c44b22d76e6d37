// The referee in plain Rust, to compare with: prints the verdict line of the text on standard input.
use std::io::{self, Read, Write};
use std::mem;
use std::process::ExitCode;

const MAX_TEXT: usize = 32_768;
const MAX_SWITCHES: u32 = 256;
const MAX_GATES: usize = 256;
const MAX_SIGNALS: u32 = 1_024;
const MAX_NESTING: u32 = 32;
const MAX_CLAUSE: usize = 64;
const BOOK_NUMBERS: usize = 2_048;
const BOOK_CELLS: usize = 6_144;

#[derive(Clone, Copy, Debug, PartialEq, Eq)]
enum Refusal {
    LongText = 1,
    BadLine = 2,
    OutOfPlace = 3,
    TooDeep = 4,
    Size = 5,
    Operator = 6,
    OperandCount = 7,
    NoSignal = 8,
    NotNew = 9,
    SignalsSpent = 10,
    NoClause = 11,
    NoClash = 12,
    SecondClash = 13,
    LongClause = 14,
    BookFull = 15,
    NotEmpty = 16,
    Setting = 17,
    PlanFalse = 18,
    Closed = 19,
}

use Refusal::*;

// ---- literals and clauses ----

/// A signal with a sign: 2 s for the signal s, 2 s + 1 for its opposite.
type Literal = u32;

fn literal(signal: u32, negated: bool) -> Literal {
    2 * signal + negated as u32
}

/// Sorted by signal, no literal twice, no signal both ways.
type Clause = Vec<Literal>;

/// Sorts the literals; none if a signal stands both ways.
fn tidy(mut literals: Vec<Literal>) -> Option<Clause> {
    literals.sort_unstable();
    literals.dedup();
    let both_ways = literals.windows(2).any(|pair| pair[0] ^ 1 == pair[1]);
    (!both_ways).then_some(literals)
}

fn resolvent(left: &[Literal], right: &[Literal]) -> Result<Clause, Refusal> {
    let mut merged = Vec::with_capacity(left.len() + right.len());
    let mut clashes = 0;
    let (mut i, mut j) = (0, 0);
    while i < left.len() && j < right.len() {
        let (a, b) = (left[i], right[j]);
        if a == b {
            merged.push(a);
            i += 1;
            j += 1;
        } else if a ^ 1 == b {
            clashes += 1;
            i += 1;
            j += 1;
        } else if a < b {
            merged.push(a);
            i += 1;
        } else {
            merged.push(b);
            j += 1;
        }
    }
    merged.extend_from_slice(&left[i..]);
    merged.extend_from_slice(&right[j..]);
    match clashes {
        0 => Err(NoClash),
        1 if merged.len() > MAX_CLAUSE => Err(LongClause),
        1 => Ok(merged),
        _ => Err(SecondClash),
    }
}

// ---- gates ----

#[derive(Clone, Copy, Debug, PartialEq, Eq)]
enum Kind {
    TwoInput,
    Wide,
}

#[derive(Clone, Debug)]
struct Gate {
    code: u32,
    operands: Vec<u32>,
}

/// Patterns of the two-input codes 0 to 7: 1 is l, 2 is r, 3 is the output; negative is negated.
const PATTERNS: [&[&[i8]]; 8] = [
    &[&[-3]],
    &[&[1, -3], &[2, -3], &[-1, -2, 3]],
    &[&[1, -3], &[-2, -3], &[-1, 2, 3]],
    &[&[1, -3], &[-1, 3]],
    &[&[-1, -3], &[2, -3], &[1, -2, 3]],
    &[&[2, -3], &[-2, 3]],
    &[&[-1, 2, 3], &[1, -2, 3], &[1, 2, -3], &[-1, -2, -3]],
    &[&[-1, 3], &[-2, 3], &[1, 2, -3]],
];

impl Kind {
    /// How many operands a code has; none if there is no such code.
    fn arity(self, code: u32) -> Option<usize> {
        match (self, code) {
            (Kind::TwoInput, 0..=15) => Some(2),
            (Kind::TwoInput, 16) => Some(1),
            (Kind::Wide, 0..=31) => Some(code as usize % 8 + 1),
            _ => None,
        }
    }

    fn check(self, gate: &Gate, signals: u32) -> Result<(), Refusal> {
        let arity = self.arity(gate.code).ok_or(Operator)?;
        if gate.operands.len() != arity {
            return Err(OperandCount);
        }
        if gate.operands.iter().any(|&s| s == 0 || s > signals) {
            return Err(NoSignal);
        }
        Ok(())
    }

    fn value(self, gate: &Gate, values: &[bool]) -> bool {
        let mut operands = gate.operands.iter().map(|&s| values[s as usize - 1]);
        match self {
            Kind::TwoInput if gate.code == 16 => !values[gate.operands[0] as usize - 1],
            Kind::TwoInput => {
                let row = operands.fold(0, |row, value| 2 * row + value as u32);
                gate.code >> (3 - row) & 1 == 1
            }
            Kind::Wide => match gate.code / 8 {
                0 => operands.all(|v| v),
                1 => operands.any(|v| v),
                2 => !operands.all(|v| v),
                _ => !operands.any(|v| v),
            },
        }
    }

    /// The operator's patterns with the signals put in, as they come.
    fn instances(self, gate: &Gate, output: u32) -> Vec<Vec<Literal>> {
        match self {
            Kind::TwoInput => {
                let code = if gate.code == 16 { 12 } else { gate.code };
                let opposite = code > 7;
                let row = if opposite { 15 - code } else { code };
                let instance = |pattern: &&[i8]| {
                    let slot = |&slot: &i8| match slot.unsigned_abs() {
                        3 => literal(output, (slot < 0) != opposite),
                        operand => literal(gate.operands[operand as usize - 1], slot < 0),
                    };
                    pattern.iter().map(slot).collect()
                };
                PATTERNS[row as usize].iter().map(instance).collect()
            }
            Kind::Wide => {
                let family = gate.code / 8;
                let is_or = family % 2 == 1;
                let opposite = family > 1;
                let mut all: Vec<Vec<Literal>> = gate
                    .operands
                    .iter()
                    .map(|&s| vec![literal(s, is_or), literal(output, is_or == opposite)])
                    .collect();
                let mut last: Vec<Literal> =
                    gate.operands.iter().map(|&s| literal(s, !is_or)).collect();
                last.push(literal(output, is_or != opposite));
                all.push(last);
                all
            }
        }
    }
}

// ---- plans ----

struct Plan {
    kind: Kind,
    switches: u32,
    gates: Vec<Gate>,
}

impl Plan {
    fn begin(kind: Kind, switches: u32) -> Result<Plan, Refusal> {
        if !(1..=MAX_SWITCHES).contains(&switches) {
            return Err(Size);
        }
        Ok(Plan { kind, switches, gates: Vec::new() })
    }

    fn signals(&self) -> u32 {
        self.switches + self.gates.len() as u32
    }

    fn gate(&mut self, gate: Gate) -> Result<u32, Refusal> {
        if self.gates.len() == MAX_GATES {
            return Err(Size);
        }
        self.kind.check(&gate, self.signals())?;
        self.gates.push(gate);
        Ok(self.signals())
    }

    fn root(&self, signal: u32) -> Result<u32, Refusal> {
        if signal == 0 || signal > self.signals() {
            return Err(NoSignal);
        }
        Ok(signal)
    }

    /// Reads a whole formula into gates; answers the root.
    fn formula(&mut self, text: &[u8]) -> Result<u32, Refusal> {
        if self.kind != Kind::TwoInput || !self.gates.is_empty() {
            return Err(OutOfPlace);
        }
        let mut rest = text;
        let root = self.subformula(&mut rest, 0)?;
        if rest.is_empty() { Ok(root) } else { Err(BadLine) }
    }

    fn subformula(&mut self, rest: &mut &[u8], depth: u32) -> Result<u32, Refusal> {
        match rest.first() {
            Some(b'-') => {
                if depth == MAX_NESTING {
                    return Err(TooDeep);
                }
                *rest = &rest[1..];
                let operand = self.subformula(rest, depth + 1)?;
                self.gate(Gate { code: 16, operands: vec![operand] })
            }
            Some(b'(') => {
                if depth == MAX_NESTING {
                    return Err(TooDeep);
                }
                *rest = &rest[1..];
                let left = self.subformula(rest, depth + 1)?;
                let code = match take(rest)? {
                    b'&' => 1,
                    b'|' => 7,
                    b'>' => 13,
                    b'<' => 11,
                    b'=' => 9,
                    b'^' => 6,
                    _ => return Err(BadLine),
                };
                let right = self.subformula(rest, depth + 1)?;
                if take(rest)? != b')' {
                    return Err(BadLine);
                }
                self.gate(Gate { code, operands: vec![left, right] })
            }
            _ => {
                let digits = rest.iter().take_while(|byte| byte.is_ascii_digit()).count();
                let (digits, behind) = rest.split_at(digits);
                *rest = behind;
                let switch = number(digits)?;
                if switch == 0 || switch > self.switches {
                    return Err(NoSignal);
                }
                Ok(switch)
            }
        }
    }

    fn holds(&self, root: u32, setting: &[bool]) -> bool {
        let mut values = setting.to_vec();
        for gate in &self.gates {
            values.push(self.kind.value(gate, &values));
        }
        values[root as usize - 1]
    }
}

fn take(rest: &mut &[u8]) -> Result<u8, Refusal> {
    let (&first, behind) = rest.split_first().ok_or(BadLine)?;
    *rest = behind;
    Ok(first)
}

// ---- the clause book ----

/// Clauses under numbers from 1; a struck number has none.
struct Book {
    clauses: Vec<Option<Clause>>,
    cells: usize,
}

impl Book {
    fn has_room(&self, numbers: usize, cells: usize) -> bool {
        self.clauses.len() + numbers <= BOOK_NUMBERS && self.cells + cells <= BOOK_CELLS
    }

    fn write(&mut self, clause: Clause) {
        self.cells += clause.len();
        self.clauses.push(Some(clause));
    }

    fn clause(&self, number: u32) -> Result<&Clause, Refusal> {
        let index = (number as usize).checked_sub(1).ok_or(NoClause)?;
        self.clauses.get(index).and_then(Option::as_ref).ok_or(NoClause)
    }

    fn strike(&mut self, number: u32) -> Result<(), Refusal> {
        let index = (number as usize).checked_sub(1).ok_or(NoClause)?;
        let clause = self.clauses.get_mut(index).and_then(Option::take).ok_or(NoClause)?;
        self.cells -= clause.len();
        Ok(())
    }
}

// ---- dockets ----

#[derive(Clone, Copy, PartialEq, Eq)]
enum Standing {
    Open,
    CannotRun,
    Runs(usize),
}

struct Docket {
    plan: Plan,
    root: u32,
    signals: u32,
    book: Book,
    standing: Standing,
}

impl Docket {
    fn open(plan: Plan, root: u32) -> Result<Docket, Refusal> {
        let mut book = Book { clauses: Vec::new(), cells: 0 };
        let gate_clauses = plan
            .gates
            .iter()
            .zip(plan.switches + 1..)
            .flat_map(|(gate, output)| plan.kind.instances(gate, output))
            .filter_map(tidy);
        for clause in gate_clauses.chain([vec![literal(root, false)]]) {
            if !book.has_room(1, clause.len()) {
                return Err(BookFull);
            }
            book.write(clause);
        }
        let signals = plan.signals();
        Ok(Docket { plan, root, signals, book, standing: Standing::Open })
    }

    fn define(&mut self, signal: u32, gate: Gate) -> Result<(), Refusal> {
        self.plan.kind.check(&gate, self.signals)?;
        if signal != self.signals + 1 {
            return Err(NotNew);
        }
        if self.signals == MAX_SIGNALS {
            return Err(SignalsSpent);
        }
        let instances = self.plan.kind.instances(&gate, signal);
        let cells = instances.iter().map(Vec::len).sum();
        if !self.book.has_room(instances.len(), cells) {
            return Err(BookFull);
        }
        for clause in instances.into_iter().filter_map(tidy) {
            self.book.write(clause);
        }
        self.signals = signal;
        Ok(())
    }

    fn resolve(&mut self, left: u32, right: u32) -> Result<(), Refusal> {
        let clause = resolvent(self.book.clause(left)?, self.book.clause(right)?)?;
        if !self.book.has_room(1, clause.len()) {
            return Err(BookFull);
        }
        self.book.write(clause);
        Ok(())
    }

    fn settle(&mut self, number: u32) -> Result<(), Refusal> {
        if !self.book.clause(number)?.is_empty() {
            return Err(NotEmpty);
        }
        self.standing = Standing::CannotRun;
        Ok(())
    }

    fn show(&mut self, digits: &[u8]) -> Result<(), Refusal> {
        if digits.len() != self.plan.switches as usize {
            return Err(Setting);
        }
        let setting: Vec<bool> = digits.iter().map(|&digit| digit == b'1').collect();
        if !self.plan.holds(self.root, &setting) {
            return Err(PlanFalse);
        }
        self.standing = Standing::Runs(setting.iter().filter(|&&on| on).count());
        Ok(())
    }

    fn step(&mut self, line: Line) -> Result<(), Refusal> {
        if !line.is_step() {
            return Err(OutOfPlace);
        }
        if self.standing != Standing::Open {
            return Err(Closed);
        }
        match line {
            Line::Define(signal, gate) => self.define(signal, gate),
            Line::Resolve(left, right) => self.resolve(left, right),
            Line::Strike(number) => self.book.strike(number),
            Line::Settle(number) => self.settle(number),
            Line::Show(digits) => self.show(digits),
            Line::Plan(..) | Line::Gate(_) | Line::Root(_) | Line::Formula(_) => Err(OutOfPlace),
        }
    }
}

// ---- lines ----

enum Line<'a> {
    Plan(Kind, u32),
    Gate(Gate),
    Root(u32),
    Formula(&'a [u8]),
    Define(u32, Gate),
    Resolve(u32, u32),
    Strike(u32),
    Settle(u32),
    Show(&'a [u8]),
}

/// A number of at most 65,535 with no leading zero.
fn number(digits: &[u8]) -> Result<u32, Refusal> {
    if digits.is_empty() || digits.len() > 5 || (digits[0] == b'0' && digits.len() > 1) {
        return Err(BadLine);
    }
    let mut value = 0;
    for &digit in digits {
        if !digit.is_ascii_digit() {
            return Err(BadLine);
        }
        value = 10 * value + u32::from(digit - b'0');
    }
    if value > 65_535 { Err(BadLine) } else { Ok(value) }
}

/// The fields of a line behind its letter.
struct Fields<'a> {
    rest: &'a [u8],
}

impl<'a> Fields<'a> {
    /// The next field, which is not empty.
    fn text(&mut self) -> Result<&'a [u8], Refusal> {
        let Some((b' ', rest)) = self.rest.split_first() else {
            return Err(BadLine);
        };
        let end = rest.iter().position(|&byte| byte == b' ').unwrap_or(rest.len());
        if end == 0 {
            return Err(BadLine);
        }
        let (field, rest) = rest.split_at(end);
        self.rest = rest;
        Ok(field)
    }

    fn number(&mut self) -> Result<u32, Refusal> {
        number(self.text()?)
    }

    /// An operator code and one to eight operands.
    fn gate(&mut self) -> Result<Gate, Refusal> {
        let code = self.number()?;
        let mut operands = vec![self.number()?];
        while !self.rest.is_empty() {
            operands.push(self.number()?);
        }
        if operands.len() > 8 {
            return Err(BadLine);
        }
        Ok(Gate { code, operands })
    }

    fn digits(&mut self) -> Result<&'a [u8], Refusal> {
        let digits = self.text()?;
        if !digits.iter().all(|digit| matches!(digit, b'0' | b'1')) {
            return Err(BadLine);
        }
        Ok(digits)
    }
}

impl<'a> Line<'a> {
    /// Reads a line with its byte 10.
    fn read(line: &'a [u8]) -> Result<Line<'a>, Refusal> {
        let line = line.strip_suffix(b"\n").ok_or(BadLine)?;
        let (letter, rest) = line.split_first().ok_or(BadLine)?;
        let mut fields = Fields { rest };
        let line = match letter {
            b'p' => {
                let kind = match fields.text()? {
                    b"t" => Kind::TwoInput,
                    b"w" => Kind::Wide,
                    _ => return Err(BadLine),
                };
                Line::Plan(kind, fields.number()?)
            }
            b'g' => Line::Gate(fields.gate()?),
            b'r' => Line::Root(fields.number()?),
            b'f' => Line::Formula(fields.text()?),
            b'd' => Line::Define(fields.number()?, fields.gate()?),
            b'u' => Line::Resolve(fields.number()?, fields.number()?),
            b'x' => Line::Strike(fields.number()?),
            b'e' => Line::Settle(fields.number()?),
            b'v' => Line::Show(fields.digits()?),
            _ => return Err(BadLine),
        };
        if fields.rest.is_empty() { Ok(line) } else { Err(BadLine) }
    }

    fn is_step(&self) -> bool {
        !matches!(self, Line::Plan(..) | Line::Gate(_) | Line::Root(_) | Line::Formula(_))
    }
}

// ---- the verdict ----

enum Stage {
    Begun,
    Planning(Plan),
    Docket(Docket),
}

impl Stage {
    fn follow(&mut self, line: Line) -> Result<(), Refusal> {
        match self {
            Stage::Begun => match line {
                Line::Plan(kind, switches) => *self = Stage::Planning(Plan::begin(kind, switches)?),
                _ => return Err(OutOfPlace),
            },
            Stage::Planning(plan) => {
                let root = match line {
                    Line::Gate(gate) => return plan.gate(gate).map(|_| ()),
                    Line::Root(signal) => plan.root(signal)?,
                    Line::Formula(text) => plan.formula(text)?,
                    _ => return Err(OutOfPlace),
                };
                let gates = mem::take(&mut plan.gates);
                let plan = Plan { gates, ..*plan };
                *self = Stage::Docket(Docket::open(plan, root)?);
            }
            Stage::Docket(docket) => docket.step(line)?,
        }
        Ok(())
    }
}

/// The standing at the end, or the first refused line and why.
fn judge(text: &[u8]) -> Result<Standing, (usize, Refusal)> {
    if text.len() > MAX_TEXT {
        return Err((0, LongText));
    }
    let mut stage = Stage::Begun;
    let mut count = 0;
    for line in text.split_inclusive(|&byte| byte == b'\n') {
        count += 1;
        Line::read(line).and_then(|line| stage.follow(line)).map_err(|r| (count, r))?;
    }
    match stage {
        Stage::Docket(docket) => Ok(docket.standing),
        _ => Err((count + 1, OutOfPlace)),
    }
}

fn main() -> ExitCode {
    let mut text = Vec::new();
    let most = MAX_TEXT as u64 + 1;
    if io::stdin().lock().take(most).read_to_end(&mut text).is_err() {
        return ExitCode::FAILURE;
    }
    let line = match judge(&text) {
        Ok(Standing::Open) => "open\n".to_string(),
        Ok(Standing::CannotRun) => "cannot run\n".to_string(),
        Ok(Standing::Runs(on)) => format!("runs {on}\n"),
        Err((line, refusal)) => format!("refused {line} {}\n", refusal as u8),
    };
    match io::stdout().write_all(line.as_bytes()) {
        Ok(()) => ExitCode::SUCCESS,
        Err(_) => ExitCode::FAILURE,
    }
}
