//! The model of a plan as text: declarations, and then the drawing (docs/DESK.md).
//!
//! It shares no code with the crates sheet and spelling and goes about it otherwise, by tokens. It was written with these in view, so that on points the page
//! leaves open the agreement of the two is no second opinion.

use crate::rows::{self, row};

/// Why a text gives no plan, with the line, counted from 1 (0: before the first).
#[derive(Clone, Copy, Debug, PartialEq, Eq)]
pub enum Wrong {
    /// The line is wrong.
    Line(usize),
    /// The writer refuses what the line says.
    Refused(u32, usize),
}

#[derive(Clone, Copy, PartialEq, Eq)]
enum Token<'a> {
    Word(&'a [u8]),
    Mark(u8),
    /// `<=`, `>=` or `!=`, by the first of the two.
    Pair(u8),
}
use Token::{Mark, Pair, Word};

/// A line without its comment.
fn bare(line: &[u8]) -> &[u8] {
    let end = line.iter().position(|b| *b == b'#');
    &line[..end.unwrap_or(line.len())]
}

/// The tokens of a line, each with its column; none where a tab stands among them.
fn tokens(line: &[u8]) -> Option<Vec<(usize, Token<'_>)>> {
    let inner = |b: u8| b.is_ascii_alphanumeric() || b == b'_';
    let mut tokens = Vec::new();
    let mut at = 0;
    while at < line.len() {
        match line[at] {
            b' ' => at += 1,
            b'\t' => return None,
            b if inner(b) => {
                let from = at;
                while at < line.len() && inner(line[at]) {
                    at += 1;
                }
                tokens.push((from, Word(&line[from..at])));
            }
            b @ (b'<' | b'>' | b'!') if line.get(at + 1) == Some(&b'=') => {
                tokens.push((at, Pair(b)));
                at += 2;
            }
            b => {
                tokens.push((at, Mark(b)));
                at += 1;
            }
        }
    }
    Some(tokens)
}

/// The number that a word spells, up to 4,294,967,295.
fn decimal(word: &[u8]) -> Option<u32> {
    if word.is_empty() {
        return None;
    }
    word.iter().try_fold(0u32, |sum, b| match b {
        b'0'..=b'9' => sum.checked_mul(10)?.checked_add(u32::from(b - b'0')),
        _ => None,
    })
}

fn is_name(word: &[u8]) -> bool {
    !word[0].is_ascii_digit()
}

fn plain(word: &[u8]) -> Option<u32> {
    word.strip_prefix(b"v").and_then(decimal)
}

#[derive(Default)]
struct Names<'a> {
    variables: Vec<(&'a [u8], bool)>,
    partners: Vec<(&'a [u8], u32)>,
    operations: Vec<(&'a [u8], u32)>,
    constants: Vec<(&'a [u8], u32)>,
    faults: Vec<(&'a [u8], u32)>,
    scopes: Vec<&'a [u8]>,
}

/// The words of expressions, which are no names there.
fn is_reserved(word: &[u8]) -> bool {
    matches!(word, b"and" | b"or" | b"not")
}

impl<'a> Names<'a> {
    /// A line that declares something.
    fn declare(&mut self, tokens: &[Token<'a>]) -> Option<()> {
        match tokens {
            [Word(b"variable"), Word(name), rest @ ..] => {
                let marked = match rest {
                    [] => false,
                    [Mark(b'('), Word(b"correlation"), Mark(b')')] => true,
                    _ => return None,
                };
                let count = self.variables.len();
                let fits = is_name(name)
                    && name.len() <= 32
                    && count < 16
                    && !is_reserved(name)
                    && self.variables.iter().all(|(other, _)| other != name)
                    && self.constants.iter().all(|(other, _)| other != name)
                    && plain(name).is_none_or(|number| number as usize == count);
                fits.then(|| self.variables.push((name, marked)))
            }
            [Word(b"constant"), Word(name), Word(number)] => {
                let number = decimal(number)?;
                let fits = is_name(name)
                    && name.len() <= 32
                    && !is_reserved(name)
                    && plain(name).is_none()
                    && self.variables.iter().all(|(other, _)| other != name)
                    && self.constants.iter().all(|(other, _)| other != name);
                fits.then(|| self.constants.push((name, number)))
            }
            [Word(what), Word(number), Word(name)] => {
                let (list, numbers) = match *what {
                    b"partner" => (&mut self.partners, 0..64),
                    b"operation" => (&mut self.operations, 0..64),
                    b"fault" => (&mut self.faults, 16..256),
                    _ => return None,
                };
                let number = decimal(number)?;
                let fits = is_name(name)
                    && name.len() <= 32
                    && numbers.contains(&number)
                    && list.iter().all(|(n, k)| n != name && *k != number);
                fits.then(|| list.push((name, number)))
            }
            _ => None,
        }
    }

    fn variable(&self, word: &[u8]) -> Option<u32> {
        match self.variables.iter().position(|(name, _)| *name == word) {
            Some(k) => Some(k as u32),
            None => plain(word),
        }
    }

    fn numbered(list: &[(&[u8], u32)], word: &[u8]) -> Option<u32> {
        if is_name(word) {
            let found = list.iter().find(|(name, _)| *name == word);
            return found.map(|(_, number)| *number);
        }
        decimal(word)
    }
}

/// An expression, as the bytes can say it.
#[derive(Clone, Debug, PartialEq, Eq)]
pub enum Exp {
    Constant(u32),
    Variable(u32),
    /// A code, 2 to 5, and two operands.
    Two(u32, Box<Exp>, Box<Exp>),
}

fn two(code: u32, left: Exp, right: Exp) -> Exp {
    Exp::Two(code, Box::new(left), Box::new(right))
}

/// `E = 0`.
fn not(e: Exp) -> Exp {
    two(4, e, Exp::Constant(0))
}

/// A comparison, which is 0 or 1; of anything else, whether it is above 0.
fn judged(e: Exp) -> Exp {
    match e {
        Exp::Two(4 | 5, ..) => e,
        _ => two(5, Exp::Constant(0), e),
    }
}

impl Exp {
    /// Its rows, the operation first, then the operands.
    fn rows(&self, out: &mut Vec<Vec<u32>>) {
        match self {
            Exp::Constant(value) => out.push(vec![0, *value]),
            Exp::Variable(number) => out.push(vec![1, *number]),
            Exp::Two(code, left, right) => {
                out.push(vec![*code]);
                left.rows(out);
                right.rows(out);
            }
        }
    }

    /// Its value where the variables have these, unless it faults.
    pub fn value(&self, variables: &[u32]) -> Option<u32> {
        match self {
            Exp::Constant(value) => Some(*value),
            Exp::Variable(number) => variables.get(*number as usize).copied(),
            Exp::Two(code, left, right) => {
                let (left, right) = (left.value(variables)?, right.value(variables)?);
                match code {
                    2 => left.checked_add(right),
                    3 => left.checked_sub(right),
                    4 => Some(u32::from(left == right)),
                    _ => Some(u32::from(left < right)),
                }
            }
        }
    }
}

/// How many operations and parentheses may wait for what is read.
const WAITING: usize = 64;

type Found<'a, 't> = Option<(Exp, &'t [Token<'a>])>;

/// A number, a variable, a constant, or what stands in parentheses. Gives what follows.
fn operand<'a, 't>(names: &Names, tokens: &'t [Token<'a>], waiting: usize) -> Found<'a, 't> {
    match tokens {
        [Mark(b'('), rest @ ..] if waiting < WAITING => {
            match expression(names, rest, waiting + 1)? {
                (e, [Mark(b')'), rest @ ..]) => Some((e, rest)),
                _ => None,
            }
        }
        [Word(word), rest @ ..] if is_name(word) && !is_reserved(word) => {
            let constant = || Names::numbered(&names.constants, word).map(Exp::Constant);
            let e = names.variable(word).map(Exp::Variable).or_else(constant)?;
            Some((e, rest))
        }
        [Word(word), rest @ ..] => Some((Exp::Constant(decimal(word)?), rest)),
        _ => None,
    }
}

/// Sums and differences, from the left.
fn sum<'a, 't>(names: &Names, tokens: &'t [Token<'a>], waiting: usize) -> Found<'a, 't> {
    let (mut e, mut rest) = operand(names, tokens, waiting)?;
    while let [Mark(mark @ (b'+' | b'-')), behind @ ..] = rest {
        if waiting >= WAITING {
            return None;
        }
        let (right, behind) = operand(names, behind, waiting + 1)?;
        e = two(if *mark == b'+' { 2 } else { 3 }, e, right);
        rest = behind;
    }
    Some((e, rest))
}

/// One comparison, or none.
fn comparison<'a, 't>(names: &Names, tokens: &'t [Token<'a>], waiting: usize) -> Found<'a, 't> {
    let (left, rest) = sum(names, tokens, waiting)?;
    let [mark @ (Mark(b'=' | b'<' | b'>') | Pair(_)), behind @ ..] = rest else {
        return Some((left, rest));
    };
    if waiting >= WAITING {
        return None;
    }
    let (right, rest) = sum(names, behind, waiting + 1)?;
    if let [Mark(b'=' | b'<' | b'>') | Pair(_), ..] = rest {
        return None;
    }
    let e = match mark {
        Mark(b'=') => two(4, left, right),
        Mark(b'<') => two(5, left, right),
        Mark(_) => two(5, right, left),
        Pair(b'<') => not(two(5, right, left)),
        Pair(b'>') => not(two(5, left, right)),
        _ => not(two(4, left, right)),
    };
    Some((e, rest))
}

fn negation<'a, 't>(names: &Names, tokens: &'t [Token<'a>], waiting: usize) -> Found<'a, 't> {
    match tokens {
        [Word(b"not"), rest @ ..] if waiting < WAITING => {
            let (e, rest) = negation(names, rest, waiting + 1)?;
            Some((not(e), rest))
        }
        _ => comparison(names, tokens, waiting),
    }
}

/// `and`s, from the right: 1 where neither is 0.
fn conjunction<'a, 't>(names: &Names, tokens: &'t [Token<'a>], waiting: usize) -> Found<'a, 't> {
    match negation(names, tokens, waiting)? {
        (left, [Word(b"and"), rest @ ..]) if waiting < WAITING => {
            let (right, rest) = conjunction(names, rest, waiting + 1)?;
            Some((two(5, not(left), judged(right)), rest))
        }
        (_, [Word(b"and"), ..]) => None,
        found => Some(found),
    }
}

/// `or`s, from the right: 1 where one is not 0.
fn expression<'a, 't>(names: &Names, tokens: &'t [Token<'a>], waiting: usize) -> Found<'a, 't> {
    match conjunction(names, tokens, waiting)? {
        (left, [Word(b"or"), rest @ ..]) if waiting < WAITING => {
            let (right, rest) = expression(names, rest, waiting + 1)?;
            let sum = two(2, judged(left), judged(right));
            Some((two(5, Exp::Constant(0), sum), rest))
        }
        (_, [Word(b"or"), ..]) => None,
        found => Some(found),
    }
}

/// The expression that a text says, its variables as v0, v1, ..
pub fn expression_of(text: &str) -> Option<Exp> {
    let tokens = tokens(text.as_bytes())?;
    let tokens: Vec<Token> = tokens.iter().map(|(_, token)| *token).collect();
    match expression(&Names::default(), &tokens, 0)? {
        (e, []) => Some(e),
        _ => None,
    }
}

/// Whom a message is for or from, and behind its variables whom to reply to.
#[derive(Clone, Copy, PartialEq, Eq)]
enum With {
    /// `partner P`, and nothing of a reply.
    Nothing,
    /// `the partner in V`, and `with reply to partner P`, which may be left out: then it is 0.
    Held,
    /// `partner P`, and `with reply to into V`, which may be left out: then it is a receive of code 2.
    Stored,
}

/// A variable of a message, marked or not, and what follows.
fn member<'a, 't>(names: &Names, tokens: &'t [Token<'a>]) -> Option<(u32, &'t [Token<'a>])> {
    let [Word(word), rest @ ..] = tokens else {
        return None;
    };
    let variable = names.variable(word)?;
    let [Mark(b'('), Word(b"correlation"), Mark(b')'), behind @ ..] = rest else {
        return Some((variable, rest));
    };
    let declared = names.variables.get(variable as usize);
    declared?.1.then_some((variable, behind))
}

/// What stands behind the variables: the partner to reply to, or the variable that stores it.
fn reply(names: &Names, tokens: &[Token], with: With) -> Option<u32> {
    let [Word(b"with"), Word(b"reply"), Word(b"to"), rest @ ..] = tokens else {
        return None;
    };
    match (with, rest) {
        (With::Held, [Word(b"partner"), Word(word)]) => Names::numbered(&names.partners, word),
        (With::Stored, [Word(b"into"), rest @ ..]) => match member(names, rest)? {
            (variable, []) => Some(variable),
            _ => None,
        },
        _ => None,
    }
}

/// `partner P, operation O: V, ..` or, behind `the`, `partner in V, operation O: V, ..`, and a reply, to the end of the line: the numbers without the code,
/// and whether the last is a reply's.
fn exchange(names: &Names, tokens: &[Token], with: With) -> Option<(Vec<u32>, bool)> {
    let (whom, rest) = match (with, tokens) {
        (With::Held, [Word(b"partner"), Word(b"in"), rest @ ..]) => member(names, rest)?,
        (With::Nothing | With::Stored, [Word(b"partner"), Word(partner), rest @ ..]) => {
            (Names::numbered(&names.partners, partner)?, rest)
        }
        _ => return None,
    };
    let [
        Mark(b','),
        Word(b"operation"),
        Word(operation),
        Mark(b':'),
        rest @ ..,
    ] = rest
    else {
        return None;
    };
    let operation = Names::numbered(&names.operations, operation)?;
    let (first, mut rest) = member(names, rest)?;
    let mut variables = vec![first];
    while let [Mark(b','), behind @ ..] = rest {
        let (variable, behind) = member(names, behind)?;
        variables.push(variable);
        rest = behind;
    }
    let mut numbers = vec![whom, operation, variables.len() as u32];
    numbers.extend(variables.iter().take(14));
    let told = match (with, rest) {
        (With::Held, []) => Some(0),
        (_, []) => None,
        _ => Some(reply(names, rest, with)?),
    };
    numbers.extend(told);
    Some((numbers, told.is_some()))
}

/// A row of a message, behind its code.
fn message(code: u32, numbers: Vec<u32>) -> Option<(u32, Vec<Vec<u32>>)> {
    let mut row = vec![code];
    row.extend(numbers);
    Some((code, vec![row]))
}

/// The kinds are the codes; an arm is 255, the root 256. A scope is 12 until an undo part stands in it, or one that is for a number.
const ARM: u32 = 255;
const ROOT: u32 = 256;
const SCOPE: u32 = 12;

/// What an activity says of itself: its kind, and its rows.
fn activity(names: &Names, tokens: &[Token]) -> Option<(u32, Vec<Vec<u32>>)> {
    let judged = |code: u32, front: Vec<u32>, tokens: &[Token]| {
        let mut rows = vec![front];
        match expression(names, tokens, 0)? {
            (e, []) => {
                e.rows(&mut rows);
                Some((code, rows))
            }
            _ => None,
        }
    };
    match tokens {
        [Word(b"send"), Word(b"to"), Word(b"the"), rest @ ..] => {
            message(17, exchange(names, rest, With::Held)?.0)
        }
        [Word(b"send"), Word(b"to"), rest @ ..] => {
            message(1, exchange(names, rest, With::Nothing)?.0)
        }
        [Word(b"receive"), Word(b"from"), rest @ ..] => {
            let (numbers, stored) = exchange(names, rest, With::Stored)?;
            message(if stored { 18 } else { 2 }, numbers)
        }
        [
            Word(b"arm"),
            Mark(b':'),
            Word(b"receive"),
            Word(b"from"),
            rest @ ..,
        ] => Some((ARM, vec![exchange(names, rest, With::Nothing)?.0])),
        [Word(b"set"), Word(word), Word(b"to"), rest @ ..] => {
            judged(3, vec![3, names.variable(word)?], rest)
        }
        [Word(b"raise"), Word(word)] => {
            let number = Names::numbered(&names.faults, word)?;
            Some((13, vec![vec![13, number]]))
        }
        [Word(b"choose"), Word(b"by"), rest @ ..] => judged(6, vec![6], rest),
        [Word(b"repeat"), Word(b"while"), rest @ ..] => judged(7, vec![7], rest),
        [Word(b"scope"), Word(name)] => {
            let fits = is_name(name) && name.len() <= 32 && !names.scopes.contains(name);
            fits.then(|| (SCOPE, vec![vec![SCOPE]]))
        }
        [Word(word)] => {
            let code = match *word {
                b"empty" => 0,
                b"raise" => 4,
                b"leave" => 5,
                b"sequence" => 8,
                b"flow" => 9,
                b"pick" => 10,
                b"scope" => SCOPE,
                _ => return None,
            };
            let listed = (8..=10).contains(&code);
            Some((code, vec![if listed { vec![code, 0] } else { vec![code] }]))
        }
        _ => None,
    }
}

/// An activity that a line may stand in.
struct Level {
    kind: u32,
    column: usize,
    row: usize,
    line: usize,
    within: usize,
    inner: usize,
    /// How many fault parts by number stand in a scope, and the row of their count.
    numbered: usize,
    counted: usize,
}

impl Level {
    /// How many may stand in it, and how many must.
    fn wants(&self) -> (usize, usize) {
        match self.kind {
            6 | ROOT => (2, 2),
            7 | ARM => (1, 1),
            8..=10 => (usize::MAX, 0),
            SCOPE if self.numbered > 0 => (3 + self.numbered, 3 + self.numbered),
            SCOPE => (3, 2),
            _ => (0, 0),
        }
    }

    fn whole(&self) -> bool {
        self.wants().1 <= self.within
    }

    /// The words that may name the next part in it.
    fn part(&self) -> &'static [&'static [u8]] {
        match (self.kind, self.within) {
            (ROOT, 0) => &[b"root", b"body"],
            (ROOT, _) => &[b"root", b"fault", b"part"],
            (SCOPE, 0) => &[b"body"],
            (SCOPE, within) if within == 1 + self.numbered => &[b"fault", b"part"],
            (SCOPE, _) => &[b"undo", b"part"],
            (6, 0) => &[b"then"],
            (6, _) => &[b"else"],
            _ => &[],
        }
    }
}

/// The rows of a text, with the line of each, and what stands open.
struct Drawing {
    rows: Vec<Vec<u32>>,
    lines: Vec<usize>,
    levels: Vec<Level>,
}

impl Drawing {
    fn begin(names: &Names, line: usize) -> Drawing {
        let marked = || {
            let numbers = 0..names.variables.len() as u32;
            numbers.filter(|k| names.variables[*k as usize].1)
        };
        let mut head = vec![1, names.variables.len() as u32, marked().count() as u32];
        head.extend(marked());
        Drawing {
            rows: vec![head],
            lines: vec![line],
            levels: vec![Level {
                kind: ROOT,
                column: 0,
                row: 0,
                line,
                within: 0,
                inner: 0,
                numbered: 0,
                counted: 0,
            }],
        }
    }

    /// Closes what a line at this column does not stand in.
    fn close(&mut self, column: usize) -> Result<(), Wrong> {
        while self.levels.len() > 1 && self.levels[self.levels.len() - 1].column >= column {
            let level = self.levels.pop().expect("not empty");
            if !level.whole() {
                return Err(Wrong::Line(level.line));
            }
        }
        Ok(())
    }

    fn line<'a>(
        &mut self,
        names: &mut Names<'a>,
        mut tokens: &[(usize, Token<'a>)],
        end: usize,
        line: usize,
    ) -> Result<(), Wrong> {
        let wrong = Wrong::Line(line);
        if let [(_, Word(word)), rest @ ..] = tokens
            && decimal(word).is_some()
        {
            tokens = rest;
        }
        let Some((column, _)) = tokens.first() else {
            // a number alone: no activity stands at the end of its line
            self.close(end)?;
            return Err(wrong);
        };
        let column = *column;
        self.close(column)?;
        let mut rest: Vec<Token<'a>> = tokens.iter().map(|(_, token)| *token).collect();
        let outer = self.levels.last().expect("the root");
        let mut part: Vec<Token> = outer.part().iter().map(|word| Word(word)).collect();
        part.push(Mark(b':'));
        let parts: [&[u8]; 6] = [b"root", b"body", b"fault", b"undo", b"then", b"else"];
        // After the body and before the general fault part: one for a number.
        let behind = outer.kind == SCOPE && outer.within == 1 + outer.numbered;
        let mut number = None;
        if let [Word(b"fault"), Word(b"part"), Word(word), Mark(b':'), ..] = rest[..]
            && behind
        {
            number = Some(Names::numbered(&names.faults, word).ok_or(wrong)?);
            rest.drain(..4);
        } else if part.len() > 1 && rest.starts_with(&part) {
            rest.drain(..part.len());
        } else if parts.iter().any(|word| rest[0] == Word(word)) {
            return Err(wrong);
        }
        let (kind, rows) = activity(names, &rest).ok_or(wrong)?;
        if let [Word(b"scope"), Word(name)] = rest[..] {
            names.scopes.push(name);
        }
        let depth = self.levels.len();
        let outer = self.levels.last_mut().expect("the root");
        let aligned = if outer.within > 0 {
            outer.inner == column
        } else {
            outer.kind == ROOT || (column - outer.column) % 2 == 0
        };
        let room = number.is_some() || outer.within < outer.wants().0;
        if !aligned || !room || (outer.kind == 10) != (kind == ARM) || depth > 63 {
            return Err(wrong);
        }
        outer.within += 1;
        outer.inner = column;
        let row = &mut self.rows[outer.row];
        match (outer.kind, outer.within, number) {
            (8..=10, within, _) => row[1] = within as u32,
            (SCOPE, _, Some(number)) => {
                row[0] = 14;
                // The count of these parts, and the number of each, have rows of their own.
                if outer.numbered == 0 {
                    outer.counted = self.rows.len();
                    self.rows.push(vec![0]);
                }
                outer.numbered += 1;
                self.rows[outer.counted][0] = outer.numbered as u32;
                self.rows.push(vec![number]);
            }
            (SCOPE, 3, None) if outer.numbered == 0 => row[0] = 11,
            _ => {}
        }
        let at = self.rows.len();
        self.rows.extend(rows);
        self.lines.resize(self.rows.len(), line);
        if self.rows.len() > 4355 {
            return Err(wrong);
        }
        self.levels.push(Level {
            kind,
            column,
            row: at,
            line,
            within: 0,
            inner: 0,
            numbered: 0,
            counted: 0,
        });
        Ok(())
    }
}

/// Whether a line that starts with `fault` declares one, and is no part of a scope.
fn names_fault(tokens: &[Token]) -> bool {
    match tokens {
        [_, Word(b"part"), ..] | [_, Word(_), Mark(b':'), ..] => false,
        [Word(b"fault"), Word(_), ..] => true,
        _ => false,
    }
}

/// Whether a line is a declaration, right or wrong.
fn is_declaration(tokens: &[Token]) -> bool {
    match tokens {
        [
            Word(b"variable" | b"partner" | b"operation" | b"constant"),
            ..,
        ] => true,
        _ => names_fault(tokens),
    }
}

/// The bytes of the plan that a text says.
pub fn read(text: &[u8]) -> Result<Vec<u8>, Wrong> {
    let mut names = Names::default();
    let mut drawing = None;
    let mut count = 0;
    if text.is_empty() {
        return Err(Wrong::Line(0));
    }
    let text = text.strip_suffix(b"\n").unwrap_or(text);
    for (at, line) in text.split(|b| *b == b'\n').enumerate() {
        count = at + 1;
        let wrong = Wrong::Line(count);
        let line = bare(line);
        let tokens = tokens(line).ok_or(wrong)?;
        let bare: Vec<Token> = tokens.iter().map(|(_, token)| *token).collect();
        match tokens.first() {
            None => {}
            Some(_) if is_declaration(&bare) => {
                if drawing.is_some() {
                    return Err(wrong);
                }
                names.declare(&bare).ok_or(wrong)?;
            }
            Some(_) => drawing
                .get_or_insert_with(|| Drawing::begin(&names, count))
                .line(&mut names, &tokens, line.len(), count)?,
        }
    }
    let mut drawing = drawing.ok_or(Wrong::Line(count))?;
    drawing.close(0)?;
    if !drawing.levels[0].whole() {
        return Err(Wrong::Line(count));
    }
    let table: Vec<u32> = drawing
        .rows
        .iter()
        .flat_map(|numbers| row(numbers))
        .collect();
    let mut out = vec![0; 4096];
    match rows::write(&table, &mut out) {
        Ok(length) => {
            out.truncate(length);
            Ok(out)
        }
        Err(refusal) => Err(Wrong::Refused(
            refusal.number,
            drawing.lines[refusal.place as usize],
        )),
    }
}

#[cfg(test)]
mod tests {
    use super::{Wrong, expression_of, read};

    /// What a spelling must be, by the two values.
    type Meant = fn(u32, u32) -> bool;

    #[test]
    fn spellings_mean_what_they_say_for_every_value() {
        let spellings: [(&str, Meant); 11] = [
            ("v0 and v1", |a, b| a != 0 && b != 0),
            ("v0 or v1", |a, b| a != 0 || b != 0),
            ("not v0", |a, _| a == 0),
            ("v0 > v1", |a, b| a > b),
            ("v0 <= v1", |a, b| a <= b),
            ("v0 >= v1", |a, b| a >= b),
            ("v0 != v1", |a, b| a != b),
            ("not v0 = v1", |a, b| a != b),
            ("v0 and not v1 or v1 < v0", |a, b| {
                (a != 0 && b == 0) || b < a
            }),
            ("v0 = 1 or v1 = 2 or v0 and v1 and v0 != v1", |a, b| {
                a == 1 || b == 2 || (a != 0 && b != 0 && a != b)
            }),
            ("not (v0 or v1) and v0 <= v1", |a, b| a == 0 && b == 0),
        ];
        let values = [0, 1, 2, 3, u32::MAX - 1, u32::MAX];
        for (text, meant) in spellings {
            let e = expression_of(text).expect(text);
            for a in values {
                for b in values {
                    let wanted = Some(u32::from(meant(a, b)));
                    assert_eq!(e.value(&[a, b]), wanted, "{text} of {a} and {b}");
                }
            }
        }
    }

    /// A receive of v0 to v3, and this line behind it.
    fn behind(line: &str) -> Result<Vec<u8>, Wrong> {
        let text = format!(
            "variable n (correlation)\nvariable v1\nvariable whom\nvariable v3\npartner 7 maker\nsequence\n  receive from partner 0, operation 0: n, v1, whom\n  {line}\nempty\n"
        );
        read(text.as_bytes())
    }

    #[test]
    fn replies_are_read_and_go_by_their_rules() {
        let front = [1, 4, 1, 0, 8, 2, 2, 0, 0, 3, 0, 1, 2];
        let told: [(&str, &[u8]); 9] = [
            (
                "send to the partner in whom, operation 5: n, v1 with reply to partner maker",
                &[17, 2, 5, 2, 0, 1, 7],
            ),
            (
                "send to the partner in v1, operation 5: v1 with reply to partner 63",
                &[17, 1, 5, 1, 1, 63],
            ),
            (
                "send to the partner in n (correlation), operation 5: n",
                &[17, 0, 5, 1, 0, 0],
            ),
            (
                "send to the partner in n, operation 5: n (correlation) with reply to partner 0",
                &[17, 0, 5, 1, 0, 0],
            ),
            (
                "receive from partner maker, operation 6: n, v1 with reply to into whom",
                &[18, 7, 6, 2, 0, 1, 2],
            ),
            (
                "receive from partner 7, operation 6: n with  reply to into v3 # why",
                &[18, 7, 6, 1, 0, 3],
            ),
            ("receive from partner 7, operation 6: n", &[2, 7, 6, 1, 0]),
            ("send to partner 7, operation 6: n", &[1, 7, 6, 1, 0]),
            ("raise 255", &[13, 255, 1]),
        ];
        for (line, row) in told {
            let bytes = [&front[..], row, &[0]].concat();
            assert_eq!(behind(line), Ok(bytes), "{line}");
        }
        let refused = [
            "send to the partner in v4, operation 5: n",
            "send to the partner in whom, operation 5: n with reply to partner 64",
            "receive from partner 7, operation 6: n with reply to into n",
            "receive from partner 7, operation 6: n with reply to into n (correlation)",
            "receive from partner 7, operation 6: n, v1 with reply to into v1",
            "receive from partner 7, operation 6: n with reply to into v4",
        ];
        for line in refused {
            assert_eq!(behind(line), Err(Wrong::Refused(5, 8)), "{line}");
        }
        let wrong = [
            "send to partner 7, operation 6: n with reply to partner 3",
            "send to partner in whom, operation 6: n",
            "send to the partner whom, operation 6: n",
            "send to the partner in 7, operation 6: n",
            "send to the partner in maker, operation 6: n",
            "send to the partner in whom operation 6: n",
            "send to the partner in whom, operation 6: n, with reply to partner 3",
            "send to the partner in whom, operation 6: n with reply to 3",
            "send to the partner in whom, operation 6: n with reply to partner whom",
            "send to the partner in whom, operation 6: n with reply to into v3",
            "send to the partner in whom, operation 6: n with reply to partner 3, 4",
            "receive from the partner in whom, operation 6: n",
            "receive from partner 7, operation 6: n with reply to partner 3",
            "receive from partner 7, operation 6: n with reply into v3",
            "receive from partner 7, operation 6: n with reply to into",
            "receive from partner 7, operation 6: n with reply to into v3, v1",
            "receive from partner 7, operation 6: n with reply to into v3 (correlation)",
            "receive from partner 7, operation 6: with reply to into v3",
        ];
        for line in wrong {
            assert_eq!(behind(line), Err(Wrong::Line(8)), "{line}");
        }
    }
}
