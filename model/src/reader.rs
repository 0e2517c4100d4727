//! The model of the plan reader: one pass over the bytes, written from document 01 and from requests 4, 5, 8 and 13 of document 02.

use crate::plan::is_fault;

pub const MAX_BYTES: usize = 4096;
pub const MAX_ACTIVITIES: usize = 256;
pub const MAX_DEPTH: u32 = 16;
pub const MAX_EXPRESSION_DEPTH: u32 = 8;

/// Why a plan is refused: the number of document 01's table and the place.
#[derive(Clone, Copy, Debug, PartialEq, Eq)]
pub struct Refusal {
    pub number: u32,
    pub place: u32,
}

/// The bytes start..end that spell one activity or arm.
#[derive(Clone, Copy, Debug, PartialEq, Eq)]
pub struct Part {
    pub start: u32,
    pub end: u32,
}

/// An accepted plan: the part of each activity and arm, in file order.
#[derive(Clone, Debug, Default, PartialEq, Eq)]
pub struct Plan {
    pub parts: Vec<Part>,
}

impl Plan {
    /// The number of activities and arms.
    pub fn count(&self) -> usize {
        self.parts.len()
    }
}

/// Reads a plan.
pub fn read(bytes: &[u8]) -> Result<Plan, Refusal> {
    let mut plan = Plan::default();
    read_into(bytes, &mut plan)?;
    Ok(plan)
}

/// Reads a plan into one that is used again. After a refusal `plan` has no parts.
pub fn read_into(bytes: &[u8], plan: &mut Plan) -> Result<(), Refusal> {
    plan.parts.clear();
    let answer = read_parts(bytes, read_number, &mut plan.parts);
    if answer.is_err() {
        plan.parts.clear();
    }
    answer
}

/// How a number is read: the value of the number at a place, and the place after it. A type and no pointer, so that each reader of plans is compiled
/// for its own: through a pointer reading takes longer, and the model is what the proved engine's time is held against.
pub trait Numbers: Fn(&[u8], usize) -> Result<(u32, usize), Refusal> {}

impl<F: Fn(&[u8], usize) -> Result<(u32, usize), Refusal>> Numbers for F {}

/// Whether bytes are a plan, where its numbers are read in another way.
pub fn check(bytes: &[u8], numbers: impl Numbers) -> Result<(), Refusal> {
    read_parts(bytes, numbers, &mut Vec::new())
}

/// Reads one number at `place`: its value and the place after it.
pub fn read_number(bytes: &[u8], place: usize) -> Result<(u32, usize), Refusal> {
    let first = place;
    let mut place = place;
    let mut value = 0;
    let mut shift = 0;
    loop {
        if place >= bytes.len() {
            return refuse(2, bytes.len());
        }
        let byte = bytes[place];
        place += 1;
        // The fifth group has room for four bits and none after it.
        if shift == 28 && byte > 0x0F {
            return refuse(3, first);
        }
        value |= u32::from(byte & 0x7F) << shift;
        if byte < 0x80 {
            // A last group of zero is not the shortest form, unless it is the only one.
            if byte == 0 && shift > 0 {
                return refuse(3, first);
            }
            return Ok((value, place));
        }
        shift += 7;
    }
}

pub fn refuse<T>(number: u32, place: usize) -> Result<T, Refusal> {
    Err(Refusal {
        number,
        place: place as u32,
    })
}

fn read_parts(bytes: &[u8], numbers: impl Numbers, parts: &mut Vec<Part>) -> Result<(), Refusal> {
    if bytes.len() > MAX_BYTES {
        return refuse(1, 0);
    }
    let mut reading = Reading {
        bytes,
        numbers,
        place: 0,
        variables: 0,
        correlation: 0,
        parts,
        asked: Vec::new(),
        differs: None,
    };
    reading.header()?;
    let body = reading.place;
    let starts = reading.activity(1, false)?;
    reading.activity(1, true)?;
    if reading.place < bytes.len() {
        return refuse(9, reading.place);
    }
    if !starts {
        return refuse(7, body);
    }
    match reading.differs {
        Some(place) => refuse(21, place),
        None => Ok(()),
    }
}

/// The reading of one plan: where it stands and what it has seen.
struct Reading<'a, N> {
    bytes: &'a [u8],
    numbers: N,
    place: usize,
    /// How many variables the plan has.
    variables: u32,
    /// Bit v is set when variable v is for correlation.
    correlation: u32,
    parts: &'a mut Vec<Part>,
    /// Partner, operation and count of the receives and arms so far, each pair once.
    asked: Vec<(u32, u32, u32)>,
    /// The place of the first count that differs from an earlier one for its pair.
    differs: Option<usize>,
}

impl<N: Numbers> Reading<'_, N> {
    #[inline]
    fn number(&mut self) -> Result<u32, Refusal> {
        // Most numbers have one group.
        if let Some(&byte) = self.bytes.get(self.place)
            && byte < 0x80
        {
            self.place += 1;
            return Ok(u32::from(byte));
        }
        let (value, next) = (self.numbers)(self.bytes, self.place)?;
        self.place = next;
        Ok(value)
    }

    /// A number from `low` to `high`.
    #[inline]
    fn within(&mut self, low: u32, high: u32) -> Result<u32, Refusal> {
        let place = self.place;
        let value = self.number()?;
        if value < low || value > high {
            return refuse(5, place);
        }
        Ok(value)
    }

    /// Version, count of variables, and the list of correlation variables.
    fn header(&mut self) -> Result<(), Refusal> {
        if self.number()? != 1 {
            return refuse(4, 0);
        }
        self.variables = self.within(1, 16)?;
        let count = self.within(0, self.variables)?;
        let mut lowest = 0;
        for _ in 0..count {
            let variable = self.within(lowest, self.variables - 1)?;
            self.correlation |= 1 << variable;
            lowest = variable + 1;
        }
        Ok(())
    }

    /// One more activity or arm that begins at `start`. Answers its number.
    #[inline]
    fn add(&mut self, start: usize) -> Result<usize, Refusal> {
        let k = self.parts.len();
        if k == MAX_ACTIVITIES {
            return refuse(6, start);
        }
        self.parts.push(Part {
            start: start as u32,
            end: start as u32,
        });
        Ok(k)
    }

    #[inline]
    fn end(&mut self, k: usize) {
        self.parts[k].end = self.place as u32;
    }

    /// An activity at `depth`. `handler` tells that it stands in a fault or undo part.
    /// Answers whether it is a start form.
    fn activity(&mut self, depth: u32, handler: bool) -> Result<bool, Refusal> {
        let start = self.place;
        let code = self.number()?;
        if code > 14 && !matches!(code, 17 | 18) {
            return refuse(4, start);
        }
        if matches!(code, 11 | 12 | 14) && handler {
            return refuse(8, start);
        }
        if depth > MAX_DEPTH {
            return refuse(6, start);
        }
        let k = self.add(start)?;
        let starts = match code {
            // send
            1 => {
                self.within(0, 63)?;
                self.operation_and_tuple(None)?;
                false
            }
            // receive
            2 => {
                let partner = self.within(0, 63)?;
                self.operation_and_tuple(Some(partner))?;
                true
            }
            // send to the partner that a variable holds, with the one to reply to
            17 => {
                self.within(0, self.variables - 1)?;
                self.operation_and_tuple(None)?;
                self.within(0, 63)?;
                false
            }
            // receive with the variable that stores whom to reply to
            18 => {
                let partner = self.within(0, 63)?;
                let others = self.operation_and_tuple(Some(partner))?;
                let place = self.place;
                let variable = self.within(0, self.variables - 1)?;
                if (self.correlation | others) >> variable & 1 == 1 {
                    return refuse(5, place);
                }
                true
            }
            // set
            3 => {
                let place = self.place;
                let variable = self.within(0, self.variables - 1)?;
                if self.correlation >> variable & 1 == 1 {
                    return refuse(5, place);
                }
                self.expression(1)?;
                false
            }
            // choose
            6 => {
                self.expression(1)?;
                self.activity(depth + 1, handler)?;
                self.activity(depth + 1, handler)?;
                false
            }
            // repeat
            7 => {
                self.expression(1)?;
                self.activity(depth + 1, handler)?;
                false
            }
            // sequence: its first decides
            8 => {
                let count = self.within(1, 32)?;
                let first = self.activity(depth + 1, handler)?;
                for _ in 1..count {
                    self.activity(depth + 1, handler)?;
                }
                first
            }
            // flow: all decide
            9 => {
                let count = self.within(1, 32)?;
                let mut all = true;
                for _ in 0..count {
                    all &= self.activity(depth + 1, handler)?;
                }
                all
            }
            // pick
            10 => {
                let count = self.within(1, 8)?;
                for _ in 0..count {
                    self.arm(depth, handler)?;
                }
                true
            }
            // scope, with an undo part or without: its body decides
            11 | 12 => {
                let body = self.activity(depth + 1, false)?;
                self.activity(depth + 1, true)?;
                if code == 11 {
                    self.activity(depth + 1, true)?;
                }
                body
            }
            // scope with fault parts by number
            14 => {
                let body = self.activity(depth + 1, false)?;
                let count = self.within(1, 8)?;
                let mut numbers = Vec::new();
                for _ in 0..count {
                    let place = self.place;
                    let number = self.number()?;
                    if !is_fault(number) || numbers.contains(&number) {
                        return refuse(5, place);
                    }
                    numbers.push(number);
                    self.activity(depth + 1, true)?;
                }
                self.activity(depth + 1, true)?;
                self.activity(depth + 1, true)?;
                body
            }
            // a raise with its number
            13 => {
                self.within(16, 255)?;
                false
            }
            // empty, raise, leave
            _ => false,
        };
        self.end(k);
        Ok(starts)
    }

    /// An arm of a pick at `depth`. The arm itself adds no depth.
    fn arm(&mut self, depth: u32, handler: bool) -> Result<(), Refusal> {
        let start = self.place;
        let partner = self.within(0, 63)?;
        let k = self.add(start)?;
        self.operation_and_tuple(Some(partner))?;
        self.activity(depth + 1, handler)?;
        self.end(k);
        Ok(())
    }

    /// What follows a partner: operation, count and variables. A receive and an arm name their partner here, and no variable twice.
    /// Answers the variables, bit v for variable v.
    fn operation_and_tuple(&mut self, received: Option<u32>) -> Result<u32, Refusal> {
        let operation = self.within(0, 63)?;
        let place = self.place;
        let count = self.within(1, 4)?;
        if let Some(partner) = received {
            self.ask(partner, operation, count, place);
        }
        let mut seen = 0u32;
        for _ in 0..count {
            let place = self.place;
            let variable = self.within(0, self.variables - 1)?;
            if received.is_some() && seen >> variable & 1 == 1 {
                return refuse(5, place);
            }
            seen |= 1 << variable;
        }
        Ok(seen)
    }

    /// A receive or an arm whose count is at `place`.
    fn ask(&mut self, partner: u32, operation: u32, count: u32, place: usize) {
        let same = |asked: &&(u32, u32, u32)| asked.0 == partner && asked.1 == operation;
        match self.asked.iter().find(same) {
            None => self.asked.push((partner, operation, count)),
            Some(first) if first.2 != count && self.differs.is_none() => self.differs = Some(place),
            Some(_) => {}
        }
    }

    fn expression(&mut self, depth: u32) -> Result<(), Refusal> {
        let start = self.place;
        let form = self.number()?;
        if form > 5 {
            return refuse(4, start);
        }
        if depth > MAX_EXPRESSION_DEPTH {
            return refuse(6, start);
        }
        match form {
            0 => {
                self.number()?;
            }
            1 => {
                self.within(0, self.variables - 1)?;
            }
            _ => {
                self.expression(depth + 1)?;
                self.expression(depth + 1)?;
            }
        }
        Ok(())
    }
}
