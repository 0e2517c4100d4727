//! The model of the plan writer, written from document 02's first request and from what a row is
//! (docs/DECISIONS.md): 20 places, the first of which says how many numbers the row has; then
//! these numbers as the file has them; then 0. Of a scope with fault parts by number each of the
//! numbers that stand between its parts, their count and the number of each, has a row of its own.

use crate::plan::is_fault;
use crate::reader::{
    MAX_ACTIVITIES, MAX_BYTES, MAX_DEPTH, MAX_EXPRESSION_DEPTH, Refusal, read, read_number,
};

/// The places of a row.
pub const PLACES: usize = 20;

/// Writes the plan of a table into `out`: how many bytes, or why none. Refused, `out` is as it was.
pub fn write(table: &[u32], out: &mut [u8]) -> Result<usize, Refusal> {
    let bytes = spelled(table)?;
    if out.len() < bytes.len() {
        return refuse(18, 0);
    }
    out[..bytes.len()].copy_from_slice(&bytes);
    Ok(bytes.len())
}

/// Gives the table of a plan into `out`: how many numbers, or why none. Refused, `out` is as it was.
pub fn give(bytes: &[u8], out: &mut [u32]) -> Result<usize, Refusal> {
    let table = table_of(bytes)?;
    if out.len() < table.len() {
        return refuse(18, 0);
    }
    out[..table.len()].copy_from_slice(&table);
    Ok(table.len())
}

/// The table of a plan.
pub fn table_of(bytes: &[u8]) -> Result<Vec<u32>, Refusal> {
    read(bytes)?;
    let mut cutting = Cutting {
        bytes,
        place: 0,
        table: Vec::new(),
    };
    let head = cutting.numbers(2);
    cutting.counted(head, 0);
    cutting.activity();
    cutting.activity();
    Ok(cutting.table)
}

/// A row of these numbers.
pub fn row(numbers: &[u32]) -> [u32; PLACES] {
    let mut row = [0; PLACES];
    row[0] = numbers.len() as u32;
    row[1..=numbers.len()].copy_from_slice(numbers);
    row
}

/// An accepted plan, cut into rows from the left.
struct Cutting<'a> {
    bytes: &'a [u8],
    place: usize,
    table: Vec<u32>,
}

impl Cutting<'_> {
    fn number(&mut self) -> u32 {
        let (value, next) = read_number(self.bytes, self.place).expect("an accepted plan");
        self.place = next;
        value
    }

    fn numbers(&mut self, count: usize) -> Vec<u32> {
        (0..count).map(|_| self.number()).collect()
    }

    fn put(&mut self, numbers: &[u32]) {
        self.table.extend(row(numbers));
    }

    /// A row of these numbers, a count, that many more, and so many last ones.
    fn counted(&mut self, mut numbers: Vec<u32>, last: usize) {
        let count = self.number();
        numbers.push(count);
        numbers.extend(self.numbers(count as usize + last));
        self.put(&numbers);
    }

    fn expression(&mut self) {
        let code = self.number();
        if code < 2 {
            let value = self.number();
            self.put(&[code, value]);
        } else {
            self.put(&[code]);
            self.expression();
            self.expression();
        }
    }

    fn activity(&mut self) {
        let code = self.number();
        match code {
            1 | 2 => {
                let mut message = vec![code];
                message.extend(self.numbers(2));
                self.counted(message, 0);
            }
            // With the reply partner, or the variable that stores it, behind the variables.
            17 | 18 => {
                let mut message = vec![code];
                message.extend(self.numbers(2));
                self.counted(message, 1);
            }
            3 => {
                let variable = self.number();
                self.put(&[code, variable]);
                self.expression();
            }
            6 | 7 => {
                self.put(&[code]);
                self.expression();
                for _ in code..8 {
                    self.activity();
                }
            }
            8..=10 => {
                let count = self.number();
                self.put(&[code, count]);
                for _ in 0..count {
                    if code == 10 {
                        let arm = self.numbers(2);
                        self.counted(arm, 0);
                    }
                    self.activity();
                }
            }
            13 => {
                let number = self.number();
                self.put(&[code, number]);
            }
            14 => {
                self.put(&[code]);
                self.activity();
                let count = self.number();
                self.put(&[count]);
                for _ in 0..count {
                    let number = self.number();
                    self.put(&[number]);
                    self.activity();
                }
                self.activity();
                self.activity();
            }
            _ => {
                self.put(&[code]);
                let parts = match code {
                    11 => 3,
                    12 => 2,
                    _ => 0,
                };
                (0..parts).for_each(|_| self.activity());
            }
        }
    }
}

/// The bytes of a table's plan, at most 4,096.
fn spelled(table: &[u32]) -> Result<Vec<u8>, Refusal> {
    let mut rows = Rows {
        table,
        at: 0,
        variables: 0,
        correlation: Vec::new(),
        count: 0,
        asked: Vec::new(),
        bytes: Vec::new(),
    };
    rows.head()?;
    let starts = rows.activity(1, false)?;
    rows.activity(1, true)?;
    if rows.at * PLACES < table.len() {
        return refuse(9, rows.at);
    }
    if !starts {
        return refuse(7, 1);
    }
    if let Some(row) = disagreeing(&rows.asked) {
        return refuse(21, row);
    }
    if rows.bytes.len() > MAX_BYTES {
        return refuse(1, 0);
    }
    Ok(rows.bytes)
}

/// The row of the first receive or arm whose count differs from that of an earlier one for the same pair.
fn disagreeing(asked: &[(usize, [u32; 3])]) -> Option<usize> {
    let differs = |&(i, (_, [partner, operation, count])): &(usize, &(usize, [u32; 3]))| {
        asked[..i]
            .iter()
            .any(|(_, [p, o, c])| p == partner && o == operation && c != count)
    };
    let first = asked.iter().enumerate().find(differs)?;
    Some(first.1.0)
}

/// The reading of a table: the next row, and what the rows before it said.
struct Rows<'a> {
    table: &'a [u32],
    at: usize,
    variables: u32,
    correlation: Vec<u32>,
    /// Activities and arms so far.
    count: usize,
    /// The row of each receive and arm, with its partner, its operation and its count.
    asked: Vec<(usize, [u32; 3])>,
    bytes: Vec<u8>,
}

impl<'a> Rows<'a> {
    /// The next row and its number.
    fn row(&mut self) -> Result<(usize, &'a [u32]), Refusal> {
        let at = self.at;
        match self.table.get(at * PLACES..(at + 1) * PLACES) {
            Some(row) => {
                self.at += 1;
                Ok((at, row))
            }
            None => refuse(2, self.table.len() / PLACES),
        }
    }

    /// Whether the row has `count` numbers and 0 behind them; then they are written.
    fn spell(&mut self, row: &[u32], count: usize) -> bool {
        let whole = row[0] as usize == count && row[1 + count..].iter().all(|&place| place == 0);
        if whole {
            for &value in &row[1..=count] {
                spell(value, &mut self.bytes);
            }
        }
        whole
    }

    fn head(&mut self) -> Result<(), Refusal> {
        let (at, row) = self.row()?;
        if row[1] != 1 {
            return refuse(4, at);
        }
        let (variables, count) = (row[2], row[3]);
        let legal = (1..=16).contains(&variables) && count <= variables && {
            let some = &row[4..4 + count as usize];
            some.iter().all(|&v| v < variables) && some.windows(2).all(|two| two[0] < two[1])
        };
        if !legal || !self.spell(row, 3 + count as usize) {
            return refuse(5, at);
        }
        self.variables = variables;
        self.correlation = row[4..4 + count as usize].to_vec();
        Ok(())
    }

    /// The variables, where operation, count and they from place `c` on keep their rules.
    fn tuple<'r>(&self, row: &'r [u32], c: usize, once: bool) -> Option<&'r [u32]> {
        let count = row[c + 1] as usize;
        if row[c] > 63 || !(1..=4).contains(&count) {
            return None;
        }
        let some = &row[c + 2..c + 2 + count];
        let twice = (1..count).any(|i| some[..i].contains(&some[i]));
        (some.iter().all(|&v| v < self.variables) && !(once && twice)).then_some(some)
    }

    /// Whether operation, count and variables from place `c` on keep their rules; then the row is written.
    fn exchange(&mut self, row: &[u32], c: usize, once: bool) -> bool {
        match self.tuple(row, c, once) {
            None => false,
            Some(some) => self.spell(row, c + 1 + some.len()),
        }
    }

    /// Whether these keep their rules and the one number behind them keeps this; then the row is written.
    fn exchange_then(
        &mut self,
        row: &[u32],
        c: usize,
        once: bool,
        last: impl Fn(&Self, &[u32], u32) -> bool,
    ) -> bool {
        match self.tuple(row, c, once) {
            None => false,
            Some(some) => {
                let at = c + 2 + some.len();
                last(self, some, row[at]) && self.spell(row, at)
            }
        }
    }

    fn expression(&mut self, level: u32) -> Result<(), Refusal> {
        let (at, row) = self.row()?;
        let code = row[1];
        if code > 5 {
            return refuse(4, at);
        }
        if level > MAX_EXPRESSION_DEPTH {
            return refuse(6, at);
        }
        let legal = match code {
            0 => self.spell(row, 2),
            1 => row[2] < self.variables && self.spell(row, 2),
            _ => self.spell(row, 1),
        };
        if !legal {
            return refuse(5, at);
        }
        if code > 1 {
            self.expression(level + 1)?;
            self.expression(level + 1)?;
        }
        Ok(())
    }

    /// An activity, in a fault or undo part where `handler` holds: whether it is a start form.
    fn activity(&mut self, level: u32, handler: bool) -> Result<bool, Refusal> {
        let (at, row) = self.row()?;
        let code = row[1];
        if code > 14 && code != 17 && code != 18 {
            return refuse(4, at);
        }
        let scope = matches!(code, 11 | 12 | 14);
        if scope && handler {
            return refuse(8, at);
        }
        if level > MAX_DEPTH || self.count == MAX_ACTIVITIES {
            return refuse(6, at);
        }
        self.count += 1;
        if code == 14 {
            if !self.spell(row, 1) {
                return refuse(5, at);
            }
            return self.scope_by_numbers(level);
        }
        let most = if code == 10 { 8 } else { 32 };
        let legal = match code {
            1 | 2 => row[2] < 64 && self.exchange(row, 3, code == 2),
            3 => {
                row[2] < self.variables && !self.correlation.contains(&row[2]) && self.spell(row, 2)
            }
            8..=10 => (1..=most).contains(&row[2]) && self.spell(row, 2),
            13 => (16..=255).contains(&row[2]) && self.spell(row, 2),
            17 => {
                row[2] < self.variables
                    && self.exchange_then(row, 3, false, |_, _, reply| reply < 64)
            }
            18 => {
                let stores = |rows: &Self, others: &[u32], variable: u32| {
                    variable < rows.variables
                        && !rows.correlation.contains(&variable)
                        && !others.contains(&variable)
                };
                row[2] < 64 && self.exchange_then(row, 3, true, stores)
            }
            _ => self.spell(row, 1),
        };
        if !legal {
            return refuse(5, at);
        }
        if let 2 | 18 = code {
            self.asked.push((at, [row[2], row[3], row[4]]));
        }
        if let 3 | 6 | 7 = code {
            self.expression(1)?;
        }
        let within = match code {
            6 => 2,
            7 => 1,
            8..=10 => row[2],
            11 => 3,
            12 => 2,
            _ => 0,
        };
        let mut starts = Vec::new();
        for order in 0..within {
            if code == 10 {
                self.arm()?;
            }
            starts.push(self.activity(level + 1, handler || scope && order > 0)?);
        }
        Ok(match code {
            2 | 10 | 18 => true,
            8 | 11 | 12 => starts[0],
            9 => starts.iter().all(|&start| start),
            _ => false,
        })
    }

    /// A scope with fault parts by number, behind its code.
    fn scope_by_numbers(&mut self, level: u32) -> Result<bool, Refusal> {
        let starts = self.activity(level + 1, false)?;
        let (at, row) = self.row()?;
        let count = row[1];
        if !(1..=8).contains(&count) || !self.spell(row, 1) {
            return refuse(5, at);
        }
        let mut numbers = Vec::new();
        for _ in 0..count {
            let (at, row) = self.row()?;
            let number = row[1];
            if !is_fault(number) || numbers.contains(&number) || !self.spell(row, 1) {
                return refuse(5, at);
            }
            numbers.push(number);
            self.activity(level + 1, true)?;
        }
        self.activity(level + 1, true)?;
        self.activity(level + 1, true)?;
        Ok(starts)
    }

    fn arm(&mut self) -> Result<(), Refusal> {
        let (at, row) = self.row()?;
        if row[1] > 63 {
            return refuse(5, at);
        }
        if self.count == MAX_ACTIVITIES {
            return refuse(6, at);
        }
        self.count += 1;
        if !self.exchange(row, 2, true) {
            return refuse(5, at);
        }
        self.asked.push((at, [row[1], row[2], row[3]]));
        Ok(())
    }
}

fn spell(mut value: u32, bytes: &mut Vec<u8>) {
    while value >= 128 {
        bytes.push(value as u8 | 0x80);
        value >>= 7;
    }
    bytes.push(value as u8);
}

fn refuse<T>(number: u32, place: usize) -> Result<T, Refusal> {
    Err(Refusal {
        number,
        place: place as u32,
    })
}

#[cfg(test)]
mod tests {
    use super::*;

    const PLAN_A: [u8; 11] = [1, 2, 1, 0, 2, 3, 5, 2, 0, 1, 0];

    #[test]
    fn plan_a_both_ways() {
        let table = table_of(&PLAN_A).unwrap();
        let rows: [&[u32]; 3] = [&[1, 2, 1, 0], &[2, 3, 5, 2, 0, 1], &[0]];
        assert_eq!(
            table,
            rows.iter()
                .flat_map(|numbers| row(numbers))
                .collect::<Vec<u32>>()
        );
        let mut out = [9; 12];
        assert_eq!(write(&table, &mut out), Ok(11));
        assert_eq!((&out[..11], out[11]), (&PLAN_A[..], 9));
    }

    #[test]
    fn refusals_of_plan_a() {
        let table = table_of(&PLAN_A).unwrap();
        let mut out = [9; 11];
        let mut tried = |table: &[u32], room: usize, number, place| {
            assert_eq!(
                write(table, &mut out[..room]),
                Err(Refusal { number, place })
            );
            assert_eq!(out, [9; 11]);
        };
        tried(&table, 10, 18, 0);
        tried(&table[..40], 11, 2, 2);
        tried(&[], 11, 2, 0);
        tried(&[&table[..], &[0]].concat(), 11, 9, 3);
        let changes = [
            (1, 2, 4, 0),
            (59, 7, 5, 2),
            (40, 2, 5, 2),
            (41, 11, 8, 2),
            (26, 0, 5, 1),
        ];
        for (place, value, number, row) in changes {
            let mut other = table.clone();
            other[place] = value;
            tried(&other, 11, number, row);
        }
        let mut other = table.clone();
        other[20..40].copy_from_slice(&row(&[0]));
        tried(&other, 0, 7, 1);
    }

    #[test]
    fn raises_with_a_number() {
        let plan = |raise: &[u32]| -> Vec<u32> {
            let rows: [&[u32]; 4] = [&[1, 2, 0], &[8, 2], &[2, 3, 5, 1, 0], raise];
            let all = rows.iter().copied().chain([&[0][..]]);
            all.flat_map(row).collect()
        };
        let bytes = [1, 2, 0, 8, 2, 2, 3, 5, 1, 0, 13, 0xC8, 1, 0];
        assert_eq!(table_of(&bytes), Ok(plan(&[13, 200])));
        let mut out = [9; 14];
        assert_eq!(write(&plan(&[13, 200]), &mut out), Ok(14));
        assert_eq!(out, bytes);
        for raise in [&[13, 15][..], &[13, 256], &[13], &[13, 16, 0], &[4, 16]] {
            let refused = Refusal {
                number: 5,
                place: 3,
            };
            assert_eq!(write(&plan(raise), &mut out[..0]), Err(refused));
        }
    }

    #[test]
    fn scopes_with_fault_parts_by_number() {
        // From the row of the scope on: its code, its body, the count, and a number with each of its parts.
        let plan = |scope: &[&[u32]]| -> Vec<u32> {
            let front: [&[u32]; 3] = [&[1, 2, 0], &[8, 2], &[2, 3, 5, 1, 0]];
            let behind: [&[u32]; 3] = [&[5], &[0], &[0]];
            let all = front.iter().chain(scope).chain(&behind);
            all.flat_map(|&some| row(some)).collect()
        };
        let bytes = [
            1, 2, 0, 8, 2, 2, 3, 5, 1, 0, 14, 0, 2, 16, 4, 3, 13, 255, 1, 5, 0, 0,
        ];
        let table = plan(&[&[14], &[0], &[2], &[16], &[4], &[3], &[13, 255]]);
        assert_eq!(table_of(&bytes), Ok(table.clone()));
        let mut out = [9; 22];
        assert_eq!(write(&table, &mut out), Ok(22));
        assert_eq!(out, bytes);
        let refused = |scope: &[&[u32]], number, place| {
            assert_eq!(write(&plan(scope), &mut []), Err(Refusal { number, place }));
        };
        for count in [&[0][..], &[9], &[2, 0], &[]] {
            refused(&[&[14], &[0], count, &[16], &[4], &[3], &[0]], 5, 5);
            // The body comes before it.
            refused(&[&[14], &[15], count, &[16], &[4], &[3], &[0]], 4, 4);
        }
        for number in [&[16][..], &[6], &[256], &[3, 0], &[]] {
            refused(&[&[14], &[0], &[2], &[16], &[4], number, &[0]], 5, 8);
            // A part comes before the number behind it.
            refused(&[&[14], &[0], &[2], &[16], &[15], number, &[0]], 4, 7);
        }
        refused(&[&[14, 2], &[0], &[2], &[16], &[4], &[3], &[0]], 5, 3);
        refused(&[&[14], &[0], &[2], &[16], &[12], &[3], &[0]], 8, 7);
    }

    #[test]
    fn whom_to_reply_to() {
        // Variable 2 of four is for correlation.
        let plan = |asking: &[u32], answer: &[u32]| -> Vec<u32> {
            let rows: [&[u32]; 5] = [&[1, 4, 1, 2], &[8, 2], asking, answer, &[0]];
            rows.iter().flat_map(|numbers| row(numbers)).collect()
        };
        let (asking, answer) = (&[18, 3, 5, 2, 0, 2, 1][..], &[17, 1, 9, 2, 2, 2, 63][..]);
        let bytes = [
            1, 4, 1, 2, 8, 2, 18, 3, 5, 2, 0, 2, 1, 17, 1, 9, 2, 2, 2, 63, 0,
        ];
        assert_eq!(table_of(&bytes), Ok(plan(asking, answer)));
        let mut out = [9; 21];
        assert_eq!(write(&plan(asking, answer), &mut out), Ok(21));
        assert_eq!(out, bytes);
        let refused = |asking: &[u32], answer: &[u32], number, place| {
            let table = plan(asking, answer);
            assert_eq!(write(&table, &mut []), Err(Refusal { number, place }));
        };
        for wrong in [
            &[18, 64, 5, 2, 0, 2, 1][..],
            &[18, 3, 64, 2, 0, 2, 1],
            &[18, 3, 5, 2, 0, 0, 1],
            // For correlation, among the others, no variable, none, and one more.
            &[18, 3, 5, 1, 0, 2],
            &[18, 3, 5, 2, 0, 1, 1],
            &[18, 3, 5, 2, 0, 2, 4],
            &[18, 3, 5, 2, 0, 2],
            &[18, 3, 5, 2, 0, 2, 1, 0],
            &[2, 3, 5, 2, 0, 2, 1],
        ] {
            refused(wrong, answer, 5, 2);
        }
        for wrong in [
            &[17, 4, 9, 2, 2, 2, 63][..],
            &[17, 1, 64, 2, 2, 2, 63],
            &[17, 1, 9, 5, 0, 0, 0, 0, 0, 63],
            &[17, 1, 9, 2, 2, 4, 63],
            &[17, 1, 9, 2, 2, 2, 64],
            &[17, 1, 9, 2, 2, 2],
            &[17, 1, 9, 2, 2, 2, 63, 0],
            &[1, 1, 9, 2, 2, 2, 63],
        ] {
            refused(asking, wrong, 5, 3);
        }
        refused(answer, asking, 7, 1);
        refused(asking, &[18, 3, 5, 1, 0, 1], 21, 3);
        refused(asking, &[16, 1, 9, 2, 2, 2, 63], 4, 3);
    }

    #[test]
    fn receives_that_disagree() {
        let plan = |operation| -> Vec<u32> {
            let rows: [&[u32]; 5] = [
                &[1, 2, 0],
                &[8, 2],
                &[2, 3, 5, 2, 0, 1],
                &[2, 3, operation, 1, 0],
                &[0],
            ];
            rows.iter().flat_map(|numbers| row(numbers)).collect()
        };
        let mut out = [9; 17];
        let refused = Refusal {
            number: 21,
            place: 3,
        };
        assert_eq!(write(&plan(5), &mut out[..0]), Err(refused));
        assert_eq!(write(&plan(6), &mut out), Ok(17));
    }
}
