//! Random plans that get somewhere in a few calls: few partners, many scopes with undo parts and without, faults, repeats that close scopes, flows and picks.

use crate::generate::{Kind, Random, Sheet};
use crate::reader;

/// A scope that was begun: whether it has an undo part, and the numbers that it has a fault part for.
struct Begun {
    undo: bool,
    numbers: Vec<usize>,
}

struct Writer<'a> {
    random: &'a mut Random,
    sheet: Sheet,
    variables: usize,
    /// Variables that a set may name.
    free: Vec<u32>,
    partners: usize,
    operations: usize,
    most_places: usize,
}

/// A legal plan; with a body that closes scopes again and again, if asked.
pub fn plan(random: &mut Random, closes: bool) -> Vec<u8> {
    loop {
        let bytes = write(random, closes);
        if reader::read(&bytes).is_ok() {
            return bytes;
        }
    }
}

fn write(random: &mut Random, closes: bool) -> Vec<u8> {
    let variables = match random.below(12) {
        0 => 16,
        1 => random.from_to(5, 15),
        _ => random.from_to(1, 4),
    };
    let chance = [0, 20, 50, 100][random.below(4)];
    let correlation: Vec<u32> = (0..variables as u32)
        .filter(|_| random.percent(chance))
        .collect();
    let free = (0..variables as u32)
        .filter(|variable| !correlation.contains(variable))
        .collect();
    let size = match random.below(20) {
        0 => random.from_to(60, 200),
        1..=6 => random.from_to(20, 60),
        _ => random.from_to(4, 20),
    };
    let mut writer = Writer {
        partners: random.from_to(1, 3),
        operations: random.from_to(1, 2),
        most_places: random.from_to(1, 3),
        random,
        sheet: Sheet::default(),
        variables,
        free,
    };
    writer.sheet.header(variables as u32, &correlation);
    match writer.random.below(100) {
        _ if closes => writer.closings(),
        0..=7 => writer.closings(),
        8..=39 => {
            writer.list(8, 3);
            writer.start(1, 2);
            let levels = writer.random.from_to(1, 3);
            writer.storm(levels, 2);
            writer.ending();
        }
        _ => writer.body(size),
    }
    let fault = writer.random.from_to(1, 4);
    writer.activity(fault, 1, true);
    writer.sheet.bytes
}

impl Writer<'_> {
    fn code(&mut self, code: u32) {
        self.sheet.put(Kind::Code, code);
    }

    fn list(&mut self, code: u32, count: usize) {
        self.code(code);
        self.sheet.put(Kind::ListCount, count as u32);
    }

    /// The root's body: most often a receive and then something with room.
    fn body(&mut self, size: usize) {
        if self.random.percent(75) {
            let more = self.random.from_to(1, 3);
            self.list(8, 1 + more);
            self.start(1, 2);
            for _ in 0..more {
                self.activity(size / more, 2, false);
            }
        } else {
            self.start(size, 1);
        }
    }

    /// A scope's code: with no undo part by this chance, and with fault parts by number now and then.
    fn scope(&mut self, bare: usize) -> Begun {
        let mut begun = Begun {
            undo: !self.random.percent(bare),
            numbers: Vec::new(),
        };
        if begun.undo && self.random.percent(35) {
            for _ in 0..[1, 2, 2, 3, 8][self.random.below(5)] {
                let number = match self.random.below(3) {
                    0 => self.random.below(6),
                    _ => self.number(),
                };
                if !begun.numbers.contains(&number) {
                    begun.numbers.push(number);
                }
            }
        }
        self.code(match (begun.undo, begun.numbers.is_empty()) {
            (false, _) => 12,
            (true, true) => 11,
            (true, false) => 14,
        });
        begun
    }

    /// The fault parts by number, behind the body of a scope that has some.
    fn by_number(&mut self, begun: &Begun, depth: u32) {
        if begun.numbers.is_empty() {
            return;
        }
        self.sheet.put(Kind::ListCount, begun.numbers.len() as u32);
        for &number in &begun.numbers {
            self.sheet.put(Kind::FaultNumber, number as u32);
            let size = self.random.from_to(1, 3);
            self.activity(size, depth + 1, true);
        }
    }

    /// A body that closes scopes again and again, for itself or within a scope.
    fn closings(&mut self) {
        self.list(8, 3);
        self.start(1, 2);
        let within = self.random.percent(50).then(|| self.scope(40));
        self.code(7);
        self.sheet.put(Kind::Form, 0);
        self.sheet.put(Kind::Constant, 1);
        let both = self.random.percent(40);
        if both {
            self.list(9, 2);
            self.small_scopes(5);
        }
        self.small_scopes(5);
        if let Some(begun) = within {
            self.by_number(&begun, 3);
            self.activity(2, 3, true);
            if begun.undo {
                self.activity(2, 3, true);
            }
        }
        self.activity(3, 2, false);
    }

    /// A small scope, or some in one with no undo part, which hands them on.
    fn small_scopes(&mut self, depth: u32) {
        if self.random.percent(60) {
            return self.small_scope(depth);
        }
        self.code(12);
        let count = self.random.from_to(1, 3);
        let code = if self.random.percent(50) { 9 } else { 8 };
        self.list(code, count);
        for _ in 0..count {
            self.small_scope(depth + 2);
        }
        self.chores(15);
    }

    /// A scope with scopes side by side in it, some of which close and some of which fault.
    fn storm(&mut self, levels: usize, depth: u32) {
        let begun = self.scope(35);
        let count = self.random.from_to(2, 3);
        let code = if self.random.percent(75) { 9 } else { 8 };
        self.list(code, count);
        for _ in 0..count {
            match self.random.below(10) {
                0..=4 if levels > 0 => self.storm(levels - 1, depth + 2),
                0..=7 => {
                    self.list(8, 3);
                    self.small_scopes(depth + 3);
                    self.small_scope(depth + 3);
                    self.ending();
                }
                _ => self.ending(),
            }
        }
        self.by_number(&begun, depth);
        self.chores(15);
        if begun.undo {
            self.chores(15);
        }
    }

    /// Something that most often raises after a while.
    fn ending(&mut self) {
        self.chores(70);
    }

    /// A few steps, with a chance of a raise after them.
    fn chores(&mut self, raises: usize) {
        let count = self.random.from_to(0, 3);
        self.list(8, count + 1);
        for _ in 0..count {
            if self.free.is_empty() || self.random.percent(50) {
                self.send();
            } else {
                self.code(3);
                let variable = self.free[self.random.below(self.free.len())];
                // Now and then about the highest partner, which a send may then be for.
                let value = match self.random.below(4) {
                    0 => self.random.from_to(62, 65),
                    _ => count,
                };
                self.sheet.put(Kind::Variable, variable);
                self.sheet.put(Kind::Form, 0);
                self.sheet.put(Kind::Constant, value as u32);
            }
        }
        if self.random.percent(raises) {
            self.raise();
        } else {
            self.code(0);
        }
    }

    /// A raise, plain or with a number.
    fn raise(&mut self) {
        if self.random.percent(40) {
            return self.code(4);
        }
        let number = self.number();
        self.code(13);
        self.sheet.put(Kind::FaultNumber, number as u32);
    }

    /// One that a raise may have, most often one of a few.
    fn number(&mut self) -> usize {
        match self.random.below(3) {
            0 => self.random.from_to(16, 255),
            _ => [16, 17, 18, 255][self.random.below(4)],
        }
    }

    fn small_scope(&mut self, depth: u32) {
        let begun = self.scope(10);
        if self.random.percent(60) {
            self.chores(0);
        } else {
            let size = self.random.from_to(1, 3);
            self.activity(size, depth + 1, false);
        }
        self.by_number(&begun, depth);
        self.activity(1, depth + 1, true);
        if !begun.undo {
            return;
        }
        if self.random.percent(50) {
            self.chores(10);
        } else {
            self.activity(2, depth + 1, true);
        }
    }

    /// A start form of about this size.
    fn start(&mut self, size: usize, depth: u32) {
        if size < 4 || depth > 6 {
            return self.receive();
        }
        match self.random.below(10) {
            0..=4 => {
                let count = self.random.from_to(2, 4);
                self.list(8, count);
                self.start(size / 4, depth + 1);
                for _ in 1..count {
                    self.activity(size / count, depth + 1, false);
                }
            }
            5 => {
                let count = self.random.from_to(1, 3);
                self.list(9, count);
                for _ in 0..count {
                    self.start(size / count, depth + 1);
                }
            }
            6 | 7 => self.pick(size, depth, false),
            _ => {
                let begun = self.scope(35);
                self.start(size / 2, depth + 1);
                self.by_number(&begun, depth);
                self.activity(size / 4, depth + 1, true);
                if begun.undo {
                    self.activity(size / 4, depth + 1, true);
                }
            }
        }
    }

    /// An activity of about this size. `handler` tells that it stands in a fault or undo part.
    fn activity(&mut self, size: usize, depth: u32, handler: bool) {
        if size < 2 || depth > 14 {
            return self.leaf(handler);
        }
        match self.random.below(if handler { 60 } else { 100 }) {
            0..=21 => self.several(8, size, depth, handler),
            22..=37 => self.several(9, size, depth, handler),
            38..=43 => {
                self.code(6);
                self.expression(1);
                self.activity(size / 2, depth + 1, handler);
                self.activity(size / 2, depth + 1, handler);
            }
            44..=52 => {
                self.code(7);
                if self.random.percent(40) {
                    self.sheet.put(Kind::Form, 0);
                    self.sheet.put(Kind::Constant, 1);
                } else {
                    self.expression(1);
                }
                self.activity(size - 1, depth + 1, handler);
            }
            53..=59 => self.pick(size, depth, handler),
            _ => {
                let begun = self.scope(35);
                self.activity(size.saturating_sub(3), depth + 1, false);
                self.by_number(&begun, depth);
                for _ in 0..1 + usize::from(begun.undo) {
                    // Handlers that take a while are left to finish by faults around them.
                    let size = self.random.from_to(1, 4);
                    self.activity(size, depth + 1, true);
                }
            }
        }
    }

    fn several(&mut self, code: u32, size: usize, depth: u32, handler: bool) {
        let count = self.random.from_to(1, 4.min(size));
        // A body that raises at its end has had time to close scopes.
        let raises = code == 8 && !handler && count > 1 && self.random.percent(35);
        self.list(code, count);
        for _ in usize::from(raises)..count {
            self.activity((size - 1) / count, depth + 1, handler);
        }
        if raises {
            self.raise();
        }
    }

    fn pick(&mut self, size: usize, depth: u32, handler: bool) {
        let count = self.random.from_to(1, 3);
        self.list(10, count);
        for _ in 0..count {
            self.arm();
            self.activity(size / (count + 1), depth + 1, handler);
        }
    }

    fn leaf(&mut self, handler: bool) {
        match self.random.below(100) {
            0..=21 => self.code(0),
            22..=45 => self.send(),
            46..=56 => self.receive(),
            57..=76 if !self.free.is_empty() => {
                let variable = self.free[self.random.below(self.free.len())];
                self.code(3);
                self.sheet.put(Kind::Variable, variable);
                self.expression(1);
            }
            77..=78 => self.code(5),
            79..=84 => self.raise(),
            // Handlers raise less.
            _ if handler => self.send(),
            _ => self.raise(),
        }
    }

    fn variable(&mut self) -> u32 {
        self.random.below(self.variables) as u32
    }

    /// A sum too large, or a difference below zero.
    fn faulty(&mut self) {
        let (form, operands) = match self.random.below(2) {
            0 => (2, [u32::MAX, 1]),
            _ => (3, [0, 1]),
        };
        self.sheet.put(Kind::Form, form);
        for value in operands {
            self.sheet.put(Kind::Form, 0);
            self.sheet.put(Kind::Constant, value);
        }
    }

    fn expression(&mut self, depth: u32) {
        if depth < 4 && self.random.percent(6) {
            return self.faulty();
        }
        match self.random.below(if depth < 4 { 100 } else { 70 }) {
            0..=39 => {
                let value = match self.random.below(12) {
                    0 => u32::MAX - self.random.below(2) as u32,
                    1 => self.random.value(),
                    2 => self.random.from_to(62, 65) as u32,
                    _ => self.random.below(4) as u32,
                };
                self.sheet.put(Kind::Form, 0);
                self.sheet.put(Kind::Constant, value);
            }
            40..=69 => {
                let variable = self.variable();
                self.sheet.put(Kind::Form, 1);
                self.sheet.put(Kind::Variable, variable);
            }
            _ => {
                let form = self.random.from_to(2, 5) as u32;
                self.sheet.put(Kind::Form, form);
                self.expression(depth + 1);
                self.expression(depth + 1);
            }
        }
    }

    /// A send, to a partner of its own or to one that a variable holds.
    fn send(&mut self) {
        let (partner, operation, variables) = self.exchange(false);
        if self.random.percent(60) {
            return self.sheet.message(Some(1), partner, operation, &variables);
        }
        let variable = self.variable();
        let reply = match self.random.below(3) {
            0 => self.random.below(64) as u32,
            _ => partner,
        };
        self.sheet.held_send(variable, operation, &variables, reply);
    }

    /// A receive; about half of them store whom to reply to, where a variable may.
    fn receive(&mut self) {
        let (partner, operation, variables) = self.exchange(true);
        let mut may = self.free.clone();
        may.retain(|variable| !variables.contains(variable));
        if may.is_empty() || self.random.percent(50) {
            return self.sheet.message(Some(2), partner, operation, &variables);
        }
        let variable = may[self.random.below(may.len())];
        self.sheet
            .asking_receive(partner, operation, &variables, variable);
    }

    /// An arm's partner, operation and tuple.
    fn arm(&mut self) {
        let (partner, operation, variables) = self.exchange(true);
        self.sheet.message(None, partner, operation, &variables);
    }

    /// A partner, an operation and the variables of a tuple.
    fn exchange(&mut self, distinct: bool) -> (u32, u32, Vec<u32>) {
        // Now and then a partner that the plan may never receive on.
        let outward = !distinct && self.random.percent(40);
        let partner = if outward {
            self.partners
        } else {
            self.random.below(self.partners)
        };
        let operation = self.random.below(self.operations);
        let most = if self.random.percent(3) {
            4
        } else {
            self.most_places
        };
        let mut variables = Vec::new();
        let agreed = self.sheet.count_of(partner as u32, operation as u32);
        if let Some(count) = agreed.filter(|_| distinct) {
            while variables.len() < count {
                let variable = self.variable();
                if !variables.contains(&variable) {
                    variables.push(variable);
                }
            }
            return (partner as u32, operation as u32, variables);
        }
        for _ in 0..self.random.from_to(1, most) {
            let variable = self.variable();
            if !distinct || !variables.contains(&variable) {
                variables.push(variable);
            }
        }
        (partner as u32, operation as u32, variables)
    }
}
