//! An accepted plan as the engine sees it: its activities and arms in file order, each with what it says and where it stands.

use crate::reader::{MAX_ACTIVITIES, read_number};

/// What an activity or arm says of itself.
#[derive(Clone, Copy, Debug, PartialEq, Eq)]
pub enum Kind {
    Empty,
    Send(Sending),
    /// With the variable that stores whom to reply to, where one does.
    Receive(Tuple, Option<usize>),
    /// The variable, and where its expression begins.
    Set(usize, usize),
    /// Its number: 0 for a plain one.
    Raise(Fault),
    Leave,
    /// Where the expression begins.
    Choose(usize),
    Repeat(usize),
    Sequence,
    Flow,
    Pick,
    Arm(Tuple),
    Scope(Handlers),
}

/// What a scope has behind its body: fault parts by number, one for any other fault, and an undo part or none.
#[derive(Clone, Copy, Debug, Default, PartialEq, Eq)]
pub struct Handlers {
    pub undo: bool,
    count: usize,
    numbers: [Fault; 8],
}

impl Handlers {
    /// The numbers that it has a fault part for, in file order.
    pub fn numbers(&self) -> &[Fault] {
        &self.numbers[..self.count]
    }
}

/// Partner, operation and variables of a send, receive or arm.
#[derive(Clone, Copy, Debug, PartialEq, Eq)]
pub struct Tuple {
    pub partner: u32,
    pub operation: u32,
    pub count: usize,
    pub variables: [usize; 4],
}

impl Tuple {
    pub fn variables(&self) -> &[usize] {
        &self.variables[..self.count]
    }
}

/// A send. Where a variable holds its partner, its tuple has 0 for one.
#[derive(Clone, Copy, Debug, PartialEq, Eq)]
pub struct Sending {
    pub tuple: Tuple,
    pub held_in: Option<usize>,
    /// The partner to reply to, which its message carries.
    pub reply: u32,
}

/// A scope by its number; `None` is the root, which counts as one.
pub type Scope = Option<usize>;

/// What an activity is to the one around it. The root's two parts have no activity around them.
#[derive(Clone, Copy, Debug, PartialEq, Eq)]
pub enum Part {
    Within(usize),
    Body(Scope),
    Fault(Scope),
    Undo(usize),
}

#[derive(Clone, Copy, Debug)]
pub struct Activity {
    pub kind: Kind,
    pub part: Part,
    /// The nearest scope around it.
    pub around: Scope,
    /// One more than the last number within it.
    pub end: usize,
}

#[derive(Clone, Debug)]
pub struct Plan {
    pub activities: Vec<Activity>,
    pub correlation: [bool; 16],
    /// The partners that the plan receives on.
    pub partners: [bool; 64],
    bytes: Vec<u8>,
}

/// The number of a fault (document 02, requests 4 and 5): one of these, or that of a raise with a number.
pub type Fault = u8;
pub const PLAIN: Fault = 0;
pub const UNBOUND: Fault = 1;
pub const TOO_LARGE: Fault = 2;
pub const BELOW_ZERO: Fault = 3;
pub const CONFLICT: Fault = 4;
pub const NO_SUCH_PARTNER: Fault = 5;

/// Whether a fault may have this number.
pub fn is_fault(number: u32) -> bool {
    number <= u32::from(NO_SUCH_PARTNER) || (16..=255).contains(&number)
}

impl Plan {
    /// The tree of bytes that the reader accepts.
    pub fn of(bytes: &[u8]) -> Plan {
        let mut reading = Reading {
            plan: Plan {
                activities: Vec::with_capacity(MAX_ACTIVITIES),
                correlation: [false; 16],
                partners: [false; 64],
                bytes: bytes.to_vec(),
            },
            place: 2,
        };
        for _ in 0..reading.number() {
            let variable = reading.number();
            reading.plan.correlation[variable] = true;
        }
        reading.activity(Part::Body(None), None);
        reading.activity(Part::Fault(None), None);
        reading.plan
    }

    pub fn count(&self) -> usize {
        self.activities.len()
    }

    pub fn kind(&self, k: usize) -> Kind {
        self.activities[k].kind
    }

    pub fn end(&self, k: usize) -> usize {
        self.activities[k].end
    }

    /// The activities directly within k.
    pub fn within(&self, k: usize) -> impl Iterator<Item = usize> + '_ {
        let end = self.end(k);
        let first = Some(k + 1).filter(|&first| first < end);
        std::iter::successors(first, move |&at| {
            Some(self.end(at)).filter(|&next| next < end)
        })
    }

    pub fn body(&self, scope: Scope) -> usize {
        scope.map_or(0, |s| s + 1)
    }

    pub fn body_end(&self, scope: Scope) -> usize {
        self.end(self.body(scope))
    }

    /// The numbers that a scope has a fault part for. The root has none.
    pub fn numbers(&self, scope: Scope) -> &[Fault] {
        match scope.and_then(|s| self.activities.get(s)) {
            Some(Activity {
                kind: Kind::Scope(handlers),
                ..
            }) => handlers.numbers(),
            _ => &[],
        }
    }

    /// Which fault part is for a fault of this number: the i-th of those by number, or beyond eight for the general one, with what it says of the fault.
    pub fn choice(&self, scope: Scope, number: Fault) -> usize {
        let equal = self.numbers(scope).iter().position(|&each| each == number);
        let general = if number <= 5 { 9 + number as usize } else { 15 };
        equal.map_or(general, |at| at + 1)
    }

    /// The fault part of this choice; the general one where there is no such part.
    pub fn fault(&self, scope: Scope, choice: usize) -> usize {
        let many = self.numbers(scope).len();
        let before = if (1..=many).contains(&choice) {
            choice - 1
        } else {
            many
        };
        (0..before).fold(self.body_end(scope), |part, _| self.end(part))
    }

    /// The undo part of a scope that has one.
    pub fn undo(&self, scope: usize) -> usize {
        self.end(self.fault(Some(scope), 0))
    }

    pub fn is_scope(&self, k: usize) -> bool {
        k < self.count() && matches!(self.kind(k), Kind::Scope(_))
    }

    pub fn has_undo(&self, k: usize) -> bool {
        k < self.count() && matches!(self.kind(k), Kind::Scope(Handlers { undo: true, .. }))
    }

    /// Whether the undo part of k may be one that `scope` runs: k stands directly inside it, or in scopes that have none and do.
    pub fn may_undo(&self, scope: Scope, k: usize) -> bool {
        let further = |&around: &Scope| {
            let s = around.filter(|&s| around != scope && !self.has_undo(s))?;
            Some(self.activities[s].around)
        };
        self.has_undo(k)
            && std::iter::successors(Some(self.activities[k].around), further)
                .any(|around| around == scope)
    }

    /// The value of the expression at `place`, given the variables that are bound; or the first fault in it: the left operand's, the right one's, its own.
    pub fn value(
        &self,
        place: usize,
        variable: &dyn Fn(usize) -> Option<u32>,
    ) -> Result<u32, Fault> {
        self.valued(place, variable).map(|(value, _)| value)
    }

    fn valued(
        &self,
        place: usize,
        variable: &dyn Fn(usize) -> Option<u32>,
    ) -> Result<(u32, usize), Fault> {
        let (form, place) = self.number_at(place);
        if form < 2 {
            let (number, next) = self.number_at(place);
            let value = if form == 0 {
                number
            } else {
                variable(number as usize).ok_or(UNBOUND)?
            };
            return Ok((value, next));
        }
        let (left, place) = self.valued(place, variable)?;
        let (right, place) = self.valued(place, variable)?;
        let value = match form {
            2 => left.checked_add(right).ok_or(TOO_LARGE)?,
            3 => left.checked_sub(right).ok_or(BELOW_ZERO)?,
            4 => u32::from(left == right),
            _ => u32::from(left < right),
        };
        Ok((value, place))
    }

    fn number_at(&self, place: usize) -> (u32, usize) {
        read_number(&self.bytes, place).expect("a number of an accepted plan")
    }
}

struct Reading {
    plan: Plan,
    place: usize,
}

impl Reading {
    fn number(&mut self) -> usize {
        let (value, next) = self.plan.number_at(self.place);
        self.place = next;
        value as usize
    }

    fn add(&mut self, kind: Kind, part: Part, around: Scope) -> usize {
        self.plan.activities.push(Activity {
            kind,
            part,
            around,
            end: 0,
        });
        self.plan.count() - 1
    }

    fn activity(&mut self, part: Part, around: Scope) {
        let code = self.number();
        let mut inside = 0;
        let kind = match code {
            0 => Kind::Empty,
            1 => Kind::Send(Sending {
                tuple: self.tuple(),
                held_in: None,
                reply: 0,
            }),
            17 => {
                let mut tuple = self.tuple();
                let held_in = Some(std::mem::take(&mut tuple.partner) as usize);
                let reply = self.number() as u32;
                Kind::Send(Sending {
                    tuple,
                    held_in,
                    reply,
                })
            }
            2 => Kind::Receive(self.received(), None),
            18 => Kind::Receive(self.received(), Some(self.number())),
            3 => Kind::Set(self.number(), self.expression()),
            4 => Kind::Raise(PLAIN),
            13 => Kind::Raise(self.number() as Fault),
            5 => Kind::Leave,
            6 => {
                inside = 2;
                Kind::Choose(self.expression())
            }
            7 => {
                inside = 1;
                Kind::Repeat(self.expression())
            }
            8 | 9 => {
                inside = self.number();
                if code == 8 {
                    Kind::Sequence
                } else {
                    Kind::Flow
                }
            }
            10 => {
                inside = self.number();
                Kind::Pick
            }
            _ => Kind::Scope(Handlers {
                undo: code != 12,
                ..Handlers::default()
            }),
        };
        let k = self.add(kind, part, around);
        match kind {
            Kind::Scope(mut handlers) => {
                self.activity(Part::Body(Some(k)), Some(k));
                if code == 14 {
                    handlers.count = self.number();
                    for at in 0..handlers.count {
                        handlers.numbers[at] = self.number() as Fault;
                        self.activity(Part::Fault(Some(k)), Some(k));
                    }
                    self.plan.activities[k].kind = Kind::Scope(handlers);
                }
                self.activity(Part::Fault(Some(k)), Some(k));
                if handlers.undo {
                    self.activity(Part::Undo(k), Some(k));
                }
            }
            Kind::Pick => {
                for _ in 0..inside {
                    let tuple = self.received();
                    let arm = self.add(Kind::Arm(tuple), Part::Within(k), around);
                    self.activity(Part::Within(arm), around);
                    self.end(arm);
                }
            }
            _ => {
                for _ in 0..inside {
                    self.activity(Part::Within(k), around);
                }
            }
        }
        self.end(k);
    }

    fn end(&mut self, k: usize) {
        self.plan.activities[k].end = self.plan.count();
    }

    fn tuple(&mut self) -> Tuple {
        let mut tuple = Tuple {
            partner: self.number() as u32,
            operation: self.number() as u32,
            count: self.number(),
            variables: [0; 4],
        };
        for place in 0..tuple.count {
            tuple.variables[place] = self.number();
        }
        tuple
    }

    fn received(&mut self) -> Tuple {
        let tuple = self.tuple();
        self.plan.partners[tuple.partner as usize] = true;
        tuple
    }

    /// Passes over an expression. Answers where it begins.
    fn expression(&mut self) -> usize {
        let place = self.place;
        if self.number() < 2 {
            self.number();
        } else {
            self.expression();
            self.expression();
        }
        place
    }
}
