//! A seeded generator of plans: legal, loose (past the limits now and then), damaged and wild.

/// A small random source (splitmix64).
pub struct Random {
    state: u64,
}

impl Random {
    pub fn new(seed: u64) -> Random {
        Random { state: seed }
    }

    pub fn word(&mut self) -> u64 {
        self.state = self.state.wrapping_add(0x9E37_79B9_7F4A_7C15);
        let mut z = self.state;
        z = (z ^ (z >> 30)).wrapping_mul(0xBF58_476D_1CE4_E5B9);
        z = (z ^ (z >> 27)).wrapping_mul(0x94D0_49BB_1331_11EB);
        z ^ (z >> 31)
    }

    /// From 0 to below `end`.
    pub fn below(&mut self, end: usize) -> usize {
        (self.word() % end as u64) as usize
    }

    /// From `low` to `high`, both in.
    pub fn from_to(&mut self, low: usize, high: usize) -> usize {
        low + self.below(high - low + 1)
    }

    pub fn percent(&mut self, chance: usize) -> bool {
        self.below(100) < chance
    }

    pub fn byte(&mut self) -> u8 {
        self.word() as u8
    }

    /// A number with a random count of bits, so that all lengths on file come up.
    pub fn value(&mut self) -> u32 {
        let bits = self.below(33);
        if bits == 0 {
            0
        } else {
            (self.word() >> (64 - bits)) as u32
        }
    }
}

/// What a number in a plan stands for.
#[derive(Clone, Copy, Debug, PartialEq, Eq)]
pub enum Kind {
    Version,
    Variables,
    Correlations,
    Correlation,
    Code,
    Partner,
    Operation,
    TupleCount,
    Variable,
    ListCount,
    FaultNumber,
    Form,
    Constant,
}

/// A plan while it is written: bytes, the parts of its activities, the places of its numbers.
#[derive(Clone, Default)]
pub struct Sheet {
    pub bytes: Vec<u8>,
    /// Start and end of each activity and arm, in file order.
    pub parts: Vec<(usize, usize)>,
    /// Place, kind and value of each number.
    pub numbers: Vec<(usize, Kind, u32)>,
    pub deepest: u32,
    pub deepest_expression: u32,
    /// Partner, operation and count of the receives and arms so far.
    pub asked: Vec<(u32, u32, usize)>,
}

/// The bytes of one number.
pub fn spell(value: u32) -> Vec<u8> {
    let mut bytes = Vec::new();
    let mut rest = value;
    while rest > 0x7F {
        bytes.push(rest as u8 | 0x80);
        rest >>= 7;
    }
    bytes.push(rest as u8);
    bytes
}

impl Sheet {
    pub fn put(&mut self, kind: Kind, value: u32) {
        self.numbers.push((self.bytes.len(), kind, value));
        self.bytes.extend(spell(value));
    }

    /// Begins an activity or arm at the current place. Answers its number.
    pub fn begin(&mut self) -> usize {
        let start = self.bytes.len();
        self.parts.push((start, start));
        self.parts.len() - 1
    }

    pub fn end(&mut self, k: usize) {
        self.parts[k].1 = self.bytes.len();
    }

    /// Version, count of variables and correlation list.
    pub fn header(&mut self, variables: u32, correlation: &[u32]) {
        self.put(Kind::Version, 1);
        self.put(Kind::Variables, variables);
        self.put(Kind::Correlations, correlation.len() as u32);
        for &variable in correlation {
            self.put(Kind::Correlation, variable);
        }
    }

    /// The count that a receive or an arm of this pair must have, where there is one already.
    pub fn count_of(&self, partner: u32, operation: u32) -> Option<usize> {
        let same = |asked: &&(u32, u32, usize)| (asked.0, asked.1) == (partner, operation);
        self.asked.iter().find(same).map(|asked| asked.2)
    }

    /// Code, partner, operation, count and variables; or an arm's, without the code.
    pub fn message(&mut self, code: Option<u32>, partner: u32, operation: u32, variables: &[u32]) {
        if code != Some(1) {
            self.asked.push((partner, operation, variables.len()));
        }
        if let Some(code) = code {
            self.put(Kind::Code, code);
        }
        self.put(Kind::Partner, partner);
        self.tuple(operation, variables);
    }

    /// A send to the partner that a variable holds: also the partner to reply to, behind the variables.
    pub fn held_send(&mut self, variable: u32, operation: u32, variables: &[u32], reply: u32) {
        self.put(Kind::Code, 17);
        self.put(Kind::Variable, variable);
        self.tuple(operation, variables);
        self.put(Kind::Partner, reply);
    }

    /// A receive, and behind its variables the one that stores whom to reply to.
    pub fn asking_receive(
        &mut self,
        partner: u32,
        operation: u32,
        variables: &[u32],
        variable: u32,
    ) {
        self.message(Some(18), partner, operation, variables);
        self.put(Kind::Variable, variable);
    }

    fn tuple(&mut self, operation: u32, variables: &[u32]) {
        self.put(Kind::Operation, operation);
        self.put(Kind::TupleCount, variables.len() as u32);
        for &variable in variables {
            self.put(Kind::Variable, variable);
        }
    }
}

/// How a random plan is to look.
#[derive(Clone, Copy)]
struct Shape {
    /// Activities and arms in body and fault part together; at least 2.
    count: usize,
    max_depth: u32,
    max_expression: u32,
    /// Give nearly all to one child, to get deep.
    deep: bool,
    /// Break a rule now and then.
    loose: bool,
}

struct Writer<'a> {
    random: &'a mut Random,
    sheet: Sheet,
    shape: Shape,
    variables: u32,
    /// Variables that a set may name.
    free: Vec<u32>,
}

/// The most activities that fit below and with one, given the levels left for it.
fn room(levels: u32) -> usize {
    match levels {
        0 | 1 => 1,
        2 => 33,
        _ => 1000,
    }
}

impl Writer<'_> {
    fn header(&mut self, need_free: bool) {
        let variables = match self.random.below(4) {
            0 => 1,
            1 => 16,
            _ => self.random.from_to(2, 15) as u32,
        };
        let chance = [0, 10, 40, 100][self.random.below(4)];
        let mut correlation = Vec::new();
        for variable in 0..variables {
            if self.random.percent(chance) {
                correlation.push(variable);
            }
        }
        if need_free && correlation.len() == variables as usize {
            correlation.pop();
        }
        self.variables = variables;
        self.free = (0..variables)
            .filter(|variable| !correlation.contains(variable))
            .collect();
        self.sheet.header(variables, &correlation);
    }

    /// A chance in 60 to break a rule, in a loose plan.
    fn slip(&mut self) -> bool {
        self.shape.loose && self.random.below(60) == 0
    }

    /// A chance in 6 to let receives disagree, in a loose plan.
    fn careless(&mut self) -> bool {
        self.shape.loose && self.random.below(6) == 0
    }

    fn variable(&mut self) -> u32 {
        self.random.below(self.variables as usize) as u32
    }

    /// The number of a raise.
    fn fault_number(&mut self) -> u32 {
        if self.slip() {
            return [0, 5, 6, 15, 256, 257][self.random.below(6)];
        }
        match self.random.below(8) {
            0 => 16,
            1 => 255,
            _ => self.random.from_to(16, 255) as u32,
        }
    }

    /// The number of a fault part, which is none of those before it.
    fn part_number(&mut self, before: &[u32]) -> u32 {
        loop {
            let number = match self.random.below(2) {
                0 => self.random.below(6) as u32,
                _ => self.fault_number(),
            };
            if !before.contains(&number) || self.slip() {
                return number;
            }
        }
    }

    /// Random counts, each from `low` to `high`, that add up to `total`.
    fn split(&mut self, total: usize, into: usize, low: usize, high: usize) -> Vec<usize> {
        let mut shares = vec![low; into];
        let mut rest = total - low * into;
        if self.shape.deep {
            let most = self.random.below(into);
            let extra = rest.min(high - low);
            shares[most] += extra;
            rest -= extra;
        }
        while rest > 0 {
            let at = self.random.below(into);
            let extra = (1 + self.random.below(1 + rest / 2))
                .min(rest)
                .min(high - shares[at]);
            shares[at] += extra;
            rest -= extra;
        }
        shares
    }

    fn expression(&mut self, depth: u32) {
        self.sheet.deepest_expression = self.sheet.deepest_expression.max(depth);
        // Long plans get short expressions, to keep within the bytes.
        let last = depth >= self.shape.max_expression || self.sheet.bytes.len() > 2800;
        if last || self.random.percent(if depth > 3 { 55 } else { 25 }) {
            if self.random.percent(50) {
                let value = self.random.value();
                self.sheet.put(Kind::Form, 0);
                self.sheet.put(Kind::Constant, value);
            } else {
                let variable = self.variable();
                self.sheet.put(Kind::Form, 1);
                self.sheet.put(Kind::Variable, variable);
            }
        } else {
            let form = self.random.from_to(2, 5) as u32;
            self.sheet.put(Kind::Form, form);
            self.expression(depth + 1);
            self.expression(depth + 1);
        }
    }

    /// An expression of exactly `size` bytes, at least 2, with at most `levels` levels.
    fn sized_expression(&mut self, size: usize, levels: u32) {
        let most = |levels: u32| 7 * (1usize << (levels - 1)) - 1;
        let depth = 9 - levels;
        self.sheet.deepest_expression = self.sheet.deepest_expression.max(depth);
        if size < 5 || levels == 1 || (size <= 6 && self.random.percent(50)) {
            if size == 2 && self.random.percent(50) {
                let variable = self.variable();
                self.sheet.put(Kind::Form, 1);
                self.sheet.put(Kind::Variable, variable);
            } else {
                // A constant of size - 1 groups.
                let groups = size as u32 - 1;
                let low = if groups == 1 {
                    0
                } else {
                    1u64 << (7 * (groups - 1))
                };
                let high = (1u64 << (7 * groups)).min(1 << 32);
                let value = low + self.random.word() % (high - low);
                self.sheet.put(Kind::Form, 0);
                self.sheet.put(Kind::Constant, value as u32);
            }
        } else {
            let form = self.random.from_to(2, 5) as u32;
            self.sheet.put(Kind::Form, form);
            let shares = self.split(size - 1, 2, 2, most(levels - 1));
            self.sized_expression(shares[0], levels - 1);
            self.sized_expression(shares[1], levels - 1);
        }
    }

    /// Partner, operation and tuple, after the code if there is one.
    fn message(&mut self, code: Option<u32>, distinct: bool) {
        let (partner, operation, variables) = self.exchange(distinct);
        self.sheet.message(code, partner, operation, &variables);
    }

    /// A receive; one in three stores whom to reply to, where a variable may.
    fn receive(&mut self) {
        let (partner, operation, variables) = self.exchange(true);
        let mut may = self.free.clone();
        may.retain(|variable| !variables.contains(variable));
        if self.slip() {
            may = vec![self.variable()];
        }
        if may.is_empty() || self.random.below(3) > 0 {
            return self.sheet.message(Some(2), partner, operation, &variables);
        }
        let variable = may[self.random.below(may.len())];
        self.sheet
            .asking_receive(partner, operation, &variables, variable);
    }

    fn held_send(&mut self) {
        let (_, operation, variables) = self.exchange(false);
        let variable = self.variable();
        let reply = match self.slip() {
            true => [64, 65, 127, 128][self.random.below(4)],
            false => self.random.below(64) as u32,
        };
        self.sheet.held_send(variable, operation, &variables, reply);
    }

    /// A partner, an operation and the variables of a tuple.
    fn exchange(&mut self, distinct: bool) -> (u32, u32, Vec<u32>) {
        let mut partner = self.random.below(64) as u32;
        let mut operation = self.random.below(64) as u32;
        // Now and then a pair, or a partner, that was there before.
        if !self.sheet.asked.is_empty() && self.random.percent(30) {
            let before = self.sheet.asked[self.random.below(self.sheet.asked.len())];
            partner = before.0;
            if self.random.percent(70) {
                operation = before.1;
            }
        }
        let mut variables: Vec<u32> = Vec::new();
        // A loose receive that names a variable twice may have more places than there are variables.
        let agreed = self.sheet.count_of(partner, operation);
        let able = distinct && agreed.is_some_and(|count| count <= self.variables as usize);
        if let Some(count) = agreed.filter(|_| able && !self.careless()) {
            while variables.len() < count {
                let variable = self.variable();
                if !variables.contains(&variable) {
                    variables.push(variable);
                }
            }
            return (partner, operation, variables);
        }
        let count = self.random.from_to(1, 4);
        for _ in 0..count {
            let variable = self.variable();
            if !distinct || !variables.contains(&variable) || self.slip() {
                variables.push(variable);
            }
        }
        (partner, operation, variables)
    }

    /// An activity that holds exactly `count` activities and arms, itself among them.
    fn activity(&mut self, count: usize, depth: u32, handler: bool, start: bool) {
        let start = start && !self.slip();
        let k = self.sheet.begin();
        self.sheet.deepest = self.sheet.deepest.max(depth);
        if count == 1 {
            self.leaf(start);
        } else {
            self.holder(count, depth, handler, start);
        }
        self.sheet.end(k);
    }

    fn leaf(&mut self, start: bool) {
        if start {
            return self.receive();
        }
        let code = self.random.below(8) as u32;
        match code {
            1 => self.message(Some(1), false),
            2 => self.receive(),
            7 => self.held_send(),
            3 if !self.free.is_empty() => {
                let free = self.free[self.random.below(self.free.len())];
                let variable = if self.slip() { self.variable() } else { free };
                self.sheet.put(Kind::Code, 3);
                self.sheet.put(Kind::Variable, variable);
                self.expression(1);
            }
            3 => self.sheet.put(Kind::Code, 0),
            6 => {
                let number = self.fault_number();
                self.sheet.put(Kind::Code, 13);
                self.sheet.put(Kind::FaultNumber, number);
            }
            _ => self.sheet.put(Kind::Code, code),
        }
    }

    fn holder(&mut self, count: usize, depth: u32, handler: bool, start: bool) {
        let inside = count - 1;
        let high = room(self.shape.max_depth - depth);
        loop {
            let code = [6, 7, 8, 9, 10, 11, 12, 14][self.random.below(8)];
            match code {
                6 if !start && inside >= 2 && inside <= 2 * high => {
                    let shares = self.split(inside, 2, 1, high);
                    self.sheet.put(Kind::Code, 6);
                    self.expression(1);
                    self.activity(shares[0], depth + 1, handler, false);
                    self.activity(shares[1], depth + 1, handler, false);
                }
                7 if !start && inside <= high => {
                    self.sheet.put(Kind::Code, 7);
                    self.expression(1);
                    self.activity(inside, depth + 1, handler, false);
                }
                8 | 9 => {
                    let least = inside.div_ceil(high);
                    let most = inside.min(if self.shape.deep { 3.max(least) } else { 32 });
                    let into = self.random.from_to(least, most);
                    let shares = self.split(inside, into, 1, high);
                    self.sheet.put(Kind::Code, code);
                    self.sheet.put(Kind::ListCount, into as u32);
                    for (at, share) in shares.into_iter().enumerate() {
                        let start = start && (code == 9 || at == 0);
                        self.activity(share, depth + 1, handler, start);
                    }
                }
                10 if inside >= 2 && inside <= 8 * (high + 1) => {
                    let least = inside.div_ceil(high + 1);
                    let most = (inside / 2).min(8);
                    if least > most {
                        continue;
                    }
                    let into = self.random.from_to(least, most);
                    let shares = self.split(inside - into, into, 1, high);
                    self.sheet.put(Kind::Code, 10);
                    self.sheet.put(Kind::ListCount, into as u32);
                    for share in shares {
                        let k = self.sheet.begin();
                        self.message(None, true);
                        self.activity(share, depth + 1, handler, false);
                        self.sheet.end(k);
                    }
                }
                11 if inside >= 3 && inside <= 3 * high && (!handler || self.slip()) => {
                    let shares = self.split(inside, 3, 1, high);
                    self.sheet.put(Kind::Code, 11);
                    self.activity(shares[0], depth + 1, false, start);
                    self.activity(shares[1], depth + 1, true, false);
                    self.activity(shares[2], depth + 1, true, false);
                }
                14 if inside >= 4 && inside <= 11 * high && (!handler || self.slip()) => {
                    let least = inside.div_ceil(high).saturating_sub(3).max(1);
                    let count = self.random.from_to(least, (inside - 3).min(8));
                    let shares = self.split(inside, count + 3, 1, high);
                    self.sheet.put(Kind::Code, 14);
                    self.activity(shares[0], depth + 1, false, start);
                    let told = if self.slip() {
                        9 * (count as u32 & 1)
                    } else {
                        count as u32
                    };
                    self.sheet.put(Kind::ListCount, told);
                    let mut numbers = Vec::new();
                    for &share in &shares[1..=count] {
                        let number = self.part_number(&numbers);
                        numbers.push(number);
                        self.sheet.put(Kind::FaultNumber, number);
                        self.activity(share, depth + 1, true, false);
                    }
                    self.activity(shares[count + 1], depth + 1, true, false);
                    self.activity(shares[count + 2], depth + 1, true, false);
                }
                12 if inside >= 2 && inside <= 2 * high && (!handler || self.slip()) => {
                    let shares = self.split(inside, 2, 1, high);
                    self.sheet.put(Kind::Code, 12);
                    self.activity(shares[0], depth + 1, false, start);
                    self.activity(shares[1], depth + 1, true, false);
                }
                _ => continue,
            }
            return;
        }
    }
}

fn write(random: &mut Random, shape: Shape) -> Sheet {
    let fault = match random.below(4) {
        0 => random.from_to(1, shape.count - 1),
        _ => 1,
    };
    let body = shape.count - fault;
    let mut writer = Writer {
        random,
        sheet: Sheet::default(),
        shape,
        variables: 0,
        free: Vec::new(),
    };
    writer.header(false);
    writer.activity(body, 1, false, true);
    writer.activity(fault, 1, true, false);
    writer.sheet
}

fn shape(random: &mut Random, large: bool) -> Shape {
    let count = match random.below(100) {
        0..=71 => random.from_to(2, 12),
        72..=94 => random.from_to(10, 50),
        95 | 96 => random.from_to(50, 200),
        97 if large => random.from_to(250, 256),
        _ => random.from_to(12, 40),
    };
    Shape {
        count,
        max_depth: 16,
        max_expression: random.from_to(1, 8) as u32,
        deep: random.percent(25),
        loose: false,
    }
}

/// A legal plan. Most are small, some near the limits.
pub fn legal(random: &mut Random) -> Sheet {
    if random.below(100) == 0 {
        let length = match random.below(8) {
            0 => 4096,
            _ => random.from_to(4000, 4096),
        };
        return legal_of_length(random, length);
    }
    loop {
        let shape = shape(random, true);
        let sheet = write(random, shape);
        if sheet.bytes.len() <= 4096 {
            return sheet;
        }
    }
}

/// A plan of exactly `length` bytes (50 to 5000), legal but for a length above 4,096.
pub fn legal_of_length(random: &mut Random, length: usize) -> Sheet {
    let shape = Shape {
        count: 0,
        max_depth: 16,
        max_expression: 8,
        deep: false,
        loose: false,
    };
    let mut writer = Writer {
        random,
        sheet: Sheet::default(),
        shape,
        variables: 0,
        free: Vec::new(),
    };
    writer.header(true);
    let body = writer.sheet.begin();
    let rest = length - writer.sheet.bytes.len() - 12;
    let least = rest.div_ceil(897).max(1);
    let most = (rest / 5).clamp(least, 31);
    let sets = writer.random.from_to(least, most);
    writer.sheet.put(Kind::Code, 8);
    writer.sheet.put(Kind::ListCount, sets as u32 + 1);
    let receive = writer.sheet.begin();
    writer.message(Some(2), true);
    writer.sheet.end(receive);
    let rest = length - writer.sheet.bytes.len() - 1;
    for share in writer.split(rest, sets, 4, 897) {
        let k = writer.sheet.begin();
        let variable = writer.free[writer.random.below(writer.free.len())];
        writer.sheet.put(Kind::Code, 3);
        writer.sheet.put(Kind::Variable, variable);
        writer.sized_expression(share - 2, 8);
        writer.sheet.end(k);
    }
    writer.sheet.end(body);
    let fault = writer.sheet.begin();
    writer.sheet.put(Kind::Code, 0);
    writer.sheet.end(fault);
    writer.sheet.deepest = 2;
    writer.sheet
}

/// A plan that keeps most rules: it may be too deep, too many, too long, or break one.
pub fn loose(random: &mut Random) -> Vec<u8> {
    let mut shape = shape(random, false);
    shape.loose = true;
    match random.below(12) {
        0 => shape.max_depth = 18,
        1 => shape.max_expression = 10,
        2 if random.percent(20) => shape.count = random.from_to(255, 262),
        3 if random.percent(10) => {
            let length = random.from_to(4090, 4102);
            return legal_of_length(random, length).bytes;
        }
        _ => {}
    }
    if shape.max_depth > 16 {
        shape.deep = true;
        shape.count = random.from_to(20, 60);
    }
    let mut sheet = write(random, shape);
    if random.percent(10) {
        sheet.bytes.push(random.byte() & 0x0F);
    }
    sheet.bytes
}

/// Numbers worth trying anywhere: both sides of each limit.
pub const TELLING: [u32; 40] = [
    0, 1, 2, 3, 4, 5, 6, 7, 8, 9, 10, 11, 12, 13, 14, 15, 16, 17, 18, 31, 32, 33, 34, 62, 63, 64,
    65, 126, 127, 128, 129, 255, 256, 257, 16383, 16384, 2097151, 268435455, 268435456, 4294967295,
];

/// Spellings that are no number, whatever follows.
pub const MISSPELT: [&[u8]; 14] = [
    &[0x80, 0x00],
    &[0x81, 0x00],
    &[0xFF, 0x00],
    &[0x80, 0x80, 0x00],
    &[0x81, 0x80, 0x80, 0x00],
    &[0x80, 0x80, 0x80, 0x80, 0x00],
    &[0xFF, 0xFF, 0xFF, 0xFF, 0x00],
    &[0xFF, 0xFF, 0xFF, 0xFF, 0x10],
    &[0x80, 0x80, 0x80, 0x80, 0x1F],
    &[0xFF, 0xFF, 0xFF, 0xFF, 0x7F],
    &[0x80, 0x80, 0x80, 0x80, 0x80],
    &[0x81, 0x80, 0x80, 0x80, 0x8F],
    &[0x80, 0x80, 0x80, 0x80, 0x80, 0x00],
    &[0xFF, 0xFF, 0xFF, 0xFF, 0xFF, 0xFF, 0xFF],
];

/// A legal plan with one to three things done to it.
pub fn damaged(random: &mut Random) -> Vec<u8> {
    let sheet = legal(random);
    let mut bytes = sheet.bytes;
    // A number of the plan made another.
    if random.percent(45) {
        let (place, _, value) = sheet.numbers[random.below(sheet.numbers.len())];
        let old = spell(value).len();
        let telling = if random.percent(60) {
            20
        } else {
            TELLING.len()
        };
        let new = match random.below(10) {
            0 => random.value(),
            1 => value.wrapping_add(1),
            2 => value.wrapping_sub(1),
            _ => TELLING[random.below(telling)],
        };
        bytes.splice(place..place + old, spell(new));
        if random.percent(70) {
            return bytes;
        }
    }
    let times = [1, 1, 1, 2, 3][random.below(5)];
    for _ in 0..times {
        if bytes.is_empty() {
            break;
        }
        let at = random.below(bytes.len());
        match random.below(11) {
            0 => bytes[at] = random.byte(),
            1 => bytes[at] = bytes[at].wrapping_add(1),
            2 => bytes[at] = random.below(20) as u8,
            3 => bytes.truncate(at),
            4 => bytes.insert(at, random.below(20) as u8),
            5 => bytes.insert(at, random.byte()),
            6 => {
                bytes.remove(at);
            }
            // A number padded with one to five zero groups.
            7 => {
                if bytes[at] < 0x80 {
                    bytes[at] |= 0x80;
                    let groups = random.from_to(1, 5);
                    for _ in 1..groups {
                        bytes.insert(at + 1, 0x80);
                    }
                    bytes.insert(at + groups, 0x00);
                }
            }
            8 => {
                let other = legal(random).bytes;
                bytes.extend(other);
            }
            9 => {
                let wrong = MISSPELT[random.below(MISSPELT.len())];
                bytes.splice(at..at + 1, wrong.iter().copied());
                if random.percent(30) {
                    bytes.truncate(at + wrong.len());
                }
            }
            _ => {
                let more = random.from_to(1, 3);
                for _ in 0..more {
                    bytes.push(random.byte());
                }
            }
        }
    }
    bytes
}

/// Wild bytes, with or without a good header before them.
pub fn wild(random: &mut Random) -> Vec<u8> {
    let mut bytes = Vec::new();
    let manner = random.below(5);
    if manner > 0 {
        let mut sheet = Sheet::default();
        let variables = random.from_to(1, 16) as u32;
        sheet.header(variables, &[]);
        bytes = sheet.bytes;
    }
    let length = match random.below(50) {
        0 => random.from_to(4000, 4200),
        1..=9 => random.from_to(60, 300),
        _ => random.below(60),
    };
    let start = bytes.len();
    while bytes.len() < start + length {
        match manner {
            0 | 1 => bytes.push(random.byte()),
            2 => bytes.push(random.below(4) as u8),
            3 => bytes.push(random.below(19) as u8),
            _ => bytes.extend(spell(TELLING[random.below(19)])),
        }
    }
    bytes
}

/// One plan of the mix: 40 in 100 legal, 30 damaged, 20 loose, 10 wild.
pub fn mixed(random: &mut Random) -> Vec<u8> {
    match random.below(100) {
        0..=39 => legal(random).bytes,
        40..=69 => damaged(random),
        70..=89 => loose(random),
        _ => wild(random),
    }
}
