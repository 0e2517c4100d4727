//! Compares plans as text with the desk and with the library: expressions in all their spellings; every plan drawn and written back, by numbers, by names, laid
//! out and spelled otherwise; and damaged texts, each of which is answered as the model of the text answers it.

#![forbid(unsafe_code)]

use model::generate::{self, Random};
use model::process::Process;
use model::text::{self, Exp, Wrong};
use model::{edges, full, reader, vectors};
use std::io::{Read, Write};
use std::process::{Command, Stdio, exit};
use std::time::Instant;

const SEED: u64 = 1;
const COUNT: u64 = 5_000;
/// Damaged texts for each random plan.
const DAMAGED: usize = 6;
/// What fills a buffer before the library writes into it.
const FILL: u8 = 0xA5;

/// What the desk answers to a script, by lines.
fn asked(script: Vec<u8>) -> Vec<String> {
    let command = std::env::var("MOONHALYARD_DESK").expect("MOONHALYARD_DESK: the desk's command");
    let mut words = command.split_whitespace();
    let mut child = Command::new(words.next().expect("a command"))
        .args(words)
        .stdin(Stdio::piped())
        .stdout(Stdio::piped())
        .spawn()
        .expect("the desk starts");
    let mut ask = child.stdin.take().expect("a pipe");
    let writing = std::thread::spawn(move || ask.write_all(&script).expect("the desk listens"));
    let mut told = Vec::new();
    let mut from = child.stdout.take().expect("a pipe");
    from.read_to_end(&mut told).expect("the desk answers");
    writing.join().expect("all was asked");
    assert!(child.wait().expect("the desk ends").success());
    let told = String::from_utf8(told).expect("the desk answers in ASCII");
    told.lines().map(String::from).collect()
}

/// The library, which answers as `texting.c` does.
struct Library {
    process: Process,
    asked: usize,
}

impl Library {
    fn start() -> Library {
        let command =
            std::env::var("MOONHALYARD_ANSWERS").expect("MOONHALYARD_ANSWERS: the library");
        Library {
            process: Process::start(&command),
            asked: 0,
        }
    }

    /// What `moonhalyard_text` gives: the answer, and the buffer afterwards.
    fn call(&mut self, text: &[u8], room: usize) -> (u64, Vec<u8>) {
        let mut message = (text.len() as u32).to_le_bytes().to_vec();
        message.extend(text);
        message.extend((room as u32).to_le_bytes());
        message.extend(u32::from(FILL).to_le_bytes());
        self.process.say(&message).expect("the library listens");
        let (mut answer, mut buffer) = ([0; 8], vec![0; room]);
        self.process
            .hear(&mut answer)
            .and_then(|()| self.process.hear(&mut buffer))
            .expect("the library answers: it ended, or its stack did");
        (u64::from_le_bytes(answer), buffer)
    }

    /// A text gets the bytes, the refusal with its line, or the wrong line that the model has for it; and the buffer is left as it was, but for the plan.
    fn hold(&mut self, text: &str, read: &Result<Vec<u8>, Wrong>, room: usize) {
        let (answer, buffer) = self.call(text.as_bytes(), room);
        let mut left = vec![FILL; room];
        let good = match read {
            Ok(bytes) if bytes.len() > room => answer >> 32 == 18,
            Ok(bytes) => {
                left[..bytes.len()].copy_from_slice(bytes);
                answer == bytes.len() as u64
            }
            Err(Wrong::Refused(number, line)) => answer == u64::from(*number) << 32 | *line as u64,
            // the reason may be any of the 30
            Err(Wrong::Line(line)) => {
                (33..=62).contains(&(answer >> 32)) && answer as u32 as usize == *line
            }
        };
        if !good || buffer != left {
            println!("the library answers {answer:#x}, and the model has {read:?}, for\n{text}");
            exit(1);
        }
        self.asked += 1;
    }
}

/// A script, with the answers that it must get, and the texts in it.
#[derive(Default)]
struct Script {
    asked: Vec<u8>,
    lines: usize,
    wanted: Vec<(String, String)>,
    texts: Vec<(String, Result<Vec<u8>, Wrong>)>,
}

impl Script {
    fn ask(&mut self, text: &str) {
        self.asked.extend(text.as_bytes());
        self.lines += text.bytes().filter(|b| *b == b'\n').count();
    }

    /// What the desk must answer, and what for.
    fn want(&mut self, answer: &str, why: &str) {
        for line in answer.lines() {
            self.wanted.push((line.to_string(), why.to_string()));
        }
    }

    /// A text is written; the answer of the model is wanted.
    fn write(&mut self, text: &str) -> Result<Vec<u8>, Wrong> {
        let line = self.lines + 1;
        self.ask("write\n");
        self.ask(text);
        self.ask("\n");
        let read = text::read(text.as_bytes());
        match &read {
            Ok(bytes) => self.want(&format!("write 0 {}", hexadecimal(bytes)), text),
            // the words behind the line may be any
            Err(Wrong::Refused(21, at)) => {
                self.want(&format!("write 21 {} - takes ..", line + at), text)
            }
            Err(Wrong::Refused(number, at)) => {
                self.want(&format!("write {number} {}", line + at), text)
            }
            // the reason may be any
            Err(Wrong::Line(at)) => self.want(&format!("error {} ..", line + at), text),
        }
        self.texts.push((text.to_string(), read.clone()));
        read
    }

    fn hold(self, what: &str, library: &mut Library, random: &mut Random) {
        for (text, read) in &self.texts {
            let room = if random.percent(5) {
                random.below(64)
            } else {
                4096
            };
            library.hold(text, read, room);
        }
        let answers = asked(self.asked);
        for (at, (wanted, why)) in self.wanted.iter().enumerate() {
            let got = answers.get(at).map_or("no answer", String::as_str);
            let same = match wanted.strip_suffix("..") {
                Some(front) => got.starts_with(front) && got.len() > front.len(),
                None => got == wanted,
            };
            if !same {
                println!(
                    "{what}: the desk answers otherwise\n  wanted   {wanted}\n  answered {got}\n{why}"
                );
                exit(1);
            }
        }
        if answers.len() > self.wanted.len() {
            println!("{what}: more answers: {}", answers[self.wanted.len()]);
            exit(1);
        }
    }
}

fn hexadecimal(bytes: &[u8]) -> String {
    bytes.iter().map(|b| format!("{b:02x}")).collect()
}

/// What the desk draws of each plan.
fn drawn(plans: &[Vec<u8>]) -> Vec<String> {
    let mut script = Vec::new();
    for plan in plans {
        script.extend(format!("plan {}\ndraw\n", hexadecimal(plan)).as_bytes());
    }
    let answers = asked(script);
    let mut lines = answers.iter();
    let mut texts = Vec::new();
    for plan in plans {
        let first = lines.next().expect("an answer");
        assert!(
            first.starts_with("plan 0 "),
            "{first}: {}",
            hexadecimal(plan)
        );
        let mut text = String::new();
        for line in lines.by_ref().take_while(|line| !line.is_empty()) {
            text += line;
            text += "\n";
        }
        texts.push(text);
    }
    texts
}

/// A word for a number, which no other number has; at times a word of the drawing itself.
fn name(random: &mut Random, number: usize) -> String {
    const OWN: [&str; 15] = [
        "with",
        "reply",
        "to",
        "into",
        "in",
        "the",
        "partner",
        "operation",
        "send",
        "receive",
        "from",
        "arm",
        "root",
        "set",
        "raise",
    ];
    if number < OWN.len() && random.percent(20) {
        return OWN[number].to_string();
    }
    const WORDS: [&str; 12] = [
        "stepping",
        "to",
        "partner",
        "v",
        "send",
        "root",
        "correlation",
        "x_1",
        "_",
        "operation",
        "V0",
        "a_name_of_thirty_two_characters",
    ];
    let mut name = WORDS[random.below(WORDS.len())].to_string();
    let end = format!("_{number}");
    name.truncate(32 - end.len());
    name + &end
}

/// Names for variables, partners, operations, scopes and faults; an empty one is none.
struct Named {
    variables: Vec<String>,
    partners: Vec<String>,
    operations: Vec<String>,
    scopes: Vec<String>,
    /// By their numbers; those below 16 have none.
    faults: Vec<String>,
}

fn named(random: &mut Random) -> Named {
    let mut some = |many: usize, chance: usize| {
        let one = |k: usize, random: &mut Random| match random.percent(chance) {
            true => name(random, k),
            false => String::new(),
        };
        (0..many).map(|k| one(k, random)).collect::<Vec<String>>()
    };
    let mut named = Named {
        variables: some(16, 80),
        partners: some(64, 60),
        operations: some(64, 60),
        scopes: some(128, 60),
        faults: some(256, 60),
    };
    named.faults[..16].fill(String::new());
    named
}

/// A drawing by these names.
fn by_names(text: &str, named: &Named) -> String {
    let declared = |what: &str, names: &[String]| {
        let lines = names
            .iter()
            .enumerate()
            .filter(|(_, name)| !name.is_empty());
        let lines = lines.map(|(k, name)| format!("{what} {k} {name}\n"));
        lines.collect::<String>()
    };
    let others = declared("partner", &named.partners)
        + &declared("operation", &named.operations)
        + &declared("fault", &named.faults);
    let mut out = String::new();
    let mut others = Some(others);
    let mut scopes = named.scopes.iter();
    for line in text.lines() {
        if !line.starts_with("variable ") {
            out += &others.take().unwrap_or_default();
        }
        let mut before = "";
        let mut rest = line;
        while !rest.is_empty() {
            let inner = |c: char| c.is_ascii_alphanumeric() || c == '_';
            let end = match rest.starts_with(inner) {
                true => rest.find(|c| !inner(c)),
                false => rest.find(inner),
            };
            let (word, behind) = rest.split_at(end.unwrap_or(rest.len()));
            let list = match (before, word.strip_prefix('v')) {
                ("partner", _) => Some((&named.partners, word)),
                ("operation", _) => Some((&named.operations, word)),
                ("raise" | "part", _) => Some((&named.faults, word)),
                (_, Some(number)) => Some((&named.variables, number)),
                _ => None,
            };
            let number =
                list.and_then(|(list, number)| Some((list, number.parse::<usize>().ok()?)));
            match number {
                Some((list, k)) if !list[k].is_empty() => out += &list[k],
                _ => out += word,
            }
            if !word.trim().is_empty() {
                before = word;
            }
            rest = behind;
        }
        if before == "scope" {
            let name = scopes.next().map_or("", String::as_str);
            if !name.is_empty() {
                out += &format!(" {name}");
            }
        }
        out += "\n";
    }
    out
}

/// The same drawing laid out otherwise: no numbers, or others; another step; comments; blanks where they may stand.
fn otherwise(random: &mut Random, text: &str) -> String {
    let step = 2 * random.from_to(1, 3);
    let numbers = random.percent(30);
    let mut out = String::new();
    for line in text.lines() {
        if random.percent(10) {
            out += &format!("{}# a comment: raise (v0\n", " ".repeat(random.below(9)));
        }
        let drawn = line.trim_start().starts_with(|c: char| c.is_ascii_digit());
        let mut words = line.to_string();
        if drawn {
            let behind = &line[5..];
            let depth = (behind.len() - behind.trim_start().len()) / 2;
            words = " ".repeat(depth * step) + behind.trim_start();
            if numbers {
                words = format!("{:>7} {words}", random.below(10_000_000));
            }
        }
        // blanks at marks and at the end
        const PAIRS: [(&str, &str); 3] = [("<=", "\x01"), (">=", "\x02"), ("!=", "\x03")];
        for (pair, one) in PAIRS {
            words = words.replace(pair, one);
        }
        for mark in [
            ",", ":", "(", ")", "+", "-", "=", "<", ">", "\x01", "\x02", "\x03",
        ] {
            if random.percent(20) {
                words = words.replace(mark, &format!(" {mark}  "));
            }
        }
        for (pair, one) in PAIRS {
            words = words.replace(one, pair);
        }
        if random.percent(20) {
            words += "   # and why";
        }
        out += &words;
        out += "\n";
    }
    out
}

/// How strongly an operation binds.
const OR: u32 = 1;
const AND: u32 = 2;
const NOT: u32 = 3;
const COMPARED: u32 = 4;
const SUM: u32 = 5;
const OPERAND: u32 = 6;

/// A comparison by itself, or what it says of a value: that it is above 0.
fn weighed(random: &mut Random, e: &Exp) -> Option<Exp> {
    match e {
        Exp::Two(5, zero, value) if **zero == Exp::Constant(0) && random.percent(50) => {
            match **value {
                Exp::Two(4 | 5, ..) => Some(e.clone()),
                _ => Some((**value).clone()),
            }
        }
        Exp::Two(4 | 5, ..) => Some(e.clone()),
        _ => None,
    }
}

/// An expression in one of its spellings, within what binds as strongly as this.
fn spelled(random: &mut Random, e: &Exp, least: u32) -> String {
    let (binds, text) = match e {
        Exp::Constant(value) => (OPERAND, value.to_string()),
        Exp::Variable(number) => (OPERAND, format!("v{number}")),
        Exp::Two(code, left, right) => operation(random, *code, left, right),
    };
    match binds < least || random.percent(10) {
        true => format!("({text})"),
        false => text,
    }
}

fn operation(random: &mut Random, code: u32, left: &Exp, right: &Exp) -> (u32, String) {
    let zero = Exp::Constant(0);
    let mut between = |binds: u32, lefts: u32, rights: u32, word: &str, one: &Exp, other: &Exp| {
        let one = spelled(random, one, lefts);
        (
            binds,
            format!("{one} {word} {}", spelled(random, other, rights)),
        )
    };
    match (code, left, right) {
        (2, ..) => between(SUM, SUM, OPERAND, "+", left, right),
        (3, ..) => between(SUM, SUM, OPERAND, "-", left, right),
        (4, Exp::Two(4, one, other), _) if *right == zero && random.percent(70) => {
            operands(random, "!=", one, other)
        }
        (4, Exp::Two(5, one, other), _) if *right == zero && random.percent(60) => {
            match random.percent(50) {
                true => operands(random, ">=", one, other),
                false => operands(random, "<=", other, one),
            }
        }
        (4, ..) if *right == zero && random.percent(50) => {
            (NOT, format!("not {}", spelled(random, left, NOT)))
        }
        (4, ..) => operands(random, "=", left, right),
        (_, Exp::Two(4, one, nothing), _) if **nothing == zero && random.percent(80) => {
            match weighed(random, right) {
                Some(other) => {
                    let one = spelled(random, one, NOT);
                    (AND, format!("{one} and {}", spelled(random, &other, AND)))
                }
                None => less(random, left, right),
            }
        }
        (_, _, Exp::Two(2, one, other)) if *left == zero && random.percent(80) => {
            match (weighed(random, one), weighed(random, other)) {
                (Some(one), Some(other)) => {
                    let one = spelled(random, &one, AND);
                    (OR, format!("{one} or {}", spelled(random, &other, OR)))
                }
                _ => less(random, left, right),
            }
        }
        _ => less(random, left, right),
    }
}

fn operands(random: &mut Random, mark: &str, one: &Exp, other: &Exp) -> (u32, String) {
    let one = spelled(random, one, SUM);
    let other = spelled(random, other, SUM);
    (COMPARED, format!("{one} {mark} {other}"))
}

fn less(random: &mut Random, left: &Exp, right: &Exp) -> (u32, String) {
    match random.percent(50) {
        true => operands(random, "<", left, right),
        false => operands(random, ">", right, left),
    }
}

/// The same drawing with its expressions spelled otherwise.
fn respelled(random: &mut Random, text: &str) -> String {
    let mut out = String::new();
    for line in text.lines() {
        let found = [" to ", "choose by ", "repeat while "]
            .iter()
            .find_map(|word| line.find(word).map(|at| at + word.len()));
        let read = found.and_then(|at| Some((at, text::expression_of(&line[at..])?)));
        match read {
            Some((at, e)) => out += &format!("{}{}\n", &line[..at], spelled(random, &e, OR)),
            None => out += &format!("{line}\n"),
        }
    }
    out
}

/// An expression that people might write, right or not.
fn written(random: &mut Random, depth: usize) -> String {
    if depth == 0 || random.percent(20) {
        const LEAVES: [&str; 8] = ["v0", "v1", "v2", "0", "1", "limit", "4294967295", "7"];
        return LEAVES[random.below(LEAVES.len())].to_string();
    }
    const WORDS: [&str; 10] = ["+", "-", "=", "<", ">", "<=", ">=", "!=", "and", "or"];
    let text = match random.below(7) {
        0 => format!("not {}", written(random, depth - 1)),
        _ => {
            let word = WORDS[random.below(WORDS.len())];
            let word = if random.percent(40) {
                ["and", "or"][random.below(2)]
            } else {
                word
            };
            let one = written(random, depth - 1);
            format!("{one} {word} {}", written(random, depth - 1))
        }
    };
    match random.percent(60) {
        true => format!("({text})"),
        false => text,
    }
}

/// A plan that chooses by an expression.
fn choosing(random: &mut Random) -> String {
    let depth = random.from_to(1, 5);
    let e = written(random, depth);
    format!(
        "variable v0\nvariable v1\nvariable v2\nconstant limit 3\nsequence\n  receive from partner 0, operation 0: v0, v1, v2\n  choose by {e}\n    empty\n    empty\nempty\n"
    )
}

/// The text with one thing wrong, or more; lines with nothing in them are left out, since they would end it.
fn damaged(random: &mut Random, text: &str) -> String {
    let mut lines: Vec<String> = text.lines().map(String::from).collect();
    for _ in 0..random.from_to(1, 2) {
        if lines.is_empty() {
            break;
        }
        let at = random.below(lines.len());
        let place = random.below(lines[at].len() + 1);
        match random.below(17) {
            0 => {
                lines.remove(at);
            }
            1 => {
                let line = lines[at].clone();
                lines.insert(random.below(lines.len() + 1), line);
            }
            2 => {
                let other = random.below(lines.len());
                lines.swap(at, other);
            }
            3 => lines[at].insert_str(0, &" ".repeat(random.from_to(1, 4))),
            4 => {
                let blanks = lines[at].len() - lines[at].trim_start().len();
                lines[at].drain(..random.below(blanks + 1));
            }
            5 => {
                // a block moves
                let by = " ".repeat(random.from_to(1, 4));
                let end = random.from_to(at, lines.len() - 1);
                for line in &mut lines[at..=end] {
                    if random.percent(50) && line.starts_with(&by) {
                        line.drain(..by.len());
                    } else {
                        line.insert_str(0, &by);
                    }
                }
            }
            6 if place < lines[at].len() => {
                lines[at].remove(place);
            }
            7 => {
                let marks = b" \t\r#,:()+-=<>!0123456789vabz_;.\x01~";
                let mark = marks[random.below(marks.len())] as char;
                lines[at].insert(place, mark);
            }
            8 => {
                // the number at the front is left out, and its column with it
                let line = lines[at].trim_start();
                let line = line.trim_start_matches(|c: char| c.is_ascii_digit());
                lines[at] = line.to_string();
            }
            9 | 10 => {
                // a word is replaced by one from another line, doubled or left out
                let mut words: Vec<String> = lines[at].split(' ').map(String::from).collect();
                let k = random.below(words.len());
                let other = random.below(lines.len());
                let from: Vec<&str> = lines[other].split(' ').collect();
                let word = from[random.below(from.len())].to_string();
                match random.below(3) {
                    0 => words[k] = word,
                    1 => words.insert(k, word),
                    _ => {
                        words.remove(k);
                    }
                }
                lines[at] = words.join(" ");
            }
            11 => lines.truncate(at),
            12..=14 => {
                // a number is another, one that the rules look at
                const TOLD: [&str; 14] = [
                    "0",
                    "1",
                    "2",
                    "15",
                    "16",
                    "17",
                    "63",
                    "64",
                    "255",
                    "256",
                    "007",
                    "4294967295",
                    "4294967296",
                    "99999999999",
                ];
                let digit = |c: char| c.is_ascii_digit();
                if let Some(from) = lines[at][place..].find(digit) {
                    let from = place + from;
                    let end = lines[at][from..].find(|c| !digit(c));
                    let end = end.map_or(lines[at].len(), |end| from + end);
                    lines[at].replace_range(from..end, TOLD[random.below(TOLD.len())]);
                }
            }
            15 => {
                // a variable or a word is added to the end
                const MORE: [&str; 20] = [
                    " with reply to partner 3",
                    " with reply to into v1",
                    " with reply to v1",
                    " with",
                    " and v0",
                    " or 1",
                    " > 2",
                    " != (v0",
                    " not",
                    " scope_1",
                    ", v0",
                    ", v1, v2, v3",
                    " + 1",
                    " (correlation)",
                    ":",
                    " # raise",
                    " raise",
                    " 17",
                    " part 17: raise",
                    " )",
                ];
                lines[at] += MORE[random.below(MORE.len())];
            }
            _ if at + 1 < lines.len() => {
                let next = lines.remove(at + 1);
                lines[at] += &next;
            }
            _ => {}
        }
        lines.retain(|line| {
            !line
                .trim_matches(|c| c == ' ' || c == '\t' || c == '\r')
                .is_empty()
        });
    }
    // a carriage return at the end of a line belongs to its end
    lines
        .iter()
        .map(|line| line.trim_end_matches('\r').to_string() + "\n")
        .collect()
}

fn main() {
    let number = |k: usize| std::env::args().nth(k).and_then(|word| word.parse().ok());
    let seed = number(1).unwrap_or(SEED);
    let count = number(2).unwrap_or(COUNT);
    let began = Instant::now();
    let mut random = Random::new(seed);
    let mut plans: Vec<Vec<u8>> = vectors::all().into_iter().map(|v| v.bytes).collect();
    plans.extend(edges::all().into_iter().map(|case| case.bytes));
    plans.extend(full::plans().into_iter().map(|(_, bytes)| bytes));
    plans.retain(|bytes| reader::read(bytes).is_ok());
    let given = plans.len();
    plans.extend((0..count).map(|_| generate::legal(&mut random).bytes));

    let mut library = Library::start();

    // expressions as people write them: what is a plan is drawn and written back below
    let mut script = Script::default();
    let (mut read, mut deep, mut wrong) = (Vec::new(), 0, 0);
    for _ in 0..count {
        match script.write(&choosing(&mut random)) {
            Ok(bytes) => read.push(bytes),
            Err(Wrong::Refused(..)) => deep += 1,
            Err(Wrong::Line(_)) => wrong += 1,
        }
    }
    script.hold("expressions", &mut library, &mut random);
    println!(
        "texts: {count} expressions by and, or, not, > and the like, answered as the model answers them: {} are plans, {deep} too deep, {wrong} no expressions",
        read.len()
    );
    plans.append(&mut read);
    let texts = drawn(&plans);

    // drawn, and written back: as it is, by names, and laid out otherwise
    let mut script = Script::default();
    for (plan, text) in plans.iter().zip(&texts) {
        let named = by_names(text, &named(&mut random));
        let one = if random.percent(50) { &named } else { text };
        let other = otherwise(&mut random, one);
        let again = respelled(&mut random, text);
        for text in [text, &named, &again, &other] {
            let read = script.write(text);
            if read.as_ref() != Ok(plan) {
                println!("the model reads another plan, {read:?}, out of\n{text}");
                exit(1);
            }
        }
        // names are drawn as they were declared, and are those of the plan as long as it is the last
        script.ask("draw\n");
        script.want(&by_names(text, &names_of(&other)), text);
        script.want("\n", text);
        script.ask(&format!(
            "plan {}\nnames\nplan -\nnames\n",
            hexadecimal(plan)
        ));
        let count = reader::read(plan).expect("accepted").count();
        script.want(&format!("plan 0 {count}\n"), text);
        script.want(&declarations(&by_names(text, &names_of(&other))), text);
        script.want("\nplan 2 0\nnames 2 0\n", text);
    }
    let written = script.lines;
    script.hold("there and back", &mut library, &mut random);
    println!(
        "texts: {} accepted plans, {given} of them given ones, drawn and written back byte for byte: as drawn, by names, spelled otherwise, laid out otherwise; {written} lines",
        plans.len()
    );

    // damaged
    let mut script = Script::default();
    let (mut accepted, mut refused, mut wrong) = (Vec::new(), 0, 0);
    for text in &texts {
        if text.len() > 20_000 && !random.percent(5) {
            continue;
        }
        let named = by_names(text, &named(&mut random));
        for k in 0..DAMAGED {
            let text = damaged(&mut random, if k % 2 == 0 { text } else { &named });
            match script.write(&text) {
                Ok(bytes) => accepted.push(bytes),
                Err(Wrong::Refused(..)) => refused += 1,
                Err(Wrong::Line(_)) => wrong += 1,
            }
        }
    }
    script.hold("damaged", &mut library, &mut random);
    // what is a plan still is drawn back as a text that says the same
    for (plan, text) in accepted.iter().zip(drawn(&accepted)) {
        assert_eq!(text::read(text.as_bytes()).as_ref(), Ok(plan), "{text}");
    }
    println!(
        "texts: {} damaged texts, answered as the model answers them: {} are plans still, {refused} refused by the writer, {wrong} with a wrong line ({:.1} s)",
        accepted.len() + refused + wrong,
        accepted.len(),
        began.elapsed().as_secs_f64()
    );
    println!(
        "texts: {} of these answered by the library's moonhalyard_text as the model answers them",
        library.asked
    );
}

/// The lines in front of a drawing.
fn declarations(text: &str) -> String {
    let words = ["variable ", "partner ", "operation ", "fault "];
    let lines = text
        .lines()
        .filter(|line| words.iter().any(|word| line.starts_with(word)));
    lines.map(|line| format!("{line}\n")).collect()
}

/// The names that a text declares.
fn names_of(text: &str) -> Named {
    let mut named = Named {
        variables: Vec::new(),
        partners: vec![String::new(); 64],
        operations: vec![String::new(); 64],
        scopes: Vec::new(),
        faults: vec![String::new(); 256],
    };
    for line in text.lines() {
        let bare = line.split('#').next().expect("a line");
        let words: Vec<&str> = bare.split_whitespace().collect();
        match words[..] {
            [.., "scope"] => named.scopes.push(String::new()),
            [.., "scope", name] => named.scopes.push(name.to_string()),
            ["variable", name, ..] => named.variables.push(name.to_string()),
            ["partner", number, name, ..] => {
                named.partners[number.parse::<usize>().expect("a number")] = name.to_string()
            }
            ["operation", number, name, ..] => {
                named.operations[number.parse::<usize>().expect("a number")] = name.to_string()
            }
            ["fault", number, name, ..] if number.parse::<usize>().is_ok() => {
                named.faults[number.parse::<usize>().expect("a number")] = name.to_string()
            }
            _ => {}
        }
    }
    named
}
