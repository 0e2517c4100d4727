//! Compares the model's writer with the proved one: random tables, and plans there and back.

#![forbid(unsafe_code)]

use model::generate::{self, Random};
use model::process::Process;
use model::reader::Refusal;
use model::rows::{self, PLACES};
use model::{edges, vectors};
use std::process::exit;
use std::time::Instant;

const SEED: u64 = 1;
const COUNT: u64 = 100_000;

/// The proved writer, which answers as `writing.c` does.
struct Library {
    process: Process,
}

impl Library {
    fn start(command: &str) -> Library {
        Library {
            process: Process::start(command),
        }
    }

    /// The answer, and the buffer's bytes afterwards.
    fn call(
        &mut self,
        what: u32,
        count: usize,
        given: &[u8],
        room: usize,
        fill: u32,
        wide: usize,
    ) -> (u64, Vec<u8>) {
        let mut message = Vec::new();
        message.extend(what.to_le_bytes());
        message.extend((count as u32).to_le_bytes());
        message.extend(given);
        message.extend((room as u32).to_le_bytes());
        message.extend(fill.to_le_bytes());
        self.process.say(&message).expect("the library listens");
        let mut answer = [0; 8];
        let mut buffer = vec![0; room * wide];
        self.process
            .hear(&mut answer)
            .and_then(|()| self.process.hear(&mut buffer))
            .expect("the library answers: it ended, or its stack did");
        (u64::from_le_bytes(answer), buffer)
    }

    fn write(&mut self, table: &[u32], room: usize, fill: u8) -> (u64, Vec<u8>) {
        let given: Vec<u8> = table
            .iter()
            .flat_map(|number| number.to_le_bytes())
            .collect();
        self.call(0, table.len(), &given, room, u32::from(fill), 1)
    }

    fn rows(&mut self, bytes: &[u8], room: usize, fill: u32) -> (u64, Vec<u32>) {
        let (answer, buffer) = self.call(1, bytes.len(), bytes, room, fill, 4);
        let number = |four: &[u8]| u32::from_le_bytes(four.try_into().expect("four bytes"));
        (answer, buffer.chunks_exact(4).map(number).collect())
    }
}

fn main() {
    let mut arguments = std::env::args().skip(1);
    let mut number = |default| match arguments.next() {
        None => default,
        Some(text) => text.parse().unwrap_or_else(|_| {
            eprintln!("usage: writing [SEED] [COUNT]");
            exit(2);
        }),
    };
    let seed = number(SEED);
    let count = number(COUNT);
    let began = Instant::now();
    let command = std::env::var("MOONHALYARD_ANSWERS").unwrap_or_else(|_| {
        eprintln!("writing: MOONHALYARD_ANSWERS is the command that answers for the library; model/run sets it");
        exit(2);
    });
    let mut comparison = Comparison {
        library: Library::start(&command),
        tally: [0; 22],
        given: 0,
        random: Random::new(!seed),
    };

    for case in edges::all() {
        comparison.plan(&case.name, &case.bytes);
    }
    for vector in vectors::all() {
        comparison.plan(&format!("vector on line {}", vector.line), &vector.bytes);
    }
    let mut random = Random::new(seed);
    for at in 0..count {
        let bytes = generate::mixed(&mut random);
        comparison.plan(&format!("generated plan {at} of seed {seed}"), &bytes);
    }
    for at in 0..count {
        let table = some_table(&mut random);
        comparison.table(&format!("table {at} of seed {seed}"), &table);
    }

    let tally = &comparison.tally;
    let some = [1, 2, 4, 5, 6, 7, 8, 9, 18, 21];
    let refusals: Vec<String> = some
        .iter()
        .map(|&number| format!("{number}: {}", tally[number]))
        .collect();
    println!(
        "{} tables written alike, {} plans given alike and written back byte for byte, {:.1} s",
        tally.iter().sum::<u64>(),
        comparison.given,
        began.elapsed().as_secs_f64(),
    );
    println!("written {}, refused {}", tally[0], refusals.join(", "));
    if tally[0] == 0 || some.iter().any(|&number| tally[number] == 0) {
        println!("FAILED: an answer that no table got");
        exit(1);
    }
}

struct Comparison {
    library: Library,
    /// Written at 0, refusals at their numbers.
    tally: [u64; 22],
    given: u64,
    random: Random,
}

fn packed(answer: Result<usize, Refusal>) -> u64 {
    match answer {
        Ok(length) => length as u64,
        Err(Refusal { number, place }) => u64::from(number) << 32 | u64::from(place),
    }
}

impl Comparison {
    /// A room near what is needed, or any.
    fn room(&mut self, needed: usize) -> usize {
        match self.random.below(6) {
            0 => needed,
            1 => needed.saturating_sub(1),
            2 => needed + 1,
            3 => 0,
            4 => self.random.below(needed + 2),
            _ => needed + self.random.below(64),
        }
    }

    /// A table: number, place, length, bytes and what stands behind them.
    fn table(&mut self, name: &str, table: &[u32]) {
        let needed = rows::write(table, &mut [0; 4096]).unwrap_or(40);
        let room = self.room(needed);
        let fill = self.random.byte();
        let mut expected = vec![fill; room];
        let answer = packed(rows::write(table, &mut expected));
        self.tally[(answer >> 32) as usize] += 1;
        let (got, buffer) = self.library.write(table, room, fill);
        if (got, &buffer) != (answer, &expected) {
            println!("DIFFERENT: write of {name} into {room} bytes");
            println!("table {table:?}");
            println!("model   {answer:#018x} {}", vectors::hex(&expected));
            println!("library {got:#018x} {}", vectors::hex(&buffer));
            exit(1);
        }
    }

    /// A plan: its rows, and these written again.
    fn plan(&mut self, name: &str, bytes: &[u8]) {
        let table = rows::table_of(bytes);
        let room = self.room(table.as_ref().map_or(40, Vec::len));
        let fill = self.random.word() as u32;
        let mut expected = vec![fill; room];
        let answer = packed(rows::give(bytes, &mut expected));
        let (got, buffer) = self.library.rows(bytes, room, fill);
        if (got, &buffer) != (answer, &expected) {
            println!("DIFFERENT: rows of {name} into {room} numbers");
            println!("plan {}", vectors::hex(bytes));
            println!("model   {answer:#018x} {expected:?}");
            println!("library {got:#018x} {buffer:?}");
            exit(1);
        }
        let Ok(table) = table else { return };
        let (got, back) = self.library.write(&table, bytes.len(), 0);
        if (got, &back[..]) != (bytes.len() as u64, bytes) {
            println!("DIFFERENT: {name} does not come back");
            println!("plan    {}", vectors::hex(bytes));
            println!("library {got:#018x} {}", vectors::hex(&back));
            exit(1);
        }
        self.given += 1;
    }
}

/// A table: of a plan, of a plan and damaged, of too many bytes, or noise.
fn some_table(random: &mut Random) -> Vec<u32> {
    match random.below(20) {
        0 => noise(random),
        1 => {
            let length = random.from_to(4000, 4300);
            cut(&generate::legal_of_length(random, length).bytes)
        }
        2 => plan_table(random),
        _ => {
            let mut table = plan_table(random);
            for _ in 0..random.from_to(1, 3) {
                damage(random, &mut table);
            }
            table
        }
    }
}

fn plan_table(random: &mut Random) -> Vec<u32> {
    rows::table_of(&generate::legal(random).bytes).expect("a legal plan")
}

/// The table of a sequence of a receive and of sets, which may have more than 4,096 bytes.
fn cut(bytes: &[u8]) -> Vec<u32> {
    // Only the limit on bytes may refuse it: the sets are taken away, and put back one by one.
    match rows::table_of(bytes) {
        Ok(table) => table,
        Err(_) => long_table(bytes),
    }
}

/// The same for a plan that is too long: number by number.
fn long_table(bytes: &[u8]) -> Vec<u32> {
    let mut numbers = Vec::new();
    let mut place = 0;
    while place < bytes.len() {
        let (value, next) = model::reader::read_number(bytes, place).expect("a number");
        numbers.push(value);
        place = next;
    }
    let mut at = 0;
    let mut table = Vec::new();
    let put = |table: &mut Vec<u32>, at: &mut usize, count: usize| {
        table.extend(rows::row(&numbers[*at..*at + count]));
        *at += count;
    };
    put(&mut table, &mut at, 3 + numbers[2] as usize);
    let sets = numbers[at + 1] - 1;
    put(&mut table, &mut at, 2);
    let receive = 4 + numbers[at + 3] as usize;
    put(&mut table, &mut at, receive);
    for _ in 0..sets {
        put(&mut table, &mut at, 2);
        let mut due = 1;
        while due > 0 {
            let leaf = numbers[at] < 2;
            put(&mut table, &mut at, if leaf { 2 } else { 1 });
            due = if leaf { due - 1 } else { due + 1 };
        }
    }
    put(&mut table, &mut at, 1);
    table
}

fn noise(random: &mut Random) -> Vec<u32> {
    let length = match random.below(3) {
        0 => random.below(100),
        _ => PLACES * random.below(8),
    };
    let small = random.percent(70);
    let mut table: Vec<u32> = (0..length)
        .map(|_| match small {
            true => random.below(19) as u32,
            false => random.value(),
        })
        .collect();
    if random.percent(60) {
        // A head that is right, so that what comes after it is looked at.
        let head = rows::row(&[1, 3, 1, 2]);
        for (place, value) in table.iter_mut().zip(head) {
            *place = value;
        }
        for row in table.chunks_mut(PLACES).skip(1) {
            let used = 1 + row[0] as usize;
            for place in row.iter_mut().skip(used) {
                *place = 0;
            }
        }
    }
    table
}

fn damage(random: &mut Random, table: &mut Vec<u32>) {
    let count = table.len() / PLACES;
    if count == 0 {
        table.push(random.value());
        return;
    }
    let at = random.below(count);
    let place = at * PLACES + random.below(8);
    match random.below(17) {
        0 => table[place] = random.value(),
        1 => table[place] = table[place].wrapping_add(1),
        2 => table[place] = table[place].wrapping_sub(1),
        3 => table[at * PLACES + random.below(PLACES)] = random.below(70) as u32,
        // Another code, with the row's numbers as they are.
        4 => table[at * PLACES + 1] = random.below(19) as u32,
        // Another row altogether.
        5 => {
            let rows: [&[u32]; 11] = [
                &[0],
                &[4],
                &[11],
                &[12],
                &[1, 0],
                &[8, 1],
                &[10, 1],
                &[13, 16],
                &[13, 256],
                &[14],
                &[255],
            ];
            let one = rows::row(rows[random.below(rows.len())]);
            table[at * PLACES..(at + 1) * PLACES].copy_from_slice(&one);
        }
        6 => {
            table.drain(at * PLACES..(at + 1) * PLACES);
        }
        7 => {
            let row = table[at * PLACES..(at + 1) * PLACES].to_vec();
            let to = random.below(count + 1) * PLACES;
            table.splice(to..to, row);
        }
        8 => {
            let to = random.below(count) * PLACES;
            for i in 0..PLACES {
                table.swap(at * PLACES + i, to + i);
            }
        }
        9 => table.truncate(random.below(table.len() + 1)),
        10 => {
            for _ in 0..random.from_to(1, 2 * PLACES) {
                table.push(random.below(3) as u32);
            }
        }
        // A receive, or what looks like one, with the partner and the operation of another.
        11 | 12 => {
            let receives: Vec<usize> = (1..count)
                .map(|row| row * PLACES)
                .filter(|&row| matches!(table[row + 1], 2 | 18) && table[row] > 4)
                .collect();
            if let Some(last) = receives.len().checked_sub(1) {
                let from = receives[random.below(last + 1)];
                let to = receives[random.below(last + 1)];
                table.copy_within(from + 2..from + 4, to + 2);
            }
        }
        // A raise with a number on one side of a limit, or with none.
        13 => {
            let number = [15, 16, 255, 256, 0, 4][random.below(6)];
            let mut one = rows::row(&[13, number]);
            if random.percent(20) {
                one[0] = 1;
            }
            table[at * PLACES..(at + 1) * PLACES].copy_from_slice(&one);
        }
        // Another number in a row that has one: a code, a count of fault parts by number, or the number of one.
        14 => {
            let alone: Vec<usize> = (1..count)
                .map(|row| row * PLACES)
                .filter(|&row| table[row] == 1)
                .collect();
            if let Some(last) = alone.len().checked_sub(1) {
                let row = alone[random.below(last + 1)];
                let telling = [0, 1, 5, 6, 8, 9, 14, 15, 16, 255, 256];
                table[row + 1] = match random.below(3) {
                    0 => table[alone[random.below(last + 1)] + 1],
                    _ => telling[random.below(telling.len())],
                };
            }
        }
        // What stands behind the variables of a send to whom a variable holds, or of a receive that stores whom to reply to: another number, one of the row's
        // own, or none.
        15 => {
            let rows: Vec<usize> = (1..count)
                .map(|row| row * PLACES)
                .filter(|&row| matches!(table[row + 1], 17 | 18) && (6..=9).contains(&table[row]))
                .collect();
            if let Some(last) = rows.len().checked_sub(1) {
                let row = rows[random.below(last + 1)];
                let end = row + table[row] as usize;
                match random.below(4) {
                    0 => table[end] = random.below(17) as u32,
                    1 => table[end] = [63, 64, 127][random.below(3)],
                    2 => table[end] = table[random.from_to(row + 2, end)],
                    _ => {
                        table[end] = 0;
                        table[row] -= 1;
                    }
                }
            }
        }
        // A body that is no start form: its first activity made empty.
        _ => {
            if count > 1 {
                table[PLACES..2 * PLACES].copy_from_slice(&rows::row(&[0]));
            }
        }
    }
}
