//! Compares the model's mending with the proved one: edge plans, outside vectors and random plans, padded, damaged or both, and what comes out
//! mended again.

#![forbid(unsafe_code)]

use model::generate::{self, Random};
use model::mending::{self, MAX_GROUPS};
use model::process::Process;
use model::reader::{self, Refusal};
use model::{edges, vectors};
use std::process::exit;
use std::time::Instant;

const SEED: u64 = 1;
const COUNT: u64 = 150_000;

/// The proved mending, which answers as `mending.c` does.
struct Library {
    process: Process,
}

impl Library {
    /// The answer, and the buffer's bytes afterwards.
    fn mend(&mut self, bytes: &[u8], room: usize, fill: u8) -> (u64, Vec<u8>) {
        let mut message = Vec::new();
        message.extend((bytes.len() as u32).to_le_bytes());
        message.extend(bytes);
        message.extend((room as u32).to_le_bytes());
        message.extend(u32::from(fill).to_le_bytes());
        self.process.say(&message).expect("the library listens");
        let mut answer = [0; 8];
        let mut buffer = vec![0; room];
        self.process
            .hear(&mut answer)
            .and_then(|()| self.process.hear(&mut buffer))
            .expect("the library answers: it ended, or its stack did");
        (u64::from_le_bytes(answer), buffer)
    }
}

fn main() {
    let mut arguments = std::env::args().skip(1);
    let mut number = |default| match arguments.next() {
        None => default,
        Some(text) => text.parse().unwrap_or_else(|_| {
            eprintln!("usage: mend [SEED] [COUNT]");
            exit(2);
        }),
    };
    let seed = number(SEED);
    let count = number(COUNT);
    let began = Instant::now();
    let command = std::env::var("MOONHALYARD_ANSWERS").unwrap_or_else(|_| {
        eprintln!("mend: MOONHALYARD_ANSWERS is the command that answers for the library; model/run sets it");
        exit(2);
    });
    let mut comparison = Comparison {
        library: Library {
            process: Process::start(&command),
        },
        tally: [0; 22],
        cut: 0,
        random: Random::new(!seed),
    };

    let mut random = Random::new(seed);
    for case in edges::all() {
        comparison.plan(&case.name, &case.bytes);
        let bytes = padded(&mut random, &case.bytes, 30);
        comparison.plan(&format!("{}, padded", case.name), &bytes);
    }
    for vector in vectors::all() {
        comparison.plan(&format!("vector on line {}", vector.line), &vector.bytes);
        let bytes = padded(&mut random, &vector.bytes, 30);
        comparison.plan(&format!("vector on line {}, padded", vector.line), &bytes);
    }
    for at in 0..count {
        let bytes = some_plan(&mut random);
        comparison.plan(&format!("plan {at} of seed {seed}"), &bytes);
    }

    let tally = &comparison.tally;
    let some = [1, 2, 3, 4, 5, 6, 7, 8, 9, 18, 21];
    let refusals: Vec<String> = some
        .iter()
        .map(|&number| format!("{number}: {}", tally[number]))
        .collect();
    println!(
        "{} plans mended alike, {:.1} s",
        tally.iter().sum::<u64>(),
        began.elapsed().as_secs_f64(),
    );
    println!(
        "mended {}, {} of them with groups cut, refused {}",
        tally[0],
        comparison.cut,
        refusals.join(", ")
    );
    if comparison.cut == 0 || some.iter().any(|&number| tally[number] == 0) {
        println!("FAILED: an answer that no plan got");
        exit(1);
    }
}

struct Comparison {
    library: Library,
    /// Mended at 0, refusals at their numbers.
    tally: [u64; 22],
    /// How many of the mended had groups cut.
    cut: u64,
    random: Random,
}

fn packed(answer: Result<(usize, usize), Refusal>) -> u64 {
    match answer {
        Ok((length, cut)) => (cut as u64) << 16 | length as u64,
        Err(Refusal { number, place }) => u64::from(number) << 32 | u64::from(place),
    }
}

impl Comparison {
    /// A room near what is needed, or any.
    fn room(&mut self, needed: usize) -> usize {
        match self.random.below(8) {
            0 => needed.saturating_sub(1),
            1 => self.random.below(needed + 2),
            2 => needed + self.random.below(64),
            3 => needed + 1,
            _ => needed,
        }
    }

    /// A plan: number, place, length, groups cut, bytes and what stands behind them; and what comes out, mended again.
    fn plan(&mut self, name: &str, bytes: &[u8]) {
        let needed = mending::mend(bytes, &mut [0; 4096]).map_or(40, |(length, _)| length);
        let room = self.room(needed);
        let fill = self.random.byte();
        let mut expected = vec![fill; room];
        let model = mending::mend(bytes, &mut expected);
        let answer = packed(model);
        self.tally[(answer >> 32) as usize] += 1;
        let (got, buffer) = self.library.mend(bytes, room, fill);
        if (got, &buffer) != (answer, &expected) {
            println!("DIFFERENT: {name} into {room} bytes");
            println!("plan    {}", vectors::hex(bytes));
            println!("model   {answer:#018x} {}", vectors::hex(&expected));
            println!("library {got:#018x} {}", vectors::hex(&buffer));
            exit(1);
        }
        let Ok((length, cut)) = model else { return };
        self.cut += u64::from(cut > 0);
        let mended = &buffer[..length];
        let again = self.library.mend(mended, length, !fill);
        if reader::read(mended).is_err() || again != (length as u64, mended.to_vec()) {
            println!("DIFFERENT: {name}, mended, does not come out as it is");
            println!("plan    {}", vectors::hex(bytes));
            println!("mended  {}", vectors::hex(mended));
            exit(1);
        }
    }
}

/// A plan: padded, damaged and padded, or padded and damaged.
fn some_plan(random: &mut Random) -> Vec<u8> {
    let chance = [0, 2, 10, 40, 90][random.below(5)];
    match random.below(10) {
        0..=3 => {
            let bytes = generate::legal(random).bytes;
            padded(random, &bytes, chance)
        }
        4..=6 => {
            let bytes = generate::mixed(random);
            padded(random, &bytes, chance)
        }
        7 => {
            // Near the limit on bytes, which counts the padding.
            let length = random.from_to(3900, 4096);
            let bytes = generate::legal_of_length(random, length).bytes;
            padded(random, &bytes, 1)
        }
        _ => {
            let bytes = generate::legal(random).bytes;
            let mut bytes = padded(random, &bytes, chance);
            for _ in 0..random.from_to(1, 2) {
                damage(random, &mut bytes);
            }
            bytes
        }
    }
}

/// The same numbers, some of them with zero groups behind; now and then with an eleventh group or more.
fn padded(random: &mut Random, bytes: &[u8], chance: usize) -> Vec<u8> {
    let mut out = Vec::new();
    let mut place = 0;
    while place < bytes.len() {
        let Ok((_, next)) = reader::read_number(bytes, place) else {
            out.push(bytes[place]);
            place += 1;
            continue;
        };
        out.extend(&bytes[place..next]);
        let groups = next - place;
        if random.percent(chance) {
            let most = if random.percent(1) {
                MAX_GROUPS + 2
            } else {
                MAX_GROUPS
            };
            for _ in groups..random.from_to(groups, most) {
                *out.last_mut().expect("a group") |= 0x80;
                out.push(0);
            }
        }
        place = next;
    }
    out
}

/// Bytes cut off, changed, taken away, put in or put behind.
fn damage(random: &mut Random, bytes: &mut Vec<u8>) {
    if bytes.is_empty() {
        bytes.push(random.byte());
        return;
    }
    let at = random.below(bytes.len());
    match random.below(8) {
        0 => bytes.truncate(at),
        1 => bytes[at] = random.byte(),
        2 => bytes[at] ^= 0x80,
        3 => bytes[at] = bytes[at].wrapping_add(1),
        4 => {
            bytes.remove(at);
        }
        5 => {
            let many = random.from_to(1, 11);
            bytes.splice(at..at, std::iter::repeat_n(0x80, many));
        }
        6 => {
            let many = random.from_to(1, 12);
            let byte = [0x00, 0x01, 0x80, 0xFF][random.below(4)];
            bytes.extend(std::iter::repeat_n(byte, many));
        }
        // A number too large, or one with its top bit set behind.
        _ => {
            let last = [0x0F, 0x10, 0x8F, 0x90][random.below(4)];
            bytes.splice(at..at, [0xFF, 0xFF, 0xFF, 0xFF, last]);
        }
    }
}
