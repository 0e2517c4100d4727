//! The written plans of data/plans.txt: bytes, refusal, place and number of activities.

/// The file, taken in when this package is built.
pub const TEXT: &str = include_str!("../../data/plans.txt");

pub struct Vector {
    /// Line in the file, from 1.
    pub line: usize,
    pub bytes: Vec<u8>,
    pub refusal: u32,
    pub place: u32,
    pub count: usize,
}

/// All lines but comments and empty ones. A line that can't be read is an error.
pub fn all() -> Vec<Vector> {
    let mut vectors = Vec::new();
    for (at, text) in TEXT.lines().enumerate() {
        let line = at + 1;
        let text = text.trim();
        if text.is_empty() || text.starts_with('#') {
            continue;
        }
        let fields: Vec<&str> = text.split_whitespace().collect();
        assert_eq!(fields.len(), 4, "line {line}: four fields");
        let number = |field: &str| {
            field
                .parse::<u32>()
                .unwrap_or_else(|_| panic!("line {line}: {field}"))
        };
        vectors.push(Vector {
            line,
            bytes: bytes(fields[0]).unwrap_or_else(|| panic!("line {line}: bytes")),
            refusal: number(fields[1]),
            place: number(fields[2]),
            count: number(fields[3]) as usize,
        });
    }
    vectors
}

/// Bytes from hexadecimal; `-` is no bytes.
pub fn bytes(text: &str) -> Option<Vec<u8>> {
    if text == "-" {
        return Some(Vec::new());
    }
    let digits: Option<Vec<u32>> = text.chars().map(|c| c.to_digit(16)).collect();
    let digits = digits?;
    if digits.len() % 2 != 0 {
        return None;
    }
    Some(
        digits
            .chunks(2)
            .map(|pair| (pair[0] * 16 + pair[1]) as u8)
            .collect(),
    )
}

/// Hexadecimal from bytes; no bytes are `-`.
pub fn hex(bytes: &[u8]) -> String {
    if bytes.is_empty() {
        return "-".to_string();
    }
    bytes.iter().map(|byte| format!("{byte:02x}")).collect()
}
