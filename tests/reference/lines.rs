//! Document 01, "Cases", last paragraph: the code program.

use crate::code::{self, LARGEST, LARGEST_ON_FILE};
use crate::random::Random;

/// What a line prints.
fn answer(line: &[u8]) -> String {
    let (minus, digits) = match line.split_first() {
        Some((b'-', rest)) => (true, rest),
        _ => (false, line),
    };
    if !(1..=8).contains(&digits.len()) || !digits.iter().all(u8::is_ascii_digit) {
        return "refused 8\n".into();
    }
    let n: i64 = std::str::from_utf8(digits).unwrap().parse().unwrap();
    let v = if minus { -n } else { n };
    match (code::code(v, 0), code::code(v, 3)) {
        (Some(zero), Some(three)) => format!("{v} {zero} {three}\n"),
        _ => "refused 8\n".into(),
    }
}

/// All that the program prints.
pub fn printed(input: &[u8]) -> String {
    let mut lines: Vec<&[u8]> = input.split(|&byte| byte == b'\n').collect();
    if lines.last().is_some_and(|line| line.is_empty()) {
        lines.pop();
    }
    "value drop0 drop3\n".to_string() + &lines.iter().map(|line| answer(line)).collect::<String>()
}

/// A hard input: long lines, lines across what is read at once, both ends of the range and one past them, now and before request
/// 2026-06, bytes over 127, every kind of other line, and no last newline.
pub fn hard() -> Vec<u8> {
    let mut random = Random::new(5);
    let mut input = Vec::new();
    let plain = [
        "", "-", "--1", "+5", "5\r", " 5", "5 ", "-0", "0", "00000000", "000000000", "00000005", "-00000016", "1-", "x", "12345678", "123456789",
        "99999999", "-99999999", "-1", "-2", "-3", "-4", "3", "4", "15", "16", "31", "32",
    ];
    let ends = [LARGEST_ON_FILE, LARGEST].into_iter().flat_map(|end| [end, end + 1, -end, -end - 1]);
    for line in plain.into_iter().map(String::from).chain(ends.map(|end| end.to_string())) {
        input.extend(line.as_bytes());
        input.push(b'\n');
    }
    input.extend([0x80, 0xff, b'\n', b'1', 0xb2, b'\n', 0, b'\n']);
    input.extend(vec![b'7'; 70_000]);
    input.push(b'\n');
    for _ in 0..9000 {
        let digits = 1 + random.below(9);
        if random.below(3) == 0 {
            input.push(b'-');
        }
        for _ in 0..digits {
            input.push(b'0' + random.below(10) as u8);
        }
        input.push(b'\n');
    }
    while input.len() < 131_070 {
        input.push(b'x');
    }
    input.extend(format!("\n-{LARGEST}").bytes());
    input
}
