//! The records that the program `vectors` is fed, and the lines that it must print: what the exported calls do not reach.
//! A record is a letter, a drop, how many bytes it has, eight bytes of bit position, and those bytes.

use crate::code::{self, Refusal, LARGEST, LARGEST_ON_FILE, LONGEST};
use crate::random::Random;

fn record(letter: u8, drop: u8, at: u64, bytes: &[u8]) -> Vec<u8> {
    [&[letter, drop, bytes.len() as u8][..], &at.to_be_bytes(), bytes].concat()
}

/// The line of a code: 0, the number and the next position; or the refusal, and with 9 the bits missing.
fn code_line(bytes: &[u8], at: u64, drop: u8) -> (String, Option<u64>) {
    match code::read(bytes, at, drop) {
        Ok(r) => {
            let (sign, next) = (if r.negative { "-" } else { "" }, at + r.taken);
            (format!("0 {sign}{} {next}\n", r.magnitude), Some(next))
        }
        Err(Refusal { number, missing: Some(bits) }) => (format!("{number} {bits}\n"), None),
        Err(Refusal { number, missing: None }) => (format!("{number}\n"), None),
    }
}

/// The lines of all records of an input.
pub fn answers(mut input: &[u8]) -> String {
    let mut all = String::new();
    while let [letter, drop, size, rest @ ..] = input {
        let (at, rest) = rest.split_at(8);
        let (bytes, rest) = rest.split_at(*size as usize);
        input = rest;
        let mut place = Some(u64::from_be_bytes(at.try_into().unwrap()));
        match letter {
            b'r' => all += &code_line(bytes, place.unwrap(), *drop).0,
            _ => {
                while let Some(at) = place {
                    let (line, next) = code_line(bytes, at, *drop);
                    all += &line;
                    place = next;
                }
            }
        }
    }
    all
}

/// A run of codes packed one after the other from a position on, small numbers as often as large ones.
fn packed(random: &mut Random, at: u64, drop: u8) -> Vec<u8> {
    let mut bytes = random.bytes(40);
    let mut next = at;
    for _ in 0..3 + random.below(20) {
        let value = random.next() as i32 >> (7 + random.below(25));
        match code::pack(&mut bytes, next, value, drop) {
            Ok(end) => next = end,
            Err(_) => break,
        }
    }
    bytes.truncate(next.div_ceil(8) as usize);
    bytes
}

/// Runs of codes: whole, with a bit of damage, with bytes cut off; and asked for with the other drop.
fn runs(random: &mut Random, all: &mut Vec<u8>) {
    for round in 0..60 {
        let (at, drop) = (random.below(20), [0, 3][round % 2]);
        let whole = packed(random, at, drop);
        let mut damaged = whole.clone();
        let place = random.below(whole.len() as u64) as usize;
        damaged[place] ^= 1 << random.below(8);
        let cut = &whole[..random.below(whole.len() as u64) as usize];
        for (letter, drop, bytes) in [(b'm', drop, &whole[..]), (b'm', drop, &damaged), (b'm', drop, cut), (b'm', 3 - drop, &whole)] {
            all.extend(record(letter, drop, at, bytes));
        }
    }
}

/// Single codes: bits that nobody packed, at every place and past the end, positions from 2^63 on, drops outside the rule, no bytes.
fn singles(random: &mut Random, all: &mut Vec<u8>) {
    for _ in 0..300 {
        let count = random.below(6);
        let mut bytes = random.bytes(count as usize);
        if let [first, second, ..] = &mut bytes[..] {
            *first |= [0, 0xff][random.below(2) as usize];
            *second |= [0, 0xff][random.below(2) as usize];
        }
        let at = random.below(8 * count + 4);
        all.extend(record(b'r', [0, 3][random.below(2) as usize], at, &bytes));
    }
    for letter in [b'r', b'm'] {
        for at in [0, 7, 8, 9, 1 << 40, (1 << 63) - 1, 1 << 63, u64::MAX] {
            for drop in [0, 1, 2, 3, 4, 255] {
                for bytes in [&[][..], &[0x00], &[0x80, 0x00], &[0xff, 0xff]] {
                    all.extend(record(letter, drop, at, bytes));
                }
            }
        }
    }
}

/// Codes of the longest run of ones, both ends of the range among them, and what is past it: parity 1, and one more one. Each with either
/// sign and both drops, cut at every bit.
fn longest(all: &mut Vec<u8>) {
    let (longest, longer) = ("1".repeat(LONGEST), "1".repeat(LONGEST + 1));
    for run in [longest.clone() + "00", longest + "01", longer + "00"] {
        for (s, field) in [(0, "0"), (0, "1"), (1, "0"), (1, "1")] {
            let bits = format!("1{s}{run}{}", field.repeat(LONGEST + 1));
            for count in 0..=bits.len() {
                let (bytes, at) = code::at_the_end(&bits[..count]);
                for drop in [0, 3] {
                    all.extend(record(b'r', drop, at, &bytes));
                }
            }
        }
    }
}

/// Both ends of the range, now and before request 2026-06, and the first code past what is on file: in one run.
fn ends(all: &mut Vec<u8>) {
    for drop in [0, 3] {
        let (mut bytes, mut next) = (vec![0; 24], 5);
        for value in [LARGEST, LARGEST_ON_FILE, LARGEST_ON_FILE + 1].into_iter().flat_map(|end| [end, -end]) {
            next = code::pack(&mut bytes, next, value, drop).unwrap();
        }
        bytes.truncate(next.div_ceil(8) as usize);
        all.extend(record(b'm', drop, 5, &bytes));
    }
}

/// Every stored record, in order.
pub fn feed() -> Vec<u8> {
    let mut random = Random::new(1);
    let mut all = Vec::new();
    singles(&mut random, &mut all);
    runs(&mut random, &mut all);
    longest(&mut all);
    ends(&mut all);
    all
}
