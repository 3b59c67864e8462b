//! The plain formats and the cadence: every code, every second, every level, and counts of every size.

use crate::random::Random;
use crate::{cadence, format, raw, Tally};
use std::fmt::Debug;

/// What a call with one value left, against the second program's answer: the number, and the value or what the place held.
fn one<T: PartialEq + Debug>(tally: &mut Tally, name: &'static str, given: u64, proved: (u8, T), plain: Result<T, u8>, held: T) {
    tally.answered(name, proved.0);
    let plain = match plain {
        Ok(value) => (0, value),
        Err(number) => (number, held),
    };
    tally.compare(|| format!("{name} of {given}"), proved, plain);
}

fn count(tally: &mut Tally, n: u64, held: u64) {
    let mut code = held as u16;
    let number = unsafe { raw::plv_float16_code(n, &mut code) };
    one(tally, "float16_code", n, (number, code), format::float16(n).map(|c| c as u16), held as u16);
    let mut code = held as u8;
    let number = unsafe { raw::plv_float8_code(n, &mut code) };
    one(tally, "float8_code", n, (number, code), format::float8(n).map(|c| c as u8), held as u8);
    let mut code = held as u32;
    let number = unsafe { raw::plv_int24_code(n, &mut code) };
    one(tally, "int24_code", n, (number, code), format::int24(n).map(|c| c as u32), held as u32);
    let mut read = held as u32;
    let number = unsafe { raw::plv_int24_count(n as u32, &mut read) };
    one(tally, "int24_count", n as u32 as u64, (number, read), format::int24(n as u32 as u64).map(|c| c as u32), held as u32);
    let mut code = held as u8;
    let number = unsafe { raw::plv_log8_code(n, &mut code) };
    one(tally, "log8_code", n, (number, code), format::log8(n).map(|c| c as u8), held as u8);
}

fn byte(tally: &mut Tally, n: u8, held: u64) {
    let (mut low, mut high, mut some) = (held, !held, held as u8);
    unsafe { raw::plv_log8_counts(n, &mut low, &mut high, &mut some) };
    let plain = match format::log8_counts(n) {
        Some((low, high)) => (low, high, 1),
        None => (0, 0, 0),
    };
    tally.answered(if some == 0 { "log8_counts of none" } else { "log8_counts of some" }, 0);
    tally.compare(|| format!("log8_counts of {n}"), (low, high, some), plain);
}

fn word(tally: &mut Tally, n: u16, held: u64) {
    tally.compare(|| format!("float16_count of {n}"), unsafe { raw::plv_float16_count(n) }, format::value(n as u64, 12));
    tally.compare(
        || format!("float8_count of {}", n as u8),
        unsafe { raw::plv_float8_count(n as u8) },
        format::value(n as u8 as u64, 3),
    );
    let mut level = held as u8;
    let number = unsafe { raw::plv_second_beginning(n, &mut level) };
    one(tally, "second_beginning", n as u64, (number, level), cadence::beginning(n).map(|l| l as u8), held as u8);
    let mut level = held as u8;
    let number = unsafe { raw::plv_second_ending(n, &mut level) };
    one(tally, "second_ending", n as u64, (number, level), cadence::ending(n).map(|l| l as u8), held as u8);
    let mut seconds = held as u16;
    let number = unsafe { raw::plv_level_seconds(n as u8, &mut seconds) };
    one(tally, "level_seconds", n as u8 as u64, (number, seconds), cadence::seconds(n as u8), held as u16);
}

pub fn drive(random: &mut Random, cases: u64, tally: &mut Tally) {
    for n in 0..=u16::MAX {
        word(tally, n, random.next());
        let value = format::value(n as u64, 12);
        count(tally, value, random.next());
        count(tally, value.wrapping_sub(1), random.next());
        count(tally, value + 1, random.next());
    }
    for n in 0..=u8::MAX {
        byte(tally, n, random.next());
        byte(tally, n, random.next());
    }
    for n in 0..=100_000 {
        count(tally, n, random.next());
    }
    let ends = (0..=255).filter_map(format::log8_counts).flat_map(|(low, high)| [low, high]);
    let around = (0..=255).map(|code| format::value(code, 3)).chain(ends).chain((0..64).map(|bit| 1 << bit)).chain([u64::MAX]);
    for beside in around.flat_map(|n| [n.wrapping_sub(1), n, n.wrapping_add(1)]) {
        count(tally, beside, random.next());
    }
    for _ in 0..cases {
        count(tally, random.next() >> random.below(64), random.next());
    }
}
