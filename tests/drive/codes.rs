//! Packed codes, readings and rates: numbers of every size at every position, codes cut at every bit, and bits that nobody packed.

use crate::code::{Refusal, LARGEST, LARGEST_ON_FILE, LONGEST};
use crate::lent::Lent;
use crate::random::Random;
use crate::{cadence, code, raw, some, Tally};
use std::collections::BTreeSet;

/// A drop, now and then one outside the rule.
fn drop(random: &mut Random) -> u8 {
    match random.below(50) {
        0 => random.next() as u8,
        n => if n % 2 == 0 { 0 } else { 3 },
    }
}

/// A bit position near the front, now and then far off.
fn position(random: &mut Random) -> u64 {
    match random.below(60) {
        0 => random.next(),
        1 => (1 << 63) - random.below(3),
        2 => u64::MAX - random.below(40),
        _ => random.below(40),
    }
}

/// What the place for the bits missing holds before a call: never a number that 9 carries.
fn other(held: u64) -> u8 {
    held as u8 | 0x80
}

/// What that place holds after a refusal: what 9 carries, and with any other number what it held.
fn left(refusal: &Refusal, held: u64) -> u8 {
    refusal.missing.unwrap_or(other(held))
}

/// The number that a call answered, and what it carried with 9.
fn answered(tally: &mut Tally, call: &'static str, number: u8, carrying: &'static str, missing: u8) {
    tally.answered(call, number);
    if number == 9 {
        tally.answered(carrying, missing);
    }
}

fn unpack(tally: &mut Tally, bytes: &[u8], at: u64, drop: u8, held: u64) {
    let (mut value, mut next, mut missing) = (held as i32, held, other(held));
    let number = unsafe { raw::plv_code_unpack(bytes.as_ptr(), bytes.len(), at, drop, &mut value, &mut next, &mut missing) };
    answered(tally, "unpack", number, "unpack missing", missing);
    let plain = match code::read(bytes, at, drop) {
        Ok(r) => (0, if r.negative { -(r.magnitude as i32) } else { r.magnitude as i32 }, at + r.taken, other(held)),
        Err(refusal) => (refusal.number, held as i32, held, left(&refusal, held)),
    };
    tally.compare(|| format!("unpack {bytes:02x?} at {at}, drop {drop}"), (number, value, next, missing), plain);
}

/// The bits of a NaN, of either sign, quiet or signalling: a refused call keeps them as they are.
fn nan(held: u64) -> u64 {
    0x7ff0_0000_0000_0001 | held & 0x800f_ffff_ffff_fffe
}

fn reading(tally: &mut Tally, bytes: &[u8], at: u64, drop: u8, held: u64) {
    let (mut low, mut high, mut exact, mut next) = (f64::from_bits(held), f64::from_bits(nan(held)), held as u8, held);
    let mut missing = other(held);
    let number = unsafe {
        raw::plv_reading(bytes.as_ptr(), bytes.len(), at, drop, &mut low, &mut high, &mut exact, &mut next, &mut missing)
    };
    answered(tally, "reading", number, "reading missing", missing);
    let plain = match code::edges(bytes, at, drop) {
        Ok((low, high, exact, next)) => (0, (low as f64).to_bits(), (high as f64).to_bits(), exact as u8, next, other(held)),
        Err(refusal) => (refusal.number, held, nan(held), held as u8, held, left(&refusal, held)),
    };
    let proved = (number, low.to_bits(), high.to_bits(), exact, next, missing);
    tally.compare(|| format!("reading of {bytes:02x?} at {at}, drop {drop}"), proved, plain);
}

fn rate(tally: &mut Tally, bytes: &[u8], at: u64, drop: u8, level: u8, held: u64) {
    let (mut low, mut high, mut seconds, mut next) = (f64::from_bits(nan(held)), f64::from_bits(held), f64::from_bits(nan(!held)), held);
    let mut missing = other(held);
    let number = unsafe {
        raw::plv_rate(bytes.as_ptr(), bytes.len(), at, drop, level, &mut low, &mut high, &mut seconds, &mut next, &mut missing)
    };
    answered(tally, "rate", number, "rate missing", missing);
    let answer = code::edges(bytes, at, drop).and_then(|edges| Ok((edges, cadence::seconds(level)? as f64)));
    let plain = match answer {
        Ok(((low, high, _, next), s)) => (0, (low as f64 / s).to_bits(), (high as f64 / s).to_bits(), s.to_bits(), next, other(held)),
        Err(refusal) => (refusal.number, nan(held), held, nan(!held), held, left(&refusal, held)),
    };
    let proved = (number, low.to_bits(), high.to_bits(), seconds.to_bits(), next, missing);
    tally.compare(|| format!("rate of {bytes:02x?} at {at}, drop {drop}, level {level}"), proved, plain);
}

/// The code at a position, as a number, a reading and a rate.
fn read(tally: &mut Tally, bytes: &[u8], at: u64, drop: u8, level: u8, held: u64) {
    unpack(tally, bytes, at, drop, held);
    reading(tally, bytes, at, drop, held);
    rate(tally, bytes, at, drop, level, held);
}

/// A number of any size; now and then one beside a power of two, where codes change and the range ends.
fn number(random: &mut Random) -> i32 {
    if random.below(6) > 0 {
        return random.next() as i32 >> random.below(32);
    }
    let beside = (1i64 << random.below(32)) + random.below(3) as i64 - 1;
    if random.below(2) == 0 { beside as i32 } else { -beside as i32 }
}

/// A number packed into a buffer, and what was packed read again.
fn pack(tally: &mut Tally, buffer: &[u8], at: u64, value: i32, drop: u8, held: u64) {
    let mut proved = Lent::new(buffer, held as u8);
    let mut plain = proved.clone();
    let mut next = held;
    let buffer = proved.part();
    let number = unsafe { raw::plv_code_pack(buffer.as_mut_ptr(), buffer.len(), at, value, drop, &mut next) };
    tally.answered("pack", number);
    let answer = match code::pack(plain.part(), at, value, drop) {
        Ok(next) => (0, next),
        Err(number) => (number, held),
    };
    let bytes = plain.part().to_vec();
    tally.compare(|| format!("pack {value} at {at}, drop {drop}"), (number, next, proved), (answer.0, answer.1, plain));
    unpack(tally, &bytes, at, drop, held);
}

/// All of -5,120 to 5,120 and both ends of the range, of what is on file and of i32, at every bit offset.
fn ranges(random: &mut Random, tally: &mut Tally) {
    let ends = [LARGEST, -LARGEST, LARGEST_ON_FILE, -LARGEST_ON_FILE, i32::MAX - 100, i32::MIN + 100];
    let beside = ends.into_iter().flat_map(|end| end - 100..=end.saturating_add(100));
    for value in (-5120..=5120).chain(beside) {
        for drop in [0, 3] {
            for at in 0..8 {
                pack(tally, &[random.next() as u8; 6], at, value, drop, random.next());
            }
        }
    }
}

/// Numbers about each power of two up to the first that is not packed: packed at some position, and read with each number of bytes cut off;
/// their codes alone, cut at every bit.
fn cuts(random: &mut Random, tally: &mut Tally) {
    for value in (0..=LARGEST.ilog2() + 1).flat_map(|k| [1 << k, (1 << k) - 1, -(1 << k), 3 << k >> 1]) {
        for drop in [0, 3] {
            let at = random.below(20);
            let mut buffer = random.bytes(6);
            pack(tally, &buffer, at, value, drop, random.next());
            if code::pack(&mut buffer, at, value, drop).is_ok() {
                for length in 0..6 {
                    unpack(tally, &buffer[..length], at, drop, random.next());
                }
            }
            let bits = code::code(value as i64, drop).unwrap_or_default();
            for count in 0..=bits.len() {
                let (bytes, at) = code::at_the_end(&bits[..count]);
                unpack(tally, &bytes, at, drop, random.next());
            }
        }
    }
}

/// Every short buffer, drops outside the rule, and positions at the end, past it and from 2^63 on.
fn hostile(random: &mut Random, tally: &mut Tally) {
    let positions = [0, 1, 7, 8, 9, 15, 16, 31, 1 << 40, (1 << 63) - 1, 1 << 63, u64::MAX - 7, u64::MAX];
    for at in positions {
        for drop in [0, 1, 2, 3, 4, 255] {
            for length in 0..6 {
                for value in [0, 1, -16, 32, 100, 65_535, -LARGEST] {
                    pack(tally, &random.bytes(length), at, value, drop, random.next());
                }
                unpack(tally, &vec![0; length], at, drop, random.next());
            }
        }
    }
}

/// Numbers packed and read again: at the edges, then by chance.
pub fn drive(random: &mut Random, cases: u64, tally: &mut Tally) {
    ranges(random, tally);
    cuts(random, tally);
    hostile(random, tally);
    for _ in 0..cases {
        let (value, buffer) = (number(random), some(random, 9));
        let (at, drop) = (position(random), drop(random));
        pack(tally, &buffer, at, value, drop, random.next());
    }
}

/// All patterns of up to 16 bits: each position in two bytes with nothing before it, as numbers; from the front as readings, and
/// as rates at every level and past them.
fn patterns(random: &mut Random, tally: &mut Tally) {
    for drop in [0, 3] {
        for pattern in 0..=u16::MAX {
            let bytes = pattern.to_be_bytes();
            let held = random.next();
            for at in 0..=pattern.leading_zeros() as u64 {
                unpack(tally, &bytes, at, drop, held);
            }
            reading(tally, &bytes, 0, drop, held);
            for level in 0..=8 {
                rate(tally, &bytes, 0, drop, level, held);
            }
        }
    }
}

/// Chosen counts and refused codes, as readings and as rates: drops and levels outside the rule, positions past the end.
fn chosen(random: &mut Random, tally: &mut Tally) {
    let mut given: Vec<(Vec<u8>, u64)> = [&[][..], &[0xff, 0xff], &[0x80, 0x00], &[0xc0]].map(|bytes| (bytes.to_vec(), 0)).into();
    let small = [0, 1, 3, 4, 7, 8, 15, 16, 31, 32, 33, 100, 1000, 8191, 8192];
    let large = [1_000_000, LARGEST_ON_FILE - 1, LARGEST_ON_FILE, LARGEST_ON_FILE + 1, LARGEST - 1, LARGEST];
    for count in small.into_iter().chain(large) {
        for (value, drop) in [(count, 0), (-count, 0), (count, 3), (-count, 3)] {
            let (mut bytes, at) = (vec![0; 5], random.below(8));
            code::pack(&mut bytes, at, value, drop).unwrap();
            given.push((bytes, at));
        }
    }
    for (bytes, at) in given {
        for drop in [0, 1, 3, 9] {
            for place in [at, 1 << 63] {
                reading(tally, &bytes, place, drop, random.next());
                for level in [0, 1, 2, 3, 4, 5, 6, 7, 8, 255] {
                    rate(tally, &bytes, place, drop, level, random.next());
                }
            }
        }
    }
}

/// Every run of ones up to two past the longest, of either sign and parity, the bits behind it all 0, all 1 and by chance: cut at every
/// bit, with nothing behind the cut.
fn runs(random: &mut Random, tally: &mut Tally) {
    for ones in 0..=LONGEST + 2 {
        for (s, even) in [(0, 0), (0, 1), (1, 0), (1, 1)] {
            for field in [0, u16::MAX, random.next() as u16] {
                let bits = format!("1{s}{}0{even}{field:016b}", "1".repeat(ones));
                for count in 0..=bits.len() {
                    let (bytes, at) = code::at_the_end(&bits[..count]);
                    for drop in [0, 3] {
                        read(tally, &bytes, at, drop, random.below(9) as u8, random.next());
                    }
                }
            }
        }
    }
}

/// Every code of a drop, in order: those of the numbers under 32, and of larger ones whose later half is 0, since no code tells of it.
fn every(drop: u8) -> BTreeSet<String> {
    let larger = (5..=LARGEST.ilog2()).flat_map(|k| (1i64 << k..2 << k).step_by(1 << k / 2));
    (0..32).chain(larger).flat_map(|m| [m, -m]).filter_map(|value| code::code(value, drop)).collect()
}

/// Bits laid into bytes so that nothing stands behind them, and before them what chance gives.
fn laid_last(random: &mut Random, bits: &str) -> (Vec<u8>, u64) {
    let (mut bytes, at) = code::at_the_end(bits);
    if let Some(first) = bytes.first_mut() {
        *first |= random.next() as u8 & !(0xffu8 >> at);
    }
    let before = some(random, 3);
    let at = at + 8 * before.len() as u64;
    ([before, bytes].concat(), at)
}

/// Every code of both drops, whole and cut at every bit, but for cuts that the code before it gave. The cut is the end of the bytes, so
/// that its length says at which offset of a byte the code begins: all eight come about. Rates also at a level over 7: 19 comes later.
fn every_cut(random: &mut Random, tally: &mut Tally) {
    for drop in [0, 3] {
        let mut before = String::new();
        for code in every(drop) {
            for bits in (1..=code.len()).map(|count| &code[..count]).filter(|&bits| !before.starts_with(bits)) {
                let ((bytes, at), held) = (laid_last(random, bits), random.next());
                read(tally, &bytes, at, drop, random.below(8) as u8, held);
                rate(tally, &bytes, at, drop, 8 + random.below(248) as u8, held);
            }
            before = code;
        }
    }
}

/// Every position about the end of short bytes, and positions past it up to u64's end: beside each power of two, and such as would lie at
/// the end if a bit of them were lost. Drops and levels outside the rule too.
fn positions(random: &mut Random, tally: &mut Tally) {
    for bytes in (0..6).flat_map(|length| [vec![0; length], vec![0xff; length], random.bytes(length)]).collect::<Vec<_>>() {
        let end = 8 * bytes.len() as u64;
        let powers = (3..64).flat_map(|bit| [1 << bit, end + (1 << bit)]);
        let far = powers.flat_map(|at: u64| [at - 1, at, at + 1]).chain(u64::MAX - 20..=u64::MAX);
        for at in (0..=end + 20).chain(far) {
            for (drop, level) in [(0, 0), (0, 8), (3, 7), (3, 255), (1, 0), (255, 8)] {
                read(tally, &bytes, at, drop, level, random.next());
            }
        }
    }
}

/// Bits that nobody packed, long runs of ones among them, as numbers, readings and rates: all short ones, every code cut at every bit,
/// every position about the end, then by chance.
pub fn drive_patterns(random: &mut Random, cases: u64, tally: &mut Tally) {
    patterns(random, tally);
    chosen(random, tally);
    runs(random, tally);
    every_cut(random, tally);
    positions(random, tally);
    for _ in 0..cases {
        let mut bytes = some(random, 7);
        for byte in &mut bytes {
            *byte |= if random.below(3) == 0 { 0xff } else { 0 };
        }
        let (at, drop, held) = (position(random) / (1 + random.below(3)), drop(random), random.next());
        read(tally, &bytes, at, drop, random.below(9) as u8, held);
    }
}
