//! Document 01, "Packed codes", and requests 2026-06, "Larger counts", and 2026-02, "Say how many bits were missing": a number to its
//! code and back, for both drops, and readings and rates of what was read.

use std::collections::HashMap;
use std::sync::LazyLock;

/// The largest number that is packed, either way.
pub const LARGEST: i32 = 67_108_863;

/// The largest before request 2026-06: codes on file go up to it.
pub const LARGEST_ON_FILE: i32 = 33_554_431;

/// The most ones that follow the sign; behind so many stand a zero and a zero.
pub const LONGEST: usize = 12;

/// The bits of the longest code: "29 in all".
const LONGEST_CODE: usize = 29;

/// The code of a number as text of bits, or None outside the rule.
pub fn code(v: i64, drop: u8) -> Option<String> {
    if (drop != 0 && drop != 3) || v.abs() > LARGEST as i64 {
        return None;
    }
    let m = v.unsigned_abs();
    let s = if v < 0 { '1' } else { '0' };
    let drop = drop as usize;
    if drop == 0 && m == 0 || drop == 3 && m < 4 {
        return Some("0".into());
    }
    if m < 16 {
        return Some(if drop == 0 { format!("1{s}0{m:04b}") } else { format!("1{s}0{}", m >> 3) });
    }
    let digits = format!("{m:b}");
    let after = &digits[1..];
    if m < 32 {
        return Some(if drop == 0 { format!("1{s}10{}", &after[..3]) } else { format!("1{s}10") });
    }
    let k = after.len();
    let j = (k - 1) / 2;
    let parity = if k % 2 == 1 { '0' } else { '1' };
    Some(format!("1{s}{}0{parity}{}", "1".repeat(j), &after[..j + 1 - drop]))
}

/// What was read: the sign, the decoded magnitude, the error of the code, and the bits it took.
pub struct Read {
    pub negative: bool,
    pub magnitude: u64,
    pub error: u64,
    pub taken: u64,
}

/// Why a code was not read: the number, and what 9 carries.
pub struct Refusal {
    pub number: u8,
    pub missing: Option<u8>,
}

impl From<u8> for Refusal {
    fn from(number: u8) -> Self {
        Refusal { number, missing: None }
    }
}

/// The bits of bytes from a position on; those from position 2^63 on count as past the end.
struct Bits<'a> {
    bytes: &'a [u8],
    at: u64,
}

impl Bits<'_> {
    fn next(&mut self) -> Result<u64, u8> {
        if self.at >= 1 << 63 || self.at / 8 >= self.bytes.len() as u64 {
            return Err(9);
        }
        let bit = self.bytes[(self.at / 8) as usize] >> (7 - self.at % 8) & 1;
        self.at += 1;
        Ok(bit as u64)
    }

    fn number(&mut self, count: usize) -> Result<u64, u8> {
        let mut n = 0;
        for _ in 0..count {
            n = n * 2 + self.next()?;
        }
        Ok(n)
    }
}

/// "Decoding puts 0 for the first bit left out and 1 for the rest."
fn filled(front: u64, left_out: usize) -> u64 {
    if left_out == 0 { front } else { (front << left_out) + (1 << (left_out - 1)) - 1 }
}

/// Reading at a bit position, or 8, 9, 10, 11; what 9 carries is not told yet.
fn parse(bytes: &[u8], at: u64, drop: u8) -> Result<Read, u8> {
    if drop != 0 && drop != 3 {
        return Err(8);
    }
    let drop = drop as usize;
    let mut bits = Bits { bytes, at };
    let done = |bits: &Bits, negative, magnitude, error| Ok(Read { negative, magnitude, error, taken: bits.at - at });
    if bits.next()? == 0 {
        return done(&bits, false, 0, if drop == 3 { 3 } else { 0 });
    }
    let negative = bits.next()? == 1;
    let mut ones = 0;
    while bits.next()? == 1 {
        ones += 1;
        if ones > LONGEST {
            return Err(11);
        }
    }
    if ones == 0 {
        let field = bits.number(4 - drop)?;
        if drop == 0 && field == 0 {
            return Err(10);
        }
        let magnitude = if drop == 3 && field == 0 { 5 } else { filled(field, drop) };
        return done(&bits, negative, magnitude, if drop == 0 { 0 } else { 4 });
    }
    // the leading one, then the bits that were sent, then those left out
    let (sent, left_out, front) = if ones == 1 {
        (3 - drop, 1 + drop, 1)
    } else {
        let even = bits.next()? as usize;
        if ones == LONGEST && even == 1 {
            return Err(11);
        }
        let k = 2 * ones + 1 + even;
        let sent = ones + 1 - drop;
        (sent, k - sent, 1)
    };
    let field = bits.number(sent)?;
    done(&bits, negative, filled((front << sent) + field, left_out), 1 << (left_out - 1))
}

/// The fewest bits that complete an accepted code behind bits that were read, none where they begin no code; all beginnings that are met on
/// the way are noted. Each is tried with a 0 and with a 1 behind it.
fn complete(read: &str, drop: u8, noted: &mut HashMap<String, u8>) -> Option<u8> {
    let (bytes, at) = at_the_end(read);
    match parse(&bytes, at, drop) {
        Ok(_) => Some(0),
        Err(9) if read.len() < LONGEST_CODE => {
            let fewest = ['0', '1'].into_iter().filter_map(|bit| complete(&format!("{read}{bit}"), drop, noted)).min()? + 1;
            noted.insert(read.into(), fewest);
            Some(fewest)
        }
        Err(_) => None,
    }
}

/// Every beginning of a code of a drop, with the fewest bits that complete one.
fn beginnings(drop: u8) -> HashMap<String, u8> {
    let mut noted = HashMap::new();
    complete("", drop, &mut noted);
    noted
}

/// The beginnings of drop 0 and of drop 3, found once.
static BEGINNINGS: [LazyLock<HashMap<String, u8>>; 2] = [LazyLock::new(|| beginnings(0)), LazyLock::new(|| beginnings(3))];

/// "The least number of further bits with which some accepted code could be completed from what was read; at the end exactly, under 2^63,
/// it carries 1, and from any other position past the end, 0."
fn missing(bytes: &[u8], at: u64, drop: u8) -> Option<u8> {
    if at >= 1 << 63 || at > 8 * bytes.len() as u64 {
        return Some(0);
    }
    let mut bits = Bits { bytes, at };
    let read: String = std::iter::from_fn(|| bits.next().ok()).map(|bit| if bit == 1 { '1' } else { '0' }).collect();
    BEGINNINGS[drop as usize / 3].get(&read).copied()
}

/// Reading at a bit position, or 8, 9 with the bits missing, 10, 11.
pub fn read(bytes: &[u8], at: u64, drop: u8) -> Result<Read, Refusal> {
    parse(bytes, at, drop).map_err(|number| match number {
        9 => Refusal { number, missing: missing(bytes, at, drop) },
        _ => Refusal::from(number),
    })
}

/// Packing into a buffer: the next position, or 8 or 3.
pub fn pack(buffer: &mut [u8], at: u64, v: i32, drop: u8) -> Result<u64, u8> {
    let code = code(v as i64, drop).ok_or(8)?;
    let end = at.checked_add(code.len() as u64).ok_or(3)?;
    if end > 1 << 63 || end > 8 * buffer.len() as u64 {
        return Err(3);
    }
    let whole = end.div_ceil(8) * 8;
    for (place, bit) in (at..whole).zip(code.bytes().chain(std::iter::repeat(b'0'))) {
        let mask = 0x80 >> (place % 8);
        let byte = &mut buffer[(place / 8) as usize];
        *byte = if bit == b'1' { *byte | mask } else { *byte & !mask };
    }
    Ok(end)
}

/// Bits, as text, laid into bytes so that nothing stands behind them: those bytes, and the position of the first bit.
pub fn at_the_end(bits: &str) -> (Vec<u8>, u64) {
    let number = bits.bytes().fold(0, |number: u64, bit| number * 2 + (bit - b'0') as u64);
    let count = bits.len().div_ceil(8);
    (number.to_be_bytes()[8 - count..].to_vec(), (8 * count - bits.len()) as u64)
}

/// The edges of a reading, or its refusal; a negative number has none (8). "not under 0".
pub fn edges(bytes: &[u8], at: u64, drop: u8) -> Result<(u64, u64, bool, u64), Refusal> {
    let r = read(bytes, at, drop)?;
    if r.negative && r.magnitude > 0 {
        return Err(Refusal::from(8));
    }
    Ok((r.magnitude.saturating_sub(r.error), r.magnitude + r.error, r.error == 0, at + r.taken))
}
