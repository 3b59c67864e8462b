//! Document 01, "Plain formats", and request 2026-01, "Logarithm bytes".

/// The value of a float's code with so many mantissa bits.
pub fn value(code: u64, mantissa: u32) -> u64 {
    let f = code & ((1 << mantissa) - 1);
    let e = code >> mantissa;
    if e == 0 { f } else { (f + (1 << mantissa)) << (e - 1) }
}

/// The first number from `start` on of which something no longer holds, looked for by halves; `end` where it holds of all before.
fn until(start: u64, end: u64, holds: impl Fn(u64) -> bool) -> u64 {
    let (mut low, mut high) = (start, end);
    while low < high {
        let middle = (low + high) / 2;
        if holds(middle) { low = middle + 1 } else { high = middle }
    }
    low
}

/// The largest code whose value is not above the count.
pub fn code(count: u64, mantissa: u32, bits: u32, limit: u64) -> Result<u64, u8> {
    if count >= limit {
        return Err(12);
    }
    Ok(until(0, 1 << bits, |code| value(code, mantissa) <= count) - 1)
}

pub fn float16(count: u64) -> Result<u64, u8> {
    code(count, 12, 16, 1 << 27)
}

pub fn float8(count: u64) -> Result<u64, u8> {
    code(count, 3, 8, 1 << 34)
}

pub fn int24(n: u64) -> Result<u64, u8> {
    if n <= 16_777_215 { Ok(n) } else { Err(12) }
}

/// The largest count that has a logarithm byte.
const LAST: u64 = 2_147_483_647;

/// A whole number under 2^256 in eight words, the highest first, so that arrays compare as their numbers do.
type Wide = [u32; 8];

/// 2 to so many.
fn power_of_two(exponent: u64) -> Wide {
    let mut power = [0; 8];
    power[7 - exponent as usize / 32] = 1 << (exponent % 32);
    power
}

/// A wide number times a count, word by word as on paper.
fn times(wide: Wide, count: u64) -> Wide {
    let (mut product, mut carried) = (wide, 0);
    for word in product.iter_mut().rev() {
        carried += *word as u64 * count;
        *word = carried as u32;
        carried >>= 32;
    }
    product
}

/// A count to the eighth power.
fn eighth_power(count: u64) -> Wide {
    (0..8).fold(power_of_two(0), |power, _| times(power, count))
}

/// Count 0 is 0; count c, from 1 on, is the largest v with 2^(v-8) not above c to the eighth power.
pub fn log8(count: u64) -> Result<u64, u8> {
    if count > LAST {
        return Err(12);
    }
    if count == 0 {
        return Ok(0);
    }
    let power = eighth_power(count);
    // 8 is always such a v, since 2^0 is above no count's power
    Ok(until(8, 256, |v| power_of_two(v - 8) <= power) - 1)
}

/// The smallest and the largest count that give a byte; none where no count does.
pub fn log8_counts(byte: u8) -> Option<(u64, u64)> {
    let of = |count| log8(count).unwrap();
    let smallest = until(0, LAST + 1, |count| of(count) < byte as u64);
    let after = until(0, LAST + 1, |count| of(count) <= byte as u64);
    (smallest < after).then(|| (smallest, after - 1))
}
