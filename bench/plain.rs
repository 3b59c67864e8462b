//! The same work in plain Rust, as a bench programmer would write it: idiomatic, safe, and with a table for the checksum. Built
//! twice: as it is, and with each of these calls kept a call, as those of a library are.

const MARK: [u8; 4] = [0xbe, 0xba, 0xca, 0xfe];
const SIZES: [usize; 4] = [0, 2, 4, 8];
const FULL: u32 = 67_108_863;
const LENGTHS: [u16; 8] = [1, 5, 10, 30, 60, 300, 600, 3600];
/// The largest number that is packed, either way.
pub const LARGEST: u64 = 67_108_863;
/// The most ones of a code, which stand before two zeros.
const LONGEST: u64 = 12;
/// The eight steps of a doubling: 2^(31 + i/8), rounded up.
const STEPS: [u32; 8] = [2_147_483_648, 2_341_847_524, 2_553_802_834, 2_784_941_738, 3_037_000_500, 3_311_872_530, 3_611_622_603, 3_938_502_376];

static TABLE: [u16; 256] = table();

const fn table() -> [u16; 256] {
    let mut table = [0; 256];
    let mut index = 0;
    while index < 256 {
        let mut register = (index as u16) << 8;
        let mut bit = 0;
        while bit < 8 {
            register = if register & 0x8000 != 0 { register << 1 ^ 0x1021 } else { register << 1 };
            bit += 1;
        }
        table[index] = register;
        index += 1;
    }
    table
}

#[cfg_attr(called, inline(never))]
pub fn checksum(bytes: &[u8]) -> u16 {
    bytes.iter().fold(0xffff, |register, &byte| register << 8 ^ TABLE[(register >> 8 ^ byte as u16) as usize])
}

fn word(bytes: &[u8], at: usize) -> u16 {
    u16::from_be_bytes([bytes[at], bytes[at + 1]])
}

fn stands(capture: &[u8], place: usize) -> Option<usize> {
    let from = capture.get(place..)?;
    if !from.starts_with(&MARK) || from.len() < 10 {
        return None;
    }
    let length = word(from, 4) as usize;
    if length > 0x1fff || length < 4 {
        return None;
    }
    let n = length - 4;
    let whole = from.get(..n + 10)?;
    (checksum(&whole[..n + 8]) == word(whole, n + 8)).then_some(n)
}

#[cfg_attr(called, inline(never))]
pub fn find(capture: &[u8]) -> Result<usize, u8> {
    if capture.len() > 65_536 {
        return Err(1);
    }
    (0..capture.len()).find(|&place| stands(capture, place).is_some()).ok_or(20)
}

#[cfg_attr(called, inline(never))]
pub fn write_packet(buffer: &mut [u8], apid: u16, data: &[u8]) -> Result<usize, u8> {
    let n = data.len();
    if n > 8187 {
        return Err(2);
    }
    let whole = buffer.get_mut(..n + 10).ok_or(3)?;
    whole[..4].copy_from_slice(&MARK);
    whole[4..6].copy_from_slice(&(n as u16 + 4).to_be_bytes());
    whole[6..8].copy_from_slice(&apid.to_be_bytes());
    whole[8..n + 8].copy_from_slice(data);
    let sum = checksum(&whole[..n + 8]);
    whole[n + 8..].copy_from_slice(&sum.to_be_bytes());
    Ok(n + 10)
}

#[cfg_attr(called, inline(never))]
pub fn read_message(bytes: &[u8]) -> Result<(u16, u8, u64, usize), u8> {
    if bytes.len() < 4 {
        return Err(5);
    }
    if bytes[..2] != [0x3c, 0x3d] {
        return Err(4);
    }
    let head = word(bytes, 2);
    let tag = head >> 14;
    let size = SIZES[tag as usize];
    let whole = bytes.get(..size + 6).ok_or(5)?;
    if checksum(&whole[..size + 4]) != word(whole, size + 4) {
        return Err(6);
    }
    let value = whole[4..size + 4].iter().fold(0, |value, &byte| value << 8 | byte as u64);
    Ok((head & 0x3fff, tag as u8, value, size + 6))
}

#[cfg_attr(called, inline(never))]
pub fn write_message(buffer: &mut [u8], address: u16, tag: u8, value: u64) -> Result<usize, u8> {
    if address > 0x3fff || tag > 3 {
        return Err(7);
    }
    let size = SIZES[tag as usize];
    if size < 8 && value >> (8 * size) != 0 {
        return Err(7);
    }
    let whole = buffer.get_mut(..size + 6).ok_or(3)?;
    whole[..2].copy_from_slice(&[0x3c, 0x3d]);
    whole[2..4].copy_from_slice(&((tag as u16) << 14 | address).to_be_bytes());
    whole[4..size + 4].copy_from_slice(&value.to_be_bytes()[8 - size..]);
    let sum = checksum(&whole[..size + 4]);
    whole[size + 4..].copy_from_slice(&sum.to_be_bytes());
    Ok(size + 6)
}

/// The bits of a number's code, right-aligned, and how many they are.
fn code(value: i32, drop: u8) -> Result<(u64, u32), u8> {
    let m = value.unsigned_abs() as u64;
    if !matches!(drop, 0 | 3) || m > LARGEST {
        return Err(8);
    }
    let (s, drop) = ((value < 0) as u64, drop as u32);
    if m == 0 || drop == 3 && m < 4 {
        return Ok((0, 1));
    }
    if m < 16 {
        return Ok(((0b100 | s << 1) << (4 - drop) | m >> drop, 7 - drop));
    }
    if m < 32 {
        return Ok(((0b1010 | s << 2) << (3 - drop) | (m & 15) >> (1 + drop), 7 - drop));
    }
    let k = 63 - m.leading_zeros();
    let j = (k - 1) / 2;
    let sent = j + 1 - drop;
    let front = (0b10 | s) << (j + 2) | ((1 << j) - 1) << 2 | (k % 2 == 0) as u64;
    Ok((front << sent | (m ^ 1 << k) >> (k - sent), j + 4 + sent))
}

#[cfg_attr(called, inline(never))]
pub fn pack(buffer: &mut [u8], at: u64, value: i32, drop: u8) -> Result<u64, u8> {
    let (bits, length) = code(value, drop)?;
    let end = at.checked_add(length as u64).filter(|&end| end <= 1 << 63 && end <= 8 * buffer.len() as u64).ok_or(3)?;
    let pad = (8 - end % 8) % 8;
    let (mut place, mut left, bits) = (at, length as u64 + pad, bits << pad);
    while left > 0 {
        let room = 8 - place % 8;
        let byte = &mut buffer[(place / 8) as usize];
        left -= room;
        let mask = (1u64 << room) - 1;
        *byte = *byte & !mask as u8 | (bits >> left & mask) as u8;
        place += room;
    }
    Ok(end)
}

/// Why a code is not read: the number, and with 9 how many bits are missing at least.
#[derive(Debug)]
pub struct Unread {
    pub number: u8,
    pub missing: u8,
}

fn unread(number: u8) -> Unread {
    Unread { number, missing: 0 }
}

fn bit(bytes: &[u8], at: u64) -> Option<u64> {
    if at >= 1 << 63 {
        return None;
    }
    let byte = bytes.get((at / 8) as usize)?;
    Some((byte >> (7 - at % 8) & 1) as u64)
}

/// So many bits, behind which so many more stand at least.
fn field(bytes: &[u8], at: &mut u64, count: u64, behind: u64) -> Result<u64, Unread> {
    let mut value = 0;
    for read in 0..count {
        value = value << 1 | bit(bytes, *at).ok_or_else(|| Unread { number: 9, missing: (count - read + behind) as u8 })?;
        *at += 1;
    }
    Ok(value)
}

/// The bits behind a run of ones and its zero.
fn behind_run(ones: u64, drop: u64) -> u64 {
    match ones {
        0 => 4 - drop,
        1 => 3 - drop,
        _ => ones + 2 - drop,
    }
}

#[cfg_attr(called, inline(never))]
pub fn unpack(bytes: &[u8], at: u64, drop: u8) -> Result<(i32, u64), Unread> {
    if !matches!(drop, 0 | 3) {
        return Err(unread(8));
    }
    if at >= 1 << 63 || at > 8 * bytes.len() as u64 {
        return Err(unread(9));
    }
    let drop = drop as u64;
    let mut at = at;
    if field(bytes, &mut at, 1, 0)? == 0 {
        return Ok((0, at));
    }
    let negative = field(bytes, &mut at, 1, 5 - drop)? == 1;
    let mut ones = 0;
    while field(bytes, &mut at, 1, behind_run(ones, drop))? == 1 {
        ones += 1;
        if ones > LONGEST {
            return Err(unread(11));
        }
    }
    let (front, sent, left) = match ones {
        0 => (0, 4 - drop, drop),
        1 => (1, 3 - drop, 1 + drop),
        _ => {
            let sent = ones + 1 - drop;
            let even = field(bytes, &mut at, 1, sent)?;
            if ones == LONGEST && even == 1 {
                return Err(unread(11));
            }
            (1, sent, 2 * ones + 1 + even - sent)
        }
    };
    let value = field(bytes, &mut at, sent, 0)?;
    if ones == 0 && drop == 0 && value == 0 {
        return Err(unread(10));
    }
    let magnitude = match left {
        0 => front << sent | value,
        _ if ones == 0 && value == 0 => 5,
        _ => (front << sent | value) << left | (1 << (left - 1)) - 1,
    };
    Ok((if negative { -(magnitude as i32) } else { magnitude as i32 }, at))
}

#[cfg_attr(called, inline(never))]
pub fn log8_code(count: u64) -> Result<u8, u8> {
    if count > 2_147_483_647 {
        return Err(12);
    }
    if count == 0 {
        return Ok(0);
    }
    let zeros = (count as u32).leading_zeros();
    let led = (count as u32) << zeros;
    let passed = STEPS[1..].iter().filter(|&&step| step <= led).count();
    Ok((8 * (32 - zeros as usize) + passed) as u8)
}

/// The first count whose byte is not below this one, from 8 to 256.
fn first(byte: u64) -> u64 {
    (STEPS[byte as usize % 8] as u64 - 1 >> (32 - byte / 8)) + 1
}

#[cfg_attr(called, inline(never))]
pub fn log8_counts(code: u8) -> Option<(u64, u64)> {
    match code as u64 {
        0 => Some((0, 0)),
        1..=7 => None,
        byte => {
            let (low, high) = (first(byte), first(byte + 1) - 1);
            (low <= high).then_some((low, high))
        }
    }
}

#[derive(Clone, Copy, PartialEq)]
pub struct Window {
    pub address: u32,
    pub xsize: u8,
    pub ysize: u8,
    pub ystride: u16,
    pub clear: bool,
}

/// Walks a window of a page: its sum. Each row is shown before it is cleared.
fn walk(page: &mut [u32], window: Window, mut shown: impl FnMut(usize, &[u32])) -> Result<u64, u8> {
    let Window { address, xsize, ysize, ystride, clear } = window;
    let step = xsize as usize + ystride as usize;
    let rows = (0..=ysize as usize).map(|r| address as usize + r * step);
    if address as usize + ysize as usize * step + xsize as usize >= page.len() {
        return Err(14);
    }
    if rows.clone().any(|row| page[row..=row + xsize as usize].iter().any(|&word| word > FULL)) {
        return Err(16);
    }
    let mut sum = 0;
    for row in rows {
        let words = &mut page[row..=row + xsize as usize];
        shown(row, words);
        for word in words {
            sum += *word as u64;
            if clear {
                *word = 0;
            }
        }
    }
    Ok(sum)
}

/// What was cleared, row by row, so that it can be put back.
#[derive(Default)]
struct Cleared {
    rows: Vec<(usize, usize)>,
    words: Vec<u32>,
}

impl Cleared {
    fn note(&mut self, row: usize, words: &[u32]) {
        self.rows.push((row, self.words.len()));
        self.words.extend_from_slice(words);
    }

    /// The last row first: where rows overlap, the first had what was there.
    fn put_back(&mut self, page: &mut [u32]) {
        for (row, from) in self.rows.drain(..).rev() {
            let words = &self.words[from..];
            page[row..row + words.len()].copy_from_slice(words);
            self.words.truncate(from);
        }
    }
}

/// Bits one after the other, from the top of each byte.
struct Bits {
    bytes: [u8; 240],
    length: usize,
    held: u64,
    count: u32,
}

impl Bits {
    fn push(&mut self, bits: u64, count: u32) {
        self.held = self.held << count | bits;
        self.count += count;
        while self.count >= 8 {
            self.count -= 8;
            self.bytes[self.length] = (self.held >> self.count) as u8;
            self.length += 1;
        }
    }

    /// The bytes, the last one filled with zeros.
    fn whole(&mut self) -> &[u8] {
        if self.count > 0 {
            self.push(0, 8 - self.count);
        }
        &self.bytes[..self.length]
    }
}

fn float16_code(count: u64) -> Result<u64, u8> {
    match count {
        0..=4095 => Ok(count),
        4096..=134_217_727 => {
            let e = 52 - count.leading_zeros() as u64;
            Ok(e << 12 | count >> (e - 1) & 4095)
        }
        _ => Err(12),
    }
}

/// A result's bits in a format, right-aligned, and how many they are.
fn sent(format: u64, result: u64) -> Result<(u64, u32), u8> {
    match format {
        0 => Ok((float16_code(result)?, 16)),
        1 => Ok((log8_code(result)? as u64, 8)),
        2 => if result <= 16_777_215 { Ok((result, 24)) } else { Err(12) },
        _ => if result <= LARGEST { code(result as i32, 0) } else { Err(12) },
    }
}

/// The bits of an item beside its window: cleared, sent, with the result before it; and those that must be 0.
const CLEAR: u64 = 1 << 22;
const SEND: u64 = 1 << 21;
const ADD: u64 = 1 << 20;
const FORBIDDEN: u64 = 0x1ff << 23;

/// What a packet is asked with, beside its number.
#[derive(Clone, Copy, PartialEq)]
pub struct Inputs<'a> {
    pub low: u8,
    pub items: &'a [u64],
    pub flags: u8,
    pub initial: u8,
    pub second: u16,
}

fn forbidden(items: &[u64]) -> bool {
    items.first().is_some_and(|item| item & ADD != 0)
        || items.iter().any(|item| item & FORBIDDEN != 0)
        || items.windows(2).any(|two| two[0] & SEND != 0 && two[1] & ADD != 0)
}

/// Runs the items over a page and writes their packet: its bytes, and what was cleared in all.
fn build(page: &mut [u32], inputs: Inputs, buffer: &mut [u8], cleared: &mut Cleared) -> Result<(usize, u64), u8> {
    let ending = (0..8).rev().find(|&level| (inputs.second + 1) % LENGTHS[level] == 0).unwrap_or(0);
    let mut data = Bits { bytes: [0; 240], length: 0, held: 0, count: 0 };
    data.push((inputs.flags as u64) << 6 | (inputs.initial as u64) << 3 | ending as u64, 8);
    let (mut total, mut result) = (0, 0);
    for &item in inputs.items {
        let clear = item & CLEAR != 0;
        let (xsize, ysize, ystride) = ((item >> 32) as u8, (item >> 40) as u8, (item >> 48) as u16);
        let window = Window { address: item as u32 & 0x3ffff, xsize, ysize, ystride, clear };
        let sum = if clear { walk(page, window, |row, words| cleared.note(row, words))? } else { walk(page, window, |_, _| {})? };
        result = if item & ADD != 0 { result + sum } else { sum };
        if clear {
            total += sum;
        }
        if item & SEND != 0 {
            let (bits, count) = sent(item >> 18 & 3, result)?;
            data.push(bits, count);
        }
    }
    Ok((write_packet(buffer, 0x0300 | inputs.low as u16, data.whole())?, total))
}

/// The last ask: of a window, or of the packet that is kept.
#[derive(Clone, Copy, PartialEq)]
pub enum Asked {
    Window(Window),
    Packet,
}

/// The packet that was asked last: its inputs and its bytes.
#[derive(Default)]
struct Packet {
    low: u8,
    items: Vec<u64>,
    flags: u8,
    initial: u8,
    second: u16,
    bytes: Vec<u8>,
}

/// Histogram memory: two pages, the active one, and the last ask.
pub struct Histogram {
    pub memory: Vec<u32>,
    pub upper: bool,
    pub kept: Option<(u16, Asked, u64)>,
    packet: Packet,
    cleared: Cleared,
}

impl Histogram {
    pub fn open(words: usize) -> Histogram {
        Histogram { memory: vec![0; words], upper: false, kept: None, packet: Packet::default(), cleared: Cleared::default() }
    }

    #[cfg_attr(called, inline(never))]
    pub fn clear_all(&mut self) {
        self.memory.fill(0);
        self.upper = false;
        self.kept = None;
    }

    fn pages(&mut self) -> (&mut [u32], &mut [u32]) {
        let half = self.memory.len() / 2;
        let (lower, upper) = self.memory.split_at_mut(half);
        if self.upper { (upper, lower) } else { (lower, upper) }
    }

    #[cfg_attr(called, inline(never))]
    pub fn increment(&mut self, address: u32) -> Result<(), u8> {
        let word = self.pages().0.get_mut(address as usize).ok_or(14)?;
        match *word {
            FULL => Err(15),
            above if above > FULL => Err(16),
            _ => {
                *word += 1;
                Ok(())
            }
        }
    }

    #[cfg_attr(called, inline(never))]
    pub fn flip(&mut self) {
        self.upper = !self.upper;
    }

    #[cfg_attr(called, inline(never))]
    pub fn ask(&mut self, number: u16, window: Window) -> Result<(u64, bool), u8> {
        match self.kept {
            Some((last, kept, sum)) if last == number => return if kept == Asked::Window(window) { Ok((sum, true)) } else { Err(18) },
            Some((last, _, _)) if last.wrapping_add(1) == number => {}
            None if number == 1 => {}
            _ => return Err(17),
        }
        let sum = walk(self.pages().1, window, |_, _| {})?;
        self.kept = Some((number, Asked::Window(window), sum));
        Ok((sum, false))
    }

    #[cfg_attr(called, inline(never))]
    pub fn packet(&mut self, number: u16, inputs: Inputs, buffer: &mut [u8]) -> Result<(usize, u64, bool), u8> {
        match self.kept {
            Some((last, asked, total)) if last == number => {
                let Packet { low, items, flags, initial, second, bytes } = &self.packet;
                let kept = Inputs { low: *low, items, flags: *flags, initial: *initial, second: *second };
                if asked != Asked::Packet || kept != inputs {
                    return Err(18);
                }
                buffer.get_mut(..bytes.len()).ok_or(3)?.copy_from_slice(bytes);
                return Ok((bytes.len(), total, true));
            }
            Some((last, _, _)) if last.wrapping_add(1) == number => {}
            None if number == 1 => {}
            _ => return Err(17),
        }
        let Inputs { low, items, flags, initial, second } = inputs;
        if items.len() > 64 {
            return Err(23);
        }
        if forbidden(items) {
            return Err(22);
        }
        if flags > 3 || initial > 7 || second > 3599 {
            return Err(19);
        }
        // the rows are kept from ask to ask, so that their memory is not got anew
        let mut cleared = std::mem::take(&mut self.cleared);
        let built = build(self.pages().1, inputs, buffer, &mut cleared);
        match built {
            Ok((written, total)) => {
                cleared.rows.clear();
                cleared.words.clear();
                let packet = &mut self.packet;
                (packet.low, packet.flags, packet.initial, packet.second) = (low, flags, initial, second);
                packet.items.clear();
                packet.items.extend_from_slice(items);
                packet.bytes.clear();
                packet.bytes.extend_from_slice(&buffer[..written]);
                self.kept = Some((number, Asked::Packet, total));
            }
            Err(_) => cleared.put_back(self.pages().1),
        }
        self.cleared = cleared;
        built.map(|(written, total)| (written, total, false))
    }
}
