//! The proved calls of Plavotesk for benches written in Rust: packets, messages, packed codes, count formats, the cadence and
//! histogram memory with numbered asks.
//!
//! Every call takes all inputs; a bad one is refused by document 01's number ([`Refusal`], by name), and a refusal changes nothing.
//!
//! ```
//! let mut buffer = [0; 64];
//! plavotesk::packet_write(&mut buffer, 0x0301, b"counts").unwrap();
//! let found = plavotesk::packet_find(&buffer).unwrap();
//! assert_eq!(plavotesk::packet_header(&buffer, found.place).unwrap().apid, 0x0301);
//! assert_eq!(plavotesk::packet_payload(&buffer, found.place), b"counts");
//!
//! plavotesk::code_pack(&mut buffer, 0, 100, 0).unwrap();
//! let (decoded, _) = plavotesk::code_unpack(&buffer, 0, 0).unwrap();
//! let (reading, _) = plavotesk::reading(&buffer, 0, 0).unwrap();
//! assert_eq!((decoded, reading), (99, plavotesk::Reading::Between(95.0, 103.0))); // what went in lies in the band
//!
//! let cut = plavotesk::reading(&buffer[..1], 0, 0); // the code has 9 bits, and the last one is cut off
//! assert_eq!(cut, Err(plavotesk::Refusal::BitsRanOut { missing: 1 }));
//! ```
//!
//! The library is built for x86-64 Linux (`bin/build`); a call may come from any thread, and what one call is lent no other is lent.

pub mod raw;

mod board;
mod items;
mod refusal;

pub use board::{Ask, Asked, Fed, Histogram, NotABoard, PacketAnswer, PacketAsk, PacketWritten, StillOpen, Sum, Window};
pub use items::{Format, Item, PacketInputs};
pub use refusal::{Answer, Refusal};

use refusal::{answer, answer_of_code, called};

/// The checksum of bytes. Refuses nothing.
#[must_use]
pub fn checksum(bytes: &[u8]) -> u16 {
    // SAFETY: what is lent is lent as it is; the places are ours.
    called(|| unsafe { raw::plv_checksum(bytes.as_ptr(), bytes.len()) })
}

/// The first packet's place and the bytes skipped before it.
#[derive(Clone, Copy, Debug, PartialEq, Eq)]
pub struct Found {
    pub place: usize,
    pub skipped: u64,
}

/// The first place where a packet stands (mark, length and checksum agree). Refusals 1; 20, which carries the bytes skipped.
pub fn packet_find(capture: &[u8]) -> Answer<Found> {
    let (mut place, mut skipped) = (0, 0);
    // SAFETY: what is lent is lent as it is; the places are ours.
    let number = called(|| unsafe { raw::plv_packet_find(capture.as_ptr(), capture.len(), &mut place, &mut skipped) });
    match Refusal::of(number, 0, Some(skipped)) {
        None => Ok(Found { place: place as usize, skipped }),
        Some(refusal) => Err(refusal),
    }
}

/// A packet's APID and the bytes of its data.
#[derive(Clone, Copy, Debug, PartialEq, Eq)]
pub struct Header {
    pub apid: u16,
    pub length: u16,
}

/// The header of the packet at a place. Refusals 1, 20.
pub fn packet_header(capture: &[u8], place: usize) -> Answer<Header> {
    let (mut apid, mut length) = (0, 0);
    // SAFETY: what is lent is lent as it is; the places are ours.
    let number = called(|| unsafe { raw::plv_packet_header(capture.as_ptr(), capture.len(), place as u64, &mut apid, &mut length) });
    answer(number, Header { apid, length })
}

/// The data of the packet at a place, as a part of the capture; an empty part where no packet stands. Refuses nothing.
#[must_use]
pub fn packet_payload(capture: &[u8], place: usize) -> &[u8] {
    let (mut start, mut length) = (0, 0);
    // SAFETY: what is lent is lent as it is; the places are ours.
    called(|| unsafe { raw::plv_packet_payload(capture.as_ptr(), capture.len(), place as u64, &mut start, &mut length) });
    &capture[start as usize..][..length as usize]
}

/// A packet of a capture: where it stands, its APID, its data, and the bytes skipped since the packet before it.
#[derive(Clone, Copy, Debug, PartialEq, Eq)]
pub struct Packet<'a> {
    pub place: usize,
    pub apid: u16,
    pub data: &'a [u8],
    pub skipped: u64,
}

/// The packets of a capture, one after the other; it ends where none stands any more. Refusal 1.
///
/// ```
/// let mut capture = [0; 40];
/// let first = plavotesk::packet_write(&mut capture[5..], 7, b"one").unwrap();
/// plavotesk::packet_write(&mut capture[5 + first..], 8, b"").unwrap();
/// let seen: Vec<_> = plavotesk::packets(&capture).unwrap().map(|p| (p.place, p.apid, p.data.len(), p.skipped)).collect();
/// assert_eq!(seen, [(5, 7, 3, 5), (18, 8, 0, 0)]);
/// ```
pub fn packets(capture: &[u8]) -> Answer<impl Iterator<Item = Packet<'_>>> {
    if capture.len() > 65_536 {
        return Err(Refusal::CaptureTooLong);
    }
    let mut start = 0;
    Ok(std::iter::from_fn(move || {
        let Found { place, skipped } = packet_find(&capture[start..]).ok()?;
        let place = start + place;
        let (apid, data) = (packet_header(capture, place).ok()?.apid, packet_payload(capture, place));
        start = place + data.len() + 10;
        Some(Packet { place, apid, data, skipped })
    }))
}

/// Writes a packet to the front of a buffer, and answers its bytes. Refusals 2, 3.
pub fn packet_write(buffer: &mut [u8], apid: u16, data: &[u8]) -> Answer<usize> {
    let mut written = 0;
    // SAFETY: what is lent is lent as it is; the places are ours.
    let number = called(|| unsafe { raw::plv_packet_write(buffer.as_mut_ptr(), buffer.len(), apid, data.as_ptr(), data.len(), &mut written) });
    answer(number, written as usize)
}

/// A command message.
#[derive(Clone, Copy, Debug, PartialEq, Eq)]
pub struct Message {
    pub address: u16,
    pub tag: u8,
    pub value: u64,
}

/// The message at the front of the bytes, and the bytes it used. Refusals: under 4 bytes 5, then
/// 4, 5, 6.
pub fn message_read(bytes: &[u8]) -> Answer<(Message, usize)> {
    let (mut address, mut tag, mut value, mut used) = (0, 0, 0, 0);
    // SAFETY: what is lent is lent as it is; the places are ours.
    let number = called(|| unsafe { raw::plv_message_read(bytes.as_ptr(), bytes.len(), &mut address, &mut tag, &mut value, &mut used) });
    answer(number, (Message { address, tag, value }, used as usize))
}

/// Writes a message to the front of a buffer, and answers its bytes. Refusals 7, 3.
pub fn message_write(buffer: &mut [u8], message: Message) -> Answer<usize> {
    let mut written = 0;
    let Message { address, tag, value } = message;
    // SAFETY: what is lent is lent as it is; the places are ours.
    let number = called(|| unsafe { raw::plv_message_write(buffer.as_mut_ptr(), buffer.len(), address, tag, value, &mut written) });
    answer(number, written as usize)
}

/// Packs a number of at most 67,108,863 either way at a bit position, with drop 0 or 3, and answers the next position. Refusals 8, 3.
pub fn code_pack(buffer: &mut [u8], at: u64, value: i32, drop: u8) -> Answer<u64> {
    let mut next = 0;
    // SAFETY: what is lent is lent as it is; the places are ours.
    let number = called(|| unsafe { raw::plv_code_pack(buffer.as_mut_ptr(), buffer.len(), at, value, drop, &mut next) });
    answer(number, next)
}

/// The number that the code at a bit position decodes to, and the next position. It is not the count that went in: a code stands for a
/// band of counts, which [`reading`] gives. Zeros that pad the last byte read as codes of 0: know how many codes there are.
/// Refusals 8; 9, which carries the bits missing; 10, 11.
pub fn code_unpack(bytes: &[u8], at: u64, drop: u8) -> Answer<(i32, u64)> {
    let (mut value, mut next, mut missing) = (0, 0, 0);
    // SAFETY: what is lent is lent as it is; the places are ours.
    let number = called(|| unsafe { raw::plv_code_unpack(bytes.as_ptr(), bytes.len(), at, drop, &mut value, &mut next, &mut missing) });
    answer_of_code(number, missing, (value, next))
}

/// What a packed count means: one exact count, or a band of two.
#[derive(Clone, Copy, Debug, PartialEq)]
pub enum Reading {
    Exact(f64),
    Between(f64, f64),
}

/// The count at a bit position, and the next position. Refusals 8; 9, which carries the bits missing; 10, 11, and 8 for a negative
/// number.
pub fn reading(bytes: &[u8], at: u64, drop: u8) -> Answer<(Reading, u64)> {
    let (mut low, mut high, mut exact, mut next, mut missing) = (0.0, 0.0, 0, 0, 0);
    let (start, length) = (bytes.as_ptr(), bytes.len());
    // SAFETY: what is lent is lent as it is; the places are ours.
    let number = called(|| unsafe { raw::plv_reading(start, length, at, drop, &mut low, &mut high, &mut exact, &mut next, &mut missing) });
    let reading = if exact == 1 { Reading::Exact(low) } else { Reading::Between(low, high) };
    answer_of_code(number, missing, (reading, next))
}

/// A rate: both edges of the count over the seconds of its level.
#[derive(Clone, Copy, Debug, PartialEq)]
pub struct Rate {
    pub low: f64,
    pub high: f64,
    pub seconds: f64,
}

/// The count at a bit position as a rate over the seconds of a level, and the next position. Refusals as of
/// [`reading`], then 19.
pub fn rate(bytes: &[u8], at: u64, drop: u8, level: u8) -> Answer<(Rate, u64)> {
    let (mut low, mut high, mut seconds, mut next, mut missing) = (0.0, 0.0, 0.0, 0, 0);
    let (start, length) = (bytes.as_ptr(), bytes.len());
    // SAFETY: what is lent is lent as it is; the places are ours.
    let number = called(|| unsafe { raw::plv_rate(start, length, at, drop, level, &mut low, &mut high, &mut seconds, &mut next, &mut missing) });
    answer_of_code(number, missing, (Rate { low, high, seconds }, next))
}

/// The 16-bit float of a count. Refusal 12.
pub fn float16_code(count: u64) -> Answer<u16> {
    let mut code = 0;
    // SAFETY: what is lent is lent as it is; the places are ours.
    let number = called(|| unsafe { raw::plv_float16_code(count, &mut code) });
    answer(number, code)
}

/// The count that a 16-bit float means. Refuses nothing.
#[must_use]
pub fn float16_count(code: u16) -> u64 {
    // SAFETY: what is lent is lent as it is; the places are ours.
    called(|| unsafe { raw::plv_float16_count(code) })
}

/// The 8-bit float of a count. Refusal 12.
pub fn float8_code(count: u64) -> Answer<u8> {
    let mut code = 0;
    // SAFETY: what is lent is lent as it is; the places are ours.
    let number = called(|| unsafe { raw::plv_float8_code(count, &mut code) });
    answer(number, code)
}

/// The count that an 8-bit float means. Refuses nothing.
#[must_use]
pub fn float8_count(code: u8) -> u64 {
    // SAFETY: what is lent is lent as it is; the places are ours.
    called(|| unsafe { raw::plv_float8_count(code) })
}

/// The 24-bit integer of a count. Refusal 12.
pub fn int24_code(count: u64) -> Answer<u32> {
    let mut code = 0;
    // SAFETY: what is lent is lent as it is; the places are ours.
    let number = called(|| unsafe { raw::plv_int24_code(count, &mut code) });
    answer(number, code)
}

/// The count that a 24-bit integer means. Refusal 12.
pub fn int24_count(code: u32) -> Answer<u32> {
    let mut count = 0;
    // SAFETY: what is lent is lent as it is; the places are ours.
    let number = called(|| unsafe { raw::plv_int24_count(code, &mut count) });
    answer(number, count)
}

/// The logarithm byte of a count, eight steps to a doubling. Refusal 12.
pub fn log8_code(count: u64) -> Answer<u8> {
    let mut code = 0;
    // SAFETY: what is lent is lent as it is; the places are ours.
    let number = called(|| unsafe { raw::plv_log8_code(count, &mut code) });
    answer(number, code)
}

/// The smallest and the largest count that give a logarithm byte; `None` where no count gives it. A byte stands for a run of counts, not
/// for one count. Refuses nothing.
///
/// ```
/// assert_eq!(plavotesk::log8_code(100), Ok(61));
/// assert_eq!(plavotesk::log8_counts(61), Some((99, 107))); // what went in lies among them
/// assert_eq!(plavotesk::log8_counts(7), None);
/// ```
#[must_use]
pub fn log8_counts(code: u8) -> Option<(u64, u64)> {
    let (mut low, mut high, mut some) = (0, 0, 0);
    // SAFETY: what is lent is lent as it is; the places are ours.
    called(|| unsafe { raw::plv_log8_counts(code, &mut low, &mut high, &mut some) });
    (some == 1).then_some((low, high))
}

/// The seconds that a level lasts. Refusal 19.
pub fn level_seconds(level: u8) -> Answer<u16> {
    let mut seconds = 0;
    // SAFETY: what is lent is lent as it is; the places are ours.
    let number = called(|| unsafe { raw::plv_level_seconds(level, &mut seconds) });
    answer(number, seconds)
}

/// The level that begins in a second of the hour. Refusal 19.
pub fn second_beginning(second: u16) -> Answer<u8> {
    let mut level = 0;
    // SAFETY: what is lent is lent as it is; the places are ours.
    let number = called(|| unsafe { raw::plv_second_beginning(second, &mut level) });
    answer(number, level)
}

/// The level that ends in a second of the hour. Refusal 19.
pub fn second_ending(second: u16) -> Answer<u8> {
    let mut level = 0;
    // SAFETY: what is lent is lent as it is; the places are ours.
    let number = called(|| unsafe { raw::plv_second_ending(second, &mut level) });
    answer(number, level)
}
