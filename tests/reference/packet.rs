//! Document 01, "Packets and messages": packets found, taken apart and written.

use crate::checksum;

/// A refusal: its number, and what it carries.
pub enum Answer<T> {
    Accepted(T),
    Refused(u8),
    RefusedWith(u8, u64),
}

fn word(bytes: &[u8]) -> usize {
    bytes[0] as usize * 256 + bytes[1] as usize
}

/// The data's length n of the packet at a place, if one stands there: all of it lies in the capture, and mark, length and
/// checksum agree.
fn stands(capture: &[u8], place: usize) -> Option<usize> {
    let from = capture.get(place..)?;
    if !from.starts_with(&[0xbe, 0xba, 0xca, 0xfe]) || from.len() < 6 {
        return None;
    }
    let length = word(&from[4..]);
    if length >> 13 != 0 {
        return None;
    }
    let n = (length & 0x1fff).checked_sub(4)?;
    let whole = from.get(..n + 10)?;
    let sum = checksum::of(&whole[..n + 8]) as usize;
    (sum == word(&whole[n + 8..])).then_some(n)
}

/// The first place and the bytes skipped before it.
pub fn find(capture: &[u8]) -> Answer<(usize, usize)> {
    if capture.len() > 65_536 {
        return Answer::Refused(1);
    }
    let failed = (0..capture.len()).take_while(|&place| stands(capture, place).is_none()).count();
    if failed < capture.len() {
        Answer::Accepted((failed, failed))
    } else {
        Answer::RefusedWith(20, failed as u64)
    }
}

/// APID and n.
pub fn header(capture: &[u8], place: usize) -> Answer<(u16, usize)> {
    if capture.len() > 65_536 {
        return Answer::Refused(1);
    }
    match stands(capture, place) {
        Some(n) => Answer::Accepted((word(&capture[place + 6..]) as u16, n)),
        None => Answer::Refused(20),
    }
}

/// The data, empty where no packet stands.
pub fn payload(capture: &[u8], place: usize) -> &[u8] {
    match header(capture, place) {
        Answer::Accepted((_, n)) => &capture[place + 8..place + 8 + n],
        _ => &[],
    }
}

/// The bytes of a packet.
pub fn bytes(apid: u16, data: &[u8]) -> Vec<u8> {
    let mut all = vec![0xbe, 0xba, 0xca, 0xfe];
    all.extend((data.len() as u16 + 4).to_be_bytes());
    all.extend(apid.to_be_bytes());
    all.extend(data);
    let sum = checksum::of(&all);
    all.extend(sum.to_be_bytes());
    all
}

/// Writing into a buffer.
pub fn write(buffer: &mut [u8], apid: u16, data: &[u8]) -> Answer<usize> {
    if data.len() > 8187 {
        return Answer::Refused(2);
    }
    if buffer.len() < data.len() + 10 {
        return Answer::Refused(3);
    }
    let packet = bytes(apid, data);
    buffer[..packet.len()].copy_from_slice(&packet);
    Answer::Accepted(packet.len())
}
