//! Document 01, "Packets and messages": messages read and written.

use crate::checksum;

const SIZES: [usize; 4] = [0, 2, 4, 8];

/// Address, tag, value and the bytes used; or the refusal.
pub fn read(bytes: &[u8]) -> Result<(u16, u8, u64, usize), u8> {
    if bytes.len() < 4 {
        return Err(5);
    }
    if bytes[..2] != [0x3c, 0x3d] {
        return Err(4);
    }
    let word = u16::from_be_bytes([bytes[2], bytes[3]]);
    let (tag, address) = (word >> 14, word & 0x3fff);
    let size = SIZES[tag as usize];
    if bytes.len() < size + 6 {
        return Err(5);
    }
    let (covered, sum) = bytes[..size + 6].split_at(size + 4);
    if checksum::of(covered).to_be_bytes() != sum {
        return Err(6);
    }
    let mut value = [0; 8];
    value[8 - size..].copy_from_slice(&covered[4..]);
    Ok((address, tag as u8, u64::from_be_bytes(value), size + 6))
}

/// The bytes of a message, or 7.
pub fn bytes(address: u16, tag: u8, value: u64) -> Result<Vec<u8>, u8> {
    if address > 0x3fff || tag > 3 {
        return Err(7);
    }
    let size = SIZES[tag as usize];
    if size < 8 && value >> (8 * size) != 0 {
        return Err(7);
    }
    let mut all = vec![0x3c, 0x3d];
    all.extend(((tag as u16) << 14 | address).to_be_bytes());
    all.extend(&value.to_be_bytes()[8 - size..]);
    let sum = checksum::of(&all);
    all.extend(sum.to_be_bytes());
    Ok(all)
}

/// Writing into a buffer.
pub fn write(buffer: &mut [u8], address: u16, tag: u8, value: u64) -> Result<usize, u8> {
    let message = bytes(address, tag, value)?;
    if buffer.len() < message.len() {
        return Err(3);
    }
    buffer[..message.len()].copy_from_slice(&message);
    Ok(message.len())
}
