//! Document 01, "Cadence".

const LENGTHS: [u16; 8] = [1, 5, 10, 30, 60, 300, 600, 3600];

pub fn seconds(level: u8) -> Result<u16, u8> {
    LENGTHS.get(level as usize).copied().ok_or(19)
}

fn highest(t: u16) -> usize {
    (0..8).rev().find(|&level| t % LENGTHS[level] == 0).unwrap()
}

pub fn beginning(t: u16) -> Result<u16, u8> {
    if t < 3600 { Ok(highest(t) as u16) } else { Err(19) }
}

pub fn ending(t: u16) -> Result<u16, u8> {
    if t < 3600 { Ok(highest(t + 1) as u16) } else { Err(19) }
}
