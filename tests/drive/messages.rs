//! Messages: of each tag, damaged, cut, forged, with stray bits, and into buffers that are too short.

use crate::lent::Lent;
use crate::random::Random;
use crate::{checksum, message, raw, some, Tally};

/// Some number, small ones as often as large ones, and those beside the ends of each size.
fn number(random: &mut Random) -> u64 {
    match random.below(8) {
        0 => (1u64 << (16 << random.below(2))) - random.below(2),
        _ => random.next() >> random.below(64),
    }
}

/// Bytes that may begin with a message.
fn bytes(random: &mut Random) -> Vec<u8> {
    let mut all = match random.below(6) {
        0 => some(random, 20),
        1 => {
            // any word under a right checksum
            let mut forged = vec![0x3c, 0x3d];
            let size = 2 + 2 * random.below(6) as usize;
            forged.extend(random.bytes(size));
            let sum = checksum::of(&forged);
            forged.extend(sum.to_be_bytes());
            forged
        }
        _ => loop {
            if let Ok(message) = message::bytes(random.next() as u16 & 0x3fff, random.below(4) as u8, number(random)) {
                break message;
            }
        },
    };
    let length = all.len() as u64;
    match random.below(5) {
        0 if length > 0 => all[random.below(length) as usize] ^= 1 << random.below(8),
        1 => all.truncate(random.below(length + 1) as usize),
        2 => all.extend(some(random, 9)),
        _ => {}
    }
    all
}

fn read(tally: &mut Tally, bytes: &[u8], held: u64) {
    let (mut address, mut tag, mut value, mut used) = (held as u16, held as u8, held, !held);
    let number = unsafe {
        raw::plv_message_read(bytes.as_ptr(), bytes.len(), &mut address, &mut tag, &mut value, &mut used)
    };
    tally.answered("read", number);
    let plain = match message::read(bytes) {
        Ok((address, tag, value, used)) => (0, address, tag, value, used as u64),
        Err(number) => (number, held as u16, held as u8, held, !held),
    };
    tally.compare(|| format!("read {bytes:02x?}"), (number, address, tag, value, used), plain);
}

fn write(tally: &mut Tally, buffer: &[u8], address: u16, tag: u8, value: u64, held: u64) {
    let mut proved = Lent::new(buffer, held as u8);
    let mut plain = proved.clone();
    let mut written = held;
    let buffer = proved.part();
    let number = unsafe {
        raw::plv_message_write(buffer.as_mut_ptr(), buffer.len(), address, tag, value, &mut written)
    };
    tally.answered("write", number);
    let answer = match message::write(plain.part(), address, tag, value) {
        Ok(written) => (0, written as u64),
        Err(number) => (number, held),
    };
    tally.compare(
        || format!("write address {address}, tag {tag}, value {value}"),
        (number, written, proved),
        (answer.0, answer.1, plain),
    );
}

/// Messages of each tag, cut at each length, with each single bit of damage, alone and with bytes after them; and writing at
/// every edge of address, tag and value into buffers of each length.
fn edges(random: &mut Random, tally: &mut Tally) {
    for (tag, bits) in [(0, 0), (1, 16), (2, 32), (3, 64)] {
        for round in 0..4 {
            let whole = u64::MAX.checked_shr(64 - bits).unwrap_or(0);
            let value = if round == 0 { whole } else { random.next() & whole };
            let address = if round == 0 { 0x3fff } else { random.next() as u16 & 0x3fff };
            let message = message::bytes(address, tag, value).unwrap();
            for cut in 0..=message.len() {
                read(tally, &message[..cut], random.next());
            }
            for bit in 0..8 * message.len() {
                let mut damaged = message.clone();
                damaged[bit / 8] ^= 1 << (bit % 8);
                read(tally, &damaged, random.next());
                damaged.extend(random.bytes(12));
                read(tally, &damaged, random.next());
            }
            read(tally, &[&message[..], &random.bytes(5)].concat(), random.next());
        }
    }
    for tag in [0, 1, 2, 3, 4, 255] {
        for address in [0, 0x1234, 0x3fff, 0x4000, 0xffff] {
            for value in [0, 1, 0xffff, 0x1_0000, 0xffff_ffff, 0x1_0000_0000, u64::MAX] {
                for room in 0..=20 {
                    write(tally, &random.bytes(room), address, tag, value, random.next());
                }
            }
        }
    }
}

pub fn drive(random: &mut Random, cases: u64, tally: &mut Tally) {
    edges(random, tally);
    for _ in 0..cases {
        let given = bytes(random);
        read(tally, &given, random.next());
        let address = random.next() as u16 >> (2 - random.below(20) / 19 * 2);
        let tag = if random.below(40) == 0 { random.next() as u8 >> random.below(6) } else { random.below(4) as u8 };
        let (value, buffer) = (number(random), some(random, 20));
        write(tally, &buffer, address, tag, value, random.next());
    }
}
