//! Captures and packets: noise, damage, marks, cuts, packets inside packets, hostile places and buffers.

use crate::lent::Lent;
use crate::packet::{self, Answer};
use crate::random::Random;
use crate::{checksum, raw, some, Tally};

const MARK: [u8; 4] = [0xbe, 0xba, 0xca, 0xfe];

/// One piece of a capture.
fn piece(random: &mut Random, depth: u32) -> Vec<u8> {
    let size = match random.below(40) {
        0 => 8187 - random.below(4),
        1 => random.below(2000),
        _ => random.below(30),
    };
    let mut packet = match random.below(8) {
        0 => return random.bytes(size as usize),
        1 => return MARK.repeat(1 + random.below(6) as usize),
        2 => {
            // a mark, a length word that may be right but for its top bits, and a right checksum of what lies there
            let mut forged = MARK.to_vec();
            let rest = some(random, 20);
            let length = match random.below(3) {
                0 => random.next() as u16 >> random.below(16),
                1 => rest.len() as u16 + 2,
                _ => (rest.len() as u16 + 2) | (1 << (13 + random.below(3))),
            };
            forged.extend(length.to_be_bytes());
            forged.extend(rest);
            let sum = checksum::of(&forged);
            forged.extend(sum.to_be_bytes());
            return forged;
        }
        3 if depth > 0 => packet::bytes(random.next() as u16, &capture(random, depth - 1)),
        _ => {
            let data = random.bytes(size as usize);
            packet::bytes(random.next() as u16, &data)
        }
    };
    let length = packet.len() as u64;
    match random.below(4) {
        0 => packet[random.below(length.min(12)) as usize] ^= 1 << random.below(8),
        1 => packet[random.below(length) as usize] ^= 1 << random.below(8),
        2 if random.below(3) == 0 => packet.truncate(random.below(length) as usize),
        _ => {}
    }
    packet
}

/// A capture of a few pieces; its data fits a packet where it is one's inside.
fn capture(random: &mut Random, depth: u32) -> Vec<u8> {
    let mut all = Vec::new();
    for _ in 0..random.below(4) {
        all.extend(piece(random, depth));
    }
    if depth == 0 {
        all.truncate(8187);
    }
    all
}

fn find(tally: &mut Tally, capture: &[u8], held: u64) {
    let (mut place, mut skipped) = (held, held + 1);
    let number = unsafe { raw::plv_packet_find(capture.as_ptr(), capture.len(), &mut place, &mut skipped) };
    tally.answered("find", number);
    let plain = match packet::find(capture) {
        Answer::Accepted((place, skipped)) => (0, place as u64, skipped as u64),
        Answer::Refused(number) => (number, held, held + 1),
        Answer::RefusedWith(number, skipped) => (number, held, skipped),
    };
    tally.compare(|| format!("find in {capture:02x?}"), (number, place, skipped), plain);
}

fn header(tally: &mut Tally, capture: &[u8], at: u64, held: u16) {
    let (mut apid, mut length) = (held, !held);
    let number = unsafe { raw::plv_packet_header(capture.as_ptr(), capture.len(), at, &mut apid, &mut length) };
    tally.answered("header", number);
    let plain = match packet::header(capture, at as usize) {
        Answer::Accepted((apid, n)) => (0, apid, n as u16),
        Answer::Refused(number) | Answer::RefusedWith(number, _) => (number, held, !held),
    };
    tally.compare(|| format!("header at {at} of {capture:02x?}"), (number, apid, length), plain);
    let (mut start, mut size) = (held as u64, held as u64);
    unsafe { raw::plv_packet_payload(capture.as_ptr(), capture.len(), at, &mut start, &mut size) };
    let part = packet::payload(capture, at as usize);
    let plain = match part.len() {
        0 => (0, 0),
        n => (part.as_ptr() as u64 - capture.as_ptr() as u64, n as u64),
    };
    tally.answered(if size > 0 { "payload of some bytes" } else { "payload of none" }, 0);
    tally.compare(|| format!("payload at {at} of {capture:02x?}"), (start, size), plain);
}

/// A packet of n bytes of data, written into a buffer of so many bytes.
fn write(tally: &mut Tally, random: &mut Random, n: usize, room: usize) {
    let data = random.bytes(n);
    let (apid, held) = (random.next() as u16, random.next());
    let mut proved = Lent::new(&random.bytes(room), random.next() as u8);
    let mut plain = proved.clone();
    let mut written = held;
    let buffer = proved.part();
    let number = unsafe {
        raw::plv_packet_write(buffer.as_mut_ptr(), buffer.len(), apid, data.as_ptr(), data.len(), &mut written)
    };
    tally.answered("write", number);
    let answer = match packet::write(plain.part(), apid, &data) {
        Answer::Accepted(written) => (0, written as u64),
        Answer::Refused(number) | Answer::RefusedWith(number, _) => (number, held),
    };
    tally.compare(|| format!("write {n} bytes into {room}"), (number, written, proved), (answer.0, answer.1, plain));
}

fn sum(tally: &mut Tally, bytes: &[u8]) {
    let sum = unsafe { raw::plv_checksum(bytes.as_ptr(), bytes.len()) };
    tally.compare(|| format!("checksum of {bytes:02x?}"), sum, checksum::of(bytes));
}

/// Packets of several sizes: whole, in noise, cut by the end at each of the first bytes and the last ones, and with one bit of
/// damage in each field and in the middle of the data.
fn packets(random: &mut Random, all: &mut Vec<Vec<u8>>) {
    for n in [0, 1, 2, 5, 100, 8187] {
        let data = random.bytes(n);
        let packet = packet::bytes(random.next() as u16, &data);
        let noise = random.bytes(7);
        all.push(packet.clone());
        all.push([&noise[..], &packet, &noise].concat());
        for cut in (0..packet.len().min(12)).chain(packet.len().saturating_sub(3)..packet.len()) {
            all.push([&noise[..], &packet[..cut]].concat());
        }
        for place in (0..packet.len().min(10)).chain([packet.len() / 2, packet.len() - 2, packet.len() - 1]) {
            let mut damaged = packet.clone();
            damaged[place] ^= 1 << random.below(8);
            all.push([&damaged[..], &packet].concat());
        }
    }
}

/// Captures that are seldom met by chance.
fn chosen(random: &mut Random) -> Vec<Vec<u8>> {
    let mut all = vec![vec![], vec![0xbe], MARK.to_vec()];
    packets(random, &mut all);
    // a good packet inside a good one and inside a damaged one, and marks inside data
    let inner = packet::bytes(7, b"inside");
    let outer = packet::bytes(9, &[&random.bytes(20)[..], &inner, &random.bytes(20)].concat());
    let mut damaged = outer.clone();
    *damaged.last_mut().unwrap() ^= 0x40;
    all.extend([outer, damaged]);
    let marks = packet::bytes(3, &[&MARK[..], &[0x00, 0x04], &MARK].concat());
    all.push([&MARK[..2], &marks].concat());
    // length words under 4, and with top bits set, under a right checksum
    for length in [0u16, 1, 2, 3, 4, 5, 0x2004, 0x4004, 0x8004, 0xe004, 0xffff] {
        let mut forged = [&MARK[..], &length.to_be_bytes(), &[1, 2]].concat();
        let sum = checksum::of(&forged);
        forged.extend(sum.to_be_bytes());
        forged.extend(packet::bytes(1, b"after"));
        all.push(forged);
    }
    // packets back to back, marks everywhere, and the longest captures, with a packet at their very end
    all.push([packet::bytes(1, b"a"), packet::bytes(2, b"bc"), packet::bytes(3, b"")].concat());
    all.push(MARK.repeat(600));
    all.push([&random.bytes(3000)[..], &packet::bytes(77, &random.bytes(500))].concat());
    all.push(random.bytes(65_536));
    for noise in [65_526, 65_527] {
        all.push([&vec![0; noise][..], &packet::bytes(5, b"")].concat());
    }
    all
}

/// Every length of a checksum up to 600 and about a whole packet's; the chosen captures at every place near their front, at their
/// end and far past it; writing at each edge of data and buffer.
fn edges(random: &mut Random, tally: &mut Tally) {
    for length in (0..=600).chain(8195..=8197) {
        sum(tally, &random.bytes(length));
    }
    for filling in [0x00, 0xff, 0xbe] {
        sum(tally, &vec![filling; 8197]);
    }
    for capture in chosen(random) {
        find(tally, &capture, random.next() >> 1);
        let far = [capture.len() as u64, u64::MAX - random.below(12)];
        for at in (0..40).chain(far) {
            header(tally, &capture, at, random.next() as u16);
        }
    }
    for n in [0, 1, 2, 100, 8186, 8187, 8188, 9000] {
        for room in [n, n + 9, n + 10, n + 11, n + 40] {
            write(tally, random, n, room);
        }
    }
}

pub fn drive(random: &mut Random, cases: u64, tally: &mut Tally) {
    edges(random, tally);
    for case in 0..cases {
        let mut capture = capture(random, 2);
        if case % 1000 == 999 {
            let length = 65_534 + random.below(6) as usize;
            capture.extend(random.bytes(length.saturating_sub(capture.len())));
        }
        sum(tally, &capture);
        find(tally, &capture, random.next() >> 1);
        for _ in 0..2 {
            let at = match random.below(8) {
                0 => random.next(),
                1 => u64::MAX - random.below(12),
                2 => random.below(capture.len() as u64 + 12),
                _ => match packet::find(&capture) {
                    Answer::Accepted((place, _)) => place as u64 + random.below(20) / 19,
                    _ => random.below(20),
                },
            };
            header(tally, &capture, at, random.next() as u16);
        }
        let n = match random.below(60) {
            0 => 8180 + random.below(20),
            _ => random.below(40),
        };
        let room = (n + 6 + random.below(8)).saturating_sub(random.below(3) * random.below(40));
        write(tally, random, n as usize, room as usize);
    }
}
