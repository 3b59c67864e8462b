//! Request 2026-07, "Histogram packets in one ask": a table of items run over the idle page, and the data packet of what they gave.

use crate::histogram::{self, Ask, Kept, State, Window};
use crate::{cadence, code, format, packet};

/// "its inputs (low byte, table, flags, initial level, second)". Numbers are wide: whoever holds the state could have written any.
#[derive(Clone, Debug, PartialEq)]
pub struct Inputs {
    pub low: u64,
    pub items: Vec<u64>,
    pub flags: u64,
    pub initial: u64,
    pub second: u64,
}

/// An item: its window, whether res, enc and sum are 0, whether it is sent (t) and adds the result before it (a), and its format.
struct Item {
    window: Window,
    plain: bool,
    sent: bool,
    adds: bool,
    comp: u64,
}

/// "from the top ystride 16, ysize 8, xsize 8, then res 3, enc 3, sum 3, c, t, a, comp 2, address 18".
fn item(word: u64) -> Item {
    let mut left = word;
    let mut field = |bits: u32| {
        let front = left >> (64 - bits);
        left <<= bits;
        front
    };
    let (ystride, ysize, xsize) = (field(16) as u16, field(8) as u8, field(8) as u8);
    let (res, enc, sum) = (field(3), field(3), field(3));
    let (clear, sent, adds) = (field(1) == 1, field(1) == 1, field(1) == 1);
    let (comp, address) = (field(2), field(18) as u32);
    let window = Window { address, xsize, ysize, ystride, clear };
    Item { window, plain: (res, enc, sum) == (0, 0, 0), sent, adds, comp }
}

fn table(inputs: &Inputs) -> Vec<Item> {
    inputs.items.iter().map(|&word| item(word)).collect()
}

/// "Only sum, res and enc of 0 are taken. An item with a .. must follow one without t, so the first can't have it".
fn forbidden(items: &[Item]) -> bool {
    let first_adds = items.first().is_some_and(|first| first.adds);
    let adds_what_was_sent = items.windows(2).any(|two| two[0].sent && two[1].adds);
    first_adds || adds_what_was_sent || items.iter().any(|item| !item.plain)
}

/// The bits of a result in its format; 12 where it is too large for it.
fn bits(comp: u64, result: u64) -> Result<String, u8> {
    Ok(match comp {
        0b00 => format!("{:016b}", format::float16(result)?),
        0b01 => format!("{:08b}", format::log8(result)?),
        0b10 => format!("{:024b}", format::int24(result)?),
        _ => code::code(result as i64, 0).ok_or(12)?,
    })
}

/// The items in order: the bits that are sent, and "the total of its clearing items' own window sums".
fn run(page: &mut [u32], items: &[Item]) -> Result<(String, u64), u8> {
    let (mut sent, mut total, mut result) = (String::new(), 0, 0);
    for item in items {
        let own = histogram::walk(page, &item.window)?;
        result = if item.adds { result + own } else { own };
        if item.sent {
            sent += &bits(item.comp, result)?;
        }
        if item.window.clear {
            total += own;
        }
    }
    Ok((sent, total))
}

/// The packet. "The first byte is two flag bits, a three-bit initial level from the caller and the ending level of the caller's second";
/// then the items, "bit after bit, zeros filling the last byte".
fn packet_of(inputs: &Inputs, ending: u16, sent: &str) -> Vec<u8> {
    let all = format!("{:02b}{:03b}{:03b}{sent}", inputs.flags, inputs.initial, ending);
    let byte = |eight: &[u8]| (0..8).fold(0, |byte, place| byte * 2 + (eight.get(place) == Some(&b'1')) as u8);
    let data: Vec<u8> = all.as_bytes().chunks(8).map(byte).collect();
    packet::bytes(0x0300 + inputs.low as u16, &data)
}

/// A packet's bytes at the front of the lent buffer; 3.
fn lay(buffer: &mut [u8], bytes: &[u8]) -> Result<(), u8> {
    buffer.get_mut(..bytes.len()).ok_or(3)?.copy_from_slice(bytes);
    Ok(())
}

/// What the ask answers: the packet's bytes in the buffer, the total, and whether it was answered before.
pub struct Answered {
    pub written: u64,
    pub total: u64,
    pub again: bool,
}

pub fn ask(memory: &mut [u32], state: &mut State, number: u16, inputs: &Inputs, buffer: &mut [u8]) -> Result<Answered, u8> {
    histogram::fits(memory, state)?;
    let asked = Ask::Packet(inputs.clone());
    if histogram::again(state, number, &asked)? {
        let kept = state.kept.as_ref().unwrap();
        lay(buffer, &kept.bytes)?;
        return Ok(Answered { written: kept.bytes.len() as u64, total: kept.sum, again: true });
    }
    if inputs.items.len() > 64 {
        return Err(23);
    }
    let items = table(inputs);
    if forbidden(&items) {
        return Err(22);
    }
    if inputs.flags > 3 || inputs.initial > 7 {
        return Err(19);
    }
    let ending = cadence::ending(inputs.second as u16)?;
    // the items run on a copy, so that a refusal at any of them leaves the memory as it was
    let mut copy = memory.to_vec();
    let (sent, total) = run(histogram::idle(&mut copy, state), &items)?;
    let bytes = packet_of(inputs, ending, &sent);
    lay(buffer, &bytes)?;
    memory.copy_from_slice(&copy);
    let written = bytes.len() as u64;
    state.kept = Some(Kept { number: number as u64, ask: asked, sum: total, bytes });
    Ok(Answered { written, total, again: false })
}
