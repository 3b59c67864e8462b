//! Document 01, "Histogram memory": increments, flips and numbered asks; packets are asked in `packet_ask`, in the same row of numbers.

use crate::packet_ask::Inputs;

const FULL: u32 = 67_108_863;

#[derive(Clone, Copy, Debug, PartialEq)]
pub struct Window {
    pub address: u32,
    pub xsize: u8,
    pub ysize: u8,
    pub ystride: u16,
    pub clear: bool,
}

/// What is asked under a number: a window's sum, or a packet. Numbers are wide: whoever holds the state could have written any.
#[derive(Clone, PartialEq)]
pub enum Ask {
    Window { address: u64, xsize: u64, ysize: u64, ystride: u64, clear: bool },
    Packet(Inputs),
}

impl Ask {
    pub fn window(w: &Window) -> Ask {
        let (address, xsize, ysize, ystride) = (w.address as u64, w.xsize as u64, w.ysize as u64, w.ystride as u64);
        Ask::Window { address, xsize, ysize, ystride, clear: w.clear }
    }
}

/// The last accepted ask: its number, what was asked, its sum or its total, and a packet's bytes.
#[derive(Clone)]
pub struct Kept {
    pub number: u64,
    pub ask: Ask,
    pub sum: u64,
    pub bytes: Vec<u8>,
}

#[derive(Clone)]
pub struct State {
    pub words: u64,
    pub upper_active: bool,
    pub kept: Option<Kept>,
}

pub enum Asked {
    New(u64),
    Again(u64),
}

pub fn open(memory: &mut [u32]) -> Result<State, u8> {
    let words = memory.len();
    if words % 2 == 1 || !(2..=524_288).contains(&words) {
        return Err(13);
    }
    memory.fill(0);
    Ok(State { words: words as u64, upper_active: false, kept: None })
}

pub fn fits(memory: &[u32], state: &State) -> Result<usize, u8> {
    let words = memory.len();
    if words % 2 == 1 || !(2..=524_288).contains(&words) || words as u64 != state.words {
        return Err(13);
    }
    Ok(words / 2)
}

pub fn increment(memory: &mut [u32], state: &State, address: u32) -> Result<(), u8> {
    let n = fits(memory, state)?;
    let address = address as usize;
    if address >= n {
        return Err(14);
    }
    let word = &mut memory[if state.upper_active { n + address } else { address }];
    if *word > FULL {
        return Err(16);
    }
    if *word == FULL {
        return Err(15);
    }
    *word += 1;
    Ok(())
}

/// One increment after the other, up to the first that is refused: how many, and by which number it ended.
pub fn increments(memory: &mut [u32], state: &State, addresses: &[u32]) -> Result<(u64, u8), u8> {
    fits(memory, state)?;
    for (count, &address) in addresses.iter().enumerate() {
        if let Err(number) = increment(memory, state, address) {
            return Ok((count as u64, number));
        }
    }
    Ok((addresses.len() as u64, 0))
}

/// The number of the next new ask; none follows a number that no ask can bear.
pub fn next(state: &State) -> Result<u16, u8> {
    match state.kept.as_ref().map(|kept| kept.number) {
        None => Ok(1),
        Some(number @ 0..=65_535) => Ok((number as u16).wrapping_add(1)),
        Some(_) => Err(13),
    }
}

pub fn flip(memory: &[u32], state: &mut State) -> Result<(), u8> {
    fits(memory, state)?;
    state.upper_active = !state.upper_active;
    Ok(())
}

/// The cells in the order of their visits.
pub fn cells(window: &Window) -> Vec<u64> {
    let mut all = Vec::new();
    for r in 0..=window.ysize as u64 {
        for c in 0..=window.xsize as u64 {
            all.push(window.address as u64 + r * (window.xsize as u64 + window.ystride as u64) + c);
        }
    }
    all
}

/// The page that is asked.
pub fn idle<'a>(memory: &'a mut [u32], state: &State) -> &'a mut [u32] {
    let (lower, upper) = memory.split_at_mut(memory.len() / 2);
    if state.upper_active { lower } else { upper }
}

/// A window's sum. "Each visit adds what the word holds then; a clearing ask sets it to 0 at once."
pub fn walk(page: &mut [u32], window: &Window) -> Result<u64, u8> {
    let visited = cells(window);
    if *visited.last().unwrap() >= page.len() as u64 {
        return Err(14);
    }
    if visited.iter().any(|&cell| page[cell as usize] > FULL) {
        return Err(16);
    }
    let mut sum = 0;
    for cell in visited {
        let word = &mut page[cell as usize];
        sum += *word as u64;
        if window.clear {
            *word = 0;
        }
    }
    Ok(sum)
}

/// Whether an ask is the last one once more, all of it the same; else it must bear the next number. 18, 17.
pub fn again(state: &State, number: u16, ask: &Ask) -> Result<bool, u8> {
    if let Some(kept) = &state.kept {
        if number as u64 == kept.number {
            return if kept.ask == *ask { Ok(true) } else { Err(18) };
        }
    }
    let next = match &state.kept {
        None => 1,
        Some(kept) if kept.number == 65_535 => 0,
        Some(kept) => kept.number.saturating_add(1),
    };
    if number as u64 == next { Ok(false) } else { Err(17) }
}

pub fn ask(memory: &mut [u32], state: &mut State, number: u16, window: Window) -> Result<Asked, u8> {
    fits(memory, state)?;
    let asked = Ask::window(&window);
    if again(state, number, &asked)? {
        return Ok(Asked::Again(state.kept.as_ref().unwrap().sum));
    }
    let sum = walk(idle(memory, state), &window)?;
    state.kept = Some(Kept { number: number as u64, ask: asked, sum, bytes: Vec::new() });
    Ok(Asked::New(sum))
}
