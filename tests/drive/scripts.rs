//! Long scripts of histogram calls on one memory: new asks of both kinds, repeats, asks out of turn, and now and then a memory or a
//! state that somebody forged. After every call the whole memory, the whole state, every lent place and the buffer are compared.

use crate::histogram::{self, Ask, Asked, Window};
use crate::lent::Lent;
use crate::packet_ask::{self, Inputs};
use crate::packet_asks::{changed, table};
use crate::random::Random;
use crate::raw::STATE_WORDS;
use crate::{raw, stored, Tally};

const FULL: u32 = 67_108_863;

/// Memory and state words as one of the two programs has them.
#[derive(Clone, Debug, PartialEq)]
struct Board {
    memory: Lent<u32>,
    state: Lent<u64>,
}

fn open(board: &mut Board) -> u8 {
    let (memory, state) = (board.memory.part(), board.state.part());
    unsafe { raw::plv_histogram_open(memory.as_mut_ptr(), memory.len(), state.as_mut_ptr(), state.len()) }
}

fn open_plain(board: &mut Board) -> Result<(), u8> {
    stored::state(board.state.part())?;
    let opened = histogram::open(board.memory.part())?;
    stored::opened(board.state.part(), &opened);
    Ok(())
}

fn increment(board: &mut Board, address: u32) -> u8 {
    let (memory, state) = (board.memory.part(), board.state.part());
    unsafe { raw::plv_histogram_increment(memory.as_mut_ptr(), memory.len(), state.as_ptr(), state.len(), address) }
}

fn increment_plain(board: &mut Board, address: u32) -> Result<(), u8> {
    let state = stored::state(board.state.part())?;
    histogram::increment(board.memory.part(), &state, address)
}

/// A run's number, and the two lent places, which held something before.
fn increments(board: &mut Board, addresses: &[u32], held: u64) -> (u8, u64, u8) {
    let (mut count, mut ended) = (held, held as u8);
    let (memory, state) = (board.memory.part(), board.state.part());
    let refused = unsafe {
        raw::plv_histogram_increments(
            memory.as_mut_ptr(),
            memory.len(),
            state.as_ptr(),
            state.len(),
            addresses.as_ptr(),
            addresses.len(),
            &mut count,
            &mut ended,
        )
    };
    (refused, count, ended)
}

fn increments_plain(board: &mut Board, addresses: &[u32], held: u64) -> (u8, u64, u8) {
    let fed = stored::state(board.state.part()).and_then(|state| histogram::increments(board.memory.part(), &state, addresses));
    match fed {
        Ok((count, ended)) => (0, count, ended),
        Err(refused) => (refused, held, held as u8),
    }
}

fn next(board: &mut Board, held: u16) -> (u8, u16) {
    let mut number = held;
    let state = board.state.part();
    (unsafe { raw::plv_histogram_next(state.as_ptr(), state.len(), &mut number) }, number)
}

fn next_plain(board: &mut Board, held: u16) -> (u8, u16) {
    match stored::state(board.state.part()).and_then(|state| histogram::next(&state)) {
        Ok(number) => (0, number),
        Err(refused) => (refused, held),
    }
}

fn flip(board: &mut Board) -> u8 {
    let (memory, state) = (board.memory.part(), board.state.part());
    unsafe { raw::plv_histogram_flip(memory.as_ptr(), memory.len(), state.as_mut_ptr(), state.len()) }
}

fn flip_plain(board: &mut Board) -> Result<(), u8> {
    let mut state = stored::state(board.state.part())?;
    histogram::flip(board.memory.part(), &mut state)?;
    stored::flipped(board.state.part(), &state);
    Ok(())
}

/// An ask's number, and the two lent places, which held something before.
fn ask(board: &mut Board, number: u16, w: &Window, clear: u8, held: u64) -> (u8, u64, u8) {
    let (mut sum, mut again) = (held, held as u8);
    let (memory, state) = (board.memory.part(), board.state.part());
    let refused = unsafe {
        raw::plv_histogram_ask(
            memory.as_mut_ptr(),
            memory.len(),
            state.as_mut_ptr(),
            state.len(),
            number,
            w.address,
            w.xsize,
            w.ysize,
            w.ystride,
            clear,
            &mut sum,
            &mut again,
        )
    };
    (refused, sum, again)
}

fn ask_plain(board: &mut Board, number: u16, window: Window) -> Result<(u64, u8), u8> {
    let mut state = stored::state(board.state.part())?;
    Ok(match histogram::ask(board.memory.part(), &mut state, number, window)? {
        Asked::New(sum) => {
            stored::asked(board.state.part(), &state.kept.unwrap());
            (sum, 0)
        }
        Asked::Again(sum) => (sum, 1),
    })
}

/// A packet ask's number, the three lent places, which held something before, and the buffer.
fn packet(board: &mut Board, number: u16, inputs: &Inputs, held: u64, mut buffer: Lent<u8>) -> (u8, u64, u64, u8, Lent<u8>) {
    let (mut written, mut total, mut again) = (held, !held, held as u8);
    let (memory, state, room) = (board.memory.part(), board.state.part(), buffer.part());
    let refused = unsafe {
        raw::plv_histogram_packet(
            memory.as_mut_ptr(),
            memory.len(),
            state.as_mut_ptr(),
            state.len(),
            number,
            inputs.low as u8,
            inputs.items.as_ptr(),
            inputs.items.len(),
            inputs.flags as u8,
            inputs.initial as u8,
            inputs.second as u16,
            room.as_mut_ptr(),
            room.len(),
            &mut written,
            &mut total,
            &mut again,
        )
    };
    (refused, written, total, again, buffer)
}

fn packet_plain(board: &mut Board, number: u16, inputs: &Inputs, held: u64, mut buffer: Lent<u8>) -> (u8, u64, u64, u8, Lent<u8>) {
    let answered = stored::state(board.state.part()).and_then(|mut state| {
        let answered = packet_ask::ask(board.memory.part(), &mut state, number, inputs, buffer.part())?;
        if !answered.again {
            stored::asked(board.state.part(), &state.kept.unwrap());
        }
        Ok(answered)
    });
    match answered {
        Ok(packet_ask::Answered { written, total, again }) => (0, written, total, again as u8, buffer),
        Err(refused) => (refused, held, !held, held as u8, buffer),
    }
}

fn number(answer: Result<(), u8>) -> u8 {
    answer.err().unwrap_or(0)
}

/// A window of which most lie in a page of n words.
pub fn window(random: &mut Random, n: u64) -> Window {
    let small = |random: &mut Random, end: u64| random.below(end.clamp(1, 255) + 1) as u8;
    match random.below(12) {
        0 => Window {
            address: random.next() as u32,
            xsize: random.next() as u8,
            ysize: random.next() as u8,
            ystride: random.next() as u16,
            clear: random.below(2) == 0,
        },
        _ => Window {
            address: random.below(n + 1) as u32 / (1 + random.below(4) as u32),
            xsize: small(random, n / 4),
            ysize: small(random, 3),
            ystride: random.below(n / 6 + 2) as u16,
            clear: random.below(3) > 0,
        },
    }
}

/// Changes one word that a caller could have changed, in memory or in the state.
fn forge(random: &mut Random, board: &mut Board) {
    let state = random.below(2) == 0;
    let word = match random.below(4) {
        0 => random.next() >> random.below(64),
        1 => FULL as u64 + random.below(3) - 1,
        2 => random.below(3),
        _ => 65_534 + random.below(3),
    };
    let part = board.state.part();
    if state && !part.is_empty() {
        // half of them among the words that say what is kept and how much of it
        let some = [0, 1, 2, 2, 3, 4, 8, 9, 10, 11, 12, 13, 14, 15, 79, 80][random.below(16) as usize];
        let at = if random.below(2) == 0 { some } else { random.below(part.len() as u64) as usize };
        part[at % part.len()] = word;
    } else if !board.memory.part().is_empty() {
        let at = random.below(board.memory.part().len() as u64) as usize;
        board.memory.part()[at] = word as u32;
    }
}

/// One memory in the hands of both programs, the number that was accepted last, and the window and the packet that were.
pub struct Script {
    proved: Board,
    plain: Board,
    words: u64,
    last: u16,
    window: Window,
    inputs: Inputs,
}

impl Script {
    /// A memory of so many words and a state of so many, both holding anything, opened by both.
    fn open(tally: &mut Tally, random: &mut Random, words: u64, room: u64) -> Script {
        let memory: Vec<u32> = (0..words).map(|_| random.next() as u32).collect();
        let state: Vec<u64> = (0..room).map(|_| random.next()).collect();
        let mut script = Script::of(&memory, &state, 0, window(random, words / 2), table(random, words / 2));
        let (proved, plain) = (&mut script.proved, &mut script.plain);
        let opened = (open(proved), number(open_plain(plain)));
        tally.answered("open", opened.0);
        tally.compare(|| format!("open {words} words, {room} words of state"), (opened.0, proved), (opened.1, plain));
        script
    }

    /// Memory and state as they are, whoever made them, and asks of both kinds to repeat.
    pub fn of(memory: &[u32], state: &[u64], last: u16, window: Window, inputs: Inputs) -> Script {
        let proved = Board { memory: Lent::new(memory, 7), state: Lent::new(state, 8) };
        Script { plain: proved.clone(), proved, words: memory.len() as u64, last, window, inputs }
    }

    /// The words of the state, for somebody who changes what both have.
    pub fn state(&mut self, change: impl Fn(&mut [u64])) {
        change(self.plain.state.part());
        self.proved = self.plain.clone();
    }

    /// Somebody changes what both have.
    fn forge(&mut self, random: &mut Random) {
        forge(random, &mut self.plain);
        self.proved = self.plain.clone();
        if let Ok(Some(kept)) = stored::state(self.plain.state.part()).map(|state| state.kept) {
            self.last = kept.number as u16;
            match kept.ask {
                Ask::Window { address, xsize, ysize, ystride, clear } => {
                    let (address, xsize, ysize, ystride) = (address as u32, xsize as u8, ysize as u8, ystride as u16);
                    self.window = Window { address, xsize, ysize, ystride, clear };
                }
                Ask::Packet(Inputs { low, items, flags, initial, second }) => {
                    let (low, flags, initial, second) = (low as u8 as u64, flags as u8 as u64, initial as u8 as u64, second as u16 as u64);
                    self.inputs = Inputs { low, items, flags, initial, second };
                }
            }
        }
    }

    pub fn increment(&mut self, tally: &mut Tally, address: u32) {
        let before = self.plain.clone();
        let answers = (increment(&mut self.proved, address), number(increment_plain(&mut self.plain, address)));
        tally.answered("increment", answers.0);
        tally.compare(|| format!("increment {address} of {before:?}"), (answers.0, &self.proved), (answers.1, &self.plain));
    }

    /// A run of increments, most of them at addresses of the page.
    pub fn increments(&mut self, tally: &mut Tally, random: &mut Random) {
        let before = self.plain.clone();
        let n = self.words / 2;
        let count = random.below(12);
        let mut address = || {
            let end = n + random.below(9) / 8;
            random.below(end.max(1)) as u32
        };
        let addresses: Vec<u32> = (0..count).map(|_| address()).collect();
        let held = random.next();
        let (got, wanted) = (increments(&mut self.proved, &addresses, held), increments_plain(&mut self.plain, &addresses, held));
        tally.answered(if got.0 == 0 { "increments ended" } else { "increments" }, if got.0 == 0 { got.2 } else { got.0 });
        tally.compare(|| format!("increments {addresses:?} of {before:?}"), (got, &self.proved), (wanted, &self.plain));
    }

    /// The number of the next ask.
    pub fn next(&mut self, tally: &mut Tally, random: &mut Random) {
        let before = self.plain.clone();
        let held = random.next() as u16;
        let (got, wanted) = (next(&mut self.proved, held), next_plain(&mut self.plain, held));
        tally.answered("next", got.0);
        tally.compare(|| format!("next of {before:?}"), (got, &self.proved), (wanted, &self.plain));
    }

    pub fn flip(&mut self, tally: &mut Tally) {
        let before = self.plain.clone();
        let answers = (flip(&mut self.proved), number(flip_plain(&mut self.plain)));
        tally.answered("flip", answers.0);
        tally.compare(|| format!("flip {before:?}"), (answers.0, &self.proved), (answers.1, &self.plain));
    }

    /// An ask: new, the last once more, or one that is out of turn or of another window.
    pub fn ask(&mut self, tally: &mut Tally, random: &mut Random) {
        let fresh = window(random, self.words / 2);
        let (number, window) = match random.below(12) {
            0..=5 => (self.last.wrapping_add(1), fresh),
            6..=8 => (self.last, self.window),
            9 => (random.next() as u16, fresh),
            10 => (self.last, fresh),
            _ => (self.last.wrapping_sub(random.below(4) as u16).wrapping_add(1), self.window),
        };
        self.ask_of(tally, random, number, window);
    }

    /// An ask of this number and window.
    pub fn ask_of(&mut self, tally: &mut Tally, random: &mut Random, number: u16, window: Window) {
        let before = self.plain.clone();
        let clear = if window.clear { (random.next() as u8).max(1) } else { 0 };
        let held = random.next();
        let got = ask(&mut self.proved, number, &window, clear, held);
        let wanted = match ask_plain(&mut self.plain, number, window) {
            Ok((sum, again)) => {
                (self.last, self.window) = (number, window);
                (0, sum, again)
            }
            Err(refused) => (refused, held, held as u8),
        };
        tally.answered(if got.0 == 0 && got.2 == 1 { "ask again" } else { "ask" }, got.0);
        let Window { address, xsize, ysize, ystride, .. } = window;
        let case = || format!("ask {number} of {address} {xsize} {ysize} {ystride} {clear} on {before:?}");
        tally.compare(case, (got, &self.proved), (wanted, &self.plain));
    }

    /// A packet ask: new, the last once more, or one that is out of turn or of other inputs, into a buffer of any length.
    pub fn packet(&mut self, tally: &mut Tally, random: &mut Random) {
        let fresh = table(random, self.words / 2);
        let (number, inputs) = match random.below(12) {
            0..=5 => (self.last.wrapping_add(1), fresh),
            6..=8 => (self.last, self.inputs.clone()),
            9 => (random.next() as u16, fresh),
            10 => (self.last, changed(random, &self.inputs)),
            _ => (self.last.wrapping_sub(random.below(4) as u16).wrapping_add(1), self.inputs.clone()),
        };
        let room = if random.below(4) == 0 { random.below(40) } else { 243 + random.below(3) };
        self.packet_of(tally, random, number, &inputs, room as usize);
    }

    /// A packet ask of this number and these inputs, into a buffer of so many bytes; the number that it must answer, and the bytes.
    pub fn packet_of(&mut self, tally: &mut Tally, random: &mut Random, number: u16, inputs: &Inputs, room: usize) -> (u8, u64) {
        let before = self.plain.clone();
        let state = stored::state(self.plain.state.part());
        let repeat = state.is_ok_and(|state| histogram::again(&state, number, &Ask::Packet(inputs.clone())) == Ok(true));
        let (held, buffer) = (random.next(), Lent::new(&random.bytes(room), 9));
        let got = packet(&mut self.proved, number, inputs, held, buffer.clone());
        let wanted = packet_plain(&mut self.plain, number, inputs, held, buffer);
        if wanted.0 == 0 {
            (self.last, self.inputs) = (number, inputs.clone());
        }
        tally.answered(if repeat { "packet again" } else { "packet" }, got.0);
        let answer = (wanted.0, wanted.1);
        tally.compare(|| format!("packet {number} of {inputs:x?} into {room} bytes on {before:?}"), (got, &self.proved), (wanted, &self.plain));
        answer
    }
}

/// A script on one memory: opened, then so many calls.
fn play(tally: &mut Tally, random: &mut Random, calls: u64) {
    let words = match random.below(20) {
        0 => random.below(4),
        1 => 2 * random.below(600) + random.below(9) / 8,
        _ => 2 + 2 * random.below(30),
    };
    let enough = STATE_WORDS as u64;
    let room = if random.below(30) == 0 { random.below(enough + 4) } else { enough + random.below(2) };
    let mut script = Script::open(tally, random, words, room);
    let forging = random.below(3) == 0;
    for _ in 0..calls {
        if forging && random.below(25) == 0 {
            script.forge(random);
        }
        match random.below(15) {
            10 => script.increments(tally, random),
            11 => script.next(tally, random),
            12..=14 => script.packet(tally, random),
            0..=4 => script.increment(tally, random.below(words / 2 + 1) as u32),
            5 => script.flip(tally),
            _ => script.ask(tally, random),
        }
    }
}

pub fn drive(random: &mut Random, cases: u64, tally: &mut Tally) {
    for words in (0..6).chain(524_285..524_293) {
        let mut script = Script::open(tally, random, words, STATE_WORDS as u64);
        script.increment(tally, (words / 2) as u32);
        script.increment(tally, (words / 2).saturating_sub(1) as u32);
        script.flip(tally);
        script.ask(tally, random);
        script.packet(tally, random);
    }
    for case in 0..cases {
        play(tally, random, if case % 20 == 0 { 1500 } else { 150 });
    }
}
