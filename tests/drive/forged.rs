//! Single histogram calls on memories and states that no call made: odd and foreign lengths, words at and above the full mark, windows
//! that overlap themselves or do not fit, kept asks of both kinds about 65535. Memory, state, lent places and buffers are compared.

use crate::histogram::{Ask, Kept, State, Window};
use crate::packet_asks::{changed, table};
use crate::random::Random;
use crate::raw::STATE_WORDS;
use crate::scripts::Script;
use crate::{stored, Tally};

const FULL: u32 = 67_108_863;

/// A window near the front of a page of n words.
fn near(random: &mut Random, n: u64) -> Window {
    Window {
        address: random.below(n + 1) as u32,
        xsize: random.below(n.min(200) / 2 + 1) as u8,
        ysize: random.below(4) as u8,
        ystride: random.below(n / 3 + 1) as u16,
        clear: random.below(2) == 0,
    }
}

/// One call on so many words of memory and a state that somebody made up.
fn one(tally: &mut Tally, random: &mut Random, words: usize) {
    let n = (words as u64 / 2).max(1);
    let mut memory = vec![0; words];
    for _ in 0..random.below(12).min(words as u64) {
        let values = [0, 1, 7, FULL - 1, FULL, FULL + 1, u32::MAX];
        memory[random.below(words as u64) as usize] = values[random.below(7) as usize];
    }
    let (last, window) = ([0, 1, 2, 65_534, 65_535][random.below(5) as usize], near(random, n));
    let other = random.below(20) == 0;
    let mut state = [0; STATE_WORDS];
    stored::opened(&mut state, &State { words: if other { random.below(1030) } else { words as u64 }, upper_active: false, kept: None });
    state[1] = random.below(3);
    let (inputs, of_a_packet) = (table(random, n), random.below(2) == 0);
    let ask = if of_a_packet && inputs.items.len() <= 64 { Ask::Packet(inputs.clone()) } else { Ask::window(&window) };
    if random.below(4) > 0 {
        let (sum, length) = (random.next() >> random.below(64), random.below(244) as usize);
        stored::asked(&mut state, &Kept { number: last as u64, ask, sum, bytes: random.bytes(length) });
    }
    let mut script = Script::of(&memory, &state, last, window, inputs.clone());
    match random.below(13) {
        6 | 7 => script.increments(tally, random),
        8 => script.next(tally, random),
        0 | 1 => script.increment(tally, random.below(n + 1) as u32),
        2 => script.flip(tally),
        9..=12 => {
            let number = last.wrapping_add(random.below(3) as u16);
            let asked = match random.below(3) {
                0 => inputs,
                1 => changed(random, &inputs),
                _ => table(random, n),
            };
            let room = random.below(300) as usize;
            script.packet_of(tally, random, number, &asked, room);
        }
        _ => {
            let (number, same) = (last.wrapping_add(random.below(3) as u16), random.below(2) == 0);
            let asked = if same { window } else { near(random, n) };
            script.ask_of(tally, random, number, asked)
        }
    }
}

pub fn drive(random: &mut Random, cases: u64, tally: &mut Tally) {
    for words in [0, 1, 2, 3, 4, 6, 8, 64, 200, 1023, 1024] {
        for _ in 0..cases {
            one(tally, random, words);
        }
    }
}
