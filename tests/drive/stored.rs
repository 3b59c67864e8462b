//! A histogram's state as the words that a caller lends to the exported calls (docs/DECISIONS.md, "`pages`, `state`, `histogram`").

use crate::histogram::{Ask, Kept, State};
use crate::packet_ask::Inputs;
use crate::raw::STATE_WORDS;

/// Where the words of a kept packet ask stand: its low byte, flags, initial level and second, its items, its bytes.
const FIELDS: usize = 10;
const ITEMS: usize = 14;
const BYTES: usize = 79;

/// Any word but 0 is a flag.
fn flag(word: u64) -> bool {
    word != 0
}

/// The words after one that says how many they are; where it says more than there is room for, all of them.
fn counted(words: &[u64], at: usize, room: usize) -> &[u64] {
    &words[at + 1..][..words[at].min(room as u64) as usize]
}

/// What the ask was that words say is kept.
fn ask(words: &[u64]) -> Option<(Ask, Vec<u8>)> {
    match words[2] {
        0 => None,
        2 => {
            let [low, flags, initial, second] = words[FIELDS..ITEMS] else { unreachable!() };
            let items = counted(words, ITEMS, 64).to_vec();
            let bytes = counted(words, BYTES, 243).iter().map(|&word| word as u8).collect();
            Some((Ask::Packet(Inputs { low, items, flags, initial, second }), bytes))
        }
        _ => {
            let [address, xsize, ysize, ystride, clear] = words[4..9] else { unreachable!() };
            Some((Ask::Window { address, xsize, ysize, ystride, clear: flag(clear) }, Vec::new()))
        }
    }
}

/// The state that words say, whatever they hold; 13 where they are too few.
pub fn state(words: &[u64]) -> Result<State, u8> {
    let words = words.get(..STATE_WORDS).ok_or(13)?;
    let kept = ask(words).map(|(ask, bytes)| Kept { number: words[3], ask, sum: words[9], bytes });
    Ok(State { words: words[0], upper_active: flag(words[1]), kept })
}

/// Opening writes every word of the state.
pub fn opened(words: &mut [u64], state: &State) {
    words[..STATE_WORDS].fill(0);
    words[0] = state.words;
}

/// A flip writes one word.
pub fn flipped(words: &mut [u64], state: &State) {
    words[1] = state.upper_active as u64;
}

/// A new ask writes its own words: a window's those of the window, a packet's as many of its own as it has items and bytes.
pub fn asked(words: &mut [u64], kept: &Kept) {
    (words[3], words[9]) = (kept.number, kept.sum);
    match &kept.ask {
        Ask::Window { address, xsize, ysize, ystride, clear } => {
            words[2] = 1;
            words[4..9].copy_from_slice(&[*address, *xsize, *ysize, *ystride, *clear as u64]);
        }
        Ask::Packet(Inputs { low, items, flags, initial, second }) => {
            words[2] = 2;
            words[FIELDS..ITEMS].copy_from_slice(&[*low, *flags, *initial, *second]);
            words[ITEMS] = items.len() as u64;
            words[ITEMS + 1..][..items.len()].copy_from_slice(items);
            words[BYTES] = kept.bytes.len() as u64;
            (words[BYTES + 1..].iter_mut().zip(&kept.bytes)).for_each(|(word, byte)| *word = *byte as u64);
        }
    }
}
