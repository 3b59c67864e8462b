//! Packet asks. Chosen cases: tables of every length, results at the limits of every format, items that add and items that clear each
//! other's cells, every refusal and every two of them at once, every changed bit, kept parts that somebody forged, and both kinds of ask in
//! one row of numbers. Then tables and memories by chance.

use crate::histogram::Window;
use crate::packet_ask::Inputs;
use crate::random::Random;
use crate::raw::{PACKET_BYTES, STATE_WORDS};
use crate::scripts::Script;
use crate::Tally;

const FULL: u32 = 67_108_863;

/// The counters of a page.
const CELLS: u64 = 64;

/// A buffer that every packet fits.
const ROOM: usize = PACKET_BYTES;

/// An item's bits, for | with its window.
const CLEAR: u64 = 1 << 22;
const SEND: u64 = 1 << 21;
const ADD: u64 = 1 << 20;
const LOG8: u64 = 1 << 18;
const INT24: u64 = 2 << 18;
const PACKED: u64 = 3 << 18;
const FORMATS: [u64; 4] = [0, LOG8, INT24, PACKED];

/// The first two counters.
const TWO: Window = Window { address: 0, xsize: 1, ysize: 0, ystride: 0, clear: true };

/// A window's part of an item.
fn cells(address: u64, xsize: u64, ysize: u64, ystride: u64) -> u64 {
    ystride << 48 | ysize << 40 | xsize << 32 | address
}

/// So many cells in a row.
fn row(address: u64, count: u64) -> u64 {
    cells(address, count - 1, 0, 0)
}

/// Inputs of which no two fields are alike: the first byte is 10 101 110.
fn inputs(items: &[u64]) -> Inputs {
    Inputs { low: 0x5a, items: items.to_vec(), flags: 2, initial: 5, second: 1799 }
}

/// Two pages of counters: the second one, which is asked after opening, as said and then zeros; the first with numbers of its own.
fn pages(idle: &[u32]) -> Vec<u32> {
    let active = (0..CELLS as u32).map(|cell| 1000 + cell);
    active.chain(idle.iter().copied()).chain(std::iter::repeat(0)).take(2 * CELLS as usize).collect()
}

/// Small counts that differ from cell to cell.
fn counts() -> Vec<u32> {
    pages(&(0..CELLS as u32).map(|cell| cell * cell + 3).collect::<Vec<_>>())
}

/// Cells with this sum.
fn summing(sum: u64) -> Vec<u32> {
    let full = vec![FULL; (sum / FULL as u64) as usize];
    full.into_iter().chain([(sum % FULL as u64) as u32]).collect()
}

/// A state with nothing kept; what the other words hold is nobody's.
fn nothing_kept(random: &mut Random, memory: &[u32]) -> Vec<u64> {
    let mut state: Vec<u64> = (0..STATE_WORDS).map(|_| random.next()).collect();
    (state[0], state[1], state[2]) = (memory.len() as u64, 0, 0);
    state
}

/// A board with this memory and nothing asked.
fn board(random: &mut Random, memory: &[u32]) -> Script {
    let state = nothing_kept(random, memory);
    Script::of(memory, &state, 0, TWO, inputs(&[]))
}

/// A packet asked of a fresh board into much room, and where it is accepted into just as much as it takes and into a byte less; and asked
/// again after each, with less room, as much and more.
fn edges(tally: &mut Tally, random: &mut Random, memory: &[u32], inputs: &Inputs) {
    let (refused, written) = board(random, memory).packet_of(tally, random, 1, inputs, 300);
    if refused != 0 {
        return;
    }
    let length = written as usize;
    let mut script = board(random, memory);
    for room in [length - 1, 0, length, length, length - 1, 0, ROOM, 300] {
        script.packet_of(tally, random, 1, inputs, room);
    }
    script.packet_of(tally, random, 2, inputs, length);
    script.packet_of(tally, random, 2, inputs, length);
}

/// Tables of no items, of one, of as many as there may be, and of more.
fn lengths(tally: &mut Tally, random: &mut Random) {
    for count in [0, 1, 2, 3, 63, 64, 65, 66, 300] {
        for more in [0, SEND, SEND | CLEAR, SEND | INT24, SEND | PACKED | CLEAR, SEND | LOG8] {
            let items: Vec<u64> = (0..count).map(|place| row(place % 60, 1 + place % 5) | more).collect();
            edges(tally, random, &counts(), &inputs(&items));
        }
    }
    // 64 results of 29 bits, the longest packet; and all zeros
    let full = pages(&[FULL; CELLS as usize]);
    let items: Vec<u64> = (0..64).map(|cell| row(cell, 1) | SEND | PACKED | CLEAR).collect();
    edges(tally, random, &full, &inputs(&items));
    edges(tally, random, &pages(&[]), &inputs(&items));
}

/// Results about the limits of every format, sent, not sent, and added up over items that are not sent.
fn limits(tally: &mut Tally, random: &mut Random) {
    for limit in [0, 15, 31, 4095, 8191, 16_777_215, FULL as u64, (1 << 27) - 1, 2_147_483_647] {
        for sum in limit.saturating_sub(1)..limit + 3 {
            let memory = pages(&summing(sum));
            let (some, rest) = (row(0, 40), row(40, 24));
            for format in FORMATS {
                edges(tally, random, &memory, &inputs(&[some | SEND | CLEAR | format]));
                edges(tally, random, &memory, &inputs(&[some | SEND | format, rest | SEND | PACKED]));
                edges(tally, random, &memory, &inputs(&[some | CLEAR | format, rest | SEND | format]));
                edges(tally, random, &memory, &inputs(&[row(0, 1), row(1, 39) | ADD | CLEAR, rest | ADD | SEND | format]));
            }
        }
    }
}

/// Items that add what came before them, in chains; the total has the own sums of those that clear alone.
fn chains(tally: &mut Tally, random: &mut Random) {
    let first = [row(0, 3), row(0, 3) | CLEAR];
    let next = [row(2, 4) | ADD, row(2, 4) | ADD | CLEAR, row(2, 4), row(2, 4) | CLEAR];
    let last = [ADD | SEND, ADD | SEND | CLEAR, SEND, CLEAR, ADD];
    for a in first {
        for b in next {
            for c in next {
                for d in last {
                    edges(tally, random, &counts(), &inputs(&[a, b, c, row(4, 5) | INT24 | d]));
                    edges(tally, random, &counts(), &inputs(&[a, b | SEND, c & !ADD, row(4, 5) | PACKED | d, row(0, 64) | SEND]));
                }
            }
        }
    }
    let long: Vec<u64> = (0..64).map(|cell| row(cell, 1) | CLEAR | if cell == 0 { 0 } else { ADD } | if cell == 63 { SEND | INT24 } else { 0 }).collect();
    edges(tally, random, &counts(), &inputs(&long));
}

/// Windows that visit a cell twice, and items that find what an earlier one cleared or kept.
fn overlaps(tally: &mut Tally, random: &mut Random) {
    let windows = [row(0, 8), row(4, 8), cells(0, 3, 3, 0), cells(2, 0, 5, 0), cells(1, 1, 2, 3), cells(3, 0, 7, 4), row(0, 64), cells(0, 7, 8, 0)];
    for first in windows {
        for second in windows {
            for (a, b) in [(0, 0), (0, CLEAR), (CLEAR, 0), (CLEAR, CLEAR)] {
                let items = [first | a | SEND | INT24, second | b | SEND | INT24, row(0, 64) | SEND | INT24, first | CLEAR | SEND];
                edges(tally, random, &counts(), &inputs(&items));
            }
        }
    }
}

/// Nine items that clear, then one that is refused, and the honest ask of the same number after it.
fn late(tally: &mut Tally, random: &mut Random) {
    let mut memory = counts();
    memory[CELLS as usize + 50] = FULL + 1;
    memory[CELLS as usize + 52] = FULL;
    memory[CELLS as usize + 53] = FULL;
    let honest: Vec<u64> = (0..9).map(|place| row(5 * place, 6) | CLEAR | SEND | INT24).collect();
    for tenth in [row(60, 5), row(49, 2) | CLEAR, row(52, 2) | SEND | PACKED, row(52, 2) | SEND | INT24 | CLEAR, row(52, 2) | CLEAR | PACKED] {
        for room in [0, 37, 40, 300] {
            let mut script = board(random, &memory);
            script.packet_of(tally, random, 1, &inputs(&[&honest[..], &[tenth]].concat()), room);
            script.packet_of(tally, random, 1, &inputs(&honest), ROOM);
            script.packet_of(tally, random, 2, &inputs(&[&honest[..], &[tenth]].concat()), ROOM);
        }
    }
    // a result that is not too large only because an earlier item cleared what it sums, and the other way round
    for clear in [0, CLEAR] {
        let items = [row(52, 1) | clear, row(52, 2) | SEND | PACKED, row(52, 2) | SEND | INT24];
        edges(tally, random, &memory, &inputs(&items));
    }
}

/// Words above full that no item visits, between the rows of windows and in the other page: they are nobody's, and stay. Then items that
/// visit them, after and before ones that clear.
fn stepped_over(tally: &mut Tally, random: &mut Random) {
    let mut memory = counts();
    for (place, word) in [FULL + 1, 1 << 31, 1 << 31 | 5, u32::MAX, 1 << 26, 1 << 30].into_iter().enumerate() {
        memory[CELLS as usize + 10 * place + 9] = word;
        memory[10 * place + 3] = word;
    }
    memory[CELLS as usize + 60..].fill(FULL);
    let rows = cells(0, 8, 5, 2) | CLEAR | SEND | INT24;
    let last = [row(0, 9) | SEND, row(9, 1), row(19, 1) | CLEAR, row(28, 2) | CLEAR | SEND, row(60, 4) | SEND | PACKED, row(60, 5), rows];
    for item in last {
        for items in [vec![rows, item], vec![rows, rows & !CLEAR, item], vec![item, rows], vec![rows, item, rows], vec![rows, row(60, 2) | CLEAR, item]] {
            edges(tally, random, &memory, &inputs(&items));
        }
    }
}

/// An ask with what it is lent, to be spoiled.
struct Case {
    memory: Vec<u32>,
    state: Vec<u64>,
    number: u16,
    inputs: Inputs,
    room: usize,
}

/// What may be wrong with an ask, one by one: everything that is refused, and of items at an earlier and at a later place.
fn faults() -> Vec<Box<dyn Fn(&mut Case)>> {
    fn at(place: usize, word: u64) -> Box<dyn Fn(&mut Case)> {
        Box::new(move |case| case.inputs.items[place] = word)
    }
    let mut all: Vec<Box<dyn Fn(&mut Case)>> = vec![
        Box::new(|case| case.state[0] += 2),
        Box::new(|case| case.state.truncate(STATE_WORDS - 1)),
        Box::new(|case| case.memory.truncate(2 * CELLS as usize - 1)),
        Box::new(|case| case.number -= 1),
        Box::new(|case| case.number += 1),
        Box::new(|case| case.inputs.items.resize(65, row(0, 1))),
        Box::new(|case| case.inputs.items[0] |= ADD),
        Box::new(|case| case.inputs.items[6] |= ADD),
        Box::new(|case| case.inputs.flags = 4),
        Box::new(|case| case.inputs.initial = 8),
        Box::new(|case| case.inputs.second = 3600),
        Box::new(|case| case.room = 10),
    ];
    for bit in 23..32 {
        all.push(Box::new(move |case| case.inputs.items[7] |= 1 << bit));
    }
    for place in [2, 4] {
        // past the page; a word above full; a result too large; two of them in one item, and all three
        let words = [row(60, 5), row(50, 1), row(52, 8), row(50, 15), row(50, 8), cells(50, 9, 1, 0)];
        all.extend(words.map(|word| at(place, word | CLEAR | SEND | PACKED)));
    }
    all
}

/// Every fault, and every two of them at once, of an ask that is otherwise honest, after a plain ask and after a packet ask.
fn faulty(tally: &mut Tally, random: &mut Random) {
    let mut idle: Vec<u32> = (0..CELLS as u32).map(|cell| cell + 1).collect();
    idle[50] = FULL + 1;
    idle[52..60].fill(FULL);
    let memory = pages(&idle);
    let front = [row(0, 4) | CLEAR, row(2, 4) | CLEAR | ADD, row(8, 2) | SEND, row(9, 3) | CLEAR | SEND];
    let honest = inputs(&[&front[..], &[row(20, 3), row(21, 3) | SEND, row(30, 4), row(31, 2)]].concat());
    let faults = faults();
    for kept in [1, 2] {
        let mut state = nothing_kept(random, &memory);
        (state[2], state[3]) = (kept, 6);
        for first in &faults {
            for second in &faults {
                let mut case = Case { memory: memory.clone(), state: state.clone(), number: 7, inputs: honest.clone(), room: ROOM };
                first(&mut case);
                second(&mut case);
                let mut script = Script::of(&case.memory, &case.state, 6, TWO, honest.clone());
                script.packet_of(tally, random, case.number, &case.inputs, case.room);
                script.packet_of(tally, random, 7, &honest, ROOM);
                script.packet_of(tally, random, 7, &case.inputs, case.room);
            }
        }
    }
}

/// Inputs with one bit changed, or an item more or less.
pub fn changed(random: &mut Random, inputs: &Inputs) -> Inputs {
    let mut other = inputs.clone();
    match random.below(7) {
        0 => other.low ^= 1 << random.below(8),
        1 => other.flags ^= 1 << random.below(8),
        2 => other.initial ^= 1 << random.below(8),
        3 => other.second ^= 1 << random.below(16),
        4 => other.items.push(random.next()),
        _ if other.items.is_empty() => other.items.push(0),
        5 => other.items.truncate(inputs.items.len() - 1),
        _ => {
            let place = random.below(other.items.len() as u64) as usize;
            other.items[place] ^= 1 << random.below(64);
        }
    }
    other
}

/// The last number with every single bit of its inputs changed: 18, whatever the changed input is; and then all the same once more, after
/// increments and flips.
fn bits(tally: &mut Tally, random: &mut Random) {
    let asked = inputs(&[row(0, 4) | CLEAR, row(2, 9) | SEND | PACKED, cells(3, 1, 2, 3) | CLEAR | SEND | LOG8]);
    let mut script = board(random, &counts());
    script.packet_of(tally, random, 1, &asked, ROOM);
    let mut others = Vec::new();
    for bit in 0..64 {
        let field = |change: &dyn Fn(&mut Inputs)| {
            let mut other = asked.clone();
            change(&mut other);
            other
        };
        others.extend((0..3).map(|place| field(&|other| other.items[place] ^= 1 << bit)));
        others.push(field(&|other| other.low ^= 1 << (bit % 8)));
        others.push(field(&|other| other.flags ^= 1 << (bit % 8)));
        others.push(field(&|other| other.initial ^= 1 << (bit % 8)));
        others.push(field(&|other| other.second ^= 1 << (bit % 16)));
        others.push(field(&|other| other.items.resize(bit, 0)));
        others.push(field(&|other| other.items.resize(65 + bit, ADD)));
    }
    for other in &others {
        script.packet_of(tally, random, 1, other, ROOM);
        script.packet_of(tally, random, 3, other, ROOM);
    }
    for room in [ROOM, 0, 300] {
        script.increment(tally, 5);
        script.packet_of(tally, random, 1, &asked, room);
        script.flip(tally);
        script.packet_of(tally, random, 1, &asked, room);
    }
    script.packet_of(tally, random, 2, &asked, ROOM);
    script.packet_of(tally, random, 2, &asked, ROOM);
}

/// Packets one after the other, longer and shorter ones: each is kept whole, and nothing of the one before.
fn one_after_the_other(tally: &mut Tally, random: &mut Random) {
    let mut script = board(random, &counts());
    let mut number = 0;
    for count in [3, 1, 64, 2, 0, 5, 5] {
        let items: Vec<u64> = (0..count).map(|place| row((place + count) % 60, 3) | SEND | PACKED | (place % 2) * CLEAR).collect();
        let asked = Inputs { low: count, ..inputs(&items) };
        number += 1;
        script.packet_of(tally, random, number, &asked, ROOM);
        script.increments(tally, random);
        script.packet_of(tally, random, number, &asked, ROOM);
        script.flip(tally);
        script.packet_of(tally, random, number, &asked, ROOM);
        script.next(tally, random);
    }
}

/// Both kinds in one row of numbers, over its end; the other kind under the last number is 18 both ways.
fn both_kinds(tally: &mut Tally, random: &mut Random) {
    let window = Window { address: 2, xsize: 3, ysize: 1, ystride: 2, clear: true };
    let asked = inputs(&[row(0, 20) | CLEAR | SEND]);
    for first in [0, 65_532] {
        let mut script = board(random, &counts());
        if first > 0 {
            script.state(|words| (words[2], words[3]) = (1, first));
        }
        for step in 1..=6 {
            let number = (first + step) as u16;
            for _ in 0..2 {
                script.next(tally, random);
                if step % 2 == 0 {
                    script.packet_of(tally, random, number, &asked, ROOM);
                    script.ask_of(tally, random, number, window);
                } else {
                    script.ask_of(tally, random, number, window);
                    script.packet_of(tally, random, number, &asked, ROOM);
                }
                script.flip(tally);
            }
        }
    }
}

/// Kept parts that somebody forged: what is kept, how many items and bytes, words that no byte or field holds, and inputs that no ask has.
fn forged(tally: &mut Tally, random: &mut Random) {
    let many = [0, 1, 2, 63, 64, 65, 66, 242, 243, 244, 255, 256, 65_536, 1 << 32, 1 << 63, u64::MAX];
    let asked = inputs(&[row(0, 4) | CLEAR | SEND, row(9, 2) | SEND]);
    let memory = counts();
    for at in [2, 3, 9, 10, 11, 12, 13, 14, 15, 16, 17, 78, 79, 80, 81, 322] {
        for word in many {
            let mut words = nothing_kept(random, &memory);
            words[1..15].copy_from_slice(&[0, 2, 1, 0, 1, 0, 0, 1, 55, asked.low, asked.flags, asked.initial, asked.second, 2]);
            words[15..17].copy_from_slice(&asked.items);
            words[79] = 20;
            words[at] = word;
            // asked as the words say now, as they said, and by the other kind
            let kept = words[14].min(64) as usize;
            let [low, flags, initial] = [words[10], words[11], words[12]].map(|word| word & 255);
            let said = Inputs { low, items: words[15..15 + kept].to_vec(), flags, initial, second: words[13] & 65_535 };
            for inputs in [&said, &asked] {
                for room in [ROOM, 20, 19, 0] {
                    let mut script = Script::of(&memory, &words, 1, TWO, asked.clone());
                    script.packet_of(tally, random, words[3] as u16, inputs, room);
                    script.ask_of(tally, random, words[3] as u16, TWO);
                    script.next(tally, random);
                    script.packet_of(tally, random, 2, &asked, ROOM);
                    script.packet_of(tally, random, 2, &asked, ROOM);
                    script.ask_of(tally, random, 3, TWO);
                }
            }
        }
    }
    // kept inputs that no ask would have been accepted with: a repeat meets only 13 and 3
    for more in [0, 2] {
        let mut words = nothing_kept(random, &memory);
        words[2..4].copy_from_slice(&[2, 1]);
        words[10..15].copy_from_slice(&[255, 255, 255, 65_535, 64]);
        words[0] += more;
        let items = words[15..79].to_vec();
        for bytes in [0, 1, 243] {
            words[79] = bytes;
            for room in [0, 1, 242, 243] {
                let mut script = Script::of(&memory, &words, 1, TWO, asked.clone());
                script.packet_of(tally, random, 1, &Inputs { low: 255, items: items.clone(), flags: 255, initial: 255, second: 65_535 }, room);
            }
        }
    }
    Script::of(&[], &[], 0, TWO, asked.clone()).packet_of(tally, random, 1, &asked, ROOM);
}

/// The largest memory: its last counter, the largest window to its last counter and one past it.
fn largest(tally: &mut Tally, random: &mut Random) {
    let memory: Vec<u32> = (0..524_288).map(|place| place % 1000).collect();
    let wide = [cells(3, 255, 255, 772), cells(4, 255, 255, 772), cells(0, 255, 255, 65_535)];
    for item in [row(262_143, 1), row(262_142, 2), row(262_143, 2)].into_iter().chain(wide) {
        let asked = inputs(&[item | CLEAR | SEND | PACKED, row(0, 9) | SEND | CLEAR, item | SEND]);
        let mut script = board(random, &memory);
        script.packet_of(tally, random, 1, &asked, ROOM);
        script.packet_of(tally, random, 1, &asked, ROOM);
    }
}

/// A window's part of an item that lies in a page of n words.
fn inside(random: &mut Random, n: u64) -> u64 {
    let wide = 1 + random.below(n.min(256));
    let xsize = random.below(wide);
    let high = random.below(5);
    let steps = if high == 0 { 0 } else { (n - 1 - xsize) / high };
    let ysize = if steps < xsize { 0 } else { high };
    let ystride = if ysize == 0 { random.below(65_536) } else { random.below((steps - xsize).min(65_535) + 1) };
    let reach = if ysize == 0 { xsize } else { ysize * (xsize + ystride) + xsize };
    cells(random.below(n - reach), xsize, ysize, ystride)
}

/// The inputs of a packet ask by chance: of most, every item lies in a page of n words and none is forbidden.
pub fn table(random: &mut Random, n: u64) -> Inputs {
    let hostile = random.below(5) == 0;
    let count = match random.below(30) {
        0 => 62 + random.below(5),
        1 => random.below(40),
        _ => random.below(6),
    };
    let (mut items, mut free) = (Vec::new(), false);
    for _ in 0..count {
        let bits = CLEAR * random.below(2) | SEND * random.below(2) | FORMATS[random.below(4) as usize];
        let item = inside(random, n.max(1)) | bits | if free { ADD * random.below(2) } else { 0 };
        free = item & SEND == 0;
        items.push(match random.below(if hostile { 12 } else { u64::MAX }) {
            0 => random.next(),
            1 => item ^ 1 << (20 + random.below(12)),
            2 => item ^ 1 << random.below(64),
            _ => item,
        });
    }
    let mut field = |end: u64, bits: u32| if hostile && random.below(6) == 0 { random.below(1 << bits) } else { random.below(end) };
    Inputs { low: field(256, 8), items, flags: field(4, 8), initial: field(8, 8), second: field(3600, 16) }
}

/// A memory of counts of all sizes, asked by packets and plain asks, with increments and flips between them.
fn play(tally: &mut Tally, random: &mut Random) {
    let n = 1 + random.below(100);
    let (shift, spoiled) = (38 + random.below(26), random.below(4) == 0);
    let mut word = || match random.below(if spoiled { 60 } else { u64::MAX }) {
        0 => random.next() as u32,
        1 => FULL,
        _ => (random.next() >> shift) as u32,
    };
    let memory: Vec<u32> = (0..2 * n).map(|_| word()).collect();
    let mut script = board(random, &memory);
    for _ in 0..40 {
        match random.below(8) {
            0 => script.increments(tally, random),
            1 => script.flip(tally),
            2 => script.ask(tally, random),
            _ => script.packet(tally, random),
        }
    }
}

pub fn drive(random: &mut Random, cases: u64, tally: &mut Tally) {
    lengths(tally, random);
    limits(tally, random);
    chains(tally, random);
    overlaps(tally, random);
    late(tally, random);
    stepped_over(tally, random);
    faulty(tally, random);
    bits(tally, random);
    one_after_the_other(tally, random);
    both_kinds(tally, random);
    forged(tally, random);
    largest(tally, random);
    for _ in 0..cases {
        play(tally, random);
    }
}
