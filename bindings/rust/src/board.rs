//! Histogram memory with its state: a board's counters in two pages, and asks that are things, of a window's sum or of a data packet.

use crate::items::PacketInputs;
use crate::raw;
use crate::refusal::{answer, called, Answer, Refusal};
use std::fmt;

/// The counters that an ask sums: rows of xsize + 1 cells, ysize + 1 of them; a row begins ystride after the last cell of the row
/// before. `clear` sets each to 0 as it is read.
#[derive(Clone, Copy, Debug, PartialEq, Eq, Hash)]
pub struct Window {
    pub address: u32,
    pub xsize: u8,
    pub ysize: u8,
    pub ystride: u16,
    pub clear: bool,
}

/// What an ask answers: the sum, and whether it was answered before.
#[derive(Clone, Copy, Debug, PartialEq, Eq)]
pub struct Sum {
    pub sum: u64,
    pub again: bool,
}

/// What feeding many answers: how many were counted, and why it ended before the last, if it did.
#[derive(Clone, Copy, Debug, PartialEq, Eq)]
pub struct Fed {
    pub count: u64,
    pub ended: Option<Refusal>,
}

/// An ask: its number and its window. It is tried as often as the link needs ([`Histogram::answer`]), each try the same sum, until it is
/// filed or given up; till then its board makes no other. It cannot be cloned.
#[must_use = "an ask is tried, then filed or given up; till then the board makes no other"]
#[derive(Debug, PartialEq, Eq)]
pub struct Ask {
    number: u16,
    window: Window,
}

impl Ask {
    /// Its number.
    pub fn number(&self) -> u16 {
        self.number
    }

    /// Its window.
    pub fn window(&self) -> Window {
        self.window
    }
}

/// What a packet ask answers: the packet, the total of the windows of its clearing items, and whether it was answered before.
#[derive(Clone, Debug, PartialEq, Eq)]
pub struct PacketAnswer {
    pub packet: Vec<u8>,
    pub total: u64,
    pub again: bool,
}

/// What a packet ask into a buffer of the caller's answers: the packet's bytes at its front, and the rest as above.
#[derive(Clone, Copy, Debug, PartialEq, Eq)]
pub struct PacketWritten {
    pub written: usize,
    pub total: u64,
    pub again: bool,
}

/// A packet ask: its number and its inputs. It is tried as often as the link needs ([`Histogram::answer_packet`]), each try the same packet
/// and the same total, until it is filed or given up; till then its board makes no other ask of either kind. It cannot be cloned.
#[must_use = "an ask is tried, then filed or given up; till then the board makes no other"]
#[derive(Debug, PartialEq, Eq)]
pub struct PacketAsk {
    number: u16,
    inputs: PacketInputs,
}

impl PacketAsk {
    /// Its number.
    pub fn number(&self) -> u16 {
        self.number
    }

    /// Its inputs.
    pub fn inputs(&self) -> &PacketInputs {
        &self.inputs
    }
}

/// What an open ask asks for.
#[derive(Clone, Debug, PartialEq, Eq)]
pub enum Asked {
    Window(Window),
    Packet(PacketInputs),
}

/// A new ask was wanted while another one is open: its answer may have been lost.
#[derive(Clone, Debug, PartialEq, Eq)]
pub struct StillOpen {
    pub number: u16,
    pub asked: Asked,
}

impl fmt::Display for StillOpen {
    fn fmt(&self, f: &mut fmt::Formatter) -> fmt::Result {
        write!(f, "ask {} is still open, and its answer may have been lost: answer it again, file it, or give it up", self.number)
    }
}

impl std::error::Error for StillOpen {}

/// Bytes that are no board's, or were damaged.
#[derive(Clone, Copy, Debug, PartialEq, Eq)]
pub struct NotABoard;

impl fmt::Display for NotABoard {
    fn fmt(&self, f: &mut fmt::Formatter) -> fmt::Result {
        write!(f, "these bytes are no board's, or were damaged")
    }
}

impl std::error::Error for NotABoard {}

/// A board's counters in two pages, and numbered asks. It cannot be cloned: two of them would file one count twice. One thread at a time
/// has it, as Rust's `&mut` says.
///
/// ```
/// use plavotesk::{Histogram, Window};
/// let mut board = Histogram::open(64).unwrap();
/// for address in [3, 3, 5] {
///     board.increment(address).unwrap();
/// }
/// board.flip().unwrap();
/// let ask = board.ask(Window { address: 0, xsize: 15, ysize: 0, ystride: 0, clear: true }).unwrap();
/// let lost = board.answer(&ask).unwrap(); // the link timed out, and nobody saw it
/// let filed = board.answer(&ask).unwrap(); // the same sum
/// assert_eq!((lost.sum, filed.sum, filed.again), (3, 3, true));
/// board.file(ask);
/// ```
#[derive(Debug)]
pub struct Histogram {
    memory: Vec<u32>,
    state: [u64; raw::STATE_WORDS],
    open: Option<(u16, Asked)>,
}

const MARK: &[u8; 8] = b"PLVBOAR2";

/// The mark of a board's bytes before there were packet asks: its state has the first ten words, and no more of them are kept.
const MARK_BEFORE: &[u8; 8] = b"PLVBOARD";
const WORDS_BEFORE: usize = 10;

impl Histogram {
    /// A fresh memory of two pages of so many counters each (1 to 262,144); the first is active. Refusal 13.
    pub fn open(counters: usize) -> Answer<Histogram> {
        let words = match counters {
            1..=262_144 => 2 * counters,
            _ => return Err(Refusal::WrongMemory),
        };
        let (mut memory, mut state) = (vec![0; words], [0; raw::STATE_WORDS]);
        // SAFETY: both slices are ours, and lent as they are.
        let number = called(|| unsafe { raw::plv_histogram_open(memory.as_mut_ptr(), memory.len(), state.as_mut_ptr(), state.len()) });
        answer(number, Histogram { memory, state, open: None })
    }

    /// A particle: adds 1 to a counter of the active page. Refusals 14, 16, 15.
    pub fn increment(&mut self, address: u32) -> Answer<()> {
        let (memory, state) = (&mut self.memory, &self.state);
        // SAFETY: both slices are ours, and lent as they are.
        let number = called(|| unsafe { raw::plv_histogram_increment(memory.as_mut_ptr(), memory.len(), state.as_ptr(), state.len(), address) });
        answer(number, ())
    }

    /// Many particles, one after the other, up to the first that would be refused (by 14, 16 or 15: `ended`).
    pub fn increments(&mut self, addresses: &[u32]) -> Answer<Fed> {
        let (mut count, mut ended) = (0, 0);
        let (memory, state) = (&mut self.memory, &self.state);
        // SAFETY: the slices are lent as they are, and `addresses` is none of ours.
        let number = called(|| unsafe {
            raw::plv_histogram_increments(
                memory.as_mut_ptr(),
                memory.len(),
                state.as_ptr(),
                state.len(),
                addresses.as_ptr(),
                addresses.len(),
                &mut count,
                &mut ended,
            )
        });
        answer(number, Fed { count, ended: Refusal::of(ended, 0, None) })
    }

    /// Exchanges the active page, where particles count, and the idle one, which is asked. Refuses nothing.
    pub fn flip(&mut self) -> Answer<()> {
        let (memory, state) = (&self.memory, &mut self.state);
        // SAFETY: both slices are ours, and lent as they are.
        let number = called(|| unsafe { raw::plv_histogram_flip(memory.as_ptr(), memory.len(), state.as_mut_ptr(), state.len()) });
        answer(number, ())
    }

    /// The number that the next new ask bears, read from the state. Refuses nothing.
    pub fn next(&self) -> Answer<u16> {
        let mut number = 0;
        // SAFETY: the state is ours, and lent as it is.
        let refused = called(|| unsafe { raw::plv_histogram_next(self.state.as_ptr(), self.state.len(), &mut number) });
        answer(refused, number)
    }

    /// The number of a new ask, which is open from now on.
    fn made(&mut self, asked: Asked) -> Result<u16, StillOpen> {
        if let Some((number, asked)) = self.open.clone() {
            return Err(StillOpen { number, asked });
        }
        let number = self.next().expect("the state is whole");
        self.open = Some((number, asked));
        Ok(number)
    }

    /// A new ask of a window of the idle page, under the next number. Nothing is summed before [`Histogram::answer`].
    pub fn ask(&mut self, window: Window) -> Result<Ask, StillOpen> {
        Ok(Ask { number: self.made(Asked::Window(window))?, window })
    }

    /// A new ask of a data packet from the idle page, under the next number. Nothing is summed before [`Histogram::answer_packet`].
    ///
    /// ```
    /// use plavotesk::{int24_count, packet_find, packet_payload, Format, Histogram, Item, PacketInputs};
    /// let mut board = Histogram::open(64).unwrap();
    /// board.increments(&[3, 3, 40]).unwrap();
    /// board.flip().unwrap();
    /// let half = |address| Item { address, xsize: 31, ysize: 0, ystride: 0, clear: true, send: true, add: false, format: Format::Int24 }.word();
    /// let ask = board.ask_packet(PacketInputs { low: 1, items: vec![half(0), half(32)], flags: 0, initial: 0, second: 59 }).unwrap();
    /// let lost = board.answer_packet(&ask).unwrap(); // the link timed out, and nobody saw it
    /// let came = board.answer_packet(&ask).unwrap(); // the same packet, and the same total
    /// assert_eq!((&came.packet, came.total, came.again), (&lost.packet, 3, true));
    /// let data = packet_payload(&came.packet, packet_find(&came.packet).unwrap().place);
    /// let counts: Vec<u32> = data[1..].chunks(3).map(|b| int24_count(u32::from_be_bytes([0, b[0], b[1], b[2]])).unwrap()).collect();
    /// assert_eq!(counts, [2, 1]);
    /// board.file_packet(ask);
    /// ```
    pub fn ask_packet(&mut self, inputs: PacketInputs) -> Result<PacketAsk, StillOpen> {
        Ok(PacketAsk { number: self.made(Asked::Packet(inputs.clone()))?, inputs })
    }

    /// The ask of a window that is neither filed nor given up, where it was let go or the board was read from bytes.
    pub fn open_ask(&self) -> Option<Ask> {
        match &self.open {
            Some((number, Asked::Window(window))) => Some(Ask { number: *number, window: *window }),
            _ => None,
        }
    }

    /// The packet ask that is neither filed nor given up, where it was let go or the board was read from bytes.
    pub fn open_packet_ask(&self) -> Option<PacketAsk> {
        match &self.open {
            Some((number, Asked::Packet(inputs))) => Some(PacketAsk { number: *number, inputs: inputs.clone() }),
            _ => None,
        }
    }

    /// One try of an ask: the sum. Every further try answers the same sum, as again, and changes nothing. Refusals 14 and 16, which cleared
    /// nothing and end the ask; 18 or 17 where another ask was numbered by hand since, which leave it open, to be given up.
    pub fn answer(&mut self, ask: &Ask) -> Answer<Sum> {
        let answered = self.ask_numbered(ask.number, ask.window);
        self.tried(answered.map(|sum| sum.again), ask.number, Asked::Window(ask.window));
        answered
    }

    /// One try of a packet ask: the packet and its total. Every further try answers the same, as again, and changes nothing, whatever was
    /// counted since. Refusals 23, 22, 19, 14, 16 and 12, which cleared nothing and end the ask; 18 or 17 where another ask was numbered by
    /// hand since, which leave it open, to be given up.
    pub fn answer_packet(&mut self, ask: &PacketAsk) -> Answer<PacketAnswer> {
        let mut packet = vec![0; raw::PACKET_BYTES];
        let answered = self.packet_numbered(ask.number, &ask.inputs, &mut packet);
        self.tried(answered.map(|packet| packet.again), ask.number, Asked::Packet(ask.inputs.clone()));
        answered.map(|PacketWritten { written, total, again }| {
            packet.truncate(written);
            PacketAnswer { packet, total, again }
        })
    }

    /// The ask's sum is on the sheet: the board may make the next one.
    pub fn file(&mut self, ask: Ask) {
        self.close(ask.number, &Asked::Window(ask.window));
    }

    /// The packet's counts are on the sheet: the board may make the next ask.
    pub fn file_packet(&mut self, ask: PacketAsk) {
        self.close(ask.number, &Asked::Packet(ask.inputs));
    }

    /// The caller lets the ask go, answered or not: what it cleared is not filed by it.
    pub fn give_up(&mut self, ask: Ask) {
        self.close(ask.number, &Asked::Window(ask.window));
    }

    /// The caller lets the packet ask go, answered or not: what it cleared is not filed by it.
    pub fn give_up_packet(&mut self, ask: PacketAsk) {
        self.close(ask.number, &Asked::Packet(ask.inputs));
    }

    /// An ask was tried: a refusal of what it asks for cleared nothing, and ends it; accepted after such a one, it is open again.
    fn tried(&mut self, again: Answer<bool>, number: u16, asked: Asked) {
        use Refusal::{CountTooLarge, ForbiddenItem, OutOfRange, TooManyItems, WordAboveFull, WrongAddress};
        match again {
            Err(TooManyItems | ForbiddenItem | OutOfRange | WrongAddress | WordAboveFull | CountTooLarge) => self.close(number, &asked),
            Ok(false) if self.open.is_none() => self.open = Some((number, asked)),
            _ => {}
        }
    }

    /// An ask is done.
    fn close(&mut self, number: u16, asked: &Asked) {
        if self.open.as_ref().is_some_and(|(open, what)| (*open, what) == (number, asked)) {
            self.open = None;
        }
    }

    /// An ask under a number of the caller's. The last accepted number with its window answers the same sum again and changes nothing.
    /// Refusals 18 or 17, 14, 16.
    pub fn ask_numbered(&mut self, number: u16, window: Window) -> Answer<Sum> {
        let (mut sum, mut again) = (0, 0);
        let (memory, state) = (&mut self.memory, &mut self.state);
        // SAFETY: both slices are ours, and lent as they are; the places are ours.
        let refused = called(|| unsafe {
            raw::plv_histogram_ask(
                memory.as_mut_ptr(),
                memory.len(),
                state.as_mut_ptr(),
                state.len(),
                number,
                window.address,
                window.xsize,
                window.ysize,
                window.ystride,
                window.clear as u8,
                &mut sum,
                &mut again,
            )
        });
        answer(refused, Sum { sum, again: again == 1 })
    }

    /// A packet ask under a number of the caller's, into a buffer of the caller's; at most [`raw::PACKET_BYTES`] are written. The last
    /// accepted number with the same inputs writes the same packet again and changes nothing. Refusals 18 or 17, 23, 22, 19, item after item
    /// 14, 16, and 12 where it is sent, then 3; the last one again meets only 3.
    pub fn packet_numbered(&mut self, number: u16, inputs: &PacketInputs, buffer: &mut [u8]) -> Answer<PacketWritten> {
        let (mut written, mut total, mut again) = (0, 0, 0);
        let (memory, state) = (&mut self.memory, &mut self.state);
        // SAFETY: the slices are lent as they are, and neither `inputs` nor `buffer` is ours; the places are.
        let refused = called(|| unsafe {
            raw::plv_histogram_packet(
                memory.as_mut_ptr(),
                memory.len(),
                state.as_mut_ptr(),
                state.len(),
                number,
                inputs.low,
                inputs.items.as_ptr(),
                inputs.items.len(),
                inputs.flags,
                inputs.initial,
                inputs.second,
                buffer.as_mut_ptr(),
                buffer.len(),
                &mut written,
                &mut total,
                &mut again,
            )
        });
        answer(refused, PacketWritten { written: written as usize, total, again: again == 1 })
    }

    /// The words of both pages, to look at.
    pub fn memory(&self) -> &[u32] {
        &self.memory
    }

    /// All there is of a board: memory, state and the open ask of either kind, under a mark and a checksum. The rule for a bench that must be able to go
    /// on after it died: write down the bytes first, answer afterwards, and put each sum onto the sheet under its ask's number. Bytes from
    /// before an ask that was answered since bring the dear mistake back; keep the last ones only.
    ///
    /// ```
    /// use plavotesk::{Histogram, Window};
    /// use std::collections::BTreeMap;
    /// let (mut board, mut sheet) = (Histogram::open(8).unwrap(), BTreeMap::new());
    /// board.increments(&[1, 2, 2]).unwrap();
    /// board.flip().unwrap();
    /// let ask = board.ask(Window { address: 0, xsize: 7, ysize: 0, ystride: 0, clear: true }).unwrap();
    /// let kept = board.to_bytes(); // written down before the ask is answered
    /// sheet.insert(ask.number(), board.answer(&ask).unwrap().sum);
    /// drop(board); // the bench died here, and starts again
    ///
    /// let mut board = Histogram::from_bytes(&kept).unwrap();
    /// let ask = board.open_ask().unwrap();
    /// sheet.insert(ask.number(), board.answer(&ask).unwrap().sum);
    /// board.file(ask);
    /// assert_eq!((sheet.values().sum::<u64>(), board.open_ask()), (3, None)); // every count is filed once
    /// ```
    #[must_use]
    pub fn to_bytes(&self) -> Vec<u8> {
        let mut bytes = MARK.to_vec();
        bytes.extend((self.memory.len() as u32).to_le_bytes());
        bytes.extend(self.memory.iter().flat_map(|word| word.to_le_bytes()));
        bytes.extend(self.state.iter().flat_map(|word| word.to_le_bytes()));
        match &self.open {
            None => bytes.push(0),
            Some((number, Asked::Window(window))) => {
                bytes.push(1);
                bytes.extend(number.to_le_bytes());
                bytes.extend(window.address.to_le_bytes());
                bytes.extend([window.xsize, window.ysize]);
                bytes.extend(window.ystride.to_le_bytes());
                bytes.push(window.clear as u8);
            }
            Some((number, Asked::Packet(inputs))) => {
                bytes.push(2);
                bytes.extend(number.to_le_bytes());
                bytes.extend([inputs.low, inputs.flags, inputs.initial]);
                bytes.extend(inputs.second.to_le_bytes());
                bytes.extend((inputs.items.len() as u32).to_le_bytes());
                bytes.extend(inputs.items.iter().flat_map(|item| item.to_le_bytes()));
            }
        }
        bytes.extend(crate::checksum(&bytes).to_le_bytes());
        bytes
    }

    /// The board that wrote these bytes. The board that wrote them must be gone: two of them would file one count twice.
    pub fn from_bytes(bytes: &[u8]) -> Result<Histogram, NotABoard> {
        let (body, sum) = bytes.split_last_chunk::<2>().ok_or(NotABoard)?;
        if crate::checksum(body) != u16::from_le_bytes(*sum) {
            return Err(NotABoard);
        }
        let mut rest = Rest(body);
        let kept = match &rest.take::<8>()? {
            MARK => raw::STATE_WORDS,
            MARK_BEFORE => WORDS_BEFORE,
            _ => return Err(NotABoard),
        };
        let words = u32::from_le_bytes(rest.take()?) as usize;
        let mut board = Histogram::open(words / 2).map_err(|_| NotABoard)?;
        for word in &mut board.memory {
            *word = u32::from_le_bytes(rest.take()?);
        }
        for word in &mut board.state[..kept] {
            *word = u64::from_le_bytes(rest.take()?);
        }
        let [open] = rest.take()?;
        board.open = match open {
            // bytes of before have a window there, where none is open, too
            0 if kept == WORDS_BEFORE => rest.window().map(|_| None)?,
            0 => None,
            1 => Some(rest.window()?),
            2 => Some(rest.packet()?),
            _ => return Err(NotABoard),
        };
        if rest.0.is_empty() { Ok(board) } else { Err(NotABoard) }
    }
}

/// What is left of a board's bytes.
struct Rest<'a>(&'a [u8]);

impl Rest<'_> {
    /// The next bytes.
    fn take<const N: usize>(&mut self) -> Result<[u8; N], NotABoard> {
        let (next, rest) = self.0.split_first_chunk::<N>().ok_or(NotABoard)?;
        self.0 = rest;
        Ok(*next)
    }

    /// An open ask of a window.
    fn window(&mut self) -> Result<(u16, Asked), NotABoard> {
        let number = u16::from_le_bytes(self.take()?);
        let address = u32::from_le_bytes(self.take()?);
        let [xsize, ysize] = self.take()?;
        let ystride = u16::from_le_bytes(self.take()?);
        let [clear] = self.take()?;
        Ok((number, Asked::Window(Window { address, xsize, ysize, ystride, clear: clear == 1 })))
    }

    /// An open packet ask.
    fn packet(&mut self) -> Result<(u16, Asked), NotABoard> {
        let number = u16::from_le_bytes(self.take()?);
        let [low, flags, initial] = self.take()?;
        let second = u16::from_le_bytes(self.take()?);
        let count = u32::from_le_bytes(self.take()?);
        let items = (0..count).map(|_| self.take().map(u64::from_le_bytes)).collect::<Result<_, _>>()?;
        Ok((number, Asked::Packet(PacketInputs { low, items, flags, initial, second })))
    }
}
