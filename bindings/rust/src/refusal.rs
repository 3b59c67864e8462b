//! Why a call was refused.

use crate::raw;
use std::fmt;
use std::sync::Once;

/// Why a call was refused, by name; a refused call changed nothing.
#[derive(Clone, Copy, Debug, PartialEq, Eq, Hash)]
pub enum Refusal {
    /// 1: capture over 65,536 bytes.
    CaptureTooLong,
    /// 2: packet data over 8,187 bytes.
    TooMuchData,
    /// 3: buffer too short to write into.
    BufferTooShort,
    /// 4: message mark wrong.
    WrongMark,
    /// 5: message cut short.
    CutShort,
    /// 6: message checksum wrong.
    WrongChecksum,
    /// 7: message address, tag or stray bits.
    WrongMessage,
    /// 8: number or drop outside the rule.
    OutsideTheRule,
    /// 9: bits ran out.
    BitsRanOut {
        /// The least number of further bits, up to 15, with which some code could be completed from what was read; 1 at the end
        /// exactly, 0 from any other position past it.
        missing: u8,
    },
    /// 10: redundant zero.
    RedundantZero,
    /// 11: run of ones too long.
    RunTooLong,
    /// 12: count too large for the format.
    CountTooLarge,
    /// 13: memory length odd, outside 2 to 524,288, or not the state's 2N; state words too few.
    WrongMemory,
    /// 14: address, or a window's last cell, not under N.
    WrongAddress,
    /// 15: counter full.
    CounterFull,
    /// 16: a visited word above 67,108,863.
    WordAboveFull,
    /// 17: ask number neither last nor next.
    AskOutOfTurn,
    /// 18: last number, other window or input, or the other kind of ask.
    OtherWindow,
    /// 19: second, level or flags out of range.
    OutOfRange,
    /// 20: no packet.
    NoPacket {
        /// The bytes skipped, where a packet was looked for.
        skipped: Option<u64>,
    },
    /// 22: forbidden item: sum, res or enc not 0, or a on the first or after one with t.
    ForbiddenItem,
    /// 23: over 64 items.
    TooManyItems,
}

impl Refusal {
    /// Document 01's number.
    pub fn number(&self) -> u8 {
        match self {
            Refusal::CaptureTooLong => 1,
            Refusal::TooMuchData => 2,
            Refusal::BufferTooShort => 3,
            Refusal::WrongMark => 4,
            Refusal::CutShort => 5,
            Refusal::WrongChecksum => 6,
            Refusal::WrongMessage => 7,
            Refusal::OutsideTheRule => 8,
            Refusal::BitsRanOut { .. } => 9,
            Refusal::RedundantZero => 10,
            Refusal::RunTooLong => 11,
            Refusal::CountTooLarge => 12,
            Refusal::WrongMemory => 13,
            Refusal::WrongAddress => 14,
            Refusal::CounterFull => 15,
            Refusal::WordAboveFull => 16,
            Refusal::AskOutOfTurn => 17,
            Refusal::OtherWindow => 18,
            Refusal::OutOfRange => 19,
            Refusal::NoPacket { .. } => 20,
            Refusal::ForbiddenItem => 22,
            Refusal::TooManyItems => 23,
        }
    }

    /// Document 01's words for it.
    pub fn words(&self) -> &'static str {
        match self {
            Refusal::CaptureTooLong => "capture over 65,536 bytes",
            Refusal::TooMuchData => "packet data over 8,187 bytes",
            Refusal::BufferTooShort => "buffer too short to write into",
            Refusal::WrongMark => "message mark wrong",
            Refusal::CutShort => "message cut short",
            Refusal::WrongChecksum => "message checksum wrong",
            Refusal::WrongMessage => "message address, tag or stray bits",
            Refusal::OutsideTheRule => "number or drop outside the rule",
            Refusal::BitsRanOut { .. } => "bits ran out",
            Refusal::RedundantZero => "redundant zero",
            Refusal::RunTooLong => "run of ones too long",
            Refusal::CountTooLarge => "count too large for the format",
            Refusal::WrongMemory => "memory length odd, outside 2 to 524,288, or not the state's 2N; state words too few",
            Refusal::WrongAddress => "address, or a window's last cell, not under N",
            Refusal::CounterFull => "counter full",
            Refusal::WordAboveFull => "a visited word above 67,108,863",
            Refusal::AskOutOfTurn => "ask number neither last nor next",
            Refusal::OtherWindow => "last number, other window or input, or the other kind of ask",
            Refusal::OutOfRange => "second, level or flags out of range",
            Refusal::NoPacket { .. } => "no packet",
            Refusal::ForbiddenItem => "forbidden item: sum, res or enc not 0, or a on the first or after one with t",
            Refusal::TooManyItems => "over 64 items",
        }
    }

    /// The refusal of a number; 0 is none. With 9 come the bits missing, with 20 the bytes skipped.
    pub(crate) fn of(number: u8, missing: u8, skipped: Option<u64>) -> Option<Refusal> {
        Some(match number {
            0 => return None,
            1 => Refusal::CaptureTooLong,
            2 => Refusal::TooMuchData,
            3 => Refusal::BufferTooShort,
            4 => Refusal::WrongMark,
            5 => Refusal::CutShort,
            6 => Refusal::WrongChecksum,
            7 => Refusal::WrongMessage,
            8 => Refusal::OutsideTheRule,
            9 => Refusal::BitsRanOut { missing },
            10 => Refusal::RedundantZero,
            11 => Refusal::RunTooLong,
            12 => Refusal::CountTooLarge,
            13 => Refusal::WrongMemory,
            14 => Refusal::WrongAddress,
            15 => Refusal::CounterFull,
            16 => Refusal::WordAboveFull,
            17 => Refusal::AskOutOfTurn,
            18 => Refusal::OtherWindow,
            19 => Refusal::OutOfRange,
            20 => Refusal::NoPacket { skipped },
            22 => Refusal::ForbiddenItem,
            _ => Refusal::TooManyItems,
        })
    }
}

impl fmt::Display for Refusal {
    fn fmt(&self, f: &mut fmt::Formatter) -> fmt::Result {
        write!(f, "refused {}: {}", self.number(), self.words())?;
        match self {
            Refusal::BitsRanOut { missing: 0 } => write!(f, " (the position lies past the end)"),
            Refusal::BitsRanOut { missing: 1 } => write!(f, " (at least 1 more bit is missing)"),
            Refusal::BitsRanOut { missing } => write!(f, " (at least {missing} more bits are missing)"),
            Refusal::NoPacket { skipped: Some(skipped) } => write!(f, " ({skipped} bytes skipped)"),
            _ => Ok(()),
        }
    }
}

impl std::error::Error for Refusal {}

/// What a call answers: its values, or why not.
pub type Answer<T> = Result<T, Refusal>;

/// A library of another version has other calls, or other state words.
static VERSION: Once = Once::new();

/// Says so, once, in a plain sentence.
fn same_version() {
    VERSION.call_once(|| {
        // SAFETY: it takes nothing.
        let has = unsafe { raw::plv_version() };
        let speaks = raw::VERSION;
        assert!(has == speaks, "the library of plavotesk has version {has}, and this crate speaks version {speaks}: run bin/build in its checkout");
    });
}

/// Makes a call of the library, which must be of this version.
pub(crate) fn called<T>(call: impl FnOnce() -> T) -> T {
    same_version();
    call()
}

/// The values where the number is 0, else the refusal.
pub(crate) fn answer<T>(number: u8, values: T) -> Answer<T> {
    match Refusal::of(number, 0, None) {
        None => Ok(values),
        Some(refusal) => Err(refusal),
    }
}

/// The same where a code is read: 9 carries the bits missing.
pub(crate) fn answer_of_code<T>(number: u8, missing: u8, values: T) -> Answer<T> {
    match Refusal::of(number, missing, None) {
        None => Ok(values),
        Some(refusal) => Err(refusal),
    }
}
