//! The table of a packet ask: items with their fields, and what goes with them.

/// How the result of an item is sent.
#[derive(Clone, Copy, Debug, PartialEq, Eq, Hash)]
pub enum Format {
    /// 16 bits, the code of [`float16_code`](crate::float16_code).
    Float16,
    /// 8 bits, the byte of [`log8_code`](crate::log8_code): a run of counts.
    Log8,
    /// 24 bits, the count itself.
    Int24,
    /// 1 bit, or 7 to 29, the code of [`code_pack`](crate::code_pack) with drop 0: a band of counts, which [`reading`](crate::reading) gives.
    Packed,
}

/// An item of a packet's table: a window as of an ask, whether its result is sent, whether it adds the result of the item before it, and the
/// format it is sent in. The first item adds nothing, and none adds the result of one that is sent (22).
#[derive(Clone, Copy, Debug, PartialEq, Eq, Hash)]
pub struct Item {
    pub address: u32,
    pub xsize: u8,
    pub ysize: u8,
    pub ystride: u16,
    pub clear: bool,
    pub send: bool,
    pub add: bool,
    pub format: Format,
}

impl Item {
    /// Its 64 bits. An address of more than 18 bits becomes a window that no memory has, so that the ask is refused by 14.
    pub fn word(&self) -> u64 {
        let cells = match self.address {
            0..=0x3ffff => (self.ystride as u64) << 48 | (self.ysize as u64) << 40 | (self.xsize as u64) << 32 | self.address as u64,
            _ => 1 << 32 | 0x3ffff,
        };
        cells | (self.clear as u64) << 22 | (self.send as u64) << 21 | (self.add as u64) << 20 | (self.format as u64) << 18
    }

    /// The item of 64 bits; `None` where sum, res or enc are not 0, which no ask is accepted with (22).
    pub fn of(word: u64) -> Option<Item> {
        let bit = |place: u32| word >> place & 1 == 1;
        let format = [Format::Float16, Format::Log8, Format::Int24, Format::Packed][(word >> 18 & 3) as usize];
        let (address, xsize, ysize, ystride) = (word as u32 & 0x3ffff, (word >> 32) as u8, (word >> 40) as u8, (word >> 48) as u16);
        let item = Item { address, xsize, ysize, ystride, clear: bit(22), send: bit(21), add: bit(20), format };
        (item.word() == word).then_some(item)
    }
}

/// What a packet ask asks for: the low byte of the packet's APID (0x03 and that byte), the items, at most 64, each by its
/// [`word`](Item::word), two flag bits, an initial level, and a second of the hour, whose ending level the packet bears.
#[derive(Clone, Debug, PartialEq, Eq, Hash)]
pub struct PacketInputs {
    pub low: u8,
    pub items: Vec<u64>,
    pub flags: u8,
    pub initial: u8,
    pub second: u16,
}
