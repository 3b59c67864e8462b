//! Document 01, "Packets and messages": width 16, polynomial 0x1021, initial 0xffff, no reflection, no final xor.

/// What eight bits that fall out of the register add to it, a bit at a time: where the top bit is a one, the polynomial is added.
const fn added(byte: usize) -> u16 {
    let mut register = (byte as u16) << 8;
    let mut bit = 0;
    while bit < 8 {
        let top = register >> 15 == 1;
        register <<= 1;
        if top {
            register ^= 0x1021;
        }
        bit += 1;
    }
    register
}

/// The same for each byte.
static ADDED: [u16; 256] = {
    let mut all = [0; 256];
    let mut byte = 0;
    while byte < 256 {
        all[byte] = added(byte);
        byte += 1;
    }
    all
};

/// The checksum, a byte at a time: the message's bits and the register's top bits say what is added.
pub fn of(bytes: &[u8]) -> u16 {
    bytes.iter().fold(0xffff, |register, &byte| register << 8 ^ ADDED[usize::from((register >> 8) as u8 ^ byte)])
}
