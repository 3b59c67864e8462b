//! Every call of the Rust binding on document 01's cases and on refusals, a line each; the Python binding prints the same.

use plavotesk::*;
use std::error::Error;
use std::fmt::Debug;

/// A line: the call, and what it answered or why not.
fn line<T: Debug>(name: &str, answer: Answer<T>, said: impl Fn(T) -> String) {
    match answer {
        Ok(values) => println!("{name}: {}", said(values)),
        Err(refusal) => println!("{name}: {refusal}"),
    }
}

fn hex(bytes: &[u8]) -> String {
    bytes.iter().map(|byte| format!("{byte:02x}")).collect()
}

fn packets() {
    println!("checksum: {:04x}", checksum(b"123456789"));
    let mut capture = [0xee; 30];
    line("write", packet_write(&mut capture[7..], 0x0301, b"counts"), |n| n.to_string());
    println!("capture: {}", hex(&capture));
    let found = |f: Found| format!("{} {}", f.place, f.skipped);
    line("find", packet_find(&capture), found);
    line("find nothing", packet_find(&capture[..22]), found);
    line("find in too much", packet_find(&[0; 65_537]), found);
    line("header", packet_header(&capture, 7), |h| format!("{} {}", h.apid, h.length));
    line("header elsewhere", packet_header(&capture, 8), |h| format!("{} {}", h.apid, h.length));
    println!("payload: {}", hex(packet_payload(&capture, 7)));
    println!("payload elsewhere: {}", hex(packet_payload(&capture, 8)));
    line("write too much", packet_write(&mut capture, 1, &[0; 8188]), |n| n.to_string());
    line("write into too little", packet_write(&mut capture[..9], 1, b""), |n| n.to_string());
}

fn messages() {
    let mut buffer = [0xee; 12];
    line("write message", message_write(&mut buffer, Message { address: 0x1234, tag: 2, value: 0xdead_beef }), |n| n.to_string());
    println!("message: {}", hex(&buffer));
    let said = |(m, used): (Message, usize)| format!("{:x} {} {:x} {used}", m.address, m.tag, m.value);
    line("read message", message_read(&buffer), said);
    line("read cut message", message_read(&buffer[..9]), said);
    line("read no message", message_read(&[0; 4]), said);
    buffer[5] ^= 1;
    line("read damaged message", message_read(&buffer), said);
    line("write stray bits", message_write(&mut buffer, Message { address: 0, tag: 0, value: 1 }), |n| n.to_string());
    line("write message into too little", message_write(&mut buffer[..5], Message { address: 0, tag: 0, value: 0 }), |n| n.to_string());
}

fn unpacks((value, next): (i32, u64)) -> String {
    format!("{value} {next}")
}

fn reads((reading, next): (Reading, u64)) -> String {
    match reading {
        Reading::Exact(count) => format!("exactly {count:.1} {next}"),
        Reading::Between(low, high) => format!("{low:.1} to {high:.1} {next}"),
    }
}

fn rates((rate, next): (Rate, u64)) -> String {
    format!("{:.3} to {:.3} over {:.1} {next}", rate.low, rate.high, rate.seconds)
}

fn codes() {
    let cases = [(0, 0), (5, 0), (-16, 0), (32, 0), (100, 0), (3, 3), (4, 3)];
    let ends = [(33_554_431, 0), (33_554_432, 0), (67_108_863, 0), (67_108_864, 0), (-67_108_863, 3)];
    for (value, drop) in cases.into_iter().chain(ends).chain([(5, 1)]) {
        let mut buffer = [0xff; 4];
        line(&format!("pack {value} drop {drop}"), code_pack(&mut buffer, 3, value, drop), |next| next.to_string());
        println!("bits: {}", hex(&buffer));
        line("unpack", code_unpack(&buffer, 3, drop), unpacks);
        line("reading", reading(&buffer, 3, drop), reads);
        line("rate", rate(&buffer, 3, drop, 1), rates);
    }
    line("pack into nothing", code_pack(&mut [], 0, 5, 0), |next| next.to_string());
    line("unpack nothing", code_unpack(&[], 0, 0), unpacks);
    line("rate at level 8", rate(&[0], 0, 0, 8), rates);
    line("rate of a cut code at level 8", rate(&[0xff], 0, 0, 8), rates);
    line("unpack a redundant zero", code_unpack(&[0x80], 0, 0), unpacks);
    line("reading of a redundant zero", reading(&[0x80], 0, 0), reads);
    line("rate of a redundant zero", rate(&[0x80], 0, 0, 1), rates);
    for at in [8, 9, 1 << 63, u64::MAX] {
        line(&format!("unpack at {at}"), code_unpack(&[0], at, 0), unpacks);
    }
}

/// A packet with four counts of 0 and one of 67,108,863, 33 bits. Its data cut by one bit and cut by many are told apart, by whatever reads
/// them; where nothing is left the position lies past the end.
fn cut_packet() -> Result<(), Box<dyn Error>> {
    let (mut data, mut packet, mut at) = ([0; 5], [0; 15], 0);
    for count in [0, 0, 0, 0, 67_108_863] {
        at = code_pack(&mut data, at, count, 0)?;
    }
    packet_write(&mut packet, 0x0301, &data)?;
    let data = packet_payload(&packet, 0);
    for left in (0..6).rev() {
        line(&format!("unpack from {left} of {} bytes", data.len()), code_unpack(&data[..left], 4, 0), unpacks);
        line(&format!("reading from {left} of {} bytes", data.len()), reading(&data[..left], 4, 0), reads);
        line(&format!("rate from {left} of {} bytes", data.len()), rate(&data[..left], 4, 0, 1), rates);
    }
    Ok(())
}

/// The bits missing of the longest code, cut before its first bit, before its second, and so on to its last.
fn cut_everywhere(drop: u8, bits: usize) -> Result<(), Box<dyn Error>> {
    print!("bits missing with drop {drop}:");
    for before in 0..bits {
        let left = before.div_ceil(8);
        let (mut code, at) = ([0; 5], (8 * left - before) as u64);
        code_pack(&mut code, at, 67_108_863, drop)?;
        if let Err(Refusal::BitsRanOut { missing }) = code_unpack(&code[..left], at, drop) {
            print!(" {missing}");
        }
    }
    println!();
    Ok(())
}

fn counts() {
    for count in [8191, 8193, 1 << 27] {
        line(&format!("float16 of {count}"), float16_code(count), |code| code.to_string());
    }
    println!("float16 8192: {}", float16_count(8192));
    for count in [100, 1 << 34] {
        line(&format!("float8 of {count}"), float8_code(count), |code| code.to_string());
    }
    println!("float8 36: {}", float8_count(36));
    for count in [16_777_215, 16_777_216] {
        line(&format!("int24 of {count}"), int24_code(count), |code| code.to_string());
        line(&format!("int24 {count}"), int24_count(count as u32), |count| count.to_string());
    }
    for count in [0, 1, 100, 2_147_483_647, 2_147_483_648, 1 << 40] {
        line(&format!("log8 of {count}"), log8_code(count), |code| code.to_string());
    }
    for code in [0, 7, 8, 9, 61, 255] {
        println!("log8 {code}: {}", log8_counts(code).map_or("no count".into(), |(low, high)| format!("{low} to {high}")));
    }
    for level in [0, 7, 8] {
        line(&format!("level {level}"), level_seconds(level), |seconds| seconds.to_string());
    }
    for second in [0, 59, 3600] {
        line(&format!("beginning {second}"), second_beginning(second), |level| level.to_string());
        line(&format!("ending {second}"), second_ending(second), |level| level.to_string());
    }
}

fn sums(sum: Sum) -> String {
    format!("{} {}", sum.sum, if sum.again { "again" } else { "new" })
}

fn histogram() -> Result<(), Box<dyn Error>> {
    let cells = Window { address: 0, xsize: 1, ysize: 0, ystride: 0, clear: true };
    line("open 0", Histogram::open(0).map(|_| ()), |_| String::new());
    line("open 262145", Histogram::open(262_145).map(|_| ()), |_| String::new());
    let mut board = Histogram::open(2)?;
    line("ask 0", board.ask_numbered(0, cells), sums);
    for address in [0, 0, 0, 2] {
        line(&format!("increment {address}"), board.increment(address), |_| "counted".into());
    }
    println!("memory: {:?}", board.memory());
    board.flip()?;
    println!("next number: {}", board.next()?);
    let ask = board.ask(cells)?;
    line("ask 1", board.answer(&ask), sums);
    line("ask 1", board.answer(&ask), sums);
    assert_eq!(board.ask(cells), Err(StillOpen { number: 1, asked: Asked::Window(cells) }));
    assert_eq!(board.open_ask(), Some(ask));
    let mut board = Histogram::from_bytes(&board.to_bytes())?;
    let ask = board.open_ask().ok_or("the ask is lost")?;
    assert_eq!(board.answer(&ask), Ok(Sum { sum: 3, again: true }));
    board.file(ask);
    println!("next number: {}", board.next()?);
    let ask = board.ask(cells)?;
    line("ask 2", board.answer(&ask), sums);
    board.give_up(ask);
    line("ask 4", board.ask_numbered(4, cells), sums);
    line("ask 2 of another window", board.ask_numbered(2, Window { clear: false, ..cells }), sums);
    let ask = board.ask(Window { address: 1, ..cells })?;
    line("ask too far", board.answer(&ask), sums);
    println!("next number: {}", board.next()?);
    println!("memory: {:?}", board.memory());
    let fed = |fed: Fed| format!("{} counted, ended by {}", fed.count, fed.ended.map_or(0, |refusal| refusal.number()));
    line("feed", board.increments(&[0, 0, 0, 2]), fed);
    line("feed nothing", board.increments(&[]), fed);
    println!("memory: {:?}", board.memory());
    damaged(&board);
    Ok(())
}

/// Bytes that are cut or damaged are no board's.
fn damaged(board: &Histogram) {
    let bytes = board.to_bytes();
    for i in 0..bytes.len() {
        assert!(Histogram::from_bytes(&bytes[..i]).is_err());
        let mut spoiled = bytes.clone();
        spoiled[i] ^= 1;
        assert!(Histogram::from_bytes(&spoiled).is_err());
    }
}

fn packet_asks() -> Result<(), Box<dyn Error>> {
    let item = |address, xsize, ysize, ystride, [clear, send, add]: [bool; 3], format| {
        let item = Item { address, xsize, ysize, ystride, clear, send, add, format };
        assert!(address > 0x3ffff || Item::of(item.word()) == Some(item));
        item.word()
    };
    let items = [
        item(0, 1, 0, 0, [true, true, false], Format::Float16),
        item(2, 0, 0, 0, [true, false, false], Format::Float16),
        item(4, 1, 0, 0, [false, true, true], Format::Packed),
        item(0, 6, 0, 0, [false, true, false], Format::Log8),
        item(0, 1, 2, 1, [true, true, false], Format::Int24),
    ];
    let chain: Vec<u64> = (0..65).map(|i| item(7, 0, 255, 0, [false, i == 63, i > 0], Format::Int24)).collect();
    let far = [items[0], item(1 << 18, 255, 255, 65_535, [false; 3], Format::Float16)];
    let asked = |items: &[u64], flags| PacketInputs { low: 1, items: items.to_vec(), flags, initial: 5, second: 59 };
    let mut board = Histogram::open(8)?;
    board.increments(&[0, 1, 1, 2, 2, 2, 5])?;
    board.increments(&[7; 1024])?;
    board.flip()?;
    for item in items {
        println!("item: {item:016x}");
    }
    println!("item too far: {:016x}", far[1]);
    let mut buffer = [0; raw::PACKET_BYTES];
    let packed = |p: PacketWritten| format!("{} bytes, total {}, {}", p.written, p.total, if p.again { "again" } else { "new" });
    line("packet of 65 items", board.packet_numbered(1, &asked(&chain, 2), &mut buffer), packed);
    line("packet whose first item adds", board.packet_numbered(1, &asked(&items[2..], 2), &mut buffer), packed);
    line("packet with flags 4", board.packet_numbered(1, &asked(&items, 4), &mut buffer), packed);
    line("packet too far", board.packet_numbered(1, &asked(&far, 2), &mut buffer), packed);
    line("packet too large", board.packet_numbered(1, &asked(&chain[..64], 2), &mut buffer), packed);
    line("packet into too little", board.packet_numbered(1, &asked(&items, 2), &mut buffer[..17]), packed);
    line("packet 1", board.packet_numbered(1, &asked(&items, 2), &mut buffer[..18]), packed);
    println!("packet: {}", hex(&buffer[..18]));
    line("header", packet_header(&buffer, 0), |h| format!("{} {}", h.apid, h.length));
    println!("payload: {}", hex(packet_payload(&buffer, 0)));
    buffer.fill(0xee);
    line("packet 1", board.packet_numbered(1, &asked(&items, 2), &mut buffer[..18]), packed);
    println!("packet: {}", hex(&buffer[..18]));
    line("packet 1 into too little", board.packet_numbered(1, &asked(&items, 2), &mut buffer[..17]), packed);
    line("packet 1 with flags 4", board.packet_numbered(1, &asked(&items, 4), &mut buffer), packed);
    line("packet 1 of other items", board.packet_numbered(1, &asked(&items[..4], 2), &mut buffer), packed);
    line("packet 3", board.packet_numbered(3, &asked(&items, 2), &mut buffer), packed);
    let all = Window { address: 0, xsize: 7, ysize: 0, ystride: 0, clear: true };
    line("ask 1", board.ask_numbered(1, all), sums);
    line("packet of no items", board.packet_numbered(2, &asked(&[], 0), &mut buffer[..11]), packed);
    println!("packet: {}", hex(&buffer[..11]));
    line("ask 3", board.ask_numbered(3, all), sums);
    line("packet 3", board.packet_numbered(3, &asked(&items, 2), &mut buffer), packed);
    things(board, asked(&items, 2), asked(&chain, 2))
}

/// A packet ask is a thing: made once, tried as often as the link needs, gone on with from a board's bytes; till it is filed or given up no
/// other ask of either kind is made.
fn things(mut board: Histogram, inputs: PacketInputs, refused: PacketInputs) -> Result<(), Box<dyn Error>> {
    let all = Window { address: 0, xsize: 7, ysize: 0, ystride: 0, clear: true };
    board.increments(&[0, 2, 5])?;
    board.flip()?;
    let ask = board.ask_packet(inputs.clone())?;
    let still_open = StillOpen { number: 4, asked: Asked::Packet(inputs.clone()) };
    assert_eq!((board.ask(all).err(), board.ask_packet(refused.clone()).err()), (Some(still_open.clone()), Some(still_open)));
    let kept = board.to_bytes(); // written down before it is answered
    let first = board.answer_packet(&ask)?;
    assert_eq!((first.total, first.again, ask.inputs(), board.open_ask()), (3, false, &inputs, None));
    board.increments(&[1, 1])?;
    board.flip()?;
    for bytes in [kept, board.to_bytes()] {
        let mut board = Histogram::from_bytes(&bytes)?;
        let ask = board.open_packet_ask().ok_or("the packet ask is lost")?;
        assert_eq!(board.answer_packet(&ask)?.packet, first.packet);
        assert_eq!(board.answer_packet(&ask)?, PacketAnswer { again: true, ..first.clone() });
        board.file_packet(ask);
        assert_eq!((board.open_packet_ask(), board.next()), (None, Ok(5)));
        let ask = board.ask_packet(refused.clone())?;
        assert_eq!((board.answer_packet(&ask), board.open_packet_ask()), (Err(Refusal::TooManyItems), None));
        let ask = board.ask_packet(inputs.clone())?;
        assert!(board.ask_numbered(5, all).is_ok());
        assert_eq!(board.answer_packet(&ask), Err(Refusal::OtherWindow));
        assert!(board.open_packet_ask().is_some());
        board.give_up_packet(ask);
        assert!(Histogram::from_bytes(&board.to_bytes())?.open_packet_ask().is_none());
        let ask = board.ask_packet(PacketInputs { items: refused.items[..64].to_vec(), ..refused.clone() })?;
        board.increments(&[7; 1024])?;
        board.flip()?;
        assert_eq!((board.answer_packet(&ask), board.open_packet_ask()), (Err(Refusal::CountTooLarge), None));
        board.flip()?;
        assert!(board.answer_packet(&ask).is_ok() && board.open_packet_ask().is_some());
        board.file_packet(ask);
    }
    damaged(&board);
    before();
    Ok(())
}

/// A board's bytes as they were written before there were packet asks, with an ask under way and with none: it goes on, and the words that
/// they do not have are 0.
fn before() {
    for open in [0, 1] {
        let mut bytes = b"PLVBOARD".to_vec();
        bytes.extend([2u32, 7, 9].iter().flat_map(|word| word.to_le_bytes()));
        bytes.extend([2u64, 1, 1, 1, 0, 0, 0, 0, 1, 33].iter().flat_map(|word| word.to_le_bytes()));
        bytes.extend([open, open, 0, 0, 0, 0, 0, 0, 0, 0, 0, open]);
        bytes.extend(checksum(&bytes).to_le_bytes());
        let mut board = Histogram::from_bytes(&bytes).expect("a board of before");
        assert_eq!((board.memory(), board.next(), board.open_ask().is_some()), (&[7, 9][..], Ok(2), open == 1));
        if let Some(ask) = board.open_ask() {
            assert_eq!(board.answer(&ask), Ok(Sum { sum: 33, again: true }));
            board.file(ask);
        }
        let ask = board.ask_packet(PacketInputs { low: 0, items: vec![], flags: 0, initial: 0, second: 0 }).expect("no ask is open");
        assert_eq!(board.answer_packet(&ask).expect("a packet").packet.len(), 11);
        board.file_packet(ask);
    }
}

fn main() -> Result<(), Box<dyn Error>> {
    println!("version: {}", if unsafe { raw::plv_version() } == raw::VERSION { "as it should be" } else { "another" });
    packets();
    messages();
    codes();
    cut_packet()?;
    cut_everywhere(0, 29)?;
    cut_everywhere(3, 26)?;
    counts();
    histogram()?;
    packet_asks()
}
