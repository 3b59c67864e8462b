//! A bench in Rust: a board is opened, fed, flipped and asked over a link that times out, by windows and by a packet, and the count sheet
//! is right.

use plavotesk::{int24_count, packet_find, packet_payload, Answer, Format, Histogram, Item, PacketInputs, Window};
use std::error::Error;

const COUNTERS: u32 = 64;
const PARTICLES: u32 = 300;
const WINDOWS: u32 = 4;

/// Feeds the board a particle that hits a counter; whether it was counted.
fn feed(board: &mut Histogram, counter: u32) -> bool {
    match board.increment(counter) {
        Ok(()) => true,
        Err(refusal) => {
            println!("a particle at counter {counter}: refused {}", refusal.number());
            false
        }
    }
}

/// Tries an ask over the link until an answer comes. The board answers, but the first answer to every odd ask is lost.
fn over_the_link<T>(number: u16, mut answer: impl FnMut() -> Answer<T>) -> Answer<T> {
    let mut tried = 0;
    loop {
        let answer = answer();
        if number % 2 == 0 || tried > 0 {
            return answer;
        }
        println!("ask {number}: timed out");
        tried += 1;
    }
}

fn new_or_again(again: bool) -> &'static str {
    if again { "again" } else { "new" }
}

/// Asks for the sum of a window, and gives it to file.
fn asked(board: &mut Histogram, window: Window) -> Result<u64, Box<dyn Error>> {
    let ask = board.ask(window)?;
    let answer = over_the_link(ask.number(), || board.answer(&ask))?;
    println!("ask {}: {}, {}", ask.number(), answer.sum, new_or_again(answer.again));
    board.file(ask);
    Ok(answer.sum)
}

/// Asks for a packet with the counts of windows, three bytes each after one byte, and gives them to file.
fn packet_asked(board: &mut Histogram, windows: &[Window]) -> Result<Vec<u64>, Box<dyn Error>> {
    let item = |&Window { address, xsize, ysize, ystride, clear }: &Window| {
        Item { address, xsize, ysize, ystride, clear, send: true, add: false, format: Format::Int24 }.word()
    };
    let ask = board.ask_packet(PacketInputs { low: 1, items: windows.iter().map(item).collect(), flags: 0, initial: 0, second: 59 })?;
    let answer = over_the_link(ask.number(), || board.answer_packet(&ask))?;
    println!("ask {}: a packet of {} bytes, {} in all, {}", ask.number(), answer.packet.len(), answer.total, new_or_again(answer.again));
    let data = packet_payload(&answer.packet, packet_find(&answer.packet)?.place);
    let mut counts = Vec::new();
    for code in data[1..].chunks(3) {
        counts.push(int24_count(u32::from_be_bytes([0, code[0], code[1], code[2]]))? as u64);
    }
    board.file_packet(ask);
    Ok(counts)
}

fn main() -> Result<(), Box<dyn Error>> {
    let mut board = Histogram::open(COUNTERS as usize)?;
    println!("board opened: two pages of {COUNTERS} counters");
    let mut counted = 0;
    for i in 0..PARTICLES {
        counted += feed(&mut board, (i * i + 3 * i) % COUNTERS) as u64;
    }
    counted += feed(&mut board, COUNTERS) as u64;
    println!("{} particles fed, {counted} counted", PARTICLES + 1);
    board.flip()?;
    let windows: Vec<Window> = (0..WINDOWS).map(|i| Window { address: 16 * i, xsize: 15, ysize: 0, ystride: 0, clear: true }).collect();
    let mut sheet = Vec::new();
    for &window in &windows[..2] {
        sheet.push(asked(&mut board, window)?);
    }
    sheet.extend(packet_asked(&mut board, &windows[2..])?);
    println!("count sheet");
    for (i, sum) in sheet.iter().enumerate() {
        println!("  counters {} to {}: {sum}", 16 * i, 16 * i + 15);
    }
    let filed: u64 = sheet.iter().sum();
    println!("  total: {filed}");
    println!("{}", if filed == counted { "every count is filed once" } else { "THE SHEET IS WRONG" });
    std::process::exit(if filed == counted { 0 } else { 1 });
}
