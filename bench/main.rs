//! The proved calls against plain Rust, in one process and on the same inputs. Prints a table: nanoseconds of each, and the
//! ratio proved over plain, the median of alternating rounds; under 1.0 the proved call is the faster. A word after `ratios` asks for the
//! rows alone whose names have it. Asked for `growth`, it prints how time grows with the work instead.

#[path = "plain.rs"]
mod plain;
#[path = "../bindings/rust/src/raw.rs"]
#[allow(dead_code)]
mod raw;

use plain::{Histogram, Inputs, Unread, Window};
use std::hint::black_box;
use std::time::{Duration, Instant};

const ROUNDS: usize = 15;
const ROUND: Duration = Duration::from_millis(8);

/// Numbers that look random and are the same in every run (splitmix64).
struct Random(u64);

impl Random {
    fn next(&mut self) -> u64 {
        self.0 = self.0.wrapping_add(0x9e37_79b9_7f4a_7c15);
        let mut z = self.0;
        z = (z ^ (z >> 30)).wrapping_mul(0xbf58_476d_1ce4_e5b9);
        z = (z ^ (z >> 27)).wrapping_mul(0x94d0_49bb_1331_11eb);
        z ^ (z >> 31)
    }

    fn bytes(&mut self, count: usize) -> Vec<u8> {
        (0..count).map(|_| self.next() as u8).collect()
    }
}

/// How often the work fits a round.
fn repeats(work: &mut dyn FnMut()) -> u32 {
    let mut count = 1;
    loop {
        let began = Instant::now();
        (0..count).for_each(|_| work());
        let took = began.elapsed();
        if took > ROUND / 4 {
            return ((ROUND.as_secs_f64() / took.as_secs_f64() * count as f64) as u32).max(1);
        }
        count *= 4;
    }
}

/// The nanoseconds of one piece of work in one round.
fn round(work: &mut dyn FnMut(), count: u32) -> f64 {
    let began = Instant::now();
    (0..count).for_each(|_| work());
    began.elapsed().as_nanos() as f64 / count as f64
}

fn median(mut times: Vec<f64>) -> f64 {
    times.sort_by(f64::total_cmp);
    times[times.len() / 2]
}

/// A row of the table: both in turn, round by round. Where a word is asked for, only rows whose names have it.
fn row(name: &str, mut proved: impl FnMut(), mut plain: impl FnMut()) {
    if std::env::args().nth(2).is_some_and(|word| !name.contains(&word)) {
        return;
    }
    let (first, second) = (repeats(&mut proved), repeats(&mut plain));
    let (mut of_proved, mut of_plain) = (Vec::new(), Vec::new());
    for _ in 0..ROUNDS {
        of_proved.push(round(&mut proved, first));
        of_plain.push(round(&mut plain, second));
    }
    let ratios = median(of_proved.iter().zip(&of_plain).map(|(a, b)| a / b).collect());
    println!("| {name} | {:.1} | {:.1} | {ratios:.2} |", median(of_proved), median(of_plain));
}

fn checksum(bytes: &[u8]) -> u16 {
    unsafe { raw::plv_checksum(bytes.as_ptr(), bytes.len()) }
}

fn find(capture: &[u8]) -> Result<usize, u8> {
    let (mut place, mut skipped) = (0, 0);
    match unsafe { raw::plv_packet_find(capture.as_ptr(), capture.len(), &mut place, &mut skipped) } {
        0 => Ok(place as usize),
        number => Err(number),
    }
}

fn write_packet(buffer: &mut [u8], apid: u16, data: &[u8]) -> Result<usize, u8> {
    let mut written = 0;
    match unsafe {
        raw::plv_packet_write(buffer.as_mut_ptr(), buffer.len(), apid, data.as_ptr(), data.len(), &mut written)
    } {
        0 => Ok(written as usize),
        number => Err(number),
    }
}

fn read_message(bytes: &[u8]) -> Result<(u16, u8, u64, usize), u8> {
    let (mut address, mut tag, mut value, mut used) = (0, 0, 0, 0);
    match unsafe {
        raw::plv_message_read(bytes.as_ptr(), bytes.len(), &mut address, &mut tag, &mut value, &mut used)
    } {
        0 => Ok((address, tag, value, used as usize)),
        number => Err(number),
    }
}

fn write_message(buffer: &mut [u8], address: u16, tag: u8, value: u64) -> Result<usize, u8> {
    let mut written = 0;
    match unsafe { raw::plv_message_write(buffer.as_mut_ptr(), buffer.len(), address, tag, value, &mut written) } {
        0 => Ok(written as usize),
        number => Err(number),
    }
}

fn pack(buffer: &mut [u8], at: u64, value: i32, drop: u8) -> Result<u64, u8> {
    let mut next = 0;
    match unsafe { raw::plv_code_pack(buffer.as_mut_ptr(), buffer.len(), at, value, drop, &mut next) } {
        0 => Ok(next),
        number => Err(number),
    }
}

fn unpack(bytes: &[u8], at: u64, drop: u8) -> Result<(i32, u64), Unread> {
    let (mut value, mut next, mut missing) = (0, 0, 0);
    match unsafe { raw::plv_code_unpack(bytes.as_ptr(), bytes.len(), at, drop, &mut value, &mut next, &mut missing) } {
        0 => Ok((value, next)),
        number => Err(Unread { number, missing }),
    }
}

fn log8_code(count: u64) -> Result<u8, u8> {
    let mut code = 0;
    match unsafe { raw::plv_log8_code(count, &mut code) } {
        0 => Ok(code),
        number => Err(number),
    }
}

fn log8_counts(code: u8) -> Option<(u64, u64)> {
    let (mut low, mut high, mut some) = (0, 0, 0);
    unsafe { raw::plv_log8_counts(code, &mut low, &mut high, &mut some) };
    (some == 1).then_some((low, high))
}

/// Histogram memory behind the exported calls.
struct Board {
    memory: Vec<u32>,
    state: [u64; raw::STATE_WORDS],
}

impl Board {
    fn open(words: usize) -> Board {
        let mut board = Board { memory: vec![0; words], state: [0; raw::STATE_WORDS] };
        board.clear_all();
        board
    }

    fn clear_all(&mut self) {
        let (memory, state) = (&mut self.memory, &mut self.state);
        let number = unsafe {
            raw::plv_histogram_open(memory.as_mut_ptr(), memory.len(), state.as_mut_ptr(), state.len())
        };
        assert_eq!(number, 0);
    }

    fn increment(&mut self, address: u32) -> u8 {
        let (memory, state) = (&mut self.memory, &self.state);
        unsafe { raw::plv_histogram_increment(memory.as_mut_ptr(), memory.len(), state.as_ptr(), state.len(), address) }
    }

    fn flip(&mut self) {
        let (memory, state) = (&self.memory, &mut self.state);
        unsafe { raw::plv_histogram_flip(memory.as_ptr(), memory.len(), state.as_mut_ptr(), state.len()) };
    }

    fn ask(&mut self, number: u16, w: Window) -> Result<(u64, bool), u8> {
        let (mut sum, mut again) = (0, 0);
        let (memory, state) = (&mut self.memory, &mut self.state);
        let refused = unsafe {
            raw::plv_histogram_ask(
                memory.as_mut_ptr(),
                memory.len(),
                state.as_mut_ptr(),
                state.len(),
                number,
                w.address,
                w.xsize,
                w.ysize,
                w.ystride,
                w.clear as u8,
                &mut sum,
                &mut again,
            )
        };
        if refused == 0 { Ok((sum, again == 1)) } else { Err(refused) }
    }

    fn packet(&mut self, number: u16, i: Inputs, buffer: &mut [u8]) -> Result<(usize, u64, bool), u8> {
        let (mut written, mut total, mut again) = (0, 0, 0);
        let (memory, state) = (&mut self.memory, &mut self.state);
        let refused = unsafe {
            raw::plv_histogram_packet(
                memory.as_mut_ptr(),
                memory.len(),
                state.as_mut_ptr(),
                state.len(),
                number,
                i.low,
                i.items.as_ptr(),
                i.items.len(),
                i.flags,
                i.initial,
                i.second,
                buffer.as_mut_ptr(),
                buffer.len(),
                &mut written,
                &mut total,
                &mut again,
            )
        };
        if refused == 0 { Ok((written as usize, total, again == 1)) } else { Err(refused) }
    }
}

fn packet(apid: u16, data: &[u8]) -> Vec<u8> {
    let mut bytes = vec![0; data.len() + 10];
    plain::write_packet(&mut bytes, apid, data).unwrap();
    bytes
}

/// The captures that finding is measured on.
fn captures(random: &mut Random) -> Vec<(&'static str, Vec<u8>)> {
    let mut damaged = Vec::new();
    while damaged.len() + 4106 <= 65_536 {
        let mut one = packet(7, &random.bytes(4096));
        one[4100] ^= 1;
        damaged.extend(one);
    }
    let marks = [0xbe, 0xba, 0xca, 0xfe].repeat(16_384);
    // the worst: at every sixth place a mark and a length word that reaches as far as the capture or a packet can
    let worst = [0xbe, 0xba, 0xca, 0xfe, 0x1f, 0xff].repeat(10_922);
    vec![
        ("noise, 64 KiB", random.bytes(65_536)),
        ("sixteen damaged packets back to back", damaged),
        ("a packet at the front", packet(9, &random.bytes(4096))),
        ("marks everywhere, 64 KiB", marks),
        ("worst: a whole packet's length at every sixth byte", worst),
    ]
}

fn finding(random: &mut Random) {
    for (name, capture) in captures(random) {
        assert_eq!(find(&capture), plain::find(&capture));
        row(
            &format!("find: {name}"),
            || {
                black_box(find(black_box(&capture))).ok();
            },
            || {
                black_box(plain::find(black_box(&capture))).ok();
            },
        );
    }
}

fn checksums(random: &mut Random) {
    for (name, count) in [("64 bytes", 64), ("8 KiB", 8192), ("64 MiB", 64 << 20)] {
        let bytes = random.bytes(count);
        assert_eq!(checksum(&bytes), plain::checksum(&bytes));
        row(
            &format!("checksum: {name}"),
            || {
                black_box(checksum(black_box(&bytes)));
            },
            || {
                black_box(plain::checksum(black_box(&bytes)));
            },
        );
    }
}

fn writing(random: &mut Random) {
    for count in [16, 1024, 8187] {
        let data = random.bytes(count);
        let (mut first, mut second) = (vec![0; 8200], vec![0; 8200]);
        row(
            &format!("packet write: {count} bytes"),
            || {
                black_box(write_packet(black_box(&mut first), 7, black_box(&data))).ok();
            },
            || {
                black_box(plain::write_packet(black_box(&mut second), 7, black_box(&data))).ok();
            },
        );
        assert_eq!(first, second);
    }
}

fn messages(random: &mut Random) {
    for tag in 0..4u8 {
        let value = random.next() & [0, 0xffff, 0xffff_ffff, u64::MAX][tag as usize];
        let (mut first, mut second) = (vec![0; 16], vec![0; 16]);
        row(
            &format!("message write: tag {tag}"),
            || {
                black_box(write_message(black_box(&mut first), 77, tag, black_box(value))).ok();
            },
            || {
                black_box(plain::write_message(black_box(&mut second), 77, tag, black_box(value))).ok();
            },
        );
        assert_eq!((&first, read_message(&first)), (&second, plain::read_message(&first)));
        row(
            &format!("message read: tag {tag}"),
            || {
                black_box(read_message(black_box(&first))).ok();
            },
            || {
                black_box(plain::read_message(black_box(&first))).ok();
            },
        );
    }
}

/// A run of numbers packed one after the other; the bits it took.
fn pack_run(pack: impl Fn(&mut [u8], u64, i32, u8) -> Result<u64, u8>, buffer: &mut [u8], numbers: &[i32], drop: u8) -> u64 {
    numbers.iter().fold(0, |at, &number| pack(buffer, at, number, drop).unwrap())
}

/// So many codes read one after the other; their sum.
fn unpack_run(unpack: impl Fn(&[u8], u64, u8) -> Result<(i32, u64), Unread>, bytes: &[u8], count: usize, drop: u8) -> i64 {
    let (mut at, mut sum) = (0, 0);
    for _ in 0..count {
        let (value, next) = unpack(bytes, at, drop).unwrap();
        sum += value as i64;
        at = next;
    }
    sum
}

/// Codes from these positions on, each cut where the byte that it begins in ends, and refused by 9; the bits missing in all.
fn cut_run(unpack: impl Fn(&[u8], u64, u8) -> Result<(i32, u64), Unread>, bytes: &[u8], begins: &[u64], drop: u8) -> u64 {
    let missing = |&at: &u64| match unpack(&bytes[..at as usize / 8 + 1], at, drop) {
        Err(Unread { number: 9, missing }) => missing as u64,
        answer => panic!("not cut: {answer:?}"),
    };
    begins.iter().map(missing).sum()
}

fn codes(random: &mut Random) {
    for (name, most) in [("small", 16), ("middle", 4096), ("large", plain::LARGEST + 1)] {
        for drop in [0, 3] {
            let numbers: Vec<i32> = (0..1000).map(|_| (random.next() % most) as i32 * (1 - 2 * (random.next() % 2) as i32)).collect();
            let (mut first, mut second) = (vec![0; 4000], vec![0; 4000]);
            row(
                &format!("pack 1,000 {name} numbers, drop {drop}"),
                || {
                    black_box(pack_run(pack, black_box(&mut first), black_box(&numbers), drop));
                },
                || {
                    black_box(pack_run(plain::pack, black_box(&mut second), black_box(&numbers), drop));
                },
            );
            // once more, for where the row above was not asked for
            assert_eq!(pack_run(pack, &mut first, &numbers, drop), pack_run(plain::pack, &mut second, &numbers, drop));
            assert_eq!(first, second);
            assert_eq!(unpack_run(unpack, &first, 1000, drop), unpack_run(plain::unpack, &first, 1000, drop));
            row(
                &format!("unpack 1,000 {name} numbers, drop {drop}"),
                || {
                    black_box(unpack_run(unpack, black_box(&first), 1000, drop));
                },
                || {
                    black_box(unpack_run(plain::unpack, black_box(&first), 1000, drop));
                },
            );
        }
    }
}

/// Codes of large numbers that are cut short; drawn by themselves, so that the rows behind them keep their inputs.
fn cut_codes() {
    let mut random = Random(2);
    for drop in [0, 3] {
        let (mut bytes, mut begins, mut at) = (vec![0; 4000], Vec::new(), 0);
        for _ in 0..1000 {
            begins.push(at);
            at = pack(&mut bytes, at, (plain::LARGEST / 2 + random.next() % (plain::LARGEST / 2)) as i32, drop).unwrap();
        }
        assert_eq!(cut_run(unpack, &bytes, &begins, drop), cut_run(plain::unpack, &bytes, &begins, drop));
        row(
            &format!("unpack 1,000 codes cut short, drop {drop}"),
            || {
                black_box(cut_run(unpack, black_box(&bytes), black_box(&begins), drop));
            },
            || {
                black_box(cut_run(plain::unpack, black_box(&bytes), black_box(&begins), drop));
            },
        );
    }
}

/// The logarithm bytes of counts, one after the other; their sum.
fn log8_run(log8_code: impl Fn(u64) -> Result<u8, u8>, counts: &[u64]) -> u64 {
    counts.iter().map(|&count| log8_code(count).unwrap() as u64).sum()
}

/// The counts of logarithm bytes, one after the other; the sum of their ends.
fn ends_run(log8_counts: impl Fn(u8) -> Option<(u64, u64)>, bytes: &[u8]) -> u64 {
    bytes.iter().filter_map(|&byte| log8_counts(byte)).map(|(low, high)| low + high).sum()
}

/// Logarithm bytes: so many at a time that a processor does not learn their order by heart, as it does that of a thousand.
fn logarithms(random: &mut Random) {
    let of_all_sizes: Vec<u64> = (0..10_000).map(|_| random.next() >> (33 + random.next() % 31)).collect();
    let alike: Vec<u64> = (0..10_000).map(|_| 1_000_000 + random.next() % 1000).collect();
    for (name, counts) in [("of all sizes", of_all_sizes), ("alike", alike)] {
        assert_eq!(log8_run(log8_code, &counts), log8_run(plain::log8_code, &counts));
        row(
            &format!("logarithm bytes of 10,000 counts {name}"),
            || {
                black_box(log8_run(log8_code, black_box(&counts)));
            },
            || {
                black_box(log8_run(plain::log8_code, black_box(&counts)));
            },
        );
    }
    for (name, bytes) in [("of all sizes", random.bytes(10_000)), ("alike", vec![167; 10_000])] {
        assert_eq!(ends_run(log8_counts, &bytes), ends_run(plain::log8_counts, &bytes));
        row(
            &format!("counts of 10,000 logarithm bytes {name}"),
            || {
                black_box(ends_run(log8_counts, black_box(&bytes)));
            },
            || {
                black_box(ends_run(plain::log8_counts, black_box(&bytes)));
            },
        );
    }
}

const fn window(address: u32, xsize: u8, ysize: u8, ystride: u16, clear: bool) -> Window {
    Window { address, xsize, ysize, ystride, clear }
}

fn asks() {
    let windows = [
        ("4 cells", window(2, 1, 1, 3, true)),
        ("256 cells in a row", window(0, 255, 0, 0, true)),
        ("65,536 cells side by side", window(0, 255, 255, 1, true)),
        ("overlapping: 65,536 visits, each row one cell on", window(0, 255, 255, 0, true)),
        ("one cell in each of 256 rows", window(0, 0, 255, 1000, true)),
        ("65,536 cells kept", window(0, 255, 255, 1, false)),
        ("the largest: 65,536 cells over the page", window(0, 255, 255, 772, true)),
    ];
    for (name, window) in windows {
        let (mut board, mut histogram) = (Board::open(524_288), Histogram::open(524_288));
        let (mut first, mut second) = (0u16, 0u16);
        row(
            &format!("ask: {name}"),
            || {
                first = first.wrapping_add(1);
                black_box(board.ask(black_box(first), window)).unwrap();
            },
            || {
                second = second.wrapping_add(1);
                black_box(histogram.ask(black_box(second), window)).unwrap();
            },
        );
    }
    let (mut board, mut histogram) = (Board::open(524_288), Histogram::open(524_288));
    board.flip();
    histogram.flip();
    row(
        "1,000 increments",
        || (0..1000).for_each(|i| assert_eq!(board.increment(black_box(i * 200)), 0)),
        || (0..1000).for_each(|i| histogram.increment(black_box(i * 200)).unwrap()),
    );
    row(
        "1,000 flips",
        || (0..1000).for_each(|_| black_box(&mut board).flip()),
        || (0..1000).for_each(|_| black_box(&mut histogram).flip()),
    );
    let four = window(2, 1, 1, 3, true);
    board.ask(1, four).unwrap();
    histogram.ask(1, four).unwrap();
    row(
        "1,000 repeats of an ask",
        || (0..1000).for_each(|_| assert!(board.ask(black_box(1), black_box(four)).unwrap().1)),
        || (0..1000).for_each(|_| assert!(histogram.ask(black_box(1), black_box(four)).unwrap().1)),
    );
    row("open 524,288 words", || board.clear_all(), || histogram.clear_all());
}

/// Items over windows of four cells, or of 65,536: in turn they clear a part of the page where nothing counts any more, and keep another that
/// holds counts. Sent in all four formats, one after the other.
fn items(count: u64, large: bool) -> Vec<u64> {
    let cells = if large { 1 << 48 | 255 << 40 | 255 << 32 } else { 3 << 48 | 1 << 40 | 1 << 32 };
    let item = |i: u64| cells | (1 - i % 2) << 22 | 1 << 21 | (i % 4) << 18 | (i % 2 * 131_072 + if large { 1000 * i } else { 16 * i });
    (0..count).map(item).collect()
}

/// Both programs with the same counts in the later half of the page that is asked, and a full counter at its end.
fn counted() -> (Board, Histogram) {
    let (mut board, mut histogram) = (Board::open(524_288), Histogram::open(524_288));
    for memory in [&mut board.memory, &mut histogram.memory] {
        memory[393_216..].fill(5);
        memory[524_287] = plain::LARGEST as u32;
    }
    (board, histogram)
}

fn packet_asks() {
    let (mut first, mut second) = ([0; raw::PACKET_BYTES], [0; raw::PACKET_BYTES]);
    for (name, large) in [("4 cells", false), ("65,536 cells", true)] {
        for count in [1, 16, 64] {
            let (mut board, mut histogram) = counted();
            let items = items(count, large);
            let inputs = Inputs { low: 1, items: &items, flags: 2, initial: 5, second: 59 };
            assert_eq!(board.packet(1, inputs, &mut first), histogram.packet(1, inputs, &mut second));
            assert_eq!(first, second);
            let (mut number, mut other) = (1u16, 1u16);
            row(
                &format!("packet: {count} item{} of {name}", if count == 1 { "" } else { "s" }),
                || {
                    number = number.wrapping_add(1);
                    black_box(board.packet(black_box(number), black_box(inputs), &mut first)).unwrap();
                },
                || {
                    other = other.wrapping_add(1);
                    black_box(histogram.packet(black_box(other), black_box(inputs), &mut second)).unwrap();
                },
            );
        }
        // the last item visits the full counter 256 times, which is too large to send: what 63 others cleared is there again
        let (mut board, mut histogram) = counted();
        let spoiled: Vec<u64> = items(63, large).into_iter().chain([255 << 40 | 1 << 21 | 0x3ffff]).collect();
        let inputs = Inputs { low: 1, items: &spoiled, flags: 2, initial: 5, second: 59 };
        row(
            &format!("packet refused at its last item: 64 items of {name}"),
            || assert_eq!(black_box(board.packet(black_box(1), black_box(inputs), &mut first)), Err(12)),
            || assert_eq!(black_box(histogram.packet(black_box(1), black_box(inputs), &mut second)), Err(12)),
        );
        assert_eq!(board.memory, histogram.memory);
    }
    for count in [1, 16, 64] {
        let (mut board, mut histogram) = counted();
        let items = items(count, false);
        let inputs = Inputs { low: 1, items: &items, flags: 2, initial: 5, second: 59 };
        assert_eq!(board.packet(1, inputs, &mut first), histogram.packet(1, inputs, &mut second));
        row(
            &format!("1,000 repeats of a packet of {count} item{}", if count == 1 { "" } else { "s" }),
            || (0..1000).for_each(|_| assert!(board.packet(black_box(1), black_box(inputs), &mut first).unwrap().2)),
            || (0..1000).for_each(|_| assert!(histogram.packet(black_box(1), black_box(inputs), &mut second).unwrap().2)),
        );
        assert_eq!(first, second);
    }
}

/// The nanoseconds of one piece of work.
fn time(mut work: impl FnMut()) -> f64 {
    let count = repeats(&mut work);
    median((0..ROUNDS).map(|_| round(&mut work, count)).collect())
}

/// A row of the second table: the work at four sizes, nanoseconds over the size.
fn grows(name: &str, unit: &str, sizes: [usize; 4], mut timed: impl FnMut(usize) -> f64) {
    let cells: Vec<String> = sizes.iter().map(|&size| format!("{size}: {:.3}", timed(size) / size as f64)).collect();
    println!("| {name} | {unit} | {} |", cells.join(" | "));
}

fn growth(random: &mut Random) {
    grows("find in noise", "byte", [1024, 4096, 16_384, 65_536], |size| {
        let capture = random.bytes(size);
        time(|| {
            black_box(find(black_box(&capture))).ok();
        })
    });
    grows("ask", "cell", [256, 1024, 4096, 65_536], |size| {
        let mut board = Board::open(524_288);
        let mut number = 0u16;
        time(|| {
            number = number.wrapping_add(1);
            black_box(board.ask(number, window(0, 255, (size / 256 - 1) as u8, 1, true))).unwrap();
        })
    });
    grows("packet, 4 cells an item", "item", [1, 4, 16, 64], |size| {
        let (items, mut buffer) = (items(size as u64, false), [0; raw::PACKET_BYTES]);
        let inputs = Inputs { low: 1, items: &items, flags: 2, initial: 5, second: 59 };
        let (mut board, _) = counted();
        let mut number = 0u16;
        time(|| {
            number = number.wrapping_add(1);
            black_box(board.packet(number, black_box(inputs), &mut buffer)).unwrap();
        })
    });
    grows("unpack, middle numbers", "code", [100, 1000, 10_000, 100_000], |size| {
        let numbers: Vec<i32> = (0..size).map(|_| (random.next() % 4096) as i32).collect();
        let mut bytes = vec![0; 4 * size];
        pack_run(pack, &mut bytes, &numbers, 0);
        time(|| {
            black_box(unpack_run(unpack, black_box(&bytes), size, 0));
        })
    });
    grows("open", "word", [2048, 16_384, 131_072, 524_288], |size| {
        let mut board = Board::open(size);
        time(|| board.clear_all())
    });
}

fn main() {
    let mut random = Random(1);
    if std::env::args().nth(1).as_deref() == Some("growth") {
        println!("| work | unit | nanoseconds a unit, at four sizes | | | |\n|---|---|---|---|---|---|");
        growth(&mut random);
        return;
    }
    println!("| work | proved, ns | plain, ns | proved / plain |\n|---|---|---|---|");
    checksums(&mut random);
    finding(&mut random);
    writing(&mut random);
    messages(&mut random);
    codes(&mut random);
    cut_codes();
    logarithms(&mut random);
    asks();
    packet_asks();
}
