//! The exported calls and the second program, side by side: each case is given to both, and every answer, every lent place and
//! every byte of memory that a call may write, with margins, is compared.
//!
//!   drive SEED FAMILY CASES     prints how many comparisons agreed, which numbers each call answered, and the first cases
//!                               that differ; exit status 1 where any does

#[path = "../reference/cadence.rs"]
mod cadence;
#[path = "../reference/checksum.rs"]
mod checksum;
#[path = "../reference/code.rs"]
mod code;
#[path = "../reference/format.rs"]
mod format;
#[path = "../reference/histogram.rs"]
mod histogram;
#[path = "../reference/message.rs"]
mod message;
#[path = "../reference/packet.rs"]
mod packet;
#[path = "../reference/packet_ask.rs"]
mod packet_ask;
#[path = "../reference/random.rs"]
mod random;
#[path = "../../bindings/rust/src/raw.rs"]
mod raw;

mod codes;
mod counts;
mod forged;
mod lent;
mod messages;
mod packet_asks;
mod packets;
mod scripts;
mod stored;

use random::Random;
use std::collections::{BTreeMap, BTreeSet};
use std::fmt::Debug;

/// On how many cases the two agreed, on how many they did not, and which numbers each exported call answered.
#[derive(Default)]
pub struct Tally {
    agreed: u64,
    differed: u64,
    numbers: BTreeMap<&'static str, BTreeSet<u8>>,
}

impl Tally {
    /// A number that an exported call answered.
    pub fn answered(&mut self, call: &'static str, number: u8) {
        self.numbers.entry(call).or_default().insert(number);
    }

    /// The calls and the numbers that each answered.
    fn met(&self) -> String {
        let one = |(call, numbers): (&&str, &BTreeSet<u8>)| {
            numbers.iter().fold(call.to_string(), |line, number| format!("{line} {number}"))
        };
        self.numbers.iter().map(one).collect::<Vec<_>>().join(", ")
    }

    /// One comparison: what the exported call left, and what the second program says it must leave.
    pub fn compare<T: PartialEq + Debug>(&mut self, case: impl Fn() -> String, proved: T, plain: T) {
        if proved == plain {
            self.agreed += 1;
            return;
        }
        self.differed += 1;
        if self.differed <= 3 {
            println!("DIFFERENT {}\n  exported call:  {proved:?}\n  second program: {plain:?}", case());
        }
    }
}

/// Fewer than so many bytes.
pub fn some(random: &mut Random, end: u64) -> Vec<u8> {
    let count = random.below(end) as usize;
    random.bytes(count)
}

fn main() {
    let given: Vec<String> = std::env::args().skip(1).collect();
    let [seed, family, cases] = &given[..] else {
        eprintln!("usage: drive SEED packets|messages|codes|patterns|counts|forged|scripts|packet_asks CASES");
        std::process::exit(2);
    };
    let mut random = Random::new(seed.parse().expect("the seed is a number"));
    let cases = cases.parse().expect("the number of cases is a number");
    let mut tally = Tally::default();
    assert_eq!(unsafe { raw::plv_version() }, raw::VERSION, "the library is of another version");
    match family.as_str() {
        "packets" => packets::drive(&mut random, cases, &mut tally),
        "messages" => messages::drive(&mut random, cases, &mut tally),
        "codes" => codes::drive(&mut random, cases, &mut tally),
        "patterns" => codes::drive_patterns(&mut random, cases, &mut tally),
        "counts" => counts::drive(&mut random, cases, &mut tally),
        "forged" => forged::drive(&mut random, cases, &mut tally),
        "scripts" => scripts::drive(&mut random, cases, &mut tally),
        "packet_asks" => packet_asks::drive(&mut random, cases, &mut tally),
        _ => panic!("no family is called {family}"),
    }
    let Tally { agreed, differed, .. } = &tally;
    println!("{family}, seed {seed}: {agreed} comparisons agreed, {differed} differed; answered: {}", tally.met());
    std::process::exit(if tally.differed == 0 { 0 } else { 1 });
}
