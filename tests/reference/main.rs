//! The second program: document 01 in plain Rust, on std alone, written from the document and not from the Rattle code. It makes
//! what the test programs are fed and what they must print; tests/drive gives the same cases to it and to the exported calls.
//!
//!   reference feed           the records that the program `vectors` is given
//!   reference answers        reads such records, and prints the lines that answer them
//!   reference checksum       reads bytes, and prints their checksum
//!   reference checksums      reads lines of bytes in hexadecimal, and prints the checksum of each
//!   reference lines          a hard input for the program `codes`
//!   reference codes          reads such an input, and prints what `codes` must print

mod checksum;
// its readings are driven by tests/drive alone
#[allow(dead_code)]
mod code;
mod lines;
mod random;
mod records;

use std::io::{Read, Write};

/// The bytes that a line of hexadecimal digits means.
fn bytes_of(line: &str) -> Vec<u8> {
    (0..line.len() / 2).map(|i| u8::from_str_radix(&line[2 * i..2 * i + 2], 16).unwrap()).collect()
}

fn main() {
    let job = std::env::args().nth(1).unwrap_or_default();
    let mut given = Vec::new();
    if ["answers", "checksum", "checksums", "codes"].contains(&job.as_str()) {
        std::io::stdin().lock().read_to_end(&mut given).unwrap();
    }
    let printed = match job.as_str() {
        "feed" => records::feed(),
        "answers" => records::answers(&given).into_bytes(),
        "checksum" => format!("{:04x}\n", checksum::of(&given)).into_bytes(),
        "checksums" => {
            let text = String::from_utf8(given).unwrap();
            text.lines().map(|line| format!("{:04x}\n", checksum::of(&bytes_of(line)))).collect::<String>().into_bytes()
        }
        "lines" => lines::hard(),
        "codes" => lines::printed(&given).into_bytes(),
        _ => {
            eprintln!("usage: reference feed | answers | checksum | checksums | lines | codes");
            std::process::exit(2);
        }
    };
    std::io::stdout().lock().write_all(&printed).unwrap();
}
