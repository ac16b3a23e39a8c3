//! Settles a month sheet: `independent [N] < SHEET` prints its statement once, having worked it
//! out N times, and says on standard error how many nanoseconds one took.
//! `independent --cases` settles a `NAME HEX` sheet from each line.

mod book;
mod settlement;
mod sheet;
mod tariff;

use std::env;
use std::error::Error;
use std::fmt::Write as _;
use std::hint::black_box;
use std::io::{self, Read, Write as _};
use std::time::Instant;

fn main() -> Result<(), Box<dyn Error>> {
    match env::args().nth(1).as_deref() {
        Some("--cases") => settle_cases(),
        Some(count) => settle_repeatedly(count.parse()?),
        None => settle_repeatedly(1),
    }
}

fn settle_repeatedly(count: u32) -> Result<(), Box<dyn Error>> {
    let mut sheet = Vec::new();
    io::stdin()
        .take(sheet::LONGEST as u64 + 1)
        .read_to_end(&mut sheet)?;

    let mut text = String::new();
    let start = Instant::now();
    for _ in 0..count {
        text = black_box(statement(black_box(&sheet)));
    }
    let elapsed = start.elapsed();

    io::stdout().write_all(text.as_bytes())?;
    eprintln!("{}", elapsed.as_nanos() / u128::from(count.max(1)));
    Ok(())
}

fn settle_cases() -> Result<(), Box<dyn Error>> {
    let mut out = String::new();
    for line in io::read_to_string(io::stdin())?.lines() {
        let (name, hex) = line.split_once(' ').unwrap_or((line, ""));
        out += &format!("case {name}\n{}", statement(&from_hex(hex)?));
    }
    io::stdout().write_all(out.as_bytes())?;
    Ok(())
}

fn from_hex(hex: &str) -> Result<Vec<u8>, Box<dyn Error>> {
    let digit = |byte: u8| {
        char::from(byte)
            .to_digit(16)
            .ok_or("not a hexadecimal digit")
    };
    let mut bytes = Vec::new();
    for pair in hex.trim().as_bytes().chunks(2) {
        let &[high, low] = pair else {
            return Err("an odd number of digits".into());
        };
        bytes.push((digit(high)? * 16 + digit(low)?) as u8);
    }
    Ok(bytes)
}

/// What is printed for a sheet: a line for each metered plant, or the fault.
fn statement(sheet: &[u8]) -> String {
    let mut text = String::new();
    match sheet::load(sheet) {
        Ok(book) => {
            for plant in 0..book::PLANTS {
                if let Some(settled) = settlement::settle(&book, plant) {
                    push_line(&mut text, plant + 1, &settled);
                }
            }
        }
        Err(fault) => {
            let sheet::Fault {
                layer,
                number,
                offset,
                item,
            } = fault;
            text = format!("fault {layer} {number} {offset} {item}\n");
        }
    }
    text
}

fn push_line(text: &mut String, plant: usize, settled: &settlement::Settlement) {
    let settlement::Settlement {
        metered,
        over,
        shortfall,
        payment,
    } = settled;
    writeln!(text, "{plant} {metered} {over} {shortfall} {payment}")
        .expect("a string takes any text");
}
