//! What `dwarf_build` does, done by gimli, for benches/gimli.sh: `build` reads a script and prints a
//! listing, `convert` reads a listing and prints another, `make N` generates units and prints a
//! summary. `floor MADE PRINTED` does no more than move as many bytes.
//!
//! It knows the lines that benches/mixed_script.sh and benches/large_script.sh print, and ends by a
//! panic at any other.

mod floor;
mod listing;
mod make;
mod script;

use gimli::write::{Address, Dwarf, EndianVec, Sections};
use gimli::{EndianSlice, LittleEndian};
use std::io::{self, Read, Write};

/// The sections that something is written into, all of them little-endian.
type Written = Sections<EndianVec<LittleEndian>>;

fn write(mut dwarf: Dwarf) -> Written {
    let mut sections = Sections::new(EndianVec::new(LittleEndian));
    dwarf.write(&mut sections).expect("written");
    sections
}

fn convert(text: &str) -> Vec<u8> {
    let sections = listing::read(text);
    let read = gimli::read::Dwarf::load(|id| {
        let bytes = sections.get(id.name()).map_or(&[][..], Vec::as_slice);
        Ok::<_, gimli::Error>(EndianSlice::new(bytes, LittleEndian))
    })
    .expect("sections");
    let constant = |address| Some(Address::Constant(address));
    listing::text(&write(Dwarf::from(&read, &constant).expect("converted")))
}

fn input() -> String {
    let mut text = String::new();
    io::stdin().read_to_string(&mut text).expect("ASCII on standard input");
    text
}

fn number(word: &str) -> usize {
    word.parse().expect("a number")
}

fn answer() -> Vec<u8> {
    let words: Vec<String> = std::env::args().skip(1).collect();
    match words.iter().map(String::as_str).collect::<Vec<_>>()[..] {
        ["build"] => listing::text(&write(script::dwarf(&input()))),
        ["convert"] => convert(&input()),
        ["make", count] => make::summary(number(count)).into_bytes(),
        ["floor", made, printed] => floor::bytes(&input(), number(made), number(printed)),
        _ => panic!("usage: build | convert | make N | floor MADE PRINTED"),
    }
}

fn main() {
    // gimli 0.27 goes down a tree by calling itself, deeper than the stack of `main` allows.
    let deep = std::thread::Builder::new().stack_size(1 << 30).spawn(answer);
    let text = deep.expect("a thread").join().expect("an answer");
    io::stdout().write_all(&text).expect("standard output");
}
