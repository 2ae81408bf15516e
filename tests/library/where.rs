//! `where [--all] [--keep-going] [--index | --list] FILE [ADDRESS..]`: over an ELF file, or an index of one, what `dwline
//! addr` prints of the addresses; with --list what `dwline index --list` prints of the index; with --index the index itself.

use boxantrel::{File, Index, IndexOptions, Location};
use std::io::{self, Write};
use std::process::ExitCode;

/// How a file begins that is an index.
const MAGIC: &[u8] = b"dlineidx";

fn print_location(out: &mut impl Write, location: Option<Location<'_>>) -> io::Result<()> {
    let Some(location) = location else {
        return writeln!(out, "??:0");
    };
    out.write_all(&location.path())?;
    write!(out, ":{}", location.line)?;
    if location.column != 0 {
        write!(out, ":{}", location.column)?;
    }
    writeln!(out)
}

fn list(out: &mut impl Write, index: &Index<Vec<u8>>) -> io::Result<()> {
    for stretch in index.stretches() {
        write!(out, "0x{:016x} 0x{:016x} ", stretch.start, u128::from(stretch.last) + 1)?;
        print_location(out, stretch.location)?;
    }
    Ok(())
}

fn address(word: &str) -> Result<u64, std::num::ParseIntError> {
    match word.strip_prefix("0x") {
        Some(digits) => u64::from_str_radix(digits, 16),
        None => word.parse(),
    }
}

/// Whether each address is told of.
fn find(out: &mut impl Write, index: &Index<Vec<u8>>, words: &[String]) -> Result<bool, Box<dyn std::error::Error>> {
    let addresses = words.iter().map(|word| address(word)).collect::<Result<Vec<_>, _>>()?;
    let found = index.find_many(&addresses);
    for (&address, &location) in addresses.iter().zip(&found) {
        assert_eq!(index.find(address), location);
        print_location(out, location)?;
    }
    Ok(found.iter().all(|location| location.is_some()))
}

fn run(words: &[String]) -> Result<bool, Box<dyn std::error::Error>> {
    let count = words.iter().take_while(|word| word.starts_with("--")).count();
    let has = |wanted: &str| words[..count].iter().any(|word| word == wanted);
    let file = std::fs::read(&words[count])?;
    let (index, fault) = if file.starts_with(MAGIC) {
        (Index::open(file)?, None)
    } else {
        let options = IndexOptions { all: has("--all"), keep_going: has("--keep-going") };
        File::of(file).index_with(options)?
    };
    let mut out = io::stdout().lock();
    let mut is_all = true;
    if has("--index") {
        out.write_all(index.as_bytes())?;
    } else if has("--list") {
        list(&mut out, &index)?;
    } else {
        is_all = find(&mut out, &index, &words[count + 1..])?;
    }
    fault.map_or(Ok(is_all), |fault| Err(fault.into()))
}

fn main() -> ExitCode {
    let words: Vec<String> = std::env::args().skip(1).collect();
    match run(&words) {
        Ok(true) => ExitCode::SUCCESS,
        Ok(false) => ExitCode::from(1),
        Err(fault) => {
            eprintln!("where: {fault}");
            ExitCode::from(1)
        }
    }
}
