//! look [--big] [--older SIZE] [--keep-going] [--rows | --copy | --addr LINE_STR STR ADDRESS.. | --lines LINE_STR STR PATH
//! LINE.. | --exact-lines LINE_STR STR PATH LINE.. | --sources LINE_STR STR | --findings LINE_STR STR | ADDRESS..]: of the
//! section on standard input, what `dwline check` prints of it; with --rows the rows that `dwline dump` prints, with --copy
//! what `dwline copy` writes, with --addr and the files of both string sections what `dwline addr` prints; with --lines what
//! `dwline lines` prints of each line of the path, but for the paths, and with --exact-lines what it prints with --exact; with
//! --sources what `dwline sources --rows --md5` prints; with --findings the numbers of what `dwline lint` finds; or with
//! addresses the row that answers for each as `dwline find` prints it. With --keep-going the units after a damaged one count
//! too, and answer with --addr, --lines, --sources and --findings; the first fault is said.

use boxantrel::{AddressSize, Error, Finding, Found, Order, Place, Row, Rule, Section, SourceFile, Survey};
use std::collections::{HashMap, HashSet};
use std::io::{self, BufWriter, Read, Write};
use std::process::ExitCode;

fn print_row(output: &mut impl Write, row: &Row) -> io::Result<()> {
    write!(
        output,
        "row 0x{:016x} {} {} {} {}",
        row.address, row.op_index, row.file, row.line, row.column
    )?;
    let flags = [
        (row.is_stmt, " stmt"),
        (row.basic_block, " block"),
        (row.prologue_end, " prologue"),
        (row.epilogue_begin, " epilogue"),
        (row.end_sequence, " end"),
    ];
    for (is_set, word) in flags {
        if is_set {
            write!(output, "{word}")?;
        }
    }
    for (number, word) in [(row.isa, " isa"), (row.discriminator, " disc")] {
        if number != 0 {
            write!(output, "{word} {number}")?;
        }
    }
    writeln!(output)
}

fn print_counts(output: &mut impl Write, section: &Section) -> io::Result<Result<(), Error>> {
    match section.check() {
        Ok(counts) => writeln!(
            output,
            "units {} skipped {} sequences {} rows {}",
            counts.units, counts.skipped, counts.sequences, counts.rows
        )?,
        Err(error) => return Ok(Err(error)),
    }
    Ok(Ok(()))
}

fn print_survey(output: &mut impl Write, section: &Section) -> io::Result<Result<(), Error>> {
    let Survey { counts, damaged, first } = match section.check_around() {
        Ok(survey) => survey,
        Err(error) => return Ok(Err(error)),
    };
    writeln!(
        output,
        "units {} skipped {} sequences {} rows {} damaged {damaged}",
        counts.units, counts.skipped, counts.sequences, counts.rows
    )?;
    Ok(first.map_or(Ok(()), Err))
}

fn list_rows(output: &mut impl Write, section: &Section) -> io::Result<Result<(), Error>> {
    let mut offset = 0;
    loop {
        for row in section.rows_at(offset) {
            match row {
                Ok(row) => print_row(output, &row)?,
                Err(error) => return Ok(Err(error)),
            }
        }
        match section.unit_at(offset) {
            Ok(Some(unit)) => offset += unit.length,
            Ok(None) => return Ok(Ok(())),
            Err(error) => return Ok(Err(error)),
        }
    }
}

fn copy(output: &mut impl Write, section: &Section) -> io::Result<Result<(), Error>> {
    match section.copy() {
        Ok(copy) => output.write_all(&copy)?,
        Err(error) => return Ok(Err(error)),
    }
    Ok(Ok(()))
}

fn find_each(output: &mut impl Write, section: &Section, words: &[String]) -> io::Result<Result<(), Error>> {
    for word in words {
        match section.find(address_in(word)?, 0) {
            Ok(Some(found)) => print_row(output, &found.row)?,
            Ok(None) => writeln!(output, "no line for this address")?,
            Err(error) => return Ok(Err(error)),
        }
    }
    Ok(Ok(()))
}

fn address_in(word: &String) -> io::Result<u64> {
    u64::from_str_radix(word.trim_start_matches("0x"), 16).map_err(|_| io::Error::other("no address"))
}

/// The paths of the files of rows, by unit and number.
type Paths = HashMap<(u64, u64), Vec<u8>>;

/// The paths of what was found, each unit read once.
fn paths_of(section: &Section, found: &[Option<Found>], line_str: &[u8], str: &[u8]) -> Result<Paths, Error> {
    let mut files: HashMap<u64, HashSet<u64>> = HashMap::new();
    for found in found.iter().flatten() {
        files.entry(found.unit).or_default().insert(found.row.file);
    }
    let mut paths = Paths::new();
    for (unit, files) in files {
        let files: Vec<u64> = files.into_iter().collect();
        let told = section.paths_at(unit, &files, line_str, str)?.unwrap_or_default();
        paths.extend(files.into_iter().map(|file| (unit, file)).zip(told));
    }
    Ok(paths)
}

fn locate_each(
    output: &mut impl Write,
    section: &Section,
    keep_going: bool,
    words: &[String],
) -> io::Result<Result<(), Error>> {
    let [line_str, str, words @ ..] = words else {
        return Err(io::Error::other("no files"));
    };
    let (line_str, str) = (std::fs::read(line_str)?, std::fs::read(str)?);
    let addresses = words.iter().map(address_in).collect::<io::Result<Vec<_>>>()?;
    let all = if keep_going {
        section.find_all_around(&addresses)
    } else {
        section.find_all(&addresses)
    };
    let paths = match paths_of(section, &all.found, &line_str, &str) {
        Ok(paths) => paths,
        Err(error) => return Ok(Err(error)),
    };
    for found in all.found {
        let Some(Found { row, unit }) = found else {
            writeln!(output, "??:0")?;
            continue;
        };
        output.write_all(&paths[&(unit, row.file)])?;
        write!(output, ":{}", row.line)?;
        if row.column != 0 {
            write!(output, ":{}", row.column)?;
        }
        writeln!(output)?;
    }
    Ok(all.error.map_or(Ok(()), Err))
}

fn print_place(output: &mut impl Write, place: &Place) -> io::Result<()> {
    write!(output, "0x{:016x} {}", place.address, place.line)?;
    if place.column != 0 {
        write!(output, ":{}", place.column)?;
    }
    writeln!(output, "{}", if place.prologue_end { " prologue" } else { "" })
}

fn find_lines(
    output: &mut impl Write,
    section: &Section,
    keep_going: bool,
    exact: bool,
    words: &[String],
) -> io::Result<Result<(), Error>> {
    let [line_str, str, path, words @ ..] = words else {
        return Err(io::Error::other("no files, or no path"));
    };
    let (line_str, str) = (std::fs::read(line_str)?, std::fs::read(str)?);
    let mut end = Ok(());
    for word in words {
        let line = word.parse().map_err(|_| io::Error::other("no line"))?;
        let found = if keep_going {
            section.lines_around(path.as_bytes(), line, exact, &line_str, &str)
        } else {
            section.lines(path.as_bytes(), line, exact, &line_str, &str)
        };
        if found.error == Some(Error::NoMemory) {
            return Ok(Err(Error::NoMemory));
        }
        if found.places.is_empty() {
            writeln!(output, "??")?;
        }
        for place in &found.places {
            print_place(output, place)?;
        }
        end = found.error.map_or(Ok(()), Err);
    }
    Ok(end)
}

/// A line for each sum of a source file, or one where it has none.
fn print_file(output: &mut impl Write, file: &SourceFile) -> io::Result<()> {
    let mut sums: Vec<String> =
        file.sums.iter().map(|sum| sum.iter().map(|byte| format!("{byte:02x}")).collect()).collect();
    if sums.is_empty() {
        sums.push("-".to_string());
    }
    for sum in sums {
        write!(output, "{} {} {sum} ", file.rows, file.bytes)?;
        output.write_all(&file.path)?;
        writeln!(output)?;
    }
    Ok(())
}

fn list_sources(
    output: &mut impl Write,
    section: &Section,
    keep_going: bool,
    words: &[String],
) -> io::Result<Result<(), Error>> {
    let [line_str, str] = words else {
        return Err(io::Error::other("no files"));
    };
    let (line_str, str) = (std::fs::read(line_str)?, std::fs::read(str)?);
    let found =
        if keep_going { section.sources_around(&line_str, &str) } else { section.sources(&line_str, &str) };
    for file in &found.files {
        print_file(output, file)?;
    }
    Ok(found.error.map_or(Ok(()), Err))
}

/// The numbers of a finding.
fn print_finding(output: &mut impl Write, finding: &Finding) -> io::Result<()> {
    let row = finding.row.map_or([0; 3], |row| [row.number, row.address, row.op_index]);
    write!(output, "{} {}", finding.offset, finding.rule as u8)?;
    for number in row.iter().chain(&finding.numbers) {
        write!(output, " {number}")?;
    }
    writeln!(output)
}

fn list_findings(
    output: &mut impl Write,
    section: &Section,
    keep_going: bool,
    words: &[String],
) -> io::Result<Result<(), Error>> {
    let [line_str, str] = words else {
        return Err(io::Error::other("no files"));
    };
    let (line_str, str) = (std::fs::read(line_str)?, std::fs::read(str)?);
    let found = if keep_going {
        section.findings_around(&Rule::ALL, &line_str, &str)
    } else {
        section.findings(&Rule::ALL, &line_str, &str)
    };
    for finding in &found.findings {
        print_finding(output, finding)?;
    }
    Ok(found.error.map_or(Ok(()), Err))
}

fn address_size(text: &str) -> Option<AddressSize> {
    match text {
        "1" => Some(AddressSize::One),
        "2" => Some(AddressSize::Two),
        "4" => Some(AddressSize::Four),
        "8" => Some(AddressSize::Eight),
        _ => None,
    }
}

fn main() -> io::Result<ExitCode> {
    let mut words: Vec<String> = std::env::args().skip(1).collect();
    let mut order = Order::Little;
    if words.first().is_some_and(|word| word == "--big") {
        words.remove(0);
        order = Order::Big;
    }
    let mut older = None;
    if words.first().is_some_and(|word| word == "--older") {
        let size = words.drain(..2).nth(1);
        older = size.and_then(|size| address_size(&size));
    }
    let keep_going = words.first().is_some_and(|word| word == "--keep-going");
    words.drain(..usize::from(keep_going));
    let mut bytes = Vec::new();
    io::stdin().read_to_end(&mut bytes)?;
    let mut section = Section::new(&bytes, order);
    if let Some(size) = older {
        section = section.with_older(size);
    }
    let mut output = BufWriter::new(io::stdout());
    let end = if words.is_empty() && keep_going {
        print_survey(&mut output, &section)?
    } else if words.is_empty() {
        print_counts(&mut output, &section)?
    } else if words[0] == "--rows" {
        list_rows(&mut output, &section)?
    } else if words[0] == "--copy" {
        copy(&mut output, &section)?
    } else if words[0] == "--addr" {
        locate_each(&mut output, &section, keep_going, &words[1..])?
    } else if words[0] == "--lines" || words[0] == "--exact-lines" {
        find_lines(&mut output, &section, keep_going, words[0] == "--exact-lines", &words[1..])?
    } else if words[0] == "--sources" {
        list_sources(&mut output, &section, keep_going, &words[1..])?
    } else if words[0] == "--findings" {
        list_findings(&mut output, &section, keep_going, &words[1..])?
    } else {
        find_each(&mut output, &section, &words)?
    };
    output.flush()?;
    if let Err(error) = end {
        eprintln!("look: {error}");
        return Ok(ExitCode::FAILURE);
    }
    Ok(ExitCode::SUCCESS)
}
