//! Line tables of DWARF 5, and of versions 2 to 4 (the section `.debug_line`), read out of memory by the library Boxantrel, whose answers are
//! proved. This crate hands its bytes over and gives names to what comes back.
//!
//! ```
//! use boxantrel::{Order, Rule, Section};
//!
//! let bytes = std::fs::read(concat!(env!("CARGO_MANIFEST_DIR"), "/../../tests/data/gcc-O2/debug_line"))?;
//! let section = Section::new(&bytes, Order::Little);
//! assert_eq!(section.check()?.rows, 91);
//! let found = section.find(0x401008, 0)?.unwrap();
//! assert_eq!((found.row.line, found.unit), (8, 0));
//! let all = section.find_all(&[0x401008, 0]);
//! assert_eq!((all.found, all.error), (vec![Some(found), None], None));
//! let texts = std::fs::read(concat!(env!("CARGO_MANIFEST_DIR"), "/../../tests/data/gcc-O2/debug_line_str"))?;
//! let path = section.path_at(found.unit, found.row.file, &texts, &[])?.unwrap();
//! assert_eq!(path, b"/boxantrel/series.c");
//! let paths = section.paths_at(found.unit, &[1, found.row.file], &texts, &[])?.unwrap();
//! assert_eq!(paths, [path.clone(), path]);
//! let places = section.lines(b"series.c", 7, false, &texts, &[]).places;
//! assert_eq!(places.iter().map(|place| (place.address, place.line)).collect::<Vec<_>>(), [(0x401000, 8), (0x40102e, 8)]);
//! let files = section.sources(&texts, &[]).files;
//! assert_eq!((files.len(), files[3].path.as_slice(), files[3].rows), (5, &b"/boxantrel/series.c"[..], 48));
//! let found = section.findings(&[Rule::FileIndex], &texts, &[]);
//! assert_eq!((found.findings, found.error), (vec![], None));
//! let survey = section.check_around()?;
//! assert_eq!((survey.counts, survey.damaged, survey.first), (section.check()?, 0, None));
//! assert_eq!(section.find_all_around(&[0x401008, 0]), section.find_all(&[0x401008, 0]));
//! for unit in section.units() {
//!     let unit = unit?;
//!     let rows: Result<Vec<_>, _> = section.rows_at(unit.offset).collect();
//!     assert_eq!(rows?.len() as u64, unit.rows);
//! }
//! # Ok::<(), Box<dyn std::error::Error>>(())
//! ```
//!
//! Of an ELF file an index is made once, and then asked:
//!
//! ```
//! let program = concat!(env!("CARGO_MANIFEST_DIR"), "/../../tests/data/gcc-O2/program");
//! let index = boxantrel::File::open(program)?.index()?;
//! let found = index.find(0x401008).unwrap();
//! assert_eq!((found.path(), found.line, found.column), (b"/boxantrel/series.c".to_vec(), 8, 23));
//! assert_eq!(index.find_many(&[0x401008, 0]), [Some(found), None]);
//! let kept = boxantrel::Index::open(index.as_bytes())?;
//! assert!(kept.stretches().any(|stretch| stretch.start <= 0x401008 && stretch.location == Some(found)));
//! # Ok::<(), Box<dyn std::error::Error>>(())
//! ```

use std::fmt;

mod file;
mod index;
mod raw;

pub use file::{File, IndexOptions};
pub use index::{Index, IndexError, Location, Stretch, Stretches};
pub use raw::CodeRange;

/// The order of a section's numbers.
#[derive(Clone, Copy, Debug, PartialEq, Eq)]
pub enum Order {
    /// The lowest byte first.
    Little,
    /// The highest byte first.
    Big,
}

/// The size of an address.
#[derive(Clone, Copy, Debug, PartialEq, Eq)]
pub enum AddressSize {
    One = 1,
    Two = 2,
    Four = 4,
    Eight = 8,
}

/// The bytes of a section `.debug_line`.
#[derive(Clone, Copy, Debug)]
pub struct Section<'a> {
    bytes: &'a [u8],
    order: Order,
    /// The size of an address in units of versions 2 to 4, where they are read.
    older: Option<AddressSize>,
}

/// What the units of a section come to.
#[derive(Clone, Copy, Debug, PartialEq, Eq)]
pub struct Counts {
    /// Units that are read.
    pub units: u64,
    /// Units that are passed over, for their version.
    pub skipped: u64,
    /// Rows that end a sequence.
    pub sequences: u64,
    /// Rows, those among them.
    pub rows: u64,
}

/// What the units of a section come to of which some may be damaged.
#[derive(Clone, Copy, Debug, PartialEq, Eq)]
pub struct Survey {
    /// Those of the units that aren't damaged.
    pub counts: Counts,
    /// How many units are damaged.
    pub damaged: u64,
    /// What is wrong with the first of them: an `Error::Damage`. None where no unit is damaged.
    pub first: Option<Error>,
}

/// A row of the matrix.
#[derive(Clone, Copy, Debug, PartialEq, Eq)]
pub struct Row {
    pub address: u64,
    /// A number of the unit's table of files.
    pub file: u64,
    pub line: u64,
    /// From 1 on; 0 is the line's left edge.
    pub column: u64,
    pub isa: u64,
    pub discriminator: u64,
    /// The operation in its instruction.
    pub op_index: u8,
    pub is_stmt: bool,
    pub basic_block: bool,
    pub prologue_end: bool,
    pub epilogue_begin: bool,
    pub end_sequence: bool,
}

/// The row that answers for a place, and the offset of its unit.
#[derive(Clone, Copy, Debug, PartialEq, Eq)]
pub struct Found {
    pub row: Row,
    pub unit: u64,
}

/// A place of a line: where a breakpoint on it goes.
#[derive(Clone, Copy, Debug, PartialEq, Eq)]
pub struct Place {
    pub address: u64,
    /// The line that answers.
    pub line: u64,
    /// From 1 on; 0 is the line's left edge.
    pub column: u64,
    /// Whether a breakpoint at the entry of a function belongs here.
    pub prologue_end: bool,
}

/// A source file of a section.
#[derive(Clone, Debug, PartialEq, Eq)]
pub struct SourceFile {
    pub path: Vec<u8>,
    /// How many rows name it, those that end a sequence left out.
    pub rows: u64,
    /// How many bytes of code these rows have.
    pub bytes: u64,
    /// Its MD5 sums, in the order of their bytes, of which there may be none. Where there are two, two versions of the file were
    /// compiled.
    pub sums: Vec<[u8; 16]>,
}

/// A rule of what misleads a debugger although it reads well.
#[derive(Clone, Copy, Debug, PartialEq, Eq, Hash)]
pub enum Rule {
    /// A row that isn't an end row names no entry of the table of files. The numbers: the file that is named, how many files there are, the number of the first.
    FileIndex,
    /// An entry of the table of files names no entry of the table of directories. The numbers: the file, the directory that it names, how many directories there are, the number of the first.
    DirectoryIndex,
    /// The place of a row is below that of the row before it in its sequence. The numbers: the address and the op_index of the row before it.
    FallingPlace,
    /// The last sequence of a unit has no end row. The numbers: none.
    NoEnd,
    /// A sequence covers no address. The numbers: none.
    EmptySequence,
    /// A sequence covers a place that one before it covers too. The numbers: the address and the op_index of the place, the offset of the unit that covers it too.
    Overlap,
    /// A sequence begins where a file has no code; not of a section alone. The numbers: how many sequences, the address of the first.
    DeadSequence,
    /// A value of a table names a text that its string section doesn't have. The numbers: 0 for a directory or 1 for a file, its number, 0 for .debug_line_str or 1 for .debug_str, the offset there.
    MissingText,
    /// Two entries of the table of files have the same values. The numbers: the file, the first file that has its values.
    DuplicateFile,
    /// No row names an entry of the table of files. The numbers: how many files, the number of the first.
    UnusedFile,
    /// Some files of the table have an MD5 sum, and others none. The numbers: how many files have none, the number of the first.
    Md5Missing,
    /// A number in LEB128 has more than ten bytes. The numbers: how many bytes the number has.
    LongNumber,
    /// Bytes stand between the tables of a header and the program. The numbers: how many bytes.
    Padding,
    /// An advance leads the address past the size of one. The numbers: the address before the advance, the size of an address in bytes.
    WrappedAddress,
    /// The line of a row is above 2^32 - 1. The numbers: the line.
    LineWrapped,
    /// No row of a sequence is a statement. The numbers: none.
    NoStatement,
    /// The address of a row lies within an instruction that begins before it. The numbers: the address of the first row of the sequence, minimum_instruction_length.
    SplitInstruction,
    /// An opcode or a content code isn't one of the standard's. The numbers: 0 for a standard opcode, 1 for an extended one or 2 for a content code, its number.
    UnknownOpcode,
    /// No sequence covers an address of a range of code; not of a section alone. The numbers: the address and the length in bytes of the code.
    NoCode,
}

impl Rule {
    /// All rules, in the order in which the findings of one place are told.
    pub const ALL: [Rule; 19] = [
        Rule::FileIndex,
        Rule::DirectoryIndex,
        Rule::FallingPlace,
        Rule::NoEnd,
        Rule::EmptySequence,
        Rule::Overlap,
        Rule::DeadSequence,
        Rule::MissingText,
        Rule::DuplicateFile,
        Rule::UnusedFile,
        Rule::Md5Missing,
        Rule::LongNumber,
        Rule::Padding,
        Rule::WrappedAddress,
        Rule::LineWrapped,
        Rule::NoStatement,
        Rule::SplitInstruction,
        Rule::UnknownOpcode,
        Rule::NoCode,
    ];

    /// The name by which `dwline lint` tells it.
    pub fn name(self) -> &'static str {
        match self {
            Rule::FileIndex => "file-index",
            Rule::DirectoryIndex => "directory-index",
            Rule::FallingPlace => "falling-place",
            Rule::NoEnd => "no-end",
            Rule::EmptySequence => "empty-sequence",
            Rule::Overlap => "overlap",
            Rule::DeadSequence => "dead-sequence",
            Rule::MissingText => "missing-text",
            Rule::DuplicateFile => "duplicate-file",
            Rule::UnusedFile => "unused-file",
            Rule::Md5Missing => "md5-missing",
            Rule::LongNumber => "long-number",
            Rule::Padding => "padding",
            Rule::WrappedAddress => "wrapped-address",
            Rule::LineWrapped => "line-wrapped",
            Rule::NoStatement => "no-statement",
            Rule::SplitInstruction => "split-instruction",
            Rule::UnknownOpcode => "unknown-opcode",
            Rule::NoCode => "no-code",
        }
    }
}

/// A row that a finding is about.
#[derive(Clone, Copy, Debug, PartialEq, Eq)]
pub struct RowSeen {
    /// Which row of its unit it is, from 1 on.
    pub number: u64,
    pub address: u64,
    pub op_index: u64,
}

/// What in a section misleads a debugger.
#[derive(Clone, Copy, Debug, PartialEq, Eq)]
pub struct Finding {
    /// Of the operation, for a row the one that appends it; where a unit ends without an end row, its end; of a header, or of the
    /// rows of a unit together, the offset of the unit.
    pub offset: u64,
    pub rule: Rule,
    /// The row that it is about, where it is about one.
    pub row: Option<RowSeen>,
    /// As beside the rule; those behind them are 0.
    pub numbers: [u64; 4],
}

/// A unit that was read whole.
#[derive(Clone, Copy, Debug, PartialEq, Eq)]
pub struct Unit {
    /// Of its first byte. The next unit, where there is one, begins at `offset + length`.
    pub offset: u64,
    /// How many bytes it has.
    pub length: u64,
    /// How many rows it has; where it is passed over none, nor directories and files.
    pub rows: u64,
    /// How many entries its table of directories has.
    pub directories: u64,
    /// How many entries its table of files has.
    pub files: u64,
    pub version: u16,
    /// Of an address, in bytes; 0 where it is passed over.
    pub address_size: u8,
    /// Whether it is of the 64-bit DWARF format.
    pub is_dwarf64: bool,
}

/// The units of a section, one after the other, up to its end or to an error, which comes last.
#[derive(Clone, Debug)]
pub struct Units<'a> {
    section: Section<'a>,
    /// Where the next unit begins. None after an error.
    offset: Option<u64>,
}

/// The rows of a unit, and after them the fault of one that is damaged.
#[derive(Debug)]
pub struct Rows {
    rows: std::vec::IntoIter<raw::Row>,
    error: Option<Error>,
}

/// Why there is no answer.
#[derive(Clone, Copy, Debug, PartialEq, Eq)]
pub enum Error {
    /// The section is damaged at this offset. The kind and its detail are the numbers that stand for the fault in
    /// include/boxantrel.h; Display has it in words.
    Damage { offset: u64, kind: u32, detail: u64 },
    /// The ELF file is damaged, or has no line table that is read, or the section is too long. The kind, the offset and the detail are the numbers that
    /// stand for the fault in include/boxantrel.h; Display has it in words.
    File { kind: u32, offset: u64, detail: u64 },
    /// Memory was refused.
    NoMemory,
    /// A unit is of a version that isn't read, or isn't copied.
    OtherVersion,
}

impl fmt::Display for Error {
    fn fmt(&self, f: &mut fmt::Formatter<'_>) -> fmt::Result {
        match *self {
            Error::Damage { offset, kind, detail } | Error::File { kind, offset, detail } => {
                f.write_str(&fault_text(offset, kind, detail))
            }
            Error::NoMemory => f.write_str("out of memory"),
            Error::OtherVersion => f.write_str("a unit that is not of version 5"),
        }
    }
}

impl std::error::Error for Error {}

impl<'a> Section<'a> {
    /// A section of which units of version 5 are read.
    pub fn new(bytes: &'a [u8], order: Order) -> Section<'a> {
        Section { bytes, order, older: None }
    }

    /// The same section, of which units of versions 2 to 4 are read too. Their headers don't say the size of an address.
    pub fn with_older(self, size: AddressSize) -> Section<'a> {
        Section { older: Some(size), ..self }
    }

    /// What the calls are told besides the bytes.
    fn how(&self) -> u8 {
        let order = u8::from(self.order == Order::Big);
        order + 2 * self.older.map_or(0, |size| size as u8)
    }

    /// Reads all units, and counts them, their sequences and their rows.
    pub fn check(&self) -> Result<Counts, Error> {
        let (status, counts, fault) = self.counts(self.how());
        match status {
            raw::DONE => Ok(counts.into()),
            status => Err(error(status, &fault)),
        }
    }

    /// The same, but goes on after a damaged unit, with the one that begins where its initial length says. After a unit
    /// whose initial length isn't good none is known to follow. `NoMemory` is the only error.
    pub fn check_around(&self) -> Result<Survey, Error> {
        let (status, counts, fault) = self.counts(self.how() + raw::KEEP_GOING);
        match status {
            raw::DONE | raw::FAULT => Ok(Survey {
                counts: counts.into(),
                damaged: counts.damaged,
                first: (status == raw::FAULT).then(|| error(status, &fault)),
            }),
            status => Err(error(status, &fault)),
        }
    }

    /// The status, the counts and the fault, of which those are told that the status says.
    fn counts(&self, how: u8) -> (u32, raw::Counts, raw::Fault) {
        let mut counts = raw::Counts::default();
        let mut fault = raw::Fault::default();
        // SAFETY: the bytes are a slice's, and the other pointers are to locals.
        let status =
            unsafe { raw::dl_check(self.bytes.as_ptr(), self.bytes.len(), how, &mut counts, &mut fault) };
        (status, counts, fault)
    }

    /// The unit that begins at an offset; None where the section has no byte there. What comes before the offset isn't
    /// looked at.
    pub fn unit_at(&self, offset: u64) -> Result<Option<Unit>, Error> {
        let mut unit = raw::Unit::default();
        let mut fault = raw::Fault::default();
        // SAFETY: as in `check`.
        let status = unsafe {
            raw::dl_unit_at(self.bytes.as_ptr(), self.bytes.len(), self.how(), offset, &mut unit, &mut fault)
        };
        match status {
            raw::DONE => Ok(Some(unit.into())),
            raw::NO_ANSWER => Ok(None),
            status => Err(error(status, &fault)),
        }
    }

    /// The units, one after the other.
    pub fn units(&self) -> Units<'a> {
        Units {
            section: *self,
            offset: Some(0),
        }
    }

    /// The rows of the unit that begins at an offset; none where the section has no byte there. A unit that has rows is
    /// read twice: how many there are is known after the first time.
    pub fn rows_at(&self, offset: u64) -> Rows {
        let mut rows = Vec::new();
        let (mut status, mut count, mut fault) = self.fill_rows(offset, &mut rows);
        if count > 0 {
            rows.resize(count, raw::Row::default());
            (status, count, fault) = self.fill_rows(offset, &mut rows);
            rows.truncate(count);
        }
        Rows {
            rows: rows.into_iter(),
            error: match status {
                raw::DONE | raw::NO_ANSWER => None,
                status => Some(error(status, &fault)),
            },
        }
    }

    /// Writes the rows for which there is room. The answer is the status, how many rows there are (0 where that isn't
    /// told), and the fault.
    fn fill_rows(&self, offset: u64, rows: &mut [raw::Row]) -> (u32, usize, raw::Fault) {
        let mut count = 0;
        let mut fault = raw::Fault::default();
        // SAFETY: as in `check`; the room is a slice's.
        let status = unsafe {
            raw::dl_rows_at(
                self.bytes.as_ptr(),
                self.bytes.len(),
                self.how(),
                offset,
                rows.as_mut_ptr(),
                rows.len(),
                &mut count,
                &mut fault,
            )
        };
        (status, count, fault)
    }

    /// All units, written anew: each under its header with opcode_base 13 and with the same rows, its numbers shortest.
    /// Where the copy is longer than the section it is made twice.
    pub fn copy(&self) -> Result<Vec<u8>, Error> {
        let mut copy = vec![0; self.bytes.len()];
        loop {
            let mut len = 0;
            let mut fault = raw::Fault::default();
            // SAFETY: as in `check`; the room is a slice's.
            let status = unsafe {
                raw::dl_copy(
                    self.bytes.as_ptr(),
                    self.bytes.len(),
                    self.how(),
                    copy.as_mut_ptr(),
                    copy.len(),
                    &mut len,
                    &mut fault,
                )
            };
            copy.resize(len, 0);
            match status {
                raw::DONE => return Ok(copy),
                raw::NO_ROOM => {}
                status => return Err(error(status, &fault)),
            }
        }
    }

    /// The path of the file of this number in the unit that begins at an offset, joined as `dwline addr` joins it: `??`
    /// where the unit has no such file, or its own name isn't there; None where the section has no byte there.
    /// The string sections are `.debug_line_str` and `.debug_str`, empty where there is none. A path of more than 256
    /// bytes is told twice.
    pub fn path_at(&self, offset: u64, file: u64, line_str: &[u8], str: &[u8]) -> Result<Option<Vec<u8>>, Error> {
        let mut path = vec![0; 256];
        loop {
            let mut length = 0;
            let mut fault = raw::Fault::default();
            // SAFETY: as in `check`; the string sections and the room are slices'.
            let status = unsafe {
                raw::dl_path_at(
                    self.bytes.as_ptr(),
                    self.bytes.len(),
                    self.how(),
                    offset,
                    file,
                    line_str.as_ptr(),
                    line_str.len(),
                    str.as_ptr(),
                    str.len(),
                    path.as_mut_ptr(),
                    path.len(),
                    &mut length,
                    &mut fault,
                )
            };
            match status {
                raw::DONE => {}
                raw::NO_ANSWER => return Ok(None),
                status => return Err(error(status, &fault)),
            }
            let is_whole = length <= path.len();
            path.resize(length, 0);
            if is_whole {
                return Ok(Some(path));
            }
        }
    }

    /// The paths of the files of these numbers in the unit that begins at an offset, each as `path_at` tells it, in one
    /// pass over the unit; None where the section has no byte there. Paths of more than 64 bytes each are told twice.
    pub fn paths_at(
        &self,
        offset: u64,
        files: &[u64],
        line_str: &[u8],
        str: &[u8],
    ) -> Result<Option<Vec<Vec<u8>>>, Error> {
        let mut paths = vec![0; files.len().saturating_mul(64)];
        let mut ends = vec![0; files.len()];
        loop {
            let mut fault = raw::Fault::default();
            // SAFETY: as in `path_at`; there are as many ends as files.
            let status = unsafe {
                raw::dl_paths_at(
                    self.bytes.as_ptr(),
                    self.bytes.len(),
                    self.how(),
                    offset,
                    files.as_ptr(),
                    files.len(),
                    line_str.as_ptr(),
                    line_str.len(),
                    str.as_ptr(),
                    str.len(),
                    paths.as_mut_ptr(),
                    paths.len(),
                    ends.as_mut_ptr(),
                    &mut fault,
                )
            };
            match status {
                raw::DONE => return Ok(Some(parted(&paths, &ends))),
                raw::NO_ROOM => paths.resize(ends.last().copied().unwrap_or(0), 0),
                raw::NO_ANSWER => return Ok(None),
                status => return Err(error(status, &fault)),
            }
        }
    }

    /// The rows that answer for addresses, each in the first unit that has one, in one pass over the section. Where it
    /// is damaged the units before the fault answer.
    pub fn find_all(&self, addresses: &[u64]) -> FoundAll {
        self.answers(self.how(), addresses)
    }

    /// The same, but goes on after a damaged unit as `check_around` does: all units that aren't damaged answer, and the
    /// error is the damage of the first that is.
    pub fn find_all_around(&self, addresses: &[u64]) -> FoundAll {
        self.answers(self.how() + raw::KEEP_GOING, addresses)
    }

    fn answers(&self, how: u8, addresses: &[u64]) -> FoundAll {
        let mut rows = vec![raw::Row::default(); addresses.len()];
        let mut units = vec![raw::NO_UNIT; addresses.len()];
        let mut fault = raw::Fault::default();
        // SAFETY: as in `check`; there are as many rows and offsets as addresses.
        let status = unsafe {
            raw::dl_find_all(
                self.bytes.as_ptr(),
                self.bytes.len(),
                how,
                addresses.as_ptr(),
                addresses.len(),
                rows.as_mut_ptr(),
                units.as_mut_ptr(),
                &mut fault,
            )
        };
        let answers = rows.into_iter().zip(units);
        FoundAll {
            found: answers
                .map(|(row, unit)| (unit != raw::NO_UNIT).then(|| Found { row: row.into(), unit }))
                .collect(),
            error: (status != raw::DONE).then(|| error(status, &fault)),
        }
    }

    /// The places of the line of a file, by their addresses, as `dwline lines` finds them: of the files whose path is this one, or
    /// ends in it after a slash, the first statement of each run of rows that have the line. Where it has none, the least line
    /// above it that has one answers, but not with `exact`. The string sections are those of `path_at`. Where the section is
    /// damaged the units before the fault answer. More than 64 places are told twice.
    pub fn lines(&self, path: &[u8], line: u64, exact: bool, line_str: &[u8], str: &[u8]) -> FoundPlaces {
        self.places(self.how(), path, line, exact, line_str, str)
    }

    /// The same, but goes on after a damaged unit as `check_around` does: all units that aren't damaged answer, and the error is
    /// the damage of the first that is.
    pub fn lines_around(&self, path: &[u8], line: u64, exact: bool, line_str: &[u8], str: &[u8]) -> FoundPlaces {
        self.places(self.how() + raw::KEEP_GOING, path, line, exact, line_str, str)
    }

    fn places(&self, how: u8, path: &[u8], line: u64, exact: bool, line_str: &[u8], str: &[u8]) -> FoundPlaces {
        let mut places = vec![raw::Place::default(); 64];
        loop {
            let mut count = 0;
            let mut fault = raw::Fault::default();
            // SAFETY: as in `path_at`; the path is a slice's.
            let status = unsafe {
                raw::dl_lines(
                    self.bytes.as_ptr(),
                    self.bytes.len(),
                    how,
                    line_str.as_ptr(),
                    line_str.len(),
                    str.as_ptr(),
                    str.len(),
                    path.as_ptr(),
                    path.len(),
                    line,
                    exact,
                    places.as_mut_ptr(),
                    places.len(),
                    &mut count,
                    &mut fault,
                )
            };
            let is_whole = count <= places.len();
            places.resize(count, raw::Place::default());
            if is_whole {
                return FoundPlaces {
                    places: places.into_iter().map(Place::from).collect(),
                    error: match status {
                        raw::DONE | raw::NO_ANSWER => None,
                        status => Some(error(status, &fault)),
                    },
                };
            }
        }
    }

    /// The source files, in the order of their paths' bytes, as `dwline sources` finds them: each path that a table of files names,
    /// with what the rows come to that name it, and its MD5 sums. The string sections are those of `path_at`. Where the section
    /// is damaged those of the units before the fault are told. More than 64 of them, or than 4,096 bytes of paths, are told twice.
    pub fn sources(&self, line_str: &[u8], str: &[u8]) -> FoundSources {
        self.source_files(self.how(), line_str, str)
    }

    /// The same, but goes on after a damaged unit as `check_around` does: those of all units that aren't damaged are told, and the
    /// error is the damage of the first that is.
    pub fn sources_around(&self, line_str: &[u8], str: &[u8]) -> FoundSources {
        self.source_files(self.how() + raw::KEEP_GOING, line_str, str)
    }

    fn source_files(&self, how: u8, line_str: &[u8], str: &[u8]) -> FoundSources {
        let mut sources = vec![raw::Source::default(); 64];
        let mut paths = vec![0; 4096];
        loop {
            let (mut count, mut paths_len) = (0, 0);
            let mut fault = raw::Fault::default();
            // SAFETY: as in `path_at`; both rooms are slices'.
            let status = unsafe {
                raw::dl_sources(
                    self.bytes.as_ptr(),
                    self.bytes.len(),
                    how,
                    line_str.as_ptr(),
                    line_str.len(),
                    str.as_ptr(),
                    str.len(),
                    sources.as_mut_ptr(),
                    sources.len(),
                    &mut count,
                    paths.as_mut_ptr(),
                    paths.len(),
                    &mut paths_len,
                    &mut fault,
                )
            };
            if count <= sources.len() && paths_len <= paths.len() {
                return FoundSources {
                    files: files_of(&sources[..count], &paths),
                    error: (status != raw::DONE).then(|| error(status, &fault)),
                };
            }
            sources.resize(count.max(sources.len()), raw::Source::default());
            paths.resize(paths_len.max(paths.len()), 0);
        }
    }

    /// What misleads a debugger by these rules, in the order of the section, as `dwline lint` finds it of a section alone. The string
    /// sections are those of `path_at`: of one without bytes each text is missing. Where the section is damaged the findings before the
    /// fault are told. More than 64 of them are told twice.
    pub fn findings(&self, rules: &[Rule], line_str: &[u8], str: &[u8]) -> Findings {
        self.findings_by(self.how(), rules, line_str, str)
    }

    /// The same, but goes on after a damaged unit as `check_around` does: the findings in all units are told, in damaged ones those
    /// before their faults, and the error is the damage of the first.
    pub fn findings_around(&self, rules: &[Rule], line_str: &[u8], str: &[u8]) -> Findings {
        self.findings_by(self.how() + raw::KEEP_GOING, rules, line_str, str)
    }

    fn findings_by(&self, how: u8, rules: &[Rule], line_str: &[u8], str: &[u8]) -> Findings {
        let asked = rules.iter().fold(0, |bits, rule| bits | 1 << *rule as u32);
        let mut findings = vec![raw::Finding::default(); 64];
        loop {
            let mut count = 0;
            let mut fault = raw::Fault::default();
            // SAFETY: as in `path_at`; the room is a slice's.
            let status = unsafe {
                raw::dl_findings(
                    self.bytes.as_ptr(),
                    self.bytes.len(),
                    how,
                    asked,
                    line_str.as_ptr(),
                    line_str.len(),
                    str.as_ptr(),
                    str.len(),
                    findings.as_mut_ptr(),
                    findings.len(),
                    &mut count,
                    &mut fault,
                )
            };
            if count <= findings.len() {
                findings.truncate(count);
                return Findings {
                    findings: findings.into_iter().map(Finding::from).collect(),
                    error: (status != raw::DONE && status != raw::NO_ANSWER).then(|| error(status, &fault)),
                };
            }
            findings.resize(count, raw::Finding::default());
        }
    }

    /// The index of the section: of the sequences that begin in the ranges, in any order, or of all where there are none. The
    /// string sections are those of `path_at`. Where damaged units are gone around, what is wrong with the first of them comes
    /// beside it.
    pub fn index(
        &self,
        line_str: &[u8],
        str: &[u8],
        code: &[CodeRange],
        options: IndexOptions,
    ) -> Result<(Index<Vec<u8>>, Option<Error>), Error> {
        let how = self.how() + raw::ALL * u8::from(options.all) + raw::KEEP_GOING * u8::from(options.keep_going);
        file::built(self.bytes.len() + line_str.len() + str.len(), |room, made, fault| {
            // SAFETY: as in `path_at`; the ranges are a slice's.
            unsafe {
                raw::dl_index_build_section_into(
                    self.bytes.as_ptr(),
                    self.bytes.len(),
                    how,
                    line_str.as_ptr(),
                    line_str.len(),
                    str.as_ptr(),
                    str.len(),
                    code.as_ptr(),
                    code.len(),
                    room.as_mut_ptr(),
                    room.len(),
                    made,
                    fault,
                )
            }
        })
    }

    /// The row that answers for an address and an operation of its instruction, in the first unit that has one.
    pub fn find(&self, address: u64, op_index: u8) -> Result<Option<Found>, Error> {
        let mut row = raw::Row::default();
        let mut unit = 0;
        let mut fault = raw::Fault::default();
        // SAFETY: as in `check`.
        let status = unsafe {
            raw::dl_find(
                self.bytes.as_ptr(),
                self.bytes.len(),
                self.how(),
                address,
                op_index,
                &mut row,
                &mut unit,
                &mut fault,
            )
        };
        match status {
            raw::DONE => Ok(Some(Found {
                row: row.into(),
                unit,
            })),
            raw::NO_ANSWER => Ok(None),
            status => Err(error(status, &fault)),
        }
    }
}

/// The answers for addresses, and what is wrong with the section, or that memory was refused.
#[derive(Clone, Debug, PartialEq, Eq)]
pub struct FoundAll {
    /// For each address the row that answers for it and the offset of its unit, if a unit has one that was looked at.
    pub found: Vec<Option<Found>>,
    pub error: Option<Error>,
}

/// The places of a line, and what is wrong with the section, or that memory was refused.
#[derive(Clone, Debug, PartialEq, Eq)]
pub struct FoundPlaces {
    /// By their addresses; of a damaged section those of the units that were looked at.
    pub places: Vec<Place>,
    pub error: Option<Error>,
}

/// The source files of a section, and what is wrong with it, or that memory was refused.
#[derive(Clone, Debug, PartialEq, Eq)]
pub struct FoundSources {
    /// In the order of their paths' bytes; of a damaged section those of the units that were looked at.
    pub files: Vec<SourceFile>,
    pub error: Option<Error>,
}

/// What in a section misleads a debugger, and what is wrong with the section, or that memory was refused.
#[derive(Clone, Debug, PartialEq, Eq)]
pub struct Findings {
    /// In the order of the section; of a damaged section those that were found before its fault.
    pub findings: Vec<Finding>,
    pub error: Option<Error>,
}

impl Iterator for Units<'_> {
    type Item = Result<Unit, Error>;

    fn next(&mut self) -> Option<Result<Unit, Error>> {
        let answer = self.section.unit_at(self.offset?).transpose();
        self.offset = match &answer {
            Some(Ok(unit)) => Some(unit.offset + unit.length),
            _ => None,
        };
        answer
    }
}

impl Iterator for Rows {
    type Item = Result<Row, Error>;

    fn next(&mut self) -> Option<Result<Row, Error>> {
        match self.rows.next() {
            Some(row) => Some(Ok(row.into())),
            None => self.error.take().map(Err),
        }
    }
}

impl From<raw::Counts> for Counts {
    fn from(counts: raw::Counts) -> Counts {
        Counts {
            units: counts.units,
            skipped: counts.skipped,
            sequences: counts.sequences,
            rows: counts.rows,
        }
    }
}

impl From<raw::Unit> for Unit {
    fn from(unit: raw::Unit) -> Unit {
        Unit {
            offset: unit.offset,
            length: unit.length,
            rows: unit.rows,
            directories: unit.directories,
            files: unit.files,
            version: unit.version,
            address_size: unit.address_size,
            is_dwarf64: unit.is_dwarf64 != 0,
        }
    }
}

impl From<raw::Row> for Row {
    fn from(row: raw::Row) -> Row {
        Row {
            address: row.address,
            file: row.file,
            line: row.line,
            column: row.column,
            isa: row.isa,
            discriminator: row.discriminator,
            op_index: row.op_index,
            is_stmt: row.flags & 1 != 0,
            basic_block: row.flags & 2 != 0,
            prologue_end: row.flags & 4 != 0,
            epilogue_begin: row.flags & 8 != 0,
            end_sequence: row.flags & 16 != 0,
        }
    }
}

impl From<raw::Finding> for Finding {
    fn from(finding: raw::Finding) -> Finding {
        Finding {
            offset: finding.offset,
            rule: Rule::ALL[finding.rule as usize],
            row: (finding.row > 0).then_some(RowSeen {
                number: finding.row,
                address: finding.address,
                op_index: finding.op_index,
            }),
            numbers: finding.numbers,
        }
    }
}

impl From<raw::Place> for Place {
    fn from(place: raw::Place) -> Place {
        Place {
            address: place.address,
            line: place.line,
            column: place.column,
            prologue_end: place.prologue_end != 0,
        }
    }
}

/// The source files of elements and paths that a call told: those of one path, one for each of its sums, make one file.
fn files_of(sources: &[raw::Source], paths: &[u8]) -> Vec<SourceFile> {
    let is_of_one = |a: &raw::Source, b: &raw::Source| (a.path_begin, a.path_len) == (b.path_begin, b.path_len);
    sources
        .chunk_by(is_of_one)
        .map(|of_one| SourceFile {
            path: paths[of_one[0].path_begin..][..of_one[0].path_len].to_vec(),
            rows: of_one[0].rows,
            bytes: of_one[0].bytes,
            sums: of_one.iter().filter(|source| source.has_md5 != 0).map(|source| source.md5).collect(),
        })
        .collect()
}

/// The text of a fault; none where no call tells it.
fn fault_text(offset: u64, kind: u32, detail: u64) -> String {
    let fault = raw::Fault { offset, detail, kind };
    let mut text = [0; 128];
    // SAFETY: the fault is a local, and the room is that of a local.
    let len = unsafe { raw::dl_fault_text(&fault, text.as_mut_ptr(), text.len()) };
    String::from_utf8_lossy(&text[..len]).into_owned()
}

/// Texts that stand one after the other, and end at these places.
fn parted(texts: &[u8], ends: &[usize]) -> Vec<Vec<u8>> {
    let starts = std::iter::once(&0).chain(ends);
    starts.zip(ends).map(|(&start, &end)| texts[start..end].to_vec()).collect()
}

/// What a status says that is none of an answer.
fn error(status: u32, fault: &raw::Fault) -> Error {
    match status {
        raw::FAULT if fault.kind >= raw::NOT_ELF => Error::File {
            kind: fault.kind,
            offset: fault.offset,
            detail: fault.detail,
        },
        raw::FAULT => Error::Damage {
            offset: fault.offset,
            kind: fault.kind,
            detail: fault.detail,
        },
        raw::NO_MEMORY => Error::NoMemory,
        raw::OTHER_VERSION => Error::OtherVersion,
        _ => unreachable!("the status {status}, which the call doesn't answer"),
    }
}
