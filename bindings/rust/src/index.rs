//! An index: bytes, made once of a file, that answer each address.

use crate::raw;
use std::fmt;
use std::ops::Range;

/// An index over its bytes, which may be borrowed, owned or mapped. Threads may share it where they may share these.
#[derive(Clone, Copy, Debug)]
pub struct Index<B> {
    bytes: B,
    layout: raw::Layout,
}

/// Why bytes aren't an index: the first check that fails.
#[derive(Clone, Copy, Debug, PartialEq, Eq)]
pub struct IndexError {
    /// The number that stands for it in include/boxantrel.h. Display has it in words.
    pub kind: u32,
    /// The version of an index of another one; else 0.
    pub version: u32,
}

/// What an index tells of an address.
#[derive(Clone, Copy, Debug, PartialEq, Eq)]
pub struct Location<'a> {
    /// The offset of the unit in the line section.
    pub unit: u64,
    /// The texts that the path is, one after the other, some of which may be empty; None where it isn't known.
    pub texts: Option<[&'a [u8]; 3]>,
    pub line: u64,
    /// From 1 on; 0 is the line's left edge.
    pub column: u64,
    pub discriminator: u64,
    /// Whether the row is a recommended place for a breakpoint.
    pub is_stmt: bool,
}

/// A run of addresses, as long as can be, of which the same is told.
#[derive(Clone, Copy, Debug, PartialEq, Eq)]
pub struct Stretch<'a> {
    /// Its first address.
    pub start: u64,
    /// Its last address.
    pub last: u64,
    /// What is told of them; None in a gap.
    pub location: Option<Location<'a>>,
}

/// The stretches of an index, the gaps between them too, in rising order.
#[derive(Clone, Debug)]
pub struct Stretches<'a> {
    bytes: &'a [u8],
    layout: raw::Layout,
    numbers: Range<usize>,
}

impl Location<'_> {
    /// The path: its texts joined, and `??` where it isn't known.
    pub fn path(&self) -> Vec<u8> {
        self.texts.map_or_else(|| b"??".to_vec(), |texts| texts.concat())
    }
}

impl<B: AsRef<[u8]>> Index<B> {
    /// An index whose bytes are checked whole, in one pass.
    pub fn open(bytes: B) -> Result<Index<B>, IndexError> {
        // SAFETY: as `opened` wants it.
        let layout = unsafe { opened(raw::dl_index_open, bytes.as_ref())? }.layout;
        Ok(Index { bytes, layout })
    }

    /// An index of whose bytes only the first 128 are checked. Where others are damaged the answers are wrong, or none; none
    /// outside is read.
    pub fn open_unchecked(bytes: B) -> Result<Index<B>, IndexError> {
        // SAFETY: as `opened` wants it.
        let layout = unsafe { opened(raw::dl_index_open_unchecked, bytes.as_ref())? }.layout;
        Ok(Index { bytes, layout })
    }

    /// What is told of an address; None in a gap, and before the first stretch.
    pub fn find(&self, address: u64) -> Option<Location<'_>> {
        let bytes = self.bytes.as_ref();
        let mut location = nothing();
        // SAFETY: the index is over a slice, its layout was written by a call that opened one, and the location is a local.
        let status = unsafe { raw::dl_index_find(&over(bytes, self.layout), address, &mut location) };
        // SAFETY: its texts lie in the slice.
        (status == raw::DONE).then(|| unsafe { told(&location) })
    }

    /// What is told of each address, as by `find`, four at a time, which is faster.
    pub fn find_many(&self, addresses: &[u64]) -> Vec<Option<Location<'_>>> {
        let bytes = self.bytes.as_ref();
        let mut locations = vec![nothing(); addresses.len()];
        // SAFETY: as in `find`; there are as many locations as addresses.
        unsafe {
            let index = over(bytes, self.layout);
            raw::dl_index_find_many(&index, addresses.as_ptr(), addresses.len(), locations.as_mut_ptr());
        }
        // SAFETY: as in `find`; one that isn't written tells nothing.
        locations.iter().map(|location| location.is_found.then(|| unsafe { told(location) })).collect()
    }

    /// The stretches, one after the other.
    pub fn stretches(&self) -> Stretches<'_> {
        let bytes = self.bytes.as_ref();
        Stretches { bytes, layout: self.layout, numbers: 0..self.about().map_or(0, |index| index.stretches) }
    }

    /// The build ID of the file that it was made of; of a longer one the first 32 bytes, and none where the file has none.
    pub fn build_id(&self) -> &[u8] {
        match self.about() {
            // SAFETY: it lies in the slice.
            Some(index) => unsafe { std::slice::from_raw_parts(index.build_id, index.build_id_len) },
            None => &[],
        }
    }

    /// Whether each sequence counts, one that begins where there is no code too.
    pub fn has_all_sequences(&self) -> bool {
        self.about().is_some_and(|index| index.all)
    }

    /// The bytes, which may be written to a file.
    pub fn as_bytes(&self) -> &[u8] {
        self.bytes.as_ref()
    }

    /// What it was made of.
    pub fn into_inner(self) -> B {
        self.bytes
    }

    /// What its first bytes say.
    fn about(&self) -> Option<raw::Index> {
        // SAFETY: as `opened` wants it.
        unsafe { opened(raw::dl_index_open_unchecked, self.bytes.as_ref()).ok() }
    }
}

impl Index<Vec<u8>> {
    /// An index that the library has just made.
    pub(crate) fn made(bytes: Vec<u8>) -> Index<Vec<u8>> {
        // SAFETY: as `opened` wants it.
        let opened = unsafe { opened(raw::dl_index_open_unchecked, &bytes) };
        Index { bytes, layout: opened.map_or(raw::NO_STRETCHES, |index| index.layout) }
    }
}

impl<'a> Iterator for Stretches<'a> {
    type Item = Stretch<'a>;

    fn next(&mut self) -> Option<Stretch<'a>> {
        let number = self.numbers.next()?;
        let (mut start, mut last, mut location) = (0, 0, nothing());
        // SAFETY: as in `Index::find`.
        let status = unsafe {
            raw::dl_index_stretch(&over(self.bytes, self.layout), number, &mut start, &mut last, &mut location)
        };
        (status == raw::DONE).then(|| Stretch {
            start,
            last,
            // SAFETY: as in `Index::find`.
            location: location.is_found.then(|| unsafe { told(&location) }),
        })
    }

    fn size_hint(&self) -> (usize, Option<usize>) {
        (0, Some(self.numbers.len()))
    }
}

impl fmt::Display for IndexError {
    fn fmt(&self, f: &mut fmt::Formatter<'_>) -> fmt::Result {
        let fault = raw::IndexFault { kind: self.kind, version: self.version };
        let mut text = [0; 64];
        // SAFETY: the fault and the room are locals.
        let len = unsafe { raw::dl_index_fault_text(&fault, text.as_mut_ptr(), text.len()) };
        f.write_str(&String::from_utf8_lossy(&text[..len]))
    }
}

impl std::error::Error for IndexError {}

/// A call that opens an index.
type Open = unsafe extern "C" fn(*const u8, usize, *mut raw::Index, *mut raw::IndexFault) -> u32;

/// What a call opens, which has to be one of both.
unsafe fn opened(open: Open, bytes: &[u8]) -> Result<raw::Index, IndexError> {
    let mut index = over(bytes, raw::NO_STRETCHES);
    let mut fault = raw::IndexFault::default();
    match open(bytes.as_ptr(), bytes.len(), &mut index, &mut fault) {
        raw::DONE => Ok(index),
        _ => Err(IndexError { kind: fault.kind, version: fault.version }),
    }
}

/// The bytes of an index with a layout, as the calls take them: they look at nothing else of it.
fn over(bytes: &[u8], layout: raw::Layout) -> raw::Index {
    raw::Index {
        bytes: bytes.as_ptr(),
        len: bytes.len(),
        stretches: 0,
        build_id: bytes.as_ptr(),
        build_id_len: 0,
        all: false,
        layout,
    }
}

/// A location that tells nothing.
fn nothing() -> raw::Location {
    let text = raw::Text { bytes: std::ptr::null(), len: 0 };
    raw::Location {
        unit: 0,
        line: 0,
        column: 0,
        discriminator: 0,
        texts: [text; 3],
        is_stmt: false,
        has_path: false,
        is_found: false,
    }
}

/// A location that a call told, whose texts lie in bytes that live as long.
unsafe fn told<'a>(location: &raw::Location) -> Location<'a> {
    let text = |text: &raw::Text| match text.len {
        0 => &[][..],
        len => std::slice::from_raw_parts(text.bytes, len),
    };
    let [first, second, third] = &location.texts;
    Location {
        unit: location.unit,
        texts: location.has_path.then(|| [text(first), text(second), text(third)]),
        line: location.line,
        column: location.column,
        discriminator: location.discriminator,
        is_stmt: location.is_stmt,
    }
}
