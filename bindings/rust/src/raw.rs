//! The calls as include/boxantrel.h declares them.

pub const DONE: u32 = 0;
pub const FAULT: u32 = 1;
pub const NO_ANSWER: u32 = 2;
pub const NO_MEMORY: u32 = 3;
pub const OTHER_VERSION: u32 = 4;
pub const NO_ROOM: u32 = 5;

/// What is added to `how` where the calls go on after damaged units.
pub const KEEP_GOING: u8 = 128;

/// What is added to `how` where each sequence counts in an index.
pub const ALL: u8 = 64;

/// The first kind of a fault of an ELF file.
pub const NOT_ELF: u32 = 32;

/// The offset of no unit.
pub const NO_UNIT: u64 = u64::MAX;

#[repr(C)]
#[derive(Clone, Copy, Debug, Default)]
pub struct Counts {
    pub units: u64,
    pub skipped: u64,
    pub sequences: u64,
    pub rows: u64,
    pub damaged: u64,
}

#[repr(C)]
#[derive(Clone, Copy, Debug, Default)]
pub struct Fault {
    pub offset: u64,
    pub detail: u64,
    pub kind: u32,
}

#[repr(C)]
#[derive(Clone, Copy, Debug, Default)]
pub struct Row {
    pub address: u64,
    pub file: u64,
    pub line: u64,
    pub column: u64,
    pub isa: u64,
    pub discriminator: u64,
    pub op_index: u8,
    pub flags: u8,
}

#[repr(C)]
#[derive(Clone, Copy, Debug, Default)]
pub struct Unit {
    pub offset: u64,
    pub length: u64,
    pub rows: u64,
    pub directories: u64,
    pub files: u64,
    pub version: u16,
    pub address_size: u8,
    pub is_dwarf64: u8,
}

#[repr(C)]
#[derive(Clone, Copy, Debug, Default)]
pub struct Place {
    pub address: u64,
    pub line: u64,
    pub column: u64,
    pub prologue_end: u8,
}

#[repr(C)]
#[derive(Clone, Copy, Debug, Default)]
pub struct Source {
    pub path_begin: usize,
    pub path_len: usize,
    pub rows: u64,
    pub bytes: u64,
    pub md5: [u8; 16],
    pub has_md5: u8,
}

#[repr(C)]
#[derive(Clone, Copy, Debug, Default)]
pub struct Finding {
    pub offset: u64,
    pub rule: u64,
    pub row: u64,
    pub address: u64,
    pub op_index: u64,
    pub numbers: [u64; 4],
}

/// By which the calls find the parts of an index.
#[repr(C)]
#[derive(Clone, Copy, Debug, PartialEq, Eq)]
pub struct Layout {
    pub base: u64,
    pub len: usize,
    pub counts: [usize; 4],
    pub places: [usize; 8],
    pub widths: [u8; 5],
}

/// The layout of an index with no stretches.
pub const NO_STRETCHES: Layout = Layout { base: 0, len: 128, counts: [0; 4], places: [128; 8], widths: [1; 5] };

/// An index that was opened. The calls that take one read its bytes and its layout, and nothing else of it.
#[repr(C)]
#[derive(Clone, Copy, Debug)]
pub struct Index {
    pub bytes: *const u8,
    pub len: usize,
    pub stretches: usize,
    pub build_id: *const u8,
    pub build_id_len: usize,
    pub all: bool,
    pub layout: Layout,
}

#[repr(C)]
#[derive(Clone, Copy, Debug, Default)]
pub struct IndexFault {
    pub kind: u32,
    pub version: u32,
}

#[repr(C)]
#[derive(Clone, Copy, Debug)]
pub struct Text {
    pub bytes: *const u8,
    pub len: usize,
}

#[repr(C)]
#[derive(Clone, Copy, Debug)]
pub struct Location {
    pub unit: u64,
    pub line: u64,
    pub column: u64,
    pub discriminator: u64,
    pub texts: [Text; 3],
    pub is_stmt: bool,
    pub has_path: bool,
    pub is_found: bool,
}

/// A range of addresses that have code.
#[repr(C)]
#[derive(Clone, Copy, Debug, PartialEq, Eq)]
pub struct CodeRange {
    /// The first address.
    pub start: u64,
    /// How many addresses there are.
    pub size: u64,
}

extern "C" {
    pub fn dl_index_fault_text(fault: *const IndexFault, text: *mut u8, room: usize) -> usize;
    pub fn dl_index_open(bytes: *const u8, len: usize, index: *mut Index, fault: *mut IndexFault) -> u32;
    pub fn dl_index_open_unchecked(bytes: *const u8, len: usize, index: *mut Index, fault: *mut IndexFault) -> u32;
    pub fn dl_index_find(index: *const Index, address: u64, location: *mut Location) -> u32;
    pub fn dl_index_find_many(
        index: *const Index,
        addresses: *const u64,
        count: usize,
        locations: *mut Location,
    ) -> u32;
    pub fn dl_index_stretch(
        index: *const Index,
        number: usize,
        start: *mut u64,
        last: *mut u64,
        location: *mut Location,
    ) -> u32;
    pub fn dl_index_build_into(
        file: *const u8,
        len: usize,
        how: u8,
        out: *mut u8,
        room: usize,
        made: *mut usize,
        fault: *mut Fault,
    ) -> u32;
    pub fn dl_index_build_section_into(
        section: *const u8,
        len: usize,
        how: u8,
        line_str: *const u8,
        line_str_len: usize,
        str: *const u8,
        str_len: usize,
        code: *const CodeRange,
        code_count: usize,
        out: *mut u8,
        room: usize,
        made: *mut usize,
        fault: *mut Fault,
    ) -> u32;
    pub fn dl_fault_text(fault: *const Fault, text: *mut u8, room: usize) -> usize;
    pub fn dl_check(section: *const u8, len: usize, how: u8, counts: *mut Counts, fault: *mut Fault) -> u32;
    pub fn dl_unit_at(
        section: *const u8,
        len: usize,
        how: u8,
        offset: u64,
        unit: *mut Unit,
        fault: *mut Fault,
    ) -> u32;
    pub fn dl_rows_at(
        section: *const u8,
        len: usize,
        how: u8,
        offset: u64,
        rows: *mut Row,
        room: usize,
        count: *mut usize,
        fault: *mut Fault,
    ) -> u32;
    pub fn dl_path_at(
        section: *const u8,
        len: usize,
        how: u8,
        offset: u64,
        file: u64,
        line_str: *const u8,
        line_str_len: usize,
        str: *const u8,
        str_len: usize,
        path: *mut u8,
        room: usize,
        length: *mut usize,
        fault: *mut Fault,
    ) -> u32;
    pub fn dl_paths_at(
        section: *const u8,
        len: usize,
        how: u8,
        offset: u64,
        files: *const u64,
        count: usize,
        line_str: *const u8,
        line_str_len: usize,
        str: *const u8,
        str_len: usize,
        paths: *mut u8,
        room: usize,
        ends: *mut usize,
        fault: *mut Fault,
    ) -> u32;
    pub fn dl_find(
        section: *const u8,
        len: usize,
        how: u8,
        address: u64,
        op_index: u8,
        row: *mut Row,
        unit: *mut u64,
        fault: *mut Fault,
    ) -> u32;
    pub fn dl_find_all(
        section: *const u8,
        len: usize,
        how: u8,
        addresses: *const u64,
        count: usize,
        rows: *mut Row,
        units: *mut u64,
        fault: *mut Fault,
    ) -> u32;
    pub fn dl_lines(
        section: *const u8,
        len: usize,
        how: u8,
        line_str: *const u8,
        line_str_len: usize,
        str: *const u8,
        str_len: usize,
        path: *const u8,
        path_len: usize,
        line: u64,
        exact: bool,
        places: *mut Place,
        room: usize,
        count: *mut usize,
        fault: *mut Fault,
    ) -> u32;
    pub fn dl_sources(
        section: *const u8,
        len: usize,
        how: u8,
        line_str: *const u8,
        line_str_len: usize,
        str: *const u8,
        str_len: usize,
        sources: *mut Source,
        room: usize,
        count: *mut usize,
        paths: *mut u8,
        paths_room: usize,
        paths_len: *mut usize,
        fault: *mut Fault,
    ) -> u32;
    pub fn dl_findings(
        section: *const u8,
        len: usize,
        how: u8,
        rules: u32,
        line_str: *const u8,
        line_str_len: usize,
        str: *const u8,
        str_len: usize,
        findings: *mut Finding,
        room: usize,
        count: *mut usize,
        fault: *mut Fault,
    ) -> u32;
    pub fn dl_copy(
        section: *const u8,
        len: usize,
        how: u8,
        out: *mut u8,
        room: usize,
        copied: *mut usize,
        fault: *mut Fault,
    ) -> u32;
}
