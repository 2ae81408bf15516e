//! ELF files, and the indices of them.

use crate::{error, raw, Error, Index};
use std::io;
use std::path::Path;

/// The bytes of an ELF file, which may be borrowed, owned or mapped.
#[derive(Clone, Copy, Debug)]
pub struct File<B> {
    bytes: B,
}

/// Which index is made of a file.
#[derive(Clone, Copy, Debug, Default, PartialEq, Eq)]
pub struct IndexOptions {
    /// Each sequence counts, one that begins where the file has no code too.
    pub all: bool,
    /// Damaged units are gone around.
    pub keep_going: bool,
}

impl File<Vec<u8>> {
    /// The file at a path, read whole. Where it is large, map it and hand its bytes to `File::of`.
    pub fn open(path: impl AsRef<Path>) -> io::Result<File<Vec<u8>>> {
        Ok(File { bytes: std::fs::read(path)? })
    }
}

impl<B: AsRef<[u8]>> File<B> {
    /// The file that has these bytes.
    pub fn of(bytes: B) -> File<B> {
        File { bytes }
    }

    /// Its index: what `dwline addr` tells of each address. It may be kept, beside the file or in its place.
    pub fn index(&self) -> Result<Index<Vec<u8>>, Error> {
        match self.index_with(IndexOptions::default())? {
            (index, None) => Ok(index),
            (_, Some(fault)) => Err(fault),
        }
    }

    /// Its index by options, and where damaged units are gone around what is wrong with the first of them.
    pub fn index_with(&self, options: IndexOptions) -> Result<(Index<Vec<u8>>, Option<Error>), Error> {
        let bytes = self.bytes.as_ref();
        let how = raw::ALL * u8::from(options.all) + raw::KEEP_GOING * u8::from(options.keep_going);
        built(bytes.len(), |room, made, fault| {
            // SAFETY: the bytes and the room are slices', and the other pointers are to locals.
            unsafe {
                raw::dl_index_build_into(bytes.as_ptr(), bytes.len(), how, room.as_mut_ptr(), room.len(), made, fault)
            }
        })
    }
}

/// An index that a call puts into room, of a source of this length, and what is wrong where it goes around that.
pub(crate) fn built(
    len: usize,
    mut build: impl FnMut(&mut [u8], &mut usize, &mut raw::Fault) -> u32,
) -> Result<(Index<Vec<u8>>, Option<Error>), Error> {
    let mut room = vec![0; len + 4096];
    loop {
        let (mut made, mut fault) = (0, raw::Fault::default());
        let status = build(&mut room, &mut made, &mut fault);
        match status {
            raw::NO_ROOM => room = vec![0; made],
            raw::DONE | raw::FAULT if made > 0 => {
                room.truncate(made);
                room.shrink_to_fit();
                let fault = (status == raw::FAULT).then(|| error(status, &fault));
                return Ok((Index::made(room), fault));
            }
            status => return Err(error(status, &fault)),
        }
    }
}
