use crate::numbers::number_at;
use std::alloc::{AllocError, AllocFailed};
use std::str;

/// Why a root or a file has no plain model.
#[derive(Clone, Copy, Debug, PartialEq, Eq)]
pub enum Refused {
    /// Memory was refused.
    Memory,
    /// The rule of a code is broken at an offset.
    Fault(u16, usize),
}

impl From<AllocError> for Refused {
    fn from(_: AllocError) -> Refused {
        Refused::Memory
    }
}

impl<T: Drop> From<AllocFailed<T>> for Refused {
    fn from(_: AllocFailed<T>) -> Refused {
        Refused::Memory
    }
}

/// The names of the streams (II.24.2.2).
pub const STREAMS: [&[u8]; 5] = [b"#~", b"#Strings", b"#US", b"#GUID", b"#Blob"];

/// What the headers of a root say (II.24.2.1, II.24.2.2).
#[derive(Clone, Copy, Debug)]
pub struct PlainRoot<'a> {
    pub version: &'a [u8],
    /// Where each of the five streams lies, and how many bytes it has.
    pub streams: [Option<(usize, usize)>; 5],
}

impl PlainRoot<'_> {
    /// What a stream holds: nothing where there is none.
    pub fn stream<'b>(&self, bytes: &'b [u8], stream: usize) -> &'b [u8] {
        match self.streams[stream] {
            Some((offset, len)) => &bytes[offset..offset + len],
            None => &[],
        }
    }
}

/// Reads the headers of a root.
pub fn read_plain_root(bytes: &[u8]) -> Result<PlainRoot<'_>, Refused> {
    if bytes.len() < 16 || !bytes.starts_with(b"BSJB") {
        return Err(Refused::Fault(301, 0));
    }
    let Some((version, field)) = version_of(bytes) else {
        return Err(Refused::Fault(302, 12));
    };
    let streams = read_headers(bytes, 16 + field)?;
    Ok(PlainRoot { version, streams })
}

/// The version, and how many bytes its field has.
fn version_of(bytes: &[u8]) -> Option<(&[u8], usize)> {
    let field = number_at(bytes, 12, 4)? as usize;
    if field == 0 || field % 4 != 0 {
        return None;
    }
    let part = bytes.get(16..16 + field)?;
    let version = &part[..part.iter().position(|byte| *byte == 0)?];
    if version.len() > 254 || str::from_utf8(version).is_err() {
        return None;
    }
    Some((version, field))
}

/// Where the streams lie that the headers after the version name.
fn read_headers(bytes: &[u8], flags: usize) -> Result<[Option<(usize, usize)>; 5], Refused> {
    let Some(count) = number_at(bytes, flags + 2, 2) else {
        return Err(Refused::Fault(303, flags));
    };
    let mut streams = [None; 5];
    let mut offset = flags + 4;
    for _header in 0..count {
        let Some(header) = header_at(bytes, offset) else {
            return Err(Refused::Fault(304, offset));
        };
        if let Some(stream) = STREAMS.iter().position(|name| *name == header.name) {
            if header.offset + header.size > bytes.len() {
                return Err(Refused::Fault(305, offset));
            }
            if streams[stream].is_some() {
                return Err(Refused::Fault(306, offset));
            }
            streams[stream] = Some((header.offset, header.size));
        } else if header.name == b"#-".as_slice() {
            return Err(Refused::Fault(307, offset));
        }
        offset = header.end;
    }
    if streams[0].is_none() {
        return Err(Refused::Fault(308, flags + 2));
    }
    Ok(streams)
}

/// A stream header, and the offset of its end.
#[derive(Clone, Copy, Debug)]
struct Header<'a> {
    offset: usize,
    size: usize,
    name: &'a [u8],
    end: usize,
}

fn header_at(bytes: &[u8], start: usize) -> Option<Header<'_>> {
    let offset = number_at(bytes, start, 4)? as usize;
    let size = number_at(bytes, start + 4, 4)? as usize;
    let tail = bytes.get(start + 8..)?;
    let name = &tail[..tail.iter().position(|byte| *byte == 0)?];
    let end = start + 8 + (name.len() / 4 + 1) * 4;
    if name.len() > 32 || name.iter().any(|byte| *byte > 0x7F) || end > bytes.len() {
        return None;
    }
    Some(Header {
        offset,
        size,
        name,
        end,
    })
}
