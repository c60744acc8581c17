use std::alloc::{AllocError, Global};

/// The Sorted bits of all tables that have a key.
pub const ALL_SORTED: u64 = 0x1600_3301_FA00;

/// A stream after `#~`.
#[derive(Drop)]
struct Stream {
    name: &'static str,
    bytes: Vec<u8>,
}

/// A root that is laid out from rows and heaps: its streams follow the headers in their order, without
/// gaps, each zero-padded to a multiple of four.
#[derive(Drop)]
pub struct RootBuilder {
    /// The version.
    pub version: &'static str,
    /// HeapSizes.
    pub heap_sizes: u8,
    /// Sorted.
    pub sorted: u64,
    alloc: Global,
    counts: [u32; 64],
    rows: Vec<u8>,
    streams: Vec<Stream>,
}

/// A length padded to a multiple of four.
fn zero_padded(len: usize) -> usize {
    len.saturating_add(3) / 4 * 4
}

/// Appends bytes, zero-padded to a length.
fn put_padded(bytes: &mut Vec<u8>, part: &[u8], len: usize) -> Result<(), AllocError> {
    bytes.extend_from_slice(part)?;
    for _ in part.len()..len {
        bytes.push(0)?;
    }
    Ok(())
}

/// Appends a number of four bytes.
fn put_u32(bytes: &mut Vec<u8>, number: usize) -> Result<(), AllocError> {
    let number = number.min(0xFFFF_FFFF) as u32;
    bytes.extend_from_slice(number.to_le_bytes().as_slice())?;
    Ok(())
}

/// Appends a stream header.
fn put_header(bytes: &mut Vec<u8>, offset: usize, len: usize, name: &str) -> Result<(), AllocError> {
    put_u32(bytes, offset)?;
    put_u32(bytes, zero_padded(len))?;
    put_padded(bytes, name.as_bytes(), name_len(name))
}

/// How many bytes a name takes in a stream header.
fn name_len(name: &str) -> usize {
    zero_padded(name.len().saturating_add(1))
}

impl RootBuilder {
    /// A root of no rows and no heaps.
    pub fn new(alloc: Global) -> RootBuilder {
        RootBuilder {
            version: "v4.0.30319",
            heap_sizes: 0,
            sorted: ALL_SORTED,
            alloc,
            counts: [0; 64],
            rows: Vec::new(alloc),
            streams: Vec::new(alloc),
        }
    }

    /// Adds a row to the table of a number, which is below 64, after the rows of that table and of those
    /// of lower numbers.
    pub fn row(&mut self, number: u8, row: &[u8]) -> Result<(), AllocError> {
        if let Some(count) = self.counts.get_mut(number as usize) {
            *count = count.saturating_add(1);
        }
        self.rows.extend_from_slice(row)?;
        Ok(())
    }

    /// Adds a stream after the others.
    pub fn heap(&mut self, name: &'static str, bytes: &[u8]) -> Result<(), AllocError> {
        let bytes = Vec::from_slice(self.alloc, bytes)?;
        self.streams.push(Stream { name, bytes })?;
        Ok(())
    }

    /// The table stream: its header, the counts of rows, and the rows.
    fn tables(&self) -> Result<Vec<u8>, AllocError> {
        let mut bytes = Vec::from_slice(
            self.alloc,
            [0, 0, 0, 0, 2, 0, self.heap_sizes, 1].as_slice(),
        )?;
        for eight in self.counts.chunks(8) {
            let bits = eight
                .iter()
                .rev()
                .fold(0, |bits, count| bits << 1 | u8::from(*count != 0));
            bytes.push(bits)?;
        }
        bytes.extend_from_slice(self.sorted.to_le_bytes().as_slice())?;
        for count in self.counts.iter().filter(|count| **count != 0) {
            bytes.extend_from_slice(count.to_le_bytes().as_slice())?;
        }
        bytes.extend_from_slice(self.rows.as_slice())?;
        Ok(bytes)
    }

    /// The root, up to its first stream header.
    fn prefix(&self) -> Result<Vec<u8>, AllocError> {
        let mut bytes = Vec::from_slice(self.alloc, b"BSJB\x01\0\x01\0\0\0\0\0".as_slice())?;
        let len = name_len(self.version);
        put_u32(&mut bytes, len)?;
        put_padded(&mut bytes, self.version.as_bytes(), len)?;
        let streams = self.streams.len().min(254) as u8 + 1;
        bytes.extend_from_slice([0, 0, streams, 0].as_slice())?;
        Ok(bytes)
    }

    /// Where the table stream begins.
    fn tables_offset(&self, prefix: usize) -> usize {
        let mut offset = prefix.saturating_add(12);
        for stream in self.streams.iter() {
            offset = offset
                .saturating_add(8)
                .saturating_add(name_len(stream.name));
        }
        offset
    }

    /// The bytes of the root.
    pub fn finish(self) -> Result<Vec<u8>, AllocError> {
        let tables = self.tables()?;
        let mut bytes = self.prefix()?;
        let mut offset = self.tables_offset(bytes.len());
        put_header(&mut bytes, offset, tables.len(), "#~")?;
        offset = offset.saturating_add(zero_padded(tables.len()));
        for stream in self.streams.iter() {
            let len = stream.bytes.len();
            put_header(&mut bytes, offset, len, stream.name)?;
            offset = offset.saturating_add(zero_padded(len));
        }
        put_padded(&mut bytes, tables.as_slice(), zero_padded(tables.len()))?;
        for stream in self.streams.iter() {
            put_padded(
                &mut bytes,
                stream.bytes.as_slice(),
                zero_padded(stream.bytes.len()),
            )?;
        }
        Ok(bytes)
    }
}
