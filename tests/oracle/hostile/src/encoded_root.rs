use crate::numbers::put_number;
use crate::plain_model::PlainModel;
use crate::plain_root::STREAMS;
use crate::random::Random;
use crate::encoded_tables::{EncodedTables, encoded_tables};
use std::alloc::{AllocError, Global};

/// A root, and the offsets in it that mean something, each with its number of bytes.
#[derive(Drop)]
pub struct EncodedRoot {
    pub bytes: Vec<u8>,
    /// Those of the headers.
    pub heads: Vec<(usize, usize)>,
    /// Those of the cells.
    pub cells: Vec<(usize, usize)>,
    /// Those of the heaps: where values begin and end.
    pub values: Vec<(usize, usize)>,
}

/// Names of streams that mean nothing.
const OTHERS: [&[u8]; 6] = [
    b"",
    b"#",
    b"#Schema",
    b"#strings",
    b"#Strings2",
    b"12345678901234567890123456789012",
];

/// A stream: its name, its index in the headers' order, its offset and its length.
#[derive(Clone, Copy)]
struct Named {
    name: &'static [u8],
    offset: usize,
    len: usize,
}

/// Encodes a valid model as no writer does: any numbers where they mean nothing, more padding than is needed, headers
/// of names that mean nothing, streams in any order with bytes between them, and tables as strangers encode them.
pub fn encoded_root(
    alloc: Global,
    random: &mut Random,
    model: &PlainModel,
) -> Result<EncodedRoot, AllocError> {
    let tables = encoded_tables(alloc, random, model)?;
    let mut encoded = EncodedRoot {
        bytes: Vec::new(alloc),
        heads: Vec::new(alloc),
        cells: Vec::new(alloc),
        values: Vec::new(alloc),
    };
    encoded.put_prefix(random, model.version.as_slice())?;
    let mut headers = Vec::new(alloc);
    let mut bodies = Vec::new(alloc);
    for stream in in_any_order(random) {
        let content = content_of(random, stream, &tables, model);
        let is_shared = stream == 1 && tables.is_joint;
        if is_shared || content.is_empty() && stream != 0 && random.is_one_in(2) {
            continue;
        }
        let offset = bodies.len();
        headers.push((stream, offset, content.len()))?;
        bodies.extend_from_slice(content)?;
        for _byte in 0..random.below(3) {
            bodies.push(random.byte())?;
        }
        if stream == 4 && tables.is_joint {
            headers.push((1, offset, content.len()))?;
        }
    }
    let named = named_streams(alloc, random, headers.as_slice())?;
    encoded.put_headers(random, named.as_slice())?;
    let start = encoded.bytes.len();
    encoded.bytes.extend_from_slice(bodies.as_slice())?;
    for (stream, offset, _) in headers.iter() {
        encoded.note_offsets(*stream, start + offset, &tables)?;
    }
    Ok(encoded)
}

/// The five streams in any order.
fn in_any_order(random: &mut Random) -> [usize; 5] {
    let mut order = [0, 1, 2, 3, 4];
    for offset in 1..order.len() {
        order.swap(offset, random.offset(offset + 1));
    }
    order
}

/// What a stream holds.
fn content_of<'a>(
    random: &mut Random,
    stream: usize,
    tables: &'a EncodedTables,
    model: &'a PlainModel,
) -> &'a [u8] {
    match stream {
        0 => tables.bytes.as_slice(),
        1 => tables.texts.bytes.as_slice(),
        2 => without_padding(random, model.user.as_slice()),
        3 => tables.guids.bytes.as_slice(),
        _ => tables.blobs.bytes.as_slice(),
    }
}

/// User bytes, without zeros with which they are filled again.
fn without_padding<'a>(random: &mut Random, user: &'a [u8]) -> &'a [u8] {
    let mut len = user.len();
    for _byte in 0..random.below(4) {
        if len > 0 && user[len - 1] == 0 {
            len -= 1;
        }
    }
    &user[..len]
}

/// The headers of the streams, among others that mean nothing; their offsets count from the end of the headers.
fn named_streams(
    alloc: Global,
    random: &mut Random,
    headers: &[(usize, usize, usize)],
) -> Result<Vec<Named>, AllocError> {
    let mut named = Vec::new(alloc);
    for (stream, offset, len) in headers {
        while random.is_one_in(4) {
            named.push(Named {
                name: random.pick(&OTHERS),
                offset: random.number() as usize & 0x0FFF_FFFF,
                len: random.number() as usize & 0x0FFF_FFFF,
            })?;
        }
        named.push(Named {
            name: STREAMS[*stream],
            offset: *offset,
            len: *len,
        })?;
    }
    Ok(named)
}

impl EncodedRoot {
    /// What stands before the number of streams.
    fn put_prefix(&mut self, random: &mut Random, version: &[u8]) -> Result<(), AllocError> {
        self.bytes.extend_from_slice(b"BSJB")?;
        self.bytes.extend_from_slice(&random.next().to_le_bytes())?;
        let field = (version.len() / 4 + 1) * 4 + random.pick(&[0, 0, 4, 8, 300]);
        put_number(&mut self.bytes, field as u32, 4)?;
        self.bytes.extend_from_slice(version)?;
        self.bytes.push(0)?;
        for _padding in version.len() + 1..field {
            self.bytes.push(random.byte())?;
        }
        let flags = 16 + field;
        for offset in [
            (0, 4),
            (12, 4),
            (16, 1),
            (16 + version.len(), 1),
            (flags, 2),
            (flags + 2, 2),
        ] {
            self.heads.push(offset)?;
        }
        put_number(&mut self.bytes, random.below(0x1_0000), 2)
    }

    /// The number of streams and the headers.
    fn put_headers(&mut self, random: &mut Random, named: &[Named]) -> Result<(), AllocError> {
        put_number(&mut self.bytes, named.len() as u32, 2)?;
        let mut start = self.bytes.len();
        for header in named {
            start += 8 + (header.name.len() / 4 + 1) * 4;
        }
        for header in named {
            let header_start = self.bytes.len();
            let is_known = STREAMS.contains(&header.name);
            let offset = if is_known {
                start + header.offset
            } else {
                header.offset
            };
            put_number(&mut self.bytes, offset as u32, 4)?;
            put_number(&mut self.bytes, header.len as u32, 4)?;
            self.bytes.extend_from_slice(header.name)?;
            self.bytes.push(0)?;
            while self.bytes.len() % 4 != 0 {
                self.bytes.push(random.byte())?;
            }
            for head in [
                (header_start, 4),
                (header_start + 4, 4),
                (header_start + 8, 1),
                (header_start + 8 + header.name.len(), 1),
            ] {
                self.heads.push(head)?;
            }
        }
        Ok(())
    }

    /// Notes the offsets of a stream that lies here.
    fn note_offsets(
        &mut self,
        stream: usize,
        start: usize,
        tables: &EncodedTables,
    ) -> Result<(), AllocError> {
        let heap = match stream {
            0 => return self.note_cells(start, tables),
            1 if !tables.is_joint => &tables.texts,
            3 => &tables.guids,
            4 => &tables.blobs,
            _ => return Ok(()),
        };
        for offset in heap.offsets.iter() {
            self.values.push((start + offset, 1))?;
        }
        Ok(())
    }

    fn note_cells(&mut self, start: usize, tables: &EncodedTables) -> Result<(), AllocError> {
        let rows = tables
            .cells
            .first()
            .map_or(tables.bytes.len(), |cell| cell.0);
        for byte in 4..24 {
            self.heads.push((start + byte, 1))?;
        }
        for count in 6..rows / 4 {
            self.heads.push((start + count * 4, 4))?;
        }
        for (offset, width) in tables.cells.iter() {
            self.cells.push((start + offset, *width))?;
        }
        Ok(())
    }
}
