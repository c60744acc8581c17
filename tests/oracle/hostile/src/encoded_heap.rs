use crate::buckets::Buckets;
use crate::numbers::{packed_width, put_packed};
use crate::random::Random;
use std::alloc::{AllocError, Global};

/// How long a heap is at most that is searched for the bytes of a value.
const SEARCHED: usize = 0x1000;

/// A heap that is filled as no writer does: its first byte may be any, values stand in it twice or share bytes, and
/// lengths take more bytes than they need.
#[derive(Drop)]
pub struct EncodedHeap {
    pub bytes: Vec<u8>,
    /// Where the first bytes of values stand, and the last.
    pub offsets: Vec<usize>,
    known: Vec<(Vec<u8>, u32)>,
    buckets: Buckets,
    alloc: Global,
}

impl EncodedHeap {
    /// A heap that has some bytes already, of which none is used.
    pub fn new(alloc: Global, random: &mut Random) -> Result<EncodedHeap, AllocError> {
        let mut bytes = Vec::new(alloc);
        for _byte in 0..random.pick(&[0, 1, 1, 1, 3]) {
            bytes.push(random.pick(&[0, 0, 0x41, 0xFF]))?;
        }
        Ok(EncodedHeap {
            bytes,
            offsets: Vec::new(alloc),
            known: Vec::new(alloc),
            buckets: Buckets::new(alloc)?,
            alloc,
        })
    }

    /// The index of a text (II.24.2.3): any that reads as the text.
    pub fn text(&mut self, random: &mut Random, text: &[u8]) -> Result<u32, AllocError> {
        let mut entry = text.to_vec(self.alloc)?;
        entry.push(0)?;
        if text.is_empty() && random.is_one_in(2) {
            return Ok(0);
        }
        self.index(random, entry)
    }

    /// The index of a blob (II.24.2.4), whose length may take more bytes than it needs.
    pub fn blob(&mut self, random: &mut Random, blob: &[u8]) -> Result<u32, AllocError> {
        if blob.is_empty() && random.is_one_in(2) {
            return Ok(0);
        }
        let len = blob.len() as u32;
        let mut width = packed_width(len);
        if random.is_one_in(6) {
            width = random.pick(&[1, 2, 4]).max(width);
        }
        let mut entry = Vec::new(self.alloc);
        put_packed(&mut entry, len, width)?;
        entry.extend_from_slice(blob)?;
        self.index(random, entry)
    }

    /// The index of a GUID (II.24.2.5), from 1 on.
    pub fn guid(&mut self, random: &mut Random, guid: &[u8; 16]) -> Result<u32, AllocError> {
        while self.bytes.len() % 16 != 0 {
            self.bytes.push(random.byte())?;
        }
        let entry = guid.to_vec(self.alloc)?;
        let index = match self.known_index(entry.as_slice()) {
            Some(index) if !random.is_one_in(8) => index,
            _ => self.append(entry)?,
        };
        Ok(index / 16 + 1)
    }

    /// Where an entry stands, past the first byte: mostly where it is already.
    fn index(&mut self, random: &mut Random, entry: Vec<u8>) -> Result<u32, AllocError> {
        let is_short = self.bytes.len() < 0x8000;
        if let Some(index) = self.known_index(entry.as_slice()) {
            if !is_short || !random.is_one_in(8) {
                return Ok(index);
            }
        } else if self.bytes.len() < SEARCHED && !random.is_one_in(3) {
            let mut parts = self.bytes.windows(entry.len());
            if let Some(offset) = parts.rposition(|part| part == entry.as_slice()) {
                if offset > 0 {
                    self.know(entry, offset as u32)?;
                    return Ok(offset as u32);
                }
            }
        }
        if self.bytes.is_empty() {
            self.bytes.push(random.byte())?;
        }
        self.append(entry)
    }

    fn known_index(&self, entry: &[u8]) -> Option<u32> {
        for offset in self.buckets.near(entry) {
            let (known, index) = &self.known[*offset];
            if known.as_slice() == entry {
                return Some(*index);
            }
        }
        None
    }

    fn know(&mut self, entry: Vec<u8>, index: u32) -> Result<(), AllocError> {
        self.buckets.note(entry.as_slice(), self.known.len())?;
        self.known.push((entry, index))?;
        Ok(())
    }

    fn append(&mut self, entry: Vec<u8>) -> Result<u32, AllocError> {
        let index = self.bytes.len();
        for offset in 0..entry.len().min(40) {
            self.offsets.push(index + offset)?;
        }
        self.offsets.push(index + entry.len() - 1)?;
        self.bytes.extend_from_slice(entry.as_slice())?;
        self.know(entry, index as u32)?;
        Ok(index as u32)
    }
}
