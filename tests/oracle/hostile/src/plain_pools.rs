use crate::buckets::Buckets;
use crate::numbers::{packed_width, put_packed};
use crate::plain_model::{PlainCell, PlainModel};
use crate::standard::TABLES;
use std::alloc::{AllocError, Global};

/// The distinct values of a heap's cells in the order of their first use, each with its index.
#[derive(Drop)]
pub struct Pool<'m> {
    values: Vec<&'m [u8]>,
    buckets: Buckets,
    indexes: Vec<u32>,
    /// The heap.
    pub bytes: Vec<u8>,
}

impl<'m> Pool<'m> {
    fn new(alloc: Global) -> Result<Pool<'m>, AllocError> {
        Ok(Pool {
            values: Vec::new(alloc),
            buckets: Buckets::new(alloc)?,
            indexes: Vec::new(alloc),
            bytes: Vec::new(alloc),
        })
    }

    /// Notes a value that is used.
    fn note(&mut self, value: &'m [u8]) -> Result<(), AllocError> {
        if !value.is_empty() && self.offset_of(value).is_none() {
            self.buckets.note(value, self.values.len())?;
            self.values.push(value)?;
        }
        Ok(())
    }

    /// The index of a value; 0 of the empty one.
    pub fn index(&self, value: &[u8]) -> u32 {
        self.offset_of(value).map_or(0, |offset| self.indexes[offset])
    }

    fn offset_of(&self, value: &[u8]) -> Option<usize> {
        for offset in self.buckets.near(value) {
            if self.values[*offset] == value {
                return Some(*offset);
            }
        }
        None
    }

    /// Lays out texts: those that end another text of the heap share its bytes.
    fn lay_out_texts(&mut self) -> Result<(), AllocError> {
        if !self.values.is_empty() {
            self.bytes.push(0)?;
        }
        let mut holders: Vec<u32> = Vec::new(*self.bytes.allocator());
        for text in self.values.iter() {
            holders.push(self.bytes.len() as u32)?;
            if self.is_holder(text) {
                self.bytes.extend_from_slice(text)?;
                self.bytes.push(0)?;
            }
        }
        for (text, own) in self.values.iter().zip(holders.iter()) {
            let mut index = *own;
            for (other, offset) in self.values.iter().zip(holders.iter()) {
                if ends_longer(other, text) && self.is_holder(other) {
                    index = offset + (other.len() - text.len()) as u32;
                    break;
                }
            }
            self.indexes.push(index)?;
        }
        Ok(())
    }

    /// Whether a text ends no longer one.
    fn is_holder(&self, text: &[u8]) -> bool {
        self.values.iter().all(|other| !ends_longer(other, text))
    }

    fn lay_out_blobs(&mut self) -> Result<(), AllocError> {
        if !self.values.is_empty() {
            self.bytes.push(0)?;
        }
        for blob in self.values.iter() {
            self.indexes.push(self.bytes.len() as u32)?;
            let len = blob.len() as u32;
            put_packed(&mut self.bytes, len, packed_width(len))?;
            self.bytes.extend_from_slice(blob)?;
        }
        Ok(())
    }

    fn lay_out_guids(&mut self) -> Result<(), AllocError> {
        for guid in self.values.iter() {
            self.bytes.extend_from_slice(guid)?;
            self.indexes.push((self.bytes.len() / 16) as u32)?;
        }
        Ok(())
    }
}

/// Whether a text is longer than another and ends with it.
fn ends_longer(text: &[u8], other: &[u8]) -> bool {
    text.len() > other.len() && text.ends_with(other)
}

/// The three heaps of a model's cells (II.24.2.3 to II.24.2.5).
#[derive(Drop)]
pub struct Pools<'m> {
    pub texts: Pool<'m>,
    pub blobs: Pool<'m>,
    pub guids: Pool<'m>,
}

/// The heaps of a model, as its canonical root has them.
pub fn pools_of(alloc: Global, model: &PlainModel) -> Result<Pools<'_>, AllocError> {
    let mut pools = Pools {
        texts: Pool::new(alloc)?,
        blobs: Pool::new(alloc)?,
        guids: Pool::new(alloc)?,
    };
    for table in TABLES {
        for cell in model.rows(table).iter().flatten() {
            match cell {
                PlainCell::Text(text) => pools.texts.note(text.as_slice())?,
                PlainCell::Bytes(blob) | PlainCell::Signature(_, blob) => {
                    pools.blobs.note(blob.as_slice())?;
                }
                PlainCell::Guid(Some(guid)) => pools.guids.note(guid.as_slice())?,
                _ => {}
            }
        }
    }
    pools.texts.lay_out_texts()?;
    pools.blobs.lay_out_blobs()?;
    pools.guids.lay_out_guids()?;
    Ok(pools)
}
