use std::alloc::{AllocError, Global};

/// How many buckets there are.
const COUNT: usize = 256;

/// The offsets of values, by their first bytes, so that an equal one is found soon.
#[derive(Drop)]
pub struct Buckets {
    offsets: Vec<Vec<usize>>,
}

impl Buckets {
    /// No values.
    pub fn new(alloc: Global) -> Result<Buckets, AllocError> {
        let mut offsets = Vec::with_capacity(alloc, COUNT)?;
        for _bucket in 0..COUNT {
            offsets.push(Vec::new(alloc))?;
        }
        Ok(Buckets { offsets })
    }

    /// Notes the offset of a value.
    pub fn note(&mut self, value: &[u8], offset: usize) -> Result<(), AllocError> {
        self.offsets[bucket_of(value)].push(offset)?;
        Ok(())
    }

    /// The offsets of the values among which a value is.
    pub fn near(&self, value: &[u8]) -> &[usize] {
        self.offsets[bucket_of(value)].as_slice()
    }
}

fn bucket_of(value: &[u8]) -> usize {
    let mut sum = value.len();
    for byte in value.iter().take(16) {
        sum = sum.wrapping_mul(31).wrapping_add(*byte as usize);
    }
    sum % COUNT
}
