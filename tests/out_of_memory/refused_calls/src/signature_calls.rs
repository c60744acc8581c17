use crate::signature_blobs::{BAD, LONGER, SHORTENED, ENCODED, SignatureBlob};
use one_refusal::{Run, Stop, kept};
use signatures::{
    SigError, Signature, decode, encode, recognise, recognise_first_bad, canonical_encoding,
};

/// The signature of a blob, decoded again where memory was refused.
fn decoded(run: &Run, blob: SignatureBlob, bytes: &[u8]) -> Result<Signature, Stop> {
    match decode(run.alloc, bytes, blob.kind) {
        Err(SigError::Memory) => {
            kept(bytes == blob.bytes, "a refused decoding leaves its bytes")?;
            run.again(decode(run.alloc, bytes, blob.kind))
        }
        answer => Ok(answer?),
    }
}

/// A copy of a signature that is equal to its twin, copied again where memory was refused.
fn copied(run: &Run, signature: &Signature, twin: &Signature) -> Result<Signature, Stop> {
    let copy = match signature.copy(run.alloc) {
        Ok(copy) => copy,
        Err(_) => {
            kept(signature == twin, "a refused copy leaves the signature")?;
            run.again(signature.copy(run.alloc))?
        }
    };
    kept(copy == *twin, "a copy is equal")?;
    Ok(copy)
}

/// The encoding of a signature that is equal to its twin, made again when memory was refused.
fn encoded(run: &Run, signature: &Signature, twin: &Signature) -> Result<Vec<u8>, Stop> {
    match encode(run.alloc, signature) {
        Ok(bytes) => Ok(bytes),
        Err(_) => {
            kept(signature == twin, "a refused encoding leaves the signature")?;
            run.again(encode(run.alloc, signature))
        }
    }
}

/// The shortest encoding of the signature of a blob, made again when memory was refused.
fn shortened(run: &Run, blob: SignatureBlob, bytes: &[u8]) -> Result<Vec<u8>, Stop> {
    match canonical_encoding(run.alloc, bytes, blob.kind) {
        Err(SigError::Memory) => {
            kept(bytes == blob.bytes, "a refused encoding leaves its bytes")?;
            run.again(canonical_encoding(run.alloc, bytes, blob.kind))
        }
        answer => Ok(answer?),
    }
}

/// The calls that do not allocate return what is known of a blob.
fn recognised(blob: SignatureBlob, bytes: &[u8]) -> Result<(), Stop> {
    kept(
        recognise(bytes, blob.kind) == blob.first_without_row.is_some(),
        "what is encoded, and no more, is recognised",
    )?;
    kept(
        recognise_first_bad(bytes, blob.kind, &[1; 45]) == blob.first_without_row,
        "the first index without a row is that",
    )
}

/// The encoding of a copy of the signature of a blob is the shortest one.
fn encoded_blob(run: &Run, blob: SignatureBlob, short: &[u8]) -> Result<(), Stop> {
    let bytes = Vec::from_slice(run.alloc, blob.bytes)?;
    let signature = decoded(run, blob, &bytes)?;
    recognised(blob, &bytes)?;
    let twin = decoded(run, blob, &bytes)?;
    kept(signature == twin, "what is decoded twice is equal")?;
    let copy = copied(run, &signature, &twin)?;
    let encoding = encoded(run, &copy, &twin)?;
    kept(encoding.as_slice() == short, "the encoding is the shortest")?;
    let encoding = shortened(run, blob, &bytes)?;
    kept(encoding.as_slice() == short, "bytes are encoded the shortest way")
}

/// Signatures are encoded as they were, each decoded, copied and encoded again when memory was refused.
pub fn all_encoded(run: &Run) -> Result<(), Stop> {
    for blob in ENCODED {
        encoded_blob(run, blob, blob.bytes)?;
    }
    encoded_blob(run, LONGER, &SHORTENED)
}

/// A blob that encodes nothing is bad, whatever memory is refused.
fn bad(run: &Run, blob: SignatureBlob) -> Result<(), Stop> {
    match decode(run.alloc, blob.bytes, blob.kind) {
        Ok(_) => return Err(Stop::Broken("what encodes nothing is not decoded")),
        Err(SigError::Memory) => return Err(Stop::Broken("what encodes nothing does not run out of memory")),
        Err(SigError::Bad) => {}
    }
    kept(
        canonical_encoding(run.alloc, blob.bytes, blob.kind) == Err(SigError::Bad),
        "what encodes nothing has no shortest encoding",
    )?;
    recognised(blob, blob.bytes)
}

/// Types of 129 levels are bad: vectors of vectors, and pointers to methods that return such pointers.
fn deep_are_bad(run: &Run) -> Result<(), Stop> {
    let mut vectors = [0x1D; 129];
    vectors[128] = 0x08;
    bad(run, SignatureBlob::of_type(&vectors))?;
    let mut pointers = [0x00; 385];
    for part in pointers.chunks_mut(3) {
        if let [first, _, _] = part {
            *first = 0x1B;
        }
    }
    pointers[384] = 0x08;
    bad(run, SignatureBlob::of_type(&pointers))
}

/// Each blob that encodes nothing is bad, and makes no allocation: one after it is the first of the section.
pub fn all_bad(run: &Run) -> Result<(), Stop> {
    for blob in BAD {
        bad(run, blob)?;
    }
    deep_are_bad(run)?;
    let _ = Vec::<u8>::with_capacity(run.alloc, 1)?;
    Ok(())
}
