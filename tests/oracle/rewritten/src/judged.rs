use crate::copied::copied_tables;
use owned_model::{Model, load_image, load_root};
use std::alloc::{AllocError, Global};
use writer::write_root;

/// How a root begins (II.24.2.1); a file begins otherwise.
const SIGNATURE: &[u8] = b"BSJB";

/// How long a file is at most of which each prefix is loaded too, and the file with each byte changed.
const SMALL: usize = 2048;

/// The model of a file, or of a bare root.
fn loaded(alloc: Global, bytes: &[u8], is_root: bool) -> Option<Model> {
    if is_root {
        return load_root(alloc, bytes).ok();
    }
    let (_, model) = load_image(alloc, bytes).ok()?;
    Some(model)
}

/// What is not as it has to be of a model and of its canonical root.
fn judge_model(alloc: Global, model: &Model) -> Result<(), &'static str> {
    let tables = copied_tables(alloc, model).map_err(|_| "out of memory")?;
    let tables = tables.ok_or("a copy of a row is refused")?;
    let copied = Model::from_tables(tables).map_err(|_| "a copy of its tables is refused")?;
    if *model != copied {
        return Err("a copy of its tables makes another model");
    }
    let root = write_root(alloc, model).map_err(|_| "its root is not written")?;
    let again = load_root(alloc, &root).map_err(|_| "its canonical root does not load")?;
    if *model != again {
        return Err("its canonical root loads to another model");
    }
    let rewritten = write_root(alloc, &again).map_err(|_| "its root is not written again")?;
    if root != rewritten {
        return Err("its canonical root is written otherwise");
    }
    Ok(())
}

/// What is not as it has to be of a file, if it loads. A model whose canonical root is one that was judged is not
/// judged again.
fn judge_loaded(
    alloc: Global,
    bytes: &[u8],
    is_root: bool,
    judged: &[u8],
) -> Result<(), &'static str> {
    let Some(model) = loaded(alloc, bytes, is_root) else {
        return Ok(());
    };
    let root = write_root(alloc, &model).map_err(|_| "its root is not written")?;
    if root.as_slice() == judged {
        return Ok(());
    }
    judge_model(alloc, &model)
}

/// What is not as it has to be of what loads among the prefixes of a file, and among the files that have one byte
/// 00 or FF in its place.
fn judge_changed(
    alloc: Global,
    bytes: &[u8],
    is_root: bool,
    judged: &[u8],
) -> Result<(), &'static str> {
    for end in 0..bytes.len() {
        judge_loaded(alloc, &bytes[..end], is_root, judged)?;
    }
    for offset in 0..bytes.len() {
        for byte in [0, 0xFF] {
            let changed = with_byte(alloc, bytes, offset, byte).map_err(|_| "out of memory")?;
            judge_loaded(alloc, &changed, is_root, judged)?;
        }
    }
    Ok(())
}

/// The bytes, with another one at an offset.
fn with_byte(alloc: Global, bytes: &[u8], offset: usize, byte: u8) -> Result<Vec<u8>, AllocError> {
    let mut changed = bytes.to_vec(alloc)?;
    changed[offset] = byte;
    Ok(changed)
}

/// What is not as it has to be of a file that loads, and of a small one with changes.
pub fn judged(alloc: Global, bytes: &[u8]) -> Result<(), &'static str> {
    let is_root = bytes.starts_with(SIGNATURE);
    let model = loaded(alloc, bytes, is_root).ok_or("it does not load")?;
    judge_model(alloc, &model)?;
    if bytes.len() > SMALL {
        return Ok(());
    }
    let root = write_root(alloc, &model).map_err(|_| "its root is not written")?;
    judge_changed(alloc, bytes, is_root, &root)
}
