use crate::errors::{not_loaded, not_written};
use one_refusal::{Run, Stop, kept};
use opening::open_root;
use owned_model::{LoadError, Model, load_root};
use std::io;
use std::io::Write;
use writer::{
    Counted, Prepared, Sink, WriteError, prepare, write_root, write_root_to, write_root_within,
};

/// Bytes in place, of which each call takes a few, so that no memory is needed.
#[derive(Drop)]
struct Buffer {
    bytes: [u8; 256],
    len: usize,
}

impl Buffer {
    /// No bytes.
    fn new() -> Buffer {
        Buffer {
            bytes: [0; 256],
            len: 0,
        }
    }

    /// Whether these bytes were taken.
    fn holds(&self, bytes: &[u8]) -> bool {
        self.bytes.get(..self.len) == Some(bytes)
    }
}

impl Write for Buffer {
    fn write(&mut self, bytes: &[u8]) -> io::Result<usize> {
        let mut taken = 0usize;
        for byte in bytes.iter().take(7) {
            if let Some(slot) = self.bytes.get_mut(self.len) {
                *slot = *byte;
                self.len = self.len.saturating_add(1);
                taken = taken.saturating_add(1);
            }
        }
        Ok(taken)
    }

    fn flush(&mut self) -> io::Result<()> {
        Ok(())
    }
}

/// The model of a root, loaded again where memory was refused.
fn loaded(run: &Run, root: &[u8]) -> Result<Model, Stop> {
    match load_root(run.alloc, root) {
        Err(LoadError::Memory) => run.again(load_root(run.alloc, root)),
        answer => answer.map_err(not_loaded),
    }
}

/// The root of a model that is equal to its twin, prepared again where memory was refused.
fn prepared(run: &Run, model: &Model, twin: &Model) -> Result<Prepared, Stop> {
    match prepare(run.alloc, model, 200) {
        Err(WriteError::Memory) => {
            kept(
                model == twin,
                "a root that is not prepared leaves the model",
            )?;
            run.again(prepare(run.alloc, model, 200))
        }
        answer => answer.map_err(not_written),
    }
}

/// The root of a view's model, prepared again where memory was refused.
fn prepared_in_place(run: &Run, root: &[u8]) -> Result<Prepared, Stop> {
    let Ok(view) = open_root(root) else {
        return Err(Stop::Broken("a root that has a model is opened"));
    };
    match prepare(run.alloc, &view, 200) {
        Err(WriteError::Memory) => run.again(prepare(run.alloc, &view, 200)),
        answer => answer.map_err(not_written),
    }
}

/// The root of a model that is equal to its twin, written again where memory was refused.
fn written(run: &Run, model: &Model, twin: &Model) -> Result<Vec<u8>, Stop> {
    match write_root(run.alloc, model) {
        Err(WriteError::Memory) => {
            kept(model == twin, "a root that is not written leaves the model")?;
            run.again(write_root(run.alloc, model))
        }
        answer => answer.map_err(not_written),
    }
}

/// The root of a model, given out again where memory was refused.
fn given_out(run: &Run, model: &Model) -> Result<Buffer, Stop> {
    let mut sink = Counted::new(Buffer::new());
    match write_root_to(run.alloc, model, &mut sink) {
        Err(WriteError::Memory) => {
            let failures = sink.failures();
            let buffer = sink.into_inner();
            kept(
                failures == 0,
                "no call of a sink fails where memory is refused",
            )?;
            kept(
                buffer.holds(&[]),
                "no byte goes out where memory is refused",
            )?;
            sink = Counted::new(buffer);
            run.again(write_root_to(run.alloc, model, &mut sink))?;
        }
        answer => answer.map_err(not_written)?,
    }
    Ok(sink.into_inner())
}

/// That the model of a root has this canonical root, written in each way.
pub fn is_written(run: &Run, from: &[u8], root: &[u8]) -> Result<(), Stop> {
    let model = loaded(run, from)?;
    let twin = loaded(run, from)?;
    let made = prepared(run, &model, &twin)?;
    kept(
        made.bytes() == root,
        "the bytes of a prepared root are those",
    )?;
    kept(
        given_out(run, &model)?.holds(root),
        "the bytes that go out are those",
    )?;
    let root_bytes = written(run, &model, &twin)?;
    kept(
        root_bytes.as_slice() == root,
        "the bytes of a written root are those",
    )
}

/// That the model of a view has this canonical root, prepared without a model.
pub fn is_prepared_in_place(run: &Run, from: &[u8], root: &[u8]) -> Result<(), Stop> {
    let made = prepared_in_place(run, from)?;
    kept(
        made.bytes() == root,
        "the bytes of a root that is prepared of a view are those",
    )
}

/// That the model of a canonical root is written within the length of that root.
pub fn is_written_within(run: &Run, root: &[u8]) -> Result<(), Stop> {
    let model = loaded(run, root)?;
    let limit = root.len() as u32;
    let made = match write_root_within(run.alloc, &model, limit) {
        Err(WriteError::Memory) => run.again(write_root_within(run.alloc, &model, limit))?,
        answer => answer.map_err(not_written)?,
    };
    kept(
        made.as_slice() == root,
        "the bytes of a root that is written within its length are those",
    )
}
