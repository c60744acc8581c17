use std::alloc::Global;
use std::io;
use std::io::{ErrorKind, Write};

/// What a writer does when it is called.
#[derive(Clone, Copy, Debug, PartialEq, Eq)]
pub enum Step {
    /// It takes this number of bytes, or all if there are fewer.
    Take(usize),
    /// It fails.
    Fail,
    /// It is interrupted.
    Interrupt,
}

/// A writer into memory that follows a list of steps, one a call, and after the last one takes all.
#[derive(Drop)]
pub struct Scripted<'a> {
    bytes: Vec<u8>,
    steps: &'a [Step],
}

impl<'a> Scripted<'a> {
    /// A writer that holds no bytes.
    pub fn new(alloc: Global, steps: &'a [Step]) -> Scripted<'a> {
        Scripted {
            bytes: Vec::new(alloc),
            steps,
        }
    }

    /// The bytes that were taken.
    pub fn bytes(&self) -> &[u8] {
        &self.bytes
    }

    /// The step of the next call.
    fn next(&mut self) -> Step {
        match self.steps {
            [step, tail @ ..] => {
                self.steps = tail;
                *step
            }
            [] => Step::Take(usize::MAX),
        }
    }
}

impl Write for Scripted<'_> {
    ghost use Rattle.std.specs.Prelude.{◌≡◌, Some};

    ghost contents = { λ writer. Some writer.bytes.items };

    fn write(&mut self, bytes: &[u8]) -> io::Result<usize> {
        match self.next() {
            Step::Take(count) => {
                let taken = count.min(bytes.len());
                let (prefix, _) = bytes.split_at(taken);
                self.bytes.extend_from_slice(prefix)?;
                Ok(taken)
            }
            Step::Fail => Err(io::Error::from(ErrorKind::Other)),
            Step::Interrupt => Err(io::Error::from(ErrorKind::Interrupted)),
        }
    }

    fn flush(&mut self) -> io::Result<()> {
        Ok(())
    }
}
