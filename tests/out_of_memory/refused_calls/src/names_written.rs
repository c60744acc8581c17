use crate::errors::not_loaded;
use declarations::write_method;
use full_names::{ReadCells, TableId, TextError, Token, write_full_name};
use one_refusal::{Run, Stop, kept};
use opening::open_root;
use owned_model::{LoadError, Model, load_root};
use sample_roots::TWO_TYPES;
use std::fmt;

/// A text in place, so that no memory is needed.
#[derive(Drop)]
struct Text {
    bytes: [u8; 32],
    len: usize,
}

impl Text {
    /// No bytes.
    fn new() -> Text {
        Text {
            bytes: [0; 32],
            len: 0,
        }
    }

    /// Whether this text was written.
    fn holds(&self, text: &str) -> bool {
        self.bytes.get(..self.len) == Some(text.as_bytes())
    }
}

impl fmt::Write for Text {
    fn write_str(&mut self, text: &str) -> fmt::Result {
        for byte in text.as_bytes() {
            let Some(slot) = self.bytes.get_mut(self.len) else {
                return Err(fmt::Error);
            };
            *slot = *byte;
            self.len = self.len.saturating_add(1);
        }
        Ok(())
    }
}

/// What it means that a short text is not written in place.
fn not_named(error: TextError) -> Stop {
    match error {
        TextError::Memory => Stop::Memory,
        TextError::Writer => Stop::Broken("a text in place has room"),
    }
}

/// The name of the second type, written again where memory was refused.
fn type_name<S: ReadCells>(run: &Run, source: &S) -> Result<Text, Stop> {
    let token = Token {
        table: TableId::TypeDef,
        row: 2,
    };
    let mut text = Text::new();
    match write_full_name(run.alloc, source, token, &mut text) {
        Err(TextError::Memory) => {
            text = Text::new();
            run.again(write_full_name(run.alloc, source, token, &mut text))?;
        }
        answer => answer.map_err(not_named)?,
    }
    Ok(text)
}

/// The declaration of the method, written again where memory was refused.
fn declaration<S: ReadCells>(run: &Run, source: &S) -> Result<Text, Stop> {
    let mut text = Text::new();
    match write_method(run.alloc, source, 1, &mut text) {
        Err(TextError::Memory) => {
            kept(text.holds(""), "no text is written before the signature is there")?;
            run.again(write_method(run.alloc, source, 1, &mut text))?;
        }
        answer => answer.map_err(not_named)?,
    }
    Ok(text)
}

/// The model of a root, loaded again where memory was refused.
fn loaded(run: &Run, root: &[u8]) -> Result<Model, Stop> {
    match load_root(run.alloc, root) {
        Err(LoadError::Memory) => run.again(load_root(run.alloc, root)),
        answer => answer.map_err(not_loaded),
    }
}

/// That a type and a method have their names, of a view and of a model.
pub fn are_named(run: &Run) -> Result<(), Stop> {
    let Ok(view) = open_root(&TWO_TYPES) else {
        return Err(Stop::Broken("a root that has a model is opened"));
    };
    let model = loaded(run, &TWO_TYPES)?;
    kept(type_name(run, &view)?.holds("N.C"), "the type of a view has its name")?;
    kept(type_name(run, &model)?.holds("N.C"), "the type of a model has its name")?;
    let declared = "void N.C::M()";
    kept(
        declaration(run, &view)?.holds(declared),
        "the method of a view has its declaration",
    )?;
    kept(
        declaration(run, &model)?.holds(declared),
        "the method of a model has its declaration",
    )
}
