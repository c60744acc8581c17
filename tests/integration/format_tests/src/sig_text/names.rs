use schema::TableId;
use sig_text::{NamedText, SigKind, Token, TokenNames, write_signature};
use std::alloc::Global;
use std::fmt;
use std::test::Fail;

/// Names a row by a letter for its table and its number there: `r1` is the first row of TypeRef.
#[derive(Clone, Copy)]
pub struct Letters;

impl TokenNames for Letters {
    fn write_name<W: fmt::Write>(&self, token: Token, writer: &mut W) -> fmt::Result {
        let letter = match token.table {
            TableId::TypeDef => 'd',
            TableId::TypeRef => 'r',
            _ => 's',
        };
        write!(writer, "{letter}{}", token.row)
    }
}

/// The text of a signature in a column of this kind.
pub fn shown(alloc: Global, bytes: &[u8], kind: SigKind) -> Result<String, Fail> {
    let mut sink = NamedText::new(String::new(alloc), Letters);
    write_signature(&mut sink, bytes, kind).ok_or("a text")?;
    Ok(sink.writer)
}
