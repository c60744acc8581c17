use crate::shown::{Keyed, Members, run_of};
use model::{KeyNumbers, KeyRows, Model, TableId, Token, View, load_root, open_root};
use std::alloc::Global;
use std::ops::Range;
use std::test::Fail;

/// A root that is opened in place, and the model that is loaded from it.
#[derive(Drop)]
pub struct Both<'a> {
    /// The root in place.
    pub view: View<'a>,
    /// Its model.
    pub model: Model,
}

/// The rows that are found, and how many keys were read to find them, to which going over them adds none.
pub fn collected<K: KeyNumbers>(alloc: Global, found: KeyRows<K>) -> Result<Keyed, Fail> {
    let mut found = found;
    let reads = found.reads();
    let mut rows = Vec::new(alloc);
    while let Some(row) = found.next() {
        rows.push(row)?;
    }
    if found.reads() == reads {
        Ok((rows, reads))
    } else {
        Err(Fail::from("keys are read to go over the rows"))
    }
}

/// The run of members of an owner in a model, where its table has the row.
pub fn run_in_model(model: &Model, members: Members, row: u32) -> Option<Range<u32>> {
    if row == 0 {
        return None;
    }
    match members {
        Members::Fields if row <= model.count(TableId::TypeDef) => Some(model.fields_of(row)),
        Members::Methods if row <= model.count(TableId::TypeDef) => Some(model.methods_of(row)),
        Members::Params if row <= model.count(TableId::MethodDef) => Some(model.params_of(row)),
        Members::Events if row <= model.count(TableId::EventMap) => Some(model.events_of(row)),
        Members::Properties if row <= model.count(TableId::PropertyMap) => Some(model.properties_of(
            row,
        )),
        _ => None,
    }
}

impl<'a> Both<'a> {
    /// A root, opened and loaded.
    pub fn of(alloc: Global, root: &'a [u8]) -> Result<Both<'a>, Fail> {
        let view = open_root(root)?;
        let model = load_root(alloc, root)?;
        Ok(Both { view, model })
    }

    /// The runs of an owner's members, in place and of the model.
    pub fn runs(&self, members: Members, row: u32) -> (Option<Range<u32>>, Option<Range<u32>>) {
        (
            run_of(&self.view, members, row),
            run_in_model(&self.model, members, row),
        )
    }

    /// The first types with both names, in place and of the model.
    pub fn types(&self, namespace: &str, name: &str) -> [Option<u32>; 2] {
        [
            self.view.find_type(namespace, name),
            self.model.find_type(namespace, name),
        ]
    }

    /// The rows of a table with a key, in place and of the model.
    pub fn keyed(&self, alloc: Global, table: TableId, token: Token) -> Result<[Keyed; 2], Fail> {
        Ok([
            collected(alloc, self.view.by_key(table, token))?,
            collected(alloc, self.model.by_key(table, token))?,
        ])
    }
}
