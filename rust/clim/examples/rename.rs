//! Renames the types of a file that have a name, and writes the copy: rename FILE OLD NEW COPY
use clim::rows::TypeDef;
use clim::{Cell, StrongName, Table, Tables, Token, View};
use std::{env, fs};

/// The column of the name of a type.
const TYPE_NAME: usize = 1;

fn main() -> Result<(), Box<dyn std::error::Error>> {
    let arguments: Vec<_> = env::args().skip(1).collect();
    let [path, old, new, copy] = &arguments[..] else {
        return Err("rename FILE OLD NEW COPY".into());
    };
    let file = fs::read(path)?;
    let view = View::open(&file)?;
    let mut tables = Tables::of(&view);
    for (row, it) in (1..).zip(view.rows::<TypeDef>()) {
        if it.type_name == old {
            tables.set(Token { table: Table::TypeDef, row }, TYPE_NAME, Cell::Text(new));
        }
    }
    fs::write(copy, clim::embed(&file, &tables.root()?, StrongName::Keep)?)?;
    let file = fs::read(copy)?;
    let view = View::open(&file)?;
    (1..=view.count(Table::TypeDef)).for_each(|row| println!("{}", view.full_name(row)));
    Ok(())
}
