//! Prints the types of a metadata root, each with its methods as they are declared: with the names of their types and
//! parameters. The root is opened in place, and nothing of it is copied.
#![tactic(auto)]

use anyhow::{Context, Result};
use model::{TableId, Token, open_root, write_full_name, write_method};
use std::{env, fs};

fn main(rt: HostRuntime) -> Result<()> {
    let root = fs::read(&rt, env::args(&rt)?.last().context("which root?")?.as_str())?;
    let view = open_root(&root)?;
    for row in 1..view.count(TableId::TypeDef) + 1 {
        let mut text = String::new(rt.alloc());
        write_full_name(rt.alloc(), &view, Token { table: TableId::TypeDef, row }, &mut text)?;
        for method in view.methods_of(row) {
            text.push_str("\n  ")?;
            write_method(rt.alloc(), &view, method, &mut text)?;
        }
        println!(rt; "{text}")?;
    }
    Ok(())
}
