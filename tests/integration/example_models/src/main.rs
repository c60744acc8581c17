//! Prints the types of a model that was loaded from a metadata root, each with its methods as they are declared: with the
//! names of their types and parameters. The bytes of the root are dropped before.
#![tactic(auto)]

use anyhow::{Context, Result};
use model::{TableId, Token, load_root, write_full_name, write_method};
use std::{env, fs};

fn main(rt: HostRuntime) -> Result<()> {
    let root = fs::read(&rt, env::args(&rt)?.last().context("which root?")?.as_str())?;
    let model = load_root(rt.alloc(), &root)?;
    drop(root);
    for row in 1..model.count(TableId::TypeDef) + 1 {
        let mut text = String::new(rt.alloc());
        write_full_name(rt.alloc(), &model, Token { table: TableId::TypeDef, row }, &mut text)?;
        for method in model.methods_of(row) {
            text.push_str("\n  ")?;
            write_method(rt.alloc(), &model, method, &mut text)?;
        }
        println!(rt; "{text}")?;
    }
    Ok(())
}
