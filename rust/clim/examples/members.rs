//! Lists the types of a file with their fields and methods: members FILE
use clim::rows::{Field, MethodDef};
use clim::{Table, View};

fn main() -> Result<(), Box<dyn std::error::Error>> {
    let file = std::fs::read(std::env::args().nth(1).ok_or("members FILE")?)?;
    let view = View::open(&file)?;
    for row in 1..=view.count(Table::TypeDef) {
        println!("{}", view.full_name(row));
        view.rows_in::<Field>(view.fields_of(row)).for_each(|it| println!("  {}", it.name));
        view.rows_in::<MethodDef>(view.methods_of(row)).for_each(|it| println!("  {}", it.name));
    }
    Ok(())
}
