//! Tests of `print_until_fault`: the rows that are printed before the first fault of a root.

use cli_cells::{Names, print_until_fault};
use cli_files::Input;
use cli_lines::{Form, Printer};
use sample_roots::{TWO_TYPES, changed};
use std::alloc::Global;
use std::slice;
use std::test::Fail;
use table_schema::TableId;

const TYPES: &str = "\
table 02 TypeDef 2
1: 0 \"<Module>\" \"\" null +1 +1
2: 1048577 \"C\" \"N\" null +1 +1
";

const FIRST_FIELD: &str = "\
table 04 Field 2
1: 1 \"a\" <0608>
";

const LATER: &str = "\
2: 1 \"b\" <0608>
table 06 MethodDef 1
1: 0 0 6 \"M\" <000001> +1
";

/// What is printed of the sample with some bytes changed, and the code and the offset of the fault.
fn until_fault(
    alloc: Global,
    changes: &[(usize, u8)],
    table: Option<TableId>,
) -> Result<(String, Option<(u16, u64)>), Fail> {
    let root = changed(alloc, &TWO_TYPES, changes)?;
    let tables = match &table {
        Some(table) => slice::from_ref(table),
        None => TableId::all(),
    };
    let mut out = Vec::new(alloc);
    let mut printer = Printer::new(alloc, Form::Text, &mut out);
    let fault = match print_until_fault(alloc, &root, Input::BareRoot, tables, Names::Hidden, &mut printer) {
        Ok(()) => None,
        Err(fault) => Some((fault.code, fault.offset)),
    };
    let (_, sent) = printer.finish();
    if sent.is_err() {
        return Err("no output".into());
    }
    Ok((String::from_utf8(out).ok().ok_or("no text")?, fault))
}

/// Without a fault, the rows are those of `clim show`.
#[test]
fn prints_all_rows_without_a_fault(rt: HostRuntime) -> Result<(), Fail> {
    let (text, fault) = until_fault(rt.alloc(), &[], None)?;
    let whole = format!(in rt.alloc(); "{TYPES}{FIRST_FIELD}{LATER}")?;
    assert_eq!(rt; (text.as_str(), fault), (whole.as_str(), None));
    let (text, fault) = until_fault(rt.alloc(), &[], Some(TableId::TypeDef))?;
    assert_eq!(rt; (text.as_str(), fault), (TYPES, None));
    Ok(())
}

/// The first broken cell ends the rows. A table without a row before it has no line.
#[test]
fn prints_the_rows_before_a_broken_cell(rt: HostRuntime) -> Result<(), Fail> {
    let before = format!(in rt.alloc(); "{TYPES}{FIRST_FIELD}")?;
    for (offset, wanted) in [(152, before.as_str()), (146, TYPES), (120, "")] {
        let (text, fault) = until_fault(rt.alloc(), &[(offset, 99)], None)?;
        assert_eq!(rt; (text.as_str(), fault), (wanted, Some((501, offset as u64))));
    }
    for (table, wanted) in [
        (TableId::Module, ""),
        (TableId::TypeDef, TYPES),
        (TableId::Field, FIRST_FIELD),
        (TableId::MethodDef, ""),
    ] {
        let (text, fault) = until_fault(rt.alloc(), &[(152, 99)], Some(table))?;
        assert_eq!(rt; (text.as_str(), fault), (wanted, Some((501, 152))));
    }
    Ok(())
}

/// After the cells, signatures are checked. The blob of one that is invalid is printed as it is.
#[test]
fn prints_all_rows_before_a_broken_signature(rt: HostRuntime) -> Result<(), Fail> {
    let (text, fault) = until_fault(rt.alloc(), &[(194, 7)], Some(TableId::Field))?;
    let fields = "table 04 Field 2\n1: 1 \"a\" <0708>\n2: 1 \"b\" <0708>\n";
    assert_eq!(rt; (text.as_str(), fault), (fields, Some((701, 148))));
    Ok(())
}

/// A root whose header breaks a rule has no rows.
#[test]
fn prints_no_rows_before_a_broken_header(rt: HostRuntime) -> Result<(), Fail> {
    let (text, fault) = until_fault(rt.alloc(), &[(0, 0)], None)?;
    assert_eq!(rt; (text.as_str(), fault), ("", Some((301, 0))));
    Ok(())
}
