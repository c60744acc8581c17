//! Tests of tables that a program fills, on samples too, and on the file that CLIM_TEST_FILE names: a bare root if its name
//! ends in `.root`.

use clim::rows::*;
use clim::{BuildError, Cell, Guid, Refusal, Signature, Table, Tables, Token, View};
use std::{env, fs};

const MVID: Guid = Guid(*b"0123456789abcdef");

/// Runs a test on each file.
fn each(test: impl Fn(&View)) {
    let read = |name: &str| fs::read(format!("{}/../../samples/{name}", env!("CARGO_MANIFEST_DIR"))).expect("a sample");
    test(&View::open(&read("one_module.dll")).expect("a file"));
    for name in ["one_module.root", "two_types.root", "greeter.root", "empty.root", "two_strings.root"] {
        test(&View::open_root(&read(name)).expect("a root"));
    }
    if let Ok(path) = env::var("CLIM_TEST_FILE") {
        let file = fs::read(&path).expect("a file");
        let opened = if path.ends_with(".root") { View::open_root(&file) } else { View::open(&file) };
        test(&opened.expect("a valid file"));
    }
}

/// The token of a row.
fn token(table: Table, row: u32) -> Token {
    Token { table, row }
}

/// Adds a type, whose fields and methods are those that are added next.
fn add_type(tables: &mut Tables, type_name: &str, type_namespace: &str, extends: Option<Token>) -> Token {
    let (field_list, method_list) = (tables.next_row(Table::Field), tables.next_row(Table::MethodDef));
    tables.add(&TypeDef { flags: 1, type_name, type_namespace, extends, field_list, method_list })
}

/// A module, a reference, types of which one is nested, a field, a method with a parameter, and a type of a signature.
fn sample() -> Tables {
    let mut tables = Tables::new("v4.0.30319");
    let module = Module { generation: 0, name: "one.dll", mvid: Some(MVID), enc_id: None, enc_base_id: None };
    let scope = tables.add(&module);
    let object = TypeRef { resolution_scope: Some(scope), type_name: "Object", type_namespace: "System" };
    let base = tables.add(&object);
    add_type(&mut tables, "<Module>", "", None);
    let outer = add_type(&mut tables, "Greeter", "Hello", Some(base));
    tables.add(&Field { flags: 6, name: "count", signature: Signature(b"\x06\x08") });
    let param_list = tables.next_row(Table::Param);
    let signature = Signature(b"\x20\x01\x01\x08");
    tables.add(&MethodDef { rva: 0, impl_flags: 0, flags: 6, name: "Greet", signature, param_list });
    tables.add(&Param { flags: 0, sequence: 1, name: "times" });
    let inner = add_type(&mut tables, "Inner", "", None);
    tables.add(&NestedClass { nested_class: inner, enclosing_class: outer });
    tables.add(&TypeSpec { signature: Signature(b"\x1d\x12\x05") });
    tables
}

#[test]
fn rows_are_those_that_were_added() {
    let mut tables = sample();
    tables.set_user(b"\0\x03A\0\0");
    assert_eq!((tables.count(Table::TypeDef), tables.count(Table::File)), (3, 0));
    let root = tables.root().expect("valid tables");
    let view = View::open_root(&root).expect("a root");
    assert_eq!(view.canonical_root().as_ref(), Ok(&root));
    assert_eq!((view.version(), view.user()), ("v4.0.30319", &b"\0\x03A\0\0\0\0\0"[..]));
    let module: Module = view.row(1).expect("a row");
    assert_eq!((module.name, module.mvid, module.enc_id), ("one.dll", Some(MVID), None));
    assert_eq!(view.full_name(3), "Hello.Greeter/Inner");
    assert_eq!((view.methods_of(1), view.methods_of(2), view.fields_of(3)), (1..1, 1..2, 2..2));
    let greeter: TypeDef = view.row(2).expect("a row");
    assert_eq!((greeter.extends, view.params_of(1)), (Some(token(Table::TypeRef, 1)), 1..2));
    assert_eq!(view.row::<MethodDef>(1).expect("a row").signature, Signature(b"\x20\x01\x01\x08"));
    for table in Table::ALL {
        assert_eq!(view.count(table), tables.count(table), "{table}");
    }
    assert_eq!(Tables::of(&view).root(), Ok(root.clone()));
}

#[test]
fn tables_of_a_view_make_its_canonical_root() {
    each(|view| {
        let tables = Tables::of(view);
        let root = view.canonical_root().expect("a canonical root");
        assert!(tables.root().expect("valid tables") == root);
        assert!(tables.clone().root().expect("valid tables") == root);
    });
}

/// The rows of a table that are read and added again are the same.
fn copy_rows<'a, R: clim::Row<'a>>(view: &View<'a>, tables: &mut Tables) {
    for row in view.rows::<R>() {
        tables.add(&row);
    }
}

macro_rules! copy_all {
    ($view:expr, $tables:expr, $($table:ident)*) => {
        assert_eq!([$(Table::$table),*], Table::ALL);
        $(copy_rows::<$table>($view, $tables);)*
    };
}

#[test]
fn rows_are_copied_as_structs() {
    each(|view| {
        let mut tables = Tables::new(view.version());
        tables.set_user(view.user());
        copy_all!(view, &mut tables, Module TypeRef TypeDef Field MethodDef Param InterfaceImpl MemberRef Constant
            CustomAttribute FieldMarshal DeclSecurity ClassLayout FieldLayout StandAloneSig EventMap Event PropertyMap
            Property MethodSemantics MethodImpl ModuleRef TypeSpec ImplMap FieldRVA Assembly AssemblyProcessor AssemblyOS
            AssemblyRef AssemblyRefProcessor AssemblyRefOS File ExportedType ManifestResource NestedClass GenericParam
            MethodSpec GenericParamConstraint);
        assert!(tables.root() == view.canonical_root().map_err(BuildError::from));
    });
}

#[test]
fn a_cell_is_set() {
    let mut tables = sample();
    let before = tables.root().expect("valid tables");
    assert!(tables.set(token(Table::TypeDef, 2), 1, Cell::Text("Welcomer")));
    let after = tables.root().expect("valid tables");
    let (before, after) = (View::open_root(&before).expect("a root"), View::open_root(&after).expect("a root"));
    let wanted = clim::Difference::Cell { row: token(Table::TypeDef, 2), column: 1 };
    assert_eq!((before.difference(&after), after.full_name(2)), (Ok(Some(wanted)), "Hello.Welcomer".into()));
    for (row, column) in [(0, 1), (4, 1), (u32::MAX, 1), (2, 6), (2, usize::MAX)] {
        assert!(!tables.set(token(Table::TypeDef, row), column, Cell::Text("a")));
    }
    assert!(!tables.set(token(Table::File, 1), 0, Cell::Number(0)));
}

/// The refusal of the sample with another cell.
fn refused(row: Token, column: usize, cell: Cell) -> Refusal {
    let mut tables = sample();
    assert!(tables.set(row, column, cell));
    match tables.root() {
        Err(BuildError::Refused(refusal)) => refusal,
        other => panic!("{other:?}"),
    }
}

#[test]
fn rules() {
    let inner = token(Table::TypeDef, 3);
    let wanted = [
        (inner, 3, Cell::Row(Some(token(Table::TypeRef, 2))), "refusal 5 506 at TypeDef 3 Extends: BadIndex"),
        (inner, 3, Cell::Row(Some(token(Table::Module, 1))), "refusal 5 509 at TypeDef 3 Extends: BadCell"),
        (inner, 1, Cell::Blob(b"a"), "refusal 5 509 at TypeDef 3 TypeName: BadCell"),
        (inner, 1, Cell::Text("a\0b"), "refusal 5 509 at TypeDef 3 TypeName: BadCell"),
        (inner, 1, Cell::Signature(Signature(b"\x06\x08")), "refusal 5 509 at TypeDef 3 TypeName: BadCell"),
        (inner, 4, Cell::Start(4), "refusal 5 507 at TypeDef 3 FieldList: BadList"),
        (inner, 4, Cell::Start(0), "refusal 6 602 at TypeDef 3 FieldList: BadRun"),
        (token(Table::NestedClass, 1), 0, Cell::Row(None), "refusal 5 506 at NestedClass 1 NestedClass: BadIndex"),
        (token(Table::NestedClass, 1), 1, Cell::Row(Some(inner)), "refusal 6 604 at NestedClass 1 EnclosingClass: NestedOrder"),
        (token(Table::Field, 1), 2, Cell::Signature(Signature(b"\x06")), "refusal 7 701 at Field 1 Signature: BadSignature"),
        (token(Table::TypeSpec, 1), 0, Cell::Signature(Signature(b"\x1d\x12\x09")), "refusal 7 702 at TypeSpec 1 Signature: SignatureIndex"),
    ];
    for (row, column, cell, text) in wanted {
        let refusal = refused(row, column, cell);
        assert_eq!(refusal.to_string(), text);
        assert_eq!((refusal.table, refusal.row, refusal.column), (Some(row.table), Some(row.row), Some(column)));
        assert!(refusal.explanation().expect("a text").starts_with(&refusal.code.to_string()));
        assert_eq!(BuildError::Refused(refusal).to_string(), text);
    }
}

#[test]
fn rules_that_are_about_no_cell() {
    let versioned = Tables::new(&"v".repeat(255)).root();
    let mut short = Tables::new("v4.0.30319");
    let row = short.push(Table::Module, &[Cell::Number(0)]);
    assert_eq!(row, token(Table::Module, 1));
    let mut long = Tables::new("v4.0.30319");
    long.push(Table::ModuleRef, &[Cell::Text("a"), Cell::Signature(Signature(b"\x06\x08"))]);
    let mut alone = Tables::new("v4.0.30319");
    alone.add(&Event { event_flags: 0, name: "Greeted", event_type: None });
    for (root, text) in [
        (versioned, "refusal 3 302: Version"),
        (short.root(), "refusal 5 509 at Module 1 Generation: BadCell"),
        (long.root(), "refusal 5 509 at ModuleRef 1: BadCell"),
        (alone.root(), "refusal 6 603 at Event 1 EventFlags: NoOwner"),
    ] {
        assert_eq!(root.expect_err("a refusal").to_string(), text);
    }
    assert_eq!(Tables::new("").root().map(|root| View::open_root(&root).is_ok()), Ok(true));
}
