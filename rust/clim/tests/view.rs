//! Tests on the samples, and on the file that CLIM_TEST_FILE names: a bare root if its name ends in `.root`.

use clim::rows::*;
use clim::{
    check, check_root, check_root_within, check_within, offset_of, read_header, BoundedError, BuildError, Cell, CompareError,
    Difference, Fault, RootError, Row, Table, Tables, TextError, Token, Unsupported, View,
};
use std::collections::BTreeMap;
use std::error::Error;
use std::{env, fs, thread};

/// The bytes of a sample.
fn sample(name: &str) -> Vec<u8> {
    fs::read(format!("{}/../../samples/{name}", env!("CARGO_MANIFEST_DIR"))).expect("a sample")
}

/// Runs a test on each file.
fn each(test: impl Fn(&View)) {
    test(&View::open(&sample("one_module.dll")).expect("a file"));
    for name in ["one_module.root", "two_types.root", "greeter.root", "empty.root"] {
        test(&View::open_root(&sample(name)).expect("a root"));
    }
    if let Ok(path) = env::var("CLIM_TEST_FILE") {
        let file = fs::read(&path).expect("a file");
        let opened = if path.ends_with(".root") { View::open_root(&file) } else { View::open(&file) };
        test(&opened.expect("a valid file"));
    }
}

/// The rows of a table are those of its single cells, in order.
fn compare_rows<'a, R: Row<'a> + PartialEq + std::fmt::Debug>(view: &View<'a>) {
    let names: Vec<_> = R::TABLE.columns().collect();
    assert_eq!(names, R::COLUMNS);
    let rows: Vec<R> = view.rows().collect();
    assert_eq!(rows.len(), view.count(R::TABLE) as usize);
    assert_eq!(view.rows::<R>().len(), rows.len());
    let step = rows.len() / 500 + 1;
    for (number, row) in (1..).zip(&rows).step_by(step) {
        let cells = (0..names.len()).map(|column| view.cell(R::TABLE, number, column).expect("a cell"));
        assert_eq!(R::from_cells(cells).as_ref(), Some(row));
        assert_eq!(view.row::<R>(number).as_ref(), Some(row));
    }
    assert!(view.row::<R>(0).is_none() && view.row::<R>(view.count(R::TABLE) + 1).is_none());
    assert!(view.row::<R>(u32::MAX).is_none());
}

macro_rules! compare_all {
    ($view:expr, $($table:ident)*) => {
        assert_eq!([$(Table::$table),*], Table::ALL);
        $(
            assert_eq!(Table::$table.name(), stringify!($table));
            compare_rows::<$table>($view);
        )*
    };
}

#[test]
fn rows_are_those_of_single_cells() {
    each(|view| {
        compare_all!(view, Module TypeRef TypeDef Field MethodDef Param InterfaceImpl MemberRef Constant CustomAttribute
            FieldMarshal DeclSecurity ClassLayout FieldLayout StandAloneSig EventMap Event PropertyMap Property
            MethodSemantics MethodImpl ModuleRef TypeSpec ImplMap FieldRVA Assembly AssemblyProcessor AssemblyOS
            AssemblyRef AssemblyRefProcessor AssemblyRefOS File ExportedType ManifestResource NestedClass GenericParam
            MethodSpec GenericParamConstraint);
    });
}

#[test]
fn columns_are_those_of_single_cells() {
    each(|view| {
        for table in Table::ALL {
            for column in 0..table.columns().count() {
                assert_eq!(view.column(table, column).count(), view.count(table) as usize);
                let step = view.count(table) as usize / 100 + 1;
                for (row, cell) in (1..).zip(view.column(table, column)).step_by(step) {
                    assert_eq!(view.cell(table, row, column), Some(cell));
                }
            }
            assert_eq!(view.column(table, 99).next(), None);
            let mut none = view.column(table, usize::MAX);
            assert_eq!((none.next(), none.next()), (None, None));
            assert_eq!(view.cell(table, 0, 0), None);
        }
    });
}

#[test]
fn runs_cover_their_members() {
    each(|view| {
        let mut next = (1, 1, 1);
        for row in 1..=view.count(Table::TypeDef) {
            let (fields, methods) = (view.fields_of(row), view.methods_of(row));
            assert_eq!((fields.start, methods.start), (next.0, next.1));
            next = (fields.end, methods.end, next.2);
        }
        for row in 1..=view.count(Table::MethodDef) {
            assert_eq!(view.params_of(row).start, next.2);
            next.2 = view.params_of(row).end;
        }
        for (past, table) in [(next.0, Table::Field), (next.1, Table::MethodDef), (next.2, Table::Param)] {
            assert_eq!(past, view.count(table) + 1);
        }
        assert!(view.fields_of(0).is_empty() && view.methods_of(u32::MAX).is_empty());
        assert_eq!(view.members(Token { table: Table::Module, row: 1 }, Table::Field), None);
    });
}

#[test]
fn look_ups() {
    each(|view| {
        for (row, its) in (1..).zip(view.rows::<TypeDef>()).step_by(97) {
            let found = view.find_type(its.type_namespace, its.type_name).expect("a type");
            assert!(found <= row);
            assert!(view.full_name(row).ends_with(its.type_name));
            let key = Token { table: Table::TypeDef, row };
            let listed = view.by_key(Table::CustomAttribute, key);
            assert!(listed.iter().all(|&it| view.row::<CustomAttribute>(it).expect("a row").parent == key));
        }
        let mut by_parent = BTreeMap::<Token, Vec<u32>>::new();
        for (row, its) in (1..).zip(view.rows::<CustomAttribute>()) {
            by_parent.entry(its.parent).or_default().push(row);
        }
        for (parent, rows) in by_parent.iter().step_by(by_parent.len() / 200 + 1) {
            assert_eq!(&view.by_key(Table::CustomAttribute, *parent), rows);
        }
        assert_eq!(view.find_type("no such", "type"), None);
        assert_eq!(view.full_name(0), "");
        assert!(view.by_key(Table::Module, Token { table: Table::Module, row: 1 }).is_empty());
    });
}

#[test]
fn greeter() {
    let root = sample("greeter.root");
    let view = View::open_root(&root).expect("a root");
    assert_eq!(view.version(), "v4.0.30319");
    assert_eq!(view.find_type("Hello", "Greeter"), Some(2));
    assert_eq!(view.full_name(2), "Hello.Greeter");
    let names: Vec<_> = view.rows_in::<MethodDef>(view.methods_of(2)).map(|it| it.name).collect();
    assert_eq!(names, [".ctor", "Greet"]);
    assert_eq!(view.cell(Table::Param, 1, 2), Some(Cell::Text("name")));
    assert_eq!(view.rows_in::<Param>(0..99).count(), 2);
    assert_eq!(view.user(), b"");
}

#[test]
fn texts_outlive_the_view_and_threads_share_it() {
    let file = sample("one_module.dll");
    let name = View::open(&file).expect("a file").row::<Module>(1).expect("a row").name;
    assert_eq!(name, "a.dll");
    let view = View::open(&file).expect("a file");
    thread::scope(|scope| {
        for _ in 0..4 {
            scope.spawn(|| assert_eq!(view.rows::<Module>().next().map(|it| it.name), Some("a.dll")));
        }
    });
}

#[test]
fn the_header() {
    let file = sample("one_module.dll");
    let header = read_header(&file).expect("a header");
    assert_eq!((header.cb, header.root_start, header.root_end), (72, 592, 736));
    assert_eq!(View::open_root(&file[header.root_start..header.root_end]).expect("a root").count(Table::Module), 1);
    assert_eq!(read_header(b"").map(|_| ()), Err(Fault { layer: 1, code: 102, offset: 0 }));
}

#[test]
fn faults_are_errors() {
    let fault = View::open(b"MZ").expect_err("a fault");
    assert_eq!(fault, Fault { layer: 1, code: 102, offset: 0 });
    assert_eq!(fault.name(), "DosHeader");
    let error: Box<dyn Error + Send + Sync> = Box::new(fault);
    assert_eq!(error.to_string(), "fault 1 102 at 0: DosHeader");
    assert_eq!(View::open_root(b"").expect_err("a fault").to_string(), "fault 3 301 at 0: RootSignature");
}

#[test]
fn check_and_open_agree() {
    let mut root = sample("two_types.root");
    for len in 0..root.len() {
        assert_eq!(check_root(&root[..len]), View::open_root(&root[..len]).map(|_| ()));
    }
    for offset in 0..root.len() {
        let kept = std::mem::replace(&mut root[offset], 0xFF);
        assert_eq!(check_root(&root), View::open_root(&root).map(|_| ()));
        root[offset] = kept;
    }
    assert_eq!(check(&sample("one_module.dll")), Ok(()));
}

/// Whether the library has a function. Otherwise a call of it says so.
fn has<T: std::fmt::Debug>(has: bool, function: &str, called: Result<T, impl Error>) -> bool {
    if !has {
        let error = called.expect_err("no such function").to_string();
        assert_eq!(error, format!("this library of clim has no function {function}"));
    }
    has
}

#[test]
fn budgets() {
    let (file, root, fault) = (sample("one_module.dll"), sample("greeter.root"), Fault { layer: 1, code: 102, offset: 0 });
    if has(clim_sys::HAS_OPEN_WITHIN, "clim_open_within", View::open_within(&file, 0)) {
        assert_eq!(View::open_within(&file, 0).map(|view| view.count(Table::Module)), Ok(1));
        assert_eq!(View::open_within(b"", 0).map(|_| ()), Err(BoundedError::Fault(fault)));
    }
    if has(clim_sys::HAS_OPEN_ROOT_WITHIN, "clim_open_root_within", View::open_root_within(&root, 0).map(|_| ())) {
        assert_eq!(View::open_root_within(&root, 0).map(|_| ()), Err(BoundedError::BudgetSpent));
        assert_eq!(View::open_root_within(&root, u64::MAX).map(|view| view.count(Table::TypeDef)), Ok(2));
    }
    if has(clim_sys::HAS_CHECK_WITHIN, "clim_check_within", check_within(&file, 0)) {
        assert_eq!(check_within(b"", 0), Err(BoundedError::Fault(fault)));
        assert_eq!(check_within(&file, 0), Ok(()));
    }
    if has(clim_sys::HAS_CHECK_ROOT_WITHIN, "clim_check_root_within", check_root_within(&root, 0)) {
        assert_eq!(check_root_within(&root, 0), Err(BoundedError::BudgetSpent));
        assert_eq!(check_root_within(&root, u64::MAX), Ok(()));
    }
}

#[test]
fn texts_in_a_buffer() {
    let fault = View::open(b"").expect_err("a fault");
    if has(clim_sys::HAS_EXPLAIN, "clim_explain", fault.explanation()) {
        assert!(fault.explanation().expect("a text").starts_with("102 DosHeader: "));
    }
    let root = sample("greeter.root");
    let view = View::open_root(&root).expect("a root");
    let greet = Token { table: Table::MethodDef, row: 2 };
    if has(clim_sys::HAS_SIGNATURE_TEXT, "clim_signature_text", view.signature_text(greet)) {
        let text = view.signature_text(greet).expect("a library").expect("a text");
        assert!(text.contains("string") && text.contains("int32"));
        for (table, row) in [(Table::MethodDef, 3), (Table::TypeDef, 1), (Table::Param, 1)] {
            assert_eq!(view.signature_text(Token { table, row }), Ok(None));
        }
    }
    each(|view| {
        let signed = [
            Table::Field, Table::MethodDef, Table::MemberRef, Table::StandAloneSig, Table::Property, Table::TypeSpec,
            Table::MethodSpec,
        ];
        for table in Table::ALL.into_iter().filter(|&it| view.count(it) > 0) {
            if let Ok(text) = view.signature_text(Token { table, row: view.count(table) }) {
                assert_eq!(text.is_some(), signed.contains(&table), "{table}");
            }
        }
    });
    for (has_it, name, text) in [
        (clim_sys::HAS_ROW_NAME, "clim_row_name", view.name_of(greet)),
        (clim_sys::HAS_DECLARATION, "clim_declaration", view.declaration(greet)),
    ] {
        match text {
            Ok(text) => assert!(has_it && text.is_some_and(|it| it.contains("Hello.Greeter::Greet"))),
            Err(error) => assert!(!has_it && error == TextError::Unsupported(Unsupported { function: name })),
        }
    }
    assert!(has(clim_sys::HAS_OFFSET_OF, "clim_offset_of", offset_of(&root, 0, 0)) == offset_of(&root, 0, 0).is_ok());
    if has(clim_sys::HAS_USER_STRING, "clim_user_string", view.user_string(0x7000_0001)) {
        assert_eq!(view.user_string(0x7000_0001), Ok(None));
        assert_eq!(view.user_string(0x0200_0001), Ok(None));
    }
}

#[test]
fn the_version_of_the_interface() {
    // SAFETY: The calls take no pointers.
    unsafe {
        assert!(!clim_sys::HAS_ABI_VERSION || clim_sys::clim_abi_version() == clim_sys::CLIM_ABI_VERSION);
        assert!(!clim_sys::HAS_VIEW_SIZE || clim_sys::clim_view_size() == std::mem::size_of::<clim_sys::clim_view>());
    }
}

#[test]
fn a_canonical_root_is_its_own() {
    each(|view| {
        let Ok(root) = view.canonical_root() else {
            assert!(matches!(view.digest(), Err(RootError::Unsupported(_))));
            return;
        };
        let again = View::open_root(&root).expect("a canonical root");
        assert_eq!(again.canonical_root().as_ref(), Ok(&root));
        assert_eq!(again.digest(), view.digest());
        assert_eq!(again.version(), view.version());
    });
}

#[test]
fn a_copy_of_a_file() {
    let file = sample("one_module.dll");
    if has(clim_sys::HAS_EMBED, "clim_embed", clim::embed_canonical(&file, clim::StrongName::Keep)) {
        let copy = clim::embed_canonical(&file, clim::StrongName::Keep).expect("a copy");
        assert_eq!(View::open(&copy).expect("a file").count(Table::Module), 1);
    }
}

#[test]
fn tables_of_a_view() {
    each(|view| match Tables::of(view).root() {
        Err(error) => assert!(matches!(error, BuildError::Unsupported(_)) && !clim_sys::HAS_TABLES),
        Ok(root) => assert!(Ok(root) == view.canonical_root()),
    });
}

/// The locations of all bytes of a canonical root that are in a cell, one for each cell.
fn locations(view: &View, len: usize) -> Vec<clim::Location> {
    let mut found: Vec<_> = (0..len).filter_map(|offset| view.where_is(offset).ok().flatten()).collect();
    found.dedup();
    found
}

#[test]
fn each_byte_of_a_cell_has_its_location() {
    each(|view| {
        let Ok(none) = view.where_is(0) else {
            return;
        };
        assert!(none.is_none() && view.where_is(usize::MAX) == Ok(None));
        let root = view.canonical_root().expect("a canonical root");
        if root.len() > 1 << 16 {
            return;
        }
        let again = View::open_root(&root).expect("a canonical root");
        let found = locations(&again, root.len());
        let cells = Table::ALL.into_iter().map(|it| again.count(it) as usize * it.columns().count()).sum::<usize>();
        assert_eq!(found.len(), cells);
        for it in found {
            let bytes = &root[it.offset..it.offset + it.size];
            let number = bytes.iter().rev().fold(0, |number, byte| number << 8 | u32::from(*byte));
            let cell = again.cell(it.row.table, it.row.row, it.column).expect("a cell");
            assert!(!matches!(cell, Cell::Number(value) if value != number));
            assert_eq!(Some(it.column_name()), it.row.table.columns().nth(it.column));
        }
    });
}

#[test]
fn the_first_difference_is_found() {
    each(|view| {
        let equal = match view.difference(view) {
            Err(error) => return assert!(matches!(error, CompareError::Unsupported(_))),
            Ok(difference) => difference,
        };
        assert_eq!(equal, None);
        let mut root = view.canonical_root().expect("a canonical root");
        let copy = root.clone();
        let same = View::open_root(&copy).expect("a canonical root");
        assert_eq!(view.difference(&same), Ok(None));
        if view.count(Table::Module) > 0 && root.len() < 1 << 16 {
            let first = locations(&same, root.len())[0];
            root[first.offset] ^= 1;
            let other = View::open_root(&root).expect("a root");
            let wanted = Difference::Cell { row: first.row, column: 0 };
            assert_eq!((view.difference(&other), first.column_name()), (Ok(Some(wanted)), "Generation"));
        }
        root[16] ^= 1;
        let other = View::open_root(&root).expect("a root");
        assert_eq!(view.difference(&other), Ok(Some(Difference::Version)));
    });
    let (left, right) = (sample("greeter.root"), sample("two_types.root"));
    let (left, right) = (View::open_root(&left).expect("a root"), View::open_root(&right).expect("a root"));
    match left.difference(&right) {
        Ok(Some(Difference::RowCount { table, left: ours, right: theirs })) => {
            assert_eq!((ours, theirs), (left.count(table), right.count(table)));
        }
        other => assert!(matches!(other, Err(CompareError::Unsupported(_)) | Ok(Some(_)))),
    }
}
