//! Tests of names, declarations, addresses and constants, on samples. They need a library that has the functions.

use clim::flags::{Access, CallConv, CodeType, ImportFlags, MethodFlags, TypeFlags};
use clim::rows::*;
use clim::{
    offset_of, open, read_header, Assembly, AttributeValue, BoundedError, ConstantValue, OpenError, Signature, Table, Tables,
    Token, View,
};
use std::{fs, thread};

/// The path of a sample.
fn path(name: &str) -> String {
    format!("{}/../../samples/{name}", env!("CARGO_MANIFEST_DIR"))
}

fn token(table: Table, row: u32) -> Token {
    Token { table, row }
}

#[test]
fn a_file_owns_its_bytes() {
    let path = path("members.dll");
    let file = fs::read(&path).expect("a sample");
    let assembly = open(&path).expect("a file");
    assert_eq!((assembly.bytes(), assembly.view().version()), (file.as_slice(), "v4.0.30319"));
    let moved = Box::new(assembly);
    let names = |assembly: &Assembly| -> Vec<String> {
        assembly.view().rows::<TypeDef>().map(|it| it.type_name.to_string()).collect()
    };
    let here = names(&moved);
    let there = thread::spawn(move || names(&moved)).join().expect("a thread");
    assert!(here == there && here.contains(&"Derived".to_string()));
    assert!(matches!(Assembly::from_bytes(Vec::new()), Err(fault) if fault.code == 102));
    assert!(matches!(open(path.replace("members.dll", "greeter.root")), Err(OpenError::Fault(fault)) if fault.code == 102));
    assert!(matches!(open("/no/such/file"), Err(OpenError::Io(_))));
}

#[test]
fn a_file_within_a_budget() {
    let file = fs::read(path("members.dll")).expect("a sample");
    assert!(matches!(Assembly::from_bytes_within(file.clone(), 0), Err(BoundedError::BudgetSpent)));
    assert!(matches!(Assembly::from_bytes_within(Vec::new(), 0), Err(BoundedError::Fault(fault)) if fault.code == 102));
    assert_eq!(Assembly::from_bytes_within(file.clone(), u64::MAX).expect("a file").bytes(), file);
}

#[test]
fn flags_have_names() {
    let assembly = open(path("members.dll")).expect("a file");
    let view = assembly.view();
    let (row, derived) = view.rows::<TypeDef>().numbered().find(|(_, it)| it.type_name == "Derived").expect("a type");
    assert_eq!(derived.typed_flags().0, derived.flags);
    assert_eq!(derived.typed_flags().visibility().map(|it| it as u32), Some(derived.flags & 7));
    for method in view.rows_in::<MethodDef>(view.methods_of(row)).filter(|it| it.name == ".ctor") {
        let wanted = MethodFlags::SPECIAL_NAME | MethodFlags::RT_SPECIAL_NAME;
        assert!(method.typed_flags().contains(wanted) && !method.typed_flags().contains(wanted | MethodFlags::STATIC));
        assert_eq!(method.typed_impl_flags().code_type(), Some(CodeType::Il));
    }
    assert_eq!((MethodFlags(6).access(), MethodFlags(7).access()), (Some(Access::Public), None));
    assert_eq!(TypeFlags(0x18).layout(), None);
    assert_eq!(ImportFlags(0x346).call_conv(), Some(CallConv::StdCall));
    let shown = [TypeFlags(0), TypeFlags(0x100), TypeFlags(0x101), TypeFlags(u32::MAX) & TypeFlags(0x8000_0080)];
    let wanted = "[TypeFlags(0x0), TypeFlags(SEALED), TypeFlags(SEALED | 0x1), TypeFlags(ABSTRACT | 0x80000000)]";
    assert_eq!(format!("{shown:?}"), wanted);
}

#[test]
fn tokens_of_numbers() {
    for token in [token(Table::TypeDef, 5), token(Table::Module, 0), token(Table::GenericParamConstraint, 0xFF_FFFF)] {
        assert_eq!(Token::from_u32(token.into()), Some(token));
    }
    assert_eq!((Token::from_u32(0x7000_0001), Token::from_u32(u32::MAX)), (None, None));
}

#[test]
fn rows_know_their_numbers() {
    let assembly = open(path("members.dll")).expect("a file");
    let view = assembly.view();
    for (number, row) in view.rows::<MethodDef>().numbered() {
        assert_eq!(view.row::<MethodDef>(number), Some(row));
    }
    assert_eq!(view.rows::<MethodDef>().numbered().count(), view.count(Table::MethodDef) as usize);
    let last = view.count(Table::MethodDef);
    let mut rows = view.rows_in::<MethodDef>(0..u32::MAX);
    rows.next();
    assert_eq!(rows.numbered().map(|it| it.0).collect::<Vec<_>>(), (2..=last).collect::<Vec<_>>());
    assert_eq!(view.rows_in::<MethodDef>(last + 1..last + 9).numbered().count(), 0);
}

#[test]
fn names_and_declarations() {
    let assembly = open(path("members.dll")).expect("a file");
    let view = assembly.view();
    assert_eq!(view.name_of(token(Table::TypeDef, 1)), Ok(Some("'<Module>'".to_string())));
    for table in Table::ALL {
        let declared = [Table::TypeDef, Table::Field, Table::MethodDef, Table::Property].contains(&table);
        for row in 1..=view.count(table) {
            let name = view.name_of(token(table, row)).expect("a library").expect("a row");
            let declaration = view.declaration(token(table, row)).expect("a library");
            assert!(!name.is_empty() && declaration.is_some() == declared, "{table} {row}");
            match table {
                Table::TypeDef => assert_eq!(declaration, Some(name)),
                Table::MethodDef | Table::Property => assert!(declaration.is_some_and(|it| it.contains(&name))),
                _ => {}
            }
        }
        // A row that a token cannot name is none, and not that of another table.
        for row in [0, view.count(table) + 1, 0x100_0001, u32::MAX] {
            assert_eq!((view.name_of(token(table, row)), view.declaration(token(table, row))), (Ok(None), Ok(None)));
        }
    }
}

#[test]
fn types_by_their_full_names() {
    let assembly = open(path("members.dll")).expect("a file");
    let view = assembly.view();
    for row in 1..=view.count(Table::TypeDef) {
        assert_eq!(view.find_full_name(&view.full_name(row)), Some(row), "{}", view.full_name(row));
    }
    for name in ["", "/", "Derived/", "/Derived", "No.Type", "Derived/Derived/Derived", &"/".repeat(100)] {
        assert_eq!(view.find_full_name(name), None, "{name}");
    }
}

#[test]
fn a_full_name_is_that_of_any_type_with_it() {
    let mut tables = Tables::new("v4.0.30319");
    let mut add = |name, namespace| {
        let its = TypeDef { flags: 0, type_name: name, type_namespace: namespace, extends: None, field_list: 1, method_list: 1 };
        tables.add(&its)
    };
    let outer = ["A", "A"].map(|it| add(it, "N"));
    let chain: Vec<_> = (0..100).map(|_| add("C", "")).collect();
    // The first type with the name has no nested type.
    let mut nested = vec![(add("Inner", ""), outer[1])];
    let inner = nested[0].0;
    nested.extend(chain.windows(2).map(|pair| (pair[1], pair[0])));
    nested.sort();
    for (nested_class, enclosing_class) in nested {
        tables.add(&NestedClass { nested_class, enclosing_class });
    }
    let root = tables.root().expect("a root");
    let view = View::open_root(&root).expect("a view");
    let long = |count| vec!["C"; count].join("/");
    assert_eq!(view.find_full_name("N.A"), Some(outer[0].row));
    assert_eq!(view.find_full_name("N.A/Inner"), Some(inner.row));
    assert_eq!((view.find_full_name("C"), view.find_full_name(&long(100))), (Some(chain[0].row), Some(chain[99].row)));
    for name in ["N.A/N.Inner", "A/Inner", "Inner", &long(101)] {
        assert_eq!(view.find_full_name(name), None, "{name}");
    }
}

#[test]
fn offsets_of_addresses() {
    let path = path("members.dll");
    let file = fs::read(&path).expect("a sample");
    let (header, assembly) = (read_header(&file).expect("a header"), open(&path).expect("a file"));
    let root = (header.metadata.rva, header.metadata.size);
    assert_eq!(offset_of(&file, root.0, root.1), Ok(Some(header.root_start)));
    assert_eq!(assembly.bytes_at(root.0, root.1), Ok(Some(&file[header.root_start..header.root_end])));
    assert_eq!(assembly.bytes_at(root.0, 4), Ok(Some(b"BSJB".as_slice())));
    for method in assembly.view().rows::<MethodDef>().filter(|it| it.rva > 0) {
        assert!(assembly.bytes_at(method.rva, 1).expect("a library").is_some());
    }
    for (rva, size) in [(0, 1), (u32::MAX, u32::MAX), (root.0, u32::MAX), (root.0, 1 << 31)] {
        assert_eq!((offset_of(&file, rva, size), assembly.bytes_at(rva, size)), (Ok(None), Ok(None)));
    }
    assert_eq!(offset_of(&[], root.0, 1), Ok(None));
    assert_eq!(offset_of(&file[..header.root_end - 1], root.0, root.1), Ok(None));
}

#[test]
fn values_of_constants() {
    let value = |kind, value| Constant { kind, parent: token(Table::Field, 1), value }.typed_value();
    assert_eq!(value(0x02, &[1]), ConstantValue::Bool(true));
    assert_eq!(value(0x03, &[0x41, 0xD8]), ConstantValue::Char(0xD841));
    assert_eq!(value(0x04, &[0xFF]), ConstantValue::Int(-1));
    assert_eq!(value(0x05, &[0xFF]), ConstantValue::Uint(255));
    assert_eq!(value(0x06, &[0, 0x80]), ConstantValue::Int(-32768));
    assert_eq!(value(0x07, &[0, 0x80]), ConstantValue::Uint(32768));
    assert_eq!(value(0x08, &[1, 0, 0, 0x80]), ConstantValue::Int(-0x7FFF_FFFF));
    assert_eq!(value(0x09, &[1, 0, 0, 0x80]), ConstantValue::Uint(0x8000_0001));
    assert_eq!(value(0x0A, &[0xFF; 8]), ConstantValue::Int(-1));
    assert_eq!(value(0x0B, &[0xFF; 8]), ConstantValue::Uint(u64::MAX));
    assert_eq!(value(0x0C, &[0, 0, 0x80, 0x3F]), ConstantValue::Float(1.0));
    assert_eq!(value(0x0D, &[0, 0, 0, 0, 0, 0, 0xF0, 0xBF]), ConstantValue::Double(-1.0));
    assert_eq!(value(0x0E, b"a\0b\0"), ConstantValue::String(vec![0x61, 0x62]));
    assert_eq!(value(0x0E, b""), ConstantValue::String(Vec::new()));
    assert_eq!(value(0x12, &[0; 4]), ConstantValue::Null);
    let malformed: [(u32, &[u8]); 8] =
        [(0x02, &[2]), (0x02, &[]), (0x03, &[0]), (0x08, &[0; 3]), (0x0E, b"abc"), (0x12, &[1, 0, 0, 0]), (0, &[0]), (0x1D, &[])];
    for (kind, bytes) in malformed {
        assert_eq!(value(kind, bytes), ConstantValue::Malformed(bytes), "{kind}");
    }
}

/// A root with an attribute that has an argument of each type, one whose type is an enum of another file, and one of no
/// bytes.
fn root_with_attributes() -> Vec<u8> {
    let mut tables = Tables::new("v4.0.30319");
    let module = tables.add(&Module { generation: 0, name: "one.dll", mvid: None, enc_id: None, enc_base_id: None });
    let mut reference = |type_name, type_namespace| {
        tables.add(&TypeRef { resolution_scope: Some(module), type_name, type_namespace })
    };
    let (mark, _, base) = (reference("Mark", "Hello"), reference("Type", "System"), reference("Enum", "System"));
    let first = TypeDef { flags: 0, type_name: "<Module>", type_namespace: "", extends: None, field_list: 1, method_list: 1 };
    tables.add(&first);
    tables.add(&TypeDef { type_name: "Color", extends: Some(base), ..first });
    tables.add(&Field { flags: 6, name: "value__", signature: Signature(b"\x06\x06") });
    let parameters = b"\x20\x14\x01\x02\x03\x04\x05\x06\x07\x08\x09\x0a\x0b\x0c\x0d\x0e\x0e\x12\x09\x11\x08\x1c\x1d\x08\x1d\x0e\x1d\x1c";
    let mut constructor = |parameters| {
        tables.add(&MemberRef { class: mark, name: ".ctor", signature: Signature(parameters) })
    };
    let (each, other) = (constructor(parameters), constructor(b"\x20\x01\x01\x11\x09"));
    let value = b"\x01\0\x01\x3d\xd8\xff\xff\xfe\xff\xfe\xff\xfd\xff\xff\xff\xfd\xff\xff\xff\xfc\xff\xff\xff\xff\xff\xff\xff\
        \xfc\xff\xff\xff\xff\xff\xff\xff\0\0\xc0\x3f\0\0\0\0\0\0\xf8\xbf\x03a\xc3\xa9\xff\x0dSystem.String\x02\0\
        \x08*\0\0\0\x02\0\0\0\x01\0\0\0\x02\0\0\0\xff\xff\xff\xff\x02\0\0\0\x0e\x01x\x0e\xff\
        \x03\0S\x08\x05Count\x07\0\0\0T\x1d\x02\x05Flags\x01\0\0\0\x01TQ\x03Tag\x02\0";
    for (kind, value) in [(each, &value[..]), (other, b"\x01\0\x02\0\0\0\0\0"), (each, b"")] {
        tables.add(&CustomAttribute { parent: module, kind, value });
    }
    tables.root().expect("valid tables")
}

#[test]
fn arguments_of_attributes() {
    use AttributeValue::{Array, Bool, Char, Double, Float, Int, String, Type, Uint};
    let root = root_with_attributes();
    let view = View::open_root(&root).expect("a root");
    let arguments = view.arguments_of(1).expect("a newer library").expect("a value");
    let wanted = [
        Bool(true), Char(0xD83D), Int(-1), Uint(0xFF), Int(-2), Uint(0xFFFE), Int(-3), Uint(0xFFFF_FFFD), Int(-4),
        Uint(u64::MAX - 3), Float(1.5), Double(-1.5), String(Some("a\u{e9}")), String(None), Type(Some("System.String")),
        Int(2), Int(42), Array(Some(vec![Int(1), Int(2)])), Array(None), Array(Some(vec![String(Some("x")), String(None)])),
    ];
    assert_eq!(arguments.fixed, wanted);
    let named: Vec<_> = arguments.named.into_iter().map(|it| (it.name, it.is_property, it.value)).collect();
    let flags = Array(Some(vec![Bool(true)]));
    assert_eq!(named, [("Count", false, Int(7)), ("Flags", true, flags), ("Tag", true, Bool(false))]);
    for row in [0, 2, 3, 4, u32::MAX] {
        assert_eq!(view.arguments_of(row), Ok(None));
    }
}

#[test]
fn arguments_of_a_sample() {
    let assembly = open(path("shapes.dll")).expect("a file");
    let view = assembly.view();
    let decoded = |row| view.arguments_of(row).expect("a newer library").is_some();
    assert!((1..=view.count(Table::CustomAttribute)).all(decoded));
}
