use model::{
    Limit, ReadCells, Scopes, TableId, Token, open_root, write_full_name, write_full_name_within,
    write_method, write_type_def,
};
use sample_roots::{
    NAMES_APART, NAMES_SHARED, NO_ROWS, ONE_MODULE, RootBuilder, THREE_TYPES, TWO_TYPES,
};
use std::alloc::Global;
use std::fmt;
use std::process::Abort;
use std::test::Fail;

/// The texts of the roots: `Outer` is at 1, `Inner` at 7, `Leaf` at 13, `Space` at 18 and `first` at 24.
const STRINGS: &[u8] = b"\0Outer\0Inner\0Leaf\0Space\0first\0";

/// A root of three types, each nested in the one before: only the first has a namespace.
fn nested_types(alloc: Global) -> Result<RootBuilder, Fail> {
    let mut root = RootBuilder::new(alloc);
    root.row(0x02, b"\0\0\0\0\x01\0\x12\0\0\0\x01\0\x01\0")?;
    root.row(0x02, b"\0\0\0\0\x07\0\0\0\0\0\x01\0\x01\0")?;
    root.row(0x02, b"\0\0\0\0\x0D\0\0\0\0\0\x01\0\x01\0")?;
    Ok(root)
}

/// The name of a row.
fn name_of<S: ReadCells>(alloc: Global, source: &S, table: TableId, row: u32) -> Option<String> {
    let mut text = String::new(alloc);
    write_full_name(alloc, source, Token { table, row }, &mut text).ok()?;
    Some(text)
}

/// The declaration of a method.
fn declared<S: ReadCells>(alloc: Global, source: &S, row: u32) -> Option<String> {
    let mut text = String::new(alloc);
    write_method(alloc, source, row, &mut text).ok()?;
    Some(text)
}

#[test]
fn nested_types_follow_the_types_that_enclose_them(rt: HostRuntime) -> Result<(), Fail> {
    let mut root = nested_types(rt.alloc())?;
    root.row(0x29, b"\x02\0\x01\0")?;
    root.row(0x29, b"\x03\0\x02\0")?;
    root.heap("#Strings", STRINGS)?;
    let root = root.finish()?;
    let view = open_root(root.as_slice()).expect(&rt, "a root");
    let model = model::load_root(rt.alloc(), root.as_slice()).expect(&rt, "a model");
    for (row, name) in [
        (1, "Space.Outer"),
        (2, "Space.Outer/Inner"),
        (3, "Space.Outer/Inner/Leaf"),
        (4, ".."),
        (0, ".."),
    ] {
        let written = name_of(rt.alloc(), &view, TableId::TypeDef, row).expect(&rt, "a text");
        assert_eq!(rt; written.as_str(), name, "of {row}");
    }
    let mut owned = String::new(rt.alloc());
    assert!(rt; write_type_def(&model, 3, &mut owned, 64).is_ok());
    assert_eq!(rt; owned.as_str(), "Space.Outer/Inner/Leaf");
    let mut cut = String::new(rt.alloc());
    assert!(rt; write_type_def(&model, 3, &mut cut, 2).is_ok());
    assert_eq!(rt; cut.as_str(), "../Inner/Leaf");
    Ok(())
}

#[test]
fn scopes_in_a_circle_are_cut(rt: HostRuntime) -> Result<(), Fail> {
    let mut root = RootBuilder::new(rt.alloc());
    // The scope of each is the other; that of the third is the first; the fourth has none.
    root.row(0x01, b"\x0B\0\x01\0\x12\0")?;
    root.row(0x01, b"\x07\0\x07\0\0\0")?;
    root.row(0x01, b"\0\0\x0D\0\x12\0")?;
    root.row(0x01, b"\x0F\0\x07\0\0\0")?;
    root.heap("#Strings", STRINGS)?;
    let root = root.finish()?;
    let view = open_root(root.as_slice()).expect(&rt, "a root");
    let circle = name_of(rt.alloc(), &view, TableId::TypeRef, 1).expect(&rt, "a text");
    assert!(rt; circle.as_str().starts_with("../Inner/Space.Outer/Inner/"));
    assert!(rt; circle.as_str().ends_with("/Inner/Space.Outer"));
    assert_eq!(rt; circle.as_str().bytes().filter(|byte| *byte == b'/').count(), 64);
    let nested = name_of(rt.alloc(), &view, TableId::TypeRef, 4).expect(&rt, "a text");
    assert_eq!(rt; nested.as_str(), "Space.Leaf/Inner");
    Ok(())
}

#[test]
fn a_typespec_that_names_itself_is_cut(rt: HostRuntime) -> Result<(), Fail> {
    let mut root = nested_types(rt.alloc())?;
    // The class TypeSpec 1; a vector of the class TypeDef 1; the class TypeSpec 2.
    root.row(0x1B, b"\x01\0")?;
    root.row(0x1B, b"\x04\0")?;
    root.row(0x1B, b"\x08\0")?;
    root.heap("#Strings", STRINGS)?;
    root.heap("#Blob", b"\0\x02\x12\x06\x03\x1D\x12\x04\x02\x12\x0A")?;
    let root = root.finish()?;
    let view = open_root(root.as_slice()).expect(&rt, "a root");
    let model = model::load_root(rt.alloc(), root.as_slice()).expect(&rt, "a model");
    for (row, name) in [(1, "class .."), (2, "class Space.Outer[]"), (3, "class .."), (4, "..")] {
        let written = name_of(rt.alloc(), &view, TableId::TypeSpec, row).expect(&rt, "a text");
        assert_eq!(rt; written.as_str(), name, "of {row}");
        let owned = name_of(rt.alloc(), &model, TableId::TypeSpec, row).expect(&rt, "a text");
        assert_eq!(rt; owned.as_str(), name, "of {row} of a model");
    }
    Ok(())
}

#[test]
fn methods_have_the_flags_and_names_of_their_parameters(rt: HostRuntime) -> Result<(), Fail> {
    let mut root = RootBuilder::new(rt.alloc());
    root.row(0x02, b"\0\0\0\0\x01\0\x12\0\0\0\x01\0\x01\0")?;
    root.row(0x06, b"\0\0\0\0\0\0\0\0\x0D\0\x01\0\x01\0")?;
    root.row(0x06, b"\0\0\0\0\0\0\0\0\x07\0\x07\0\x03\0")?;
    root.row(0x06, b"\0\0\0\0\0\0\0\0\x07\0\x01\0\x04\0")?;
    // The result and the first parameter; the first one, `in` and `out`; the second one, `opt`, the first one, and another
    // second one.
    root.row(0x08, b"\0\0\0\0\x07\0")?;
    root.row(0x08, b"\0\0\x01\0\x18\0")?;
    root.row(0x08, b"\x03\0\x01\0\x18\0")?;
    root.row(0x08, b"\x10\x20\x02\0\x18\0")?;
    root.row(0x08, b"\0\0\x01\0\x0D\0")?;
    root.row(0x08, b"\0\0\x02\0\x07\0")?;
    root.heap("#Strings", STRINGS)?;
    root.heap("#Blob", b"\0\x05\0\x02\x01\x08\x0E\x06\x30\x01\x01\x01\x1E\0")?;
    let root = root.finish()?;
    let view = open_root(root.as_slice()).expect(&rt, "a root");
    let model = model::load_root(rt.alloc(), root.as_slice()).expect(&rt, "a model");
    for (row, expected) in [
        (1, "void Space.Outer::Leaf(int32 first, string)"),
        (2, "instance void Space.Outer::Inner<[1]>([in] [out] !!0 first)"),
        (3, "void Space.Outer::Inner(int32 Leaf, [opt] string first)"),
    ] {
        let text = declared(rt.alloc(), &view, row).expect(&rt, "a text");
        assert_eq!(rt; text.as_str(), expected, "of {row}");
        let owned = declared(rt.alloc(), &model, row).expect(&rt, "a text");
        assert_eq!(rt; owned.as_str(), expected, "of {row} of a model");
    }
    Ok(())
}

/// A writer that needs some bytes, and keeps all that it is given.
#[derive(Drop)]
struct Given {
    text: String,
    needed: usize,
}

impl fmt::Write for Given {
    fn write_str(&mut self, text: &str) -> fmt::Result {
        match self.text.push_str(text) {
            Ok(()) => Ok(()),
            Err(_) => Err(fmt::Error),
        }
    }
}

/// The limit of a writer that needs some bytes.
struct Needed;

impl Limit<Given> for Needed {
    fn is_reached(&self, writer: &Given) -> bool {
        writer.text.len() >= writer.needed
    }

    fn scopes_of_names(&self) -> Scopes {
        Scopes::Omitted
    }
}

#[test]
fn texts_end_after_the_limit(rt: HostRuntime) -> Result<(), Fail> {
    let mut root = nested_types(rt.alloc())?;
    root.row(0x1B, b"\x01\0")?;
    root.heap("#Strings", STRINGS)?;
    root.heap("#Blob", b"\0\x08\x15\x12\x04\x02\x12\x04\x12\x04")?;
    let root = root.finish()?;
    let view = open_root(root.as_slice()).expect(&rt, "a root");
    let spec = Token {
        table: TableId::TypeSpec,
        row: 1,
    };
    for (needed, expected) in [
        (100, "class Space.Outer<class Space.Outer, class Space.Outer>"),
        (7, "class Space.Outer"),
        (0, ""),
    ] {
        let mut given = Given {
            text: String::new(rt.alloc()),
            needed,
        };
        assert!(rt; write_full_name_within(rt.alloc(), &view, spec, &Needed, &mut given).is_ok());
        assert_eq!(rt; given.text.as_str(), expected, "of {needed} bytes");
    }
    Ok(())
}

/// Checks that each type and method of a root has the same text in place and in a model.
fn check_texts(rt: &impl Abort, alloc: Global, root: &[u8]) -> Result<(), Fail> {
    let view = open_root(root)?;
    let model = model::load_root(alloc, root)?;
    for table in [TableId::TypeDef, TableId::TypeRef, TableId::TypeSpec, TableId::Module] {
        for row in 0..view.count(table) + 2 {
            let written = name_of(alloc, &view, table, row).expect(rt, "a text");
            let owned = name_of(alloc, &model, table, row).expect(rt, "a text");
            assert_eq!(rt; written.as_str(), owned.as_str(), "of {table:?} {row}");
        }
    }
    for row in 1..view.count(TableId::MethodDef) + 1 {
        let written = declared(alloc, &view, row).expect(rt, "a text");
        let owned = declared(alloc, &model, row).expect(rt, "a text");
        assert_eq!(rt; written.as_str(), owned.as_str(), "of method {row}");
    }
    Ok(())
}

#[test]
fn models_have_the_texts_of_views(rt: HostRuntime) -> Result<(), Fail> {
    let roots = [
        ONE_MODULE.as_slice(),
        TWO_TYPES.as_slice(),
        NO_ROWS.as_slice(),
        THREE_TYPES.as_slice(),
        NAMES_SHARED.as_slice(),
        NAMES_APART.as_slice(),
    ];
    for root in roots {
        check_texts(&rt, rt.alloc(), root)?;
    }
    Ok(())
}
