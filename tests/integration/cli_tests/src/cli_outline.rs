//! Tests of `cli_outline`: the lines that `clim outline` prints.

use crate::runs::answer;
use cli_files::{Input, open};
use cli_lines::{Form, Printer};
use cli_outline::{OutlineOptions, Rows, Sorting, Tokens, print_outline, print_refs};
use sample_roots::{RootBuilder, TWO_TYPES, image, write_at};
use std::alloc::Global;
use std::fs;
use std::test::Fail;

/// Texts: `<M>` at 1, `N` at 5, `C` at 7, `M` at 9, `P` at 11, `get_P` at 13, `E` at 19, `k.dll` at 21, `.ctor` at 27, and at
/// 33 a control character before `D`.
const TEXTS: &[u8] = b"\0<M>\0N\0C\0M\0P\0get_P\0E\0k.dll\0.ctor\0\x1BD\0";

/// Blobs: `instance int32 ()` of a method at 1 and of a property at 5, `void ()` at 9, and two bytes at 13.
const BLOBS: &[u8] = b"\0\x03\x20\0\x08\x03\x28\0\x08\x03\0\0\x01\x02\x01\0";

/// `get_P` is the getter of the first property (II.22.28).
const GETTER: [u8; 6] = [2, 0, 1, 0, 3, 0];

/// A type `N.C` with these rows of PropertyMap and of MethodSemantics, in any order, and two properties.
fn root_of_properties(
    alloc: Global,
    maps: [[u8; 4]; 2],
    accessors: &[[u8; 6]],
) -> Result<Vec<u8>, Fail> {
    let mut root = RootBuilder::new(alloc);
    root.sorted = 0;
    // `<M>`, `N.C` and one whose name has a control character (II.22.37).
    root.row(0x02, b"\0\0\0\0\x01\0\0\0\0\0\x01\0\x01\0")?;
    root.row(0x02, b"\x01\0\x10\0\x07\0\x05\0\0\0\x01\0\x01\0")?;
    root.row(0x02, b"\0\0\0\0\x21\0\0\0\x08\0\x01\0\x03\0")?;
    // `get_P`, and an imported method `M` (II.22.26).
    root.row(0x06, b"\0\0\0\0\0\0\x86\x08\x0D\0\x01\0\x01\0")?;
    root.row(0x06, b"\0\0\0\0\0\0\x16\x20\x09\0\x09\0\x01\0")?;
    // The constructor of `N.C` as a MemberRef, and an attribute of that type (II.22.10, II.22.25).
    root.row(0x0A, b"\x10\0\x1B\0\x09\0")?;
    root.row(0x0C, b"\x43\0\x0B\0\x0D\0")?;
    // An event of `N.C` (II.22.12, II.22.13).
    root.row(0x12, b"\x02\0\x01\0")?;
    root.row(0x14, b"\0\0\x13\0\x08\0")?;
    // Properties and their accessors (II.22.28, II.22.34, II.22.35).
    for map in &maps {
        root.row(0x15, map)?;
    }
    root.row(0x17, b"\0\x02\x0B\0\x05\0")?;
    root.row(0x17, b"\0\0\x09\0\x05\0")?;
    for accessor in accessors {
        root.row(0x18, accessor)?;
    }
    // The library of the imported method (II.22.22, II.22.31).
    root.row(0x1A, b"\x15\0")?;
    root.row(0x1C, b"\0\x01\x05\0\x09\0\x01\0")?;
    root.heap("#Strings", TEXTS)?;
    root.heap("#Blob", BLOBS)?;
    Ok(root.finish()?)
}

/// What `clim outline` prints of a root.
fn outline_of(rt: &HostRuntime, root: &[u8]) -> Result<String, Fail> {
    printed(rt, root, &["clim", "outline", "--bare", "o.root"])
}

/// What a command prints of a root.
fn printed(rt: &HostRuntime, root: &[u8], words: &[&str]) -> Result<String, Fail> {
    fs::write(rt, "o.root", root)?;
    let (status, out, err) = answer(rt, words)?;
    fs::remove_file(rt, "o.root")?;
    if status != 0 || !err.is_empty() {
        return Err("no outline".into());
    }
    Ok(out)
}

#[test]
fn prints_events_and_properties_below_their_type(rt: HostRuntime) -> Result<(), Fail> {
    let root = root_of_properties(rt.alloc(), [[2, 0, 1, 0], [3, 0, 2, 0]], &[GETTER])?;
    let lines = "\
.module extern k.dll  // 1a000001
.class private auto ansi '<M>'  // 02000001
.class public auto ansi beforefieldinit N.C  // 02000002
  .method public hidebysig specialname instance int32 N.C::get_P() cil managed  // 06000001
  .method public static pinvokeimpl void N.C::M() cil managed  // 06000002
  .event N.C N.C::E  // 14000001
  .property specialname instance int32 N.C::P()  // 17000001
    .get instance int32 N.C::get_P() of N.C::P  // 18000001
.class private auto ansi '\\x1bD' extends N.C  // 02000003
  .property instance int32 '\\x1bD'::M()  // 17000002
.pinvokeimpl(\"k.dll\" as \"M\" platformapi) of N.C::M  // 1c000001
.custom void N.C::.ctor() = (0100) of N.C  // 0c000001
";
    assert_eq!(rt; outline_of(&rt, root.as_slice())?.as_str(), lines);
    Ok(())
}

/// The outline of a root as JSON Lines.
fn json_of(alloc: Global, root: &[u8]) -> Result<String, Fail> {
    outline_with(alloc, root, OutlineOptions::default(), Form::JsonLines)
}

/// The outline of a root with these options.
fn outline_with(
    alloc: Global,
    root: &[u8],
    options: OutlineOptions,
    form: Form,
) -> Result<String, Fail> {
    let Ok(view) = open(root, Input::BareRoot) else {
        return Err("a broken root".into());
    };
    let mut out = Vec::new(alloc);
    let mut printer = Printer::new(alloc, form, &mut out);
    print_outline(alloc, &view, options, &mut printer);
    let (_, sent) = printer.finish();
    if sent.is_err() {
        return Err("no outline".into());
    }
    Ok(String::from_utf8(out).ok().ok_or("no text")?)
}

/// In the order of names `M` comes before `get_P`, and a name in quotes before one without. Accessors stay with their property.
#[test]
fn prints_in_the_order_of_names(rt: HostRuntime) -> Result<(), Fail> {
    let root = root_of_properties(rt.alloc(), [[2, 0, 1, 0], [3, 0, 2, 0]], &[GETTER])?;
    let lines = "\
.module extern k.dll  // 1a000001
.class private auto ansi '<M>'  // 02000001
.class private auto ansi '\\x1bD' extends N.C  // 02000003
  .property instance int32 '\\x1bD'::M()  // 17000002
.class public auto ansi beforefieldinit N.C  // 02000002
  .method public static pinvokeimpl void N.C::M() cil managed  // 06000002
  .method public hidebysig specialname instance int32 N.C::get_P() cil managed  // 06000001
  .event N.C N.C::E  // 14000001
  .property specialname instance int32 N.C::P()  // 17000001
    .get instance int32 N.C::get_P() of N.C::P  // 18000001
.pinvokeimpl(\"k.dll\" as \"M\" platformapi) of N.C::M  // 1c000001
.custom void N.C::.ctor() = (0100) of N.C  // 0c000001
";
    let text = printed(&rt, root.as_slice(), &["clim", "outline", "--bare", "--sorted", "o.root"])?;
    assert_eq!(rt; text.as_str(), lines);
    Ok(())
}

/// Without tokens no line of text has a comment. A line of JSON has its token all the same.
#[test]
fn leaves_tokens_out_of_text(rt: HostRuntime) -> Result<(), Fail> {
    let alloc = rt.alloc();
    let root = root_of_properties(alloc, [[2, 0, 1, 0], [3, 0, 2, 0]], &[GETTER])?;
    let options = OutlineOptions {
        tokens: Tokens::Hidden,
        rows: Rows::All,
        sorting: Sorting::ByRow,
        entry: None,
    };
    let whole = outline_of(&rt, root.as_slice())?;
    let mut lines = String::new(alloc);
    for line in whole.as_str().lines() {
        let (declaration, _) = line.rsplit_once("  // ").ok_or("no token")?;
        lines.push_str(declaration)?;
        lines.push('\n')?;
    }
    let text = outline_with(alloc, root.as_slice(), options, Form::Text)?;
    assert_eq!(rt; text.as_str(), lines.as_str());
    let json = outline_with(alloc, root.as_slice(), options, Form::JsonLines)?;
    assert_eq!(rt; json.as_str(), json_of(alloc, root.as_slice())?.as_str());
    Ok(())
}

#[test]
fn prints_each_declaration_as_an_object(rt: HostRuntime) -> Result<(), Fail> {
    let root = root_of_properties(rt.alloc(), [[2, 0, 1, 0], [3, 0, 2, 0]], &[GETTER])?;
    let lines = r#"{"token":"1a000001","directive":".module","text":".module extern k.dll"}
{"token":"02000001","directive":".class","text":".class private auto ansi '<M>'"}
{"token":"02000002","directive":".class","text":".class public auto ansi beforefieldinit N.C"}
{"token":"06000001","type":"02000002","directive":".method","text":".method public hidebysig specialname instance int32 N.C::get_P() cil managed"}
{"token":"06000002","type":"02000002","directive":".method","text":".method public static pinvokeimpl void N.C::M() cil managed"}
{"token":"14000001","type":"02000002","directive":".event","text":".event N.C N.C::E"}
{"token":"17000001","type":"02000002","directive":".property","text":".property specialname instance int32 N.C::P()"}
{"token":"18000001","directive":".get","text":".get instance int32 N.C::get_P() of N.C::P"}
{"token":"02000003","directive":".class","text":".class private auto ansi '\u001bD' extends N.C"}
{"token":"17000002","type":"02000003","directive":".property","text":".property instance int32 '\u001bD'::M()"}
{"token":"1c000001","directive":".pinvokeimpl","text":".pinvokeimpl(\"k.dll\" as \"M\" platformapi) of N.C::M"}
{"token":"0c000001","directive":".custom","text":".custom void N.C::.ctor() = (0100) of N.C"}
"#;
    assert_eq!(rt; json_of(rt.alloc(), root.as_slice())?.as_str(), lines);
    Ok(())
}

/// A name of more than 1,023 bytes is quoted. Of a text of more than 65,536 bytes, `..` stands for the bytes after these, and
/// a quote that is open is closed.
#[test]
fn cuts_long_names(rt: HostRuntime) -> Result<(), Fail> {
    for (len, begin, end) in [
        (1_023, ".module extern aa", "aa  // 1a000001\n"),
        (1_024, ".module extern 'aa", "aa'  // 1a000001\n"),
        (65_534, ".module extern 'aa", "aa'  // 1a000001\n"),
        (65_535, ".module extern 'aa", "aa'..  // 1a000001\n"),
        (65_537, ".module extern 'aa", "aa'..  // 1a000001\n"),
    ] {
        let mut heap = vec![in rt.alloc(); 0]?;
        for _ in 0..len {
            heap.push(b'a')?;
        }
        heap.push(0)?;
        let mut root = RootBuilder::new(rt.alloc());
        root.row(0x1A, b"\x01\0")?;
        root.heap("#Strings", heap.as_slice())?;
        let root = root.finish()?;
        let out = outline_of(&rt, root.as_slice())?;
        assert!(rt; out.as_str().starts_with(begin), "{len}");
        assert!(rt; out.as_str().ends_with(end), "{len}");
        assert!(rt; out.len() <= 65_600, "{len}");
    }
    Ok(())
}

/// In JSON names are as they are, but for quotes and backslashes. If a name is cut within a character, all escapes stay. The
/// limit counts the bytes of escapes: each byte of the last character has four.
#[test]
fn names_are_as_they_are_in_json(rt: HostRuntime) -> Result<(), Fail> {
    let quoted = r#"{"token":"1a000001","directive":".module","text":".module extern 'Café\\x27\\x22\\x5c'"}"#;
    let long = r#"{"token":"1a000002","directive":".module","text":".module extern 'aa"#;
    for (len, end) in [(65_527, r#"aaé'.."}"#), (65_531, r#"aa\\xc3'.."}"#)] {
        let mut heap = vec![in rt.alloc(); 0]?;
        heap.extend_from_slice("Caf\u{e9}'\"\\\0".as_bytes())?;
        for _ in 0..len {
            heap.push(b'a')?;
        }
        heap.extend_from_slice("\u{e9}\0".as_bytes())?;
        let mut root = RootBuilder::new(rt.alloc());
        root.row(0x1A, b"\x01\0")?;
        root.row(0x1A, b"\x0A\0")?;
        root.heap("#Strings", heap.as_slice())?;
        let root = root.finish()?;
        let out = json_of(rt.alloc(), root.as_slice())?;
        let mut lines = out.as_str().lines();
        assert_eq!(rt; lines.next(), Some(quoted));
        assert!(rt; lines.next().is_some_and(|line| line.starts_with(long) && line.ends_with(end)), "{len}");
    }
    Ok(())
}

/// Names that would pass for the rest of their line: `it's\` and a line feed at 1, `T extends Evil` at 8,
/// `f  // 04000009` at 23, `M()  // 06000009` at 38, `p, int32 q` at 55, `A { .ver 9:9:9:9 }` at 66, `9` at 85, `A.B` at 87,
/// and `.cctor` at 91.
const FORGED: &[u8] = b"\0it's\\\n\0T extends Evil\0f  // 04000009\0M()  // 06000009\0p, int32 q\0A { .ver 9:9:9:9 }\09\0A.B\0.cctor\0";

/// A line with `Q` for each name in quotes: what a reader reads that knows quotes, but not the names.
fn without_quotes(alloc: Global, line: &str) -> Result<String, Fail> {
    let mut out = String::new(alloc);
    for (index, part) in line.split('\'').enumerate() {
        out.push_str(if index % 2 == 0 { part } else { "Q" })?;
    }
    Ok(out)
}

#[test]
fn forged_names_are_quoted(rt: HostRuntime) -> Result<(), Fail> {
    let mut root = RootBuilder::new(rt.alloc());
    // A type of each name, of which the first has the namespace `9`, and the second a field and two methods.
    root.row(0x02, b"\0\0\0\0\x01\0\x55\0\0\0\x01\0\x01\0")?;
    root.row(0x02, b"\0\0\0\0\x08\0\x57\0\x04\0\x01\0\x01\0")?;
    root.row(0x02, b"\0\0\0\0\x57\0\0\0\0\0\x02\0\x03\0")?;
    root.row(0x04, b"\x01\0\x17\0\x06\0")?;
    root.row(0x06, b"\0\0\0\0\0\0\x16\0\x26\0\x01\0\x01\0")?;
    root.row(0x06, b"\0\0\0\0\0\0\x16\0\x5B\0\x01\0\x02\0")?;
    root.row(0x08, b"\0\0\x01\0\x37\0")?;
    root.row(0x20, b"\0\0\0\0\x01\0\0\0\0\0\0\0\0\0\0\0\0\0\x42\0\0\0")?;
    root.heap("#Strings", FORGED)?;
    // A static method of an integer without a result, and an integer.
    root.heap("#Blob", b"\0\x04\0\x01\x01\x08\x02\x06\x08")?;
    let root = root.finish()?;
    let lines = "\
.assembly 'A { .ver 9:9:9:9 }' { .hash algorithm 0x00000000 .ver 1:0:0:0 }  // 20000001
.class private auto ansi '9'.'it\\x27s\\x5c\\x0a'  // 02000001
.class private auto ansi A.B.'T extends Evil' extends '9'.'it\\x27s\\x5c\\x0a'  // 02000002
  .field private int32 A.B.'T extends Evil'::'f  // 04000009'  // 04000001
  .method public static void A.B.'T extends Evil'::'M()  // 06000009'(int32 'p, int32 q') cil managed  // 06000001
  .method public static void A.B.'T extends Evil'::.cctor(int32) cil managed  // 06000002
.class private auto ansi 'A.B'  // 02000003
";
    let read = "\
.assembly Q { .hash algorithm 0x00000000 .ver 1:0:0:0 }  // 20000001
.class private auto ansi Q.Q  // 02000001
.class private auto ansi A.B.Q extends Q.Q  // 02000002
  .field private int32 A.B.Q::Q  // 04000001
  .method public static void A.B.Q::Q(int32 Q) cil managed  // 06000001
  .method public static void A.B.Q::.cctor(int32) cil managed  // 06000002
.class private auto ansi Q  // 02000003
";
    let out = outline_of(&rt, root.as_slice())?;
    assert_eq!(rt; out.as_str(), lines);
    assert_eq!(rt; without_quotes(rt.alloc(), out.as_str())?.as_str(), read);
    Ok(())
}

/// Maps and accessors in any order: each property is below its type, and each accessor below its property.
#[test]
fn prints_properties_below_their_type_in_any_order(rt: HostRuntime) -> Result<(), Fail> {
    let setter = [1, 0, 2, 0, 3, 0];
    let getter = [2, 0, 1, 0, 5, 0];
    let root = root_of_properties(rt.alloc(), [[3, 0, 1, 0], [2, 0, 2, 0]], &[getter, setter])?;
    let class = "\
.class public auto ansi beforefieldinit N.C  // 02000002
  .method public hidebysig specialname instance int32 N.C::get_P() cil managed  // 06000001
  .method public static pinvokeimpl void N.C::M() cil managed  // 06000002
  .event N.C N.C::E  // 14000001
  .property instance int32 N.C::M()  // 17000002
    .get instance int32 N.C::get_P() of N.C::M  // 18000001
";
    let next = "\
.class private auto ansi '\\x1bD' extends N.C  // 02000003
  .property specialname instance int32 '\\x1bD'::P()  // 17000001
    .set void N.C::M() of '\\x1bD'::P  // 18000002
.pinvokeimpl";
    let out = outline_of(&rt, root.as_slice())?;
    assert!(rt; out.as_str().contains(class));
    assert!(rt; out.as_str().contains(next));
    let described = "\
.pinvokeimpl(\"k.dll\" as \"M\" platformapi) of N.C::M  // 1c000001
.custom void N.C::.ctor() = (0100) of N.C  // 0c000001
";
    let words = ["clim", "outline", "--bare", "o.root", "N.C"];
    let printed = printed(&rt, root.as_slice(), &words)?;
    assert_eq!(rt; printed.as_str().strip_prefix(class), Some(described));
    Ok(())
}

/// An accessor none of whose flags has a word begins with no directive (II.23.1.12).
#[test]
fn gives_no_directive_to_an_accessor_without_a_word(rt: HostRuntime) -> Result<(), Fail> {
    let unknown = [0, 0, 1, 0, 3, 0];
    let root = root_of_properties(rt.alloc(), [[2, 0, 1, 0], [3, 0, 2, 0]], &[unknown])?;
    let line = "\n{\"token\":\"18000001\",\"text\":\"instance int32 N.C::get_P() of N.C::P\"}\n";
    assert!(rt; json_of(rt.alloc(), root.as_slice())?.as_str().contains(line));
    Ok(())
}

/// Blobs: the signature of an integer at 1, and values: one byte at 4 and at 6, two at 8 and at 11, four at 14 and at 19, eight
/// at 24, the units of `i"é` at 33, four zeros at 40, three bytes at 45, and the signature of a property at 49.
const VALUES: &[u8] = b"\0\x02\x06\x08\x01\x01\x01\xFB\x02\x41\0\x02\0\x80\x04\xFF\xFF\xFF\xFF\x04\0\0\x80\x3F\x08\xFF\xFF\xFF\xFF\xFF\xFF\xFF\x7F\x06i\0\"\0\xE9\0\x04\0\0\0\0\x03\x01\x02\x03\x03\x28\0\x08";

/// A field for each of these types and values (II.22.9), with its line after `int32 M`.
const CONSTANTS: &[(u8, u8, &str)] = &[
    (0x02, 4, "bool(true)"),
    (0x04, 6, "int8(-5)"),
    (0x05, 6, "unsigned int8(251)"),
    (0x03, 8, "char(65)"),
    (0x06, 11, "int16(-32768)"),
    (0x07, 11, "unsigned int16(32768)"),
    (0x08, 14, "int32(-1)"),
    (0x09, 14, "unsigned int32(4294967295)"),
    (0x0C, 19, "float32(0x3f800000)"),
    (0x0A, 24, "int64(9223372036854775807)"),
    (0x0B, 24, "unsigned int64(9223372036854775807)"),
    (0x0D, 24, "float64(0x7fffffffffffffff)"),
    (0x0E, 33, "\"i\\\"\\u00e9\""),
    (0x0E, 0, "\"\""),
    (0x12, 40, "nullref"),
    (0x12, 14, "bytearray(ffffffff)"),
    (0x08, 45, "bytearray(010203)"),
    (0x0E, 45, "bytearray(010203)"),
    (0x18, 14, "bytearray(ffffffff)"),
    (0x02, 0, "bytearray()"),
];

/// The rows of Constant are in descending order, and the first field has a second one.
#[test]
fn prints_the_constants_of_fields_and_properties(rt: HostRuntime) -> Result<(), Fail> {
    let mut root = RootBuilder::new(rt.alloc());
    root.sorted = 0;
    root.row(0x02, b"\0\0\0\0\x07\0\x05\0\0\0\x01\0\x01\0")?;
    let mut lines = format!(in rt.alloc(); ".class private auto ansi N.C  // 02000001\n")?;
    for _ in CONSTANTS {
        root.row(0x04, b"\x56\0\x09\0\x01\0")?;
    }
    root.row(0x0B, b"\x08\0\x06\0\x0E\0")?;
    for (index, (_, _, text)) in CONSTANTS.iter().enumerate() {
        let row = index + 1;
        let (of, blob, _) = CONSTANTS[CONSTANTS.len() - row];
        let parent = (CONSTANTS.len() - index) as u8 * 4;
        root.row(0x0B, &[of, 0, parent, 0, blob, 0])?;
        let line = format!(in rt.alloc(); "  .field public static literal int32 N.C::M = {text}  // 040000{row:02x}\n")?;
        lines.push_str(&line)?;
    }
    root.row(0x0B, b"\x08\0\x04\0\x28\0")?;
    root.row(0x15, b"\x01\0\x01\0")?;
    root.row(0x17, b"\0\0\x0B\0\x31\0")?;
    root.heap("#Strings", TEXTS)?;
    root.heap("#Blob", VALUES)?;
    lines.push_str("  .property instance int32 N.C::P() = int32(-1)  // 17000001\n")?;
    let root = root.finish()?;
    assert_eq!(rt; outline_of(&rt, root.as_slice())?.as_str(), lines.as_str());
    let json = r#""text":".field public static literal int32 N.C::M = \"i\\\"\\u00e9\""}"#;
    assert!(rt; json_of(rt.alloc(), root.as_slice())?.as_str().contains(json));
    Ok(())
}

/// Of the bytes of a value the first 65,536 are printed.
#[test]
fn cuts_long_values(rt: HostRuntime) -> Result<(), Fail> {
    for (of, count, before, text, after) in [
        (0x08, 65_536, "bytearray(", "61", ")  // 04000001\n"),
        (0x08, 65_537, "bytearray(", "61", "..)  // 04000001\n"),
        (0x0E, 65_536, "\"", "\\u6161", "\"  // 04000001\n"),
        (0x0E, 65_538, "\"", "\\u6161", "..\"  // 04000001\n"),
    ] {
        let mut root = RootBuilder::new(rt.alloc());
        root.row(0x02, b"\0\0\0\0\x07\0\x05\0\0\0\x01\0\x01\0")?;
        root.row(0x04, b"\x56\0\x09\0\x01\0")?;
        root.row(0x0B, &[of, 0, 4, 0, 4, 0])?;
        let mut blobs = Vec::new(rt.alloc());
        blobs.extend_from_slice(b"\0\x02\x06\x08")?;
        blobs.extend_from_slice(&(0xC000_0000_u32 | count).to_be_bytes())?;
        for _ in 0..count {
            blobs.push(b'a')?;
        }
        root.heap("#Strings", TEXTS)?;
        root.heap("#Blob", &blobs)?;
        let times = if of == 0x0E { 32_768 } else { 65_536 };
        let mut line = format!(in rt.alloc(); "  .field public static literal int32 N.C::M = {before}")?;
        for _ in 0..times {
            line.push_str(text)?;
        }
        line.push_str(after)?;
        assert!(rt; outline_of(&rt, &root.finish()?)?.as_str().ends_with(line.as_str()));
    }
    Ok(())
}

/// A type with a layout, fields with an offset, an address and a descriptor, permission sets, and a module with a GUID.
#[test]
fn prints_layouts_addresses_and_permissions(rt: HostRuntime) -> Result<(), Fail> {
    let mut root = RootBuilder::new(rt.alloc());
    root.sorted = 0;
    root.row(0x00, b"\0\0\x15\0\x01\0\0\0\0\0")?;
    root.row(0x02, b"\x10\0\0\0\x07\0\x05\0\0\0\x01\0\x01\0")?;
    root.row(0x04, b"\x06\x01\x09\0\x01\0")?;
    root.row(0x04, b"\x06\x10\x0B\0\x01\0")?;
    root.row(0x0D, b"\x04\0\x2D\0")?;
    root.row(0x0E, b"\x06\0\x04\0\x2D\0")?;
    root.row(0x0E, b"\x10\0\x04\0\x04\0")?;
    root.row(0x0F, b"\x08\0\x10\0\0\0\x01\0")?;
    root.row(0x10, b"\x04\0\0\0\x02\0")?;
    root.row(0x1D, b"\x50\x20\0\0\x01\0")?;
    root.heap("#Strings", TEXTS)?;
    root.heap("#Blob", VALUES)?;
    root.heap("#GUID", b"\x32\x58\x1E\xFC\xF6\x60\xEC\x47\x89\x7C\xA8\xAD\xDE\x90\xF8\x7F")?;
    let root = root.finish()?;
    let lines = "\
.module k.dll /* {fc1e5832-60f6-47ec-897c-a8adde90f87f} */  // 00000001
.class private explicit ansi N.C { .pack 8 .size 16 }  // 02000001
  .field public int32 N.C::M at D_00002050  // 04000001
  .field [4] public marshal(010203) int32 N.C::P  // 04000002
.permissionset linkcheck = (010203) of N.C  // 0e000001
.permissionset 16 = (01) of N.C  // 0e000002
";
    assert_eq!(rt; outline_of(&rt, root.as_slice())?.as_str(), lines);
    Ok(())
}

/// The rows of interfaces and of constraints are in no order (II.22.20, II.22.21, II.22.23).
#[test]
fn prints_generic_parameters_and_interfaces(rt: HostRuntime) -> Result<(), Fail> {
    let mut root = RootBuilder::new(rt.alloc());
    root.sorted = 0;
    root.row(0x02, b"\0\0\0\0\x01\0\0\0\0\0\x01\0\x01\0")?;
    root.row(0x02, b"\x01\0\0\0\x07\0\x05\0\x04\0\x01\0\x01\0")?;
    root.row(0x02, b"\xA0\0\0\0\x0B\0\0\0\0\0\x01\0\x01\0")?;
    root.row(0x09, b"\x02\0\x0C\0")?;
    root.row(0x09, b"\x03\0\x04\0")?;
    root.row(0x09, b"\x02\0\x04\0")?;
    root.row(0x2A, b"\0\0\x15\0\x04\0\x09\0")?;
    root.row(0x2A, b"\x01\0\0\0\x04\0\x13\0")?;
    root.row(0x2C, b"\x01\0\x0C\0")?;
    root.row(0x2C, b"\x02\0\x04\0")?;
    root.row(0x2C, b"\x01\0\x04\0")?;
    root.heap("#Strings", TEXTS)?;
    let root = root.finish()?;
    let lines = "\
.class private auto ansi '<M>'  // 02000001
.class public auto ansi N.C<+ class .ctor (P, '<M>') M, ('<M>') E> extends '<M>' implements P, '<M>'  // 02000002
.class private auto interface abstract ansi P implements '<M>'  // 02000003
.interfaceimpl type N.C implements P  // 09000001
.interfaceimpl type P implements '<M>'  // 09000002
.interfaceimpl type N.C implements '<M>'  // 09000003
.param type + class .ctor M [0] of N.C  // 2a000001
.param type E [1] of N.C  // 2a000002
.param constraint M 2a000001, P  // 2c000001
.param constraint E 2a000002, '<M>'  // 2c000002
.param constraint M 2a000001, '<M>'  // 2c000003
";
    assert_eq!(rt; outline_of(&rt, root.as_slice())?.as_str(), lines);
    Ok(())
}

/// MemberRefs of a method and of a module, and exported types, one within another (II.22.14, II.22.25).
fn root_of_names(alloc: Global) -> Result<Vec<u8>, Fail> {
    let mut root = RootBuilder::new(alloc);
    root.row(0x02, b"\0\0\0\0\x01\0\0\0\0\0\x01\0\x01\0")?;
    root.row(0x02, b"\x01\0\x10\0\x07\0\x05\0\0\0\x01\0\x01\0")?;
    root.row(0x06, b"\0\0\0\0\0\0\x16\0\x09\0\x09\0\x01\0")?;
    root.row(0x0A, b"\x0B\0\x09\0\x09\0")?;
    root.row(0x0A, b"\x0A\0\x09\0\x09\0")?;
    root.row(0x0C, b"\x43\0\x0B\0\x0D\0")?;
    root.row(0x0C, b"\x43\0\x13\0\x0D\0")?;
    root.row(0x1A, b"\x15\0")?;
    root.row(0x23, b"\x01\0\0\0\0\0\0\0\0\0\0\0\0\0\x13\0\0\0\0\0")?;
    root.row(0x27, b"\0\0\0\0\0\0\0\0\x07\0\x05\0\x05\0")?;
    root.row(0x27, b"\0\0\0\0\0\0\0\0\x09\0\0\0\x06\0")?;
    root.heap("#Strings", TEXTS)?;
    root.heap("#Blob", BLOBS)?;
    Ok(root.finish()?)
}

#[test]
fn names_parents_that_are_no_types(rt: HostRuntime) -> Result<(), Fail> {
    let root = root_of_names(rt.alloc())?;
    let lines = "\
.assembly extern E { .ver 1:0:0:0 }  // 23000001
.module extern k.dll  // 1a000001
.class extern private auto ansi N.C in 23000001 E  // 27000001
.class extern private auto ansi M in 27000001 N.C  // 27000002
.class private auto ansi '<M>'  // 02000001
.class public auto ansi beforefieldinit N.C  // 02000002
  .method public static void N.C::M() cil managed  // 06000001
.custom void N.C::M() = (0100) of N.C  // 0c000001
.custom void k.dll::M() = (0100) of N.C  // 0c000002
";
    assert_eq!(rt; outline_of(&rt, root.as_slice())?.as_str(), lines);
    Ok(())
}

/// Blobs: `instance int32 ()` at 1, a field of an integer at 5, and `vararg void (int32, ..., string)` at 8.
const REFERRED: &[u8] = b"\0\x03\x20\0\x08\x02\x06\x08\x06\x05\x02\x01\x08\x41\x0E";

/// Types of an assembly, within another and of a module, and one without a scope; and members of two of them and of the
/// module (II.22.25, II.22.38).
fn root_of_references(alloc: Global) -> Result<Vec<u8>, Fail> {
    let mut root = RootBuilder::new(alloc);
    root.row(0x01, b"\x06\0\x07\0\x05\0")?;
    root.row(0x01, b"\x07\0\x09\0\0\0")?;
    root.row(0x01, b"\x05\0\x07\0\0\0")?;
    root.row(0x01, b"\0\0\x13\0\0\0")?;
    root.row(0x0A, b"\x11\0\x1B\0\x01\0")?;
    root.row(0x0A, b"\x19\0\x0B\0\x05\0")?;
    root.row(0x0A, b"\x0A\0\x09\0\x08\0")?;
    root.row(0x1A, b"\x15\0")?;
    root.row(0x23, b"\x01\0\0\0\0\0\0\0\0\0\0\0\0\0\x13\0\0\0\0\0")?;
    root.heap("#Strings", TEXTS)?;
    root.heap("#Blob", REFERRED)?;
    Ok(root.finish()?)
}

#[test]
fn prints_references_with_their_scopes(rt: HostRuntime) -> Result<(), Fail> {
    let root = root_of_references(rt.alloc())?;
    let lines = "\
.module extern k.dll  // 1a000001
.typeref [E]N.C  // 01000001
.typeref [E]N.C/M  // 01000002
.typeref [.module k.dll]C  // 01000003
.typeref E  // 01000004
.memberref instance int32 [E]N.C/M::.ctor()  // 0a000001
.memberref int32 [.module k.dll]C::P  // 0a000002
.memberref vararg void k.dll::M(int32, ..., string)  // 0a000003
";
    let Ok(view) = open(root.as_slice(), Input::BareRoot) else {
        return Err("a broken root".into());
    };
    let mut out = Vec::new(rt.alloc());
    let mut printer = Printer::new(rt.alloc(), Form::Text, &mut out);
    print_refs(rt.alloc(), &view, OutlineOptions::default(), &mut printer);
    assert!(rt; printer.finish().1.is_ok());
    assert_eq!(rt; str::from_utf8(out.as_slice()), Ok(lines));
    Ok(())
}

/// The token at the end of a line.
fn token_of(line: &str) -> Result<&str, Fail> {
    let (_, token) = line.rsplit_once("  // ").ok_or("no token")?;
    Ok(token)
}

/// Each row of another table than TypeDef has the same line alone, by its token.
#[test]
fn prints_each_row_alone(rt: HostRuntime) -> Result<(), Fail> {
    let alloc = rt.alloc();
    let properties = root_of_properties(alloc, [[2, 0, 1, 0], [3, 0, 2, 0]], &[GETTER])?;
    let references = root_of_references(alloc)?;
    let names = root_of_names(alloc)?;
    let mut rows = 0;
    for (root, report) in [(&properties, "outline"), (&names, "outline"), (&references, "refs")] {
        let text = printed(&rt, root.as_slice(), &["clim", report, "--bare", "o.root"])?;
        let json = printed(&rt, root.as_slice(), &["clim", report, "--bare", "--json", "o.root"])?;
        for (line, value) in text.as_str().lines().zip(json.as_str().lines()) {
            let token = token_of(line)?;
            if token.starts_with("02") {
                continue;
            }
            let words = ["clim", "outline", "--bare", "o.root", token];
            assert_eq!(rt; printed(&rt, root.as_slice(), &words)?.as_str().lines().next(), Some(line));
            let words = ["clim", "outline", "--bare", "--json", "o.root", token];
            assert_eq!(rt; printed(&rt, root.as_slice(), &words)?.as_str().lines().next(), Some(value));
            rows += 1;
        }
    }
    assert_eq!(rt; rows, 24);
    Ok(())
}

/// The exit code, the output and the messages of a command on a root.
fn answered(
    rt: &HostRuntime,
    root: &[u8],
    words: &[&str],
) -> Result<(u8, String, String), Fail> {
    fs::write(rt, "o.root", root)?;
    let said = answer(rt, words)?;
    fs::remove_file(rt, "o.root")?;
    Ok(said)
}

/// A row without a line is reported: a map, a type of a signature, and a parameter without a default value. So is a row that
/// does not exist. A row that is not visible has no line with `--public`.
#[test]
fn reports_rows_without_lines(rt: HostRuntime) -> Result<(), Fail> {
    let mut root = RootBuilder::new(rt.alloc());
    root.row(0x02, b"\0\0\0\0\x07\0\x05\0\0\0\x01\0\x01\0")?;
    root.row(0x06, b"\0\0\0\0\0\0\x16\0\x09\0\x09\0\x01\0")?;
    root.row(0x08, b"\0\0\x01\0\x07\0")?;
    root.row(0x1B, b"\x11\0")?;
    root.heap("#Strings", TEXTS)?;
    root.heap("#Blob", b"\0\x03\x20\0\x08\x03\x28\0\x08\x03\0\0\x01\x02\x01\0\0\x01\x08")?;
    let root = root.finish()?;
    for token in ["08000001", "1b000001", "1b000002", "15000001", "06000002", "06000000"] {
        let words = ["clim", "outline", "--bare", "o.root", token];
        let (status, out, err) = answered(&rt, root.as_slice(), &words)?;
        assert_eq!(rt; (status, out.as_str(), err.as_str()), (1, "", "no such type\n"), "{token}");
    }
    let words = ["clim", "outline", "--bare", "--public", "o.root", "06000001"];
    let (status, out, err) = answered(&rt, root.as_slice(), &words)?;
    assert_eq!(rt; (status, out.as_str(), err.as_str()), (0, "", ""));
    let words = ["clim", "outline", "--bare", "--no-tokens", "--sorted", "o.root", "06000001"];
    let (status, out, err) = answered(&rt, root.as_slice(), &words)?;
    assert_eq!(rt; (status, out.as_str(), err.as_str()), (0, "  .method public static void N.C::M() cil managed\n", ""));
    Ok(())
}

/// Blobs: `void ()` at 1, `class N.C<int32>` at 5, `class N.C[]` at 11, `valuetype N.C<int32>` at 15, and `class N.C` with a modifier
/// at 21.
const INSTANCES: &[u8] =
    b"\0\x03\0\0\x01\x05\x15\x12\x05\x01\x08\x03\x1D\x12\x05\x05\x15\x11\x05\x01\x08\x07\x20\x05\x15\x12\x05\x01\x08";

/// `N.C` of two modules and a type within the first; and members of these, of instances of the first, of an array of it and of a
/// module (II.22.25, II.22.38, II.23.2.14).
fn root_of_instances(alloc: Global) -> Result<Vec<u8>, Fail> {
    let mut root = RootBuilder::new(alloc);
    root.row(0x01, b"\x05\0\x07\0\x05\0")?;
    root.row(0x01, b"\x07\0\x09\0\0\0")?;
    root.row(0x01, b"\x09\0\x07\0\x05\0")?;
    for class in [0x09, 0x0C, 0x11, 0x14, 0x19, 0x0A, 0x1C, 0x24] {
        root.row(0x0A, &[class, 0, 0x09, 0, 0x01, 0])?;
    }
    root.row(0x1A, b"\x15\0")?;
    root.row(0x1A, b"\x13\0")?;
    for signature in [5, 11, 15, 21] {
        root.row(0x1B, &[signature, 0])?;
    }
    root.heap("#Strings", TEXTS)?;
    root.heap("#Blob", INSTANCES)?;
    Ok(root.finish()?)
}

/// What is referred to of a type: that of each scope, and its members, also those of its instances.
#[test]
fn prints_references_of_one_type(rt: HostRuntime) -> Result<(), Fail> {
    let root = root_of_instances(rt.alloc())?;
    let whole = printed(&rt, root.as_slice(), &["clim", "refs", "--bare", "o.root"])?;
    let json = printed(&rt, root.as_slice(), &["clim", "refs", "--bare", "--json", "o.root"])?;
    for (name, tokens) in [
        ("N.C", ["01000001", "01000003", "0a000001", "0a000002", "0a000005", "0a000007"].as_slice()),
        ("N.C/M", &["01000002", "0a000003"]),
        ("01000001", &["01000001", "0a000001", "0a000002", "0a000007"]),
        ("0x01000002", &["01000002", "0a000003"]),
        ("01000003", &["01000003", "0a000005"]),
    ] {
        for (lines, word) in [(&whole, "--bare"), (&json, "--json")] {
            let mut wanted = String::new(rt.alloc());
            for (line, text) in lines.as_str().lines().zip(whole.as_str().lines()) {
                if tokens.contains(&token_of(text)?) {
                    wanted.push_str(line)?;
                    wanted.push('\n')?;
                }
            }
            let words: &[&str] = match word {
                "--json" => &["clim", "refs", "--bare", "--json", "o.root", name],
                _ => &["clim", "refs", "--bare", "o.root", name],
            };
            let text = printed(&rt, root.as_slice(), words)?;
            assert_eq!(rt; text.as_str(), wanted.as_str(), "{name}");
        }
    }
    const NEAR: &str = "no such type\n  hint: the nearest name is 'N.C'\n";
    for (name, said) in [
        ("N.D", NEAR),
        ("C", NEAR),
        ("M", "no such type\n  hint: the nearest name is 'M'\n"),
        ("N.C/M/M", "no such type\n  hint: the nearest name is 'M'\n"),
        ("01000004", "no such type\n"),
        ("0a000001", "no such type\n"),
        ("02000001", "no such type\n"),
    ] {
        let words = ["clim", "refs", "--bare", "o.root", name];
        let (status, out, err) = answered(&rt, root.as_slice(), &words)?;
        assert_eq!(rt; (status, out.as_str(), err.as_str()), (1, "", said), "{name}");
    }
    let words = ["clim", "refs", "--bare", "o.root", "N.C"];
    let (status, out, err) = answered(&rt, &root.as_slice()[..9], &words)?;
    assert!(rt; status == 1 && out.is_empty() && err.starts_with("fault 3 "), "{err}");
    Ok(())
}

/// The scopes of TypeRefs go in a circle: a path ends all the same.
#[test]
fn ends_in_a_circle_of_scopes(rt: HostRuntime) -> Result<(), Fail> {
    let mut root = RootBuilder::new(rt.alloc());
    root.row(0x01, b"\x0B\0\x07\0\0\0")?;
    root.row(0x01, b"\x07\0\x07\0\0\0")?;
    root.heap("#Strings", TEXTS)?;
    let root = root.finish()?;
    for name in ["C", "C/C", "C/C/C", "C/C/C/C/C/C/C/C/C"] {
        let words = ["clim", "refs", "--bare", "o.root", name];
        let (status, out, err) = answered(&rt, root.as_slice(), &words)?;
        assert!(rt; status == 1 && out.is_empty() && err.starts_with("no such type\n"), "{name}: {err}");
    }
    Ok(())
}

/// A file with this root, whose CLI header has these flags and this entry point (II.25.3.3).
fn file_with_entry(root: &[u8], flags: u8, entry: [u8; 4]) -> [u8; 1024] {
    let mut file = image();
    write_at(&mut file, 0x214, &(root.len() as u32).to_le_bytes());
    write_at(&mut file, 0x218, &[flags]);
    write_at(&mut file, 0x21C, &entry);
    write_at(&mut file, 0x250, root);
    file
}

/// The method or the file that is the entry point is marked, unless the entry point is native.
#[test]
fn marks_the_entry_point(rt: HostRuntime) -> Result<(), Fail> {
    const METHOD: [u8; 4] = [1, 0, 0, 6];
    const MARKED: &str = "  .method public void N.C::M() cil managed .entrypoint  // 06000001\n";
    const PLAIN: &str = "  .method public void N.C::M() cil managed  // 06000001\n";
    for (flags, entry, line) in
        [(1, METHOD, MARKED), (0x10, METHOD, PLAIN), (0x11, METHOD, PLAIN), (1, [0; 4], PLAIN)]
    {
        let file = file_with_entry(&TWO_TYPES, flags, entry);
        let whole = printed(&rt, &file, &["clim", "outline", "o.root"])?;
        assert!(rt; whole.as_str().ends_with(line), "{whole}");
        let alone = printed(&rt, &file, &["clim", "outline", "o.root", "06000001"])?;
        assert_eq!(rt; alone.as_str(), line);
        let class = printed(&rt, &file, &["clim", "outline", "o.root", "N.C"])?;
        assert!(rt; class.as_str().ends_with(line), "{class}");
    }
    let file = file_with_entry(&TWO_TYPES, 1, METHOD);
    let json = printed(&rt, &file, &["clim", "outline", "--json", "o.root", "06000001"])?;
    const VALUE: &str = "{\"token\":\"06000001\",\"type\":\"02000002\",\"directive\":\".method\",\"text\":\".method public void N.C::M() cil managed .entrypoint\"}\n";
    assert_eq!(rt; json.as_str(), VALUE);
    let bare = printed(&rt, &TWO_TYPES, &["clim", "outline", "--bare", "o.root", "06000001"])?;
    assert_eq!(rt; bare.as_str(), PLAIN);
    let mut root = RootBuilder::new(rt.alloc());
    root.row(0x26, b"\0\0\0\0\x15\0\0\0")?;
    root.heap("#Strings", TEXTS)?;
    let file = file_with_entry(root.finish()?.as_slice(), 1, [1, 0, 0, 0x26]);
    let whole = printed(&rt, &file, &["clim", "outline", "o.root"])?;
    assert_eq!(rt; whole.as_str(), ".file k.dll .entrypoint  // 26000001\n");
    Ok(())
}

/// NestedClass with these rows, over three types. The table need not be sorted.
fn root_of_nested(alloc: Global, rows: [[u8; 4]; 2]) -> Result<Vec<u8>, Fail> {
    let mut root = RootBuilder::new(alloc);
    root.sorted = 0;
    for name in [5, 7, 9] {
        root.row(0x02, &[0, 0, 0, 0, name, 0, 0, 0, 0, 0, 1, 0, 1, 0])?;
    }
    for row in &rows {
        root.row(0x29, row)?;
    }
    root.heap("#Strings", TEXTS)?;
    Ok(root.finish()?)
}

#[test]
fn names_enclosing_types_if_they_are_in_order(rt: HostRuntime) -> Result<(), Fail> {
    let named = "\
.class private auto ansi N  // 02000001
.class private auto ansi N/C  // 02000002
.class private auto ansi N/C/M  // 02000003
";
    let alone = "\
.class private auto ansi N  // 02000001
.class private auto ansi C  // 02000002
.class private auto ansi M  // 02000003
";
    let (second, third) = ([2, 0, 1, 0], [3, 0, 2, 0]);
    for (rows, lines) in [([second, third], named), ([third, second], alone)] {
        let root = root_of_nested(rt.alloc(), rows)?;
        assert_eq!(rt; outline_of(&rt, root.as_slice())?.as_str(), lines);
    }
    Ok(())
}

/// Texts: `<M>` at 1, `N` at 5, `C` at 7, `E` at 9, `.ctor` at 11, `System` at 17, `Enum` at 24, `Type` at 29, `value__` at 34
/// and `A` at 42.
const ATTRIBUTE_TEXTS: &[u8] =
    b"\0<M>\0N\0C\0E\0.ctor\0System\0Enum\0Type\0value__\0A\0";

/// Blobs: the type of a field at 1, `void ()` at 4, `instance void ()` at 8, and a value without arguments at 12.
const DESCRIBED_BLOBS: &[u8] = b"\0\x02\x06\x08\x03\0\0\x01\x03\x20\0\x01\x04\x01\0\0\0";

/// Two types, `N.C` and `N.E`. Each has a field and a method with a parameter, and everything that describes one of these.
fn root_of_described(alloc: Global) -> Result<Vec<u8>, Fail> {
    let mut root = RootBuilder::new(alloc);
    root.sorted = 0;
    root.row(0x02, b"\0\0\0\0\x01\0\0\0\0\0\x01\0\x01\0")?;
    root.row(0x02, b"\x01\0\x10\0\x07\0\x05\0\0\0\x01\0\x01\0")?;
    root.row(0x02, b"\x01\0\x10\0\x13\0\x05\0\0\0\x02\0\x02\0")?;
    let rows = [1_u8, 2];
    rows.iter().try_for_each(|_| root.row(0x04, b"\x06\0\x0B\0\x01\0"))?;
    for row in rows {
        root.row(0x06, &[0, 0, 0, 0, 0, 0, 0x16, 0x20, 9, 0, 4, 0, row, 0])?;
    }
    rows.iter().try_for_each(|_| root.row(0x08, b"\0\0\0\0\x05\0"))?;
    // The interface of each type (II.22.23).
    root.row(0x09, b"\x02\0\x0C\0")?;
    root.row(0x09, b"\x03\0\x08\0")?;
    root.row(0x0A, b"\x10\0\x1B\0\x08\0")?;
    // The attributes of a method, a field, a parameter, an interface, a permission set, a generic parameter and a constraint; and
    // of each type (II.22.10, II.24.2.6).
    for row in rows {
        for tag in [0, 1, 4, 5, 8, 19, 20] {
            root.row(0x0C, &[row << 5 | tag, 0, 0x0B, 0, 12, 0])?;
        }
    }
    root.row(0x0C, b"\x43\0\x0B\0\x0C\0")?;
    root.row(0x0C, b"\x63\0\x0B\0\x0C\0")?;
    // The permission set of each method, and the override of each type (II.22.11, II.22.27).
    for row in rows {
        root.row(0x0E, &[2, 0, row << 2 | 1, 0, 12, 0])?;
    }
    root.row(0x19, b"\x02\0\x02\0\x04\0")?;
    root.row(0x19, b"\x03\0\x04\0\x02\0")?;
    // The import and the generic parameter of each method, and its constraint (II.22.20 to II.22.22).
    root.row(0x1A, b"\x15\0")?;
    for row in rows {
        root.row(0x1C, &[0, 1, row << 1 | 1, 0, 9, 0, 1, 0])?;
    }
    for row in rows {
        root.row(0x2A, &[0, 0, 0, 0, row << 1 | 1, 0, 11, 0])?;
    }
    for row in rows {
        root.row(0x2C, &[row, 0, 12, 0])?;
    }
    root.heap("#Strings", TEXTS)?;
    root.heap("#Blob", DESCRIBED_BLOBS)?;
    Ok(root.finish()?)
}

/// A type is printed with its members, and then with what describes it, them, and their parameters, and nothing of other types.
#[test]
fn prints_what_describes_a_type(rt: HostRuntime) -> Result<(), Fail> {
    let root = root_of_described(rt.alloc())?;
    let first = "02000002 04000001 06000001 09000001 2a000001 2c000001 19000001 1c000001 0e000001 \
                 0c000001 0c000002 0c000003 0c000004 0c000005 0c000006 0c000007 0c00000f";
    let second = "02000003 04000002 06000002 09000002 2a000002 2c000002 19000002 1c000002 0e000002 \
                  0c000008 0c000009 0c00000a 0c00000b 0c00000c 0c00000d 0c00000e 0c000010";
    for (name, rows) in [("N.C", first), ("N.E", second), ("<M>", "02000001")] {
        let lines = printed(&rt, root.as_slice(), &["clim", "outline", "--bare", "o.root", name])?;
        let mut tokens = String::new(rt.alloc());
        for line in lines.as_str().lines() {
            let (_, token) = line.split_once("  // ").ok_or("no token")?;
            tokens.push_str(if tokens.is_empty() { "" } else { " " })?;
            tokens.push_str(token)?;
        }
        assert_eq!(rt; tokens.as_str(), rows, "{lines}");
    }
    Ok(())
}

/// Blobs: the types of the fields of an enum at 1 and 5; a constructor with parameters of this enum, of an array of strings, of
/// System.Type and of an object at 8; a value of it at 19, and two bytes at 54.
const ATTRIBUTE_BLOBS: &[u8] = b"\0\x03\x06\x11\x0C\x02\x06\x04\x0A\x20\x04\x01\x11\x0C\x1D\x0E\x12\x09\x1C\
    \x22\x01\0\xFB\x02\0\0\0\x01a\xFF\x03N.C\x0E\x02x\"\x02\0\x54\x02\x01P\x01\x53\x1D\x08\x01F\xFF\xFF\xFF\xFF\
    \x02\x01\0";

/// A value that fits its constructor is printed as text (II.21, II.22.10), and any other one as bytes. An enum has the type of
/// its instance field (II.14.3).
#[test]
fn writes_the_values_of_attributes(rt: HostRuntime) -> Result<(), Fail> {
    let mut root = RootBuilder::new(rt.alloc());
    root.row(0x01, b"\0\0\x18\0\x11\0")?;
    root.row(0x01, b"\0\0\x1D\0\x11\0")?;
    root.row(0x02, b"\0\0\0\0\x01\0\0\0\0\0\x01\0\x01\0")?;
    root.row(0x02, b"\x01\0\x10\0\x07\0\x05\0\0\0\x01\0\x01\0")?;
    root.row(0x02, b"\x01\x01\0\0\x09\0\x05\0\x05\0\x01\0\x01\0")?;
    root.row(0x04, b"\x56\0\x2A\0\x01\0")?;
    root.row(0x04, b"\x06\x06\x22\0\x05\0")?;
    root.row(0x0A, b"\x10\0\x0B\0\x08\0")?;
    root.row(0x0C, b"\x43\0\x0B\0\x13\0")?;
    root.row(0x0C, b"\x43\0\x0B\0\x36\0")?;
    root.heap("#Strings", ATTRIBUTE_TEXTS)?;
    root.heap("#Blob", ATTRIBUTE_BLOBS)?;
    let root = root.finish()?;
    let lines = "\
.custom instance void N.C::.ctor(valuetype N.E, string[], class System.Type, object) = { int8(-5) string[2](\"a\" nullref) type(\"N.C\") object(string(\"x\\x22\")) \
property bool \"P\" = bool(true) field int32[] \"F\" = int32[](nullref) } of N.C  // 0c000001
.custom instance void N.C::.ctor(valuetype N.E, string[], class System.Type, object) = (0100) of N.C  // 0c000002
";
    let printed = outline_of(&rt, root.as_slice())?;
    assert!(rt; printed.as_str().ends_with(lines), "{printed}");
    Ok(())
}
