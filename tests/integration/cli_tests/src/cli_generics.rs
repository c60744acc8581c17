//! Tests of `cli_outline`: the generic parameters of methods (II.10.1.7, II.15.1, II.22.20, II.22.21).

use crate::runs::answer;
use sample_roots::RootBuilder;
use std::alloc::Global;
use std::fs;
use std::test::Fail;

/// Texts: `C` at 1, `M` at 3, `T` at 5 and `U` at 7.
const TEXTS: &[u8] = b"\0C\0M\0T\0U\0";

/// Signatures: `void <[2]>(!!0)` at 1, `void ()` at 8, and `void <[1]>()` at 12.
const BLOBS: &[u8] = b"\0\x06\x10\x02\x01\x01\x1E\0\x03\0\0\x01\x04\x10\x01\0\x01";

/// What `clim outline` prints of a root.
fn outline_of(rt: &HostRuntime, root: &[u8]) -> Result<String, Fail> {
    fs::write(rt, "g.root", root)?;
    let (status, out, err) = answer(rt, &["clim", "outline", "--bare", "g.root"])?;
    fs::remove_file(rt, "g.root")?;
    if status != 0 || !err.is_empty() {
        return Err("no outline".into());
    }
    Ok(out)
}

/// A type `C` with methods of these signatures.
fn root_of_methods(alloc: Global, signatures: &[u8]) -> Result<RootBuilder, Fail> {
    let mut root = RootBuilder::new(alloc);
    root.sorted = 0;
    root.row(0x02, b"\0\0\0\0\x01\0\0\0\0\0\x01\0\x01\0")?;
    for signature in signatures {
        root.row(0x06, &[0, 0, 0, 0, 0, 0, 0x16, 0, 3, 0, *signature, 0, 1, 0])?;
    }
    Ok(root)
}

/// Rows of GenericParam and GenericParamConstraint are in no order. A method that is not generic has no list, although a row
/// refers to it. Without rows, and in a reference, the number is printed.
#[test]
fn methods_have_generic_parameters(rt: HostRuntime) -> Result<(), Fail> {
    let mut root = root_of_methods(rt.alloc(), &[1, 8, 12, 12])?;
    // References to the first method: itself and a MemberRef, by an override (II.22.25, II.22.27).
    root.row(0x0A, b"\x08\0\x03\0\x01\0")?;
    root.row(0x19, b"\x01\0\x02\0\x03\0")?;
    root.row(0x2A, b"\x01\0\x18\0\x03\0\x07\0")?;
    root.row(0x2A, b"\0\0\0\0\x05\0\x05\0")?;
    root.row(0x2A, b"\0\0\0\0\x03\0\x05\0")?;
    root.row(0x2A, b"\0\0\x01\0\x07\0\x05\0")?;
    root.row(0x2C, b"\x04\0\x04\0")?;
    root.row(0x2C, b"\x01\0\x04\0")?;
    root.heap("#Strings", TEXTS)?;
    root.heap("#Blob", BLOBS)?;
    let root = root.finish()?;
    let out = outline_of(&rt, root.as_slice())?;
    let lines = "\
.class private auto ansi C  // 02000001
  .method public static void C::M<valuetype .ctor (C) U, T>(!!0) cil managed  // 06000001
  .method public static void C::M() cil managed  // 06000002
  .method public static void C::M<+ (C) T>() cil managed  // 06000003
  .method public static void C::M<[1]>() cil managed  // 06000004
";
    assert!(rt; out.as_str().starts_with(lines), "{out}");
    let overrides = "\
.override void C::M<[2]>(!!0) with void C::M<[2]>(!!0) in C  // 19000001
";
    assert!(rt; out.as_str().contains(overrides), "{out}");
    Ok(())
}

/// Of a text of more than 65,536 bytes the first are printed, and what follows is passed over.
#[test]
fn long_generic_parameters_are_cut(rt: HostRuntime) -> Result<(), Fail> {
    let mut root = root_of_methods(rt.alloc(), &[1])?;
    root.row(0x2A, b"\0\0\0\0\x03\0\x05\0")?;
    root.row(0x2A, b"\x01\0\0\0\x03\0\x05\0")?;
    let mut texts = vec![in rt.alloc(); 0]?;
    texts.extend_from_slice(b"C\0M\0")?;
    for _ in 0..66_000 {
        texts.push(b'a')?;
    }
    texts.push(0)?;
    root.heap("#Strings", texts.as_slice())?;
    root.heap("#Blob", BLOBS)?;
    let root = root.finish()?;
    let out = outline_of(&rt, root.as_slice())?;
    let mut lines = out.as_str().lines();
    let _ = lines.next().ok_or("no type")?;
    let method = lines.next().ok_or("no method")?;
    assert!(rt; method.starts_with("  .method public static void C::M<'aaa"));
    assert!(rt; method.ends_with("aaa'.. cil managed  // 06000001"), "{}", method.len());
    assert!(rt; method.len() <= 65_700, "{}", method.len());
    Ok(())
}
