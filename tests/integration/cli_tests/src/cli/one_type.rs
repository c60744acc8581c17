use crate::runs::answer;
use sample_roots::{RootBuilder, TWO_TYPES, write_at};
use std::alloc::{AllocError, Global};
use std::fs;
use std::test::Fail;

const MODULE: &str = ".class private auto ansi '<Module>'  // 02000001\n";

const CLASS: &str = "\
.class public auto ansi beforefieldinit N.C  // 02000002
  .field private int32 N.C::a  // 04000001
  .field private int32 N.C::b  // 04000002
  .method public void N.C::M() cil managed  // 06000001
";

const METHOD: &str = "  .method public void N.C::M() cil managed  // 06000001\n";

const NONE: &str = "no such type\n";

/// The same with the type whose name is nearest.
const NEAR: &str = "no such type\n  hint: the nearest name is 'N.C'\n";

/// Whether the outline of a type of the file has this exit code, and these texts on the output and on standard error.
fn is_outlined(rt: &HostRuntime, name: &str, want: (u8, &str, &str)) -> Result<bool, Fail> {
    let words = ["clim", "outline", "--bare", "one_type.root", name];
    let (status, out, err) = answer(rt, &words)?;
    Ok((status, out.as_str(), err.as_str()) == want)
}

/// The same near to the type of the module.
const MODULE_NEAR: &str = "no such type\n  hint: the nearest name is '<Module>'\n";

#[test]
fn outlines_one_type(rt: HostRuntime) -> Result<(), Fail> {
    fs::write(&rt, "one_type.root", &TWO_TYPES)?;
    for (name, want) in [
        ("N.C", (0, CLASS, "")),
        ("02000002", (0, CLASS, "")),
        ("0x02000002", (0, CLASS, "")),
        ("<Module>", (0, MODULE, "")),
        ("02000001", (0, MODULE, "")),
        ("C", (0, CLASS, "")),
        ("n.c", (1, "", NEAR)),
        ("X.c", (1, "", NEAR)),
        ("M.D", (1, "", NONE)),
        ("N/C", (1, "", NEAR)),
        ("Other.Outer/c", (1, "", NEAR)),
        ("<module", (1, "", MODULE_NEAR)),
        ("N.C.", (1, "", NONE)),
        (".N.C", (1, "", NEAR)),
        ("", (1, "", NEAR)),
        ("06000001", (0, METHOD, "")),
        ("0x06000001", (0, METHOD, "")),
        ("06000000", (1, "", NONE)),
        ("06000002", (1, "", NONE)),
        ("0A000001", (1, "", NONE)),
        ("70000001", (1, "", NONE)),
        ("02000003", (1, "", NONE)),
        ("02000000", (1, "", NONE)),
        ("2000002", (1, "", NONE)),
        ("0x2000002", (1, "", NONE)),
        ("0x0x02000002", (1, "", NONE)),
        ("01000002", (1, "", NONE)),
        ("+2000002", (1, "", NONE)),
    ] {
        assert!(rt; is_outlined(&rt, name, want)?, "{name}");
    }
    fs::remove_file(&rt, "one_type.root")?;
    Ok(())
}

/// A type whose name has a dot is found by its token alone. Its name is at 174 in the root.
#[test]
fn splits_a_name_at_its_last_dot(rt: HostRuntime) -> Result<(), Fail> {
    let mut root = TWO_TYPES.to_vec(rt.alloc())?;
    write_at(&mut root, 174, b"A.B.C.");
    fs::write(&rt, "dotted.root", root.as_slice())?;
    let (status, out, err) = answer(&rt, &["clim", "outline", "--bare", "dotted.root", "<A.B.C.>"])?;
    assert_eq!(rt; (status, out.as_str(), err.as_str()), (1, "", NONE));
    let (status, out, err) = answer(&rt, &["clim", "outline", "--bare", "dotted.root", "02000001"])?;
    assert!(rt; status == 0 && err.is_empty() && out.contains("<A.B.C.>"));
    fs::remove_file(&rt, "dotted.root")?;
    Ok(())
}

/// A file that breaks a rule is reported before the type is looked for.
#[test]
fn reports_a_fault_before_a_type(rt: HostRuntime) -> Result<(), Fail> {
    fs::write(&rt, "broken_type.root", &TWO_TYPES[..9])?;
    let (status, out, err) = answer(&rt, &["clim", "outline", "--bare", "broken_type.root", "X"])?;
    assert!(rt; status == 1 && out.is_empty() && err.starts_with("fault 3 "), "{err}");
    fs::remove_file(&rt, "broken_type.root")?;
    Ok(())
}

/// The number of a nested class (II.22.32).
const NESTED: u8 = 0x29;

/// Types without members, by the offsets of their names and namespaces, and by the rows of the types that enclose some.
fn root_of_types(
    alloc: Global,
    types: &[[u8; 2]],
    nestings: &[[u8; 2]],
) -> Result<Vec<u8>, AllocError> {
    let mut root = RootBuilder::new(alloc);
    for names in types {
        root.row(0x02, &[0, 0, 0, 0, names[0], 0, names[1], 0, 0, 0, 1, 0, 1, 0])?;
    }
    for nesting in nestings {
        root.row(NESTED, &[nesting[0], 0, nesting[1], 0])?;
    }
    root.heap("#Strings", b"\0A\0B\0I\0L\0N\0")?;
    root.finish()
}

/// Offsets of names in these roots.
const A: u8 = 1;
const B: u8 = 3;
const I: u8 = 5;
const L: u8 = 7;
const N: u8 = 9;

/// A nested type is found by the names of the types that enclose it, and a type whose name no other has by its name alone.
#[test]
fn finds_a_type_by_its_path(rt: HostRuntime) -> Result<(), Fail> {
    let types = [[A, N], [I, 0], [B, N], [I, 0], [L, 0]];
    let root = root_of_types(rt.alloc(), &types, &[[2, 1], [4, 3], [5, 4]])?;
    fs::write(&rt, "nested.root", root.as_slice())?;
    for (name, line) in [
        ("N.A", ".class private auto ansi N.A  // 02000001\n"),
        ("N.A/I", ".class private auto ansi N.A/I  // 02000002\n"),
        ("N.B/I", ".class private auto ansi N.B/I  // 02000004\n"),
        ("N.B/I/L", ".class private auto ansi N.B/I/L  // 02000005\n"),
        ("A", ".class private auto ansi N.A  // 02000001\n"),
        ("L", ".class private auto ansi N.B/I/L  // 02000005\n"),
    ] {
        let (status, out, err) = answer(&rt, &["clim", "outline", "--bare", "nested.root", name])?;
        assert_eq!(rt; (status, out.as_str(), err.as_str()), (0, line, ""), "{name}");
    }
    for name in ["I/L", "B/I", "N.B/L", "N.A/I/L", "N.A/", "N.A//I", "N.L"] {
        let (status, out, err) = answer(&rt, &["clim", "outline", "--bare", "nested.root", name])?;
        assert!(rt; status == 1 && out.is_empty() && err.starts_with(NONE), "{name}: {err}");
    }
    fs::remove_file(&rt, "nested.root")?;
    Ok(())
}

/// Types that have the name that is asked for are listed.
#[test]
fn lists_the_types_of_a_name(rt: HostRuntime) -> Result<(), Fail> {
    let root = root_of_types(rt.alloc(), &[[A, N], [I, 0], [I, N]], &[[2, 1]])?;
    fs::write(&rt, "same.root", root.as_slice())?;
    let (status, out, err) = answer(&rt, &["clim", "outline", "--bare", "same.root", "I"])?;
    const TWO: &str = "several types have the name 'I'\n  N.A/I\n  N.I\n";
    assert_eq!(rt; (status, out.as_str(), err.as_str()), (1, "", TWO));
    fs::remove_file(&rt, "same.root")?;
    let root = root_of_types(rt.alloc(), [[I, N]; 25].as_slice(), &[])?;
    fs::write(&rt, "same.root", root.as_slice())?;
    let (status, out, err) = answer(&rt, &["clim", "outline", "--bare", "same.root", "I"])?;
    assert_eq!(rt; (status, out.as_str(), err.lines().count()), (1, "", 22));
    assert!(rt; err.ends_with("  N.I\n  and 5 more\n"), "{err}");
    fs::remove_file(&rt, "same.root")?;
    Ok(())
}
