use crate::cli::writers::Full;
use crate::runs::answer;
use cli::go;
use sample_roots::{NAMES_APART, NAMES_SHARED, ONE_MODULE, RootBuilder, TWO_TYPES, image, write_at};
use std::fs;
use std::test::Fail;

/// What `sha256sum` prints for the bytes of `ONE_MODULE`, which is its own canonical root.
const DIGEST: &str = "40bf7100a055088dec71a67475f684ac5c72c04f6e4d9fb17cd8f99e053ead9e";

/// The arguments that compare two bare roots.
const fn bare<'a>(file: &'a str, other: &'a str) -> [&'a str; 5] {
    ["clim", "compare", "--bare", file, other]
}

/// Whether the arguments end with an exit code, and print these texts on the output and on standard error.
fn ends(rt: &HostRuntime, words: &[&str], status: u8, out: &str, err: &str) -> Result<bool, Fail> {
    let (ended, printed, reported) = answer(rt, words)?;
    Ok(ended == status && printed.as_str() == out && reported.as_str() == err)
}

/// Writes a sample with some bytes changed.
fn write_changed(rt: &HostRuntime, path: &str, sample: &[u8], offset: usize, bytes: &[u8]) -> Result<(), Fail> {
    let mut file: Vec<u8> = sample.to_vec(rt.alloc())?;
    write_at(&mut file, offset, bytes);
    fs::write(rt, path, file.as_slice())?;
    Ok(())
}

#[test]
fn digests_what_rewrite_writes(rt: HostRuntime) -> Result<(), Fail> {
    fs::write(&rt, "whole.dll", image().as_slice())?;
    fs::write(&rt, "whole.root", ONE_MODULE.as_slice())?;
    let line = format!(in rt.alloc(); "{DIGEST}  whole.dll\n")?;
    assert!(rt; ends(&rt, &["clim", "digest", "whole.dll"], 0, &line, "")?);
    let line = format!(in rt.alloc(); "{DIGEST}  whole.root\n")?;
    assert!(rt; ends(&rt, &["clim", "digest", "--bare", "whole.root"], 0, &line, "")?);
    let mut err = Vec::new(rt.alloc());
    let words = ["clim", "digest", "--bare", "whole.root"];
    assert_eq!(rt; go(&rt, &words, &mut Full { late: false }, &mut err), 3);
    assert_eq!(rt; err.as_slice(), b"error: cannot write output\n  reason: no space left\n".as_slice());
    fs::remove_file(&rt, "whole.dll")?;
    fs::remove_file(&rt, "whole.root")?;
    Ok(())
}

/// Each file has its line, in the order given. One without a digest is reported with its name, and the next one follows.
#[test]
fn digests_several_files(rt: HostRuntime) -> Result<(), Fail> {
    fs::write(&rt, "one.dll", image().as_slice())?;
    fs::write(&rt, "two.dll", image().as_slice())?;
    fs::write(&rt, "bare.dll", ONE_MODULE.as_slice())?;
    let (one, two) = (
        format!(in rt.alloc(); "{DIGEST}  one.dll\n")?,
        format!(in rt.alloc(); "{DIGEST}  two.dll\n")?,
    );
    let both = format!(in rt.alloc(); "{one}{two}")?;
    let refused = "\
fault 1 102 at 0: DosHeader
  file: bare.dll
  hint: FILE begins like a metadata root; try it with '--bare'
";
    let lacks = "error: cannot read lacks\n  reason: no such file\n";
    for (files, status, printed, reported) in [
        (["one.dll", "two.dll"].as_slice(), 0, both.as_str(), ""),
        (&["one.dll", "bare.dll", "two.dll"], 1, both.as_str(), refused),
        (&["lacks", "two.dll"], 3, two.as_str(), lacks),
        (&["two.dll", "lacks"], 3, two.as_str(), lacks),
    ] {
        let mut words: Vec<&str> = ["clim", "digest"].to_vec(rt.alloc())?;
        words.extend_from_slice(files)?;
        assert!(rt; ends(&rt, &words, status, printed, reported)?, "{printed}{reported}");
    }
    let mut err = Vec::new(rt.alloc());
    let words = ["clim", "digest", "one.dll", "lacks"];
    assert_eq!(rt; go(&rt, &words, &mut Full { late: true }, &mut err), 3);
    assert_eq!(rt; err.as_slice(), b"error: cannot write output\n  reason: no space left\n".as_slice());
    for file in ["one.dll", "two.dll", "bare.dll"] {
        fs::remove_file(&rt, file)?;
    }
    Ok(())
}

#[test]
fn digests_of_one_model_are_equal(rt: HostRuntime) -> Result<(), Fail> {
    fs::write(&rt, "names.root", NAMES_APART.as_slice())?;
    let (status, first, _) = answer(&rt, &["clim", "digest", "--bare", "names.root"])?;
    assert_eq!(rt; status, 0);
    fs::write(&rt, "names.root", NAMES_SHARED.as_slice())?;
    let (_, second, _) = answer(&rt, &["clim", "digest", "--bare", "names.root"])?;
    assert_eq!(rt; first, second);
    fs::remove_file(&rt, "names.root")?;
    Ok(())
}

#[test]
fn finds_models_equal(rt: HostRuntime) -> Result<(), Fail> {
    fs::write(&rt, "apart.root", NAMES_APART.as_slice())?;
    fs::write(&rt, "shared.root", NAMES_SHARED.as_slice())?;
    assert!(rt; ends(&rt, &bare("apart.root", "shared.root"), 0, "equal\n", "")?);
    assert!(rt; ends(&rt, &bare("apart.root", "apart.root"), 0, "equal\n", "")?);
    fs::write(&rt, "whole.dll", image().as_slice())?;
    assert!(rt; ends(&rt, &["clim", "compare", "whole.dll", "whole.dll"], 0, "equal\n", "")?);
    fs::remove_file(&rt, "apart.root")?;
    fs::remove_file(&rt, "shared.root")?;
    fs::remove_file(&rt, "whole.dll")?;
    Ok(())
}

#[test]
fn prints_what_differs(rt: HostRuntime) -> Result<(), Fail> {
    fs::write(&rt, "first.root", ONE_MODULE.as_slice())?;
    for (offset, bytes, printed) in [
        (121, b"b".as_slice(), "00000001 Name: \"a.dll\" | \"b.dll\"\n"),
        (17, b"5", "version: v4.0.30319 | v5.0.30319\n"),
        (
            128,
            b"\xff",
            "00000001 Mvid: {03020100-0504-0706-0809-0a0b0c0d0e0f} | {030201ff-0504-0706-0809-0a0b0c0d0e0f}\n",
        ),
    ] {
        write_changed(&rt, "second.root", ONE_MODULE.as_slice(), offset, bytes)?;
        assert!(rt; ends(&rt, &bare("first.root", "second.root"), 1, printed, "")?, "{printed}");
    }
    fs::write(&rt, "second.root", TWO_TYPES.as_slice())?;
    // No table has rows in both.
    let printed = "rows 00 Module: 1 | 0\n";
    assert!(rt; ends(&rt, &bare("first.root", "second.root"), 1, printed, "")?);
    fs::remove_file(&rt, "first.root")?;
    fs::remove_file(&rt, "second.root")?;
    Ok(())
}

/// A root without rows whose user strings are these bytes.
fn root_of_strings(rt: &HostRuntime, path: &str, heap: &[u8]) -> Result<(), Fail> {
    let mut root = RootBuilder::new(rt.alloc());
    root.heap("#US", heap)?;
    root.heap("#Strings", b"\0")?;
    fs::write(rt, path, root.finish()?.as_slice())?;
    Ok(())
}

/// Of user strings that differ, the first offset is printed at which they do, or at which one of them ends.
#[test]
fn prints_where_user_strings_differ(rt: HostRuntime) -> Result<(), Fail> {
    for (heap, other, printed) in [
        (b"\0\x03a\0\0\0\0\0".as_slice(), b"\0\x03b\0\0\0\0\0".as_slice(), "8 | 8 at 2"),
        (b"\0\x03a\0\0\0\0\0", b"\x01\x03b\0\0\0\0\0", "8 | 8 at 0"),
        (b"\0\x03a\0\0\0\0\0", b"\0\x03a\0\0\0\0\x01", "8 | 8 at 7"),
        (b"\0\x03a\0\0\0\0\0", b"\0\x03a\0\0\0\0\0\0\0\0\0", "8 | 12 at 8"),
        (b"\0\x03a\0", b"", "4 | 0 at 0"),
    ] {
        root_of_strings(&rt, "one.root", heap)?;
        root_of_strings(&rt, "two.root", other)?;
        let line = format!(in rt.alloc(); "user strings: {printed}\n")?;
        assert!(rt; ends(&rt, &bare("one.root", "two.root"), 1, &line, "")?, "{line}");
    }
    let words = ["clim", "compare", "--bare", "--json", "one.root", "two.root"];
    assert!(rt; ends(&rt, &words, 1, "{\"difference\":\"UserStrings\",\"offset\":0}\n", "")?);
    fs::remove_file(&rt, "one.root")?;
    fs::remove_file(&rt, "two.root")?;
    Ok(())
}

/// The cells of ignored columns are not compared. All others are, and so is what is no cell.
#[test]
fn leaves_out_columns(rt: HostRuntime) -> Result<(), Fail> {
    fs::write(&rt, "first.root", ONE_MODULE.as_slice())?;
    let name = "00000001 Name: \"a.dll\" | \"b.dll\"\n";
    let mvid = "00000001 Mvid: {03020100-0504-0706-0809-0a0b0c0d0e0f} | {030201ff-0504-0706-0809-0a0b0c0d0e0f}\n";
    let both = format!(in rt.alloc(); "{name}{mvid}")?;
    let mut other: Vec<u8> = ONE_MODULE.to_vec(rt.alloc())?;
    write_at(&mut other, 121, b"b");
    write_at(&mut other, 128, b"\xff");
    fs::write(&rt, "second.root", other.as_slice())?;
    for (columns, status, printed) in [
        (["TypeDef.TypeName"].as_slice(), 1, both.as_str()),
        (&["Module.Mvid"], 1, name),
        (&["module.MVID"], 1, name),
        (&["Module.Name"], 1, mvid),
        (&["Module.Name", "Module.Mvid"], 0, "equal\n"),
        (&["Module.Mvid", "Module.Name", "Module.Mvid"], 0, "equal\n"),
        (&["Module.Mvid", "Module.Mvid"], 1, name),
    ] {
        let mut words: Vec<&str> = bare("first.root", "second.root").to_vec(rt.alloc())?;
        for column in columns {
            words.extend_from_slice(&["--ignore", column])?;
        }
        assert!(rt; ends(&rt, &words, status, printed, "")?, "{printed}");
    }
    write_at(&mut other, 17, b"5");
    fs::write(&rt, "second.root", other.as_slice())?;
    let words = ["clim", "compare", "--ignore", "Module.Name", "--ignore=Module.Mvid", "--bare", "first.root", "second.root"];
    let version = "version: v4.0.30319 | v5.0.30319\n";
    assert!(rt; ends(&rt, &words, 1, version, "")?);
    fs::remove_file(&rt, "first.root")?;
    fs::remove_file(&rt, "second.root")?;
    Ok(())
}

#[test]
fn names_the_file_with_a_fault(rt: HostRuntime) -> Result<(), Fail> {
    fs::write(&rt, "whole.root", ONE_MODULE.as_slice())?;
    fs::write(&rt, "cut.root", &ONE_MODULE[..143])?;
    let reported = "fault 3 305 at 64: StreamRange\n  file: cut.root\n";
    assert!(rt; ends(&rt, &bare("cut.root", "whole.root"), 1, "", reported)?);
    assert!(rt; ends(&rt, &bare("whole.root", "cut.root"), 1, "", reported)?);
    assert!(rt; ends(&rt, &bare("cut.root", "cut.root"), 1, "", reported)?);
    let hinted = "fault 1 102 at 0: DosHeader\n  file: whole.root\n  hint: FILE begins like a metadata root; try it with '--bare'\n";
    assert!(rt; ends(&rt, &["clim", "compare", "whole.root", "cut.root"], 1, "", hinted)?);
    let missing = "error: cannot read lacks\n  reason: no such file\n";
    assert!(rt; ends(&rt, &bare("whole.root", "lacks"), 3, "", missing)?);
    assert!(rt; ends(&rt, &bare("lacks", "whole.root"), 3, "", missing)?);
    let mut err = Vec::new(rt.alloc());
    assert_eq!(rt; go(&rt, &bare("whole.root", "whole.root"), &mut Full { late: false }, &mut err), 3);
    assert_eq!(rt; err.as_slice(), b"error: cannot write output\n  reason: no space left\n".as_slice());
    fs::remove_file(&rt, "whole.root")?;
    fs::remove_file(&rt, "cut.root")?;
    Ok(())
}

/// A quiet comparison prints nothing: its exit code is that of the same one with lines. Faults are reported.
#[test]
fn compares_quietly(rt: HostRuntime) -> Result<(), Fail> {
    fs::write(&rt, "whole.root", ONE_MODULE.as_slice())?;
    write_changed(&rt, "other.root", &ONE_MODULE, 17, b"5")?;
    fs::write(&rt, "cut.root", &ONE_MODULE[..143])?;
    let refused = "fault 3 305 at 64: StreamRange\n  file: cut.root\n";
    for (file, other, status, reported) in [
        ("whole.root", "whole.root", 0, ""),
        ("whole.root", "other.root", 1, ""),
        ("whole.root", "cut.root", 1, refused),
        ("whole.root", "lacks", 3, "error: cannot read lacks\n  reason: no such file\n"),
    ] {
        for quiet in ["-q", "--quiet"] {
            assert!(rt; ends(&rt, &["clim", "compare", quiet, "--bare", file, other], status, "", reported)?, "{other}");
        }
        let words = ["clim", "compare", "--json", "--bare", file, "-q", other];
        assert!(rt; ends(&rt, &words, status, "", reported)?, "{other}");
    }
    let ignored = ["clim", "compare", "--bare", "-q", "--ignore", "Module.Name", "whole.root", "other.root"];
    assert!(rt; ends(&rt, &ignored, 1, "", "")?);
    let mut err = Vec::new(rt.alloc());
    let words = ["clim", "compare", "--bare", "-q", "whole.root", "other.root"];
    assert_eq!(rt; go(&rt, &words, &mut Full { late: false }, &mut err), 1);
    assert!(rt; err.is_empty());
    for file in ["whole.root", "other.root", "cut.root"] {
        fs::remove_file(&rt, file)?;
    }
    Ok(())
}
