use crate::runs::answer;
use sample_roots::{ONE_MODULE, image};
use std::fs;
use std::test::Fail;

const ADD_BARE: &str = "\
fault 1 102 at 0: DosHeader
  hint: FILE begins like a metadata root; try it with '--bare'
";

const DROP_BARE: &str = "\
fault 3 301 at 0: RootSignature
  hint: FILE begins like a PE file; try it without '--bare'
";

/// Whether the arguments end with exit code 1 and print this on standard error only.
fn is_refused(rt: &HostRuntime, words: &[&str], reported: &str) -> Result<bool, Fail> {
    let (status, out, err) = answer(rt, words)?;
    Ok(status == 1 && out.is_empty() && err.as_str() == reported)
}

/// Each subcommand that reads a file gives the hint, after the line of the fault.
#[test]
fn hints_at_bare(rt: HostRuntime) -> Result<(), Fail> {
    fs::write(&rt, "hint.root", ONE_MODULE.as_slice())?;
    fs::write(&rt, "hint.dll", image().as_slice())?;
    for name in ["root", "check", "show", "types", "outline", "strings", "digest"] {
        assert!(rt; is_refused(&rt, &["clim", name, "hint.root"], ADD_BARE)?);
        assert!(rt; is_refused(&rt, &["clim", name, "--bare", "hint.dll"], DROP_BARE)?);
    }
    for (words, reported) in [
        (["clim", "token", "hint.root", "1"].as_slice(), ADD_BARE),
        (&["clim", "token", "--bare", "hint.dll", "1"], DROP_BARE),
        (&["clim", "where", "hint.root", "1"], ADD_BARE),
        (&["clim", "where", "--bare", "hint.dll", "1"], DROP_BARE),
        (&["clim", "rewrite", "hint.root", "no.root"], ADD_BARE),
        (&["clim", "rewrite", "--bare", "hint.dll", "no.root"], DROP_BARE),
        (&["clim", "check", "--budget", "9", "hint.root"], ADD_BARE),
        (&["clim", "check", "--budget", "9", "--bare", "hint.dll"], DROP_BARE),
    ] {
        assert!(rt; is_refused(&rt, words, reported)?);
    }
    fs::remove_file(&rt, "hint.root")?;
    fs::remove_file(&rt, "hint.dll")?;
    Ok(())
}

/// Other bytes, and other faults of such bytes, have no hint.
#[test]
fn hints_only_at_bare(rt: HostRuntime) -> Result<(), Fail> {
    for (bare, bytes, reported) in [
        (false, b"BSJ".as_slice(), "fault 1 102 at 0: DosHeader\n"),
        (false, b"MZ", "fault 1 102 at 0: DosHeader\n"),
        (false, b"", "fault 1 102 at 0: DosHeader\n"),
        (true, b"M", "fault 3 301 at 0: RootSignature\n"),
        (true, b"BSJB", "fault 3 301 at 0: RootSignature\n"),
        (true, &ONE_MODULE[..20], "fault 3 302 at 12: Version\n"),
        (false, b"BSJB", ADD_BARE),
        (true, b"MZ", DROP_BARE),
    ] {
        fs::write(&rt, "plain.file", bytes)?;
        let words = ["clim", "check", "plain.file", "--bare"];
        let words = if bare { words.as_slice() } else { &words[..3] };
        assert!(rt; is_refused(&rt, words, reported)?, "{reported}");
    }
    // A PE file whose root has another signature.
    let mut bytes = image();
    bytes[592] = b'X';
    fs::write(&rt, "plain.file", bytes.as_slice())?;
    let words = ["clim", "check", "plain.file"];
    assert!(rt; is_refused(&rt, &words, "fault 3 301 at 592: RootSignature\n")?);
    fs::remove_file(&rt, "plain.file")?;
    Ok(())
}
