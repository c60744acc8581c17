use crate::runs::answer;
use crate::cli::writers::Full;
use cli::go;
use sample_roots::{ONE_MODULE, TWO_TYPES, image};
use std::fs;
use std::test::Fail;

/// The words that rewrite the bare root of one file to another.
const fn bare<'a>(file: &'a str, out: &'a str) -> [&'a str; 5] {
    ["clim", "rewrite", "--bare", file, out]
}

/// Whether the arguments end with an exit code, and print a line on the output or on standard error.
fn ends(rt: &HostRuntime, words: &[&str], status: u8, line: &str) -> Result<bool, Fail> {
    let (ended, out, err) = answer(rt, words)?;
    let (reported, silent) = if status == 0 { (out, err) } else { (err, out) };
    Ok(ended == status && reported.as_str() == line && silent.is_empty())
}

/// What the file held before is emptied first.
#[test]
fn writes_the_canonical_root(rt: HostRuntime) -> Result<(), Fail> {
    fs::write(&rt, "from.dll", image().as_slice())?;
    fs::write(&rt, "to.root", image().as_slice())?;
    let words = ["clim", "rewrite", "from.dll", "to.root"];
    assert!(rt; ends(&rt, &words, 0, "wrote 144 bytes\n")?);
    assert_eq!(rt; fs::read(&rt, "to.root")?.as_slice(), ONE_MODULE.as_slice());
    fs::remove_file(&rt, "from.dll")?;
    fs::remove_file(&rt, "to.root")?;
    Ok(())
}

/// The root that is written has the same model, and is written again byte by byte; it may take the place of the file.
#[test]
fn writes_over_its_file(rt: HostRuntime) -> Result<(), Fail> {
    fs::write(&rt, "types.root", TWO_TYPES.as_slice())?;
    let (_, rows, _) = answer(&rt, &["clim", "show", "--bare", "types.root"])?;
    let (status, first, err) = answer(&rt, &bare("types.root", "types.root"))?;
    assert_eq!(rt; status, 0, "{err}");
    let written = fs::read(&rt, "types.root")?;
    let (_, same, _) = answer(&rt, &["clim", "show", "--bare", "types.root"])?;
    assert_eq!(rt; same, rows);
    assert!(rt; ends(&rt, &bare("types.root", "again.root"), 0, &first)?);
    assert_eq!(rt; fs::read(&rt, "again.root")?.as_slice(), written.as_slice());
    fs::remove_file(&rt, "types.root")?;
    fs::remove_file(&rt, "again.root")?;
    Ok(())
}

#[test]
fn leaves_what_it_does_not_write(rt: HostRuntime) -> Result<(), Fail> {
    fs::write(&rt, "cut.root", &ONE_MODULE[..143])?;
    fs::write(&rt, "kept.root", b"kept".as_slice())?;
    let fault = "fault 3 305 at 64: StreamRange\n";
    assert!(rt; ends(&rt, &bare("cut.root", "kept.root"), 1, fault)?);
    assert!(rt;
        ends(
            &rt,
            &bare("lacks", "kept.root"),
            3,
            "error: cannot read lacks\n  reason: no such file\n"
        )?
    );
    assert_eq!(rt; fs::read(&rt, "kept.root")?.as_slice(), b"kept".as_slice());
    assert!(rt; ends(&rt, &bare("cut.root", "cut.root"), 1, fault)?);
    assert_eq!(rt; fs::read(&rt, "cut.root")?.as_slice(), &ONE_MODULE[..143]);
    assert!(rt; ends(&rt, &bare("cut.root", "made.root"), 1, fault)?);
    assert!(rt; fs::read(&rt, "made.root").is_err());
    fs::remove_file(&rt, "cut.root")?;
    fs::remove_file(&rt, "kept.root")?;
    Ok(())
}

#[test]
fn reports_what_it_cannot_write(rt: HostRuntime) -> Result<(), Fail> {
    fs::write(&rt, "whole.root", ONE_MODULE.as_slice())?;
    for (out, reported) in [
        ("nowhere/out.root", "error: cannot write nowhere/out.root\n  reason: no such file\n"),
        (
            "/dev/full",
            "error: cannot write /dev/full\n  reason: no space left\n",
        ),
        (".", "error: cannot write .\n  reason: a directory\n"),
        ("", "error: cannot write \n  reason: no such file\n"),
    ] {
        assert!(rt; ends(&rt, &bare("whole.root", out), 3, reported)?, "{out}");
    }
    let (mut printed, mut err) = (Full { late: false }, Vec::new(rt.alloc()));
    let status = go(
        &rt,
        &bare("whole.root", "sent.root"),
        &mut printed,
        &mut err,
    );
    assert_eq!(rt; status, 3);
    assert_eq!(rt; err.as_slice(), b"error: cannot write output\n  reason: no space left\n".as_slice());
    assert_eq!(rt; fs::read(&rt, "sent.root")?.as_slice(), ONE_MODULE.as_slice());
    fs::remove_file(&rt, "whole.root")?;
    fs::remove_file(&rt, "sent.root")?;
    Ok(())
}
