//! Tests of files in directories.

use crate::cli::disks::{Disk, answer_on, with_input};
use crate::runs::answer;
use sample_roots::{ONE_MODULE, TWO_TYPES, image};
use std::fs;
use std::os::unix::fs::symlink;
use std::test::Fail;

/// A directory of directories, files that begin like PE files, others, and links. The names of its files are not in order.
fn write_tree(rt: &HostRuntime) -> Result<(), Fail> {
    fs::create_dir_all(rt, "tree/b/deep/er")?;
    fs::create_dir_all(rt, "tree/empty")?;
    for file in ["tree/b.dll", "tree/a", "tree/b/z.exe", "tree/b/deep/er/M.DLL", "tree/b-.dll"] {
        fs::write(rt, file, image().as_slice())?;
    }
    fs::write(rt, "tree/b/cut.dll", b"MZ".as_slice())?;
    fs::write(rt, "tree/b/one", b"M".as_slice())?;
    fs::write(rt, "tree/none", b"".as_slice())?;
    fs::write(rt, "tree/text", b"no assembly".as_slice())?;
    fs::write(rt, "tree/b/module.root", ONE_MODULE.as_slice())?;
    fs::write(rt, "tree/types.root", TWO_TYPES.as_slice())?;
    symlink(rt, "b", "tree/linked")?;
    symlink(rt, "b.dll", "tree/linked.dll")?;
    symlink(rt, "tree", "link")?;
    Ok(())
}

/// Removes it.
fn remove_tree(rt: &HostRuntime) -> Result<(), Fail> {
    fs::remove_dir_all(rt, "tree")?;
    fs::remove_file(rt, "link")?;
    Ok(())
}

/// The lines of all files.
const ALL: &str = "\
tree/a: ok
tree/b/cut.dll: fault 1 102 at 0: DosHeader
tree/b/deep/er/M.DLL: ok
tree/b/z.exe: ok
tree/b-.dll: ok
tree/b.dll: ok
";

/// Those of the files in tree/b, and then of one beside it.
const SOME: &str = "\
tree/b/cut.dll: fault 1 102 at 0: DosHeader
tree/b/deep/er/M.DLL: ok
tree/b/z.exe: ok
tree/b.dll: ok
";

/// What is reported of a directory without `-r`.
const DIRECTORY: &str = "error: cannot read tree\n  reason: a directory\n";

/// Arguments, and the status, the output and the errors.
const CASES: [(&[&str], u8, &str, &str); 13] = [
    (&["check", "-r", "tree"], 1, ALL, "5 files were not PE files\n"),
    (&["check", "tree"], 3, "", DIRECTORY),
    (&["check", "-r", "tree/empty"], 0, "", ""),
    (&["check", "-r", "tree/b/", "tree/b.dll"], 1, SOME, "2 files were not PE files\n"),
    (&["check", "-r", "tree/b.dll"], 0, "tree/b.dll: ok\n", ""),
    // A file that is named is reported, whatever it begins with, and so is a link that is named.
    (&["check", "-r", "tree/none", "tree/linked.dll"], 1, "tree/none: fault 1 102 at 0: DosHeader\ntree/linked.dll: ok\n", ""),
    (&["check", "-r", "./tree/b/deep", "link/b/deep"], 0, "./tree/b/deep/er/M.DLL: ok\nlink/b/deep/er/M.DLL: ok\n", ""),
    (&["check", "-r", "lacks", "tree/b/deep"], 3, "tree/b/deep/er/M.DLL: ok\n", "error: cannot read lacks\n  reason: no such file\n"),
    (&["check", "-qr", "tree"], 1, "", ""),
    (&["check", "--json", "-r", "tree/b/deep"], 0, "{\"file\":\"tree/b/deep/er/M.DLL\",\"ok\":true}\n", ""),
    (
        &["types", "--bare", "-r", "tree"],
        0,
        "tree/types.root: 02000001 <Module> 0 0\ntree/types.root: 02000002 N.C 2 1\n",
        "9 files were not metadata roots\n",
    ),
    (
        &["where", "-r", "tree/b/deep", "tree/b", "0x208", "--bare"],
        1,
        "tree/b/module.root: nothing\n",
        "5 files were not metadata roots\n",
    ),
    (&["show", "-r", "tree/b/deep", "tree/empty", "Field"], 0, "", ""),
];

#[test]
fn reads_the_files_in_directories(rt: HostRuntime) -> Result<(), Fail> {
    write_tree(&rt)?;
    for (after, status, printed, reported) in CASES {
        let mut words: Vec<&str> = ["clim"].to_vec(rt.alloc())?;
        words.extend_from_slice(after)?;
        let (ended, out, err) = answer(&rt, &words)?;
        assert_eq!(rt; (ended, out.as_str(), err.as_str()), (status, printed, reported));
    }
    let (status, out, err) = answer_on(with_input(&rt, b"tree/b\ntree/b.dll\n"), &["clim", "check", "-r", "--files-from=-"])?;
    assert_eq!(rt; (status, out.as_str()), (1, SOME));
    assert_eq!(rt; err.as_str(), "2 files were not PE files\n");
    let (status, _, err) = answer(&rt, &["clim", "check", "-r", "tree/b/deep", "tree/b"])?;
    assert_eq!(rt; (status, err.as_str()), (1, "2 files were not PE files\n"));
    remove_tree(&rt)
}

/// One file that is passed over is no plural.
#[test]
fn counts_one_file(rt: HostRuntime) -> Result<(), Fail> {
    fs::create_dir_all(&rt, "few")?;
    fs::write(&rt, "few/text", b"no assembly".as_slice())?;
    for (words, reported) in [
        (["clim", "digest", "-r", "few"].as_slice(), "1 file was not a PE file\n"),
        (&["clim", "root", "--bare", "--recursive", "few"], "1 file was not a metadata root\n"),
    ] {
        let (status, out, err) = answer(&rt, words)?;
        assert_eq!(rt; (status, out.as_str(), err.as_str()), (0, "", reported));
    }
    fs::remove_dir_all(&rt, "few")?;
    Ok(())
}

/// However few bytes a call reads, a file is read to its end. What cannot be read is not passed over.
#[test]
fn reads_a_file_in_parts(rt: HostRuntime) -> Result<(), Fail> {
    fs::create_dir_all(&rt, "parts")?;
    fs::write(&rt, "parts/a.dll", image().as_slice())?;
    fs::write(&rt, "parts/m", b"M".as_slice())?;
    fs::write(&rt, "parts/text", b"My text".as_slice())?;
    let words = ["clim", "check", "-r", "parts"];
    for most in [1, 2, 3, 100] {
        let disk = Disk { at_once: Some(most), ..with_input(&rt, b"") };
        let (status, out, err) = answer_on(disk, &words)?;
        assert_eq!(rt; (status, out.as_str(), err.as_str()), (0, "parts/a.dll: ok\n", "2 files were not PE files\n"));
    }
    let unreadable = Disk { at_once: None, ..with_input(&rt, b"") };
    let (status, out, err) = answer_on(unreadable, &words)?;
    assert_eq!(rt; (status, out.as_str()), (3, ""));
    let reason = "reason: another error of the system";
    let mut want = String::new(rt.alloc());
    for file in ["a.dll", "m", "text"] {
        want.push_str(format!(in rt.alloc(); "error: cannot read parts/{file}\n  {reason}\n")?.as_str())?;
    }
    assert_eq!(rt; err, want);
    fs::remove_dir_all(&rt, "parts")?;
    Ok(())
}
