//! Tests of `check` for several files, of lists of files, and of the standard input.

use crate::cli::disks::{answer_on, with_input};
use crate::cli::writers::{Full, Narrow};
use crate::runs::answer;
use cli::go;
use sample_roots::{ONE_MODULE, TWO_TYPES, image};
use std::fs;
use std::test::Fail;

/// Writes the files of these tests: two that break no rule, a root without `--bare`, and one of other bytes.
fn write_files(rt: &HostRuntime) -> Result<(), Fail> {
    fs::write(rt, "good.dll", image().as_slice())?;
    fs::write(rt, "also.dll", image().as_slice())?;
    fs::write(rt, "bare.root", ONE_MODULE.as_slice())?;
    fs::write(rt, "types.root", TWO_TYPES.as_slice())?;
    fs::write(rt, "other.dll", b"no assembly".as_slice())?;
    Ok(())
}

/// Removes them.
fn remove_files(rt: &HostRuntime) -> Result<(), Fail> {
    for file in ["good.dll", "also.dll", "bare.root", "types.root", "other.dll"] {
        fs::remove_file(rt, file)?;
    }
    Ok(())
}

/// The line of other.dll.
const OTHER: &str = "other.dll: fault 1 102 at 0: DosHeader\n";

/// What is reported of a file that is not there.
const LACKS: &str = "error: cannot read lacks\n  reason: no such file\n";

/// Arguments after `check`, and the status, the output and the errors.
const CASES: [(&[&str], u8, &str, &str); 10] = [
    (&["good.dll", "also.dll"], 0, "good.dll: ok\nalso.dll: ok\n", ""),
    (&["good.dll", "good.dll", "good.dll"], 0, "good.dll: ok\ngood.dll: ok\ngood.dll: ok\n", ""),
    // Each file has its line, in the order given, whatever the others are.
    (
        &["other.dll", "good.dll", "other.dll", "also.dll"],
        1,
        "other.dll: fault 1 102 at 0: DosHeader\ngood.dll: ok\nother.dll: fault 1 102 at 0: DosHeader\nalso.dll: ok\n",
        "",
    ),
    // The status is not that of the last file, and no hint follows a fault.
    (&["bare.root", "good.dll"], 1, "bare.root: fault 1 102 at 0: DosHeader\ngood.dll: ok\n", ""),
    // A file that cannot be read has no line, and the next one follows.
    (&["lacks", "good.dll"], 3, "good.dll: ok\n", LACKS),
    (&["good.dll", "lacks", "other.dll"], 3, "good.dll: ok\nother.dll: fault 1 102 at 0: DosHeader\n", LACKS),
    (&["other.dll", "lacks"], 3, OTHER, LACKS),
    (&["lacks", "."], 3, "", "error: cannot read lacks\n  reason: no such file\nerror: cannot read .\n  reason: a directory\n"),
    // Each file has its own budget.
    (
        &["--bare", "--budget", "4", "bare.root", "types.root", "bare.root"],
        3,
        "bare.root: ok\nbare.root: ok\n",
        "error: budget spent\n  file: types.root\n",
    ),
    (&["--bare", "--budget", "5", "types.root", "types.root"], 0, "types.root: ok\ntypes.root: ok\n", ""),
];

#[test]
fn checks_several_files(rt: HostRuntime) -> Result<(), Fail> {
    write_files(&rt)?;
    for (files, status, printed, reported) in CASES {
        let mut words: Vec<&str> = ["clim", "check"].to_vec(rt.alloc())?;
        words.extend_from_slice(files)?;
        let (ended, out, err) = answer(&rt, &words)?;
        assert_eq!(rt; (ended, out.as_str(), err.as_str()), (status, printed, reported));
    }
    remove_files(&rt)
}

/// A quiet check prints nothing about faults. The status is the same.
const QUIET: [(&[&str], u8, &str); 8] = [
    (&["good.dll"], 0, ""),
    (&["other.dll"], 1, ""),
    (&["bare.root"], 1, ""),
    (&["good.dll", "other.dll", "also.dll"], 1, ""),
    (&["lacks"], 3, LACKS),
    (&["other.dll", "lacks", "good.dll"], 3, LACKS),
    (&["--bare", "--budget", "5", "types.root"], 0, ""),
    (&["--bare", "--budget", "4", "types.root"], 3, "error: budget spent\n  file: types.root\n"),
];

#[test]
fn checks_quietly(rt: HostRuntime) -> Result<(), Fail> {
    write_files(&rt)?;
    for (files, status, reported) in QUIET {
        for flag in ["-q", "--quiet"] {
            let mut words: Vec<&str> = ["clim", "check", flag].to_vec(rt.alloc())?;
            words.extend_from_slice(files)?;
            let (ended, out, err) = answer(&rt, &words)?;
            assert_eq!(rt; (ended, out.as_str(), err.as_str()), (status, "", reported));
        }
    }
    let json = "{\"file\":\"good.dll\",\"ok\":true}\n{\"file\":\"other.dll\",\"layer\":1,\"code\":102,\"offset\":0,\"name\":\"DosHeader\"}\n";
    let (ended, out, err) = answer_on(with_input(&rt, b"good.dll\0other.dll"), &["clim", "check", "--json", "-0"])?;
    assert_eq!(rt; (ended, out.as_str(), err.as_str()), (1, json, ""));
    for (list, status) in [(b"good.dll\0also.dll".as_slice(), 0), (b"other.dll\0good.dll\0", 1), (b"", 0)] {
        let (ended, out, err) = answer_on(with_input(&rt, list), &["clim", "check", "-0q"])?;
        assert_eq!(rt; (ended, out.as_str(), err.as_str()), (status, "", ""));
    }
    // An output that takes nothing changes nothing.
    let mut err = Vec::new(rt.alloc());
    assert_eq!(rt; go(&rt, &["clim", "check", "-q", "good.dll", "other.dll"], &mut Full { late: false }, &mut err), 1);
    assert!(rt; err.is_empty());
    remove_files(&rt)
}

/// A name with control characters begins no line.
#[test]
fn escapes_the_names_of_files(rt: HostRuntime) -> Result<(), Fail> {
    let name = "a\n\u{1b}[2J\"\\: ok";
    fs::write(&rt, name, image().as_slice())?;
    let (status, out, err) = answer(&rt, &["clim", "check", name, name])?;
    fs::remove_file(&rt, name)?;
    let line = "a\\x0a\\x1b[2J\\x22\\x5c: ok: ok\n";
    assert_eq!(rt; status, 0);
    assert_eq!(rt; out, format!(in rt.alloc(); "{line}{line}")?);
    assert!(rt; err.is_empty());
    Ok(())
}

/// A long file does not leave bytes in the buffer that a short one after it would show.
#[test]
fn checks_each_file_by_its_own_bytes(rt: HostRuntime) -> Result<(), Fail> {
    fs::write(&rt, "long.dll", image().as_slice())?;
    let half = image();
    fs::write(&rt, "short.dll", &half.as_slice()[..200])?;
    fs::write(&rt, "empty.dll", b"".as_slice())?;
    let alone = answer(&rt, &["clim", "check", "short.dll"])?;
    let (status, out, err) = answer(&rt, &["clim", "check", "long.dll", "short.dll", "empty.dll", "long.dll"])?;
    let wanted = format!(in rt.alloc(); "long.dll: ok\nshort.dll: {}empty.dll: fault 1 102 at 0: DosHeader\nlong.dll: ok\n", alone.2)?;
    assert_eq!(rt; (status, out, err.as_str()), (1, wanted, ""));
    for file in ["long.dll", "short.dll", "empty.dll"] {
        fs::remove_file(&rt, file)?;
    }
    Ok(())
}

/// Names that the standard input lists, and the status, the output and the errors.
const LISTS: [(&[u8], u8, &str, &str); 8] = [
    (b"", 0, "", ""),
    (b"good.dll", 0, "good.dll: ok\n", ""),
    (b"good.dll\0", 0, "good.dll: ok\n", ""),
    (b"other.dll\0good.dll\0", 1, "other.dll: fault 1 102 at 0: DosHeader\ngood.dll: ok\n", ""),
    (b"good.dll\0lacks\0also.dll", 3, "good.dll: ok\nalso.dll: ok\n", LACKS),
    (
        b"a\xFF\0good.dll\0",
        3,
        "good.dll: ok\n",
        "error: cannot read a\\xff\n  reason: its name is not UTF-8\n",
    ),
    // Between two NULs is a name of no bytes.
    (b"\0", 3, "", "error: cannot read \n  reason: no such file\n"),
    (
        b"good.dll\0\0also.dll\0",
        3,
        "good.dll: ok\nalso.dll: ok\n",
        "error: cannot read \n  reason: no such file\n",
    ),
];

#[test]
fn checks_listed_files(rt: HostRuntime) -> Result<(), Fail> {
    write_files(&rt)?;
    for (list, status, printed, reported) in LISTS {
        for words in [
            ["clim", "check", "-0"].as_slice(),
            &["clim", "check", "--files-from=-", "-0"],
            &["clim", "check", "-0r"],
        ] {
            let (ended, out, err) = answer_on(with_input(&rt, list), words)?;
            assert_eq!(rt; (ended, out.as_str(), err.as_str()), (status, printed, reported));
        }
        // The same names, one on each line.
        let lines: Vec<u8> = list.iter().map(|byte| if *byte == 0 { b'\n' } else { *byte }).collect(rt.alloc())?;
        let (ended, out, err) = answer_on(with_input(&rt, lines.as_slice()), &["clim", "check", "--files-from", "-"])?;
        assert_eq!(rt; (ended, out.as_str(), err.as_str()), (status, printed, reported));
        // The same lists in a file.
        for (list, words) in [
            (lines.as_slice(), ["clim", "check", "--files-from", "names.txt"].as_slice()),
            (list, &["clim", "check", "--files-from=names.txt", "-0"]),
        ] {
            fs::write(&rt, "names.txt", list)?;
            let (ended, out, err) = answer(&rt, words)?;
            assert_eq!(rt; (ended, out.as_str(), err.as_str()), (status, printed, reported));
        }
    }
    // The standard input may be in a list that is a file, once.
    fs::write(&rt, "names.txt", b"-\ngood.dll\n-\n".as_slice())?;
    let file = image();
    let (ended, out, err) = answer_on(with_input(&rt, file.as_slice()), &["clim", "check", "--files-from", "names.txt"])?;
    assert_eq!(rt; (ended, out.as_str(), err.as_str()), (3, "-: ok\ngood.dll: ok\n", AGAIN));
    fs::remove_file(&rt, "names.txt")?;
    let (ended, out, err) = answer(&rt, &["clim", "check", "--files-from", "lacks"])?;
    assert_eq!(rt; (ended, out.as_str(), err.as_str()), (3, "", LACKS));
    remove_files(&rt)
}

/// A name that is not UTF-8 is reported, and the others have their digests.
#[test]
fn digests_listed_files(rt: HostRuntime) -> Result<(), Fail> {
    write_files(&rt)?;
    let (_, good, _) = answer(&rt, &["clim", "digest", "good.dll"])?;
    let (_, types, _) = answer(&rt, &["clim", "digest", "--bare", "types.root"])?;
    let not_text = "error: cannot read a\\xff\n  reason: its name is not UTF-8\n";
    for (words, list, status, printed, reported) in [
        (["clim", "digest", "-0"].as_slice(), b"".as_slice(), 0, "", ""),
        (&["clim", "digest", "-0"], b"a\xFF\0good.dll\0", 3, good.as_str(), not_text),
        (&["clim", "digest", "--files-from", "-"], b"lacks\ngood.dll", 3, good.as_str(), LACKS),
        (&["clim", "digest", "--bare", "-0"], b"types.root\0", 0, types.as_str(), ""),
    ] {
        let (ended, out, err) = answer_on(with_input(&rt, list), words)?;
        assert_eq!(rt; (ended, out.as_str(), err.as_str()), (status, printed, reported));
    }
    remove_files(&rt)
}

/// What is reported of the standard input when it is read a second time.
const AGAIN: &str = "error: cannot read -\n  reason: the standard input was read already\n";

/// `-` is the standard input, for one file and among several. It is read once.
#[test]
fn reads_the_standard_input(rt: HostRuntime) -> Result<(), Fail> {
    write_files(&rt)?;
    let (file, root) = (image(), ONE_MODULE);
    for (words, input, status, printed, reported) in [
        (["clim", "check", "-"].as_slice(), file.as_slice(), 0, "ok\n", ""),
        (&["clim", "check", "--bare", "-"], root.as_slice(), 0, "ok\n", ""),
        (&["clim", "check", "-"], b"", 1, "", "fault 1 102 at 0: DosHeader\n"),
        (&["clim", "check", "good.dll", "-", "other.dll"], file.as_slice(), 1, "good.dll: ok\n-: ok\nother.dll: fault 1 102 at 0: DosHeader\n", ""),
        (&["clim", "check", "-", "good.dll", "-"], file.as_slice(), 3, "-: ok\ngood.dll: ok\n", AGAIN),
        (&["clim", "check", "-r", "-", "-"], file.as_slice(), 3, "-: ok\n", AGAIN),
        (&["clim", "check", "-q", "-", "-"], b"", 3, "", AGAIN),
        (&["clim", "check", "-0"], b"-\0good.dll\0", 3, "good.dll: ok\n", AGAIN),
        (&["clim", "types", "--bare", "-"], TWO_TYPES.as_slice(), 0, "02000001 <Module> 0 0\n02000002 N.C 2 1\n", ""),
        (&["clim", "compare", "--bare", "-", "bare.root"], root.as_slice(), 0, "equal\n", ""),
    ] {
        let (ended, out, err) = answer_on(with_input(&rt, input), words)?;
        assert_eq!(rt; (ended, out.as_str(), err.as_str()), (status, printed, reported));
    }
    remove_files(&rt)
}

/// The output fails at each byte: what went out is a prefix, no further file is checked, and the status is 3.
#[test]
fn stops_if_the_output_fails(rt: HostRuntime) -> Result<(), Fail> {
    write_files(&rt)?;
    let words = ["clim", "check", "good.dll", "lacks", "other.dll", "also.dll"];
    let mut whole = Vec::new(rt.alloc());
    let mut err = Vec::new(rt.alloc());
    assert_eq!(rt; go(&rt, &words, &mut whole, &mut err), 3);
    assert_eq!(rt; whole.len(), 65);
    for room in 0..70 {
        let mut out = Narrow {
            taken: Vec::new(rt.alloc()),
            room,
        };
        let mut err = Vec::new(rt.alloc());
        assert_eq!(rt; go(&rt, &words, &mut out, &mut err), 3, "{room}");
        assert_eq!(rt; out.taken.as_slice(), &whole.as_slice()[..room.min(65)]);
        let is_cut = err.as_slice().ends_with(b"error: cannot write output\n  reason: no space left\n");
        assert_eq!(rt; is_cut, room < 65, "{room}");
        // The file that is not there follows the first line.
        assert_eq!(rt; err.as_slice().starts_with(LACKS.as_bytes()), 13 <= room, "{room}");
    }
    for late in [false, true] {
        let mut err = Vec::new(rt.alloc());
        assert_eq!(rt; go(&rt, &words, &mut Full { late }, &mut err), 3);
        assert_eq!(rt; err.as_slice(), b"error: cannot write output\n  reason: no space left\n".as_slice());
    }
    remove_files(&rt)
}
