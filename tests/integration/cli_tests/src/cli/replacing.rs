use crate::cli::disks::{Disk, answer_on};
use crate::runs::answer;
use sample_roots::{ONE_MODULE, image};
use std::fs;
use std::fs::Permissions;
use std::os::unix::fs::{PermissionsExt, symlink};
use std::test::Fail;

/// A disk that takes this number of bytes for each file.
fn disk(rt: &HostRuntime, room: usize) -> Disk<'_> {
    Disk {
        host: rt,
        room,
        reported: None,
        at_once: Some(usize::MAX),
        input: &[],
    }
}

/// A file that is replaced stays as it is if its root does not fit the disk, whatever the number of bytes that do.
#[test]
fn keeps_its_file_on_a_full_disk(rt: HostRuntime) -> Result<(), Fail> {
    fs::write(&rt, "full.dll", image().as_slice())?;
    symlink(&rt, "full.dll", "full.link")?;
    for out in ["full.dll", "./full.dll", "full.link"] {
        for room in [0, 1, 143] {
            let words = ["clim", "rewrite", "full.dll", out];
            let (status, printed, err) = answer_on(disk(&rt, room), &words)?;
            assert_eq!(rt; status, 3);
            assert!(rt; printed.is_empty());
            let want = format!(in rt.alloc(); "error: cannot write {out}\n  reason: no space left\n")?;
            assert_eq!(rt; err, want);
            assert_eq!(rt; fs::read(&rt, "full.dll")?.as_slice(), image().as_slice());
            assert!(rt; fs::read(&rt, "full.dll.clim-new").is_err());
        }
    }
    // Another file has what the disk took.
    fs::write(&rt, "full.root", b"before".as_slice())?;
    let words = ["clim", "rewrite", "full.dll", "full.root"];
    assert_eq!(rt; answer_on(disk(&rt, 9), &words)?.0, 3);
    assert_eq!(rt; fs::read(&rt, "full.root")?.as_slice(), &ONE_MODULE[..9]);
    for file in ["full.dll", "full.link", "full.root"] {
        fs::remove_file(&rt, file)?;
    }
    Ok(())
}

/// A file that is replaced keeps its permissions, and a link to it stays one.
#[test]
fn replaces_its_file(rt: HostRuntime) -> Result<(), Fail> {
    for mode in [0o600, 0o644, 0o750] {
        fs::write(&rt, "same.dll", image().as_slice())?;
        fs::set_permissions(&rt, "same.dll", Permissions::from_mode(mode))?;
        symlink(&rt, "same.dll", "same.link")?;
        let words = ["clim", "rewrite", "same.dll", "same.link"];
        let (status, out, err) = answer_on(disk(&rt, 144), &words)?;
        assert_eq!(rt; status, 0, "{err}");
        assert_eq!(rt; out.as_str(), "wrote 144 bytes\n");
        assert_eq!(rt; fs::read(&rt, "same.dll")?.as_slice(), ONE_MODULE.as_slice());
        assert!(rt; fs::symlink_metadata(&rt, "same.link")?.is_symlink());
        let permissions = fs::metadata(&rt, "same.dll")?.permissions();
        assert_eq!(rt; permissions.mode() & 0o777, mode);
        assert!(rt; fs::read(&rt, "same.dll.clim-new").is_err());
        fs::remove_file(&rt, "same.link")?;
        fs::remove_file(&rt, "same.dll")?;
    }
    Ok(())
}

/// A file that was left beside is not overwritten, a link there is not followed, and neither is in the way.
#[test]
fn keeps_what_is_beside(rt: HostRuntime) -> Result<(), Fail> {
    fs::write(&rt, "other", b"other".as_slice())?;
    fs::write(&rt, "left.dll.clim-new", b"left".as_slice())?;
    symlink(&rt, "other", "left.dll.clim-new2")?;
    symlink(&rt, "lacks", "left.dll.clim-new3")?;
    fs::write(&rt, "left.dll", image().as_slice())?;
    let (status, out, err) = answer(&rt, &["clim", "rewrite", "left.dll", "left.dll"])?;
    assert_eq!(rt; status, 0, "{err}");
    assert_eq!(rt; out.as_str(), "wrote 144 bytes\n");
    assert_eq!(rt; fs::read(&rt, "left.dll")?.as_slice(), ONE_MODULE.as_slice());
    assert_eq!(rt; fs::read(&rt, "left.dll.clim-new")?.as_slice(), b"left".as_slice());
    assert_eq!(rt; fs::read(&rt, "other")?.as_slice(), b"other".as_slice());
    assert!(rt; fs::read(&rt, "lacks").is_err());
    assert!(rt; fs::read(&rt, "left.dll.clim-new4").is_err());
    for file in ["left.dll", "left.dll.clim-new", "left.dll.clim-new2", "left.dll.clim-new3", "other"] {
        fs::remove_file(&rt, file)?;
    }
    Ok(())
}

/// The name of the file beside one with a long name has its first characters, and what is there stays.
#[test]
fn replaces_a_file_with_a_long_name(rt: HostRuntime) -> Result<(), Fail> {
    for (start, tail) in [("", 246), ("", 247), ("", 255), ("\u{e9}", 245), ("a\u{e9}", 252), ("\u{1f600}", 251)] {
        let mut name = String::from_str(rt.alloc(), start)?;
        for _ in 0..tail / 4 {
            name.push_str("\u{1f600}")?;
        }
        for _ in 0..tail % 4 {
            name.push_str("x")?;
        }
        fs::write(&rt, name.as_str(), image().as_slice())?;
        let (beside, _) = name.as_str().split_at(name.as_str().floor_char_boundary(246));
        let beside = format!(in rt.alloc(); "{beside}.clim-new")?;
        fs::write(&rt, beside.as_str(), b"left".as_slice())?;
        let (status, out, err) = answer(&rt, &["clim", "rewrite", name.as_str(), name.as_str()])?;
        assert_eq!(rt; (status, out.as_str(), err.as_str()), (0, "wrote 144 bytes\n", ""));
        assert_eq!(rt; fs::read(&rt, name.as_str())?.as_slice(), ONE_MODULE.as_slice());
        assert_eq!(rt; fs::read(&rt, beside.as_str())?.as_slice(), b"left".as_slice());
        fs::remove_file(&rt, name.as_str())?;
        fs::remove_file(&rt, beside.as_str())?;
    }
    Ok(())
}

/// If a hundred files were left beside, FILE stays as it is.
#[test]
fn gives_up_after_a_hundred_names(rt: HostRuntime) -> Result<(), Fail> {
    fs::write(&rt, "many.dll", image().as_slice())?;
    fs::write(&rt, "many.dll.clim-new", b"left".as_slice())?;
    for number in 2..=100 {
        let left = format!(in rt.alloc(); "many.dll.clim-new{number}")?;
        fs::write(&rt, left.as_str(), b"left".as_slice())?;
    }
    let (status, out, err) = answer(&rt, &["clim", "rewrite", "many.dll", "many.dll"])?;
    assert_eq!(rt; status, 3);
    assert!(rt; out.is_empty());
    assert_eq!(rt;
        err.as_str(),
        "error: cannot write many.dll\n  reason: too many files OUT.clim-new, OUT.clim-new2 .. exist\n"
    );
    assert_eq!(rt; fs::read(&rt, "many.dll")?.as_slice(), image().as_slice());
    fs::remove_file(&rt, "many.dll")?;
    fs::remove_file(&rt, "many.dll.clim-new")?;
    for number in 2..=100 {
        let left = format!(in rt.alloc(); "many.dll.clim-new{number}")?;
        fs::remove_file(&rt, left.as_str())?;
    }
    Ok(())
}

/// `-` is no OUT, whatever FILE is. A file of that name is written by its path.
#[test]
fn refuses_a_dash(rt: HostRuntime) -> Result<(), Fail> {
    let (status, out, err) = answer(&rt, &["clim", "rewrite", "lacks", "-"])?;
    assert_eq!(rt; status, 2);
    assert!(rt; out.is_empty());
    assert_eq!(rt;
        err.as_str(),
        "error: OUT is a file, and '-' is none\n  hint: './-' is the file with that name\n"
    );
    assert!(rt; fs::read(&rt, "./-").is_err());
    fs::write(&rt, "dash.dll", image().as_slice())?;
    let (status, out, err) = answer(&rt, &["clim", "rewrite", "dash.dll", "./-"])?;
    assert_eq!(rt; status, 0, "{err}");
    assert_eq!(rt; out.as_str(), "wrote 144 bytes\n");
    fs::remove_file(&rt, "./-")?;
    fs::remove_file(&rt, "dash.dll")?;
    Ok(())
}

/// The standard output of the test is refused before the file is read.
#[test]
fn refuses_the_standard_output(rt: HostRuntime) -> Result<(), Fail> {
    for path in ["/dev/stdout", "/dev/fd/1", "/proc/self/fd/1"] {
        let (status, out, err) = answer(&rt, &["clim", "rewrite", "lacks", path])?;
        assert_eq!(rt; status, 3);
        assert!(rt; out.is_empty());
        let want = format!(in rt.alloc();
            "error: cannot write {path}\n  reason: the standard output, which takes the line 'wrote N bytes'\n"
        )?;
        assert_eq!(rt; err, want);
    }
    Ok(())
}

/// A file that reports another length than it has is read to its end, and a long one that cannot be read has no fault.
#[test]
fn reads_whatever_length_is_reported(rt: HostRuntime) -> Result<(), Fail> {
    fs::write(&rt, "grows.root", ONE_MODULE.as_slice())?;
    let words = ["clim", "check", "--bare", "grows.root"];
    let long = Disk {
        reported: Some((1 << 30) + 1),
        at_once: None,
        ..disk(&rt, 0)
    };
    let (status, out, err) = answer_on(long, &words)?;
    assert_eq!(rt; status, 3);
    assert!(rt; out.is_empty());
    assert_eq!(rt;
        err.as_str(),
        "error: cannot read grows.root\n  reason: another error of the system\n"
    );
    for reported in [0, 1, 143, 145, 5000] {
        let short = Disk {
            reported: Some(reported),
            ..disk(&rt, 0)
        };
        assert_eq!(rt; answer_on(short, &words)?.1.as_str(), "ok\n");
    }
    let unreadable = Disk {
        at_once: None,
        ..disk(&rt, 0)
    };
    let (status, out, err) = answer_on(unreadable, &words)?;
    assert_eq!(rt; status, 3);
    assert!(rt; out.is_empty());
    assert_eq!(rt;
        err.as_str(),
        "error: cannot read grows.root\n  reason: another error of the system\n"
    );
    fs::remove_file(&rt, "grows.root")?;
    Ok(())
}
