//! Tests of `report_strings`: what `clim strings` prints of the user strings of a root.

use crate::runs::{Case, answer, other_answer};
use crate::samples::{TWO_STRINGS, USER_STRINGS};
use sample_roots::ONE_MODULE;
use std::fs;
use std::test::Fail;

/// What is printed of `USER_STRINGS`: a string of no units has a line, and an empty entry has none.
const LINES: &str = "\
70000001 AB
70000007 '
7000000b \n\
7000000d \\u005c\\u00e9\"
70000018 \n\
";

#[test]
fn prints_user_strings(rt: HostRuntime) -> Result<(), Fail> {
    let words = ["clim", "strings", "--bare"];
    let whole = Case::new(105, 0, b"", 0, LINES);
    assert_eq!(rt; other_answer(&rt, &words, &USER_STRINGS, &whole)?, None);
    let two = "70000001 Hello\n7000000d a\\u005cb\n";
    for (offset, bytes, lines) in [
        (0, b"".as_slice(), two),
        // The first byte of the heap is the empty string, whatever it is.
        (80, b"\x05", two),
        // The walk ends at bytes that are no user string: an even length, a length past the heap, no length.
        (81, b"\x0A", ""),
        (93, b"\x06", "70000001 Hello\n"),
        (93, b"\x0F", "70000001 Hello\n"),
        (93, b"\xE0", "70000001 Hello\n"),
        // A longer form of the length is valid, and moves the entry after it.
        (81, b"\x80\x09H\0e\0l\0l\0\0", "70000001 Hell\n7000000d a\\u005cb\n"),
        // An empty entry between two others has no line.
        (81, b"\0\x09H\0e\0l\0l\0\0", "70000002 Hell\n7000000d a\\u005cb\n"),
    ] {
        let case = Case::new(105, offset, bytes, 0, lines);
        assert_eq!(rt; other_answer(&rt, &words, &TWO_STRINGS, &case)?, None);
    }
    Ok(())
}

/// Each line has the token of an entry, which `clim token` prints.
#[test]
fn prints_tokens_of_entries(rt: HostRuntime) -> Result<(), Fail> {
    fs::write(&rt, "user.root", USER_STRINGS.as_slice())?;
    let (_, lines, _) = answer(&rt, &["clim", "strings", "--bare", "user.root"])?;
    for line in lines.lines() {
        let (token, text) = line.split_once(' ').ok_or("no token")?;
        let (status, out, _) = answer(&rt, &["clim", "token", "--bare", "user.root", token])?;
        assert_eq!(rt; status, 0);
        let shown = format!(in rt.alloc(); "user {text} ")?;
        assert!(rt; out.starts_with(&shown), "{line}: {out}");
    }
    assert_eq!(rt; lines.lines().count(), 5);
    fs::remove_file(&rt, "user.root")?;
    Ok(())
}

/// A root without `#US` has no user strings, and a root that breaks a rule has its fault.
#[test]
fn prints_no_user_strings(rt: HostRuntime) -> Result<(), Fail> {
    let words = ["clim", "strings", "--bare"];
    let none = Case::new(144, 0, b"", 0, "");
    assert_eq!(rt; other_answer(&rt, &words, &ONE_MODULE, &none)?, None);
    let wrong = Case::new(144, 112, &[2], 1, "fault 5 504 at 112: BadGuid\n");
    assert_eq!(rt; other_answer(&rt, &words, &ONE_MODULE, &wrong)?, None);
    Ok(())
}
