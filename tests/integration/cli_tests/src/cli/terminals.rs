//! Tests of terminals that read UTF-8.

use crate::runs::answer;
use cli::{Terminal, go_on};
use sample_roots::{TWO_TYPES, write_at};
use std::fs;
use std::test::Fail;

/// A name with a letter and a mark of direction.
const NAME: &[u8] = b"Caf\xC3\xA9\xE2\x80\xAE";

/// What the arguments print on a terminal, and its status.
fn on(rt: &HostRuntime, terminal: Terminal, words: &[&str]) -> Result<(u8, String, String), Fail> {
    let mut out = Vec::new(rt.alloc());
    let mut err = Vec::new(rt.alloc());
    let status = go_on(rt, terminal, words, &mut out, &mut err);
    let out = String::from_utf8(out).ok().ok_or("no text")?;
    let err = String::from_utf8(err).ok().ok_or("no text")?;
    Ok((status, out, err))
}

/// A letter is printed as it is by `outline`, and a mark of direction is not.
#[test]
fn prints_letters(rt: HostRuntime) -> Result<(), Fail> {
    let mut root: Vec<u8> = TWO_TYPES.to_vec(rt.alloc())?;
    write_at(&mut root, 173, NAME);
    fs::write(&rt, "t\u{e9}.root", root.as_slice())?;
    let words = ["clim", "outline", "--bare", "t\u{e9}.root", "02000001"];
    let letters = ".class private auto ansi 'Caf\u{e9}\\xe2\\x80\\xae'  // 02000001\n";
    let escaped = ".class private auto ansi 'Caf\\xc3\\xa9\\xe2\\x80\\xae'  // 02000001\n";
    assert_eq!(rt; on(&rt, Terminal::Utf8, &words)?.1.as_str(), letters);
    assert_eq!(rt; on(&rt, Terminal::Ascii, &words)?.1.as_str(), escaped);
    assert_eq!(rt; answer(&rt, &words)?.1.as_str(), escaped);
    let words = ["clim", "outline", "-r", "--bare", "t\u{e9}.root", "02000001"];
    let named = format!(in rt.alloc(); "t\u{e9}.root: {letters}")?;
    assert_eq!(rt; on(&rt, Terminal::Utf8, &words)?.1.as_str(), named.as_str());
    // The output of the other commands, and JSON, are the same on each terminal.
    for command in ["show", "types", "root", "strings", "check"] {
        for words in [["clim", command, "--bare", "t\u{e9}.root"].as_slice(), &["clim", command, "--bare", "--json", "t\u{e9}.root"]] {
            assert_eq!(rt; on(&rt, Terminal::Utf8, words)?, on(&rt, Terminal::Ascii, words)?);
        }
    }
    let words = ["clim", "outline", "--json", "--bare", "t\u{e9}.root"];
    assert_eq!(rt; on(&rt, Terminal::Utf8, &words)?, on(&rt, Terminal::Ascii, &words)?);
    fs::remove_file(&rt, "t\u{e9}.root")?;
    Ok(())
}
