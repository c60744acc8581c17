use crate::runs::answer;
use sample_roots::ONE_MODULE;
use std::fs;
use std::test::Fail;

/// Texts that a terminal would obey or that would begin a line, and how they are printed.
const HOSTILE: [(&str, &str); 9] = [
    (
        "\u{1b}]0;x\u{7}\nfault 3 307 at 0: Forged",
        "\\x1b]0;x\\x07\\x0afault 3 307 at 0: Forged",
    ),
    ("a\rb", "a\\x0db"),
    ("a\tb", "a\\x09b"),
    ("\u{7f}", "\\x7f"),
    // Control characters of C1: a sequence begins, a line begins, a text for the terminal begins.
    ("\u{9b}31m", "\\xc2\\x9b31m"),
    ("a\u{85}b", "a\\xc2\\x85b"),
    ("\u{90}q", "\\xc2\\x90q"),
    ("\u{e9}\u{2028}", "\\xc3\\xa9\\xe2\\x80\\xa8"),
    ("\"\\", "\\x22\\x5c"),
];

/// Whether a text is printable ASCII and line feeds, and no line of it is a fault.
fn is_safe(text: &str) -> bool {
    text.bytes().all(|byte| byte == b'\n' || (b' '..=b'~').contains(&byte))
        && !text.lines().any(|line| line.starts_with("fault "))
}

/// Whether a call ends with this status, what it prints is safe, and the escaped text is in it.
fn ends(rt: &HostRuntime, words: &[&str], status: u8, escaped: &str) -> Result<bool, Fail> {
    let (ended, out, err) = answer(rt, words)?;
    let is_named = err.contains(escaped) || out.contains(escaped);
    Ok(ended == status && is_named && is_safe(out.as_str()) && is_safe(err.as_str()))
}

/// Paths, a token and a code are printed in the line of the error.
#[test]
fn escapes_values(rt: HostRuntime) -> Result<(), Fail> {
    let alloc = rt.alloc();
    fs::write(&rt, "plain.root", ONE_MODULE.as_slice())?;
    for (text, escaped) in HOSTILE {
        let unread = format!(in alloc; "error: cannot read {escaped}\n  reason: no such file\n")?;
        for name in ["root", "check", "show", "types"] {
            let words = ["clim", name, text];
            assert!(rt; ends(&rt, &words, 3, escaped)?, "{escaped}");
            assert_eq!(rt; answer(&rt, &words)?.2, unread);
        }
        for words in [
            ["clim", "token", text, "1"],
            ["clim", "where", text, "1"],
            ["clim", "rewrite", text, "out.root"],
        ] {
            assert!(rt; ends(&rt, &words, 3, escaped)?, "{escaped}");
            assert_eq!(rt; answer(&rt, &words)?.2, unread);
        }
        let path = format!(in alloc; "lacks/{text}")?;
        let words = ["clim", "rewrite", "--bare", "plain.root", path.as_str()];
        let unwritten =
            format!(in alloc; "error: cannot write lacks/{escaped}\n  reason: no such file\n")?;
        assert!(rt; ends(&rt, &words, 3, escaped)?, "{escaped}");
        assert_eq!(rt; answer(&rt, &words)?.2, unwritten);
        assert!(rt; ends(&rt, &["clim", "token", "plain.root", text], 2, escaped)?, "{escaped}");
        assert!(rt; ends(&rt, &["clim", "where", "plain.root", text], 2, escaped)?, "{escaped}");
        assert!(rt; ends(&rt, &["clim", "explain", text], 2, escaped)?, "{escaped}");
    }
    fs::remove_file(&rt, "plain.root")?;
    Ok(())
}

/// The texts of `clap` have arguments too: subcommands, flags, values of flags, and the name of the program.
#[test]
fn escapes_usage_errors(rt: HostRuntime) -> Result<(), Fail> {
    let alloc = rt.alloc();
    for (text, escaped) in HOSTILE {
        let long = format!(in alloc; "--{text}")?;
        let budget = format!(in alloc; "--budget={text}")?;
        let bare = format!(in alloc; "--bare={text}")?;
        for words in [
            ["clim", text].as_slice(),
            &["clim", "help", text],
            &["clim", long.as_str()],
            &["clim", "check", long.as_str(), "lacks"],
            &["clim", "check", "--budget", text, "lacks"],
            &["clim", "check", budget.as_str(), "lacks"],
            &["clim", "check", bare.as_str(), "lacks"],
            &["clim", "where", "lacks", "1", text],
            &["clim", "token", "lacks", "1", text],
            &["clim", "rewrite", "lacks", "out", text],
            &["clim", "explain", "501", text],
            &[text, "token"],
            &[text, "check", "--lacks"],
        ] {
            assert!(rt; ends(&rt, words, 2, escaped)?, "{escaped}");
        }
        assert!(rt; ends(&rt, &[text, "check", "--help"], 0, escaped)?, "{escaped}");
        // Only the first character of a bundle of flags may be named.
        let short = format!(in alloc; "-{text}")?;
        assert!(rt; ends(&rt, &["clim", "check", short.as_str(), "lacks"], 2, "'-")?, "{escaped}");
    }
    Ok(())
}

/// The line of a hint has no byte of an argument, also if the argument is near a name.
#[test]
fn escapes_beside_hints(rt: HostRuntime) -> Result<(), Fail> {
    for (words, escaped, hint) in [
        (["clim", "show", "lacks", "TypeDef\u{1b}"].as_slice(), "'TypeDef\\x1b'\n", "TypeDef"),
        (&["clim", "show", "lacks", "Type\u{7}Def"], "'Type\\x07Def'\n", "TypeDef"),
        (&["clim", "explain", "Bad\nString"], "'Bad\\x0aString'\n", "BadString"),
        (&["clim", "explain", "BadGuid\u{9b}"], "'BadGuid\\xc2\\x9b'\n", "BadGuid"),
        (&["clim", "compare", "--ignore", "Module\r.Mvid", "lacks", "lacks"], "'Module\\x0d.Mvid'\n", "Module.Mvid"),
        (&["clim", "compare", "--ignore", "Module.Mvid\u{7f}", "lacks", "lacks"], "'Module.Mvid\\x7f'\n", "Module.Mvid"),
    ] {
        assert!(rt; ends(&rt, words, 2, escaped)?, "{escaped}");
        let last = format!(in rt.alloc(); "\n  hint: the nearest name is '{hint}'\n")?;
        assert!(rt; answer(&rt, words)?.2.ends_with(last.as_str()), "{escaped}");
    }
    Ok(())
}

/// No name is looked for of a word of 100 kB, which is printed whole.
#[test]
fn looks_for_no_name_of_a_long_word(rt: HostRuntime) -> Result<(), Fail> {
    let alloc = rt.alloc();
    let mut long = String::new(alloc);
    for _ in 0..1_000 {
        long.push_str("0123456789")?;
    }
    let column = format!(in alloc; "Module.{long}")?;
    let table = format!(in alloc; "{long}.Mvid")?;
    for words in [
        ["clim", long.as_str()].as_slice(),
        &["clim", "help", long.as_str()],
        &["clim", "show", "lacks", long.as_str()],
        &["clim", "explain", long.as_str()],
        &["clim", "compare", "--ignore", column.as_str(), "lacks", "lacks"],
        &["clim", "compare", "--ignore", table.as_str(), "lacks", "lacks"],
    ] {
        let (status, out, err) = answer(&rt, words)?;
        assert!(rt; status == 2 && out.is_empty() && err.contains(long.as_str()) && !err.contains("hint"));
    }
    Ok(())
}
