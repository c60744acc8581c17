use crate::named::file_named;
use crate::runs::answer;
use cli::{Ask, Subcommand, ask};
use schema::column_names;
use std::io;
use std::io::ErrorKind;
use std::test::Fail;
use table_schema::TableId;

/// How help shows the lines.
const LINES_IN_HELP: &str = "\
  version v4.0.30319
  stream 80 40 #~
  stream 120 8 #Strings
  stream 128 16 #GUID
";

/// What is printed if there is no file.
const NO_FILE: &str = "error: no FILE given\n  hint: '-' reads standard input; 'clim <COMMAND> -h' shows the options\n";

/// Arguments that are a usage error, and what the program prints for them.
const REFUSED: [(&[&str], &str); 108] = [
    (&[], "Usage: clim <COMMAND>"),
    (&["clim"], "Usage: clim <COMMAND>"),
    (&["clim", "lacks"], "unrecognized subcommand 'lacks'"),
    (
        &["clim", "checks", "--bare", "lacks"],
        "unrecognized subcommand 'checks'",
    ),
    (&["clim", "check"], NO_FILE),
    (&["clim", "check", "--bare"], NO_FILE),
    (
        &["clim", "check", "-0", "lacks"],
        "error: '--files-from' and FILE exclude each other\n",
    ),
    (
        &["clim", "check", "lacks", "--files-from", "-"],
        "error: '--files-from' and FILE exclude each other\n",
    ),
    (
        &["clim", "check", "--files-from"],
        "a value is required for '--files-from <LIST>'",
    ),
    (&["clim", "check", "-00"], "cannot be used multiple times"),
    (&["clim", "show", "-0", "lacks"], "error: TABLE is a table"),
    (&["clim", "show", "-0", "a.dll"], "error: '--files-from' and FILE exclude each other\n"),
    (&["clim", "outline", "--files-from=lacks", "lacks.dll"], "error: '--files-from' and FILE exclude each other\n"),
    (&["clim", "token", "-0", "lacks", "1"], "unexpected argument '-0'"),
    (&["clim", "resources", "--extract", "a", "lacks", "lacks"], "error: '--extract' takes one FILE, and no '--json', '-r' or list of files\n"),
    (&["clim", "resources", "--extract=a", "--json", "lacks"], "error: '--extract' takes one FILE, and no '--json', '-r' or list of files\n"),
    (&["clim", "resources", "--extract=a", "-0"], "error: '--extract' takes one FILE, and no '--json', '-r' or list of files\n"),
    (&["clim", "resources", "--extract=a", "-r", "lacks"], "error: '--extract' takes one FILE, and no '--json', '-r' or list of files\n"),
    (&["clim", "resources", "--extract", "a"], "error: '--extract' takes one FILE, and no '--json', '-r' or list of files\n"),
    (&["clim", "resources", "--bare", "lacks"], "unexpected argument '--bare'"),
    (&["clim", "refs"], NO_FILE),
    (&["clim", "rewrite", "-r", "lacks", "out"], "unexpected argument '-r'"),
    (&["clim", "check", "-rr", "lacks"], "cannot be used multiple times"),
    (&["clim", "digest", "--recursive"], NO_FILE),
    (
        &["clim", "check", "--budget", "few", "lacks"],
        "invalid value 'few' for '--budget <N>'",
    ),
    (&["clim", "check", "--budget=", "lacks"], "'--budget <N>'"),
    (
        &["clim", "check", "--budget", "18446744073709551616", "lacks"],
        "invalid value '18446744073709551616' for '--budget <N>'",
    ),
    (
        &["clim", "check", "--budget", "-1", "lacks"],
        "unexpected argument '-1'",
    ),
    (
        &["clim", "check", "lacks", "--budget"],
        "a value is required for '--budget <N>'",
    ),
    (
        &["clim", "root", "--budget", "1", "lacks"],
        "unexpected argument '--budget'",
    ),
    (&["clim", "show"], NO_FILE),
    (
        &["clim", "show", "lacks", "a.dll", "typdef"],
        "which 'clim show --help' lists, not 'typdef'\n  hint: the nearest name is 'TypeDef'\n",
    ),
    (
        &["clim", "show", "lacks", "typdef"],
        "error: TABLE is a table, which 'clim show --help' lists, not 'typdef'\n  hint: the nearest name is 'TypeDef'\n",
    ),
    (&["clim", "show", "lacks", "2"], "error: TABLE is a table"),
    (&["clim", "show", "lacks", "03"], "error: TABLE is a table"),
    (&["clim", "show", "lacks", "002"], "error: TABLE is a table"),
    (&["clim", "show", "lacks", "+2"], "error: TABLE is a table"),
    (&["clim", "show", "lacks", ""], "error: TABLE is a table"),
    (
        &["clim", "show", "lacks", "\u{1b}[2J"],
        "which 'clim show --help' lists, not '\\x1b[2J'\n",
    ),
    (&["clim", "check", "-q"], NO_FILE),
    (&["clim", "check", "-qq", "lacks"], "cannot be used multiple times"),
    (&["clim", "check", "--quiet=1", "lacks"], "unexpected value '1' for '--quiet'"),
    (&["clim", "show", "-q", "lacks"], "unexpected argument '-q'"),
    (&["clim", "strings"], NO_FILE),
    (&["clim", "types"], NO_FILE),
    (&["clim", "info"], NO_FILE),
    (&["clim", "outline"], NO_FILE),
    (&["clim", "check", "--json"], NO_FILE),
    (&["clim", "check", "--where"], NO_FILE),
    (&["clim", "check", "--where", "--json", "-q"], NO_FILE),
    (
        &["clim", "check", "--json", "-0", "lacks"],
        "error: '--files-from' and FILE exclude each other\n",
    ),
    (
        &["clim", "check", "--where", "lacks", "--files-from=-"],
        "error: '--files-from' and FILE exclude each other\n",
    ),
    (&["clim", "check", "--json", "--json", "lacks"], "cannot be used multiple times"),
    (&["clim", "strings", "--json", "--json", "lacks"], "cannot be used multiple times"),
    (&["clim", "digest", "--json"], NO_FILE),
    (&["clim", "explain", "--json=1"], "unexpected value '1' for '--json'"),
    (&["clim", "rewrite", "--json", "lacks", "out"], "unexpected argument '--json'"),
    (&["clim", "types", "--names", "lacks"], "unexpected argument '--names'"),
    (&["clim", "show", "--where", "lacks"], "unexpected argument '--where'"),
    (
        &["clim", "show", "--json", "lacks", "2"],
        "error: TABLE is a table",
    ),
    (&["clim", "token"], "Usage: clim token <FILE> <HEX>..."),
    (&["clim", "token", "lacks"], "  <HEX>...\n"),
    (
        &["clim", "token", "lacks", "1", "2", "g"],
        "error: HEX is one to eight hexadecimal digits, as '06001d06', not 'g'\n",
    ),
    (
        &["clim", "token", "--json", "lacks", "", "1"],
        "error: HEX is one to eight hexadecimal digits, as '06001d06', not ''\n",
    ),
    (&["clim", "where"], NO_FILE),
    (&["clim", "where", "1"], NO_FILE),
    (&["clim", "where", "-0"], NO_FILE),
    (&["clim", "where", "lacks"], "error: OFFSET is a number, decimal or hexadecimal after '0x', not 'lacks'\n"),
    (&["clim", "where", "lacks", "1", "two"], "error: OFFSET is a number, decimal or hexadecimal after '0x', not 'two'\n"),
    (&["clim", "where", "-0", "lacks", "1"], "error: '--files-from' and FILE exclude each other\n"),
    (
        &["clim", "help", "lacks"],
        "unrecognized subcommand 'lacks'",
    ),
    (&["clim", "rewrite"], "Usage: clim rewrite <FILE> <OUT>"),
    (&["clim", "rewrite", "lacks"], "  <OUT>\n"),
    (
        &["clim", "rewrite", "lacks", "out", "more"],
        "unexpected argument 'more'",
    ),
    (&["clim", "embed"], "Usage: clim embed <FILE> <OUT>"),
    (&["clim", "embed", "lacks"], "  <OUT>\n"),
    (&["clim", "embed", "--bare", "lacks", "out"], "unexpected argument '--bare'"),
    (
        &["clim", "embed", "lacks", "out", "--root"],
        "a value is required for '--root <ROOT>'",
    ),
    (&["clim", "embed", "--unsigned", "lacks", "-"], "error: OUT is a file, and '-' is none\n"),
    (&["clim", "digest"], NO_FILE),
    (&["clim", "digest", "-0", "lacks"], "error: '--files-from' and FILE exclude each other\n"),
    (&["clim", "digest", "-q", "lacks"], "unexpected argument '-q'"),
    (&["clim", "compare", "lacks"], "  <OTHER>\n"),
    (
        &["clim", "compare", "lacks", "lacks", "--ignore"],
        "a value is required for '--ignore <TABLE.COLUMN>'",
    ),
    (
        &["clim", "check", "lacks", "--ignore", "Module.Mvid"],
        "unexpected argument '--ignore'",
    ),
    (
        &["clim", "compare", "--ignore", "Module", "lacks", "lacks"],
        "error: no such column: '--ignore' takes a table and one of its columns, as 'Module.Mvid', not 'Module'\n",
    ),
    (
        &["clim", "compare", "--ignore", "Module.Mvid", "--ignore=module.mvi", "lacks", "lacks"],
        "as 'Module.Mvid', not 'module.mvi'\n  hint: the nearest name is 'Module.Mvid'\n",
    ),
    (
        &["clim", "compare", "--ignore", "Constant.padding", "lacks", "lacks"],
        "as 'Module.Mvid', not 'Constant.padding'",
    ),
    (
        &["clim", "compare", "--ignore", "TypeRef.Mvid", "lacks", "lacks"],
        "as 'Module.Mvid', not 'TypeRef.Mvid'",
    ),
    (&["clim", "compare", "--ignore", "", "lacks", "lacks"], "as 'Module.Mvid', not ''\n"),
    (
        &["clim", "compare", "--ignore", ".Mvid", "lacks", "lacks"],
        "as 'Module.Mvid', not '.Mvid'\n",
    ),
    (
        &["clim", "compare", "--ignore", "Module.Mvid\u{1b}", "lacks", "lacks"],
        "as 'Module.Mvid', not 'Module.Mvid\\x1b'\n  hint: the nearest name is 'Module.Mvid'\n",
    ),
    (
        &["clim", "explain", "501", "BadText"],
        "error: CODE is the number or the name of a fault, which 'clim explain' lists, not 'BadText'\n  hint: the nearest name is 'BadTag'\n",
    ),
    (&["clim", "explain", "BadSignatur"], "not 'BadSignatur'\n  hint: the nearest name is 'BadSignature'\n"),
    // Capital letters are no difference.
    (&["clim", "explain", "badstrin"], "not 'badstrin'\n  hint: the nearest name is 'BadString'\n"),
    (&["clim", "show", "lacks", "METHODEF"], "not 'METHODEF'\n  hint: the nearest name is 'MethodDef'\n"),
    (&["clim", "show", "lacks", "typref"], "not 'typref'\n  hint: the nearest name is 'TypeRef'\n"),
    (&["clim", "show", "lacks", "MethodDfe"], "not 'MethodDfe'\n  hint: the nearest name is 'MethodDef'\n"),
    (&["clim", "shwo", "lacks"], "'show'\n"),
    (&["clim", "help", "outlin"], "'outline'\n"),
    (
        &["clim", "explain", "--bare"],
        "unexpected argument '--bare'",
    ),
    (
        &["clim", "--bare", "root", "lacks"],
        "unexpected argument '--bare'",
    ),
    (&["clim", "root"], NO_FILE),
    (&["clim", "root", "--bare", "-r"], NO_FILE),
    (
        &["clim", "root", "--bare", "--bare", "lacks"],
        "cannot be used multiple times",
    ),
    (
        &["clim", "root", "--bare=1", "lacks"],
        "unexpected value '1' for '--bare'",
    ),
    (&["clim", "root", "-b", "lacks"], "unexpected argument '-b'"),
    (
        &["clim", "root", "--version"],
        "unexpected argument '--version'",
    ),
];

/// The file named lacks: a status of 2 shows that it was not looked for.
#[test]
fn reports_what_the_words_lack(rt: HostRuntime) -> Result<(), Fail> {
    for (words, reported) in REFUSED {
        let (status, out, err) = answer(&rt, words)?;
        assert_eq!(rt; status, 2, "{reported}");
        assert!(rt; out.is_empty());
        assert!(rt; err.contains(reported), "{err}");
    }
    Ok(())
}

/// A word that is near to no name has no hint. Two faults have no name, which is near to no word.
#[test]
fn hints_at_no_name_far_away(rt: HostRuntime) -> Result<(), Fail> {
    for words in [
        ["clim", "explain", ""].as_slice(),
        &["clim", "explain", "x"],
        &["clim", "explain", "50"],
        &["clim", "explain", "nothing like it"],
        &["clim", "show", "lacks", ""],
        &["clim", "show", "lacks", "x"],
        &["clim", "show", "lacks", "2"],
        &["clim", "compare", "--ignore", "Module.", "lacks", "lacks"],
        &["clim", "compare", "--ignore", ".Mvid", "lacks", "lacks"],
        &["clim", "compare", "--ignore", "Mvid", "lacks", "lacks"],
        &["clim", "compare", "--ignore", ".", "lacks", "lacks"],
    ] {
        let (status, out, err) = answer(&rt, words)?;
        assert!(rt; status == 2 && out.is_empty() && !err.contains("hint"), "{err}");
    }
    Ok(())
}

/// Of a subcommand that is near a name, one line names it.
#[test]
fn hints_once_at_a_subcommand(rt: HostRuntime) -> Result<(), Fail> {
    for (words, name) in [
        (["clim", "shwo", "lacks"].as_slice(), "'show'"),
        (&["clim", "ceck"], "'check'"),
        (&["clim", "help", "outlin"], "'outline'"),
    ] {
        let (_, _, err) = answer(&rt, words)?;
        assert_eq!(rt; err.split(name).count(), 2, "{err}");
    }
    Ok(())
}

/// Whether the arguments print these texts with exit code 0, and nothing else.
fn prints(rt: &HostRuntime, words: &[&str], texts: &[&str]) -> Result<bool, Fail> {
    let (status, out, err) = answer(rt, words)?;
    for text in texts {
        if !out.contains(*text) {
            return Ok(false);
        }
    }
    Ok(status == 0 && err.is_empty())
}

#[test]
fn helps(rt: HostRuntime) -> Result<(), Fail> {
    let texts = [
        "Usage: clim <COMMAND>",
        "\n  root ",
        "\n  info ",
        "\n  check ",
        "\n  show ",
        "\n  types ",
        "\n  outline ",
        "\n  refs ",
        "\n  resources ",
        "\n  strings ",
        "\n  token ",
        "\n  where ",
        "\n  rewrite ",
        "\n  digest ",
        "\n  compare ",
        "\n  explain ",
        "\n  help ",
        "Exit status:",
    ];
    assert!(rt; prints(&rt, &["clim", "--help"], &texts)?);
    assert!(rt; prints(&rt, &["clim", "help"], &texts)?);
    assert!(rt; prints(&rt, &["clim", "--help"], &["\nLook:\n", "\nCheck:\n", "\nCompare:\n", "\nWrite:\n"])?);
    Ok(())
}

/// The help of the program says of each command what the command's own help begins with.
#[test]
fn helps_with_the_same_words(rt: HostRuntime) -> Result<(), Fail> {
    let (_, help, _) = answer(&rt, &["clim", "help"])?;
    for name in [
        "root", "info", "show", "types", "outline", "refs", "resources", "strings", "token", "where", "check", "explain", "compare", "digest",
        "rewrite", "embed",
    ] {
        let (_, own, _) = answer(&rt, &["clim", name, "--help"])?;
        let (about, _) = own.split_once('\n').ok_or("no line")?;
        let line = format!(in rt.alloc(); "\n  {name:<11}{about}\n")?;
        assert!(rt; help.contains(line.as_str()), "{line}");
    }
    Ok(())
}

#[test]
fn prints_a_version_of_three_numbers(rt: HostRuntime) -> Result<(), Fail> {
    let (_, short, _) = answer(&rt, &["clim", "-V"])?;
    let (status, out, err) = answer(&rt, &["clim", "--version"])?;
    assert!(rt; status == 0 && err.is_empty());
    let (first, toolchain) = out.split_once('\n').ok_or("no line")?;
    assert!(rt; short.trim() == first && toolchain.starts_with("proved and built by Rattle, logic "));
    let version = first.trim().strip_prefix("clim ").expect(&rt, "clim and its version");
    assert!(rt; version.split('.').count() == 3);
    for number in version.split('.') {
        assert!(rt; number.parse::<u32>().is_ok());
    }
    Ok(())
}

#[test]
fn helps_with_each_subcommand(rt: HostRuntime) -> Result<(), Fail> {
    let helped = [
        (
            "root",
            "Usage: clim root [OPTIONS] [FILE]...",
            "\n  $ clim root --bare ",
        ),
        (
            "info",
            "Usage: clim info [OPTIONS] [FILE]...",
            "\n  format PE32 machine 0000014c i386 debug 0\n",
        ),
        (
            "check",
            "Usage: clim check [OPTIONS] [FILE]...",
            "\n  $ clim check --bare ",
        ),
        (
            "show",
            "Usage: clim show [OPTIONS] [FILE]...",
            "\n  1: 0 \"a.dll\" {03020100-0504-0706-0809-0a0b0c0d0e0f} null null",
        ),
        (
            "types",
            "Usage: clim types [OPTIONS] [FILE]...",
            "\n  02000002 N.C 2 1\n",
        ),
        (
            "outline",
            "Usage: clim outline [OPTIONS] [FILE]...",
            "  // 02000002\n",
        ),
        (
            "strings",
            "Usage: clim strings [OPTIONS] [FILE]...",
            "\n  70000001 Hello\n",
        ),
        (
            "token",
            "Usage: clim token [OPTIONS] <FILE> <HEX>...",
            "\n  user\n",
        ),
        (
            "where",
            "Usage: clim where [OPTIONS] [FILE]...",
            "\n  520 4 cli header Cb\n",
        ),
        (
            "rewrite",
            "Usage: clim rewrite [OPTIONS] <FILE> <OUT>",
            "\n  wrote 144 bytes\n",
        ),
        (
            "embed",
            "Usage: clim embed [OPTIONS] <FILE> <OUT>",
            "\n  wrote 1024 bytes\n",
        ),
        (
            "digest",
            "Usage: clim digest [OPTIONS] [FILE]...",
            "  out.root\n",
        ),
        (
            "compare",
            "Usage: clim compare [OPTIONS] <FILE> <OTHER>",
            "\n  equal\n",
        ),
        (
            "explain",
            "Usage: clim explain [OPTIONS] [CODE]...",
            "\n  502 BadUtf8: a text that is not UTF-8\n",
        ),
    ];
    for (name, usage, example) in helped {
        let is_reported = prints(&rt, &["clim", name, "--help"], &[usage, example])?;
        assert!(rt; is_reported, "{name}");
        let (status, out, err) = answer(&rt, &["clim", "help", name])?;
        assert_eq!(rt; status, 0);
        assert_eq!(rt; out, answer(&rt, &["clim", name, "--help"])?.1);
        assert!(rt; err.is_empty());
    }
    assert!(rt; prints(&rt, &["clim", "root", "--help"], &["[FILE]...", LINES_IN_HELP])?);
    let (status, short, err) = answer(&rt, &["clim", "root", "-h"])?;
    assert!(rt; status == 0 && err.is_empty() && short.contains("[FILE]...") && !short.contains("Examples:"));
    Ok(())
}

/// No line of help is wider than 80 columns, and short help is no longer than a screen.
#[test]
fn helps_within_a_screen(rt: HostRuntime) -> Result<(), Fail> {
    for name in [
        "root", "info", "show", "types", "outline", "refs", "resources", "strings", "token", "where", "check", "explain", "compare", "digest",
        "rewrite", "embed",
    ] {
        let (_, help, _) = answer(&rt, &["clim", name, "--help"])?;
        let (_, short, _) = answer(&rt, &["clim", name, "-h"])?;
        assert!(rt; help.lines().all(|line| line.len() <= 80), "{name}");
        assert!(rt; short.lines().all(|line| line.len() <= 80) && short.lines().count() <= 24, "{name}");
    }
    let (_, help, _) = answer(&rt, &["clim", "--help"])?;
    assert!(rt; help.lines().all(|line| line.len() <= 80));
    // Without a subcommand the short help is a usage error.
    let (status, out, short) = answer(&rt, &["clim"])?;
    assert!(rt; status == 2 && out.is_empty() && short.lines().all(|line| line.len() <= 80) && short.lines().count() <= 24);
    let (status, out, err) = answer(&rt, &["clim", "-h"])?;
    assert!(rt; status == 0 && err.is_empty());
    assert_eq!(rt; out.as_str(), short.as_str());
    Ok(())
}

/// The help of `show` lists the tables, each with its columns.
#[test]
fn helps_with_all_columns(rt: HostRuntime) -> Result<(), Fail> {
    let (_, help, _) = answer(&rt, &["clim", "show", "--help"])?;
    let (_, after) = help.split_once("The tables and their columns are:\n").ok_or("no tables")?;
    let (listed, _) = after.split_once("\n\n").ok_or("no end")?;
    let mut wanted = String::new(rt.alloc());
    for number in 0..=0x2C {
        if let Some(table) = TableId::from_number(number) {
            wanted.push_str(format!(in rt.alloc(); "{number:02X} {}: ", table.name())?.as_str())?;
            // A byte without meaning is no cell.
            for column in column_names(table).iter().filter(|column| **column != "padding") {
                wanted.push_str(column)?;
                wanted.push(' ')?;
            }
        }
    }
    assert!(rt; listed.split_whitespace().eq(wanted.split_whitespace()), "{wanted}");
    Ok(())
}

/// The values that arguments give, in the order of the fields of `Ask`.
type Given<'a> = (
    Subcommand,
    bool,
    Option<&'a str>,
    Option<&'a str>,
    Option<u64>,
    Option<&'a str>,
);

/// What the arguments ask for, but for the list of files.
fn given<'a>(asked: &Ask<'a>) -> Given<'a> {
    (
        asked.subcommand,
        asked.bare,
        asked.file,
        asked.second,
        asked.budget,
        asked.part,
    )
}

#[test]
fn asks(rt: HostRuntime) -> Result<(), Fail> {
    for (words, want) in [
        (
            ["clim", "root", "a.root", "--bare"].as_slice(),
            (Subcommand::Root, true, Some("a.root"), None, None, None),
        ),
        (
            &["clim", "check", "a.dll"],
            (Subcommand::Check, false, Some("a.dll"), None, None, None),
        ),
        (
            &["clim", "explain"],
            (Subcommand::Explain, false, None, None, None, None),
        ),
        (
            &["clim", "show", "a.root", "--bare", "TypeDef"],
            (Subcommand::Show, true, Some("a.root"), None, None, Some("TypeDef")),
        ),
        (
            &["clim", "show", "a.root"],
            (Subcommand::Show, false, Some("a.root"), None, None, None),
        ),
        (
            &["clim", "show", "TypeDef"],
            (Subcommand::Show, false, Some("TypeDef"), None, None, None),
        ),
        (
            &["clim", "show", "a.root", "lib/b"],
            (Subcommand::Show, false, Some("a.root"), None, None, None),
        ),
        (
            &["clim", "show", "a.root", "-"],
            (Subcommand::Show, false, Some("a.root"), None, None, None),
        ),
        (
            &["clim", "show", "Field", "--names", "b.dll", "Field"],
            (Subcommand::Show, false, Some("Field"), None, None, Some("Field")),
        ),
        (
            &["clim", "outline", "a.root", "N.C"],
            (Subcommand::Outline, false, Some("a.root"), None, None, Some("N.C")),
        ),
        (
            &["clim", "strings", "a.root"],
            (Subcommand::Strings, false, Some("a.root"), None, None, None),
        ),
        (
            &["clim", "token", "a.root", "--bare", "6000001"],
            (
                Subcommand::Token,
                true,
                Some("a.root"),
                None,
                None,
                None,
            ),
        ),
        (
            &["clim", "where", "a.root", "0x20"],
            (
                Subcommand::Where,
                false,
                Some("a.root"),
                None,
                None,
                Some("0x20"),
            ),
        ),
        (
            &["clim", "check", "--budget", "0", "a.dll"],
            (Subcommand::Check, false, Some("a.dll"), None, Some(0), None),
        ),
        (
            &["clim", "check", "--budget", "18446744073709551615", "a.dll"],
            (
                Subcommand::Check,
                false,
                Some("a.dll"),
                None,
                Some(u64::MAX),
                None,
            ),
        ),
        (
            &["clim", "rewrite", "a.dll", "a.root"],
            (
                Subcommand::Rewrite,
                false,
                Some("a.dll"),
                Some("a.root"),
                None,
                None,
            ),
        ),
        (
            &["clim", "embed", "a.dll", "b.dll"],
            (Subcommand::Embed, false, Some("a.dll"), Some("b.dll"), None, None),
        ),
    ] {
        let asked = ask(rt.alloc(), words)?;
        assert!(rt; given(&asked) == want);
        assert!(rt; asked.files.as_slice().first().copied() == asked.file);
        assert!(rt; asked.files_from.is_none() && !asked.null && !asked.quiet && !asked.json);
        assert!(rt; asked.codes.is_empty() && asked.root.is_none() && !asked.unsigned);
    }
    Ok(())
}

#[test]
fn asks_for_a_root(rt: HostRuntime) -> Result<(), Fail> {
    let asked = ask(rt.alloc(), &["clim", "embed", "a.dll", "--unsigned", "--root", "a.root", "b.dll"])?;
    assert!(rt; asked.root == Some("a.root") && asked.unsigned);
    assert!(rt; asked.file == Some("a.dll") && asked.second == Some("b.dll"));
    Ok(())
}

#[test]
fn asks_for_faults(rt: HostRuntime) -> Result<(), Fail> {
    for words in [
        ["clim", "explain"].as_slice(),
        &["clim", "explain", "501"],
        &["clim", "explain", "help", "BadGuid", "501", "501"],
    ] {
        let asked = ask(rt.alloc(), words)?;
        assert_eq!(rt; asked.codes.as_slice(), &words[2..]);
        assert!(rt; asked.subcommand == Subcommand::Explain && asked.file.is_none());
    }
    Ok(())
}

/// Several tokens, and several columns to leave out, in the order given.
#[test]
fn asks_for_tokens_and_columns(rt: HostRuntime) -> Result<(), Fail> {
    for words in [
        ["clim", "token", "a", "1"].as_slice(),
        &["clim", "token", "a", "70000001", "2", "2"],
    ] {
        let asked = ask(rt.alloc(), words)?;
        assert_eq!(rt; asked.tokens.as_slice(), &words[3..]);
        assert!(rt; asked.file == Some("a") && asked.second.is_none() && asked.ignored.is_empty());
    }
    let words = ["clim", "compare", "--ignore", "Module.Mvid", "a", "--ignore=x", "b"];
    let asked = ask(rt.alloc(), &words)?;
    assert_eq!(rt; asked.ignored.as_slice(), ["Module.Mvid", "x"].as_slice());
    assert!(rt; asked.file == Some("a") && asked.second == Some("b") && asked.tokens.is_empty());
    Ok(())
}

#[test]
fn asks_for_json(rt: HostRuntime) -> Result<(), Fail> {
    for (words, json) in [
        (["clim", "root", "a", "--json"].as_slice(), true),
        (&["clim", "check", "--json", "a"], true),
        (&["clim", "show", "--json", "a", "02"], true),
        (&["clim", "types", "--json", "a"], true),
        (&["clim", "info", "--json", "a"], true),
        (&["clim", "token", "a", "--json", "1"], true),
        (&["clim", "outline", "--json", "a", "N.C"], true),
        (&["clim", "where", "a", "1", "--json"], true),
        (&["clim", "compare", "--json", "a", "b"], true),
        (&["clim", "strings", "a", "--json"], true),
        (&["clim", "digest", "--json", "a", "b"], true),
        (&["clim", "explain", "--json"], true),
        (&["clim", "explain", "501", "--json", "BadGuid"], true),
        (&["clim", "show", "--until-fault", "--json", "a"], true),
        (&["clim", "check", "--json", "--where", "-q", "--budget", "9", "a", "b"], true),
        (&["clim", "check", "--json", "-0"], true),
        (&["clim", "explain", "--", "--json"], false),
        (&["clim", "show", "a", "--", "--json"], false),
        (&["clim", "check", "a"], false),
    ] {
        assert_eq!(rt; ask(rt.alloc(), words)?.json, json);
    }
    Ok(())
}

#[test]
fn asks_for_names_and_for_what_has_the_fault(rt: HostRuntime) -> Result<(), Fail> {
    for (words, names, locates) in [
        (["clim", "show", "--names", "a"].as_slice(), true, false),
        (&["clim", "show", "a", "02", "--names", "--json"], true, false),
        (&["clim", "show", "a", "--", "--names"], false, false),
        (&["clim", "check", "--where", "a"], false, true),
        (&["clim", "check", "--json", "a", "--where", "b"], false, true),
        (&["clim", "check", "-0", "--where"], false, true),
        (&["clim", "check", "--", "--where"], false, false),
        (&["clim", "where", "a", "1"], false, false),
    ] {
        let asked = ask(rt.alloc(), words)?;
        assert_eq!(rt; (asked.names, asked.locates), (names, locates));
    }
    Ok(())
}

#[test]
fn asks_for_a_quiet_check(rt: HostRuntime) -> Result<(), Fail> {
    for (words, quiet) in [
        (["clim", "check", "-q", "a"].as_slice(), true),
        (&["clim", "check", "a", "b", "--quiet"], true),
        (&["clim", "check", "-q0"], true),
        (&["clim", "check", "a"], false),
        (&["clim", "check", "--", "-q"], false),
        (&["clim", "compare", "-q", "a", "b"], true),
        (&["clim", "compare", "a", "--quiet", "b"], true),
        (&["clim", "compare", "a", "b"], false),
    ] {
        assert_eq!(rt; ask(rt.alloc(), words)?.quiet, quiet);
    }
    Ok(())
}

/// Options between the files change nothing, and after `--` each argument is a file.
#[test]
fn asks_for_several_files(rt: HostRuntime) -> Result<(), Fail> {
    let words = ["clim", "check", "a", "b", "--bare", "-", "--budget=7", "c", "--", "-0"];
    let asked = ask(rt.alloc(), &words)?;
    assert_eq!(rt; asked.files.as_slice(), ["a", "b", "-", "c", "-0"].as_slice());
    assert!(rt; given(&asked) == (Subcommand::Check, true, Some("a"), None, Some(7), None));
    let words = ["clim", "digest", "a", "b", "--bare", "-"];
    let asked_too = ask(rt.alloc(), &words)?;
    assert_eq!(rt; asked_too.files.as_slice(), ["a", "b", "-"].as_slice());
    assert!(rt; given(&asked_too) == (Subcommand::Digest, true, Some("a"), None, None, None));
    assert!(rt; asked.files_from.is_none() && !asked.null);
    Ok(())
}

/// The last argument of `outline` is a type, unless it has the form of a path or there is no other file.
#[test]
fn asks_for_a_type_or_a_file(rt: HostRuntime) -> Result<(), Fail> {
    for word in ["N.C", "N.C/D", "02000001", "a/b", ".dll.x", "a.dllx", "x.netmodules", "C-1", "..", ".", ".x/a", ""] {
        let words = ["clim", "outline", "a.dll", "b.dll", word];
        let asked = ask(rt.alloc(), &words)?;
        assert_eq!(rt; asked.part, Some(word));
        assert_eq!(rt; asked.files.as_slice(), ["a.dll", "b.dll"].as_slice());
        let words = ["clim", "outline", word];
        let alone = ask(rt.alloc(), &words)?;
        assert!(rt; alone.part.is_none() && alone.file == Some(word));
    }
    for word in [
        "-", "/a", "./a", "../a", "a.dll", "a/b.DLL", ".dll", "A.Exe", "x.winmd", "b.NetModule", "/", "./", "../", "a.b.dll",
    ] {
        let words = ["clim", "outline", "a.dll", word];
        let asked = ask(rt.alloc(), &words)?;
        assert!(rt; asked.part.is_none());
        assert_eq!(rt; asked.files.as_slice(), ["a.dll", word].as_slice());
    }
    Ok(())
}

/// Of files in a list what to print is the only argument.
#[test]
fn asks_for_a_part_of_listed_files(rt: HostRuntime) -> Result<(), Fail> {
    for words in [
        ["clim", "show", "-0", "Field"].as_slice(),
        &["clim", "outline", "Field", "--files-from=-"],
        &["clim", "where", "--files-from", "x", "Field"],
    ] {
        let asked = ask(rt.alloc(), words)?;
        assert!(rt; asked.part == Some("Field") && asked.files.is_empty() && asked.file == Some("Field"));
    }
    let asked = ask(rt.alloc(), &["clim", "types", "-0", "Field"])?;
    assert!(rt; asked.part.is_none() && asked.files.len() == 1);
    Ok(())
}

#[test]
fn asks_for_directories(rt: HostRuntime) -> Result<(), Fail> {
    for (words, recursive) in [
        (["clim", "check", "-r", "a"].as_slice(), true),
        (&["clim", "check", "-rq0"], true),
        (&["clim", "root", "--recursive", "a"], true),
        (&["clim", "info", "a", "-r"], true),
        (&["clim", "show", "-r", "a", "Field"], true),
        (&["clim", "types", "-r", "a"], true),
        (&["clim", "outline", "-r", "a", "N.C"], true),
        (&["clim", "strings", "-r", "a"], true),
        (&["clim", "where", "a", "1", "-r"], true),
        (&["clim", "digest", "-r", "a"], true),
        (&["clim", "digest", "--", "-r"], false),
        (&["clim", "check", "a"], false),
    ] {
        assert_eq!(rt; ask(rt.alloc(), words)?.recursive, recursive);
    }
    Ok(())
}

#[test]
fn asks_for_a_list(rt: HostRuntime) -> Result<(), Fail> {
    for (words, source, null) in [
        (["clim", "check", "-0"].as_slice(), None, true),
        (&["clim", "check", "--files-from", "-"], Some("-"), false),
        (&["clim", "check", "--files-from=-", "-0"], Some("-"), true),
        (&["clim", "check", "--files-from=x"], Some("x"), false),
    ] {
        let asked = ask(rt.alloc(), words)?;
        assert_eq!(rt; (asked.files_from, asked.null), (source, null));
        assert!(rt; asked.files.is_empty() && asked.file.is_none());
    }
    Ok(())
}

#[test]
fn names_the_file(rt: HostRuntime) -> Result<(), Fail> {
    for words in [
        ["clim", "root", "a.root", "--bare"].as_slice(),
        &["clim", "check", "a.root"],
        &["clim", "token", "--bare", "a.root", "6000001"],
    ] {
        assert_eq!(rt; file_named(rt.alloc(), words)?, Some("a.root"));
    }
    assert_eq!(rt; file_named(rt.alloc(), &["clim", "explain", "501"])?, None);
    assert!(rt; file_named(rt.alloc(), &["clim", "token", "a.root"]).is_err());
    Ok(())
}

#[test]
fn asks_for_headers_until_a_fault(rt: HostRuntime) -> Result<(), Fail> {
    for (words, until_fault) in [
        (["clim", "root", "--until-fault", "a"].as_slice(), true),
        (&["clim", "root", "a", "--until-fault"], true),
        (&["clim", "root", "a"], false),
        (&["clim", "root", "--", "--until-fault"], false),
    ] {
        assert_eq!(rt; ask(rt.alloc(), words)?.until_fault, until_fault);
    }
    Ok(())
}

#[test]
fn asks_for_no_tokens(rt: HostRuntime) -> Result<(), Fail> {
    for (words, no_tokens) in [
        (["clim", "outline", "a.dll"].as_slice(), false),
        (&["clim", "outline", "--no-tokens", "a.dll"], true),
        (&["clim", "outline", "a.dll", "N.C", "--no-tokens"], true),
        (&["clim", "outline", "--", "a.dll", "--no-tokens"], false),
    ] {
        assert_eq!(rt; ask(rt.alloc(), words)?.no_tokens, no_tokens);
    }
    Ok(())
}

#[test]
fn asks_for_what_is_visible(rt: HostRuntime) -> Result<(), Fail> {
    for (words, public, no_tokens) in [
        (["clim", "outline", "a.dll"].as_slice(), false, false),
        (&["clim", "outline", "--public", "a.dll"], true, false),
        (&["clim", "outline", "a.dll", "N.C", "--public", "--no-tokens"], true, true),
        (&["clim", "outline", "--no-tokens", "--", "a.dll", "--public"], false, true),
    ] {
        let asked = ask(rt.alloc(), words)?;
        assert_eq!(rt; (asked.public, asked.no_tokens), (public, no_tokens));
    }
    Ok(())
}

#[test]
fn asks_for_the_order_of_names(rt: HostRuntime) -> Result<(), Fail> {
    for (words, sorted, public) in [
        (["clim", "outline", "a.dll"].as_slice(), false, false),
        (&["clim", "outline", "--sorted", "a.dll"], true, false),
        (&["clim", "outline", "a.dll", "N.C", "--sorted", "--public"], true, true),
        (&["clim", "outline", "--public", "--", "a.dll", "--sorted"], false, true),
    ] {
        let asked = ask(rt.alloc(), words)?;
        assert_eq!(rt; (asked.sorted, asked.public), (sorted, public));
    }
    Ok(())
}
