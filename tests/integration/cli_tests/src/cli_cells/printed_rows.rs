//! Tests of what `clim show`, `clim types` and `clim token` print.

use crate::runs::{Case, answer, other_answer};
use crate::samples::USER_STRINGS;
use sample_roots::{ONE_MODULE, TWO_TYPES, image};
use std::fs;
use std::test::Fail;

#[test]
fn shows_each_row(rt: HostRuntime) -> Result<(), Fail> {
    let module = "\
table 00 Module 1
1: 0 \"a.dll\" {03020100-0504-0706-0809-0a0b0c0d0e0f} null null
";
    let no_guid = "\
table 00 Module 1
1: 0 \"a.dll\" null null null
";
    let types = "\
table 02 TypeDef 2
1: 0 \"<Module>\" \"\" null +1 +1
2: 1048577 \"C\" \"N\" null +1 +1
table 04 Field 2
1: 1 \"a\" <0608>
2: 1 \"b\" <0608>
table 06 MethodDef 1
1: 0 0 6 \"M\" <000001> +1
";
    let words = ["clim", "show", "--bare"];
    for case in [
        Case::new(144, 0, b"", 0, module),
        Case::new(144, 112, &[0], 0, no_guid),
        Case::new(144, 110, &[8], 1, "fault 5 501 at 110: BadString\n"),
        Case::new(143, 0, b"", 1, "fault 3 305 at 64: StreamRange\n"),
    ] {
        assert_eq!(rt; other_answer(&rt, &words, &ONE_MODULE, &case)?, None);
    }
    let case = Case::new(200, 0, b"", 0, types);
    assert_eq!(rt; other_answer(&rt, &words, &TWO_TYPES, &case)?, None);
    let (case, file) = (Case::new(1024, 0, b"", 0, module), image());
    assert_eq!(rt; other_answer(&rt, &["clim", "show"], &file, &case)?, None);
    Ok(())
}

#[test]
fn shows_texts_and_references(rt: HostRuntime) -> Result<(), Fail> {
    let words = ["clim", "show", "--bare"];
    // The second type extends the first (its Extends is TypeDef 1), and its name has a quote, a backslash,
    // a letter that is not ASCII and a byte below a space.
    let mut file = TWO_TYPES;
    for (offset, byte) in [
        (138, 4),
        (174, b'"'),
        (175, b'\\'),
        (176, 0xC3),
        (177, 0xA9),
        (178, 1),
    ] {
        if let Some(old) = file.get_mut(offset) {
            *old = byte;
        }
    }
    let lines = "\
table 02 TypeDef 2
1: 0 \"<\\x22\\x5c\\xc3\\xa9\\x01e>\" \"\" null +1 +1
2: 1048577 \"C\" \"N\" 02000001 +1 +1
table 04 Field 2
1: 1 \"a\" <0608>
2: 1 \"b\" <0608>
table 06 MethodDef 1
1: 0 0 6 \"M\" <000001> +1
";
    let case = Case::new(200, 0, b"", 0, lines);
    assert_eq!(rt; other_answer(&rt, &words, &file, &case)?, None);
    Ok(())
}

#[test]
fn lists_types(rt: HostRuntime) -> Result<(), Fail> {
    let lines = "\
02000001 <Module> 0 0
02000002 N.C 2 1
";
    let first_has_both = "\
02000001 <Module> 2 0
02000002 N.C 0 1
";
    let words = ["clim", "types", "--bare"];
    for case in [
        Case::new(200, 0, b"", 0, lines),
        Case::new(200, 126, &[0], 0, lines),
        Case::new(200, 140, &[0], 0, first_has_both),
        Case::new(200, 126, &[0xFF], 1, "fault 5 507 at 126: BadList\n"),
        Case::new(200, 194, &[7], 1, "fault 7 701 at 148: BadSignature\n"),
    ] {
        assert_eq!(rt; other_answer(&rt, &words, &TWO_TYPES, &case)?, None);
    }
    let case = Case::new(144, 0, b"", 0, "");
    assert_eq!(rt; other_answer(&rt, &words, &ONE_MODULE, &case)?, None);
    Ok(())
}

/// What the program prints for a token, and its exit code.
#[derive(Clone, Copy)]
struct Named<'a> {
    hex: &'a str,
    status: u8,
    reported: &'a str,
}

impl<'a> Named<'a> {
    const fn new(hex: &'a str, status: u8, reported: &'a str) -> Self {
        Named { hex, status, reported }
    }
}

/// What the program prints for a token of a bare root, if that is not what is expected.
fn other_name(rt: &HostRuntime, root: &[u8], named: &Named) -> Result<Option<String>, Fail> {
    fs::write(rt, "token.root", root)?;
    let words = ["clim", "token", "--bare", "token.root", named.hex];
    let (status, out, err) = answer(rt, &words)?;
    fs::remove_file(rt, "token.root")?;
    let (want_out, want_err) = if named.status == 0 {
        (named.reported, "")
    } else {
        ("", named.reported)
    };
    if status == named.status && out.as_str() == want_out && err.as_str() == want_err {
        return Ok(None);
    }
    Ok(Some(format!(in rt.alloc(); "{status}: {out}{err}")?))
}

#[test]
fn prints_what_a_token_names(rt: HostRuntime) -> Result<(), Fail> {
    let module = "1: 0 \"a.dll\" {03020100-0504-0706-0809-0a0b0c0d0e0f} null null\n";
    for named in [
        Named::new("1", 0, module),
        Named::new("00000001", 0, module),
        Named::new("00000000", 1, "no such row\n  hint: Module has 1 row\n"),
        Named::new("00000002", 1, "no such row\n  hint: Module has 1 row\n"),
        Named::new("05000001", 1, "no such row\n"),
        Named::new("06000001", 1, "no such row\n  hint: MethodDef has 0 rows\n"),
        Named::new("70000000", 0, "user\n"),
        Named::new("70000001", 1, "no such row\n"),
    ] {
        assert_eq!(rt; other_name(&rt, &ONE_MODULE, &named)?, None, "{}", named.hex);
    }
    for named in [
        Named::new("2000001", 0, "1: 0 \"<Module>\" \"\" null +1 +1\n"),
        Named::new("04000002", 0, "2: 1 \"b\" <0608>\n"),
    ] {
        assert_eq!(rt; other_name(&rt, &TWO_TYPES, &named)?, None, "{}", named.hex);
    }
    for named in [
        Named::new("70000000", 0, "user\n"),
        Named::new("70000001", 0, "user AB 0\n"),
        Named::new("70000007", 0, "user ' 1\n"),
        Named::new("7000000b", 0, "user  7\n"),
        Named::new("7000000D", 0, "user \\u005c\\u00e9\" 0\n"),
        Named::new("70000018", 0, "user  0\n"),
        Named::new("7000001C", 1, "no such row\n"),
        Named::new("01000001", 1, "no such row\n  hint: TypeRef has 0 rows\n"),
    ] {
        assert_eq!(rt;
            other_name(&rt, &USER_STRINGS, &named)?,
            None,
            "{}",
            named.hex
        );
    }
    Ok(())
}

/// Several tokens are looked up in the order given, up to the first that names nothing.
#[test]
fn prints_what_several_tokens_name(rt: HostRuntime) -> Result<(), Fail> {
    fs::write(&rt, "tokens.root", &TWO_TYPES)?;
    let module = "1: 0 \"<Module>\" \"\" null +1 +1\n";
    let field = "2: 1 \"b\" <0608>\n";
    let (both, turned) = (
        format!(in rt.alloc(); "{module}{field}")?,
        format!(in rt.alloc(); "{field}{module}{field}")?,
    );
    for (tokens, status, printed, reported) in [
        (["2000001", "04000002"].as_slice(), 0, both.as_str(), ""),
        (&["04000002", "02000001", "4000002"], 0, &turned, ""),
        (&["2000001", "06000009", "04000002"], 1, module, "no such row\n  hint: MethodDef has 1 row\n"),
        (&["06000009", "2000001"], 1, "", "no such row\n  hint: MethodDef has 1 row\n"),
        (&["2000001", "04000002", "70000001"], 1, &both, "no such row\n"),
    ] {
        let mut words: Vec<&str> = ["clim", "token", "--bare", "tokens.root"].to_vec(rt.alloc())?;
        words.extend_from_slice(tokens)?;
        let (ended, out, err) = answer(&rt, &words)?;
        assert_eq!(rt; (ended, out.as_str(), err.as_str()), (status, printed, reported));
    }
    let (status, out, err) = answer(&rt, &["clim", "token", "tokens.root", "1", "2"])?;
    assert!(rt; status == 1 && out.is_empty() && err.starts_with("fault 1 102 at 0: DosHeader\n"));
    fs::remove_file(&rt, "tokens.root")?;
    Ok(())
}

/// The file named lacks: a status of 2 shows that it was not looked for.
#[test]
fn refuses_what_is_no_token(rt: HostRuntime) -> Result<(), Fail> {
    for hex in [
        "",
        "700000000",
        "000000001",
        "0x1",
        "+1",
        "1g",
        " 1",
        "\u{e9}",
    ] {
        let (status, out, err) = answer(&rt, &["clim", "token", "lacks", hex])?;
        assert_eq!(rt; status, 2, "{hex}");
        assert!(rt; out.is_empty());
        assert!(rt;
            err.contains("error: HEX is one to eight hexadecimal digits, as '06001d06', not '"),
            "{err}"
        );
    }
    let (status, _, err) = answer(&rt, &["clim", "token", "lacks", "1"])?;
    assert_eq!(rt; status, 3);
    assert_eq!(rt; err.as_str(), "error: cannot read lacks\n  reason: no such file\n");
    Ok(())
}
