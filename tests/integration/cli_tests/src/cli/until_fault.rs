//! Tests of `clim show --until-fault` and `clim root --until-fault`.

use crate::cli::writers::Full;
use crate::runs::answer;
use cli::go;
use sample_roots::{TWO_TYPES, changed, image};
use std::fs;
use std::test::Fail;

const TYPES: &str = "\
table 02 TypeDef 2
1: 0 \"<Module>\" \"\" null +1 +1
2: 1048577 \"C\" \"N\" null +1 +1
";

const NAMED: &str = "\
table 02 TypeDef 2
02000001 Flags=0 TypeName=\"<Module>\" TypeNamespace=\"\" Extends=null FieldList=+1 MethodList=+1
02000002 Flags=1048577 TypeName=\"C\" TypeNamespace=\"N\" Extends=null FieldList=+1 MethodList=+1
";

const FIRST_FIELD: &str = "\
table 04 Field 2
1: 1 \"a\" <0608>
";

const METHOD: &str = "\
table 06 MethodDef 1
1: 0 0 6 \"M\" <000001> +1
";

/// Whether the arguments print these texts of the sample with some bytes changed, and end with 1.
fn ends(rt: &HostRuntime, words: &[&str], changes: &[(usize, u8)], printed: &str, fault: &str) -> Result<bool, Fail> {
    fs::write(rt, "until.root", changed(rt.alloc(), &TWO_TYPES, changes)?.as_slice())?;
    let (status, out, err) = answer(rt, words)?;
    fs::remove_file(rt, "until.root")?;
    Ok(status == 1 && out.as_str() == printed && err.as_str() == fault)
}

const ALL: [&str; 5] = ["clim", "show", "--until-fault", "--bare", "until.root"];

/// The arguments for one table.
const fn of_table(table: &'static str) -> [&'static str; 6] {
    ["clim", "show", "--bare", "until.root", table, "--until-fault"]
}

/// The rows before the first broken cell, with names or without them; a table without such rows has no line.
#[test]
fn prints_some_rows(rt: HostRuntime) -> Result<(), Fail> {
    let alloc = rt.alloc();
    // Name of the second field (II.22.15).
    let changes = [(152, 99)];
    let fault = "fault 5 501 at 152: BadString\n";
    let before = format!(in alloc; "{TYPES}{FIRST_FIELD}")?;
    assert!(rt; ends(&rt, &ALL, &changes, &before, fault)?);
    for (table, printed) in [("TypeDef", TYPES), ("02", TYPES), ("Field", FIRST_FIELD), ("MethodDef", ""), ("Module", ""), ("2C", "")] {
        assert!(rt; ends(&rt, &of_table(table), &changes, printed, fault)?, "{table}");
    }
    let field = "table 04 Field 2\n04000001 Flags=1 Name=\"a\" Signature=<0608>\n";
    let words = ["clim", "show", "--names", "--until-fault", "--bare", "until.root"];
    let before = format!(in alloc; "{NAMED}{field}")?;
    assert!(rt; ends(&rt, &words, &changes, &before, fault)?);
    // The first row of the first table, and the first of the second table.
    assert!(rt; ends(&rt, &ALL, &[(120, 99)], "", "fault 5 501 at 120: BadString\n")?);
    assert!(rt; ends(&rt, &ALL, &[(146, 99)], TYPES, "fault 5 501 at 146: BadString\n")?);
    Ok(())
}

/// No rows before a fault of the headers or of the table stream, whichever table is named.
#[test]
fn prints_no_rows(rt: HostRuntime) -> Result<(), Fail> {
    for (change, fault) in [
        ((0, 0), "fault 3 301 at 0: RootSignature\n"),
        ((12, 255), "fault 3 302 at 12: Version\n"),
        ((84, 9), "fault 4 402 at 84: TablesVersion\n"),
        ((104, 255), "fault 4 407 at 116: TablesShort\n"),
    ] {
        assert!(rt; ends(&rt, &ALL, &[change], "", fault)?, "{fault}");
        assert!(rt; ends(&rt, &of_table("TypeDef"), &[change], "", fault)?, "{fault}");
    }
    Ok(())
}

/// All rows before a fault of the rules that follow those for cells: of runs, and of signatures.
#[test]
fn prints_all_rows(rt: HostRuntime) -> Result<(), Fail> {
    let alloc = rt.alloc();
    // The list of fields of the first type begins at row 2 (II.22.37).
    let types = "table 02 TypeDef 2\n1: 0 \"<Module>\" \"\" null +2 +1\n2: 1048577 \"C\" \"N\" null +1 +1\n";
    let all = format!(in alloc; "{types}{FIRST_FIELD}2: 1 \"b\" <0608>\n{METHOD}")?;
    assert!(rt; ends(&rt, &ALL, &[(126, 2)], &all, "fault 6 602 at 126: BadRun\n")?);
    // The first byte of the signature of both fields (II.23.2.4): it is printed as it is.
    let fields = "table 04 Field 2\n1: 1 \"a\" <0708>\n2: 1 \"b\" <0708>\n";
    let all = format!(in alloc; "{TYPES}{fields}{METHOD}")?;
    assert!(rt; ends(&rt, &ALL, &[(194, 7)], &all, "fault 7 701 at 148: BadSignature\n")?);
    Ok(())
}

/// Of a file that breaks no rule it prints what `show` prints.
#[test]
fn prints_a_whole_file(rt: HostRuntime) -> Result<(), Fail> {
    fs::write(&rt, "whole.root", TWO_TYPES.as_slice())?;
    fs::write(&rt, "whole.dll", image().as_slice())?;
    for words in [
        ["clim", "show", "--bare", "whole.root", "--until-fault"].as_slice(),
        &["clim", "show", "--bare", "whole.root", "Field", "--until-fault"],
        &["clim", "show", "--bare", "whole.root", "--names", "--until-fault"],
        &["clim", "show", "whole.dll", "--until-fault"],
        &["clim", "show", "whole.dll", "TypeDef", "--until-fault"],
    ] {
        let (status, out, err) = answer(&rt, words)?;
        let (_, plain, _) = answer(&rt, &words[..words.len() - 1])?;
        assert_eq!(rt; (status, out.as_str(), err.as_str()), (0, plain.as_str(), ""));
    }
    fs::remove_file(&rt, "whole.root")?;
    fs::remove_file(&rt, "whole.dll")?;
    Ok(())
}

/// The hint about `--bare` follows the fault, as for `show`. A failure of the output takes the place of the fault.
#[test]
fn reports_as_show_does(rt: HostRuntime) -> Result<(), Fail> {
    fs::write(&rt, "until.root", changed(rt.alloc(), &TWO_TYPES, &[(152, 99)])?.as_slice())?;
    let words = ["clim", "show", "--until-fault", "until.root"];
    let (status, out, err) = answer(&rt, &words)?;
    let (wanted, _, reported) = answer(&rt, &["clim", "show", "until.root"])?;
    assert!(rt; status == wanted && out.is_empty() && err.as_str() == reported.as_str() && err.contains("hint"));
    for late in [false, true] {
        let mut err = Vec::new(rt.alloc());
        assert_eq!(rt; go(&rt, &ALL, &mut Full { late }, &mut err), 3);
        assert_eq!(rt; err.as_slice(), b"error: cannot write output\n  reason: no space left\n".as_slice());
    }
    fs::remove_file(&rt, "until.root")?;
    let (status, _, err) = answer(&rt, &["clim", "show", "--until-fault", "lacks"])?;
    assert_eq!(rt; (status, err.as_str()), (3, "error: cannot read lacks\n  reason: no such file\n"));
    Ok(())
}

/// With `--json` the rows are those that `show --json` prints, up to the same row. The fault goes to standard error as text.
#[test]
fn prints_rows_as_json(rt: HostRuntime) -> Result<(), Fail> {
    fs::write(&rt, "until.root", TWO_TYPES.as_slice())?;
    let (_, whole, _) = answer(&rt, &["clim", "show", "--json", "--bare", "until.root"])?;
    let (_, fields, _) = answer(&rt, &["clim", "show", "--json", "--bare", "until.root", "Field"])?;
    let json = ["clim", "show", "--until-fault", "--json", "--bare", "until.root"];
    let of_field = ["clim", "show", "--bare", "--json", "until.root", "04", "--until-fault", "--names"];
    for (words, printed) in [(json.as_slice(), &whole), (&of_field, &fields)] {
        let (status, out, err) = answer(&rt, words)?;
        assert_eq!(rt; (status, out.as_str(), err.as_str()), (0, printed.as_str(), ""));
    }
    let (before, _) = whole.split_once("{\"table\":\"Field\",\"row\":2,").ok_or("no second field")?;
    let (first_field, _) = fields.split_once("{\"table\":\"Field\",\"row\":2,").ok_or("no second field")?;
    let changes = [(152, 99)];
    let fault = "fault 5 501 at 152: BadString\n";
    assert!(rt; ends(&rt, &json, &changes, before, fault)?);
    assert!(rt; ends(&rt, &of_field, &changes, first_field, fault)?);
    assert!(rt; ends(&rt, &json, &[(12, 255)], "", "fault 3 302 at 12: Version\n")?);
    // A signature that is not valid is printed as bytes.
    let (types, _) = whole.split_once("{\"table\":\"Field\"").ok_or("no field")?;
    let (_, methods) = whole.split_once("{\"table\":\"MethodDef\"").ok_or("no method")?;
    let all = format!(in rt.alloc(); "{types}\
{{\"table\":\"Field\",\"row\":1,\"token\":\"04000001\",\"Flags\":1,\"Name\":\"a\",\"Signature\":\"0708\"}}
{{\"table\":\"Field\",\"row\":2,\"token\":\"04000002\",\"Flags\":1,\"Name\":\"b\",\"Signature\":\"0708\"}}
{{\"table\":\"MethodDef\"{methods}")?;
    assert!(rt; ends(&rt, &json, &[(194, 7)], &all, "fault 7 701 at 148: BadSignature\n")?);
    Ok(())
}

/// A usage error: the file is not looked for.
#[test]
fn refuses_other_arguments(rt: HostRuntime) -> Result<(), Fail> {
    for (words, reported) in [
        (["clim", "show", "--until-fault", "lacks", "typedefs"].as_slice(), "error: TABLE is a table"),
        (&["clim", "show", "--until-fault", "--until-fault", "lacks"], "cannot be used multiple times"),
        (&["clim", "check", "--until-fault", "lacks"], "unexpected argument '--until-fault'"),
        (&["clim", "root", "--until-fault"], "error: no FILE given"),
        (&["clim", "types", "--until-fault", "lacks"], "unexpected argument '--until-fault'"),
        (&["clim", "show", "--until-fault=1", "lacks"], "unexpected value '1' for '--until-fault'"),
        (&["clim", "show", "--until-fault"], "error: no FILE given"),
    ] {
        let (status, out, err) = answer(&rt, words)?;
        assert!(rt; status == 2 && out.is_empty() && err.contains(reported), "{err}");
    }
    Ok(())
}

const ROOT: [&str; 5] = ["clim", "root", "--until-fault", "--bare", "until.root"];

/// The version, and the stream headers before the first that cannot be read, whatever else they break.
#[test]
fn prints_some_headers(rt: HostRuntime) -> Result<(), Fail> {
    let streams = "version v4.0.30319\nstream 80 92 #~\nstream 172 20 #Strings\nstream 192 8 #Blob\n";
    let renamed = "version v4.0.30319\nstream 80 92 #-\nstream 172 20 #Strings\nstream 192 8 #Blob\n";
    let apart = "version v4.0.30319\nstream 80 92 #~\nstream 172 20 #Strings\nstream 192 255 #Blob\n";
    for (changes, printed, fault) in [
        // `#-`, a stream past the end, and a name that is not ASCII.
        ([(41, 0x2D)].as_slice(), renamed, "fault 3 307 at 32: Uncompressed\n"),
        (&[(68, 255)], apart, "fault 3 305 at 64: StreamRange\n"),
        (&[(72, 0x80)], "version v4.0.30319\nstream 80 92 #~\nstream 172 20 #Strings\n", "fault 3 304 at 64: StreamHeader\n"),
        (&[(40, 0x80)], "version v4.0.30319\n", "fault 3 304 at 32: StreamHeader\n"),
        (&[(12, 255)], "", "fault 3 302 at 12: Version\n"),
        (&[(0, 0)], "", "fault 3 301 at 0: RootSignature\n"),
    ] {
        assert!(rt; ends(&rt, &ROOT, changes, printed, fault)?, "{fault}");
    }
    fs::write(&rt, "until.root", TWO_TYPES.as_slice())?;
    let (status, out, err) = answer(&rt, &ROOT)?;
    assert_eq!(rt; (status, out.as_str(), err.as_str()), (0, streams, ""));
    let mut err = Vec::new(rt.alloc());
    assert_eq!(rt; go(&rt, &ROOT, &mut Full { late: false }, &mut err), 3);
    fs::remove_file(&rt, "until.root")?;
    Ok(())
}

/// Of a file the line of the CLI header comes first, unless the PE headers or it break a rule. So it is with several files.
#[test]
fn prints_some_headers_of_a_file(rt: HostRuntime) -> Result<(), Fail> {
    let header = "cli 2.5 flags 00000001 entry 00000000 root 592 144\n";
    let words = ["clim", "root", "--until-fault", "until.dll"];
    for (offset, byte, printed, fault) in [
        (0, 0, "", "fault 1 102 at 0: DosHeader\n"),
        (520, 71, "", "fault 2 203 at 520: CliSize\n"),
        (592, 0, header, "fault 3 301 at 592: RootSignature\n"),
    ] {
        fs::write(&rt, "until.dll", changed(rt.alloc(), &image(), &[(offset, byte)])?.as_slice())?;
        let (status, out, err) = answer(&rt, &words)?;
        assert_eq!(rt; (status, out.as_str(), err.as_str()), (1, printed, fault));
    }
    let (status, out, err) = answer(&rt, &["clim", "root", "--until-fault", "--json", "until.dll", "lacks"])?;
    let line = "{\"file\":\"until.dll\",\"cli\":{\"major\":2,\"minor\":5,\"flags\":\"00000001\",\"entry\":\"00000000\",\"root\":{\"offset\":592,\"size\":144}}}\n";
    let reported = "fault 3 301 at 592: RootSignature\n  file: until.dll\nerror: cannot read lacks\n  reason: no such file\n";
    assert_eq!(rt; (status, out.as_str(), err.as_str()), (3, line, reported));
    fs::remove_file(&rt, "until.dll")?;
    Ok(())
}
