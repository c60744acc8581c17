//! Tests of `clim check --where`.

use crate::cli::disks::{answer_on, with_input};
use crate::runs::answer;
use sample_roots::{
    FILE_FAULTS, FirstFault, MODULE_FAULTS, NESTED_TYPE_FAULTS, ONE_MODULE, THREE_TYPES, TWO_TYPES, TWO_TYPE_FAULTS, changed, image, write_at,
};
use std::fs;
use std::test::Fail;

/// Whether a check of this file prints these lines of a fault, an empty line and the explanation of the fault, ends with 1,
/// and leaves standard error empty.
fn answers(rt: &HostRuntime, words: &[&str], bytes: &[u8], code: &str, lines: &str) -> Result<bool, Fail> {
    fs::write(rt, "where.file", bytes)?;
    let (status, out, err) = answer(rt, words)?;
    let (_, explanation, _) = answer(rt, &["clim", "explain", code])?;
    fs::remove_file(rt, "where.file")?;
    let wanted = format!(in rt.alloc(); "{lines}\n{explanation}")?;
    Ok(status == 1 && out.as_str() == wanted.as_str() && err.is_empty())
}

const CHECK: [&str; 4] = ["clim", "check", "--where", "where.file"];
const CHECK_BARE: [&str; 5] = ["clim", "check", "--bare", "--where", "where.file"];

/// The layers up to the one of the fault are taken apart: the cell of a fault in a cell has a line.
#[test]
fn answers_about_a_root(rt: HostRuntime) -> Result<(), Fail> {
    let mut root: Vec<u8> = ONE_MODULE.to_vec(rt.alloc())?;
    // Name of the row of Module, which follows Generation and the 28 bytes of the header of '#~' at 80.
    write_at(&mut root, 110, &[0xFF, 0xFF]);
    let lines = "\
fault 5 501 at 110: BadString
0 144 root
80 40 stream #~
110 2 table 00 Module row 1 column 1 Name
0x6e: value 65535 (0xffff); #Strings has 8 bytes
";
    assert!(rt; answers(&rt, &CHECK_BARE, &root, "501", lines)?);
    let mut root: Vec<u8> = ONE_MODULE.to_vec(rt.alloc())?;
    // MajorVersion of the table stream.
    write_at(&mut root, 84, &[9]);
    let lines = "fault 4 402 at 84: TablesVersion\n0 144 root\n80 40 stream #~\n0x54: value 9 (0x9)\n";
    assert!(rt; answers(&rt, &CHECK_BARE, &root, "402", lines)?);
    assert!(rt; answers(&rt, &CHECK_BARE, &ONE_MODULE[..20], "302", "fault 3 302 at 12: Version\n0xc: value 12 (0xc)\n")?);
    Ok(())
}

#[test]
fn answers_about_a_file(rt: HostRuntime) -> Result<(), Fail> {
    let mut file: Vec<u8> = image().to_vec(rt.alloc())?;
    // Cb of the CLI header.
    write_at(&mut file, 520, &[0]);
    let lines = "fault 2 203 at 520: CliSize\n512 512 section 1\n0x208: value 0 (0x0)\n";
    assert!(rt; answers(&rt, &CHECK, &file, "203", lines)?);
    assert!(rt; answers(&rt, &CHECK, &ONE_MODULE, "102", "fault 1 102 at 0: DosHeader\n0x0: value 21314 (0x5342)\n")?);
    fs::write(&rt, "where.dll", image().as_slice())?;
    let (status, out, err) = answer(&rt, &["clim", "check", "--where", "where.dll"])?;
    fs::remove_file(&rt, "where.dll")?;
    assert_eq!(rt; (status, out.as_str(), err.as_str()), (0, "ok\n", ""));
    let (status, out, err) = answer(&rt, &["clim", "check", "--where", "where.dll"])?;
    assert!(rt; status == 3 && out.is_empty() && err.starts_with("error: cannot read where.dll"));
    Ok(())
}

/// Each layer from the cells on has the line of its cell; the entry point is a field of the CLI header.
#[test]
fn answers_about_cells_runs_and_signatures(rt: HostRuntime) -> Result<(), Fail> {
    for (offset, byte, code, lines) in [
        // Name of the second type, and its Extends with an unused tag.
        (134, 0xFF, "501", "fault 5 501 at 134: BadString\n0 200 root\n80 92 stream #~\n134 2 table 02 TypeDef row 2 column 1 TypeName\n0x86: value 255 (0xff); #Strings has 20 bytes\n"),
        (124, 3, "505", "fault 5 505 at 124: BadTag\n0 200 root\n80 92 stream #~\n124 2 table 02 TypeDef row 1 column 3 Extends\n0x7c: value 3 (tag 3, row 0)\n"),
        // FieldList of the first type: its run begins after row 1.
        (126, 2, "602", "fault 6 602 at 126: BadRun\n0 200 root\n80 92 stream #~\n126 2 table 02 TypeDef row 1 column 4 FieldList\n0x7e: value 2 (0x2)\n"),
        // The first byte of the blob that both fields name.
        (194, 7, "701", "fault 7 701 at 148: BadSignature\n0 200 root\n80 92 stream #~\n148 2 table 04 Field row 1 column 2 Signature\n0x94: value 1 (0x1); #Blob has 8 bytes\n"),
    ] {
        let mut root: Vec<u8> = TWO_TYPES.to_vec(rt.alloc())?;
        write_at(&mut root, offset, &[byte]);
        assert!(rt; answers(&rt, &CHECK_BARE, &root, code, lines)?, "{code}");
    }
    let mut file: Vec<u8> = image().to_vec(rt.alloc())?;
    // EntryPointToken of the CLI header: a row of MethodDef that is not there.
    write_at(&mut file, 540, &[1, 0, 0, 6]);
    let lines = "\
fault 8 801 at 540: EntryPoint
512 512 section 1
520 72 cli header
540 4 cli header EntryPointToken
0x21c: value 100663297 (0x6000001)
";
    assert!(rt; answers(&rt, &CHECK, &file, "801", lines)?);
    Ok(())
}

/// The lines of the offsets of the first faults of a sample, with the numbers there, one for each fault.
const FILE_NUMBERS: &str = "\
0x0: value 19789 (0x4d4d)
0x3c: value 129 (0x81)
0x94: value 215 (0xd7)
0x94: value 224 (0xe0)
0x98: value 268 (0x10c)
0xf4: value 14 (0xe)
0x86: value 17 (0x11)
0x168: value 8200 (0x2008)
0x168: value 8200 (0x2008)
0x208: value 71 (0x47)
0x210: value 8016 (0x1f50)
0x270
0x21c: value 100663297 (0x6000001)
";
const MODULE_NUMBERS: &str = "\
0x0: value 1128944450 (0x434a5342)
0xc: value 13 (0xd)
0x90
0x80
0x40
0x40
0x20
0x1e: value 0 (0x0)
0x50
0x54: value 1 (0x1)
0x56: value 8 (0x8)
0x58: value 281474976710657 (0x1000000000001)
0x68
0x68: value 16777217 (0x1000001)
0x6c
0x6e: value 8 (0x8); #Strings has 8 bytes
0x6e: value 1 (0x1); #Strings has 8 bytes
0x70: value 2 (0x2); #GUID has 1 GUIDs
";
const TWO_TYPE_NUMBERS: &str = "\
0x94: value 1 (0x1); #Blob has 8 bytes
0x7c: value 255 (tag 3, row 63)
0x7c: value 12 (tag 0, row 3); TypeDef has 2 rows
0x7e: value 255 (0xff); Field has 2 rows
0x7e: value 2 (0x2)
0x7e: value 2 (0x2)
0x74: value 0 (0x0); Field has 2 rows
0x94: value 1 (0x1); #Blob has 8 bytes
0x94: value 1 (0x1); #Blob has 8 bytes
0x94: value 1 (0x1); #Blob has 8 bytes
";
const NESTED_TYPE_NUMBERS: &str = "\
0x7a: value 2 (0x2); row 1 has 3
0x7c: value 3 (0x3); NestedClass has 3
";

/// What is printed of the first fault that has another line of its offset; nothing if there is none.
fn other_number(rt: &HostRuntime, words: &[&str], sample: &[u8], faults: &[FirstFault], lines: &str) -> Result<Option<String>, Fail> {
    for ((changes, _, _, _), line) in faults.iter().zip(lines.lines()) {
        let bytes = changed(rt.alloc(), sample, changes)?;
        fs::write(rt, "where.file", bytes.as_slice())?;
        let (_, out, _) = answer(rt, words)?;
        fs::remove_file(rt, "where.file")?;
        let (before, _) = out.split_once("\n\n").ok_or("no explanation")?;
        let wanted = format!(in rt.alloc(); "\n{line}")?;
        if !before.ends_with(wanted.as_str()) {
            return Ok(Some(out));
        }
    }
    Ok(None)
}

#[test]
fn prints_the_number_at_each_fault(rt: HostRuntime) -> Result<(), Fail> {
    assert_eq!(rt; other_number(&rt, &CHECK, &image(), &FILE_FAULTS, FILE_NUMBERS)?, None);
    assert_eq!(rt; other_number(&rt, &CHECK_BARE, &ONE_MODULE, &MODULE_FAULTS, MODULE_NUMBERS)?, None);
    assert_eq!(rt; other_number(&rt, &CHECK_BARE, &TWO_TYPES, &TWO_TYPE_FAULTS, TWO_TYPE_NUMBERS)?, None);
    assert_eq!(rt; other_number(&rt, &CHECK_BARE, &THREE_TYPES, &NESTED_TYPE_FAULTS, NESTED_TYPE_NUMBERS)?, None);
    Ok(())
}

/// Names of the file reach no terminal, and begin no line: the fault is the same as without `--where`.
#[test]
fn escapes_names_of_a_broken_file(rt: HostRuntime) -> Result<(), Fail> {
    let mut file: Vec<u8> = image().to_vec(rt.alloc())?;
    // The name of the section, and Cb of the CLI header.
    write_at(&mut file, 0x178, b"\x1b]0;\nok");
    write_at(&mut file, 520, &[0]);
    let lines = "fault 2 203 at 520: CliSize\n512 512 section 1 \\x1b]0;\\x0aok\n0x208: value 0 (0x0)\n";
    assert!(rt; answers(&rt, &CHECK, &file, "203", lines)?);
    Ok(())
}

/// Several files: a file that breaks no rule has its line, and each broken one what is known of it, after its name.
#[test]
fn answers_about_several_files(rt: HostRuntime) -> Result<(), Fail> {
    fs::write(&rt, "whole.dll", image().as_slice())?;
    fs::write(&rt, "broken.dll", &ONE_MODULE)?;
    let (_, explanation, _) = answer(&rt, &["clim", "explain", "102"])?;
    let broken = format!(in rt.alloc(); "broken.dll: fault 1 102 at 0: DosHeader\n0x0: value 21314 (0x5342)\n\n{explanation}")?;
    let both = format!(in rt.alloc(); "whole.dll: ok\n{broken}whole.dll: ok\n")?;
    const LACKS: &str = "error: cannot read lacks\n  reason: no such file\n";
    for (words, wanted, printed, reported) in [
        (["clim", "check", "--where", "whole.dll", "broken.dll", "whole.dll"].as_slice(), 1, both.as_str(), ""),
        (&["clim", "check", "whole.dll", "lacks", "broken.dll", "whole.dll", "--where"], 3, both.as_str(), LACKS),
        (&["clim", "check", "--where", "--budget", "0", "broken.dll", "lacks"], 3, broken.as_str(), LACKS),
        (&["clim", "check", "--where", "-q", "broken.dll", "whole.dll"], 1, "", ""),
        (&["clim", "check", "--where", "-q", "broken.dll"], 1, "", ""),
    ] {
        let (status, out, err) = answer(&rt, words)?;
        assert_eq!(rt; (status, out.as_str(), err.as_str()), (wanted, printed, reported));
    }
    for (list, status, printed) in [(b"whole.dll\0broken.dll\0whole.dll".as_slice(), 1, both.as_str()), (b"broken.dll", 1, broken.as_str()), (b"", 0, "")] {
        let (ended, out, err) = answer_on(with_input(&rt, list), &["clim", "check", "-0", "--where"])?;
        assert_eq!(rt; (ended, out.as_str(), err.as_str()), (status, printed, ""));
    }
    fs::remove_file(&rt, "whole.dll")?;
    fs::remove_file(&rt, "broken.dll")?;
    Ok(())
}

/// With `--json` the fault, the structures, the number and the explanation are objects: those of `check`, `where` and `explain`, and
/// that of the number before the last one.
#[test]
fn answers_with_json(rt: HostRuntime) -> Result<(), Fail> {
    let mut root: Vec<u8> = ONE_MODULE.to_vec(rt.alloc())?;
    write_at(&mut root, 110, &[0xFF, 0xFF]);
    fs::write(&rt, "json.root", root.as_slice())?;
    fs::write(&rt, "whole.root", &TWO_TYPES)?;
    let (_, fault, _) = answer(&rt, &["clim", "check", "--json", "--bare", "json.root"])?;
    let (_, structures, _) = answer(&rt, &["clim", "where", "--json", "--bare", "json.root", "110"])?;
    let (_, explanation, _) = answer(&rt, &["clim", "explain", "--json", "501"])?;
    assert_eq!(rt; (fault.lines().count(), structures.lines().count(), explanation.lines().count()), (1, 3, 1));
    let number = "{\"offset\":110,\"value\":65535,\"stream\":\"#Strings\",\"limit\":8}\n";
    let alone = format!(in rt.alloc(); "{fault}{structures}{number}{explanation}")?;
    let (_, line) = fault.split_at(1);
    let named = format!(in rt.alloc(); "{{\"file\":\"whole.root\",\"ok\":true}}\n{{\"file\":\"json.root\",{line}{structures}{number}{explanation}")?;
    for (words, wanted, printed) in [
        (["clim", "check", "--where", "--json", "--bare", "json.root"].as_slice(), 1, alone.as_str()),
        (&["clim", "check", "--where", "--json", "--bare", "whole.root"], 0, "{\"ok\":true}\n"),
        (&["clim", "check", "--where", "--json", "--bare", "whole.root", "json.root"], 1, named.as_str()),
        (&["clim", "check", "-q", "--where", "--json", "--bare", "whole.root", "json.root"], 1, ""),
    ] {
        let (status, out, err) = answer(&rt, words)?;
        assert_eq!(rt; (status, out.as_str(), err.as_str()), (wanted, printed, ""));
    }
    let words = ["clim", "check", "--where", "--bare", "--budget", "4", "whole.root", "json.root", "--json"];
    let (status, out, err) = answer(&rt, &words)?;
    let (_, named) = named.split_once('\n').ok_or("no line")?;
    assert_eq!(rt; (status, out.as_str(), err.as_str()), (3, named, "error: budget spent\n  file: whole.root\n"));
    fs::remove_file(&rt, "json.root")?;
    fs::remove_file(&rt, "whole.root")?;
    Ok(())
}
