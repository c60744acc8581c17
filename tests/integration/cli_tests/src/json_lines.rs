//! Tests of `cli_cells` and `cli_print`: the lines that are printed of a root and of a file, as JSON. They are printed by
//! `report_on` of `cli_runs`.

use crate::samples::{TWO_STRINGS, USER_STRINGS};
use cli_cells::Names;
use cli_faults::code_of_number;
use cli_files::Input;
use cli_lines::{Form, Printer};
use cli_print::{print_explanation, print_verdict};
use cli_runs::{Directories, Ended, Listing, Naming, Report, Request, Verdict, report_on};
use packed::{Fault, FaultCode};
use sample_roots::{ONE_MODULE, TWO_TYPES, image, write_at};
use std::alloc::Global;
use std::test::Fail;
use table_schema::TableId;

/// The report of all rows.
fn rows() -> Report<'static> {
    Report::Listing(Listing::Show(None, Names::Hidden))
}

/// What is printed of bytes with this name; nothing if they break a rule, or a token names nothing.
fn report_of(alloc: Global, report: Report<'_>, naming: Naming, input: Input, bytes: &[u8]) -> Result<String, Fail> {
    let request = Request {
        report,
        form: Form::JsonLines,
        naming,
        directories: Directories::Refused,
        input,
        budget: None,
    };
    let mut out = Vec::new(alloc);
    let Ok(ended) = report_on(alloc, &request, "a b\n.dll", bytes, &mut out) else {
        return Err("no output".into());
    };
    if matches!(ended, Ended::Refused(_)) && !out.is_empty() {
        return Err("a report that is refused printed a line".into());
    }
    Ok(String::from_utf8(out).ok().ok_or("no text")?)
}

/// What is printed of the bytes of a root.
fn lines_of(rt: &HostRuntime, report: Report<'_>, root: &[u8]) -> Result<String, Fail> {
    report_of(rt.alloc(), report, Naming::Alone, Input::BareRoot, root)
}

/// The report of what a token names.
fn report_of_token(alloc: Global, number: u32) -> Result<Report<'static>, Fail> {
    Ok(Report::Tokens(vec![in alloc; number]?))
}

#[test]
fn shows_each_row(rt: HostRuntime) -> Result<(), Fail> {
    let module = "\
{\"table\":\"Module\",\"row\":1,\"token\":\"00000001\",\"Generation\":0,\"Name\":\"a.dll\",\
\"Mvid\":\"03020100-0504-0706-0809-0a0b0c0d0e0f\",\"EncId\":null,\"EncBaseId\":null}\n";
    assert_eq!(rt; lines_of(&rt, rows(), &ONE_MODULE)?.as_str(), module);
    let types = "\
{\"table\":\"TypeDef\",\"row\":1,\"token\":\"02000001\",\"Flags\":0,\"TypeName\":\"<Module>\",\"TypeNamespace\":\"\",\
\"Extends\":null,\"FieldList\":1,\"MethodList\":1}
{\"table\":\"TypeDef\",\"row\":2,\"token\":\"02000002\",\"Flags\":1048577,\"TypeName\":\"C\",\"TypeNamespace\":\"N\",\
\"Extends\":null,\"FieldList\":1,\"MethodList\":1}
{\"table\":\"Field\",\"row\":1,\"token\":\"04000001\",\"Flags\":1,\"Name\":\"a\",\
\"Signature\":{\"blob\":\"0608\",\"text\":\"int32\"}}
{\"table\":\"Field\",\"row\":2,\"token\":\"04000002\",\"Flags\":1,\"Name\":\"b\",\
\"Signature\":{\"blob\":\"0608\",\"text\":\"int32\"}}
{\"table\":\"MethodDef\",\"row\":1,\"token\":\"06000001\",\"RVA\":0,\"ImplFlags\":0,\"Flags\":6,\"Name\":\"M\",\
\"Signature\":{\"blob\":\"000001\",\"text\":\"method void *()\"},\"ParamList\":1}
";
    assert_eq!(rt; lines_of(&rt, rows(), &TWO_TYPES)?.as_str(), types);
    assert_eq!(rt; lines_of(&rt, rows(), b"")?.as_str(), "");
    Ok(())
}

#[test]
fn escapes_what_json_requires(rt: HostRuntime) -> Result<(), Fail> {
    // The second type extends the first, whose name has a quote, a backslash, a letter that is not ASCII, control
    // characters and DEL.
    let mut root = TWO_TYPES.to_vec(rt.alloc())?;
    write_at(&mut root, 138, &[4]);
    write_at(&mut root, 174, b"\"\\\xC3\xA9\x01\n");
    let line = "{\"table\":\"TypeDef\",\"row\":1,\"token\":\"02000001\",\"Flags\":0,\
\"TypeName\":\"<\\\"\\\\\u{e9}\\u0001\\n>\",\"TypeNamespace\":\"\",\"Extends\":null,\"FieldList\":1,\"MethodList\":1}\n";
    assert_eq!(rt; lines_of(&rt, report_of_token(rt.alloc(), 0x0200_0001)?, &root)?.as_str(), line);
    let other = "{\"table\":\"TypeDef\",\"row\":2,\"token\":\"02000002\",\"Flags\":1048577,\"TypeName\":\"C\",\
\"TypeNamespace\":\"N\",\"Extends\":\"02000001\",\"FieldList\":1,\"MethodList\":1}\n";
    assert_eq!(rt; lines_of(&rt, report_of_token(rt.alloc(), 0x0200_0002)?, &root)?.as_str(), other);
    write_at(&mut root, 174, b"\x08\x0C\r\t\x1F\x7F");
    let line = "{\"token\":\"02000001\",\"namespace\":\"\",\"name\":\"<\\b\\f\\r\\t\\u001f\u{7f}>\",\"fields\":0,\"methods\":0}";
    assert_eq!(rt; lines_of(&rt, Report::Listing(Listing::Types), &root)?.lines().next(), Some(line));
    Ok(())
}

#[test]
fn prints_user_strings(rt: HostRuntime) -> Result<(), Fail> {
    for (number, line) in [
        (0x7000_0000, "{\"token\":\"70000000\",\"text\":\"\",\"flag\":null}\n"),
        (0x7000_0001, "{\"token\":\"70000001\",\"text\":\"AB\",\"flag\":0}\n"),
        (0x7000_0007, "{\"token\":\"70000007\",\"text\":\"'\",\"flag\":1}\n"),
        (0x7000_000B, "{\"token\":\"7000000b\",\"text\":\"\",\"flag\":7}\n"),
        (0x7000_000D, "{\"token\":\"7000000d\",\"text\":\"\\\\\u{e9}\\\"\",\"flag\":0}\n"),
        (0x7000_0050, ""),
        (0x0200_0001, ""),
    ] {
        assert_eq!(rt; lines_of(&rt, report_of_token(rt.alloc(), number)?, &USER_STRINGS)?.as_str(), line);
    }
    // The string at 13 is at 93 in the root.
    let mut root = USER_STRINGS.to_vec(rt.alloc())?;
    write_at(&mut root, 94, &[0x00, 0xD8]);
    let lone = "{\"token\":\"7000000d\",\"units\":[55296,233,34],\"flag\":0}\n";
    assert_eq!(rt; lines_of(&rt, report_of_token(rt.alloc(), 0x7000_000D)?, &root)?.as_str(), lone);
    write_at(&mut root, 94, &[0x3D, 0xD8, 0x00, 0xDE]);
    let pair = "{\"token\":\"7000000d\",\"text\":\"\u{1f600}\\\"\",\"flag\":0}\n";
    assert_eq!(rt; lines_of(&rt, report_of_token(rt.alloc(), 0x7000_000D)?, &root)?.as_str(), pair);
    Ok(())
}

#[test]
fn prints_types_headers_and_checks(rt: HostRuntime) -> Result<(), Fail> {
    let types = "\
{\"token\":\"02000001\",\"namespace\":\"\",\"name\":\"<Module>\",\"fields\":0,\"methods\":0}
{\"token\":\"02000002\",\"namespace\":\"N\",\"name\":\"C\",\"fields\":2,\"methods\":1}
";
    assert_eq!(rt; lines_of(&rt, Report::Listing(Listing::Types), &TWO_TYPES)?.as_str(), types);
    assert_eq!(rt; lines_of(&rt, Report::Check(Verdict::Line), &TWO_TYPES)?.as_str(), "{\"ok\":true}\n");
    let root = "\
{\"version\":\"v4.0.30319\"}
{\"stream\":{\"offset\":80,\"size\":40,\"name\":\"#~\"}}
{\"stream\":{\"offset\":120,\"size\":8,\"name\":\"#Strings\"}}
{\"stream\":{\"offset\":128,\"size\":16,\"name\":\"#GUID\"}}
";
    assert_eq!(rt; lines_of(&rt, Report::Root, &ONE_MODULE)?.as_str(), root);
    let of_file = report_of(rt.alloc(), Report::Root, Naming::Alone, Input::File, &image())?;
    let cli = "{\"cli\":{\"major\":2,\"minor\":5,\"flags\":\"00000001\",\"entry\":\"00000000\",\
\"root\":{\"offset\":592,\"size\":144}}}\n";
    assert_eq!(rt; of_file.strip_prefix(cli), Some(root));
    Ok(())
}

/// The lines of verdicts on a file, as JSON.
fn verdicts_of(alloc: Global, file: Option<&str>, faults: &[Option<Fault>]) -> Result<String, Fail> {
    let mut out = Vec::new(alloc);
    let mut printer = Printer::new(alloc, Form::JsonLines, &mut out);
    for fault in faults {
        print_verdict(file, *fault, &mut printer);
    }
    let (_, sent) = printer.finish();
    if sent.is_err() {
        return Err("no output".into());
    }
    Ok(String::from_utf8(out).ok().ok_or("no text")?)
}

#[test]
fn prints_a_fault(rt: HostRuntime) -> Result<(), Fail> {
    let faults = [None, Some(Fault::new(FaultCode::BadString, 2_170_594)), Some(Fault::new(FaultCode::BadCell, 0))];
    let lines = "{\"ok\":true}
{\"layer\":5,\"code\":501,\"offset\":2170594,\"name\":\"BadString\"}
{\"layer\":5,\"code\":509,\"offset\":0,\"name\":\"\"}
";
    assert_eq!(rt; verdicts_of(rt.alloc(), None, &faults)?.as_str(), lines);
    let lines = "{\"file\":\"a\\\\\\u001b\\n\u{e9}\",\"ok\":true}
{\"file\":\"a\\\\\\u001b\\n\u{e9}\",\"layer\":5,\"code\":501,\"offset\":2170594,\"name\":\"BadString\"}
{\"file\":\"a\\\\\\u001b\\n\u{e9}\",\"layer\":5,\"code\":509,\"offset\":0,\"name\":\"\"}
";
    assert_eq!(rt; verdicts_of(rt.alloc(), Some("a\\\u{1b}\n\u{e9}"), &faults)?.as_str(), lines);
    Ok(())
}

/// The verdict on a named file has its name, and a quiet check prints nothing.
#[test]
fn prints_verdicts(rt: HostRuntime) -> Result<(), Fail> {
    let mut broken = ONE_MODULE;
    broken[112] = 2;
    let named = "{\"file\":\"a b\\n.dll\",\"ok\":true}\n";
    let guid = "{\"layer\":5,\"code\":504,\"offset\":112,\"name\":\"BadGuid\"}\n";
    let named_guid = "{\"file\":\"a b\\n.dll\",\"layer\":5,\"code\":504,\"offset\":112,\"name\":\"BadGuid\"}\n";
    for (naming, root, lines) in [
        (Naming::Alone, &ONE_MODULE, "{\"ok\":true}\n"),
        (Naming::Named, &ONE_MODULE, named),
        (Naming::Alone, &broken, guid),
        (Naming::Named, &broken, named_guid),
    ] {
        let report = Report::Check(Verdict::Line);
        assert_eq!(rt; report_of(rt.alloc(), report, naming, Input::BareRoot, root)?.as_str(), lines);
        let quiet = Report::Check(Verdict::Quiet);
        assert_eq!(rt; report_of(rt.alloc(), quiet, naming, Input::BareRoot, root)?.as_str(), "");
    }
    Ok(())
}

/// The rows before a broken rule are objects, too.
#[test]
fn shows_rows_before_a_fault(rt: HostRuntime) -> Result<(), Fail> {
    let whole = lines_of(&rt, rows(), &TWO_TYPES)?;
    let until_fault = Report::ShowUntilFault(None, Names::Shown);
    assert_eq!(rt; lines_of(&rt, until_fault, &TWO_TYPES)?, whole);
    let mut root = TWO_TYPES.to_vec(rt.alloc())?;
    // Name of the second field.
    write_at(&mut root, 152, &[99]);
    let until_fault = Report::ShowUntilFault(None, Names::Hidden);
    let (before, _) = whole.split_once("{\"table\":\"Field\",\"row\":2,").ok_or("no second field")?;
    assert_eq!(rt; lines_of(&rt, until_fault, &root)?.as_str(), before);
    // The first byte of the signature of both fields: it has no text, and is printed as it is.
    let mut root = TWO_TYPES.to_vec(rt.alloc())?;
    write_at(&mut root, 194, &[7]);
    let until_fault = Report::ShowUntilFault(Some(TableId::Field), Names::Hidden);
    let fields = "\
{\"table\":\"Field\",\"row\":1,\"token\":\"04000001\",\"Flags\":1,\"Name\":\"a\",\"Signature\":\"0708\"}
{\"table\":\"Field\",\"row\":2,\"token\":\"04000002\",\"Flags\":1,\"Name\":\"b\",\"Signature\":\"0708\"}
";
    assert_eq!(rt; lines_of(&rt, until_fault, &root)?.as_str(), fields);
    Ok(())
}

/// A string of no units has a line, an empty entry has none.
#[test]
fn lists_user_strings(rt: HostRuntime) -> Result<(), Fail> {
    let lines = "\
{\"token\":\"70000001\",\"text\":\"AB\"}
{\"token\":\"70000007\",\"text\":\"'\"}
{\"token\":\"7000000b\",\"text\":\"\"}
{\"token\":\"7000000d\",\"text\":\"\\\\\u{e9}\\\"\"}
{\"token\":\"70000018\",\"text\":\"\"}
";
    assert_eq!(rt; lines_of(&rt, Report::Strings, &USER_STRINGS)?.as_str(), lines);
    assert_eq!(rt; lines_of(&rt, Report::Strings, &ONE_MODULE)?.as_str(), "");
    // A high surrogate alone, and then a pair (RFC 2781).
    let mut root = TWO_STRINGS.to_vec(rt.alloc())?;
    write_at(&mut root, 82, &[0x00, 0xD8]);
    write_at(&mut root, 94, &[0x3D, 0xD8, 0x00, 0xDE]);
    let lines = "{\"token\":\"70000001\",\"units\":[55296,101,108,108,111]}\n{\"token\":\"7000000d\",\"text\":\"\u{1f600}b\"}\n";
    assert_eq!(rt; lines_of(&rt, Report::Strings, &root)?.as_str(), lines);
    Ok(())
}

/// The digits that `sha256sum` prints for `ONE_MODULE`, which is its own canonical root.
#[test]
fn prints_a_digest(rt: HostRuntime) -> Result<(), Fail> {
    let line = "{\"digest\":\"40bf7100a055088dec71a67475f684ac5c72c04f6e4d9fb17cd8f99e053ead9e\",\"file\":\"a b\\n.dll\"}\n";
    for naming in [Naming::Alone, Naming::Named] {
        assert_eq!(rt; report_of(rt.alloc(), Report::Digest, naming, Input::BareRoot, &ONE_MODULE)?.as_str(), line);
        assert_eq!(rt; report_of(rt.alloc(), Report::Digest, naming, Input::File, &image())?.as_str(), line);
    }
    Ok(())
}

/// What the object of a rule is: all that is known of it, in one line.
fn explanation_of(alloc: Global, code: u16) -> Result<String, Fail> {
    let rule = code_of_number(code).ok_or("no rule")?;
    let mut out = Vec::new(alloc);
    let mut printer = Printer::new(alloc, Form::JsonLines, &mut out);
    print_explanation(rule, &mut printer);
    let (_, sent) = printer.finish();
    if sent.is_err() {
        return Err("no output".into());
    }
    Ok(String::from_utf8(out).ok().ok_or("no text")?)
}

const BAD_GUID: &str = "{\"code\":504,\"name\":\"BadGuid\",\"summary\":\"no GUID at an index into '#GUID'\",\
\"rule\":\"An index into '#GUID' is 0 for null, or the number of a 16-byte entry within the heap, counted from 1.\",\
\"offset\":\"The cell with the index.\",\"section\":\"II.24.2.5\",\
\"cause\":\"An index that counts bytes instead of entries, a missing stream such as '#GUID' or '#Strings', or a bit of Valid that was cleared.\"}\n";

#[test]
fn explains_a_rule(rt: HostRuntime) -> Result<(), Fail> {
    assert_eq!(rt; explanation_of(rt.alloc(), 504)?.as_str(), BAD_GUID);
    // This rule is of no section of the standard, and no cause is known.
    let limit = "{\"code\":101,\"name\":\"TooLong\",\"summary\":\"the input has more than 2^30 bytes\",\
\"rule\":\"A file, or a root with '--bare', has at most 2^30 bytes. This limit is clim's own.\",\
\"offset\":\"0, the first byte.\"}\n";
    assert_eq!(rt; explanation_of(rt.alloc(), 101)?.as_str(), limit);
    Ok(())
}

/// A fault, what has the byte at its offset, the number there, and its rule: each is an object on a line, and no line is empty.
#[test]
fn explains_a_fault(rt: HostRuntime) -> Result<(), Fail> {
    let mut broken = ONE_MODULE;
    broken[112] = 2;
    let lines = "\
{\"layer\":5,\"code\":504,\"offset\":112,\"name\":\"BadGuid\"}
{\"offset\":0,\"size\":144,\"structure\":\"root\"}
{\"offset\":80,\"size\":40,\"structure\":\"stream #~\"}
{\"offset\":112,\"size\":2,\"structure\":\"cell\",\"table\":\"Module\",\"row\":1,\"column\":\"Mvid\"}
{\"offset\":112,\"value\":2,\"stream\":\"#GUID\",\"limit\":1}
";
    let report = Report::Check(Verdict::Explained);
    let printed = lines_of(&rt, report, &broken)?;
    assert_eq!(rt; printed.strip_prefix(lines), Some(BAD_GUID));
    let report = Report::Check(Verdict::Explained);
    assert_eq!(rt; lines_of(&rt, report, &ONE_MODULE)?.as_str(), "{\"ok\":true}\n");
    Ok(())
}
