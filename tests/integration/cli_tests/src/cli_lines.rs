//! Tests of `cli_lines`: each value and each part of a line, as text and as JSON (RFC 8259).

use crate::cli::writers::{Full, Narrow};
use cli_faults::{Failure, Reason};
use cli_lines::Part::{Close, Field, Member, Note, Open, Spaced, Units, Word};
use cli_lines::Value::{Byte, Bytes, Guid, Hex, Null, Number, Plain, Quoted, Reference, Signature, Start, Text, Yes};
use cli_lines::{Form, Name, Part, Printer, Value};
use heap_entries::user_string;
use std::alloc::Global;
use std::test::Fail;
use table_schema::{TableId, Token};

/// What is printed of lines in a form.
fn printed(alloc: Global, form: Form, lines: &[&[Part<'_>]]) -> Result<String, Fail> {
    let mut out = Vec::new(alloc);
    let mut printer = Printer::new(alloc, form, &mut out);
    for line in lines {
        printer.line(line);
    }
    let (_, sent) = printer.finish();
    if sent.is_err() {
        return Err("no output".into());
    }
    Ok(String::from_utf8(out).ok().ok_or("no text")?)
}

const TOKEN: Token = Token { table: TableId::TypeDef, row: 0x1A };

/// The sixteen bytes of a GUID, whose first three numbers are little-endian (II.24.2.5).
const GUID: [u8; 16] = [0x03, 0x02, 0x01, 0, 0x05, 0x04, 0x07, 0x06, 0x08, 0x09, 0x0A, 0x0B, 0x0C, 0x0D, 0x0E, 0x0F];

/// Values, their text, and their JSON.
const VALUES: [(Value<'static>, &str, &str); 24] = [
    (Number(0), "0", "0"),
    (Number(u64::MAX), "18446744073709551615", "18446744073709551615"),
    (Hex(0), "00000000", "\"00000000\""),
    (Hex(0x7000_00FF), "700000ff", "\"700000ff\""),
    (Byte(0), "00", "\"00\""),
    (Byte(0x2C), "2C", "\"2C\""),
    (Text("a.b c"), "a.b c", "\"a.b c\""),
    (Text("\"\\\u{e9}\u{1b}\n\u{7f}"), "\\x22\\x5c\\xc3\\xa9\\x1b\\x0a\\x7f", "\"\\\"\\\\\u{e9}\\u001b\\n\u{7f}\""),
    (Text("\u{1f600}\u{0}\u{8}\u{c}\r\t"), "\\xf0\\x9f\\x98\\x80\\x00\\x08\\x0c\\x0d\\x09", "\"\u{1f600}\\u0000\\b\\f\\r\\t\""),
    (Quoted(""), "\"\"", "\"\""),
    (Quoted("a\"b/\\"), "\"a\\x22b/\\x5c\"", "\"a\\\"b/\\\\\""),
    (Plain("stream #~"), "stream #~", "\"stream #~\""),
    (Plain("a\\x1b\"b"), "a\\x1b\"b", "\"a\\\\x1b\\\"b\""),
    (Value::Token(TOKEN), "0200001a", "\"0200001a\""),
    (Reference(Some(TOKEN)), "0200001a", "\"0200001a\""),
    (Reference(None), "null", "null"),
    (Bytes(&[]), "<>", "\"\""),
    (Bytes(&[0, 0xAB, 0xFF]), "<00abff>", "\"00abff\""),
    (Guid(Some(GUID)), "{00010203-0405-0607-0809-0a0b0c0d0e0f}", "\"00010203-0405-0607-0809-0a0b0c0d0e0f\""),
    (Guid(None), "null", "null"),
    (Start(4_294_967_295), "+4294967295", "4294967295"),
    (Signature(&[6, 8], b"int32"), "<0608>", "{\"blob\":\"0608\",\"text\":\"int32\"}"),
    (Yes, "true", "true"),
    (Null, "null", "null"),
];

#[test]
fn prints_each_value(rt: HostRuntime) -> Result<(), Fail> {
    for (value, text, json) in VALUES {
        let line = [Word("- "), Field(Name::Size, value), Word(".")];
        let wanted = format!(in rt.alloc(); "- {text}.\n")?;
        assert_eq!(rt; printed(rt.alloc(), Form::Text, &[line.as_slice()])?, wanted);
        let wanted = format!(in rt.alloc(); "{{\"size\":{json}}}\n")?;
        assert_eq!(rt; printed(rt.alloc(), Form::JsonLines, &[line.as_slice()])?, wanted);
    }
    Ok(())
}

/// Texts, and what a line of text with letters has of them: a control or format character, a separator, a character for private
/// use or without a meaning, and one without a picture stay escaped.
const LETTERS: [(&str, &str); 19] = [
    ("Caf\u{e9}", "Caf\u{e9}"),
    ("\u{65e5}\u{672c}\u{8a9e}", "\u{65e5}\u{672c}\u{8a9e}"),
    ("e\u{301}", "e\u{301}"),
    ("\u{1f600}\u{20ac}\u{b2}", "\u{1f600}\u{20ac}\u{b2}"),
    ("\u{e9}\"\\\u{1b}\u{e9}", "\u{e9}\\x22\\x5c\\x1b\u{e9}"),
    ("a\u{7f}\u{85}", "a\\x7f\\xc2\\x85"),
    ("\u{a0}", "\\xc2\\xa0"),
    ("\u{ad}", "\\xc2\\xad"),
    ("\u{378}", "\\xcd\\xb8"),
    ("\u{200b}\u{e9}", "\\xe2\\x80\\x8b\u{e9}"),
    ("\u{2028}", "\\xe2\\x80\\xa8"),
    ("\u{202e}\u{e9}", "\\xe2\\x80\\xae\u{e9}"),
    ("\u{2066}", "\\xe2\\x81\\xa6"),
    ("\u{3164}", "\\xe3\\x85\\xa4"),
    ("\u{e000}", "\\xee\\x80\\x80"),
    ("a\u{fe0f}", "a\\xef\\xb8\\x8f"),
    ("\u{feff}", "\\xef\\xbb\\xbf"),
    ("\u{e0041}", "\\xf3\\xa0\\x81\\x81"),
    ("\u{10ffff}", "\\xf4\\x8f\\xbf\\xbf"),
];

/// Texts with escapes, whose bytes may be no UTF-8 (Unicode, table 3-7): cut, too long, a surrogate, too great.
const ESCAPED: [(&str, &str); 9] = [
    ("\\xc3\\xa9", "\u{e9}"),
    ("\\xc3\\xc3\\xa9\\xa9", "\\xc3\u{e9}\\xa9"),
    ("\\xc3", "\\xc3"),
    ("\\xe2\\x82", "\\xe2\\x82"),
    ("\\xe2\\x82!\\xac", "\\xe2\\x82!\\xac"),
    ("\\xc1\\xa9\\xe0\\x83\\xa9", "\\xc1\\xa9\\xe0\\x83\\xa9"),
    ("\\xed\\xa0\\x80", "\\xed\\xa0\\x80"),
    ("\\xf4\\x90\\x80\\x80\\xf5\\x80\\x80\\x80", "\\xf4\\x90\\x80\\x80\\xf5\\x80\\x80\\x80"),
    ("\\x41\\u00e9\\", "\\x41\\u00e9\\"),
];

#[test]
fn prints_letters(rt: HostRuntime) -> Result<(), Fail> {
    for (text, wanted) in LETTERS {
        let line = [Word("- "), Field(Name::Text, Text(text)), Word(".")];
        let wanted = format!(in rt.alloc(); "- {wanted}.\n")?;
        assert_eq!(rt; printed(rt.alloc(), Form::Letters, &[line.as_slice()])?, wanted);
    }
    for (text, wanted) in ESCAPED {
        let line = [Note(Plain(text))];
        let wanted = format!(in rt.alloc(); "{wanted}\n")?;
        assert_eq!(rt; printed(rt.alloc(), Form::Letters, &[line.as_slice()])?, wanted);
    }
    let mut out = Vec::new(rt.alloc());
    let mut printer = Printer::named(rt.alloc(), Form::Letters, Some("\u{e9}\u{202e}.dll"), &mut out);
    printer.line(&[Note(Quoted("\u{e9}"))]);
    let (_, sent) = printer.finish();
    assert!(rt; sent.is_ok());
    assert_eq!(rt; out.as_slice(), "\u{e9}\\xe2\\x80\\xae.dll: \"\u{e9}\"\n".as_bytes());
    Ok(())
}

/// What stands in which form. In JSON a line without a member is none.
#[test]
fn prints_each_part(rt: HostRuntime) -> Result<(), Fail> {
    let lines: [&[Part<'_>]; 6] = [
        &[Word("a "), Note(Number(1)), Member(Name::Row, Number(2)), Spaced(Name::Size, Number(3)), Field(Name::Ok, Yes)],
        &[],
        &[Word("only words")],
        &[Note(Number(4))],
        &[Open(Name::Cli), Word("b"), Field(Name::Major, Number(5)), Open(Name::Root), Spaced(Name::Offset, Number(6)), Close, Close, Member(Name::File, Text("f"))],
        &[Open(Name::Stream), Close],
    ];
    let text = "a 1 3true\n\nonly words\n4\nb5 6\n\n";
    assert_eq!(rt; printed(rt.alloc(), Form::Text, &lines)?.as_str(), text);
    assert_eq!(rt; printed(rt.alloc(), Form::Letters, &lines)?.as_str(), text);
    let json = "{\"row\":2,\"size\":3,\"ok\":true}\n{\"cli\":{\"major\":5,\"root\":{\"offset\":6}},\"file\":\"f\"}\n{\"stream\":{}}\n";
    assert_eq!(rt; printed(rt.alloc(), Form::JsonLines, &lines)?.as_str(), json);
    Ok(())
}

/// A line in parts is the line of these parts.
#[test]
fn prints_a_line_in_parts(rt: HostRuntime) -> Result<(), Fail> {
    for (form, wanted) in [(Form::Text, "1 2\n3\n\n"), (Form::Letters, "1 2\n3\n\n"), (Form::JsonLines, "{\"left\":1,\"right\":2}\n{\"left\":3}\n")] {
        let mut out = Vec::new(rt.alloc());
        let mut printer = Printer::new(rt.alloc(), form, &mut out);
        let kept = printer.form();
        printer.begin(&[Field(Name::Left, Number(1))]);
        printer.part(&Spaced(Name::Right, Number(2)));
        printer.end();
        printer.begin(&[]);
        printer.part(&Field(Name::Left, Number(3)));
        printer.end();
        printer.begin(&[]);
        printer.end();
        let (_, sent) = printer.finish();
        assert!(rt; sent.is_ok() && kept == form);
        assert_eq!(rt; out.as_slice(), wanted.as_bytes());
    }
    Ok(())
}

/// The name of a cell is that of its column (II.22). Any other name is in lower case.
#[test]
fn names_members(rt: HostRuntime) -> Result<(), Fail> {
    for (name, key) in [
        (Name::Cell(TableId::Module, 0), "Generation"),
        (Name::Cell(TableId::Module, 4), "EncBaseId"),
        (Name::Cell(TableId::Constant, 1), "Parent"),
        (Name::Cell(TableId::Constant, 2), "Value"),
        (Name::Cell(TableId::AssemblyRef, 8), "HashValue"),
        (Name::Cell(TableId::GenericParamConstraint, 1), "Constraint"),
        (Name::Difference, "difference"),
        (Name::Namespace, "namespace"),
        (Name::Units, "units"),
    ] {
        let line = [Member(name, Null)];
        let wanted = format!(in rt.alloc(); "{{\"{key}\":null}}\n")?;
        assert_eq!(rt; printed(rt.alloc(), Form::JsonLines, &[line.as_slice()])?, wanted);
    }
    Ok(())
}

/// The units of a user string (II.24.2.4), which may be no text.
#[test]
fn prints_units(rt: HostRuntime) -> Result<(), Fail> {
    for (heap, text, json) in [
        (b"\0\x01\0".as_slice(), "", "\"text\":\"\""),
        (b"\0\0", "", "\"text\":\"\""),
        (b"\0\x07a\0~\0\\\0\0", "a~\\u005c", "\"text\":\"a~\\\\\""),
        (b"\0\x05\x3D\xD8\0\xDE\x01", "\\ud83d\\ude00", "\"text\":\"\u{1f600}\""),
        (b"\0\x05\0\xDE\x3D\xD8\0", "\\ude00\\ud83d", "\"units\":[56832,55357]"),
        (b"\0\x03\xFF\xDB\0", "\\udbff", "\"units\":[56319]"),
    ] {
        let Ok(string) = user_string(heap, 1) else {
            return Err("no string".into());
        };
        let line = [Word("["), Units(&string), Word("]")];
        let wanted = format!(in rt.alloc(); "[{text}]\n")?;
        assert_eq!(rt; printed(rt.alloc(), Form::Text, &[line.as_slice()])?, wanted);
        let wanted = format!(in rt.alloc(); "{{{json}}}\n")?;
        assert_eq!(rt; printed(rt.alloc(), Form::JsonLines, &[line.as_slice()])?, wanted);
    }
    Ok(())
}

/// The line of a number.
fn print_number(number: u64, printer: &mut Printer<'_, Narrow>) {
    printer.line(&[Field(Name::Row, Number(number))]);
}

/// An output that takes some bytes has a prefix of the lines, and the failure is the first one.
#[test]
fn prints_a_prefix_if_the_output_fails(rt: HostRuntime) -> Result<(), Fail> {
    let whole = "1\n2\n30\n";
    for room in 0..9 {
        let mut out = Narrow { taken: Vec::new(rt.alloc()), room };
        let mut printer = Printer::new(rt.alloc(), Form::Text, &mut out);
        for number in [1, 2, 30] {
            print_number(number, &mut printer);
        }
        let (_, sent) = printer.finish();
        assert_eq!(rt; sent.is_ok(), whole.len() <= room, "{room}");
        assert!(rt; sent.is_ok() || matches!(sent, Err(Failure::CannotWriteOutput(Reason::NoSpace))), "{room}");
        assert_eq!(rt; out.taken.as_slice(), &whole.as_bytes()[..room.min(whole.len())]);
    }
    for late in [false, true] {
        let mut full = Full { late };
        let mut printer = Printer::new(rt.alloc(), Form::Text, &mut full);
        printer.line(&[Word("a")]);
        let (_, sent) = printer.finish();
        assert!(rt; matches!(sent, Err(Failure::CannotWriteOutput(Reason::NoSpace))));
    }
    Ok(())
}

/// A printer that is cancelled sends nothing more: of a few lines nothing was sent.
#[test]
fn sends_nothing_if_it_is_cancelled(rt: HostRuntime) -> Result<(), Fail> {
    let mut out = Vec::new(rt.alloc());
    let mut printer = Printer::new(rt.alloc(), Form::Text, &mut out);
    printer.line(&[Word("a")]);
    let _ = printer.cancel();
    assert!(rt; out.is_empty());
    // A printer that failed reports that memory ran out, and prints nothing from then on.
    let mut printer = Printer::new(rt.alloc(), Form::Text, &mut out);
    printer.line(&[Word("a")]);
    printer.fail();
    printer.line(&[Word("b")]);
    let (_, sent) = printer.finish();
    assert!(rt; matches!(sent, Err(Failure::OutOfMemory)));
    Ok(())
}
