//! Tests of `cli_where`: what `clim where` prints of each byte of the samples.

use crate::runs::answer;
use crate::where_files::plain_lines;
use cli_faults::Failure;
use cli_files::Input;
use cli_lines::{Form, Printer};
use cli_where::{Found, print_where};
use sample_roots::{NAMES_SHARED, ONE_MODULE, RootBuilder, TWO_TYPES, image, write_at};
use std::alloc::Global;
use std::fs;
use std::test::Fail;

/// A structure: the offset of its first byte, its number of bytes, and what it is.
type Structure = (usize, usize, &'static str);

/// The CLI header of the file of `ONE_MODULE` (II.25.3.3).
const CLI_HEADER: &[Structure] = &[
    (520, 72, "cli header"),
    (520, 4, "cli header Cb"),
    (524, 2, "cli header MajorRuntimeVersion"),
    (526, 2, "cli header MinorRuntimeVersion"),
    (528, 8, "cli header MetaData"),
    (536, 4, "cli header Flags"),
    (540, 4, "cli header EntryPointToken"),
    (544, 8, "cli header Resources"),
    (552, 8, "cli header StrongNameSignature"),
    (560, 8, "cli header CodeManagerTable"),
    (568, 8, "cli header VTableFixups"),
    (576, 8, "cli header ExportAddressTableJumps"),
    (584, 8, "cli header ManagedNativeHeader"),
];

/// The structures of `ONE_MODULE` (II.24.2).
const ONE_MODULE_STRUCTURES: &[Structure] = &[
    (0, 144, "root"),
    (0, 4, "root header Signature"),
    (4, 2, "root header MajorVersion"),
    (6, 2, "root header MinorVersion"),
    (8, 4, "root header Reserved"),
    (12, 4, "root header Length"),
    (16, 12, "root header Version"),
    (28, 2, "root header Flags"),
    (30, 2, "root header Streams"),
    (32, 12, "stream header #~"),
    (32, 4, "stream header Offset"),
    (36, 4, "stream header Size"),
    (40, 4, "stream header Name"),
    (44, 20, "stream header #Strings"),
    (44, 4, "stream header Offset"),
    (48, 4, "stream header Size"),
    (52, 12, "stream header Name"),
    (64, 16, "stream header #GUID"),
    (64, 4, "stream header Offset"),
    (68, 4, "stream header Size"),
    (72, 8, "stream header Name"),
    (120, 8, "stream #Strings"),
    (128, 16, "stream #GUID"),
    (80, 40, "stream #~"),
    (80, 4, "table stream Reserved"),
    (84, 1, "table stream MajorVersion"),
    (85, 1, "table stream MinorVersion"),
    (86, 1, "table stream HeapSizes"),
    (87, 1, "table stream Reserved"),
    (88, 8, "table stream Valid"),
    (96, 8, "table stream Sorted"),
    (104, 4, "row count 00 Module"),
    (108, 2, "table 00 Module row 1 column 0 Generation"),
    (110, 2, "table 00 Module row 1 column 1 Name"),
    (112, 2, "table 00 Module row 1 column 2 Mvid"),
    (114, 2, "table 00 Module row 1 column 3 EncId"),
    (116, 2, "table 00 Module row 1 column 4 EncBaseId"),
    (121, 6, "string of table 00 Module row 1 column 1 Name"),
    (128, 16, "guid of table 00 Module row 1 column 2 Mvid"),
];

/// The cells of `TWO_TYPES` that index a heap, in order, with the offset of this heap (II.22).
const TWO_TYPES_INDEXES: &[(Structure, Heap)] = &[
    ((120, 2, "table 02 TypeDef row 1 column 1 TypeName"), Heap::Strings(172)),
    ((122, 2, "table 02 TypeDef row 1 column 2 TypeNamespace"), Heap::Strings(172)),
    ((134, 2, "table 02 TypeDef row 2 column 1 TypeName"), Heap::Strings(172)),
    ((136, 2, "table 02 TypeDef row 2 column 2 TypeNamespace"), Heap::Strings(172)),
    ((146, 2, "table 04 Field row 1 column 1 Name"), Heap::Strings(172)),
    ((148, 2, "table 04 Field row 1 column 2 Signature"), Heap::Blobs(192)),
    ((152, 2, "table 04 Field row 2 column 1 Name"), Heap::Strings(172)),
    ((154, 2, "table 04 Field row 2 column 2 Signature"), Heap::Blobs(192)),
    ((164, 2, "table 06 MethodDef row 1 column 3 Name"), Heap::Strings(172)),
    ((166, 2, "table 06 MethodDef row 1 column 4 Signature"), Heap::Blobs(192)),
];

/// The cells of `ONE_MODULE` that index a heap, in order.
const ONE_MODULE_INDEXES: &[(Structure, Heap)] = &[
    ((110, 2, "table 00 Module row 1 column 1 Name"), Heap::Strings(120)),
    ((112, 2, "table 00 Module row 1 column 2 Mvid"), Heap::Guids(128)),
    ((114, 2, "table 00 Module row 1 column 3 EncId"), Heap::Guids(128)),
    ((116, 2, "table 00 Module row 1 column 4 EncBaseId"), Heap::Guids(128)),
];

/// A heap and its offset in the root.
#[derive(Clone, Copy)]
enum Heap {
    Strings(usize),
    Guids(usize),
    Blobs(usize),
}

/// A byte of a root.
fn byte_at(root: &[u8], offset: usize) -> usize {
    root.get(offset).copied().map_or(0, usize::from)
}

/// The offset and the size of the entry with an index that is not 0, read byte by byte (II.24.2.3 to II.24.2.5). The
/// blobs here have less than 128 bytes.
fn plain_entry(root: &[u8], heap: Heap, index: usize) -> (usize, usize, &'static str) {
    match heap {
        Heap::Strings(start) => {
            let mut size = 1;
            while byte_at(root, start + index + size - 1) != 0 {
                size += 1;
            }
            (start + index, size, "string of ")
        }
        Heap::Guids(start) => (start + 16 * (index - 1), 16, "guid of "),
        Heap::Blobs(start) => (start + index, 1 + byte_at(root, start + index), "blob of "),
    }
}

/// The lines of the entries that have a byte, of the first ten cells that name one: a plain second implementation.
fn plain_entries(alloc: Global, root: &[u8], indexes: &[(Structure, Heap)], offset: usize) -> Result<String, Fail> {
    let mut lines = String::new(alloc);
    let mut count = 0;
    for ((cell, _, what), heap) in indexes {
        let index = byte_at(root, *cell) + 256 * byte_at(root, *cell + 1);
        if index == 0 {
            continue;
        }
        let (start, size, word) = plain_entry(root, *heap, index);
        if start <= offset && offset < start + size && count < 10 {
            lines.push_str(&format!(in alloc; "{start} {size} {word}{what}\n")?)?;
            count += 1;
        }
    }
    Ok(lines)
}

/// The lines of a text that are those of entries: from the first one on that has one of their words.
fn entry_lines(text: &str) -> &str {
    for word in [" string of ", " guid of ", " blob of "] {
        if let Some(at) = text.find(word) {
            let before = &text[..at];
            let start = before.rfind('\n').map_or(0, |line| line + 1);
            return &text[start..];
        }
    }
    ""
}

/// Appends the lines of the structures that have a byte. They are at `base` in the file.
fn push_lines(alloc: Global, structures: &[Structure], base: usize, offset: usize, lines: &mut String) -> Result<(), Fail> {
    for (start, size, what) in structures {
        let start = base + *start;
        if start <= offset && offset < start + *size {
            lines.push_str(&format!(in alloc; "{start} {size} {what}\n")?)?;
        }
    }
    Ok(())
}

/// What is printed of a byte, and whether a structure has it; or the code and the offset of the fault.
fn located(alloc: Global, form: Form, input: Input, file: &[u8], offset: u64) -> Result<(Result<Found, (u16, u64)>, String), Fail> {
    let mut out = Vec::new(alloc);
    let mut printer = Printer::new(alloc, form, &mut out);
    let located = print_where(alloc, file, input, offset, &mut printer);
    let (_, sent) = printer.finish();
    if sent.is_err() {
        return Err(Fail::from("no output"));
    }
    let found = match located {
        Ok(found) => Ok(found),
        Err(Failure::Fault(fault)) => Err((fault.code, fault.offset)),
        Err(_) => return Err(Fail::from("a failure")),
    };
    Ok((found, String::from_utf8(out).ok().ok_or("no text")?))
}

/// What the bytes are.
fn input_of(bare: bool) -> Input {
    if bare { Input::BareRoot } else { Input::File }
}

/// The lines of structures in a text: all but that of a number.
fn structure_lines(text: &str) -> &str {
    match text.find("\n0x") {
        Some(at) => &text[..at + 1],
        None => text,
    }
}

/// What is printed of the structures that have a byte of a file that breaks no rule, and whether one has it.
pub fn printed(rt: &HostRuntime, bare: bool, file: &[u8], offset: u64) -> Result<(Found, String), Fail> {
    let (Ok(found), text) = located(rt.alloc(), Form::Text, input_of(bare), file, offset)? else {
        return Err(Fail::from("a fault"));
    };
    Ok((found, format!(in rt.alloc(); "{}", structure_lines(&text))?))
}

/// Whether the lines of a byte are these.
pub fn is_printed(rt: &HostRuntime, bare: bool, file: &[u8], offset: usize, lines: &str) -> Result<bool, Fail> {
    let (found, text) = printed(rt, bare, file, offset as u64)?;
    if lines.is_empty() {
        return Ok(found == Found::Nothing && text.as_str() == "nothing\n");
    }
    Ok(found == Found::Something && text.as_str() == lines)
}

/// Appends the lines of the structures of the file of `ONE_MODULE` that have a byte, from its CLI header inwards.
pub fn push_image_lines(alloc: Global, offset: usize, lines: &mut String) -> Result<(), Fail> {
    push_lines(alloc, CLI_HEADER, 0, offset, lines)?;
    push_lines(alloc, ONE_MODULE_STRUCTURES, 592, offset, lines)
}

#[test]
fn prints_the_structures_of_each_byte_of_a_root(rt: HostRuntime) -> Result<(), Fail> {
    for offset in 0..ONE_MODULE.len() + 2 {
        let mut lines = String::new(rt.alloc());
        push_lines(rt.alloc(), ONE_MODULE_STRUCTURES, 0, offset, &mut lines)?;
        assert!(rt; is_printed(&rt, true, &ONE_MODULE, offset, &lines)?);
    }
    Ok(())
}

#[test]
fn prints_the_structures_of_each_byte_of_a_file(rt: HostRuntime) -> Result<(), Fail> {
    let file = image();
    for offset in 0..file.len() + 2 {
        let mut lines = plain_lines(rt.alloc(), &file, offset)?;
        push_image_lines(rt.alloc(), offset, &mut lines)?;
        assert!(rt; is_printed(&rt, false, &file, offset, &lines)?);
    }
    Ok(())
}

#[test]
fn prints_the_cells_of_each_table(rt: HostRuntime) -> Result<(), Fail> {
    let cases = [
        (104, "104 4 row count 02 TypeDef\n"),
        (111, "108 4 row count 04 Field\n"),
        (112, "112 4 row count 06 MethodDef\n"),
        (116, "116 4 table 02 TypeDef row 1 column 0 Flags\n"),
        (129, "128 2 table 02 TypeDef row 1 column 5 MethodList\n"),
        (130, "130 4 table 02 TypeDef row 2 column 0 Flags\n"),
        (144, "144 2 table 04 Field row 1 column 0 Flags\n"),
        (155, "154 2 table 04 Field row 2 column 2 Signature\n"),
        (156, "156 4 table 06 MethodDef row 1 column 0 RVA\n"),
        (169, "168 2 table 06 MethodDef row 1 column 5 ParamList\n"),
        (170, ""),
    ];
    for (offset, line) in cases {
        let lines = format!(in rt.alloc(); "0 200 root\n80 92 stream #~\n{line}")?;
        assert!(rt; is_printed(&rt, true, &TWO_TYPES, offset, &lines)?);
    }
    Ok(())
}

/// A cell, and a field of at most four bytes, have a line of their number, and of what it means.
#[test]
fn prints_the_number_and_its_meaning(rt: HostRuntime) -> Result<(), Fail> {
    let mut builder = RootBuilder::new(rt.alloc());
    builder.row(0x02, b"\x01\0\0\0\x01\0\0\0\0\0\x01\0\x01\0")?;
    builder.row(0x04, b"\0\0\x01\0\x01\0")?;
    builder.row(0x0B, b"\x08\0\x04\0\x04\0")?;
    builder.heap("#Strings", b"\0F\0\0")?;
    builder.heap("#Blob", b"\0\x02\x06\x08\x04\x01\0\0\0\0\0\0")?;
    let root = builder.finish()?;
    let Some(start) = root.as_slice().windows(14).position(|it| it == b"\x01\0\0\0\x01\0\0\0\0\0\x01\0\x01\0".as_slice()) else {
        return Err("no row".into());
    };
    for (at, first, words) in [
        (2, 0, "value 1 (0x1) public auto ansi"),
        (14, 14, "value 0 (0x0) compilercontrolled"),
        (20, 20, "value 8 (0x8)"),
        (4, 4, "value 1 (0x1) \"F\""),
        (6, 6, "value 0 (0x0) \"\""),
        (9, 8, "value 0 (tag 0, row 0) null"),
        (10, 10, "value 1 (0x1) +1"),
        (18, 18, "value 1 (0x1) <0608>"),
        (22, 22, "value 4 (tag 0, row 1) 04000001"),
        (24, 24, "value 4 (0x4) <01000000>"),
    ] {
        let (_, text) = located(rt.alloc(), Form::Text, Input::BareRoot, &root, (start + at) as u64)?;
        let line = format!(in rt.alloc(); "\n0x{:x}: {words}\n", start + first)?;
        assert!(rt; text.ends_with(line.as_str()), "{text}");
    }
    let (_, text) = located(rt.alloc(), Form::JsonLines, Input::BareRoot, &root, (start + 4) as u64)?;
    let line = format!(in rt.alloc(); "\n{{\"offset\":{},\"value\":1,\"TypeName\":\"F\"}}\n", start + 4)?;
    assert!(rt; text.ends_with(line.as_str()), "{text}");
    // Padding and a field of eight bytes have none.
    for at in [start + 21, start - 20] {
        let (_, text) = located(rt.alloc(), Form::Text, Input::BareRoot, &root, at as u64)?;
        assert!(rt; !text.contains("value"), "{text}");
    }
    Ok(())
}

/// A file with three fields that have data: of a simple type, of a type of the file with a size, and of a type without one.
fn file_with_data(alloc: Global) -> Result<[u8; 1024], Fail> {
    let mut builder = RootBuilder::new(alloc);
    builder.row(0x02, b"\0\0\0\0\x07\0\0\0\0\0\x01\0\x01\0")?;
    builder.row(0x02, b"\0\0\0\0\x07\0\0\0\0\0\x04\0\x01\0")?;
    builder.row(0x04, b"\0\0\x01\0\x01\0")?;
    builder.row(0x04, b"\0\0\x03\0\x04\0")?;
    builder.row(0x04, b"\0\0\x05\0\x08\0")?;
    builder.row(0x0F, b"\x01\0\x06\0\0\0\x02\0")?;
    builder.row(0x1D, b"\xF0\x21\0\0\x01\0")?;
    builder.row(0x1D, b"\xF4\x21\0\0\x02\0")?;
    builder.row(0x1D, b"\xFC\x21\0\0\x03\0")?;
    builder.heap("#Strings", b"\0a\0b\0c\0S\0\0\0\0")?;
    builder.heap("#Blob", b"\0\x02\x06\x08\x03\x06\x11\x08\x02\x06\x0E\0")?;
    let root = builder.finish()?;
    let mut file = image();
    write_at(&mut file, 0x250, &root);
    write_at(&mut file, 0x214, &(root.len() as u32).to_le_bytes());
    Ok(file)
}

/// Data has the size of its type. If that is not known, only its first byte has the line.
#[test]
fn prints_the_fields_whose_data_contains_the_byte(rt: HostRuntime) -> Result<(), Fail> {
    let file = file_with_data(rt.alloc())?;
    for (offset, line) in [
        (0x3EF, ""),
        (0x3F0, "1008 4 field 04000001 a\n"),
        (0x3F3, "1008 4 field 04000001 a\n"),
        (0x3F4, "1012 6 field 04000002 b\n"),
        (0x3F9, "1012 6 field 04000002 b\n"),
        (0x3FA, ""),
        (0x3FC, "1020 0 field 04000003 c\n"),
        (0x3FD, ""),
    ] {
        let (_, text) = located(rt.alloc(), Form::Text, Input::File, &file, offset)?;
        let lines = format!(in rt.alloc(); "512 512 section 1\n{line}")?;
        assert_eq!(rt; text.as_str(), lines.as_str());
    }
    let (_, text) = located(rt.alloc(), Form::JsonLines, Input::File, &file, 0x3F0)?;
    assert!(rt; text.ends_with("\n{\"offset\":1008,\"size\":4,\"structure\":\"field\",\"token\":\"04000001\",\"name\":\"a\"}\n"), "{text}");
    Ok(())
}

/// Entries are read as a plain reader reads them: at each byte of the samples.
#[test]
fn prints_the_entries_that_a_plain_reader_finds(rt: HostRuntime) -> Result<(), Fail> {
    let samples: [(&[u8], &[(Structure, Heap)]); 2] = [(&ONE_MODULE, ONE_MODULE_INDEXES), (&TWO_TYPES, TWO_TYPES_INDEXES)];
    for (root, indexes) in samples {
        for offset in 0..root.len() {
            let (_, text) = printed(&rt, true, root, offset as u64)?;
            let plain = plain_entries(rt.alloc(), root, indexes, offset)?;
            assert_eq!(rt; entry_lines(&text), plain.as_str(), "{offset}");
        }
    }
    Ok(())
}

/// A string that a longer one ends with is an entry of its own.
#[test]
fn prints_the_strings_that_share_bytes(rt: HostRuntime) -> Result<(), Fail> {
    let whole = "101 5 string of table 01 TypeRef row 1 column 1 TypeName\n";
    let part = "103 3 string of table 01 TypeRef row 1 column 2 TypeNamespace\n";
    for (offset, lines) in [
        (100, format!(in rt.alloc(); "")?),
        (101, format!(in rt.alloc(); "{whole}")?),
        (102, format!(in rt.alloc(); "{whole}")?),
        (103, format!(in rt.alloc(); "{whole}{part}")?),
        (105, format!(in rt.alloc(); "{whole}{part}")?),
        (106, format!(in rt.alloc(); "")?),
    ] {
        let (_, text) = printed(&rt, true, &NAMES_SHARED, offset)?;
        assert_eq!(rt; entry_lines(&text), lines.as_str(), "{offset}");
    }
    Ok(())
}

/// The line of the user string that has a byte begins with its offset, and ends with its token.
#[test]
fn prints_the_user_string(rt: HostRuntime) -> Result<(), Fail> {
    let mut builder = RootBuilder::new(rt.alloc());
    builder.heap("#US", b"\0\x05H\0i\0\0\x01\0\0\0\0")?;
    let root = builder.finish()?;
    let start = root.len() - 12;
    for (index, first, size) in [(1, 1, 6), (6, 1, 6), (7, 7, 2), (8, 7, 2), (9, 9, 1), (11, 11, 1)] {
        let (_, text) = printed(&rt, true, &root, (start + index) as u64)?;
        let line = format!(in rt.alloc(); "{} {size} user string {:08x}\n", start + first, 0x7000_0000 + first)?;
        assert!(rt; text.ends_with(line.as_str()), "{text}");
    }
    let (_, text) = printed(&rt, true, &root, start as u64)?;
    assert!(rt; !text.contains("user string"));
    Ok(())
}

/// Of twelve cells that name a string, the first ten get a line.
#[test]
fn prints_the_first_ten_cells(rt: HostRuntime) -> Result<(), Fail> {
    let mut builder = RootBuilder::new(rt.alloc());
    for _ in 0..12 {
        builder.row(0x1A, b"\x01\0")?;
    }
    builder.heap("#Strings", b"\0abc\0\0\0\0")?;
    let root = builder.finish()?;
    let mut lines = String::new(rt.alloc());
    let start = root.len() - 7;
    for row in 1..11 {
        lines.push_str(&format!(in rt.alloc(); "{start} 4 string of table 1A ModuleRef row {row} column 0 Name\n")?)?;
    }
    for offset in start..start + 4 {
        let (_, text) = printed(&rt, true, &root, offset as u64)?;
        assert_eq!(rt; entry_lines(&text), lines.as_str());
    }
    Ok(())
}

#[test]
fn prints_each_stream_that_has_the_byte(rt: HostRuntime) -> Result<(), Fail> {
    // The heap of texts begins where the tables begin, and has 48 bytes. Its first byte is no NUL, but no cell names it.
    let mut root = ONE_MODULE;
    root[44] = 80;
    root[48] = 48;
    root[110] = 40;
    let lines = "0 144 root\n80 48 stream #Strings\n80 40 stream #~\n86 1 table stream HeapSizes\n";
    assert!(rt; is_printed(&rt, true, &root, 86, lines)?);
    Ok(())
}

#[test]
fn escapes_the_name_of_a_stream(rt: HostRuntime) -> Result<(), Fail> {
    let mut root = ONE_MODULE;
    root[72] = 1;
    root[73] = b'\\';
    root[112] = 0;
    let lines = "0 144 root\n64 16 stream header \\x01\\x5cUID\n68 4 stream header Size\n";
    assert!(rt; is_printed(&rt, true, &root, 70, lines)?);
    Ok(())
}

#[test]
fn prints_nothing_past_the_end(rt: HostRuntime) -> Result<(), Fail> {
    let file = image();
    for offset in [1024, 1 << 31, 1 << 40, u64::MAX] {
        let (found, text) = printed(&rt, false, &file, offset)?;
        assert!(rt; found == Found::Nothing);
        assert_eq!(rt; text.as_str(), "nothing\n");
    }
    Ok(())
}

/// The exit code is 0 if a structure has the byte. It is 1 if none has it, which the output says. For an offset past the end,
/// a hint has the length of the file.
#[test]
fn ends_with_1_if_nothing_has_the_byte(rt: HostRuntime) -> Result<(), Fail> {
    fs::write(&rt, "where.dll", image().as_slice())?;
    let hint = "  hint: FILE has 1024 bytes\n";
    for (offset, status, lines, hints) in [
        ("520", 0, "512 512 section 1\n520 72 cli header\n520 4 cli header Cb\n0x208: value 72 (0x48)\n", ""),
        ("00520", 0, "512 512 section 1\n520 72 cli header\n520 4 cli header Cb\n0x208: value 72 (0x48)\n", ""),
        ("0x208", 0, "512 512 section 1\n520 72 cli header\n520 4 cli header Cb\n0x208: value 72 (0x48)\n", ""),
        (
            "0x000000000000000000208",
            0,
            "512 512 section 1\n520 72 cli header\n520 4 cli header Cb\n0x208: value 72 (0x48)\n",
            "",
        ),
        ("0", 0, "0 64 ms-dos header\n0 2 ms-dos header Signature\n", ""),
        ("0x7f", 1, "nothing\n", ""),
        ("1023", 0, "512 512 section 1\n", ""),
        ("1024", 1, "nothing\n", hint),
        ("0xfFfFfFfFfFfFfFfF", 1, "nothing\n", hint),
        ("18446744073709551615", 1, "nothing\n", hint),
    ] {
        let (code, out, err) = answer(&rt, &["clim", "where", "where.dll", offset])?;
        assert_eq!(rt; code, status, "{offset}");
        assert_eq!(rt; out.as_str(), lines, "{offset}");
        assert_eq!(rt; err.as_str(), hints, "{offset}");
    }
    fs::remove_file(&rt, "where.dll")?;
    Ok(())
}

/// The file named lacks: a status of 2 shows that it was not looked for.
#[test]
fn refuses_what_is_no_offset(rt: HostRuntime) -> Result<(), Fail> {
    for word in [
        "",
        "0x",
        "x1",
        "0X1",
        "+1",
        "0x+1",
        "1a",
        "0xg",
        " 1",
        "1 ",
        "00x1",
        "0x0x1",
        "18446744073709551616",
        "0x10000000000000000",
        "\u{e9}",
    ] {
        let (status, out, err) = answer(&rt, &["clim", "where", "lacks", word])?;
        assert_eq!(rt; status, 2, "{word}");
        assert!(rt; out.is_empty());
        assert!(rt;
            err.starts_with("error: OFFSET is a number, decimal or hexadecimal after '0x', not '"),
            "{err}"
        );
    }
    let (status, _, err) = answer(&rt, &["clim", "where", "lacks", "1"])?;
    assert_eq!(rt; status, 3);
    assert_eq!(rt; err.as_str(), "error: cannot read lacks\n  reason: no such file\n");
    Ok(())
}

/// Of a file that breaks a rule the structures that break none have lines. The fault follows them on standard error.
#[test]
fn prints_the_lines_of_a_broken_file(rt: HostRuntime) -> Result<(), Fail> {
    let mut root = ONE_MODULE;
    root[112] = 2;
    fs::write(&rt, "broken.root", root.as_slice())?;
    let fault = "fault 5 504 at 112: BadGuid\n";
    for (offset, lines) in [
        ("112", "0 144 root\n80 40 stream #~\n112 2 table 00 Module row 1 column 2 Mvid\n"),
        // No entry of a heap is looked for.
        ("121", "0 144 root\n120 8 stream #Strings\n"),
        ("0x90", ""),
        ("18446744073709551615", ""),
    ] {
        let (status, out, err) = answer(&rt, &["clim", "where", "--bare", "broken.root", offset])?;
        assert_eq!(rt; (status, out.as_str(), err.as_str()), (1, lines, fault), "{offset}");
    }
    let lines = "\
{\"offset\":0,\"size\":144,\"structure\":\"root\"}
{\"offset\":80,\"size\":40,\"structure\":\"stream #~\"}
{\"offset\":112,\"size\":2,\"structure\":\"cell\",\"table\":\"Module\",\"row\":1,\"column\":\"Mvid\"}
";
    let (status, out, err) = answer(&rt, &["clim", "where", "--json", "--bare", "broken.root", "112"])?;
    assert_eq!(rt; (status, out.as_str(), err.as_str()), (1, lines, fault));
    fs::remove_file(&rt, "broken.root")?;
    Ok(())
}

/// Only the layers before that of the fault are taken apart: the PE headers, the CLI header, the root, and the table stream.
#[test]
fn prints_the_layers_that_break_no_rule(rt: HostRuntime) -> Result<(), Fail> {
    let file = image();
    // The fault, a byte of the file that is changed for it, and what is printed of the bytes at 0, 520, 592 and 676, where
    // the headers, the CLI header, the root and the table stream are.
    let cli = "512 512 section 1\n520 72 cli header\n520 4 cli header Cb\n";
    let (root, stream) = ("592 144 root\n592 4 root header Signature\n", "592 144 root\n672 40 stream #~\n");
    let dos = "0 64 ms-dos header\n0 2 ms-dos header Signature\n";
    for (fault, change, lines) in [
        ((102, 0), (0, b'N'), ["", "", "", ""]),
        ((203, 520), (520, 0), [dos, "512 512 section 1\n", "512 512 section 1\n", "512 512 section 1\n"]),
        ((301, 592), (592, b'X'), [dos, cli, "512 512 section 1\n", "512 512 section 1\n"]),
        ((402, 676), (676, 9), [dos, cli, root, stream]),
        ((504, 704), (704, 2), [dos, cli, root, "592 144 root\n672 40 stream #~\n676 1 table stream MajorVersion\n"]),
    ] {
        let mut file = file;
        let (at, byte) = change;
        file[at] = byte;
        for (offset, lines) in [0, 520, 592, 676].into_iter().zip(lines) {
            let (found, text) = located(rt.alloc(), Form::Text, Input::File, &file, offset)?;
            assert!(rt; found == Err(fault));
            let whole = if lines.starts_with("592") { format!(in rt.alloc(); "512 512 section 1\n{lines}")? } else { format!(in rt.alloc(); "{lines}")? };
            assert_eq!(rt; text, whole, "{offset}");
        }
    }
    Ok(())
}

/// The byte of padding in a row of `Constant` is no column, and is not counted (II.22.9).
#[test]
fn prints_the_cells_of_constant(rt: HostRuntime) -> Result<(), Fail> {
    let mut builder = RootBuilder::new(rt.alloc());
    builder.row(0x02, b"\0\0\0\0\x01\0\0\0\0\0\x01\0\x01\0")?;
    builder.row(0x04, b"\0\0\x01\0\x01\0")?;
    builder.row(0x0B, b"\x08\0\x04\0\x04\0")?;
    builder.heap("#Strings", b"\0F\0\0")?;
    builder.heap("#Blob", b"\0\x02\x06\x08\x04\x01\0\0\0\0\0\0")?;
    let root = builder.finish()?;
    let Some(row) = root.as_slice().windows(6).position(|it| it == b"\x08\0\x04\0\x04\0".as_slice()) else {
        return Err("no row".into());
    };
    for (at, start, words) in [
        (0, 0, "1 table 0B Constant row 1 column 0 Type"),
        (1, 1, "1 table 0B Constant row 1 padding"),
        (2, 2, "2 table 0B Constant row 1 column 1 Parent"),
        (3, 2, "2 table 0B Constant row 1 column 1 Parent"),
        (5, 4, "2 table 0B Constant row 1 column 2 Value"),
    ] {
        let (_, text) = printed(&rt, true, &root, (row + at) as u64)?;
        let line = format!(in rt.alloc(); "\n{} {words}\n", row + start)?;
        assert!(rt; text.ends_with(line.as_str()), "{text}");
    }
    let (_, line) = located(rt.alloc(), Form::JsonLines, Input::BareRoot, &root, row as u64 + 1)?;
    let words = "\"size\":1,\"structure\":\"padding\",\"table\":\"Constant\",\"row\":1}\n";
    assert!(rt; line.ends_with(words), "{line}");
    // The entry that a column after the padding refers to.
    let Some(value) = root.as_slice().windows(5).position(|it| it == b"\x04\x01\0\0\0".as_slice()) else {
        return Err("no value".into());
    };
    let (_, text) = printed(&rt, true, &root, value as u64)?;
    assert!(rt; text.ends_with(" 5 blob of table 0B Constant row 1 column 2 Value\n"), "{text}");
    Ok(())
}

/// A `#US` that is no multiple of four bytes is padded with zeros, as by `clim strings`. The zeros are no bytes of the
/// stream, so a string that takes one has a byte less (II.24.2.2, II.24.2.4).
#[test]
fn prints_a_user_string_that_needs_padding(rt: HostRuntime) -> Result<(), Fail> {
    let mut root = RootBuilder::new(rt.alloc());
    root.row(0, b"\0\0\0\0\0\0\0\0\0\0")?;
    root.heap("#US", b"\0\x05A\0B\0")?;
    root.heap("#Strings", b"\0")?;
    let mut root = root.finish()?;
    let Some(heap) = root.as_slice().windows(6).position(|it| it == b"\0\x05A\0B\0".as_slice()) else {
        return Err("no heap".into());
    };
    // The stream's size, which is before its name, without the padding.
    let Some(name) = root.as_slice().windows(4).position(|it| it == b"#US\0".as_slice()) else {
        return Err("no stream".into());
    };
    root[name - 4] = 6;
    for at in 0..6 {
        let (_, text) = printed(&rt, true, &root, (heap + at) as u64)?;
        let line = format!(in rt.alloc(); "\n{} 5 user string 70000001\n", heap + 1)?;
        assert_eq!(rt; text.ends_with(line.as_str()), at > 0, "{text}");
    }
    fs::write(&rt, "padded.root", root.as_slice())?;
    let (_, out, _) = answer(&rt, &["clim", "strings", "--bare", "padded.root"])?;
    assert_eq!(rt; out.as_str(), "70000001 AB\n");
    fs::remove_file(&rt, "padded.root")?;
    Ok(())
}

/// A stream of another name than those of the standard has a line, as far as the root has its bytes: it may overlap others, be
/// empty, or end past the root (II.24.2.2).
#[test]
fn prints_streams_of_other_names(rt: HostRuntime) -> Result<(), Fail> {
    let mut root = RootBuilder::new(rt.alloc());
    root.heap("#X", b"abcd")?;
    root.heap("#\"", b"")?;
    let mut root = root.finish()?;
    let Some(bytes) = root.as_slice().windows(4).position(|it| it == b"abcd".as_slice()) else {
        return Err("no stream".into());
    };
    let Some(name) = root.as_slice().windows(4).position(|it| it == b"#X\0\0".as_slice()) else {
        return Err("no header".into());
    };
    let end = root.len();
    for (start, size, shown) in [(bytes, 4_u32, 4), (0, 1 << 20, end), (bytes, 1 << 31, end - bytes), (end, 4, 0), (end - 1, 9, 1), (bytes, 0, 0)] {
        write_at(&mut root, name - 8, &(start as u32).to_le_bytes());
        write_at(&mut root, name - 4, &size.to_le_bytes());
        let line = format!(in rt.alloc(); "\n{start} {shown} stream #X\n")?;
        for at in 0..end + 2 {
            let (_, text) = printed(&rt, true, &root, at as u64)?;
            assert_eq!(rt; text.contains(line.as_str()), start <= at && at < start + shown, "{at} {text}");
            assert!(rt; !text.contains("stream #\\x22\n"), "{text}");
        }
    }
    Ok(())
}
