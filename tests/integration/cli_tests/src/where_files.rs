//! Tests of `cli_regions`: what `clim where` prints of the headers and sections of a file. A plain reader walks over the
//! headers by the offsets of ECMA-335 II.25.2 and II.25.3 and of Microsoft's PE format.

use crate::where_lines::{is_printed, printed, push_image_lines};
use cli_where::Found;
use sample_roots::{image, wider_image};
use std::alloc::Global;
use std::test::Fail;

/// A field: its offset in its header, its number of bytes, and its name.
type Field = (usize, usize, &'static str);

/// The fields of the PE file header (II.25.2.2).
const FILE_HEADER: &[Field] = &[
    (0, 2, "Machine"),
    (2, 2, "NumberOfSections"),
    (4, 4, "TimeDateStamp"),
    (8, 4, "PointerToSymbolTable"),
    (12, 4, "NumberOfSymbols"),
    (16, 2, "SizeOfOptionalHeader"),
    (18, 2, "Characteristics"),
];

/// The fields of a PE32 optional header (II.25.2.3.1, II.25.2.3.2).
const PE32: &[Field] = &[
    (0, 2, "Magic"),
    (2, 1, "MajorLinkerVersion"),
    (3, 1, "MinorLinkerVersion"),
    (4, 4, "SizeOfCode"),
    (8, 4, "SizeOfInitializedData"),
    (12, 4, "SizeOfUninitializedData"),
    (16, 4, "AddressOfEntryPoint"),
    (20, 4, "BaseOfCode"),
    (24, 4, "BaseOfData"),
    (28, 4, "ImageBase"),
    (32, 4, "SectionAlignment"),
    (36, 4, "FileAlignment"),
    (40, 2, "MajorOperatingSystemVersion"),
    (42, 2, "MinorOperatingSystemVersion"),
    (44, 2, "MajorImageVersion"),
    (46, 2, "MinorImageVersion"),
    (48, 2, "MajorSubsystemVersion"),
    (50, 2, "MinorSubsystemVersion"),
    (52, 4, "Win32VersionValue"),
    (56, 4, "SizeOfImage"),
    (60, 4, "SizeOfHeaders"),
    (64, 4, "CheckSum"),
    (68, 2, "Subsystem"),
    (70, 2, "DllCharacteristics"),
    (72, 4, "SizeOfStackReserve"),
    (76, 4, "SizeOfStackCommit"),
    (80, 4, "SizeOfHeapReserve"),
    (84, 4, "SizeOfHeapCommit"),
    (88, 4, "LoaderFlags"),
    (92, 4, "NumberOfRvaAndSizes"),
];

/// The fields of a PE32+ optional header (Microsoft's PE format).
const PE32_PLUS: &[Field] = &[
    (0, 2, "Magic"),
    (2, 1, "MajorLinkerVersion"),
    (3, 1, "MinorLinkerVersion"),
    (4, 4, "SizeOfCode"),
    (8, 4, "SizeOfInitializedData"),
    (12, 4, "SizeOfUninitializedData"),
    (16, 4, "AddressOfEntryPoint"),
    (20, 4, "BaseOfCode"),
    (24, 8, "ImageBase"),
    (32, 4, "SectionAlignment"),
    (36, 4, "FileAlignment"),
    (40, 2, "MajorOperatingSystemVersion"),
    (42, 2, "MinorOperatingSystemVersion"),
    (44, 2, "MajorImageVersion"),
    (46, 2, "MinorImageVersion"),
    (48, 2, "MajorSubsystemVersion"),
    (50, 2, "MinorSubsystemVersion"),
    (52, 4, "Win32VersionValue"),
    (56, 4, "SizeOfImage"),
    (60, 4, "SizeOfHeaders"),
    (64, 4, "CheckSum"),
    (68, 2, "Subsystem"),
    (70, 2, "DllCharacteristics"),
    (72, 8, "SizeOfStackReserve"),
    (80, 8, "SizeOfStackCommit"),
    (88, 8, "SizeOfHeapReserve"),
    (96, 8, "SizeOfHeapCommit"),
    (104, 4, "LoaderFlags"),
    (108, 4, "NumberOfRvaAndSizes"),
];

/// The data directories (II.25.2.3.3).
const DIRECTORIES: [&str; 16] = [
    "Export Table",
    "Import Table",
    "Resource Table",
    "Exception Table",
    "Certificate Table",
    "Base Relocation Table",
    "Debug",
    "Copyright",
    "Global Ptr",
    "TLS Table",
    "Load Config Table",
    "Bound Import",
    "IAT",
    "Delay Import Descriptor",
    "CLI Header",
    "Reserved",
];

/// The fields of a data directory.
const DIRECTORY: &[Field] = &[(0, 4, "RVA"), (4, 4, "Size")];

/// The fields of a section header (II.25.3).
const SECTION_HEADER: &[Field] = &[
    (0, 8, "Name"),
    (8, 4, "VirtualSize"),
    (12, 4, "VirtualAddress"),
    (16, 4, "SizeOfRawData"),
    (20, 4, "PointerToRawData"),
    (24, 4, "PointerToRelocations"),
    (28, 4, "PointerToLinenumbers"),
    (32, 2, "NumberOfRelocations"),
    (34, 2, "NumberOfLinenumbers"),
    (36, 4, "Characteristics"),
];

/// What a plain reader finds of a byte: the lines of the structures that have it.
#[derive(Drop)]
struct Lines {
    alloc: Global,
    offset: usize,
    text: String,
}

impl Lines {
    /// Adds the line of a structure if it has the byte.
    fn add(&mut self, start: usize, size: usize, what: &str) -> Result<(), Fail> {
        if start <= self.offset && self.offset < start + size {
            self.text.push_str(&format!(in self.alloc; "{start} {size} {what}\n")?)?;
        }
        Ok(())
    }

    /// Adds the lines of a header and of its fields.
    fn add_header(&mut self, start: usize, size: usize, what: &str, word: &str, fields: &[Field]) -> Result<(), Fail> {
        self.add(start, size, what)?;
        for (at, size, name) in fields {
            let what = format!(in self.alloc; "{word} {name}")?;
            self.add(start + *at, *size, &what)?;
        }
        Ok(())
    }
}

/// The little-endian number in some bytes of a file.
fn number(file: &[u8], start: usize, size: usize) -> usize {
    let mut number = 0;
    for byte in file[start..start + size].iter().rev() {
        number = 256 * number + usize::from(*byte);
    }
    number
}

/// The number and the name of a section, in a line.
fn section_words(alloc: Global, file: &[u8], header: usize, section: usize) -> Result<String, Fail> {
    let mut words = format!(in alloc; "{section}")?;
    for at in 0..8 {
        let byte = file[header + at];
        if byte == 0 {
            break;
        }
        if at == 0 {
            words.push(' ')?;
        }
        if (32..127).contains(&byte) && byte != b'"' && byte != b'\\' {
            words.push(char::from(byte))?;
        } else {
            words.push_str(&format!(in alloc; "\\x{byte:02x}")?)?;
        }
    }
    Ok(words)
}

/// The lines of the headers and sections of a file that have a byte.
pub fn plain_lines(alloc: Global, file: &[u8], offset: usize) -> Result<String, Fail> {
    let mut lines = Lines { alloc, offset, text: String::new(alloc) };
    let dos: &[Field] = &[(0, 2, "Signature"), (60, 4, "lfanew")];
    lines.add_header(0, 64, "ms-dos header", "ms-dos header", dos)?;
    let signature = number(file, 60, 4);
    lines.add(signature, 4, "pe signature")?;
    lines.add_header(signature + 4, 20, "pe file header", "pe file header", FILE_HEADER)?;
    let optional = signature + 24;
    let optional_size = number(file, signature + 20, 2);
    let (fields, size) = if number(file, optional, 2) == 0x20B { (PE32_PLUS, 112) } else { (PE32, 96) };
    lines.add_header(optional, optional_size, "optional header", "optional header", fields)?;
    let counted = number(file, optional + size - 4, 4);
    for (index, name) in DIRECTORIES.iter().enumerate() {
        if index < counted && size + 8 * (index + 1) <= optional_size {
            let what = format!(in alloc; "data directory {} {name}", index + 1)?;
            lines.add_header(optional + size + 8 * index, 8, &what, "data directory", DIRECTORY)?;
        }
    }
    let sections = optional + optional_size;
    let count = number(file, signature + 6, 2);
    for index in 0..count {
        let header = sections + 40 * index;
        let words = section_words(alloc, file, header, index + 1)?;
        let what = format!(in alloc; "section header {words}")?;
        lines.add_header(header, 40, &what, "section header", SECTION_HEADER)?;
    }
    for index in 0..count {
        let header = sections + 40 * index;
        let words = section_words(alloc, file, header, index + 1)?;
        let start = number(file, header + 20, 4);
        let end = (start + number(file, header + 16, 4)).min(file.len());
        if start < end {
            let what = format!(in alloc; "section {words}")?;
            lines.add(start, end - start, &what)?;
        }
    }
    Ok(lines.text)
}

/// The step from an offset to the next one that is tried: each.
const EACH: usize = 1;
/// The same where a file differs in a few bytes from one whose offsets are all tried. It is prime to the sizes of fields.
const SOME: usize = 7;

/// Whether bytes of a file with the root of one module have the lines that the plain reader finds. The offsets have this
/// step, back from the second one after the file.
fn are_printed(rt: &HostRuntime, file: &[u8], step: usize) -> Result<bool, Fail> {
    for offset in (0..file.len() + 2).rev().step_by(step) {
        let mut lines = plain_lines(rt.alloc(), file, offset)?;
        push_image_lines(rt.alloc(), offset, &mut lines)?;
        if !is_printed(rt, false, file, offset, &lines)? {
            return Ok(false);
        }
    }
    Ok(true)
}

/// The sample has one section, whose name is empty, and no byte after the sections.
#[test]
fn prints_the_headers_of_each_byte(rt: HostRuntime) -> Result<(), Fail> {
    assert!(rt; are_printed(&rt, &image(), EACH)?);
    assert!(rt; are_printed(&rt, &wider_image(), EACH)?);
    Ok(())
}

/// `file` with a byte changed.
fn changed(file: [u8; 1024], offset: usize, byte: u8) -> [u8; 1024] {
    let mut file = file;
    file[offset] = byte;
    file
}

/// Names end at their first NUL, or fill their eight bytes. What is no plain ASCII is escaped.
#[test]
fn prints_the_name_of_a_section(rt: HostRuntime) -> Result<(), Fail> {
    for (name, words) in [(b".text\0\0\0", "1 .text"), (b"longname", "1 longname"), (b"a\0b\0c\0d\0", "1 a"), (b"\x01\"\\\xff \0\0\0", "1 \\x01\\x22\\x5c\\xff ")] {
        let mut file = image();
        for (at, byte) in name.iter().enumerate() {
            file[0x178 + at] = *byte;
        }
        assert!(rt; are_printed(&rt, &file, SOME)?, "{words}");
        let (_, text) = printed(&rt, false, &file, 1023)?;
        let line = format!(in rt.alloc(); "512 512 section {words}\n")?;
        assert_eq!(rt; text.as_str(), line.as_str());
    }
    Ok(())
}

/// A section ends with the file at the latest, and begins where PointerToRawData says, not at its address.
#[test]
fn prints_the_section_of_a_byte(rt: HostRuntime) -> Result<(), Fail> {
    // SizeOfRawData is more than the file has, then much more, then one byte less.
    for (offset, byte) in [(0x188, 1), (0x18B, 0xFF), (0x18A, 1)] {
        assert!(rt; are_printed(&rt, &changed(image(), offset, byte), SOME)?, "{offset}");
    }
    let mut shorter = image();
    shorter[0x188] = 0xFF;
    shorter[0x189] = 1;
    assert!(rt; are_printed(&rt, &shorter, SOME)?);
    let (found, text) = printed(&rt, false, &shorter, 1023)?;
    assert!(rt; found == Found::Nothing);
    assert_eq!(rt; text.as_str(), "nothing\n");
    Ok(())
}

/// Sections may overlap: each that has the byte has a line. The second header is after the first one.
#[test]
fn prints_each_section_that_has_the_byte(rt: HostRuntime) -> Result<(), Fail> {
    let mut file = image();
    file[0x86] = 2;
    for (at, byte) in b".rsrc\0\0\0".iter().enumerate() {
        file[0x1A0 + at] = *byte;
    }
    file[0x1A0 + 13] = 0x40;
    file[0x1A0 + 17] = 1;
    file[0x1A0 + 21] = 3;
    assert!(rt; are_printed(&rt, &file, SOME)?);
    let (_, text) = printed(&rt, false, &file, 800)?;
    assert_eq!(rt; text.as_str(), "512 512 section 1\n768 256 section 2 .rsrc\n");
    Ok(())
}

/// Only data directories that are counted, and end within the optional header, have lines.
#[test]
fn prints_the_counted_data_directories(rt: HostRuntime) -> Result<(), Fail> {
    let fewer = changed(image(), 0xF4, 15);
    assert!(rt; are_printed(&rt, &fewer, SOME)?);
    let (_, text) = printed(&rt, false, &fewer, 0x170)?;
    assert_eq!(rt; text.as_str(), "152 224 optional header\n");
    assert!(rt; are_printed(&rt, &changed(image(), 0xF4, 17), SOME)?);
    assert!(rt; are_printed(&rt, &changed(image(), 0xF7, 0xFF), SOME)?);
    Ok(())
}

/// The bytes that the CLI header names have a line if the file has all of them.
#[test]
fn prints_what_the_cli_header_names(rt: HostRuntime) -> Result<(), Fail> {
    let names = [
        (0x220, "resources"),
        (0x228, "strong name signature"),
        (0x230, "code manager table"),
        (0x238, "vtable fixups"),
        (0x240, "export address table jumps"),
        (0x248, "managed native header"),
    ];
    for (directory, what) in names {
        let mut file = image();
        // The address 0x21F0 is at offset 0x3F0 of the file, in its last sixteen bytes.
        file[directory] = 0xF0;
        file[directory + 1] = 0x21;
        file[directory + 4] = 16;
        let lines = format!(in rt.alloc(); "512 512 section 1\n1008 16 {what}\n")?;
        assert!(rt; is_printed(&rt, false, &file, 1008, &lines)?, "{what}");
        assert!(rt; is_printed(&rt, false, &file, 1023, &lines)?, "{what}");
        assert!(rt; is_printed(&rt, false, &file, 1007, "512 512 section 1\n")?, "{what}");
        file[directory + 4] = 17;
        assert!(rt; is_printed(&rt, false, &file, 1023, "512 512 section 1\n")?, "{what}");
    }
    Ok(())
}
