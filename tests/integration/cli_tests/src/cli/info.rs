use crate::runs::answer;
use sample_roots::{ONE_MODULE, RootBuilder, image, wider_image, write_at};
use std::alloc::{AllocError, Global};
use std::fs;
use std::test::Fail;

const BARE: &str = "\
module a.dll {03020100-0504-0706-0809-0a0b0c0d0e0f}
version v4.0.30319
types 0 methods 0 fields 0 resources 0
";

const BARE_JSON: &str = "\
{\"module\":\"a.dll\",\"mvid\":\"03020100-0504-0706-0809-0a0b0c0d0e0f\"}
{\"version\":\"v4.0.30319\"}
{\"types\":0,\"methods\":0,\"fields\":0,\"resources\":0}
";

const NATIVE: &str = "\
module a.dll {03020100-0504-0706-0809-0a0b0c0d0e0f}
version v4.0.30319
format PE32 machine 00008664 amd64 debug 28
flags 0003001b ILONLY 32BITREQUIRED STRONGNAMESIGNED NATIVE_ENTRYPOINT TRACKDEBUGDATA 32BITPREFERRED
entry 00002008
signature 128 native 7
types 0 methods 0 fields 0 resources 0
";

const WIDER_JSON: &str = "\
{\"module\":\"a.dll\",\"mvid\":\"03020100-0504-0706-0809-0a0b0c0d0e0f\"}
{\"version\":\"v4.0.30319\"}
{\"format\":\"PE32+\",\"machine\":\"00000200\",\"debug\":28}
{\"flags\":\"00000001\"}
{\"entry\":\"00000000\"}
{\"signature\":0,\"native\":0}
{\"types\":0,\"methods\":0,\"fields\":0,\"resources\":0}
";

/// The token of the key 01 02 03 is the end of its SHA-1, by `sha1sum`, in reverse order.
const IDENTITIES: &str = "\
assembly A, Version=1.2.3.4, Culture=neutral, PublicKeyToken=cfdf4fa87937761d
version v4.0.30319
types 0 methods 0 fields 0 resources 0
reference B, Version=65535.0.0.5, Culture=de, PublicKeyToken=010203
reference B, Version=0.0.0.0, Culture=neutral, PublicKeyToken=cfdf4fa87937761d
reference B, Version=0.0.0.0, Culture=neutral, PublicKeyToken=null
reference B, Version=0.0.0.0, Culture=neutral, PublicKeyToken=?
";

const IDENTITIES_JSON: &str = "\
{\"assembly\":\"A\",\"major\":1,\"minor\":2,\"build\":3,\"revision\":4,\"culture\":\"neutral\",\"token\":\"cfdf4fa87937761d\"}
{\"version\":\"v4.0.30319\"}
";

/// A root with an assembly that refers to others: with a token, with a key, without both, and with a token of 2,081 bytes.
fn root_of_identities(alloc: Global) -> Result<Vec<u8>, AllocError> {
    let mut root = RootBuilder::new(alloc);
    root.row(0x20, b"\x04\x80\0\0\x01\0\x02\0\x03\0\x04\0\0\0\0\0\x01\0\x01\0\0\0")?;
    root.row(0x23, b"\xFF\xFF\0\0\0\0\x05\0\0\0\0\0\x01\0\x03\0\x05\0\0\0")?;
    root.row(0x23, b"\0\0\0\0\0\0\0\0\x01\0\0\0\x01\0\x03\0\0\0\0\0")?;
    root.row(0x23, b"\0\0\0\0\0\0\0\0\x01\0\0\0\0\0\x03\0\0\0\0\0")?;
    root.row(0x23, b"\0\0\0\0\0\0\0\0\0\0\0\0\x05\0\x03\0\0\0\0\0")?;
    root.heap("#Strings", b"\0A\0B\0de\0")?;
    let mut blobs = Vec::from_slice(alloc, b"\0\x03\x01\x02\x03\x88\x21".as_slice())?;
    blobs.extend_from_slice([7; 2081].as_slice())?;
    root.heap("#Blob", blobs.as_slice())?;
    root.finish()
}

#[test]
fn prints_identities(rt: HostRuntime) -> Result<(), Fail> {
    let root = root_of_identities(rt.alloc())?;
    fs::write(&rt, "ids.root", root.as_slice())?;
    let (status, out, err) = answer(&rt, &["clim", "info", "--bare", "ids.root"])?;
    assert_eq!(rt; (status, out.as_str(), err.as_str()), (0, IDENTITIES, ""));
    let (status, out, err) = answer(&rt, &["clim", "info", "--bare", "--json", "ids.root"])?;
    assert!(rt; out.starts_with(IDENTITIES_JSON));
    assert_eq!(rt; (status, err.as_str()), (0, ""));
    fs::remove_file(&rt, "ids.root")?;
    Ok(())
}

/// No name and no culture can look like the rest of an identity.
#[test]
fn escapes_names_in_identities(rt: HostRuntime) -> Result<(), Fail> {
    // Names, and how .NET writes them. A byte that is not printable is escaped as in each text.
    for (name, shown) in [
        (b"B, Version=1.0.0.0, Culture=neutral, PublicKeyToken=b77a5c561934e089".as_slice(), "B\\, Version\\=1.0.0.0\\, Culture\\=neutral\\, PublicKeyToken\\=b77a5c561934e089"),
        (b"a\\,b", "a\\\\\\,b"),
        (b"a\"b", "\"a\\\"b\""),
        (b"it's", "\"it\\'s\""),
        (b" a", "\" a\""),
        (b"a ", "\"a \""),
        (b"a b", "a b"),
        (b"\xC3\xA9\n", "\\xc3\\xa9\\x0a"),
    ] {
        let mut root = RootBuilder::new(rt.alloc());
        root.row(0x23, b"\0\0\0\0\0\0\0\0\0\0\0\0\0\0\x01\0\x01\0\0\0")?;
        let mut strings = Vec::from_slice(rt.alloc(), b"\0".as_slice())?;
        strings.extend_from_slice(name)?;
        strings.push(0)?;
        root.heap("#Strings", strings.as_slice())?;
        fs::write(&rt, "names.root", root.finish()?.as_slice())?;
        let (status, out, err) = answer(&rt, &["clim", "info", "--bare", "names.root"])?;
        let line = format!(in rt.alloc(); "\nreference {shown}, Version=0.0.0.0, Culture={shown}, PublicKeyToken=null\n")?;
        assert!(rt; out.ends_with(line.as_str()), "{out}");
        assert_eq!(rt; (status, err.as_str()), (0, ""));
    }
    let (_, out, _) = answer(&rt, &["clim", "info", "--bare", "--json", "names.root"])?;
    assert!(rt; out.contains("\"reference\":\"\u{e9}\\n\",\"major\":0"), "{out}");
    fs::remove_file(&rt, "names.root")?;
    Ok(())
}

const ATTRIBUTES: &str = "\
attribute N.A \"hi\" N=\"x\"
attribute B null \"a\"
";

const ATTRIBUTES_JSON: &str = "\
{\"directive\":\"attribute\",\"namespace\":\"N\",\"name\":\"A\",\"text\":\"hi\"}
{\"directive\":\"attribute\",\"namespace\":\"\",\"name\":\"B\",\"text\":null}
";

/// A root with attributes of a type, of the assembly by a method and by a MemberRef, and `last` ones of the assembly with a
/// number.
fn root_of_own_attributes(alloc: Global, last: usize) -> Result<Vec<u8>, AllocError> {
    let mut root = RootBuilder::new(alloc);
    root.row(0x01, b"\0\0\x05\0\0\0")?;
    root.row(0x02, b"\0\0\0\0\x03\0\x01\0\0\0\x01\0\x01\0")?;
    root.row(0x06, b"\0\0\0\0\0\0\0\0\x07\0\x01\0\x01\0")?;
    root.row(0x0A, b"\x09\0\x07\0\x06\0")?;
    root.row(0x0A, b"\x09\0\x07\0\x0C\0")?;
    root.row(0x0C, b"\x23\0\x0A\0\x11\0")?;
    root.row(0x0C, b"\x2E\0\x0A\0\x11\0")?;
    root.row(0x0C, b"\x2E\0\x0B\0\x1F\0")?;
    for _ in 0..last {
        root.row(0x0C, b"\x2E\0\x13\0\x1F\0")?;
    }
    root.row(0x20, b"\x04\x80\0\0\0\0\0\0\0\0\0\0\0\0\0\0\0\0\x03\0\0\0")?;
    root.heap("#Strings", b"\0N\0A\0B\0.ctor\0")?;
    root.heap(
        "#Blob",
        b"\0\x04\x20\x01\x01\x0E\x05\x20\x02\x01\x0E\x0E\x04\x20\x01\x01\x08\x0D\x01\0\x02hi\x01\0\x54\x0E\x01N\x01x\x07\x01\0\xFF\x01a\0\0",
    )?;
    root.finish()
}

#[test]
fn prints_attributes_of_strings(rt: HostRuntime) -> Result<(), Fail> {
    let root = root_of_own_attributes(rt.alloc(), 254)?;
    fs::write(&rt, "attributes.root", root.as_slice())?;
    let root = root_of_own_attributes(rt.alloc(), 255)?;
    fs::write(&rt, "more.root", root.as_slice())?;
    for (words, want) in [
        (["clim", "info", "--bare", "attributes.root"].as_slice(), ATTRIBUTES),
        (&["clim", "info", "--bare", "--json", "attributes.root"], ATTRIBUTES_JSON),
        (&["clim", "info", "--bare", "more.root"], "\nattribute B null \"a\"\nmore attributes 1\n"),
        (&["clim", "info", "--bare", "--json", "more.root"], "}\n{\"directive\":\"attributes\",\"left\":1}\n"),
    ] {
        let (status, out, err) = answer(&rt, words)?;
        assert!(rt; out.ends_with(want));
        assert_eq!(rt; (status, err.as_str()), (0, ""));
    }
    for file in ["attributes.root", "more.root"] {
        fs::remove_file(&rt, file)?;
    }
    Ok(())
}

const NOT_A_FILE: &str = "\
fault 1 102 at 0: DosHeader
  hint: FILE begins like a metadata root; try it with '--bare'
";

/// The file with a native entry point, and with each flag that has a name.
fn native_image() -> [u8; 1024] {
    let mut file = image();
    for (offset, part) in [
        (0x084, b"\x64\x86".as_slice()),
        (0x12C, b"\x1C\0\0\0"),
        (0x218, b"\x1B\0\x03\0\x08\x20\0\0"),
        (0x22C, b"\x80\0\0\0"),
        (0x24C, b"\x07\0\0\0"),
    ] {
        write_at(&mut file, offset, part);
    }
    file
}

#[test]
fn prints_what_an_assembly_is(rt: HostRuntime) -> Result<(), Fail> {
    let mut wider = wider_image();
    write_at(&mut wider, 0x084, b"\0\x02");
    write_at(&mut wider, 0x13C, b"\x1C\0\0\0");
    fs::write(&rt, "info.root", &ONE_MODULE)?;
    fs::write(&rt, "native.dll", native_image().as_slice())?;
    fs::write(&rt, "wider.dll", wider.as_slice())?;
    for (words, want) in [
        (["clim", "info", "--bare", "info.root"].as_slice(), (0, BARE, "")),
        (&["clim", "info", "--json", "--bare", "info.root"], (0, BARE_JSON, "")),
        (&["clim", "info", "native.dll"], (0, NATIVE, "")),
        (&["clim", "info", "--json", "wider.dll"], (0, WIDER_JSON, "")),
        (&["clim", "info", "info.root"], (1, "", NOT_A_FILE)),
    ] {
        let (status, out, err) = answer(&rt, words)?;
        assert_eq!(rt; (status, out.as_str(), err.as_str()), want);
    }
    for file in ["info.root", "native.dll", "wider.dll"] {
        fs::remove_file(&rt, file)?;
    }
    Ok(())
}
