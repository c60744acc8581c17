//! Tests of reports on several files, whose lines begin with the name of the file.

use crate::cli::writers::Narrow;
use crate::runs::answer;
use crate::samples::TWO_STRINGS;
use cli::go;
use sample_roots::{ONE_MODULE, TWO_TYPES};
use std::fs;
use std::test::Fail;

const FILES: [(&str, &[u8]); 4] = [
    ("one.root", &ONE_MODULE),
    ("types.root", &TWO_TYPES),
    ("strings.root", &TWO_STRINGS),
    ("other.dll", b"no assembly"),
];

/// What is reported of a file that is not there, and of one of other bytes.
const LACKS: &str = "error: cannot read lacks\n  reason: no such file\n";

const OTHER: &str = "fault 3 301 at 0: RootSignature\n  file: other.dll\n";

const BOTH: &str = "error: cannot read lacks\n  reason: no such file\nfault 3 301 at 0: RootSignature\n  file: other.dll\n";

/// Arguments, and the status, the output and the errors.
const CASES: [(&[&str], u8, &str, &str); 22] = [
    (
        &["root", "lacks", "one.root", "other.dll"],
        3,
        "one.root: version v4.0.30319\none.root: stream 80 40 #~\none.root: stream 120 8 #Strings\none.root: stream 128 16 #GUID\n",
        BOTH,
    ),
    (
        &["root", "--json", "other.dll", "one.root"],
        1,
        "{\"file\":\"one.root\",\"version\":\"v4.0.30319\"}
{\"file\":\"one.root\",\"stream\":{\"offset\":80,\"size\":40,\"name\":\"#~\"}}
{\"file\":\"one.root\",\"stream\":{\"offset\":120,\"size\":8,\"name\":\"#Strings\"}}
{\"file\":\"one.root\",\"stream\":{\"offset\":128,\"size\":16,\"name\":\"#GUID\"}}
",
        OTHER,
    ),
    (
        &["types", "types.root", "other.dll", "one.root", "types.root"],
        1,
        "types.root: 02000001 <Module> 0 0\ntypes.root: 02000002 N.C 2 1\ntypes.root: 02000001 <Module> 0 0\ntypes.root: 02000002 N.C 2 1\n",
        OTHER,
    ),
    (
        &["types", "--json", "one.root", "types.root"],
        0,
        "{\"file\":\"types.root\",\"token\":\"02000001\",\"namespace\":\"\",\"name\":\"<Module>\",\"fields\":0,\"methods\":0}
{\"file\":\"types.root\",\"token\":\"02000002\",\"namespace\":\"N\",\"name\":\"C\",\"fields\":2,\"methods\":1}
",
        "",
    ),
    (
        &["strings", "strings.root", "lacks", "types.root"],
        3,
        "strings.root: 70000001 Hello\nstrings.root: 7000000d a\\u005cb\n",
        LACKS,
    ),
    (
        &["strings", "--json", "other.dll", "strings.root"],
        1,
        "{\"file\":\"strings.root\",\"token\":\"70000001\",\"text\":\"Hello\"}\n{\"file\":\"strings.root\",\"token\":\"7000000d\",\"text\":\"a\\\\b\"}\n",
        OTHER,
    ),
    (
        &["show", "one.root", "types.root", "Field"],
        0,
        "types.root: table 04 Field 2\ntypes.root: 1: 1 \"a\" <0608>\ntypes.root: 2: 1 \"b\" <0608>\n",
        "",
    ),
    (
        &["show", "--names", "one.root", "lacks", "other.dll"],
        3,
        "one.root: table 00 Module 1
one.root: 00000001 Generation=0 Name=\"a.dll\" Mvid={03020100-0504-0706-0809-0a0b0c0d0e0f} EncId=null EncBaseId=null
",
        BOTH,
    ),
    // The heading of a table is no line of JSON.
    (
        &["show", "--json", "types.root", "other.dll", "06"],
        1,
        "{\"file\":\"types.root\",\"table\":\"MethodDef\",\"row\":1,\"token\":\"06000001\",\"RVA\":0,\"ImplFlags\":0,\"Flags\":6,\"Name\":\"M\",\
\"Signature\":{\"blob\":\"000001\",\"text\":\"method void *()\"},\"ParamList\":1}
",
        OTHER,
    ),
    (
        &["show", "--until-fault", "other.dll", "one.root"],
        1,
        "one.root: table 00 Module 1\none.root: 1: 0 \"a.dll\" {03020100-0504-0706-0809-0a0b0c0d0e0f} null null\n",
        OTHER,
    ),
    (
        &["info", "one.root", "other.dll"],
        1,
        "one.root: module a.dll {03020100-0504-0706-0809-0a0b0c0d0e0f}\none.root: version v4.0.30319\none.root: types 0 methods 0 fields 0 resources 0\n",
        OTHER,
    ),
    (
        &["info", "--json", "lacks", "one.root"],
        3,
        "{\"file\":\"one.root\",\"module\":\"a.dll\",\"mvid\":\"03020100-0504-0706-0809-0a0b0c0d0e0f\"}
{\"file\":\"one.root\",\"version\":\"v4.0.30319\"}
{\"file\":\"one.root\",\"types\":0,\"methods\":0,\"fields\":0,\"resources\":0}
",
        LACKS,
    ),
    // The last argument is a file if it has the form of a path.
    (
        &["outline", "types.root", "./one.root"],
        0,
        "types.root: .class private auto ansi '<Module>'  // 02000001
types.root: .class public auto ansi beforefieldinit N.C  // 02000002
types.root:   .field private int32 N.C::a  // 04000001
types.root:   .field private int32 N.C::b  // 04000002
types.root:   .method public void N.C::M() cil managed  // 06000001
./one.root: .module a.dll /* {03020100-0504-0706-0809-0a0b0c0d0e0f} */  // 00000001
",
        "",
    ),
    (
        &["outline", "one.root", "lacks", "types.root", "02000001"],
        3,
        "types.root: .class private auto ansi '<Module>'  // 02000001\n",
        "no such type\n  file: one.root\nerror: cannot read lacks\n  reason: no such file\n",
    ),
    (
        &["outline", "--json", "types.root", "other.dll", "<Module>"],
        1,
        "{\"file\":\"types.root\",\"token\":\"02000001\",\"directive\":\".class\",\"text\":\".class private auto ansi '<Module>'\"}\n",
        OTHER,
    ),
    (
        &["where", "one.root", "other.dll", "types.root", "128"],
        1,
        "one.root: 0 144 root
one.root: 128 16 stream #GUID
one.root: 128 16 guid of table 00 Module row 1 column 2 Mvid
types.root: 0 200 root
types.root: 80 92 stream #~
types.root: 128 2 table 02 TypeDef row 1 column 5 MethodList
types.root: 0x80: value 1 (0x1) +1
",
        OTHER,
    ),
    (
        &["where", "--json", "one.root", "one.root", "0"],
        0,
        "{\"file\":\"one.root\",\"offset\":0,\"size\":144,\"structure\":\"root\"}
{\"file\":\"one.root\",\"offset\":0,\"size\":4,\"structure\":\"root header Signature\"}
{\"file\":\"one.root\",\"offset\":0,\"value\":1112167234}
{\"file\":\"one.root\",\"offset\":0,\"size\":144,\"structure\":\"root\"}
{\"file\":\"one.root\",\"offset\":0,\"size\":4,\"structure\":\"root header Signature\"}
{\"file\":\"one.root\",\"offset\":0,\"value\":1112167234}
",
        "",
    ),
    // If nothing contains the byte, no hint follows.
    (&["where", "one.root", "one.root", "0x90"], 1, "one.root: nothing\none.root: nothing\n", ""),
    // A file alone is not named.
    (&["where", "one.root", "0x90"], 1, "nothing\n", "  hint: FILE has 144 bytes\n"),
    (&["outline", "types.root", "02000001"], 0, ".class private auto ansi '<Module>'  // 02000001\n", ""),
    (&["types", "types.root"], 0, "02000001 <Module> 0 0\n02000002 N.C 2 1\n", ""),
    (&["show", "types.root", "Field"], 0, "table 04 Field 2\n1: 1 \"a\" <0608>\n2: 1 \"b\" <0608>\n", ""),
];

/// Writes the files of these tests.
fn write_files(rt: &HostRuntime) -> Result<(), Fail> {
    for (name, bytes) in FILES {
        fs::write(rt, name, bytes)?;
    }
    Ok(())
}

/// Removes them.
fn remove_files(rt: &HostRuntime) -> Result<(), Fail> {
    for (name, _) in FILES {
        fs::remove_file(rt, name)?;
    }
    Ok(())
}

#[test]
fn names_each_line(rt: HostRuntime) -> Result<(), Fail> {
    write_files(&rt)?;
    for (words, status, printed, reported) in CASES {
        let mut asked: Vec<&str> = ["clim"].to_vec(rt.alloc())?;
        asked.extend_from_slice(&words[..1])?;
        asked.push("--bare")?;
        asked.extend_from_slice(&words[1..])?;
        let (ended, out, err) = answer(&rt, &asked)?;
        assert_eq!(rt; (ended, out.as_str(), err.as_str()), (status, printed, reported));
    }
    remove_files(&rt)
}

/// A name with control characters begins no line. In JSON it is a string.
#[test]
fn escapes_the_name_of_a_line(rt: HostRuntime) -> Result<(), Fail> {
    let name = "a\n\u{1b}\"\\: ok.root";
    fs::write(&rt, name, TWO_STRINGS.as_slice())?;
    let (status, out, err) = answer(&rt, &["clim", "strings", "--bare", name, name])?;
    let line = "a\\x0a\\x1b\\x22\\x5c: ok.root: 70000001 Hello\na\\x0a\\x1b\\x22\\x5c: ok.root: 7000000d a\\u005cb\n";
    assert_eq!(rt; (status, err.as_str()), (0, ""));
    assert_eq!(rt; out, format!(in rt.alloc(); "{line}{line}")?);
    let (status, out, _) = answer(&rt, &["clim", "strings", "--bare", "--json", name, name])?;
    fs::remove_file(&rt, name)?;
    assert_eq!(rt; status, 0);
    assert!(rt; out.starts_with("{\"file\":\"a\\n\\u001b\\\"\\\\: ok.root\",\"token\":\"70000001\",\"text\":\"Hello\"}\n"));
    Ok(())
}

/// The output fails at each byte: what went out is a prefix, no further file is read, and the status is 3.
#[test]
fn stops_if_the_output_fails(rt: HostRuntime) -> Result<(), Fail> {
    write_files(&rt)?;
    for form in ["--bare", "--json"] {
        let words = ["clim", "types", "--bare", "types.root", "lacks", "types.root"];
        let mut words: Vec<&str> = words.to_vec(rt.alloc())?;
        if form == "--json" {
            words.push(form)?;
        }
        let mut whole = Vec::new(rt.alloc());
        let mut err = Vec::new(rt.alloc());
        assert_eq!(rt; go(&rt, words.as_slice(), &mut whole, &mut err), 3);
        for room in 0..whole.len() {
            let mut out = Narrow {
                taken: Vec::new(rt.alloc()),
                room,
            };
            let mut err = Vec::new(rt.alloc());
            assert_eq!(rt; go(&rt, words.as_slice(), &mut out, &mut err), 3, "{room}");
            assert_eq!(rt; out.taken.as_slice(), &whole.as_slice()[..room]);
            assert!(rt; err.as_slice().ends_with(b"error: cannot write output\n  reason: no space left\n"));
        }
    }
    remove_files(&rt)
}
