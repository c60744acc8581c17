use crate::runs::{Case, answer, other_answer};
use crate::samples::TWO_STRINGS;
use sample_roots::{ONE_MODULE, TWO_TYPES, image, write_at};
use std::fs;
use std::test::Fail;

const MODULE: &str = "\
{\"table\":\"Module\",\"row\":1,\"token\":\"00000001\",\"Generation\":0,\"Name\":\"a.dll\",\
\"Mvid\":\"03020100-0504-0706-0809-0a0b0c0d0e0f\",\"EncId\":null,\"EncBaseId\":null}\n";

const ROOT: &str = "\
{\"version\":\"v4.0.30319\"}
{\"stream\":{\"offset\":80,\"size\":40,\"name\":\"#~\"}}
{\"stream\":{\"offset\":120,\"size\":8,\"name\":\"#Strings\"}}
{\"stream\":{\"offset\":128,\"size\":16,\"name\":\"#GUID\"}}
";

const OK: &str = "{\"ok\":true}\n";

/// What `sha256sum` prints for the bytes of `ONE_MODULE`, which is its own canonical root.
const DIGEST: &str = "{\"digest\":\"40bf7100a055088dec71a67475f684ac5c72c04f6e4d9fb17cd8f99e053ead9e\",\"file\":\"json.root\"}\n";

#[test]
fn prints_json_of_a_root(rt: HostRuntime) -> Result<(), Fail> {
    fs::write(&rt, "json.root", &ONE_MODULE)?;
    for (words, want) in [
        (["clim", "root", "--json", "--bare", "json.root"].as_slice(), ROOT),
        (&["clim", "show", "--json", "--bare", "json.root"], MODULE),
        (&["clim", "show", "--json", "--bare", "json.root", "Module"], MODULE),
        (&["clim", "show", "--json", "--bare", "json.root", "TypeDef"], ""),
        (&["clim", "show", "--json", "--bare", "json.root", "typeDEF"], ""),
        (&["clim", "token", "--json", "--bare", "json.root", "1"], MODULE),
        (&["clim", "types", "--json", "--bare", "json.root"], ""),
        (&["clim", "check", "--json", "--bare", "json.root"], OK),
        (&["clim", "check", "--json", "--where", "--bare", "json.root"], OK),
        (&["clim", "check", "--json", "--bare", "--budget", "0", "json.root"], OK),
        (&["clim", "check", "--json", "--bare", "-q", "json.root"], ""),
        (&["clim", "show", "--json", "--until-fault", "--bare", "json.root"], MODULE),
        (&["clim", "strings", "--json", "--bare", "json.root"], ""),
        (&["clim", "digest", "--json", "--bare", "json.root"], DIGEST),
    ] {
        let (status, out, err) = answer(&rt, words)?;
        assert_eq!(rt; (status, out.as_str(), err.as_str()), (0, want, ""));
    }
    let words = ["clim", "token", "--json", "--bare", "json.root", "70000000", "1"];
    let (status, out, err) = answer(&rt, &words)?;
    assert_eq!(rt; (status, err.as_str()), (0, ""));
    let user = "{\"token\":\"70000000\",\"text\":\"\",\"flag\":null}\n";
    assert_eq!(rt; out.as_str(), format!(in rt.alloc(); "{user}{MODULE}")?.as_str());
    let words = ["clim", "token", "--json", "--bare", "json.root", "02000001"];
    let (status, out, err) = answer(&rt, &words)?;
    assert_eq!(rt; (status, out.as_str(), err.as_str()), (1, "", "no such row\n  hint: TypeDef has 0 rows\n"));
    fs::remove_file(&rt, "json.root")?;
    Ok(())
}

#[test]
fn prints_json_of_types(rt: HostRuntime) -> Result<(), Fail> {
    let types = "\
{\"token\":\"02000001\",\"namespace\":\"\",\"name\":\"<Module>\",\"fields\":0,\"methods\":0}
{\"token\":\"02000002\",\"namespace\":\"N\",\"name\":\"C\",\"fields\":2,\"methods\":1}
";
    let case = Case::new(TWO_TYPES.len(), 0, b"", 0, types);
    assert_eq!(rt; other_answer(&rt, &["clim", "types", "--bare", "--json"], &TWO_TYPES, &case)?, None);
    Ok(())
}

/// A broken rule is an object on the output, and nothing goes to standard error, not even a hint.
#[test]
fn checks_with_json(rt: HostRuntime) -> Result<(), Fail> {
    let dos = "{\"layer\":1,\"code\":102,\"offset\":0,\"name\":\"DosHeader\"}\n";
    let version = "{\"layer\":3,\"code\":302,\"offset\":12,\"name\":\"Version\"}\n";
    fs::write(&rt, "json.file", &ONE_MODULE)?;
    let (status, out, err) = answer(&rt, &["clim", "check", "--json", "json.file"])?;
    assert_eq!(rt; (status, out.as_str(), err.as_str()), (1, dos, ""));
    fs::write(&rt, "json.file", &ONE_MODULE[..20])?;
    let (status, out, err) = answer(&rt, &["clim", "check", "--json", "--bare", "json.file"])?;
    assert_eq!(rt; (status, out.as_str(), err.as_str()), (1, version, ""));
    fs::write(&rt, "json.file", image().as_slice())?;
    let (status, out, err) = answer(&rt, &["clim", "check", "json.file", "--json"])?;
    assert_eq!(rt; (status, out.as_str(), err.as_str()), (0, OK, ""));
    fs::remove_file(&rt, "json.file")?;
    let (status, out, err) = answer(&rt, &["clim", "check", "json.file", "--json"])?;
    assert!(rt; status == 3 && out.is_empty() && err.starts_with("error: cannot read json.file"));
    Ok(())
}

/// The other subcommands report a broken rule with `--json` as they do without it.
#[test]
fn reports_faults_as_text(rt: HostRuntime) -> Result<(), Fail> {
    fs::write(&rt, "fault.root", &ONE_MODULE[..20])?;
    let reported = "fault 3 302 at 12: Version\n";
    for words in [
        ["clim", "root", "--json", "--bare", "fault.root"].as_slice(),
        &["clim", "show", "--json", "--bare", "fault.root"],
        &["clim", "types", "--json", "--bare", "fault.root"],
        &["clim", "outline", "--json", "--bare", "fault.root"],
        &["clim", "outline", "--json", "--bare", "fault.root", "N.C"],
        &["clim", "where", "--json", "--bare", "fault.root", "12"],
        &["clim", "strings", "--json", "--bare", "fault.root"],
        &["clim", "digest", "--json", "--bare", "fault.root"],
        &["clim", "token", "--json", "--bare", "fault.root", "1"],
        &["clim", "show", "--until-fault", "--json", "--bare", "fault.root"],
    ] {
        let (status, out, err) = answer(&rt, words)?;
        assert_eq!(rt; (status, out.as_str(), err.as_str()), (1, "", reported));
    }
    fs::write(&rt, "whole.root", &ONE_MODULE)?;
    for (left, right) in [("fault.root", "whole.root"), ("whole.root", "fault.root")] {
        let (status, out, err) = answer(&rt, &["clim", "compare", "--json", "--bare", left, right])?;
        let wanted = format!(in rt.alloc(); "{reported}  file: fault.root\n")?;
        assert_eq!(rt; (status, out.as_str(), err.as_str()), (1, "", wanted.as_str()));
    }
    fs::remove_file(&rt, "whole.root")?;
    fs::remove_file(&rt, "fault.root")?;
    Ok(())
}

/// What differs has its values as JSON; ignored columns are left out as without it.
#[test]
fn compares_with_json(rt: HostRuntime) -> Result<(), Fail> {
    let mut other: Vec<u8> = ONE_MODULE.to_vec(rt.alloc())?;
    // The first byte of '#GUID'.
    write_at(&mut other, 128, &[0xFF]);
    fs::write(&rt, "left.root", &ONE_MODULE)?;
    fs::write(&rt, "right.root", other.as_slice())?;
    let mvid = "\
{\"difference\":\"Cell\",\"token\":\"00000001\",\"column\":\"Mvid\",\
\"left\":\"03020100-0504-0706-0809-0a0b0c0d0e0f\",\"right\":\"030201ff-0504-0706-0809-0a0b0c0d0e0f\"}\n";
    let equal = "{\"equal\":true}\n";
    for (words, wanted, printed) in [
        (["clim", "compare", "--json", "--bare", "left.root", "right.root"].as_slice(), 1, mvid),
        (&["clim", "compare", "--bare", "left.root", "left.root", "--json"], 0, equal),
        (&["clim", "compare", "--json", "--ignore", "Module.Mvid", "--bare", "left.root", "right.root"], 0, equal),
        (&["clim", "compare", "--json", "--ignore", "Module.Name", "--bare", "left.root", "right.root"], 1, mvid),
    ] {
        let (status, out, err) = answer(&rt, words)?;
        assert_eq!(rt; (status, out.as_str(), err.as_str()), (wanted, printed, ""));
    }
    let two: Vec<u8> = TWO_TYPES.to_vec(rt.alloc())?;
    fs::write(&rt, "right.root", two.as_slice())?;
    let (status, out, _) = answer(&rt, &["clim", "compare", "--json", "--bare", "left.root", "right.root"])?;
    assert_eq!(rt; status, 1);
    assert!(rt; out.starts_with("{\"difference\":\"RowCount\",\"table\":\"Module\",\"left\":1,\"right\":0}\n"));
    fs::remove_file(&rt, "left.root")?;
    fs::remove_file(&rt, "right.root")?;
    Ok(())
}

/// The type of an outline, and what it says if there is none; the structures that have a byte, and none.
#[test]
fn prints_json_of_one_type_and_of_one_byte(rt: HostRuntime) -> Result<(), Fail> {
    fs::write(&rt, "parts.root", TWO_TYPES.as_slice())?;
    let class = r#"{"token":"02000002","directive":".class","text":".class public auto ansi beforefieldinit N.C"}
{"token":"04000001","type":"02000002","directive":".field","text":".field private int32 N.C::a"}
{"token":"04000002","type":"02000002","directive":".field","text":".field private int32 N.C::b"}
{"token":"06000001","type":"02000002","directive":".method","text":".method public void N.C::M() cil managed"}
"#;
    let cell = r##"{"offset":0,"size":200,"structure":"root"}
{"offset":80,"size":92,"structure":"stream #~"}
{"offset":148,"size":2,"structure":"cell","table":"Field","row":1,"column":"Signature"}
{"offset":148,"value":1,"Signature":{"blob":"0608","text":"int32"}}
"##;
    let blob = r##"{"offset":0,"size":200,"structure":"root"}
{"offset":192,"size":8,"structure":"stream #Blob"}
{"offset":193,"size":3,"structure":"blob","stream":"#Blob","table":"Field","row":1,"column":"Signature"}
{"offset":193,"size":3,"structure":"blob","stream":"#Blob","table":"Field","row":2,"column":"Signature"}
"##;
    const NEAR: &str = "no such type\n  hint: the nearest name is 'N.C'\n";
    const LENGTH: &str = "  hint: FILE has 200 bytes\n";
    for (words, wanted, printed, reported) in [
        (["clim", "outline", "--json", "--bare", "parts.root", "N.C"].as_slice(), 0, class, ""),
        (&["clim", "outline", "--bare", "--json", "parts.root", "02000002"], 0, class, ""),
        (&["clim", "outline", "--json", "--bare", "parts.root", "N.D"], 1, "", NEAR),
        (&["clim", "where", "--json", "--bare", "parts.root", "149"], 0, cell, ""),
        (&["clim", "where", "--bare", "parts.root", "0xc1", "--json"], 0, blob, ""),
        (&["clim", "where", "--json", "--bare", "parts.root", "200"], 1, "", LENGTH),
        (&["clim", "where", "--json", "--bare", "parts.root", "18446744073709551615"], 1, "", LENGTH),
    ] {
        let (status, out, err) = answer(&rt, words)?;
        assert_eq!(rt; (status, out.as_str(), err.as_str()), (wanted, printed, reported));
    }
    fs::remove_file(&rt, "parts.root")?;
    Ok(())
}

/// Each file has its object, in the order given, with its name. A file without one is reported to standard error as text.
#[test]
fn checks_and_digests_several_files_with_json(rt: HostRuntime) -> Result<(), Fail> {
    fs::write(&rt, "one.root", &ONE_MODULE)?;
    fs::write(&rt, "two.root", &TWO_TYPES)?;
    fs::write(&rt, "cut.root", &ONE_MODULE[..20])?;
    let checked = r#"{"file":"one.root","ok":true}
{"file":"cut.root","layer":3,"code":302,"offset":12,"name":"Version"}
{"file":"two.root","ok":true}
"#;
    let limited = r#"{"file":"one.root","ok":true}
{"file":"cut.root","layer":3,"code":302,"offset":12,"name":"Version"}
"#;
    const SPENT: &str = "error: budget spent\n  file: two.root\n";
    const LACKS: &str = "error: cannot read lacks\n  reason: no such file\n";
    for (words, wanted, printed, reported) in [
        (["clim", "check", "--json", "--bare", "one.root", "cut.root", "two.root"].as_slice(), 1, checked, ""),
        (&["clim", "check", "--bare", "one.root", "cut.root", "lacks", "two.root", "--json"], 3, checked, LACKS),
        (&["clim", "check", "--bare", "--json", "--budget", "4", "one.root", "cut.root", "two.root"], 3, limited, SPENT),
        (&["clim", "check", "--bare", "--json", "-q", "one.root", "cut.root", "lacks"], 3, "", LACKS),
        (&["clim", "check", "--bare", "--json", "-q", "one.root", "cut.root"], 1, "", ""),
    ] {
        let (status, out, err) = answer(&rt, words)?;
        assert_eq!(rt; (status, out.as_str(), err.as_str()), (wanted, printed, reported));
    }
    let one = "{\"digest\":\"40bf7100a055088dec71a67475f684ac5c72c04f6e4d9fb17cd8f99e053ead9e\",\"file\":\"one.root\"}\n";
    let both = format!(in rt.alloc(); "{one}{one}")?;
    let reported = "fault 3 302 at 12: Version\n  file: cut.root\n";
    let (status, out, err) = answer(&rt, &["clim", "digest", "--json", "--bare", "one.root", "cut.root", "one.root"])?;
    assert_eq!(rt; (status, out.as_str(), err.as_str()), (1, both.as_str(), reported));
    for file in ["one.root", "two.root", "cut.root"] {
        fs::remove_file(&rt, file)?;
    }
    Ok(())
}

/// Names of files, texts of user strings and explanations: what JSON requires is escaped, and no line is empty.
#[test]
fn prints_strings_and_explanations_with_json(rt: HostRuntime) -> Result<(), Fail> {
    fs::write(&rt, "strings.root", &TWO_STRINGS)?;
    let strings = "{\"token\":\"70000001\",\"text\":\"Hello\"}\n{\"token\":\"7000000d\",\"text\":\"a\\\\b\"}\n";
    let (status, out, err) = answer(&rt, &["clim", "strings", "--bare", "strings.root", "--json"])?;
    assert_eq!(rt; (status, out.as_str(), err.as_str()), (0, strings, ""));
    fs::remove_file(&rt, "strings.root")?;
    let (_, list, _) = answer(&rt, &["clim", "explain"])?;
    let (status, objects, err) = answer(&rt, &["clim", "explain", "--json"])?;
    assert_eq!(rt; (status, err.as_str()), (0, ""));
    assert_eq!(rt; objects.lines().count(), list.lines().count());
    for (line, object) in list.lines().zip(objects.lines()) {
        let (heading, summary) = line.split_once(": ").ok_or("no summary")?;
        let (number, name) = heading.split_once(' ').unwrap_or((heading, ""));
        let start = format!(in rt.alloc(); "{{\"code\":{number},\"name\":\"{name}\",\"summary\":\"{summary}\",\"rule\":\"")?;
        assert!(rt; object.starts_with(start.as_str()), "{object}");
        // The object of a rule alone is the one of the list.
        let (status, alone, _) = answer(&rt, &["clim", "explain", "--json", number])?;
        assert_eq!(rt; (status, alone.lines().next()), (0, Some(object)));
        assert_eq!(rt; alone.lines().count(), 1);
    }
    let (_, guid, _) = answer(&rt, &["clim", "explain", "--json", "504"])?;
    let (_, limit, _) = answer(&rt, &["clim", "explain", "--json", "TooLong"])?;
    let (status, out, _) = answer(&rt, &["clim", "explain", "504", "--json", "101"])?;
    assert_eq!(rt; (status, out), (0, format!(in rt.alloc(); "{guid}{limit}")?));
    let (status, out, err) = answer(&rt, &["clim", "explain", "--json", "504", "no"])?;
    assert!(rt; status == 2 && out.is_empty() && err.ends_with("lists, not 'no'\n"), "{err}");
    Ok(())
}
