//! Tests of `clim show` for one table.

use crate::runs::answer;
use sample_roots::TWO_TYPES;
use std::fs;
use std::test::Fail;

/// The lines of `clim show` from the heading of a table up to the next one.
fn lines_of<'a>(whole: &'a str, heading: &str) -> &'a str {
    let Some((_, later)) = whole.split_once(heading) else {
        return "";
    };
    match later.split_once("table ") {
        Some((lines, _)) => lines,
        None => later,
    }
}

/// A table alone has the lines that it has among all, by its name and by its number.
#[test]
fn prints_one_table(rt: HostRuntime) -> Result<(), Fail> {
    fs::write(&rt, "show.root", TWO_TYPES.as_slice())?;
    let (_, whole, _) = answer(&rt, &["clim", "show", "--bare", "show.root"])?;
    for (name, number, count) in [("TypeDef", "02", 2), ("Field", "04", 2), ("MethodDef", "06", 1)] {
        let heading = format!(in rt.alloc(); "table {number} {name} {count}\n")?;
        let wanted = format!(in rt.alloc(); "{heading}{}", lines_of(&whole, &heading))?;
        for word in [name, number] {
            let (status, out, err) = answer(&rt, &["clim", "show", "--bare", "show.root", word])?;
            assert_eq!(rt; (status, out.as_str(), err.as_str()), (0, wanted.as_str(), ""));
        }
    }
    for word in ["Module", "00", "2c", "2C", "GenericParamConstraint", "0A", "0a"] {
        let (status, out, err) = answer(&rt, &["clim", "show", "show.root", "--bare", word])?;
        assert_eq!(rt; (status, out.as_str(), err.as_str()), (0, "", ""));
    }
    fs::remove_file(&rt, "show.root")?;
    Ok(())
}

/// With names, a line says by itself which row and which columns it has.
#[test]
fn names_columns(rt: HostRuntime) -> Result<(), Fail> {
    fs::write(&rt, "named.root", TWO_TYPES.as_slice())?;
    let fields = "\
table 04 Field 2
04000001 Flags=1 Name=\"a\" Signature=<0608>
04000002 Flags=1 Name=\"b\" Signature=<0608>
";
    for words in [
        ["clim", "show", "--names", "--bare", "named.root", "Field"].as_slice(),
        &["clim", "show", "--bare", "named.root", "04", "--names"],
    ] {
        let (status, out, err) = answer(&rt, words)?;
        assert_eq!(rt; (status, out.as_str(), err.as_str()), (0, fields, ""));
    }
    let (status, out, err) = answer(&rt, &["clim", "show", "--names", "--bare", "named.root"])?;
    assert!(rt; status == 0 && err.is_empty() && out.contains(fields));
    assert!(rt; out.contains("\n06000001 RVA=0 ImplFlags=0 Flags=6 Name=\"M\" Signature=<000001> ParamList=+1\n"));
    let (_, plain, _) = answer(&rt, &["clim", "show", "--json", "--bare", "named.root"])?;
    let (_, named, _) = answer(&rt, &["clim", "show", "--json", "--names", "--bare", "named.root"])?;
    assert_eq!(rt; named.as_str(), plain.as_str());
    fs::remove_file(&rt, "named.root")?;
    Ok(())
}
