//! Tests of `cli_faults`: what `clim explain` prints.

use crate::runs::answer;
use std::test::Fail;

#[test]
fn explains_a_fault(rt: HostRuntime) -> Result<(), Fail> {
    let guid = "\
504 BadGuid: no GUID at an index into '#GUID'

- Rule: An index into '#GUID' is 0 for null, or the number of a 16-byte entry within the heap,
  counted from 1.
- Section: II.24.2.5
- Offset: The cell with the index.
- Usual cause: An index that counts bytes instead of entries, a missing stream such as '#GUID' or
  '#Strings', or a bit of Valid that was cleared.
";
    let limit = "\
101 TooLong: the input has more than 2^30 bytes

- Rule: A file, or a root with '--bare', has at most 2^30 bytes. This limit is clim's own.
- Offset: 0, the first byte.
";
    for (code, reported) in [("504", guid), ("101", limit)] {
        let (status, out, err) = answer(&rt, &["clim", "explain", code])?;
        assert_eq!(rt; status, 0);
        assert_eq!(rt; out.as_str(), reported);
        assert!(rt; err.is_empty());
    }
    Ok(())
}

/// Each line of the list is the first line of the explanation of its fault.
#[test]
fn lists_all_faults(rt: HostRuntime) -> Result<(), Fail> {
    let (status, list, err) = answer(&rt, &["clim", "explain"])?;
    assert_eq!(rt; status, 0);
    assert!(rt; err.is_empty());
    assert!(rt;
        list.starts_with("101 TooLong: the input has more than 2^30 bytes\n102 DosHeader: ")
    );
    assert!(rt; list.ends_with("\n901 TooLarge: the canonical root is too long\n"));
    let mut count = 0u32;
    for line in list.lines() {
        count = count.saturating_add(1);
        let code = line.get(..3).ok_or("no number")?;
        let (status, out, _) = answer(&rt, &["clim", "explain", code])?;
        assert_eq!(rt; status, 0, "{code}");
        assert_eq!(rt; out.lines().next(), Some(line));
        assert!(rt; out.contains("\n\n- Rule: "));
        assert!(rt; out.contains("\n- Offset: "));
        for reported in out.lines() {
            assert!(rt; reported.len() <= 100, "{reported}");
        }
    }
    assert_eq!(rt; count, 45);
    Ok(())
}

#[test]
fn refuses_what_is_no_fault(rt: HostRuntime) -> Result<(), Fail> {
    for code in [
        "", "50", "5010", "+50", "0501", "500", "999", "0x1", "bad guid", "BadCell", "BadGuid ", "\u{e9}1",
    ] {
        let (status, out, err) = answer(&rt, &["clim", "explain", code])?;
        assert_eq!(rt; status, 2, "{code}");
        assert!(rt; out.is_empty());
        assert!(rt;
            err.starts_with(
                "error: CODE is the number or the name of a fault, which 'clim explain' lists, not '"
            )
        );
    }
    Ok(())
}

/// A fault is named by its number or its name; several have an empty line between them.
#[test]
fn explains_several_faults(rt: HostRuntime) -> Result<(), Fail> {
    let (_, guid, _) = answer(&rt, &["clim", "explain", "504"])?;
    let (_, limit, _) = answer(&rt, &["clim", "explain", "101"])?;
    for (words, reported) in [
        (["clim", "explain", "BadGuid"].as_slice(), format!(in rt.alloc(); "{guid}")?),
        (&["clim", "explain", "badGUID"], format!(in rt.alloc(); "{guid}")?),
        (
            &["clim", "explain", "BadGuid", "101"],
            format!(in rt.alloc(); "{guid}\n{limit}")?,
        ),
        (
            &["clim", "explain", "101", "TooLong", "504"],
            format!(in rt.alloc(); "{limit}\n{limit}\n{guid}")?,
        ),
    ] {
        let (status, out, err) = answer(&rt, words)?;
        assert_eq!(rt; (status, out, err.as_str()), (0, reported, ""));
    }
    // One argument that names no fault refuses all.
    let (status, out, err) = answer(&rt, &["clim", "explain", "504", "no", "also"])?;
    assert!(rt; status == 2 && out.is_empty());
    assert!(rt; err.ends_with("lists, not 'no'\n"), "{err}");
    Ok(())
}

/// Each name that is listed explains the same as its number.
#[test]
fn explains_by_name(rt: HostRuntime) -> Result<(), Fail> {
    let (_, list, _) = answer(&rt, &["clim", "explain"])?;
    let mut named = 0u32;
    for line in list.lines() {
        let (heading, _) = line.split_once(':').ok_or("no heading")?;
        let Some((number, name)) = heading.split_once(' ') else {
            continue;
        };
        let by_number = answer(&rt, &["clim", "explain", number])?;
        let by_name = answer(&rt, &["clim", "explain", name])?;
        assert!(rt; by_name.0 == 0 && by_name.1 == by_number.1, "{name}");
        named = named.saturating_add(1);
    }
    assert_eq!(rt; named, 43);
    Ok(())
}
