use crate::runs::answer;
use sample_roots::{RootBuilder, TWO_TYPES, image, write_at};
use std::fs;
use std::test::Fail;

/// Two fields share a blob of two bytes, which is walked once; that of the method has three.
#[test]
fn checks_within_a_budget(rt: HostRuntime) -> Result<(), Fail> {
    fs::write(&rt, "budget.root", TWO_TYPES.as_slice())?;
    for (budget, want) in [
        ("0", (3, "", "error: budget spent\n")),
        ("4", (3, "", "error: budget spent\n")),
        ("5", (0, "ok\n", "")),
        ("18446744073709551615", (0, "ok\n", "")),
    ] {
        let words = ["clim", "check", "--bare", "--budget", budget, "budget.root"];
        let (status, out, err) = answer(&rt, &words)?;
        assert_eq!(rt;
            (status, out.as_str(), err.as_str()),
            want,
            "within {budget}"
        );
    }
    fs::remove_file(&rt, "budget.root")?;
    Ok(())
}

/// A name in `#Strings` that is not UTF-8 counts a byte, since a 1024th of that heap has one byte.
#[test]
fn checks_texts_within_a_budget(rt: HostRuntime) -> Result<(), Fail> {
    let mut root = RootBuilder::new(rt.alloc());
    root.row(0x1A, b"\x03\0")?;
    root.row(0x1A, b"\x03\0")?;
    root.heap("#Strings", b"\0\xFF\0abc\0")?;
    fs::write(&rt, "texts.root", root.finish()?.as_slice())?;
    for (budget, want) in [
        ("1", (3, "", "error: budget spent\n")),
        ("2", (0, "ok\n", "")),
    ] {
        let words = ["clim", "check", "--bare", "--budget", budget, "texts.root"];
        let (status, out, err) = answer(&rt, &words)?;
        assert_eq!(rt; (status, out.as_str(), err.as_str()), want, "within {budget}");
    }
    fs::remove_file(&rt, "texts.root")?;
    Ok(())
}

/// Each report is refused if the check before it takes more bytes. Nothing is printed or written.
#[test]
fn reports_within_a_budget(rt: HostRuntime) -> Result<(), Fail> {
    let reports: &[&[&str]] = &[
        &["show"],
        &["show", "--until-fault"],
        &["types"],
        &["outline"],
        &["strings"],
        &["digest"],
        &["token", "02000001"],
        &["where", "0"],
        &["compare", "budget.root"],
        &["rewrite", "budget.out"],
    ];
    fs::write(&rt, "budget.root", TWO_TYPES.as_slice())?;
    for report in reports {
        for (budget, spent) in [("4", true), ("5", false)] {
            let mut words = vec![in rt.alloc(); "clim", report[0], "--bare", "--budget", budget, "budget.root"]?;
            words.extend_from_slice(&report[1..])?;
            let (status, out, err) = answer(&rt, &words)?;
            if spent {
                let want = (3, "", "error: budget spent\n");
                assert_eq!(rt; (status, out.as_str(), err.as_str()), want, "{}", report[0]);
            } else {
                assert_eq!(rt; (status, err.as_str()), (0, ""), "{}", report[0]);
            }
        }
    }
    fs::remove_file(&rt, "budget.out")?;
    fs::remove_file(&rt, "budget.root")?;
    Ok(())
}

/// A file without signatures needs no budget, and its first fault is reported whatever that is.
#[test]
fn checks_a_file_within_no_budget(rt: HostRuntime) -> Result<(), Fail> {
    let mut file = image();
    for (offset, byte, want) in [
        (0, b'M', (0, "ok\n", "")),
        (0, b'N', (1, "", "fault 1 102 at 0: DosHeader\n")),
    ] {
        write_at(&mut file, offset, &[byte]);
        fs::write(&rt, "budget.dll", file.as_slice())?;
        let words = ["clim", "check", "--budget=0", "budget.dll"];
        let (status, out, err) = answer(&rt, &words)?;
        assert_eq!(rt; (status, out.as_str(), err.as_str()), want);
    }
    fs::remove_file(&rt, "budget.dll")?;
    Ok(())
}
