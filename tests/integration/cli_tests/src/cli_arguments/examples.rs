use crate::runs::answer;
use crate::samples::TWO_STRINGS;
use sample_roots::{ONE_MODULE, TWO_TYPES, image};
use std::fs;
use std::test::Fail;

/// Runs an example of help, which begins after its prompt. The arguments come first. What they print follows in lines
/// of its own, two columns in. The error is what they print if that is something else.
fn run_example(rt: &HostRuntime, example: &str) -> Result<(), Fail> {
    let (command, below) = example.split_once('\n').ok_or("no line below")?;
    let words: Vec<&str> = command.split_whitespace().collect(rt.alloc())?;
    let mut wanted = String::new(rt.alloc());
    for line in below.lines() {
        wanted.push_str(line.strip_prefix("  ").unwrap_or(line))?;
        wanted.push('\n')?;
    }
    let (status, out, err) = answer(rt, &words)?;
    if status == 0 && err.is_empty() && out.trim_ascii_end() == wanted.trim_ascii_end() {
        return Ok(());
    }
    let other = format!(in rt.alloc(); "{command}: {status}: {out}{err}")?;
    Err::<(), String>(other)?;
    Ok(())
}

/// Runs the examples in the help of a subcommand. Returns how many there are.
fn run_examples(rt: &HostRuntime, name: &str) -> Result<usize, Fail> {
    let (_, help, _) = answer(rt, &["clim", name, "--help"])?;
    let (_, examples) = help.split_once("\nExamples:\n").ok_or("no examples")?;
    let mut count = 0usize;
    for example in examples.split("  $ ").skip(1) {
        run_example(rt, example)?;
        count = count.saturating_add(1);
    }
    Ok(count)
}

#[test]
fn print_what_help_reports(rt: HostRuntime) -> Result<(), Fail> {
    fs::write(&rt, "one_module.dll", image().as_slice())?;
    fs::write(&rt, "one_module.root", ONE_MODULE.as_slice())?;
    fs::write(&rt, "two_types.root", TWO_TYPES.as_slice())?;
    fs::write(&rt, "two_strings.root", TWO_STRINGS.as_slice())?;
    for (name, count) in [
        ("root", 3),
        ("check", 4),
        ("show", 3),
        ("types", 3),
        ("outline", 4),
        ("strings", 1),
        ("token", 3),
        ("where", 2),
        ("rewrite", 2),
        ("embed", 2),
        ("digest", 1),
        ("compare", 3),
        ("explain", 1),
    ] {
        assert_eq!(rt; run_examples(&rt, name)?, count, "{name}");
    }
    for file in [
        "one_module.dll",
        "one_module.root",
        "two_types.root",
        "two_strings.root",
        "out.root",
        "out.dll",
    ] {
        fs::remove_file(&rt, file)?;
    }
    Ok(())
}
