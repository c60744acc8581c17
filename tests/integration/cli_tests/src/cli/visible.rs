use crate::runs::answer;
use sample_roots::RootBuilder;
use std::alloc::Global;
use std::fs;
use std::test::Fail;

/// A name at 1.
const TEXTS: &[u8] = b"\0A\0";

/// `void ()` of a method at 1, an `int32` of a field at 5, `int32 ()` of a property at 8, and the value of an attribute at 12.
const BLOBS: &[u8] = b"\0\x03\0\0\x01\x02\x06\x08\x03\x08\0\x08\x04\x01\0\0\0";

/// Whether a row is visible outside of the assembly.
const VISIBLE: bool = true;

const HIDDEN: bool = false;

/// A row: its table, its columns, and whether it is visible. A column of four bytes has two numbers, the lower first.
type Row = (u8, &'static [u16], bool);

/// Types (II.22.37, II.23.1.15), in rows of NestedClass of any order (II.22.32). Of two rows for a type the first counts.
const TYPES: &[Row] = &[
    // A type that is not public, and one that is.
    (0x02, &[0, 0, 1, 0, 0, 1, 1], HIDDEN),
    (0x02, &[1, 0, 1, 0, 0, 2, 2], VISIBLE),
    // In the public type: family and private.
    (0x02, &[4, 0, 1, 0, 0, 8, 8], VISIBLE),
    (0x02, &[3, 0, 1, 0, 0, 9, 9], HIDDEN),
    // Public in the private one; family or assembly in the family one; public in none.
    (0x02, &[2, 0, 1, 0, 0, 10, 10], HIDDEN),
    (0x02, &[7, 0, 1, 0, 0, 11, 11], VISIBLE),
    (0x02, &[2, 0, 1, 0, 0, 12, 12], HIDDEN),
    // In the public type: family and assembly, assembly, and public.
    (0x02, &[6, 0, 1, 0, 0, 13, 13], HIDDEN),
    (0x02, &[5, 0, 1, 0, 0, 13, 13], HIDDEN),
    (0x02, &[2, 0, 1, 0, 0, 13, 13], VISIBLE),
    (0x29, &[6, 3], HIDDEN),
    (0x29, &[5, 4], HIDDEN),
    (0x29, &[10, 2], HIDDEN),
    (0x29, &[3, 2], HIDDEN),
    (0x29, &[4, 2], HIDDEN),
    (0x29, &[3, 1], HIDDEN),
    (0x29, &[5, 2], HIDDEN),
    (0x29, &[8, 2], HIDDEN),
    (0x29, &[9, 2], HIDDEN),
];

/// Fields and methods (II.23.1.5, II.23.1.10): a public one of each type but the second, which has one of each access.
const MEMBERS: &[Row] = &[
    (0x04, &[6, 1, 5], HIDDEN),
    (0x04, &[1, 1, 5], HIDDEN),
    (0x04, &[2, 1, 5], HIDDEN),
    (0x04, &[3, 1, 5], HIDDEN),
    (0x04, &[4, 1, 5], VISIBLE),
    (0x04, &[5, 1, 5], VISIBLE),
    (0x04, &[6, 1, 5], VISIBLE),
    (0x04, &[6, 1, 5], VISIBLE),
    (0x04, &[6, 1, 5], HIDDEN),
    (0x04, &[6, 1, 5], HIDDEN),
    (0x04, &[6, 1, 5], VISIBLE),
    (0x04, &[6, 1, 5], HIDDEN),
    (0x06, &[0, 0, 0, 6, 1, 1, 1], HIDDEN),
    (0x06, &[0, 0, 0, 1, 1, 1, 1], HIDDEN),
    (0x06, &[0, 0, 0, 2, 1, 1, 1], HIDDEN),
    (0x06, &[0, 0, 0, 3, 1, 1, 1], HIDDEN),
    (0x06, &[0, 0, 0, 4, 1, 1, 2], VISIBLE),
    (0x06, &[0, 0, 0, 5, 1, 1, 2], VISIBLE),
    (0x06, &[0, 0, 0, 0x16, 1, 1, 3], VISIBLE),
    (0x06, &[0, 0, 0, 6, 1, 1, 3], VISIBLE),
    (0x06, &[0, 0, 0, 6, 1, 1, 3], HIDDEN),
    (0x06, &[0, 0, 0, 6, 1, 1, 3], HIDDEN),
    (0x06, &[0, 0, 0, 6, 1, 1, 3], VISIBLE),
    (0x06, &[0, 0, 0, 6, 1, 1, 3], HIDDEN),
    // A parameter of the fourth method, which is hidden, and one of the sixth. They have no lines.
    (0x08, &[0, 0, 1], HIDDEN),
    (0x08, &[0, 0, 1], HIDDEN),
];

/// Events and properties with their accessors (II.22.28): with a visible method, with hidden ones, and with none.
const ACCESSORS: &[Row] = &[
    (0x12, &[2, 1], HIDDEN),
    (0x14, &[0, 1, 0], VISIBLE),
    (0x14, &[0, 1, 0], HIDDEN),
    (0x14, &[0, 1, 0], HIDDEN),
    (0x15, &[2, 1], HIDDEN),
    (0x17, &[0, 1, 8], VISIBLE),
    (0x17, &[0, 1, 8], HIDDEN),
    (0x18, &[0x08, 7, 0x02], VISIBLE),
    (0x18, &[0x02, 9, 0x05], HIDDEN),
    (0x18, &[0x08, 2, 0x04], HIDDEN),
    (0x18, &[0x10, 4, 0x04], HIDDEN),
    (0x18, &[0x02, 2, 0x03], HIDDEN),
    (0x18, &[0x01, 5, 0x03], VISIBLE),
];

/// The assembly, its module and its resources (II.23.1.9), and what it refers to.
const MANIFEST: &[Row] = &[
    (0x00, &[0, 1, 0, 0, 0], VISIBLE),
    (0x0A, &[0x10, 1, 1], HIDDEN),
    (0x1A, &[1], VISIBLE),
    (0x20, &[0, 0, 1, 0, 0, 0, 0, 0, 0, 1, 0], VISIBLE),
    (0x28, &[0, 0, 1, 0, 1, 0], VISIBLE),
    (0x28, &[1, 0, 2, 0, 1, 0], HIDDEN),
];

/// What describes other rows (II.22.11, II.22.20 to II.22.23, II.22.27).
const DESCRIBING: &[Row] = &[
    // Interfaces of the types 2, 4 and 6.
    (0x09, &[2, 0x08], VISIBLE),
    (0x09, &[4, 0x08], HIDDEN),
    (0x09, &[6, 0x08], VISIBLE),
    // Permission sets of types, of a hidden method and of the assembly.
    (0x0E, &[6, 0x08, 12], VISIBLE),
    (0x0E, &[6, 0x10, 12], HIDDEN),
    (0x0E, &[6, 0x09, 12], HIDDEN),
    (0x0E, &[6, 0x06, 12], VISIBLE),
    // Overrides in type 2 with a visible body, a hidden one, and one of another module; the same in type 4, without the first.
    (0x19, &[2, 0x0E, 0x03], VISIBLE),
    (0x19, &[2, 0x04, 0x03], HIDDEN),
    (0x19, &[2, 0x03, 0x03], VISIBLE),
    (0x19, &[4, 0x12, 0x03], HIDDEN),
    (0x19, &[4, 0x03, 0x03], HIDDEN),
    // Imports of a visible and a hidden method.
    (0x1C, &[0, 0x0F, 1, 1], VISIBLE),
    (0x1C, &[0, 0x05, 1, 1], HIDDEN),
    // Generic parameters of types and methods, and their constraints.
    (0x2A, &[0, 0, 0x04, 1], VISIBLE),
    (0x2A, &[0, 0, 0x08, 1], HIDDEN),
    (0x2A, &[0, 0, 0x0F, 1], VISIBLE),
    (0x2A, &[0, 0, 0x05, 1], HIDDEN),
    (0x2C, &[1, 0x08], VISIBLE),
    (0x2C, &[2, 0x08], HIDDEN),
    (0x2C, &[3, 0x08], VISIBLE),
    (0x2C, &[4, 0x08], HIDDEN),
];

/// The parents of custom attributes (II.22.10), and whether they are visible: the tag of each (II.24.2.6), and its row.
const ATTRIBUTED: &[(u16, u16, bool)] = &[
    (0, 7, VISIBLE),
    (0, 2, HIDDEN),
    (1, 5, VISIBLE),
    (1, 3, HIDDEN),
    (3, 2, VISIBLE),
    (3, 5, HIDDEN),
    (4, 1, HIDDEN),
    (4, 2, VISIBLE),
    (5, 1, VISIBLE),
    (5, 2, HIDDEN),
    (6, 1, VISIBLE),
    (7, 1, VISIBLE),
    (8, 1, VISIBLE),
    (8, 2, HIDDEN),
    (8, 4, VISIBLE),
    (9, 1, VISIBLE),
    (9, 2, HIDDEN),
    (10, 1, VISIBLE),
    (10, 2, HIDDEN),
    (10, 3, HIDDEN),
    (12, 1, VISIBLE),
    (14, 1, VISIBLE),
    (18, 1, VISIBLE),
    (18, 2, HIDDEN),
    (19, 1, VISIBLE),
    (19, 2, HIDDEN),
    (19, 3, VISIBLE),
    (19, 4, HIDDEN),
    (20, 3, VISIBLE),
    (20, 4, HIDDEN),
];

/// A root that is made, the tokens of its visible rows, and the number of its rows so far, by table.
#[derive(Drop)]
struct Made {
    root: RootBuilder,
    tokens: Vec<u32>,
    counts: Vec<u32>,
}

/// Adds a row.
fn add(
    alloc: Global,
    made: &mut Made,
    (table, columns, visible): (u8, &[u16], bool),
) -> Result<(), Fail> {
    let mut bytes = Vec::new(alloc);
    for column in columns {
        bytes.extend_from_slice(&column.to_le_bytes())?;
    }
    made.root.row(table, bytes.as_slice())?;
    made.counts[table as usize] += 1;
    if visible {
        made.tokens.push(table as u32 * 0x100_0000 + made.counts[table as usize])?;
    }
    Ok(())
}

/// Adds the rows of a table.
fn add_table(alloc: Global, made: &mut Made, table: u8) -> Result<(), Fail> {
    for rows in [TYPES, MEMBERS, ACCESSORS, MANIFEST, DESCRIBING] {
        for row in rows {
            if row.0 == table {
                add(alloc, made, *row)?;
            }
        }
    }
    Ok(())
}

/// Adds the attributes.
fn add_attributes(alloc: Global, made: &mut Made) -> Result<(), Fail> {
    for (tag, row, visible) in ATTRIBUTED {
        let columns = [row * 32 + tag, 0x0B, 12];
        add(alloc, made, (0x0C, &columns, *visible))?;
    }
    Ok(())
}

/// The root with all of these rows, and the tokens of the visible ones.
fn made(alloc: Global) -> Result<(Vec<u8>, Vec<u32>), Fail> {
    let mut made = Made {
        root: RootBuilder::new(alloc),
        tokens: Vec::new(alloc),
        counts: vec![in alloc; 0; 64]?,
    };
    made.root.sorted = 0;
    for table in 0..0x0C {
        add_table(alloc, &mut made, table)?;
    }
    add_attributes(alloc, &mut made)?;
    for table in 0x0D..0x2D {
        add_table(alloc, &mut made, table)?;
    }
    made.root.heap("#Strings", TEXTS)?;
    made.root.heap("#Blob", BLOBS)?;
    let Made { root, tokens, .. } = made;
    Ok((root.finish()?, tokens))
}

/// The token of a line of text or JSON.
fn token(line: &str) -> Result<u32, Fail> {
    let digits = match line.rsplit_once("  // ") {
        Some((_, digits)) => digits,
        None => line.split_once("\"token\":\"").ok_or("no token")?.1.split_at(8).0,
    };
    Ok(u32::from_str_radix(digits, 16).ok().ok_or("no token")?)
}

/// The lines of the visible rows.
fn visible_lines(alloc: Global, whole: &str, tokens: &[u32]) -> Result<String, Fail> {
    let mut lines = String::new(alloc);
    for line in whole.lines() {
        if tokens.contains(&token(line)?) {
            lines.push_str(line)?;
            lines.push('\n')?;
        }
    }
    Ok(lines)
}

/// What `clim outline` prints with these arguments.
fn outline(rt: &HostRuntime, more: &[&str]) -> Result<String, Fail> {
    let mut words = vec![in rt.alloc(); "clim", "outline", "--bare"]?;
    words.extend_from_slice(more)?;
    let (status, out, err) = answer(rt, words.as_slice())?;
    if status != 0 || !err.is_empty() {
        return Err("no outline".into());
    }
    Ok(out)
}

#[test]
fn prints_what_is_visible_outside(rt: HostRuntime) -> Result<(), Fail> {
    let (root, tokens) = made(rt.alloc())?;
    fs::write(&rt, "v.root", root.as_slice())?;
    for words in [
        ["v.root"].as_slice(),
        &["v.root", "--json"],
        &["v.root", "./v.root"],
        &["v.root", "02000002"],
        &["v.root", "02000003"],
        &["v.root", "02000004"],
        &["v.root", "02000005", "--json"],
    ] {
        let whole = outline(&rt, words)?;
        let want = visible_lines(rt.alloc(), whole.as_str(), tokens.as_slice())?;
        let mut public = words.to_vec(rt.alloc())?;
        public.push("--public")?;
        assert_eq!(rt; outline(&rt, public.as_slice())?.as_str(), want.as_str());
    }
    fs::remove_file(&rt, "v.root")?;
    Ok(())
}

/// Each visible row has a line, but for those that no outline prints.
#[test]
fn prints_each_visible_row(rt: HostRuntime) -> Result<(), Fail> {
    let (root, tokens) = made(rt.alloc())?;
    fs::write(&rt, "w.root", root.as_slice())?;
    let lines = outline(&rt, &["--public", "w.root"])?;
    assert_eq!(rt; lines.as_str().lines().count(), tokens.len());
    assert_eq!(rt; outline(&rt, &["--public", "w.root", "02000004"])?.as_str(), "");
    let bare = outline(&rt, &["--no-tokens", "--public", "w.root"])?;
    for (line, whole) in bare.as_str().lines().zip(lines.as_str().lines()) {
        assert_eq!(rt; whole.rsplit_once("  // ").ok_or("no token")?.0, line);
    }
    fs::remove_file(&rt, "w.root")?;
    Ok(())
}
