use crate::made_cells::CellMaker;
use crate::plain_model::{PlainCell, PlainModel};
use crate::plain_pools::pools_of;
use crate::plain_writer::key_number;
use crate::random::Random;
use crate::standard::{
    CUSTOM_ATTRIBUTE, Counts, EVENT, EVENT_MAP, FIELD, FILE, GENERIC_PARAM, Kind, METHOD_DEF,
    MODULE, NESTED_CLASS, PARAM, PROPERTY, PROPERTY_MAP, RUNS, TABLES, TYPE_DEF, Table, columns,
    key_column, listed, tag_bits,
};
use model::Coded;
use std::alloc::{AllocError, Global};

/// What a model is like.
#[derive(Clone, Copy, Debug, PartialEq, Eq)]
pub enum Shape {
    /// A few rows of some tables.
    Sparse,
    /// A few rows of all tables.
    Full,
    /// A table with enough rows to make an index of custom attributes wider, or one less.
    Long,
    /// The same for any index, which takes long to try.
    Longest,
    /// A strings heap or blobs heap about as long as makes an index wider, or a blob about as long as makes its
    /// length take four bytes.
    Wide,
    /// A GUID heap about as long as makes an index wider.
    ManyGuids,
}

/// The coded indexes.
const CODED: [Coded; 13] = [
    Coded::TypeDefOrRef,
    Coded::HasConstant,
    Coded::HasCustomAttribute,
    Coded::HasFieldMarshal,
    Coded::HasDeclSecurity,
    Coded::MemberRefParent,
    Coded::HasSemantics,
    Coded::MethodDefOrRef,
    Coded::MemberForwarded,
    Coded::Implementation,
    Coded::CustomAttributeType,
    Coded::ResolutionScope,
    Coded::TypeOrMethodDef,
];

/// Tables that others need, and that of custom attributes.
const NEEDED: [Table; 10] = [
    TYPE_DEF,
    FIELD,
    METHOD_DEF,
    PARAM,
    CUSTOM_ATTRIBUTE,
    EVENT_MAP,
    EVENT,
    PROPERTY_MAP,
    PROPERTY,
    GENERIC_PARAM,
];

/// A valid model.
pub fn made_model(
    alloc: Global,
    random: &mut Random,
    shape: Shape,
) -> Result<PlainModel, AllocError> {
    let mut model = PlainModel {
        version: made_version(alloc, random)?,
        user: made_user(alloc, random)?,
        tables: Vec::new(alloc),
    };
    let counts = made_counts(random, shape);
    let mut maker = CellMaker {
        alloc,
        random: *random,
        counts,
        is_plain: matches!(shape, Shape::Long | Shape::Longest),
    };
    for table in 0..45 {
        let rows = made_rows(&mut maker, table, shape)?;
        model.tables.push(rows)?;
    }
    *random = maker.random;
    if shape == Shape::Wide {
        widen(alloc, random, &mut model)?;
    }
    Ok(model)
}

/// A version, sometimes as long as it may be.
fn made_version(alloc: Global, random: &mut Random) -> Result<Vec<u8>, AllocError> {
    let mut version = random
        .pick(&[
            "v4.0.30319",
            "",
            "v2.0.50727",
            "v1",
            "v12",
            "v123",
            "\u{e9}\u{1f600}",
        ])
        .as_bytes()
        .to_vec(alloc)?;
    if random.is_one_in(8) {
        version.resize(random.pick(&[251, 252, 253, 254]), b'v')?;
    }
    Ok(version)
}

/// User bytes: a multiple of four.
fn made_user(alloc: Global, random: &mut Random) -> Result<Vec<u8>, AllocError> {
    let mut user = Vec::new(alloc);
    if random.is_one_in(2) {
        user.extend_from_slice(&[0, 3, 65, 0, 0, 0, 0, 0])?;
        for _byte in 0..random.below(3) * 4 {
            user.push(random.byte())?;
        }
    }
    Ok(user)
}

/// How many rows each table has, so that each reference has a row that it can name, and each member an owner.
fn made_counts(random: &mut Random, shape: Shape) -> Counts {
    let mut counts = [0; 45];
    let is_sparse = shape != Shape::Full;
    for table in TABLES {
        counts[table as usize] = match is_sparse {
            true if !random.is_one_in(4) => 0,
            true => random.between(1, 3),
            false => random.between(1, 3),
        };
    }
    match shape {
        Shape::Long | Shape::Longest => lengthen(random, shape, &mut counts),
        Shape::ManyGuids => counts[MODULE as usize] = random.between(4095, 4096),
        Shape::Wide => {
            counts[MODULE as usize] = 1;
            counts[FILE as usize] = 1;
        }
        _ => {}
    }
    for _round in 0..TABLES.len() {
        for table in TABLES {
            if !has_all(&counts, table) {
                counts[table as usize] = 0;
            }
        }
    }
    counts
}

/// Gives a table that an index names enough rows to make the index wider, or one less, and those rows that others
/// need.
fn lengthen(random: &mut Random, shape: Shape, counts: &mut Counts) {
    let coded = match shape {
        Shape::Longest => random.pick(&CODED),
        _ => Coded::HasCustomAttribute,
    };
    let mut table = CUSTOM_ATTRIBUTE;
    for _try in 0..8 {
        if let Some(other) = random.pick(listed(coded)) {
            table = other;
        }
    }
    if shape == Shape::Long && random.is_one_in(3) {
        // Owners with more rows than starts are kept.
        table = random.pick(&[TYPE_DEF, METHOD_DEF]);
    }
    let limit = if shape == Shape::Longest && random.is_one_in(10) {
        0x1_0000
    } else {
        1 << (16 - tag_bits(coded))
    };
    for needed in NEEDED {
        let count = &mut counts[needed as usize];
        *count = (*count).max(1);
    }
    counts[table as usize] = limit - random.below(2);
}

/// Whether the rows of a table can be made: each reference of theirs has a row to name, and they have owners.
fn has_all(counts: &Counts, table: Table) -> bool {
    for kind in columns(table) {
        let is_there = match kind {
            Kind::Row(named) => counts[*named as usize] > 0,
            Kind::Coded(coded) => {
                let mut named = listed(*coded).iter().flatten();
                named.any(|named| counts[*named as usize] > 0)
            }
            _ => true,
        };
        if !is_there {
            return false;
        }
    }
    if table == NESTED_CLASS && counts[TYPE_DEF as usize] < 2 {
        return false;
    }
    RUNS.iter().all(|(owner, _, member)| *member != table || counts[*owner as usize] > 0)
}

/// The rows of a table, mostly in the order of their key.
fn made_rows(
    maker: &mut CellMaker,
    table: Table,
    shape: Shape,
) -> Result<Vec<Vec<PlainCell>>, AllocError> {
    let mut rows = Vec::new(maker.alloc);
    let mut starts = [1, 1];
    for row in 0..maker.counts[table as usize] {
        let cells = if table == NESTED_CLASS {
            nested_row(maker)?
        } else {
            made_row(maker, table, row, &mut starts)?
        };
        rows.push(cells)?;
    }
    if shape == Shape::ManyGuids && table == MODULE {
        number_guids(&mut rows);
    }
    if key_column(table).is_some() && !maker.random.is_one_in(4) {
        rows.sort_by_key(|cells| key_number(cells.as_slice(), table))?;
    }
    Ok(rows)
}

/// Gives each row a GUID of its own.
fn number_guids(rows: &mut Vec<Vec<PlainCell>>) {
    for (row, cells) in rows.iter_mut().enumerate() {
        let mut guid = [9; 16];
        guid[..4].copy_from_slice(&(row as u32).to_le_bytes());
        cells[2] = PlainCell::Guid(Some(guid));
        cells[3] = PlainCell::Guid(None);
        cells[4] = PlainCell::Guid(None);
    }
}

/// A nested type, after the one around it.
fn nested_row(maker: &mut CellMaker) -> Result<Vec<PlainCell>, AllocError> {
    let nested = maker.random.between(2, maker.counts[TYPE_DEF as usize]);
    let around = maker.random.between(1, nested - 1);
    let mut cells = Vec::new(maker.alloc);
    cells.push(PlainCell::Row(Some((TYPE_DEF, nested))))?;
    cells.push(PlainCell::Row(Some((TYPE_DEF, around))))?;
    Ok(cells)
}

/// A row of a table, whose runs begin at these starts or further on.
fn made_row(
    maker: &mut CellMaker,
    table: Table,
    row: u32,
    starts: &mut [u32; 2],
) -> Result<Vec<PlainCell>, AllocError> {
    let mut cells = Vec::new(maker.alloc);
    let mut lists = 0;
    for kind in columns(table) {
        match kind {
            Kind::Padding => {}
            Kind::List(members) => {
                let last = maker.counts[*members as usize] + 1;
                if row > 0 && maker.random.is_one_in(2) {
                    let step = maker.random.pick(&[1, 2, 3, last]);
                    starts[lists] = last.min(starts[lists] + maker.random.below(step + 1));
                }
                cells.push(PlainCell::Start(starts[lists]))?;
                lists = 1;
            }
            _ => cells.push(maker.cell(*kind)?)?,
        }
    }
    Ok(cells)
}

/// Makes a text or a blob so long that its heap has about the size that makes an index wider.
fn widen(alloc: Global, random: &mut Random, model: &mut PlainModel) -> Result<(), AllocError> {
    let is_text = random.is_one_in(2);
    let (table, column) = if is_text { (MODULE, 1) } else { (FILE, 2) };
    let goal = random.between(0xFFF8, 0x1_0004) as usize;
    let short = b"q".to_vec(alloc)?;
    model.tables[table as usize][0][column] = long_cell(is_text, short);
    let mut long = Vec::new(alloc);
    let len = if random.is_one_in(4) {
        random.between(0x3FFE, 0x4001) as usize
    } else {
        missing(alloc, model, is_text, goal)?
    };
    long.resize(len, b'q')?;
    model.tables[table as usize][0][column] = long_cell(is_text, long);
    Ok(())
}

/// How long a text or a blob of one byte has to become, so that its heap has this number of bytes.
fn missing(
    alloc: Global,
    model: &PlainModel,
    is_text: bool,
    goal: usize,
) -> Result<usize, AllocError> {
    let pools = pools_of(alloc, model)?;
    Ok(if is_text {
        goal + 1 - pools.texts.bytes.len()
    } else {
        goal - 2 - pools.blobs.bytes.len()
    })
}

fn long_cell(is_text: bool, bytes: Vec<u8>) -> PlainCell {
    if is_text {
        PlainCell::Text(bytes)
    } else {
        PlainCell::Bytes(bytes)
    }
}
