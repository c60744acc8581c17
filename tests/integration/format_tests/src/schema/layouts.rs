use packed::Fault;
use schema::{Coded, Column, ColumnKind, Layout, TableId, Token, join, key, split};
use std::process::Abort;
use std::test::Fail;

/// A table stream with one row of Module.
const STREAM: [u8; 40] = [
    0x00, 0x00, 0x00, 0x00, 0x02, 0x00, 0x00, 0x01, 0x01, 0x00, 0x00, 0x00, 0x00, 0x00, 0x00, 0x00,
    0x00, 0xFA, 0x01, 0x33, 0x00, 0x16, 0x00, 0x00, 0x01, 0x00, 0x00, 0x00, 0x00, 0x00, 0x01, 0x00,
    0x01, 0x00, 0x00, 0x00, 0x00, 0x00, 0x00, 0x00,
];

/// All coded indexes.
pub const CODED: [Coded; 13] = [
    Coded::TypeDefOrRef,
    Coded::HasConstant,
    Coded::HasCustomAttribute,
    Coded::HasFieldMarshal,
    Coded::HasDeclSecurity,
    Coded::MemberRefParent,
    Coded::HasSemantics,
    Coded::MethodDefOrRef,
    Coded::MemberForwarded,
    Coded::Implementation,
    Coded::CustomAttributeType,
    Coded::ResolutionScope,
    Coded::TypeOrMethodDef,
];

/// A fault of this layer.
fn fault(code: u16, offset: u64) -> Option<Fault> {
    Some(Fault {
        layer: 4,
        code,
        offset,
    })
}

/// The fault of a table stream (II.24.2.6).
fn refusal(bytes: &[u8]) -> Option<Fault> {
    Layout::read(bytes).err()
}

/// The layout of a few tables with these counts.
fn layout_of(counts: &[(u8, u32)]) -> Layout {
    let mut by_number = [0; 45];
    for (number, count) in counts {
        if *number < 45 {
            by_number[*number as usize] = (*count).min(0xFF_FFFF);
        }
    }
    Layout::of(&by_number, 0)
}

#[test]
fn numbers_each_table(rt: HostRuntime) {
    for (index, table) in TableId::all().iter().enumerate() {
        assert_eq!(rt; table.table_index(), index);
        assert_eq!(rt; TableId::from_number(table.number()), Some(*table));
    }
    for number in [0x03, 0x05, 0x07, 0x13, 0x16, 0x1E, 0x1F, 0x2D, 0x70, 0xFF] {
        assert_eq!(rt; TableId::from_number(number), None);
    }
    let listed = (0..=255u8).filter(|number| TableId::from_number(*number).is_some());
    assert_eq!(rt; listed.count(), 38);
}

#[test]
fn keys_are_those_of_the_sorted_tables(rt: HostRuntime) {
    let mut bits = 0u64;
    for table in TableId::all() {
        if key(*table).is_some() {
            bits |= 1 << table.number();
        }
    }
    assert_eq!(rt; bits, 0x1600_3301_FA00);
}

#[test]
fn reads_a_stream(rt: HostRuntime) {
    let layout = Layout::read(&STREAM).ok().expect(&rt, "a table stream");
    assert_eq!(rt; layout.count(TableId::Module), 1);
    assert_eq!(rt; layout.sorted(), 0x1600_3301_FA00);
    assert_eq!(rt; layout.row_width(TableId::Module), 10);
    assert_eq!(rt; layout.row_start(TableId::Module, 1), 28);
    assert_eq!(rt; layout.row_start(TableId::Module, 2), 38);
    assert_eq!(rt; layout.cell_start(TableId::Module, 1, 2), 32);
    assert_eq!(rt; layout.cell_width(TableId::Module, 2), 2);
    assert_eq!(rt; layout.row_start(TableId::GenericParamConstraint, 1), 38);
}

#[test]
fn refuses_each_prefix(rt: HostRuntime) {
    for len in 0..=40usize {
        let (prefix, _) = STREAM.split_at(len);
        let expected = match len {
            0..=23 => fault(401, 0),
            24..=27 => fault(405, 24),
            28..=37 => fault(407, 28),
            _ => None,
        };
        assert_eq!(rt; refusal(prefix), expected);
    }
}

#[test]
fn refuses_a_changed_byte(rt: HostRuntime) {
    for (changed, byte, code, offset) in [
        (4, 1, 402, 4),
        (5, 1, 402, 4),
        (6, 8, 403, 6),
        (8, 0x09, 404, 8),
        (14, 0x01, 404, 8),
        (24, 2, 407, 28),
        (27, 1, 406, 24),
    ] {
        let mut stream = STREAM;
        stream[changed] = byte;
        assert_eq!(rt; refusal(&stream), fault(code, offset));
    }
    let mut stream = STREAM;
    stream[0] = 0xFF;
    stream[7] = 0xFF;
    stream[16] = 0xFF;
    assert_eq!(rt; refusal(&stream), None);
}

#[test]
fn counts_follow_one_another(rt: HostRuntime) {
    let mut stream = STREAM;
    stream[8] = 0x03;
    assert_eq!(rt; refusal(&stream), fault(407, 32));
    stream[24] = 0x00;
    assert_eq!(rt; refusal(&stream), fault(407, 32));
    stream[30] = 0x00;
    let layout = Layout::read(&stream).ok().expect(&rt, "a table stream");
    assert_eq!(rt; layout.row_start(TableId::Module, 1), 32);
    stream[31] = 0x01;
    assert_eq!(rt; refusal(&stream), fault(406, 28));
    let (prefix, _) = stream.split_at(31);
    assert_eq!(rt; refusal(prefix), fault(405, 24));
    stream[27] = 0x01;
    assert_eq!(rt; refusal(&stream), fault(406, 24));
}

#[test]
fn rows_widen_with_the_tables_that_they_name(rt: HostRuntime) {
    let layout = layout_of(&[(0x02, 1), (0x1B, 16383)]);
    assert_eq!(rt; layout.row_width(TableId::TypeDef), 14);
    let layout = layout_of(&[(0x02, 1), (0x1B, 16384)]);
    assert_eq!(rt; layout.row_width(TableId::TypeDef), 16);
    let layout = layout_of(&[(0x0C, 1), (0x2A, 2047)]);
    assert_eq!(rt; layout.row_width(TableId::CustomAttribute), 6);
    let layout = layout_of(&[(0x0C, 1), (0x2A, 2048)]);
    assert_eq!(rt; layout.row_width(TableId::CustomAttribute), 8);
    assert_eq!(rt; layout.sorted(), 0);
    assert_eq!(rt; layout.row_start(TableId::CustomAttribute, 1), 32);
}

#[test]
fn each_coded_index_widens_with_each_of_its_tables(rt: HostRuntime) {
    for coded in CODED {
        let column = Column {
            kind: ColumnKind::Coded(coded),
            nullable: false,
        };
        let limit = 1u32 << (16 - coded.tag_bits());
        for table in coded.tables().iter().flatten() {
            let narrow = layout_of(&[(table.number(), limit - 1)]);
            assert_eq!(rt; narrow.width(column), 2, "for {table}");
            let wide = layout_of(&[(table.number(), limit)]);
            assert_eq!(rt; wide.width(column), 4, "for {table}");
        }
    }
}

#[test]
fn a_simple_index_widens_at_65536_rows(rt: HostRuntime) {
    for kind in [
        ColumnKind::Row(TableId::Field),
        ColumnKind::List(TableId::Field),
    ] {
        let column = Column {
            kind,
            nullable: false,
        };
        assert_eq!(rt; layout_of(&[(0x04, 65535)]).width(column), 2);
        assert_eq!(rt; layout_of(&[(0x04, 65536)]).width(column), 4);
    }
}

#[test]
fn a_heap_index_widens_with_its_bit(rt: HostRuntime) {
    for heap_sizes in 0..8u8 {
        let layout = Layout::of(&[0; 45], heap_sizes);
        for (kind, bit) in [
            (ColumnKind::Text, 1),
            (ColumnKind::Guid, 2),
            (ColumnKind::Blob, 4),
        ] {
            let column = Column {
                kind,
                nullable: false,
            };
            let expected = if heap_sizes & bit == 0 { 2 } else { 4 };
            assert_eq!(rt; layout.width(column), expected);
        }
    }
}

#[test]
fn splits_and_joins_coded_numbers(rt: HostRuntime) {
    assert_eq!(rt;
        split(Coded::HasCustomAttribute, 46),
        Some((TableId::Assembly, 1))
    );
    assert_eq!(rt; split(Coded::HasCustomAttribute, 54), None);
    assert_eq!(rt;
        split(Coded::CustomAttributeType, 10),
        Some((TableId::MethodDef, 1))
    );
    assert_eq!(rt; split(Coded::CustomAttributeType, 8), None);
    assert_eq!(rt;
        join(Coded::HasCustomAttribute, TableId::Assembly, 1),
        Some(46)
    );
    assert_eq!(rt;
        join(Coded::HasCustomAttribute, TableId::Module, 1 << 27),
        None
    );
    assert_eq!(rt;
        join(Coded::HasCustomAttribute, TableId::Module, (1 << 27) - 1),
        Some(0xFFFF_FFE7)
    );
    assert_eq!(rt; join(Coded::HasCustomAttribute, TableId::Constant, 1), None);
    for coded in CODED {
        let bits = coded.tag_bits();
        for tag in 0..1u32 << bits {
            let listed = coded.tables().get(tag as usize).copied().flatten();
            let number = 5 << bits | tag;
            assert_eq!(rt; split(coded, number), listed.map(|table| (table, 5)));
            if let Some(table) = listed {
                assert_eq!(rt; join(coded, table, 5), Some(number));
            }
        }
    }
}

#[test]
fn reads_and_encodes_tokens(rt: HostRuntime) {
    let token = Token {
        table: TableId::MethodDef,
        row: 1,
    };
    assert_eq!(rt; Token::from_u32(0x0600_0001), Some(token));
    assert_eq!(rt; token.to_u32(), 0x0600_0001);
    let last = Token {
        table: TableId::GenericParamConstraint,
        row: 0xFF_FFFF,
    };
    assert_eq!(rt; Token::from_u32(0x2CFF_FFFF), Some(last));
    assert_eq!(rt; last.to_u32(), 0x2CFF_FFFF);
    assert_eq!(rt; Token::from_u32(0x0300_0001), None);
    assert_eq!(rt; Token::from_u32(0x7000_0001), None);
}

#[test]
fn shows_tables_and_tokens(rt: HostRuntime) -> Result<(), Fail> {
    for (table, row, expected) in [
        (TableId::Module, 0, "00000000"),
        (TableId::MethodDef, 0x10, "06000010"),
        (TableId::GenericParamConstraint, 0xFF_FFFF, "2cffffff"),
        (TableId::AssemblyRef, 0xABCD_EF01, "23abcdef01"),
    ] {
        let token = Token { table, row };
        let text = format!(in rt.alloc(); "{token}")?;
        assert_eq!(rt; text.as_str(), expected);
    }
    let table = TableId::FieldRVA;
    let text = format!(in rt.alloc(); "{table} {table:>9}.")?;
    assert_eq!(rt; text.as_str(), "FieldRVA  FieldRVA.");
    Ok(())
}

#[test]
fn tokens_are_in_order_of_table_and_row(rt: HostRuntime) {
    let token = |table, row| Token { table, row };
    let tokens = [
        token(TableId::Module, 2),
        token(TableId::TypeDef, 0),
        token(TableId::TypeDef, 1),
        token(TableId::Field, 0),
        token(TableId::GenericParamConstraint, 1),
    ];
    for pair in tokens.windows(2) {
        assert!(rt; pair[0] < pair[1] && pair[0].table <= pair[1].table);
    }
    for (position, table) in TableId::all().iter().enumerate() {
        assert!(rt; TableId::all().iter().filter(|lower| *lower < table).count() == position);
    }
}
