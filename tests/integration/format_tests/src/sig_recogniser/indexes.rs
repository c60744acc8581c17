use crate::sig_recogniser::two_passes::first_bad_of_encoded;
use crate::signatures::values::type_ref;
use schema::TableId;
use sig_recogniser::{SigKind, Token, recognise_first_bad};
use signatures::decode;
use std::alloc::Global;
use std::process::Abort;

/// All calls that return the first type index without a row return the same one, for what bytes encode
/// and tables of `count` rows each.
fn is_first_bad(
    rt: &impl Abort,
    alloc: Global,
    kind: SigKind,
    bytes: &[u8],
    count: u32,
    first: Option<Token>,
) {
    let counts = [count; 45];
    assert_eq!(rt;
        recognise_first_bad(bytes, kind, &counts),
        Some(first),
        "{bytes:?} {count}"
    );
    assert_eq!(rt;
        first_bad_of_encoded(bytes, kind, &counts),
        Some(first),
        "{bytes:?} {count}"
    );
    let signature = decode(alloc, bytes, kind).expect(rt, "spelled");
    assert_eq!(rt; signature.first_bad(&counts), first, "{bytes:?} {count}");
}

/// 1F 09 12 05: a modifier, row 2 of TypeRef, before a class, row 1 of it.
#[test]
fn the_first_index_without_a_row_is_reported(rt: HostRuntime) {
    let modified = [0x1F, 0x09, 0x12, 0x05];
    is_first_bad(
        &rt,
        rt.alloc(),
        SigKind::TypeSpec,
        &modified,
        0,
        Some(type_ref(2)),
    );
    is_first_bad(
        &rt,
        rt.alloc(),
        SigKind::TypeSpec,
        &modified,
        1,
        Some(type_ref(2)),
    );
    is_first_bad(&rt, rt.alloc(), SigKind::TypeSpec, &modified, 2, None);
    // Row 0 is never there.
    is_first_bad(
        &rt,
        rt.alloc(),
        SigKind::TypeSpec,
        &[0x12, 0x01],
        9,
        Some(type_ref(0)),
    );
    // The last row is there.
    is_first_bad(&rt, rt.alloc(), SigKind::TypeSpec, &[0x11, 0x0D], 3, None);
}

/// The type of a property comes before its parameters.
#[test]
fn a_property_has_its_type_first(rt: HostRuntime) {
    let property = [0x08, 0x02, 0x12, 0x0D, 0x12, 0x09, 0x11, 0x15];
    for (count, row) in [(1, 3), (3, 5)] {
        let first = Some(type_ref(row));
        is_first_bad(&rt, rt.alloc(), SigKind::Property, &property, count, first);
    }
}

/// A generic type comes before its arguments, and these one after another.
#[test]
fn a_generic_type_comes_before_its_arguments(rt: HostRuntime) {
    let instance = [0x15, 0x12, 0x08, 0x02, 0x11, 0x0D, 0x1F, 0x14, 0x08];
    for (count, table, row) in [
        (1, TableId::TypeDef, 2),
        (2, TableId::TypeRef, 3),
        (4, TableId::TypeDef, 5),
    ] {
        let first = Some(Token { table, row });
        is_first_bad(&rt, rt.alloc(), SigKind::TypeSpec, &instance, count, first);
    }
}

/// The result of a method comes before its parameters, and SENTINEL between them is no index.
#[test]
fn a_result_comes_before_the_parameters(rt: HostRuntime) {
    let method = [0x05, 0x02, 0x20, 0x0D, 0x01, 0x12, 0x09, 0x41, 0x12, 0x11];
    for (count, row) in [(2, 3), (3, 4), (1, 3)] {
        let first = Some(type_ref(row));
        is_first_bad(&rt, rt.alloc(), SigKind::MemberRef, &method, count, first);
    }
}

/// The modifiers of a local variable, of a reference and of a pointer are met one after another.
#[test]
fn modifiers_are_met_in_order(rt: HostRuntime) {
    let locals = [
        0x07, 0x02, 0x1F, 0x0D, 0x45, 0x10, 0x20, 0x11, 0x08, 0x0F, 0x1F, 0x15, 0x01,
    ];
    for (count, first) in [
        (2, Some(type_ref(3))),
        (3, Some(type_ref(4))),
        (4, Some(type_ref(5))),
        (5, None),
    ] {
        is_first_bad(&rt, rt.alloc(), SigKind::StandAlone, &locals, count, first);
    }
}

/// What encodes nothing has no index.
#[test]
fn no_index_is_reported_of_what_is_not_encoded(rt: HostRuntime) {
    let cut = [0x1F, 0x09, 0x12];
    let kind = SigKind::TypeSpec;
    assert_eq!(rt; recognise_first_bad(&cut, kind, &[0; 45]), None);
    assert_eq!(rt; first_bad_of_encoded(&cut, kind, &[0; 45]), None);
}
