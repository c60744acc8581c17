use crate::nested::nested;
use crate::sig_items::collected::reported;
use sig_items::{Item, Items, SigKind};
use sig_grammar::Element;
use std::alloc::Global;
use std::test::Fail;

#[test]
fn types_nest_128_deep(rt: HostRuntime) -> Result<(), Fail> {
    let deep = nested(rt.alloc(), &[0x15, 0x12, 0x05, 0x02, 0x0E], 127)?;
    let items = reported(rt.alloc(), &deep, SigKind::TypeSpec)?.ok_or("items")?;
    assert_eq!(rt; items.len(), 2 * 127 + 1);
    assert_eq!(rt; items.last(), Some(&Item::Simple(Element::I4)));
    let deeper = nested(rt.alloc(), &[0x15, 0x12, 0x05, 0x02, 0x0E], 128)?;
    assert!(rt; Items::of(&deeper, SigKind::TypeSpec).is_none());
    Ok(())
}

/// Instances whose first argument is an instance again, so that at each depth something is to follow.
#[test]
fn something_follows_at_each_depth(rt: HostRuntime) -> Result<(), Fail> {
    let mut bytes = Vec::new(rt.alloc());
    bytes.extend_from_slice(&[0x00, 0x02, 0x01])?;
    for _ in 0..127 {
        bytes.extend_from_slice(&[0x15, 0x12, 0x05, 0x02])?;
    }
    for _ in 0..129 {
        bytes.push(0x08)?;
    }
    let items = reported(rt.alloc(), &bytes, SigKind::MethodDef)?.ok_or("items")?;
    assert_eq!(rt; items.len(), 2 + 127 + 129);
    Ok(())
}

#[test]
fn nothing_follows_the_last_item(rt: HostRuntime) -> Result<(), Fail> {
    let mut items = Items::of(&[0x06, 0x08], SigKind::Field).ok_or("items")?;
    assert_eq!(rt; items.next(), Some(Item::Field));
    assert_eq!(rt; items.next(), Some(Item::Simple(Element::I4)));
    assert_eq!(rt; items.next(), None);
    assert_eq!(rt; items.next(), None);
    Ok(())
}

/// A column's kind, and bytes that encode nothing in it.
const NOTHING: [(SigKind, &[u8]); 5] = [
    (SigKind::Field, &[]),
    (SigKind::Field, &[0x06, 0x08, 0x00]),
    (SigKind::Field, &[0x06, 0x01]),
    (SigKind::MethodDef, &[0x05, 0x01, 0x01, 0x41, 0x08]),
    (SigKind::TypeSpec, &[0x14, 0x08, 0x00, 0x00, 0x00]),
];

#[test]
fn what_is_not_encoded_has_no_items(rt: HostRuntime) {
    for (kind, bytes) in NOTHING {
        assert!(rt; Items::of(bytes, kind).is_none());
    }
}
