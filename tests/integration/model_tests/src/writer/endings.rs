use owned_model::load_root;
use sample_roots::root_of_long_text;
use std::test::Fail;
use writer::{WriteError, write_root_within};

#[test]
fn four_thousand_endings_of_one_text_are_one_entry(rt: HostRuntime) -> Result<(), Fail> {
    let alloc = rt.alloc();
    let root = root_of_long_text(alloc)?;
    let model = load_root(alloc, root.as_slice())?;
    let written = write_root_within(alloc, &model, 31096)?;
    assert_eq!(rt; written.len(), 31096);
    // HeapSizes.
    assert_eq!(rt; written.as_slice().get(70), Some(&0));
    assert!(rt; written.as_slice() == root.as_slice());
    // The same root is refused above its limit.
    let refused = write_root_within(alloc, &model, 31095).err();
    assert_eq!(rt; refused, Some(WriteError::TooLarge));
    Ok(())
}
