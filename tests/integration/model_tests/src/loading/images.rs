use crate::form::Form;
use crate::reports::model_in;
use owned_model::load_image;
use opening::open_image;
use sample_roots::{ONE_MODULE, image};
use std::test::Fail;

#[test]
fn a_file_has_the_model_of_its_root(rt: HostRuntime) -> Result<(), Fail> {
    let alloc = rt.alloc();
    let file = image();
    let (header, model) = load_image(alloc, &file)?;
    assert_eq!(rt; header, open_image(&file)?.0);
    assert_eq!(rt; (header.place, header.root), (520, 592..736));
    assert!(rt; model == model_in(alloc, Form::Root, &ONE_MODULE)?);
    assert!(rt; model == model_in(alloc, Form::Image, &file)?);
    Ok(())
}
