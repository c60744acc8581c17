use crate::model::both::collected;
use crate::shown::{Keyed, Members, are_same, run_of};
use opening::{View, open_root, view_again};
use sample_roots::{
    OF_ASSEMBLY, OF_MODULE, ONE_MODULE, OTHERS_SORTED, TWO_TYPES, root_of_attributes,
    root_of_params, root_of_starts,
};
use schema::{TableId, Token};
use std::alloc::Global;
use std::test::Fail;

/// Whether two views show the same runs of the first owners.
fn have_same_runs(one: &View, other: &View) -> bool {
    [
        Members::Fields,
        Members::Methods,
        Members::Params,
        Members::Events,
        Members::Properties,
    ]
    .iter()
    .all(|members| (1..=3).all(|row| run_of(one, *members, row) == run_of(other, *members, row)))
}

/// Whether the view of a root that is made again shows the same as the first: cells, runs and order.
fn is_shown_again(root: &[u8]) -> Result<bool, Fail> {
    let first = open_root(root)?;
    let again = view_again(first.root(), &first.found());
    Ok(
        are_same(&first, &again)
            && have_same_runs(&first, &again)
            && first.found().in_order == again.found().in_order
            && first.find_type("N", "C") == again.find_type("N", "C"),
    )
}

#[test]
fn a_view_that_is_made_again_shows_the_same(rt: HostRuntime) -> Result<(), Fail> {
    let alloc = rt.alloc();
    assert!(rt; is_shown_again(&ONE_MODULE)?);
    assert!(rt; is_shown_again(&TWO_TYPES)?);
    // Null starts, which are looked for again.
    assert!(rt; is_shown_again(root_of_starts(alloc, [1, 0, 3])?.as_slice())?);
    assert!(rt; is_shown_again(root_of_params(alloc)?.as_slice())?);
    Ok(())
}

/// The rows of CustomAttribute of Assembly 1 that a view finds, and how many keys it read for them.
fn rows_of_assembly(alloc: Global, view: &View) -> Result<Keyed, Fail> {
    let token = Token {
        table: TableId::Assembly,
        row: 1,
    };
    collected(alloc, view.by_key(TableId::CustomAttribute, token))
}

#[test]
fn a_view_that_is_made_again_finds_rows_as_before(rt: HostRuntime) -> Result<(), Fail> {
    let alloc = rt.alloc();
    for attributes in [
        [OF_MODULE, OF_ASSEMBLY, OF_ASSEMBLY],
        [OF_ASSEMBLY, OF_ASSEMBLY, OF_MODULE],
    ] {
        let root = root_of_attributes(alloc, OTHERS_SORTED, &attributes)?;
        assert!(rt; is_shown_again(root.as_slice())?);
        let first = open_root(root.as_slice())?;
        let again = view_again(first.root(), &first.found());
        let (rows, reads) = rows_of_assembly(alloc, &first)?;
        let (rows_again, reads_again) = rows_of_assembly(alloc, &again)?;
        assert_eq!(rt; rows.as_slice(), rows_again.as_slice());
        assert_eq!(rt; (rows.len(), reads), (2, reads_again));
    }
    Ok(())
}
