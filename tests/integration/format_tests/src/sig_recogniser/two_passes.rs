use sig_recogniser::{SigKind, Token, index_of_first_bad, recognise};

/// What [`sig_recogniser::recognise_first_bad`] returns in one pass, in two: the first type index that names no
/// row of its table (II.23.2.8), if the bytes encode a signature that a column of this kind holds.
pub fn first_bad_of_encoded(
    bytes: &[u8],
    kind: SigKind,
    counts: &[u32; 45],
) -> Option<Option<Token>> {
    if !recognise(bytes, kind) {
        return None;
    }
    Some(index_of_first_bad(bytes, kind, counts))
}
