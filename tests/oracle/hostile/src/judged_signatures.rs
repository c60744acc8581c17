use crate::changed::change_value;
use crate::judged::{Stop, Tally, broken};
use crate::made_signatures::made_signature;
use crate::plain_signatures::{NotEncoded, reencoded};
use crate::random::Random;
use crate::standard::{Counts, TYPE_DEF, TYPE_REF, TYPE_SPEC};
use model::{SigError, SigKind, decode, encode, recognise};
use std::alloc::Global;

/// The kinds of signature columns.
pub const KINDS: [SigKind; 7] = [
    SigKind::Field,
    SigKind::MethodDef,
    SigKind::MemberRef,
    SigKind::StandAlone,
    SigKind::Property,
    SigKind::TypeSpec,
    SigKind::Instance,
];

/// Makes a signature, changes it or not, and reads it as one of each kind.
pub fn judge_signatures(alloc: Global, random: &mut Random, tally: &mut Tally) -> Result<(), Stop> {
    let mut counts = [0; 45];
    for table in [TYPE_DEF, TYPE_REF, TYPE_SPEC] {
        counts[table as usize] = random.pick(&[0, 1, 2, 0x40, 0xFF_FFFF]);
    }
    let kind = random.pick(&KINDS);
    let mut blob = made_signature(alloc, random, &counts, kind)?;
    if random.is_one_in(2) {
        let forms = Some(*random);
        if let Ok(signature) = reencoded(alloc, blob.as_slice(), kind, forms) {
            blob = signature.bytes;
        }
    }
    for _change in 0..random.pick(&[0, 1, 1, 2]) {
        let offset = random.offset(blob.len());
        change_value(random, &mut blob, offset);
    }
    match random.below(12) {
        0 => blob.truncate(random.offset(blob.len())),
        1 => blob.push(random.byte())?,
        _ => {}
    }
    for table in [TYPE_DEF, TYPE_REF, TYPE_SPEC] {
        counts[table as usize] -= random.below(2).min(counts[table as usize]);
    }
    for kind in KINDS {
        tally.signatures = tally.signatures.saturating_add(1);
        if !is_read(alloc, blob.as_slice(), kind, &counts)? {
            let said = format!(in alloc; "the signature {blob:?} of {kind:?} is read otherwise")?;
            return Err(Stop::Broken(said));
        }
    }
    Ok(())
}

/// Whether a signature is read as the grammar has it.
fn is_read(alloc: Global, blob: &[u8], kind: SigKind, counts: &Counts) -> Result<bool, Stop> {
    let is_recognised = recognise(blob, kind);
    match (
        reencoded(alloc, blob, kind, None),
        decode(alloc, blob, kind),
    ) {
        (Err(NotEncoded::Memory), _) | (_, Err(SigError::Memory)) => Err(Stop::Memory),
        (Err(NotEncoded::Bad), Err(SigError::Bad)) => Ok(!is_recognised),
        (Ok(plain), Ok(signature)) => {
            let mut bad = None;
            for (table, row) in plain.indexes.iter().rev() {
                if *row == 0 || *row > counts[*table as usize] {
                    bad = Some((*table, *row));
                }
            }
            let first = signature.first_bad(counts);
            Ok(
                is_recognised
                    && encode(alloc, &signature)? == plain.bytes
                    && signature.copy(alloc)? == signature
                    && signature.is_held_by(kind)
                    && first.map(|token| (token.table.number(), token.row)) == bad,
            )
        }
        _ => Ok(false),
    }
}
