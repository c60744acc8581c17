use crate::judged::{Stop, Tally, broken, is_fault, other_answer};
use crate::judged_cells::{has_cells, shows_cells};
use crate::numbers::number_at;
use crate::plain_image::{PlainHeader, read_plain_header, read_plain_image};
use crate::plain_model::PlainModel;
use crate::plain_root::Refused;
use model::{CliHeader, LoadError, load_image, open_image, read_heads};
use std::alloc::Global;

/// Opens and loads a file, and compares the result with what the standard says, read plainly. If the result is a
/// model, the file has it.
pub fn judge_image(
    alloc: Global,
    file: &[u8],
    model: Option<&PlainModel>,
    tally: &mut Tally,
) -> Result<(), Stop> {
    let expected = read_plain_image(alloc, file);
    let opened = open_image(file);
    let loaded = load_image(alloc, file);
    judge_heads(alloc, file)?;
    match (&expected, &opened, &loaded) {
        (Err(Refused::Memory), _, _) | (_, _, Err(LoadError::Memory)) => Err(Stop::Memory),
        (Err(Refused::Fault(code, offset)), Err(fault), Err(LoadError::Fault(other)))
            if is_fault(fault, *code, *offset) && fault == other => {
            if model.is_some() {
                return Err(broken(alloc, "a file of a model is refused"));
            }
            tally.count_refused(*code);
            Ok(())
        }
        (Ok((header, plain)), Ok((shown, view)), Ok((read, loaded))) => {
            if model.is_some_and(|model| model != plain) {
                return Err(broken(alloc, "a file of a model has another"));
            }
            if shown != read || !has_fields(shown, header, file) {
                return Err(broken(alloc, "a CLI header has other fields"));
            }
            if !has_cells(alloc, loaded, plain)? || !shows_cells(alloc, view, plain)? {
                return Err(broken(alloc, "a file has other cells"));
            }
            tally.loaded = tally.loaded.saturating_add(1);
            Ok(())
        }
        _ => Err(other_answer(
            alloc,
            &expected,
            opened.as_ref().err(),
            loaded.as_ref().err(),
        )),
    }
}

/// Reads what stands before the streams of a file.
fn judge_heads(alloc: Global, file: &[u8]) -> Result<(), Stop> {
    let is_right = match (read_plain_header(file), read_heads(file)) {
        (Ok(header), Ok(heads)) => has_fields(&heads.header, &header, file),
        (Ok(_), Err(fault)) => fault.layer == 3,
        (Err(Refused::Fault(code, offset)), Err(fault)) => is_fault(&fault, code, offset),
        _ => false,
    };
    if is_right {
        Ok(())
    } else {
        Err(broken(alloc, "the heads of a file are read otherwise"))
    }
}

/// Whether a CLI header has the fields that stand in a file.
fn has_fields(header: &CliHeader, plain: &PlainHeader, file: &[u8]) -> bool {
    let directories = [
        (8, &header.metadata),
        (24, &header.resources),
        (32, &header.strong_name_signature),
        (40, &header.code_manager_table),
        (48, &header.vtable_fixups),
        (56, &header.export_address_table_jumps),
        (64, &header.managed_native_header),
    ];
    let has_directories = directories.iter().all(|(at, directory)| {
        number_at(file, plain.offset + at, 4) == Some(directory.rva)
            && number_at(file, plain.offset + at + 4, 4) == Some(directory.size)
    });
    let versions = (header.major_runtime_version, header.minor_runtime_version);
    header.place == plain.offset
        && header.root == (plain.root..plain.root + plain.len)
        && number_at(file, plain.offset, 4) == Some(header.cb)
        && number_at(file, plain.offset + 4, 2) == Some(u32::from(versions.0))
        && number_at(file, plain.offset + 6, 2) == Some(u32::from(versions.1))
        && number_at(file, plain.offset + 16, 4) == Some(header.flags)
        && number_at(file, plain.offset + 20, 4) == Some(header.entry_point_token)
        && has_directories
}
