use crate::reports::refusal;
use crate::form::Form;
use sample_roots::{ONE_MODULE, TWO_TYPES, changed, fault_of, image};
use std::alloc::Global;
use std::test::Fail;

/// The first and the last offset of a run of bytes, and the fault of the root of one module with one of them 0.
const ONE_MODULE_WITH_00: [(usize, usize, u16, u64); 12] = [
    (0, 3, 301, 0),
    (12, 12, 302, 12),
    (30, 30, 308, 30),
    (32, 32, 402, 4),
    (36, 36, 401, 80),
    (40, 41, 308, 30),
    (48, 48, 501, 110),
    (52, 55, 304, 56),
    (56, 59, 501, 110),
    (68, 68, 504, 112),
    (72, 76, 504, 112),
    (84, 84, 402, 84),
];

/// The same with one of them 0xFF.
const ONE_MODULE_WITH_FF: [(usize, usize, u16, u64); 23] = [
    (0, 3, 301, 0),
    (12, 26, 302, 12),
    (30, 31, 304, 128),
    (32, 39, 305, 32),
    (40, 42, 304, 32),
    (44, 51, 305, 44),
    (52, 60, 304, 44),
    (64, 71, 305, 64),
    (72, 77, 304, 64),
    (84, 85, 402, 84),
    (86, 86, 403, 86),
    (88, 88, 404, 88),
    (89, 89, 405, 104),
    (90, 91, 404, 88),
    (92, 92, 405, 104),
    (93, 95, 404, 88),
    (104, 106, 407, 108),
    (107, 107, 406, 104),
    (110, 111, 501, 110),
    (112, 113, 504, 112),
    (114, 115, 504, 114),
    (116, 117, 504, 116),
    (121, 126, 502, 110),
];

/// The same of the root of two types, with one of them 0.
const TWO_TYPES_WITH_00: [(usize, usize, u16, u64); 22] = [
    (0, 3, 301, 0),
    (12, 12, 302, 12),
    (30, 30, 308, 30),
    (32, 32, 402, 4),
    (36, 36, 401, 80),
    (40, 41, 308, 30),
    (44, 44, 501, 152),
    (48, 48, 501, 120),
    (52, 55, 304, 56),
    (56, 59, 501, 120),
    (64, 64, 503, 148),
    (68, 68, 503, 148),
    (72, 76, 503, 148),
    (84, 84, 402, 84),
    (104, 104, 603, 116),
    (108, 108, 701, 154),
    (148, 148, 701, 148),
    (154, 154, 701, 154),
    (166, 166, 701, 166),
    (193, 195, 701, 148),
    (196, 196, 701, 166),
    (199, 199, 701, 166),
];

/// The same with one of them 0xFF.
const TWO_TYPES_WITH_FF: [(usize, usize, u16, u64); 52] = [
    (0, 3, 301, 0),
    (12, 26, 302, 12),
    (30, 31, 304, 200),
    (32, 39, 305, 32),
    (40, 42, 304, 32),
    (44, 51, 305, 44),
    (52, 60, 304, 44),
    (64, 71, 305, 64),
    (72, 77, 304, 64),
    (84, 85, 402, 84),
    (86, 86, 403, 86),
    (88, 88, 404, 88),
    (89, 89, 407, 148),
    (90, 91, 404, 88),
    (92, 92, 407, 148),
    (93, 95, 404, 88),
    (104, 106, 407, 116),
    (107, 107, 406, 104),
    (108, 110, 407, 116),
    (111, 111, 406, 108),
    (112, 114, 407, 116),
    (115, 115, 406, 112),
    (120, 121, 501, 120),
    (122, 123, 501, 122),
    (124, 124, 505, 124),
    (125, 125, 506, 124),
    (126, 127, 507, 126),
    (128, 129, 507, 128),
    (134, 135, 501, 134),
    (136, 137, 501, 136),
    (138, 138, 505, 138),
    (139, 139, 506, 138),
    (140, 141, 507, 140),
    (142, 143, 507, 142),
    (146, 147, 501, 146),
    (148, 149, 503, 148),
    (152, 153, 501, 152),
    (154, 155, 503, 154),
    (164, 165, 501, 164),
    (166, 167, 503, 166),
    (168, 169, 507, 168),
    (173, 181, 502, 120),
    (182, 183, 502, 134),
    (184, 185, 502, 136),
    (186, 187, 502, 146),
    (188, 189, 502, 152),
    (190, 190, 502, 164),
    (191, 191, 501, 164),
    (193, 193, 503, 148),
    (194, 195, 701, 148),
    (196, 196, 503, 166),
    (197, 199, 701, 166),
];

/// The same of the file, with one of them 0.
const IMAGE_WITH_00: [(usize, usize, u16, u64); 29] = [
    (0, 1, 102, 0),
    (60, 60, 103, 60),
    (128, 129, 103, 60),
    (134, 134, 202, 360),
    (148, 148, 104, 148),
    (152, 153, 106, 152),
    (244, 244, 107, 244),
    (360, 360, 203, 512),
    (361, 361, 202, 360),
    (364, 364, 201, 360),
    (389, 389, 202, 360),
    (393, 393, 202, 360),
    (397, 397, 203, 8),
    (520, 520, 203, 520),
    (528, 528, 301, 512),
    (529, 529, 204, 528),
    (532, 532, 301, 592),
    (592, 595, 301, 592),
    (604, 604, 302, 604),
    (622, 622, 308, 622),
    (624, 624, 402, 596),
    (628, 628, 401, 672),
    (632, 633, 308, 622),
    (640, 640, 501, 702),
    (644, 647, 304, 648),
    (648, 651, 501, 702),
    (660, 660, 504, 704),
    (664, 668, 504, 704),
    (676, 676, 402, 676),
];

/// The same with one of them 0xFF.
const IMAGE_WITH_FF: [(usize, usize, u16, u64); 39] = [
    (0, 1, 102, 0),
    (60, 63, 103, 60),
    (128, 131, 103, 60),
    (134, 135, 108, 134),
    (148, 148, 202, 360),
    (149, 149, 104, 148),
    (152, 153, 106, 152),
    (360, 360, 203, 767),
    (361, 363, 202, 360),
    (388, 391, 202, 360),
    (396, 396, 203, 775),
    (397, 399, 202, 360),
    (528, 528, 301, 767),
    (529, 531, 204, 528),
    (533, 535, 204, 528),
    (540, 543, 801, 540),
    (592, 595, 301, 592),
    (604, 618, 302, 604),
    (622, 623, 304, 720),
    (624, 631, 305, 624),
    (632, 634, 304, 624),
    (636, 643, 305, 636),
    (644, 652, 304, 636),
    (656, 663, 305, 656),
    (664, 669, 304, 656),
    (676, 677, 402, 676),
    (678, 678, 403, 678),
    (680, 680, 404, 680),
    (681, 681, 405, 696),
    (682, 683, 404, 680),
    (684, 684, 405, 696),
    (685, 687, 404, 680),
    (696, 698, 407, 700),
    (699, 699, 406, 696),
    (702, 703, 501, 702),
    (704, 705, 504, 704),
    (706, 707, 504, 706),
    (708, 709, 504, 708),
    (713, 718, 502, 702),
];

/// The fault that a table lists for an offset, if any.
fn listed(faults: &[(usize, usize, u16, u64)], offset: usize) -> Option<(u16, u64)> {
    let (_, _, code, offset) = faults
        .iter()
        .find(|(first, last, _, _)| *first <= offset && offset <= *last)?;
    Some((*code, *offset))
}

/// The first offset at which a byte leads to another result than the one that is listed.
fn first_other_byte(
    alloc: Global,
    form: Form,
    bytes: &[u8],
    byte: u8,
    faults: &[(usize, usize, u16, u64)],
) -> Result<Option<usize>, Fail> {
    for offset in 0..bytes.len() {
        let other = changed(alloc, bytes, &[(offset, byte)])?;
        if fault_of(refusal(form, other.as_slice())) != listed(faults, offset) {
            return Ok(Some(offset));
        }
    }
    Ok(None)
}

#[test]
fn each_byte_of_a_root_of_one_module(rt: HostRuntime) -> Result<(), Fail> {
    for (byte, faults) in [
        (0, ONE_MODULE_WITH_00.as_slice()),
        (0xFF, ONE_MODULE_WITH_FF.as_slice()),
    ] {
        let difference = first_other_byte(rt.alloc(), Form::Root, &ONE_MODULE, byte, faults)?;
        assert_eq!(rt; difference, None, "with {byte}");
    }
    Ok(())
}

#[test]
fn each_byte_of_a_root_of_two_types(rt: HostRuntime) -> Result<(), Fail> {
    for (byte, faults) in [
        (0, TWO_TYPES_WITH_00.as_slice()),
        (0xFF, TWO_TYPES_WITH_FF.as_slice()),
    ] {
        let difference = first_other_byte(rt.alloc(), Form::Root, &TWO_TYPES, byte, faults)?;
        assert_eq!(rt; difference, None, "with {byte}");
    }
    Ok(())
}

#[test]
fn each_byte_of_a_file(rt: HostRuntime) -> Result<(), Fail> {
    let file = image();
    for (byte, faults) in [
        (0, IMAGE_WITH_00.as_slice()),
        (0xFF, IMAGE_WITH_FF.as_slice()),
    ] {
        let difference = first_other_byte(rt.alloc(), Form::Image, file.as_slice(), byte, faults)?;
        assert_eq!(rt; difference, None, "with {byte}");
    }
    Ok(())
}
