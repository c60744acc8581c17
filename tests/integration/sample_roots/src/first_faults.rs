/// Changes to a sample by which one rule is the first that it breaks: the offsets and the new bytes there, and
/// the code, the offset and the name of the fault.
pub type FirstFault = (&'static [(usize, u8)], u16, u64, &'static str);

/// Of the file that `image` gives.
pub const FILE_FAULTS: [FirstFault; 13] = [
    (&[(1, 0x4D)], 102, 0, "DosHeader"),
    (&[(0x3C, 0x81)], 103, 60, "PeSignature"),
    (&[(0x94, 0xD7)], 104, 148, "OptionalHeader"),
    (&[(0x99, 0x02)], 105, 148, "Pe32PlusSize"),
    (&[(0x98, 0x0C)], 106, 152, "Magic"),
    (&[(0xF4, 0x0E)], 107, 244, "Directories"),
    (&[(0x86, 0x11)], 108, 134, "Sections"),
    (&[(0x16C, 0)], 201, 360, "NoCliHeader"),
    (&[(0x16C, 0x47)], 202, 360, "CliAddress"),
    (&[(0x208, 0x47)], 203, 520, "CliSize"),
    (&[(0x211, 0x1F)], 204, 528, "MetadataAddress"),
    (&[(592 + 41, 0x2D)], 307, 624, "Uncompressed"),
    (&[(0x21C, 1), (0x21F, 6)], 801, 540, "EntryPoint"),
];

/// Of the root of one module.
pub const MODULE_FAULTS: [FirstFault; 18] = [
    (&[(3, 0x43)], 301, 0, "RootSignature"),
    (&[(12, 0x0D)], 302, 12, "Version"),
    (&[(12, 0x80)], 303, 144, "StreamCount"),
    (&[(30, 0xFF)], 304, 128, "StreamHeader"),
    (&[(68, 0x11)], 305, 64, "StreamRange"),
    (&[(73, 0x7E), (74, 0)], 306, 64, "DuplicateStream"),
    (&[(41, 0x2D)], 307, 32, "Uncompressed"),
    (&[(30, 0)], 308, 30, "NoTables"),
    (&[(36, 23)], 401, 80, "TablesHeader"),
    (&[(84, 1)], 402, 84, "TablesVersion"),
    (&[(86, 8)], 403, 86, "HeapSizes"),
    (&[(94, 1)], 404, 88, "UnknownTable"),
    (&[(36, 27)], 405, 104, "RowCounts"),
    (&[(107, 1)], 406, 104, "RowCount"),
    (
        &[(104, 0xFF), (105, 0xFF), (106, 0xFF)],
        407,
        108,
        "TablesShort",
    ),
    (&[(110, 8)], 501, 110, "BadString"),
    (&[(121, 0xFF)], 502, 110, "BadUtf8"),
    (&[(112, 2)], 504, 112, "BadGuid"),
];

/// Of the root of two types.
pub const TWO_TYPE_FAULTS: [FirstFault; 10] = [
    (&[(193, 0xFF)], 503, 148, "BadBlob"),
    (&[(124, 0xFF)], 505, 124, "BadTag"),
    (&[(124, 0x0C)], 506, 124, "BadIndex"),
    (&[(126, 0xFF)], 507, 126, "BadList"),
    (&[(126, 2)], 602, 126, "BadRun"),
    (&[(126, 2), (140, 1)], 602, 126, "BadRun"),
    (&[(104, 0)], 603, 116, "NoOwner"),
    (&[(193, 0)], 701, 148, "BadSignature"),
    (&[(194, 7)], 701, 148, "BadSignature"),
    (
        &[(193, 3), (195, 0x12), (196, 5), (166, 0)],
        702,
        148,
        "SignatureIndex",
    ),
];

/// Of the root of three types.
pub const NESTED_TYPE_FAULTS: [FirstFault; 2] = [
    (&[(118, 3), (122, 2)], 601, 122, "NotSorted"),
    (&[(124, 3)], 604, 124, "NestedOrder"),
];

/// The length of the longest prefix of a sample that has this fault, and the code and the offset.
pub type PrefixFault = (usize, u16, u64);

/// Of the file, whose root ends at 736.
pub const FILE_PREFIXES: [PrefixFault; 6] = [
    (63, 102, 0),
    (151, 103, 60),
    (375, 104, 148),
    (415, 108, 134),
    (591, 202, 360),
    (735, 204, 528),
];

/// Of the root of one module.
pub const MODULE_PREFIXES: [PrefixFault; 7] = [
    (15, 301, 0),
    (27, 302, 12),
    (31, 303, 28),
    (43, 304, 32),
    (119, 305, 32),
    (127, 305, 44),
    (143, 305, 64),
];

/// Of the root of two types.
pub const TWO_TYPE_PREFIXES: [PrefixFault; 7] = [
    (15, 301, 0),
    (27, 302, 12),
    (31, 303, 28),
    (43, 304, 32),
    (171, 305, 32),
    (191, 305, 44),
    (199, 305, 64),
];
