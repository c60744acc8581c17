//! The functions and structs of `c/clim.h`, which says what each does and what a caller must ensure.
//!
//! The crate `clim` is the safe interface.
#![no_std]
#![allow(non_camel_case_types)]

use core::ffi::c_void;
use core::mem::size_of;

/// Bytes that belong to someone else.
#[repr(C)]
#[derive(Clone, Copy)]
pub struct clim_bytes {
    pub at: *const u8,
    pub len: usize,
}

/// The first rule that some bytes break.
#[repr(C)]
#[derive(Clone, Copy, Default)]
pub struct clim_fault {
    pub offset: u64,
    pub code: u16,
    pub layer: u8,
}

/// An address in the image and the number of bytes there.
#[repr(C)]
#[derive(Clone, Copy, Debug, Default, PartialEq, Eq)]
pub struct clim_directory {
    pub rva: u32,
    pub size: u32,
}

/// The CLI header, its offset, and the offsets where the metadata root begins and ends.
#[repr(C)]
#[derive(Clone, Copy, Debug, Default, PartialEq, Eq)]
pub struct clim_header {
    pub offset: usize,
    pub root_start: usize,
    pub root_end: usize,
    pub cb: u32,
    pub major_runtime_version: u16,
    pub minor_runtime_version: u16,
    pub metadata: clim_directory,
    pub flags: u32,
    pub entry_point_token: u32,
    pub resources: clim_directory,
    pub strong_name_signature: clim_directory,
    pub code_manager_table: clim_directory,
    pub vtable_fixups: clim_directory,
    pub export_address_table_jumps: clim_directory,
    pub managed_native_header: clim_directory,
}

/// The first members of the runs of every step-th owner.
#[repr(C)]
#[derive(Clone, Copy)]
pub struct clim_starts {
    pub step: u32,
    pub starts: [u32; 256],
}

/// What opening found of a root.
#[repr(C)]
#[derive(Clone, Copy)]
pub struct clim_found {
    pub fields: clim_starts,
    pub methods: clim_starts,
    pub params: clim_starts,
    pub events: clim_starts,
    pub properties: clim_starts,
    pub in_order: [bool; 45],
    pub utf8_texts: bool,
}

/// An opened root, or none.
#[repr(C)]
#[derive(Clone, Copy)]
pub struct clim_view {
    pub root: clim_bytes,
    pub found: clim_found,
    pub is_open: bool,
}

/// A cell of a row.
#[repr(C)]
#[derive(Clone, Copy)]
pub struct clim_cell {
    pub bytes: clim_bytes,
    pub number: u32,
    pub kind: u8,
    pub table: u8,
    pub guid: [u8; 16],
}

pub const CLIM_NUMBER: u8 = 1;
pub const CLIM_TEXT: u8 = 2;
pub const CLIM_BLOB: u8 = 3;
pub const CLIM_NULL_GUID: u8 = 4;
pub const CLIM_GUID: u8 = 5;
pub const CLIM_NULL_ROW: u8 = 6;
pub const CLIM_ROW: u8 = 7;
pub const CLIM_START: u8 = 8;
pub const CLIM_SIGNATURE: u8 = 9;

/// An item of the value of a custom attribute.
#[repr(C)]
#[derive(Clone, Copy)]
pub struct clim_attribute_item {
    pub name: clim_bytes,
    pub text: clim_bytes,
    pub number: u64,
    pub kind: u8,
    pub form: u8,
    /// The field `type`.
    pub of: u8,
    pub is_null: bool,
}

pub const CLIM_FIXED_ARGUMENT: u8 = 1;
pub const CLIM_ELEMENT: u8 = 2;
pub const CLIM_NAMED_COUNT: u8 = 3;
pub const CLIM_FIELD_ARGUMENT: u8 = 4;
pub const CLIM_PROPERTY_ARGUMENT: u8 = 5;

pub const CLIM_PLAIN_VALUE: u8 = 1;
pub const CLIM_BOXED_VALUE: u8 = 2;
pub const CLIM_ARRAY: u8 = 3;

pub const CLIM_BOOLEAN: u8 = 0x02;
pub const CLIM_CHAR: u8 = 0x03;
pub const CLIM_I1: u8 = 0x04;
pub const CLIM_U1: u8 = 0x05;
pub const CLIM_I2: u8 = 0x06;
pub const CLIM_U2: u8 = 0x07;
pub const CLIM_I4: u8 = 0x08;
pub const CLIM_U4: u8 = 0x09;
pub const CLIM_I8: u8 = 0x0A;
pub const CLIM_U8: u8 = 0x0B;
pub const CLIM_R4: u8 = 0x0C;
pub const CLIM_R8: u8 = 0x0D;
pub const CLIM_STRING: u8 = 0x0E;
pub const CLIM_SYSTEM_TYPE: u8 = 0x50;
pub const CLIM_OBJECT: u8 = 0x51;

/// The cell of a table that contains a byte.
#[repr(C)]
#[derive(Clone, Copy)]
pub struct clim_location {
    pub offset: usize,
    pub size: usize,
    pub column: usize,
    pub row: u32,
    pub table: u8,
}

/// The first difference of two roots.
#[repr(C)]
#[derive(Clone, Copy)]
pub struct clim_difference {
    pub column: usize,
    pub row: u32,
    pub left_count: u32,
    pub right_count: u32,
    pub kind: u8,
    pub table: u8,
}

/// A row that is given to `clim_tables`.
#[repr(C)]
#[derive(Clone, Copy)]
pub struct clim_row {
    pub cells: *const clim_cell,
    pub count: usize,
    pub table: u8,
}

/// The first rule that tables break.
#[repr(C)]
#[derive(Clone, Copy)]
pub struct clim_refusal {
    pub column: usize,
    pub row: u32,
    pub code: u16,
    pub table: u8,
}

pub const CLIM_VERSION_DIFFERS: u8 = 1;
pub const CLIM_USER_DIFFERS: u8 = 2;
pub const CLIM_COUNT_DIFFERS: u8 = 3;
pub const CLIM_CELL_DIFFERS: u8 = 4;

/// What `clim_compare` returns if both roots have the same metadata.
pub const CLIM_EQUAL: usize = 1;

/// What `clim_compare` returns if something differs.
pub const CLIM_DIFFERENT: usize = 2;

pub const CLIM_NO_LOCATION: clim_location = clim_location { offset: 0, size: 0, column: 0, row: 0, table: 0 };
pub const CLIM_NO_DIFFERENCE: clim_difference =
    clim_difference { column: 0, row: 0, left_count: 0, right_count: 0, kind: 0, table: 0 };

pub const CLIM_NO_REFUSAL: clim_refusal = clim_refusal { column: 0, row: 0, code: 0, table: 0 };

/// The version of the interface that this crate declares.
pub const CLIM_ABI_VERSION: u32 = 1;

/// What `clim_signature_text`, `clim_row_name` and `clim_declaration` return for a text that is too long,
/// `clim_canonical_root`, `clim_digest` and `clim_tables` for a root that is, and `clim_embed` for such a root or such a copy.
pub const CLIM_TOO_LONG: usize = usize::MAX;

/// What a function that allocates returns if memory runs out.
pub const CLIM_NO_MEMORY: usize = usize::MAX - 1;

/// What `clim_embed` returns if the file breaks a rule.
pub const CLIM_BAD_FILE: usize = usize::MAX - 2;

/// What `clim_embed` returns if the root breaks a rule.
pub const CLIM_BAD_ROOT: usize = usize::MAX - 3;

/// What `clim_embed` returns if the root does not lead into the file.
pub const CLIM_UNLIKE: usize = usize::MAX - 4;

/// What `clim_embed` returns if the headers of the file overlap.
pub const CLIM_HEADERS_OVERLAP: usize = usize::MAX - 5;

/// What `clim_embed` returns if the range of the old root contains something else of the file.
pub const CLIM_OCCUPIED: usize = usize::MAX - 6;

/// What `clim_embed` returns if there is no room for the root.
pub const CLIM_NO_ROOM: usize = usize::MAX - 7;

/// What `clim_attribute_items` returns for a value that is not decoded.
pub const CLIM_NOT_DECODED: usize = usize::MAX - 8;

/// What becomes of the strong name in a copy of a file: it is kept, or cleared.
pub const CLIM_KEEP_STRONG_NAME: u8 = 1;
pub const CLIM_CLEAR_STRONG_NAME: u8 = 2;

pub const CLIM_NO_BYTES: clim_bytes = clim_bytes { at: b"".as_ptr(), len: 0 };
pub const CLIM_NO_FAULT: clim_fault = clim_fault { offset: 0, code: 0, layer: 0 };
pub const CLIM_NO_CELL: clim_cell = clim_cell { bytes: CLIM_NO_BYTES, number: 0, kind: 0, table: 0, guid: [0; 16] };
pub const CLIM_NO_ITEM: clim_attribute_item = clim_attribute_item {
    name: CLIM_NO_BYTES,
    text: CLIM_NO_BYTES,
    number: 0,
    kind: 0,
    form: 0,
    of: 0,
    is_null: false,
};
pub const CLIM_NO_STARTS: clim_starts = clim_starts { step: 1, starts: [0; 256] };
pub const CLIM_NOT_FOUND: clim_found = clim_found {
    fields: CLIM_NO_STARTS,
    methods: CLIM_NO_STARTS,
    params: CLIM_NO_STARTS,
    events: CLIM_NO_STARTS,
    properties: CLIM_NO_STARTS,
    in_order: [false; 45],
    utf8_texts: false,
};
pub const CLIM_CLOSED: clim_view = clim_view { root: CLIM_NO_BYTES, found: CLIM_NOT_FOUND, is_open: false };

extern "C" {
    pub fn clim_check(file: *const u8, len: usize, fault: *mut clim_fault) -> bool;
    pub fn clim_check_root(root: *const u8, len: usize, fault: *mut clim_fault) -> bool;
    pub fn clim_read_header(file: *const u8, len: usize, header: *mut clim_header, fault: *mut clim_fault) -> bool;
    pub fn clim_open(file: *const u8, len: usize, view: *mut clim_view, fault: *mut clim_fault) -> bool;
    pub fn clim_open_root(root: *const u8, len: usize, view: *mut clim_view, fault: *mut clim_fault) -> bool;
    pub fn clim_fault_name(code: u16, name: *mut clim_bytes);
    pub fn clim_table_name(table: u8, name: *mut clim_bytes);
    pub fn clim_cell_count(table: u8) -> usize;
    pub fn clim_column_name(table: u8, column: usize, name: *mut clim_bytes);
    pub fn clim_version(view: *const clim_view, version: *mut clim_bytes);
    pub fn clim_user(view: *const clim_view, user: *mut clim_bytes);
    pub fn clim_count(view: *const clim_view, table: u8) -> u32;
    pub fn clim_cell_at(view: *const clim_view, table: u8, row: u32, column: usize, cell: *mut clim_cell) -> bool;
    pub fn clim_cells(view: *const clim_view, table: u8, first: u32, column: usize, cells: *mut clim_cell, room: usize) -> usize;
    pub fn clim_members(view: *const clim_view, owner: u8, row: u32, member: u8, first: *mut u32, past: *mut u32) -> bool;
    pub fn clim_find_type(view: *const clim_view, name_space: *const u8, name_space_len: usize, name: *const u8, name_len: usize) -> u32;
    pub fn clim_rows_by_key(view: *const clim_view, table: u8, key_table: u8, key_row: u32, rows: *mut u32, room: usize) -> usize;
}

/// Declares functions that an older library lacks, each with a constant that says whether the library has it. If it does
/// not, the function is one of this crate that panics. To add one, add it here and to `NEWER` in build.rs.
macro_rules! newer {
    ($($has:ident: fn $name:ident($($argument:ident: $type:ty),*) -> $result:ty;)*) => {$(
        #[doc = concat!("Whether the library has `", stringify!($name), "`.")]
        pub const $has: bool = cfg!($name);

        #[cfg($name)]
        extern "C" {
            pub fn $name($($argument: $type),*) -> $result;
        }

        /// The library lacks this function: a call panics.
        ///
        /// # Safety
        ///
        /// None is needed.
        #[cfg(not($name))]
        pub unsafe fn $name($(_: $type),*) -> $result {
            panic!(concat!("this library of clim has no ", stringify!($name)))
        }
    )*};
}

newer! {
    HAS_ABI_VERSION: fn clim_abi_version() -> u32;
    HAS_VIEW_SIZE: fn clim_view_size() -> usize;
    HAS_CHECK_WITHIN: fn clim_check_within(file: *const u8, len: usize, budget: u64, fault: *mut clim_fault, spent: *mut bool) -> bool;
    HAS_CHECK_ROOT_WITHIN: fn clim_check_root_within(root: *const u8, len: usize, budget: u64, fault: *mut clim_fault, spent: *mut bool) -> bool;
    HAS_OPEN_WITHIN: fn clim_open_within(file: *const u8, len: usize, budget: u64, view: *mut clim_view, fault: *mut clim_fault, spent: *mut bool) -> bool;
    HAS_OPEN_ROOT_WITHIN: fn clim_open_root_within(root: *const u8, len: usize, budget: u64, view: *mut clim_view, fault: *mut clim_fault, spent: *mut bool) -> bool;
    HAS_EXPLAIN: fn clim_explain(code: u16, buffer: *mut u8, room: usize) -> usize;
    HAS_SIGNATURE_TEXT: fn clim_signature_text(view: *const clim_view, table: u8, row: u32, column: usize, buffer: *mut u8, room: usize) -> usize;
    HAS_USER_STRING: fn clim_user_string(view: *const clim_view, token: u32, units: *mut u16, room: usize, count: *mut usize, flag: *mut u16) -> bool;
    HAS_CANONICAL_ROOT: fn clim_canonical_root(view: *const clim_view, buffer: *mut u8, room: usize) -> usize;
    HAS_DIGEST: fn clim_digest(view: *const clim_view, digest: *mut u8) -> usize;
    HAS_WHERE: fn clim_where(view: *const clim_view, offset: usize, location: *mut clim_location) -> bool;
    HAS_COMPARE: fn clim_compare(left: *const clim_view, right: *const clim_view, difference: *mut clim_difference) -> usize;
    HAS_TABLES: fn clim_tables(version: *const u8, version_len: usize, user: *const u8, user_len: usize, rows: *const clim_row, row_count: usize, buffer: *mut u8, room: usize, refusal: *mut clim_refusal) -> usize;
    HAS_EMBED: fn clim_embed(file: *const u8, size: usize, root: *const u8, root_len: usize, strong_name: u8, buffer: *mut u8, room: usize, fault: *mut clim_fault) -> usize;
    HAS_OFFSET_OF: fn clim_offset_of(file: *const u8, len: usize, rva: u32, size: u32, offset: *mut usize) -> bool;
    HAS_ROW_NAME: fn clim_row_name(view: *const clim_view, token: u32, buffer: *mut u8, room: usize) -> usize;
    HAS_DECLARATION: fn clim_declaration(view: *const clim_view, token: u32, buffer: *mut u8, room: usize) -> usize;
    HAS_ATTRIBUTE_ITEMS: fn clim_attribute_items(view: *const clim_view, row: u32, items: *mut clim_attribute_item, room: usize) -> usize;
}

// The layout of the structs, as tests of the C library have it.
const _: () = assert!(size_of::<clim_bytes>() == 2 * size_of::<*const c_void>());
const _: () = assert!(size_of::<clim_fault>() == 16);
const _: () = assert!(size_of::<clim_header>() == 96);
const _: () = assert!(size_of::<clim_view>() == 5208);
const _: () = assert!(size_of::<clim_cell>() == 40);
const _: () = assert!(size_of::<clim_attribute_item>() == 48);
const _: () = assert!(size_of::<clim_location>() == 32);
const _: () = assert!(size_of::<clim_difference>() == 24);
const _: () = assert!(size_of::<clim_row>() == 24);
const _: () = assert!(size_of::<clim_refusal>() == 16);
