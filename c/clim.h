/* clim for C: checks, opens and reads the metadata of a .NET assembly in place, makes new metadata, and puts it into a
 * copy of the file (ECMA-335 II.22 to II.25).
 *
 *     clim_view view = CLIM_CLOSED;
 *     clim_fault fault = CLIM_NO_FAULT;
 *     clim_cell cell = CLIM_NO_CELL;
 *     if (clim_open(file, len, &view, &fault))
 *         for (uint32_t row = 1; row <= clim_count(&view, CLIM_TYPE_DEF); row++)
 *             if (clim_cell_at(&view, CLIM_TYPE_DEF, row, CLIM_TYPE_DEF_TYPE_NAME, &cell))
 *                 printf("%.*s\n", (int)cell.bytes.len, (const char *)cell.bytes.at);
 *
 * Each function is proved for any bytes and any numbers. It returns, it writes only what is stated below, and its
 * result is what its contract in crates/clim_c states. No function keeps state between calls, so threads may call them
 * at the same time. Rows count from 1. Columns, which are the cells of a row, count from 0.
 *
 * Memory: only clim_canonical_root, clim_digest, clim_compare, clim_tables, clim_embed and clim_declaration allocate;
 * clim_embed does not if a root is given, and clim_declaration only for a method. They call malloc, realloc and free,
 * and free all of it before they return. So do not call them in a signal handler, or after fork in a process with
 * threads.
 *
 * A call on a view reads the directory of the root and the row counts again, but no heap. It takes about 3
 * microseconds, for a small file and for one of 5 MB alike; a crafted root of 200 kB with 16,000 stream headers makes
 * it 3 to 6 milliseconds. clim_find_type also scans a table, at 6 nanoseconds per type. In a call of clim_cells a
 * cell takes about 7 nanoseconds. So read entire columns if you need many cells. clim_canonical_root and clim_digest
 * take some 50 milliseconds for a file of 5 MB, and allocate some 12 MB then. If blobs of a crafted file overlap, these
 * two and clim_compare allocate 16 to 17 bytes more for each byte of the blobs. No budget bounds that.
 *
 * Errors: clim_check, clim_open, clim_read_header and their variants return false and write a clim_fault, or say that
 * a budget is spent. clim_tables returns 0 and writes a clim_refusal. clim_embed returns a number that says why there
 * is no copy; for two of these it writes a clim_fault. What allocates says if memory runs out. Any other call has no
 * error: for a view that is not open, and for a number that refers to nothing, it returns false, 0 or no bytes. A fault
 * has no table, row or column, only the offset of what is wrong; a refusal has these, and no offset.
 *
 * Sizes: a clim_view has 5,208 bytes. All other memory is stack. These figures are not proved: up to 128 kB in the
 * calls that check or open, up to 384 kB in clim_canonical_root, clim_digest, clim_compare, clim_tables and
 * clim_embed (64 kB, and more for nested types), up to 192 kB in clim_signature_text, clim_row_name and
 * clim_declaration, and up to 48 kB in any other call. So a thread needs CLIM_STACK bytes beside its own. Measured on
 * three assemblies: 44 kB to check, 48 kB to open. Equivalent calls took 54 kB to check a root whose types nest 127 deep in a signature. For a file
 * with such types they add up to 61 kB.
 *
 * A caller must ensure the following. Nothing checks it:
 *   - No pointer is null, even if the length after it is 0. Use "" then.
 *   - A pointer and a length describe that number of bytes or items. Nobody writes them during the call.
 *   - What a call writes through a pointer does not overlap its other arguments. It is initialised before the call:
 *     initialise a clim_view, a clim_cell, a clim_attribute_item, a clim_bytes, a clim_fault, a clim_header, a
 *     clim_stream_header, a clim_location, a clim_difference and a clim_refusal with CLIM_CLOSED, CLIM_NO_CELL,
 *     CLIM_NO_ITEM, CLIM_NO_BYTES, CLIM_NO_FAULT, CLIM_NO_HEADER, CLIM_NO_STREAM, CLIM_NO_LOCATION, CLIM_NO_DIFFERENCE
 *     and CLIM_NO_REFUSAL.
 *   - Copy a clim_view only as a whole. Only calls write its fields.
 *   - The bytes that were opened do not change and do not move, while a view of them, or a text or a blob from
 *     that view, is in use. So do not pass a map of a file that another process can write.
 */
#ifndef CLIM_H
#define CLIM_H

#include <stdbool.h>
#include <stddef.h>
#include <stdint.h>

#ifdef __cplusplus
extern "C" {
#endif

/* Bytes that belong to someone else. No NUL follows them. */
typedef struct clim_bytes {
    const uint8_t *at;
    size_t len;
} clim_bytes;

/* The first rule that some bytes break: its number, its layer (the hundreds of the number), and the offset in the
 * caller's bytes. */
typedef struct clim_fault {
    uint64_t offset;
    uint16_t code;
    uint8_t layer;
} clim_fault;

/* An address in the image and the number of bytes there (II.25.2.3.3); 0 and 0 if there is nothing. */
typedef struct clim_directory {
    uint32_t rva;
    uint32_t size;
} clim_directory;

/* The CLI header (II.25.3.3), its offset in the file, and the offsets where the metadata root begins and ends. */
typedef struct clim_header {
    size_t offset;
    size_t root_start;
    size_t root_end;
    uint32_t cb;
    uint16_t major_runtime_version;
    uint16_t minor_runtime_version;
    clim_directory metadata;
    uint32_t flags;
    uint32_t entry_point_token;
    clim_directory resources;
    clim_directory strong_name_signature;
    clim_directory code_manager_table;
    clim_directory vtable_fixups;
    clim_directory export_address_table_jumps;
    clim_directory managed_native_header;
} clim_header;

/* The first members of the runs of every step-th owner. */
typedef struct clim_starts {
    uint32_t step;
    uint32_t starts[256];
} clim_starts;

/* What opening found of a root. */
typedef struct clim_found {
    clim_starts fields;
    clim_starts methods;
    clim_starts params;
    clim_starts events;
    clim_starts properties;
    bool in_order[45];
    bool utf8_texts;
} clim_found;

/* An opened root, or none. No call is needed to free it. Callers may read only is_open. */
typedef struct clim_view {
    clim_bytes root;
    clim_found found;
    bool is_open;
} clim_view;

/* The kind of a cell, and the fields of clim_cell that belong to it. The other fields of a cell that a call writes
 * are 0 or no bytes. Those of a cell that is given to clim_tables are not read. */
enum clim_kind {
    CLIM_NO_KIND = 0,   /* no cell: the kind in CLIM_NO_CELL */
    CLIM_NUMBER = 1,    /* number */
    CLIM_TEXT = 2,      /* bytes, in UTF-8 */
    CLIM_BLOB = 3,      /* bytes */
    CLIM_NULL_GUID = 4,
    CLIM_GUID = 5,      /* guid, in the byte order of the file */
    CLIM_NULL_ROW = 6,
    CLIM_ROW = 7,       /* table, and the row in number */
    CLIM_START = 8,     /* number: the first row of a run; clim_members returns the entire run */
    CLIM_SIGNATURE = 9  /* bytes: the blob of a signature (II.23.2) */
};

typedef struct clim_cell {
    clim_bytes bytes;
    uint32_t number;
    uint8_t kind;
    uint8_t table;
    uint8_t guid[16];
} clim_cell;

/* What an item of the value of a custom attribute is (II.23.3). */
enum clim_item_kind {
    CLIM_NO_ITEM_KIND = 0,     /* no item: the kind in CLIM_NO_ITEM */
    CLIM_FIXED_ARGUMENT = 1,   /* the next argument of the constructor */
    CLIM_ELEMENT = 2,          /* the next element of the array before it */
    CLIM_NAMED_COUNT = 3,      /* number: the number of named arguments, which follow; all fixed ones are before it */
    CLIM_FIELD_ARGUMENT = 4,   /* the next named argument: it sets the field with this name */
    CLIM_PROPERTY_ARGUMENT = 5 /* the next named argument: it sets the property with this name */
};

/* What the value of an argument or an element is. */
enum clim_value_form {
    CLIM_NO_VALUE = 0,    /* nothing: the item is a CLIM_NAMED_COUNT */
    CLIM_PLAIN_VALUE = 1, /* a value of a type */
    CLIM_BOXED_VALUE = 2, /* the same, in an object: the argument, or the element, has the type object */
    CLIM_ARRAY = 3        /* an array of elements of a type. number: of the elements, which follow; 0 if it is null */
};

/* The type of a value, or of the elements of an array (II.23.1.16), and the field that contains a value. An enum has the
 * type of its numbers. */
enum clim_value_type {
    CLIM_BOOLEAN = 0x02, /* number: 0 or 1 */
    CLIM_CHAR = 0x03,    /* number: a UTF-16 unit */
    CLIM_I1 = 0x04,      /* a signed number: (int8_t)number; CLIM_I2, CLIM_I4 and CLIM_I8 likewise */
    CLIM_U1 = 0x05,      /* an unsigned number: number */
    CLIM_I2 = 0x06,
    CLIM_U2 = 0x07,
    CLIM_I4 = 0x08,
    CLIM_U4 = 0x09,
    CLIM_I8 = 0x0A,
    CLIM_U8 = 0x0B,
    CLIM_R4 = 0x0C,          /* the low 32 bits of number are the bits of a float */
    CLIM_R8 = 0x0D,          /* number has the bits of a double */
    CLIM_STRING = 0x0E,      /* text, in UTF-8 */
    CLIM_SYSTEM_TYPE = 0x50, /* text: the name of a type in UTF-8, such as "System.String, mscorlib" */
    CLIM_OBJECT = 0x51       /* only of the elements of an array: each is a CLIM_BOXED_VALUE */
};

/* An item of the value of a custom attribute. The fields that do not belong to it are 0 or no bytes. */
typedef struct clim_attribute_item {
    clim_bytes name; /* of a CLIM_FIELD_ARGUMENT or a CLIM_PROPERTY_ARGUMENT, in UTF-8 */
    clim_bytes text;
    uint64_t number;
    uint8_t kind;    /* one of enum clim_item_kind */
    uint8_t form;    /* one of enum clim_value_form */
    uint8_t type;    /* one of enum clim_value_type, or 0 */
    bool is_null;    /* the string, the name of a type or the array is null */
} clim_attribute_item;

/* A stream header of a root (II.24.2.2): the name, which the standard need not define, in ASCII and at most 32
 * characters; the offset of the header, and the offset and the size of the stream, in bytes from the start of the
 * root. */
typedef struct clim_stream_header {
    clim_bytes name;
    size_t header_offset;
    uint32_t offset;
    uint32_t size;
} clim_stream_header;

/* The cell of a table that contains a byte: its offset in bytes from the start of the root, its size in bytes, which
 * is 1, 2 or 4, its column and row, and its table. */
typedef struct clim_location {
    size_t offset;
    size_t size;
    size_t column;
    uint32_t row;
    uint8_t table;
} clim_location;

/* What differs between two roots, and the fields of clim_difference that belong to it. The other fields are 0. */
enum clim_difference_kind {
    CLIM_NO_DIFFERENCE_KIND = 0, /* nothing: the kind in CLIM_NO_DIFFERENCE */
    CLIM_VERSION_DIFFERS = 1,    /* the version string (II.24.2.1) */
    CLIM_USER_DIFFERS = 2,       /* the bytes of #US, padded with zeros to a multiple of four (II.24.2.4) */
    CLIM_COUNT_DIFFERS = 3,      /* the number of rows of a table: table, left_count and right_count */
    CLIM_CELL_DIFFERS = 4        /* a cell of a row that both roots have: table, row and column */
};

typedef struct clim_difference {
    size_t column;
    uint32_t row;
    uint32_t left_count;
    uint32_t right_count;
    uint8_t kind;
    uint8_t table;
} clim_difference;

/* A row that is given to clim_tables: its cells in the order of the columns, and the number of its table. A row of
 * Constant has three cells: its padding byte is none (II.22.9). */
typedef struct clim_row {
    const clim_cell *cells;
    size_t count;
    uint8_t table;
} clim_row;

/* The first rule that tables break: its number, and the table, the row and the column where they break it. Rows count
 * from 1 in their table, and columns from 0. Fields that the rule does not concern are 0. */
typedef struct clim_refusal {
    size_t column;
    uint32_t row;
    uint16_t code;
    uint8_t table;
} clim_refusal;

/* What becomes of the strong name in a copy of a file, whose hash is no longer right (II.25.3.3). */
enum clim_strong_name {
    CLIM_KEEP_STRONG_NAME = 1, /* its flag and its directory stay; a tool that has the key can write the hash again */
    CLIM_CLEAR_STRONG_NAME = 2 /* its flag is cleared, and its directory is 0 */
};

/* The tables, by their numbers (II.22). */
enum clim_table {
    CLIM_MODULE = 0x00,
    CLIM_TYPE_REF = 0x01,
    CLIM_TYPE_DEF = 0x02,
    CLIM_FIELD = 0x04,
    CLIM_METHOD_DEF = 0x06,
    CLIM_PARAM = 0x08,
    CLIM_INTERFACE_IMPL = 0x09,
    CLIM_MEMBER_REF = 0x0A,
    CLIM_CONSTANT = 0x0B,
    CLIM_CUSTOM_ATTRIBUTE = 0x0C,
    CLIM_FIELD_MARSHAL = 0x0D,
    CLIM_DECL_SECURITY = 0x0E,
    CLIM_CLASS_LAYOUT = 0x0F,
    CLIM_FIELD_LAYOUT = 0x10,
    CLIM_STAND_ALONE_SIG = 0x11,
    CLIM_EVENT_MAP = 0x12,
    CLIM_EVENT = 0x14,
    CLIM_PROPERTY_MAP = 0x15,
    CLIM_PROPERTY = 0x17,
    CLIM_METHOD_SEMANTICS = 0x18,
    CLIM_METHOD_IMPL = 0x19,
    CLIM_MODULE_REF = 0x1A,
    CLIM_TYPE_SPEC = 0x1B,
    CLIM_IMPL_MAP = 0x1C,
    CLIM_FIELD_RVA = 0x1D,
    CLIM_ASSEMBLY = 0x20,
    CLIM_ASSEMBLY_PROCESSOR = 0x21,
    CLIM_ASSEMBLY_OS = 0x22,
    CLIM_ASSEMBLY_REF = 0x23,
    CLIM_ASSEMBLY_REF_PROCESSOR = 0x24,
    CLIM_ASSEMBLY_REF_OS = 0x25,
    CLIM_FILE = 0x26,
    CLIM_EXPORTED_TYPE = 0x27,
    CLIM_MANIFEST_RESOURCE = 0x28,
    CLIM_NESTED_CLASS = 0x29,
    CLIM_GENERIC_PARAM = 0x2A,
    CLIM_METHOD_SPEC = 0x2B,
    CLIM_GENERIC_PARAM_CONSTRAINT = 0x2C
};

/* The columns of each table, by their index in a row (II.22). c/columns makes these lists. */
enum clim_module_column {
    CLIM_MODULE_GENERATION = 0,
    CLIM_MODULE_NAME = 1,
    CLIM_MODULE_MVID = 2,
    CLIM_MODULE_ENC_ID = 3,
    CLIM_MODULE_ENC_BASE_ID = 4
};
enum clim_type_ref_column {
    CLIM_TYPE_REF_RESOLUTION_SCOPE = 0,
    CLIM_TYPE_REF_TYPE_NAME = 1,
    CLIM_TYPE_REF_TYPE_NAMESPACE = 2
};
enum clim_type_def_column {
    CLIM_TYPE_DEF_FLAGS = 0,
    CLIM_TYPE_DEF_TYPE_NAME = 1,
    CLIM_TYPE_DEF_TYPE_NAMESPACE = 2,
    CLIM_TYPE_DEF_EXTENDS = 3,
    CLIM_TYPE_DEF_FIELD_LIST = 4,
    CLIM_TYPE_DEF_METHOD_LIST = 5
};
enum clim_field_column {
    CLIM_FIELD_FLAGS = 0,
    CLIM_FIELD_NAME = 1,
    CLIM_FIELD_SIGNATURE = 2
};
enum clim_method_def_column {
    CLIM_METHOD_DEF_RVA = 0,
    CLIM_METHOD_DEF_IMPL_FLAGS = 1,
    CLIM_METHOD_DEF_FLAGS = 2,
    CLIM_METHOD_DEF_NAME = 3,
    CLIM_METHOD_DEF_SIGNATURE = 4,
    CLIM_METHOD_DEF_PARAM_LIST = 5
};
enum clim_param_column {
    CLIM_PARAM_FLAGS = 0,
    CLIM_PARAM_SEQUENCE = 1,
    CLIM_PARAM_NAME = 2
};
enum clim_interface_impl_column {
    CLIM_INTERFACE_IMPL_CLASS = 0,
    CLIM_INTERFACE_IMPL_INTERFACE = 1
};
enum clim_member_ref_column {
    CLIM_MEMBER_REF_CLASS = 0,
    CLIM_MEMBER_REF_NAME = 1,
    CLIM_MEMBER_REF_SIGNATURE = 2
};
enum clim_constant_column {
    CLIM_CONSTANT_TYPE = 0,
    CLIM_CONSTANT_PARENT = 1,
    CLIM_CONSTANT_VALUE = 2
};
enum clim_custom_attribute_column {
    CLIM_CUSTOM_ATTRIBUTE_PARENT = 0,
    CLIM_CUSTOM_ATTRIBUTE_TYPE = 1,
    CLIM_CUSTOM_ATTRIBUTE_VALUE = 2
};
enum clim_field_marshal_column {
    CLIM_FIELD_MARSHAL_PARENT = 0,
    CLIM_FIELD_MARSHAL_NATIVE_TYPE = 1
};
enum clim_decl_security_column {
    CLIM_DECL_SECURITY_ACTION = 0,
    CLIM_DECL_SECURITY_PARENT = 1,
    CLIM_DECL_SECURITY_PERMISSION_SET = 2
};
enum clim_class_layout_column {
    CLIM_CLASS_LAYOUT_PACKING_SIZE = 0,
    CLIM_CLASS_LAYOUT_CLASS_SIZE = 1,
    CLIM_CLASS_LAYOUT_PARENT = 2
};
enum clim_field_layout_column {
    CLIM_FIELD_LAYOUT_OFFSET = 0,
    CLIM_FIELD_LAYOUT_FIELD = 1
};
enum clim_stand_alone_sig_column {
    CLIM_STAND_ALONE_SIG_SIGNATURE = 0
};
enum clim_event_map_column {
    CLIM_EVENT_MAP_PARENT = 0,
    CLIM_EVENT_MAP_EVENT_LIST = 1
};
enum clim_event_column {
    CLIM_EVENT_EVENT_FLAGS = 0,
    CLIM_EVENT_NAME = 1,
    CLIM_EVENT_EVENT_TYPE = 2
};
enum clim_property_map_column {
    CLIM_PROPERTY_MAP_PARENT = 0,
    CLIM_PROPERTY_MAP_PROPERTY_LIST = 1
};
enum clim_property_column {
    CLIM_PROPERTY_FLAGS = 0,
    CLIM_PROPERTY_NAME = 1,
    CLIM_PROPERTY_TYPE = 2
};
enum clim_method_semantics_column {
    CLIM_METHOD_SEMANTICS_SEMANTICS = 0,
    CLIM_METHOD_SEMANTICS_METHOD = 1,
    CLIM_METHOD_SEMANTICS_ASSOCIATION = 2
};
enum clim_method_impl_column {
    CLIM_METHOD_IMPL_CLASS = 0,
    CLIM_METHOD_IMPL_METHOD_BODY = 1,
    CLIM_METHOD_IMPL_METHOD_DECLARATION = 2
};
enum clim_module_ref_column {
    CLIM_MODULE_REF_NAME = 0
};
enum clim_type_spec_column {
    CLIM_TYPE_SPEC_SIGNATURE = 0
};
enum clim_impl_map_column {
    CLIM_IMPL_MAP_MAPPING_FLAGS = 0,
    CLIM_IMPL_MAP_MEMBER_FORWARDED = 1,
    CLIM_IMPL_MAP_IMPORT_NAME = 2,
    CLIM_IMPL_MAP_IMPORT_SCOPE = 3
};
enum clim_field_rva_column {
    CLIM_FIELD_RVA_RVA = 0,
    CLIM_FIELD_RVA_FIELD = 1
};
enum clim_assembly_column {
    CLIM_ASSEMBLY_HASH_ALG_ID = 0,
    CLIM_ASSEMBLY_MAJOR_VERSION = 1,
    CLIM_ASSEMBLY_MINOR_VERSION = 2,
    CLIM_ASSEMBLY_BUILD_NUMBER = 3,
    CLIM_ASSEMBLY_REVISION_NUMBER = 4,
    CLIM_ASSEMBLY_FLAGS = 5,
    CLIM_ASSEMBLY_PUBLIC_KEY = 6,
    CLIM_ASSEMBLY_NAME = 7,
    CLIM_ASSEMBLY_CULTURE = 8
};
enum clim_assembly_processor_column {
    CLIM_ASSEMBLY_PROCESSOR_PROCESSOR = 0
};
enum clim_assembly_os_column {
    CLIM_ASSEMBLY_OS_OS_PLATFORM_ID = 0,
    CLIM_ASSEMBLY_OS_OS_MAJOR_VERSION = 1,
    CLIM_ASSEMBLY_OS_OS_MINOR_VERSION = 2
};
enum clim_assembly_ref_column {
    CLIM_ASSEMBLY_REF_MAJOR_VERSION = 0,
    CLIM_ASSEMBLY_REF_MINOR_VERSION = 1,
    CLIM_ASSEMBLY_REF_BUILD_NUMBER = 2,
    CLIM_ASSEMBLY_REF_REVISION_NUMBER = 3,
    CLIM_ASSEMBLY_REF_FLAGS = 4,
    CLIM_ASSEMBLY_REF_PUBLIC_KEY_OR_TOKEN = 5,
    CLIM_ASSEMBLY_REF_NAME = 6,
    CLIM_ASSEMBLY_REF_CULTURE = 7,
    CLIM_ASSEMBLY_REF_HASH_VALUE = 8
};
enum clim_assembly_ref_processor_column {
    CLIM_ASSEMBLY_REF_PROCESSOR_PROCESSOR = 0,
    CLIM_ASSEMBLY_REF_PROCESSOR_ASSEMBLY_REF = 1
};
enum clim_assembly_ref_os_column {
    CLIM_ASSEMBLY_REF_OS_OS_PLATFORM_ID = 0,
    CLIM_ASSEMBLY_REF_OS_OS_MAJOR_VERSION = 1,
    CLIM_ASSEMBLY_REF_OS_OS_MINOR_VERSION = 2,
    CLIM_ASSEMBLY_REF_OS_ASSEMBLY_REF = 3
};
enum clim_file_column {
    CLIM_FILE_FLAGS = 0,
    CLIM_FILE_NAME = 1,
    CLIM_FILE_HASH_VALUE = 2
};
enum clim_exported_type_column {
    CLIM_EXPORTED_TYPE_FLAGS = 0,
    CLIM_EXPORTED_TYPE_TYPE_DEF_ID = 1,
    CLIM_EXPORTED_TYPE_TYPE_NAME = 2,
    CLIM_EXPORTED_TYPE_TYPE_NAMESPACE = 3,
    CLIM_EXPORTED_TYPE_IMPLEMENTATION = 4
};
enum clim_manifest_resource_column {
    CLIM_MANIFEST_RESOURCE_OFFSET = 0,
    CLIM_MANIFEST_RESOURCE_FLAGS = 1,
    CLIM_MANIFEST_RESOURCE_NAME = 2,
    CLIM_MANIFEST_RESOURCE_IMPLEMENTATION = 3
};
enum clim_nested_class_column {
    CLIM_NESTED_CLASS_NESTED_CLASS = 0,
    CLIM_NESTED_CLASS_ENCLOSING_CLASS = 1
};
enum clim_generic_param_column {
    CLIM_GENERIC_PARAM_NUMBER = 0,
    CLIM_GENERIC_PARAM_FLAGS = 1,
    CLIM_GENERIC_PARAM_OWNER = 2,
    CLIM_GENERIC_PARAM_NAME = 3
};
enum clim_method_spec_column {
    CLIM_METHOD_SPEC_METHOD = 0,
    CLIM_METHOD_SPEC_INSTANTIATION = 1
};
enum clim_generic_param_constraint_column {
    CLIM_GENERIC_PARAM_CONSTRAINT_OWNER = 0,
    CLIM_GENERIC_PARAM_CONSTRAINT_CONSTRAINT = 1
};
/* End of the columns. */

/* The version of this header. It changes if a program that was compiled before can no longer use the library. */
#define CLIM_ABI_VERSION 1

/* The stack that a call needs at most, in bytes. */
#define CLIM_STACK 393216

#define CLIM_NO_BYTES {(const uint8_t *)"", 0}
#define CLIM_NO_FAULT {0, 0, 0}
#define CLIM_NO_CELL {CLIM_NO_BYTES, 0, CLIM_NO_KIND, 0, {0}}
#define CLIM_NO_ITEM {CLIM_NO_BYTES, CLIM_NO_BYTES, 0, CLIM_NO_ITEM_KIND, CLIM_NO_VALUE, 0, false}
#define CLIM_NO_STREAM {CLIM_NO_BYTES, 0, 0, 0}
#define CLIM_NO_LOCATION {0, 0, 0, 0, 0}
#define CLIM_NO_DIFFERENCE {0, 0, 0, 0, CLIM_NO_DIFFERENCE_KIND, 0}
#define CLIM_NO_REFUSAL {0, 0, 0, 0}
#define CLIM_NO_STARTS {1, {0}}
#define CLIM_NOT_FOUND {CLIM_NO_STARTS, CLIM_NO_STARTS, CLIM_NO_STARTS, CLIM_NO_STARTS, CLIM_NO_STARTS, {false}, false}
#define CLIM_CLOSED {CLIM_NO_BYTES, CLIM_NOT_FOUND, false}
#define CLIM_NO_HEADER \
    {0, 0, 0, 0, 0, 0, {0, 0}, 0, 0, {0, 0}, {0, 0}, {0, 0}, {0, 0}, {0, 0}, {0, 0}}

/* The CLIM_ABI_VERSION of the library. */
uint32_t clim_abi_version(void);

/* sizeof(clim_view) in the library, for callers that do not include this header. */
size_t clim_view_size(void);

/* Whether a file satisfies all rules of II.22 to II.25. Otherwise writes *fault, the first rule that it breaks.
 * Reads the len bytes at file. */
bool clim_check(const uint8_t *file, size_t len, clim_fault *fault);

/* The same for a bare metadata root, without the file around it (II.24.2.1). */
bool clim_check_root(const uint8_t *root, size_t len, clim_fault *fault);

/* True if the file's headers and the directory of its root satisfy their rules; *header is then the file's CLI header.
 * Otherwise writes *fault, and *header is unchanged. Does not check tables. Reads the len bytes at file. */
bool clim_read_header(const uint8_t *file, size_t len, clim_header *header, clim_fault *fault);

/* Returns what clim_check returns. If that is true, writes *view, the view of the file's root; otherwise *view is
 * unchanged. The view, and the texts and blobs from it, point into the bytes at file, which must not change. */
bool clim_open(const uint8_t *file, size_t len, clim_view *view, clim_fault *fault);

/* The same for a bare metadata root. */
bool clim_open_root(const uint8_t *root, size_t len, clim_view *view, clim_fault *fault);

/* The same as clim_check, within a budget: the number of bytes of texts and signatures that it may check at most. Use
 * these four calls for untrusted files: the time to check a crafted file can grow with the square of its size. Within
 * a budget it grows with the sum of the size and the budget.
 *
 * If the budget does not suffice, *spent becomes true, the call returns false, and *fault is unchanged. Otherwise
 * *spent becomes false. The budget is spent only if the texts and the signature blobs of all rows count more bytes
 * than the budget, and all earlier rules hold. In any other case the call returns and writes what clim_check does. A
 * blob counts its length each time that it is checked; one that was accepted shortly before is free. If #Strings is
 * UTF-8 as a whole, texts are free. Otherwise a text counts its bytes in each row that refers to it, up to a 1024th of
 * the heap. The samples of this library need a budget below their own size. */
bool clim_check_within(const uint8_t *file, size_t len, uint64_t budget, clim_fault *fault, bool *spent);

/* The same for a bare metadata root. */
bool clim_check_root_within(const uint8_t *root, size_t len, uint64_t budget, clim_fault *fault, bool *spent);

/* The same as clim_open, within a budget, as for clim_check_within. If it returns false, *view is unchanged. */
bool clim_open_within(const uint8_t *file, size_t len, uint64_t budget, clim_view *view, clim_fault *fault,
                      bool *spent);

/* The same for a bare metadata root. */
bool clim_open_root_within(const uint8_t *root, size_t len, uint64_t budget, clim_view *view, clim_fault *fault,
                           bool *spent);

/* Writes *offset, the offset in the file of size bytes at a relative virtual address (II.25.3): the method body of a
 * row of MethodDef, the data of a row of FieldRVA, or a directory of a clim_header. They are in the first section that
 * contains all of them. False if the file is no image, or no section contains them, or the file ends before they do;
 * then *offset is unchanged. It checks the PE headers alone (II.25.2). Reads the file. */
bool clim_offset_of(const uint8_t *file, size_t len, uint32_t rva, uint32_t size, size_t *offset);

/* Writes the name of the rule with this number, for example "BadIndex"; no bytes if no rule has it. The bytes belong
 * to the library. */
void clim_fault_name(uint16_t code, clim_bytes *name);

/* Writes the text that explains a rule into buffer[0] to buffer[room - 1]; characters that do not fit are left out.
 * It is what clim explain prints, but no line is broken: the number and the name of the rule and what is wrong, an
 * empty line, and a line each for the rule, its section, where the offset of a fault points, and the usual cause,
 * each ending in a line feed. Returns the length of the entire text, which can be more than room, and is below
 * 1,000 today. No NUL follows it. Returns 0 if no rule has the number; the buffer is then unchanged. */
size_t clim_explain(uint16_t code, uint8_t *buffer, size_t room);

/* Writes the name of a table, for example "TypeDef"; no bytes if no table has the number. The bytes belong to the
 * library. */
void clim_table_name(uint8_t table, clim_bytes *name);

/* The number of cells in a row of a table; 0 if no table has the number. */
size_t clim_cell_count(uint8_t table);

/* Writes the name of a column, for example "TypeName"; no bytes if the table has no such column. The bytes belong to
 * the library. */
void clim_column_name(uint8_t table, size_t column, clim_bytes *name);

/* Writes the version string of the root, in UTF-8; no bytes if the view is not open. Reads *view. */
void clim_version(const clim_view *view, clim_bytes *version);

/* Writes the bytes of #US, as they are in the root (II.24.2.4); no bytes if the view is not open. Reads *view. */
void clim_user(const clim_view *view, clim_bytes *user);

/* The number of stream headers of the root (II.24.2.2), at most 65,535; 0 if the view is not open. Reads *view and
 * the headers in the root. */
size_t clim_stream_count(const clim_view *view);

/* Writes *stream, the stream header with an index, from 0, in the order of the root. False if the view is not open, or
 * has fewer headers; then *stream is unchanged. Reads *view and all headers. So reading them one after another takes
 * time that grows with the square of their number: of an untrusted root, read no more than you need. */
bool clim_stream(const clim_view *view, size_t index, clim_stream_header *stream);

/* The flag of a user string of no bytes, which has no last byte. */
#define CLIM_NO_FLAG 256

/* Writes the UTF-16 units of the user string of a token (II.24.2.4) into units[0] to units[room - 1]; units
 * that do not fit are left out, and the other elements are unchanged. Writes *count, the number of units of the
 * string, which can be more than room, and *flag, its last byte, or CLIM_NO_FLAG for a string of no bytes. The units
 * need not be valid UTF-16. The high byte of the token is 0x70, and the others are the offset in #US, which counts as
 * padded with zeros to a multiple of four. False if the view is not open, the token has another high byte, or no user
 * string is at the offset; then nothing is written. Reads *view and the root. */
bool clim_user_string(const clim_view *view, uint32_t token, uint16_t *units, size_t room, size_t *count,
                      uint16_t *flag);

/* Writes the text of a GUID, such as "{03020100-0504-0706-0809-0a0b0c0d0e0f}", into buffer[0] to buffer[room - 1];
 * characters that do not fit are left out. Returns 38, the length of the text. No NUL follows it. Reads guid[0] to
 * guid[15]. */
size_t clim_guid_text(const uint8_t *guid, uint8_t *buffer, size_t room);

/* The number of rows in a table; 0 if no table has the number, or the view is not open. Reads *view. */
uint32_t clim_count(const clim_view *view, uint8_t table);

/* Writes *cell, a cell of a row. False if the view is not open, or has no such table, row or column; then *cell is
 * unchanged. Reads *view and the root. For a start that is null in the file it scans the rows that follow, at most
 * 1/256 of the table. */
bool clim_cell_at(const clim_view *view, uint8_t table, uint32_t row, size_t column, clim_cell *cell);

/* Writes the cells of a column, from the row first on, into cells[0] to cells[room - 1]. Returns the number of cells
 * that it wrote; the other elements are unchanged. 0 if the view is not open, or has no such table, row or column.
 * Reads *view and the root. Much faster than a call of clim_cell_at for each cell. */
size_t clim_cells(const clim_view *view, uint8_t table, uint32_t first, size_t column, clim_cell *cells, size_t room);

/* What clim_signature_text, clim_row_name and clim_declaration return for a text of more than 65,536 bytes,
 * clim_canonical_root, clim_digest and clim_tables for a root of more than 2^30 bytes, and clim_embed for such a root or
 * such a copy. */
#define CLIM_TOO_LONG SIZE_MAX

/* Writes a signature in the notation of ILAsm (II.7.1, II.15.3), such as "method instance string *(int32, class
 * 01000007)", into buffer[0] to buffer[room - 1]; characters that do not fit are left out. A type is written as its
 * token: two hexadecimal digits of the table and six of the row, which clim_cell_at reads. The text is ASCII. Returns
 * the length of the entire text, which can be more than room: so call with room 0 to get the length. No NUL follows
 * the text. Returns 0 if the view is not open, or has no such table, row or column, or the column has no signatures;
 * the buffer is then unchanged. Returns CLIM_TOO_LONG for a text of more than 65,536 bytes, which a crafted file can
 * require; the buffer then contains the first 65,536 bytes of it, or those that fit. It checks the entire blob first.
 * So its time is linear in the blob, even if the text is too long. Reads *view and the root. */
size_t clim_signature_text(const clim_view *view, uint8_t table, uint32_t row, size_t column, uint8_t *buffer,
                           size_t room);

/* Writes the rows of the table member that a row of the table owner owns: from *first to before *past. Types own
 * fields and methods, methods own parameters, and the rows of EventMap and PropertyMap own events and properties.
 * False if the view is not open, has no such row, or the owner table does not own rows of the member table; then both
 * are unchanged. Reads *view and the root. */
bool clim_members(const clim_view *view, uint8_t owner, uint32_t row, uint8_t member, uint32_t *first,
                  uint32_t *past);

/* The first row of TypeDef with a namespace and a name; 0 if there is none, or the view is not open. Reads *view, the
 * root and both names. It scans the types in order. */
uint32_t clim_find_type(const clim_view *view, const uint8_t *name_space, size_t name_space_len, const uint8_t *name,
                        size_t name_len);

/* Writes the rows of a table whose key is the row key_row of the table key_table (II.22), in ascending order, into
 * rows[0] to rows[room - 1]. Returns the number of rows that it wrote; the other elements are unchanged. 0 if the view
 * is not open, no table has one of the numbers, or the table has no key. It uses binary search if the table is in order
 * of its key, as tables usually are. Reads *view and the root.
 *
 *     uint32_t rows[16];
 *     size_t many = clim_rows_by_key(&view, CLIM_CUSTOM_ATTRIBUTE, CLIM_TYPE_DEF, row, rows, 16);
 */
size_t clim_rows_by_key(const clim_view *view, uint8_t table, uint8_t key_table, uint32_t key_row, uint32_t *rows,
                        size_t room);

/* What a call that allocates returns if memory runs out. */
#define CLIM_NO_MEMORY (SIZE_MAX - 1)

/* Writes the name of a row in the notation of ILAsm (II.5.3) into buffer[0] to buffer[room - 1]; characters that do not
 * fit are left out. A token contains the number of the table in its high byte, and the row in the others.
 *
 *     char name[200];
 *     size_t len = clim_row_name(&view, 0x06000002, (uint8_t *)name, sizeof name); // Hello.Greeter::Greet
 *
 *   - A type: Namespace.Outer/Inner, with at most 64 types, and ".." before them if there are more. A row of TypeSpec is
 *     named by the type that it is.
 *   - A field, a method, an event, a property or a row of MemberRef: its type or its module, "::", and its own name.
 *   - An exported type: its namespace, a dot, and its own name.
 *   - A row of ModuleRef, AssemblyRef, File or GenericParam: its own name. Any other row: "..".
 *
 * A name that is no identifier is quoted, as in '<Module>': a quote, a backslash and a byte that is not printable ASCII
 * are \x and two hexadecimal digits. So the text is ASCII, and each name in it ends where a reader sees it end.
 *
 * Returns the length of the entire name, which can be more than room: so call with room 0 to get the length. No NUL
 * follows it. Returns 0 if the view is not open, or has no such row; the buffer is then unchanged. Returns CLIM_TOO_LONG
 * for a name of more than 65,536 bytes; the buffer then contains the first 65,536 bytes of it, or those that fit.
 * Takes time in proportion to the names that it reads, which end after 65,536 bytes are written. Reads *view and the
 * root. Allocates nothing. */
size_t clim_row_name(const clim_view *view, uint32_t token, uint8_t *buffer, size_t room);

/* Writes the declaration of a type, a field, a method or a property in the notation of ILAsm, with the names of types,
 * as clim_row_name writes a name: what clim outline prints of the row between the words of its flags.
 *
 *   - A type (II.10.1): its full name.
 *   - A field (II.16.1): its signature, a space, and its own name, such as "class System.Type count".
 *   - A method (II.15.3): "string Hello.Greeter::Greet(string name, int32 times)". A parameter has the name of the first
 *     row of Param with its position.
 *   - A property (II.17): "instance int32 Hello.Greeter::Item(string)".
 *
 * Returns what clim_row_name does, and 0 for a row of any other table too. Returns CLIM_NO_MEMORY if memory runs out;
 * what is in the buffer is then not specified. Takes time in proportion to what it reads, and n log n for the n
 * parameters of a method. Reads *view and the root. Allocates in proportion to the rows of Param of a method. */
size_t clim_declaration(const clim_view *view, uint32_t token, uint8_t *buffer, size_t room);

/* What clim_attribute_items returns for a value that is not decoded. */
#define CLIM_NOT_DECODED (SIZE_MAX - 8)

/* Writes the items of the value of the custom attribute in a row of CustomAttribute (II.22.10, II.23.3) into items[0] to
 * items[room - 1]; items that do not fit are left out, and the other elements are unchanged. Returns the number of all
 * items, which can be more than room: at least 1, and at most the number of bytes of the value. The items are in the order
 * of the value: the fixed arguments, the number of named arguments, and these. The elements of an array follow it.
 *
 *     // [Sizes(new[] {1, 2}, Owner = "me")]
 *     clim_attribute_item items[] = {CLIM_NO_ITEM, CLIM_NO_ITEM, CLIM_NO_ITEM, CLIM_NO_ITEM, CLIM_NO_ITEM};
 *     size_t count = clim_attribute_items(&view, row, items, 5);
 *     // 5: CLIM_FIXED_ARGUMENT of CLIM_ARRAY and CLIM_I4 with number 2, CLIM_ELEMENT 1, CLIM_ELEMENT 2,
 *     // CLIM_NAMED_COUNT 1, CLIM_PROPERTY_ARGUMENT "Owner" of CLIM_STRING "me"
 *
 * The types of the arguments are those of the constructor's parameters. Returns CLIM_NOT_DECODED if these are not all
 * known, or the bytes are no value for them: a parameter is an enum of another file, whose size is unknown, or has a type
 * that attributes cannot have; there are more than 64 parameters; an object contains an array, or an enum by its name; or
 * a named argument is an enum. Returns 0 if the view is not open, or has no such row. Then the items are unchanged.
 *
 * Names and texts point into the root. Takes time in proportion to the bytes of the value, and to the signature of the
 * constructor, of which it reads at most 8,320 bytes; for a parameter that is an enum it reads two starts as clim_cell_at
 * does, and at most 16 fields. Rows may share one value: so of an untrusted file, the values of all rows together can
 * take time that grows with the square of its size. Reads *view and the root. */
size_t clim_attribute_items(const clim_view *view, uint32_t row, clim_attribute_item *items, size_t room);

/* Writes the canonical root of the view (II.24.2) into buffer[0] to buffer[room - 1], if there is room for all of it;
 * otherwise the buffer is unchanged. Returns the length of the root, which can be more than room. It is what clim
 * rewrite writes: a root with the same metadata and nothing else, each text and blob once, in an order that depends on
 * the metadata alone. So two files have the same canonical root if and only if they have the same metadata.
 *
 * Each call makes the root anew, so pass a room that usually suffices, such as view->root.len. Returns 0 if the
 * view is not open, CLIM_TOO_LONG for a root of more than 2^30 bytes, and CLIM_NO_MEMORY if memory runs out; the buffer
 * is then unchanged. Reads *view and the root. Allocates. */
size_t clim_canonical_root(const clim_view *view, uint8_t *buffer, size_t room);

/* Writes the SHA-256 of the canonical root into digest[0] to digest[31], and returns the length of that root. Files
 * with the same metadata have the same digest. Returns 0, CLIM_TOO_LONG or CLIM_NO_MEMORY as clim_canonical_root does;
 * the digest is then unchanged. Reads *view and the root. Allocates. */
size_t clim_digest(const clim_view *view, uint8_t *digest);

/* Writes *location, the cell that contains the byte at an offset (II.24.2.6). The offset counts from the start of the
 * root: from an offset in a file, subtract its root_start in clim_header. At most one cell contains a byte. False if
 * the view is not open, or no cell contains the byte: it is outside the tables, or is the padding byte of Constant
 * (II.22.9); then *location is unchanged. Reads *view and the headers in the root. */
bool clim_where(const clim_view *view, size_t offset, clim_location *location);

/* What clim_compare returns if both views have the same metadata, and if they do not. */
#define CLIM_EQUAL 1
#define CLIM_DIFFERENT 2

/* Returns CLIM_EQUAL if two views have the same metadata, and so the same canonical root. Otherwise returns
 * CLIM_DIFFERENT and writes *difference, the first that differs: the version string, the user strings, the number of
 * rows of a table, in the order of the tables, or a cell, in the order of tables, rows and columns. Texts, blobs and
 * signatures are compared by what they are, and not by where they are in the root.
 *
 * Returns 0 if one of the views is not open, and CLIM_NO_MEMORY if memory runs out; then, and if nothing differs,
 * *difference is unchanged. Reads both views and their roots, the cells up to the first that differs. Allocates to remember
 * which texts and blobs it has compared, to decode signatures whose blobs have other bytes, for that one cell, and for
 * blobs that overlap, as the head of this file says. */
size_t clim_compare(const clim_view *left, const clim_view *right, clim_difference *difference);

/* Checks that rows satisfy all rules (II.22, II.24.2), and writes the canonical root of the metadata that they form
 * into buffer[0] to buffer[room - 1], if there is room for all of it; otherwise the buffer is unchanged. Returns the
 * length of the root, which can be more than room. clim_open_root opens the root. It then has these rows with these
 * cells, the version and the user strings, and clim_canonical_root writes the same bytes.
 *
 *     clim_cell cells[] = {{CLIM_NO_BYTES, 0, CLIM_NUMBER, 0, {0}},                                  // Generation
 *                          {{(const uint8_t *)"one.dll", 7}, 0, CLIM_TEXT, 0, {0}},                  // Name
 *                          {CLIM_NO_BYTES, 0, CLIM_NULL_GUID, 0, {0}},                               // Mvid
 *                          {CLIM_NO_BYTES, 0, CLIM_NULL_GUID, 0, {0}},                               // EncId
 *                          {CLIM_NO_BYTES, 0, CLIM_NULL_GUID, 0, {0}}};                              // EncBaseId
 *     clim_row rows[] = {{cells, 5, CLIM_MODULE}};
 *     uint8_t root[1000];
 *     clim_refusal refusal = CLIM_NO_REFUSAL;
 *     size_t len = clim_tables((const uint8_t *)"v4.0.30319", 10, (const uint8_t *)"", 0, rows, 1, root, 1000, &refusal);
 *
 * The version is that of the root, in UTF-8 without its NUL (II.24.2.1). The user strings are the bytes of #US
 * (II.24.2.4), as clim_user writes them, with zeros after them up to a multiple of four. Rows of different tables may
 * be mixed; those of one table are its rows in the order given, from 1 on. A cell has the kind that clim_cell_at
 * writes for its column; fields that do not belong to its kind are not read. So a cell that clim_cell_at wrote can be
 * given as it is. A signature consists of the bytes of its blob, in any encoding; the root contains its canonical
 * one.
 *
 * Returns 0 and writes *refusal if a rule is broken. It is the first of these:
 *   - 302 without a table, if the version is not UTF-8.
 *   - That of the first row, in the order given, that cannot be read. 509 with row and column 0, if no table has the
 *     number of the row. Otherwise at its first such cell: 509 for a kind of no cell, a text that is not UTF-8, a
 *     CLIM_ROW whose table does not exist, or a CLIM_SIGNATURE in a column that has none; 701 for a CLIM_SIGNATURE
 *     whose bytes are no signature of that column.
 *   - That of the first rule that the tables break: 302 and 510, for the version and the user strings; 406, for the
 *     number of rows of a table; 509, 506 and 507, for a cell; those from 602 to 699, for the links between rows, such
 *     as runs of members; and 702, for the rows that a signature refers to. clim_explain explains each.
 *
 * Returns CLIM_TOO_LONG for a root of more than 2^30 bytes, and CLIM_NO_MEMORY if memory runs out. Then, and if it
 * returns 0, the buffer is unchanged; if it returns another number, *refusal is. Call it with a room that usually
 * suffices, for each call checks the rows and makes the root anew: 4 bytes for each cell, the lengths of all texts
 * and blobs and 5 for each, 16 for each GUID, the user strings, and 1,000 are always enough. Reads the version, the
 * user strings, the rows, and what their cells point to. Allocates in proportion to these. */
size_t clim_tables(const uint8_t *version, size_t version_len, const uint8_t *user, size_t user_len,
                   const clim_row *rows, size_t row_count, uint8_t *buffer, size_t room, clim_refusal *refusal);

/* Why clim_embed makes no copy, beside CLIM_TOO_LONG and CLIM_NO_MEMORY. */
#define CLIM_BAD_FILE (SIZE_MAX - 2)        /* the file breaks a rule: *fault is the first one */
#define CLIM_BAD_ROOT (SIZE_MAX - 3)        /* the root breaks a rule: *fault is the first one */
#define CLIM_UNLIKE (SIZE_MAX - 4)          /* the root does not lead into the file */
#define CLIM_HEADERS_OVERLAP (SIZE_MAX - 5) /* the headers of the file overlap */
#define CLIM_OCCUPIED (SIZE_MAX - 6)        /* the range of the old root contains something else of the file */
#define CLIM_NO_ROOM (SIZE_MAX - 7)         /* there is no room for the root */

/* Writes a copy of a file with another root (II.25) into buffer[0] to buffer[room - 1], if there is room for all of it;
 * otherwise the buffer is unchanged. Returns the length of the copy, which can be more than room. It is what clim embed
 * writes: clim_open opens it, with the metadata of the root.
 *
 *     size_t len = clim_embed(file, size, root, root_len, CLIM_KEEP_STRONG_NAME, buffer, room, &fault);
 *     if (len >= CLIM_NO_ROOM) puts("no copy");
 *     else if (len > room) puts("ask again with more room");
 *
 * If root_len is 0, the root is the file's own canonical root, as clim_canonical_root writes it, and nothing is read
 * at root. Any other root must lead into the file: it has the same number of rows of MethodDef and of FieldRVA, with
 * the same RVAs; its #US has the same bytes, padded with zeros to a multiple of four; and it has no fewer rows of
 * File. So a program can read all cells of a file, change names, flags or signatures, make a root with clim_tables,
 * and embed that.
 *
 * The root goes where the old one is, if it fits there; otherwise into a new section, or else into the last section,
 * which becomes longer. All other bytes of the file stay, but for these fields of headers: where the root is, the
 * sections and sizes that this changes, the strong name if it is cleared, the directory of the Certificate Table,
 * which becomes 0, and the checksum, which is computed again if it was not 0.
 *
 *   - CLIM_HEADERS_OVERLAP: the PE headers begin within the MS-DOS header; or the CLI header or the metadata comes
 *     before the end of the section headers.
 *   - CLIM_OCCUPIED: the range of the old root contains a header, a directory, a method body or the data of a field.
 *   - CLIM_NO_ROOM: the root is longer than the old one, there is no room for another section header, and the last
 *     section cannot become longer.
 *
 * Returns 0 if strong_name is not one of enum clim_strong_name. If it returns 0 or one of the numbers for no copy,
 * the buffer is unchanged. *fault is unchanged unless it returns CLIM_BAD_FILE or CLIM_BAD_ROOT. Each call opens the
 * file and the root anew, so pass a room that usually suffices, such as size + root_len + 65,536. Reads the file and
 * the root. Allocates only if root_len is 0. */
size_t clim_embed(const uint8_t *file, size_t size, const uint8_t *root, size_t root_len, uint8_t strong_name,
                  uint8_t *buffer, size_t room, clim_fault *fault);

#ifdef __cplusplus
}
#endif
#endif
