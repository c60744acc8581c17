/* Tests of clim from C.
 *
 *     test show FILE [bare]      prints the tables as clim show does, each signature as its blob
 *     test texts FILE [bare]     the same, but each signature as its text
 *     test vary FILE [bare]      checks each prefix of the file, and the file with one byte set to 00 or FF, and
 *                                prints what clim check prints, one line each
 *     test rewrite FILE OUT [bare]   writes the canonical root to OUT, as clim rewrite does, and prints its digest
 *     test build FILE OUT [bare]     the same, but the root is that of tables with the rows of the file
 *     test write FILE FOLDER     writes these inputs into files of a folder, in the same order
 *     test calls FILE [bare]     compares calls with one another, and makes calls that must be rejected; the last line
 *                                is 'N passed, M failed'
 *     test compare FILE OTHER [bare]   prints the first difference of two files
 *     test explain FILE          prints what each rule means
 *     test times FILE [bare]     prints how long calls take
 *
 * Each input ends at the end of a page, and the next page may not be read.
 */
#define _DEFAULT_SOURCE
#include "clim.h"
#include "guarded.h"

#include <inttypes.h>
#include <string.h>
#include <time.h>
#include <ucontext.h>

_Static_assert(sizeof(clim_bytes) == 16, "clim_bytes");
_Static_assert(sizeof(clim_fault) == 16 && offsetof(clim_fault, layer) == 10, "clim_fault");
_Static_assert(sizeof(clim_header) == 96 && offsetof(clim_header, managed_native_header) == 88, "clim_header");
_Static_assert(sizeof(clim_starts) == 1028, "clim_starts");
_Static_assert(offsetof(clim_found, in_order) == 5140 && offsetof(clim_found, utf8_texts) == 5185, "clim_found");
_Static_assert(sizeof(clim_view) == 5208 && offsetof(clim_view, is_open) == 5204, "clim_view");
_Static_assert(sizeof(clim_stream_header) == 32 && offsetof(clim_stream_header, size) == 28, "clim_stream_header");
_Static_assert(sizeof(clim_cell) == 40 && offsetof(clim_cell, guid) == 22, "clim_cell");
_Static_assert(sizeof(clim_attribute_item) == 48 && offsetof(clim_attribute_item, is_null) == 43, "clim_attribute_item");
_Static_assert(sizeof(clim_location) == 32 && offsetof(clim_location, table) == 28, "clim_location");
_Static_assert(sizeof(clim_difference) == 24 && offsetof(clim_difference, table) == 21, "clim_difference");
_Static_assert(sizeof(clim_row) == 24 && offsetof(clim_row, table) == 16, "clim_row");
_Static_assert(sizeof(clim_refusal) == 16 && offsetof(clim_refusal, table) == 14, "clim_refusal");

static const clim_cell NO_CELL = CLIM_NO_CELL;
static const clim_attribute_item NO_ITEM = CLIM_NO_ITEM;
static const clim_view CLOSED = CLIM_CLOSED;

/* A buffer without room, which may not be null. */
#define NULL_BUFFER ((uint8_t[1]){0})

static unsigned passed, failed;

#define CHECK(fact) check(fact, #fact, __LINE__)

static void check(bool fact, const char *text, int line) {
    if (fact) {
        passed++;
    } else if (failed++ < 20) {
        printf("test.c:%d: not so: %s\n", line, text);
    }
}

/* Whether two views are equal, except for the bytes after their last field. */
static bool same_view(const clim_view *a, const clim_view *b) {
    return memcmp(a, b, offsetof(clim_view, is_open) + 1) == 0;
}

/* ---- inputs made from a file */

typedef void what_is_done(const uint8_t *bytes, size_t len, void *with);

static void with_each(guarded file, what_is_done *act, void *with) {
    uint8_t *end = file.at + file.len;
    uint8_t *kept = malloc(file.len + 1);
    if (kept == NULL) stop("no memory");
    memcpy(kept, file.at, file.len);
    for (size_t len = 0; len <= file.len; len++) {
        memcpy(end - len, kept, len);
        act(end - len, len, with);
    }
    for (size_t at = 0; at < file.len; at++) {
        for (int byte = 0x00; byte <= 0xFF; byte += 0xFF) {
            file.at[at] = (uint8_t)byte;
            act(file.at, file.len, with);
        }
        file.at[at] = kept[at];
    }
    free(kept);
}

static void print_fault(clim_fault fault) {
    clim_bytes name = CLIM_NO_BYTES;
    clim_fault_name(fault.code, &name);
    printf("fault %u %u at %" PRIu64 ": %.*s\n", fault.layer, fault.code, fault.offset, (int)name.len,
           (const char *)name.at);
}

static bool same_fault(clim_fault a, clim_fault b) {
    return a.offset == b.offset && a.code == b.code && a.layer == b.layer;
}

/* Whether checking and opening within a budget return what they return without. */
static bool same_within(const uint8_t *bytes, size_t len, bool bare, bool valid, clim_fault fault) {
    for (unsigned i = 0; i < 3; i++) {
        uint64_t budget = i == 0 ? UINT64_MAX : i == 1 ? 64 * (uint64_t)len : 0;
        clim_fault checked = {7, 7, 7}, opened = {7, 7, 7};
        clim_view view = CLOSED;
        bool no_check = i % 2 == 0, no_open = i % 2 == 0;
        bool check = bare ? clim_check_root_within(bytes, len, budget, &checked, &no_check)
                          : clim_check_within(bytes, len, budget, &checked, &no_check);
        bool open = bare ? clim_open_root_within(bytes, len, budget, &view, &opened, &no_open)
                         : clim_open_within(bytes, len, budget, &view, &opened, &no_open);
        if (check != open || no_check != no_open || !same_fault(checked, opened) || view.is_open != open) return false;
        if (!open && !same_view(&view, &CLOSED)) return false;
        /* Only a budget of 0 is spent: by texts, if the rules before those of cells (5) hold, or by signatures. */
        if (no_check && (i < 2 || check || checked.code != 7 || (!valid && fault.layer < 5))) return false;
        if (!no_check && (check != valid || !same_fault(checked, fault))) return false;
    }
    return true;
}

/* Checks and opens: both return the same, and what a call does not write is unchanged. */
static void answer(const uint8_t *bytes, size_t len, void *with) {
    bool bare = *(bool *)with;
    clim_fault fault = {7, 7, 7}, same = {7, 7, 7};
    clim_view view = CLOSED;
    bool checked = bare ? clim_check_root(bytes, len, &fault) : clim_check(bytes, len, &fault);
    bool opened = bare ? clim_open_root(bytes, len, &view, &same) : clim_open(bytes, len, &view, &same);
    if (checked != opened || fault.offset != same.offset || fault.code != same.code || fault.layer != same.layer ||
        view.is_open != opened || (!opened && !same_view(&view, &CLOSED))) {
        printf("check and open differ\n");
    } else if (!same_within(bytes, len, bare, checked, fault)) {
        printf("a call within a budget differs\n");
    } else if (checked) {
        printf(fault.offset == 7 && fault.code == 7 && fault.layer == 7 ? "ok\n" : "a fault is written beside ok\n");
    } else {
        print_fault(fault);
    }
}

typedef struct folder {
    const char *path;
    unsigned count;
} folder;

static void write_input(const uint8_t *bytes, size_t len, void *with) {
    folder *to = with;
    char path[4096];
    snprintf(path, sizeof path, "%s/%05u", to->path, to->count++);
    FILE *file = fopen(path, "wb");
    if (file == NULL || fwrite(bytes, 1, len, file) != len || fclose(file) != 0) stop("cannot write an input");
}

/* ---- the tables, as clim show prints them */

static void print_hex(clim_bytes bytes) {
    putchar('<');
    for (size_t i = 0; i < bytes.len; i++) printf("%02x", bytes.at[i]);
    putchar('>');
}

static void print_text(clim_bytes text) {
    putchar('"');
    for (size_t i = 0; i < text.len; i++) {
        uint8_t byte = text.at[i];
        if (byte >= ' ' && byte <= '~' && byte != '"' && byte != '\\') putchar(byte);
        else printf("\\x%02x", byte);
    }
    putchar('"');
}

static void print_cell(const clim_cell *cell) {
    const uint8_t *g = cell->guid;
    putchar(' ');
    switch (cell->kind) {
    case CLIM_NUMBER: printf("%u", cell->number); break;
    case CLIM_TEXT: print_text(cell->bytes); break;
    case CLIM_BLOB: print_hex(cell->bytes); break;
    case CLIM_SIGNATURE: print_hex(cell->bytes); break;
    case CLIM_NULL_GUID: printf("null"); break;
    case CLIM_NULL_ROW: printf("null"); break;
    case CLIM_ROW: printf("%02x%06x", cell->table, cell->number); break;
    case CLIM_START: printf("+%u", cell->number); break;
    case CLIM_GUID: {
        uint8_t text[38];
        if (clim_guid_text(g, text, sizeof text) != sizeof text) stop("a GUID has another length");
        printf("%.38s", (const char *)text);
        break;
    }
    default: printf("?");
    }
}

/* The cells of a table, column by column, which the caller frees. */
static clim_cell *read_cells(const clim_view *view, uint8_t table) {
    size_t rows = clim_count(view, table), columns = clim_cell_count(table);
    clim_cell *cells = malloc((rows * columns + 1) * sizeof *cells);
    if (cells == NULL) stop("no memory");
    for (size_t i = 0; i < rows * columns; i++) cells[i] = NO_CELL;
    for (size_t column = 0; column < columns; column++) {
        if (clim_cells(view, table, 1, column, cells + column * rows, rows) != rows) stop("cells are missing");
    }
    return cells;
}

/* A cell, but a signature as its text. */
static void print_with_text(const clim_view *view, uint8_t table, uint32_t row, size_t column, const clim_cell *cell) {
    static uint8_t text[1 << 16];
    if (cell->kind != CLIM_SIGNATURE) {
        print_cell(cell);
        return;
    }
    size_t len = clim_signature_text(view, table, row, column, text, sizeof text);
    printf(" <%.*s>", (int)(len < sizeof text ? len : sizeof text), (const char *)text);
}

typedef enum signatures_are { BLOBS, TEXTS } signatures_are;

static void show(const clim_view *view, signatures_are shown) {
    for (unsigned table = 0; table < 256; table++) {
        uint32_t rows = clim_count(view, (uint8_t)table);
        size_t columns = clim_cell_count((uint8_t)table);
        if (rows == 0) continue;
        clim_bytes name = CLIM_NO_BYTES;
        clim_table_name((uint8_t)table, &name);
        printf("table %02X %.*s %u\n", table, (int)name.len, (const char *)name.at, rows);
        clim_cell *cells = read_cells(view, (uint8_t)table);
        for (uint32_t row = 0; row < rows; row++) {
            printf("%u:", row + 1);
            for (size_t column = 0; column < columns; column++) {
                const clim_cell *cell = &cells[column * rows + row];
                if (shown == TEXTS) print_with_text(view, (uint8_t)table, row + 1, column, cell);
                else print_cell(cell);
            }
            putchar('\n');
        }
        free(cells);
    }
}

/* ---- calls against one another */

static bool same_bytes(clim_bytes a, clim_bytes b) {
    return a.len == b.len && memcmp(a.at, b.at, a.len) == 0;
}

static bool same_cell(const clim_cell *a, const clim_cell *b) {
    return a->kind == b->kind && a->number == b->number && a->table == b->table && memcmp(a->guid, b->guid, 16) == 0 &&
           same_bytes(a->bytes, b->bytes);
}

/* Single cells are those of their column. Outside the table there are none, and nothing is written. */
static void compare_cells(const clim_view *view, uint8_t table) {
    size_t rows = clim_count(view, table), columns = clim_cell_count(table);
    clim_cell *cells = read_cells(view, table), cell = NO_CELL, two[2] = {NO_CELL, NO_CELL};
    bool same = true, alone = true;
    for (size_t i = 0; i < rows * columns; i++) {
        same &= clim_cell_at(view, table, (uint32_t)(i % rows + 1), i / rows, &cell) && same_cell(&cell, &cells[i]);
        two[1] = NO_CELL;
        alone &= clim_cells(view, table, (uint32_t)(i % rows + 1), i / rows, two, 1) == 1;
        alone &= same_cell(&two[0], &cells[i]) && same_cell(&two[1], &NO_CELL);
    }
    CHECK(same);
    CHECK(alone);
    cell = NO_CELL;
    CHECK(!clim_cell_at(view, table, 0, 0, &cell) && !clim_cell_at(view, table, (uint32_t)rows + 1, 0, &cell));
    CHECK(!clim_cell_at(view, table, UINT32_MAX, 0, &cell) && !clim_cell_at(view, table, 1, columns, &cell));
    CHECK(!clim_cell_at(view, table, 1, SIZE_MAX, &cell) && same_cell(&cell, &NO_CELL));
    CHECK(clim_cells(view, table, 0, 0, &cell, 1) == 0 && clim_cells(view, table, (uint32_t)rows + 1, 0, &cell, 1) == 0);
    CHECK(clim_cells(view, table, UINT32_MAX, 0, &cell, 1) == 0 && clim_cells(view, table, 1, columns, &cell, 1) == 0);
    CHECK(clim_cells(view, table, 1, 0, &cell, 0) == 0 && same_cell(&cell, &NO_CELL));
    free(cells);
}

/* The runs of all owners follow one another, cover all members, and begin where the cells say. */
static void compare_runs(const clim_view *view, uint8_t owner, size_t column, uint8_t member) {
    uint32_t next = 1, first = 7, past = 7, rows = clim_count(view, owner);
    bool joined = true, begins = true;
    for (uint32_t row = 1; row <= rows; row++) {
        clim_cell start = NO_CELL;
        joined &= clim_members(view, owner, row, member, &first, &past) && (row == 1 || first == next) && first <= past;
        begins &= clim_cell_at(view, owner, row, column, &start) && start.kind == CLIM_START && start.number == first;
        next = past;
    }
    CHECK(joined);
    CHECK(begins);
    CHECK(rows == 0 || next == clim_count(view, member) + 1);
    first = past = 7;
    CHECK(!clim_members(view, owner, 0, member, &first, &past) && !clim_members(view, owner, rows + 1, member, &first, &past));
    CHECK(!clim_members(view, member, 1, owner, &first, &past) && !clim_members(view, owner, 1, 0xFF, &first, &past));
    CHECK(first == 7 && past == 7);
}

/* Each type is found by its names, unless an earlier type has the same names. */
static void compare_types(const clim_view *view) {
    bool found = true;
    clim_cell name = NO_CELL, space = NO_CELL, its_name = NO_CELL, its_space = NO_CELL;
    uint32_t rows = clim_count(view, CLIM_TYPE_DEF), step = rows / 500 + 1;
    for (uint32_t row = 1; row <= rows; row += step) {
        clim_cell_at(view, CLIM_TYPE_DEF, row, 1, &name);
        clim_cell_at(view, CLIM_TYPE_DEF, row, 2, &space);
        uint32_t first = clim_find_type(view, space.bytes.at, space.bytes.len, name.bytes.at, name.bytes.len);
        found &= first >= 1 && first <= row && clim_cell_at(view, CLIM_TYPE_DEF, first, 1, &its_name) &&
                 clim_cell_at(view, CLIM_TYPE_DEF, first, 2, &its_space) && same_bytes(name.bytes, its_name.bytes) &&
                 same_bytes(space.bytes, its_space.bytes);
    }
    CHECK(found);
    const uint8_t *none = (const uint8_t *)"\xFF";
    CHECK(clim_find_type(view, none, 1, none, 1) == 0 && clim_find_type(view, none, 0, none, 1) == 0);
    CHECK(clim_find_type(view, none, 1, (const uint8_t *)"<Module>", 8) == 0);
    CHECK(clim_find_type(view, none, 0, (const uint8_t *)"no such type", 12) == 0);
}

/* The rows with the key of a row are in ascending order and have that key. The row is one of them. */
static void compare_keys(const clim_view *view, uint8_t table, size_t column) {
    uint32_t rows = clim_count(view, table), step = rows / 200 + 1;
    uint32_t *listed = malloc((rows + 1) * sizeof *listed);
    clim_cell key = NO_CELL, its_key = NO_CELL;
    bool is_there = true, keyed = true, prefix = true;
    if (listed == NULL) stop("no memory");
    for (uint32_t row = 1; row <= rows; row += step) {
        clim_cell_at(view, table, row, column, &key);
        listed[rows] = 7;
        size_t count = clim_rows_by_key(view, table, key.table, key.number, listed, rows);
        bool found = false;
        for (size_t i = 0; i < count; i++) {
            found |= listed[i] == row;
            keyed &= (i == 0 || listed[i - 1] < listed[i]) && clim_cell_at(view, table, listed[i], column, &its_key);
            keyed &= its_key.table == key.table && its_key.number == key.number && its_key.kind == CLIM_ROW;
        }
        is_there &= found && listed[rows] == 7;
        uint32_t one[2] = {7, 7};
        prefix &= clim_rows_by_key(view, table, key.table, key.number, one, 1) == 1;
        prefix &= one[0] == listed[0] && one[1] == 7;
        prefix &= clim_rows_by_key(view, table, key.table, key.number, one, 0) == 0;
        prefix &= clim_rows_by_key(view, table, 0xFF, key.number, one, 1) == 0;
    }
    CHECK(is_there);
    CHECK(keyed);
    CHECK(prefix);
    free(listed);
}

/* A view that is not open returns nothing, and nothing is written. */
static void ask_closed(void) {
    clim_view view = CLOSED;
    clim_cell cell = NO_CELL;
    clim_bytes text = {(const uint8_t *)"a", 1};
    uint32_t first = 7, past = 7;
    for (unsigned table = 0; table < 256; table++) {
        CHECK(clim_count(&view, (uint8_t)table) == 0 && !clim_cell_at(&view, (uint8_t)table, 1, 0, &cell));
        CHECK(clim_cells(&view, (uint8_t)table, 1, 0, &cell, 1) == 0 && same_cell(&cell, &NO_CELL));
        CHECK(clim_rows_by_key(&view, (uint8_t)table, 2, 1, &first, 1) == 0 && first == 7);
    }
    CHECK(!clim_members(&view, CLIM_TYPE_DEF, 1, CLIM_FIELD, &first, &past) && first == 7 && past == 7);
    CHECK(clim_find_type(&view, text.at, 0, text.at, 0) == 0);
    clim_version(&view, &text);
    CHECK(text.len == 0);
    text.len = 1;
    clim_user(&view, &text);
    CHECK(text.len == 0);
    clim_stream_header stream = CLIM_NO_STREAM;
    uint16_t unit = 7, flag = 7;
    size_t count = 7;
    CHECK(clim_stream_count(&view) == 0 && !clim_stream(&view, 0, &stream) && stream.name.len == 0);
    CHECK(!clim_user_string(&view, 0x70000000, &unit, 1, &count, &flag) && unit == 7 && count == 7 && flag == 7);
}

/* The names of tables and columns: a table has a name, and exactly one name for each cell. */
static void ask_names(void) {
    unsigned tables = 0;
    for (unsigned table = 0; table < 256; table++) {
        clim_bytes name = {(const uint8_t *)"a", 1}, column = name;
        size_t columns = clim_cell_count((uint8_t)table);
        clim_table_name((uint8_t)table, &name);
        tables += name.len > 0;
        CHECK((name.len > 0) == (columns > 0));
        for (size_t i = 0; i < columns; i++) {
            clim_column_name((uint8_t)table, i, &column);
            CHECK(column.len > 0 && memcmp(column.at, "padding", column.len < 7 ? column.len : 7) != 0);
        }
        clim_column_name((uint8_t)table, columns, &column);
        CHECK(column.len == 0);
    }
    CHECK(tables == 38);
    clim_bytes name = CLIM_NO_BYTES;
    clim_column_name(CLIM_TYPE_DEF, CLIM_TYPE_DEF_TYPE_NAME, &name);
    CHECK(name.len == 8 && memcmp(name.at, "TypeName", 8) == 0);
    clim_column_name(CLIM_CONSTANT, CLIM_CONSTANT_VALUE, &name);
    CHECK(name.len == 5 && memcmp(name.at, "Value", 5) == 0);
}

/* A call that writes a text into a buffer. */
typedef size_t write_text(const void *of, uint8_t *buffer, size_t room);

/* Whether a call writes a text of this length, and in buffers that are too small its first bytes. What follows them is
 * unchanged. */
static bool same_text(write_text *write, const void *of, size_t len) {
    guarded whole = guard(len), part = guard(len + 2);
    bool same = write(of, whole.at, len) == len;
    for (size_t room = 0; room <= len + 1; room++) {
        size_t put = room < len ? room : len;
        memset(part.at, 0xEE, part.len);
        same &= write(of, part.at + 1, room) == len && memcmp(part.at + 1, whole.at, put) == 0 && part.at[0] == 0xEE;
        for (size_t i = 1 + put; i < part.len; i++) same &= part.at[i] == 0xEE;
        /* The page after the buffer may not be written. */
        same &= write(of, part.at + part.len - room, room) == len;
    }
    munmap(whole.pages, whole.room);
    munmap(part.pages, part.room);
    return same;
}

static size_t write_guid(const void *of, uint8_t *buffer, size_t room) {
    return clim_guid_text(of, buffer, room);
}

/* The text of a GUID has its fields of 4, 2 and 2 bytes in the order of numbers (II.24.2.5). */
static void ask_guids(void) {
    static const uint8_t guid[16] = {0, 1, 2, 3, 4, 5, 6, 7, 8, 9, 10, 11, 12, 13, 14, 0xFF};
    uint8_t text[38];
    CHECK(clim_guid_text(guid, text, 38) == 38 && memcmp(text, "{03020100-0504-0706-0809-0a0b0c0d0eff}", 38) == 0);
    CHECK(same_text(write_guid, guid, 38));
}

/* A number of the file. */
static uint64_t little_endian(const uint8_t *at, unsigned count) {
    uint64_t number = 0;
    while (count-- > 0) number = number << 8 | at[count];
    return number;
}

/* The stream headers are those in the bytes of the root. */
static void ask_streams(const clim_view *view) {
    const uint8_t *root = view->root.at;
    size_t count = clim_stream_count(view), at = 16 + (size_t)little_endian(root + 12, 4);
    clim_stream_header stream = CLIM_NO_STREAM;
    clim_bytes user = CLIM_NO_BYTES;
    clim_user(view, &user);
    bool same = count == little_endian(root + at + 2, 2), has_tables = false, has_user = user.len == 0;
    at += 4;
    for (size_t i = 0; i < count; i++) {
        same &= clim_stream(view, i, &stream) && stream.header_offset == at && stream.offset == little_endian(root + at, 4);
        same &= stream.size == little_endian(root + at + 4, 4) && stream.name.at == root + at + 8;
        same &= stream.name.len == strlen((const char *)root + at + 8);
        has_tables |= stream.name.len == 2 && memcmp(stream.name.at, "#~", 2) == 0;
        has_user |= stream.name.len == 3 && memcmp(stream.name.at, "#US", 3) == 0 && user.at == root + stream.offset;
        at += 8 + (stream.name.len + 4) / 4 * 4;
    }
    CHECK(same && has_tables && has_user);
    clim_stream_header last = stream;
    CHECK(!clim_stream(view, count, &stream) && !clim_stream(view, SIZE_MAX, &stream));
    CHECK(memcmp(&last, &stream, sizeof last) == 0);
}

/* The length before a blob, and the number of its bytes (II.23.2); false if there is none. */
static bool read_length(const uint8_t *at, const uint8_t *end, uint32_t *length, uint32_t *used) {
    if (at == end || *at >= 0xE0) return false;
    *used = *at < 0x80 ? 1 : *at < 0xC0 ? 2 : 4;
    if ((size_t)(end - at) < *used) return false;
    *length = *at & (*used == 1 ? 0x7F : *used == 2 ? 0x3F : 0x1F);
    for (uint32_t i = 1; i < *used; i++) *length = *length << 8 | at[i];
    return true;
}

/* The user string at an offset is that in a padded copy of #US. A buffer that is too small has its first units. */
static bool same_user_string(const clim_view *view, const uint8_t *heap, size_t len, uint32_t offset) {
    uint16_t units[6] = {0xEEEE, 0xEEEE, 0xEEEE, 0xEEEE, 0xEEEE, 0xEEEE}, flag = 0xEEEE;
    size_t count = 7;
    uint32_t length = 0, used = 0;
    bool is_there = offset == 0 || (offset <= len && read_length(heap + offset, heap + len, &length, &used) &&
                                    length <= len - offset - used && (length == 0 || length % 2 == 1));
    bool found = clim_user_string(view, 0x70000000 | offset, units + 1, 4, &count, &flag);
    if (found != is_there) return false;
    if (!found) return count == 7 && flag == 0xEEEE && units[1] == 0xEEEE && units[4] == 0xEEEE;
    const uint8_t *blob = heap + offset + used;
    if (count != length / 2 || flag != (length == 0 ? CLIM_NO_FLAG : blob[length - 1])) return false;
    for (size_t i = 0; i < 4; i++) {
        if (units[1 + i] != (i < count ? (uint16_t)little_endian(blob + 2 * i, 2) : 0xEEEE)) return false;
    }
    uint16_t *all = malloc((count + 1) * sizeof *all);
    if (all == NULL) stop("no memory");
    bool same = clim_user_string(view, 0x70000000 | offset, all, count, &count, &flag);
    for (size_t i = 0; i < count; i++) same &= all[i] == (uint16_t)little_endian(blob + 2 * i, 2);
    free(all);
    return same && units[0] == 0xEEEE && units[5] == 0xEEEE;
}

/* At each offset of #US there is the user string of the padded heap, or none. */
static void ask_user_strings(const clim_view *view) {
    clim_bytes user = CLIM_NO_BYTES;
    clim_user(view, &user);
    size_t padded = (user.len + 3) / 4 * 4, step = user.len / 20000 + 1;
    uint8_t *heap = calloc(padded + 1, 1);
    if (heap == NULL) stop("no memory");
    memcpy(heap, user.at, user.len);
    bool same = true;
    for (size_t offset = 0; offset < padded + 8 && offset < 1 << 24; offset += offset + 64 < padded ? step : 1) {
        same &= same_user_string(view, heap, padded, (uint32_t)offset);
    }
    CHECK(same && same_user_string(view, heap, padded, 0xFFFFFF));
    free(heap);
    uint16_t unit = 7, flag = 7;
    size_t count = 7;
    CHECK(!clim_user_string(view, 0, &unit, 1, &count, &flag) && !clim_user_string(view, 0x71000000, &unit, 1, &count, &flag));
    CHECK(!clim_user_string(view, 0x06000001, &unit, 1, &count, &flag) && unit == 7 && count == 7 && flag == 7);
}

/* Roots with bytes of #US that no sample has: strings and lengths that only the padding completes. */
static void ask_padded(void) {
    static const uint8_t header[72] = {
        0x42, 0x53, 0x4A, 0x42, 1, 0, 1, 0, 0, 0, 0, 0, 4, 0, 0, 0, 'v', 0, 0, 0, 0, 0, 2, 0,
        48, 0, 0, 0, 24, 0, 0, 0, '#', '~', 0, 0, 72, 0, 0, 0, 0, 0, 0, 0, '#', 'U', 'S', 0,
        0, 0, 0, 0, 2, 0, 0, 1};
    static const struct { size_t len; uint8_t bytes[14]; } heaps[] = {
        {0, {0}}, {1, {0}}, {1, {3}}, {2, {0, 1}}, {3, {0, 3, 'A'}}, {2, {0, 0x80}}, {3, {0, 0x81, 0}},
        {5, {0, 0, 0, 0, 0xC0}}, {6, {0, 0, 0, 0, 0xC0, 1}}, {7, {0, 0, 0, 0, 0xC0, 0, 1}}, {4, {0, 0xE0, 0xFF, 2}},
        {14, {0, 3, 'A', 0, 1, 0x80, 0, 2, 'B', 'B', 5, 'A', 0, 'B'}}};
    for (size_t i = 0; i < sizeof heaps / sizeof *heaps; i++) {
        guarded root = guard(sizeof header + heaps[i].len);
        memcpy(root.at, header, sizeof header);
        root.at[40] = (uint8_t)heaps[i].len;
        memcpy(root.at + sizeof header, heaps[i].bytes, heaps[i].len);
        clim_view view = CLOSED;
        clim_fault fault = CLIM_NO_FAULT;
        CHECK(clim_open_root(root.at, root.len, &view, &fault));
        ask_streams(&view);
        ask_user_strings(&view);
        munmap(root.pages, root.room);
    }
}

static size_t write_explanation(const void *of, uint8_t *buffer, size_t room) {
    return clim_explain(*(const uint16_t *)of, buffer, room);
}

/* Each rule has a text, which begins with its number and its name. */
static void ask_explanations(void) {
    unsigned rules = 0;
    bool unwritten = true;
    for (uint32_t number = 0; number < 0x10000; number++) {
        uint16_t code = (uint16_t)number;
        clim_bytes name = CLIM_NO_BYTES;
        clim_fault_name(code, &name);
        uint8_t text[2000] = {7};
        size_t len = clim_explain(code, text, sizeof text);
        if (len == 0) {
            unwritten &= name.len == 0 && text[0] == 7 && text[1] == 0;
            continue;
        }
        rules++;
        char begin[64];
        int digits = name.len > 0 ? snprintf(begin, sizeof begin, "%u %.*s: ", number, (int)name.len, (const char *)name.at)
                                  : snprintf(begin, sizeof begin, "%u: ", number);
        CHECK(len <= sizeof text && memcmp(text, begin, (size_t)digits) == 0 && text[len - 1] == '\n');
        CHECK(same_text(write_explanation, &code, len));
    }
    CHECK(rules == 45 && unwritten);
}

typedef struct cell_position {
    const clim_view *view;
    size_t column;
    uint32_t row;
    uint8_t table;
} cell_position;

static size_t write_signature(const void *of, uint8_t *buffer, size_t room) {
    const cell_position *at = of;
    return clim_signature_text(at->view, at->table, at->row, at->column, buffer, room);
}

/* Each cell with a signature has a text, and no other cell. */
static void ask_signatures(const clim_view *view, uint8_t table) {
    uint32_t rows = clim_count(view, table), step = rows / 300 + 1;
    size_t columns = clim_cell_count(table);
    bool same = true;
    clim_cell cell = NO_CELL;
    for (uint32_t row = 1; row <= rows; row += step) {
        for (size_t column = 0; column < columns; column++) {
            cell_position at = {view, column, row, table};
            size_t len = clim_signature_text(view, table, row, column, NULL_BUFFER, 0);
            same &= clim_cell_at(view, table, row, column, &cell) && (len > 0) == (cell.kind == CLIM_SIGNATURE);
            if (len > 0 && len < 1000) same &= same_text(write_signature, &at, len);
        }
    }
    CHECK(same);
    CHECK(clim_signature_text(view, table, 0, 0, NULL_BUFFER, 0) == 0);
    CHECK(clim_signature_text(view, table, rows + 1, 0, NULL_BUFFER, 0) == 0);
    CHECK(clim_signature_text(view, table, 1, columns, NULL_BUFFER, 0) == 0);
    CHECK(clim_signature_text(view, table, 1, SIZE_MAX, NULL_BUFFER, 0) == 0);
}

/* ---- names and declarations */

typedef struct row_token {
    const clim_view *view;
    uint32_t token;
} row_token;

static size_t write_row_name(const void *of, uint8_t *buffer, size_t room) {
    const row_token *row = of;
    return clim_row_name(row->view, row->token, buffer, room);
}

static size_t write_row_declaration(const void *of, uint8_t *buffer, size_t room) {
    const row_token *row = of;
    return clim_declaration(row->view, row->token, buffer, room);
}

/* Each row has a name, and the rows of four tables have declarations. The name of a type is its declaration, and that of a
 * method or a property contains its name. Both are ASCII. */
static void ask_row_texts(const clim_view *view, uint8_t table) {
    bool declared = table == CLIM_TYPE_DEF || table == CLIM_FIELD || table == CLIM_METHOD_DEF || table == CLIM_PROPERTY;
    uint32_t rows = clim_count(view, table), step = rows / 300 + 1, first = (uint32_t)table << 24;
    bool same = true;
    for (uint32_t row = 1; row <= rows; row += step) {
        row_token at = {view, first | row};
        char name[1001] = "", text[1001] = "";
        size_t len = clim_row_name(view, at.token, (uint8_t *)name, 1000);
        size_t text_len = clim_declaration(view, at.token, (uint8_t *)text, 1000);
        same &= len > 0 && (text_len > 0) == declared;
        if (len >= 1000 || text_len >= 1000) continue;
        same &= same_text(write_row_name, &at, len) && (!declared || same_text(write_row_declaration, &at, text_len));
        for (size_t i = 0; i < len; i++) same &= name[i] >= 32 && name[i] <= 126;
        for (size_t i = 0; i < text_len; i++) same &= text[i] >= 32 && text[i] <= 126;
        if (table == CLIM_TYPE_DEF) same &= strcmp(name, text) == 0;
        if (table == CLIM_METHOD_DEF || table == CLIM_PROPERTY) same &= strstr(text, name) != NULL;
    }
    CHECK(same);
    CHECK(clim_row_name(view, first, NULL_BUFFER, 0) == 0 && clim_declaration(view, first, NULL_BUFFER, 0) == 0);
    if (rows < 0xFFFFFF) {
        uint8_t byte = 7;
        CHECK(clim_row_name(view, first | (rows + 1), &byte, 1) == 0 && byte == 7);
        CHECK(clim_declaration(view, first | (rows + 1), &byte, 1) == 0 && byte == 7);
    }
}

/* Tokens of no row, and a view that is not open. */
static void ask_no_row(const clim_view *view) {
    static const uint32_t tokens[] = {0, 0x70000001, 0x03000001, 0xFF000001, 0xFFFFFFFF, 0x02FFFFFF};
    clim_view closed = CLOSED;
    uint8_t text[2] = {7, 7};
    for (size_t i = 0; i < sizeof tokens / sizeof *tokens; i++)
        CHECK(clim_row_name(view, tokens[i], text, 2) == 0 && clim_declaration(view, tokens[i], text, 2) == 0);
    CHECK(clim_row_name(&closed, 0x02000001, text, 2) == 0 && clim_declaration(&closed, 0x02000001, text, 2) == 0);
    CHECK(text[0] == 7 && text[1] == 7);
}

/* ---- offsets of addresses */

/* The offset of an address, by the section headers in the order of the file; SIZE_MAX if it has none. */
static size_t plain_offset(guarded file, uint32_t rva, uint32_t size) {
    size_t at = (size_t)little_endian(file.at + 0x3C, 4), sections = (size_t)little_endian(file.at + at + 6, 2);
    const uint8_t *header = file.at + at + 24 + little_endian(file.at + at + 20, 2);
    for (; sections > 0; sections--, header += 40) {
        uint64_t start = little_endian(header + 12, 4), len = little_endian(header + 16, 4), from = little_endian(header + 20, 4);
        if (rva < start || rva - start + (uint64_t)size > len) continue;
        uint64_t offset = from + rva - start;
        return offset + size <= file.len ? (size_t)offset : SIZE_MAX;
    }
    return SIZE_MAX;
}

static bool same_offset(guarded file, uint32_t rva, uint32_t size) {
    size_t wanted = plain_offset(file, rva, size), offset = 7;
    bool found = clim_offset_of(file.at, file.len, rva, size, &offset);
    return found == (wanted != SIZE_MAX) && offset == (found ? wanted : 7);
}

/* The addresses in the headers, those of method bodies, and others around sections. */
static void ask_offsets(guarded file, const clim_view *view) {
    clim_header header = CLIM_NO_HEADER;
    clim_fault fault = CLIM_NO_FAULT;
    size_t offset = 7;
    CHECK(clim_read_header(file.at, file.len, &header, &fault));
    CHECK(clim_offset_of(file.at, file.len, header.metadata.rva, header.metadata.size, &offset) && offset == header.root_start);
    bool same = true;
    for (uint32_t row = 1; row <= clim_count(view, CLIM_METHOD_DEF); row++) {
        clim_cell cell = NO_CELL;
        same &= clim_cell_at(view, CLIM_METHOD_DEF, row, CLIM_METHOD_DEF_RVA, &cell) && same_offset(file, cell.number, 1);
    }
    for (uint32_t rva = 0; rva < 0x10000; rva += 0x1FF)
        for (uint32_t size = 0; size < 0x2000; size += 0x3FF) same &= same_offset(file, rva, size);
    same &= same_offset(file, UINT32_MAX, UINT32_MAX) && same_offset(file, header.metadata.rva, UINT32_MAX);
    CHECK(same);
    /* A file that is cut, and no file. */
    offset = 7;
    CHECK(!clim_offset_of(file.at, header.root_end - 1, header.metadata.rva, header.metadata.size, &offset) && offset == 7);
    CHECK(!clim_offset_of(file.at, 0, header.metadata.rva, 1, &offset) && offset == 7);
    CHECK(!clim_offset_of(view->root.at, view->root.len, header.metadata.rva, 1, &offset) && offset == 7);
}

/* ---- the stack that clim.h says */

#if defined(__SANITIZE_ADDRESS__)
#define HAS_OWN_STACK 0
#elif defined(__has_feature)
#if __has_feature(address_sanitizer)
#define HAS_OWN_STACK 0
#else
#define HAS_OWN_STACK 1
#endif
#else
#define HAS_OWN_STACK 1
#endif

static ucontext_t caller, callee;
static guarded deep, other_deep;
static bool deep_same;

/* Whether the only row of TypeSpec of a view, given as a row, has the canonical root of the view. One type more around it
 * is too deep. */
static bool is_built_deep(const clim_view *view, const uint8_t *root, size_t len) {
    static uint8_t made[1 << 16], deeper[1 << 10];
    clim_cell cell = NO_CELL;
    clim_row row = {&cell, 1, CLIM_TYPE_SPEC};
    clim_refusal refusal = CLIM_NO_REFUSAL;
    clim_bytes version = CLIM_NO_BYTES, user = CLIM_NO_BYTES;
    clim_version(view, &version);
    bool same = clim_cell_at(view, CLIM_TYPE_SPEC, 1, CLIM_TYPE_SPEC_SIGNATURE, &cell) &&
                clim_tables(version.at, version.len, user.at, user.len, &row, 1, made, sizeof made, &refusal) == len &&
                memcmp(made, root, len) == 0;
    deeper[0] = deeper[1] = 0x1D;
    memcpy(deeper + 2, cell.bytes.at, cell.bytes.len);
    cell.bytes = (clim_bytes){deeper, cell.bytes.len + 2};
    return same && clim_tables(version.at, version.len, user.at, user.len, &row, 1, made, sizeof made, &refusal) == 0 &&
           refusal.code == 701 && memcmp(made, root, len) == 0;
}

/* Opens a root with one signature that is as deep as it may be, writes the signature, and builds the root again. */
static void open_deep(void) {
    static uint8_t text[1 << 16];
    clim_view view = CLOSED;
    clim_fault fault = CLIM_NO_FAULT;
    bool spent = true;
    deep_same = clim_check_root(deep.at, deep.len, &fault) && clim_open_root(deep.at, deep.len, &view, &fault);
    deep_same &= clim_open_root_within(deep.at, deep.len, deep.len, &view, &fault, &spent) && !spent;
    size_t len = clim_signature_text(&view, CLIM_TYPE_SPEC, 1, CLIM_TYPE_SPEC_SIGNATURE, text, sizeof text);
    deep_same &= len > 127 && len <= sizeof text;
    /* No type in it has a name, so both texts are the same. */
    deep_same &= clim_row_name(&view, 0x1B000001, text, sizeof text) == len && clim_declaration(&view, 0x1B000001, text, 1) == 0;
    uint8_t digest[32] = {0};
    len = clim_canonical_root(&view, text, sizeof text);
    deep_same &= len > 0 && len <= sizeof text && clim_digest(&view, digest) == len && is_built_deep(&view, text, len);
    clim_difference found = CLIM_NO_DIFFERENCE;
    clim_view other = CLOSED;
    deep_same &= clim_open_root(other_deep.at, other_deep.len, &other, &fault) &&
                 clim_compare(&view, &other, &found) == CLIM_DIFFERENT && found.kind == CLIM_CELL_DIFFERS &&
                 found.table == CLIM_TYPE_SPEC && found.row == 1 && found.column == CLIM_TYPE_SPEC_SIGNATURE;
}

/* A call on a stack of this many bytes; the page before them may not be written. */
static void call_on_stack(size_t len, void (*call)(void)) {
    size_t page = (size_t)sysconf(_SC_PAGESIZE);
    uint8_t *pages = mmap(NULL, len + page, PROT_READ | PROT_WRITE, MAP_PRIVATE | MAP_ANONYMOUS, -1, 0);
    if (pages == MAP_FAILED || mprotect(pages, page, PROT_NONE) != 0 || getcontext(&callee) != 0) stop("no stack");
    callee.uc_stack.ss_sp = pages + page;
    callee.uc_stack.ss_size = len;
    callee.uc_link = &caller;
    makecontext(&callee, call, 0);
    if (swapcontext(&caller, &callee) != 0) stop("no stack");
    munmap(pages, len + page);
}

/* A root with one row of TypeSpec, which has this signature. */
static guarded root_of(const uint8_t *signature, size_t len) {
    static const uint8_t header[] = {
        0x42, 0x53, 0x4A, 0x42, 1, 0, 1, 0, 0, 0, 0, 0, 4, 0, 0, 0, 'v', 0, 0, 0, 0, 0, 2, 0,
        52, 0, 0, 0, 32, 0, 0, 0, '#', '~', 0, 0, 84, 0, 0, 0, 0, 0, 0, 0, '#', 'B', 'l', 'o', 'b', 0, 0, 0,
        0, 0, 0, 0, 2, 0, 0, 1, 0, 0, 0, 8, 0, 0, 0, 0, 0, 0, 0, 0, 0, 0, 0, 0, 1, 0, 0, 0, 1, 0, 0, 0, 0};
    guarded root = guard(sizeof header + 2 + len);
    memcpy(root.at, header, sizeof header);
    root.at[40] = (uint8_t)(len + 3);
    root.at[41] = (uint8_t)((len + 3) >> 8);
    root.at[sizeof header] = (uint8_t)(0x80 | len >> 8);
    root.at[sizeof header + 1] = (uint8_t)len;
    memcpy(root.at + sizeof header + 2, signature, len);
    return root;
}

/* Types in a signature nest at most 128 deep (II.23.2). Opening such a root needs the most stack. */
static void ask_deep(void) {
    static const struct { uint8_t len, bytes[4]; } kinds[] = {{3, {0x1B, 0, 0}}, {4, {0x1B, 0, 1, 1}}, {1, {0x1D}}, {1, {0x0F}}};
    for (size_t i = 0; i < sizeof kinds / sizeof *kinds; i++) {
        uint8_t signature[127 * 4 + 1];
        size_t len = 127 * (size_t)kinds[i].len;
        for (size_t k = 0; k < len; k++) signature[k] = kinds[i].bytes[k % kinds[i].len];
        signature[len] = 0x08;
        deep = root_of(signature, len + 1);
        signature[len] = 0x09;
        other_deep = root_of(signature, len + 1);
        if (HAS_OWN_STACK) call_on_stack(CLIM_STACK, open_deep);
        else open_deep();
        CHECK(deep_same);
        munmap(deep.pages, deep.room);
        munmap(other_deep.pages, other_deep.room);
    }
}

/* A text of 65,536 bytes is written, and a longer one is refused, after its first bytes were written. The signature is a
 * pointer to a method of 3,120 parameters, of which the first has three or four pointers. */
static void ask_long(void) {
    for (uint8_t pointers = 3; pointers < 5; pointers++) {
        uint8_t signature[5 + 4 + 3120] = {0x1B, 0, 0x80 | 3120 >> 8, 3120 & 0xFF, 0x01};
        size_t len = 5 + (size_t)pointers + 3120;
        memset(signature + 5, 0x0F, pointers);
        memset(signature + 5 + pointers, 0x19, 3120);
        guarded root = root_of(signature, len), part = guard(9);
        clim_view view = CLOSED;
        clim_fault fault = CLIM_NO_FAULT;
        memset(part.at, 0xEE, part.len);
        CHECK(clim_open_root(root.at, root.len, &view, &fault));
        size_t text_len = clim_signature_text(&view, CLIM_TYPE_SPEC, 1, CLIM_TYPE_SPEC_SIGNATURE, part.at, 8);
        CHECK(text_len == (pointers == 4 ? CLIM_TOO_LONG : 65536) && memcmp(part.at, "method v\xEE", 9) == 0);
        memset(part.at, 0xEE, part.len);
        CHECK(clim_row_name(&view, 0x1B000001, part.at, 8) == text_len && memcmp(part.at, "method v\xEE", 9) == 0);
        munmap(root.pages, root.room);
        munmap(part.pages, part.room);
    }
}

/* An array of 2^28 dimensions is a few bytes (II.23.2.13), and so is its text: it has the rank. */
static void ask_rank(void) {
    static const uint8_t array[] = {0x14, 0x08, 0xD0, 0, 0, 0, 0, 0};
    static const char text[] = "int32[,... rank 268435456]";
    guarded root = root_of(array, sizeof array);
    clim_view view = CLOSED;
    clim_fault fault = CLIM_NO_FAULT;
    uint8_t buffer[sizeof text];
    CHECK(clim_open_root(root.at, root.len, &view, &fault));
    size_t len = clim_signature_text(&view, CLIM_TYPE_SPEC, 1, CLIM_TYPE_SPEC_SIGNATURE, buffer, sizeof buffer);
    CHECK(len == sizeof text - 1 && memcmp(buffer, text, sizeof text - 1) == 0);
    munmap(root.pages, root.room);
}

/* The number of blocks that can be allocated before memory runs out, or -1 for any number. c/run links this program
 * such that malloc and realloc, also those of the library, are these. */
static long blocks_left = -1;
void *__real_malloc(size_t len);
void *__real_realloc(void *at, size_t len);
void *__wrap_malloc(size_t len);
void *__wrap_realloc(void *at, size_t len);

static bool has_block(void) {
    if (blocks_left > 0) blocks_left--;
    return blocks_left != 0;
}

void *__wrap_malloc(size_t len) {
    return has_block() ? __real_malloc(len) : NULL;
}

void *__wrap_realloc(void *at, size_t len) {
    return has_block() ? __real_realloc(at, len) : NULL;
}

/* A name does not allocate. A declaration that cannot allocate says so. */
static void ask_no_memory_for_rows(const clim_view *view) {
    bool as_stated = true;
    for (uint32_t row = 1; row <= clim_count(view, CLIM_METHOD_DEF) && row < 100; row++) {
        size_t wanted = clim_declaration(view, 0x06000000 | row, NULL_BUFFER, 0), len = CLIM_NO_MEMORY;
        for (long blocks = 1; len == CLIM_NO_MEMORY; blocks++) {
            blocks_left = blocks;
            len = clim_declaration(view, 0x06000000 | row, NULL_BUFFER, 0);
            blocks_left = 1;
            as_stated &= clim_row_name(view, 0x06000000 | row, NULL_BUFFER, 0) < CLIM_NO_MEMORY;
            blocks_left = -1;
        }
        as_stated &= len == wanted;
    }
    CHECK(as_stated);
}

/* Memory runs out at each block in turn: nothing is written then, and the view stays as it is. */
static void ask_no_memory(const clim_view *view, size_t len) {
    guarded root = guard(len), same = guard(len);
    uint8_t digest[32], other[32];
    long blocks = 1;
    bool as_stated = true;
    for (size_t made = CLIM_NO_MEMORY; made == CLIM_NO_MEMORY; blocks++) {
        memset(root.at, 0xEE, len);
        memset(same.at, 0xEE, len);
        memset(digest, 0xEE, sizeof digest);
        memset(other, 0xEE, sizeof other);
        blocks_left = blocks;
        made = clim_canonical_root(view, root.at, len);
        blocks_left = blocks;
        size_t hashed = clim_digest(view, digest);
        blocks_left = -1;
        as_stated &= made == hashed && (made == len || made == CLIM_NO_MEMORY);
        if (made == CLIM_NO_MEMORY) as_stated &= memcmp(root.at, same.at, len) == 0 && memcmp(digest, other, 32) == 0;
    }
    CHECK(as_stated && blocks > 2);
    CHECK(clim_canonical_root(view, same.at, len) == len && memcmp(root.at, same.at, len) == 0);
    munmap(root.pages, root.room);
    munmap(same.pages, same.room);
}

/* A canonical root is its own. It is written as a whole or not at all, and nothing is written past it. */
static void ask_canonical(const clim_view *view) {
    uint8_t digest[33], other[33];
    memset(digest, 0xEE, sizeof digest);
    memset(other, 0xEE, sizeof other);
    size_t len = clim_canonical_root(view, digest, 0);
    CHECK(len > 0 && len < CLIM_NO_MEMORY && digest[0] == 0xEE);
    guarded root = guard(len), more = guard(len + 1);
    memset(root.at, 0xEE, len);
    memset(more.at, 0xEE, len + 1);
    CHECK(clim_canonical_root(view, root.at, len - 1) == len && memcmp(root.at, more.at, len) == 0);
    CHECK(clim_canonical_root(view, more.at, len + 1) == len && more.at[len] == 0xEE);
    CHECK(clim_canonical_root(view, root.at, len) == len && memcmp(root.at, more.at, len) == 0);
    CHECK(clim_digest(view, digest) == len && digest[32] == 0xEE);
    clim_view again = CLOSED, closed = CLOSED;
    clim_fault fault = CLIM_NO_FAULT;
    CHECK(clim_open_root(root.at, len, &again, &fault));
    CHECK(clim_canonical_root(&again, more.at, len) == len && memcmp(root.at, more.at, len) == 0);
    CHECK(clim_digest(&closed, other) == 0 && other[0] == 0xEE && clim_digest(&again, other) == len);
    CHECK(memcmp(digest, other, sizeof digest) == 0);
    memset(more.at, 0xEE, len);
    CHECK(clim_canonical_root(&closed, more.at, len) == 0 && more.at[0] == 0xEE && more.at[len - 1] == 0xEE);
    munmap(root.pages, root.room);
    munmap(more.pages, more.room);
    /* Of a large file there are too many blocks. */
    if (len < 1 << 14) ask_no_memory(view, len);
}

static bool same_location(const clim_location *a, const clim_location *b) {
    return a->offset == b->offset && a->size == b->size && a->column == b->column && a->row == b->row &&
           a->table == b->table;
}

/* Each byte of the root has at most one cell, which has the byte. Each cell is found by all its bytes. */
static void ask_where(const clim_view *view) {
    clim_view closed = CLOSED;
    clim_location none = {7, 7, 7, 7, 7}, location = none, last = CLIM_NO_LOCATION;
    size_t bytes = 0, cells = 0, wanted = 0, few = 1 << 16;
    bool has = true, follow = true, all = view->root.len <= few;
    for (size_t at = 0; at < (all ? view->root.len : few); at++) {
        location = none;
        if (!clim_where(view, at, &location)) {
            has &= same_location(&location, &none);
            continue;
        }
        has &= location.offset <= at && at - location.offset < location.size;
        has &= location.row >= 1 && location.row <= clim_count(view, location.table) &&
               location.column < clim_cell_count(location.table);
        if (!same_location(&location, &last)) {
            /* The next cell begins where the last ends, or at most one byte of padding follows it. */
            follow &= location.offset == at && (cells == 0 || at <= last.offset + last.size + 1);
            bytes += location.size;
            cells++;
        }
        last = location;
    }
    for (unsigned table = 0; table < 256; table++)
        wanted += clim_count(view, (uint8_t)table) * clim_cell_count((uint8_t)table);
    CHECK(has);
    CHECK(follow);
    CHECK(!all || (cells == wanted && bytes <= view->root.len));
    location = none;
    CHECK(!clim_where(view, view->root.len, &location) && !clim_where(view, SIZE_MAX, &location));
    CHECK(!clim_where(&closed, last.offset, &location) && same_location(&location, &none));
}

static bool same_difference(const clim_difference *a, const clim_difference *b) {
    return a->column == b->column && a->row == b->row && a->left_count == b->left_count &&
           a->right_count == b->right_count && a->kind == b->kind && a->table == b->table;
}

/* The first difference of two views: CLIM_EQUAL if there is none. Memory runs out at each block in turn before. */
static size_t compare_views(const clim_view *left, const clim_view *right, clim_difference *difference) {
    clim_difference none = {7, 7, 7, 7, 7, 7};
    bool same = true, few = left->root.len < 1 << 14;
    size_t result = CLIM_NO_MEMORY;
    for (long blocks = 1; result == CLIM_NO_MEMORY; blocks++) {
        *difference = none;
        blocks_left = few ? blocks : -1;
        result = clim_compare(left, right, difference);
        blocks_left = -1;
        same &= result == CLIM_DIFFERENT || same_difference(difference, &none);
    }
    CHECK(same);
    return result;
}

/* A view equals itself and its canonical root. With one byte changed, what has the byte differs. */
static void ask_compare(const clim_view *view) {
    clim_difference found = CLIM_NO_DIFFERENCE, none = {7, 7, 7, 7, 7, 7};
    clim_view closed = CLOSED, other = CLOSED;
    clim_fault fault = CLIM_NO_FAULT;
    CHECK(compare_views(view, view, &found) == CLIM_EQUAL && same_difference(&found, &none));
    CHECK(clim_compare(&closed, view, &found) == 0 && clim_compare(view, &closed, &found) == 0);
    CHECK(clim_compare(&closed, &closed, &found) == 0 && same_difference(&found, &none));
    size_t len = clim_canonical_root(view, NULL_BUFFER, 0);
    guarded root = guard(len);
    CHECK(clim_canonical_root(view, root.at, len) == len && clim_open_root(root.at, len, &other, &fault));
    CHECK(compare_views(view, &other, &found) == CLIM_EQUAL && same_difference(&found, &none));
    if (clim_count(view, CLIM_MODULE) > 0) {
        /* Generation of Module is a number that no rule is about. It is the first cell. */
        clim_location location = CLIM_NO_LOCATION;
        for (size_t at = 0; at < len && !clim_where(&other, at, &location); at++) continue;
        CHECK(location.table == CLIM_MODULE && location.row == 1 && location.column == CLIM_MODULE_GENERATION);
        root.at[location.offset] ^= 1;
        CHECK(clim_open_root(root.at, len, &other, &fault));
        CHECK(compare_views(view, &other, &found) == CLIM_DIFFERENT);
        CHECK(same_difference(&found, &(clim_difference){CLIM_MODULE_GENERATION, 1, 0, 0, CLIM_CELL_DIFFERS, CLIM_MODULE}));
    }
    /* The version comes before the cells. */
    root.at[16] ^= 1;
    CHECK(clim_open_root(root.at, len, &other, &fault));
    CHECK(compare_views(&other, view, &found) == CLIM_DIFFERENT);
    CHECK(same_difference(&found, &(clim_difference){0, 0, 0, 0, CLIM_VERSION_DIFFERS, 0}));
    munmap(root.pages, root.room);
}

/* ---- tables that are given */

/* The version, the user strings and the rows that a call of clim_tables is given. */
typedef struct given {
    clim_bytes version;
    clim_bytes user;
    clim_row *rows;
    size_t count;
} given;

static size_t make_root(const given *it, uint8_t *buffer, size_t room, clim_refusal *refusal) {
    return clim_tables(it->version.at, it->version.len, it->user.at, it->user.len, it->rows, it->count, buffer, room, refusal);
}

static bool same_refusal(const clim_refusal *a, const clim_refusal *b) {
    return a->column == b->column && a->row == b->row && a->code == b->code && a->table == b->table;
}

static clim_bytes text_of(const char *text) {
    return (clim_bytes){(const uint8_t *)text, strlen(text)};
}

static clim_cell number_cell(uint32_t number) {
    return (clim_cell){CLIM_NO_BYTES, number, CLIM_NUMBER, 0, {0}};
}

static clim_cell text_cell(const char *text) {
    return (clim_cell){text_of(text), 0, CLIM_TEXT, 0, {0}};
}

static clim_cell row_cell(uint8_t table, uint32_t row) {
    return (clim_cell){CLIM_NO_BYTES, row, row == 0 ? CLIM_NULL_ROW : CLIM_ROW, table, {0}};
}

static clim_cell start_cell(uint32_t row) {
    return (clim_cell){CLIM_NO_BYTES, row, CLIM_START, 0, {0}};
}

static clim_cell bytes_cell(uint8_t kind, const char *bytes, size_t len) {
    return (clim_cell){{(const uint8_t *)bytes, len}, 0, kind, 0, {0}};
}

/* Rows with a cell each of most kinds: a module, a reference, types of which one is nested, a field, a method with a
 * parameter, and an array of the type that is referred to. Those of a table are in order, and the tables are mixed. */
enum { MODULE, REFERENCE, FIRST_TYPE, TYPE, METHOD, INNER_TYPE, FIELD, PARAM, NESTED, ARRAY, ROWS };
enum { MOST_CELLS = 6 };

typedef struct sample_rows {
    clim_cell cells[ROWS][MOST_CELLS];
    clim_row rows[ROWS];
    given all;
} sample_rows;

static void set_row(sample_rows *to, size_t at, uint8_t table, const clim_cell *cells) {
    to->rows[at] = (clim_row){to->cells[at], clim_cell_count(table), table};
    for (size_t i = 0; i < MOST_CELLS; i++) to->cells[at][i] = i < to->rows[at].count ? cells[i] : NO_CELL;
}

static void set_sample(sample_rows *to) {
    clim_cell zero = number_cell(0), no_name = text_cell(""), null_guid = bytes_cell(CLIM_NULL_GUID, "", 0), guid = NO_CELL;
    guid.kind = CLIM_GUID;
    memcpy(guid.guid, "0123456789abcdef", sizeof guid.guid);
    set_row(to, MODULE, CLIM_MODULE, (clim_cell[]){zero, text_cell("one.dll"), guid, null_guid, null_guid});
    set_row(to, REFERENCE, CLIM_TYPE_REF, (clim_cell[]){row_cell(CLIM_MODULE, 1), text_cell("Object"), text_cell("System")});
    set_row(to, FIRST_TYPE, CLIM_TYPE_DEF,
            (clim_cell[]){zero, text_cell("<Module>"), no_name, row_cell(0, 0), start_cell(1), start_cell(1)});
    set_row(to, TYPE, CLIM_TYPE_DEF, (clim_cell[]){number_cell(1), text_cell("Greeter"), text_cell("Hello"),
                                                   row_cell(CLIM_TYPE_REF, 1), start_cell(1), start_cell(1)});
    set_row(to, METHOD, CLIM_METHOD_DEF, (clim_cell[]){zero, zero, number_cell(6), text_cell("Greet"),
                                                       bytes_cell(CLIM_SIGNATURE, "\x20\x01\x01\x08", 4), start_cell(1)});
    set_row(to, INNER_TYPE, CLIM_TYPE_DEF,
            (clim_cell[]){number_cell(2), text_cell("Inner"), no_name, row_cell(0, 0), start_cell(2), start_cell(2)});
    set_row(to, FIELD, CLIM_FIELD, (clim_cell[]){number_cell(6), text_cell("count"), bytes_cell(CLIM_SIGNATURE, "\x06\x08", 2)});
    set_row(to, PARAM, CLIM_PARAM, (clim_cell[]){zero, number_cell(1), text_cell("times")});
    set_row(to, NESTED, CLIM_NESTED_CLASS, (clim_cell[]){row_cell(CLIM_TYPE_DEF, 3), row_cell(CLIM_TYPE_DEF, 2)});
    set_row(to, ARRAY, CLIM_TYPE_SPEC, (clim_cell[]){bytes_cell(CLIM_SIGNATURE, "\x1D\x12\x05", 3)});
    to->all = (given){text_of("v4.0.30319"), {(const uint8_t *)"\0\3A\0\0\0\0", 8}, to->rows, ROWS};
}

/* ---- values of custom attributes */

static bool same_item(const clim_attribute_item *a, const clim_attribute_item *b) {
    return same_bytes(a->name, b->name) && same_bytes(a->text, b->text) && a->number == b->number && a->kind == b->kind &&
           a->form == b->form && a->type == b->type && a->is_null == b->is_null;
}

/* Whether a call with this room returns the number of all items, and writes the first of them and nothing else. */
static bool are_items(const clim_view *view, uint32_t row, const clim_attribute_item *all, size_t count, size_t room) {
    guarded written = guard(room * sizeof *all);
    clim_attribute_item *items = (clim_attribute_item *)written.at;
    for (size_t i = 0; i < room; i++) items[i] = NO_ITEM;
    bool same = clim_attribute_items(view, row, items, room) == count;
    for (size_t i = 0; i < room; i++) same &= same_item(&items[i], i < count ? &all[i] : &NO_ITEM);
    munmap(written.pages, written.room);
    return same;
}

/* Whether items are those of a value: fixed arguments, the number of named ones, and these, with elements after arrays. */
static bool are_of_value(const clim_attribute_item *items, size_t count) {
    uint64_t elements = 0, named = UINT64_MAX;
    bool same = true;
    for (size_t i = 0; i < count; i++) {
        uint8_t kind = items[i].kind;
        bool is_array = items[i].form == CLIM_ARRAY;
        same &= (elements > 0) == (kind == CLIM_ELEMENT);
        same &= kind == CLIM_ELEMENT || (named == UINT64_MAX) == (kind == CLIM_FIXED_ARGUMENT || kind == CLIM_NAMED_COUNT);
        if (kind == CLIM_NAMED_COUNT) named = items[i].number + 1;
        if (kind != CLIM_ELEMENT && kind != CLIM_FIXED_ARGUMENT) named--;
        elements = is_array ? items[i].number : kind == CLIM_ELEMENT ? elements - 1 : 0;
        same &= !items[i].is_null || (items[i].number == 0 && items[i].text.len == 0);
    }
    return same && elements == 0 && named == 0;
}

/* The attributes of a view: a call returns the number of items of each value, and writes those that there is room for. */
static void ask_attributes(const clim_view *view) {
    uint32_t rows = clim_count(view, CLIM_CUSTOM_ATTRIBUTE), step = rows / 300 + 1;
    clim_attribute_item item = NO_ITEM;
    clim_cell value = NO_CELL;
    clim_view closed = CLOSED;
    bool same = true;
    for (uint32_t row = 1; row <= rows; row += step) {
        size_t count = clim_attribute_items(view, row, &item, 0);
        clim_cell_at(view, CLIM_CUSTOM_ATTRIBUTE, row, CLIM_CUSTOM_ATTRIBUTE_VALUE, &value);
        same &= count == CLIM_NOT_DECODED || (count > 0 && count <= value.bytes.len);
        if (count == CLIM_NOT_DECODED || count > 1000) continue;
        static clim_attribute_item all[1000];
        for (size_t i = 0; i < count; i++) all[i] = NO_ITEM;
        same &= clim_attribute_items(view, row, all, count) == count && are_of_value(all, count);
        same &= are_items(view, row, all, count, count / 2) && are_items(view, row, all, count, count + 1);
    }
    CHECK(same);
    CHECK(clim_attribute_items(view, 0, &item, 1) == 0 && clim_attribute_items(view, rows + 1, &item, 1) == 0);
    CHECK(clim_attribute_items(view, UINT32_MAX, &item, 1) == 0 && clim_attribute_items(&closed, 1, &item, 1) == 0);
    CHECK(same_item(&item, &NO_ITEM));
}

static clim_attribute_item item_of(uint8_t kind, uint8_t form, uint8_t type, uint64_t number) {
    return (clim_attribute_item){CLIM_NO_BYTES, CLIM_NO_BYTES, number, kind, form, type, false};
}

static clim_attribute_item text_item(uint8_t kind, uint8_t form, uint8_t type, const char *text) {
    return (clim_attribute_item){CLIM_NO_BYTES, text_of(text == NULL ? "" : text), 0, kind, form, type, text == NULL};
}

static clim_attribute_item named(const char *name, clim_attribute_item item) {
    item.name = text_of(name);
    return item;
}

/* A value with an argument of each type, one of an enum of another file, and one of no bytes. */
static void ask_each_type(void) {
    static const char parameters[] =
        "\x20\x14\1\2\3\4\5\6\7\10\11\12\13\14\15\16\16\x12\x09\x11\x08\x1C\x1D\x08\x1D\x0E\x1D\x1C";
    static const char value[] =
        "\1\0\1\x3D\xD8\xFF\xFF\xFE\xFF\xFE\xFF\xFD\xFF\xFF\xFF\xFD\xFF\xFF\xFF\xFC\xFF\xFF\xFF\xFF\xFF\xFF\xFF"
        "\xFC\xFF\xFF\xFF\xFF\xFF\xFF\xFF\0\0\xC0\x3F\0\0\0\0\0\0\xF8\xBF\3a\xC3\xA9\xFF\x0DSystem.String\2\0"
        "\x08*\0\0\0\2\0\0\0\1\0\0\0\2\0\0\0\xFF\xFF\xFF\xFF\2\0\0\0\x0E\1x\x0E\xFF"
        "\3\0S\x08\5Count\7\0\0\0T\x1D\2\5Flags\1\0\0\0\1TQ\3Tag\2\0";
    const uint8_t fixed = CLIM_FIXED_ARGUMENT, plain = CLIM_PLAIN_VALUE, boxed = CLIM_BOXED_VALUE;
    clim_attribute_item no_strings = item_of(fixed, CLIM_ARRAY, CLIM_STRING, 0);
    no_strings.is_null = true;
    const clim_attribute_item all[] = {
        item_of(fixed, plain, CLIM_BOOLEAN, 1), item_of(fixed, plain, CLIM_CHAR, 0xD83D), item_of(fixed, plain, CLIM_I1, 0xFF),
        item_of(fixed, plain, CLIM_U1, 0xFF), item_of(fixed, plain, CLIM_I2, 0xFFFE), item_of(fixed, plain, CLIM_U2, 0xFFFE),
        item_of(fixed, plain, CLIM_I4, 0xFFFFFFFD), item_of(fixed, plain, CLIM_U4, 0xFFFFFFFD),
        item_of(fixed, plain, CLIM_I8, UINT64_MAX - 3), item_of(fixed, plain, CLIM_U8, UINT64_MAX - 3),
        item_of(fixed, plain, CLIM_R4, 0x3FC00000), item_of(fixed, plain, CLIM_R8, 0xBFF8000000000000),
        text_item(fixed, plain, CLIM_STRING, "a\xC3\xA9"), text_item(fixed, plain, CLIM_STRING, NULL),
        text_item(fixed, plain, CLIM_SYSTEM_TYPE, "System.String"), item_of(fixed, plain, CLIM_I2, 2),
        item_of(fixed, boxed, CLIM_I4, 42), item_of(fixed, CLIM_ARRAY, CLIM_I4, 2),
        item_of(CLIM_ELEMENT, plain, CLIM_I4, 1), item_of(CLIM_ELEMENT, plain, CLIM_I4, 2), no_strings,
        item_of(fixed, CLIM_ARRAY, CLIM_OBJECT, 2), text_item(CLIM_ELEMENT, boxed, CLIM_STRING, "x"),
        text_item(CLIM_ELEMENT, boxed, CLIM_STRING, NULL), item_of(CLIM_NAMED_COUNT, CLIM_NO_VALUE, 0, 3),
        named("Count", item_of(CLIM_FIELD_ARGUMENT, plain, CLIM_I4, 7)),
        named("Flags", item_of(CLIM_PROPERTY_ARGUMENT, CLIM_ARRAY, CLIM_BOOLEAN, 1)), item_of(CLIM_ELEMENT, plain, CLIM_BOOLEAN, 1),
        named("Tag", item_of(CLIM_PROPERTY_ARGUMENT, boxed, CLIM_BOOLEAN, 0))};
    clim_cell zero = number_cell(0), no_name = text_cell(""), null_guid = bytes_cell(CLIM_NULL_GUID, "", 0);
    clim_cell module = row_cell(CLIM_MODULE, 1), system = text_cell("System"), constructor = text_cell(".ctor");
    clim_cell mark = row_cell(CLIM_TYPE_REF, 1), first = row_cell(CLIM_MEMBER_REF, 1), second = row_cell(CLIM_MEMBER_REF, 2);
    clim_row rows[] = {
        {(clim_cell[]){zero, text_cell("one.dll"), null_guid, null_guid, null_guid}, 5, CLIM_MODULE},
        {(clim_cell[]){module, text_cell("Mark"), text_cell("Hello")}, 3, CLIM_TYPE_REF},
        {(clim_cell[]){module, text_cell("Type"), system}, 3, CLIM_TYPE_REF},
        {(clim_cell[]){module, text_cell("Enum"), system}, 3, CLIM_TYPE_REF},
        {(clim_cell[]){zero, text_cell("<Module>"), no_name, row_cell(0, 0), start_cell(1), start_cell(1)}, 6, CLIM_TYPE_DEF},
        {(clim_cell[]){zero, text_cell("Color"), no_name, row_cell(CLIM_TYPE_REF, 3), start_cell(1), start_cell(1)}, 6, CLIM_TYPE_DEF},
        {(clim_cell[]){number_cell(6), text_cell("value__"), bytes_cell(CLIM_SIGNATURE, "\x06\x06", 2)}, 3, CLIM_FIELD},
        {(clim_cell[]){mark, constructor, bytes_cell(CLIM_SIGNATURE, parameters, sizeof parameters - 1)}, 3, CLIM_MEMBER_REF},
        {(clim_cell[]){mark, constructor, bytes_cell(CLIM_SIGNATURE, "\x20\1\1\x11\x09", 5)}, 3, CLIM_MEMBER_REF},
        {(clim_cell[]){module, first, bytes_cell(CLIM_BLOB, value, sizeof value - 1)}, 3, CLIM_CUSTOM_ATTRIBUTE},
        {(clim_cell[]){module, second, bytes_cell(CLIM_BLOB, "\1\0\2\0\0\0\0\0", 8)}, 3, CLIM_CUSTOM_ATTRIBUTE},
        {(clim_cell[]){module, first, bytes_cell(CLIM_BLOB, "", 0)}, 3, CLIM_CUSTOM_ATTRIBUTE}};
    given it = {text_of("v4.0.30319"), CLIM_NO_BYTES, rows, sizeof rows / sizeof *rows};
    uint8_t root[1200];
    clim_refusal refusal = CLIM_NO_REFUSAL;
    clim_view view = CLOSED;
    clim_fault fault = CLIM_NO_FAULT;
    clim_attribute_item item = NO_ITEM;
    size_t len = make_root(&it, root, sizeof root, &refusal), count = sizeof all / sizeof *all;
    CHECK(len <= sizeof root && clim_open_root(root, len, &view, &fault));
    for (size_t room = 0; room <= count + 1; room++) CHECK(are_items(&view, 1, all, count, room));
    CHECK(are_of_value(all, count));
    CHECK(clim_attribute_items(&view, 2, &item, 1) == CLIM_NOT_DECODED && same_item(&item, &NO_ITEM));
    CHECK(clim_attribute_items(&view, 3, &item, 1) == CLIM_NOT_DECODED && same_item(&item, &NO_ITEM));
    ask_attributes(&view);
}

/* Whether a view has the rows that are given, and no others. */
static bool has_rows(const clim_view *view, const given *it) {
    uint32_t rows[256] = {0};
    bool same = true;
    for (size_t i = 0; i < it->count; i++) {
        const clim_row *row = &it->rows[i];
        rows[row->table]++;
        for (size_t column = 0; column < row->count; column++) {
            clim_cell cell = NO_CELL;
            same &= clim_cell_at(view, row->table, rows[row->table], column, &cell) && same_cell(&cell, &row->cells[column]);
        }
    }
    for (unsigned table = 0; table < 256; table++) same &= clim_count(view, (uint8_t)table) == rows[table];
    return same;
}

/* The root of rows that are given has these rows. It is its own canonical root. */
static void ask_sample(void) {
    static sample_rows sample;
    set_sample(&sample);
    clim_refusal none = {7, 7, 7, 7}, refusal = none;
    size_t len = make_root(&sample.all, NULL_BUFFER, 0, &refusal);
    CHECK(len > 0 && len < 1000);
    guarded root = guard(len), same = guard(len);
    clim_view view = CLOSED;
    clim_fault fault = CLIM_NO_FAULT;
    clim_bytes version = CLIM_NO_BYTES, user = CLIM_NO_BYTES;
    CHECK(make_root(&sample.all, root.at, len, &refusal) == len && same_refusal(&refusal, &none));
    CHECK(clim_open_root(root.at, len, &view, &fault) && has_rows(&view, &sample.all));
    clim_version(&view, &version);
    clim_user(&view, &user);
    CHECK(same_bytes(version, sample.all.version) && same_bytes(user, sample.all.user));
    CHECK(clim_canonical_root(&view, same.at, len) == len && memcmp(root.at, same.at, len) == 0);
    /* No rows are an empty model. */
    given empty = {CLIM_NO_BYTES, CLIM_NO_BYTES, sample.rows, 0};
    len = make_root(&empty, root.at, root.len, &refusal);
    CHECK(clim_open_root(root.at, len, &view, &fault) && has_rows(&view, &empty) && same_refusal(&refusal, &none));
    munmap(root.pages, root.room);
    munmap(same.pages, same.room);
}

/* Whether rows are refused like this, with a buffer that has room, which is unchanged. */
static bool is_refused(const given *it, uint16_t code, uint8_t table, uint32_t row, size_t column) {
    guarded buffer = guard(4000);
    clim_refusal refusal = {7, 7, 7, 7}, wanted = {column, row, code, table};
    memset(buffer.at, 0xEE, buffer.len);
    bool as_stated = make_root(it, buffer.at, buffer.len, &refusal) == 0 && same_refusal(&refusal, &wanted);
    for (size_t i = 0; i < buffer.len; i++) as_stated &= buffer.at[i] == 0xEE;
    if (!as_stated) printf("refused: %u %u %u %zu\n", refusal.code, refusal.table, refusal.row, refusal.column);
    munmap(buffer.pages, buffer.room);
    return as_stated;
}

/* The sample with another cell is refused at this cell. */
static bool is_cell_refused(size_t at, size_t column, clim_cell cell, uint16_t code, uint32_t row) {
    static sample_rows sample;
    set_sample(&sample);
    sample.cells[at][column] = cell;
    return is_refused(&sample.all, code, sample.rows[at].table, row, column);
}

/* Cells that cannot be read, and cells that break a rule. */
static void ask_refused_cells(void) {
    clim_cell no_kind = NO_CELL, past_kinds = NO_CELL;
    past_kinds.kind = 10;
    CHECK(is_cell_refused(MODULE, CLIM_MODULE_NAME, no_kind, 509, 1));
    CHECK(is_cell_refused(INNER_TYPE, CLIM_TYPE_DEF_TYPE_NAME, past_kinds, 509, 3));
    CHECK(is_cell_refused(TYPE, CLIM_TYPE_DEF_TYPE_NAME, text_cell("\xC0\x80"), 509, 2));
    CHECK(is_cell_refused(TYPE, CLIM_TYPE_DEF_EXTENDS, row_cell(0x03, 1), 509, 2));
    CHECK(is_cell_refused(TYPE, CLIM_TYPE_DEF_TYPE_NAME, bytes_cell(CLIM_SIGNATURE, "\x06\x08", 2), 509, 2));
    CHECK(is_cell_refused(FIELD, CLIM_FIELD_SIGNATURE, bytes_cell(CLIM_SIGNATURE, "\x06", 1), 701, 1));
    CHECK(is_cell_refused(FIELD, CLIM_FIELD_SIGNATURE, bytes_cell(CLIM_SIGNATURE, "\x20\x01\x01\x08", 4), 701, 1));
    CHECK(is_cell_refused(FIELD, CLIM_FIELD_SIGNATURE, bytes_cell(CLIM_BLOB, "\x06\x08", 2), 509, 1));
    CHECK(is_cell_refused(FIELD, CLIM_FIELD_FLAGS, number_cell(0x10000), 509, 1));
    CHECK(is_cell_refused(FIELD, CLIM_FIELD_FLAGS, start_cell(1), 509, 1));
    CHECK(is_cell_refused(PARAM, CLIM_PARAM_NAME, bytes_cell(CLIM_TEXT, "a\0b", 3), 509, 1));
    CHECK(is_cell_refused(PARAM, CLIM_PARAM_NAME, bytes_cell(CLIM_BLOB, "a", 1), 509, 1));
    CHECK(is_cell_refused(MODULE, CLIM_MODULE_MVID, row_cell(0, 0), 509, 1));
    CHECK(is_cell_refused(TYPE, CLIM_TYPE_DEF_EXTENDS, row_cell(CLIM_MODULE, 1), 509, 2));
    CHECK(is_cell_refused(TYPE, CLIM_TYPE_DEF_EXTENDS, row_cell(CLIM_TYPE_REF, 2), 506, 2));
    CHECK(is_cell_refused(TYPE, CLIM_TYPE_DEF_EXTENDS, row_cell(CLIM_TYPE_REF, UINT32_MAX), 506, 2));
    CHECK(is_cell_refused(NESTED, CLIM_NESTED_CLASS_NESTED_CLASS, row_cell(0, 0), 506, 1));
    CHECK(is_cell_refused(METHOD, CLIM_METHOD_DEF_PARAM_LIST, start_cell(3), 507, 1));
    CHECK(is_cell_refused(FIRST_TYPE, CLIM_TYPE_DEF_METHOD_LIST, start_cell(2), 602, 1));
    CHECK(is_cell_refused(INNER_TYPE, CLIM_TYPE_DEF_FIELD_LIST, start_cell(0), 602, 3));
    CHECK(is_cell_refused(NESTED, CLIM_NESTED_CLASS_ENCLOSING_CLASS, row_cell(CLIM_TYPE_DEF, 3), 604, 1));
    CHECK(is_cell_refused(ARRAY, CLIM_TYPE_SPEC_SIGNATURE, bytes_cell(CLIM_SIGNATURE, "\x1D\x12\x09", 3), 702, 1));
}

/* Versions, user strings and rows that are refused, and which is refused first. */
static void ask_refused_rows(void) {
    static sample_rows sample;
    static const uint8_t zeros[3], spaces[256] = {' '};
    set_sample(&sample);
    given it = sample.all;
    it.version = text_of("v\xFF");
    CHECK(is_refused(&it, 302, 0, 0, 0));
    sample.rows[TYPE].table = 0x03;
    CHECK(is_refused(&it, 302, 0, 0, 0));
    it.version = (clim_bytes){spaces, 255};
    CHECK(is_refused(&it, 509, 0x03, 0, 0));
    sample.cells[REFERENCE][CLIM_TYPE_REF_TYPE_NAME] = text_cell("\xFF");
    CHECK(is_refused(&it, 509, CLIM_TYPE_REF, 1, CLIM_TYPE_REF_TYPE_NAME));
    set_sample(&sample);
    CHECK(is_refused(&it, 302, 0, 0, 0));
    it = sample.all;
    it.user = (clim_bytes){zeros, 3};
    CHECK(is_refused(&it, 510, 0, 0, 0));
    it = sample.all;
    sample.rows[INNER_TYPE].count--;
    CHECK(is_refused(&it, 509, CLIM_TYPE_DEF, 3, 0));
    sample.rows[TYPE].count = 0;
    CHECK(is_refused(&it, 509, CLIM_TYPE_DEF, 2, 0));
    set_sample(&sample);
    sample.rows[NESTED].count = 3;
    CHECK(is_refused(&it, 509, CLIM_NESTED_CLASS, 1, 2));
    sample.cells[NESTED][2] = number_cell(0);
    CHECK(is_refused(&it, 509, CLIM_NESTED_CLASS, 1, 0));
    /* A parameter without a method. */
    set_sample(&sample);
    sample.rows[METHOD] = sample.rows[PARAM];
    sample.cells[INNER_TYPE][CLIM_TYPE_DEF_METHOD_LIST] = start_cell(1);
    CHECK(is_refused(&it, 603, CLIM_PARAM, 1, 0));
}

/* Gives fields that do not belong to the kind of a cell another value. */
static void spoil_unused(clim_cell *cell) {
    static const uint8_t no_text[] = {0xFF};
    uint8_t kind = cell->kind;
    if (kind != CLIM_TEXT && kind != CLIM_BLOB && kind != CLIM_SIGNATURE) cell->bytes = (clim_bytes){no_text, 1};
    if (kind != CLIM_NUMBER && kind != CLIM_ROW && kind != CLIM_START) cell->number = 7;
    if (kind != CLIM_ROW) cell->table = 0xFF;
    if (kind != CLIM_GUID) memset(cell->guid, 7, sizeof cell->guid);
}

/* The rows of a view, which the caller frees, and their cells: in the order of the tables or, mixed, a row of each table
 * in turn. Of mixed rows, fields that do not belong to the kind of a cell have any value. */
static given rows_of(const clim_view *view, clim_cell **cells, bool mixed) {
    static clim_cell *columns[256];
    size_t rows = 0, count = 0, room = 0;
    for (unsigned table = 0; table < 256; table++) {
        columns[table] = read_cells(view, (uint8_t)table);
        rows += clim_count(view, (uint8_t)table);
        room += clim_count(view, (uint8_t)table) * clim_cell_count((uint8_t)table);
    }
    given it = {CLIM_NO_BYTES, CLIM_NO_BYTES, malloc((rows + 1) * sizeof(clim_row)), rows};
    clim_cell *cell = *cells = malloc((room + 1) * sizeof(clim_cell));
    if (it.rows == NULL || cell == NULL) stop("no memory");
    clim_version(view, &it.version);
    for (uint32_t turn = 1; count < rows; turn++) {
        for (unsigned table = 0; table < 256; table++) {
            uint32_t its = clim_count(view, (uint8_t)table), past = mixed && its > turn ? turn + 1 : its + 1;
            for (uint32_t row = turn; row < past; row++) {
                it.rows[count++] = (clim_row){cell, clim_cell_count((uint8_t)table), (uint8_t)table};
                for (size_t column = 0; column < clim_cell_count((uint8_t)table); column++, cell++) {
                    *cell = columns[table][column * its + row - 1];
                    if (mixed) spoil_unused(cell);
                }
            }
        }
    }
    for (unsigned table = 0; table < 256; table++) free(columns[table]);
    return it;
}

/* The user strings of a view, padded with zeros to a multiple of four. */
static guarded padded_user(const clim_view *view) {
    clim_bytes user = CLIM_NO_BYTES;
    clim_user(view, &user);
    guarded padded = guard((user.len + 3) / 4 * 4);
    memcpy(padded.at, user.at, user.len);
    return padded;
}

/* Writes the root of the rows of a view, and returns its length. */
static size_t build_again(const clim_view *view, uint8_t *buffer, size_t room) {
    clim_cell *cells = NULL;
    clim_refusal refusal = CLIM_NO_REFUSAL;
    given it = rows_of(view, &cells, false);
    guarded user = padded_user(view);
    it.user = (clim_bytes){user.at, user.len};
    size_t len = make_root(&it, buffer, room, &refusal);
    munmap(user.pages, user.room);
    free(it.rows);
    free(cells);
    return len;
}

/* Memory runs out at each block in turn: nothing is written then. */
static void ask_no_memory_for(const given *it, const guarded *wanted) {
    guarded root = guard(wanted->len), same = guard(wanted->len);
    clim_refusal none = {7, 7, 7, 7}, refusal = none;
    long blocks = 1;
    bool as_stated = true;
    memset(same.at, 0xEE, same.len);
    for (size_t made = CLIM_NO_MEMORY; made == CLIM_NO_MEMORY; blocks++) {
        memset(root.at, 0xEE, root.len);
        blocks_left = blocks;
        made = make_root(it, root.at, root.len, &refusal);
        blocks_left = -1;
        as_stated &= made == root.len || (made == CLIM_NO_MEMORY && memcmp(root.at, same.at, root.len) == 0);
    }
    CHECK(as_stated && blocks > 2 && same_refusal(&refusal, &none));
    CHECK(memcmp(root.at, wanted->at, root.len) == 0);
    munmap(root.pages, root.room);
    munmap(same.pages, same.room);
}

/* The rows of a view have its canonical root. It is written as a whole or not at all, and nothing is written past it. */
static void ask_given(const clim_view *view) {
    clim_refusal none = {7, 7, 7, 7}, refusal = none;
    size_t len = clim_canonical_root(view, NULL_BUFFER, 0);
    guarded wanted = guard(len), root = guard(len), more = guard(len + 1), padded = padded_user(view);
    CHECK(clim_canonical_root(view, wanted.at, len) == len);
    for (int mixed = 0; mixed < 2; mixed++) {
        clim_cell *cells = NULL;
        given it = rows_of(view, &cells, mixed == 1);
        it.user = (clim_bytes){padded.at, padded.len};
        memset(root.at, 0xEE, len);
        memset(more.at, 0xEE, len + 1);
        CHECK(make_root(&it, root.at, len - 1, &refusal) == len && memcmp(root.at, more.at, len) == 0);
        CHECK(make_root(&it, more.at, len + 1, &refusal) == len && more.at[len] == 0xEE);
        CHECK(make_root(&it, root.at, len, &refusal) == len && memcmp(root.at, more.at, len) == 0);
        CHECK(memcmp(root.at, wanted.at, len) == 0 && same_refusal(&refusal, &none));
        /* Of a large file there are too many blocks. */
        if (len < 1 << 14) ask_no_memory_for(&it, &wanted);
        free(it.rows);
        free(cells);
    }
    munmap(wanted.pages, wanted.room);
    munmap(root.pages, root.room);
    munmap(more.pages, more.room);
    munmap(padded.pages, padded.room);
}

/* Writes the canonical root to a file, as clim rewrite does, and prints its digest. It is that of the view, or that of
 * tables with the rows of the view. */
static void rewrite(const clim_view *view, const char *path, bool from_tables) {
    uint8_t digest[32] = {0};
    size_t len = clim_digest(view, digest);
    guarded root = guard(len);
    FILE *out = fopen(path, "wb");
    size_t made = from_tables ? build_again(view, root.at, len) : clim_canonical_root(view, root.at, len);
    if (!out || made != len || fwrite(root.at, 1, len, out) != len || fclose(out)) stop("no canonical root");
    for (size_t i = 0; i < sizeof digest; i++) printf("%02x", digest[i]);
    puts("");
    munmap(root.pages, root.room);
}

/* The header names the root of the view. */
static void ask_header(guarded file, const clim_view *view) {
    clim_header header = CLIM_NO_HEADER;
    clim_fault fault = {7, 7, 7};
    CHECK(clim_read_header(file.at, file.len, &header, &fault) && fault.code == 7 && header.cb >= 72);
    CHECK(view->root.at == file.at + header.root_start && view->root.len == header.root_end - header.root_start);
    CHECK(header.metadata.size == view->root.len && header.offset + 72 <= file.len);
    clim_header same = header;
    CHECK(!clim_read_header(file.at, 0, &same, &fault) && fault.code == 102);
    CHECK(memcmp(&same, &header, sizeof same) == 0);
}

/* Signatures are checked within a budget: with one byte less than they need it is spent. */
static void ask_within(guarded file, const clim_view *view, bool bare) {
    CHECK(clim_abi_version() == CLIM_ABI_VERSION && clim_view_size() == sizeof(clim_view));
    clim_fault fault = {7, 7, 7};
    uint64_t low = 0, high = UINT64_MAX;
    bool spent = true, is_first = true;
    while (low < high) {
        uint64_t budget = low + (high - low) / 2;
        clim_view opened = CLOSED;
        bool open = bare ? clim_open_root_within(file.at, file.len, budget, &opened, &fault, &spent)
                         : clim_open_within(file.at, file.len, budget, &opened, &fault, &spent);
        is_first &= open != spent && same_view(&opened, open ? view : &CLOSED);
        if (open) high = budget;
        else low = budget + 1;
    }
    CHECK(is_first && fault.code == 7);
    CHECK(high <= 64 * (uint64_t)file.len);
    /* A rule before those of signatures is reported whatever the budget is. */
    spent = true;
    CHECK(!clim_check_within(file.at, 0, 0, &fault, &spent) && !spent && fault.code == 102);
    spent = true;
    CHECK(!clim_check_root_within(file.at, 0, 0, &fault, &spent) && !spent && fault.code == 301);
}

/* A file and a root of more than 2^30 bytes are too long, whatever their bytes are. */
static void ask_too_long(void) {
    size_t most = (size_t)1 << 30;
    uint8_t *zeros = mmap(NULL, most + 1, PROT_READ, MAP_PRIVATE | MAP_ANONYMOUS | MAP_NORESERVE, -1, 0);
    if (zeros == MAP_FAILED) stop("no memory");
    clim_fault fault = {7, 7, 7};
    clim_header header = CLIM_NO_HEADER;
    clim_view view = CLOSED;
    CHECK(!clim_check(zeros, most + 1, &fault) && same_fault(fault, (clim_fault){0, 101, 1}));
    CHECK(!clim_read_header(zeros, most + 1, &header, &fault) && same_fault(fault, (clim_fault){0, 101, 1}));
    CHECK(!clim_check(zeros, most, &fault) && same_fault(fault, (clim_fault){0, 102, 1}));
    CHECK(!clim_open_root(zeros, most + 1, &view, &fault) && same_fault(fault, (clim_fault){0, 101, 1}));
    CHECK(!clim_open_root(zeros, most, &view, &fault) && same_fault(fault, (clim_fault){0, 301, 3}));
    CHECK(same_view(&view, &CLOSED));
    munmap(zeros, most + 1);
}

/* A view may be moved. The memory that it was in may then have any bytes. */
static void ask_moved(const clim_view *view) {
    clim_view *first = malloc(sizeof *first), moved = CLOSED;
    uint32_t types = clim_count(view, CLIM_TYPE_DEF);
    clim_cell name = NO_CELL, its_name = NO_CELL;
    if (first == NULL) stop("no memory");
    *first = *view;
    bool has_name = clim_cell_at(first, CLIM_TYPE_DEF, 1, CLIM_TYPE_DEF_TYPE_NAME, &name);
    moved = *first;
    memset(first, 0xEE, sizeof *first);
    free(first);
    CHECK(clim_count(&moved, CLIM_TYPE_DEF) == types && has_name == (types > 0));
    CHECK(clim_cell_at(&moved, CLIM_TYPE_DEF, 1, CLIM_TYPE_DEF_TYPE_NAME, &its_name) == has_name);
    CHECK(same_cell(&name, &its_name));
}

/* Arguments that a call only reads may overlap: a name in its own namespace, and a version that is also the text, the
 * blob of a cell and the user strings. */
static void ask_overlapping(const clim_view *view) {
    clim_cell name = NO_CELL;
    if (clim_cell_at(view, CLIM_TYPE_DEF, 1, CLIM_TYPE_DEF_TYPE_NAME, &name)) {
        uint32_t row = clim_find_type(view, name.bytes.at, 0, name.bytes.at, name.bytes.len);
        CHECK(row <= 1 && clim_find_type(view, name.bytes.at, name.bytes.len, name.bytes.at, 0) == 0);
    }
    static const uint8_t bytes[] = {0, 3, 'A', 0, 1, 0, 0, 0};
    clim_cell file[] = {number_cell(0), {{bytes + 2, 1}, 0, CLIM_TEXT, 0, {0}}, {{bytes, 8}, 0, CLIM_BLOB, 0, {0}}};
    clim_row rows[] = {{file, 3, CLIM_FILE}, {file, 3, CLIM_FILE}};
    given it = {{bytes + 2, 1}, {bytes, sizeof bytes}, rows, 2};
    clim_refusal refusal = CLIM_NO_REFUSAL;
    uint8_t root[400];
    size_t len = make_root(&it, root, sizeof root, &refusal);
    clim_view made = CLOSED;
    clim_fault fault = CLIM_NO_FAULT;
    CHECK(len > 0 && len <= sizeof root && clim_open_root(root, len, &made, &fault) && has_rows(&made, &it));
}

/* ---- copies with another root */

/* Whether a call makes no copy: it returns this number, and writes nothing but a fault with this code; none if it is 7. */
static bool is_no_copy(guarded file, clim_bytes root, uint8_t strong_name, size_t wanted, uint16_t code) {
    guarded buffer = guard(file.len + root.len + (1 << 16));
    clim_fault fault = {7, 7, 7};
    memset(buffer.at, 0xEE, buffer.len);
    bool as_stated = clim_embed(file.at, file.len, root.at, root.len, strong_name, buffer.at, buffer.len, &fault) == wanted;
    for (size_t i = 0; i < buffer.len; i++) as_stated &= buffer.at[i] == 0xEE;
    if (fault.code != code) printf("fault of no copy: %u\n", fault.code);
    munmap(buffer.pages, buffer.room);
    return as_stated && fault.code == code;
}

/* A copy of a file. It is written as a whole or not at all, and nothing is written past it. The caller frees it. */
static guarded copy_of(guarded file, clim_bytes root, uint8_t strong_name) {
    clim_fault fault = {7, 7, 7};
    size_t len = clim_embed(file.at, file.len, root.at, root.len, strong_name, NULL_BUFFER, 0, &fault);
    CHECK(len > 0 && len < CLIM_NO_ROOM);
    guarded copy = guard(len), more = guard(len + 1);
    memset(copy.at, 0xEE, len);
    memset(more.at, 0xEE, len + 1);
    CHECK(clim_embed(file.at, file.len, root.at, root.len, strong_name, copy.at, len - 1, &fault) == len);
    CHECK(memcmp(copy.at, more.at, len) == 0);
    CHECK(clim_embed(file.at, file.len, root.at, root.len, strong_name, more.at, len + 1, &fault) == len && more.at[len] == 0xEE);
    CHECK(clim_embed(file.at, file.len, root.at, root.len, strong_name, copy.at, len, &fault) == len && fault.code == 7);
    CHECK(memcmp(copy.at, more.at, len) == 0);
    munmap(more.pages, more.room);
    return copy;
}

/* The root of the rows of a view, with another name in the rows of Module. The caller frees it. */
static guarded renamed_root(const clim_view *view, const char *name) {
    clim_cell *cells = NULL;
    clim_refusal refusal = CLIM_NO_REFUSAL;
    given it = rows_of(view, &cells, false);
    guarded user = padded_user(view);
    it.user = (clim_bytes){user.at, user.len};
    for (size_t i = 0; i < it.count; i++) {
        if (it.rows[i].table == CLIM_MODULE) cells[it.rows[i].cells - cells + CLIM_MODULE_NAME] = text_cell(name);
    }
    size_t len = make_root(&it, NULL_BUFFER, 0, &refusal);
    guarded root = guard(len);
    CHECK(make_root(&it, root.at, len, &refusal) == len);
    munmap(user.pages, user.room);
    free(it.rows);
    free(cells);
    return root;
}

/* Memory runs out at each block in turn: nothing is written then. With a root that is given none is allocated. */
static void ask_no_memory_to_embed(guarded file, clim_bytes root) {
    clim_fault fault = {7, 7, 7};
    blocks_left = 0;
    size_t len = clim_embed(file.at, file.len, root.at, root.len, CLIM_KEEP_STRONG_NAME, NULL_BUFFER, 0, &fault);
    blocks_left = -1;
    CHECK(len > 0 && len < CLIM_NO_ROOM);
    long blocks = 1;
    bool as_stated = true;
    for (len = CLIM_NO_MEMORY; len == CLIM_NO_MEMORY; blocks++) {
        uint8_t first = 0xEE;
        blocks_left = blocks;
        len = clim_embed(file.at, file.len, root.at, 0, CLIM_KEEP_STRONG_NAME, &first, 1, &fault);
        blocks_left = -1;
        as_stated &= first == 0xEE && fault.code == 7;
    }
    CHECK(as_stated && blocks > 2 && len < CLIM_NO_ROOM);
}

/* A name by which a root is longer than it was. */
static const char *long_name(void) {
    static char name[2000];
    memset(name, 'n', sizeof name - 1);
    return name;
}

/* A copy with a longer root opens, with this root; or there is no room for it. */
static void ask_longer_root(guarded file, const clim_view *view) {
    guarded root = renamed_root(view, long_name());
    clim_bytes longer = {root.at, root.len};
    clim_fault fault = {7, 7, 7};
    clim_view other = CLOSED;
    if (clim_embed(file.at, file.len, root.at, root.len, CLIM_KEEP_STRONG_NAME, NULL_BUFFER, 0, &fault) == CLIM_NO_ROOM) {
        CHECK(is_no_copy(file, longer, CLIM_KEEP_STRONG_NAME, CLIM_NO_ROOM, 7));
    } else {
        guarded copy = copy_of(file, longer, CLIM_KEEP_STRONG_NAME);
        CHECK(copy.len > file.len && clim_open(copy.at, copy.len, &other, &fault));
        CHECK(other.root.len == root.len && memcmp(other.root.at, root.at, root.len) == 0);
        munmap(copy.pages, copy.room);
    }
    munmap(root.pages, root.room);
}

/* Copies of a file: with its own canonical root, and with another one. They open, with the metadata of the root. */
static void ask_embed(guarded file, const clim_view *view) {
    clim_fault fault = CLIM_NO_FAULT;
    clim_header old = CLIM_NO_HEADER, header = CLIM_NO_HEADER;
    clim_view own = CLOSED, other = CLOSED;
    clim_difference difference = CLIM_NO_DIFFERENCE;
    guarded root = renamed_root(view, "n");
    clim_bytes renamed = {root.at, root.len}, none = CLIM_NO_BYTES, short_root = {root.at, 16}, half = {root.at, root.len / 2};
    guarded same = copy_of(file, none, CLIM_KEEP_STRONG_NAME), changed = copy_of(file, renamed, CLIM_CLEAR_STRONG_NAME);
    CHECK(clim_open(same.at, same.len, &own, &fault) && clim_compare(view, &own, &difference) == CLIM_EQUAL);
    CHECK(clim_open(changed.at, changed.len, &other, &fault));
    CHECK(other.root.len == root.len && memcmp(other.root.at, root.at, root.len) == 0);
    CHECK(clim_read_header(file.at, file.len, &old, &fault) && clim_read_header(changed.at, changed.len, &header, &fault));
    CHECK(header.metadata.size == root.len && header.flags == (old.flags & ~8u) && header.strong_name_signature.size == 0);
    CHECK(clim_read_header(same.at, same.len, &header, &fault) && header.flags == old.flags);
    CHECK(header.strong_name_signature.size == old.strong_name_signature.size);
    /* What makes no copy. The first reason is that of a choice that there is not, then that of the file, then of the root. */
    guarded no_file = {file.at, 0, NULL, 0};
    CHECK(is_no_copy(file, renamed, 0, 0, 7) && is_no_copy(no_file, renamed, 3, 0, 7) && is_no_copy(file, none, 255, 0, 7));
    CHECK(is_no_copy(no_file, none, CLIM_KEEP_STRONG_NAME, CLIM_BAD_FILE, 102));
    CHECK(is_no_copy(no_file, short_root, CLIM_KEEP_STRONG_NAME, CLIM_BAD_FILE, 102));
    CHECK(!clim_check_root(half.at, half.len, &fault));
    CHECK(is_no_copy(file, half, CLIM_CLEAR_STRONG_NAME, CLIM_BAD_ROOT, fault.code));
    if (clim_count(view, CLIM_METHOD_DEF) > 0) {
        /* A root without rows does not lead into a file with methods. */
        uint8_t bytes[200];
        clim_refusal refusal = CLIM_NO_REFUSAL;
        given no_rows = {CLIM_NO_BYTES, CLIM_NO_BYTES, &(clim_row){&NO_CELL, 0, 0}, 0};
        clim_bytes empty = {bytes, make_root(&no_rows, bytes, sizeof bytes, &refusal)};
        CHECK(is_no_copy(file, empty, CLIM_KEEP_STRONG_NAME, CLIM_UNLIKE, 7));
    }
    if (root.len < 1 << 14) ask_no_memory_to_embed(file, renamed);
    munmap(root.pages, root.room);
    munmap(same.pages, same.room);
    munmap(changed.pages, changed.room);
}

/* Where a file says where its PE headers begin (II.25.2.1), and where these say how long all headers are (II.25.2.3.2). */
enum { LFANEW = 0x3C, HEADER_SIZE = 84 };

/* A file without room for a longer root: no header can be added, and the last section does not end the file. */
static void ask_no_room(guarded file, const clim_view *view) {
    guarded root = renamed_root(view, long_name()), full = guard(file.len + 4);
    uint32_t lfanew = 0;
    memcpy(&lfanew, file.at + LFANEW, sizeof lfanew);
    memcpy(full.at, file.at, file.len);
    memset(full.at + lfanew + HEADER_SIZE, 0, 4);
    memset(full.at + file.len, 7, 4);
    clim_fault fault = CLIM_NO_FAULT;
    CHECK(clim_check(full.at, full.len, &fault));
    if (root.len > view->root.len) {
        CHECK(is_no_copy(full, (clim_bytes){root.at, root.len}, CLIM_KEEP_STRONG_NAME, CLIM_NO_ROOM, 7));
    }
    munmap(root.pages, root.room);
    munmap(full.pages, full.room);
}

static void calls(guarded file, clim_view *view, bool bare) {
    static const struct { uint8_t owner, column, member; } runs[] = {
        {CLIM_TYPE_DEF, 4, CLIM_FIELD}, {CLIM_TYPE_DEF, 5, CLIM_METHOD_DEF}, {CLIM_METHOD_DEF, 5, CLIM_PARAM},
        {CLIM_EVENT_MAP, 1, CLIM_EVENT}, {CLIM_PROPERTY_MAP, 1, CLIM_PROPERTY}};
    static const struct { uint8_t table, column; } keys[] = {
        {CLIM_INTERFACE_IMPL, 0}, {CLIM_CONSTANT, 1}, {CLIM_CUSTOM_ATTRIBUTE, 0}, {CLIM_CLASS_LAYOUT, 2},
        {CLIM_FIELD_LAYOUT, 1}, {CLIM_METHOD_SEMANTICS, 2}, {CLIM_METHOD_IMPL, 0}, {CLIM_IMPL_MAP, 1},
        {CLIM_FIELD_RVA, 1}, {CLIM_NESTED_CLASS, 0}, {CLIM_GENERIC_PARAM, 2}, {CLIM_GENERIC_PARAM_CONSTRAINT, 0}};
    uint32_t row = 7;
    ask_closed();
    ask_names();
    ask_explanations();
    if (!bare) ask_header(file, view);
    for (unsigned table = 0; table < 256; table++) {
        if (clim_count(view, (uint8_t)table) > 0 && clim_count(view, (uint8_t)table) < 30000) compare_cells(view, (uint8_t)table);
        ask_signatures(view, (uint8_t)table);
        ask_row_texts(view, (uint8_t)table);
    }
    ask_no_row(view);
    ask_no_memory_for_rows(view);
    for (size_t i = 0; i < sizeof runs / sizeof *runs; i++) compare_runs(view, runs[i].owner, runs[i].column, runs[i].member);
    compare_types(view);
    for (size_t i = 0; i < sizeof keys / sizeof *keys; i++) compare_keys(view, keys[i].table, keys[i].column);
    CHECK(clim_rows_by_key(view, CLIM_MODULE, CLIM_TYPE_DEF, 1, &row, 1) == 0 && row == 7);
    clim_view copy = *view;
    CHECK(clim_count(&copy, CLIM_MODULE) == clim_count(view, CLIM_MODULE));
    /* A fault does not change an open view. */
    clim_fault fault = CLIM_NO_FAULT;
    CHECK(!clim_open(file.at, 0, &copy, &fault) && fault.code == 102 && same_view(&copy, view));
    CHECK(!clim_open_root(file.at, 0, &copy, &fault) && same_view(&copy, view));
    ask_within(file, view, bare);
    ask_guids();
    ask_padded();
    ask_deep();
    ask_long();
    ask_rank();
    ask_streams(view);
    ask_user_strings(view);
    ask_canonical(view);
    ask_where(view);
    ask_compare(view);
    ask_too_long();
    ask_moved(view);
    ask_overlapping(view);
    ask_attributes(view);
    ask_each_type();
    ask_sample();
    ask_refused_cells();
    ask_refused_rows();
    ask_given(view);
    if (!bare) {
        ask_offsets(file, view);
        ask_embed(file, view);
        ask_longer_root(file, view);
        ask_no_room(file, view);
    }
}

/* Prints the first difference of two views, as clim compare does. */
static void print_comparison(const clim_view *left, const clim_view *right) {
    clim_difference it = CLIM_NO_DIFFERENCE;
    if (compare_views(left, right, &it) == CLIM_EQUAL) {
        puts("equal");
        return;
    }
    switch (it.kind) {
    case CLIM_VERSION_DIFFERS: puts("version"); break;
    case CLIM_USER_DIFFERS: puts("user strings"); break;
    case CLIM_COUNT_DIFFERS: printf("count %02X %u %u\n", it.table, it.left_count, it.right_count); break;
    case CLIM_CELL_DIFFERS: printf("cell %02X %u %zu\n", it.table, it.row, it.column); break;
    default: puts("?");
    }
}

/* ---- what rules mean */

static void explain(void) {
    for (uint32_t code = 0; code < 0x10000; code++) {
        uint8_t text[2000];
        fwrite(text, 1, clim_explain((uint16_t)code, text, sizeof text), stdout);
    }
}

/* ---- times */

static double now(void) {
    struct timespec time;
    clock_gettime(CLOCK_MONOTONIC, &time);
    return (double)time.tv_sec * 1e6 + (double)time.tv_nsec * 1e-3;
}

/* The average time of a call, over many calls. */
#define TIME(name, call)                                                            \
    do {                                                                            \
        double at = now();                                                          \
        for (uint32_t i = 0; i < 10000; i++) call;                                  \
        printf("%s %.2f us\n", name, (now() - at) / 10000);                         \
    } while (0)

static void times(guarded file, bool bare) {
    clim_view view = CLOSED;
    clim_fault fault = CLIM_NO_FAULT;
    clim_cell cell = NO_CELL;
    double begun = now();
    if (bare) clim_open_root(file.at, file.len, &view, &fault);
    else clim_open(file.at, file.len, &view, &fault);
    printf("open %.0f us\n", now() - begun);
    uint32_t rows = clim_count(&view, CLIM_TYPE_DEF), first = 0, past = 0, sum = 0;
    if (rows == 0) stop("no types");
    TIME("clim_count", sum += clim_count(&view, CLIM_TYPE_DEF));
    TIME("clim_version", clim_version(&view, &cell.bytes));
    TIME("clim_cell_at, a text", clim_cell_at(&view, CLIM_TYPE_DEF, i % rows + 1, 1, &cell));
    TIME("clim_cell_at, a run", clim_cell_at(&view, CLIM_TYPE_DEF, i % rows + 1, 4, &cell));
    TIME("clim_members", clim_members(&view, CLIM_TYPE_DEF, i % rows + 1, CLIM_METHOD_DEF, &first, &past));
    TIME("clim_rows_by_key", clim_rows_by_key(&view, CLIM_CUSTOM_ATTRIBUTE, CLIM_TYPE_DEF, i % rows + 1, &sum, 1));
    clim_cell_at(&view, CLIM_TYPE_DEF, 1, 1, &cell);
    TIME("clim_find_type, the first", sum += clim_find_type(&view, cell.bytes.at, 0, cell.bytes.at, cell.bytes.len));
    TIME("clim_find_type, none", sum += clim_find_type(&view, cell.bytes.at, 0, cell.bytes.at, 0));
    size_t cells = 0;
    static clim_cell column[1 << 14];
    for (size_t i = 0; i < 1 << 14; i++) column[i] = NO_CELL;
    begun = now();
    for (unsigned table = 0; table < 256; table++) {
        for (size_t cell_index = 0; cell_index < clim_cell_count((uint8_t)table); cell_index++) {
            uint32_t row = 1;
            size_t count;
            while ((count = clim_cells(&view, (uint8_t)table, row, cell_index, column, 1 << 14)) > 0) {
                row += (uint32_t)count;
                cells += count;
            }
        }
    }
    double taken = now() - begun;
    size_t len = clim_canonical_root(&view, NULL_BUFFER, 0);
    guarded root = guard(len);
    begun = now();
    clim_canonical_root(&view, root.at, len);
    printf("clim_canonical_root %.0f us\n", now() - begun);
    begun = now();
    build_again(&view, root.at, len);
    printf("clim_tables, and the cells for it, %.0f us\n", now() - begun);
    munmap(root.pages, root.room);
    printf("clim_cells %zu cells %.0f us, %.1f ns a cell (%u)\n", cells, taken, taken * 1e3 / (double)cells, sum + first + past);
}

int main(int count, char **words) {
    if (count < 3) stop("test show|texts|vary|write|rewrite|build|calls|times FILE ..");
    guarded file = read_file(words[2]);
    bool bare = strcmp(words[count - 1], "bare") == 0;
    if (strcmp(words[1], "vary") == 0) {
        with_each(file, answer, &bare);
    } else if (strcmp(words[1], "write") == 0 && count > 3) {
        folder to = {words[3], 0};
        with_each(file, write_input, &to);
    } else if (strcmp(words[1], "times") == 0) {
        times(file, bare);
    } else if (strcmp(words[1], "explain") == 0) {
        explain();
    } else {
        /* No call writes what it only reads. */
        if (mprotect(file.pages, (size_t)(file.at + file.len - file.pages), PROT_READ) != 0) stop("no protection");
        clim_view view = CLOSED;
        clim_fault fault = CLIM_NO_FAULT;
        if (!(bare ? clim_open_root(file.at, file.len, &view, &fault) : clim_open(file.at, file.len, &view, &fault))) {
            print_fault(fault);
            return 1;
        }
        if (strcmp(words[1], "show") == 0 || strcmp(words[1], "texts") == 0) {
            show(&view, strcmp(words[1], "texts") == 0 ? TEXTS : BLOBS);
        } else if ((strcmp(words[1], "rewrite") == 0 || strcmp(words[1], "build") == 0) && count > 3) {
            rewrite(&view, words[3], words[1][0] == 'b');
        } else if (strcmp(words[1], "compare") == 0 && count > 3) {
            guarded second = read_file(words[3]);
            clim_view right = CLOSED;
            if (!(bare ? clim_open_root(second.at, second.len, &right, &fault)
                       : clim_open(second.at, second.len, &right, &fault)))
                stop("the second file is not open");
            print_comparison(&view, &right);
            munmap(second.pages, second.room);
        } else {
            calls(file, &view, bare);
            printf("%u passed, %u failed\n", passed, failed);
        }
    }
    munmap(file.pages, file.room);
    return failed > 0;
}
