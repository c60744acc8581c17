/* Random calls of clim from C, by two threads at a time: random_calls SECONDS SEED FILE..
 *
 * Each file is changed at random and opened. The threads then call functions on all views with numbers and rooms of any
 * size, and with cells of any kind. The bytes of a file end at the end of a page, and may not be written. A buffer ends at
 * the end of a page too, and only what clim.h says may be written into it.
 *
 * A file is a bare root if its name ends in .root. The first call that fails ends the program, which prints the seed. The
 * last line is 'N passed, M failed'.
 */
#define _DEFAULT_SOURCE
#include "clim.h"
#include "guarded.h"

#include <inttypes.h>
#include <pthread.h>
#include <string.h>
#include <time.h>

/* The number of files that are open at a time, of the calls of a thread on them, and of the bytes of a buffer. */
enum { FILES = 4, CALLS = 2000, ROOM = 1 << 12 };
/* What a buffer has before a call. */
enum { UNWRITTEN = 0xEE };
enum { MOST_ROWS = 256, MOST_CELLS = MOST_ROWS * 9 };

static const clim_cell NO_CELL = CLIM_NO_CELL;
static const clim_view CLOSED = CLIM_CLOSED;

/* A file that was changed, and its view, which is open if the file is valid. */
typedef struct opened {
    guarded file;
    clim_view view;
    bool bare;
} opened;

static opened files[FILES];
static uint64_t seed;
static uint64_t calls[2];

static _Thread_local uint64_t state;
static _Thread_local guarded buffer;

static void expect(bool fact, const char *text) {
    if (fact) return;
    printf("random_calls.c: not so: %s, seed %" PRIu64 "\n0 passed, 1 failed\n", text, seed);
    exit(1);
}

#define EXPECT(fact) expect(fact, #fact)

/* ---- random numbers */

static uint64_t any(void) {
    state ^= state << 13;
    state ^= state >> 7;
    state ^= state << 17;
    return state * 0x2545F4914F6CDD1D;
}

static size_t below(size_t limit) {
    return (size_t)((any() >> 8) % limit);
}

/* A number that is often one too many, or too large. */
static uint64_t odd(uint64_t near) {
    switch (below(8)) {
    case 0: return 0;
    case 1: return near;
    case 2: return near + 1;
    case 3: return near - 1;
    case 4: return UINT64_MAX >> below(64);
    case 5: return any();
    default: return near == UINT64_MAX ? near : 1 + below((size_t)near + 1);
    }
}

/* The number of a table; mostly there is one. */
static uint8_t odd_table(void) {
    return (uint8_t)(below(8) == 0 ? any() : below(0x2D));
}

/* Some bytes of a file. */
static clim_bytes part_of(guarded file) {
    size_t start = below(file.len + 1);
    return (clim_bytes){file.at + start, below(file.len - start + 1)};
}

/* ---- buffers */

/* The end of the buffer, with room for this number of bytes. */
static uint8_t *with_room(size_t room) {
    memset(buffer.at, UNWRITTEN, buffer.len);
    return buffer.at + buffer.len - room;
}

/* Whether nothing but the first bytes after `at` is written. */
static bool is_unwritten(const uint8_t *at, size_t written) {
    for (const uint8_t *it = buffer.at; it < buffer.at + buffer.len; it++) {
        if ((it < at || it >= at + written) && *it != UNWRITTEN) return false;
    }
    return true;
}

static size_t least(size_t a, size_t b) {
    return a < b ? a : b;
}

/* Whether bytes are a part of the root, or none. */
static bool is_inside(const clim_view *view, clim_bytes bytes) {
    return bytes.len == 0 || (bytes.at >= view->root.at && bytes.len <= view->root.len &&
                              bytes.at - view->root.at <= (ptrdiff_t)(view->root.len - bytes.len));
}

static bool is_cell(const clim_view *view, const clim_cell *cell) {
    return cell->kind >= CLIM_NUMBER && cell->kind <= CLIM_SIGNATURE && is_inside(view, cell->bytes);
}

/* ---- calls */

typedef void some_call(const opened *it);

static void ask_fault(const opened *it) {
    clim_bytes part = below(2) == 0 ? part_of(it->file) : (clim_bytes){it->file.at, it->file.len};
    clim_fault fault = {7, 7, 7};
    clim_view view = CLOSED;
    clim_header header = CLIM_NO_HEADER;
    bool spent = false, fits = false;
    uint64_t budget = odd(part.len);
    switch (below(9)) {
    case 0: fits = clim_check(part.at, part.len, &fault); break;
    case 1: fits = clim_check_root(part.at, part.len, &fault); break;
    case 2: fits = clim_check_within(part.at, part.len, budget, &fault, &spent); break;
    case 3: fits = clim_check_root_within(part.at, part.len, budget, &fault, &spent); break;
    case 4: fits = clim_open(part.at, part.len, &view, &fault); break;
    case 5: fits = clim_open_root(part.at, part.len, &view, &fault); break;
    case 6: fits = clim_open_within(part.at, part.len, budget, &view, &fault, &spent); break;
    case 7: fits = clim_open_root_within(part.at, part.len, budget, &view, &fault, &spent); break;
    default: fits = clim_read_header(part.at, part.len, &header, &fault); break;
    }
    bool unwritten = fault.offset == 7 && fault.code == 7 && fault.layer == 7;
    EXPECT(unwritten == (fits || spent) && (unwritten || fault.layer == fault.code / 100));
    EXPECT(!view.is_open || (fits && is_inside(&view, view.root)));
}

static void ask_parts(const opened *it) {
    clim_bytes version = CLIM_NO_BYTES, user = CLIM_NO_BYTES;
    clim_version(&it->view, &version);
    clim_user(&it->view, &user);
    EXPECT(is_inside(&it->view, version) && is_inside(&it->view, user));
}

static void ask_stream(const opened *it) {
    clim_stream_header stream = CLIM_NO_STREAM;
    size_t count = clim_stream_count(&it->view), index = (size_t)odd(count);
    EXPECT(clim_stream(&it->view, index, &stream) == (index < count) && is_inside(&it->view, stream.name));
}

static void ask_user_string(const opened *it) {
    size_t room = below(ROOM / 2), count = 7;
    uint16_t flag = 7, *units = (uint16_t *)(void *)with_room(2 * room);
    uint32_t token = (uint32_t)(below(8) == 0 ? any() : 0x70000000 | odd(it->view.root.len));
    bool found = clim_user_string(&it->view, token, units, room, &count, &flag);
    EXPECT(is_unwritten((uint8_t *)units, found ? 2 * least(room, count) : 0));
    EXPECT(found ? flag <= CLIM_NO_FLAG : count == 7 && flag == 7);
}

static void ask_names(const opened *it) {
    clim_bytes name = CLIM_NO_BYTES;
    size_t room = below(ROOM);
    uint8_t *text = with_room(room), guid[16] = {(uint8_t)any()};
    uint16_t code = (uint16_t)odd(below(10) * 100 + below(12));
    EXPECT(is_unwritten(text, least(room, clim_explain(code, text, room))));
    text = with_room(room);
    EXPECT(clim_guid_text(guid, text, room) == 38 && is_unwritten(text, least(room, 38)));
    clim_fault_name(code, &name);
    clim_table_name(odd_table(), &name);
    clim_column_name(odd_table(), (size_t)odd(9), &name);
    EXPECT(name.len < 64 && clim_count(&it->view, odd_table()) <= 0xFFFFFF);
}

static void ask_cell(const opened *it) {
    uint8_t table = odd_table();
    uint32_t rows = clim_count(&it->view, table), row = (uint32_t)odd(rows);
    size_t columns = clim_cell_count(table), column = (size_t)odd(columns);
    clim_cell cell = NO_CELL;
    bool there = it->view.is_open && row >= 1 && row <= rows && column < columns;
    EXPECT(clim_cell_at(&it->view, table, row, column, &cell) == there);
    EXPECT(there ? is_cell(&it->view, &cell) : cell.kind == CLIM_NO_KIND);
}

static void ask_cells(const opened *it) {
    uint8_t table = odd_table();
    uint32_t rows = clim_count(&it->view, table), first = (uint32_t)odd(rows);
    size_t columns = clim_cell_count(table), column = (size_t)odd(columns), room = below(ROOM / sizeof(clim_cell));
    uint8_t *at = with_room(room * sizeof(clim_cell));
    clim_cell *cells = (clim_cell *)(void *)at;
    for (size_t i = 0; i < room; i++) cells[i] = NO_CELL;
    size_t count = clim_cells(&it->view, table, first, column, cells, room);
    bool there = first >= 1 && first <= rows && column < columns;
    EXPECT(count == (there ? least(room, rows - first + 1) : 0) && is_unwritten(at, room * sizeof(clim_cell)));
    for (size_t i = 0; i < room; i++) {
        EXPECT(i < count ? is_cell(&it->view, &cells[i]) : cells[i].kind == CLIM_NO_KIND);
    }
}

static void ask_signature(const opened *it) {
    uint8_t table = odd_table();
    size_t room = below(ROOM), column = (size_t)odd(clim_cell_count(table));
    uint8_t *text = with_room(room);
    size_t len = clim_signature_text(&it->view, table, (uint32_t)odd(clim_count(&it->view, table)), column, text, room);
    EXPECT((len <= 65536 || len == CLIM_TOO_LONG) && is_unwritten(text, least(room, len)));
}

static void ask_row_text(const opened *it) {
    uint8_t table = odd_table();
    uint32_t token = (uint32_t)(below(8) == 0 ? any() : (uint32_t)table << 24 | (odd(clim_count(&it->view, table)) & 0xFFFFFF));
    size_t room = below(ROOM);
    uint8_t *text = with_room(room);
    size_t len = clim_row_name(&it->view, token, text, room);
    EXPECT((len <= 65536 || len == CLIM_TOO_LONG) && is_unwritten(text, least(room, len)));
    text = with_room(room);
    size_t text_len = clim_declaration(&it->view, token, text, room);
    EXPECT((text_len <= 65536 || text_len == CLIM_TOO_LONG) && is_unwritten(text, least(room, text_len)));
    EXPECT(len > 0 || text_len == 0);
}

static void ask_offset(const opened *it) {
    clim_bytes part = below(2) == 0 ? part_of(it->file) : (clim_bytes){it->file.at, it->file.len};
    size_t offset = SIZE_MAX;
    uint32_t size = (uint32_t)odd(part.len);
    bool found = clim_offset_of(part.at, part.len, (uint32_t)odd(below(2) == 0 ? 0x2000 : part.len), size, &offset);
    EXPECT(found ? offset <= part.len && size <= part.len - offset : offset == SIZE_MAX);
}

static void ask_rows(const opened *it) {
    uint8_t table = odd_table(), other = odd_table();
    uint32_t first = 7, past = 7, row = (uint32_t)odd(clim_count(&it->view, table));
    bool found = clim_members(&it->view, table, row, other, &first, &past);
    EXPECT(found ? first >= 1 && first <= past && past <= clim_count(&it->view, other) + 1 : first == 7 && past == 7);
    size_t room = below(ROOM / 4);
    uint8_t *rows = with_room(4 * room);
    size_t count = clim_rows_by_key(&it->view, other, table, row, (uint32_t *)(void *)rows, room);
    EXPECT(count <= room && is_unwritten(rows, 4 * count));
    clim_bytes space = part_of(it->file), name = part_of(it->file);
    EXPECT(clim_find_type(&it->view, space.at, space.len, name.at, name.len) <= clim_count(&it->view, CLIM_TYPE_DEF));
}

static void ask_attribute(const opened *it) {
    uint32_t rows = clim_count(&it->view, CLIM_CUSTOM_ATTRIBUTE), row = (uint32_t)odd(rows);
    size_t room = below(ROOM / sizeof(clim_attribute_item));
    uint8_t *at = with_room(room * sizeof(clim_attribute_item));
    clim_attribute_item *items = (clim_attribute_item *)(void *)at;
    for (size_t i = 0; i < room; i++) items[i] = (clim_attribute_item)CLIM_NO_ITEM;
    size_t count = clim_attribute_items(&it->view, row, items, room);
    EXPECT((count > 0) == (row >= 1 && row <= rows) && (count <= it->view.root.len || count == CLIM_NOT_DECODED));
    EXPECT(is_unwritten(at, room * sizeof(clim_attribute_item)));
    for (size_t i = 0; i < room; i++) EXPECT((items[i].kind != CLIM_NO_ITEM_KIND) == (count != CLIM_NOT_DECODED && i < count));
}

static void ask_where(const opened *it) {
    clim_location location = {7, 7, 7, 7, 7};
    size_t offset = (size_t)odd(it->view.root.len);
    bool found = clim_where(&it->view, offset, &location);
    EXPECT(found ? location.offset <= offset && offset - location.offset < location.size : location.offset == 7);
}

/* ---- calls that allocate */

static bool is_root(const uint8_t *at, size_t len) {
    clim_view view = CLOSED;
    clim_fault fault = CLIM_NO_FAULT;
    return clim_open_root(at, len, &view, &fault);
}

/* A root is written as a whole, or not at all. */
static void expect_root(const uint8_t *at, size_t room, size_t len) {
    bool whole = len > 0 && len <= room;
    EXPECT(is_unwritten(at, whole ? len : 0) && (!whole || is_root(at, len)));
}

static void ask_root(const opened *it) {
    size_t room = below(ROOM);
    uint8_t *root = with_room(room), digest[32] = {0};
    size_t len = clim_canonical_root(&it->view, root, room);
    expect_root(root, room, len);
    EXPECT((len > 0) == it->view.is_open && clim_digest(&it->view, digest) == len);
}

static void ask_compare(const opened *it) {
    const opened *other = &files[below(FILES)];
    clim_difference difference = {7, 7, 7, 7, 7, 7};
    size_t result = clim_compare(&it->view, &other->view, &difference);
    EXPECT(result == (!it->view.is_open || !other->view.is_open ? 0 : difference.kind == 7 ? CLIM_EQUAL : CLIM_DIFFERENT));
}

static void spoil(clim_cell *cell, const opened *it) {
    switch (below(4)) {
    case 0: cell->kind = (uint8_t)(below(4) == 0 ? any() : below(11)); break;
    case 1: cell->number = (uint32_t)odd(cell->number); break;
    case 2: cell->table = odd_table(); break;
    default: cell->bytes = part_of(it->file); break;
    }
}

/* Some of the first rows of each table of a view; some cells are changed. Returns their number. */
static size_t some_rows(const opened *it, clim_row *rows, clim_cell *cells) {
    size_t count = 0, share = below(200) + 1;
    for (uint8_t table = 0; table < 0x2D; table++) {
        size_t columns = clim_cell_count(table);
        uint32_t its = (uint32_t)least(clim_count(&it->view, table), below(6));
        for (uint32_t row = 1; row <= its && count < MOST_ROWS; row++, cells += columns) {
            for (size_t column = 0; column < columns; column++) {
                cells[column] = NO_CELL;
                clim_cell_at(&it->view, table, row, column, &cells[column]);
                if (below(share) == 0) spoil(&cells[column], it);
            }
            rows[count++] = (clim_row){cells, below(share) == 0 ? below(columns + 1) : columns,
                                       below(share) == 0 ? odd_table() : table};
        }
    }
    return count;
}

static void ask_tables(const opened *it) {
    static _Thread_local clim_row rows[MOST_ROWS];
    static _Thread_local clim_cell cells[MOST_CELLS];
    size_t count = some_rows(it, rows, cells), room = below(ROOM);
    clim_bytes version = CLIM_NO_BYTES, user = CLIM_NO_BYTES;
    if (below(8) == 0) version = part_of(it->file);
    else clim_version(&it->view, &version);
    if (below(8) == 0) user = part_of(it->file);
    clim_refusal refusal = {7, 7, 7, 7};
    uint8_t *root = with_room(room);
    size_t len = clim_tables(version.at, version.len, user.at, user.len, rows, count, root, room, &refusal);
    expect_root(root, room, len);
    EXPECT((len == 0) == (refusal.code != 7));
}

/* A copy of a file, with a root of another one or with its own. It is written as a whole or not at all, and opens. */
static void ask_embed(const opened *it) {
    clim_bytes root = CLIM_NO_BYTES;
    const opened *other = &files[below(FILES)];
    if (below(3) > 0) root = other->view.is_open ? other->view.root : part_of(other->file);
    uint8_t strong_name = (uint8_t)(below(8) == 0 ? any() : 1 + below(2));
    bool known = strong_name == CLIM_KEEP_STRONG_NAME || strong_name == CLIM_CLEAR_STRONG_NAME;
    size_t room = below(ROOM);
    uint8_t *copy = with_room(room);
    clim_fault fault = {7, 7, 7}, none = CLIM_NO_FAULT;
    clim_view view = CLOSED;
    size_t len = clim_embed(it->file.at, it->file.len, root.at, root.len, strong_name, copy, room, &fault);
    bool whole = len > 0 && len <= room;
    EXPECT((len == 0) == !known && (len <= 1 << 30 || len >= CLIM_NO_ROOM));
    EXPECT(is_unwritten(copy, whole ? len : 0) && (!whole || clim_open(copy, len, &view, &none)));
    EXPECT((len == CLIM_BAD_FILE || len == CLIM_BAD_ROOT) == (fault.code != 7));
    EXPECT(!known || (len == CLIM_BAD_FILE) == !clim_check(it->file.at, it->file.len, &none));
}

/* ---- threads */

static void *call_some(void *which) {
    static some_call *const often[] = {ask_fault, ask_parts, ask_stream, ask_user_string, ask_names, ask_cell,
                                       ask_cells, ask_signature, ask_rows, ask_where, ask_row_text, ask_offset, ask_attribute};
    static some_call *const seldom[] = {ask_root, ask_compare, ask_tables, ask_embed};
    size_t thread = (size_t)which;
    state = (seed + 1) * 0x9E3779B97F4A7C15 + thread + 1;
    buffer = guard(ROOM);
    for (size_t i = 0; i < CALLS; i++) {
        const opened *it = &files[below(FILES)];
        if (below(10) == 0) seldom[below(sizeof seldom / sizeof *seldom)](it);
        else often[below(sizeof often / sizeof *often)](it);
        calls[thread]++;
    }
    munmap(buffer.pages, buffer.room);
    return NULL;
}

/* Changes some bytes, or none. */
static void change(guarded file) {
    for (size_t count = below(4); count > 0 && file.len > 0; count--) {
        file.at[below(file.len)] = (uint8_t)(below(2) == 0 ? any() : odd(1));
    }
}

static void open_file(opened *it, const char *path) {
    size_t len = strlen(path);
    clim_fault fault = CLIM_NO_FAULT;
    *it = (opened){read_file(path), CLOSED, len > 5 && strcmp(path + len - 5, ".root") == 0};
    change(it->file);
    if (mprotect(it->file.pages, it->file.room - (size_t)sysconf(_SC_PAGESIZE), PROT_READ) != 0) stop("no protection");
    if (it->bare) clim_open_root(it->file.at, it->file.len, &it->view, &fault);
    else clim_open(it->file.at, it->file.len, &it->view, &fault);
}

/* Opens files, and lets two threads call functions on them. */
static unsigned run(char **paths, size_t count) {
    pthread_t threads[2];
    unsigned valid = 0;
    state = (seed + 1) * 0x9E3779B97F4A7C15;
    for (size_t i = 0; i < FILES; i++) {
        open_file(&files[i], paths[below(count)]);
        valid += files[i].view.is_open;
    }
    for (size_t i = 0; i < 2; i++) {
        if (pthread_create(&threads[i], NULL, call_some, (void *)i) != 0) stop("no thread");
    }
    for (size_t i = 0; i < 2; i++) pthread_join(threads[i], NULL);
    for (size_t i = 0; i < FILES; i++) munmap(files[i].file.pages, files[i].file.room);
    return valid;
}

int main(int count, char **words) {
    if (count < 4) stop("random_calls SECONDS SEED FILE..");
    struct timespec begun, now;
    clock_gettime(CLOCK_MONOTONIC, &begun);
    unsigned valid = 0, rounds = 0;
    seed = strtoull(words[2], NULL, 10);
    do {
        valid += run(words + 3, (size_t)count - 3);
        rounds++;
        seed++;
        clock_gettime(CLOCK_MONOTONIC, &now);
    } while ((double)(now.tv_sec - begun.tv_sec) + (double)(now.tv_nsec - begun.tv_nsec) * 1e-9 < strtod(words[1], NULL));
    printf("%" PRIu64 " random calls on %u files, of which %u are valid\n", calls[0] + calls[1], rounds * FILES, valid);
    puts("1 passed, 0 failed");
    return 0;
}
